"""Fixed sheets for a gate: plants of every shape in both editions, whole and damaged."""

from random import Random

from plant import SECOND, Literal, Plant, Refusal, encode, fields, pack, read_either
from shapes import WEIGHT_KINDS, random_sizes, shaped, small_random_plant, weighed

LIMIT_MOST = 4_294_967_295
SMALL_PLANT = Plant(
    ((0, 3), (0, 3)),
    (2,),
    (
        (Literal(0, 1, 0), Literal(1, 1, 0), Literal(2, 0, 1)),
        (Literal(2, 0, 0),),
    ),
)
SMALL_PLANT_EMPTY_CLAUSE = Plant(
    SMALL_PLANT.costs, SMALL_PLANT.state_sizes, SMALL_PLANT.clauses + ((),)
)
# In edition 2, with weights that rank its states as their costs do.
SMALL_WEIGHED = Plant(
    ((3, 1), (3, 1)), SMALL_PLANT.state_sizes, SMALL_PLANT.clauses, SECOND
)


def fnv(data):
    checksum = 2166136261
    for byte in data:
        checksum = (checksum ^ byte) * 16777619 & 0xFFFFFFFF
    return f"{checksum:08x}"


def longest_plant(rng):
    return shaped(rng, [16] * 48, 16, [15] * 512, "wide")


def longest_weighed(rng):
    return weighed(rng, shaped(rng, [16] * 40, 8, [15] * 512, "zero"), "wide")


def shape_plants(rng):
    """Whole sheets over many shapes, the borders of every field included."""
    plants = [SMALL_PLANT, SMALL_PLANT_EMPTY_CLAUSE, longest_plant(rng)]
    for decisions in (1, 2, 15, 16):
        for states in (0, 1, 31, 32):
            for clauses in (0, 1, 7):
                sizes = random_sizes(rng, decisions + states, rng.choice([1, 2, 16]))
                lengths = [rng.randint(0, 15) for _ in range(clauses)]
                kind = rng.choice(["zero", "wide", "top"])
                plants.append(shaped(rng, sizes, decisions, lengths, kind))
    plants.append(shaped(rng, [1], 1, [0] * 512, "zero"))
    plants.append(shaped(rng, [1] * 48, 16, [15] * 511, "top"))
    plants.append(shaped(rng, [2, 3, 2], 2, [1] * 512, "small"))
    plants.append(shaped(rng, [16] * 48, 16, [0, 15] * 20, "wide"))
    plants.append(Plant(((1, 2),), (), ((Literal(0, 0, 1),) * 15,)))
    plants.extend(small_random_plant(rng) for _ in range(40))
    return plants


def with_field(plant, name, number, pick=0):
    """The sheet with one field of that name given another number."""
    listed = fields(plant)
    places = [p for p, field in enumerate(listed) if field[0] == name]
    place = places[pick % len(places)]
    listed[place] = (name, listed[place][1], number)
    return pack(listed)


def header_damage(plant):
    own, most = plant.edition.number, plant.edition.decisions_most
    sheets = [with_field(plant, "edition", n) for n in (0, 3 - own, 3, 128, 128 + own, 255)]
    sheets += [with_field(plant, "D", n) for n in (0, most + 1, most + 2, 30, 31)]
    sheets += [with_field(plant, "S", n) for n in (33, 34, 48, 63)]
    sheets += [with_field(plant, "C", n) for n in (513, 514, 768, 1023)]
    # One too few or too many shifts every later field.
    sheets += [with_field(plant, "D", n) for n in (1, 3, most)]
    sheets += [with_field(plant, "S", n) for n in (0, 2, 32)]
    sheets += [with_field(plant, "C", n) for n in (0, 1, 3, 512)]
    return sheets


def literal_damage(plant):
    """Refusals 10 and 11 at each literal, at and beyond the border."""
    literals = [literal for clause in plant.clauses for literal in clause]
    sheets = []
    for place, literal in enumerate(literals):
        size = plant.sizes[literal.variable]
        for number in (len(plant.sizes), 63):
            sheets.append(with_field(plant, "variable", number, place))
        for number in (size, 15):
            sheets.append(with_field(plant, "value", number, place))
    return sheets


def weight_damage(plant):
    """Refusal 20 at each weight: the whole sheet, cut right behind it, and cut inside
    it, which is 5."""
    sheets = []
    listed = fields(plant)
    places = [place for place, field in enumerate(listed) if field[0] == "weight"]
    for pick, place in enumerate(places):
        sheet = with_field(plant, "weight", 0, pick)
        end = sum(width for _, width, _ in listed[: place + 1])
        sheets += [sheet, sheet[: (end + 7) // 8], sheet[: (end - 1) // 8]]
    return sheets


def filler_bits(plant):
    return -sum(width for _, width, _ in fields(plant)) % 8


def end_damage(plant):
    """Filler bits set one by one, bytes appended, both, and a byte missing."""
    sheet = encode(plant)
    filler = filler_bits(plant)
    sheets = [sheet[:-1] + bytes([sheet[-1] | 1 << bit]) for bit in range(filler)]
    sheets += [spoilt + b"\0" for spoilt in sheets]
    sheets += [sheet + b"\0", sheet + b"\1", sheet + b"\0" * 44, sheet[:-1]]
    return sheets


def with_fields(plant, **numbers):
    """The sheet with the first field of each of these names given another number."""
    own = fields(plant)
    for name, number in numbers.items():
        place = next(p for p, field in enumerate(own) if field[0] == name)
        own[place] = (name, own[place][1], number)
    return pack(own)


def double_faults():
    def changed(**numbers):
        return with_fields(SMALL_PLANT, **numbers)

    return [
        changed(edition=2, D=0),
        changed(edition=2, D=0)[:1],
        changed(D=17, S=33),
        changed(D=0, C=1023)[:2],
        changed(S=63, C=600),
        changed(S=63, C=600)[:3],
        changed(S=40)[:2],
        changed(C=700)[:3],
        changed(C=700, variable=9)[:4],
        changed(variable=3, value=2),
        changed(variable=3, value=2)[:15],
        changed(variable=3, value=2)[:16],
        changed(value=9)[:15] + b"\xff",
        changed(variable=63) + b"\0",
        changed(value=2) + b"\xff\xff",
        changed(edition=0)[:0],
        changed(edition=0) + b"\0",
    ]


def filler_plants():
    """One plant with literals for each number of filler bits, 0 to 7."""
    found = {}
    for decisions in range(1, 5):
        for states in range(3):
            for literals in range(1, 9):
                clauses = ((Literal(0, 0, 0),) * literals,)
                plant = Plant(((7,),) * decisions, (1,) * states, clauses)
                found.setdefault(filler_bits(plant), plant)
    return [found[filler] for filler in sorted(found)]


def cut_literals():
    """The sheet ends 6 to 10 bits into its last literal, whose variable is present, and then absent."""
    for plant in filler_plants():
        if 3 <= filler_bits(plant):
            yield encode(plant)[:-1], with_field(plant, "variable", 63, -1)[:-1]


def weighed_plants(rng):
    """Whole sheets of edition 2, the borders of its fields included."""
    plants = [SMALL_WEIGHED, longest_weighed(rng)]
    for decisions in (1, 2, 7, 8):
        for states in (0, 1, 32):
            sizes = random_sizes(rng, decisions + states, rng.choice([1, 2, 16]))
            lengths = [rng.randint(0, 15) for _ in range(rng.choice([0, 1, 7]))]
            plants.append(weighed(rng, shaped(rng, sizes, decisions, lengths, "zero")))
    for kind in WEIGHT_KINDS:
        plants += [weighed(rng, small_random_plant(rng), kind) for _ in range(2)]
    for weight in (1, 127, 128, 255):
        plants.append(Plant(((weight,),) * 8, (), (), SECOND))
    return plants


def weighed_double_faults():
    """With a weight of zero what is read before it, and what would be read after it;
    and other faults of either edition's sheet taken for the other's."""

    def changed(**numbers):
        return with_fields(SMALL_WEIGHED, weight=0, **numbers)

    small, weighed_small = encode(SMALL_PLANT), encode(SMALL_WEIGHED)
    return [
        *(changed(edition=n) for n in (0, 1, 3, 255)),
        *(changed(D=n) for n in (0, 9, 16, 17)),
        changed(S=33),
        changed(C=513),
        changed(variable=3, value=2),
        changed(variable=63) + b"\0",
        changed()[:-1] + b"\xff",
        changed() + b"\0",
        changed(edition=3)[:1],
        changed(edition=3, D=0)[:1],
        changed(D=9)[:1],
        changed(D=9)[:2],
        with_fields(SMALL_WEIGHED, edition=3, D=9),
        with_fields(SMALL_WEIGHED, D=9, S=33),
        b"\2" + small[1:],
        b"\1" + weighed_small[1:],
        b"\2",
        b"\2\x10",
        b"\2\x40\0\0",
        b"\2\x48\0\0",
    ]


def weighed_cases():
    """Sheets of edition 2, and those that are damaged."""
    rng = Random(909)
    plants = weighed_plants(rng)
    whole = [encode(plant) for plant in plants]
    small, longest = whole[:2]
    cases = whole + header_damage(SMALL_WEIGHED) + literal_damage(SMALL_WEIGHED)[:8]
    cases += [with_field(SMALL_WEIGHED, "D", n) for n in (16, 17)]
    cases += weight_damage(SMALL_WEIGHED) + weight_damage(plants[6])[-6:]
    cases += [small[:length] for length in range(len(small))]
    cases += weighed_double_faults() + end_damage(SMALL_WEIGHED)
    cases += [longest[:-1], longest + b"\0", with_field(plants[1], "weight", 0, -1)]
    cases += [flipped(rng, rng.choice(whole[:1] + whole[14:])) for _ in range(20)]
    return cases + [b"\2" + rng.randbytes(rng.randint(1, 60)) for _ in range(6)]


def flipped(rng, sheet):
    place = rng.randrange(8 * len(sheet))
    spoilt = bytearray(sheet)
    spoilt[place // 8] ^= 128 >> place % 8
    return bytes(spoilt)


def sheet_cases():
    rng = Random(101)
    plants = shape_plants(rng)
    whole = [encode(plant) for plant in plants]
    longest = encode(plants[2])
    small = encode(SMALL_PLANT)
    cases = whole + header_damage(SMALL_PLANT) + literal_damage(SMALL_PLANT)
    cases += [small[:length] for length in range(len(small))]
    cases += double_faults()
    for plant in filler_plants():
        cases.append(encode(plant))
        cases += end_damage(plant)[::2]
    cases += end_damage(SMALL_PLANT) + end_damage(plants[2])
    cases += [sheet for pair in cut_literals() for sheet in pair]
    cases += [longest[:11000], longest[:2000]]
    cases += [flipped(rng, rng.choice(whole[:2] + whole[60:])) for _ in range(40)]
    cases += [rng.randbytes(rng.randint(1, 60)) for _ in range(4)]
    cases += [b"\1" + rng.randbytes(rng.randint(1, 60)) for _ in range(8)]
    return cases + weighed_cases()


def sheet_line(sheet):
    """A sheet is read by the edition that its first byte says."""
    try:
        plant = read_either(sheet)
    except Refusal as refusal:
        return f"refused {refusal.number}"
    table = bytearray(plant.sizes)
    for costs in plant.costs:
        for cost in costs:
            table += cost.to_bytes(2, "big")
    table += bytes(len(clause) for clause in plant.clauses)
    for clause in plant.clauses:
        for literal in clause:
            table += bytes(literal)
    counts = f"{plant.decisions} {len(plant.state_sizes)} {len(plant.clauses)}"
    return f"{counts} {fnv(table)}"


def sheet_bytes(sheet):
    return len(sheet).to_bytes(2, "big") + sheet
