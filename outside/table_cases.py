"""Fixed tables to be written as sheets, for a gate: right ones, each refusal alone,
two at once, borders, and tables changed at random."""

from itertools import combinations
from random import Random
from typing import NamedTuple

from plant import Literal, Plant, Refusal
from shapes import shaped, small_random_plant
from sheet_cases import LIMIT_MOST, SMALL_PLANT, filler_plants, fnv, shape_plants
from tables import LITERAL_BYTES, Tables, read_tables, sheet_length, tables_of, write_into

HOST = {16, 18}  # refusals that the host caused; the others are the author's
JUNK = 0xA5  # every byte of the tables that are lent to a reading
LENT = (48, 256, 512, 23_040)  # their entries: sizes, costs, counts, literals


class Writing(NamedTuple):
    """Tables to be written into a buffer of so many bytes, which hold `fill` before."""

    tables: Tables
    room: int
    fill: int = 0xFF


def exact(tables, more=0):
    """A buffer as long as the sheet, or by so much longer."""
    return Writing(tables, sheet_length(tables) + more)


def ample(tables):
    """A buffer that no sheet is too long for."""
    return Writing(tables, 12_000)


def changed(data, place, number):
    """The table with one entry replaced."""
    other = list(data)
    other[place] = number
    return type(data)(other)


# ---- right tables ----------------------------------------------------------


def room_writings(tables):
    """No room, too little by one, just enough, and more."""
    length = sheet_length(tables)
    return [Writing(tables, room) for room in (0, 1, length - 1, length, length + 1, 2 * length)]


def fill_writings(plants):
    """Each number of filler bits over all ones, zeros, and both."""
    writings = [exact(tables_of(plant), 3) for plant in plants]
    return [writing._replace(fill=fill) for writing in writings for fill in (0, 0x5A, 0xFF)]


def right_writings(rng):
    writings = []
    for plant in shape_plants(rng):
        more = rng.choice([0, 0, 1, 2, 7, 300])
        writings.append(exact(tables_of(plant), more)._replace(fill=rng.choice([0, JUNK, 0xFF])))
    longest = writings[2].tables
    writings += [exact(longest, more) for more in (-1, 1)] + [Writing(longest, 65_535)]
    writings += room_writings(tables_of(SMALL_PLANT)) + fill_writings(filler_plants())
    return writings + room_writings(Tables(1, 0, 0, b"\1", (65_535,), b"", b""))


# ---- each refusal ----------------------------------------------------------


def length_refusals():
    """16: a table too long or too short, or another number."""
    small = tables_of(SMALL_PLANT)
    tables = []
    for name in ("sizes", "costs", "counts", "literals"):
        own = getattr(small, name)
        for other in (own[:0], own[:-1], own + own[:1], own + own):
            tables.append(small._replace(**{name: other}))
    for name in ("decisions", "states", "clauses"):
        own = getattr(small, name)
        for number in (own - 1, own + 1, own + 256, own + 65_536, LIMIT_MOST):
            tables.append(small._replace(**{name: number}))
    tables += [small._replace(literals=small.literals[:length]) for length in (10, 11)]
    # As many sizes as the numbers say, and not as many costs.
    tables += [small._replace(decisions=d, states=3 - d) for d in (0, 1, 3)]
    # Only one length disagrees, by 1 and by 256.
    for more in (1, 256):
        tables.append(small._replace(sizes=small.sizes + bytes([2]) * more))
        tables.append(small._replace(costs=small.costs + (0,) * more))
        tables.append(small._replace(counts=small.counts + bytes(more)))
        tables.append(small._replace(literals=small.literals + bytes(3 * more)))
    return tables + wrapping_lengths(small)


def wrapping_lengths(small):
    """16: numbers that agree only where a sum wraps at 8, 16 or 32 bits."""
    tables = [small._replace(decisions=LIMIT_MOST, states=4)]
    tables += [small._replace(decisions=4, states=LIMIT_MOST)]
    tables += [small._replace(decisions=LIMIT_MOST - 2, states=6, costs=())]
    tables += [Tables(LIMIT_MOST, 1, 0, b"", (), b"", b"")]
    tables += [Tables(LIMIT_MOST, LIMIT_MOST, LIMIT_MOST, b"", (), b"", b"")]
    tables += [Tables(16, 0, 0, bytes([16]) * 16, (7,) * n, b"", b"") for n in (0, 255, 257)]
    tables += [Tables(1, 0, 18, b"\2", (0, 1), bytes([15]) * 18, bytes(3 * n)) for n in (14, 269)]
    return tables + [Tables(1, 0, 86, b"\2", (0, 1), bytes([255]) * 86, bytes(254))]


def entry_refusals():
    """17: a size, a count or a sign, at each place of its table."""
    small = tables_of(SMALL_PLANT)
    tables = []
    for size in (0, 17, 32, 255):
        for place in range(3):
            sizes = changed(small.sizes, place, size)
            costs = tuple(range(sum(sizes[:2])))
            tables.append(small._replace(sizes=sizes, costs=costs))
    for count in (16, 17, 255):
        for place in range(2):
            counts = changed(small.counts, place, count)
            tables.append(small._replace(counts=counts, literals=bytes(3 * sum(counts))))
    for sign in (2, 3, 128, 255):
        for place in range(1, len(small.literals), LITERAL_BYTES):
            tables.append(small._replace(literals=changed(small.literals, place, sign)))
    return tables


def with_numbers(decisions, states, clauses):
    """Tables of so many variables, two values each, and so many empty clauses."""
    sizes, costs = bytes([2]) * (decisions + states), (1, 2) * decisions
    return Tables(decisions, states, clauses, sizes, costs, bytes(clauses), b"")


def number_refusals():
    """7, 8 and 9: just beyond, and where a field of 5, 6 or 10 bits wraps."""
    tables = [with_numbers(d, 1, 1) for d in (0, 17, 31, 32, 33, 255, 256, 257)]
    tables += [with_numbers(2, s, 1) for s in (33, 63, 64, 65, 256, 300)]
    tables += [with_numbers(2, 1, c) for c in (513, 1023, 1024, 1025)]
    return tables + [with_numbers(0, 0, 0)]


def literal_refusals():
    """10 and 11 at each literal, just beyond and where a field wraps."""
    small = tables_of(SMALL_PLANT)
    tables = []
    for place in range(0, len(small.literals), LITERAL_BYTES):
        for variable in (3, 63, 64, 255):
            tables.append(small._replace(literals=changed(small.literals, place, variable)))
        for value in (2, 15, 16, 17, 255):
            tables.append(small._replace(literals=changed(small.literals, place + 2, value)))
    return tables


def own_size_plant():
    """Each variable has a size of its own, and a literal at its last value."""
    sizes = (1, 16, 2, 15, 3)
    costs = tuple(tuple(range(size)) for size in sizes[:3])
    literals = tuple(Literal(v, v % 2, size - 1) for v, size in enumerate(sizes))
    return Plant(costs, sizes[3:], (literals,))


def own_size_writings():
    """11 is decided by the literal's own variable."""
    tables = tables_of(own_size_plant())
    writings = [exact(tables)]
    for variable, size in enumerate(tables.sizes):
        place = LITERAL_BYTES * variable + 2
        writings.append(exact(tables._replace(literals=changed(tables.literals, place, size))))
    return writings


# ---- two at once -----------------------------------------------------------


def spoil_lengths(tables):
    return tables._replace(costs=tables.costs[:-1])


def spoil_sign(tables):
    return tables._replace(literals=changed(tables.literals, -2, 2))


def spoil_decisions(tables):
    sizes, costs = bytes([2]) * 15 + tables.sizes, (9,) * 30 + tables.costs
    return tables._replace(decisions=17, sizes=sizes, costs=costs)


def spoil_states(tables):
    return tables._replace(states=33, sizes=tables.sizes + bytes([2]) * 32)


def spoil_clauses(tables):
    return tables._replace(clauses=513, counts=tables.counts + bytes(511))


def spoil_variable(tables):
    return tables._replace(literals=changed(tables.literals, 3, 200))


def spoil_value(tables):
    return tables._replace(literals=changed(tables.literals, 8, 2))


SPOILERS = {
    16: spoil_lengths,
    17: spoil_sign,
    7: spoil_decisions,
    8: spoil_states,
    9: spoil_clauses,
    10: spoil_variable,
    11: spoil_value,
    18: None,  # no room
}


def spoilt(numbers):
    """The small plant's tables with all of these grounds."""
    tables = tables_of(SMALL_PLANT)
    for number in numbers:
        if number != 18:
            tables = SPOILERS[number](tables)
    return Writing(tables, 0 if 18 in numbers else 12_000)


def many_grounds():
    """Each ground with each other, and all of them from each on."""
    order = list(SPOILERS)
    writings = [spoilt(numbers) for numbers in combinations(order, 2)]
    return writings + [spoilt(order[first:]) for first in range(len(order))]


def literal_order():
    """Of two literals the first decides, of one its variable."""
    small = tables_of(SMALL_PLANT)
    tables = []
    for first, second in ((3, 6), (6, 3), (6, 6), (3, 9), (9, 3)):
        absent = changed(small.literals, first, 3)
        tables.append(small._replace(literals=changed(absent, second + 2, 2)))
    return tables


# ---- changed at random -----------------------------------------------------


def any_entry(rng):
    return rng.choice([0, 1, 2, 15, 16, 17, rng.randrange(20), rng.randrange(256), 255])


def other_entry(rng, tables):
    """A byte of a table changed, where it has one; the lengths may still agree."""
    name = rng.choice(["sizes", "counts", "literals"])
    data = getattr(tables, name)
    if not data:
        return tables
    return tables._replace(**{name: changed(data, rng.randrange(len(data)), any_entry(rng))})


def other_number(rng, tables):
    name = rng.choice(["decisions", "states", "clauses"])
    near = (getattr(tables, name) + rng.choice([-1, 1])) % 2**32
    other = [near, near, rng.randrange(20), rng.randrange(600), rng.getrandbits(32)]
    return tables._replace(**{name: rng.choice(other)})


def other_length(rng, tables):
    name = rng.choice(["sizes", "costs", "counts", "literals"])
    data = getattr(tables, name)
    cut = rng.randrange(len(data) + 1)
    return tables._replace(**{name: rng.choice([data[:cut], data[:-1], data + data[:cut]])})


def stretched(data, length):
    """The table cut or repeated to this length."""
    own = data or type(data)([1])
    return (own * (length // len(own) + 1))[:length]


def mended(tables):
    """Tables whose lengths agree; of a number that is too large for it, a smaller one."""
    decisions, states, clauses = (min(number, 600) for number in tables[:3])
    sizes = stretched(tables.sizes, decisions + states)
    counts = stretched(tables.counts, clauses)
    costs = stretched(tables.costs, sum(sizes[:decisions]))
    literals = stretched(tables.literals, LITERAL_BYTES * sum(counts))
    return Tables(decisions, states, clauses, sizes, costs, counts, literals)


def damaged_tables(rng, tables):
    """Changed in one to three places; often so that the lengths agree again."""
    for _ in range(rng.choice([1, 1, 2, 3])):
        kinds = [other_entry, other_entry, other_entry, other_number, other_length]
        tables = rng.choice(kinds)(rng, tables)
    return mended(tables) if rng.random() < 0.7 else tables


def any_room(rng, tables):
    """Just as long as the sheet would be, near it, or any."""
    length = sheet_length(mended(tables))
    near = [length, length, length + 1, max(length - 1, 0), rng.randrange(length)]
    return rng.choice(near + [length + rng.randrange(40), rng.randrange(13_000)])


def random_writings(rng):
    writings = []
    for place in range(120):
        tables = tables_of(small_random_plant(rng))
        if place % 8 == 0:
            tables = tables_of(shaped(rng, [16] * 18, 16, [15, 0, 3], "wide"))
        if place % 2:
            tables = damaged_tables(rng, tables)
        writings.append(Writing(tables, any_room(rng, tables), rng.randrange(256)))
    return writings


# ---- the stream ------------------------------------------------------------


def table_cases():
    rng = Random(404)
    cases = right_writings(rng) + own_size_writings()
    cases += map(ample, length_refusals() + entry_refusals() + number_refusals())
    cases += map(ample, literal_refusals() + literal_order())
    return cases + many_grounds() + random_writings(rng)


def costs_bytes(costs):
    return b"".join(cost.to_bytes(2, "big") for cost in costs)


def lent_checksum(tables):
    """Of the tables lent to a reading, once they begin with these."""
    own = tables.sizes, costs_bytes(tables.costs), tables.counts, tables.literals
    rooms = LENT[0], 2 * LENT[1], LENT[2], LENT[3]
    return fnv(b"".join(data.ljust(room, bytes([JUNK])) for data, room in zip(own, rooms)))


def writing_line(writing):
    buffer = bytearray([writing.fill]) * writing.room
    try:
        written = write_into(writing.tables, buffer)
    except Refusal as refusal:
        whose = "host" if refusal.number in HOST else "author"
        return f"refused {refusal.number} {whose} {fnv(buffer)}"
    tables = read_tables(bytes(buffer[:written]))
    numbers = " ".join(map(str, tables[:3]))
    return f"wrote {written} {fnv(buffer)} {numbers} {lent_checksum(tables)}"


def counted(data, entries):
    return entries.to_bytes(2, "big") + data


def writing_bytes(writing):
    tables = writing.tables
    return (
        b"".join(number.to_bytes(4, "big") for number in tables[:3])
        + counted(tables.sizes, len(tables.sizes))
        + counted(costs_bytes(tables.costs), len(tables.costs))
        + counted(tables.counts, len(tables.counts))
        + counted(tables.literals, len(tables.literals))
        + writing.room.to_bytes(2, "big")
        + bytes([writing.fill])
    )
