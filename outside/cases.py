"""Random cases of listings, tests and reductions, on sheets of both editions: whole and
damaged sheets, fair and extreme settings, junk in every lent buffer, offers and words of
every kind."""

from array import array
from dataclasses import dataclass
from math import prod
from typing import NamedTuple

from listing import COSTS, ORDERS, PRODUCTS, Order, Settings
from listing_cases import order_plant
from plant import Refusal, encode, fields, pack, read
from search import STATE_BYTES, to_words, well_formed
from shapes import extension_of, nogood_plant, random_assignment, random_sizes
from shapes import random_words, relatives, shaped, small_random_plant, spoil, weighed
from sheet_cases import end_damage, flipped, header_damage, longest_plant, with_field
from test_cases import Call, answer_call, middle_plant, tight_plant

U32_MOST = 2**32 - 1
ENTRIES_MOST = 4096
LIST, TEST, REDUCE, WRITE, READ, LIST_WEIGHTS = range(6)  # as replay.c numbers the calls
TYPES = {1: "B", 2: "H", 4: "I", 8: "Q"}  # of an array, by a word's bytes


class Case(NamedTuple):
    """A listing; as a CallCase has them too, which call it is, its numbers, and
    the words of its buffers by name, in the call's order."""

    sheet: bytes
    settings: Settings
    result: list  # the result words as lent
    order: Order = COSTS  # of the call
    damaged: bool = False

    @property
    def kind(self):
        return LIST if self.order is COSTS else LIST_WEIGHTS

    def numbers(self):
        return {name: getattr(self.settings, name) for name in ("k", "held", "limit")}

    def lent(self):
        s = self.settings
        figures = {"codes": s.codes, self.order.name: s.costs, "values": s.values}
        work = {"queue": s.queue, "store": s.store}
        return {"sheet": self.sheet, **figures, **work, "result": self.result}


class CallCase(NamedTuple):
    """A test or a reduction. The one lends bytes for the values to show, the other
    words for the conflict."""

    call: Call
    found: list  # these, as lent, as is the result
    result: list
    damaged: bool = False

    @property
    def kind(self):
        return REDUCE if self.call.kind else TEST

    @property
    def sheet(self):
        return self.call.sheet

    def numbers(self):
        return {name: getattr(self.call, name) for name in ("mask", "values", "limit")}

    def lent(self):
        name = "conflict" if self.kind == REDUCE else "shown"
        return {"sheet": self.sheet, name: self.found, "result": self.result}


@dataclass
class Shape:
    """A case's numbers: the buffers in words (of values a byte), the rest as it is
    given."""

    k: int
    codes: int
    costs: int
    values: int
    queue: int
    store: int
    result: int
    held: int
    limit: int


# ---- plants ----------------------------------------------------------------


def wide_plant(rng):
    """The borders of D and S, and clauses of every length."""
    decisions, states = rng.choice([1, 2, 15, 16]), rng.choice([0, 1, 31, 32])
    sizes = random_sizes(rng, decisions + states, rng.choice([1, 2, 3, 16]))
    lengths = [rng.randint(1, 15) for _ in range(rng.choice([0, 1, 7, 40]))]
    lengths += [0] * (rng.random() < 0.1)
    return shaped(rng, sizes, decisions, lengths, rng.choice(["zero", "ties", "wide", "top"]))


def crowded_plant(rng):
    """Few variables and many clauses, up to the most."""
    sizes = [rng.randint(2, 3) for _ in range(rng.randint(4, 6))]
    lengths = [rng.randint(4, 15) for _ in range(rng.choice([60, 150, 511, 512]))]
    return shaped(rng, sizes, rng.randint(2, len(sizes)), lengths, "small")


def tied_plant(rng):
    """Many states of few costs."""
    decisions = rng.randint(5, 9)
    lengths = [rng.randint(2, 4) for _ in range(rng.randint(0, 6))]
    sizes = [2] * decisions + [2] * rng.randint(0, 1)
    return shaped(rng, sizes, decisions, lengths, rng.choice(["zero", "ties"]))


def long_list_plant(rng):
    """Some thousands of states, most of them fitting."""
    decisions = rng.randint(11, 13)
    lengths = [rng.randint(4, 6) for _ in range(rng.randint(0, 2))]
    return shaped(rng, [2] * decisions, decisions, lengths, "zero")


def shaft_plant(rng):
    """Hidden variables that first fit between their first and their last value."""
    return middle_plant(rng, rng.choice([1, 1, 2, 2, 3, 32]))


def full_plant(rng):
    """As many parts as edition 2 has, so that products go up to the greatest."""
    sizes = [rng.choice([2, 3, 16]) for _ in range(8)]
    return shaped(rng, sizes, 8, [2] * rng.randint(0, 6), "wide")


PLANTS = [
    (30, small_random_plant),
    (20, nogood_plant),
    (18, tight_plant),
    (14, tied_plant),
    (12, wide_plant),
    (20, shaft_plant),
    (8, full_plant),
    (3, crowded_plant),
    (1, long_list_plant),
    (0.2, longest_plant),
]


def searching_plant(rng):
    """Long searches that fail again and again: about as many clauses as can be met."""
    sizes = [rng.randint(2, 3) for _ in range(rng.randint(8, 48))]
    decisions = rng.randint(1, min(16, len(sizes)))
    lengths = [3] * round(rng.uniform(3, 6) * len(sizes))
    return shaped(rng, sizes, decisions, lengths, "zero")


CALL_PLANTS = PLANTS + [(20, searching_plant)]


def any_plant(rng, plants=PLANTS):
    """In edition 1."""
    weights, makers = zip(*plants)
    return rng.choices(makers, weights)[0](rng)


def either_plant(rng, plants=PLANTS):
    """In edition 1 or 2; of these some whose products are close or around 2^63."""
    plant = any_plant(rng, plants)
    if rng.random() < 0.5:
        return plant
    return order_plant(rng) if rng.random() < 0.1 else weighed(rng, plant)


# ---- damage ----------------------------------------------------------------


def other_field(rng, plant):
    listed = fields(plant)
    place = rng.randrange(len(listed)) if rng.random() < 0.7 else rng.randrange(4)
    name, width, _ = listed[place]
    listed[place] = name, width, rng.getrandbits(width)
    return pack(listed)


def flips(rng, plant):
    sheet = encode(plant)
    for _ in range(rng.randint(1, 3)):
        sheet = flipped(rng, sheet)
    return sheet


def cut(rng, plant):
    sheet = encode(plant)
    return sheet[: rng.choice([len(sheet) - 1, rng.randrange(len(sheet))])]


def extended(rng, plant):
    length = rng.choice([1, 2, 9, 200, 11_357])
    return encode(plant) + rng.choice([bytes(length), rng.randbytes(length)])


def noise(rng, plant):
    begins = rng.choice([b"", encode(plant)[:1], encode(plant)[:2]])
    return begins + rng.randbytes(rng.randrange(60))


def border_damage(rng, plant):
    """D just beyond the edition's most, or at another border."""
    most = plant.edition.decisions_most
    return with_field(plant, "D", rng.choice([most + 1, most + 1, most + 1, most, 0, 31]))


def figure_damage(rng, plant):
    """A cost or weight of zero, whole or cut right behind or inside it."""
    name = plant.edition.figure
    pick = rng.randrange(sum(map(len, plant.costs)))
    places = [place for place, field in enumerate(fields(plant)) if field[0] == name]
    end = sum(width for _, width, _ in fields(plant)[: places[pick] + 1])
    sheet = with_field(plant, name, 0, pick)
    return sheet[: rng.choice([len(sheet), (end + 7) // 8, (end - 1) // 8])]


def quiet_damage(rng, plant):
    """A flipped bit that leaves the sheet one that can be read."""
    sheet = encode(plant)
    for _ in range(8):
        other = flipped(rng, sheet)
        try:
            read(other, plant.edition)
            return other
        except Refusal:
            continue
    return sheet + b"\0"


DAMAGE = [
    quiet_damage,
    quiet_damage,
    quiet_damage,
    other_field,
    other_field,
    flips,
    flips,
    cut,
    extended,
    noise,
    border_damage,
    border_damage,
    figure_damage,
    figure_damage,
    lambda rng, plant: rng.choice(end_damage(plant)),
    lambda rng, plant: rng.choice(header_damage(plant)),
]


# ---- settings --------------------------------------------------------------


def any_limit(rng):
    few = [0, 1, rng.randrange(30), rng.randrange(300), rng.randrange(3000)]
    return rng.choice(few + [10**6, 10**6, U32_MOST])


def fair_shape(rng, plant):
    """Nothing in it is refused."""
    states = min(prod(plant.sizes[: plant.decisions]), ENTRIES_MOST)
    k = rng.choice([1, 2, 3, 5, 16, 16, 40, 40, 300, 4096])
    queue = 2 * rng.choice([1, 2, 3, 5, 9, 20, 64, states, states, 4096])
    store = 2 * rng.choice([0, 1, 2, 3, 8, 20, 64, 64, 4096])
    held = min(store // 2, rng.choice([0, 1, 2, 3, 5, 5, 8, 20, store // 2]))
    codes, costs = (k + rng.choice([0, 0, 1, 7]) for _ in range(2))
    values = STATE_BYTES * k + rng.choice([0, 0, 1, 47, 300])
    result, limit = rng.choice([6, 7, 8]), any_limit(rng)
    return Shape(k, codes, costs, values, queue, store, result, held, limit)


def few_values(rng, k):
    """Bytes too few for k states: by one, by many, where 8 or 16 bits wrap, or none."""
    most = max(STATE_BYTES * k - 1, 0)
    wrapped = [STATE_BYTES * k & 0xFF, STATE_BYTES * k & 0xFFFF]
    return min(most, rng.choice([most, most, rng.randint(0, most), *wrapped, k, 0]))


def make_twice_wrong(rng, shape):
    """Too few bytes of values, and what is checked just before or after them."""
    others = [("codes", shape.k - 1), ("costs", shape.k - 1), ("result", 5)]
    others += [("k", 4097), ("queue", 0), ("queue", 3), ("queue", 8194), ("store", 1)]
    shape.values = few_values(rng, shape.k)
    setattr(shape, *rng.choice(others))


def make_extreme(rng, shape):
    """One number just at or beyond its border."""
    entries, k = shape.store // 2, min(shape.k, ENTRIES_MOST)
    few = [few_values(rng, k) for _ in range(5)]
    choices = [("k", n) for n in (0, 4096, 4097, 65536, U32_MOST)]
    choices += [("codes", max(k - 1, 0)), ("codes", rng.randrange(k + 1))]
    choices += [("costs", max(k - 1, 0)), ("costs", rng.randrange(k + 1))]
    choices += [("values", n) for n in (STATE_BYTES * k, *few)]
    choices += [("result", n) for n in range(9)]
    choices += [("queue", n) for n in (0, 1, 2, 3, 127, 8191, 8192, 8193, 8194)]
    choices += [("store", n) for n in (0, 1, 2, 3, 127, 8191, 8192, 8193, 8194)]
    choices += [("held", n) for n in (entries, entries + 1, 2 * entries + 1, 4097)]
    choices += [("held", n) for n in (2**32, 2**63, 2**63 + 1, 2**64 - 1)]
    setattr(shape, *rng.choice(choices))


# ---- what the lent buffers hold --------------------------------------------


def junk(rng, words, width):
    length = words * width
    kind = rng.randrange(6)
    if kind == 0:
        data = bytes(length)
    elif kind == 1:
        data = b"\xff" * length
    elif kind == 2:
        data = (b"\1" + bytes(7)) * words
    else:
        data = rng.randbytes(length)
    return array(TYPES[width], data[:length]).tolist()


def broken_clause(rng, plant):
    """An assignment under which a clause is false, where decisions decide it."""
    whole = [c for c in plant.clauses if all(v < plant.decisions for v, _, _ in c)]
    assignment = [None] * plant.decisions
    for variable, sign, value in rng.choice(whole) if whole else ():
        others = [v for v in range(plant.sizes[variable]) if v != value]
        assignment[variable] = value if sign or not others else rng.choice(others)
    return to_words(assignment)


def any_offer(rng, plant):
    """True, false, ill formed, junk or empty."""
    kind = rng.randrange(8)
    if kind < 3:
        return broken_clause(rng, plant)
    words = random_words(rng, plant, rng.choice([0.3, 0.7, 1.0]))
    if kind == 3:
        return spoil(rng, plant, words)
    if kind == 4:
        return rng.choice([(0, 0), (rng.getrandbits(64), rng.getrandbits(64)), (2**63, 0)])
    return words


def likely_conflict(rng, plant):
    """A broken clause, or most parts given a value where no clause is of parts alone."""
    entry = well_formed(plant, *broken_clause(rng, plant))
    return entry if any(v is not None for v in entry) else random_assignment(rng, plant, 0.8)


def related_offers(rng, plant, count):
    """Offers that contain one another or are equal, in any order: relatives of likely
    conflicts, many of these with more members, so that a learned one pushes them out."""
    short = [likely_conflict(rng, plant) for _ in range(rng.randint(1, 4))]
    longer = [extension_of(rng, plant, entry) for entry in short]
    entries = rng.choice([short, longer, longer, short[:1] + longer])
    offers = [to_words(entry) for entry in relatives(rng, plant, entries, count)]
    for place in range(0, count, 5):
        if rng.random() < 0.3:
            offers[place] = any_offer(rng, plant)
    return offers


def any_offers(rng, plant, count):
    if rng.random() < 0.7:
        return related_offers(rng, plant, count)
    return [any_offer(rng, plant) for _ in range(count)]


def put_offers(settings, offers):
    room = min(settings.held, len(settings.store) // 2)
    words = [word for offer in offers[:room] for word in offer]
    settings.store[: len(words)] = words


def lend(rng, shape, order):
    """Buffers of these sizes, all junk."""
    return Settings(
        shape.k,
        junk(rng, shape.codes, 8),
        junk(rng, shape.costs, order.width),
        bytearray(junk(rng, shape.values, 1)),
        junk(rng, shape.queue, 8),
        junk(rng, shape.store, 8),
        shape.held,
        shape.limit,
    )


def any_order(rng, plant):
    """That of the call which takes the plant's edition; now and then the other one."""
    own = ORDERS[plant.edition.number]
    return rng.choice([COSTS, PRODUCTS]) if rng.random() < 0.04 else own


def any_case(rng):
    plant = either_plant(rng)
    order = any_order(rng, plant)
    shape = fair_shape(rng, plant)
    if rng.random() < 0.2:
        for _ in range(rng.randint(1, 2)):
            make_extreme(rng, shape)
    elif rng.random() < 0.03:
        make_twice_wrong(rng, shape)
    damaged = rng.random() < 0.3
    sheet = rng.choice(DAMAGE)(rng, plant) if damaged else encode(plant)
    settings = lend(rng, shape, order)
    offers = any_offers(rng, plant, min(shape.held, 30))
    if rng.random() < 0.9:
        put_offers(settings, offers)
    return Case(sheet, settings, junk(rng, shape.result, 4), order, damaged)


# ---- tests and reductions --------------------------------------------------


def completed(rng, plant, words):
    """The assignment with a value for every other part."""
    own = well_formed(plant, *words)
    filled = (rng.randrange(len(c)) if v is None else v for v, c in zip(own, plant.costs))
    return to_words(tuple(filled))


def any_words(rng, plant):
    """Junk, a broken clause, all parts with one broken, well formed, or spoiled."""
    kind = rng.randrange(10)
    if kind == 1:
        return broken_clause(rng, plant)
    if 1 < kind < 5:
        return completed(rng, plant, broken_clause(rng, plant))
    words = random_words(rng, plant, rng.choice([0.0, 0.3, 0.7, 1.0]))
    if kind == 0:
        return rng.choice([words[0], rng.getrandbits(64)]), rng.getrandbits(64)
    return spoil(rng, plant, words) if kind == 9 else words


def put_limit(rng, call):
    """The call with a limit that is ample, exact, one short, 0 or small. One with
    too many trials for the outside program gets a limit that strikes."""
    most = rng.choice([3000] * 15 + [60_000])
    try:
        trials = answer_call(call._replace(limit=most)).trials
    except Refusal:
        return call._replace(limit=any_limit(rng))
    ample = U32_MOST if trials < most else most
    limits = [ample, ample, ample, trials, max(trials - 1, 0), 0, rng.randint(0, trials)]
    return call._replace(limit=rng.choice(limits))


def answer_room(rng):
    """Words of a buffer that two are written to: now and then too few."""
    return rng.randrange(5) if rng.random() < 0.2 else rng.choice([2, 2, 3, 4])


def any_call(rng):
    plant = either_plant(rng, CALL_PLANTS)
    damaged = rng.random() < 0.3
    sheet = rng.choice(DAMAGE)(rng, plant) if damaged else encode(plant)
    kind = rng.randrange(2)
    call = put_limit(rng, Call(kind, sheet, *any_words(rng, plant), 0))
    found = junk(rng, answer_room(rng), 8) if kind else junk(rng, STATE_BYTES, 1)
    return CallCase(call, found, junk(rng, answer_room(rng), 4), damaged)
