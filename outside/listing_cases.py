"""Fixed listings for a gate, by the calls of both editions."""

from dataclasses import replace
from functools import lru_cache
from itertools import permutations
from random import Random
from typing import NamedTuple, Optional

from listing import K_MOST, ORDERS, Run as Steps, Settings, listing
from orders import OTHER_ORDERS
from plant import SECOND, Literal, Plant, Refusal, encode
from pushed import OTHER_RULES
from search import STATE_BYTES, to_words
from shapes import nogood_plant, random_assignment, random_words, relatives, shaped
from shapes import small_random_plant, spoil, weighed
from sheet_cases import (
    LIMIT_MOST,
    SMALL_PLANT,
    SMALL_PLANT_EMPTY_CLAUSE,
    SMALL_WEIGHED,
    end_damage,
    fnv,
    header_damage,
    literal_damage,
    longest_plant,
    longest_weighed,
    sheet_bytes,
    weight_damage,
    with_field,
)
from test_cases import between, middle_plant, tight_plant
from whole import brute_consistent, consistent_states, whole_set


class Run(NamedTuple):
    """A listing; `given` are the words the store begins with, and `call` is the edition
    whose call it is. Without a number of bytes of values there are just enough."""

    sheet: bytes
    k: int = 16
    codes: int = 16
    costs: int = 16
    values: Optional[int] = None
    queue: int = 128
    store: int = 32
    held: int = 0
    limit: int = 1_000_000
    given: tuple = ()
    call: int = 1


def enough_values(run):
    """Bytes for k states; where k is refused for as many as the other lists hold."""
    return STATE_BYTES * (run.k if 1 <= run.k <= K_MOST else run.codes)


def settings_of(run):
    """The lent buffers with the junk the format names."""
    values = enough_values(run) if run.values is None else run.values
    store = [0x4444444444444444 + i for i in range(run.store)]
    store[: len(run.given)] = run.given
    return Settings(
        run.k,
        [0x1111111111111111 + i for i in range(run.codes)],
        [int("22" * ORDERS[run.call].width, 16)] * run.costs,
        bytearray([0x55]) * values,
        [0x3333333333333333 + i for i in range(run.queue)],
        store,
        run.held,
        run.limit,
    )


def answer_run(run):
    return listing(run.sheet, settings_of(run), ORDERS[run.call])


def offering(run, offers):
    """The run with these entries offered, in a store that has room for them."""
    offers = list(offers)
    given = tuple(word for entry in offers for word in entry)
    store = max(run.store, len(given))
    return run._replace(given=given, held=len(offers), store=store)


def table_runs():
    """P1 to P11."""
    small, empty = encode(SMALL_PLANT), encode(SMALL_PLANT_EMPTY_CLAUSE)
    first = Run(small, queue=8192, store=128)
    runs = [first] + [first._replace(k=k) for k in (1, 2, 3, 4)]
    runs += [first._replace(queue=2 * entries) for entries in (1, 2, 3)]
    runs += [first._replace(limit=limit) for limit in range(18)]
    runs.append(offering(first, [(3 << 62, 0)]))
    runs.append(offering(first, [(1 << 63, 1 << 60)]))
    runs += [Run(empty), Run(empty, store=0), Run(empty, store=0, queue=4)]
    runs.append(offering(Run(empty), [(0, 0)]))
    runs += [Run(with_field(SMALL_PLANT, "D", n)) for n in (0, 17)]
    runs.append(Run(small[:-1] + b"\1\0"))
    return runs


def host_refusal_runs():
    """Refusals 1 to 4 alone, two at once, and the borders just allowed."""
    first = Run(encode(SMALL_PLANT))
    changes = [dict(k=k) for k in (0, 4097, 65536, LIMIT_MOST)]
    changes += [dict(codes=15), dict(costs=15), dict(codes=0, costs=0)]
    changes += [dict(codes=17, costs=16), dict(codes=16, costs=40)]
    changes += [dict(queue=n) for n in (0, 1, 3, 127, 8191, 8193, 8194, 65535)]
    changes += [dict(store=n) for n in (1, 3, 8191, 8193, 8194)]
    changes += [dict(held=n) for n in (17, 18, 65535)]
    changes += [dict(store=0, held=1), dict(store=2, held=2)]
    changes += [dict(k=0, codes=0), dict(k=4097, queue=1), dict(k=0, store=1)]
    changes += [dict(codes=3, queue=3), dict(costs=3, store=8194)]
    changes += [dict(queue=0, store=3), dict(queue=8194, held=99)]
    changes += [dict(queue=8192, store=8192, held=4096), dict(held=16)]
    changes += [dict(k=4096, codes=4096, costs=4096)]
    changes += [dict(k=4096, codes=4096, costs=4095)]
    runs = [first._replace(**change) for change in changes]
    refused = first._replace(sheet=b"\2")
    return runs + [refused._replace(**c) for c in (dict(k=0), dict(queue=1), dict(held=17))]


def author_refusal_runs():
    sheets = [b""] + header_damage(SMALL_PLANT)[:8:2] + header_damage(SMALL_PLANT)[11:19:2]
    sheets += literal_damage(SMALL_PLANT)[:4] + end_damage(SMALL_PLANT)[:3]
    sheets += end_damage(SMALL_PLANT)[-4:-2]
    return [Run(sheet) for sheet in sheets]


def mixed_offers(rng, plant, learned):
    """True, false and ill formed entries; true ones from a run's own store."""
    offers = []
    for _ in range(rng.randint(0, 6)):
        words = random_words(rng, plant, rng.choice([0.3, 0.7, 1.0]))
        kind = rng.randrange(4)
        if kind == 0 and learned:
            words = rng.choice(learned)
        elif kind == 1:
            words = spoil(rng, plant, words)
        offers.append(words)
    return offers


def learned_by(run):
    result = answer_run(run)
    words = result.store[: 2 * result.learned]
    return list(zip(words[0::2], words[1::2]))


def random_run(rng, plant):
    queue = 2 * rng.choice([1, 2, 3, 4, 6, 10, 20, 64, 64, 64])
    store = 2 * rng.choice([0, 1, 2, 3, 16, 16, 16])
    k = rng.choice([1, 2, 3, 5, 20, 40])
    codes, costs = (k + rng.randint(0, 4) for _ in range(2))
    call = plant.edition.number
    run = Run(encode(plant), k, codes, costs, queue=queue, store=store, call=call)
    if rng.random() < 0.6:
        learned = learned_by(run._replace(queue=200, store=32))
        run = offering(run, mixed_offers(rng, plant, learned))
    return run


def random_runs(rng):
    """A random run, then the same run at limits around its own trials."""
    runs = []
    for place in range(36):
        plant = tight_plant(rng) if place % 2 else small_random_plant(rng)
        run = random_run(rng, plant)
        trials = answer_run(run).trials
        runs.append(run)
        if trials:
            limits = [trials, trials - 1, rng.randrange(trials)]
            runs += [run._replace(limit=limit) for limit in limits]
    return runs


def least_queue(run):
    """The run with the fewest queue entries that do not end it 'full'."""
    entries = 1
    while answer_run(run._replace(queue=2 * entries)).ending == "full":
        entries += 1
    return run._replace(queue=2 * entries)


def queue_runs(rng):
    """Conflicts learned or offered in any order, the queue just long enough
    and one entry short: what is left off, removed or kept then shows."""
    runs = []
    for place in range(32):
        plant = nogood_plant(rng)
        run = Run(encode(plant), k=200, codes=200, costs=201)
        run = run._replace(store=2 * rng.choice([2, 5, 30]))
        if place % 2:
            offers = learned_by(run._replace(store=60))
            rng.shuffle(offers)
            run = offering(run, offers[: rng.randint(1, len(offers) + 1)])
        run = least_queue(run)
        runs += [run, run._replace(queue=run.queue - 2)]
    return [run for run in runs if run.queue]


def wide_runs(rng):
    """D 1 and D 16, one-value domains, ties everywhere."""
    binary = shaped(rng, [2] * 20, 16, [3] * 30, "ties")
    zeros = shaped(rng, [2] * 16, 16, [2] * 6, "zero")
    large = shaped(rng, [16] * 16, 16, [2] * 8, "wide")
    singles = shaped(rng, [1] * 16 + [2] * 3, 16, [2] * 3, "top")
    alone = shaped(rng, [16], 1, [1] * 2, "ties")
    last = shaped(rng, [1] * 15 + [16, 3], 16, [2] * 6, "small")
    runs = []
    for plant in (binary, zeros, large, singles, alone, last):
        sheet = encode(plant)
        for queue in (2, 34, 600):
            runs.append(Run(sheet, 6, 6, 8, None, queue, 40, 0, 4000))
        runs.append(Run(sheet, 20, 20, 20, None, 300, 2, 0, 900))
    runs.append(Run(encode(binary), 3, 3, 3, None, 600, 40, 0, 60_000))
    runs.append(Run(encode(longest_plant(rng)), 2, 2, 2, None, 600, 40, 0, 300))
    one = Plant(((65535,),) * 16, (), ())
    runs.append(Run(encode(one), 2, 2, 2, None, 2, 0, 0, 0))
    return runs


def contradiction_runs(rng):
    """No state is consistent; conflicts large and small."""
    runs = []
    for decisions in (1, 2, 3):
        value = (Literal(decisions, 0, 0),), (Literal(decisions, 1, 0),)
        costs = tuple((1, 1, 0) for _ in range(decisions))
        run = Run(encode(Plant(costs, (2,), value)))
        runs += [run, run._replace(store=0), run._replace(limit=3)]
        runs.append(offering(run, [(0, 0), (0, 0)]))
        runs.append(offering(run._replace(limit=2), [(0, 0), (1, 0), (0, 0)]))
    return runs


def last_state_runs(rng):
    """As many states asked for as fit, one fewer and one more; and as many with the
    conflicts offered that a run to the end learned: fewer nodes are left then."""
    runs = []
    while len(runs) < 60:
        plant = nogood_plant(rng) if rng.random() < 0.5 else tight_plant(rng)
        fitting = len(whole_set(plant))
        if not 0 < fitting < 40:
            continue
        run = Run(encode(plant), fitting, 41, 41, None, 600, 2 * rng.choice([0, 3, 40]))
        runs += [run, run._replace(k=fitting + 1)]
        if fitting > 1:
            runs.append(run._replace(k=fitting - 1))
        runs.append(offering(run, learned_by(run._replace(k=41, store=80))))
    return runs


# Of a variable's costs, or of its weights turned so that the least is best.
OTHER_VALUES = {
    "the highest on a tie": lambda costs: max(x for x, c in enumerate(costs) if c == min(costs)),
    "the last unseen": lambda costs: costs.index(min(costs[:-1] or costs)),
    "always value 0": lambda costs: 0,
}


def with_values(value_of):
    """Steps with other values than the cheapest in the best states of nodes."""

    class Other(Steps):
        def queue_entry(self, node):
            pairs = [(x, list(map(self.order.rank, c))) for x, c in zip(node, self.plant.costs)]
            state = tuple(value_of(c) if x is None else x for x, c in pairs)
            return self.order.key(self.plant, state), node

    return Other


def answer_with(run, value_of):
    return answer_by(run, with_values(value_of))


def cheapest_value_runs(rng):
    """For each of the other values, runs that come out otherwise with it."""
    runs = []
    for value_of in OTHER_VALUES.values():
        enough = len(runs) + 6
        while len(runs) < enough:
            sizes = [rng.randint(2, 4) for _ in range(rng.randint(2, 4))]
            plant = shaped(rng, sizes, len(sizes), [2] * rng.randint(0, 5), "small")
            run = Run(encode(plant), 40, 40, 40, None, 600, 2 * rng.choice([0, 3, 20]))
            if answer_with(run, value_of) != answer_run(run):
                runs.append(run)
    return runs


def values_refusal_runs():
    """Refusal 19 alone, with what is checked before it, and with what is after."""
    short = Run(encode(SMALL_PLANT), values=767)
    before = [dict(k=0), dict(k=4097, values=196_656), dict(k=89_478_486, values=32)]
    before += [dict(codes=15), dict(costs=15), dict(codes=0, costs=0, queue=1)]
    after = [dict(queue=n) for n in (0, 3, 8194)] + [dict(store=3), dict(held=17)]
    after += [dict(sheet=sheet) for sheet in (b"", b"\2", short.sheet + b"\0")]
    after += [dict(queue=1, store=1, sheet=b"\2")]
    runs = [short] + [short._replace(**change) for change in before + after]
    # With 768 bytes what is checked afterwards comes to light.
    runs += [short._replace(values=768, **change) for change in after]
    return runs + [short._replace(values=n) for n in (0, 1, 16, 47, 48, 720, 766, 768)]


def values_length_runs():
    """Lengths at the border of several k, among them where 8 or 16 bits would wrap."""
    free = encode(Plant(((0, 1), (0, 1)), (2,), ((Literal(2, 0, 1),),)))
    runs = []
    for k in (1, 2, 5, 6, 1366, 4096):
        run = Run(free, k, k, k)
        lengths = {0, STATE_BYTES * k & 0xFF, STATE_BYTES * k & 0xFFFF}
        lengths |= {STATE_BYTES * k - 1, STATE_BYTES * k, STATE_BYTES * k + 1}
        runs += [run._replace(values=length) for length in sorted(lengths)]
    return runs


def longest_list_run():
    """4,096 states listed, with hidden variables that are not 0."""
    first, second = Literal(12, 1, 0), Literal(13, 0, 2)
    clauses = ((first, Literal(0, 0, 0)), (second, Literal(11, 1, 1)))
    plant = Plant(((0, 0),) * 12, (3, 3), clauses)
    return Run(encode(plant), 4096, 4096, 4096, 196_608, queue=64)


def spare_values_runs(rng):
    """Bytes beyond the listed states, and beyond those of k states."""
    runs = []
    for spare in (1, 47, 48, 49, 1000):
        plant = middle_plant(rng, 2)
        run = Run(encode(plant), values=16 * STATE_BYTES + spare, queue=600)
        runs += [run, run._replace(k=2), run._replace(limit=answer_run(run).trials // 2)]
    return runs


def shown_runs(rng, hidden):
    """Listed states with a hidden variable between its first and its last value, the
    first of them after a test that was inconsistent."""
    while True:
        plant = middle_plant(rng, hidden)
        run = Run(encode(plant), 1, 1, 1, queue=600, store=40, limit=3000)
        result = answer_run(run)
        if result.listed and result.tested > 1 and between(plant, result.values):
            break
    more = run._replace(k=12, codes=12, costs=13)
    trials = answer_run(more).trials
    return [run, run._replace(store=0), more, more._replace(limit=trials - 1)]


def nothing_hidden_runs(rng):
    runs = []
    for decisions in (1, 2, 5, 16):
        plant = shaped(rng, [2] * decisions, decisions, [1, 2, 2][:decisions], "small")
        runs.append(Run(encode(plant), 7, 7, 7, 7 * STATE_BYTES + 5, queue=600))
    return runs


def dropped_offer_runs():
    """An offer that is consistent, and limits that strike before a state is listed:
    what an offer's or a reduction's tests find is not shown."""
    run = offering(Run(encode(SMALL_PLANT)), [(1 << 63, 1 << 60)])
    return [run._replace(limit=limit) for limit in (1, 2, 3, 4, 7, 13, 14, 15)]


def values_runs(rng):
    runs = values_refusal_runs() + values_length_runs() + [longest_list_run()]
    runs += dropped_offer_runs() + spare_values_runs(rng) + nothing_hidden_runs(rng)
    for hidden in (1, 2, 2, 3, 3, 4, 5, 32, 32):
        runs += shown_runs(rng, hidden)
    return runs


# ---- conflicts that contain one another ------------------------------------


def forbidding(costs, conflicts):
    """A plant of these conflicts; its hidden variable gives every test trials."""
    hidden = len(costs)
    clauses = []
    for conflict in conflicts:
        members = [(v, x) for v, x in enumerate(conflict) if x is not None]
        clauses.append((*(Literal(v, 1, x) for v, x in members), Literal(hidden, 0, 1)))
    return Plant(costs, (2,), (*clauses, (Literal(hidden, 0, 0),)))


def entries_of(text):
    """Assignments written a character a variable, a dot where it is unassigned."""
    rows = text.split()
    return [tuple(None if c == "." else int(c) for c in row) for row in rows]


def offers_of(text):
    return [to_words(entry) for entry in entries_of(text)]


STEP_COSTS = ((0, 1), (0, 2), (0, 4))
# An inconsistent offer of one, two or three members takes 14, 6 or 2 trials.
STEPS_PLANT = forbidding(STEP_COSTS, entries_of("0.. 11."))
NOTHING_FITS = forbidding(STEP_COSTS, entries_of("..."))


def thinned_offer_runs():
    """Longer ones before and after shorter ones, equal ones, next to each other or not."""
    texts = [" ".join(chain) for chain in permutations(("0..", "00.", "000"))]
    texts += ["00. 0..", "0.. 00.", "0.. 0..", "00. 0.. 00.", "00. 11. 0..", "0.. 11. 00."]
    texts += ["0.. 11. 0..", "11. 0.. 11. 0..", "00. 1.. 0..", "000 111 00. 11."]
    texts += ["001 0.1 00.", "... 00. 0..", "01. 00.", "010 11. 0.1 011 110"]
    return [offering(Run(encode(STEPS_PLANT)), offers_of(text)) for text in texts]


def pushed_out_runs():
    """Survivors that a learned conflict pushes out, with room in the store and without:
    full stores do not reduce, and what is pushed out makes room."""
    runs = []
    for text in ("01.", "01. 0.1", "010 011 001", "01. 11.", "111 01.", "00. 0.. 000"):
        run = offering(Run(encode(STEPS_PLANT), store=0), offers_of(text))
        runs += [run._replace(store=run.store + more) for more in (0, 2, 20)]
    return runs


def struck_offer_runs():
    """Limits that strike in step 1 and in the reduction of what would push one out."""
    runs = []
    for text, limits in [
        ("00. 0.. 11.", (5, 6, 19, 20, 23, 26)),
        ("0.. 00. 11.", (14, 19, 20, 23)),
        ("11. 11. 0..", (11, 12)),
        ("000 00. 0.. 11.", (8, 22)),
        ("01.", (9, 32, 33, 34)),
    ]:
        run = offering(Run(encode(STEPS_PLANT)), offers_of(text))
        runs += [run._replace(limit=limit) for limit in limits]
    return runs


def empty_conflict_runs():
    """The empty assignment, offered or learned, is the only entry left."""
    runs = []
    for text in ("... 0..", "0.. ... 11.", "... ...", "0..", "000 111 01."):
        run = offering(Run(encode(NOTHING_FITS)), offers_of(text))
        runs += [run, run._replace(store=2 * run.held)]
    run = offering(Run(encode(NOTHING_FITS)), offers_of("0.. ..."))
    runs += [run._replace(limit=limit) for limit in (14, 43, 44)]
    run = offering(Run(encode(SMALL_PLANT_EMPTY_CLAUSE)), offers_of("0. .. 01"))
    return runs + [run, run._replace(held=1), run._replace(held=2, limit=0)]


def answer_by(run, kind):
    """The answer of another lister."""
    return listing(run.sheet, settings_of(run), ORDERS[run.call], kind)


def related_run(rng):
    """Offers that contain one another, most of them inconsistent."""
    plant = rng.choice([nogood_plant, tight_plant, small_random_plant])(rng)
    states = consistent_states(plant)
    tries = (random_assignment(rng, plant, 0.7) for _ in range(20))
    conflicts = [entry for entry in tries if not brute_consistent(states, entry)]
    entries = conflicts[:3] + [random_assignment(rng, plant)]
    offers = relatives(rng, plant, entries, rng.randint(2, 7))
    run = Run(encode(plant), 12, 12, 12, None, 600, 2 * rng.choice([0, 0, 1, 4, 10]))
    return offering(run, map(to_words, offers))


def related_runs(rng):
    """For each of the other rules, runs that come out otherwise with it."""
    runs = []
    for kind in OTHER_RULES.values():
        enough = len(runs) + 2
        while len(runs) < enough:
            run = related_run(rng)
            trials = answer_run(run).trials
            limited = run._replace(limit=rng.randint(0, trials))
            run = rng.choice([run, limited])
            if answer_by(run, kind) != answer_run(run):
                runs.append(run)
    return runs


@lru_cache(maxsize=1)
def short_reason_runs():
    runs = thinned_offer_runs() + pushed_out_runs() + struck_offer_runs()
    return runs + empty_conflict_runs() + related_runs(Random(808))


# ---- the call of edition 2 -------------------------------------------------


def weighing(plant, **numbers):
    return Run(encode(plant), call=SECOND.number, **numbers)


def weighed_table_runs():
    """P1 to P9 with weights that rank the states alike."""
    first = weighing(SMALL_WEIGHED)
    runs = [first] + [first._replace(k=k) for k in (1, 3)]
    runs += [first._replace(queue=2 * entries) for entries in (2, 3)]
    runs += [first._replace(limit=limit) for limit in (0, 5, 14, 15)]
    runs.append(offering(first, [(3 << 62, 0)]))
    runs.append(offering(first, [(1 << 63, 1 << 60)]))
    clauses = SMALL_PLANT_EMPTY_CLAUSE.clauses
    empty = weighing(replace(SMALL_WEIGHED, clauses=clauses))
    return runs + [empty, empty._replace(store=0)]


def weighed_refusal_runs():
    """Refusals 1, 2, 19, 3 and 4, alone and before the sheet's, and the sheet's."""
    first = weighing(SMALL_WEIGHED)
    other = first._replace(sheet=encode(SMALL_PLANT))
    changes = [dict(k=0), dict(k=4097), dict(codes=15), dict(costs=15), dict(values=767)]
    changes += [dict(queue=3), dict(queue=8194), dict(store=3), dict(held=17)]
    runs = [first._replace(**change) for change in changes]
    runs += [other._replace(**change) for change in changes[::2]]
    runs += [first._replace(costs=8, queue=1), first._replace(values=0, queue=0)]
    sheets = [b""] + header_damage(SMALL_WEIGHED)[:8] + header_damage(SMALL_WEIGHED)[11:19:3]
    sheets += literal_damage(SMALL_WEIGHED)[:3:2] + end_damage(SMALL_WEIGHED)[::4]
    sheets += end_damage(SMALL_WEIGHED)[-3:-2] + weight_damage(SMALL_WEIGHED)[:6]
    runs += [first._replace(sheet=sheet) for sheet in sheets]
    # Each call gives 6 to the other's edition, right in every other field or not.
    runs += [other, other._replace(sheet=encode(Plant(((7, 7),) * 9, (), ())))]
    runs += [first._replace(call=1), first._replace(call=1, sheet=weight_damage(SMALL_WEIGHED)[0])]
    return runs


# Each pair of products differs by one, in the last of 59 or 60 bits.
CLOSE_PRODUCTS = [
    ((209, 203, 177, 106, 251, 208, 193, 79), (181, 233, 151, 125) * 2),
    ((242, 197, 176, 86, 178, 171, 157, 151), (155, 163, 169, 169) * 2),
]


def pair_plant(first, second):
    """Eight variables of two values that fit only where all are alike."""
    clauses = []
    for variable in range(7):
        for value in (0, 1):
            clauses.append((Literal(variable, 1, value), Literal(variable + 1, 0, value)))
    return Plant(tuple(zip(first, second)), (), tuple(clauses), SECOND)


def ordered_runs():
    """Products and weights that are equal, close, large and far apart."""
    rows = [
        ((6, 3, 2), (1, 2, 3)),  # equal products of other weights
        ((5, 5), (7, 7, 7), (2, 1)),  # equal weights
        ((1, 9, 9), (4, 4), (1, 2)),  # equal weights that are not the lowest values
        ((9, 5), (1, 5)),  # the sum has another order
        ((1, 255), (1, 255), (16, 1)),  # the greatest weights last
        ((2, 3, 4, 5), (6, 4, 3, 2), (1, 1)),
        ((128, 64),) * 8,  # nothing in the low 32 bits
        ((255, 200),) * 8,  # above 2^63 and below it
        ((255, 254),) * 8,  # all above 2^63
        ((255,),) * 8,  # the greatest product
        ((1,),) * 8,  # the least
        ((1,),),
        ((1, 2, 128, 255),),
        ((255, 255), (255, 255), (255, 255), (255, 255), (253, 254)),  # above 2^32
    ]
    runs = [weighing(Plant(row, (), (), SECOND), queue=600) for row in rows]
    for less, more in CLOSE_PRODUCTS:
        runs += [weighing(pair_plant(*pair)) for pair in ((less, more), (more, less))]
    return runs


def order_plant(rng):
    """Products that are close, that are around 2^63, or many alike, or any."""
    kind = rng.randrange(5)
    if kind == 0:
        pair = (rng.sample(weights, 8) for weights in rng.choice(CLOSE_PRODUCTS))
        return pair_plant(*pair)
    if kind == 1:
        rows = (rng.sample([255, rng.randint(120, 200)], 2) for _ in range(8))
        return Plant(tuple(map(tuple, rows)), (), (), SECOND)
    if kind == 2:
        return weighed(rng, nogood_plant(rng), "ties")
    sizes = [rng.randint(2, 4) for _ in range(rng.randint(2, 4))]
    lengths = [2] * rng.randint(0, 5)
    return weighed(rng, shaped(rng, sizes, len(sizes), lengths, "zero"))


def other_order_runs(rng):
    """For each of the other orders, runs that come out otherwise with it."""
    runs = []
    for other in OTHER_ORDERS.values():
        enough = len(runs) + 3
        while len(runs) < enough:
            run = weighing(order_plant(rng), k=12, queue=600, store=2 * rng.choice([0, 3, 16]))
            run = run if rng.random() < 0.5 else run._replace(limit=rng.randint(5, 60))
            if listing(run.sheet, settings_of(run), other) != answer_run(run):
                runs.append(run)
    return runs


def weighed_wide_runs(rng):
    """D 8 and D 1, sizes 16 and 1, the most variables and clauses."""
    large = weighed(rng, shaped(rng, [16] * 8, 8, [2] * 8, "zero"), "wide")
    binary = weighed(rng, shaped(rng, [2] * 20, 8, [3] * 30, "zero"), "ties")
    alone = weighed(rng, shaped(rng, [16], 1, [1] * 2, "zero"), "small")
    singles = weighed(rng, shaped(rng, [1] * 7 + [16, 3], 8, [2] * 3, "zero"), "top")
    runs = []
    for plant in (large, binary, alone, singles):
        run = weighing(plant, k=6, codes=6, costs=8, store=40, limit=4000)
        runs += [run._replace(queue=queue) for queue in (2, 34, 600)]
    longest = weighing(longest_weighed(rng), k=2, queue=600, limit=300)
    whole = weighed(rng, Plant(((0, 0),) * 8, (2,), ()), "one")
    return runs + [longest, weighing(whole, k=256, codes=256, costs=256, queue=512)]


def weighed_random_runs(rng):
    """Offers, full stores, short queues and limits, k at the whole set, hidden
    variables between their first and their last value."""
    runs = []
    for make in (tight_plant, small_random_plant, nogood_plant) * 2:
        run = random_run(rng, weighed(rng, make(rng)))
        trials = answer_run(run).trials
        runs += [run, run._replace(limit=trials), run._replace(limit=trials // 2)]
    while len(runs) < 30:
        plant = weighed(rng, nogood_plant(rng))
        fitting = len(whole_set(plant))
        if 1 < fitting < 40:
            run = weighing(plant, k=fitting, codes=41, costs=41, queue=600, store=40)
            runs += [run, run._replace(k=fitting - 1), run._replace(k=fitting + 1)]
            runs.append(offering(run, learned_by(run._replace(k=41, store=80))))
    for _ in range(3):
        run = weighing(weighed(rng, middle_plant(rng, 2)), values=16 * STATE_BYTES + 5, queue=600)
        run = least_queue(run)
        runs += [run, run._replace(queue=max(run.queue - 2, 2))]
    return runs


def weighed_store_runs():
    """Offers that contain one another, and survivors that are pushed out."""
    plant = Plant(((8, 4), (8, 2), (8, 1)), (2,), STEPS_PLANT.clauses, SECOND)
    texts = ["00. 0.. 000", "0.. 11. 0..", "01. 0.1", "111 01."]
    return [offering(weighing(plant, store=4), offers_of(text)) for text in texts]


@lru_cache(maxsize=1)
def weighed_runs():
    rng = Random(939)
    runs = weighed_table_runs() + weighed_refusal_runs() + ordered_runs()
    runs += other_order_runs(rng) + weighed_wide_runs(rng)
    return runs + weighed_random_runs(rng) + weighed_store_runs()


def with_room(place, run):
    """The run with a number of bytes of values, now and then more than enough."""
    if run.values is not None:
        return run
    return run._replace(values=enough_values(run) + (0, 0, 0, 1, 0, 0, 50)[place % 7])


@lru_cache(maxsize=1)
def listing_cases():
    rng = Random(303)
    cases = table_runs() + host_refusal_runs() + author_refusal_runs()
    cases += random_runs(rng) + queue_runs(rng)
    cases += wide_runs(rng) + contradiction_runs(rng)
    cases += last_state_runs(Random(404)) + cheapest_value_runs(Random(505))
    cases += values_runs(Random(707)) + short_reason_runs()
    cases += weighed_runs()
    return [with_room(place, run) for place, run in enumerate(cases)]


def words_bytes(words, width):
    return b"".join(word.to_bytes(width, "big") for word in words)


def lent_checksum(run, lent):
    """Of every lent word; `lent` are settings before a call, or its result."""
    costs = words_bytes(lent.costs, ORDERS[run.call].width)
    data = words_bytes(lent.codes, 8) + costs + lent.values
    return fnv(data + words_bytes(lent.queue, 8) + words_bytes(lent.store, 8))


def run_line(run):
    try:
        result = answer_run(run)
    except Refusal as refusal:
        return f"refused {refusal.number} {lent_checksum(run, settings_of(run))}"
    counts = " ".join(str(word) for word in result.words()[1:])
    return f"{result.ending} {counts} {lent_checksum(run, result)}"


def run_bytes(run):
    return (
        bytes([run.call])
        + sheet_bytes(run.sheet)
        + run.k.to_bytes(4, "big")
        + words_bytes((run.codes, run.costs), 2)
        + run.values.to_bytes(4, "big")
        + words_bytes((run.queue, run.store, run.held), 2)
        + run.limit.to_bytes(4, "big")
        + len(run.given).to_bytes(2, "big")
        + words_bytes(run.given, 8)
    )
