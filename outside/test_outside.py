"""Checks of the outside program: `python3 outside/test_outside.py`."""

import sys
import unittest
from collections import Counter
from itertools import combinations, permutations, product
from math import prod
from random import Random

sys.dont_write_bytecode = True

import listing as listing_module
import listing_cases
import sheet_cases
import table_cases
import test_cases
import vectors
from listing import COSTS, ORDERS, PRODUCTS, Run, Settings, export, leading, listing
from listing import manifests, survivors
from listing_cases import NOTHING_FITS, STEPS_PLANT, answer_by, offers_of
from orders import OTHER_ORDERS, OTHER_SHEETS
from plant import FIRST, SECOND, Literal, Plant, Refusal, encode, fields, pack, read
from plant import read_either
from pushed import OTHER_RULES, FullReduces, Watch, pushed_out, rules_met
from search import Meter, is_false, reduce_call, reduce_export, reduce_within, shown
from search import test, test_call, test_export, to_words, well_formed
from shapes import nogood_plant, random_assignment, random_words, relatives
from shapes import small_random_plant, spoil, weighed
from tables import Tables, grounds, read_tables, sheet_of, tables_of
from tables import fields as table_fields, write_into, write_tables
from whole import (
    begins,
    brute_consistent,
    check_demand3,
    check_rest,
    check_shown,
    check_store,
    consistent_states,
    contains,
    first_success,
    minimal,
    run_list,
    shown_at,
    whole_set,
)

SMALL = bytes.fromhex("0110201080000001880000001898100601044200")
SMALL_SECOND = bytes.fromhex("02102010818088180898100601044200")
P1_LINES = "1 3 0100000000000000\n2 3 1000000000000000\n3 6 1100000000000000\n"
P1_LIST = [(3, 0x01 << 56), (3, 0x10 << 56), (6, 0x11 << 56)]


def set_up(k=16, queue=4096, store=64, offers=(), limit=1_000_000):
    """The program's settings, queue and store in entries."""
    words = [word for offer in offers for word in offer]
    words += [0] * (2 * store - len(words))
    lists = [0] * k, [0] * k, bytearray(48 * k)
    return Settings(k, *lists, [0] * 2 * queue, words, len(offers), limit)


def refusal_of(call, *arguments):
    try:
        call(*arguments)
    except Refusal as refusal:
        return refusal.number
    return None


class Table(unittest.TestCase):
    """P1 to P11 of the specification."""

    def check(self, words, own_list, sheet=SMALL, **settings):
        result = listing(sheet, set_up(**settings))
        self.assertEqual(words, f"{result.ending} " + " ".join(map(str, result.words()[1:])))
        self.assertEqual(own_list, run_list(result))
        return result

    def test_sheet(self):
        self.assertEqual(read(SMALL), sheet_cases.SMALL_PLANT)
        self.assertEqual(encode(sheet_cases.SMALL_PLANT), SMALL)

    def test_p1_to_p3(self):
        last = "all 3 tested 4 learned 1 unkept 0 trials 15\n"
        self.assertEqual(P1_LINES + last, leading(SMALL))
        self.check("all 3 4 1 0 15", P1_LIST)
        self.check("enough 1 2 1 0 13", P1_LIST[:1], k=1)
        self.check("all 3 4 1 0 15", P1_LIST, k=3)

    def test_p4(self):
        self.check("full 0 0 0 0 0", [], queue=2)
        self.check("all 3 4 1 0 15", P1_LIST, queue=3)

    def test_p5(self):
        self.check("spent 2 3 1 0 14", P1_LIST[:2], limit=14)
        self.check("all 3 4 1 0 15", P1_LIST, limit=15)
        result = self.check("spent 0 1 0 0 5", [], limit=5)
        self.assertTrue(result.struck_in_reduction)

    def test_p6_and_p7(self):
        result = self.check("all 3 3 0 0 5", P1_LIST, offers=[(3 << 62, 0)])
        self.assertEqual([3 << 62, 0, 0], result.store[:3])
        result = self.check("all 3 4 1 0 17", P1_LIST, offers=[(1 << 63, 1 << 60)])
        self.assertEqual([3 << 62, 0, 0], result.store[:3])

    def test_p8_and_p9(self):
        sheet = encode(sheet_cases.SMALL_PLANT_EMPTY_CLAUSE)
        self.check("all 0 1 1 0 0", [], sheet)
        self.check("all 0 4 0 4 0", [], sheet, store=0)

    def test_p10_and_p11(self):
        for decisions in (0, 17):
            sheet = sheet_cases.with_field(sheet_cases.SMALL_PLANT, "D", decisions)
            self.assertEqual("refused 7\n", leading(sheet))
        self.assertEqual("refused 12\n", leading(SMALL[:-1] + b"\1\0"))


def wrong_numbers(edition, name):
    """Numbers of the small plant's fields that are refused, each with its refusal."""
    return {
        "edition": [(0, 6), (3 - edition.number, 6), (3, 6), (255, 6)],
        "D": [(0, 7), (edition.decisions_most + 1, 7), (31, 7)],
        "S": [(33, 8), (63, 8)],
        "C": [(513, 9), (1023, 9)],
        "weight": [(0, 20)],
        "variable": [(3, 10), (63, 10)],
        "value": [(2, 11), (15, 11)],
    }.get(name, [])


def wrong_fields(plant):
    """Places of fields with a number that is refused there, and its refusal."""
    for place, (name, _, _) in enumerate(fields(plant)):
        for number, refusal in wrong_numbers(plant.edition, name):
            yield place, number, refusal


class Sheets(unittest.TestCase):
    def test_round_trip(self):
        rng = Random(1)
        for _ in range(100):
            plant = small_random_plant(rng)
            self.assertEqual(plant, read(encode(plant)))
        longest = sheet_cases.longest_plant(rng)
        self.assertEqual(11356, len(encode(longest)))
        self.assertEqual(longest, read(encode(longest)))

    def test_every_cut(self):
        for length in range(len(SMALL)):
            self.assertEqual(5, refusal_of(read, SMALL[:length]))

    def test_past_the_end_first(self):
        """A wrong field is refused as the last one, and cut short it is 5."""
        for plant in (sheet_cases.SMALL_PLANT, sheet_cases.SMALL_WEIGHED):
            listed = fields(plant)
            for place, (name, width, _) in enumerate(listed):
                for number, refusal in wrong_numbers(plant.edition, name):
                    sheet = pack(listed[:place] + [(name, width, number)])
                    self.assertEqual(refusal, refusal_of(read, sheet, plant.edition))
                    self.assertEqual(5, refusal_of(read, sheet[:-1], plant.edition))

    def test_reading_order(self):
        """Of two wrong fields the first one read is refused."""
        pairs = Counter()
        for plant in (sheet_cases.SMALL_PLANT, sheet_cases.SMALL_WEIGHED):
            for first, second in combinations(wrong_fields(plant), 2):
                if first[0] < second[0]:
                    listed = fields(plant)
                    for place, number, _ in (first, second):
                        listed[place] = (*listed[place][:2], number)
                    number = refusal_of(read, pack(listed), plant.edition)
                    self.assertEqual(first[2], number)
                    pairs[first[2], second[2]] += 1
        self.assertLessEqual({(6, 20), (7, 20), (9, 20), (20, 10), (20, 11), (20, 20)}, set(pairs))

    def test_cut_literals(self):
        """A variable is refused before its sign and value are read: 10, where they run past the end."""
        pairs = list(sheet_cases.cut_literals())
        self.assertEqual(5, len(pairs))
        for present, absent in pairs:
            self.assertEqual([5, 10], [refusal_of(read, present), refusal_of(read, absent)])

    def test_end(self):
        self.assertEqual(13, refusal_of(read, SMALL + b"\0"))
        self.assertEqual(12, refusal_of(read, SMALL[:-1] + b"\1"))


class Writing(unittest.TestCase):
    """Tables to a sheet and back, and the refusals of tables."""

    def test_small_plant(self):
        literals = bytes([0, 1, 0, 1, 1, 0, 2, 0, 1, 2, 0, 0])
        tables = Tables(2, 1, 2, b"\2\2\2", (0, 3, 0, 3), b"\3\1", literals)
        self.assertEqual(SMALL, write_tables(tables, 20))
        self.assertEqual(tables, read_tables(SMALL))

    def test_written_is_read(self):
        rng = Random(7)
        plants = [small_random_plant(rng) for _ in range(100)] + sheet_cases.shape_plants(rng)
        for plant in plants:
            tables = tables_of(plant)
            sheet = write_tables(tables, 11_356)
            self.assertEqual(encode(plant), sheet)
            self.assertEqual(tables, read_tables(sheet))

    def test_read_is_written(self):
        lengths = set()
        for sheet in sheet_cases.sheet_cases():
            if refusal_of(read, sheet) is None:
                self.assertEqual(sheet, write_tables(read_tables(sheet), len(sheet)))
                self.assertEqual(18, refusal_of(write_tables, read_tables(sheet), len(sheet) - 1))
                lengths.add(len(sheet))
        self.assertLessEqual({7, 20, 11_356}, lengths)

    def test_buffer(self):
        tables = read_tables(SMALL)
        for room in (20, 21, 40):
            buffer = bytearray(b"\xff" * room)
            self.assertEqual(20, write_into(tables, buffer))
            self.assertEqual(SMALL + b"\xff" * (room - 20), buffer)
        for room in (0, 1, 19):
            buffer = bytearray(b"\xff" * room)
            self.assertEqual(18, refusal_of(write_into, tables, buffer))
            self.assertEqual(b"\xff" * room, buffer)

    def test_each_refusal(self):
        for numbers, made in [
            ({16}, table_cases.length_refusals()),
            ({17}, table_cases.entry_refusals()),
            ({7, 8, 9}, table_cases.number_refusals()),
            ({10, 11}, table_cases.literal_refusals()),
        ]:
            first = [next(grounds(tables, 12_000), None) for tables in made]
            self.assertEqual(numbers, set(first))

    def test_order(self):
        """Of several grounds the first in the order of the checks."""
        order = list(table_cases.SPOILERS)
        self.assertEqual([16, 17, 7, 8, 9, 10, 11, 18], order)
        for size in (1, 2, 3):
            for numbers in combinations(order, size):
                writing = table_cases.spoilt(numbers)
                self.assertEqual(numbers[0], refusal_of(write_tables, *writing[:2]))
                if 16 not in numbers:
                    self.assertEqual(numbers, tuple(grounds(*writing[:2])))

    def test_literals_in_turn(self):
        first = [refusal_of(write_tables, t, 99) for t in table_cases.literal_order()]
        self.assertEqual([10, 11, 10, 10, 11], first)

    def test_refused_as_read(self):
        """Where all fields fit their bits, tables and their sheet are refused alike."""
        rng = Random(8)
        seen = set()
        for _ in range(1500):
            tables = table_cases.damaged_tables(rng, tables_of(small_random_plant(rng)))
            number = refusal_of(write_tables, tables, 100_000)
            if number in (16, 17) or any(n >> width for width, n in table_fields(tables)):
                continue
            self.assertEqual(number, refusal_of(read, sheet_of(tables)))
            seen.add(number)
        self.assertEqual({None, *range(7, 12)}, seen)


def prefix_trials(plant, assignment):
    """Trials by definition: a value is tried where what stands before it is
    reached with no clause false, up to the first complete success."""
    free = [v for v in range(len(plant.sizes)) if v >= plant.decisions or assignment[v] is None]
    base = list(assignment) + [None] * len(plant.state_sizes)

    def broken(prefix):
        setting = list(base)
        for variable, value in zip(free, prefix):
            setting[variable] = value
        return any(is_false(clause, setting) for clause in plant.clauses)

    ranges = [range(plant.sizes[v]) for v in free]
    reached = {(): not broken(())}
    for length in range(1, len(free) + 1):
        for prefix in product(*ranges[:length]):
            if reached.get(prefix[:-1]):
                reached[prefix] = not broken(prefix)
    tried = sorted(prefix for prefix in reached if prefix)
    successes = [p for p in reached if reached[p] and len(p) == len(free)]
    if not successes:
        return False, len(tried)
    return True, sum(1 for prefix in tried if prefix <= min(successes))


class Search(unittest.TestCase):
    def test_answers_and_trials(self):
        rng = Random(2)
        for _ in range(150):
            plant = small_random_plant(rng, 200)
            assignment = random_assignment(rng, plant)
            meter = Meter(10**6)
            found = test(plant, assignment, meter)
            wanted = brute_consistent(consistent_states(plant), assignment)
            self.assertEqual(wanted, found is not None)
            self.assertEqual((wanted, meter.trials), prefix_trials(plant, assignment))

    def test_limits(self):
        rng = Random(3)
        for _ in range(150):
            plant = small_random_plant(rng, 200)
            words = random_words(rng, plant)
            for call in (test_call, reduce_call):
                ample = call(encode(plant), *words, 10**6)
                self.assertEqual(ample, call(encode(plant), *words, ample.trials))
                limit = rng.randint(0, ample.trials)
                answer = call(encode(plant), *words, limit)
                if limit < ample.trials:
                    self.assertEqual(("spent", limit, None), tuple(answer))

    def test_reduction(self):
        rng = Random(4)
        for _ in range(200):
            plant = small_random_plant(rng, 200)
            states = consistent_states(plant)
            assignment = random_assignment(rng, plant, 0.8)
            if not brute_consistent(states, assignment):
                conflict = reduce_within(plant, assignment, Meter(10**6))
                self.assertTrue(minimal(states, conflict))

    def test_refusals(self):
        for call in (test_call, reduce_call):
            self.assertEqual(14, refusal_of(call, SMALL, 1, 1, 9))
            self.assertEqual(14, refusal_of(call, SMALL, 1 << 61, 0, 9))
            self.assertEqual(15, refusal_of(call, SMALL, 1 << 63, 2 << 60, 9))
            self.assertEqual(15, refusal_of(call, SMALL, 0, 1 << 60, 9))
            self.assertEqual(15, refusal_of(call, SMALL, 0, 1, 9))
            self.assertEqual(5, refusal_of(call, SMALL[:-1], 1, 1, 9))
            self.assertIsNone(refusal_of(call, SMALL, 3 << 62, 0x11 << 56, 9))


def changed(settings, change):
    vars(settings).update(change)
    return settings


def random_settings(rng, plant):
    """Random settings over random junk, with offers of every kind."""
    k = rng.choice([1, 2, 3, 6, 40])
    states = prod(plant.sizes[: plant.decisions])
    queue = 2 * rng.choice([1, 2, 3, 5, 9, states, states, 300])
    store = 2 * rng.choice([0, 1, 2, 3, 8, 20])
    words = [rng.getrandbits(64) for _ in range(store)]
    held = rng.randint(0, store // 2) if rng.random() < 0.6 else 0
    for entry in range(held):
        offer = random_words(rng, plant, rng.choice([0.3, 0.7, 1.0]))
        offer = spoil(rng, plant, offer) if rng.random() < 0.2 else offer
        words[2 * entry : 2 * entry + 2] = offer
    width = 8 * ORDERS[plant.edition.number].width
    return Settings(
        k,
        [rng.getrandbits(64) for _ in range(k + rng.randrange(3))],
        [rng.getrandbits(width) for _ in range(k + rng.randrange(3))],
        bytearray(rng.randbytes(48 * k + rng.choice([0, 0, 1, 60]))),
        [rng.getrandbits(64) for _ in range(queue)],
        words,
        held,
        rng.choice([0, rng.randrange(60), rng.randrange(600), 10**6, 10**6]),
    )


class Listings(unittest.TestCase):
    def check_random(self, rng, order, count):
        seen = set()
        for place in range(count):
            plant = small_random_plant(rng, 300) if place % 4 else nogood_plant(rng)
            if order is PRODUCTS:
                plant = weighed(rng, plant)
            lists = []
            for _ in range(2):
                settings = random_settings(rng, plant)
                result = listing(encode(plant), settings, order)
                self.assertEqual([], check_demand3(result, plant, settings))
                self.assertEqual([], check_rest(result, plant, settings))
                seen.add((result.ending, result.struck_in_reduction))
                lists.append(run_list(result))
            self.assertTrue(begins(*lists) or begins(*reversed(lists)))
        endings = {("enough", False), ("all", False), ("full", False)}
        self.assertEqual(endings | {("spent", False), ("spent", True)}, seen)

    def test_demand3_on_random_plants(self):
        self.check_random(Random(5), COSTS, 400)

    def test_demand3_with_products(self):
        self.check_random(Random(20), PRODUCTS, 400)

    def test_exact_limit(self):
        rng = Random(6)
        for _ in range(100):
            plant = small_random_plant(rng, 300)
            settings = random_settings(rng, plant)
            settings.limit = 10**6
            ample = listing(encode(plant), settings)
            settings.limit = ample.trials
            self.assertEqual(ample, listing(encode(plant), settings))
            if ample.trials:
                settings.limit = ample.trials - 1
                self.assertEqual("spent", listing(encode(plant), settings).ending)

    def test_tested_most(self):
        most = listing_module.TESTED_MOST
        listing_module.TESTED_MOST = 2
        try:
            result = listing(SMALL, set_up())
        finally:
            listing_module.TESTED_MOST = most
        self.assertEqual([4, 1, 2, 1, 0, 13], result.words())
        self.assertFalse(result.struck_in_reduction)

    def test_host_refusals(self):
        changes = [(1, dict(k=0)), (1, dict(k=4097)), (2, dict(codes=[0] * 15))]
        changes += [(2, dict(costs=[0] * 15)), (3, dict(queue=[])), (3, dict(queue=[0] * 3))]
        changes += [(3, dict(queue=[0] * 8194)), (4, dict(store=[0])), (4, dict(held=65))]
        changes += [(4, dict(store=[0] * 8194)), (1, dict(k=0, queue=[]))]
        changes += [(19, dict(values=bytearray(n))) for n in (0, 16, 767)]
        for number, change in changes:
            settings = changed(set_up(), change)
            self.assertEqual(number, refusal_of(listing, b"", settings))

    def test_export(self):
        settings = set_up()
        before = repr(settings)
        self.assertEqual(2, export(SMALL, settings, [7] * 5))
        self.assertEqual(5, export(SMALL[:9], settings, [7] * 6))
        self.assertEqual(before, repr(settings))
        words = [7] * 8
        self.assertEqual(0, export(SMALL, settings, words))
        self.assertEqual([2, 3, 4, 1, 0, 15, 7, 7], words)
        self.assertEqual([code for _, code in P1_LIST], settings.codes[:3])
        self.assertEqual([1, 48, 96, 97], [p for p, v in enumerate(settings.values) if v])


class Counted(Run):
    """A run that counts the nodes removed."""

    removed = 0

    def take_node(self, node):
        Counted.removed += 1
        return super().take_node(node)


def ending_and_removals(sheet, settings):
    Counted.removed = 0
    return listing(sheet, settings, kind=Counted).ending, Counted.removed


class LastState(unittest.TestCase):
    """Request L2: 'all' where listing the k-th state left the queue empty."""

    def test_endings(self):
        """By brute force: with k above the number of states 'all', below it 'enough'. With
        k equal to it 'all' where asking for one more removes no further node."""
        rng = Random(9)
        seen = set()
        for place in range(300):
            plant = small_random_plant(rng, 300) if place % 2 else nogood_plant(rng)
            fitting = len(whole_set(plant))
            store = rng.choice([0, 2, 40])
            runs = {
                k: ending_and_removals(encode(plant), set_up(k, 300, store))
                for k in range(max(fitting - 1, 1), fitting + 2)
            }
            self.assertEqual("all", runs[fitting + 1][0])
            if fitting > 1:
                self.assertEqual("enough", runs[fitting - 1][0])
            if fitting:
                nothing_left = runs[fitting][1] == runs[fitting + 1][1]
                self.assertEqual("all" if nothing_left else "enough", runs[fitting][0])
                seen.add(nothing_left)
        self.assertEqual({True, False}, seen)

    def test_memory(self):
        """The list is the same whatever is offered; the ending may be another one."""
        rng = Random(10)
        seen = set()
        for _ in range(150):
            plant = nogood_plant(rng)
            fitting = len(whole_set(plant))
            if not fitting:
                continue
            end = listing(encode(plant), set_up(fitting + 1, 300, 40))
            words = end.store[: 2 * end.learned]
            offers = list(zip(words[0::2], words[1::2]))
            fresh = listing(encode(plant), set_up(fitting, 300, 40))
            knowing = listing(encode(plant), set_up(fitting, 300, 40, offers))
            self.assertEqual(run_list(end), run_list(fresh))
            self.assertEqual(run_list(end), run_list(knowing))
            seen.add((fresh.ending, knowing.ending))
        self.assertLessEqual({("enough", "all"), ("all", "all")}, seen)

    def test_complaint(self):
        """'Enough' with every full assignment listed breaks the specification."""
        plant = Plant(sheet_cases.SMALL_PLANT.costs, (), ())
        settings = set_up(4, 8, 4)
        result = listing(encode(plant), settings)
        self.assertEqual([], check_rest(result, plant, settings))
        result.ending = "enough"
        self.assertEqual(1, len(check_rest(result, plant, settings)))


class CheapestValues(unittest.TestCase):
    """Request L3: each unassigned variable at its cheapest value, the lowest on a tie."""

    def check_best(self, rng, plant, order):
        node = random_assignment(rng, plant, 0.3)
        domains = [range(len(costs)) for costs in plant.costs]
        states = product(*([x] if x is not None else d for x, d in zip(node, domains)))
        first = min(states, key=lambda state: order.key(plant, state))
        self.assertEqual(first, order.best_state(plant, node))

    def test_best_state(self):
        """By brute force: of all states of a node its best state comes first."""
        rng = Random(11)
        tied = Counter()
        for _ in range(500):
            plant = small_random_plant(rng, 300)
            self.check_best(rng, plant, COSTS)
            tied["costs"] += any(costs.count(min(costs)) > 1 for costs in plant.costs)
            plant = weighed(rng, plant)
            self.check_best(rng, plant, PRODUCTS)
            tied["weights"] += any(own.count(max(own)) > 1 for own in plant.costs)
        self.assertLess(100, min(tied["costs"], tied["weights"]))

    def test_other_values(self):
        """Stored listings tell other values from the cheapest, and these from nothing."""
        cases = listing_cases.listing_cases()
        runs = [run for run in cases if refusal_of(listing_cases.answer_run, run) is None]
        right = [listing_cases.answer_run(run) for run in runs]

        def told_apart(value_of):
            other = (listing_cases.answer_with(run, value_of) for run in runs)
            return sum(a != b for a, b in zip(right, other))

        self.assertEqual(0, told_apart(lambda costs: costs.index(min(costs))))
        for name, value_of in listing_cases.OTHER_VALUES.items():
            self.assertLess(10, told_apart(value_of), name)


JUNK = b"\x55"
FAULTS = {  # a setting that is refused, by its number; in the order of the checks
    1: dict(k=0),
    2: dict(costs=[0] * 15),
    19: dict(values=bytearray(767)),
    3: dict(queue=[0]),
    4: dict(held=65),
}

# Listed with costs 1, 2 and 3 after a test of both at 0 that fails. The first of the
# hidden variables is never 0, the second not where the first part is 1.
SHAFTS = Plant(
    ((0, 1), (0, 2)),
    (4, 3),
    (
        (Literal(2, 1, 0),),
        (Literal(0, 0, 0), Literal(3, 1, 0)),
        (Literal(0, 1, 0), Literal(1, 1, 0), Literal(2, 0, 0)),
    ),
)
SHAFTS_SHOWN = [(1, 0, 1, 1), (0, 1, 1, 0), (1, 1, 1, 1)]


def junk_set_up(**numbers):
    settings = set_up(**numbers)
    settings.values = bytearray(JUNK * len(settings.values))
    return settings


class ShownValues(unittest.TestCase):
    """Request L4: the values of all variables at the first complete success."""

    def test_first_success(self):
        """By brute force, on assignments of none, some and all decision variables."""
        rng = Random(12)
        seen = set()
        for place in range(400):
            plant = small_random_plant(rng, 300)
            if place % 2:
                plant = test_cases.middle_plant(rng, rng.randint(0, 3))
            assignment = random_assignment(rng, plant, rng.choice([0.0, 0.5, 1.0]))
            found = test(plant, assignment, Meter(10**6))
            self.assertEqual(first_success(plant, assignment), found)
            if found:
                self.assertEqual([], list(check_shown(plant, assignment, shown(found))))
                self.assertEqual(bytes(48 - len(found)), shown(found)[len(found) :])
                seen.add((test_cases.between(plant, found), None in assignment))
        self.assertEqual(set(product((True, False), repeat=2)), seen)

    def test_test_export(self):
        """48 bytes of junk: the values, zeros for another answer, or as they were."""
        rng = Random(13)
        seen = set()
        for _ in range(300):
            plant = small_random_plant(rng, 200)
            words = random_words(rng, plant)
            if rng.random() < 0.2:
                words = spoil(rng, plant, words)
            lent, result = bytearray(JUNK * 48), [7] * 3
            call = encode(plant), *words, rng.choice([0, 3, 10**6])
            number = test_export(*call, lent, result)
            self.assertEqual(7, result[2])
            seen.add((number, result[0]))
            if number:
                self.assertEqual((JUNK * 48, [7] * 3), (lent, result))
            else:
                self.assertEqual(shown(test_call(*call).found), lent)
                self.assertTrue(result[0] == 1 or not any(lent))
        self.assertEqual({(0, 1), (0, 2), (0, 3), (14, 7), (15, 7)}, seen)

    def test_short_result(self):
        """A result too short is refused before the sheet, and nothing is written."""
        for sheet in (SMALL, b""):
            lent = bytearray(JUNK * 48)
            self.assertEqual(2, test_export(sheet, 0, 0, 99, lent, [7]))
            self.assertEqual(JUNK * 48, lent)
            self.assertEqual(2, reduce_export(sheet, 0, 0, 99, [7], [7, 7]))

    def test_refusal_order(self):
        """19 comes right after 2, before 3, 4 and the sheet's own, in both calls."""
        every = (numbers for size in range(1, 6) for numbers in combinations(FAULTS, size))
        sheets = SMALL, SMALL_SECOND, b"", b"\3"
        for numbers, sheet, order in product(every, sheets, ORDERS.values()):
            settings = junk_set_up()
            for number in numbers:
                changed(settings, FAULTS[number])
            before = repr(settings)
            self.assertEqual(numbers[0], refusal_of(listing, sheet, settings, order))
            self.assertEqual(numbers[0], export(sheet, settings, [7] * 6, order))
            self.assertEqual(before, repr(settings))
        short = changed(junk_set_up(), FAULTS[19])
        self.assertEqual([2, 19], [export(SMALL, short, [7] * words) for words in (5, 6)])

    def test_length(self):
        """48 times k bytes are enough, and one byte less is refused."""
        for k in (1, 2, 5, 6, 16, 1365, 1366, 4096):
            for length, number in [(48 * k, None), (48 * k - 1, 19), (k, 19), (0, 19)]:
                settings = changed(set_up(k, 8), dict(values=bytearray(length)))
                self.assertEqual(number, refusal_of(listing, SMALL, settings))

    def test_lent_bytes(self):
        """Each listed state's bytes in their place, and junk beyond the last."""
        wanted = [bytes(values).ljust(48, b"\0") for values in SHAFTS_SHOWN]
        for k in (1, 2, 3, 4):
            for spare in (0, 1, 47, 48, 500):
                settings = junk_set_up(k=k, queue=8, store=4)
                settings.values += JUNK * spare
                result = listing(encode(SHAFTS), settings)
                own = b"".join(wanted[: result.listed])
                self.assertEqual(min(k, 3), result.listed)
                self.assertEqual(own + JUNK * (48 * k + spare - len(own)), result.values)

    def test_nothing_listed(self):
        """Tests of offers and of reductions succeed, and no byte changes."""
        offers = [(1 << 63, 1 << 60)]
        for limit in range(14):
            settings = junk_set_up(offers=offers, limit=limit)
            result = listing(SMALL, settings)
            self.assertEqual((0, "spent"), (result.listed, result.ending))
            self.assertEqual(JUNK * 768, result.values)

    def test_same_state(self):
        """Two runs that list one state show the same of it."""
        rng = Random(14)
        alike = 0
        for _ in range(120):
            plant = test_cases.middle_plant(rng, rng.randint(1, 3))
            seen = {}
            for _ in range(3):
                result = listing(encode(plant), random_settings(rng, plant))
                for place, code in enumerate(result.codes[: result.listed]):
                    own = shown_at(result.values, place)
                    alike += code in seen
                    self.assertEqual(own, seen.setdefault(code, own))
        self.assertLess(100, alike)


def put(place, values):
    """Writes these values at a place."""

    def change(buffer):
        buffer[place : place + len(values)] = values

    return change


def copy(place, source):
    """Shows at one place of the list what another one shows."""

    def change(buffer):
        buffer[48 * place : 48 * place + 48] = shown_at(buffer, source)

    return change


class ValueImpostors(unittest.TestCase):
    """Demand 3's check complains of each of these, and says why."""

    def complaints(self, change):
        settings = junk_set_up(k=5, queue=8, store=4)
        result = listing(encode(SHAFTS), settings)
        self.assertEqual([], check_demand3(result, SHAFTS, settings))
        self.assertEqual(SHAFTS_SHOWN, [tuple(result.values[p : p + 4]) for p in (0, 48, 96)])
        result.values = bytearray(result.values)
        change(result.values)
        return check_demand3(result, SHAFTS, settings)

    def test_complaints(self):
        for why, change in [
            ("the values do not agree", copy(1, 0)),
            ("the values break a clause", put(0, bytes(48))),
            ("the values are not the first", put(2, [3])),
            ("the values are not the first", put(3, [2])),
            ("the values break a clause", put(0, [0, 0, 3, 0])),
            ("the values are not the first", put(96, JUNK * 48)),
            ("a value is outside", put(48, JUNK * 48)),
            ("a value is outside", put(2, [4])),
            ("a byte beyond the variables", put(4, [1])),
            ("a byte beyond the variables", put(143, [1])),
            ("values beyond the listed", put(144, [0])),
            ("values beyond the listed", put(239, [0])),
            ("values changed its length", put(240, [0])),
        ]:
            complaints = self.complaints(change)
            self.assertTrue(any(c.startswith(why) for c in complaints), (why, complaints))

    def test_agreement(self):
        """Values that satisfy every clause, of a state that is not the code's."""
        found = self.complaints(copy(2, 1))
        self.assertIn("the values do not agree with what was assigned", found)
        self.assertNotIn("the values break a clause", found)

    def test_exchanged(self):
        def exchange(buffer):
            buffer[:96] = buffer[48:96] + buffer[:48]

        self.assertNotEqual([], self.complaints(exchange))


class Incremental(Run):
    """The rule of request L5 one entry at a time: one that contains a stored one is
    dropped, and otherwise pushes out those that contain it."""

    def check_offered(self, offered):
        for words in offered:
            before = len(self.found)
            self.check_entry(*words)
            for entry in self.found[before:]:
                self.put_in_store(entry)

    def put_in_store(self, entry):
        if any(manifests(entry, stored) for stored in self.store):
            return
        for place in reversed(range(len(self.store))):
            if manifests(self.store[place], entry):
                del self.store[place]
        self.store.append(entry)

    def learn(self, state):
        before = self.store
        super().learn(state)
        conflict, self.store = self.store[-1], before
        self.put_in_store(conflict)


class Learning(Run):
    """A run that keeps what it learned, and finds it to contain no stored entry."""

    def __init__(self, *given):
        super().__init__(*given)
        self.conflicts = []

    def learn(self, state):
        before = self.store
        super().learn(state)
        self.conflicts.append(self.store[-1])
        if any(manifests(self.store[-1], entry) for entry in before):
            raise AssertionError("a learned conflict contains a stored one")


def offering(text, store=8, limit=1_000_000, **settings):
    """Settings with these entries offered."""
    return set_up(store=store, offers=offers_of(text), limit=limit, **settings)


def related_settings(rng, plant):
    """Offers that contain one another, in stores that are full, nearly full or not."""
    entries = [random_assignment(rng, plant, chance) for chance in (0.3, 0.6, 0.6, 1.0)]
    offers = relatives(rng, plant, entries, rng.randint(1, 9))
    store = len(offers) + rng.choice([0, 0, 1, 2, 9])
    limit = rng.choice([10**6, 10**6, rng.randrange(60), rng.randrange(300)])
    return set_up(rng.choice([1, 3, 40]), 300, store, list(map(to_words, offers)), limit)


class ShortReasons(unittest.TestCase):
    """Request L5: no stored conflict contains another."""

    def check(self, text, left, words, plant=STEPS_PLANT, **numbers):
        """These offers leave these entries, with this ending and these tallies."""
        settings = offering(text, **numbers)
        result = listing(encode(plant), settings)
        self.assertEqual(words, f"{result.ending} " + " ".join(map(str, result.words()[1:])))
        kept = [word for offer in offers_of(left) for word in offer]
        self.assertEqual(kept + [0] * (len(result.store) - len(kept)), result.store)
        self.assertEqual([], check_demand3(result, plant, settings))
        return result

    def check_offers(self, text, left, trials):
        """Survivors of step 1, each offer tested: the limit strikes right behind it."""
        self.check(text, left, f"spent 0 0 0 0 {trials}", limit=trials)

    def test_pairs(self):
        for text in ("00. 0..", "0.. 00."):
            self.check_offers(text, "0..", 20)
        self.check_offers("0.. 0..", "0..", 28)
        self.check_offers("00. 00. 00.", "00.", 18)
        self.check_offers("01. 00.", "01. 00.", 12)
        self.check_offers("0.1 00.", "0.1 00.", 12)

    def test_chains(self):
        for chain in permutations(("0..", "00.", "000")):
            self.check_offers(" ".join(chain), "0..", 22)
        for chain in permutations(("00.", "000", "001")):
            self.check_offers(" ".join(chain), "00.", 10)

    def test_apart(self):
        """Others between them keep their order, and all close up."""
        for text, left in [
            ("00. 11. 0..", "11. 0.."),
            ("0.. 11. 00.", "0.. 11."),
            ("00. 110 0.. 11.", "0.. 11."),
            ("110 00. 11. 0..", "11. 0.."),
            ("11. 0.. 110 00.", "11. 0.."),
        ]:
            trials = sum({1: 14, 2: 6, 3: 2}[3 - row.count(".")] for row in text.split())
            self.check_offers(text, left, trials)

    def test_first_of_equal(self):
        self.check_offers("0.. 11. 0..", "0.. 11.", 34)
        self.check_offers("11. 0.. 11. 0..", "11. 0..", 40)
        self.check_offers("11. 00. 11. 00. 000", "11. 00.", 26)

    def test_still_tested(self):
        """Of an offer that contains an earlier one the trials are made and counted."""
        self.check("0..", "0.. .1.", "all 2 3 1 0 48")
        self.check("0.. 00.", "0.. .1.", "all 2 3 1 0 54")
        self.check("0.. 0..", "0.. .1.", "all 2 3 1 0 62")

    def test_consistent_and_ill_formed(self):
        """What is not found inconsistent pushes nothing out."""
        self.check("1.. 11. 0..", "11. 0..", "all 2 2 0 0 25")
        self.check("... 00. 11. 0..", "11. 0..", "all 2 2 0 0 47")
        spoilt = [(1 << 63 | 1, 0), *offers_of("00."), (0, 1), *offers_of("11.")]
        result = listing(encode(STEPS_PLANT), set_up(store=8, offers=spoilt, limit=12))
        self.assertEqual([3 << 62, 0, 3 << 62, 0x11 << 56, 0], result.store[:5])

    def test_struck(self):
        """The limit strikes in step 1: the rule is for those checked so far, and the
        entry under test is not among them."""
        for limit, left in [(5, ""), (6, "00."), (19, "00."), (20, "0.."), (25, "0..")]:
            self.check("00. 0.. 11.", left, f"spent 0 0 0 0 {limit}", limit=limit)
        for limit, left in [(13, ""), (14, "0.."), (19, "0.."), (20, "0.."), (25, "0..")]:
            self.check("0.. 00. 11.", left, f"spent 0 0 0 0 {limit}", limit=limit)
        for limit in (6, 11, 12, 25):
            self.check("11. 11. 0..", "11.", f"spent 0 0 0 0 {limit}", limit=limit)

    def test_pushed_out(self):
        """By a learned conflict, one and several at once; the tally counts what was
        learned, and the learned one comes last."""
        self.check("01.", "0.. .1.", "all 2 4 2 0 67")
        self.check("01. 11.", "11. 0..", "all 2 3 1 0 41")
        self.check("010 11. 011 001", "11. 0..", "all 2 3 1 0 41")
        self.check("11. 01. 0.1", "11. 0..", "all 2 3 1 0 47")

    def test_struck_in_reduction(self):
        """What is not learned pushes nothing out."""
        for limit in (8, 32):
            result = self.check("01.", "01.", f"spent 0 1 0 0 {limit}", limit=limit)
            self.assertTrue(result.struck_in_reduction)
        self.check("01.", "0..", "spent 0 1 1 0 33", limit=33)

    def test_full_store(self):
        """Asked before the reduction: it is skipped, though one would be pushed out."""
        self.check("01. 11.", "01. 11.", "all 2 4 0 2 18", store=2)
        self.check("010 011 001", "010 011 001", "all 2 5 0 3 14", store=3)
        self.check("01.", "01.", "all 2 6 0 4 16", store=1)

    def test_room_made(self):
        """What was dropped or pushed out leaves room for learned ones."""
        self.check("01.", "0.. .1.", "all 2 4 2 0 67", store=2)
        self.check("00. 0..", "0.. .1.", "all 2 3 1 0 54", store=2)
        self.check("0.. 0..", "0.. .1.", "all 2 3 1 0 62", store=2)

    def test_empty(self):
        """The empty assignment is left alone: nothing is searched then."""
        for text, trials in [("... 0..", 44), ("0.. ...", 44), ("0.. ... 11.", 50)]:
            self.check(text, "...", f"all 0 0 0 0 {trials}", NOTHING_FITS)
        self.check("0.. ...", "0..", "spent 0 0 0 0 43", NOTHING_FITS, limit=43)
        self.check("0..", "...", "all 0 1 1 0 66", NOTHING_FITS)
        self.check("000 111 01.", "...", "all 0 1 1 0 62", NOTHING_FITS)
        self.check("0..", "0..", "all 0 4 0 4 22", NOTHING_FITS, store=1)

    def test_by_definition(self):
        """Survivors contain no other, each entry found contains one of them, and they
        stand in the order of the first of each."""
        rng = Random(15)
        dropped = 0
        for _ in range(500):
            plant = small_random_plant(rng, 300)
            entries = [random_assignment(rng, plant) for _ in range(rng.randint(1, 3))]
            found = relatives(rng, plant, entries, rng.randint(0, 8))
            left = survivors(found)
            self.assertFalse(any(contains(a, b) for a, b in permutations(left, 2)))
            self.assertTrue(all(any(contains(e, l) for l in left) for e in found))
            places = [found.index(entry) for entry in left]
            self.assertEqual(sorted(set(places)), places)
            dropped += len(left) < len(found)
        self.assertLess(300, dropped)

    def test_incremental(self):
        """Random offers, one entry at a time and all at once: the same results."""
        rng = Random(16)
        seen = Counter()
        for place in range(500):
            plant = small_random_plant(rng, 300) if place % 2 else nogood_plant(rng)
            settings = related_settings(rng, plant)
            watch = Watch()
            result = listing(encode(plant), settings, kind=watch)
            self.assertEqual(result, listing(encode(plant), settings, kind=Incremental))
            self.assertEqual([], check_demand3(result, plant, settings))
            self.assertEqual([], check_rest(result, plant, settings))
            seen.update(rules_met(watch.run))
            seen["several at once"] += len(pushed_out(watch.run)) > result.learned
        for name in ("longer dropped", "equal dropped", "pushed out", "several at once"):
            self.assertLess(20, seen[name], name)

    def test_learned_remain(self):
        """A learned conflict contains no stored one and is never pushed out."""
        rng = Random(17)
        learned = 0
        for _ in range(200):
            plant = nogood_plant(rng)
            settings = related_settings(rng, plant)
            watch = Watch(Learning)
            result = listing(encode(plant), settings, kind=watch)
            own = watch.run.conflicts
            self.assertEqual(own, watch.run.store[len(watch.run.store) - len(own) :])
            self.assertEqual(len(own), result.learned)
            learned += len(own)
        self.assertLess(200, learned)

    def test_list(self):
        """The list is the same whatever was offered."""
        rng = Random(18)
        pairs = 0
        for _ in range(200):
            plant = nogood_plant(rng)
            lists = []
            for _ in range(2):
                lists.append(run_list(listing(encode(plant), related_settings(rng, plant))))
            self.assertTrue(begins(*lists) or begins(*reversed(lists)))
            pairs += all(lists)
        self.assertLess(50, pairs)

    def test_other_rules(self):
        """Stored listings tell other rules from this one, and this one from nothing."""
        runs = listing_cases.short_reason_runs()
        right = [listing_cases.answer_run(run) for run in runs]

        def told_apart(kind):
            return sum(a != answer_by(run, kind) for a, run in zip(right, runs))

        self.assertEqual(0, told_apart(Run))
        self.assertEqual(0, told_apart(Incremental))
        for name, kind in OTHER_RULES.items():
            self.assertLess(2, told_apart(kind), name)


def rows(*weights):
    return Plant(weights, (), (), SECOND)


def products_of(plant, **numbers):
    """Products and codes listed; the codes as the digits of the decision variables."""
    result = listing(encode(plant), set_up(**numbers), PRODUCTS)
    return [(p, f"{code:016x}"[: plant.decisions]) for p, code in run_list(result)]


class Weights(unittest.TestCase):
    """Request L6: edition 2 of the sheet, and the call that lists it by products."""

    def test_sheets(self):
        self.assertEqual(SMALL_SECOND, encode(sheet_cases.SMALL_WEIGHED))
        rng = Random(21)
        for _ in range(100):
            plant = weighed(rng, small_random_plant(rng))
            self.assertEqual(plant, read(encode(plant), SECOND))
            self.assertEqual(plant, read_either(encode(plant)))
            self.assertEqual(6, refusal_of(read, encode(plant)))
        longest = sheet_cases.longest_weighed(rng)
        self.assertEqual(10_968, len(encode(longest)))
        self.assertEqual(longest, read(encode(longest), SECOND))

    def test_every_cut(self):
        for length in range(len(SMALL_SECOND)):
            self.assertEqual(5, refusal_of(read, SMALL_SECOND[:length], SECOND))

    def test_borders(self):
        """D 1 to 8, weights 1 to 255; D 0, 9 and more are 7 in edition 2 alone."""
        for decisions in range(1, 9):
            plant = rows(*[(1, 128, 255)] * decisions)
            self.assertEqual(plant, read(encode(plant), SECOND))
        for decisions in range(9, 17):
            sheet = encode(rows(*[(1,)] * decisions))
            self.assertEqual(7, refusal_of(read, sheet, SECOND))
            costs = Plant(((1,),) * decisions, (), ())
            self.assertEqual(costs, read(encode(costs)))
        zero = Plant(((0, 0),), (), ())
        self.assertEqual(zero, read(encode(zero)))
        for weights in ((0,), (1, 0), (255, 1, 0)):
            self.assertEqual(20, refusal_of(read, encode(rows(weights)), SECOND))

    def test_small_plant(self):
        """The tallies of P1 to P9, with products for costs."""
        own = [(3, "01"), (3, "10"), (1, "11")]
        for words, count, numbers in [
            ("2 3 4 1 0 15", 3, {}),
            ("1 1 2 1 0 13", 1, dict(k=1)),
            ("2 3 4 1 0 15", 3, dict(k=3)),
            ("3 0 0 0 0 0", 0, dict(queue=2)),
            ("4 2 3 1 0 14", 2, dict(limit=14)),
            ("4 0 1 0 0 5", 0, dict(limit=5)),
            ("2 3 3 0 0 5", 3, dict(offers=[(3 << 62, 0)])),
            ("2 3 4 1 0 17", 3, dict(offers=[(1 << 63, 1 << 60)])),
        ]:
            result = listing(SMALL_SECOND, set_up(**numbers), PRODUCTS)
            self.assertEqual(words, " ".join(map(str, result.words())))
            self.assertEqual(own[:count], products_of(sheet_cases.SMALL_WEIGHED, **numbers))

    def test_lists(self):
        for plant, own in [
            (rows((9, 5), (1, 5)), "45 01 25 11 9 00 5 10"),
            (rows((6, 3, 2), (1, 2, 3)), "18 02 12 01 9 12 6 00 6 11 6 22 4 21 3 10 2 20"),
            (rows((5, 5), (7, 7)), "35 00 35 01 35 10 35 11"),
            (rows((1, 255)), "255 1 1 0"),
            (rows(*[(1,)] * 8), "1 00000000"),
            (rows(*[(255,)] * 8), f"{255**8} 00000000"),
            (rows(*[(255,)] * 7, (200, 254)), f"{255**7 * 254} 00000001 {255**7 * 200} 00000000"),
        ]:
            words = " ".join(f"{figure} {code}" for figure, code in products_of(plant))
            self.assertEqual(own, words)
        self.assertLess(2**63, 255**8)
        self.assertLess(255**8, 2**64)

    def test_each_its_own_edition(self):
        """Each listing call gives 6 to the other's edition; test and reduction take
        both, and give 6 to any other; tables and the program keep to edition 1."""
        for sheet, numbers in [
            (SMALL, [None, 6, None, None, None]),
            (SMALL_SECOND, [6, None, None, None, 6]),
            (b"", [5] * 5),
            *((bytes([n]) + SMALL[1:], [6] * 5) for n in (0, 3, 255)),
            *((bytes([n]) + SMALL_SECOND[1:], [6] * 5) for n in (0, 3, 128, 130, 255)),
        ]:
            got = [refusal_of(listing, sheet, set_up(), order) for order in (COSTS, PRODUCTS)]
            got += [refusal_of(call, sheet, 0, 0, 99) for call in (test_call, reduce_call)]
            got.append(refusal_of(read_tables, sheet))
            self.assertEqual(numbers, got)
        self.assertEqual("refused 6\n", leading(SMALL_SECOND))

    def test_weights_bear_on_no_test(self):
        rng = Random(22)
        names = Counter()
        for _ in range(200):
            plant = small_random_plant(rng, 200)
            words = random_words(rng, plant)
            sheets = encode(plant), encode(weighed(rng, plant))
            limit = rng.choice([0, 3, 10**6])
            for call in (test_call, reduce_call):
                first, second = (call(sheet, *words, limit) for sheet in sheets)
                self.assertEqual(first, second)
                names[second.name] += 1
        for name in ("consistent", "inconsistent", "none", "conflict", "spent"):
            self.assertLess(10, names[name], name)

    def test_export(self):
        settings = set_up()
        before = repr(settings)
        self.assertEqual(2, export(SMALL_SECOND, settings, [7] * 5, PRODUCTS))
        self.assertEqual(5, export(SMALL_SECOND[:9], settings, [7] * 6, PRODUCTS))
        self.assertEqual(6, export(SMALL, settings, [7] * 6, PRODUCTS))
        self.assertEqual(before, repr(settings))
        words = [7] * 8
        self.assertEqual(0, export(SMALL_SECOND, settings, words, PRODUCTS))
        self.assertEqual([2, 3, 4, 1, 0, 15, 7, 7], words)
        self.assertEqual([3, 3, 1, 0], settings.costs[:4])
        self.assertEqual([0x01 << 56, 0x10 << 56, 0x11 << 56, 0], settings.codes[:4])


def zero_first(sheet):
    """A reader's refusal that takes bits past the end for zeros: 20 before 5."""
    numbers = [refusal_of(read_either, own) for own in (sheet, sheet + b"\0")]
    return 20 if numbers == [5, 20] else numbers[0]


class WeightImpostors(unittest.TestCase):
    """Stored cases tell each of these from the right call; of lists demand 3's check
    complains as well."""

    def test_other_orders(self):
        told, complained = Counter(), Counter()
        for run in listing_cases.weighed_runs():
            if refusal_of(listing_cases.answer_run, run) is None:
                right, plant = listing_cases.answer_run(run), read_either(run.sheet)
                settings = listing_cases.settings_of(run)
                for name, order in OTHER_ORDERS.items():
                    other = listing(run.sheet, settings, order)
                    if other != right:
                        told[name] += 1
                        brute = prod(plant.sizes) <= 3000
                        complained[name] += brute and check_demand3(other, plant, settings) != []
        for name in OTHER_ORDERS:
            self.assertLess(2, told[name], name)
            self.assertLess(0, complained[name], name)

    def test_other_sheets(self):
        """A weight of zero taken, and nine decision variables."""
        for name, order in OTHER_SHEETS.items():
            numbers = Counter()
            for sheet in sheet_cases.weighed_cases():
                right = refusal_of(read, sheet, SECOND)
                numbers[right] += right != refusal_of(read, sheet, order.edition)
            self.assertLess(2, sum(numbers.values()), name)
            runs = [run for run in listing_cases.weighed_runs() if run.call == 2]
            answers = (refusal_of(listing_cases.answer_run, run) for run in runs)
            others = (
                refusal_of(listing, run.sheet, listing_cases.settings_of(run), order)
                for run in runs
            )
            self.assertLess(0, sum(a != b for a, b in zip(answers, others)), name)

    def test_zero_first(self):
        """20 before 5."""
        told = sum(zero_first(s) != refusal_of(read_either, s) for s in sheet_cases.weighed_cases())
        self.assertLess(3, told)

    def test_other_edition(self):
        """The other's edition taken by a listing call; edition 2 refused by a test or a
        reduction."""
        taken, refused = Counter(), Counter()
        for run in listing_cases.weighed_runs():
            if refusal_of(listing_cases.answer_run, run) == 6:
                taken[run.call] += refusal_of(read_either, run.sheet) is None
        for call in test_cases.test_cases():
            if refusal_of(test_cases.answer_call, call) is None:
                refused[call.kind] += refusal_of(read, call.sheet) == 6
        self.assertLess(0, min(taken[1], taken[2]))
        self.assertLess(10, min(refused[0], refused[1]))


class StoreImpostors(unittest.TestCase):
    """Demand 3's check complains of each of these stores, and says why."""

    def complaints(self, offered, left, learned=0, **changes):
        settings = offering(offered)
        result = listing(encode(STEPS_PLANT), settings)
        self.assertEqual([], check_demand3(result, STEPS_PLANT, settings))
        kept = [word for offer in offers_of(left) for word in offer]
        result.store = kept + [0] * (16 - len(kept))
        result.learned = learned
        vars(result).update(changes)
        return list(check_store(result, STEPS_PLANT, settings))

    def test_complaints(self):
        containing = "a stored entry contains another"
        gone = "an offer is gone that contains no stored entry"
        for offered, left, learned, why in [
            ("00. 0..", "00. 0.. .1.", 1, containing),
            ("00. 0..", "00. .1.", 1, gone),
            ("0.. 0..", "0.. 0.. .1.", 1, containing),
            ("0.. 0..", ".1.", 1, gone),
            ("00. 11. 0..", "00. 11. 0..", 0, containing),
            ("0.. 11. 0..", "11. 0..", 0, "the survivors are not in the order of the offers"),
            ("0.. 11.", "11. 0..", 0, "the survivors are not in the order of the offers"),
            ("01. 11.", "01. 11. 0..", 1, containing),
            ("01. 11.", "0.. 11.", 1, "a survivor was not offered"),
            ("01. 11.", "... 11. 0..", 1, containing),
            ("01. 11.", "... 11. 0..", 1, "a stored entry is consistent"),
            ("01. 11.", "11. 0..", 0, "a survivor was not offered"),
            ("01. 11.", "11. 00.", 1, "a learned conflict is not minimal"),
            ("01. 11.", "11. 0.. 1..", 2, "a stored entry is consistent"),
            ("01. 11.", "0..", 2, "the store is not survivors, learned, zeros"),
            ("01. 11.", "11. 02.", 1, "the store is not survivors, learned, zeros"),
        ]:
            self.assertIn(why, self.complaints(offered, left, learned), (offered, left))

    def test_right_stores(self):
        self.assertEqual([], self.complaints("00. 0..", "0.. .1.", 1))
        self.assertEqual([], self.complaints("01. 11.", "11. 0..", 1))

    def test_struck(self):
        """Where the limit may have struck in step 1 those behind are not asked for,
        and those before the last that survives are."""
        struck = dict(ending="spent", tested=0)
        gone = ["an offer is gone that contains no stored entry"]
        for left in ("", "00.", "0..", "0.. 11."):
            self.assertEqual([], self.complaints("00. 0.. 11.", left, **struck))
        self.assertEqual(gone, self.complaints("00. 0.. 11.", "11.", **struck))
        self.assertEqual(gone, self.complaints("00. 0.. 11.", "0.."))


class Impostors(unittest.TestCase):
    """Demand 3's check complains of each of these."""

    def complaint(self, changes, plant=sheet_cases.SMALL_PLANT):
        settings = set_up(k=5, queue=8, store=4)
        result = listing(encode(plant), settings, ORDERS[plant.edition.number])
        self.assertEqual([], check_demand3(result, plant, settings))
        for name, change in changes.items():
            change(getattr(result, name)) if callable(change) else setattr(result, name, change)
        return check_demand3(result, plant, settings)

    def test_complaints(self):
        for changes in [
            dict(listed=2),
            dict(listed=2, tested=3),
            dict(ending="enough"),
            dict(tested=5),
            dict(tested=5, unkept=1, codes=lambda c: c.reverse()),
            dict(struck_in_reduction=True, tested=5),
            dict(unkept=1),
            dict(learned=0, tested=3),
            dict(costs=lambda c: c.__setitem__(0, 2)),
            dict(costs=lambda c: c.__setitem__(3, 2)),
            dict(codes=lambda c: c.__setitem__(0, 0x10 << 56)),
            dict(codes=lambda c: c.__setitem__(4, 1)),
            dict(queue=lambda q: q.__setitem__(15, 1)),
            dict(store=lambda s: s.__setitem__(0, 1 << 63)),
            dict(store=lambda s: s.__setitem__(7, 1)),
            dict(store=lambda s: s.append(0)),
        ]:
            self.assertNotEqual([], self.complaint(changes), changes)
            self.assertNotEqual([], self.complaint(changes, sheet_cases.SMALL_WEIGHED), changes)


def small_space(run):
    try:
        plant = read_either(run.sheet)
    except Refusal:
        return None
    return plant if prod(plant.sizes) <= 3000 else None


class Stream:
    """Reads a stdin stream back as README.md describes it."""

    def __init__(self, data):
        self.data = data

    def bytes(self, length):
        taken, self.data = self.data[:length], self.data[length:]
        return taken

    def number(self, width):
        return int.from_bytes(self.bytes(width), "big")

    def block(self):
        return self.bytes(self.number(2))

    def call(self):
        kind = self.number(1)
        return test_cases.Call(kind, self.block(), *map(self.number, (8, 8, 4)))

    def run(self):
        call = self.number(1)
        lent = self.block(), *map(self.number, (4, 2, 2, 4, 2, 2, 2, 4))
        given = tuple(self.number(8) for _ in range(self.number(2)))
        return listing_cases.Run(*lent, given, call)

    def costs(self):
        return tuple(self.number(2) for _ in range(self.number(2)))

    def writing(self):
        numbers = [self.number(4) for _ in range(3)]
        tables = Tables(*numbers, self.block(), self.costs(), self.block(), self.block())
        return table_cases.Writing(tables, self.number(2), self.number(1))


class Vectors(unittest.TestCase):
    def test_streams(self):
        readers = {"sheets": Stream.block, "tests": Stream.call, "listings": Stream.run}
        readers["tables"] = Stream.writing
        for name, reader in readers.items():
            make, to_bytes, _ = vectors.STREAMS[name]
            cases = make()
            stream = Stream(b"".join(map(to_bytes, cases)))
            self.assertEqual(cases, [reader(stream) for _ in cases])
            self.assertEqual(b"", stream.data)

    def test_listings(self):
        seen = set()
        for run in listing_cases.listing_cases():
            self.assertLessEqual(len(run.given), run.store)
            settings = listing_cases.settings_of(run)
            number = refusal_of(listing_cases.answer_run, run)
            seen.add(number)
            plant = small_space(run)
            if number is None and plant:
                result = listing_cases.answer_run(run)
                self.assertEqual([], check_demand3(result, plant, settings))
                self.assertEqual([], check_rest(result, plant, settings))
                seen.add((result.ending, result.struck_in_reduction))
                if result.listed == settings.k == len(whole_set(plant)):
                    seen.add((result.ending, "last"))
        self.assertLessEqual({*range(1, 14), 19, 20, ("spent", False), ("spent", True)}, seen)
        self.assertLessEqual({("enough", False), ("all", False), ("full", False)}, seen)
        self.assertLessEqual({("enough", "last"), ("all", "last")}, seen)

    def test_values(self):
        """What the listings show of hidden variables, and the lengths lent for it."""
        seen, lengths = set(), set()
        for run in listing_cases.listing_cases():
            self.assertLessEqual(run.values, 196_700)
            lengths.add((run.k, run.values - 48 * run.k))
            if refusal_of(listing_cases.answer_run, run) is None:
                result, plant = listing_cases.answer_run(run), read_either(run.sheet)
                hidden = len(plant.state_sizes)
                for place in range(min(result.listed, 40)):
                    found = shown_at(result.values, place)
                    seen.add((hidden in (0, 32) and hidden, test_cases.between(plant, found)))
                if result.listed == run.k == 1 < result.tested:
                    seen.add("listed after a failure")
                if result.listed == 4096:
                    seen.add("the longest list")
        self.assertLessEqual({"listed after a failure", "the longest list"}, seen)
        self.assertLessEqual({(False, True), (0, False), (32, True), (32, False)}, seen)
        self.assertLessEqual(set(product((1, 2, 16, 4096), (-1, 0, 1))), lengths)

    def test_short_reasons(self):
        """Ways in which the listings' entries go, and in which they stay."""
        seen = Counter()
        for run in listing_cases.short_reason_runs():
            watch = Watch()
            result = answer_by(run, watch)
            found, gone, met = watch.run.found, pushed_out(watch.run), rules_met(watch.run)
            seen.update(met)
            seen["both"] += {"longer dropped", "pushed out"} <= met
            seen["several dropped"] += len(survivors(found)) < len(set(found)) - 1
            seen["several pushed out"] += len(gone) > result.learned
            seen["some remain"] += 0 < len(gone) < len(survivors(found))
            seen["nothing gone"] += bool(found) and not met
            if result.ending == "spent" and result.tested == 0 and not watch.run.queue:
                seen.update(f"{name}, struck" for name in met)  # in step 1
            seen["struck in a reduction"] += bool(found) and result.struck_in_reduction
            seen["full"] += result.unkept > 0 and answer_by(run, FullReduces) != result
            seen["alone"] += (None,) * watch.run.plant.decisions in watch.run.store
        for name in ("longer dropped", "equal dropped", "pushed out"):
            self.assertLess(12, seen[name], name)
        for name in ("both", "several dropped", "several pushed out", "some remain"):
            self.assertLess(2, seen[name], name)
        for name in ("longer dropped, struck", "equal dropped, struck"):
            self.assertLess(2, seen[name], name)
        for name in ("struck in a reduction", "nothing gone"):
            self.assertLess(2, seen[name], name)
        self.assertLess(4, min(seen["full"], seen["alone"]))

    def test_sheets(self):
        cases = sheet_cases.sheet_cases()
        numbers = {refusal_of(read_either, sheet) for sheet in cases}
        self.assertEqual({None, *range(5, 14), 20}, numbers)
        self.assertLessEqual({0, 11355, 11356, 11357}, set(map(len, cases)))
        self.assertLessEqual({sheet for pair in sheet_cases.cut_literals() for sheet in pair}, set(cases))

    def test_second_sheets(self):
        """Sheets read as edition 2 have every refusal but 6, which other first bytes get."""
        cases = [sheet for sheet in sheet_cases.sheet_cases() if sheet[:1] == b"\2"]
        numbers = Counter(refusal_of(read_either, sheet) for sheet in cases)
        self.assertEqual({None, 5, *range(7, 14), 20}, set(numbers))
        self.assertLess(10, min(numbers[None], numbers[20], numbers[7]))
        self.assertLessEqual({10_967, 10_968, 10_969}, set(map(len, cases)))

    def test_weights(self):
        """What the listings of edition 2's call answer, and the products they fill in."""
        seen, numbers = Counter(), {1: set(), 2: set()}
        for run in listing_cases.weighed_runs():
            number = refusal_of(listing_cases.answer_run, run)
            numbers[run.call].add(number)
            if number is None:
                result = listing_cases.answer_run(run)
                own = result.costs[: result.listed]
                seen[result.ending] += 1
                seen["equal"] += len(set(own)) < len(own)
                seen["above 2^32"] += max(own, default=0) > 2**32
                seen["around 2^63"] += any(a > 2**63 > b for a, b in zip(own, own[1:]))
                seen["the greatest"] += own == [255**8]
                seen["offered"] += run.held > 0
        self.assertEqual({1: {6}, 2: {None, *range(1, 14), 19, 20}}, numbers)
        for name in ("all", "enough", "full", "spent", "equal", "above 2^32", "around 2^63"):
            self.assertLess(3, seen[name], name)
        self.assertLess(0, min(seen["the greatest"], seen["offered"]))

    def test_calls(self):
        lines = {test_cases.call_line(call).split()[0] for call in test_cases.test_cases()}
        names = {"refused", "consistent", "inconsistent", "spent", "none", "conflict"}
        self.assertEqual(names, lines)

    def test_shown(self):
        """A test's line ends with the checksum of what brute force shows, or of zeros."""
        zeros = sheet_cases.fnv(bytes(48))
        seen = set()
        for call in test_cases.test_cases():
            name, *words = test_cases.call_line(call).split()
            if call.kind == 0:
                self.assertEqual(2, len(words))
                self.assertTrue(name == "consistent" or words[1] == zeros)
                seen.add((name, words[1] == zeros))
            elif name != "conflict":
                self.assertEqual(1, len(words))
            plant = small_space(call)
            if plant and name == "consistent":
                first = first_success(plant, well_formed(plant, call.mask, call.values))
                self.assertEqual(sheet_cases.fnv(shown(first)), words[1])
        self.assertLessEqual({("consistent", True), ("consistent", False)}, seen)

    def test_tables(self):
        cases = table_cases.table_cases()
        lines = [table_cases.writing_line(case).split() for case in cases]
        refused = {int(line[1]) for line in lines if line[0] == "refused"}
        self.assertEqual({*range(7, 12), 16, 17, 18}, refused)
        written = {int(line[1]) for line in lines if line[0] == "wrote"}
        self.assertLessEqual({7, 20, 11_356}, written)


if __name__ == "__main__":
    unittest.main()
