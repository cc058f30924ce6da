"""The archive against the outside program at scale; README.md has the command.

`replay.c` calls the archive; here the cases are made, every lent word is
compared, demand 3 is checked, and the lists of one sheet are held together.
Tests and reductions are compared likewise, and checked by brute force; so are
tables written to sheets and sheets read into tables, in `table_scale.py`.
"""

import argparse
import sys
from collections import Counter
from copy import copy
from itertools import combinations
from math import prod
from random import Random

sys.dont_write_bytecode = True

from cases import LIST, LIST_WEIGHTS, REDUCE, TEST, Case, Shape, any_call, any_case
from cases import crowded_plant, either_plant, junk, lend, put_offers, shaft_plant
from cases import tied_plant, wide_plant
from driver import SHOWN_MOST, Answer, Tally, batches, buffers_of, in_words, run_batch
from listing import ENDINGS, ORDERS, Result, Run, Settings, export, manifests
from plant import encode, read_either
from pushed import Watch, rules_met
from search import ANSWER_WORDS, CONFLICT_WORDS, REDUCE_ANSWERS, STATE_BYTES
from search import TEST_ANSWERS, Meter, reduce_export, test_export, to_words, well_formed
from shapes import nogood_plant, random_words, relatives, small_random_plant
from table_scale import TableTally, report_tables, run_stored, run_tables
from test_cases import tight_plant
from whole import assignment_of, begins, brute_consistent, check_demand3, check_rest
from whole import check_shown, consistent_states, minimal, shown_at, whole_set

WORK_MOST = 300_000
TRIALS_MOST = 60_000
SPACE_MOST = 1500  # values of all variables, run over by brute force
ROUNDS = 25
ENDING_NAMES = {number: name for name, number in ENDINGS.items()}
ANSWERS = {TEST: list(TEST_ANSWERS), REDUCE: list(REDUCE_ANSWERS)}


class TooLong(Exception):
    """The outside lister would take too long over this case."""


class BoundedMeter(Meter):
    def trial(self):
        super().trial()
        if self.trials > TRIALS_MOST:
            raise TooLong


class Bounded(Run):
    """The outside lister, giving up on long runs."""

    def __init__(self, plant, settings, order):
        super().__init__(plant, settings, order)
        self.meter = BoundedMeter(settings.limit)
        self.work = 0

    def take_node(self, node):
        self.work += 20 + len(self.queue) + 8 * len(self.store)
        if self.work > WORK_MOST:
            raise TooLong
        return super().take_node(node)


# ---- the outside program's answers -----------------------------------------


def copy_of(case):
    own = {name: copy(value) for name, value in vars(case.settings).items()}
    return case._replace(settings=Settings(**own), result=list(case.result))


def wanted(case):
    """The outside lister's answer; raises TooLong."""
    own, watch = copy_of(case), Watch(Bounded)
    returned = export(own.sheet, own.settings, own.result, own.order, watch)
    rules = rules_met(watch.run) if watch.run else ()
    return Answer(returned, 0, buffers_of(own), frozenset(rules))


def wanted_call(case):
    """The outside program's answer to a test or reduction."""
    after = case._replace(found=list(case.found), result=list(case.result))
    call = reduce_export if case.kind == REDUCE else test_export
    returned = call(*case.call[1:], after.found, after.result)
    return Answer(returned, 0, buffers_of(after))


# ---- by brute force --------------------------------------------------------


def result_of(answer):
    """The archive's answer as a result of the outside program."""
    number, listed, tested, learned, unkept, trials = answer.words("result")[:6]
    struck = tested == listed + learned + unkept + 1
    counts = (listed, tested, learned, unkept, trials, struck)
    lists = answer.words("codes"), figures_of(answer), answer.buffers["values"]
    work = answer.words("queue"), answer.words("store")
    return Result(ENDING_NAMES[number], *counts, *lists, *work)


def figures_of(answer):
    """Costs or products, whichever the call has filled."""
    name = next(order.name for order in ORDERS.values() if order.name in answer.buffers)
    return answer.words(name)


def list_of(answer):
    listed = answer.words("result")[1]
    return list(zip(figures_of(answer)[:listed], answer.words("codes")[:listed]))


def shown_by(answer):
    """Pairs of a listed state's code and the bytes that show it."""
    for place, (_, code) in enumerate(list_of(answer)):
        yield code, shown_at(answer.buffers["values"], place)


def check_answer(case, answer, plant):
    """What an answer to a test or reduction breaks of the specification, by brute force."""
    states, call = consistent_states(plant), case.call
    number, trials = answer.words("result")[:ANSWER_WORDS]
    name = ANSWERS[case.kind][number - 1]
    given = well_formed(plant, call.mask, call.values)
    if trials > call.limit or name == "spent" and trials != call.limit:
        yield f"{name} after {trials} trials"
    if name != "spent" and brute_consistent(states, given) != (number == 1):
        yield f"{name}, and brute force says otherwise"
    if name == "consistent":
        yield from check_shown(plant, given, answer.buffers["shown"])
    elif case.kind == TEST and any(answer.buffers["shown"]):
        yield f"{name}, and values are shown"
    if name == "conflict":
        conflict = well_formed(plant, *answer.words("conflict")[:CONFLICT_WORDS])
        if not minimal(states, conflict) or not manifests(given, conflict):
            yield "the conflict is not a least part of what was given"


class SearchTally(Tally):
    """Of calls that search; checked where brute force can run over the plant."""

    def check_run(self, case, got):
        plant = read_either(case.sheet)
        return self.check_found(case, got, plant) if prod(plant.sizes) <= SPACE_MOST else []


class ListingTally(SearchTally):
    """Of listings; a run is checked against demand 3."""

    def __init__(self):
        super().__init__()
        self.endings = {LIST: Counter(), LIST_WEIGHTS: Counter()}

    def count_run(self, case, want):
        number, listed = want.words("result")[:2]
        self.endings[case.kind][ENDING_NAMES[number]] += 1
        self.counts.update(want.rules)
        self.counts["all with k"] += number == ENDINGS["all"] and listed == case.settings.k
        self.counts["longest"] = max(self.counts["longest"], listed)
        if case.kind == LIST_WEIGHTS:
            pairs = list_of(want)
            self.counts["equal products"] += len({own for own, _ in pairs}) < len(pairs)
            self.counts["wide products"] += any(own >= 2**32 for own, _ in pairs)

    def check_found(self, case, got, plant):
        result = result_of(got)
        self.counts["demand 3"] += 1
        self.counts["shown"] += result.listed
        found = [shown_at(result.values, place) for place in range(result.listed)]
        self.counts["shafts"] += sum(any(own[plant.decisions :]) for own in found)
        self.counts["struck in a reduction"] += result.struck_in_reduction
        broken = check_demand3(result, plant, case.settings)
        return broken + check_rest(result, plant, case.settings)


class CallTally(SearchTally):
    """Of tests and reductions; an answer is checked by brute force."""

    def __init__(self):
        super().__init__()
        self.answers = {TEST: Counter(), REDUCE: Counter()}

    def count_run(self, case, want):
        number, trials = want.words("result")[:ANSWER_WORDS]
        self.answers[case.kind][ANSWERS[case.kind][number - 1]] += 1
        self.counts["most trials"] = max(self.counts["most trials"], trials)

    def check_found(self, case, got, plant):
        self.counts["brute force"] += 1
        return list(check_answer(case, got, plant))


# ---- random cases ----------------------------------------------------------


def near_its_end(rng, case, want):
    """The case with a limit just at or below the trials it takes; or with k at, just
    below or just above the states it lists."""
    listed, trials = (0, 0) if want.returned else want.words("result")[1:6:4]
    kind = rng.random()
    if trials and kind < 0.3:
        case.settings.limit = rng.choice([trials, trials - 1, rng.randrange(trials)])
    elif listed and kind > 0.8:
        case.settings.k = max(1, listed + rng.choice([-1, 0, 0, 0, 1]))
    else:
        return case, want
    return case, wanted(case)


def case_at(seed, number, tally):
    """The case of this number with its wanted answer."""
    rng = Random(f"{seed} case {number}")
    while True:
        case = any_case(rng)
        try:
            return near_its_end(rng, case, wanted(case))
        except TooLong:
            tally.counts["left out"] += 1


def call_at(seed, number, tally):
    """The test or reduction of this number with its wanted answer."""
    case = any_call(Random(f"{seed} call {number}"))
    return case, wanted_call(case)


def run_cases(driver, seed, numbers, tally, word="case", make=case_at):
    for batch in batches(numbers):
        names = [f"seed {seed}, {word} {number}" for number in batch]
        pairs = [make(seed, number, tally) for number in batch]
        run_batch(driver, names, pairs, tally)


# ---- histories -------------------------------------------------------------

HISTORY_PLANTS = [
    (35, small_random_plant),
    (25, nogood_plant),
    (15, tight_plant),
    (15, tied_plant),
    (20, shaft_plant),
    (5, wide_plant),
    (3, crowded_plant),
]


def history_plant(rng):
    """One with two states at least, as far as brute force can tell."""
    while True:
        plant = either_plant(rng, HISTORY_PLANTS)
        if prod(plant.sizes) > SPACE_MOST or len(whole_set(plant)) > 1:
            return plant


def left_entries(store):
    """What a run left in the store: the entries before the first mask 0."""
    left = list(zip(store[0::2], store[1::2]))
    masks = [mask for mask, _ in left] + [0]
    return left[: masks.index(0)]


class History:
    """One sheet's runs; `left` is the store as the last run left it."""

    def __init__(self, seed, number):
        self.rng = Random(f"{seed} sheet {number}")
        self.name = f"seed {seed}, sheet {number}"
        self.plant = history_plant(self.rng)
        self.sheet = encode(self.plant)
        self.order = ORDERS[self.plant.edition.number]
        self.left = []
        self.lists = []
        self.shown = {}  # by code, what the runs show of the state

    def offers(self, others):
        """Its own memory, relatives of it, another sheet's, junk, or none."""
        rng, kind = self.rng, self.rng.randrange(10)
        if kind < 4:
            return left_entries(self.left)
        if kind > 7:
            return self.relatives_left()
        if kind == 4:
            return left_entries(rng.choice(others).left)
        if kind == 5:
            chance = rng.choice([0.3, 0.7, 1.0])
            return [random_words(rng, self.plant, chance) for _ in range(rng.randint(1, 12))]
        if kind == 6:
            words = junk(rng, 2 * rng.randint(1, 12), 8)
            return list(zip(words[0::2], words[1::2]))
        return []

    def relatives_left(self):
        """Entries that contain what the last run left, equal ones and parts of it."""
        own = [assignment_of(self.plant, words) for words in left_entries(self.left)]
        entries = [entry for entry in own if entry] or [(None,) * self.plant.decisions]
        made = relatives(self.rng, self.plant, entries, self.rng.randint(1, 12))
        return [to_words(entry) for entry in made]

    def shape(self, offers):
        rng = self.rng
        k = rng.choice([1, 2, 3, 5, 8, 16, 40, 200])
        queue = 2 * rng.choice([3, 7, 12, 20, 64, 300, 300, 300])
        store = 2 * rng.choice([0, 1, 2, 5, 16, 64, 64])
        held = min(store // 2, len(offers))
        few = [rng.randrange(30), rng.randrange(300), rng.randrange(3000)]
        limit = rng.choice(few + [20_000] * 5)
        codes, costs = (k + rng.randrange(3) for _ in range(2))
        values = STATE_BYTES * k + rng.choice([0, 0, 1, 60])
        return Shape(k, codes, costs, values, queue, store, 6, held, limit)

    def next_case(self, others, tally):
        while True:
            offers = self.offers(others)
            settings = lend(self.rng, self.shape(offers), self.order)
            put_offers(settings, offers)
            case = Case(self.sheet, settings, junk(self.rng, 6, 4), self.order)
            try:
                return case, wanted(case)
            except TooLong:
                tally.counts["left out"] += 1

    def take(self, answer):
        self.left = answer.words("store")
        self.lists.append(list_of(answer))
        for code, own in shown_by(answer):
            self.shown.setdefault(code, []).append(own)


def run_round(driver, histories, place, tally):
    names = [f"{history.name}, run {place}" for history in histories]
    pairs = [history.next_case(histories, tally) for history in histories]
    for history, got in zip(histories, run_batch(driver, names, pairs, tally)):
        history.take(got)


def hold_together(history, tally):
    """On all pairs of its lists, one begins the other."""
    for (i, one), (j, other) in combinations(enumerate(history.lists), 2):
        tally.counts["pairs"] += 1
        tally.counts["pairs not empty"] += bool(one and other)
        if not begins(one, other) and not begins(other, one):
            tally.counts["differences"] += 1
            tally.counts["pairs apart"] += 1
            if tally.counts["pairs apart"] <= SHOWN_MOST:
                print(f"scale: {history.name}: runs {i} and {j}: no list begins the other")


def show_alike(history, tally):
    """What its runs show of one state is the same."""
    for code, own in history.shown.items():
        tally.counts["shown again"] += len(own) - 1
        if len(set(own)) > 1:
            tally.counts["differences"] += 1
            tally.counts["shown apart"] += 1
            if tally.counts["shown apart"] <= SHOWN_MOST:
                print(f"scale: {history.name}: two runs show the state {code:016x} otherwise")


def run_histories(driver, seed, sheets, tally):
    for batch in batches(range(sheets)):
        histories = [History(seed, number) for number in batch]
        for place in range(ROUNDS):
            run_round(driver, histories, place, tally)
        for history in histories:
            tally.counts["runs"] += len(history.lists)
            hold_together(history, tally)
            show_alike(history, tally)


# ---- command line ----------------------------------------------------------


def report_calls(tally):
    c = tally.counts
    print(
        f"scale: {c['cases']} tests and reductions, {c['damaged']} of damaged sheets "
        f"({c['damaged and read']} of these ran), {c['words']} lent words and bytes compared\n"
        f"scale: tests: {in_words(tally.answers[TEST])}; "
        f"reductions: {in_words(tally.answers[REDUCE])}; "
        f"the most trials {c['most trials']}\n"
        f"scale: refusals: {in_words(tally.refusals)}\n"
        f"scale: {c['brute force']} answers checked by brute force\n"
        f"scale: {c['differences']} differences"
    )


def report(tally, sheets):
    c = tally.counts
    print(
        f"scale: {c['cases']} cases, {c['damaged']} of damaged sheets "
        f"({c['damaged and read']} of these ran), {c['words']} lent words and bytes compared; "
        f"{c['left out']} left out as too long for the outside lister\n"
        f"scale: endings: {in_words(tally.endings[LIST])}; by weights "
        f"{in_words(tally.endings[LIST_WEIGHTS])}; {c['all with k']} of 'all' with k "
        f"listed; the longest list {c['longest']}\n"
        f"scale: {c['equal products']} lists with equal products, {c['wide products']} "
        f"with one of more than 32 bits\n"
        f"scale: refusals: {in_words(tally.refusals)}\n"
        f"scale: entries of the store: in {c['longer dropped']} runs an offer dropped that "
        f"contains another, in {c['equal dropped']} one equal to an earlier one; in "
        f"{c['pushed out']} a survivor pushed out by a learned conflict\n"
        f"scale: demand 3 checked on {c['demand 3']} runs, "
        f"in {c['struck in a reduction']} the limit struck in a reduction; {c['shown']} "
        f"states shown, {c['shafts']} with a hidden variable that is not 0\n"
        f"scale: histories: {sheets} sheets, {c['runs']} of the cases, "
        f"{c['pairs']} pairs of lists, {c['pairs not empty']} with neither empty; "
        f"{c['shown again']} states listed again\n"
        f"scale: {c['differences']} differences"
    )


def main():
    parser = argparse.ArgumentParser(description=__doc__)
    parser.add_argument("driver", help="replay.c, compiled and linked with the archive")
    parser.add_argument("--cases", type=int, default=30_000, help="listings")
    parser.add_argument("--calls", type=int, default=30_000, help="tests and reductions")
    parser.add_argument("--tables", type=int, default=20_000, help="written or read")
    parser.add_argument("--first", type=int, default=0, help="number of the first of each")
    parser.add_argument("--sheets", type=int, default=1000, help="with a history each")
    parser.add_argument("--seed", type=int, default=1)
    words = parser.parse_args()
    listings, calls, tables = ListingTally(), CallTally(), TableTally()
    cases = range(words.first, words.first + words.cases)
    run_cases(words.driver, words.seed, cases, listings)
    run_histories(words.driver, words.seed, words.sheets, listings)
    report(listings, words.sheets)
    numbers = range(words.first, words.first + words.calls)
    run_cases(words.driver, words.seed, numbers, calls, "call", call_at)
    report_calls(calls)
    if words.tables and not words.first:
        run_stored(words.driver, tables)
    numbers = range(words.first, words.first + words.tables)
    run_tables(words.driver, words.seed, numbers, tables)
    report_tables(tables)
    differ = any(tally.counts["differences"] for tally in (listings, calls, tables))
    sys.exit(1 if differ else 0)


if __name__ == "__main__":
    main()
