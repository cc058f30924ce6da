"""The listing calls of both editions, their export, and what the program `leading`
prints."""

import sys
from dataclasses import dataclass
from math import prod
from typing import Callable, NamedTuple

from plant import FIRST, SECOND, Edition, Refusal, read
from search import STATE_BYTES, Meter, Spent, reduce_within, shown, test, to_words
from search import well_formed

K_MOST = 4096
QUEUE_WORDS_MOST = 8192
STORE_WORDS_MOST = 8192
RESULT_WORDS = 6
TESTED_MOST = 4_294_967_295
ENDINGS = {"enough": 1, "all": 2, "full": 3, "spent": 4}


class Order(NamedTuple):
    """What a listing call has of its own: the edition that it takes, and the figure by
    which it orders states."""

    edition: Edition
    name: str  # of the lent buffer that it fills with figures
    width: int  # of a word of this buffer, in bytes
    whole: Callable  # a state's figure, of those of its values
    rank: Callable  # a figure, so turned that the least is best

    def figure(self, plant, state):
        return self.whole(costs[value] for costs, value in zip(plant.costs, state))

    def key(self, plant, state):
        """The best figure first, then the lowest code as a number."""
        return self.rank(self.figure(plant, state)), to_words(state)[1]

    def best_value(self, costs):
        ranks = list(map(self.rank, costs))
        return ranks.index(min(ranks))  # the lowest value on a tie

    def best_state(self, plant, node):
        pairs = zip(node, plant.costs)
        return tuple(self.best_value(c) if v is None else v for v, c in pairs)


COSTS = Order(FIRST, "costs", 4, sum, lambda cost: cost)
PRODUCTS = Order(SECOND, "products", 8, prod, lambda product: -product)
ORDERS = {order.edition.number: order for order in (COSTS, PRODUCTS)}


@dataclass
class Settings:
    """All of a listing's input but the sheet; the buffers as lent."""

    k: int
    codes: list
    costs: list  # products in the call of edition 2
    values: bytearray
    queue: list
    store: list
    held: int
    limit: int


@dataclass
class Result:
    ending: str
    listed: int
    tested: int
    learned: int
    unkept: int
    trials: int
    struck_in_reduction: bool
    codes: list
    costs: list
    values: bytes
    queue: list
    store: list

    def words(self):
        counts = [self.listed, self.tested, self.learned, self.unkept, self.trials]
        return [ENDINGS[self.ending]] + counts


def check_host(settings, result_words=RESULT_WORDS):
    """Refusals 1, 2, 19, 3 and 4, in this order and before the sheet."""
    s = settings
    if not 1 <= s.k <= K_MOST:
        raise Refusal(1)
    if len(s.codes) < s.k or len(s.costs) < s.k or result_words < RESULT_WORDS:
        raise Refusal(2)
    if len(s.values) < STATE_BYTES * s.k:
        raise Refusal(19)
    if len(s.queue) % 2 or not 2 <= len(s.queue) <= QUEUE_WORDS_MOST:
        raise Refusal(3)
    words = len(s.store)
    if words % 2 or words > STORE_WORDS_MOST or s.held > words // 2:
        raise Refusal(4)


def manifests(node, conflict):
    return all(c is None or n == c for n, c in zip(node, conflict))


def resolves(node, conflict):
    return any(
        n is not None and c is not None and n != c for n, c in zip(node, conflict)
    )


def survivors(found):
    """Of the entries found inconsistent those left: one that contains another goes,
    wherever the other stands, and of equal ones the first remains."""
    # A dictionary has equal ones once, at the first one's place.
    distinct = list(dict.fromkeys(found))
    return [
        entry
        for entry in distinct
        if not any(other != entry and manifests(entry, other) for other in distinct)
    ]


def give(node, variable, value):
    return node[:variable] + (value,) + node[variable + 1 :]


def conflict_children(plant, node, conflict):
    children = []
    for member, value in enumerate(conflict):
        if value is not None and node[member] is None:
            others = (v for v in range(plant.sizes[member]) if v != value)
            children.extend(give(node, member, other) for other in others)
            node = give(node, member, value)
    return children


def value_children(plant, node):
    variable = node.index(None)
    return [give(node, variable, v) for v in range(plant.sizes[variable])]


class Run:
    """One listing under way, after the refusals."""

    def __init__(self, plant, settings, order):
        self.plant = plant
        self.order = order
        self.k = settings.k
        self.queue_entries = len(settings.queue) // 2
        self.store_entries = len(settings.store) // 2
        self.meter = Meter(settings.limit)
        self.queue = []  # pairs of the best state's key and the node
        self.found = []  # the offered entries found inconsistent, pushed out or not
        self.store = []
        self.listed = []  # the values of all variables of each state
        self.tested = self.learned = self.unkept = 0
        self.reducing = False

    def check_entry(self, mask, values):
        try:
            entry = well_formed(self.plant, mask, values)
        except Refusal:
            return
        if test(self.plant, entry, self.meter) is None:
            self.found.append(entry)

    def check_offered(self, offered):
        """Step 1. Where the limit strikes, the survivors are of those checked so far."""
        try:
            for words in offered:
                self.check_entry(*words)
        finally:
            self.store = survivors(self.found)

    def remove_first(self):
        # Nodes share no state, so no two have one best state.
        first = min(self.queue, key=lambda entry: entry[0])
        self.queue.remove(first)
        return first[1]

    def queue_entry(self, node):
        best = self.order.best_state(self.plant, node)
        return self.order.key(self.plant, best), node

    def put_in(self, children):
        """Step 6; False where the children do not fit."""
        kept = [c for c in children if not self.manifests_stored(c)]
        if len(kept) > self.queue_entries - len(self.queue):
            return False
        self.queue.extend(map(self.queue_entry, kept))
        return True

    def manifests_stored(self, node):
        return any(manifests(node, conflict) for conflict in self.store)

    def test_full(self, state):
        """Step 7, the limit apart."""
        found = test(self.plant, state, self.meter)
        self.tested += 1
        if found is not None:
            self.listed.append(found)
        elif len(self.store) == self.store_entries:
            self.unkept += 1
        else:
            self.learn(state)

    def learn(self, state):
        self.reducing = True
        conflict = reduce_within(self.plant, state, self.meter)
        self.reducing = False
        self.store = [c for c in self.store if not manifests(c, conflict)] + [conflict]
        self.learned += 1
        self.queue = [e for e in self.queue if not manifests(e[1], conflict)]

    def take_node(self, node):
        """Steps 4 to 7 on the removed node: an ending, or None to go on."""
        unresolved = [c for c in self.store if not resolves(node, c)]
        if unresolved:
            children = conflict_children(self.plant, node, unresolved[0])
        elif None in node:
            children = value_children(self.plant, node)
        elif self.tested == TESTED_MOST:
            return "spent"
        else:
            self.test_full(node)
            return None
        return None if self.put_in(children) else "full"

    def steps(self, offered):
        self.check_offered(offered)
        self.queue = [self.queue_entry((None,) * self.plant.decisions)]
        while True:
            if not self.queue:
                return "all"
            if len(self.listed) == self.k:
                return "enough"
            ending = self.take_node(self.remove_first())
            if ending:
                return ending


def close(run, ending, settings):
    """The result with every lent word afterwards."""
    count = len(run.listed)
    states = [found[: run.plant.decisions] for found in run.listed]
    codes = [to_words(state)[1] for state in states]
    costs = [run.order.figure(run.plant, state) for state in states]
    values = b"".join(map(shown, run.listed))
    store = [word for entry in run.store for word in to_words(entry)]
    return Result(
        ending,
        count,
        run.tested,
        run.learned,
        run.unkept,
        run.meter.trials,
        run.reducing,
        codes + settings.codes[count:],
        costs + settings.costs[count:],
        values + settings.values[len(values) :],
        [0] * len(settings.queue),
        store + [0] * (len(settings.store) - len(store)),
    )


def listing(sheet, settings, order=COSTS, kind=Run):
    """The listing call with this order; raises a refusal. The lent buffers stay as they
    were, and the result carries what they hold afterwards."""
    check_host(settings)
    run = kind(read(sheet, order.edition), settings, order)
    words = settings.store[: 2 * settings.held]
    try:
        ending = run.steps(list(zip(words[0::2], words[1::2])))
    except Spent:
        ending = "spent"
    return close(run, ending, settings)


def export(sheet, settings, result_words, order=COSTS, kind=Run):
    """The export: the refusal's number, or 0 with the lent lists rewritten."""
    try:
        check_host(settings, len(result_words))
        result = listing(sheet, settings, order, kind)
    except Refusal as refusal:
        return refusal.number
    for name in ("codes", "costs", "values", "queue", "store"):
        getattr(settings, name)[:] = getattr(result, name)
    result_words[:RESULT_WORDS] = result.words()
    return 0


def leading(data):
    """What the program `leading` prints for its standard input."""
    lists = [0] * 16, [0] * 16, bytearray(STATE_BYTES * 16)
    settings = Settings(16, *lists, [0] * 8192, [0] * 128, 0, 1_000_000)
    try:
        result = listing(data[:11357], settings)
    except Refusal as refusal:
        return f"refused {refusal.number}\n"
    text = ""
    for place in range(result.listed):
        text += f"{place + 1} {result.costs[place]} {result.codes[place]:016x}\n"
    return text + (
        f"{result.ending} {result.listed} tested {result.tested} learned "
        f"{result.learned} unkept {result.unkept} trials {result.trials}\n"
    )


if __name__ == "__main__":
    sys.stdout.write(leading(sys.stdin.buffer.read()))
