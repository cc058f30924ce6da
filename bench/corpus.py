"""Writes the corpus: `python3 bench/corpus.py` rewrites bench/corpus/.

Fixed seeds, so the same bytes at every call. README.md there has a line for
each sheet; the plants are described where they are made, below.
"""

import sys
from pathlib import Path
from random import Random

HERE = Path(__file__).resolve().parent
sys.path.insert(0, str(HERE.parent / "outside"))

from plant import Literal, Plant, encode, read  # noqa: E402

EQUAL, UNEQUAL = 0, 1
STILL, SLOW, FULL = range(3)
PRESSURE_NONE, PRESSURE_GOOD = range(2)


# ---- drivelines ------------------------------------------------------------


class Driveline:
    """A plant under construction. Parts are decision variables, in state 0
    when normal; motions and pressures are state variables."""

    def __init__(self, rng):
        self.rng = rng
        self.costs = []
        self.state_sizes = []
        self.clauses = []  # literals as (kind, number, sign, value)

    def part(self, states):
        """Faults cost more the rarer they are."""
        faults = sorted(self.rng.randint(3, 400) for _ in range(states - 1))
        self.costs.append((0, *faults))
        return ("part", len(self.costs) - 1)

    def hidden(self, size):
        self.state_sizes.append(size)
        return ("hidden", len(self.state_sizes) - 1)

    def when(self, conditions, variable, value):
        """The clause 'if each condition, then the variable has the value'."""
        unless = [(*of, UNEQUAL, own) for of, own in conditions]
        self.clauses.append(unless + [(*variable, EQUAL, value)])

    def gauge(self, variable, reading):
        self.clauses.append([(*variable, EQUAL, reading)])

    def plant(self):
        def literal(kind, number, sign, value):
            first = 0 if kind == "part" else len(self.costs)
            return Literal(first + number, sign, value)

        clauses = tuple(tuple(literal(*l) for l in clause) for clause in self.clauses)
        return Plant(tuple(self.costs), tuple(self.state_sizes), clauses)


def engine(line):
    """Normal, stalled, and perhaps weak."""
    states = line.rng.choice([2, 3])
    own, motion = line.part(states), line.hidden(3)
    for state, turns in zip(range(states), (FULL, STILL, SLOW)):
        line.when([(own, state)], motion, turns)
    return motion


def pump(line, motion):
    """Gives pressure when it is turned; failed it gives none."""
    own, pressure = line.part(2), line.hidden(2)
    line.when([(own, 0), (motion, STILL)], pressure, PRESSURE_NONE)
    line.when([(own, 0), (motion, SLOW)], pressure, PRESSURE_GOOD)
    line.when([(own, 0), (motion, FULL)], pressure, PRESSURE_GOOD)
    line.when([(own, 1)], pressure, PRESSURE_NONE)
    return pressure


def coupling(line, motion, states):
    """Normal, broken, slipping, and a fourth state of which nothing is known."""
    own, after = line.part(states), line.hidden(3)
    for turns in (STILL, SLOW, FULL):
        line.when([(own, 0), (motion, turns)], after, turns)
        if states > 2:
            line.when([(own, 2), (motion, turns)], after, min(turns, SLOW))
    line.when([(own, 1)], after, STILL)
    return after


def clutch(line, motion, pressure):
    """Passes motion on under pressure; stuck open it never does, and stuck
    shut, where it can be, always."""
    states = line.rng.choice([2, 3])
    own, after = line.part(states), line.hidden(3)
    line.when([(own, 0), (pressure, PRESSURE_NONE)], after, STILL)
    for turns in (STILL, SLOW, FULL):
        line.when([(own, 0), (pressure, PRESSURE_GOOD), (motion, turns)], after, turns)
        if states > 2:
            line.when([(own, 2), (motion, turns)], after, turns)
    line.when([(own, 1)], after, STILL)
    return after


def branch(line, motion, pressure, parts, states_most):
    """A clutch and couplings behind it."""
    after = clutch(line, motion, pressure)
    for _ in range(parts - 1):
        after = coupling(line, after, line.rng.randint(2, states_most))
    return after


def driveline(seed, trunk, front, rear, states_most, front_reads, rear_reads):
    """Engine and pump, `trunk` couplings, then a branch to each axle. A gauge
    at each axle; one of the pressure where both axles stand still."""
    line = Driveline(Random(seed))
    motion = engine(line)
    pressure = pump(line, motion)
    for _ in range(trunk):
        motion = coupling(line, motion, line.rng.randint(2, states_most))
    front_end = branch(line, motion, pressure, front, states_most)
    rear_end = branch(line, motion, pressure, rear, states_most)
    line.gauge(front_end, front_reads)
    line.gauge(rear_end, rear_reads)
    if front_reads == rear_reads == STILL:
        line.gauge(pressure, PRESSURE_GOOD)
    return line.plant()


# One line for each: name, what driveline() takes.
DRIVELINES = {
    "driveline-06a": (1, 0, 2, 2, 3, STILL, STILL),
    "driveline-06b": (2, 0, 2, 2, 4, STILL, FULL),
    "driveline-08a": (1, 1, 3, 2, 3, STILL, STILL),
    "driveline-08b": (2, 0, 3, 3, 4, SLOW, FULL),
    "driveline-10a": (2, 2, 3, 3, 3, STILL, STILL),
    "driveline-10b": (1, 1, 4, 3, 3, STILL, FULL),
    "driveline-12a": (3, 3, 4, 3, 4, STILL, STILL),
    "driveline-12b": (8, 2, 4, 4, 4, STILL, STILL),
    "driveline-14a": (6, 3, 5, 4, 4, STILL, STILL),
    "driveline-14b": (11, 3, 5, 4, 4, STILL, STILL),
    "driveline-16a": (1, 5, 5, 4, 3, STILL, STILL),
    "driveline-16b": (11, 4, 5, 5, 4, STILL, STILL),
    "driveline-16c": (1, 5, 5, 4, 4, STILL, FULL),
}


def driveline_text(name):
    _, trunk, front, rear, _, *reads = DRIVELINES[name]
    words = ["still", "slow", "full"]
    front_reads, rear_reads = (words[r] for r in reads)
    return (
        f"engine, pump, trunk of {trunk} parts, {front} parts to the front axle, "
        f"{rear} to the rear; gauges: front {front_reads}, rear {rear_reads}"
    )


# ---- the test alone --------------------------------------------------------


def tight(seed, decisions, states, clauses, lengths, sizes):
    """Random clauses, so many that a test goes back again and again."""
    rng = Random(seed)
    own = [rng.choice(sizes) for _ in range(decisions + states)]
    costs = tuple((0, *(rng.randint(3, 400) for _ in range(s - 1))) for s in own[:decisions])

    def clause():
        variables = rng.sample(range(len(own)), rng.choice(lengths))
        return tuple(Literal(v, UNEQUAL, rng.randrange(own[v])) for v in variables)

    return Plant(costs, tuple(own[decisions:]), tuple(clause() for _ in range(clauses)))


TEST_96 = (7, 16, 16, 96, (2, 3), (2, 3))
TEST_512 = (1, 16, 32, 512, (3, 4), (2, 3, 4))


# ---- queue and store -------------------------------------------------------

DEAR = 60_000


def queue_plant(spread):
    """`spread` parts of 16 states, the first the cheapest to vary, and parts
    of one state up to 16. No clauses. Once the states that differ in all but
    the last spread part are listed, 15 sixteenths of 16 to the power of
    `spread` nodes are queued; each further one takes 17 - spread removals."""
    costs = [tuple(16**place * value for value in range(16)) for place in range(spread)]
    return Plant(tuple(costs + [(0,)] * (16 - spread)), (), ())


def full_plant(sizes, forbidden=0):
    """A queue that stays full. Parts of these sizes, the first the cheapest to
    vary, then one of two states whose second is dearer than all of them
    together, and parts of one state up to 16. Once the states are listed that
    differ in all parts but the last of `sizes`, each combination of their
    values has one node in the queue: the product of the sizes, and one more
    after the part of two states was given its values. Of the combinations that
    come next, `forbidden` have a clause each; any other value of any one part
    may be among those left, so each is a conflict with all parts of `sizes`."""
    spread = [1]
    for size in sizes:
        spread.append(spread[-1] * size)
    costs = [tuple(step * x for x in range(size)) for step, size in zip(spread, sizes)]
    costs += [(0, spread[-1])] + [(0,)] * (15 - len(sizes))
    combinations = (
        [n // spread[v] % size for v, size in enumerate(sizes)]
        for n in range(spread[-2] + 1, spread[-1])
    )
    bad = [own for own in combinations if sum(own) % 3][:forbidden]
    clauses = tuple(tuple(Literal(v, UNEQUAL, x) for v, x in enumerate(own)) for own in bad)
    return Plant(tuple(costs), (), clauses)


FULL_SIZES = {196: (13, 15), 4096: (3, 7, 13, 15)}
FORBIDDEN = 64


def store_plant():
    """Variables 4, 5 and 6 spread, each with its last state dear and
    forbidden; those before have a dear second state, and the last 15 dear
    ones; the rest have one state. Any assignment with a forbidden state is a
    conflict to offer: bench.c makes 4,096 with members 0 to 6 and 15, which
    agree with the cheap states in the first four and differ behind."""
    spread = [tuple(45 * x for x in range(15)), tuple(3 * x for x in range(15)), (0, 1, 2)]
    costs = [(0, DEAR)] * 4 + [own + (DEAR,) for own in spread]
    costs += [(0,)] * 8 + [(0,) + (DEAR,) * 15]
    clauses = tuple((Literal(v, UNEQUAL, len(costs[v]) - 1),) for v in (4, 5, 6))
    return Plant(tuple(costs), (), clauses)


def learning_plant():
    """Three parts of 16 states and one of two. The third has to be the sum of
    the first two, or 5 more where the fourth is in state 1, modulo 16. It has
    512 consistent states and 4,096 conflicts of three and four members."""
    costs = (
        tuple(600 * x for x in range(16)),
        tuple(37 * x for x in range(16)),
        tuple(2 * x for x in range(16)),
        (0, 1),
    )
    clauses = []
    for x in range(16):
        for y in range(16):
            for z in range(2):
                unless = [Literal(v, UNEQUAL, own) for v, own in ((0, x), (1, y), (3, z))]
                clauses.append((*unless, Literal(2, EQUAL, (x + y + 5 * z) % 16)))
    return Plant(costs, (), tuple(clauses))


# ---- all of it -------------------------------------------------------------


def corpus():
    """Name, plant and description of each sheet."""
    for name, numbers in DRIVELINES.items():
        yield name, driveline(*numbers), driveline_text(name)
    yield "test-96", tight(*TEST_96), "random nogoods, for the test alone"
    yield "test-512", tight(*TEST_512), "random nogoods, for the test alone"
    for spread in (1, 2, 3):
        text = f"no clauses; parts of 16 states: {spread}, the rest of one"
        yield f"queue-{16 ** spread}", queue_plant(spread), text
    for entries, sizes in FULL_SIZES.items():
        text = f"no clauses; a run holds {entries - 1} and {entries} entries in turn"
        yield f"full-{entries}", full_plant(sizes), text
    for entries, sizes in FULL_SIZES.items():
        text = f"the same with {FORBIDDEN} forbidden combinations, each a conflict to learn"
        yield f"sieve-{entries}", full_plant(sizes, FORBIDDEN), text
    yield "store-4096", store_plant(), "three forbidden states; 4,096 conflicts are offered"
    yield "learn-4096", learning_plant(), "sums modulo 16; a run learns 4,096 conflicts"


def main():
    folder = HERE / "corpus"
    folder.mkdir(exist_ok=True)
    lines = ["# Corpus", "", "Written by `bench/corpus.py`: a line for each sheet.", ""]
    lines += ["| sheet | D | S | C | bytes | plant |", "| --- | --- | --- | --- | --- | --- |"]
    for name, plant, text in corpus():
        sheet = encode(plant)
        assert read(sheet) == plant
        (folder / f"{name}.sheet").write_bytes(sheet)
        counts = (plant.decisions, len(plant.state_sizes), len(plant.clauses), len(sheet))
        lines.append(f"| {name} | {' | '.join(map(str, counts))} | {text} |")
    (folder / "README.md").write_text("\n".join(lines) + "\n")


if __name__ == "__main__":
    main()
