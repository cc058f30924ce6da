"""Random plants, assignments and entries for the tests and the vectors."""

from plant import SECOND, STATES_MOST, Literal, Plant
from search import to_words

COST_KINDS = {
    "zero": lambda rng: 0,
    "ties": lambda rng: rng.randrange(2),
    "small": lambda rng: rng.randrange(6),
    "wide": lambda rng: rng.randrange(65536),
    "top": lambda rng: rng.randrange(65530, 65536),
}
WEIGHT_KINDS = {
    "one": lambda rng: 1,
    "ties": lambda rng: rng.randint(1, 2),
    "powers": lambda rng: 2 ** rng.randrange(8),  # equal products of other weights
    "small": lambda rng: rng.randint(1, 6),
    "wide": lambda rng: rng.randint(1, 255),
    "top": lambda rng: rng.randint(250, 255),
}


def random_literal(rng, sizes):
    variable = rng.randrange(len(sizes))
    return Literal(variable, rng.randrange(2), rng.randrange(sizes[variable]))


def random_clause(rng, sizes, literals):
    clause = [random_literal(rng, sizes) for _ in range(literals)]
    if clause and rng.random() < 0.1:
        clause[-1] = clause[0]  # repeated literals are allowed
    return tuple(clause)


def shaped(rng, sizes, decisions, clause_lengths, cost_kind):
    cost = COST_KINDS[cost_kind]
    costs = tuple(tuple(cost(rng) for _ in range(s)) for s in sizes[:decisions])
    clauses = tuple(random_clause(rng, sizes, n) for n in clause_lengths)
    return Plant(costs, tuple(sizes[decisions:]), clauses)


def random_sizes(rng, count, size_most):
    return [rng.randint(1, size_most) for _ in range(count)]


def small_random_plant(rng, space_most=1500):
    """A plant whose values of all variables can be run over quickly."""
    decisions = rng.randint(1, 5)
    sizes = random_sizes(rng, decisions + rng.randint(0, 3), rng.choice([2, 3, 4]))
    space = 1
    for place, size in enumerate(sizes):
        if space * size > space_most:
            sizes[place] = 1
        space *= sizes[place]
    lengths = [rng.choice([1, 2, 2, 2, 3, 3, 4]) for _ in range(rng.randint(0, 9))]
    if rng.random() < 0.04:
        lengths.append(0)
    return shaped(rng, sizes, decisions, lengths, rng.choice(list(COST_KINDS)))


def nogood_clause(rng, sizes, decisions, members):
    """Forbids one part of a state, low values preferred as they are cheap."""
    variables = sorted(rng.sample(range(decisions), members))
    values = [min(rng.randrange(sizes[v]), rng.randrange(sizes[v])) for v in variables]
    return tuple(Literal(v, 1, value) for v, value in zip(variables, values))


def nogood_plant(rng):
    """Many conflicts of two and three members, costs rising with ties."""
    decisions = rng.randint(3, 4)
    sizes = [rng.randint(2, 4) for _ in range(decisions)]
    costs = tuple(tuple(sorted(rng.randrange(5) for _ in range(s))) for s in sizes)
    clauses = []
    for _ in range(rng.randint(4, 9)):
        clause = nogood_clause(rng, sizes, decisions, rng.choice([2, 2, 3]))
        # Hiding half of them behind a state variable makes the tests longer.
        hidden = (Literal(decisions, 0, 1),) if rng.random() < 0.5 else ()
        clauses.append(clause + hidden)
    clauses.append((Literal(decisions, 0, 0),))
    return Plant(costs, (2,), tuple(clauses))


def weighed(rng, plant, kind=None):
    """The plant in edition 2, with weights of one kind for its costs. Decision variables
    beyond the most it has become state variables, and clauses on variables beyond the
    most of these are left off."""
    weight = WEIGHT_KINDS[kind or rng.choice(list(WEIGHT_KINDS))]
    decisions = min(plant.decisions, SECOND.decisions_most)
    hidden = plant.sizes[decisions : decisions + STATES_MOST]
    there = decisions + len(hidden)
    weights = tuple(tuple(weight(rng) for _ in range(s)) for s in plant.sizes[:decisions])
    clauses = (c for c in plant.clauses if all(v < there for v, _, _ in c))
    return Plant(weights, hidden, tuple(clauses), SECOND)


def random_assignment(rng, plant, chance=0.5):
    return tuple(
        rng.randrange(len(costs)) if rng.random() < chance else None
        for costs in plant.costs
    )


def part_of(rng, entry):
    """The assignment without some of its members."""
    return tuple(value if rng.random() < 0.6 else None for value in entry)


def extension_of(rng, plant, entry):
    """The assignment with some more members."""
    pairs = zip(entry, plant.costs)
    return tuple(
        rng.randrange(len(c)) if v is None and rng.random() < 0.5 else v for v, c in pairs
    )


def relative(rng, plant, entry):
    """The assignment itself, a part of it, or one that contains it."""
    kind = rng.randrange(5)
    if kind == 0:
        return entry
    return part_of(rng, entry) if kind == 1 else extension_of(rng, plant, entry)


def relatives(rng, plant, entries, count):
    """So many relatives of these assignments and of one another, in any order."""
    made = []
    while len(made) < count:
        made.append(relative(rng, plant, rng.choice(entries + made)))
    rng.shuffle(made)
    return made


def random_words(rng, plant, chance=0.5):
    return to_words(random_assignment(rng, plant, chance))


def spoil(rng, plant, words):
    """Words of an assignment made ill formed, or left where they cannot be."""
    mask, values = words
    kind = rng.randrange(3)
    if kind == 0:
        return mask | 1 << rng.randrange(64 - plant.decisions), values
    if kind == 1:
        return mask, values | 1 << rng.randrange(64)
    bit = 1 << rng.randrange(64 - plant.decisions)
    return mask | bit, values | 1 << rng.randrange(64)
