"""A plant as the input of each solver. Pure text; nothing is run here."""

from itertools import product
from math import prod


def clingo(plant, told):
    """Choice rules for values, a constraint a clause, the cost to minimise. Told
    to break ties: part 0's value is minimised next, then part 1's, and so on."""
    parts = plant.decisions

    def atom(variable, value):
        return f"{'x' if variable < parts else 'h'}({variable},{value})"

    lines = [f"1 {{ {atom(i, f'0..{size - 1}')} }} 1." for i, size in enumerate(plant.sizes)]
    for clause in plant.clauses:
        fails = ("not " * (1 - l.sign) + atom(l.variable, l.value) for l in clause)
        lines.append(f":- {', '.join(fails)}." if clause else ":- #true.")
    for i, costs in enumerate(plant.costs):
        lines += [f"cost({i},{value},{cost})." for value, cost in enumerate(costs)]
    lines.append(f"#minimize {{ C@{parts + 1},I : x(I,V), cost(I,V,C) }}.")
    if told:
        lines.append(f"#minimize {{ V@{parts}-I,I : x(I,V) }}.")
    lines.append("#show x/2.")
    return "\n".join(lines) + "\n"


def forbidden(plant):
    """Clauses over the same variables as one table: the scope, and the rows at
    which one of them fails. A table is as long as its rows: this is for plants
    with short clauses and few values, as the drivelines are."""
    by_scope = {}
    for clause in plant.clauses:
        scope = tuple(sorted({l.variable for l in clause}))
        by_scope.setdefault(scope, []).append(clause)
    for scope, clauses in by_scope.items():
        rows = set()
        for clause in clauses:
            rows.update(product(*(failing(plant, clause, v) for v in scope)))
        yield scope, sorted(rows)


def failing(plant, clause, variable):
    own = [l for l in clause if l.variable == variable]
    return [v for v in range(plant.sizes[variable]) if not any(l.holds_at(v) for l in own)]


def weights(plant, told):
    """The costs of parts' values. Told to break ties: cost times the number of
    states, plus the value's share of the state's rank by code."""
    if not told:
        return plant.costs
    own = plant.sizes[: plant.decisions]
    rank = [prod(own[i + 1 :]) for i in range(len(own))]
    return tuple(
        tuple(cost * prod(own) + value * rank[i] for value, cost in enumerate(costs))
        for i, costs in enumerate(plant.costs)
    )


def toulbar2(plant, told):
    """wcsp: a unary cost function a part, a hard table a scope."""
    costs = weights(plant, told)
    top = sum(map(max, costs)) + 1
    assert top < 2**58, "costs and code together are too large for toulbar2"
    functions = []
    for i, own in enumerate(costs):
        rows = "".join(f"{value} {cost}\n" for value, cost in enumerate(own))
        functions.append(f"1 {i} 0 {len(own)}\n{rows}")
    for scope, rows in forbidden(plant):
        text = "".join(f"{' '.join(map(str, row))} {top}\n" for row in rows)
        functions.append(f"{len(scope)} {' '.join(map(str, scope))} 0 {len(rows)}\n{text}")
    head = f"plant {len(plant.sizes)} {max(plant.sizes)} {len(functions)} {top}\n"
    return head + " ".join(map(str, plant.sizes)) + "\n" + "".join(functions)


def gecode(plant):
    """What gecode_list.cpp reads: sizes, costs, and the allowed rows a scope."""
    tables = list(forbidden(plant))
    lines = [f"{plant.decisions} {len(plant.sizes)} {len(tables)}"]
    lines.append(" ".join(map(str, plant.sizes)))
    lines += [" ".join(map(str, costs)) for costs in plant.costs]
    for scope, rows in tables:
        out = set(rows)
        rows = product(*(range(plant.sizes[v]) for v in scope))
        allowed = [row for row in rows if row not in out]
        lines.append(f"{len(scope)} {len(allowed)} {' '.join(map(str, scope))}")
        lines += [" ".join(map(str, row)) for row in allowed]
    return "\n".join(lines) + "\n"
