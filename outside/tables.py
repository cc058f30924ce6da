"""A plant's tables (request L1): to a sheet of edition 1 in a lent buffer, or a refusal
7 to 11 or 16 to 18, and from a sheet back to tables."""

from typing import NamedTuple

from plant import CLAUSES_MOST, FIRST, STATES_MOST, Refusal, read

SIZE_MOST = 16
LITERALS_MOST = 15
LITERAL_BYTES = 3


class Tables(NamedTuple):
    """The sheet's numbers and its four tables in reading order, without gaps."""

    decisions: int
    states: int
    clauses: int
    sizes: bytes  # of the domains, decision variables first
    costs: tuple  # of each decision variable, those of its values from 0
    counts: bytes  # of each clause's literals
    literals: bytes  # variable, sign and value of each


def literals_of(tables):
    data = tables.literals
    return [tuple(data[p : p + LITERAL_BYTES]) for p in range(0, len(data), LITERAL_BYTES)]


def lengths_agree(tables):
    return (
        len(tables.sizes) == tables.decisions + tables.states
        and len(tables.costs) == sum(tables.sizes[: tables.decisions])
        and len(tables.counts) == tables.clauses
        and len(tables.literals) == LITERAL_BYTES * sum(tables.counts)
    )


def entries_fit(tables):
    """No size, literal count or sign is outside its range."""
    return (
        all(1 <= size <= SIZE_MOST for size in tables.sizes)
        and all(count <= LITERALS_MOST for count in tables.counts)
        and all(sign <= 1 for sign in tables.literals[1::LITERAL_BYTES])
    )


def fields(tables):
    """The sheet's fields as (width, number), in reading order."""
    yield from ((8, FIRST.number), (5, tables.decisions), (6, tables.states), (10, tables.clauses))
    costs, literals = iter(tables.costs), iter(literals_of(tables))
    for size in tables.sizes[: tables.decisions]:
        yield 4, size - 1
        for _ in range(size):
            yield 16, next(costs)
    for size in tables.sizes[tables.decisions :]:
        yield 4, size - 1
    for count in tables.counts:
        yield 4, count
        for _ in range(count):
            yield from zip((6, 1, 4), next(literals))


def sheet_length(tables):
    return (sum(width for width, _ in fields(tables)) + 7) // 8


def sheet_of(tables):
    bits = "".join(f"{number:0{width}b}" for width, number in fields(tables))
    bits = bits.ljust(8 * sheet_length(tables), "0")
    return bytes(int(bits[place : place + 8], 2) for place in range(0, len(bits), 8))


def literal_ground(tables, variable, value):
    if variable >= len(tables.sizes):
        return 10
    return 11 if value >= tables.sizes[variable] else None


def grounds(tables, room):
    """Every refusal that the tables and the buffer's length ask for, in the order of
    the checks; where lengths disagree, literals and sheet are not looked at."""
    agree = lengths_agree(tables)
    if not agree:
        yield 16
    if not entries_fit(tables):
        yield 17
    if not 1 <= tables.decisions <= FIRST.decisions_most:
        yield 7
    if tables.states > STATES_MOST:
        yield 8
    if tables.clauses > CLAUSES_MOST:
        yield 9
    if agree:
        for variable, _, value in literals_of(tables):
            yield from filter(None, [literal_ground(tables, variable, value)])
        if room < sheet_length(tables):
            yield 18


def write_tables(tables, room):
    """The sheet of the tables, for a buffer of this length."""
    for number in grounds(tables, room):
        raise Refusal(number)
    return sheet_of(tables)


def write_into(tables, buffer):
    """Puts the sheet at the buffer's front and answers how many bytes it has."""
    sheet = write_tables(tables, len(buffer))
    buffer[: len(sheet)] = sheet
    return len(sheet)


def tables_of(plant):
    literals = [literal for clause in plant.clauses for literal in clause]
    return Tables(
        plant.decisions,
        len(plant.state_sizes),
        len(plant.clauses),
        bytes(plant.sizes),
        tuple(cost for costs in plant.costs for cost in costs),
        bytes(len(clause) for clause in plant.clauses),
        bytes(number for literal in literals for number in literal),
    )


def read_tables(sheet):
    """The tables of a sheet of edition 1; raises the sheet's refusal, 5 to 13."""
    return tables_of(read(sheet))
