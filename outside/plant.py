"""Plant sheets of both editions: from bytes to a Plant, or a refusal 5 to 13 or 20,
and back."""

from dataclasses import dataclass
from functools import cached_property, lru_cache
from typing import NamedTuple

DECISIONS_MOST = 16
STATES_MOST = 32
CLAUSES_MOST = 512


class Edition(NamedTuple):
    """What an edition of the sheet has of its own."""

    number: int
    decisions_most: int
    figure: str  # what each value of a decision variable has
    width: int  # its bits
    least: int  # a lower one is refused with 20


FIRST = Edition(1, DECISIONS_MOST, "cost", 16, 0)
SECOND = Edition(2, 8, "weight", 8, 1)


class Refusal(Exception):
    """An answer that is only its number and changes no lent buffer."""

    def __init__(self, number):
        super().__init__(f"refused {number}")
        self.number = number


class Literal(NamedTuple):
    variable: int
    sign: int  # 0 equal, 1 unequal
    value: int

    def holds_at(self, value):
        return (value == self.value) if self.sign == 0 else (value != self.value)


@dataclass(frozen=True)
class Plant:
    costs: tuple  # per decision variable, of its values from 0; in edition 2 the weights
    state_sizes: tuple
    clauses: tuple  # each a tuple of literals
    edition: Edition = FIRST

    @cached_property
    def decisions(self):
        return len(self.costs)

    @cached_property
    def sizes(self):
        return tuple(len(costs) for costs in self.costs) + self.state_sizes

    @cached_property
    def clauses_naming(self):
        """Per variable, the clauses with a literal on it."""
        naming = [[] for _ in self.sizes]
        for clause in self.clauses:
            for variable in sorted({literal.variable for literal in clause}):
                naming[variable].append(clause)
        return naming


class BitReader:
    """Stands over the sheet at a bit place, most significant bit first."""

    def __init__(self, sheet):
        self.sheet = sheet
        self.place = 0

    def take(self, width):
        if self.place + width > 8 * len(self.sheet):
            raise Refusal(5)
        number = 0
        for place in range(self.place, self.place + width):
            bit = self.sheet[place // 8] >> (7 - place % 8) & 1
            number = 2 * number + bit
        self.place += width
        return number

    def take_ruled(self, width, rule, refusal):
        """A field with a rule of its own; running past the end comes first."""
        number = self.take(width)
        if not rule(number):
            raise Refusal(refusal)
        return number


def read_literal(reader, sizes):
    variable = reader.take_ruled(6, lambda n: n < len(sizes), 10)
    sign = reader.take(1)
    value = reader.take_ruled(4, lambda n: n < sizes[variable], 11)
    return Literal(variable, sign, value)


def read_end(reader):
    filler = -reader.place % 8
    reader.take_ruled(filler, lambda n: n == 0, 12)
    if reader.place != 8 * len(reader.sheet):
        raise Refusal(13)


def read_costs(reader, edition):
    """Of one decision variable, all its values'; weights likewise."""
    size = reader.take(4) + 1
    rule = edition.width, lambda n: n >= edition.least, 20
    return tuple(reader.take_ruled(*rule) for _ in range(size))


@lru_cache(maxsize=256)
def read(sheet, edition=FIRST):
    """The plant of a sheet of this edition; raises the first refusal in reading order."""
    reader = BitReader(sheet)
    reader.take_ruled(8, lambda n: n == edition.number, 6)
    decisions = reader.take_ruled(5, lambda n: 1 <= n <= edition.decisions_most, 7)
    states = reader.take_ruled(6, lambda n: n <= STATES_MOST, 8)
    clause_count = reader.take_ruled(10, lambda n: n <= CLAUSES_MOST, 9)
    costs = [read_costs(reader, edition) for _ in range(decisions)]
    state_sizes = tuple(reader.take(4) + 1 for _ in range(states))
    sizes = tuple(len(own) for own in costs) + state_sizes
    clauses = []
    for _ in range(clause_count):
        literal_count = reader.take(4)
        literals = (read_literal(reader, sizes) for _ in range(literal_count))
        clauses.append(tuple(literals))
    read_end(reader)
    return Plant(tuple(costs), state_sizes, tuple(clauses), edition)


def read_either(sheet):
    """The plant of a sheet of the edition that its first byte says."""
    return read(sheet, SECOND if sheet[:1] == bytes([SECOND.number]) else FIRST)


def fields(plant):
    """The sheet's fields as (name, width, number), in reading order."""
    edition = plant.edition
    listed = [
        ("edition", 8, edition.number),
        ("D", 5, plant.decisions),
        ("S", 6, len(plant.state_sizes)),
        ("C", 10, len(plant.clauses)),
    ]
    for costs in plant.costs:
        listed.append(("size", 4, len(costs) - 1))
        listed.extend((edition.figure, edition.width, cost) for cost in costs)
    listed.extend(("size", 4, size - 1) for size in plant.state_sizes)
    for clause in plant.clauses:
        listed.append(("count", 4, len(clause)))
        for literal in clause:
            listed.append(("variable", 6, literal.variable))
            listed.append(("sign", 1, literal.sign))
            listed.append(("value", 4, literal.value))
    return listed


def pack(listed):
    """The bytes of any fields, right or wrong, with zero filler."""
    number = 0
    total = 0
    for _, width, field in listed:
        if field >> width:
            raise ValueError(f"{field} does not fit {width} bits")
        number = number << width | field
        total += width
    filler = -total % 8
    return (number << filler).to_bytes((total + filler) // 8, "big")


def encode(plant):
    return pack(fields(plant))
