"""Assignments, the consistency test with its trials and the values it shows, and
the reduction.

An assignment is a tuple over the D decision variables, None where a variable
is unassigned; the two words of docs/SPECIFICATION.md are met only at the edges.
"""

from typing import NamedTuple, Optional

from plant import Refusal, read_either

WORD_BITS = 64
NIBBLES = 16
STATE_BYTES = 48  # one for each of the most variables
ANSWER_WORDS = CONFLICT_WORDS = 2
TEST_ANSWERS = {"consistent": 1, "inconsistent": 2, "spent": 3}
REDUCE_ANSWERS = {"none": 1, "conflict": 2, "spent": 3}


class Spent(Exception):
    """A trial beyond the limit was wanted."""


class Meter:
    """One limit shared by however many tests."""

    def __init__(self, limit):
        self.limit = limit
        self.trials = 0

    def trial(self):
        if self.trials == self.limit:
            raise Spent
        self.trials += 1


def mask_bit(mask, variable):
    return mask >> (WORD_BITS - 1 - variable) & 1


def nibble(values, variable):
    return values >> (WORD_BITS - 4 - 4 * variable) & 15


def to_words(assignment):
    mask = 0
    values = 0
    for variable, value in enumerate(assignment):
        if value is not None:
            mask |= 1 << (WORD_BITS - 1 - variable)
            values |= value << (WORD_BITS - 4 - 4 * variable)
    return mask, values


def well_formed(plant, mask, values):
    """The assignment of two words; raises 14 or 15, 14 first."""
    if mask & ((1 << (WORD_BITS - plant.decisions)) - 1):
        raise Refusal(14)
    for variable in range(NIBBLES):
        # Bits beyond D are already zero, so an absent variable is unassigned.
        bound = plant.sizes[variable] if mask_bit(mask, variable) else 1
        if nibble(values, variable) >= bound:
            raise Refusal(15)
    return tuple(
        nibble(values, variable) if mask_bit(mask, variable) else None
        for variable in range(plant.decisions)
    )


def is_false(clause, setting):
    """Every literal assigned and failing; so an empty clause is false."""
    for literal in clause:
        value = setting[literal.variable]
        if value is None or literal.holds_at(value):
            return False
    return True


def descend(plant, setting, meter):
    """Completes `setting`, under which no clause is false, if that can be."""
    if None not in setting:
        return True
    variable = setting.index(None)
    for value in range(plant.sizes[variable]):
        meter.trial()
        setting[variable] = value
        # Only a clause naming the variable can have become false just now.
        broken = any(is_false(c, setting) for c in plant.clauses_naming[variable])
        if not broken and descend(plant, setting, meter):
            return True
    setting[variable] = None
    return False


def test(plant, assignment, meter):
    """The values of all variables at the first complete success, or None."""
    setting = list(assignment) + [None] * len(plant.state_sizes)
    if any(is_false(clause, setting) for clause in plant.clauses):
        return None
    return tuple(setting) if descend(plant, setting, meter) else None


def shown(found):
    """A byte for each variable, zero beyond them; zeros where nothing is found."""
    return bytes(found or ()).ljust(STATE_BYTES, b"\0")


def reduce_within(plant, conflict, meter):
    """The reduction of an assignment already found inconsistent."""
    for variable, value in enumerate(conflict):
        if value is not None:
            rest = conflict[:variable] + (None,) + conflict[variable + 1 :]
            if test(plant, rest, meter) is None:
                conflict = rest
    return conflict


class Answer(NamedTuple):
    """Of the test and reduce calls; `found` is values or a conflict's words."""

    name: str
    trials: int
    found: Optional[tuple] = None


def test_call(sheet, mask, values, limit):
    """On a sheet of either edition, as is the reduction."""
    plant = read_either(sheet)
    assignment = well_formed(plant, mask, values)
    meter = Meter(limit)
    try:
        found = test(plant, assignment, meter)
    except Spent:
        return Answer("spent", meter.trials)
    name = "inconsistent" if found is None else "consistent"
    return Answer(name, meter.trials, found)


def reduce_call(sheet, mask, values, limit):
    plant = read_either(sheet)
    assignment = well_formed(plant, mask, values)
    meter = Meter(limit)
    try:
        if test(plant, assignment, meter) is not None:
            return Answer("none", meter.trials)
        conflict = reduce_within(plant, assignment, meter)
    except Spent:
        return Answer("spent", meter.trials)
    return Answer("conflict", meter.trials, to_words(conflict))


def test_export(sheet, mask, values, limit, lent, result):
    """The refusal's number, or 0 with the 48 lent bytes and the result rewritten."""
    if len(result) < ANSWER_WORDS:
        return 2
    try:
        answer = test_call(sheet, mask, values, limit)
    except Refusal as refusal:
        return refusal.number
    lent[:] = shown(answer.found)
    result[:ANSWER_WORDS] = TEST_ANSWERS[answer.name], answer.trials
    return 0


def reduce_export(sheet, mask, values, limit, conflict, result):
    """The refusal's number, or 0 with the lent words rewritten."""
    if len(result) < ANSWER_WORDS or len(conflict) < CONFLICT_WORDS:
        return 2
    try:
        answer = reduce_call(sheet, mask, values, limit)
    except Refusal as refusal:
        return refusal.number
    if answer.found:
        conflict[:CONFLICT_WORDS] = answer.found
    result[:ANSWER_WORDS] = REDUCE_ANSWERS[answer.name], answer.trials
    return 0
