"""Fixed tests and reductions for a gate, on sheets of both editions."""

from random import Random
from typing import NamedTuple

from plant import Literal, Plant, Refusal, encode
from search import reduce_call, shown, test_call, to_words
from shapes import (
    random_assignment,
    random_sizes,
    random_words,
    shaped,
    small_random_plant,
    spoil,
    weighed,
)
from sheet_cases import (
    LIMIT_MOST,
    SMALL_PLANT,
    SMALL_WEIGHED,
    end_damage,
    fnv,
    header_damage,
    literal_damage,
    longest_plant,
    longest_weighed,
    sheet_bytes,
    weight_damage,
    weighed_double_faults,
)


class Call(NamedTuple):
    """A test (kind 0) or a reduction (kind 1)."""

    kind: int
    sheet: bytes
    mask: int
    values: int
    limit: int


def answer_call(call):
    return (reduce_call if call.kind else test_call)(*call[1:])


def limits_around(rng, call):
    """The call with limits ample, exact, one short, none and small."""
    trials = answer_call(call._replace(limit=20_000)).trials
    choices = [LIMIT_MOST if trials < 20_000 else 20_000, trials]
    choices += [max(trials - 1, 0), 0, rng.randint(0, trials)]
    return [call._replace(limit=limit) for limit in dict.fromkeys(choices)]


def tight_plant(rng):
    """Small, with clauses enough that most full assignments fail."""
    sizes = random_sizes(rng, rng.randint(2, 7), 4)
    decisions = rng.randint(1, len(sizes))
    lengths = [rng.randint(1, 3) for _ in range(rng.randint(4, 14))]
    return shaped(rng, sizes, decisions, lengths, "small")


def wide_plants(rng):
    """D 16 and S 32, few values or many, loose or tight."""
    binary = [2] * 48
    return [
        shaped(rng, binary, 16, [3] * 150, "small"),
        shaped(rng, binary, 16, [2] * 20, "small"),
        shaped(rng, [16] * 48, 16, [2] * 60, "small"),
        shaped(rng, [16] * 16, 16, [1] * 3 + [2] * 20, "small"),
        shaped(rng, [1] * 15 + [16] + [1] * 32, 16, [3] * 9, "small"),
        shaped(rng, [3], 1, [], "small"),
        shaped(rng, [1], 1, [1], "small"),
        longest_plant(rng),
    ]


def well_formed_calls(rng):
    calls = []
    for place in range(30):
        plant = small_random_plant(rng) if place % 3 else tight_plant(rng)
        chance = rng.choice([0.0, 0.3, 0.6, 1.0])
        words = random_words(rng, plant, chance)
        call = Call(place % 2, encode(plant), *words, 0)
        calls += limits_around(rng, call)
    for plant in wide_plants(rng):
        for kind in (0, 1):
            words = random_words(rng, plant, rng.choice([0.0, 0.5, 1.0]))
            calls += limits_around(rng, Call(kind, encode(plant), *words, 0))[:4]
    return calls


def consistent_calls(rng):
    """Tests of parts of a success, so that backing up and going on both occur."""
    calls = []
    while len(calls) < 48:
        plant = rng.choice([tight_plant, small_random_plant])(rng)
        call = Call(int(len(calls) % 5 == 4), encode(plant), 0, 0, LIMIT_MOST)
        answer = test_call(*call[1:])
        if answer.name == "consistent" and answer.trials > 3:
            chance = rng.choice([0.0, 0.3, 0.7])
            own = answer.found[: plant.decisions]
            part = tuple(v if rng.random() < chance else None for v in own)
            mask, values = to_words(part)
            calls += limits_around(rng, call._replace(mask=mask, values=values))
    return calls


def conflict_calls(rng):
    """Reductions that find a conflict, and the tests of what they find."""
    calls = []
    while len(calls) < 48:
        plant = tight_plant(rng)
        words = to_words(random_assignment(rng, plant, 1.0))
        call = Call(1, encode(plant), *words, LIMIT_MOST)
        answer = answer_call(call)
        if answer.name == "conflict" and answer.trials > 2:
            calls += limits_around(rng, call)
            calls.append(Call(0, call.sheet, *answer.found, answer.trials))
    return calls


def ill_formed_calls(rng):
    calls = []
    for place in range(30):
        plant = rng.choice([SMALL_PLANT, small_random_plant(rng), tight_plant(rng)])
        words = spoil(rng, plant, random_words(rng, plant))
        calls.append(Call(place % 2, encode(plant), *words, rng.choice([0, LIMIT_MOST])))
    small = encode(SMALL_PLANT)
    first, last = 1 << 63, 1
    for mask, values in [
        (last, 0),
        (first >> 2, 0),
        (first >> 2, 1 << 52),
        (last, last),
        (0, last),
        (0, 1 << 60),
        (0, 1 << 52),
        (first, 2 << 60),
        (first, 1 << 56),
        (3 << 62, 0x1200 << 48),
        (3 << 62, 0x1010 << 48),
        (2**64 - 1, 2**64 - 1),
    ]:
        calls.append(Call(0, small, mask, values, 100))
        calls.append(Call(1, small, mask, values, 0))
    return calls


def refused_sheet_calls(rng):
    """The sheet's refusals come before 14 and 15."""
    sheets = header_damage(SMALL_PLANT)[::2] + literal_damage(SMALL_PLANT)[:4]
    sheets += end_damage(SMALL_PLANT)
    sheets.append(b"")
    words = [(0, 0), (1, 0), (0, 1), (3 << 62, 0)]
    return [Call(p % 2, s, *rng.choice(words), 50) for p, s in enumerate(sheets)]


def middle_clauses(rng, sizes, decisions):
    """Hidden variables kept from their low values, some by the variable before."""
    clauses = []
    for variable in range(decisions, len(sizes)):
        for value in range(rng.randrange(sizes[variable] - 1)):
            before = Literal(variable - 1, rng.randrange(2), 0)
            own = Literal(variable, 1, value)
            clauses.append((own, before) if rng.random() < 0.4 else (own,))
    return clauses


def middle_plant(rng, hidden):
    """Its first successes often have hidden variables between first and last value."""
    decisions = rng.randint(1, 4) if hidden < 32 else 16
    sizes = random_sizes(rng, decisions, 3) + [rng.randint(3, 5) for _ in range(hidden)]
    lengths = [rng.choice([2, 3]) for _ in range(rng.randint(2, 5))]
    plant = shaped(rng, sizes, decisions, lengths, "small")
    clauses = plant.clauses + tuple(middle_clauses(rng, sizes, decisions))
    return Plant(plant.costs, plant.state_sizes, clauses)


def between(plant, found):
    """Whether a hidden variable is neither at its first nor at its last value."""
    hidden = found[plant.decisions :]
    return any(0 < value < size - 1 for value, size in zip(hidden, plant.state_sizes))


def shown_calls(rng):
    """Tests that show values between the first and the last; with all decision
    variables given, with some and with none; and the tests of a limit too low."""
    calls = []
    while len(calls) < 80:
        plant = middle_plant(rng, rng.choice([1, 2, 3, 3, 4, 32]))
        words = random_words(rng, plant, rng.choice([0.0, 0.5, 1.0]))
        call = Call(0, encode(plant), *words, 20_000)
        answer = answer_call(call)
        if answer.name == "consistent" and between(plant, answer.found):
            calls += limits_around(rng, call)[:3]
    return calls


def weighed_word_calls():
    """14 and 15 on a sheet of edition 2; a mask bit beyond the most variables it has."""
    small = encode(SMALL_WEIGHED)
    full = encode(weighed(Random(1), Plant(((0, 0),) * 8, (), ()), "wide"))
    first, last = 1 << 63, 1
    calls = []
    for sheet, mask, values in [
        (small, first >> 2, 0),
        (small, last, last),
        (small, first, 2 << 60),
        (small, 0, 1 << 52),
        (small, 3 << 62, 0x11 << 56),
        (full, 0xFF << 56, 0x11111111 << 32),
        (full, first >> 8, 0),
        (full, first >> 8, 1 << 28),
        (full, 0xFF << 56, 1 << 28),
        (full, 0xFF << 56, 2 << 32),
    ]:
        calls += [Call(kind, sheet, mask, values, 100) for kind in (0, 1)]
    return calls


def weighed_calls(rng):
    """Tests and reductions that search, on sheets of edition 2, and the plant's own in
    edition 1: weights bear on no answer."""
    calls = []
    while len(calls) < 60:
        make = rng.choice([tight_plant, tight_plant, small_random_plant])
        plant = make(rng)
        words = random_words(rng, plant, rng.choice([0.3, 0.7, 1.0]))
        call = Call(len(calls) // 3 % 2, encode(plant), *words, LIMIT_MOST)
        if answer_call(call).trials > 2:
            other = call._replace(sheet=encode(weighed(rng, plant)))
            calls += [call, *limits_around(rng, other)[:3]]
    large = weighed(rng, shaped(rng, [2] * 40, 8, [3] * 120, "zero"))
    for plant in (large, longest_weighed(rng)):
        calls += limits_around(rng, Call(0, encode(plant), 0, 0, 0))[:3]
    return calls


def refused_weighed_calls(rng):
    """The sheet's refusals, 20 among them, come before 14 and 15."""
    sheets = weight_damage(SMALL_WEIGHED) + weighed_double_faults()
    sheets += header_damage(SMALL_WEIGHED)[::2] + end_damage(SMALL_WEIGHED)[::3]
    words = [(0, 0), (1, 0), (0, 1), (3 << 62, 0)]
    return [Call(p % 2, s, *rng.choice(words), 50) for p, s in enumerate(sheets)]


def test_cases():
    rng = Random(202)
    cases = well_formed_calls(rng) + consistent_calls(rng) + conflict_calls(rng)
    cases += ill_formed_calls(rng) + refused_sheet_calls(rng)
    cases += shown_calls(Random(606)) + weighed_word_calls()
    return cases + weighed_calls(Random(919)) + refused_weighed_calls(Random(929))


def answered(call):
    """What the answer says, and the values that were found."""
    try:
        answer = answer_call(call)
    except Refusal as refusal:
        return f"refused {refusal.number}", None
    if answer.name == "conflict":
        mask, values = answer.found
        return f"conflict {mask:016x} {values:016x} {answer.trials}", None
    return f"{answer.name} {answer.trials}", answer.found


def call_line(call):
    words, found = answered(call)
    return words if call.kind else f"{words} {fnv(shown(found))}"


def call_bytes(call):
    words = call.mask.to_bytes(8, "big") + call.values.to_bytes(8, "big")
    limit = call.limit.to_bytes(4, "big")
    return bytes([call.kind]) + sheet_bytes(call.sheet) + words + limit
