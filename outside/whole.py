"""The whole set by brute force, and demand 3 checked on a result.

Nothing here goes through the consistency test: consistency is decided by
running over all values of all variables.
"""

from functools import lru_cache
from itertools import permutations, product
from math import prod

from plant import SECOND, Refusal
from search import STATE_BYTES, to_words, well_formed


def holds(clause, setting):
    for variable, sign, value in clause:
        if (setting[variable] == value) == (sign == 0):
            return True
    return False


@lru_cache(maxsize=32)
def successes(plant):
    """All values of all variables that make every clause hold. They are run over in
    trial order: by number, each from 0, the last variable's turning first."""
    every = product(*(range(size) for size in plant.sizes))
    return [setting for setting in every if all(holds(c, setting) for c in plant.clauses)]


@lru_cache(maxsize=256)
def first_of_each(plant):
    """For each full consistent assignment its first success."""
    first = {}
    for setting in successes(plant):
        first.setdefault(setting[: plant.decisions], setting)
    return first


def consistent_states(plant):
    """All full consistent assignments."""
    return list(first_of_each(plant))


def agrees(assignment, setting):
    return all(a is None or a == s for a, s in zip(assignment, setting))


def first_success(plant, assignment):
    """The first values that agree with the assignment; None where there are none."""
    if None not in assignment:
        return first_of_each(plant).get(assignment)
    return next((s for s in successes(plant) if agrees(assignment, s)), None)


def state_of_code(plant, code):
    return tuple(int(digit, 16) for digit in f"{code:016x}"[: plant.decisions])


def cost_of_code(plant, code):
    """In edition 2 its product."""
    state = state_of_code(plant, code)
    own = [costs[value] for costs, value in zip(plant.costs, state)]
    return prod(own) if plant.edition == SECOND else sum(own)


@lru_cache(maxsize=256)
def whole_set(plant):
    """Pairs of cost and code, in the order cost, then code; in edition 2 of product
    and code, the greatest product first."""
    codes = sorted(to_words(state)[1] for state in consistent_states(plant))
    pairs = [(cost_of_code(plant, code), code) for code in codes]
    # Where figures are equal, sorting leaves the codes in their order.
    return sorted(pairs, key=lambda pair: pair[0], reverse=plant.edition == SECOND)


def begins(short, long):
    return len(short) <= len(long) and all(a == b for a, b in zip(short, long))


def shown_at(values, place):
    """The bytes of the state at this place of the list."""
    return bytes(values[STATE_BYTES * place : STATE_BYTES * (place + 1)])


def run_list(result):
    return list(zip(result.costs, result.codes))[: result.listed]


def brute_consistent(states, assignment):
    return any(agrees(assignment, state) for state in states)


def entries(words):
    return list(zip(words[0::2], words[1::2]))


def minimal(states, conflict):
    """Inconsistent, and consistent without any one member."""
    if brute_consistent(states, conflict):
        return False
    for variable, value in enumerate(conflict):
        rest = conflict[:variable] + (None,) + conflict[variable + 1 :]
        if value is not None and not brute_consistent(states, rest):
            return False
    return True


def assignment_of(plant, words):
    """None where the words are ill formed."""
    try:
        return well_formed(plant, *words)
    except Refusal:
        return None


def contains(entry, part):
    return agrees(part, entry)


def true_offers(plant, settings, states):
    """The offered entries that step 1 finds inconsistent where the limit allows."""
    offered = entries(settings.store[: 2 * settings.held])
    well = (assignment_of(plant, words) for words in offered)
    return [own for own in well if own is not None and not brute_consistent(states, own)]


def check_list(result, plant, settings):
    whole = whole_set(plant)
    own = run_list(result)
    if not begins(own, whole):
        yield "the list does not begin the whole set"
    if result.ending == "all" and own != whole:
        yield "'all' without the whole set"
    if result.ending == "enough" and result.listed != settings.k:
        yield "'enough' without k"
    if result.listed > settings.k:
        yield "more than k listed"
    if any(cost != cost_of_code(plant, code) for cost, code in own):
        yield "a cost is not its code's"


def check_counts(result):
    if result.struck_in_reduction and result.ending != "spent":
        yield "the limit struck without 'spent'"
    known = result.listed + result.learned + result.unkept
    if result.tested != known + (1 if result.struck_in_reduction else 0):
        yield "tested is not the sum"


def stored(result, plant, offers):
    """The entries in the store, None for an ill formed one; zeros end them. The empty
    assignment's words are zeros too: it is there where it was learned or offered and
    there is no other."""
    after = entries(result.store)
    count = max((n for n, words in enumerate(after, 1) if any(words)), default=0)
    if count == 0 and (result.learned or (None,) * plant.decisions in offers):
        count = 1
    return [assignment_of(plant, words) for words in after[:count]]


def check_survivors(result, own, offers):
    """The entries before the learned ones, against the offers that are inconsistent."""
    kept = own[: len(own) - result.learned]
    if not all(entry in offers for entry in kept):
        yield "a survivor was not offered"
        return
    places = [offers.index(entry) for entry in kept]
    if places != sorted(places):
        yield "the survivors are not in the order of the offers"
    if result.ending == "spent" and result.tested == 0:
        # The limit may have struck in step 1, behind the last that survives.
        offers = offers[: max(places, default=-1) + 1]
    if not all(any(contains(offer, entry) for entry in own) for offer in offers):
        yield "an offer is gone that contains no stored entry"


def check_store(result, plant, settings):
    states = consistent_states(plant)
    offers = true_offers(plant, settings, states)
    own = stored(result, plant, offers)
    if len(result.store) != len(settings.store) or None in own or len(own) < result.learned:
        yield "the store is not survivors, learned, zeros"
        return
    if any(brute_consistent(states, entry) for entry in own):
        yield "a stored entry is consistent"
    if any(contains(entry, other) for entry, other in permutations(own, 2)):
        yield "a stored entry contains another"
    if not all(minimal(states, entry) for entry in own[len(own) - result.learned :]):
        yield "a learned conflict is not minimal"
    yield from check_survivors(result, own, offers)


def check_shown(plant, assignment, own):
    """What the 48 bytes shown break, of a consistent assignment to decision variables."""
    values = tuple(own[: len(plant.sizes)])
    if len(own) != STATE_BYTES:
        yield "the values are not 48 bytes"
        return
    if any(own[len(values) :]):
        yield "a byte beyond the variables is not zero"
    if any(value >= size for value, size in zip(values, plant.sizes)):
        yield "a value is outside its domain"
    if not all(holds(clause, values) for clause in plant.clauses):
        yield "the values break a clause"
    if not agrees(assignment, values):
        yield "the values do not agree with what was assigned"
    if values != first_success(plant, assignment):
        yield "the values are not the first that fit"


def check_values(result, plant, settings):
    for place, code in enumerate(result.codes[: result.listed]):
        state = state_of_code(plant, code)
        yield from check_shown(plant, state, shown_at(result.values, place))
    beyond = STATE_BYTES * result.listed
    if result.values[beyond:] != settings.values[beyond:]:
        yield "values beyond the listed states changed"


def check_buffers(result, settings):
    if result.queue != [0] * len(settings.queue):
        yield "the queue is not zero"
    if result.codes[result.listed :] != settings.codes[result.listed :]:
        yield "codes beyond listed changed"
    if result.costs[result.listed :] != settings.costs[result.listed :]:
        yield "costs beyond listed changed"
    for name in ("codes", "costs", "values"):
        if len(getattr(result, name)) != len(getattr(settings, name)):
            yield f"{name} changed its length"


def check_demand3(result, plant, settings):
    """What the result breaks of demand 3; an empty list where it holds."""
    return [
        *check_list(result, plant, settings),
        *check_counts(result),
        *check_store(result, plant, settings),
        *check_values(result, plant, settings),
        *check_buffers(result, settings),
    ]


def check_rest(result, plant, settings):
    """Further statements of the specification on a result."""
    broken = []
    if result.trials > settings.limit:
        broken.append("trials beyond the limit")
    if result.ending == "spent" and result.trials != settings.limit:
        broken.append("'spent' below the limit")
    states = prod(plant.sizes[: plant.decisions])
    if result.ending == "full" and len(settings.queue) // 2 >= states:
        broken.append("'full' with an entry for every state")
    if result.ending == "enough" and result.listed == states:
        broken.append("'enough' with no full assignment left")
    if result.unkept and any(w == (0, 0) for w in entries(result.store)):
        broken.append("unkept with the store not full")
    return broken
