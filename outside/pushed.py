"""What was pushed out of the store in a run, and listers with another rule for it."""

from listing import Run, manifests, survivors
from whole import assignment_of


class Watch:
    """Makes a listing's run and keeps it, to be looked at afterwards."""

    def __init__(self, kind=Run):
        self.kind = kind
        self.run = None

    def __call__(self, *given):
        self.run = self.kind(*given)
        return self.run


def pushed_out(run):
    """The survivors of step 1 that a learned conflict pushed out."""
    return [entry for entry in survivors(run.found) if entry not in run.store]


def rules_met(run):
    """How entries went in this run, by name."""
    distinct = set(run.found)
    met = {
        "longer dropped": len(survivors(run.found)) < len(distinct),
        "equal dropped": len(distinct) < len(run.found),
        "pushed out": bool(pushed_out(run)),
    }
    return {name for name, is_so in met.items() if is_so}


# ---- other rules for the entries found inconsistent ------------------------


def longer_ones(found):
    distinct = list(dict.fromkeys(found))
    return [e for e in distinct if not any(o != e and manifests(o, e) for o in distinct)]


def last_of_equal(found):
    return survivors(found[::-1])[::-1]


def none_of_equal(found):
    return [entry for entry in survivors(found) if found.count(entry) == 1]


def beside(found):
    """Compared with its neighbours only."""
    kept = []
    for place, entry in enumerate(found):
        before, after = found[:place][-1:], found[place + 1 :][:1]
        if not any(manifests(entry, other) for other in before):
            if not any(other != entry and manifests(entry, other) for other in after):
                kept.append(entry)
    return kept


def beyond_earlier(found):
    """Compared with earlier ones only."""
    places = enumerate(found)
    return [e for p, e in places if not any(manifests(e, other) for other in found[:p])]


def beyond_later(found):
    """Compared with later ones only."""
    return [e for p, e in enumerate(found) if not any(manifests(e, o) for o in found[p + 1 :])]


def members(entry):
    return {variable for variable, value in enumerate(entry) if value is not None}


def by_members(found):
    """Values not looked at."""
    distinct = list(dict.fromkeys(found))
    return [e for e in distinct if not any(members(o) < members(e) for o in distinct)]


def with_rule(rule):
    class Other(Run):
        def check_offered(self, offered):
            try:
                super().check_offered(offered)
            finally:
                self.store = rule(self.found)

    return Other


# ---- other steps -----------------------------------------------------------


class StruckUnthinned(Run):
    """Where the limit strikes in step 1, all found so far remain."""

    def check_offered(self, offered):
        self.store = self.found
        for words in offered:
            self.check_entry(*words)
        self.store = survivors(self.found)


class Untested(Run):
    """An offer that contains an earlier one is not tested."""

    def check_entry(self, mask, values):
        entry = assignment_of(self.plant, (mask, values))
        if entry is None or not any(manifests(entry, other) for other in self.found):
            super().check_entry(mask, values)


class PushesNothing(Run):
    """A learned conflict leaves those that contain it."""

    def learn(self, state):
        before = self.store
        super().learn(state)
        self.store = before + self.store[-1:]


class TallyLowered(Run):
    """The learned tally falls by those pushed out."""

    def learn(self, state):
        before = len(self.store)
        super().learn(state)
        self.learned -= before + 1 - len(self.store)


class InItsPlace(Run):
    """A learned conflict takes the place of the first that it pushes out."""

    def learn(self, state):
        before = self.store
        super().learn(state)
        conflict = self.store.pop()
        gone = [place for place, c in enumerate(before) if manifests(c, conflict)]
        self.store.insert(min(gone, default=len(before)), conflict)


class FullReduces(Run):
    """A full store reduces, as one might be pushed out."""

    def test_full(self, state):
        before = self.store
        full = len(before) == self.store_entries
        self.store_entries += full
        super().test_full(state)
        self.store_entries -= full
        if len(self.store) > self.store_entries:
            self.store = before
            self.learned -= 1
            self.unkept += 1


OTHER_RULES = {
    "nothing dropped": with_rule(list),
    "the longer one kept": with_rule(longer_ones),
    "the last of equal ones kept": with_rule(last_of_equal),
    "none of equal ones kept": with_rule(none_of_equal),
    "neighbours compared": with_rule(beside),
    "earlier ones compared": with_rule(beyond_earlier),
    "later ones compared": with_rule(beyond_later),
    "values not looked at": with_rule(by_members),
    "unthinned where the limit strikes": StruckUnthinned,
    "a containing offer untested": Untested,
    "nothing pushed out by a learned one": PushesNothing,
    "the tally lowered": TallyLowered,
    "the learned one in its place": InItsPlace,
    "a full store that reduces": FullReduces,
}
