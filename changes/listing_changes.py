"""Small changes of Listing."""

from change import change

# ---- Listing
STORE = "stored store c = keep (λ d. not (manifests d c)) store ++ (c ∷ [])"
change("a conflict put in front", "Listing", STORE, "stored store c = c ∷ keep (λ d. not (manifests d c)) store")
change("a conflict replaces the store", "Listing", STORE, "stored store c = c ∷ []")
change("stored: those that contain it stay", "Listing", STORE, "stored store c = store ++ (c ∷ [])")
change("stored: those that do not contain it go", "Listing", STORE, "stored store c = keep (λ d. manifests d c) store ++ (c ∷ [])")
change("stored: those that it contains go", "Listing", STORE, "stored store c = keep (λ d. not (manifests c d)) store ++ (c ∷ [])")
change("stored: those that it does not resolve go", "Listing", STORE, "stored store c = keep (λ d. resolves d c) store ++ (c ∷ [])")
change("stored: only the first that contains it goes", "Listing", STORE, "stored store c = elim store [ [] ↦ [] | d ∷ ds ↦ keep_if (not (manifests d c)) d ds ] ++ (c ∷ [])")
change("stored: not appended where it pushed one out", "Listing", STORE, "stored store c = elim (any_of (λ d. manifests d c) store) [ true ↦ keep (λ d. not (manifests d c)) store | false ↦ store ++ (c ∷ []) ]")
change("stored: a hole left", "Listing", STORE, "stored store c = map (λ d. elim (manifests d c) [ true ↦ map (λ o. none) d | false ↦ d ]) store ++ (c ∷ [])")
change("exceeds: the other way round", "Listing", "exceeds c d = manifests c d && not (manifests d c)", "exceeds c d = manifests d c && not (manifests c d)")
change("exceeds: equal ones too", "Listing", "exceeds c d = manifests c d && not (manifests d c)", "exceeds c d = manifests c d")
change("exceeds: never", "Listing", "exceeds c d = manifests c d && not (manifests d c)", "exceeds c d = false")
change("exceeds: whatever is not contained", "Listing", "exceeds c d = manifests c d && not (manifests d c)", "exceeds c d = not (manifests d c)")
SHORTEST = "keep_if (not (manifests_any earlier c || any_of (exceeds c) later)) c (shortest (earlier ++ (c ∷ [])) later)"
change("shortest: all stay", "Listing", SHORTEST, "c ∷ shortest (earlier ++ (c ∷ [])) later")
change("shortest: of equal ones the last", "Listing", SHORTEST, SHORTEST.replace("manifests_any earlier c || any_of (exceeds c) later", "any_of (exceeds c) earlier || manifests_any later c"))
change("shortest: equal ones all stay", "Listing", SHORTEST, SHORTEST.replace("manifests_any earlier c", "any_of (exceeds c) earlier"))
change("shortest: equal ones all go", "Listing", SHORTEST, SHORTEST.replace("any_of (exceeds c) later", "manifests_any later c"))
change("shortest: only earlier ones compared", "Listing", SHORTEST, SHORTEST.replace(" || any_of (exceeds c) later", ""))
change("shortest: only later ones compared", "Listing", SHORTEST, SHORTEST.replace("manifests_any earlier c || ", ""))
change("shortest: those that contain none go", "Listing", SHORTEST, SHORTEST.replace("(not (manifests_any earlier c || any_of (exceeds c) later))", "(manifests_any earlier c || any_of (exceeds c) later)"))
change("shortest: both", "Listing", SHORTEST, SHORTEST.replace("||", "&&"))
change("shortest: the one before only", "Listing", SHORTEST, SHORTEST.replace("(earlier ++ (c ∷ []))", "(c ∷ [])"))
change("shortest: the one behind only", "Listing", SHORTEST, SHORTEST.replace("any_of (exceeds c) later", "elim later [ [] ↦ false | d ∷ ds ↦ exceeds c d ]"))
change("shortest: the first of all as the only earlier one", "Listing", SHORTEST, SHORTEST.replace("(earlier ++ (c ∷ []))", "(elim earlier [ [] ↦ c ∷ [] | e ∷ es ↦ e ∷ [] ])"))
change("shortest: in front of the first", "Listing", "survivors_of found = shortest [] found", "survivors_of found = shortest found found")
change("shortest: survivors not asked", "Listing", "survivors_of found = shortest [] found", "survivors_of found = found")
change("manifests_any: the other way round", "Listing", "any_of (manifests n) store", "any_of (λ c. manifests c n) store")
change("first_unresolved: the last", "Listing", "elim (resolves n c) [ true ↦ first_unresolved store n | false ↦ some c ]", "elim (first_unresolved store n) [ some d ↦ some d | none ↦ elim (resolves n c) [ true ↦ none | false ↦ some c ] ]")
change("first_unresolved: only the first looked at", "Listing", "[ true ↦ first_unresolved store n | false ↦ some c ]", "[ true ↦ none | false ↦ some c ]")
change("first_unresolved: never", "Listing", "[ true ↦ first_unresolved store n | false ↦ some c ]", "[ true ↦ first_unresolved store n | false ↦ none ]")
FORMED = "elim (well_formed (decision_sizes p) o.mask o.values) ["
change("an offer that contains one found before untested", "Listing", FORMED, "elim (well_formed (decision_sizes p) o.mask o.values && not (manifests_any found (assignment_of (length p.costs) o.mask o.values))) [")
change("all checked: those found not compared", "Listing", "check_offers found [] used = checked (survivors_of found) used", "check_offers found [] used = checked found used")
change("an ill-formed offer ends step 1", "Listing", "| false ↦ check_offers found offers used", "| false ↦ checked (survivors_of found) used")
change("an ill-formed offer breaks off", "Listing", "| false ↦ check_offers found offers used", "| false ↦ broken_off (survivors_of found) used")
change("an ill-formed offer drops those before", "Listing", "| false ↦ check_offers found offers used", "| false ↦ check_offers [] offers used")
CONSISTENT = "| consistent f t ↦ check_offers found offers t"
change("a consistent offer ends step 1", "Listing", CONSISTENT, "| consistent f t ↦ checked (survivors_of found) t")
change("a consistent offer drops those before", "Listing", CONSISTENT, "| consistent f t ↦ check_offers [] offers t")
change("a consistent offer's trials uncounted", "Listing", CONSISTENT, "| consistent f t ↦ check_offers found offers used")
change("a consistent offer believed", "Listing", CONSISTENT, "| consistent f t ↦ check_offers (found ++ (c ∷ [])) offers t")
INCONSISTENT = "| inconsistent t ↦ check_offers (found ++ (c ∷ [])) offers t"
change("an inconsistent offer's trials uncounted", "Listing", INCONSISTENT, "| inconsistent t ↦ check_offers (found ++ (c ∷ [])) offers used")
change("an inconsistent offer dropped", "Listing", INCONSISTENT, "| inconsistent t ↦ check_offers found offers t")
change("an inconsistent offer ends step 1", "Listing", INCONSISTENT, "| inconsistent t ↦ checked (survivors_of (found ++ (c ∷ []))) t")
change("offers reduced", "Listing", INCONSISTENT, "| inconsistent t ↦ elim (reduce p limit c t) [ conflict d t' ↦ check_offers (found ++ (d ∷ [])) offers t' | Reduced.spent t' ↦ broken_off (survivors_of found) t' ]")
change("survivors in front", "Listing", INCONSISTENT, "| inconsistent t ↦ check_offers (c ∷ found) offers t")
SPENT1 = "| Tested.spent t ↦ broken_off (survivors_of found) t"
change("limit in step 1: survivors dropped", "Listing", SPENT1, "| Tested.spent t ↦ broken_off [] t")
change("limit in step 1: those found not compared", "Listing", SPENT1, "| Tested.spent t ↦ broken_off found t")
change("limit in step 1: the entry kept", "Listing", SPENT1, "| Tested.spent t ↦ broken_off (survivors_of (found ++ (c ∷ []))) t")
change("limit in step 1: goes on", "Listing", SPENT1, "| Tested.spent t ↦ check_offers found offers t")
change("limit in step 1: run goes on", "Listing", SPENT1, "| Tested.spent t ↦ checked (survivors_of found) t")
change("limit in step 1: trials forgotten", "Listing", SPENT1, "| Tested.spent t ↦ broken_off (survivors_of found) used")
change("limit in step 1: all trials forgotten", "Listing", SPENT1, "| Tested.spent t ↦ broken_off (survivors_of found) 0")
change("offer well formed unchecked", "Listing", FORMED, "elim true [")
change("other values: all", "Listing", "keep (λ x. not (eqb x y)) (values_from 0 s)", "values_from 0 s")
change("other values: greater ones", "Listing", "keep (λ x. not (eqb x y)) (values_from 0 s)", "keep (λ x. ltb y x) (values_from 0 s)")
change("other values: the first", "Listing", "keep (λ x. not (eqb x y)) (values_from 0 s)", "elim (keep (λ x. not (eqb x y)) (values_from 0 s)) [ [] ↦ [] | x ∷ xs ↦ x ∷ [] ]")
RES = "resolving (s ∷ ss) (none ∷ n) (some y ∷ c) = map (λ x. some x ∷ n) (other_values y s) ++ map (λ m. some y ∷ m) (resolving ss n c)"
change("step 4: children overlap", "Listing", RES, "resolving (s ∷ ss) (none ∷ n) (some y ∷ c) = map (λ x. some x ∷ n) (other_values y s) ++ map (λ m. none ∷ m) (resolving ss n c)")
change("step 4: first member only", "Listing", RES, "resolving (s ∷ ss) (none ∷ n) (some y ∷ c) = map (λ x. some x ∷ n) (other_values y s)")
change("step 4: members from the highest", "Listing", "-- step 4: for each unassigned member", """-- a node with its unassigned members at the conflict's values
abbrev pub joined : Assignment → Assignment → Assignment
joined [] c = []
joined (o ∷ n) [] = o ∷ n
joined (some x ∷ n) (d ∷ c) = some x ∷ joined n c
joined (none ∷ n) (d ∷ c) = d ∷ joined n c

-- step 4: for each unassigned member""", RES, "resolving (s ∷ ss) (none ∷ n) (some y ∷ c) = map (λ x. some x ∷ joined n c) (other_values y s) ++ map (λ m. none ∷ m) (resolving ss n c)")
change("step 4: members after at the conflict's values too", "Listing", "-- step 4: for each unassigned member", """-- a node with its unassigned members at the conflict's values
abbrev pub joined : Assignment → Assignment → Assignment
joined [] c = []
joined (o ∷ n) [] = o ∷ n
joined (some x ∷ n) (d ∷ c) = some x ∷ joined n c
joined (none ∷ n) (d ∷ c) = d ∷ joined n c

-- step 4: for each unassigned member""", RES, "resolving (s ∷ ss) (none ∷ n) (some y ∷ c) = map (λ x. some x ∷ joined n c) (other_values y s) ++ map (λ m. some y ∷ m) (resolving ss n c)")
change("step 4: stops at an assigned variable", "Listing", "resolving (s ∷ ss) (some x ∷ n) (d ∷ c) = map (λ m. some x ∷ m) (resolving ss n c)", "resolving (s ∷ ss) (some x ∷ n) (d ∷ c) = []")
change("step 4: stops at a variable without a member", "Listing", "resolving (s ∷ ss) (none ∷ n) (none ∷ c) = map (λ m. none ∷ m) (resolving ss n c)", "resolving (s ∷ ss) (none ∷ n) (none ∷ c) = []")
change("step 4: no unassigned member, the node again", "Listing", "resolving [] n c = []\n", "resolving [] n c = [] ∷ []\n")
change("step 5: last value missing", "Listing", "branching (s ∷ ss) (none ∷ n) = map (λ x. some x ∷ n) (values_from 0 s)", "branching (s ∷ ss) (none ∷ n) = map (λ x. some x ∷ n) (keep (λ x. ltb (suc x) s) (values_from 0 s))")
change("step 5: from 1", "Listing", "branching (s ∷ ss) (none ∷ n) = map (λ x. some x ∷ n) (values_from 0 s)", "branching (s ∷ ss) (none ∷ n) = map (λ x. some x ∷ n) (other_values 0 s)")
change("step 5: the highest unassigned variable", "Listing", "branching (s ∷ ss) (none ∷ n) = map (λ x. some x ∷ n) (values_from 0 s)", "branching (s ∷ ss) (none ∷ n) = elim (branching ss n) [ [] ↦ map (λ x. some x ∷ n) (values_from 0 s) | m ∷ ms ↦ map (λ k. none ∷ k) (m ∷ ms) ]")
change("queue: the worst first", "Listing", "ahead n m = before o (best o.preferred n) (best o.preferred m)", "ahead n m = before o (best o.preferred m) (best o.preferred n)")
change("queue: by the node, not its best state", "Listing", "ahead n m = before o (best o.preferred n) (best o.preferred m)", "ahead n m = before o (value_list n) (value_list m)")
change("queue: put in front", "Listing", "enqueue_all ns queue = place_all ahead ns queue", "enqueue_all ns queue = ns ++ queue")
change("queue: put behind", "Listing", "enqueue_all ns queue = place_all ahead ns queue", "enqueue_all ns queue = queue ++ ns")
change("leave_off: those that do not manifest", "Listing", "keep (λ n. not (manifests_any store n)) nodes", "keep (λ n. manifests_any store n) nodes")
change("leave_off: none", "Listing", "keep (λ n. not (manifests_any store n)) nodes", "nodes")
LISTED = """  listed = s.listed ++ (f ∷ []);
  shown = s.shown ++ (g ∷ []);
  tested = s.tested + 1;
  learned = s.learned;
  unkept = s.unkept;
  trials = t;"""
change("listed: in front", "Listing", "listed = s.listed ++ (f ∷ []);", "listed = f ∷ s.listed;")
change("listed: test uncounted", "Listing", LISTED, LISTED.replace("s.tested + 1", "s.tested"))
change("listed: trials forgotten", "Listing", LISTED, LISTED.replace("trials = t;", "trials = s.trials;"))
change("listed: learned counted", "Listing", LISTED, LISTED.replace("s.learned;", "s.learned + 1;"))
change("listed: nothing shown", "Listing", "  shown = s.shown ++ (g ∷ []);\n", "  shown = s.shown;\n")
change("listed: shown in front", "Listing", "  shown = s.shown ++ (g ∷ []);\n", "  shown = g ∷ s.shown;\n")
change("listed: shown in place of all", "Listing", "  shown = s.shown ++ (g ∷ []);\n", "  shown = g ∷ [];\n")
change("listed: shown twice", "Listing", "  shown = s.shown ++ (g ∷ []);\n", "  shown = s.shown ++ (g ∷ g ∷ []);\n")
change("listed: the state's own values shown", "Listing", "  shown = s.shown ++ (g ∷ []);\n", "  shown = s.shown ++ (f ∷ []);\n")
SHOWN = "  shown = s.shown;\n"
UNKEPT = """  tested = s.tested + 1;
  learned = s.learned;
  unkept = s.unkept + 1;
  trials = t;"""
change("unkept: uncounted", "Listing", UNKEPT, UNKEPT.replace("s.unkept + 1", "s.unkept"))
change("unkept: test uncounted", "Listing", UNKEPT, UNKEPT.replace("s.tested + 1", "s.tested"))
change("unkept: trials forgotten", "Listing", UNKEPT, UNKEPT.replace("trials = t;", "trials = s.trials;"))
change("unkept: learned counted", "Listing", UNKEPT, UNKEPT.replace("s.learned;", "s.learned + 1;"))
change("unkept: shown emptied", "Listing", SHOWN + UNKEPT, "  shown = [];\n" + UNKEPT)
change("unkept: zeros shown", "Listing", SHOWN + UNKEPT, "  shown = s.shown ++ ([] ∷ []);\n" + UNKEPT)
LEARNED = """  tested = s.tested + 1;
  learned = s.learned + 1;
  unkept = s.unkept;
  trials = t;"""
change("learned: queue nodes that manifest it stay", "Listing", "queue = leave_off (c ∷ []) rest;", "queue = rest;")
change("learned: queue emptied", "Listing", "queue = leave_off (c ∷ []) rest;", "queue = [];")
change("learned: not stored", "Listing", "store = stored s.store c;", "store = s.store;")
change("learned: stored in front", "Listing", "store = stored s.store c;", "store = c ∷ s.store;")
change("learned: stored in place of all", "Listing", "store = stored s.store c;", "store = c ∷ [];")
change("learned: test uncounted", "Listing", LEARNED, LEARNED.replace("s.tested + 1", "s.tested"))
change("learned: as many as are stored", "Listing", LEARNED, LEARNED.replace("s.learned + 1", "length (stored s.store c)"))
change("learned: uncounted", "Listing", LEARNED, LEARNED.replace("s.learned + 1", "s.learned"))
change("learned: unkept counted", "Listing", LEARNED, LEARNED.replace("s.unkept;", "s.unkept + 1;"))
change("learned: trials forgotten", "Listing", LEARNED, LEARNED.replace("trials = t;", "trials = s.trials;"))
change("learned: shown emptied", "Listing", SHOWN + LEARNED, "  shown = [];\n" + LEARNED)
change("learned: zeros shown", "Listing", SHOWN + LEARNED, "  shown = s.shown ++ ([] ∷ []);\n" + LEARNED)
SPENT = """  tested = s.tested;
  learned = s.learned;
  unkept = s.unkept;
  trials = t;"""
STORED = "  store = s.store;\n  listed = s.listed;\n" + SHOWN
change("limit in step 7: trials forgotten", "Listing", SPENT, SPENT.replace("trials = t;", "trials = s.trials;"))
change("limit in step 7: all trials forgotten", "Listing", SPENT, SPENT.replace("trials = t;", "trials = 0;"))
change("limit in step 7: test counted", "Listing", SPENT, SPENT.replace("s.tested;", "s.tested + 1;"))
change("limit in step 7: struck", "Listing", SPENT + "\n  struck = s.struck;", SPENT + "\n  struck = true;")
change("limit in step 7: store emptied", "Listing", STORED + SPENT, STORED.replace("s.store", "[]") + SPENT)
change("limit in step 7: list emptied", "Listing", STORED + SPENT, STORED.replace("s.listed", "[]") + SPENT)
change("limit in step 7: shown emptied", "Listing", SHOWN + SPENT, "  shown = [];\n" + SPENT)
change("limit in step 7: zeros shown", "Listing", SHOWN + SPENT, "  shown = s.shown ++ ([] ∷ []);\n" + SPENT)
RSPENT = """  tested = s.tested + 1;
  learned = s.learned;
  unkept = s.unkept;
  trials = t;
  struck = true;"""
change("limit in a reduction: test uncounted", "Listing", RSPENT, RSPENT.replace("s.tested + 1", "s.tested"))
change("limit in a reduction: learned counted", "Listing", RSPENT, RSPENT.replace("s.learned;", "s.learned + 1;"))
change("limit in a reduction: unkept counted", "Listing", RSPENT, RSPENT.replace("s.unkept;", "s.unkept + 1;"))
change("limit in a reduction: trials forgotten", "Listing", RSPENT, RSPENT.replace("trials = t;", "trials = s.trials;"))
change("limit in a reduction: not struck", "Listing", RSPENT, RSPENT.replace("struck = true", "struck = false"))
change("limit in a reduction: store emptied", "Listing", STORED + RSPENT, STORED.replace("s.store", "[]") + RSPENT)
change("limit in a reduction: list emptied", "Listing", STORED + RSPENT, STORED.replace("s.listed", "[]") + RSPENT)
change("limit in a reduction: shown emptied", "Listing", SHOWN + RSPENT, "  shown = [];\n" + RSPENT)
change("limit in a reduction: zeros shown", "Listing", SHOWN + RSPENT, "  shown = s.shown ++ ([] ∷ []);\n" + RSPENT)
QUEUED = "  tested = s.tested;\n  learned = s.learned;\n  unkept = s.unkept;\n  trials = s.trials;\n"
change("queued: shown emptied", "Listing", SHOWN + QUEUED, "  shown = [];\n" + QUEUED)
change("queued: zeros shown", "Listing", SHOWN + QUEUED, "  shown = s.shown ++ ([] ∷ []);\n" + QUEUED)
change("most tested one less", "Listing", "most_tested = 4294967295", "most_tested = 4294967294")
change("most tested one more", "Listing", "most_tested = 4294967295", "most_tested = 4294967296")
change("full: one early", "Listing", "elim (ltb entries (length rest + length others)) [", "elim (ltb entries (length rest + length others + 1)) [")
change("full: one late", "Listing", "elim (ltb entries (length rest + length others)) [", "elim (ltb (entries + 1) (length rest + length others)) [")
change("full: counts children that manifest", "Listing", "elim (ltb entries (length rest + length others)) [", "elim (ltb entries (length rest + length children)) [")
change("full: counts the children alone", "Listing", "elim (ltb entries (length rest + length others)) [", "elim (ltb entries (length others)) [")
change("children that manifest put in", "Listing", "more (queued s (enqueue_all o others rest))", "more (queued s (enqueue_all o children rest))")
change("full: the run goes on without them", "Listing", "| true ↦ ended full s\n", "| true ↦ more (queued s rest)\n")
change("full: ends 'spent'", "Listing", "| true ↦ ended full s\n", "| true ↦ ended Ending.spent s\n")
change("store full: one entry more", "Listing", "elim (ltb (length s.store) places) [", "elim (ltb (length s.store) (places + 1)) [")
change("store full: one entry less", "Listing", "elim (ltb (length s.store) places) [", "elim (ltb (length s.store + 1) places) [")
change("store full: still reduces", "Listing", "| false ↦ more (unkept_one s rest t)", "| false ↦ elim (reduce p limit n t) [ conflict c t' ↦ more (unkept_one s rest t') | Reduced.spent t' ↦ ended Ending.spent (spent_in_reduction s t') ]")
change("store full: still removes queue nodes", "Listing", "| false ↦ more (unkept_one s rest t)", "| false ↦ elim (reduce p limit n t) [ conflict c t' ↦ more (unkept_one s (leave_off (c ∷ []) rest) t) | Reduced.spent t' ↦ more (unkept_one s rest t) ]")
change("store full: ends the run", "Listing", "| false ↦ more (unkept_one s rest t)", "| false ↦ ended full (unkept_one s rest t)")
change("learn: the reduction's limit afresh", "Listing", "elim (reduce p limit n t) [", "elim (reduce p limit n 0) [")
change("learn: not reduced", "Listing", "| conflict c t' ↦ more (learned_one s rest c t')", "| conflict c t' ↦ more (learned_one s rest n t')")
change("learn: trials of the reduction forgotten", "Listing", "| conflict c t' ↦ more (learned_one s rest c t')", "| conflict c t' ↦ more (learned_one s rest c t)")
change("learn: spent in the reduction counts as unkept", "Listing", "| Reduced.spent t' ↦ ended Ending.spent (spent_in_reduction s t')", "| Reduced.spent t' ↦ more (unkept_one s rest t')")
change("learn: spent in the reduction as in the test", "Listing", "| Reduced.spent t' ↦ ended Ending.spent (spent_in_reduction s t')", "| Reduced.spent t' ↦ ended Ending.spent (spent_in_test s t')")
change("judge: trials afresh", "Listing", "elim (test p limit n s.trials) [", "elim (test p limit n 0) [")
CONSISTENT = "| consistent g t ↦ more (listed_one s rest (value_list n) g t)"
change("judge: consistent trials forgotten", "Listing", CONSISTENT, CONSISTENT.replace("g t)", "g s.trials)"))
change("judge: lists all variables", "Listing", CONSISTENT, CONSISTENT.replace("(value_list n) g", "g g"))
change("judge: listed and shown swapped", "Listing", CONSISTENT, CONSISTENT.replace("(value_list n) g", "g (value_list n)"))
change("judge: consistent ends the run", "Listing", CONSISTENT, CONSISTENT.replace("more", "ended enough"))
change("judge: spent says full", "Listing", "| Tested.spent t ↦ ended Ending.spent (spent_in_test s t)", "| Tested.spent t ↦ ended full (spent_in_test s t)")
change("judge: spent goes on", "Listing", "| Tested.spent t ↦ ended Ending.spent (spent_in_test s t)", "| Tested.spent t ↦ more (queued (spent_in_test s t) rest)")
change("expand: conflicts unlooked", "Listing", "elim (first_unresolved s.store n) [", "elim (first_unresolved [] n) [")
change("expand: step 5 for step 4", "Listing", "| some c ↦ put_children s rest (resolving (decision_sizes p) n c)", "| some c ↦ put_children s rest (branching (decision_sizes p) n)")
change("expand: test though not full", "Listing", "| false ↦ put_children s rest (branching (decision_sizes p) n)", "| false ↦ judge s rest n")
change("remove: empty is enough", "Listing", "remove s [] = ended all s", "remove s [] = ended enough s")
TAKEN = "remove s (n ∷ rest) = elim (ltb (length s.listed) k) [ false ↦ ended enough s | true ↦ expand s rest n ]"
change("remove: the last", "Listing", TAKEN, TAKEN.replace("(n ∷ rest)", "(n ∷ [])").replace("s rest n", "s [] n") + "\n  " + TAKEN.replace("(n ∷ rest)", "(n ∷ m ∷ rest)").replace("s rest n", "s (n ∷ rest) m"))
change("k: one more", "Listing", TAKEN, TAKEN.replace("k)", "(k + 1))"))
change("k: one less", "Listing", TAKEN, TAKEN.replace("(length s.listed)", "(length s.listed + 1)"))
change("k before the queue", "Listing", "step s = remove s s.queue", "step s = elim (ltb (length s.listed) k) [ false ↦ ended enough s | true ↦ remove s s.queue ]")
change("'all' whenever k are listed", "Listing", TAKEN, TAKEN.replace("ended enough", "ended all"))
change("'all' with one node left", "Listing", TAKEN, TAKEN.replace("(n ∷ rest)", "(n ∷ [])").replace("s rest n", "s [] n").replace("ended enough", "ended all") + "\n  " + TAKEN.replace("(n ∷ rest)", "(n ∷ m ∷ rest)").replace("s rest n", "s (m ∷ rest) n"))
change("k is not asked for", "Listing", TAKEN, "remove s (n ∷ rest) = expand s rest n")
change("enough: empties the store", "Listing", "[ false ↦ ended enough s |", "[ false ↦ ended enough (record { queue = s.queue; store = []; listed = s.listed; shown = s.shown; tested = s.tested; learned = s.learned; unkept = s.unkept; trials = s.trials; struck = s.struck }) |")
change("run: one step fewer", "Listing", "enough_steps domains = suc (weight domains (unassigned domains))", "enough_steps domains = weight domains (unassigned domains)")
change("run: weight without the node", "Listing", "weight (s ∷ ss) (none ∷ n) = suc s * weight ss n", "weight (s ∷ ss) (none ∷ n) = s * weight ss n")
change("start: survivors forgotten", "Listing", "  store = survivors;", "  store = [];")
change("start: a state of zeros shown", "Listing", "  shown = [];\n", "  shown = [] ∷ [];\n")
change("start: trials forgotten", "Listing", "  trials = used;", "  trials = 0;")
change("start: tested from the offers", "Listing", "  tested = 0;\n", "  tested = length survivors;\n")
change("start: learned from the offers", "Listing", "  learned = 0;\n", "  learned = length survivors;\n")
change("start: unkept from the offers", "Listing", "  unkept = 0;\n", "  unkept = length survivors;\n")
change("start: struck", "Listing", "  struck = false;", "  struck = true;")
change("listing: broken off, run goes on", "Listing", "| broken_off survivors used ↦ ended Ending.spent (start (decision_sizes p) survivors used)", "| broken_off survivors used ↦ run p o k entries places limit (enough_steps (decision_sizes p)) (start (decision_sizes p) survivors used)")
change("listing: broken off, survivors lost", "Listing", "| broken_off survivors used ↦ ended Ending.spent (start (decision_sizes p) survivors used)", "| broken_off survivors used ↦ ended Ending.spent (start (decision_sizes p) [] used)")
change("listing: broken off is all", "Listing", "| broken_off survivors used ↦ ended Ending.spent (start", "| broken_off survivors used ↦ ended all (start")
change("listing: broken off strikes in a reduction", "Listing", "| broken_off survivors used ↦ ended Ending.spent (start (decision_sizes p) survivors used)", "| broken_off survivors used ↦ ended Ending.spent (spent_in_reduction (start (decision_sizes p) survivors used) used)")
