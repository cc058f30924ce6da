/* docs/SPECIFICATION.md in C with the design of the proved library: sets of
 * clauses as words, a search that notes what it went by where it found no values,
 * the queue as a binary heap of two-word entries in the lent buffer, the store
 * scanned with word operations on masks that it keeps widened. Shares no code
 * with plain.c. */
#include "same.h"

#include <stdbool.h>
#include <string.h>

#include "same_sheet.h"

#include "same_search.h"

#include "same_queue.h"

/* ---- listing ---- */

struct run {
    struct search search; /* with the trials and the limit of the run */
    uint8_t cheapest[DECISIONS_MOST];
    uint64_t *queue, *store, *codes;
    uint32_t *costs;
    uint8_t *values;
    size_t queued, queue_entries, stored, store_entries;
    uint32_t k, listed, tested, learned, unkept;
};

static bool manifests_a_stored(const struct run *r, struct entry e)
{
    return manifests_any(e.code, widen(mask_of(e)), r->store, r->stored);
}

/* The place of the first stored conflict that is not resolved, or `stored`. */
static size_t first_unresolved(const struct run *r, struct entry e)
{
    uint64_t wide = widen(mask_of(e));
    size_t i = 0;
    while (i < r->stored && resolves(e.code, wide, &r->store[2 * i]))
        i++;
    return i;
}

/* The node with an unassigned variable given a value. */
static struct entry given(const struct run *r, struct entry e, size_t v, size_t x)
{
    const uint16_t *costs = r->search.tables->costs[v];
    uint64_t cost = cost_of(e) - costs[r->cheapest[v]] + costs[x];
    uint64_t mask = mask_of(e) | bit(v);
    uint64_t code = e.code ^ nibble(v, r->cheapest[v] ^ x);
    return (struct entry){cost << 16 | mask >> 48, code};
}

/* The empty assignment; finds the cheapest values as it goes. */
static struct entry root(struct run *r)
{
    const struct tables *t = r->search.tables;
    struct entry e = {0, 0};
    for (size_t v = 0; v < t->decisions; v++) {
        size_t best = 0;
        for (size_t x = 1; x < t->sizes[v]; x++)
            if (t->costs[v][x] < t->costs[v][best])
                best = x;
        r->cheapest[v] = (uint8_t)best;
        e.key += (uint64_t)t->costs[v][best] << 16;
        e.code |= nibble(v, best);
    }
    return e;
}

/* Step 6 for one child: puts it into the queue, unless it manifests a stored
 * conflict. */
static enum ending put_child(struct run *r, struct entry e, size_t v, size_t x)
{
    struct entry child = given(r, e, v, x);
    if (manifests_a_stored(r, child))
        return GOING_ON;
    if (r->queued == r->queue_entries)
        return FULL;
    push(r->queue, r->queued++, child);
    return GOING_ON;
}

/* The variable at each value but one. */
static enum ending put_values(struct run *r, struct entry e, size_t v, size_t but)
{
    for (size_t x = 0; x < r->search.tables->sizes[v]; x++)
        if (x != but && put_child(r, e, v, x) == FULL)
            return FULL;
    return GOING_ON;
}

/* Step 4. */
static enum ending put_resolving(struct run *r, struct entry e, const uint64_t *conflict)
{
    uint64_t open = narrow(conflict[0]) & ~mask_of(e);
    while (open) {
        size_t v = (size_t)__builtin_clzll(open);
        size_t own = conflict[1] >> (60 - 4 * v) & 15;
        if (put_values(r, e, v, own) == FULL)
            return FULL;
        e = given(r, e, v, own);
        open ^= bit(v);
    }
    return GOING_ON;
}

/* Step 5. */
static enum ending put_branching(struct run *r, struct entry e)
{
    return put_values(r, e, (size_t)__builtin_clzll(~mask_of(e)), VALUES_MOST);
}

/* Step 7 on an inconsistent full node, the store not full. The node resolved
 * every stored conflict, so the learned one contains none. */
static enum ending learn(struct run *r, struct entry e)
{
    uint64_t mask = mask_of(e), values = e.code;
    if (reduce(&r->search, &mask, &values) == SPENT)
        return OUT_OF_TRIALS;
    const uint64_t conflict[2] = {widen(mask), values & widen(mask)};
    r->stored = push_out(r->store, r->stored, 0, conflict);
    r->learned++;
    r->queued = sieve(r->queue, r->queued, conflict);
    return GOING_ON;
}

/* Step 7. */
static enum ending test_full(struct run *r, struct entry e)
{
    if (r->tested == UINT32_MAX)
        return OUT_OF_TRIALS;
    enum answer answer = test(&r->search, mask_of(e), e.code);
    if (answer == SPENT)
        return OUT_OF_TRIALS;
    r->tested++;
    if (answer == CONSISTENT) {
        r->codes[r->listed] = e.code;
        r->costs[r->listed] = (uint32_t)cost_of(e);
        show(&r->search, &r->values[STATE_BYTES * (size_t)r->listed]);
        r->listed++;
        return GOING_ON;
    }
    if (r->stored < r->store_entries)
        return learn(r, e);
    r->unkept++;
    return GOING_ON;
}

/* Steps 4 to 7 on the removed node. */
static enum ending take_node(struct run *r, struct entry e)
{
    size_t i = first_unresolved(r, e);
    if (i < r->stored)
        return put_resolving(r, e, &r->store[2 * i]);
    if ((size_t)__builtin_popcountll(mask_of(e)) < r->search.tables->decisions)
        return put_branching(r, e);
    return test_full(r, e);
}

/* Step 1: whether all offered entries have been checked. */
static bool check_offered(struct run *r, size_t held)
{
    for (size_t i = 0; i < held; i++) {
        uint64_t mask = r->store[2 * i], values = r->store[2 * i + 1];
        if (ill_formed(r->search.tables, mask, values))
            continue;
        enum answer answer = test(&r->search, mask, values);
        if (answer == SPENT)
            return false;
        const uint64_t conflict[2] = {widen(mask), values};
        if (answer == INCONSISTENT)
            r->stored = admit(r->store, r->stored, conflict);
    }
    return true;
}

static enum ending steps(struct run *r, size_t held)
{
    if (!check_offered(r, held))
        return OUT_OF_TRIALS;
    push(r->queue, r->queued++, root(r));
    enum ending ending = GOING_ON;
    while (ending == GOING_ON) {
        if (r->queued == 0)
            return ALL;
        if (r->listed == r->k)
            return ENOUGH;
        struct entry first = pop(r->queue, r->queued--);
        ending = take_node(r, first);
    }
    return ending;
}

/* ---- the calls ---- */

/* Refusals 1 to 4, and 19 among them. */
static uint32_t host_refusal(size_t codes_len, size_t costs_len, size_t values_len,
                             size_t queue_len, size_t store_len, size_t result_len, uint32_t k,
                             size_t held)
{
    if (k == 0 || k > K_MOST)
        return 1;
    if (k > codes_len || k > costs_len || result_len < RESULT_WORDS)
        return 2;
    if (STATE_BYTES * (size_t)k > values_len)
        return 19;
    if (queue_len % 2 == 1 || queue_len < 2 || queue_len > QUEUE_WORDS_MOST)
        return 3;
    if (store_len % 2 == 1 || store_len > STORE_WORDS_MOST || held > store_len / 2)
        return 4;
    return 0;
}

uint32_t same_list(const uint8_t *sheet, size_t sheet_len, uint64_t *codes, size_t codes_len,
                   uint32_t *costs, size_t costs_len, uint8_t *values, size_t values_len,
                   uint64_t *queue, size_t queue_len, uint64_t *store, size_t store_len,
                   uint32_t *result, size_t result_len, uint32_t k, size_t held, uint32_t limit)
{
    uint32_t refusal = host_refusal(codes_len, costs_len, values_len, queue_len, store_len,
                                    result_len, k, held);
    if (refusal)
        return refusal;
    struct tables tables;
    refusal = read_sheet(sheet, sheet_len, &tables);
    if (refusal)
        return refusal;
    struct sets sets;
    build_sets(&tables, &sets);
    struct run r;
    r.search.tables = &tables;
    r.search.sets = &sets;
    r.search.trials = 0;
    r.search.limit = limit;
    r.queue = queue;
    r.store = store;
    r.codes = codes;
    r.costs = costs;
    r.values = values;
    r.queue_entries = queue_len / 2;
    r.store_entries = store_len / 2;
    r.queued = r.stored = 0;
    r.k = k;
    r.listed = r.tested = r.learned = r.unkept = 0;
    result[0] = steps(&r, held);
    memset(queue, 0, queue_len * sizeof *queue);
    for (size_t i = 0; i < r.stored; i++)
        store[2 * i] = narrow(store[2 * i]);
    memset(store + 2 * r.stored, 0, (store_len - 2 * r.stored) * sizeof *store);
    result[1] = r.listed;
    result[2] = r.tested;
    result[3] = r.learned;
    result[4] = r.unkept;
    result[5] = r.search.trials;
    return 0;
}

uint32_t same_test(const uint8_t *sheet, size_t sheet_len, uint64_t mask, uint64_t values,
                   uint32_t limit, uint8_t *shown, uint32_t *result, size_t result_len)
{
    struct tables tables;
    if (result_len < ANSWER_WORDS)
        return 2;
    uint32_t refusal = read_sheet(sheet, sheet_len, &tables);
    if (!refusal)
        refusal = ill_formed(&tables, mask, values);
    if (refusal)
        return refusal;
    struct sets sets;
    build_sets(&tables, &sets);
    struct search s;
    s.tables = &tables;
    s.sets = &sets;
    s.trials = 0;
    s.limit = limit;
    result[0] = test(&s, mask, values);
    result[1] = s.trials;
    if (result[0] == CONSISTENT)
        show(&s, shown);
    else
        memset(shown, 0, STATE_BYTES);
    return 0;
}

uint32_t same_reduce(const uint8_t *sheet, size_t sheet_len, uint64_t mask, uint64_t values,
                     uint32_t limit, uint64_t *conflict, size_t conflict_len,
                     uint32_t *result, size_t result_len)
{
    struct tables tables;
    if (result_len < ANSWER_WORDS || conflict_len < CONFLICT_WORDS)
        return 2;
    uint32_t refusal = read_sheet(sheet, sheet_len, &tables);
    if (!refusal)
        refusal = ill_formed(&tables, mask, values);
    if (refusal)
        return refusal;
    struct sets sets;
    build_sets(&tables, &sets);
    struct search s;
    s.tables = &tables;
    s.sets = &sets;
    s.trials = 0;
    s.limit = limit;
    enum answer answer = test(&s, mask, values);
    if (answer == INCONSISTENT)
        answer = reduce(&s, &mask, &values);
    if (answer == INCONSISTENT) {
        conflict[0] = mask;
        conflict[1] = values;
    }
    result[0] = answer;
    result[1] = s.trials;
    return 0;
}
