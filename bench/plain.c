/* An independent plain implementation of docs/SPECIFICATION.md, word for word:
 * every clause is scanned after each trial, the queue is an unordered array
 * searched from end to end for the node whose best state comes first (a node
 * carries its best state's cost and code), the store is scanned variable by
 * variable. */
#include "plain.h"

#include <stdbool.h>
#include <string.h>

#ifdef PLAIN_COUNTS
#define plain_list counted_list
#define plain_test counted_test
#define plain_reduce counted_reduce
test_call plain_test;
reduce_call plain_reduce;
uint64_t counted_removals, counted_looks;
#define COUNT(tally) ((tally)++)
#else
#define COUNT(tally) ((void)0)
#endif

#include "plain_search.h"

/* ---- listing ---- */

struct node {
    uint64_t mask, values;
    uint32_t cost; /* of the best state, as is the code */
    uint64_t code;
};

struct run {
    struct plant plant;
    struct node queue[QUEUE_WORDS_MOST / 2];
    size_t queued, queue_entries;
    uint64_t *store;
    size_t stored, store_entries;
    uint64_t *codes;
    uint32_t *costs;
    uint8_t *values;
    uint32_t k, listed, tested, learned, unkept;
    struct meter meter;
};

static unsigned cheapest(const struct plant *p, unsigned v)
{
    unsigned best = 0;
    for (unsigned x = 1; x < p->sizes[v]; x++)
        if (p->costs[v][x] < p->costs[v][best])
            best = x;
    return best;
}

static struct node node_of(const struct plant *p, uint64_t mask, uint64_t values)
{
    struct node node = {mask, values, 0, 0};
    uint64_t all = 0;
    for (unsigned v = 0; v < p->decisions; v++) {
        unsigned x = assigned(mask, v) ? value_of(values, v) : cheapest(p, v);
        assign(&all, &node.code, v, x);
        node.cost += p->costs[v][x];
    }
    return node;
}

static bool comes_before(const struct node *a, const struct node *b)
{
    return a->cost < b->cost || (a->cost == b->cost && a->code < b->code);
}

static bool contains(const struct plant *p, uint64_t mask, uint64_t values,
                     const uint64_t *conflict)
{
    for (unsigned v = 0; v < p->decisions; v++)
        if (assigned(conflict[0], v)
            && !(assigned(mask, v) && value_of(values, v) == value_of(conflict[1], v)))
            return false;
    return true;
}

static bool manifests(const struct plant *p, const struct node *n, const uint64_t *conflict)
{
    COUNT(counted_looks);
    return contains(p, n->mask, n->values, conflict);
}

static bool resolves(const struct plant *p, const struct node *n, const uint64_t *conflict)
{
    COUNT(counted_looks);
    for (unsigned v = 0; v < p->decisions; v++)
        if (assigned(conflict[0], v) && assigned(n->mask, v)
            && value_of(n->values, v) != value_of(conflict[1], v))
            return true;
    return false;
}

static bool manifests_a_stored(const struct run *r, const struct node *n)
{
    for (size_t i = 0; i < r->stored; i++)
        if (manifests(&r->plant, n, &r->store[2 * i]))
            return true;
    return false;
}

/* The first stored conflict that the node does not resolve, or NULL. */
static const uint64_t *first_unresolved(const struct run *r, const struct node *n)
{
    for (size_t i = 0; i < r->stored; i++)
        if (!resolves(&r->plant, n, &r->store[2 * i]))
            return &r->store[2 * i];
    return NULL;
}

/* The offered entries found inconsistent, in order: SPENT, or CONSISTENT where
 * all have been checked. */
static enum answer find_inconsistent(struct run *r, size_t held)
{
    for (size_t i = 0; i < held; i++) {
        uint64_t mask = r->store[2 * i], values = r->store[2 * i + 1];
        uint8_t shown[STATE_BYTES];
        if (ill_formed(&r->plant, mask, values))
            continue;
        enum answer answer = test(&r->plant, mask, values, &r->meter, shown);
        if (answer == SPENT)
            return SPENT;
        if (answer == INCONSISTENT) {
            r->store[2 * r->stored] = mask;
            r->store[2 * r->stored + 1] = values;
            r->stored++;
        }
    }
    return CONSISTENT;
}

static bool is_equal(const uint64_t *a, const uint64_t *b)
{
    return a[0] == b[0] && a[1] == b[1];
}

/* Whether the entry at place i contains one of those kept before it, or one
 * behind it that is not its equal: of equal ones the first remains. Those that
 * are gone need no look: what contains one of them contains what it contained. */
static bool contains_another(const struct run *r, size_t i, size_t kept)
{
    const uint64_t *own = &r->store[2 * i];
    for (size_t j = 0; j < kept; j++)
        if (contains(&r->plant, own[0], own[1], &r->store[2 * j]))
            return true;
    for (size_t j = i + 1; j < r->stored; j++)
        if (contains(&r->plant, own[0], own[1], &r->store[2 * j])
            && !is_equal(own, &r->store[2 * j]))
            return true;
    return false;
}

/* Step 1. Where the limit strikes, among those checked so far too none contains
 * another. */
static enum answer check_offered(struct run *r, size_t held)
{
    enum answer answer = find_inconsistent(r, held);
    size_t kept = 0;
    for (size_t i = 0; i < r->stored; i++)
        if (!contains_another(r, i, kept))
            memmove(&r->store[2 * kept++], &r->store[2 * i], 2 * sizeof *r->store);
    r->stored = kept;
    return answer;
}

static struct node remove_first(struct run *r)
{
    COUNT(counted_removals);
    size_t first = 0;
    for (size_t i = 1; i < r->queued; i++)
        if (comes_before(&r->queue[i], &r->queue[first]))
            first = i;
    struct node node = r->queue[first];
    r->queue[first] = r->queue[--r->queued];
    return node;
}

enum { CHILDREN_MOST = DECISIONS_MOST * VALUES_MOST };

struct children {
    struct node nodes[CHILDREN_MOST];
    size_t count;
};

/* Adds a child unless it manifests a stored conflict. */
static void add_child(const struct run *r, struct children *children, uint64_t mask,
                      uint64_t values, unsigned v, unsigned x)
{
    assign(&mask, &values, v, x);
    struct node child = node_of(&r->plant, mask, values);
    if (!manifests_a_stored(r, &child))
        children->nodes[children->count++] = child;
}

/* Step 4. */
static void conflict_children(const struct run *r, const struct node *n,
                              const uint64_t *conflict, struct children *children)
{
    uint64_t mask = n->mask, values = n->values;
    for (unsigned v = 0; v < r->plant.decisions; v++) {
        if (!assigned(conflict[0], v) || assigned(n->mask, v))
            continue;
        unsigned own = value_of(conflict[1], v);
        for (unsigned x = 0; x < r->plant.sizes[v]; x++)
            if (x != own)
                add_child(r, children, mask, values, v, x);
        assign(&mask, &values, v, own);
    }
}

/* Step 5. */
static void value_children(const struct run *r, const struct node *n,
                           struct children *children)
{
    unsigned v = 0;
    while (assigned(n->mask, v))
        v++;
    for (unsigned x = 0; x < r->plant.sizes[v]; x++)
        add_child(r, children, n->mask, n->values, v, x);
}

/* Step 6. */
static enum ending put_in(struct run *r, const struct children *children)
{
    if (children->count > r->queue_entries - r->queued)
        return FULL;
    for (size_t i = 0; i < children->count; i++)
        r->queue[r->queued++] = children->nodes[i];
    return GOING_ON;
}

static void remove_manifesting(struct run *r, const uint64_t *conflict)
{
    size_t kept = 0;
    for (size_t i = 0; i < r->queued; i++)
        if (!manifests(&r->plant, &r->queue[i], conflict))
            r->queue[kept++] = r->queue[i];
    r->queued = kept;
}

static void remove_containing(struct run *r, const uint64_t *conflict)
{
    size_t kept = 0;
    for (size_t i = 0; i < r->stored; i++) {
        uint64_t mask = r->store[2 * i], values = r->store[2 * i + 1];
        if (contains(&r->plant, mask, values, conflict))
            continue;
        r->store[2 * kept] = mask;
        r->store[2 * kept + 1] = values;
        kept++;
    }
    r->stored = kept;
}

/* Step 7 on an inconsistent full node, the store not full. */
static enum ending learn(struct run *r, const struct node *n)
{
    uint64_t conflict[2] = {n->mask, n->values};
    if (reduce(&r->plant, &conflict[0], &conflict[1], &r->meter) == SPENT)
        return OUT_OF_TRIALS;
    remove_containing(r, conflict);
    memcpy(&r->store[2 * r->stored++], conflict, sizeof conflict);
    r->learned++;
    remove_manifesting(r, conflict);
    return GOING_ON;
}

/* Step 7. */
static enum ending test_full(struct run *r, const struct node *n)
{
    if (r->tested == UINT32_MAX)
        return OUT_OF_TRIALS;
    uint8_t shown[STATE_BYTES];
    enum answer answer = test(&r->plant, n->mask, n->values, &r->meter, shown);
    if (answer == SPENT)
        return OUT_OF_TRIALS;
    r->tested++;
    if (answer == CONSISTENT) {
        r->codes[r->listed] = n->code;
        r->costs[r->listed] = n->cost;
        memcpy(&r->values[STATE_BYTES * (size_t)r->listed], shown, STATE_BYTES);
        r->listed++;
    } else if (r->stored == r->store_entries) {
        r->unkept++;
    } else {
        return learn(r, n);
    }
    return GOING_ON;
}

/* Steps 4 to 7 on the removed node. */
static enum ending take_node(struct run *r, const struct node *n)
{
    struct children children;
    children.count = 0;
    const uint64_t *conflict = first_unresolved(r, n);
    if (conflict)
        conflict_children(r, n, conflict, &children);
    else if (!is_full(&r->plant, n->mask))
        value_children(r, n, &children);
    else
        return test_full(r, n);
    return put_in(r, &children);
}

static enum ending steps(struct run *r, size_t held)
{
    if (check_offered(r, held) == SPENT)
        return OUT_OF_TRIALS;
    r->queue[0] = node_of(&r->plant, 0, 0);
    r->queued = 1;
    enum ending ending = GOING_ON;
    while (ending == GOING_ON) {
        if (r->queued == 0)
            return ALL;
        if (r->listed == r->k)
            return ENOUGH;
        struct node node = remove_first(r);
        ending = take_node(r, &node);
    }
    return ending;
}

/* ---- the calls ---- */

/* Refusals 1 to 4, and 19 among them. */
static uint32_t host_refusal(size_t codes_len, size_t costs_len, size_t values_len,
                             size_t queue_len, size_t store_len, size_t result_len, uint32_t k,
                             size_t held)
{
    if (k < 1 || k > K_MOST)
        return 1;
    if (codes_len < k || costs_len < k || result_len < RESULT_WORDS)
        return 2;
    if (values_len < STATE_BYTES * (size_t)k)
        return 19;
    if (queue_len % 2 || queue_len < 2 || queue_len > QUEUE_WORDS_MOST)
        return 3;
    if (store_len % 2 || store_len > STORE_WORDS_MOST || held > store_len / 2)
        return 4;
    return 0;
}

uint32_t plain_list(const uint8_t *sheet, size_t sheet_len, uint64_t *codes, size_t codes_len,
                    uint32_t *costs, size_t costs_len, uint8_t *values, size_t values_len,
                    uint64_t *queue, size_t queue_len, uint64_t *store, size_t store_len,
                    uint32_t *result, size_t result_len, uint32_t k, size_t held, uint32_t limit)
{
    uint32_t refusal = host_refusal(codes_len, costs_len, values_len, queue_len, store_len,
                                    result_len, k, held);
    if (refusal)
        return refusal;
    struct run r;
    refusal = read_plant(sheet, sheet_len, &r.plant);
    if (refusal)
        return refusal;
    r.queued = r.stored = 0;
    r.queue_entries = queue_len / 2;
    r.store = store;
    r.store_entries = store_len / 2;
    r.codes = codes;
    r.costs = costs;
    r.values = values;
    r.k = k;
    r.listed = r.tested = r.learned = r.unkept = 0;
    r.meter = (struct meter){0, limit};
    enum ending ending = steps(&r, held);
    memset(queue, 0, queue_len * sizeof *queue);
    memset(store + 2 * r.stored, 0, (store_len - 2 * r.stored) * sizeof *store);
    uint32_t words[RESULT_WORDS] = {ending,    r.listed, r.tested,
                                    r.learned, r.unkept, r.meter.trials};
    memcpy(result, words, sizeof words);
    return 0;
}

/* The refusals of the test and reduce calls, the plant read. */
static uint32_t read_call(const uint8_t *sheet, size_t sheet_len, uint64_t mask,
                          uint64_t values, struct plant *p)
{
    uint32_t refusal = read_plant(sheet, sheet_len, p);
    return refusal ? refusal : ill_formed(p, mask, values);
}

uint32_t plain_test(const uint8_t *sheet, size_t sheet_len, uint64_t mask, uint64_t values,
                    uint32_t limit, uint8_t *shown, uint32_t *result, size_t result_len)
{
    struct plant plant;
    if (result_len < ANSWER_WORDS)
        return 2;
    uint32_t refusal = read_call(sheet, sheet_len, mask, values, &plant);
    if (refusal)
        return refusal;
    struct meter meter = {0, limit};
    result[0] = test(&plant, mask, values, &meter, shown);
    result[1] = meter.trials;
    return 0;
}

uint32_t plain_reduce(const uint8_t *sheet, size_t sheet_len, uint64_t mask, uint64_t values,
                      uint32_t limit, uint64_t *conflict, size_t conflict_len,
                      uint32_t *result, size_t result_len)
{
    struct plant plant;
    if (result_len < ANSWER_WORDS || conflict_len < CONFLICT_WORDS)
        return 2;
    uint32_t refusal = read_call(sheet, sheet_len, mask, values, &plant);
    if (refusal)
        return refusal;
    struct meter meter = {0, limit};
    uint8_t shown[STATE_BYTES];
    enum answer answer = test(&plant, mask, values, &meter, shown);
    if (answer == INCONSISTENT)
        answer = reduce(&plant, &mask, &values, &meter);
    if (answer == INCONSISTENT) {
        conflict[0] = mask;
        conflict[1] = values;
    }
    result[0] = answer;
    result[1] = meter.trials;
    return 0;
}
