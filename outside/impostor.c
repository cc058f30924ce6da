/* Wrong calls over the right ones, to see that scale.py finds them: IMPOSTOR says
 * which; 1 to 8, 35 to 46, 51 to 65 and 66 list, 67 to 80 list by weights, 9 to 13, 47 to
 * 50, 81 and 82 test, 14 to 19 and 83 reduce, 20 to 29 write, 30 to 34 and 84 read.
 * Linked with --wrap for each of the six; no part of the gate. */
#include "leading.h"

#include <string.h>

#define LENT                                                                   \
    const uint8_t *sheet, size_t sheet_len, uint64_t *codes, size_t codes_len, \
        uint32_t *costs, size_t costs_len, uint8_t *values, size_t values_len, \
        uint64_t *queue, size_t queue_len, uint64_t *store, size_t store_len,  \
        uint32_t *result, size_t result_len, uint32_t k, size_t held, uint32_t limit

#define WEIGHED                                                                      \
    const uint8_t *sheet, size_t sheet_len, uint64_t *codes, size_t codes_len,       \
        uint64_t *products, size_t products_len, uint8_t *values, size_t values_len, \
        uint64_t *queue, size_t queue_len, uint64_t *store, size_t store_len,        \
        uint32_t *result, size_t result_len, uint32_t k, size_t held, uint32_t limit

#define TESTED                                                                        \
    const uint8_t *sheet, size_t sheet_len, uint64_t mask, uint64_t values, uint32_t limit, \
        uint8_t *shown, uint32_t *result, size_t result_len

#define REDUCED                                                                             \
    const uint8_t *sheet, size_t sheet_len, uint64_t mask, uint64_t values, uint32_t limit, \
        uint64_t *conflict, size_t conflict_len, uint32_t *result, size_t result_len

#define WRITTEN                                                                           \
    const uint8_t *sizes, size_t sizes_len, const uint16_t *costs, size_t costs_len,      \
        const uint8_t *counts, size_t counts_len, const uint8_t *literals,                \
        size_t literals_len, uint8_t *sheet, size_t sheet_len, uint32_t decisions,        \
        uint32_t states, uint32_t clauses, uint32_t *written

#define READ                                                                            \
    const uint8_t *sheet, size_t sheet_len, uint8_t *sizes, uint16_t *costs, uint8_t *counts, \
        uint8_t *literals, uint32_t *numbers

uint32_t __real_leading_list(LENT);
uint32_t __wrap_leading_list(LENT);
uint32_t __real_leading_list_weights(WEIGHED);
uint32_t __wrap_leading_list_weights(WEIGHED);
uint32_t __real_leading_test(TESTED);
uint32_t __wrap_leading_test(TESTED);
uint32_t __real_leading_reduce(REDUCED);
uint32_t __wrap_leading_reduce(REDUCED);
uint32_t __real_leading_write(WRITTEN);
uint32_t __wrap_leading_write(WRITTEN);
uint32_t __real_leading_read(READ);
uint32_t __wrap_leading_read(READ);

/* Of two states of one cost the later code first. */
static void swap_tie(uint64_t *codes, const uint32_t *costs, uint32_t listed)
{
    for (uint32_t i = 1; i < listed; i++)
        if (costs[i] == costs[i - 1]) {
            uint64_t code = codes[i];
            codes[i] = codes[i - 1];
            codes[i - 1] = code;
            return;
        }
}

static int clauses_hold(const uint8_t *state, const uint8_t *counts, uint32_t clauses,
                        const uint8_t *literal)
{
    for (uint32_t clause = 0; clause < clauses; clause++) {
        int holds = 0;
        for (unsigned i = 0; i < counts[clause]; i++, literal += 3)
            holds |= (state[literal[0]] == literal[2]) != literal[1];
        if (!holds)
            return 0;
    }
    return 1;
}

/* The last hidden variable at the last value that fits. */
static void show_last(const uint8_t *sheet, size_t sheet_len, uint8_t *state)
{
    static uint8_t sizes[LEADING_SIZE_ENTRIES], counts[LEADING_COUNT_ENTRIES];
    static uint8_t literals[LEADING_LITERAL_BYTES];
    static uint16_t costs[LEADING_COST_ENTRIES];
    uint32_t numbers[LEADING_NUMBERS_WORDS];
    __real_leading_read(sheet, sheet_len, sizes, costs, counts, literals, numbers);
    if (numbers[LEADING_NUMBER_HIDDEN] == 0)
        return;
    uint32_t last = numbers[LEADING_NUMBER_PARTS] + numbers[LEADING_NUMBER_HIDDEN] - 1;
    state[last] = (uint8_t)(sizes[last] - 1);
    while (!clauses_hold(state, counts, numbers[LEADING_NUMBER_CLAUSES], literals))
        state[last]--;
}

static unsigned variables(const uint8_t *sheet)
{
    return LEADING_PARTS(sheet) + LEADING_HIDDEN(sheet);
}

/* What is shown of the listed states. */
static void show_otherwise(const uint8_t *sheet, size_t sheet_len, uint8_t *values,
                           size_t values_len, uint32_t listed)
{
    size_t beyond = LEADING_VALUES_BYTES(listed);
    if (IMPOSTOR == 42 && beyond < values_len) /* a byte beyond the listed states */
        values[beyond] ^= 1;
    if (listed == 0)
        return;
    uint8_t *last = values + LEADING_VALUES_BYTES(listed - 1);
    if (IMPOSTOR == 38 && listed > 1) /* the values of the state listed before */
        memcpy(last, last - LEADING_STATE_BYTES, LEADING_STATE_BYTES);
    if (IMPOSTOR == 39) /* zeros for a consistent state */
        memset(last, 0, LEADING_STATE_BYTES);
    if (IMPOSTOR == 40) /* a hidden variable's last value that fits */
        show_last(sheet, sheet_len, last);
    if (IMPOSTOR == 41 && variables(sheet) < LEADING_STATE_BYTES) /* beyond the variables */
        last[variables(sheet)] = 1;
}

/* ---- conflicts that contain one another ---- */

#define OTHER_STORE (50 < IMPOSTOR && IMPOSTOR < 66)

struct entry {
    uint64_t mask, values;
};

static const struct entry none;

/* Of the listing under way: the offers as lent, and those found inconsistent. */
static struct entry offers[LEADING_STORE_ENTRIES_MOST], found[LEADING_STORE_ENTRIES_MOST];
static size_t offers_n, found_n;

static int same(struct entry one, struct entry other)
{
    return one.mask == other.mask && one.values == other.values;
}

static int contains(struct entry own, struct entry part)
{
    uint64_t used = 0;
    for (unsigned i = 0; i < LEADING_PARTS_MOST; i++)
        if (part.mask & LEADING_MASK(i))
            used |= LEADING_CODE(i, 15);
    return (own.mask & part.mask) == part.mask && (own.values & used) == part.values;
}

static void keep_offers(const uint64_t *store, size_t store_len, size_t held)
{
    int lent = store_len <= LEADING_STORE_WORDS(LEADING_STORE_ENTRIES_MOST) &&
               held <= store_len / 2;
    offers_n = lent ? held : 0;
    if (offers_n > 0)
        memcpy(offers, store, offers_n * sizeof *offers);
}

/* A test that takes its trials off the limit; LEADING_TEST_CONSISTENT if ill formed. */
static uint32_t tried(const uint8_t *sheet, size_t sheet_len, struct entry own, uint32_t *limit)
{
    uint8_t shown[LEADING_STATE_BYTES];
    uint32_t answer[LEADING_ANSWER_WORDS];
    if (__real_leading_test(sheet, sheet_len, own.mask, own.values, *limit, shown, answer,
                            LEADING_ANSWER_WORDS))
        return LEADING_TEST_CONSISTENT;
    *limit -= answer[LEADING_ANSWER_TRIALS];
    return answer[LEADING_ANSWER];
}

static int contains_found(struct entry own)
{
    for (size_t i = 0; i < found_n; i++)
        if (contains(own, found[i]))
            return 1;
    return 0;
}

/* Step 1's tests; whether the limit strikes there. */
static int find(const uint8_t *sheet, size_t sheet_len, uint64_t *store, uint32_t limit)
{
    found_n = 0;
    for (size_t i = 0; i < offers_n; i++) {
        if (IMPOSTOR == 59 && contains_found(offers[i])) { /* dropped untested, as ill formed */
            store[2 * i] |= 1;
            continue;
        }
        uint32_t answer = tried(sheet, sheet_len, offers[i], &limit);
        if (answer == LEADING_TEST_SPENT)
            return 1;
        if (answer == LEADING_TEST_INCONSISTENT)
            found[found_n++] = offers[i];
    }
    return 0;
}

/* The offers in an order in which the first of equal ones stands where the last one did. */
static void order_by_last(uint64_t *store)
{
    size_t n = 0;
    for (size_t i = 0; i < offers_n; i++) {
        size_t copies = 0, later = 0;
        for (size_t j = 0; j < offers_n; j++)
            if (same(offers[j], offers[i]))
                *(j <= i ? &copies : &later) += 1;
        for (; later == 0 && copies > 0; copies--)
            memcpy(store + 2 * n++, &offers[i], sizeof *offers);
    }
}

/* Whether one entry found drops another, by their places. */
static int drops(size_t place, size_t other)
{
    struct entry own = found[place], rival = found[other];
    if (IMPOSTOR == 54 && place + 1 != other && other + 1 != place) /* neighbours compared */
        return 0;
    if (IMPOSTOR == 55 && other > place) /* earlier ones compared */
        return 0;
    if (same(own, rival))
        return other < place || IMPOSTOR == 53; /* none of equal ones kept */
    if (IMPOSTOR == 51) /* the longer one kept */
        return contains(rival, own);
    if (IMPOSTOR == 62) /* values not looked at */
        return own.mask != rival.mask && (own.mask & rival.mask) == rival.mask;
    return contains(own, rival);
}

static int dropped(size_t place, int struck)
{
    if (IMPOSTOR == 60 || (IMPOSTOR == 65 && struck)) /* never, or not if the limit struck */
        return 0;
    for (size_t other = 0; other < found_n; other++)
        if (other != place && drops(place, other))
            return 1;
    return 0;
}

static size_t entries_left(const struct entry *after, size_t room)
{
    while (room > 0 && same(after[room - 1], none))
        room--;
    return room;
}

/* The learned conflict, at places from first to end, that pushes the entry out; or end. */
static size_t pusher(struct entry own, const struct entry *after, size_t first, size_t end)
{
    while (first < end && !contains(own, after[first]))
        first++;
    return first;
}

/* The store that another rule leaves of the entries found and of those learned, where
 * there is room for it; how many of the one the other pushed out. */
static uint32_t store_otherwise(uint64_t *store, size_t store_len, uint32_t learned, int struck)
{
    static struct entry after[LEADING_STORE_ENTRIES_MOST], kept[2 * LEADING_STORE_ENTRIES_MOST];
    uint8_t placed[LEADING_STORE_ENTRIES_MOST] = {0};
    size_t n = 0;
    uint32_t pushed = 0;
    if (store_len == 0)
        return 0;
    memcpy(after, store, store_len * sizeof *store);
    size_t end = entries_left(after, store_len / 2);
    end = end < learned ? learned : end; /* the empty assignment's words are zeros */
    for (size_t place = 0; place < found_n; place++) {
        size_t by = pusher(found[place], after, end - learned, end);
        if (dropped(place, struck)) {
            if (IMPOSTOR == 64) /* a dropped one's place left */
                kept[n++] = none;
            continue;
        }
        pushed += by < end;
        if (by == end || IMPOSTOR == 61) /* nothing is pushed out */
            kept[n++] = found[place];
        else if (IMPOSTOR == 56) /* its place left */
            kept[n++] = none;
        else if (IMPOSTOR == 63 && !placed[by]++) /* the learned one put there */
            kept[n++] = after[by];
    }
    for (size_t by = end - learned; by < end; by++)
        if (!placed[by])
            kept[n++] = after[by];
    if (n <= store_len / 2) {
        memset(store, 0, store_len * sizeof *store);
        memcpy(store, kept, n * sizeof *kept);
    }
    return pushed;
}

/* With room for one more, if the list is as long and the store has room for what is left. */
static void reduce_when_full(const uint8_t *sheet, size_t sheet_len, size_t queue_len,
                             uint64_t *store, size_t store_len, uint32_t *result, uint32_t k,
                             uint32_t limit)
{
    static uint64_t codes[LEADING_K_MOST], wide[LEADING_STORE_WORDS(LEADING_STORE_ENTRIES_MOST)];
    static uint64_t queue[LEADING_QUEUE_WORDS(LEADING_QUEUE_ENTRIES_MOST)];
    static uint32_t costs[LEADING_K_MOST];
    static uint8_t values[LEADING_VALUES_BYTES(LEADING_K_MOST)];
    uint32_t other[LEADING_RESULT_WORDS];
    if (result[LEADING_UNKEPT] == 0 || store_len + 2 > sizeof wide / sizeof *wide)
        return;
    memcpy(wide, offers, offers_n * sizeof *offers);
    __real_leading_list(sheet, sheet_len, codes, k, costs, k, values, LEADING_VALUES_BYTES(k),
                        queue, queue_len, wide, store_len + 2, other, LEADING_RESULT_WORDS, k,
                        offers_n, limit);
    if (other[LEADING_LISTED] != result[LEADING_LISTED] || wide[store_len] != 0)
        return;
    memcpy(store, wide, store_len * sizeof *store);
    memcpy(result, other, sizeof other);
}

/* Of several grounds to refuse another one. */
static uint32_t refused_otherwise(uint32_t refused, size_t values_len, size_t queue_len,
                                  uint32_t k)
{
    int queue_bad = queue_len % 2 || queue_len < 2 ||
                    queue_len > LEADING_QUEUE_WORDS(LEADING_QUEUE_ENTRIES_MOST);
    int values_bad = values_len < LEADING_VALUES_BYTES(k);
    if (IMPOSTOR == 43 && refused == LEADING_BAD_OUTPUT && values_bad) /* 19 before 2 */
        return LEADING_BAD_VALUES_ROOM;
    if (IMPOSTOR == 44 && refused == LEADING_BAD_VALUES_ROOM && queue_bad) /* 19 after 3 */
        return LEADING_BAD_QUEUE;
    return refused;
}

/* ---- edition 2 ---- */

enum { SECOND_EDITION = 2, WEIGHTS_AT = 29, SIZE_BITS = 4, WEIGHT_BITS = 8, ZERO_WEIGHT = 20 };

static unsigned bits(const uint8_t *sheet, size_t place, unsigned width)
{
    unsigned number = 0;
    for (size_t at = place; at < place + width; at++)
        number = number << 1 | (sheet[at / 8] >> (7 - at % 8) & 1u);
    return number;
}

/* The place of a part's size, where a sheet has it whole. */
static size_t size_place(const uint8_t *sheet, unsigned part)
{
    size_t at = WEIGHTS_AT;
    for (; part > 0; part--)
        at += SIZE_BITS + WEIGHT_BITS * (bits(sheet, at, SIZE_BITS) + 1);
    return at;
}

static uint64_t sum_of(const uint8_t *sheet, uint64_t code)
{
    uint64_t sum = 0;
    for (unsigned part = 0; part < LEADING_PARTS(sheet); part++)
        sum += bits(sheet, size_place(sheet, part) + SIZE_BITS +
                               (size_t)WEIGHT_BITS * LEADING_VALUE(code, part), WEIGHT_BITS);
    return sum;
}

/* Each weight of zero made 1, as far as the sheet goes. */
static void raise_weights(uint8_t *sheet, size_t sheet_len)
{
    size_t at = WEIGHTS_AT;
    for (unsigned part = 0; part < LEADING_PARTS(sheet); part++) {
        unsigned size = at + SIZE_BITS <= 8 * sheet_len ? bits(sheet, at, SIZE_BITS) + 1 : 0;
        at += SIZE_BITS;
        for (; size > 0 && at + WEIGHT_BITS <= 8 * sheet_len; size--, at += WEIGHT_BITS) {
            size_t last = at + WEIGHT_BITS - 1;
            if (bits(sheet, at, WEIGHT_BITS) == 0)
                sheet[last / 8] |= (uint8_t)(128u >> last % 8);
        }
        if (size > 0)
            return;
    }
}

/* A right sheet for one that is refused. */
static const uint8_t *righted(const uint8_t *sheet, size_t sheet_len)
{
    static uint8_t copy[3 * LEADING_SHEET_BYTES_MOST];
    if (sheet_len < 4 || sheet_len > sizeof copy || sheet[0] != SECOND_EDITION)
        return sheet;
    memcpy(copy, sheet, sheet_len);
    if (IMPOSTOR == 72 || IMPOSTOR == 82) /* a weight of zero taken */
        raise_weights(copy, sheet_len);
    if (IMPOSTOR == 74 && LEADING_PARTS(sheet) == 9) /* so are nine parts, as eight */
        copy[1] = (uint8_t)(copy[1] - 8);
    return copy;
}

/* Whether it is a weight of zero that runs past the end, if zeros are read there. */
static int zero_past_end(const uint8_t *sheet, size_t sheet_len)
{
    static uint8_t longer[3 * LEADING_SHEET_BYTES_MOST];
    uint8_t shown[LEADING_STATE_BYTES];
    uint32_t words[LEADING_ANSWER_WORDS];
    if (sheet_len >= sizeof longer)
        return 0;
    if (sheet_len > 0)
        memcpy(longer, sheet, sheet_len);
    longer[sheet_len] = 0;
    return __real_leading_test(longer, sheet_len + 1, 0, 0, 0, shown, words,
                               LEADING_ANSWER_WORDS) == ZERO_WEIGHT;
}

/* Whether the state at one place comes behind the next one's. */
static int behind(const uint8_t *sheet, const uint64_t *codes, const uint64_t *products, size_t i)
{
    uint64_t own = products[i], next = products[i + 1], changed = codes[i] ^ codes[i + 1];
    int part = 60;
    while (part > 0 && changed >> part == 0)
        part -= 4;
    if (IMPOSTOR == 67) /* the smallest product first */
        return own > next;
    if (IMPOSTOR == 68) /* the highest code on a tie */
        return own == next && codes[i] < codes[i + 1];
    if (IMPOSTOR == 69) /* the greatest sum first */
        return sum_of(sheet, codes[i]) < sum_of(sheet, codes[i + 1]);
    if (IMPOSTOR == 71) /* the highest of equal weights: one part of the code alone */
        return own == next && codes[i] < codes[i + 1] && (changed & ((1ull << part) - 1)) == 0;
    if (IMPOSTOR == 79) /* signed */
        return (own >> 63) > (next >> 63);
    return 0;
}

static void swap_states(uint64_t *codes, uint64_t *products, uint8_t *values, size_t i)
{
    uint8_t shown[LEADING_STATE_BYTES], *at = values + LEADING_VALUES_BYTES(i);
    uint64_t code = codes[i], product = products[i];
    codes[i] = codes[i + 1], codes[i + 1] = code;
    products[i] = products[i + 1], products[i + 1] = product;
    memcpy(shown, at, sizeof shown);
    memmove(at, at + sizeof shown, sizeof shown);
    memcpy(at + sizeof shown, shown, sizeof shown);
}

/* The listed states in another order. */
static void order_otherwise(const uint8_t *sheet, uint64_t *codes, uint64_t *products,
                            uint8_t *values, uint32_t listed)
{
    for (uint32_t end = listed; end > 1; end--)
        for (uint32_t i = 0; i + 1 < end; i++)
            if (behind(sheet, codes, products, i))
                swap_states(codes, products, values, i);
}

/* A sheet of edition 1, taken by the call of edition 2. */
static uint32_t list_first(WEIGHED)
{
    static uint32_t costs[LEADING_K_MOST];
    (void)products_len;
    uint32_t refused = __real_leading_list(sheet, sheet_len, codes, codes_len, costs, k, values,
                                           values_len, queue, queue_len, store, store_len,
                                           result, result_len, k, held, limit);
    for (uint32_t i = 0; !refused && i < result[LEADING_LISTED]; i++)
        products[i] = costs[i];
    return refused;
}

/* And the other way round. */
static uint32_t list_second(LENT)
{
    static uint64_t products[LEADING_K_MOST];
    (void)costs_len;
    uint32_t refused = __real_leading_list_weights(sheet, sheet_len, codes, codes_len, products,
                                                   k, values, values_len, queue, queue_len,
                                                   store, store_len, result, result_len, k,
                                                   held, limit);
    for (uint32_t i = 0; !refused && i < result[LEADING_LISTED]; i++)
        costs[i] = (uint32_t)products[i];
    return refused;
}

uint32_t __wrap_leading_list_weights(WEIGHED)
{
    if (IMPOSTOR == 80) /* the limit is one trial short */
        limit -= limit > 0;
    const uint8_t *own = IMPOSTOR == 82 ? sheet : righted(sheet, sheet_len);
    uint32_t refused = __real_leading_list_weights(own, sheet_len, codes, codes_len, products,
                                                   products_len, values, values_len, queue,
                                                   queue_len, store, store_len, result,
                                                   result_len, k, held, limit);
    if (IMPOSTOR == 73 && refused == LEADING_SHEET_SHORT && zero_past_end(sheet, sheet_len))
        return ZERO_WEIGHT; /* 20 before 5 */
    if (IMPOSTOR == 75 && refused == LEADING_SHEET_EDITION && sheet[0] == LEADING_EDITION)
        return list_first(sheet, sheet_len, codes, codes_len, products, products_len, values,
                          values_len, queue, queue_len, store, store_len, result, result_len,
                          k, held, limit);
    if (IMPOSTOR == 77 && refused && products_len > 0) /* a refusal writes */
        products[0] ^= 1;
    if (refused)
        return refused;
    uint32_t listed = result[LEADING_LISTED];
    order_otherwise(own, codes, products, values, listed);
    for (uint32_t i = 0; i < listed; i++) {
        if (IMPOSTOR == 70) /* products cut to 32 bits */
            products[i] = (uint32_t)products[i];
        if (IMPOSTOR == 76) /* the sum in place of the product */
            products[i] = sum_of(own, codes[i]);
    }
    if (IMPOSTOR == 78 && listed < products_len) /* a product beyond listed */
        products[listed] = 1;
    return refused;
}

uint32_t __wrap_leading_list(LENT)
{
    if (IMPOSTOR == 1) /* the limit is one trial short */
        limit -= limit > 0;
    if (IMPOSTOR == 2) /* offers are forgotten */
        held = held > store_len / 2 ? held : 0;
    if (IMPOSTOR == 37 && 0 < k && k < LEADING_K_MOST && k < codes_len && k < costs_len)
        k += values_len >= LEADING_VALUES_BYTES(k + 1); /* 'enough' one state late */
    keep_offers(store, store_len, held);
    if (IMPOSTOR == 52) /* of equal ones the last kept */
        order_by_last(store);
    int struck = OTHER_STORE && find(sheet, sheet_len, store, limit);
    size_t room = values_len + (IMPOSTOR == 45); /* a buffer one byte short is taken */
    uint32_t refused = __real_leading_list(sheet, sheet_len, codes, codes_len, costs, costs_len,
                                           values, room, queue, queue_len, store, store_len,
                                           result, result_len, k, held, limit);
    if (IMPOSTOR == 66 && refused == LEADING_SHEET_EDITION && sheet[0] == SECOND_EDITION)
        return list_second(sheet, sheet_len, codes, codes_len, costs, costs_len, values,
                           values_len, queue, queue_len, store, store_len, result, result_len,
                           k, held, limit); /* edition 2 is taken */
    if (IMPOSTOR == 3 && refused && result_len > 0) /* a refusal writes */
        result[0] = 0;
    if (IMPOSTOR == 46 && refused && values_len > 0) /* a refusal shows */
        values[0] ^= 1;
    if ((IMPOSTOR == 52 || IMPOSTOR == 59) && refused && offers_n > 0)
        memcpy(store, offers, offers_n * sizeof *offers);
    if (refused)
        return refused_otherwise(refused, values_len, queue_len, k);
    uint32_t listed = result[LEADING_LISTED];
    uint32_t *learned = &result[LEADING_LEARNED], pushed = 0;
    if (IMPOSTOR == 58) /* a full store reduces */
        reduce_when_full(sheet, sheet_len, queue_len, store, store_len, result, k, limit);
    else if (OTHER_STORE && IMPOSTOR != 52 && IMPOSTOR != 59)
        pushed = store_otherwise(store, store_len, *learned, struck);
    if (IMPOSTOR == 57) /* the tally lowered */
        *learned -= pushed < *learned ? pushed : *learned;
    show_otherwise(sheet, sheet_len, values, values_len, listed);
    if (IMPOSTOR == 4) /* the queue's last word */
        queue[queue_len - 1] ^= 1;
    if (IMPOSTOR == 5 && listed < codes_len) /* a code beyond listed */
        codes[listed] = 0;
    if (IMPOSTOR == 6) /* one word behind the store */
        store[store_len] = 0;
    if (IMPOSTOR == 7 && result[LEADING_ENDING] == LEADING_SPENT) /* an invented tally */
        result[LEADING_TESTED] += 1;
    if (IMPOSTOR == 8 && queue_len > 100) /* ties by what the queue is */
        swap_tie(codes, costs, listed);
    uint32_t *ending = &result[LEADING_ENDING];
    if (IMPOSTOR == 35 && *ending == LEADING_ALL && listed == k) /* k before the queue */
        *ending = LEADING_ENOUGH;
    if (IMPOSTOR == 36 && *ending == LEADING_ENOUGH) /* 'all' whenever k are listed */
        *ending = LEADING_ALL;
    return refused;
}

uint32_t __wrap_leading_test(TESTED)
{
    if (IMPOSTOR == 9) /* no mask bit is beyond the parts */
        mask &= ~(UINT64_MAX >> (sheet_len > 1 ? LEADING_PARTS(sheet) : 0));
    if (IMPOSTOR == 81 && result_len >= LEADING_ANSWER_WORDS && sheet_len > 0 &&
        sheet[0] == SECOND_EDITION) /* edition 2 is refused */
        return LEADING_SHEET_EDITION;
    if (IMPOSTOR == 82) /* a weight of zero is taken */
        sheet = righted(sheet, sheet_len);
    uint32_t refused = __real_leading_test(sheet, sheet_len, mask, values, limit, shown, result,
                                           result_len);
    if (IMPOSTOR == 10 && refused && result_len > 0) /* a refusal writes */
        result[0] = 0;
    if (IMPOSTOR == 50 && refused) /* a refusal shows zeros */
        memset(shown, 0, LEADING_STATE_BYTES);
    if (refused)
        return refused;
    uint32_t *answer = &result[LEADING_ANSWER];
    if (IMPOSTOR == 11 && *answer == LEADING_TEST_INCONSISTENT) /* one trial too many */
        result[LEADING_ANSWER_TRIALS] += 1;
    if (IMPOSTOR == 12 && *answer == LEADING_TEST_SPENT) /* a limit that decides */
        *answer = LEADING_TEST_INCONSISTENT;
    if (IMPOSTOR == 13) /* a third result word, lent or not */
        result[LEADING_ANSWER_WORDS] = 0;
    if (IMPOSTOR == 47 && *answer == LEADING_TEST_INCONSISTENT) /* values of a test that failed */
        for (unsigned part = 0; part < LEADING_PARTS(sheet); part++)
            shown[part] = (uint8_t)LEADING_VALUE(values, part);
    if (IMPOSTOR == 48 && *answer == LEADING_TEST_CONSISTENT) /* zeros for a consistent one */
        memset(shown, 0, LEADING_STATE_BYTES);
    if (IMPOSTOR == 49 && variables(sheet) < LEADING_STATE_BYTES) /* a byte beyond the variables */
        shown[variables(sheet)] = 1;
    return refused;
}

uint32_t __wrap_leading_reduce(REDUCED)
{
    if (IMPOSTOR == 14 && conflict_len < LEADING_CONFLICT_WORDS) { /* the sheet comes first */
        uint64_t enough[LEADING_CONFLICT_WORDS];
        uint32_t words[LEADING_ANSWER_WORDS];
        uint32_t first = __real_leading_reduce(sheet, sheet_len, mask, values, 0, enough,
                                               LEADING_CONFLICT_WORDS, words,
                                               LEADING_ANSWER_WORDS);
        return first ? first : LEADING_BAD_OUTPUT;
    }
    if (IMPOSTOR == 83 && result_len >= LEADING_ANSWER_WORDS &&
        conflict_len >= LEADING_CONFLICT_WORDS && sheet_len > 0 && sheet[0] == SECOND_EDITION)
        return LEADING_SHEET_EDITION; /* edition 2 is refused */
    uint32_t refused = __real_leading_reduce(sheet, sheet_len, mask, values, limit, conflict,
                                             conflict_len, result, result_len);
    if (refused)
        return refused;
    uint32_t answer = result[LEADING_ANSWER];
    if (IMPOSTOR == 15 && answer == LEADING_REDUCE_CONFLICT) { /* not reduced */
        conflict[LEADING_CONFLICT_MASK] = mask;
        conflict[LEADING_CONFLICT_VALUES] = values;
    }
    if (IMPOSTOR == 16 && answer == LEADING_REDUCE_CONFLICT) { /* words exchanged */
        uint64_t word = conflict[LEADING_CONFLICT_MASK];
        conflict[LEADING_CONFLICT_MASK] = conflict[LEADING_CONFLICT_VALUES];
        conflict[LEADING_CONFLICT_VALUES] = word;
    }
    if (IMPOSTOR == 17 && answer == LEADING_REDUCE_NONE) /* written with none */
        conflict[LEADING_CONFLICT_MASK] = 0;
    if (IMPOSTOR == 18 && answer == LEADING_REDUCE_SPENT) /* written with spent */
        conflict[LEADING_CONFLICT_MASK] = mask;
    if (IMPOSTOR == 19 && conflict_len > LEADING_CONFLICT_WORDS) /* a word behind the two */
        conflict[LEADING_CONFLICT_WORDS] = 0;
    return refused;
}

/* Of tables whose lengths disagree: 17 where a size or a count is out of its range. */
static uint32_t entries_first(const uint8_t *sizes, size_t sizes_len, const uint8_t *counts,
                              size_t counts_len)
{
    for (size_t i = 0; i < sizes_len; i++)
        if (sizes[i] < 1 || sizes[i] > LEADING_VALUES_MOST)
            return LEADING_TABLES_RANGES;
    for (size_t i = 0; i < counts_len; i++)
        if (counts[i] > LEADING_LITERALS_MOST)
            return LEADING_TABLES_RANGES;
    return LEADING_BAD_TABLES;
}

static void reverse_bits(uint8_t *bytes, size_t n)
{
    for (size_t i = 0; i < n; i++) {
        unsigned turned = 0;
        for (unsigned bit = 0; bit < 8; bit++)
            turned |= (bytes[i] >> bit & 1u) << (7 - bit);
        bytes[i] = (uint8_t)turned;
    }
}

uint32_t __wrap_leading_write(WRITTEN)
{
    uint8_t before[LEADING_SHEET_BYTES_MOST];
    size_t room = sheet_len < sizeof before ? sheet_len : sizeof before;
    for (size_t i = 0; i < room; i++)
        before[i] = sheet[i];
    size_t lent = sheet_len + (IMPOSTOR == 20); /* a buffer one byte short is taken */
    uint32_t refused = __real_leading_write(sizes, sizes_len, costs, costs_len, counts,
                                            counts_len, literals, literals_len, sheet, lent,
                                            decisions, states, clauses, written);
    if (IMPOSTOR == 21 && refused == LEADING_SHEET_VARIABLE) /* 10 told as 11 */
        return LEADING_SHEET_VALUE;
    if (IMPOSTOR == 22 && refused == LEADING_BAD_TABLES) /* 16 decided after 17 */
        return entries_first(sizes, sizes_len, counts, counts_len);
    if (IMPOSTOR == 23 && refused && sheet_len > 0) /* a refusal writes */
        sheet[0] = 1;
    if (IMPOSTOR == 24 && refused) /* a refusal counts */
        *written = 0;
    if (refused)
        return refused;
    size_t bits = 29 + 4 * sizes_len + 16 * costs_len + 4 * counts_len + 11 * (literals_len / 3);
    size_t filler = 8 * (size_t)*written - bits;
    if (IMPOSTOR == 25) /* the filler left as it was */
        sheet[*written - 1] |= (uint8_t)(before[*written - 1] & ((1u << filler) - 1));
    if (IMPOSTOR == 26 && sheet_len > *written) /* a byte beyond the sheet */
        sheet[*written] = 0;
    if (IMPOSTOR == 27) /* the other order of bits */
        reverse_bits(sheet, *written);
    if (IMPOSTOR == 28) /* one byte too many told */
        *written += 1;
    if (IMPOSTOR == 29 && literals_len > 0) /* the last literal's sign is lost */
        sheet[(bits - 5) / 8] &= (uint8_t)~(128u >> (bits - 5) % 8);
    return refused;
}

uint32_t __wrap_leading_read(READ)
{
    uint32_t refused = __real_leading_read(sheet, sheet_len, sizes, costs, counts, literals,
                                           numbers);
    if (IMPOSTOR == 84 && refused == LEADING_SHEET_EDITION && sheet[0] == SECOND_EDITION)
        return LEADING_OK; /* edition 2 is taken */
    if (IMPOSTOR == 30 && refused) /* a refusal writes */
        numbers[0] = 0;
    if (refused)
        return refused;
    if (IMPOSTOR == 31) { /* the numbers in another order */
        uint32_t number = numbers[0];
        numbers[0] = numbers[1];
        numbers[1] = number;
        return refused;
    }
    uint32_t variables = numbers[0] + numbers[1];
    if (IMPOSTOR == 32 && variables < 48) /* a size beyond the plant's */
        sizes[variables] = 0;
    if (IMPOSTOR == 33) /* costs with gaps: the second variable's in a row of its own */
        for (uint32_t x = 0; numbers[0] > 1 && sizes[0] < 16 && x < sizes[1]; x++)
            costs[16 + x] = costs[sizes[0] + x];
    if (IMPOSTOR == 34 && numbers[2] > 0) /* an equal literal read as unequal */
        literals[1] |= counts[0] > 0;
    return refused;
}
