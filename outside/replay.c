/* Replays calls on the archive: cases from standard input, answers to standard
 * output, both binary in the machine's byte order.
 *
 * Case: a u64, which call (0 list, 1 test, 2 reduce, 3 write, 4 read, 5 list weights); a
 * u64 for the length of each of its buffers, in the call's order; a u64 for each of its
 * numbers: of a listing k, held and limit, of a test or reduction mask, values and limit,
 * of a writing those of decision variables, state variables and clauses, of a reading
 * none; then the buffers as they are lent. Answer: two u64, what the call returned
 * and how many bytes around the buffers changed; then the buffers as they came back.
 */
#include "leading.h"

#include <stdio.h>
#include <stdlib.h>
#include <string.h>

#define GUARD 64 /* bytes before each buffer, and behind it */
#define GUARD_BYTE 0xa5

enum { BUFFERS_MOST = 7, NUMBERS_MOST = 3 };

struct lent {
    unsigned char *all;
    size_t bytes;
};

static void give_up(const char *why)
{
    fprintf(stderr, "replay: %s\n", why);
    exit(2);
}

/* One of the calls, on buffers with their lengths and its numbers. */
typedef uint32_t call(void *const *at, const uint64_t *len, const uint64_t *number);

static uint32_t list(void *const *at, const uint64_t *len, const uint64_t *number)
{
    return leading_list(at[0], len[0], at[1], len[1], at[2], len[2], at[3], len[3], at[4],
                        len[4], at[5], len[5], at[6], len[6], (uint32_t)number[0],
                        number[1], (uint32_t)number[2]);
}

static uint32_t list_weights(void *const *at, const uint64_t *len, const uint64_t *number)
{
    return leading_list_weights(at[0], len[0], at[1], len[1], at[2], len[2], at[3], len[3],
                                at[4], len[4], at[5], len[5], at[6], len[6],
                                (uint32_t)number[0], number[1], (uint32_t)number[2]);
}

static uint32_t test(void *const *at, const uint64_t *len, const uint64_t *number)
{
    if (len[1] != LEADING_STATE_BYTES)
        give_up("a test is lent 48 bytes");
    return leading_test(at[0], len[0], number[0], number[1], (uint32_t)number[2], at[1],
                        at[2], len[2]);
}

static uint32_t reduce(void *const *at, const uint64_t *len, const uint64_t *number)
{
    return leading_reduce(at[0], len[0], number[0], number[1], (uint32_t)number[2], at[1],
                          len[1], at[2], len[2]);
}

static uint32_t write_sheet(void *const *at, const uint64_t *len, const uint64_t *number)
{
    return leading_write(at[0], len[0], at[1], len[1], at[2], len[2], at[3], len[3], at[4],
                         len[4], (uint32_t)number[0], (uint32_t)number[1],
                         (uint32_t)number[2], at[5]);
}

static uint32_t read_sheet(void *const *at, const uint64_t *len, const uint64_t *number)
{
    (void)number;
    return leading_read(at[0], len[0], at[1], at[2], at[3], at[4], at[5]);
}

static const struct kind {
    call *call;
    size_t buffers, numbers, widths[BUFFERS_MOST];
} kinds[] = {
    {list, 7, 3, {1, 8, 4, 1, 8, 8, 4}},     /* sheet, codes, costs, values, queue, store, result */
    {test, 3, 3, {1, 1, 4}},                 /* sheet, shown, result */
    {reduce, 3, 3, {1, 8, 4}},               /* sheet, conflict, result */
    {write_sheet, 6, 3, {1, 2, 1, 1, 1, 4}}, /* sizes, costs, counts, literals, sheet, written */
    {read_sheet, 6, 0, {1, 1, 2, 1, 1, 4}},  /* sheet, sizes, costs, counts, literals, numbers */
    {list_weights, 7, 3, {1, 8, 8, 1, 8, 8, 4}}, /* as list, with products for costs */
};

static void take(void *to, size_t bytes)
{
    if (fread(to, 1, bytes, stdin) != bytes)
        give_up("a case is cut short");
}

static struct lent lend(size_t bytes)
{
    struct lent lent = {malloc(bytes + 2 * GUARD), bytes};
    if (lent.all == NULL)
        give_up("no memory");
    memset(lent.all, GUARD_BYTE, bytes + 2 * GUARD);
    take(lent.all + GUARD, bytes);
    return lent;
}

static uint64_t strays(const struct lent *lent)
{
    uint64_t changed = 0;
    for (size_t i = 0; i < GUARD; i++) {
        changed += lent->all[i] != GUARD_BYTE;
        changed += lent->all[GUARD + lent->bytes + i] != GUARD_BYTE;
    }
    return changed;
}

static void answer(const struct kind *kind)
{
    struct lent lent[BUFFERS_MOST];
    void *at[BUFFERS_MOST];
    uint64_t len[BUFFERS_MOST], number[NUMBERS_MOST], head[2] = {0, 0};
    take(len, kind->buffers * sizeof *len);
    take(number, kind->numbers * sizeof *number);
    for (size_t i = 0; i < kind->buffers; i++) {
        lent[i] = lend(len[i] * kind->widths[i]);
        at[i] = lent[i].all + GUARD;
    }
    head[0] = kind->call(at, len, number);
    for (size_t i = 0; i < kind->buffers; i++)
        head[1] += strays(&lent[i]);
    fwrite(head, sizeof head, 1, stdout);
    for (size_t i = 0; i < kind->buffers; i++) {
        fwrite(at[i], 1, lent[i].bytes, stdout);
        free(lent[i].all);
    }
    fflush(stdout); /* so that all answers before a crash are seen */
}

int main(void)
{
    uint64_t which;
    while (fread(&which, sizeof which, 1, stdin) == 1) {
        if (which >= sizeof kinds / sizeof *kinds)
            give_up("no such call");
        answer(&kinds[which]);
    }
    return ferror(stdout) ? 2 : 0;
}
