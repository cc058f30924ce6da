/* Nanoseconds of processor time of one call of leading_list, in this process.
 *
 *   ours SHEET K     queue of 4,096 entries, store of 64, the longest limit
 *
 * The median over batches of calls of at least 1 ms, as long as 30 ms last.
 */
#include "leading.h"

#include <stdio.h>
#include <stdlib.h>
#include <time.h>

#define BATCHES_MOST 31

static uint8_t sheet[LEADING_SHEET_BYTES_MOST + 1];
static uint64_t codes[LEADING_K_MOST], queue[LEADING_QUEUE_WORDS(4096)];
static uint64_t store[LEADING_STORE_WORDS(64)];
static uint32_t costs[LEADING_K_MOST], result[LEADING_RESULT_WORDS];
static uint8_t values[LEADING_VALUES_BYTES(LEADING_K_MOST)];

static double now(void)
{
    struct timespec t;
    clock_gettime(CLOCK_PROCESS_CPUTIME_ID, &t);
    return 1e9 * (double)t.tv_sec + (double)t.tv_nsec;
}

static uint32_t call(size_t length, uint32_t k)
{
    return leading_list(sheet, length, codes, k, costs, k, values,
                        LEADING_VALUES_BYTES(k), queue, LEADING_QUEUE_WORDS(4096),
                        store, LEADING_STORE_WORDS(64), result, LEADING_RESULT_WORDS,
                        k, 0, UINT32_MAX);
}

static int by_size(const void *a, const void *b)
{
    double x = *(const double *)a, y = *(const double *)b;
    return (x > y) - (x < y);
}

int main(int argc, char **argv)
{
    FILE *file = argc == 3 ? fopen(argv[1], "rb") : NULL;
    if (file == NULL)
        return 2;
    size_t length = fread(sheet, 1, sizeof sheet, file);
    uint32_t k = (uint32_t)strtoul(argv[2], NULL, 10);
    fclose(file);
    if (call(length, k) != LEADING_OK)
        return 1;

    double start = now(), batches[BATCHES_MOST];
    int count = 0;
    do {
        double from = now(), spent = 0;
        int calls = 0;
        for (; spent < 1e6; calls++, spent = now() - from)
            call(length, k);
        batches[count++] = spent / calls;
    } while (count < BATCHES_MOST && now() - start < 30e6);
    qsort(batches, (size_t)count, sizeof batches[0], by_size);
    printf("%.0f\n", batches[count / 2]);
    return 0;
}
