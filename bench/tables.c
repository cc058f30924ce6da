/* Times the writing of a sheet against the reading of it: tables SHEET ...
 *
 * The longest sheet, then those named. In every round both run in turn, and the
 * ratio is the median of the ratios within a round. */
#define _POSIX_C_SOURCE 199309L
#include "../include/leading.h"
#include "lent.h"

#include <inttypes.h>
#include <stdio.h>
#include <stdlib.h>
#include <string.h>
#include <time.h>

enum { ROUNDS = 41 };
static const double BATCH = 1e-3; /* seconds that a sample shall take at least */

static uint8_t sizes[LEADING_SIZE_ENTRIES], counts[LEADING_COUNT_ENTRIES];
static uint8_t literals[LEADING_LITERAL_BYTES], again[LEADING_SHEET_BYTES_MOST];
static uint16_t costs[LEADING_COST_ENTRIES];
static uint32_t numbers[LEADING_NUMBERS_WORDS];
static size_t sizes_len, costs_len, literals_len;
static uint32_t written;

static size_t sum(const uint8_t *bytes, size_t length)
{
    size_t total = 0;
    for (size_t i = 0; i < length; i++)
        total += bytes[i];
    return total;
}

static void read_tables(struct bytes sheet)
{
    if (leading_read(sheet.at, sheet.length, sizes, costs, counts, literals, numbers))
        give_up("leading_read", "refused");
}

static void write_tables(struct bytes sheet)
{
    (void)sheet;
    if (leading_write(sizes, sizes_len, costs, costs_len, counts, numbers[2], literals,
                      literals_len, again, sizeof again, numbers[0], numbers[1], numbers[2],
                      &written))
        give_up("leading_write", "refused");
}

static double now(void)
{
    struct timespec t;
    clock_gettime(CLOCK_PROCESS_CPUTIME_ID, &t);
    return (double)t.tv_sec + 1e-9 * (double)t.tv_nsec;
}

/* Microseconds for one call, over a batch of them. */
static double sample(void (*call)(struct bytes), struct bytes sheet, unsigned batch)
{
    double start = now();
    for (unsigned i = 0; i < batch; i++)
        call(sheet);
    return 1e6 * (now() - start) / batch;
}

static unsigned batch_of(void (*call)(struct bytes), struct bytes sheet)
{
    sample(call, sheet, 1);
    return (unsigned)(1e6 * BATCH / sample(call, sheet, 10)) + 1;
}

static int by_value(const void *a, const void *b)
{
    double x = *(const double *)a, y = *(const double *)b;
    return (x > y) - (x < y);
}

static double median(double *values)
{
    qsort(values, ROUNDS, sizeof *values, by_value);
    return values[ROUNDS / 2];
}

static void row(const char *label, struct bytes sheet)
{
    double reading[ROUNDS], writing[ROUNDS], ratio[ROUNDS];
    read_tables(sheet);
    sizes_len = (size_t)numbers[0] + numbers[1];
    costs_len = sum(sizes, numbers[0]);
    literals_len = 3 * sum(counts, numbers[2]);
    write_tables(sheet);
    if (written != sheet.length || memcmp(again, sheet.at, written) != 0)
        give_up("another sheet", label);
    unsigned reads = batch_of(read_tables, sheet), writes = batch_of(write_tables, sheet);
    for (int i = 0; i < ROUNDS; i++) {
        reading[i] = sample(read_tables, sheet, reads);
        writing[i] = sample(write_tables, sheet, writes);
        ratio[i] = writing[i] / reading[i];
    }
    printf("%-34s %10.2f %10.2f   %11.2f\n", label, median(reading), median(writing),
           median(ratio));
}

/* All tables full, of entries that differ. */
static struct bytes longest(void)
{
    memset(sizes, LEADING_VALUES_MOST, sizeof sizes);
    memset(counts, LEADING_LITERALS_MOST, sizeof counts);
    for (size_t i = 0; i < LEADING_COST_ENTRIES; i++)
        costs[i] = (uint16_t)(257 * i);
    for (size_t i = 0; i < LEADING_LITERAL_BYTES; i += 3) {
        literals[i] = (uint8_t)(i / 3 % LEADING_SIZE_ENTRIES);
        literals[i + 1] = (uint8_t)(i % 2);
        literals[i + 2] = (uint8_t)(i / 7 % LEADING_VALUES_MOST);
    }
    sizes_len = LEADING_SIZE_ENTRIES;
    costs_len = LEADING_COST_ENTRIES;
    literals_len = LEADING_LITERAL_BYTES;
    numbers[0] = LEADING_PARTS_MOST;
    numbers[1] = LEADING_HIDDEN_MOST;
    numbers[2] = LEADING_CLAUSES_MOST;
    struct bytes sheet = {malloc(sizeof again), LEADING_SHEET_BYTES_MOST};
    if (sheet.at == NULL)
        give_up("longest sheet", "no memory");
    write_tables(sheet);
    memcpy(sheet.at, again, sheet.length);
    return sheet;
}

int main(int argc, char **argv)
{
    printf("\n(f) A sheet into tables and back\n%-34s %10s %10s   %11s\n%-34s %10s %10s\n", "plant",
           "reading", "writing", "write/read", "", "us", "us");
    row("the longest sheet", longest());
    for (int i = 1; i < argc; i++) {
        const char *slash = strrchr(argv[i], '/');
        row(slash ? slash + 1 : argv[i], file_bytes(argv[i]));
    }
    return 0;
}
