/* Tables of a plant to its sheet, and back: a small host over leading.h, as a
 * plant editor would save and open.
 *
 *     leading_tables write < TABLES > SHEET
 *     leading_tables read < SHEET > TABLES
 *
 * TABLES are five lines: each a word, then decimal numbers. Exit status: 0 done,
 * 1 refused (the number on standard output, the reason on standard error), 2 bad
 * usage or input.
 */
#include "leading.h"

#include <inttypes.h>
#include <stdio.h>
#include <string.h>

static const char usage[] =
    "usage: leading_tables write < TABLES > SHEET\n"
    "       leading_tables read < SHEET > TABLES\n"
    "  TABLES are five lines of decimal numbers:\n"
    "    numbers PARTS HIDDEN CLAUSES\n"
    "    sizes   the states of each part, then the values of each hidden variable\n"
    "    costs   of each state of each part in turn\n"
    "    counts  the literals of each clause\n"
    "    literals  of each literal the variable, the sign (0 =, 1 !=), the value\n";

/* More than the library takes, so that its refusals can be seen. */
#define ENTRIES_MOST 65536

struct line {
    uint32_t entries[ENTRIES_MOST];
    size_t length;
};

static int fail(const char *what, const char *which)
{
    fprintf(stderr, "leading_tables: %s: %s\n", what, which);
    return 0;
}

static int refused(uint32_t number)
{
    printf("refused %" PRIu32 "\n", number);
    fail("refused", leading_refusal_text(number));
    return 1;
}

/* The rest of a line as numbers up to `most`. */
static int read_numbers(uint32_t most, struct line *line)
{
    for (line->length = 0;; line->length++) {
        int next = getchar();
        while (next == ' ')
            next = getchar();
        if (next == '\n')
            return 1;
        if (next < '0' || next > '9' || line->length == ENTRIES_MOST)
            return 0;
        uint64_t value = 0;
        for (; next >= '0' && next <= '9' && value <= most; next = getchar())
            value = 10 * value + (uint64_t)(next - '0');
        ungetc(next, stdin);
        if (value > most)
            return 0;
        line->entries[line->length] = (uint32_t)value;
    }
}

/* The line of this word. */
static int read_line(const char *word, uint32_t most, struct line *line)
{
    char found[16];
    if (scanf("%15s", found) != 1 || strcmp(found, word) != 0)
        return fail("no line of this word where it should be", word);
    return read_numbers(most, line) ? 1 : fail("not numbers, too large, or too many", word);
}

static int read_bytes(const char *word, uint8_t *bytes, size_t *length)
{
    static struct line line;
    if (!read_line(word, UINT8_MAX, &line))
        return 0;
    for (size_t i = 0; i < line.length; i++)
        bytes[i] = (uint8_t)line.entries[i];
    *length = line.length;
    return 1;
}

static int read_costs(uint16_t *costs, size_t *length)
{
    static struct line line;
    if (!read_line("costs", UINT16_MAX, &line))
        return 0;
    for (size_t i = 0; i < line.length; i++)
        costs[i] = (uint16_t)line.entries[i];
    *length = line.length;
    return 1;
}

static int read_three(uint32_t *numbers)
{
    static struct line line;
    if (!read_line("numbers", UINT32_MAX, &line))
        return 0;
    if (line.length != LEADING_NUMBERS_WORDS)
        return fail("not three", "numbers");
    memcpy(numbers, line.entries, LEADING_NUMBERS_WORDS * sizeof *numbers);
    return 1;
}

static int write_sheet(void)
{
    static uint8_t sizes[ENTRIES_MOST], counts[ENTRIES_MOST], literals[ENTRIES_MOST];
    static uint16_t costs[ENTRIES_MOST];
    static uint8_t sheet[LEADING_SHEET_BYTES_MOST];
    size_t sizes_len, costs_len, counts_len, literals_len;
    uint32_t numbers[LEADING_NUMBERS_WORDS], written;

    if (!read_three(numbers) || !read_bytes("sizes", sizes, &sizes_len) ||
        !read_costs(costs, &costs_len) || !read_bytes("counts", counts, &counts_len) ||
        !read_bytes("literals", literals, &literals_len))
        return 2;
    uint32_t number = leading_write(
        sizes, sizes_len, costs, costs_len, counts, counts_len, literals, literals_len, sheet,
        sizeof sheet, numbers[LEADING_NUMBER_PARTS], numbers[LEADING_NUMBER_HIDDEN],
        numbers[LEADING_NUMBER_CLAUSES], &written);
    if (number != LEADING_OK)
        return refused(number);
    return fwrite(sheet, 1, written, stdout) == written ? 0 : 2;
}

static void print_bytes(const char *word, const uint8_t *bytes, size_t length)
{
    fputs(word, stdout);
    for (size_t i = 0; i < length; i++)
        printf(" %u", bytes[i]);
    putchar('\n');
}

static void print_costs(const uint16_t *costs, size_t length)
{
    fputs("costs", stdout);
    for (size_t i = 0; i < length; i++)
        printf(" %u", costs[i]);
    putchar('\n');
}

static size_t sum(const uint8_t *bytes, size_t length)
{
    size_t total = 0;
    for (size_t i = 0; i < length; i++)
        total += bytes[i];
    return total;
}

static int read_sheet(void)
{
    static uint8_t sheet[LEADING_SHEET_BYTES_MOST + 1]; /* too long, not cut */
    static uint8_t sizes[LEADING_SIZE_ENTRIES], counts[LEADING_COUNT_ENTRIES];
    static uint8_t literals[LEADING_LITERAL_BYTES];
    static uint16_t costs[LEADING_COST_ENTRIES];
    uint32_t numbers[LEADING_NUMBERS_WORDS];

    size_t length = fread(sheet, 1, sizeof sheet, stdin);
    uint32_t number = leading_read(sheet, length, sizes, costs, counts, literals, numbers);
    if (number != LEADING_OK)
        return refused(number);
    uint32_t parts = numbers[LEADING_NUMBER_PARTS], clauses = numbers[LEADING_NUMBER_CLAUSES];
    printf("numbers %" PRIu32 " %" PRIu32 " %" PRIu32 "\n", parts,
           numbers[LEADING_NUMBER_HIDDEN], clauses);
    print_bytes("sizes", sizes, (size_t)parts + numbers[LEADING_NUMBER_HIDDEN]);
    print_costs(costs, sum(sizes, parts));
    print_bytes("counts", counts, clauses);
    print_bytes("literals", literals, 3 * sum(counts, clauses));
    return 0;
}

int main(int argc, char **argv)
{
    int status = 2;
    if (argc == 2 && !strcmp(argv[1], "write"))
        status = write_sheet();
    else if (argc == 2 && !strcmp(argv[1], "read"))
        status = read_sheet();
    else
        fputs(usage, stderr);
    return fflush(stdout) == 0 ? status : 2;
}
