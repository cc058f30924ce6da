/* Lists the leading states of a plant sheet, of either edition as its first byte says:
 * a small host over leading.h.
 *
 * Standard output is what the program `leading` prints, with -v then the values of the
 * hidden variables, and with -c the conflicts; of a sheet with weights a state's line
 * has the product in the place of the cost, and the chance at its end. The reason of a
 * refusal goes to standard error. Exit status: 0 a list, 1 refused, 2 bad usage.
 */
#include "leading.h"

#include "chance.h"

#include <errno.h>
#include <inttypes.h>
#include <stdio.h>
#include <stdlib.h>
#include <string.h>

static const char usage[] =
    "usage: leading_host [-k STATES] [-q ENTRIES] [-s ENTRIES] [-l TRIALS] [-v] [-c]\n"
    "                    [FILE]\n"
    "  lists the leading states of the plant sheet in FILE or standard input, a line\n"
    "  each: RANK COST CODE, or of a sheet with weights RANK PRODUCT CODE CHANCE\n"
    "  -k  states to list at most (16); a run that ends 'all' has listed every state\n"
    "      that fits, after 'enough', 'full' and 'spent' there may be more\n"
    "  -q  queue entries (4096)\n"
    "  -s  conflict store entries (64); with 0, or with a store that gets full, a run\n"
    "      may take hours, for -l bounds trials only and there are tests without any\n"
    "  -l  trials at most (1000000)\n"
    "  -v  then the values of the hidden variables, a line for each state listed, by\n"
    "      its place in the list: hidden PLACE VALUE VALUE ..\n"
    "  -c  then the conflicts learned, a line each: conflict MASK VALUES\n"
    "  -h, --help  this text\n"
    "A sheet is made of a plant text by examples/plant_text.py, which can also name\n"
    "what is printed. Exit status: 0 a list, 1 refused, 2 bad usage.\n";

/* More than the library takes, so that its refusals can be seen. */
#define ENTRIES_MOST 100000

/* Bytes that say whether a file is a text. */
#define TEXT_LOOKED_AT 64

struct settings {
    uint32_t k, queue, store, limit;
    int hidden;       /* whether the hidden variables' values are printed */
    int conflicts;    /* whether they are printed */
    const char *path; /* NULL: standard input */
};

struct buffers {
    uint64_t *codes, *products, *queue, *store;
    uint32_t *costs;
    uint8_t *values;
};

static int fail(const char *what, const char *which)
{
    fprintf(stderr, "leading_host: %s: %s\n", what, which);
    return 0;
}

/* A decimal number up to `most`; 0 where the word is none. */
static int number(const char *word, uint32_t most, uint32_t *to)
{
    char *end;
    errno = 0;
    unsigned long long value = strtoull(word, &end, 10);
    if (word[0] < '0' || word[0] > '9' || *end != '\0' || errno != 0 || value > most)
        return fail("not a number, or too large", word);
    *to = (uint32_t)value;
    return 1;
}

/* Where an option's number goes; NULL where there is no such option. */
static uint32_t *place(struct settings *s, const char *word)
{
    if (!strcmp(word, "-k"))
        return &s->k;
    if (!strcmp(word, "-q"))
        return &s->queue;
    if (!strcmp(word, "-s"))
        return &s->store;
    return !strcmp(word, "-l") ? &s->limit : NULL;
}

static int arguments(struct settings *s, int argc, char **argv)
{
    for (int i = 1; i < argc; i++) {
        const char *word = argv[i];
        uint32_t *to = place(s, word);
        if (!strcmp(word, "-c"))
            s->conflicts = 1;
        else if (!strcmp(word, "-v"))
            s->hidden = 1;
        else if (word[0] != '-' && s->path == NULL)
            s->path = word;
        else if (word[0] != '-')
            return fail("more than one file", word);
        else if (to == NULL)
            return fail("no such option", word);
        else if (i + 1 == argc)
            return fail("a number is wanted after", word);
        else if (!number(argv[++i], to == &s->limit ? UINT32_MAX : ENTRIES_MOST, to))
            return 0;
    }
    return 1;
}

static int wants_help(int argc, char **argv)
{
    for (int i = 1; i < argc; i++)
        if (!strcmp(argv[i], "-h") || !strcmp(argv[i], "--help"))
            return 1;
    return 0;
}

/* Reads at most `room` bytes of the file, or of standard input. */
static int read_sheet(const char *path, uint8_t *sheet, size_t room, size_t *length)
{
    FILE *file = path == NULL ? stdin : fopen(path, "rb");
    if (file == NULL)
        return fail(path, strerror(errno));
    *length = fread(sheet, 1, room, file);
    int broken = ferror(file) ? errno : 0;
    if (file != stdin)
        fclose(file);
    return broken ? fail(path == NULL ? "standard input" : path, strerror(broken)) : 1;
}

/* Whether the first bytes are a text's. No sheet begins so. */
static int is_text(const uint8_t *bytes, size_t length)
{
    for (size_t i = 0; i < length && i < TEXT_LOOKED_AT; i++)
        if (bytes[i] < ' ' && bytes[i] != '\t' && bytes[i] != '\n' && bytes[i] != '\r')
            return 0;
    return length > 0;
}

static int has_weights(const uint8_t *sheet, size_t length)
{
    return length > 0 && sheet[0] == LEADING_EDITION_WEIGHTS;
}

static int lend(struct buffers *b, const struct settings *s)
{
    b->codes = calloc((size_t)s->k + 1, sizeof *b->codes);
    b->costs = calloc((size_t)s->k + 1, sizeof *b->costs);
    b->products = calloc((size_t)s->k + 1, sizeof *b->products);
    b->values = calloc(LEADING_VALUES_BYTES(s->k) + 1, sizeof *b->values);
    b->queue = calloc(LEADING_QUEUE_WORDS(s->queue) + 1, sizeof *b->queue);
    b->store = calloc(LEADING_STORE_WORDS(s->store) + 1, sizeof *b->store);
    if (b->codes && b->costs && b->products && b->values && b->queue && b->store)
        return 1;
    return fail("buffers", "no memory");
}

static void give_back(struct buffers *b)
{
    free(b->codes);
    free(b->costs);
    free(b->products);
    free(b->values);
    free(b->queue);
    free(b->store);
}

static void print_costs(const struct buffers *b, uint32_t listed)
{
    for (uint32_t i = 0; i < listed; i++)
        printf("%" PRIu32 " %" PRIu32 " %016" PRIx64 "\n", i + 1, b->costs[i], b->codes[i]);
}

static void print_products(const struct buffers *b, uint32_t listed, unsigned parts)
{
    char chance[CHANCE_BYTES];
    for (uint32_t i = 0; i < listed; i++)
        printf("%" PRIu32 " %" PRIu64 " %016" PRIx64 " %s\n", i + 1, b->products[i], b->codes[i],
               chance_text(chance, b->products[i], parts));
}

static void print_counts(const uint32_t *result)
{
    printf("%s %" PRIu32 " tested %" PRIu32 " learned %" PRIu32 " unkept %" PRIu32
           " trials %" PRIu32 "\n",
           leading_ending_text(result[LEADING_ENDING]), result[LEADING_LISTED],
           result[LEADING_TESTED], result[LEADING_LEARNED], result[LEADING_UNKEPT],
           result[LEADING_TRIALS]);
}

static void print_hidden(const uint8_t *sheet, const uint8_t *values, uint32_t listed)
{
    unsigned first = LEADING_PARTS(sheet), end = first + LEADING_HIDDEN(sheet);
    for (uint32_t i = 0; i < listed; i++) {
        printf("hidden %" PRIu32, i + 1);
        for (unsigned variable = first; variable < end; variable++)
            printf(" %u", values[LEADING_VALUE_PLACE(i, variable)]);
        printf("\n");
    }
}

/* Nothing was offered, so the store has those learned. */
static void print_conflicts(const uint64_t *store, uint32_t learned)
{
    for (uint32_t i = 0; i < learned; i++) {
        const uint64_t *conflict = store + LEADING_STORE_WORDS(i);
        printf("conflict %016" PRIx64 " %016" PRIx64 "\n", conflict[LEADING_CONFLICT_MASK],
               conflict[LEADING_CONFLICT_VALUES]);
    }
}

static void print_refusal(uint32_t refused, const uint8_t *sheet, size_t length)
{
    printf("refused %" PRIu32 "\n", refused);
    fail("refused", leading_refusal_text(refused));
    if (refused == LEADING_SHEET_EDITION && is_text(sheet, length))
        fail("this looks like text; make a sheet of it",
             "python3 examples/plant_text.py sheet FILE.plant -o FILE.sheet");
}

static uint32_t list_costs(const struct settings *s, const uint8_t *sheet, size_t length,
                           struct buffers *b, uint32_t *result)
{
    return leading_list(sheet, length, b->codes, s->k, b->costs, s->k,
                        b->values, LEADING_VALUES_BYTES(s->k),
                        b->queue, LEADING_QUEUE_WORDS(s->queue),
                        b->store, LEADING_STORE_WORDS(s->store),
                        result, LEADING_RESULT_WORDS, s->k, 0, s->limit);
}

static uint32_t list_weights(const struct settings *s, const uint8_t *sheet, size_t length,
                             struct buffers *b, uint32_t *result)
{
    return leading_list_weights(sheet, length, b->codes, s->k, b->products, s->k,
                                b->values, LEADING_VALUES_BYTES(s->k),
                                b->queue, LEADING_QUEUE_WORDS(s->queue),
                                b->store, LEADING_STORE_WORDS(s->store),
                                result, LEADING_RESULT_WORDS, s->k, 0, s->limit);
}

static void print_run(const struct settings *s, const uint8_t *sheet, size_t length,
                      const struct buffers *b, const uint32_t *result)
{
    if (has_weights(sheet, length))
        print_products(b, result[LEADING_LISTED], LEADING_PARTS(sheet));
    else
        print_costs(b, result[LEADING_LISTED]);
    print_counts(result);
    if (s->hidden)
        print_hidden(sheet, b->values, result[LEADING_LISTED]);
    if (s->conflicts)
        print_conflicts(b->store, result[LEADING_LEARNED]);
}

/* A sheet of no edition goes to the call that takes edition 1, which refuses it. */
static uint32_t list(const struct settings *s, const uint8_t *sheet, size_t length,
                     struct buffers *b)
{
    uint32_t result[LEADING_RESULT_WORDS];
    uint32_t refused = has_weights(sheet, length) ? list_weights(s, sheet, length, b, result)
                                                  : list_costs(s, sheet, length, b, result);
    if (refused == LEADING_OK)
        print_run(s, sheet, length, b, result);
    else
        print_refusal(refused, sheet, length);
    return refused;
}

int main(int argc, char **argv)
{
    /* One byte more than any sheet has: the sheet is too long, not cut. */
    static uint8_t sheet[LEADING_SHEET_BYTES_MOST + 1];
    struct settings s = {16, 4096, 64, 1000000, 0, 0, NULL};
    struct buffers b = {NULL, NULL, NULL, NULL, NULL, NULL};
    size_t length = 0;

    if (wants_help(argc, argv))
        return fputs(usage, stdout) < 0 || fflush(stdout) != 0 ? 2 : 0;
    if (!arguments(&s, argc, argv)) {
        fputs(usage, stderr);
        return 2;
    }
    if (!read_sheet(s.path, sheet, sizeof sheet, &length))
        return 2;
    int status = lend(&b, &s) ? (list(&s, sheet, length, &b) == LEADING_OK ? 0 : 1) : 2;
    give_back(&b);
    return fflush(stdout) == 0 ? status : 2;
}
