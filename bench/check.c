/* Runs all implementations on the same cases and compares every answer and
 * every lent word and byte; no timing. Exits with 1 on a difference.
 *
 *   check corpus SHEET...
 *   check sheets|tests|listings STREAM [LINES]
 *
 * STREAM and LINES are what outside/vectors.py writes as stdin and stdout.
 * Without LINES the implementations are compared with each other only. */
#include "implementations.h"
#include "lent.h"

#include <inttypes.h>
#include <stdbool.h>
#include <stdio.h>
#include <stdlib.h>
#include <string.h>

enum { LINE_MOST = 256, DIFFERENCES_SHOWN = 10 };

static unsigned cases, comparisons, differences;
static struct lent lent, first_lent;

static const uint32_t FNV_START = UINT32_C(2166136261);

static uint32_t fnv(uint32_t checksum, uint64_t word, int width)
{
    for (int shift = 8 * (width - 1); shift >= 0; shift -= 8)
        checksum = (checksum ^ (uint8_t)(word >> shift)) * UINT32_C(16777619);
    return checksum;
}

static uint32_t fnv_bytes(uint32_t checksum, const uint8_t *bytes, size_t length)
{
    for (size_t i = 0; i < length; i++)
        checksum = fnv(checksum, bytes[i], 1);
    return checksum;
}

static void differ(const char *where, const char *name, const char *got, const char *wanted)
{
    if (differences++ < DIFFERENCES_SHOWN)
        fprintf(stderr, "%s, case %u: %s\n  got    %s\n  wanted %s\n", where, cases, name, got,
                wanted);
}

static void compare(const char *where, const char *name, const char *got, const char *wanted)
{
    comparisons++;
    if (strcmp(got, wanted))
        differ(where, name, got, wanted);
}

/* ---- the stream and its lines ---- */

struct stream {
    struct bytes all;
    size_t place;
    FILE *lines; /* NULL where there are none */
};

static const uint8_t *take(struct stream *s, size_t length)
{
    if (length > s->all.length - s->place)
        give_up("stream too short", "");
    s->place += length;
    return s->all.at + s->place - length;
}

static uint64_t number(struct stream *s, size_t width)
{
    const uint8_t *bytes = take(s, width);
    uint64_t n = 0;
    for (size_t i = 0; i < width; i++)
        n = n << 8 | bytes[i];
    return n;
}

static struct bytes sheet_of(struct stream *s)
{
    size_t length = number(s, 2);
    return (struct bytes){(uint8_t *)take(s, length), length};
}

/* The next line of what is wanted; false where there are no lines. */
static bool wanted_line(struct stream *s, char *line)
{
    if (!s->lines)
        return false;
    if (!fgets(line, LINE_MOST, s->lines))
        give_up("too few lines", "");
    line[strcspn(line, "\n")] = 0;
    return true;
}

/* ---- sheets ---- */

/* The refusal alone: the tables of a plant are nobody's lent buffer. */
/* The implementations here know edition 1; of ours the gate checks the other. */
static bool passed_over(struct bytes sheet)
{
    return sheet.length && sheet.at[0] == 2;
}

static void check_sheet_case(struct stream *s)
{
    char wanted[LINE_MOST], got[LINE_MOST], first[LINE_MOST];
    struct bytes sheet = sheet_of(s);
    bool known = wanted_line(s, wanted);
    if (known && strncmp(wanted, "refused", 7))
        strcpy(wanted, "refused 0");
    if (passed_over(sheet))
        return;
    for (int i = 0; i < IMPLEMENTATIONS; i++) {
        uint32_t result[2];
        uint8_t shown[STATE_BYTES];
        if (!implementations[i].test)
            continue;
        uint32_t refusal =
            implementations[i].test(sheet.at, sheet.length, 0, 0, 0, shown, result, 2);
        snprintf(got, sizeof got, "refused %" PRIu32, refusal);
        if (i == 0)
            strcpy(first, got);
        compare("sheets", implementations[i].name, got, known ? wanted : first);
    }
}

/* ---- tests and reductions ---- */

/* Of each buffer LENT_WORDS are there, and so many of them are lent; of the bytes
 * shown all but the spare ones. */
enum { LENT_WORDS = 4, WORD_JUNK = 7, BYTE_JUNK = 0x55 };

struct call {
    bool reduces;
    struct bytes sheet;
    uint64_t mask, values;
    uint32_t limit;
    size_t conflict_len, result_len;
};

/* Whether the words from these places on are as they were. */
static bool untouched(const uint64_t *conflict, int from, const uint32_t *result, int from_result)
{
    bool same = true;
    for (int i = from; i < LENT_WORDS; i++)
        same &= conflict[i] == WORD_JUNK;
    for (int i = from_result; i < LENT_WORDS; i++)
        same &= result[i] == WORD_JUNK;
    return same;
}

/* Whether these bytes all are the byte. */
static bool all_are(const uint8_t *bytes, size_t from, size_t to, uint8_t byte)
{
    bool same = true;
    for (size_t i = from; i < to; i++)
        same &= bytes[i] == byte;
    return same;
}

/* The checksum of what a test shows, to the end of its line; of zeros where it is
 * refused, as the outside program has it, since then nothing is written. */
static void add_shown(uint8_t *shown, uint32_t refusal, bool consistent, char *line)
{
    bool as_it_may = all_are(shown, STATE_BYTES, STATE_BYTES + SPARE, BYTE_JUNK);
    if (refusal) {
        as_it_may &= all_are(shown, 0, STATE_BYTES, BYTE_JUNK);
        memset(shown, 0, STATE_BYTES);
    } else if (!consistent) {
        as_it_may &= all_are(shown, 0, STATE_BYTES, 0);
    }
    snprintf(line + strlen(line), LINE_MOST - strlen(line), " %08" PRIx32,
             fnv_bytes(FNV_START, shown, STATE_BYTES));
    if (!as_it_may)
        strcat(line, " and showed what it may not");
}

static void call_line(const struct implementation *own, const struct call *c, char *line)
{
    static const char *const names[2][4] = {{"?", "consistent", "inconsistent", "spent"},
                                            {"?", "none", "conflict", "spent"}};
    uint64_t conflict[LENT_WORDS] = {WORD_JUNK, WORD_JUNK, WORD_JUNK, WORD_JUNK};
    uint32_t result[LENT_WORDS] = {WORD_JUNK, WORD_JUNK, WORD_JUNK, WORD_JUNK};
    uint8_t shown[STATE_BYTES + SPARE];
    memset(shown, BYTE_JUNK, sizeof shown);
    const struct bytes s = c->sheet;
    uint32_t refusal = c->reduces
                           ? own->reduce(s.at, s.length, c->mask, c->values, c->limit, conflict,
                                         c->conflict_len, result, c->result_len)
                           : own->test(s.at, s.length, c->mask, c->values, c->limit, shown,
                                       result, c->result_len);
    bool found = c->reduces && !refusal && result[0] == INCONSISTENT;
    if (refusal)
        snprintf(line, LINE_MOST, "refused %" PRIu32, refusal);
    else if (found)
        snprintf(line, LINE_MOST, "conflict %016" PRIx64 " %016" PRIx64 " %" PRIu32, conflict[0],
                 conflict[1], result[1]);
    else
        snprintf(line, LINE_MOST, "%s %" PRIu32, names[c->reduces][result[0] & 3], result[1]);
    if (!c->reduces)
        add_shown(shown, refusal, result[0] == CONSISTENT, line);
    if (!untouched(conflict, found ? CONFLICT_WORDS : 0, result, refusal ? 0 : ANSWER_WORDS))
        strcat(line, " and wrote where it may not");
}

/* All implementations against the line, or against the first of them. */
static void check_call(const char *where, const struct call *c, const char *wanted)
{
    char got[LINE_MOST], first[LINE_MOST];
    for (int i = 0; i < IMPLEMENTATIONS; i++) {
        const struct implementation *own = &implementations[i];
        if (c->reduces ? !own->reduce : !own->test)
            continue;
        call_line(own, c, got);
        if (i == 0)
            strcpy(first, got);
        compare(where, own->name, got, wanted ? wanted : first);
    }
}

static void check_test_case(struct stream *s)
{
    char wanted[LINE_MOST];
    struct call c;
    c.reduces = number(s, 1) == 1;
    c.sheet = sheet_of(s);
    c.mask = number(s, 8);
    c.values = number(s, 8);
    c.limit = (uint32_t)number(s, 4);
    c.conflict_len = c.result_len = LENT_WORDS - 1;
    bool known = wanted_line(s, wanted);
    if (!passed_over(c.sheet))
        check_call("tests", &c, known ? wanted : NULL);
}

/* ---- listings ---- */

static uint32_t lent_checksum(const struct lent *l)
{
    uint32_t checksum = FNV_START;
    for (size_t i = 0; i < l->codes_len; i++)
        checksum = fnv(checksum, l->codes[i], 8);
    for (size_t i = 0; i < l->costs_len; i++)
        checksum = fnv(checksum, l->costs[i], 4);
    checksum = fnv_bytes(checksum, l->values, l->values_len);
    for (size_t i = 0; i < l->queue_len; i++)
        checksum = fnv(checksum, l->queue[i], 8);
    for (size_t i = 0; i < l->store_len; i++)
        checksum = fnv(checksum, l->store[i], 8);
    return checksum;
}

static void list_line(const struct lent *l, uint32_t refusal, char *line)
{
    static const char *const endings[] = {"?", "enough", "all", "full", "spent"};
    const uint32_t *r = l->result;
    if (refusal)
        snprintf(line, LINE_MOST, "refused %" PRIu32 " %08" PRIx32, refusal, lent_checksum(l));
    else
        snprintf(line, LINE_MOST,
                 "%s %" PRIu32 " %" PRIu32 " %" PRIu32 " %" PRIu32 " %" PRIu32 " %08" PRIx32,
                 endings[r[0] <= 4 ? r[0] : 0], r[1], r[2], r[3], r[4], r[5], lent_checksum(l));
}

/* Lends fresh buffers: junk, and the given words at the store's start. */
static void lend(const struct lent *lengths, const uint64_t *given, size_t given_len)
{
    fill_with_junk(&lent);
    lent.codes_len = lengths->codes_len;
    lent.costs_len = lengths->costs_len;
    lent.values_len = lengths->values_len;
    lent.queue_len = lengths->queue_len;
    lent.store_len = lengths->store_len;
    lent.result_len = lengths->result_len;
    if (given_len)
        memcpy(lent.store, given, given_len * sizeof *given);
}

/* All implementations against the line, or against the first of them; every
 * lent word and byte and the spare ones against the first's. A refusal changes none. */
static void check_listing(const char *where, struct bytes sheet, struct settings settings,
                          const struct lent *lengths, const uint64_t *given, size_t given_len,
                          const char *wanted)
{
    char got[LINE_MOST], first[LINE_MOST];
    for (int i = 0; i < IMPLEMENTATIONS; i++) {
        const struct implementation *own = &implementations[i];
        if (!own->list)
            continue;
        lend(lengths, given, given_len);
        uint32_t refusal = list_lent(own->list, sheet, &lent, settings);
        list_line(&lent, refusal, got);
        if (i == 0) {
            strcpy(first, got);
            memcpy(&first_lent, &lent, sizeof lent);
        }
        compare(where, own->name, got, wanted ? wanted : first);
        if (i == 0 && refusal)
            lend(lengths, given, given_len);
        if (memcmp(&first_lent, &lent, sizeof lent))
            differ(where, own->name, "other lent words", i ? "those of the first" : "unchanged");
    }
}

static void check_listing_case(struct stream *s)
{
    static struct lent lengths;
    static uint64_t given[65536];
    char wanted[LINE_MOST];
    bool second = number(s, 1) == 2;
    struct bytes sheet = sheet_of(s);
    struct settings settings;
    settings.k = (uint32_t)number(s, 4);
    lengths.codes_len = number(s, 2);
    lengths.costs_len = number(s, 2);
    lengths.values_len = number(s, 4);
    if (lengths.values_len > LENT_BYTES_MOST - SPARE)
        give_up("too many bytes of values", "");
    lengths.queue_len = number(s, 2);
    lengths.store_len = number(s, 2);
    lengths.result_len = RESULT_WORDS + 1;
    settings.held = number(s, 2);
    settings.limit = (uint32_t)number(s, 4);
    size_t given_len = number(s, 2);
    for (size_t i = 0; i < given_len; i++)
        given[i] = number(s, 8);
    bool known = wanted_line(s, wanted);
    if (!second)
        check_listing("listings", sheet, settings, &lengths, given, given_len,
                      known ? wanted : NULL);
}

static void check_stream(const char *kind, const char *path, const char *lines_path)
{
    struct stream s = {file_bytes(path), 0, NULL};
    if (lines_path && !(s.lines = fopen(lines_path, "r")))
        give_up("cannot open", lines_path);
    unsigned count = (unsigned)number(&s, 2);
    for (cases = 0; cases < count; cases++) {
        if (!strcmp(kind, "sheets"))
            check_sheet_case(&s);
        else if (!strcmp(kind, "tests"))
            check_test_case(&s);
        else
            check_listing_case(&s);
    }
    if (s.place != s.all.length)
        give_up("bytes after the last case", path);
    if (s.lines)
        fclose(s.lines);
    free(s.all.at);
}

/* ---- corpus ---- */

/* A listing under other settings: queue and store in entries. One result word
 * more than six is lent, and of values one byte more than k states have. */
static void check_run(const char *path, struct bytes sheet, struct settings settings,
                      size_t queue, size_t store, const uint64_t *given)
{
    static struct lent lengths;
    lengths.codes_len = settings.k + 3;
    lengths.costs_len = settings.k + 1;
    lengths.values_len = STATE_BYTES * (size_t)settings.k + 1;
    lengths.queue_len = 2 * queue;
    lengths.store_len = 2 * store;
    lengths.result_len = RESULT_WORDS + 1;
    check_listing(path, sheet, settings, &lengths, given, 2 * settings.held, NULL);
}

/* This refusal, with every lent word as it was. */
static void check_refused(const char *path, struct bytes sheet, struct settings settings,
                          const struct lent *lengths, uint32_t refusal)
{
    char wanted[LINE_MOST];
    lend(lengths, NULL, 0);
    list_line(&lent, refusal, wanted);
    check_listing(path, sheet, settings, lengths, NULL, 0, wanted);
}

/* Fewer than six result words are refused, after k and before the values, and these
 * before the queue. */
static void check_short_buffers(const char *path, struct bytes sheet)
{
    static struct lent lengths = {.codes_len = 16, .costs_len = 16};
    struct settings settings = {16, 0, 1000};
    lengths.result_len = 5;
    lengths.values_len = STATE_BYTES * 16 - 1;
    check_refused(path, sheet, settings, &lengths, 2);
    settings.k = 0;
    check_refused(path, sheet, settings, &lengths, 1);
    lengths.result_len = RESULT_WORDS;
    settings.k = 16;
    check_refused(path, sheet, settings, &lengths, 19);
    lengths.values_len++;
    check_refused(path, sheet, settings, &lengths, 3);
}

enum { STORED_MOST = 64 };

/* How many conflicts with members are stored: zeros follow them. */
static size_t count_stored(const uint64_t *store)
{
    size_t count = 0;
    while (count < STORED_MOST && store[2 * count])
        count++;
    return count;
}

/* The assignment of this mask with the first unassigned variable at 0 as well:
 * not well formed where all were assigned. */
static uint64_t with_one_more(uint64_t mask)
{
    uint64_t member = UINT64_C(1) << 63;
    while (mask & member)
        member >>= 1;
    return mask | member;
}

/* Offers each conflict twice and one with a member more, this one first, between
 * them or last, and each fourth only with a member more, which the run may learn
 * without it; how many are offered. */
static size_t offer_longer(const uint64_t *conflicts, size_t count, uint64_t *offered)
{
    size_t held = 0;
    for (size_t i = 0; i < count && 3 * i + 3 <= STORED_MOST; i++)
        for (size_t k = 0; k < 3; k++, held++) {
            uint64_t mask = conflicts[2 * i];
            bool more = k == i % 4 || i % 4 == 3;
            offered[2 * held] = more ? with_one_more(mask) : mask;
            offered[2 * held + 1] = conflicts[2 * i + 1];
        }
    return held;
}

/* The corpus's own run, then shorter limits, queues and stores, then runs that
 * are offered what the first stored, alone and among longer ones. On long sheets
 * plain is slow: they get a tenth of the trials. */
static void check_runs(const char *path, struct bytes sheet)
{
    static uint64_t stored[2 * STORED_MOST], longer[2 * STORED_MOST];
    uint32_t most = sheet.length < 1000 ? 1000000 : 100000, some = most / 5;
    check_run(path, sheet, (struct settings){16, 0, most}, 4096, 64, NULL);
    uint32_t trials = first_lent.result[5];
    memcpy(stored, first_lent.store, sizeof stored);
    size_t kept = count_stored(stored), held = offer_longer(stored, kept, longer);
    check_run(path, sheet, (struct settings){1, 0, some}, 4096, 64, NULL);
    check_run(path, sheet, (struct settings){400, 0, some}, 4096, 64, NULL);
    check_run(path, sheet, (struct settings){16, 0, some}, 4096, 0, NULL);
    check_run(path, sheet, (struct settings){16, 0, some}, 12, 64, NULL);
    check_run(path, sheet, (struct settings){16, kept, some}, 4096, 64, stored);
    check_run(path, sheet, (struct settings){16, held, some}, 4096, 64, longer);
    check_run(path, sheet, (struct settings){16, held, some / 100}, 4096, held, longer);
    check_run(path, sheet, (struct settings){16, 0, trials / 2}, 4096, 3, NULL);
    check_run(path, sheet, (struct settings){16, 0, trials ? trials - 1 : 0}, 4096, 64, NULL);
}

/* Tests, and a reduction, with limits that strike and limits that do not. */
static void check_calls(const char *path, struct bytes sheet)
{
    static const uint32_t limits[] = {0, 1, 1000, 10000};
    for (size_t i = 0; i < sizeof limits / sizeof *limits; i++) {
        struct call c = {false, sheet, 0, 0, limits[i], CONFLICT_WORDS, ANSWER_WORDS};
        check_call(path, &c, NULL);
        c.mask = UINT64_C(1) << 63;
        check_call(path, &c, NULL);
        c.reduces = true;
        check_call(path, &c, NULL);
    }
}

/* Fewer than two words of a buffer are refused, before the mask and the sheet. */
static void check_short_answers(const char *path, struct bytes sheet)
{
    char test_refused_2[LINE_MOST] = "refused 2";
    uint8_t shown[STATE_BYTES + SPARE];
    memset(shown, BYTE_JUNK, sizeof shown);
    add_shown(shown, 2, false, test_refused_2);
    for (size_t length = 0; length < 2; length++) {
        struct call c = {false, sheet, 1, 0, 1000, LENT_WORDS, length};
        check_call(path, &c, test_refused_2);
        c.reduces = true;
        check_call(path, &c, "refused 2");
        c.conflict_len = length;
        c.result_len = LENT_WORDS;
        check_call(path, &c, "refused 2");
        c.sheet.length = 0;
        check_call(path, &c, "refused 2");
    }
}

static void check_sheet(const char *path)
{
    struct bytes sheet = file_bytes(path);
    check_runs(path, sheet);
    check_short_buffers(path, sheet);
    check_calls(path, sheet);
    check_short_answers(path, sheet);
    free(sheet.at);
}

int main(int count, char **words)
{
    if (count >= 3 && !strcmp(words[1], "corpus")) {
        for (int i = 2; i < count; i++, cases++)
            check_sheet(words[i]);
    } else if ((count == 3 || count == 4)
               && (!strcmp(words[1], "sheets") || !strcmp(words[1], "tests")
                   || !strcmp(words[1], "listings"))) {
        check_stream(words[1], words[2], count == 4 ? words[3] : NULL);
    } else {
        give_up("usage", "check corpus SHEET... | check sheets|tests|listings STREAM [LINES]");
    }
    printf("%s: %u cases, %u comparisons, %u differences\n", words[1], cases, comparisons,
           differences);
    return differences ? 1 : 0;
}
