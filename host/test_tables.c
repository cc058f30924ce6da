/* leading_write and leading_read on the small plant and on each refusal: what is
 * returned, and every byte of every buffer, those around them too. Then the
 * longest sheet, there and back.
 */
#include "leading.h"

#include <stdio.h>
#include <string.h>

#define JUNK 0x55
#define JUNK32 UINT32_C(0x55555555)
#define SHEET_ROOM 64
#define TABLE_ROOM 64
#define COUNT(array) (sizeof(array) / sizeof *(array))

static const uint8_t small_plant[] = {
    0x01, 0x10, 0x20, 0x10, 0x80, 0x00, 0x00, 0x01, 0x88, 0x00,
    0x00, 0x00, 0x18, 0x98, 0x10, 0x06, 0x01, 0x04, 0x42, 0x00};

/* The numbers and the lengths of tables; of a table the first entries that differ
 * from the small plant's. */
struct tables {
    uint32_t numbers[LEADING_NUMBERS_WORDS];
    size_t sizes_len, costs_len, counts_len, literals_len;
    uint8_t sizes[TABLE_ROOM], counts[TABLE_ROOM], literals[TABLE_ROOM];
    uint16_t costs[TABLE_ROOM];
};

static const struct tables small_tables = {
    {2, 1, 2}, 3, 4, 2, 12, {2, 2, 2}, {3, 1}, {0, 1, 0, 1, 1, 0, 2, 0, 1, 2, 0, 0}, {0, 3, 0, 3}};

enum table { NUMBERS, SIZES, COSTS, COUNTS, LITERALS, NONE };

/* A change of the small plant's tables: an entry, or the length where entry is -1. */
struct change {
    enum table table;
    int entry;
    uint32_t to;
};

static const struct refused {
    struct change changes[3];
    size_t room;
    uint32_t refused;
} refusals[] = {
    {{{NUMBERS, 0, 3}, {NONE, 0, 0}}, 20, LEADING_BAD_TABLES},
    {{{NUMBERS, 1, 0}, {NONE, 0, 0}}, 20, LEADING_BAD_TABLES},
    {{{NUMBERS, 2, 3}, {NONE, 0, 0}}, 20, LEADING_BAD_TABLES},
    {{{NUMBERS, 0, 3}, {NUMBERS, 1, 0}, {NONE, 0, 0}}, 20, LEADING_BAD_TABLES},
    {{{NUMBERS, 0, UINT32_MAX}, {NUMBERS, 1, 4}, {NONE, 0, 0}}, 20, LEADING_BAD_TABLES},
    {{{NUMBERS, 0, UINT32_MAX}, {NUMBERS, 1, UINT32_MAX}, {NUMBERS, 2, UINT32_MAX}}, 20,
     LEADING_BAD_TABLES},
    {{{SIZES, -1, 2}, {NONE, 0, 0}}, 20, LEADING_BAD_TABLES},
    {{{COSTS, -1, 3}, {NONE, 0, 0}}, 20, LEADING_BAD_TABLES},
    {{{COSTS, -1, 6}, {NONE, 0, 0}}, 20, LEADING_BAD_TABLES},
    {{{COUNTS, -1, 1}, {NONE, 0, 0}}, 20, LEADING_BAD_TABLES},
    {{{LITERALS, -1, 11}, {NONE, 0, 0}}, 20, LEADING_BAD_TABLES},
    {{{LITERALS, -1, 15}, {NONE, 0, 0}}, 20, LEADING_BAD_TABLES},
    {{{SIZES, 2, 17}, {COSTS, -1, 5}, {NONE, 0, 0}}, 20, LEADING_BAD_TABLES},
    {{{SIZES, 2, 0}, {NONE, 0, 0}}, 20, LEADING_TABLES_RANGES},
    {{{SIZES, 2, 17}, {NONE, 0, 0}}, 20, LEADING_TABLES_RANGES},
    {{{SIZES, 1, 0}, {COSTS, -1, 2}, {NONE, 0, 0}}, 20, LEADING_TABLES_RANGES},
    {{{COUNTS, 0, 16}, {LITERALS, -1, 51}, {NONE, 0, 0}}, 60, LEADING_TABLES_RANGES},
    {{{LITERALS, 10, 2}, {LITERALS, 0, 3}, {NONE, 0, 0}}, 20, LEADING_TABLES_RANGES},
    {{{NUMBERS, 0, 0}, {NUMBERS, 1, 3}, {COSTS, -1, 0}}, 20, LEADING_SHEET_PARTS},
    {{{LITERALS, 9, 3}, {NONE, 0, 0}}, 20, LEADING_SHEET_VARIABLE},
    {{{LITERALS, 9, 255}, {LITERALS, 11, 255}, {NONE, 0, 0}}, 20, LEADING_SHEET_VARIABLE},
    {{{LITERALS, 2, 2}, {LITERALS, 3, 3}, {NONE, 0, 0}}, 20, LEADING_SHEET_VALUE},
    {{{LITERALS, 0, 3}, {LITERALS, 5, 2}, {NONE, 0, 0}}, 20, LEADING_SHEET_VARIABLE},
    {{{LITERALS, 11, 2}, {NONE, 0, 0}}, 0, LEADING_SHEET_VALUE},
    {{{NONE, 0, 0}}, 19, LEADING_BAD_SHEET_ROOM},
    {{{NONE, 0, 0}}, 0, LEADING_BAD_SHEET_ROOM},
};

/* A byte of the small plant changed, its length, and the refusal. */
static const struct refused_sheet {
    size_t place, length;
    uint8_t byte;
    uint32_t refused;
} refused_sheets[] = {
    {0, 0, 0x01, LEADING_SHEET_SHORT},     {0, 19, 0x01, LEADING_SHEET_SHORT},
    {0, 20, 0x02, LEADING_SHEET_EDITION},  {1, 20, 0x88, LEADING_SHEET_PARTS},
    {1, 20, 0x14, LEADING_SHEET_HIDDEN},   {2, 20, 0x30, LEADING_SHEET_CLAUSES},
    {17, 20, 0x84, LEADING_SHEET_VARIABLE}, {14, 20, 0x12, LEADING_SHEET_VALUE},
    {19, 20, 0x01, LEADING_SHEET_FILLER},  {0, 21, 0x01, LEADING_SHEET_LONG},
};

/* Each lent buffer begins behind one entry, and ends before another. */
static struct lent {
    uint8_t sheet[SHEET_ROOM + 2];
    uint32_t written[3];
    uint8_t sizes[LEADING_SIZE_ENTRIES + 2], counts[LEADING_COUNT_ENTRIES + 2];
    uint8_t literals[LEADING_LITERAL_BYTES + 2];
    uint16_t costs[LEADING_COST_ENTRIES + 2];
    uint32_t numbers[LEADING_NUMBERS_WORDS + 2];
} now, before;

static int failures;

static void expect(int holds, const char *name, const char *what)
{
    if (holds)
        return;
    failures++;
    printf("test_tables: %s: %s\n", name, what);
}

static void change_length(struct tables *t, const struct change *c)
{
    size_t *lengths[] = {NULL, &t->sizes_len, &t->costs_len, &t->counts_len, &t->literals_len};
    *lengths[c->table] = c->to;
}

static void change(struct tables *t, const struct change *c)
{
    if (c->entry < 0)
        change_length(t, c);
    else if (c->table == NUMBERS)
        t->numbers[c->entry] = c->to;
    else if (c->table == SIZES)
        t->sizes[c->entry] = (uint8_t)c->to;
    else if (c->table == COSTS)
        t->costs[c->entry] = (uint16_t)c->to;
    else if (c->table == COUNTS)
        t->counts[c->entry] = (uint8_t)c->to;
    else if (c->table == LITERALS)
        t->literals[c->entry] = (uint8_t)c->to;
}

static uint32_t write_tables(const struct tables *t, size_t room)
{
    memset(&now, JUNK, sizeof now);
    before = now;
    return leading_write(t->sizes, t->sizes_len, t->costs, t->costs_len, t->counts,
                         t->counts_len, t->literals, t->literals_len, now.sheet + 1, room,
                         t->numbers[0], t->numbers[1], t->numbers[2], now.written + 1);
}

static uint32_t read_tables(const uint8_t *sheet, size_t length)
{
    memset(&now, JUNK, sizeof now);
    before = now;
    return leading_read(sheet, length, now.sizes + 1, now.costs + 1, now.counts + 1,
                        now.literals + 1, now.numbers + 1);
}

static void test_refusal(const struct refused *r)
{
    char name[32];
    struct tables t = small_tables;
    snprintf(name, sizeof name, "write, refusal %u", (unsigned)r->refused);
    for (size_t i = 0; i < COUNT(r->changes) && r->changes[i].table != NONE; i++)
        change(&t, &r->changes[i]);
    expect(write_tables(&t, r->room) == r->refused, name, "another answer");
    expect(!memcmp(&now, &before, sizeof now), name, "a buffer changed");
}

static void test_refused_sheet(const struct refused_sheet *r)
{
    char name[32];
    uint8_t sheet[sizeof small_plant + 1] = {0};
    snprintf(name, sizeof name, "read, refusal %u", (unsigned)r->refused);
    memcpy(sheet, small_plant, sizeof small_plant);
    sheet[r->place] = r->byte;
    expect(read_tables(sheet, r->length) == r->refused, name, "another answer");
    expect(!memcmp(&now, &before, sizeof now), name, "a buffer changed");
}

/* Into a buffer of just the sheet's length, and of more. */
static void test_small(void)
{
    for (size_t room = sizeof small_plant; room <= SHEET_ROOM; room++) {
        expect(write_tables(&small_tables, room) == LEADING_OK, "write", "refused");
        memcpy(before.sheet + 1, small_plant, sizeof small_plant);
        before.written[1] = sizeof small_plant;
        expect(!memcmp(&now, &before, sizeof now), "write", "a byte is another");
    }
    expect(read_tables(small_plant, sizeof small_plant) == LEADING_OK, "read", "refused");
    memcpy(before.sizes + 1, small_tables.sizes, 3);
    memcpy(before.costs + 1, small_tables.costs, 4 * sizeof *small_tables.costs);
    memcpy(before.counts + 1, small_tables.counts, 2);
    memcpy(before.literals + 1, small_tables.literals, 12);
    memcpy(before.numbers + 1, small_tables.numbers, sizeof small_tables.numbers);
    expect(!memcmp(&now, &before, sizeof now), "read", "an entry is another");
}

/* All tables full: no entry is beyond them. */
static void test_longest(void)
{
    static uint8_t sizes[LEADING_SIZE_ENTRIES], counts[LEADING_COUNT_ENTRIES];
    static uint8_t literals[LEADING_LITERAL_BYTES], sheet[LEADING_SHEET_BYTES_MOST + 1];
    static uint16_t costs[LEADING_COST_ENTRIES];
    uint32_t written = JUNK32;
    memset(sizes, LEADING_VALUES_MOST, sizeof sizes);
    memset(counts, LEADING_LITERALS_MOST, sizeof counts);
    for (size_t i = 0; i < COUNT(costs); i++)
        costs[i] = (uint16_t)(257 * i);
    for (size_t i = 0; i < COUNT(literals); i += 3) {
        literals[i] = (uint8_t)(i % LEADING_SIZE_ENTRIES);
        literals[i + 1] = (uint8_t)(i % 2);
        literals[i + 2] = (uint8_t)(i / 3 % LEADING_VALUES_MOST);
    }
    sheet[LEADING_SHEET_BYTES_MOST] = JUNK;
    expect(leading_write(sizes, COUNT(sizes), costs, COUNT(costs), counts, COUNT(counts),
                         literals, COUNT(literals), sheet, LEADING_SHEET_BYTES_MOST,
                         LEADING_PARTS_MOST, LEADING_HIDDEN_MOST, LEADING_CLAUSES_MOST,
                         &written) == LEADING_OK,
           "longest", "refused");
    expect(written == LEADING_SHEET_BYTES_MOST, "longest", "number of bytes");
    expect(sheet[LEADING_SHEET_BYTES_MOST] == JUNK, "longest", "a byte beyond");
    expect(read_tables(sheet, written) == LEADING_OK, "longest", "not read");
    expect(!memcmp(now.sizes + 1, sizes, sizeof sizes) &&
               !memcmp(now.costs + 1, costs, sizeof costs) &&
               !memcmp(now.counts + 1, counts, sizeof counts) &&
               !memcmp(now.literals + 1, literals, sizeof literals),
           "longest", "other tables");
    expect(now.sizes[LEADING_SIZE_ENTRIES + 1] == JUNK &&
               now.literals[LEADING_LITERAL_BYTES + 1] == JUNK,
           "longest", "an entry beyond the tables");
}

int main(void)
{
    test_small();
    test_longest();
    for (size_t i = 0; i < COUNT(refusals); i++)
        test_refusal(&refusals[i]);
    for (size_t i = 0; i < COUNT(refused_sheets); i++)
        test_refused_sheet(&refused_sheets[i]);
    printf("test_tables: small plant, longest sheet, %zu refusals, %d failures\n",
           COUNT(refusals) + COUNT(refused_sheets), failures);
    return failures == 0 ? 0 : 1;
}
