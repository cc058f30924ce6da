/* Measures the stack of each call, on sheets of each edition that it takes: a second
 * stack is painted, the deepest search that a sheet allows is run on it, with few clauses
 * and with many, and the lowest byte that changed is found. Prints the bytes; exit status
 * 1 where they are more than LEADING_STACK_BYTES. */
#define _XOPEN_SOURCE 700
#include "leading.h"

#include <stdbool.h>
#include <stdio.h>
#include <string.h>
#include <ucontext.h>

#define STACK_BYTES (1u << 20)
#define PAINT 0xa5

static _Alignas(16) unsigned char stack[STACK_BYTES];
static ucontext_t caller, callee;
static uint8_t sheet[LEADING_SHEET_BYTES_MOST];
static size_t sheet_len;
static unsigned variables; /* of the sheet */
static uint64_t conflict[LEADING_CONFLICT_WORDS];
static uint8_t values[LEADING_VALUES_BYTES(16)]; /* of a listing or, its first, of a test */
static uint32_t result[LEADING_RESULT_WORDS];
static bool meant; /* whether the last call went as it was meant to */

static void put(size_t *bit, unsigned width, unsigned field)
{
    for (; width > 0; width--, ++*bit)
        if (field >> (width - 1) & 1)
            sheet[*bit / 8] |= (uint8_t)(0x80 >> *bit % 8);
}

/* What an edition has of its own: its number, its most parts, the bits of a cost or
 * weight, and the best of these. */
struct edition {
    unsigned number, parts, bits, best;
};
static const struct edition costs_sheet = {LEADING_EDITION, LEADING_PARTS_MOST, 16, 0};
static const struct edition weights_sheet = {LEADING_EDITION_WEIGHTS, LEADING_PARTS_MOST_WEIGHTS, 8,
                                             LEADING_WEIGHT_MOST};

/* The most variables, of two values each, and for each so many clauses that its
 * last value meets: every variable is set, and set again. */
static void write_sheet(const struct edition *e, unsigned clauses)
{
    size_t bit = 0;
    variables = e->parts + LEADING_HIDDEN_MOST;
    memset(sheet, 0, sizeof sheet);
    put(&bit, 8, e->number);
    put(&bit, 5, e->parts);
    put(&bit, 6, LEADING_HIDDEN_MOST);
    put(&bit, 10, clauses * variables);
    for (unsigned part = 0; part < e->parts; part++) {
        put(&bit, 4, 1);
        put(&bit, e->bits, e->best);
        put(&bit, e->bits, part + 1);
    }
    for (unsigned hidden = 0; hidden < LEADING_HIDDEN_MOST; hidden++)
        put(&bit, 4, 1);
    for (unsigned clause = 0; clause < clauses * variables; clause++) {
        put(&bit, 4, 1);
        put(&bit, 6, clause % variables);
        put(&bit, 1, 0);
        put(&bit, 4, 1);
    }
    sheet_len = (bit + 7) / 8;
}

static uint64_t codes[16], queue[8192], store[128];

/* Whether a run went as the next two are meant to: one state, its last variable at 1. */
static bool listed_one(uint32_t refused)
{
    return refused == LEADING_OK && result[LEADING_ENDING] == LEADING_ALL &&
           result[LEADING_LISTED] == 1 && values[variables - 1] == 1;
}

/* The empty conflict is offered: its test sets all variables. Then a run that
 * learns, resolves, lists and ends. */
static void list(void)
{
    static uint32_t costs[16];
    memset(store, 0, sizeof store);
    values[variables - 1] = 0;
    meant = listed_one(leading_list(sheet, sheet_len, codes, 16, costs, 16, values, sizeof values,
                                    queue, 8192, store, 128, result, LEADING_RESULT_WORDS, 16, 1,
                                    1000000));
}

static void list_weights(void)
{
    static uint64_t products[16];
    memset(store, 0, sizeof store);
    values[variables - 1] = 0;
    meant = listed_one(leading_list_weights(sheet, sheet_len, codes, 16, products, 16, values,
                                            sizeof values, queue, 8192, store, 128, result,
                                            LEADING_RESULT_WORDS, 16, 1, 1000000));
}

/* The empty assignment: its test sets all variables. */
static void test(void)
{
    values[variables - 1] = 0;
    meant = leading_test(sheet, sheet_len, 0, 0, 1000000, values, result,
                         LEADING_ANSWER_WORDS) == LEADING_OK &&
            result[LEADING_ANSWER] == LEADING_TEST_CONSISTENT && values[variables - 1] == 1;
}

/* A conflict of one member: without it the test sets all variables. */
static void reduce(void)
{
    meant = leading_reduce(sheet, sheet_len, LEADING_MASK(0), LEADING_CODE(0, 0), 1000000,
                           conflict, LEADING_CONFLICT_WORDS, result,
                           LEADING_ANSWER_WORDS) == LEADING_OK &&
            result[LEADING_ANSWER] == LEADING_REDUCE_CONFLICT &&
            conflict[LEADING_CONFLICT_MASK] == LEADING_MASK(0);
}

/* What the sheet says. */
static uint8_t sizes[LEADING_SIZE_ENTRIES], counts[LEADING_COUNT_ENTRIES];
static uint8_t literals[LEADING_LITERAL_BYTES];
static uint16_t costs[LEADING_COST_ENTRIES];
static uint32_t numbers[LEADING_NUMBERS_WORDS];

static void read_tables(void)
{
    meant = leading_read(sheet, sheet_len, sizes, costs, counts, literals, numbers) == LEADING_OK;
}

/* One literal in each clause, two values a part. */
static void write_tables(void)
{
    static uint8_t again[LEADING_SHEET_BYTES_MOST];
    uint32_t written = 0, clauses = numbers[LEADING_NUMBER_CLAUSES];
    meant = leading_write(sizes, LEADING_PARTS_MOST + LEADING_HIDDEN_MOST, costs,
                          2 * LEADING_PARTS_MOST, counts, clauses, literals, 3 * (size_t)clauses,
                          again, sizeof again, LEADING_PARTS_MOST, LEADING_HIDDEN_MOST, clauses,
                          &written) == LEADING_OK &&
            written == sheet_len && !memcmp(sheet, again, written);
}

static const struct call {
    const char *name;
    void (*function)(void);
    const struct edition *edition;
} calls[] = {{"leading_list", list, &costs_sheet},
             {"leading_list_weights", list_weights, &weights_sheet},
             {"leading_test", test, &costs_sheet},
             {"leading_test with weights", test, &weights_sheet},
             {"leading_reduce", reduce, &costs_sheet},
             {"leading_reduce with weights", reduce, &weights_sheet},
             {"leading_read", read_tables, &costs_sheet},
             {"leading_write", write_tables, &costs_sheet}};

static size_t used_by(void (*function)(void))
{
    memset(stack, PAINT, sizeof stack);
    getcontext(&callee);
    callee.uc_stack.ss_sp = stack;
    callee.uc_stack.ss_size = sizeof stack;
    callee.uc_link = &caller;
    makecontext(&callee, function, 0);
    swapcontext(&caller, &callee);
    size_t lowest = 0;
    while (lowest < sizeof stack && stack[lowest] == PAINT)
        lowest++;
    return sizeof stack - lowest;
}

/* Whether the call on a sheet with so many clauses for each variable keeps within. */
static bool keeps_within(const struct call *call, unsigned clauses)
{
    write_sheet(call->edition, clauses);
    read_tables();    /* what leading_write is given */
    call->function(); /* so that memset is bound already */
    meant = false;
    size_t used = used_by(call->function);
    printf("stack of %s: %zu of %d\n", call->name, used, LEADING_STACK_BYTES);
    if (!meant)
        printf("stack of %s: the run is not the one meant\n", call->name);
    return meant && used <= LEADING_STACK_BYTES;
}

/* 48 clauses and 480, with weights 40 and 400: the test has a search for few clauses and
 * one for many. */
int main(void)
{
    bool all = true;
    for (size_t i = 0; i < sizeof calls / sizeof *calls; i++) {
        all &= keeps_within(&calls[i], 1);
        all &= keeps_within(&calls[i], 10);
    }
    return all ? 0 : 1;
}
