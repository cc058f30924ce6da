/*
 * leading.h - the leading states of a driveline, in an order that nothing but
 * the plant decides.
 *
 * leading_list() reads a plant sheet and lists the cheapest states of the plant's
 * parts that fit all of the sheet's clauses, cheapest first, equal costs by code,
 * and for each the values of the hidden variables. Two lists of one sheet never
 * contradict each other: of any two, one begins the other, whatever queue, store or
 * trial limit each was given, and a state on both has the same hidden values. That
 * is proved of the code that you link.
 *
 * leading_list_weights() does the same with a workshop's chances in place of costs:
 * the likeliest state comes first, equal ones by code.
 *
 * leading_test() says whether given states of some parts can be together, and shows
 * values of all variables where they can; leading_reduce() says which of them are to
 * blame where they cannot.
 * leading_write() makes a sheet of a plant's tables, and leading_read() the tables
 * of a sheet; each undoes the other.
 * leading_held() says how many conflicts a listing leaves for the next one, and
 * leading_version() which archive is linked.
 *
 * Link libleading.a. `make archive` proves the code and writes it to target/lib
 * (x86-64); `make install PREFIX=/usr/local` puts it, this header, leading.pc and
 * leading(3) in place, and then
 *
 *     cc program.c $(pkg-config --cflags --libs leading)
 *
 * It asks for memset and memcpy and for nothing else.
 *
 * - No allocation, no input or output, no locks, no errno. All memory is yours.
 * - No global state: re-entrant, and safe in many threads at once, each call
 *   with buffers of its own.
 * - It always returns; see `limit` for how long that may take.
 * - Stack: see LEADING_STACK_BYTES.
 *
 * Words used here. A part (decision variable) has a number from 0 and up to 16
 * states, numbered from 0, each with a cost or, in a sheet of edition 2, with a
 * weight, its chance in 256ths. Hidden variables, as a shaft's motion, are tied to
 * the parts by clauses. A state of the plant gives every part a state; its cost is
 * the sum of theirs, its product that of their weights, and it fits if some values
 * of the hidden variables make every clause hold.
 *
 * Example: the small plant. This very text is compiled and run by the gate, as
 * C and as C++; so are the examples at leading_list_weights(), leading_held(),
 * leading_reduce() and leading_read().
 *
 * @code
 * #include <inttypes.h>
 * #include <stdio.h>
 * #include "leading.h"
 *
 * int main(void)
 * {
 *     static const uint8_t sheet[] = {
 *         0x01, 0x10, 0x20, 0x10, 0x80, 0x00, 0x00, 0x01, 0x88, 0x00,
 *         0x00, 0x00, 0x18, 0x98, 0x10, 0x06, 0x01, 0x04, 0x42, 0x00};
 *     static uint64_t codes[16];
 *     static uint32_t costs[16];
 *     static uint8_t values[LEADING_VALUES_BYTES(16)];
 *     static uint64_t queue[LEADING_QUEUE_WORDS(4096)];
 *     static uint64_t store[LEADING_STORE_WORDS(64)];
 *     uint32_t result[LEADING_RESULT_WORDS];
 *     unsigned drive = LEADING_PARTS(sheet); // the first hidden variable
 *
 *     uint32_t refused = leading_list(sheet, sizeof sheet, codes, 16, costs, 16,
 *                                     values, LEADING_VALUES_BYTES(16),
 *                                     queue, LEADING_QUEUE_WORDS(4096),
 *                                     store, LEADING_STORE_WORDS(64),
 *                                     result, LEADING_RESULT_WORDS,
 *                                     16, 0, 1000000);
 *     if (refused != LEADING_OK) {
 *         printf("refused: %s\n", leading_refusal_text(refused));
 *         return 1;
 *     }
 *     for (uint32_t i = 0; i < result[LEADING_LISTED]; i++)
 *         printf("cost %" PRIu32 ": selector %u, clutch %u, hidden drive %u\n",
 *                costs[i], LEADING_VALUE(codes[i], 0), LEADING_VALUE(codes[i], 1),
 *                values[LEADING_VALUE_PLACE(i, drive)]);
 *     if (result[LEADING_ENDING] == LEADING_ALL)
 *         printf("no other explanation\n");
 *     else
 *         printf("there may be more: %s\n",
 *                leading_ending_text(result[LEADING_ENDING]));
 *     return 0;
 * }
 * @endcode
 *
 * It prints
 *
 * @output
 * cost 3: selector 0, clutch 1, hidden drive 0
 * cost 3: selector 1, clutch 0, hidden drive 0
 * cost 6: selector 1, clutch 1, hidden drive 0
 * no other explanation
 * @endoutput
 *
 * host/leading_host.c is a whole program over this header.
 */
#ifndef LEADING_H
#define LEADING_H

#include <stddef.h>
#include <stdint.h>

#ifdef __cplusplus
extern "C" {
#endif

/* ---- Version ------------------------------------------------------------ */

/* Of this interface. MAJOR rises with a change that breaks callers, MINOR with
 * one that adds to it, or after which an answer says more. */
#define LEADING_VERSION_MAJOR 1
#define LEADING_VERSION_MINOR 2
#define LEADING_VERSION_PATCH 0
#define LEADING_VERSION "1.2.0"

/* The three in one number, for #if and for leading_version(). */
#define LEADING_VERSION_NUMBER                                       \
    (LEADING_VERSION_MAJOR * 65536u + LEADING_VERSION_MINOR * 256u + \
     LEADING_VERSION_PATCH)

/* The editions of the plant sheet, its first byte: with costs, and with weights. */
#define LEADING_EDITION 1
#define LEADING_EDITION_WEIGHTS 2

/* ---- Limits and sizes --------------------------------------------------- */

#define LEADING_PARTS_MOST 16           /* decision variables; at least 1 */
#define LEADING_HIDDEN_MOST 32          /* state variables; at least 0 */
#define LEADING_VALUES_MOST 16          /* states of a part or hidden variable */
#define LEADING_COST_MOST 65535         /* of one state of one part */
#define LEADING_CLAUSES_MOST 512        /* at least 0 */
#define LEADING_LITERALS_MOST 15        /* in one clause; at least 0 */
#define LEADING_SHEET_BYTES_MOST 11356  /* a longer sheet is always refused */
#define LEADING_K_MOST 4096             /* states listed by one call; at least 1 */
#define LEADING_QUEUE_ENTRIES_MOST 4096 /* at least 1 */
#define LEADING_STORE_ENTRIES_MOST 4096 /* at least 0 */

/* Of a sheet with weights; the other limits are those above. */
#define LEADING_PARTS_MOST_WEIGHTS 8           /* at least 1 */
#define LEADING_WEIGHT_MOST 255                /* of a part's state; at least 1 */
#define LEADING_WEIGHT_WHOLE 256               /* of which a weight is a part */
#define LEADING_SHEET_BYTES_MOST_WEIGHTS 10968 /* a longer one is refused */

/* uint64_t words of a queue or a store with so many entries. */
#define LEADING_QUEUE_WORDS(entries) ((size_t)2 * (entries))
#define LEADING_STORE_WORDS(entries) ((size_t)2 * (entries))

/* Bytes of the values of one state, one for each variable: parts first, then hidden
 * variables, then zeros. */
#define LEADING_STATE_BYTES 48

/* Bytes of the values of so many states. */
#define LEADING_VALUES_BYTES(states) ((size_t)LEADING_STATE_BYTES * (states))

/* The place among the values of a listing of a variable's byte, for the state at
 * this place of the list, from 0. Part p has the number p, and hidden variable h the
 * number LEADING_PARTS(sheet) + h, both from 0. */
#define LEADING_VALUE_PLACE(state, variable) \
    (LEADING_VALUES_BYTES(state) + (size_t)(variable))

/* uint32_t words of the result: of a listing; of a test or reduction. */
#define LEADING_RESULT_WORDS 6
#define LEADING_ANSWER_WORDS 2

/* uint64_t words of a conflict. */
#define LEADING_CONFLICT_WORDS 2

/* Entries of the tables of the largest plant; leading_read() is lent tables of
 * just so many. */
#define LEADING_SIZE_ENTRIES 48     /* uint8_t, one for each variable */
#define LEADING_COST_ENTRIES 256    /* uint16_t, one for each state of each part */
#define LEADING_COUNT_ENTRIES 512   /* uint8_t, one for each clause */
#define LEADING_LITERAL_BYTES 23040 /* uint8_t, three for each literal */

/* uint32_t words of the numbers of parts, hidden variables and clauses. */
#define LEADING_NUMBERS_WORDS 3

/*
 * Stack that a call may take, in bytes, whatever it is given. Measured: 98,032,
 * on a painted stack with the most variables and the deepest search that a sheet
 * allows (the frames of leading_list, of the test and of 49 nested searches), and
 * 90,072 where a sheet has at most 128 clauses:
 *
 *     make host && target/host/stack
 *
 * It measures each call; these figures are leading_list's. The gate runs it, and
 * fails where a call takes more than this.
 */
#define LEADING_STACK_BYTES 98304

/* ---- What is returned --------------------------------------------------- */

/*
 * LEADING_OK, or why the call was refused. Where several reasons are given, the
 * first in the order below, save that within a sheet the order is that of
 * reading. A refused call changes no buffer, the result included.
 *
 * leading_list is refused by 1 to 13 and by 19, which comes right after 2;
 * leading_list_weights by these and by 20; leading_test and leading_reduce by 2, by
 * 5 to 15 and by 20; leading_read by 5 to 13. leading_write has an order of its own:
 * 16, 17, 7, 8, 9, then 10 and 11 literal by literal, then 18.
 */
enum leading_refusal {
    LEADING_OK = 0,

    /* The caller's; looked at before the sheet. */
    LEADING_BAD_K = 1,      /* k is 0 or above LEADING_K_MOST */
    LEADING_BAD_OUTPUT = 2, /* of a listing: codes_len, costs_len or
                               products_len below k, or result_len
                               below LEADING_RESULT_WORDS; of a test
                               or reduction: result_len below
                               LEADING_ANSWER_WORDS; of a reduction also:
                               conflict_len below LEADING_CONFLICT_WORDS */
    LEADING_BAD_VALUES_ROOM = 19, /* of a listing: values_len below
                                     LEADING_VALUES_BYTES(k) */
    LEADING_BAD_QUEUE = 3,  /* queue_len is odd, 0 or above 8,192 */
    LEADING_BAD_STORE = 4,  /* store_len is odd or above 8,192, or held is more
                               than the entries of the store */

    /* The author's, of a sheet or (7 to 11) of tables. 20 is that of a sheet with
     * weights; it comes where that weight is read. */
    LEADING_SHEET_SHORT = 5,     /* a field runs past the end; comes before the
                                    field's own rule */
    LEADING_SHEET_EDITION = 6,   /* the edition is none that the call takes: of
                                    leading_list and leading_read not
                                    LEADING_EDITION, of leading_list_weights not
                                    LEADING_EDITION_WEIGHTS, of leading_test and
                                    leading_reduce neither */
    LEADING_SHEET_PARTS = 7,     /* no part, or more than 16, with weights 8 */
    LEADING_SHEET_HIDDEN = 8,    /* more than 32 hidden variables */
    LEADING_SHEET_CLAUSES = 9,   /* more than 512 clauses */
    LEADING_SHEET_WEIGHT = 20,   /* a weight is 0 */
    LEADING_SHEET_VARIABLE = 10, /* a literal names a variable that is not there */
    LEADING_SHEET_VALUE = 11,    /* a literal names a value that its variable has
                                    not */
    LEADING_SHEET_FILLER = 12,   /* a bit behind the last clause is not 0 */
    LEADING_SHEET_LONG = 13,     /* bytes behind the filler */

    /* The caller's, of a test or reduction; looked at after the sheet. */
    LEADING_BAD_MASK = 14,  /* a bit of the mask beyond the sheet's parts */
    LEADING_BAD_VALUES = 15, /* a value that its part has not, or a nibble that
                                is not 0 where the mask is 0 */

    /* Of tables: the caller's, looked at first; the author's; the caller's,
     * looked at last. */
    LEADING_BAD_TABLES = 16,    /* a table is not as long as the numbers say */
    LEADING_TABLES_RANGES = 17, /* a size that is not 1 to 16, more than 15
                                   literals in a clause, or a sign above 1 */
    LEADING_BAD_SHEET_ROOM = 18 /* sheet_len is below the sheet's bytes */
};

/* The places of the numbers that leading_read() writes. */
enum leading_numbers {
    LEADING_NUMBER_PARTS = 0,  /* parts */
    LEADING_NUMBER_HIDDEN = 1, /* hidden variables */
    LEADING_NUMBER_CLAUSES = 2 /* clauses */
};

/* The places of a listing's result words. */
enum leading_result {
    LEADING_ENDING = 0,  /* an enum leading_ending */
    LEADING_LISTED = 1,  /* states listed: words of codes and of costs or products
                          * written, and of values LEADING_STATE_BYTES for each */
    LEADING_TESTED = 2,  /* states of the plant tested to the end */
    LEADING_LEARNED = 3, /* conflicts found in this run and put in the store */
    LEADING_UNKEPT = 4,  /* states that did not fit, met with the store full:
                          * nothing is learned of them */
    LEADING_TRIALS = 5   /* trials made in all; never above limit */
};

/*
 * How a run ended. After every ending the list is right as far as it goes, and only
 * LEADING_ALL says that no other state fits. Where k states are listed it is
 * LEADING_ALL if the search came to its end with the last of them, and otherwise
 * LEADING_ENOUGH: then another state may fit or none, and a call with a greater k
 * can tell. Where just k states fit, which of the two it is may depend on the store
 * and the conflicts offered in it; the list does not.
 */
enum leading_ending {
    LEADING_ENOUGH = 1, /* k states are listed, and there may be more */
    LEADING_ALL = 2,    /* every state that fits is listed: there is no other
                         * explanation; also where these are just k */
    LEADING_FULL = 3,   /* the queue had too few entries to go on; there may be
                         * more */
    LEADING_SPENT = 4   /* a trial beyond the limit was wanted, or one test
                         * more than 2^32 - 1; there may be more */
};

/* The places of a test's and a reduction's result words. */
enum leading_answer {
    LEADING_ANSWER = 0,       /* an enum leading_test_answer, or an enum
                                 leading_reduce_answer */
    LEADING_ANSWER_TRIALS = 1 /* trials made; never above limit */
};

/* What a test found. Not to be mixed up with LEADING_SPENT, a listing's. */
enum leading_test_answer {
    LEADING_TEST_CONSISTENT = 1,   /* the states can be together */
    LEADING_TEST_INCONSISTENT = 2, /* they cannot: they are a conflict */
    LEADING_TEST_SPENT = 3         /* a trial beyond the limit was wanted */
};

/* What a reduction found. */
enum leading_reduce_answer {
    LEADING_REDUCE_NONE = 1,     /* no conflict: the states can be together */
    LEADING_REDUCE_CONFLICT = 2, /* a conflict, and its two words are written */
    LEADING_REDUCE_SPENT = 3     /* a trial beyond the limit was wanted */
};

/* The places of a conflict's words. */
enum leading_conflict {
    LEADING_CONFLICT_MASK = 0,
    LEADING_CONFLICT_VALUES = 1
};

/* The refusal in words, for messages; "unknown" where it is none. */
static inline const char *leading_refusal_text(uint32_t refusal)
{
    switch (refusal) {
    case LEADING_OK: return "not refused";
    case LEADING_BAD_K: return "k is not 1 to 4096";
    case LEADING_BAD_OUTPUT:
        return "codes, costs, products, conflict or result too short";
    case LEADING_BAD_VALUES_ROOM:
        return "the values are shorter than 48 bytes for each of k states";
    case LEADING_BAD_QUEUE: return "the queue is not of 1 to 4096 entries";
    case LEADING_BAD_STORE:
        return "the store is not of 0 to 4096 entries, or held is above them";
    case LEADING_SHEET_SHORT: return "the sheet ends inside a field";
    case LEADING_SHEET_EDITION:
        return "the sheet's edition is none that this call takes";
    case LEADING_SHEET_PARTS:
        return "the sheet has no part, or more than 16, with weights 8";
    case LEADING_SHEET_HIDDEN: return "the sheet has more than 32 hidden variables";
    case LEADING_SHEET_CLAUSES: return "the sheet has more than 512 clauses";
    case LEADING_SHEET_WEIGHT: return "a weight is 0";
    case LEADING_SHEET_VARIABLE: return "a literal's variable is not there";
    case LEADING_SHEET_VALUE: return "a literal's value is outside its variable's";
    case LEADING_SHEET_FILLER: return "a filler bit is not 0";
    case LEADING_SHEET_LONG: return "bytes behind the end of the sheet";
    case LEADING_BAD_MASK: return "the mask has a bit beyond the sheet's parts";
    case LEADING_BAD_VALUES:
        return "a value is outside its part's, or stands where the mask is 0";
    case LEADING_BAD_TABLES: return "a table is not as long as the numbers say";
    case LEADING_TABLES_RANGES:
        return "a size is not 1 to 16, a clause has more than 15 literals, or a sign is above 1";
    case LEADING_BAD_SHEET_ROOM: return "the buffer is shorter than the sheet";
    default: return "unknown";
    }
}

/* How a run ended, in a word; "unknown" where it is no ending. */
static inline const char *leading_ending_text(uint32_t ending)
{
    switch (ending) {
    case LEADING_ENOUGH: return "enough";
    case LEADING_ALL: return "all";
    case LEADING_FULL: return "full";
    case LEADING_SPENT: return "spent";
    default: return "unknown";
    }
}

/* The answer of a test in a word; "unknown" where it is none. */
static inline const char *leading_test_text(uint32_t answer)
{
    switch (answer) {
    case LEADING_TEST_CONSISTENT: return "consistent";
    case LEADING_TEST_INCONSISTENT: return "inconsistent";
    case LEADING_TEST_SPENT: return "spent";
    default: return "unknown";
    }
}

/* The answer of a reduction in a word; "unknown" where it is none. */
static inline const char *leading_reduce_text(uint32_t answer)
{
    switch (answer) {
    case LEADING_REDUCE_NONE: return "none";
    case LEADING_REDUCE_CONFLICT: return "conflict";
    case LEADING_REDUCE_SPENT: return "spent";
    default: return "unknown";
    }
}

/* ---- The sheet ---------------------------------------------------------- */

/*
 * Fields of bits, most significant first, from byte 0 on, without gaps:
 *
 *     8 edition, 5 parts, 6 hidden variables, 10 clauses;
 *     for each part: 4 its states less 1, then 16 for the cost of each state;
 *     for each hidden variable: 4 its values less 1;
 *     for each clause: 4 its literals, then for each literal 6 the variable
 *     (parts first, then hidden ones), 1 sign (0 equal, 1 unequal), 4 the value;
 *     zero bits up to the end of the byte.
 *
 * That is edition 1. Edition 2 has 1 to 8 parts and, in the place of a state's cost,
 * 8 bits for its weight, 1 to 255: the chance of that state in 256ths. All else is as
 * in edition 1. That the weights of a part add up to 256 or less is the author's
 * affair; the library does not ask.
 *
 *                                     edition 1        edition 2
 *     leading_list                    lists            refused with 6
 *     leading_list_weights            refused with 6   lists
 *     leading_test, leading_reduce    answer           answer
 *     leading_read                    reads            refused with 6
 *     leading_write                   writes           writes none
 *
 * A clause holds if one of its literals holds; one without literals never does.
 * leading_write() writes sheets from tables, and leading_read() reads them into
 * tables; examples/plant_text.py writes sheets of both editions from a text with
 * names, and a text from a sheet.
 */

/* The number of parts that a sheet of either edition names, in its second byte: 1 to
 * 16, with weights 1 to 8, where the sheet is not refused. */
#define LEADING_PARTS(sheet) ((unsigned)(sheet)[1] >> 3 & 31u)

/* The number of hidden variables that it names, in its second and third byte: 0 to
 * 32 where the sheet is not refused. */
#define LEADING_HIDDEN(sheet) \
    (((unsigned)(sheet)[1] & 7u) << 3 | ((unsigned)(sheet)[2] >> 5 & 7u))

/* ---- Codes and conflicts ------------------------------------------------ */

/*
 * A code is a state of the plant in one word: part 0 in the top four bits, part
 * 1 in the next four and so on; nibbles of absent parts are 0.
 *
 * Some parts' states are two words: the mask, with part 0 in the top bit, 1 where
 * the part has a say; then the values as in a code, 0 where the mask is 0.
 *
 * A conflict is some parts' states that cannot be together, in these two words.
 * Mask 0 (no state fits at all) is a conflict too.
 */

/* The state of a part in a code. */
#define LEADING_VALUE(code, part) \
    ((unsigned)((uint64_t)(code) >> (60 - 4 * (part)) & 15u))
/* The mask of one part; masks of several are joined with |. */
#define LEADING_MASK(part) ((uint64_t)1 << (63 - (part)))
/* One part's state as a code; several are joined with |. */
#define LEADING_CODE(part, value) ((uint64_t)(value) << (60 - 4 * (part)))

/* ---- The calls ---------------------------------------------------------- */

/*
 * Of every call: all buffers are the caller's, before, during and after it; the
 * library keeps no pointer. A count after a pointer is in elements, not bytes.
 * Pointers are not NULL, also where the count is 0, and are aligned as their type
 * asks. No two buffers overlap, the sheet among them. While the call lasts nobody
 * else writes the sheet or touches the other buffers. Apart from the counts that
 * refusals 1 to 4, 16, 18 and 19 name, none of this is checked: as with memcpy,
 * breaking it is undefined.
 */

/*
 * The version of the archive that is linked. It is LEADING_VERSION_NUMBER where
 * this header belongs to the archive.
 */
uint32_t leading_version(void);

/*
 * Lists the first k states of the sheet's plant that fit.
 *
 * sheet, sheet_len
 *     The plant sheet, any bytes; only read. Anything that is not a whole sheet
 *     of edition 1 is refused with 5 to 13.
 * codes, codes_len, costs, costs_len
 *     Out: the listed states' codes and costs, the first at place 0. At least k
 *     words each. Before: anything. After: LEADING_LISTED words are written and
 *     those behind them unchanged.
 * values, values_len
 *     Out: the values of all variables in the listed states, LEADING_STATE_BYTES
 *     bytes for each state, in the order of the list: one byte for each part, one
 *     for each hidden variable, then zeros. LEADING_VALUE_PLACE says where each is.
 *     At least LEADING_VALUES_BYTES(k) bytes; fewer are refused with 19. Before:
 *     anything. After: LEADING_VALUES_BYTES(listed) bytes are written and those
 *     behind them unchanged. The values make every clause hold, and the parts' are
 *     those of the code. Where several fit they are the first, compared in the order
 *     of the variables' numbers, lower values first. So they depend on the sheet and
 *     the state alone: two cabins that list a state show the same shafts, whatever
 *     each was asked before. That is proved.
 * queue, queue_len
 *     Work space: LEADING_QUEUE_WORDS(entries), 1 to 4,096 entries. Before:
 *     anything. After: all words 0. A short queue may end the run
 *     LEADING_FULL; one with as many entries as the plant has states (the
 *     product of the numbers of states of the parts) never does.
 * store, store_len, held
 *     In and out: the conflict store, LEADING_STORE_WORDS(entries), 0 to 4,096
 *     entries of two words, mask and values. Before: the first `held` entries
 *     are conflicts offered, as those of an earlier run; the words behind them
 *     may be anything. Each offer is tested on this sheet, and dropped if it is
 *     not well formed or no conflict here, so a wrong offer costs trials and
 *     never makes the list wrong. Short reasons push out long ones: of the offers
 *     that passed one that contains another is dropped, and of equal ones the
 *     first remains; a conflict that is learned pushes out those that contain it.
 *     After: the offers that passed and were not pushed out, closed up, in their
 *     order; then the LEADING_LEARNED conflicts of this run, none of which is ever
 *     pushed out; then zeros. No entry contains another, and unless the run ended
 *     LEADING_SPENT each offer that is a conflict contains an entry, or is one, so
 *     that nothing is forgotten by it. That is proved. Where the limit strikes
 *     while offers are tested, those not yet passed are gone. leading_held() says
 *     how many entries to offer to the next run. A conflict with mask 0 (no state
 *     fits at all) is contained in every other and stands alone.
 * result, result_len
 *     Out: the six words of enum leading_result. Before: anything. After: words
 *     behind the six unchanged.
 * k
 *     How many states to list at most, 1 to 4,096. With k as many as the plant has
 *     states (the product of the numbers of states of the parts), or more, the
 *     run never ends LEADING_ENOUGH.
 * limit
 *     The most trials, of all tests together; 0 is allowed. A trial is one
 *     value set in a test, a few nanoseconds. The limit bounds trials only: a
 *     test of which a clause is false from the start makes none, and with a
 *     store that is full, or of 0 entries, a run may make 2^32 - 1 such tests
 *     before it ends LEADING_SPENT: minutes to hours. Give the store room.
 *
 * Returns LEADING_OK (0) after a run, with the result written; otherwise the
 * number of the refusal, with every buffer as it was.
 */
uint32_t leading_list(const uint8_t *sheet, size_t sheet_len,
                      uint64_t *codes, size_t codes_len,
                      uint32_t *costs, size_t costs_len,
                      uint8_t *values, size_t values_len,
                      uint64_t *queue, size_t queue_len,
                      uint64_t *store, size_t store_len,
                      uint32_t *result, size_t result_len,
                      uint32_t k, size_t held, uint32_t limit);

/*
 * Lists the first k states of the sheet's plant that fit, by chances: the greatest
 * product first, equal ones by code. It takes what leading_list takes, with products
 * in the place of costs, and goes by the same steps, endings and refusals; of two
 * lists of one sheet one begins the other here too, whatever each call was given, and
 * that is proved.
 *
 * sheet, sheet_len
 *     The plant sheet, any bytes; only read. Anything that is not a whole sheet of
 *     edition 2 is refused with 5 to 13 or with 20: a sheet of edition 1 with 6, more
 *     than 8 parts with 7, a weight of 0 with 20.
 * products, products_len
 *     Out: the listed states' products, the first at place 0: of each the product of
 *     the weights of its parts' states. At least k words; fewer are refused with 2, as
 *     fewer codes are. Before: anything. After: LEADING_LISTED words are written and
 *     those behind them unchanged. A product is 1 to 255^8, so that none wraps. The
 *     chance of the state, before anything was seen and with parts that fail
 *     independently, is its product over LEADING_WEIGHT_WHOLE to the power of
 *     LEADING_PARTS(sheet); of eight parts that number is 2^64, and no word holds it.
 * codes, codes_len, values, values_len, queue, queue_len, store, store_len, result,
 * result_len, k, held, limit
 *     As for leading_list. A store holds conflicts, in which costs and weights have no
 *     part: what a run of either call left may be offered to the other.
 *
 * Returns LEADING_OK (0) after a run, with the result written; otherwise the
 * number of the refusal, with every buffer as it was.
 *
 * Example: the small plant with weights. The selector is well in 240 of 256 cases, the
 * clutch in 224.
 *
 * @code
 * #include <inttypes.h>
 * #include <stdio.h>
 * #include "leading.h"
 *
 * int main(void)
 * {
 *     static const uint8_t sheet[] = {
 *         0x02, 0x10, 0x20, 0x10, 0xf8, 0x08, 0x0f, 0x01,
 *         0x00, 0x98, 0x10, 0x06, 0x01, 0x04, 0x42, 0x00};
 *     static uint64_t codes[16], products[16];
 *     static uint8_t values[LEADING_VALUES_BYTES(16)];
 *     static uint64_t queue[LEADING_QUEUE_WORDS(4096)];
 *     static uint64_t store[LEADING_STORE_WORDS(64)];
 *     uint32_t result[LEADING_RESULT_WORDS];
 *     double whole = 1; // 256 to the power of the parts
 *
 *     uint32_t refused = leading_list_weights(sheet, sizeof sheet,
 *                                             codes, 16, products, 16,
 *                                             values, LEADING_VALUES_BYTES(16),
 *                                             queue, LEADING_QUEUE_WORDS(4096),
 *                                             store, LEADING_STORE_WORDS(64),
 *                                             result, LEADING_RESULT_WORDS,
 *                                             16, 0, 1000000);
 *     if (refused != LEADING_OK) {
 *         printf("refused: %s\n", leading_refusal_text(refused));
 *         return 1;
 *     }
 *     for (unsigned part = 0; part < LEADING_PARTS(sheet); part++)
 *         whole *= LEADING_WEIGHT_WHOLE;
 *     for (uint32_t i = 0; i < result[LEADING_LISTED]; i++)
 *         printf("product %" PRIu64 ", chance %.2f%%: selector %u, clutch %u\n",
 *                products[i], 100 * ((double)products[i] / whole),
 *                LEADING_VALUE(codes[i], 0), LEADING_VALUE(codes[i], 1));
 *     if (result[LEADING_ENDING] == LEADING_ALL)
 *         printf("no other explanation\n");
 *     return 0;
 * }
 * @endcode
 *
 * It prints
 *
 * @output
 * product 7680, chance 11.72%: selector 0, clutch 1
 * product 3584, chance 5.47%: selector 1, clutch 0
 * product 512, chance 0.78%: selector 1, clutch 1
 * no other explanation
 * @endoutput
 */
uint32_t leading_list_weights(const uint8_t *sheet, size_t sheet_len,
                              uint64_t *codes, size_t codes_len,
                              uint64_t *products, size_t products_len,
                              uint8_t *values, size_t values_len,
                              uint64_t *queue, size_t queue_len,
                              uint64_t *store, size_t store_len,
                              uint32_t *result, size_t result_len,
                              uint32_t k, size_t held, uint32_t limit);

/*
 * The entries of the store to offer to the next run, as its `held`: after a run of
 * leading_list() or leading_list_weights() that was not refused, with its store and
 * its result words. Every conflict that the run left in the store is among them.
 *
 * Entries are counted up to the last whose mask is not 0. Where there is none, the
 * first entry may be the conflict with mask 0, which stands alone: it is one where
 * the run ended LEADING_ALL and listed nothing, since then no state fits, and it
 * counts there; after any other run it is empty room. (A run that was offered
 * nothing leaves LEADING_LEARNED entries.)
 *
 * Example: the small plant again, its first state, then all with what was learned.
 *
 * @code
 * #include <inttypes.h>
 * #include <stdio.h>
 * #include "leading.h"
 *
 * static const uint8_t sheet[] = {
 *     0x01, 0x10, 0x20, 0x10, 0x80, 0x00, 0x00, 0x01, 0x88, 0x00,
 *     0x00, 0x00, 0x18, 0x98, 0x10, 0x06, 0x01, 0x04, 0x42, 0x00};
 * static uint64_t codes[16];
 * static uint32_t costs[16];
 * static uint8_t values[LEADING_VALUES_BYTES(16)];
 * static uint64_t queue[LEADING_QUEUE_WORDS(4096)];
 * static uint64_t store[LEADING_STORE_WORDS(64)];
 *
 * int main(void)
 * {
 *     static const uint32_t most[] = {1, 16};
 *     size_t held = 0;
 *
 *     for (int run = 0; run < 2; run++) {
 *         uint32_t result[LEADING_RESULT_WORDS];
 *         uint32_t refused = leading_list(sheet, sizeof sheet, codes, 16, costs, 16,
 *                                         values, LEADING_VALUES_BYTES(16),
 *                                         queue, LEADING_QUEUE_WORDS(4096),
 *                                         store, LEADING_STORE_WORDS(64),
 *                                         result, LEADING_RESULT_WORDS,
 *                                         most[run], held, 1000000);
 *         if (refused != LEADING_OK)
 *             return 1;
 *         printf("offered %u, listed %" PRIu32 ", learned %" PRIu32
 *                ", trials %" PRIu32 "\n", (unsigned)held, result[LEADING_LISTED],
 *                result[LEADING_LEARNED], result[LEADING_TRIALS]);
 *         held = leading_held(store, LEADING_STORE_WORDS(64), result);
 *     }
 *     return 0;
 * }
 * @endcode
 *
 * It prints
 *
 * @output
 * offered 0, listed 1, learned 1, trials 13
 * offered 1, listed 3, learned 0, trials 5
 * @endoutput
 */
static inline size_t leading_held(const uint64_t *store, size_t store_len,
                                  const uint32_t *result)
{
    size_t entries = store_len / 2, held = entries;
    while (held > 0 && store[LEADING_STORE_WORDS(held - 1)] == 0)
        held--;
    if (held == 0 && entries > 0 && result[LEADING_ENDING] == LEADING_ALL &&
        result[LEADING_LISTED] == 0)
        held = 1;
    return held;
}

/*
 * Tests whether given states of some parts can be together: whether some states
 * of all other parts and some values of the hidden variables make every clause
 * hold. Where they can, it shows values of all variables that do, the first ones.
 *
 * sheet, sheet_len
 *     The plant sheet, of either edition, as its first byte says; any bytes, and only
 *     read. Costs and weights have no part in the answer. Anything that is no whole
 *     sheet is refused with 5 to 13 or with 20.
 * mask, values
 *     The states in two words, as those of a conflict. Any parts, all of them or
 *     none: with mask 0 the test is whether any state of the plant fits, and with
 *     all parts whether this one does. A bit beyond the sheet's parts is refused
 *     with 14, and then a value that its part has not, or a nibble that is not 0
 *     where the mask is 0, with 15.
 * limit
 *     The most trials; 0 is allowed. A trial is one value set, a few nanoseconds.
 *     Where a clause is false from the start the test answers without any.
 * shown
 *     Out: LEADING_STATE_BYTES bytes, all of which are lent; there is no count.
 *     Before: anything. After LEADING_TEST_CONSISTENT: values of all variables, one
 *     byte for each part, one for each hidden variable, then zeros. They make every
 *     clause hold, and the parts that were given have the states that were given.
 *     Where several fit they are the first, compared as in a listing; where all parts
 *     were given they are what a listing shows for that state. After the other two
 *     answers: zeros.
 * result, result_len
 *     Out: the two words of enum leading_answer, the first an enum
 *     leading_test_answer. At least LEADING_ANSWER_WORDS words; fewer are refused
 *     with 2, before the sheet is looked at. Before: anything. After: words behind
 *     the two unchanged.
 *
 * Returns LEADING_OK (0) after a test, with the result written; otherwise the
 * number of the refusal (2; the sheet's, 5 to 13 and 20 as it is read; 14, 15), with
 * every buffer as it was.
 */
uint32_t leading_test(const uint8_t *sheet, size_t sheet_len,
                      uint64_t mask, uint64_t values, uint32_t limit,
                      uint8_t *shown,
                      uint32_t *result, size_t result_len);

/*
 * Finds which of given states of some parts are to blame where they cannot be
 * together: tests them, and then leaves off one part after the other, by number,
 * for good where the rest cannot be together either. What is left is a conflict
 * of which no part can be spared: without any one of its members the others can
 * be together. It may be offered to leading_list or leading_list_weights in a store.
 *
 * sheet, sheet_len, mask, values
 *     As for leading_test.
 * limit
 *     The most trials, of all its tests together; 0 is allowed.
 * conflict, conflict_len
 *     Out: the conflict, its mask and its values (enum leading_conflict), after
 *     LEADING_REDUCE_CONFLICT only. At least LEADING_CONFLICT_WORDS words; fewer
 *     are refused with 2, before the sheet is looked at. Before: anything. After:
 *     words behind the two unchanged; after the other answers all unchanged.
 * result, result_len
 *     Out: the two words of enum leading_answer, the first an enum
 *     leading_reduce_answer. Otherwise as for leading_test.
 *
 * Returns LEADING_OK (0) after a reduction, with the result written; otherwise the
 * number of the refusal (2; the sheet's, 5 to 13 and 20 as it is read; 14, 15), with
 * every buffer as it was.
 *
 * Example: the small plant again. Can selector and clutch be well together?
 *
 * @code
 * #include <inttypes.h>
 * #include <stdio.h>
 * #include "leading.h"
 *
 * int main(void)
 * {
 *     static const uint8_t sheet[] = {
 *         0x01, 0x10, 0x20, 0x10, 0x80, 0x00, 0x00, 0x01, 0x88, 0x00,
 *         0x00, 0x00, 0x18, 0x98, 0x10, 0x06, 0x01, 0x04, 0x42, 0x00};
 *     uint64_t mask = LEADING_MASK(0) | LEADING_MASK(1);
 *     uint64_t values = LEADING_CODE(0, 0) | LEADING_CODE(1, 0);
 *     uint8_t shown[LEADING_STATE_BYTES];
 *     uint64_t conflict[LEADING_CONFLICT_WORDS];
 *     uint32_t result[LEADING_ANSWER_WORDS];
 *
 *     uint32_t refused = leading_test(sheet, sizeof sheet, mask, values, 1000000,
 *                                     shown, result, LEADING_ANSWER_WORDS);
 *     if (refused == LEADING_OK) {
 *         printf("%s, %" PRIu32 " trials\n",
 *                leading_test_text(result[LEADING_ANSWER]),
 *                result[LEADING_ANSWER_TRIALS]);
 *         refused = leading_reduce(sheet, sizeof sheet, mask, values, 1000000,
 *                                  conflict, LEADING_CONFLICT_WORDS,
 *                                  result, LEADING_ANSWER_WORDS);
 *     }
 *     if (refused != LEADING_OK) {
 *         printf("refused: %s\n", leading_refusal_text(refused));
 *         return 1;
 *     }
 *     if (result[LEADING_ANSWER] != LEADING_REDUCE_CONFLICT)
 *         return 1;
 *     for (unsigned part = 0; part < LEADING_PARTS(sheet); part++)
 *         if (conflict[LEADING_CONFLICT_MASK] & LEADING_MASK(part))
 *             printf("part %u in state %u\n", part,
 *                    LEADING_VALUE(conflict[LEADING_CONFLICT_VALUES], part));
 *     return 0;
 * }
 * @endcode
 *
 * It prints
 *
 * @output
 * inconsistent, 2 trials
 * part 0 in state 0
 * part 1 in state 0
 * @endoutput
 */
uint32_t leading_reduce(const uint8_t *sheet, size_t sheet_len,
                        uint64_t mask, uint64_t values, uint32_t limit,
                        uint64_t *conflict, size_t conflict_len,
                        uint32_t *result, size_t result_len);

/* ---- Tables ------------------------------------------------------------- */

/*
 * What a sheet of edition 1 says, as tables without gaps and three numbers: parts,
 * hidden variables and clauses. Sheets with weights have no tables here.
 *
 *     sizes     an entry for each variable, its states or values, 1 to 16; parts
 *               first, then hidden variables
 *     costs     an entry for each state of each part: those of part 0 in turn,
 *               then those of part 1, and so on
 *     counts    an entry for each clause, its literals, 0 to 15
 *     literals  three bytes for each literal in reading order: variable, sign (0
 *               equal, 1 unequal), value
 *
 * A sheet has one form: writing the tables that leading_read() gave returns the
 * bytes it was given, and reading what leading_write() wrote returns the tables.
 * That is proved of every call.
 */

/*
 * Writes the sheet of a plant's tables.
 *
 * sizes, sizes_len, costs, costs_len, counts, counts_len, literals, literals_len
 *     The tables; only read. Any numbers are looked at, and any lengths: nothing
 *     is read beyond a table.
 * sheet, sheet_len
 *     Out: the sheet, from place 0 on. At most LEADING_SHEET_BYTES_MOST bytes are
 *     needed. Before: anything. After: bytes behind the sheet unchanged.
 * parts, hidden, clauses
 *     The numbers. sizes_len is parts + hidden, costs_len the sum of the parts'
 *     sizes, counts_len is clauses, and literals_len three times the sum of the
 *     counts; otherwise the call is refused with 16.
 * written
 *     Out: one word, the number of bytes written. After a refusal unchanged.
 *
 * Returns LEADING_OK (0) after the sheet was written; otherwise the number of the
 * refusal, with every buffer as it was: 16; 17 a size, a literal count or a sign
 * out of range; 7, 8 or 9 the numbers; 10 or 11 the first literal, in reading
 * order, whose variable is not there or whose value its variable has not; 18
 * where sheet_len is less than the sheet needs.
 */
uint32_t leading_write(const uint8_t *sizes, size_t sizes_len,
                       const uint16_t *costs, size_t costs_len,
                       const uint8_t *counts, size_t counts_len,
                       const uint8_t *literals, size_t literals_len,
                       uint8_t *sheet, size_t sheet_len,
                       uint32_t parts, uint32_t hidden, uint32_t clauses,
                       uint32_t *written);

/*
 * Reads a sheet into tables, which leading_write() takes as they are.
 *
 * sheet, sheet_len
 *     The plant sheet, of edition 1, as for leading_list.
 * sizes, costs, counts, literals
 *     Out: the tables, each from place 0 on. Each has LEADING_SIZE_ENTRIES,
 *     LEADING_COST_ENTRIES, LEADING_COUNT_ENTRIES and LEADING_LITERAL_BYTES
 *     entries, which the largest plant fills. Before: anything. After: entries
 *     behind a table unchanged.
 * numbers
 *     Out: LEADING_NUMBERS_WORDS words, at the places of enum leading_numbers.
 *
 * Returns LEADING_OK (0) after the tables were written; otherwise the number of
 * the refusal (5 to 13), with every buffer as it was.
 *
 * Example: the small plant again, opened, its clutch's fault made dearer, and
 * written anew.
 *
 * @code
 * #include <inttypes.h>
 * #include <stdio.h>
 * #include "leading.h"
 *
 * static uint8_t sizes[LEADING_SIZE_ENTRIES];
 * static uint16_t costs[LEADING_COST_ENTRIES];
 * static uint8_t counts[LEADING_COUNT_ENTRIES];
 * static uint8_t literals[LEADING_LITERAL_BYTES];
 *
 * int main(void)
 * {
 *     static const uint8_t sheet[] = {
 *         0x01, 0x10, 0x20, 0x10, 0x80, 0x00, 0x00, 0x01, 0x88, 0x00,
 *         0x00, 0x00, 0x18, 0x98, 0x10, 0x06, 0x01, 0x04, 0x42, 0x00};
 *     static uint8_t dearer[LEADING_SHEET_BYTES_MOST];
 *     uint32_t numbers[LEADING_NUMBERS_WORDS], written;
 *
 *     uint32_t refused = leading_read(sheet, sizeof sheet, sizes, costs, counts,
 *                                     literals, numbers);
 *     if (refused != LEADING_OK)
 *         return 1;
 *     uint32_t parts = numbers[LEADING_NUMBER_PARTS];
 *     uint32_t hidden = numbers[LEADING_NUMBER_HIDDEN];
 *     uint32_t clauses = numbers[LEADING_NUMBER_CLAUSES];
 *     size_t prices = 0, bytes = 0;
 *     for (uint32_t part = 0; part < parts; part++)
 *         prices += sizes[part];
 *     for (uint32_t clause = 0; clause < clauses; clause++)
 *         bytes += 3u * counts[clause];
 *
 *     costs[3] = 5;
 *     refused = leading_write(sizes, parts + hidden, costs, prices, counts, clauses,
 *                             literals, bytes, dearer, sizeof dearer,
 *                             parts, hidden, clauses, &written);
 *     if (refused != LEADING_OK) {
 *         printf("refused: %s\n", leading_refusal_text(refused));
 *         return 1;
 *     }
 *     printf("%" PRIu32 " bytes\n", written);
 *     for (uint32_t i = 0; i < written; i++)
 *         if (dearer[i] != sheet[i])
 *             printf("byte %" PRIu32 ": %02x, was %02x\n", i, dearer[i], sheet[i]);
 *     return 0;
 * }
 * @endcode
 *
 * It prints
 *
 * @output
 * 20 bytes
 * byte 12: 28, was 18
 * @endoutput
 */
uint32_t leading_read(const uint8_t *sheet, size_t sheet_len,
                      uint8_t *sizes, uint16_t *costs, uint8_t *counts,
                      uint8_t *literals, uint32_t *numbers);

#ifdef __cplusplus
}
#endif

#endif
