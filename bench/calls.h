/* The C calls that are compared, with the shapes of the project's exports.
 *
 * list: the listing call of docs/SPECIFICATION.md; the refusal's number, or 0
 *   after six result words: ending (1 enough, 2 all, 3 full, 4 spent), listed,
 *   tested, learned, unkept, trials. Of each listed state STATE_BYTES bytes of
 *   values are written, one a variable, zero beyond the variables.
 * test: the test call; the refusal's number, or 0 after two result words:
 *   answer (1 consistent, 2 inconsistent, 3 spent), trials. Fewer than two
 *   result words get refusal 2. STATE_BYTES bytes are shown, as those of a listed
 *   state after 'consistent' and zeros after the other answers.
 * reduce: the reduction called alone, for the checks; the refusal's number, or
 *   0 after two result words: answer (1 none, 2 conflict, 3 spent), trials.
 *   A conflict's two words are written only with answer 2. Fewer than two words
 *   of either buffer get refusal 2.
 */
#ifndef BENCH_CALLS_H
#define BENCH_CALLS_H

#include <stddef.h>
#include <stdint.h>

typedef uint32_t list_call(const uint8_t *sheet, size_t sheet_len,
                           uint64_t *codes, size_t codes_len,
                           uint32_t *costs, size_t costs_len,
                           uint8_t *values, size_t values_len,
                           uint64_t *queue, size_t queue_len,
                           uint64_t *store, size_t store_len,
                           uint32_t *result, size_t result_len,
                           uint32_t k, size_t held, uint32_t limit);

typedef uint32_t test_call(const uint8_t *sheet, size_t sheet_len,
                           uint64_t mask, uint64_t values, uint32_t limit,
                           uint8_t *shown,
                           uint32_t *result, size_t result_len);

typedef uint32_t reduce_call(const uint8_t *sheet, size_t sheet_len,
                             uint64_t mask, uint64_t values, uint32_t limit,
                             uint64_t *conflict, size_t conflict_len,
                             uint32_t *result, size_t result_len);

/* What the specification numbers and bounds. */
enum {
    DECISIONS_MOST = 16,
    STATES_MOST = 32,
    VARIABLES_MOST = DECISIONS_MOST + STATES_MOST,
    STATE_BYTES = VARIABLES_MOST,
    VALUES_MOST = 16,
    CLAUSES_MOST = 512,
    LITERALS_MOST = 15,
    K_MOST = 4096,
    QUEUE_WORDS_MOST = 8192,
    STORE_WORDS_MOST = 8192,
    RESULT_WORDS = 6,
    ANSWER_WORDS = 2,
    CONFLICT_WORDS = 2,
    UNASSIGNED = 16
};

enum ending { GOING_ON, ENOUGH, ALL, FULL, OUT_OF_TRIALS };
enum answer { CONSISTENT = 1, INCONSISTENT, SPENT };

#endif
