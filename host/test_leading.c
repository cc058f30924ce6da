/* leading.h against the runs P1 to P11 of the specification, some with hidden values
 * that are not 0 and some with weights, against tests and reductions, and each refusal:
 * what is returned, and every word and byte of every buffer, those around them too. Then
 * runs that offer what another learned, each call on the other's edition, the longest
 * sheet with weights, the version, the texts, LEADING_PARTS, LEADING_HIDDEN and the
 * chances that the host prints.
 */
#include "leading.h"

#include "chance.h"

#include <stdio.h>
#include <string.h>

#define K_ROOM 4098
#define VALUES_ROOM LEADING_VALUES_BYTES(K_ROOM)
#define QUEUE_ROOM 8194
#define STORE_ROOM 8194
#define RESULT_ROOM 8
#define CONFLICT_ROOM 4
#define JUNK 0x55
#define JUNK64 UINT64_C(0x5555555555555555)
#define JUNK32 UINT32_C(0x55555555)
#define SHEET_ROOM 24
#define UNCHANGED 99 /* a place beyond the sheet: nothing to change there */
#define COUNT(array) (sizeof(array) / sizeof *(array))

static const uint8_t small_plant[SHEET_ROOM] = {
    0x01, 0x10, 0x20, 0x10, 0x80, 0x00, 0x00, 0x01, 0x88, 0x00,
    0x00, 0x00, 0x18, 0x98, 0x10, 0x06, 0x01, 0x04, 0x42, 0x00};

/* One part of two states, costs 0 and 2, and two hidden variables, of four values and
 * of two. Part 0 in state 1 keeps variable 1 from its value 0, and no value of
 * variable 2 goes with its value 1; part 0 in state 0 has variable 2 at 1. */
static const uint8_t shafts_plant[SHEET_ROOM] = {
    0x01, 0x08, 0x40, 0x20, 0x80, 0x00, 0x00, 0x01, 0x18, 0x90, 0x11, 0x06,
    0x04, 0x0c, 0x42, 0x09, 0x03, 0x10, 0x80, 0x40, 0x40, 0x20, 0x80};

/* The small plant with weights, 240 and 16 of the selector, 224 and 32 of the clutch. */
static const uint8_t weights_plant[SHEET_ROOM] = {
    0x02, 0x10, 0x20, 0x10, 0xf8, 0x08, 0x0f, 0x01,
    0x00, 0x98, 0x10, 0x06, 0x01, 0x04, 0x42, 0x00};

/* Two parts and no clause: weights 2 and 6, 3 and 9, so that two products are equal. */
static const uint8_t tied_plant[SHEET_ROOM] = {
    0x02, 0x10, 0x00, 0x00, 0x81, 0x03, 0x08, 0x18, 0x48};

/* Two parts, of two states and of three, every weight 5, and the clause that the second
 * is not in its state 0. With that offered a node leaves the first part open, and what
 * comes next goes by the lowest of its equal values. */
static const uint8_t even_plant[SHEET_ROOM] = {
    0x02, 0x10, 0x00, 0x08, 0x82, 0x82, 0x90, 0x28, 0x28, 0x28, 0x83, 0x00};

/* Eight parts of one state, weight 255, but the first also has one of weight 100. The
 * greater product takes all 64 bits, and the other one's top bit is 0. */
static const uint8_t great_plant[SHEET_ROOM] = {
    0x02, 0x40, 0x00, 0x00, 0xb2, 0x7f, 0x87, 0xf8, 0x7f,
    0x87, 0xf8, 0x7f, 0x87, 0xf8, 0x7f, 0x87, 0xf8};
#define SQUARE(number) ((uint64_t)(number) * (number))
#define TO_THE_4TH SQUARE(SQUARE(LEADING_WEIGHT_MOST))
#define TO_THE_7TH (TO_THE_4TH * SQUARE(LEADING_WEIGHT_MOST) * LEADING_WEIGHT_MOST)

/* The states that fit, in order, with their costs or products, and the values of all
 * variables. */
#define STATES_MOST 4
#define VARIABLES_MOST 3
struct states {
    uint64_t codes[STATES_MOST];
    uint64_t figures[STATES_MOST];
    uint8_t values[STATES_MOST][VARIABLES_MOST];
};
static const struct states of_small = {
    {LEADING_CODE(0, 0) | LEADING_CODE(1, 1), LEADING_CODE(0, 1) | LEADING_CODE(1, 0),
     LEADING_CODE(0, 1) | LEADING_CODE(1, 1)},
    {3, 3, 6},
    {{0, 1, 0}, {1, 0, 0}, {1, 1, 0}}};
static const struct states of_turning = {
    {0, LEADING_CODE(1, 1), LEADING_CODE(0, 1), LEADING_CODE(0, 1) | LEADING_CODE(1, 1)},
    {0, 3, 3, 6},
    {{0, 0, 1}, {0, 1, 1}, {1, 0, 1}, {1, 1, 1}}};
static const struct states of_shafts = {
    {0, LEADING_CODE(0, 1)}, {0, 2}, {{0, 0, 1}, {1, 2, 0}}};

static const struct states of_weights = {
    {LEADING_CODE(0, 0) | LEADING_CODE(1, 1), LEADING_CODE(0, 1) | LEADING_CODE(1, 0),
     LEADING_CODE(0, 1) | LEADING_CODE(1, 1)},
    {240 * 32, 16 * 224, 16 * 32},
    {{0, 1, 0}, {1, 0, 0}, {1, 1, 0}}};
static const struct states of_tied = {
    {LEADING_CODE(0, 1) | LEADING_CODE(1, 1), LEADING_CODE(1, 1), LEADING_CODE(0, 1), 0},
    {6 * 9, 2 * 9, 6 * 3, 2 * 3},
    {{1, 1, 0}, {0, 1, 0}, {1, 0, 0}, {0, 0, 0}}};
static const struct states of_even = {
    {LEADING_CODE(1, 1), LEADING_CODE(1, 2), LEADING_CODE(0, 1) | LEADING_CODE(1, 1),
     LEADING_CODE(0, 1) | LEADING_CODE(1, 2)},
    {25, 25, 25, 25},
    {{0, 1, 0}, {0, 2, 0}, {1, 1, 0}, {1, 2, 0}}};
static const struct states of_great = {
    {LEADING_CODE(0, 1), 0}, {SQUARE(TO_THE_4TH), 100 * TO_THE_7TH}, {{1, 0, 0}, {0, 0, 0}}};

struct change {
    size_t place;
    uint8_t byte;
};

/* A sheet: a plant's with two bytes changed, and so many bytes of it. */
struct given {
    const uint8_t *plant;
    struct change first, second;
    size_t length;
};

#define AS_IT_IS {small_plant, {UNCHANGED, 0}, {UNCHANGED, 0}, 20}
#define EMPTY_CLAUSE {small_plant, {3, 0x18}, {UNCHANGED, 0}, 21}
/* The second clause now is: the selector is not in state 1. */
#define NEVER_ONE {small_plant, {18, 0x40}, {19, 0x88}, 20}
/* The second clause now is: the drive has value 1. */
#define TURNING {small_plant, {19, 0x08}, {UNCHANGED, 0}, 20}
#define SHAFTS {shafts_plant, {UNCHANGED, 0}, {UNCHANGED, 0}, 23}
#define NO_SHEET {small_plant, {UNCHANGED, 0}, {UNCHANGED, 0}, 0}
#define WEIGHTS {weights_plant, {UNCHANGED, 0}, {UNCHANGED, 0}, 16}
#define WEIGHTS_EMPTY_CLAUSE {weights_plant, {3, 0x18}, {UNCHANGED, 0}, 17}
/* The second clause now is: the selector is not in state 1. */
#define WEIGHTS_NEVER_ONE {weights_plant, {14, 0x40}, {15, 0x88}, 16}
#define TIED {tied_plant, {UNCHANGED, 0}, {UNCHANGED, 0}, 9}
#define EVEN {even_plant, {UNCHANGED, 0}, {UNCHANGED, 0}, 12}
#define GREAT {great_plant, {UNCHANGED, 0}, {UNCHANGED, 0}, 17}

#define SELECTOR LEADING_MASK(0)
#define CLUTCH LEADING_MASK(1)
#define BOTH (SELECTOR | CLUTCH)
#define ZERO LEADING_CODE(0, 0)
#define ONE LEADING_CODE(0, 1)
#define BOTH_ONE (LEADING_CODE(0, 1) | LEADING_CODE(1, 1))

/* The listing call: its own edition's plants go to each. */
enum lister { BY_COST, BY_PRODUCT };

struct counts {
    uint32_t k;
    size_t codes, figures, values, queue, store, result, held;
};
static const struct counts usual = {16, 16, 16, 768, 8192, 128, 6, 0};
static const struct counts short_values = {16, 16, 16, 767, 8192, 128, 6, 0};

/* Runs: what is asked, the states of which it lists the first, and the result words
 * and the store's first mask after. */
static const struct run {
    const char *name;
    struct given given;
    struct counts counts;
    uint64_t offer[2];
    uint32_t limit;
    const struct states *states;
    uint32_t result[LEADING_RESULT_WORDS];
    uint64_t mask;
} runs[] = {
    {"P1", AS_IT_IS, {16, 16, 16, 768, 8192, 128, 6, 0}, {0, 0}, 1000000, &of_small,
     {2, 3, 4, 1, 0, 15}, BOTH},
    {"P2", AS_IT_IS, {1, 1, 1, 48, 8192, 128, 6, 0}, {0, 0}, 1000000, &of_small,
     {1, 1, 2, 1, 0, 13}, BOTH},
    {"P3", AS_IT_IS, {3, 4, 5, 145, 8192, 128, 8, 0}, {0, 0}, 1000000, &of_small,
     {2, 3, 4, 1, 0, 15}, BOTH},
    {"one fewer than P3", AS_IT_IS, {2, 4, 5, 144, 8192, 128, 8, 0}, {0, 0}, 1000000, &of_small,
     {1, 2, 3, 1, 0, 14}, BOTH},
    {"one more than P3", AS_IT_IS, {4, 4, 5, 192, 8192, 128, 8, 0}, {0, 0}, 1000000, &of_small,
     {2, 3, 4, 1, 0, 15}, BOTH},
    {"the greatest k", AS_IT_IS, {4096, 4096, 4096, 196608, 8192, 128, 6, 0}, {0, 0}, 1000000,
     &of_small, {2, 3, 4, 1, 0, 15}, BOTH},
    {"the longest buffers", AS_IT_IS, {1, K_ROOM, K_ROOM, VALUES_ROOM, 8192, 8192, RESULT_ROOM, 0},
     {0, 0}, 1000000, &of_small, {1, 1, 2, 1, 0, 13}, BOTH},
    {"none fits, k 1", EMPTY_CLAUSE, {1, 1, 1, 48, 8192, 128, 6, 0}, {0, 0}, 1000000, &of_small,
     {2, 0, 1, 1, 0, 0}, 0},
    {"P4 queue of 2", AS_IT_IS, {16, 16, 16, 768, 4, 128, 6, 0}, {0, 0}, 1000000, &of_small,
     {3, 0, 0, 0, 0, 0}, 0},
    {"P4 queue of 3", AS_IT_IS, {16, 16, 16, 768, 6, 128, 6, 0}, {0, 0}, 1000000, &of_small,
     {2, 3, 4, 1, 0, 15}, BOTH},
    {"P5 limit 14", AS_IT_IS, {16, 16, 16, 768, 8192, 128, 6, 0}, {0, 0}, 14, &of_small,
     {4, 2, 3, 1, 0, 14}, BOTH},
    {"P5 limit 15", AS_IT_IS, {16, 16, 16, 768, 8192, 128, 6, 0}, {0, 0}, 15, &of_small,
     {2, 3, 4, 1, 0, 15}, BOTH},
    {"P5 limit 5", AS_IT_IS, {16, 16, 16, 768, 8192, 128, 6, 0}, {0, 0}, 5, &of_small,
     {4, 0, 1, 0, 0, 5}, 0},
    {"P6", AS_IT_IS, {16, 16, 16, 768, 8192, 128, 6, 1}, {BOTH, 0}, 1000000, &of_small,
     {2, 3, 3, 0, 0, 5}, BOTH},
    {"P7", AS_IT_IS, {16, 16, 16, 768, 8192, 128, 6, 1}, {SELECTOR, ONE}, 1000000, &of_small,
     {2, 3, 4, 1, 0, 17}, BOTH},
    {"P8", EMPTY_CLAUSE, {16, 16, 16, 768, 8192, 128, 6, 0}, {0, 0}, 1000000, &of_small,
     {2, 0, 1, 1, 0, 0}, 0},
    {"P9", EMPTY_CLAUSE, {16, 16, 16, 768, 8192, 0, 6, 0}, {0, 0}, 1000000, &of_small,
     {2, 0, 4, 0, 4, 0}, 0},

    {"turning", TURNING, {16, 16, 16, 768, 8192, 128, 6, 0}, {0, 0}, 1000000, &of_turning,
     {2, 4, 4, 0, 0, 8}, 0},
    {"turning, k 2", TURNING, {2, 2, 2, 96, 8192, 128, 6, 0}, {0, 0}, 1000000, &of_turning,
     {1, 2, 2, 0, 0, 4}, 0},
    {"turning, limit 5", TURNING, {16, 16, 16, 768, 8192, 128, 6, 0}, {0, 0}, 5, &of_turning,
     {4, 2, 2, 0, 0, 5}, 0},
    {"shafts", SHAFTS, {16, 16, 16, 768, 8192, 128, 6, 0}, {0, 0}, 1000000, &of_shafts,
     {2, 2, 2, 0, 0, 9}, 0},
    {"shafts, limit 8", SHAFTS, {16, 16, 16, 768, 8192, 128, 6, 0}, {0, 0}, 8, &of_shafts,
     {4, 1, 1, 0, 0, 8}, 0},
    {"shafts, an offer that fits", SHAFTS, {16, 16, 16, 768, 8192, 128, 6, 1}, {SELECTOR, ONE},
     1000000, &of_shafts, {2, 2, 2, 0, 0, 15}, 0},

    {"weights", WEIGHTS, {16, 16, 16, 768, 8192, 128, 6, 0}, {0, 0}, 1000000, &of_weights,
     {2, 3, 4, 1, 0, 15}, BOTH},
    {"weights, k 1", WEIGHTS, {1, 1, 1, 48, 8192, 128, 6, 0}, {0, 0}, 1000000, &of_weights,
     {1, 1, 2, 1, 0, 13}, BOTH},
    {"weights, k 2", WEIGHTS, {2, 4, 5, 144, 8192, 128, 8, 0}, {0, 0}, 1000000, &of_weights,
     {1, 2, 3, 1, 0, 14}, BOTH},
    {"weights, k 3", WEIGHTS, {3, 4, 5, 145, 8192, 128, 8, 0}, {0, 0}, 1000000, &of_weights,
     {2, 3, 4, 1, 0, 15}, BOTH},
    {"weights, the longest buffers", WEIGHTS,
     {4096, K_ROOM, K_ROOM, VALUES_ROOM, 8192, 8192, RESULT_ROOM, 0}, {0, 0}, 1000000, &of_weights,
     {2, 3, 4, 1, 0, 15}, BOTH},
    {"weights, queue of 2", WEIGHTS, {16, 16, 16, 768, 4, 128, 6, 0}, {0, 0}, 1000000, &of_weights,
     {3, 0, 0, 0, 0, 0}, 0},
    {"weights, limit 14", WEIGHTS, {16, 16, 16, 768, 8192, 128, 6, 0}, {0, 0}, 14, &of_weights,
     {4, 2, 3, 1, 0, 14}, BOTH},
    {"weights, limit 5", WEIGHTS, {16, 16, 16, 768, 8192, 128, 6, 0}, {0, 0}, 5, &of_weights,
     {4, 0, 1, 0, 0, 5}, 0},
    {"weights, an offer", WEIGHTS, {16, 16, 16, 768, 8192, 128, 6, 1}, {BOTH, 0}, 1000000,
     &of_weights, {2, 3, 3, 0, 0, 5}, BOTH},
    {"weights, an offer that fits", WEIGHTS, {16, 16, 16, 768, 8192, 128, 6, 1}, {SELECTOR, ONE},
     1000000, &of_weights, {2, 3, 4, 1, 0, 17}, BOTH},
    {"weights, none fits, no store", WEIGHTS_EMPTY_CLAUSE, {16, 16, 16, 768, 8192, 0, 6, 0}, {0, 0},
     1000000, &of_weights, {2, 0, 4, 0, 4, 0}, 0},
    {"tied", TIED, {16, 16, 16, 768, 8192, 128, 6, 0}, {0, 0}, 0, &of_tied, {2, 4, 4, 0, 0, 0}, 0},
    {"tied, k 2", TIED, {2, 2, 2, 96, 8192, 128, 6, 0}, {0, 0}, 0, &of_tied, {1, 2, 2, 0, 0, 0}, 0},
    {"even", EVEN, {16, 16, 16, 768, 8192, 128, 6, 0}, {0, 0}, 3, &of_even, {2, 4, 5, 1, 0, 3},
     CLUTCH},
    {"even, an offer", EVEN, {16, 16, 16, 768, 8192, 128, 6, 1}, {CLUTCH, ZERO}, 0, &of_even,
     {2, 4, 4, 0, 0, 0}, CLUTCH},
    {"even, an offer, k 2", EVEN, {2, 2, 2, 96, 8192, 128, 6, 1}, {CLUTCH, ZERO}, 0, &of_even,
     {1, 2, 2, 0, 0, 0}, CLUTCH},
    {"great", GREAT, {16, 16, 16, 768, 8192, 128, 6, 0}, {0, 0}, 0, &of_great, {2, 2, 2, 0, 0, 0},
     0},
};

static const struct refused_host {
    struct counts counts;
    uint32_t refused;
} refused_hosts[] = {
    {{0, 16, 16, 768, 8192, 128, 6, 0}, LEADING_BAD_K},
    {{4097, 16, 16, 768, 8192, 128, 6, 0}, LEADING_BAD_K},
    {{0, 16, 16, 0, 8192, 128, 6, 0}, LEADING_BAD_K},
    {{4097, 4097, 4097, 196655, 8192, 128, 6, 0}, LEADING_BAD_K},
    {{16, 15, 16, 768, 8192, 128, 6, 0}, LEADING_BAD_OUTPUT},
    {{16, 16, 15, 768, 8192, 128, 6, 0}, LEADING_BAD_OUTPUT},
    {{16, 16, 16, 768, 8192, 128, 5, 0}, LEADING_BAD_OUTPUT},
    {{16, 15, 16, 767, 8192, 128, 6, 0}, LEADING_BAD_OUTPUT},
    {{16, 16, 15, 767, 8192, 128, 6, 0}, LEADING_BAD_OUTPUT},
    {{16, 16, 16, 767, 8192, 128, 5, 0}, LEADING_BAD_OUTPUT},
    {{16, 16, 16, 767, 8192, 128, 6, 0}, LEADING_BAD_VALUES_ROOM},
    {{16, 16, 16, 16, 8192, 128, 6, 0}, LEADING_BAD_VALUES_ROOM},
    {{16, 16, 16, 0, 8192, 128, 6, 0}, LEADING_BAD_VALUES_ROOM},
    {{1, 1, 1, 47, 8192, 128, 6, 0}, LEADING_BAD_VALUES_ROOM},
    {{4096, 4096, 4096, 196607, 8192, 128, 6, 0}, LEADING_BAD_VALUES_ROOM},
    {{4096, 4096, 4096, 0, 8192, 128, 6, 0}, LEADING_BAD_VALUES_ROOM},
    {{16, 16, 16, 767, 3, 128, 6, 0}, LEADING_BAD_VALUES_ROOM},
    {{16, 16, 16, 767, 8192, 127, 6, 65}, LEADING_BAD_VALUES_ROOM},
    {{16, 16, 16, 768, 0, 128, 6, 0}, LEADING_BAD_QUEUE},
    {{16, 16, 16, 768, 3, 128, 6, 0}, LEADING_BAD_QUEUE},
    {{16, 16, 16, 768, 8194, 128, 6, 0}, LEADING_BAD_QUEUE},
    {{16, 16, 16, 768, 8192, 127, 6, 0}, LEADING_BAD_STORE},
    {{16, 16, 16, 768, 8192, 8194, 6, 0}, LEADING_BAD_STORE},
    {{16, 16, 16, 768, 8192, 128, 6, 65}, LEADING_BAD_STORE},
};

static const struct refused_sheet {
    struct given given;
    uint32_t refused;
} refused_sheets[] = {
    {{small_plant, {UNCHANGED, 0}, {UNCHANGED, 0}, 0}, LEADING_SHEET_SHORT},
    {{small_plant, {UNCHANGED, 0}, {UNCHANGED, 0}, 19}, LEADING_SHEET_SHORT},
    {{small_plant, {0, 0x03}, {1, 0x00}, 20}, LEADING_SHEET_EDITION},
    {{small_plant, {0, 0x00}, {UNCHANGED, 0}, 20}, LEADING_SHEET_EDITION},
    {{small_plant, {1, 0x00}, {UNCHANGED, 0}, 20}, LEADING_SHEET_PARTS},
    {{small_plant, {1, 0x88}, {UNCHANGED, 0}, 20}, LEADING_SHEET_PARTS},
    {{small_plant, {1, 0x14}, {UNCHANGED, 0}, 20}, LEADING_SHEET_HIDDEN},
    {{small_plant, {2, 0x30}, {3, 0x08}, 20}, LEADING_SHEET_CLAUSES},
    {{small_plant, {14, 0x70}, {UNCHANGED, 0}, 20}, LEADING_SHEET_VARIABLE},
    {{small_plant, {14, 0x12}, {UNCHANGED, 0}, 20}, LEADING_SHEET_VALUE},
    {{small_plant, {19, 0x01}, {UNCHANGED, 0}, 21}, LEADING_SHEET_FILLER},
    {{small_plant, {UNCHANGED, 0}, {UNCHANGED, 0}, 21}, LEADING_SHEET_LONG},

    {{weights_plant, {UNCHANGED, 0}, {UNCHANGED, 0}, 0}, LEADING_SHEET_SHORT},
    {{weights_plant, {UNCHANGED, 0}, {UNCHANGED, 0}, 15}, LEADING_SHEET_SHORT},
    {{weights_plant, {0, 0x03}, {4, 0x80}, 16}, LEADING_SHEET_EDITION},
    {{weights_plant, {0, 0x00}, {UNCHANGED, 0}, 16}, LEADING_SHEET_EDITION},
    {{weights_plant, {1, 0x00}, {UNCHANGED, 0}, 16}, LEADING_SHEET_PARTS},
    {{weights_plant, {1, 0x48}, {4, 0x80}, 16}, LEADING_SHEET_PARTS},
    {{weights_plant, {1, 0x80}, {UNCHANGED, 0}, 16}, LEADING_SHEET_PARTS},
    {{weights_plant, {1, 0x14}, {UNCHANGED, 0}, 16}, LEADING_SHEET_HIDDEN},
    {{weights_plant, {2, 0x30}, {3, 0x08}, 16}, LEADING_SHEET_CLAUSES},
    {{weights_plant, {4, 0x80}, {UNCHANGED, 0}, 16}, LEADING_SHEET_WEIGHT},
    {{weights_plant, {5, 0x00}, {UNCHANGED, 0}, 16}, LEADING_SHEET_WEIGHT},
    {{weights_plant, {6, 0x08}, {UNCHANGED, 0}, 16}, LEADING_SHEET_WEIGHT},
    {{weights_plant, {7, 0x00}, {UNCHANGED, 0}, 16}, LEADING_SHEET_WEIGHT},
    {{weights_plant, {7, 0x00}, {10, 0x70}, 16}, LEADING_SHEET_WEIGHT},
    {{weights_plant, {7, 0x00}, {15, 0x01}, 17}, LEADING_SHEET_WEIGHT},
    {{weights_plant, {4, 0x80}, {UNCHANGED, 0}, 8}, LEADING_SHEET_WEIGHT},
    {{weights_plant, {7, 0x00}, {UNCHANGED, 0}, 8}, LEADING_SHEET_SHORT},
    {{weights_plant, {10, 0x70}, {UNCHANGED, 0}, 16}, LEADING_SHEET_VARIABLE},
    {{weights_plant, {10, 0x12}, {UNCHANGED, 0}, 16}, LEADING_SHEET_VALUE},
    {{weights_plant, {15, 0x01}, {UNCHANGED, 0}, 17}, LEADING_SHEET_FILLER},
    {{weights_plant, {UNCHANGED, 0}, {UNCHANGED, 0}, 17}, LEADING_SHEET_LONG},
};

#define OFFERS_MOST 2

/* Two runs, the second with what leading_held() says of the first: the words that the
 * first leaves in the store, behind which are zeros, that number, and the second's
 * result words. On the empty clause's sheet no state fits, and the conflict that is
 * learned has mask 0. */
static const struct offered {
    const char *name;
    struct given given;
    uint64_t offers[LEADING_STORE_WORDS(OFFERS_MOST)];
    size_t offered, entries;
    uint32_t limit;
    uint64_t left[LEADING_STORE_WORDS(OFFERS_MOST)];
    size_t held;
    uint32_t result[LEADING_RESULT_WORDS];
} offered_runs[] = {
    {"held", AS_IT_IS, {0}, 0, 64, 1000000, {BOTH, ZERO}, 1, {2, 3, 3, 0, 0, 5}},
    {"held, limit 5", AS_IT_IS, {0}, 0, 64, 5, {0}, 0, {2, 3, 4, 1, 0, 15}},
    {"held, store of 1", AS_IT_IS, {0}, 0, 1, 1000000, {BOTH, ZERO}, 1, {2, 3, 3, 0, 0, 5}},
    {"held, mask 0 is no conflict", AS_IT_IS, {0, 0}, 1, 64, 1000000, {BOTH, ZERO}, 1,
     {2, 3, 3, 0, 0, 5}},
    {"held, none fits", EMPTY_CLAUSE, {0}, 0, 64, 1000000, {0}, 1, {2, 0, 0, 0, 0, 0}},
    {"held, none fits, mask 0", EMPTY_CLAUSE, {0, 0}, 1, 64, 1000000, {0}, 1, {2, 0, 0, 0, 0, 0}},
    {"held, none fits, one offer", EMPTY_CLAUSE, {SELECTOR, ZERO}, 1, 64, 1000000, {0}, 1,
     {2, 0, 0, 0, 0, 0}},
    {"held, none fits, all offered", EMPTY_CLAUSE, {SELECTOR, ZERO, SELECTOR, ONE}, 2, 64, 1000000,
     {SELECTOR, ZERO, SELECTOR, ONE}, 2, {2, 0, 0, 0, 0, 0}},
    {"held, none fits, store of 1", EMPTY_CLAUSE, {SELECTOR, ZERO}, 1, 1, 1000000, {SELECTOR, ZERO},
     1, {2, 0, 2, 0, 2, 0}},
    {"held, none fits, no store", EMPTY_CLAUSE, {0}, 0, 0, 1000000, {0}, 0, {2, 0, 4, 0, 4, 0}},
    {"equal offers", AS_IT_IS, {BOTH, ZERO, BOTH, ZERO}, 2, 64, 1000000, {BOTH, ZERO}, 1,
     {2, 3, 3, 0, 0, 5}},
    {"the longer offer first", NEVER_ONE, {BOTH, BOTH_ONE, SELECTOR, ONE}, 2, 64, 1000000,
     {SELECTOR, ONE}, 1, {2, 2, 2, 0, 0, 3}},
    {"the longer offer last", NEVER_ONE, {SELECTOR, ONE, BOTH, BOTH_ONE}, 2, 64, 1000000,
     {SELECTOR, ONE}, 1, {2, 2, 2, 0, 0, 3}},
    {"pushed out by a learned one", NEVER_ONE, {BOTH, BOTH_ONE}, 1, 64, 1000000, {SELECTOR, ONE}, 1,
     {2, 2, 2, 0, 0, 3}},
    {"a full store pushes nothing out", NEVER_ONE, {BOTH, BOTH_ONE}, 1, 1, 1000000,
     {BOTH, BOTH_ONE}, 1, {2, 2, 3, 0, 1, 3}},
    {"weights, held", WEIGHTS, {0}, 0, 64, 1000000, {BOTH, ZERO}, 1, {2, 3, 3, 0, 0, 5}},
    {"weights, held, none fits", WEIGHTS_EMPTY_CLAUSE, {0}, 0, 64, 1000000, {0}, 1,
     {2, 0, 0, 0, 0, 0}},
    {"weights, pushed out by a learned one", WEIGHTS_NEVER_ONE, {BOTH, BOTH_ONE}, 1, 64, 1000000,
     {SELECTOR, ONE}, 1, {2, 2, 2, 0, 0, 3}},
};

enum call { TEST, REDUCE, CALLS };

/* What a test or reduction is asked; the buffers in words. */
struct question {
    uint64_t mask, values;
    uint32_t limit;
    size_t conflict, result;
};

/* Tests and reductions: what is asked, and what is written; a conflict only after
 * LEADING_REDUCE_CONFLICT, and values by a test alone, zeros unless it is consistent. */
static const struct answered {
    const char *name;
    enum call call;
    struct given given;
    struct question question;
    uint32_t result[LEADING_ANSWER_WORDS];
    uint64_t conflict[LEADING_CONFLICT_WORDS];
    uint8_t shown[VARIABLES_MOST];
} answers[] = {
    {"test both", TEST, AS_IT_IS, {BOTH, ZERO, 1000000, 2, 2}, {2, 2}, {0, 0}, {0}},
    {"test both, limit 2", TEST, AS_IT_IS, {BOTH, ZERO, 2, 2, 3}, {2, 2}, {0, 0}, {0}},
    {"test both, limit 1", TEST, AS_IT_IS, {BOTH, ZERO, 1, 2, 8}, {3, 1}, {0, 0}, {0}},
    {"test both, limit 0", TEST, AS_IT_IS, {BOTH, ZERO, 0, 2, 2}, {3, 0}, {0, 0}, {0}},
    {"test both at fault", TEST, AS_IT_IS, {BOTH, BOTH_ONE, 1, 0, 2}, {1, 1}, {0, 0}, {1, 1, 0}},
    {"test none", TEST, AS_IT_IS, {0, 0, 6, 0, 2}, {1, 6}, {0, 0}, {0, 1, 0}},
    {"test none, limit 5", TEST, AS_IT_IS, {0, 0, 5, 0, 2}, {3, 5}, {0, 0}, {0}},
    {"test selector", TEST, AS_IT_IS, {SELECTOR, ZERO, UINT32_MAX, 0, 2}, {1, 5}, {0, 0},
     {0, 1, 0}},
    {"test clutch", TEST, AS_IT_IS, {CLUTCH, LEADING_CODE(1, 1), 9, 0, 2}, {1, 2}, {0, 0},
     {0, 1, 0}},
    {"test false clause", TEST, NEVER_ONE, {SELECTOR, ONE, 0, 0, 2}, {2, 0}, {0, 0}, {0}},
    {"test empty clause", TEST, EMPTY_CLAUSE, {0, 0, 0, 0, 2}, {2, 0}, {0, 0}, {0}},
    {"test turning", TEST, TURNING, {0, 0, 4, 0, 2}, {1, 4}, {0, 0}, {0, 0, 1}},
    {"test turning, all", TEST, TURNING, {BOTH, BOTH_ONE, 2, 0, 2}, {1, 2}, {0, 0}, {1, 1, 1}},
    {"test turning, limit 3", TEST, TURNING, {0, 0, 3, 0, 2}, {3, 3}, {0, 0}, {0}},
    {"test shafts", TEST, SHAFTS, {0, 0, 100, 0, 2}, {1, 4}, {0, 0}, {0, 0, 1}},
    {"test shafts, all", TEST, SHAFTS, {SELECTOR, ONE, 6, 0, 2}, {1, 6}, {0, 0}, {1, 2, 0}},
    {"test shafts, limit 5", TEST, SHAFTS, {SELECTOR, ONE, 5, 0, 2}, {3, 5}, {0, 0}, {0}},

    {"reduce both", REDUCE, AS_IT_IS, {BOTH, ZERO, 1000000, 2, 2}, {2, 12}, {BOTH, ZERO}, {0}},
    {"reduce both, limit 12", REDUCE, AS_IT_IS, {BOTH, ZERO, 12, 3, 3}, {2, 12}, {BOTH, ZERO}, {0}},
    {"reduce both, limit 11", REDUCE, AS_IT_IS, {BOTH, ZERO, 11, 4, 8}, {3, 11}, {0, 0}, {0}},
    {"reduce both, limit 2", REDUCE, AS_IT_IS, {BOTH, ZERO, 2, 2, 2}, {3, 2}, {0, 0}, {0}},
    {"reduce both, limit 1", REDUCE, AS_IT_IS, {BOTH, ZERO, 1, 2, 2}, {3, 1}, {0, 0}, {0}},
    {"reduce both, limit 0", REDUCE, AS_IT_IS, {BOTH, ZERO, 0, 2, 2}, {3, 0}, {0, 0}, {0}},
    {"reduce both at fault", REDUCE, AS_IT_IS, {BOTH, BOTH_ONE, 1, 2, 2}, {1, 1}, {0, 0}, {0}},
    {"reduce selector", REDUCE, AS_IT_IS, {SELECTOR, ZERO, 5, 2, 2}, {1, 5}, {0, 0}, {0}},
    {"reduce none", REDUCE, AS_IT_IS, {0, 0, 6, 2, 2}, {1, 6}, {0, 0}, {0}},
    {"reduce to selector", REDUCE, NEVER_ONE, {BOTH, BOTH_ONE, 2, 4, 4}, {2, 2}, {SELECTOR, ONE},
     {0}},
    {"reduce to selector, limit 1", REDUCE, NEVER_ONE, {BOTH, BOTH_ONE, 1, 2, 2}, {3, 1}, {0, 0},
     {0}},
    {"reduce empty clause", REDUCE, EMPTY_CLAUSE, {BOTH, BOTH_ONE, 0, 2, 2}, {2, 0}, {0, 0}, {0}},

    {"test weights", TEST, WEIGHTS, {BOTH, ZERO, 1000000, 2, 2}, {2, 2}, {0, 0}, {0}},
    {"test weights, limit 1", TEST, WEIGHTS, {BOTH, ZERO, 1, 2, 8}, {3, 1}, {0, 0}, {0}},
    {"test weights, none", TEST, WEIGHTS, {0, 0, 6, 0, 2}, {1, 6}, {0, 0}, {0, 1, 0}},
    {"test weights, empty clause", TEST, WEIGHTS_EMPTY_CLAUSE, {0, 0, 0, 0, 2}, {2, 0}, {0, 0},
     {0}},
    {"reduce weights", REDUCE, WEIGHTS, {BOTH, ZERO, 12, 3, 3}, {2, 12}, {BOTH, ZERO}, {0}},
    {"reduce weights, limit 11", REDUCE, WEIGHTS, {BOTH, ZERO, 11, 4, 8}, {3, 11}, {0, 0}, {0}},
    {"reduce weights, none", REDUCE, WEIGHTS, {0, 0, 6, 2, 2}, {1, 6}, {0, 0}, {0}},
    {"reduce weights to selector", REDUCE, WEIGHTS_NEVER_ONE, {BOTH, BOTH_ONE, 2, 4, 4}, {2, 2},
     {SELECTOR, ONE}, {0}},
};

/* Of tests and reductions, where the sheet is not the ground. A short conflict is
 * no ground for a test. */
static const struct refused_question {
    struct given given;
    struct question question;
    uint32_t refused[CALLS];
} refused_questions[] = {
    {AS_IT_IS, {BOTH, ZERO, 100, 2, 0}, {LEADING_BAD_OUTPUT, LEADING_BAD_OUTPUT}},
    {AS_IT_IS, {BOTH, ZERO, 100, 2, 1}, {LEADING_BAD_OUTPUT, LEADING_BAD_OUTPUT}},
    {NO_SHEET, {1, 1, 0, 4, 1}, {LEADING_BAD_OUTPUT, LEADING_BAD_OUTPUT}},
    {NO_SHEET, {BOTH, ZERO, 100, 0, 2}, {LEADING_SHEET_SHORT, LEADING_BAD_OUTPUT}},
    {NO_SHEET, {BOTH, ZERO, 100, 1, 8}, {LEADING_SHEET_SHORT, LEADING_BAD_OUTPUT}},
    {AS_IT_IS, {1, 1, 0, 1, 2}, {LEADING_BAD_MASK, LEADING_BAD_OUTPUT}},
    {AS_IT_IS, {LEADING_MASK(2), 0, 100, 2, 2}, {LEADING_BAD_MASK, LEADING_BAD_MASK}},
    {AS_IT_IS, {1, 0, 0, 4, 8}, {LEADING_BAD_MASK, LEADING_BAD_MASK}},
    {AS_IT_IS, {UINT64_MAX, UINT64_MAX, 0, 2, 2}, {LEADING_BAD_MASK, LEADING_BAD_MASK}},
    {AS_IT_IS, {SELECTOR, LEADING_CODE(0, 2), 100, 2, 2}, {LEADING_BAD_VALUES, LEADING_BAD_VALUES}},
    {AS_IT_IS, {SELECTOR, LEADING_CODE(1, 1), 100, 2, 2}, {LEADING_BAD_VALUES, LEADING_BAD_VALUES}},
    {AS_IT_IS, {BOTH, LEADING_CODE(2, 1), 100, 2, 2}, {LEADING_BAD_VALUES, LEADING_BAD_VALUES}},
    {AS_IT_IS, {0, 1, 0, 4, 8}, {LEADING_BAD_VALUES, LEADING_BAD_VALUES}},
    {WEIGHTS, {BOTH, ZERO, 100, 2, 1}, {LEADING_BAD_OUTPUT, LEADING_BAD_OUTPUT}},
    {WEIGHTS, {LEADING_MASK(2), 0, 100, 2, 2}, {LEADING_BAD_MASK, LEADING_BAD_MASK}},
    {WEIGHTS, {SELECTOR, LEADING_CODE(0, 2), 100, 2, 2}, {LEADING_BAD_VALUES, LEADING_BAD_VALUES}},
};

/* Each lent buffer begins behind one word or byte, and ends before another. */
static struct lent {
    uint64_t codes[K_ROOM + 2], products[K_ROOM + 2];
    uint64_t queue[QUEUE_ROOM + 2], store[STORE_ROOM + 2];
    uint64_t conflict[CONFLICT_ROOM + 2];
    uint32_t costs[K_ROOM + 2], result[RESULT_ROOM + 2];
    uint8_t values[VALUES_ROOM + 2], shown[LEADING_STATE_BYTES + 2];
} now, before;

static uint8_t sheet[SHEET_ROOM];
static int failures;
static unsigned refusals; /* tried */

static void expect(int holds, const char *name, const char *what)
{
    if (holds)
        return;
    failures++;
    printf("test_leading: %s: %s\n", name, what);
}

/* Junk, and this sheet. */
static void give(const struct given *g)
{
    memset(&now, JUNK, sizeof now);
    memcpy(sheet, g->plant, sizeof sheet);
    if (g->first.place < sizeof sheet)
        sheet[g->first.place] = g->first.byte;
    if (g->second.place < sizeof sheet)
        sheet[g->second.place] = g->second.byte;
}

static enum lister lister_of(const struct given *g)
{
    return g->plant[0] == LEADING_EDITION_WEIGHTS ? BY_PRODUCT : BY_COST;
}

static uint32_t call(enum lister lister, const struct counts *c, size_t length, uint32_t limit)
{
    memcpy(&before, &now, sizeof now);
    if (lister == BY_PRODUCT)
        return leading_list_weights(sheet, length, now.codes + 1, c->codes, now.products + 1,
                                    c->figures, now.values + 1, c->values, now.queue + 1,
                                    c->queue, now.store + 1, c->store, now.result + 1, c->result,
                                    c->k, c->held, limit);
    return leading_list(sheet, length, now.codes + 1, c->codes, now.costs + 1, c->figures,
                        now.values + 1, c->values, now.queue + 1, c->queue, now.store + 1,
                        c->store, now.result + 1, c->result, c->k, c->held, limit);
}

static int all64(const uint64_t *words, size_t from, size_t to, uint64_t word)
{
    for (; from < to; from++)
        if (words[from] != word)
            return 0;
    return 1;
}

static int all32(const uint32_t *words, size_t from, size_t to, uint32_t word)
{
    for (; from < to; from++)
        if (words[from] != word)
            return 0;
    return 1;
}

static int all8(const uint8_t *bytes, size_t from, size_t to, uint8_t byte)
{
    for (; from < to; from++)
        if (bytes[from] != byte)
            return 0;
    return 1;
}

/* Of costs and products the lister's own are written, and none of the other's. */
static void expect_list(const char *name, enum lister lister, const struct states *s, size_t listed)
{
    size_t costs = lister == BY_COST ? listed : 0, products = lister == BY_COST ? 0 : listed;
    expect(now.codes[0] == JUNK64 && now.costs[0] == JUNK32 && now.products[0] == JUNK64, name,
           "word before the list");
    expect(!memcmp(now.codes + 1, s->codes, 8 * listed), name, "codes");
    for (size_t i = 0; i < costs; i++)
        expect(now.costs[i + 1] == s->figures[i], name, "costs");
    expect(!memcmp(now.products + 1, s->figures, 8 * products), name, "products");
    expect(all64(now.codes, listed + 1, K_ROOM + 2, JUNK64), name, "codes beyond listed");
    expect(all32(now.costs, costs + 1, K_ROOM + 2, JUNK32), name, "costs beyond listed");
    expect(all64(now.products, products + 1, K_ROOM + 2, JUNK64), name, "products beyond listed");
}

static void expect_values(const char *name, const struct states *s, size_t listed)
{
    expect(now.values[0] == JUNK, name, "byte before the values");
    for (size_t i = 0; i < listed; i++) {
        const uint8_t *state = now.values + 1 + LEADING_VALUE_PLACE(i, 0);
        expect(!memcmp(state, s->values[i], VARIABLES_MOST), name, "values");
        expect(all8(state, VARIABLES_MOST, LEADING_STATE_BYTES, 0), name,
               "values beyond the variables");
    }
    expect(all8(now.values, LEADING_VALUES_BYTES(listed) + 1, VALUES_ROOM + 2, JUNK), name,
           "values beyond listed");
    expect(all8(now.shown, 0, LEADING_STATE_BYTES + 2, JUNK), name, "bytes not lent");
}

static void expect_work(const char *name, const struct run *r)
{
    size_t queue = r->counts.queue, store = r->counts.store;
    expect(now.queue[0] == JUNK64 && now.store[0] == JUNK64, name, "word before");
    expect(all64(now.queue, 1, queue + 1, 0), name, "queue is not zero");
    expect(all64(now.queue, queue + 1, QUEUE_ROOM + 2, JUNK64), name, "beyond the queue");
    expect(store == 0 || now.store[1] == r->mask, name, "store's first mask");
    expect(all64(now.store, 2, store + 1, 0), name, "store's other words");
    expect(all64(now.store, store + 1, STORE_ROOM + 2, JUNK64), name, "beyond the store");
}

static void test_run(const struct run *r)
{
    give(&r->given);
    if (r->counts.held > 0)
        memcpy(now.store + 1, r->offer, sizeof r->offer);
    expect(call(lister_of(&r->given), &r->counts, r->given.length, r->limit) == LEADING_OK, r->name,
           "refused");
    expect(now.result[0] == JUNK32 && !memcmp(now.result + 1, r->result, sizeof r->result) &&
               all32(now.result, LEADING_RESULT_WORDS + 1, RESULT_ROOM + 2, JUNK32),
           r->name, "result words");
    expect_list(r->name, lister_of(&r->given), r->states, r->result[LEADING_LISTED]);
    expect_values(r->name, r->states, r->result[LEADING_LISTED]);
    expect_work(r->name, r);
}

static void expect_left(const char *name, const uint64_t *left, size_t store)
{
    size_t words = LEADING_STORE_WORDS(OFFERS_MOST) < store ? LEADING_STORE_WORDS(OFFERS_MOST) : store;
    expect(!memcmp(now.store + 1, left, words * sizeof *left), name, "the store's entries");
    expect(all64(now.store, words + 1, store + 1, 0), name, "the store behind them");
}

static void test_offered(const struct offered *o)
{
    struct counts counts = usual;
    enum lister lister = lister_of(&o->given);
    counts.store = LEADING_STORE_WORDS(o->entries);
    counts.held = o->offered;
    give(&o->given);
    memcpy(now.store + 1, o->offers, LEADING_STORE_WORDS(o->offered) * sizeof *o->offers);
    expect(call(lister, &counts, o->given.length, o->limit) == LEADING_OK, o->name, "refused");
    expect_left(o->name, o->left, counts.store);
    counts.held = leading_held(now.store + 1, counts.store, now.result + 1);
    expect(counts.held == o->held, o->name, "another number");
    expect(call(lister, &counts, o->given.length, 1000000) == LEADING_OK, o->name, "refused again");
    expect(!memcmp(now.result + 1, o->result, sizeof o->result), o->name, "result words");
}

static void test_refusal(enum lister lister, const struct given *g, const struct counts *c,
                         uint32_t refused)
{
    char name[48];
    snprintf(name, sizeof name, "%s, refusal %u", lister == BY_COST ? "costs" : "weights",
             (unsigned)refused);
    refusals++;
    give(g);
    expect(call(lister, c, g->length, 1000000) == refused, name, "another answer");
    expect(!memcmp(&now, &before, sizeof now), name, "a buffer changed");
}

static uint32_t ask(enum call call, const struct question *q, size_t length)
{
    memcpy(&before, &now, sizeof now);
    if (call == TEST)
        return leading_test(sheet, length, q->mask, q->values, q->limit, now.shown + 1,
                            now.result + 1, q->result);
    return leading_reduce(sheet, length, q->mask, q->values, q->limit, now.conflict + 1,
                          q->conflict, now.result + 1, q->result);
}

static void test_answer(const struct answered *a)
{
    int found = a->call == REDUCE && a->result[LEADING_ANSWER] == LEADING_REDUCE_CONFLICT;
    give(&a->given);
    expect(ask(a->call, &a->question, a->given.length) == LEADING_OK, a->name, "refused");
    expect(!memcmp(now.result + 1, a->result, sizeof a->result), a->name, "result words");
    memcpy(before.result + 1, a->result, sizeof a->result);
    if (found)
        memcpy(before.conflict + 1, a->conflict, sizeof a->conflict);
    if (a->call == TEST) {
        memset(before.shown + 1, 0, LEADING_STATE_BYTES);
        memcpy(before.shown + 1, a->shown, sizeof a->shown);
    }
    expect(!memcmp(now.conflict, before.conflict, sizeof now.conflict), a->name, "conflict");
    expect(!memcmp(now.shown, before.shown, sizeof now.shown), a->name, "values shown");
    expect(!memcmp(&now, &before, sizeof now), a->name, "another word changed");
}

static void test_refused_call(enum call call, const struct given *g, const struct question *q,
                              uint32_t refused)
{
    char name[48];
    snprintf(name, sizeof name, "%s, refusal %u", call == TEST ? "test" : "reduce",
             (unsigned)refused);
    refusals++;
    give(g);
    expect(ask(call, q, g->length) == refused, name, "another answer");
    expect(!memcmp(&now, &before, sizeof now), name, "a buffer changed");
}

/* The host's refusals come before a sheet's: short values are the ground on any. */
static void test_listings(void)
{
    static const struct given well = AS_IT_IS, well_weighed = WEIGHTS;
    for (size_t i = 0; i < COUNT(runs); i++)
        test_run(&runs[i]);
    for (size_t i = 0; i < COUNT(offered_runs); i++)
        test_offered(&offered_runs[i]);
    for (size_t i = 0; i < COUNT(refused_hosts); i++) {
        const struct refused_host *r = &refused_hosts[i];
        test_refusal(BY_COST, &well, &r->counts, r->refused);
        test_refusal(BY_PRODUCT, &well_weighed, &r->counts, r->refused);
    }
    for (size_t i = 0; i < COUNT(refused_sheets); i++) {
        const struct given *g = &refused_sheets[i].given;
        test_refusal(lister_of(g), g, &usual, refused_sheets[i].refused);
        test_refusal(lister_of(g), g, &short_values, LEADING_BAD_VALUES_ROOM);
    }
}

/* Each listing call takes its own edition; 6 comes before what else is wrong, and behind
 * the host's. */
static void test_editions(void)
{
    static const struct given costs[] = {AS_IT_IS, TURNING, SHAFTS,
                                         {small_plant, {1, 0x00}, {UNCHANGED, 0}, 1}};
    static const struct given weights[] = {WEIGHTS, TIED, GREAT,
                                           {weights_plant, {1, 0x00}, {UNCHANGED, 0}, 1}};
    for (size_t i = 0; i < COUNT(costs); i++) {
        test_refusal(BY_PRODUCT, &costs[i], &usual, LEADING_SHEET_EDITION);
        test_refusal(BY_PRODUCT, &costs[i], &short_values, LEADING_BAD_VALUES_ROOM);
    }
    for (size_t i = 0; i < COUNT(weights); i++) {
        test_refusal(BY_COST, &weights[i], &usual, LEADING_SHEET_EDITION);
        test_refusal(BY_COST, &weights[i], &short_values, LEADING_BAD_VALUES_ROOM);
    }
}

/* A store goes from a run of one call to one of the other, on the same plant but for its
 * figures, and back. */
static void test_handed_on(void)
{
    static const struct given given[] = {AS_IT_IS, WEIGHTS, AS_IT_IS};
    static const uint32_t results[][LEADING_RESULT_WORDS] = {
        {2, 3, 4, 1, 0, 15}, {2, 3, 3, 0, 0, 5}, {2, 3, 3, 0, 0, 5}};
    uint64_t store[COUNT(now.store)];
    struct counts counts = usual;
    memset(store, JUNK, sizeof store);
    for (size_t i = 0; i < COUNT(given); i++) {
        give(&given[i]);
        memcpy(now.store, store, sizeof store);
        expect(call(lister_of(&given[i]), &counts, given[i].length, 1000000) == LEADING_OK,
               "handed on", "refused");
        expect(!memcmp(now.result + 1, results[i], sizeof results[i]), "handed on", "result words");
        memcpy(store, now.store, sizeof store);
        counts.held = leading_held(store + 1, counts.store, now.result + 1);
        expect(counts.held == 1, "handed on", "another number");
    }
}

static void put(uint8_t *bytes, size_t *bit, unsigned width, unsigned field)
{
    for (; width > 0; width--, ++*bit)
        if (field >> (width - 1) & 1)
            bytes[*bit / 8] |= (uint8_t)(0x80 >> *bit % 8);
}

/* The longest sheet with weights: all of the most, each clause of literals on the last
 * variable. */
static size_t write_longest(uint8_t *bytes)
{
    size_t bit = 0;
    put(bytes, &bit, 8, LEADING_EDITION_WEIGHTS);
    put(bytes, &bit, 5, LEADING_PARTS_MOST_WEIGHTS);
    put(bytes, &bit, 6, LEADING_HIDDEN_MOST);
    put(bytes, &bit, 10, LEADING_CLAUSES_MOST);
    for (unsigned part = 0; part < LEADING_PARTS_MOST_WEIGHTS; part++) {
        put(bytes, &bit, 4, LEADING_VALUES_MOST - 1);
        for (unsigned value = 0; value < LEADING_VALUES_MOST; value++)
            put(bytes, &bit, 8, LEADING_WEIGHT_MOST - value);
    }
    for (unsigned hidden = 0; hidden < LEADING_HIDDEN_MOST; hidden++)
        put(bytes, &bit, 4, LEADING_VALUES_MOST - 1);
    for (unsigned clause = 0; clause < LEADING_CLAUSES_MOST; clause++) {
        put(bytes, &bit, 4, LEADING_LITERALS_MOST);
        for (unsigned literal = 0; literal < LEADING_LITERALS_MOST; literal++)
            put(bytes, &bit, 11, (LEADING_PARTS_MOST_WEIGHTS + LEADING_HIDDEN_MOST - 1) << 5);
    }
    return (bit + 7) / 8;
}

/* Every value is 0 at the first try: 8 trials for the parts and 32 for what is hidden. */
static void test_longest(void)
{
    static uint8_t bytes[LEADING_SHEET_BYTES_MOST_WEIGHTS + 1];
    uint32_t result[LEADING_ANSWER_WORDS];
    uint8_t shown[LEADING_STATE_BYTES];
    size_t length = write_longest(bytes);
    expect(length == LEADING_SHEET_BYTES_MOST_WEIGHTS, "longest", "number of bytes");
    expect(leading_test(bytes, length, 0, 0, 40, shown, result, LEADING_ANSWER_WORDS) == LEADING_OK,
           "longest", "refused");
    expect(result[LEADING_ANSWER] == LEADING_TEST_CONSISTENT && result[LEADING_ANSWER_TRIALS] == 40,
           "longest", "another answer");
    expect(leading_test(bytes, length + 1, 0, 0, 40, shown, result, LEADING_ANSWER_WORDS) ==
               LEADING_SHEET_LONG,
           "longest", "one byte more");
    expect(leading_test(bytes, length - 1, 0, 0, 40, shown, result, LEADING_ANSWER_WORDS) ==
               LEADING_SHEET_SHORT,
           "longest", "one byte fewer");
}

/* A sheet's refusals come before those of mask and values, so these are wrong. */
static void test_calls(void)
{
    static const struct question wrong = {1, 1, 100, 2, 2};
    for (size_t i = 0; i < COUNT(answers); i++)
        test_answer(&answers[i]);
    for (int call = TEST; call < CALLS; call++) {
        for (size_t i = 0; i < COUNT(refused_questions); i++) {
            const struct refused_question *r = &refused_questions[i];
            test_refused_call((enum call)call, &r->given, &r->question, r->refused[call]);
        }
        for (size_t i = 0; i < COUNT(refused_sheets); i++)
            test_refused_call((enum call)call, &refused_sheets[i].given, &wrong,
                              refused_sheets[i].refused);
    }
}

#if LEADING_VERSION_NUMBER == 0
#error "no version that #if can read"
#endif

static void test_version(void)
{
    char text[32];
    snprintf(text, sizeof text, "%d.%d.%d", LEADING_VERSION_MAJOR, LEADING_VERSION_MINOR,
             LEADING_VERSION_PATCH);
    expect(!strcmp(text, LEADING_VERSION), "version", "number and text differ");
    expect(LEADING_VERSION_NUMBER >> 16 == LEADING_VERSION_MAJOR &&
               (LEADING_VERSION_NUMBER >> 8 & 255) == LEADING_VERSION_MINOR &&
               (LEADING_VERSION_NUMBER & 255) == LEADING_VERSION_PATCH,
           "version", "LEADING_VERSION_NUMBER");
    expect(leading_version() == LEADING_VERSION_NUMBER, "version", "the archive has another");
}

/* Of each number a text, none twice; of any other "unknown". */
static void test_refusal_texts(void)
{
    static const uint32_t others[] = {LEADING_SHEET_WEIGHT + 1, 99, UINT32_MAX};
    for (uint32_t i = LEADING_OK; i <= LEADING_SHEET_WEIGHT; i++) {
        expect(strcmp(leading_refusal_text(i), "unknown") != 0, "texts", "a refusal has none");
        for (uint32_t j = LEADING_OK; j < i; j++)
            expect(strcmp(leading_refusal_text(i), leading_refusal_text(j)) != 0, "texts",
                   "two refusals have one");
    }
    for (size_t i = 0; i < COUNT(others); i++)
        expect(!strcmp(leading_refusal_text(others[i]), "unknown"), "texts", "of no refusal");
}

static void test_texts(void)
{
    static const char *const endings[] = {"unknown", "enough", "all", "full", "spent", "unknown"};
    static const char *const tests[] = {"unknown", "consistent", "inconsistent", "spent",
                                        "unknown"};
    static const char *const reductions[] = {"unknown", "none", "conflict", "spent", "unknown"};
    for (uint32_t i = 0; i < COUNT(endings); i++)
        expect(!strcmp(leading_ending_text(i), endings[i]), "texts", "an ending's");
    for (uint32_t i = 0; i < COUNT(tests); i++)
        expect(!strcmp(leading_test_text(i), tests[i]), "texts", "a test's");
    for (uint32_t i = 0; i < COUNT(reductions); i++)
        expect(!strcmp(leading_reduce_text(i), reductions[i]), "texts", "a reduction's");
}

static void test_parts(void)
{
    uint8_t bytes[2] = {LEADING_EDITION, 0};
    expect(LEADING_PARTS(small_plant) == 2, "LEADING_PARTS", "of the small plant");
    for (unsigned parts = 0; parts < 32; parts++) {
        bytes[1] = (uint8_t)(parts << 3 | 7);
        const signed char *as_signed = (const signed char *)bytes;
        expect(LEADING_PARTS(bytes) == parts, "LEADING_PARTS", "of bytes");
        expect(LEADING_PARTS(as_signed) == parts, "LEADING_PARTS", "of signed bytes");
    }
}

/* The bits around the number are ones. */
static void test_hidden(void)
{
    uint8_t bytes[3] = {LEADING_EDITION, 0, 0};
    expect(LEADING_HIDDEN(small_plant) == 1, "LEADING_HIDDEN", "of the small plant");
    expect(LEADING_HIDDEN(shafts_plant) == 2, "LEADING_HIDDEN", "of the shafts");
    for (unsigned hidden = 0; hidden < 64; hidden++) {
        bytes[1] = (uint8_t)(0xf8 | hidden >> 3);
        bytes[2] = (uint8_t)((hidden & 7) << 5 | 0x1f);
        const signed char *as_signed = (const signed char *)bytes;
        expect(LEADING_HIDDEN(bytes) == hidden, "LEADING_HIDDEN", "of bytes");
        expect(LEADING_HIDDEN(as_signed) == hidden, "LEADING_HIDDEN", "of signed bytes");
    }
    expect(LEADING_VALUE_PLACE(0, 47) == 47 && LEADING_VALUE_PLACE(1, 0) == 48 &&
               LEADING_VALUE_PLACE(4095, 47) + 1 == LEADING_VALUES_BYTES(LEADING_K_MOST),
           "LEADING_VALUE_PLACE", "another place");
}

/* Of a product and a number of parts; at the edges of each form, and where rounding
 * carries. */
static void test_chances(void)
{
    static const struct chance {
        uint64_t product;
        unsigned parts;
        const char *text;
    } chances[] = {
        {255, 1, "99.6%"},         {SQUARE(TO_THE_4TH), 8, "96.9%"},
        {128, 1, "50.0%"},         {26, 1, "10.2%"},
        {6551, 2, "10.0%"},        {6549, 2, "9.99%"},
        {656, 2, "1.00%"},         {653, 2, "1.00%"},
        {652, 2, "1 in 101"},      {512, 2, "1 in 128"},
        {3, 1, "1.17%"},           {2, 1, "1 in 128"},
        {1, 1, "1 in 256"},        {66, 2, "1 in 993"},
        {65, 2, "1 in 1,010"},     {16785, 3, "1 in 1,000"},
        {1u << 24, 8, "1 in 1,100,000,000,000"},
        {1, 8, "1 in 18,400,000,000,000,000,000"},
    };
    char text[CHANCE_BYTES];
    for (size_t i = 0; i < COUNT(chances); i++)
        expect(!strcmp(chance_text(text, chances[i].product, chances[i].parts), chances[i].text),
               chances[i].text, "another chance");
}

int main(void)
{
    test_listings();
    test_editions();
    test_handed_on();
    test_longest();
    test_calls();
    test_version();
    test_refusal_texts();
    test_texts();
    test_parts();
    test_hidden();
    test_chances();
    printf("test_leading: %zu runs, %zu with offers, %zu tests and reductions, %u refusals, "
           "%d failures\n",
           COUNT(runs), COUNT(offered_runs), COUNT(answers), refusals, failures);
    return failures == 0 ? 0 : 1;
}
