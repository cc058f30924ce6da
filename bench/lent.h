/* The buffers that a host lends to a listing, and files. */
#ifndef BENCH_LENT_H
#define BENCH_LENT_H

#include "calls.h"

enum {
    SPARE = 4,
    LENT_MOST = 65536 + SPARE,
    LENT_BYTES_MOST = 196700 + SPARE
};

/* Lengths are in elements; SPARE ones stand behind each buffer, never lent. */
struct lent {
    size_t codes_len, costs_len, values_len, queue_len, store_len, result_len;
    uint64_t codes[LENT_MOST], queue[LENT_MOST], store[LENT_MOST];
    uint32_t costs[LENT_MOST];
    uint32_t result[RESULT_WORDS + SPARE];
    uint8_t values[LENT_BYTES_MOST];
};

struct settings {
    uint32_t k;
    size_t held;
    uint32_t limit;
};

struct bytes {
    uint8_t *at;
    size_t length;
};

/* Every element its junk (outside/README.md), the spare ones too. */
void fill_with_junk(struct lent *lent);

/* The listing with the lent lengths. */
uint32_t list_lent(list_call *list, struct bytes sheet, struct lent *lent, struct settings s);

/* A whole file; ends the program where it cannot be read. */
struct bytes file_bytes(const char *path);

/* A message to standard error, and the end with status 2. */
_Noreturn void give_up(const char *what, const char *which);

#endif
