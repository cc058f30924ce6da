#include "lent.h"

#include <stdio.h>
#include <stdlib.h>
#include <string.h>

void fill_with_junk(struct lent *lent)
{
    for (size_t i = 0; i < LENT_MOST; i++) {
        lent->codes[i] = UINT64_C(0x1111111111111111) + i;
        lent->costs[i] = UINT32_C(0x22222222);
        lent->queue[i] = UINT64_C(0x3333333333333333) + i;
        lent->store[i] = UINT64_C(0x4444444444444444) + i;
    }
    for (uint32_t i = 0; i < RESULT_WORDS + SPARE; i++)
        lent->result[i] = UINT32_C(0x55555555) + i;
    memset(lent->values, 0x55, sizeof lent->values);
}

uint32_t list_lent(list_call *list, struct bytes sheet, struct lent *lent, struct settings s)
{
    return list(sheet.at, sheet.length, lent->codes, lent->codes_len, lent->costs,
                lent->costs_len, lent->values, lent->values_len, lent->queue, lent->queue_len,
                lent->store, lent->store_len, lent->result, lent->result_len, s.k, s.held,
                s.limit);
}

_Noreturn void give_up(const char *what, const char *which)
{
    fprintf(stderr, "%s: %s\n", what, which);
    exit(2);
}

struct bytes file_bytes(const char *path)
{
    FILE *file = fopen(path, "rb");
    if (!file)
        give_up("cannot open", path);
    struct bytes all = {NULL, 0};
    size_t room = 0, got;
    do {
        if (all.length == room)
            all.at = realloc(all.at, room = 2 * room + 4096);
        if (!all.at)
            give_up("no memory for", path);
        got = fread(all.at + all.length, 1, room - all.length, file);
        all.length += got;
    } while (got);
    fclose(file);
    return all;
}
