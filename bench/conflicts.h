/* Conflicts to offer to the plant store-4096. */
#ifndef BENCH_CONFLICTS_H
#define BENCH_CONFLICTS_H

#include <stdint.h>

/* One of 5,040 conflicts of the plant store-4096 with members 0 to 6 and 15:
 * one of 4, 5 and 6 has its forbidden last value, the two others any other; 0
 * to 3 have value 0, and 15 any. */
static void make_conflict(uint32_t number, uint64_t *entry)
{
    uint32_t rest = number / 16, at[3];
    if (rest < 45) {
        at[0] = 15, at[1] = rest / 3, at[2] = rest % 3;
    } else if (rest < 90) {
        at[0] = (rest - 45) / 3, at[1] = 15, at[2] = rest % 3;
    } else {
        at[0] = (rest - 90) / 15, at[1] = rest % 15, at[2] = 3;
    }
    entry[0] = UINT64_C(0xfe01) << 48;
    entry[1] = number % 16;
    for (int i = 0; i < 3; i++)
        entry[1] |= (uint64_t)at[i] << (60 - 4 * (4 + i));
}

#endif
