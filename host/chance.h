/* The chance of a state in a form that people read: product / 256^parts to three
 * significant digits, as a percentage where that comes to 1.00% or more (48.1%, 2.70%),
 * below it as one in so many (1 in 43,900). What lies halfway is rounded up. All is
 * done in whole numbers of 64 bits, so that nothing is lost before the rounding.
 */
#ifndef CHANCE_H
#define CHANCE_H

#include "leading.h"

#include <stdio.h>

#define CHANCE_WEIGHT_BITS 8 /* the whole is 2 to the power of 8 for each part */
#define CHANCE_BYTES 40      /* room for the longest text, of 31 bytes, and more */
#define CHANCE_DIGITS_BYTES 28

/* times * product / 2^bits to the nearest whole number; times below 2^32, product below
 * 2^bits. By halves, since times * product may need more than 64 bits. */
static inline uint64_t chance_times(uint64_t product, unsigned bits, uint64_t times)
{
    uint64_t low = (product & UINT32_MAX) * times;
    uint64_t high = (product >> 32) * times + (low >> 32);
    if (bits <= 32)
        return (low + (UINT64_C(1) << (bits - 1))) >> bits;
    return (high + (UINT64_C(1) << (bits - 33))) >> (bits - 32);
}

/* 2^bits / product to the nearest number of three significant digits; product at most
 * 2^bits / 100. Half of 2^bits is divided, since no word holds 2^64. */
static inline uint64_t chance_one_in(uint64_t product, unsigned bits)
{
    uint64_t half = UINT64_C(1) << (bits - 1), unit = 1;
    while (half / (product * unit) >= 500)
        unit *= 10;
    uint64_t divisor = product * unit, rest = 2 * (half % divisor);
    return unit * (2 * (half / divisor) + (2 * rest + divisor) / (2 * divisor));
}

/* The digits in groups of three, up to this end; where they begin. */
static inline const char *chance_grouped(uint64_t number, char *end)
{
    unsigned written = 0;
    *--end = '\0';
    do {
        if (written > 0 && written % 3 == 0)
            *--end = ',';
        *--end = (char)('0' + number % 10);
        number /= 10;
        written++;
    } while (number > 0);
    return end;
}

/* The text of the chance, in CHANCE_BYTES bytes: of a product that a sheet with weights
 * and so many parts has. */
static inline const char *chance_text(char *text, uint64_t product, unsigned parts)
{
    char digits[CHANCE_DIGITS_BYTES];
    unsigned bits = CHANCE_WEIGHT_BITS * parts;
    unsigned tenths = (unsigned)chance_times(product, bits, 1000);
    unsigned hundredths = (unsigned)chance_times(product, bits, 10000);

    if (hundredths >= 1000)
        snprintf(text, CHANCE_BYTES, "%u.%u%%", tenths / 10, tenths % 10);
    else if (hundredths >= 100)
        snprintf(text, CHANCE_BYTES, "%u.%02u%%", hundredths / 100, hundredths % 100);
    else
        snprintf(text, CHANCE_BYTES, "1 in %s",
                 chance_grouped(chance_one_in(product, bits), digits + sizeof digits));
    return text;
}

#endif
