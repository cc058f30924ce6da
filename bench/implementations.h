/* The implementations under comparison. Ours is there once its archive is
 * linked: the Makefile then defines OURS_LIST, OURS_TEST and OURS_REDUCE. */
#ifndef BENCH_IMPLEMENTATIONS_H
#define BENCH_IMPLEMENTATIONS_H

#include "calls.h"
#include "plain.h"
#include "same.h"

#ifdef OURS_LIST
list_call leading_list;
#else
#define leading_list NULL
#endif
#ifdef OURS_TEST
test_call leading_test;
#else
#define leading_test NULL
#endif
#ifdef OURS_REDUCE
reduce_call leading_reduce;
#else
#define leading_reduce NULL
#endif

enum { PLAIN, SAME, OURS, IMPLEMENTATIONS };

struct implementation {
    const char *name;
    list_call *list; /* NULL where it has none */
    test_call *test;
    reduce_call *reduce;
};

static const struct implementation implementations[IMPLEMENTATIONS] = {
    {"plain", plain_list, plain_test, plain_reduce},
    {"same", same_list, same_test, same_reduce},
    {"ours", leading_list, leading_test, leading_reduce},
};

#endif
