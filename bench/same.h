/* The design of the proved library, in unproved C: see same.c. */
#ifndef BENCH_SAME_H
#define BENCH_SAME_H

#include "calls.h"

list_call same_list;
test_call same_test;
reduce_call same_reduce;

#endif
