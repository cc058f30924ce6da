/* docs/SPECIFICATION.md in plain C: see plain.c. */
#ifndef BENCH_PLAIN_H
#define BENCH_PLAIN_H

#include "calls.h"

list_call plain_list;
test_call plain_test;
reduce_call plain_reduce;

/* plain_list compiled once more with PLAIN_COUNTS, never timed. It counts what
 * the specification settles for every implementation alike: nodes removed from
 * the queue, and stored conflicts that a node or child was held against. */
list_call counted_list;
extern uint64_t counted_removals, counted_looks;

#endif
