/* The whole runs that are timed: a sheet of the corpus, its settings, and its store. */
#ifndef BENCH_WHOLE_H
#define BENCH_WHOLE_H

#include "lent.h"

struct whole {
    const char *name;
    struct settings settings;
    size_t store; /* in entries; offered ones are those of make_conflict() */
};

static const struct whole WHOLE[] = {
    {"driveline-06a", {16, 0, 1000000}, 64}, {"driveline-06b", {16, 0, 1000000}, 64},
    {"driveline-08a", {16, 0, 1000000}, 64}, {"driveline-08b", {16, 0, 1000000}, 64},
    {"driveline-10a", {16, 0, 1000000}, 64}, {"driveline-10b", {16, 0, 1000000}, 64},
    {"driveline-12a", {16, 0, 1000000}, 64}, {"driveline-12b", {16, 0, 1000000}, 64},
    {"driveline-14a", {16, 0, 1000000}, 64}, {"driveline-14b", {16, 0, 1000000}, 64},
    {"driveline-16a", {16, 0, 1000000}, 64}, {"driveline-16b", {16, 0, 1000000}, 64},
    {"driveline-16c", {16, 0, 1000000}, 64}, {"queue-4096", {4096, 0, 0}, 64},
    {"full-4096", {4096, 0, 0}, 64},         {"store-4096", {64, 4096, 1000000}, 4096},
    {"learn-4096", {4096, 0, 1000000}, 4096},
};

#endif
