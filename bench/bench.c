/* Times ours, plain and same against each other: bench CORPUS_FOLDER.
 *
 * Each figure is a median over rounds, and each ratio the median of the ratios
 * within a round; in every round each implementation runs in turn, so that what
 * disturbs the machine disturbs all alike. The lent buffers are filled with
 * junk once and then lent again as the last run left them: they are never
 * cleared, and the memory is warm. */
#define _POSIX_C_SOURCE 199309L
#include "clock.h"
#include "conflicts.h"
#include "implementations.h"
#include "lent.h"
#include "whole.h"

#include <inttypes.h>
#include <stdbool.h>
#include <stdio.h>
#include <stdlib.h>
#include <string.h>

enum { ROUNDS_LEAST = 9, ROUNDS_MOST = 41, JOBS_MOST = 2 * IMPLEMENTATIONS };
static const double BATCH = 0.4e-3; /* seconds that a sample shall take at least */
static const double BUDGET = 0.1;   /* seconds for a job's samples, where it can be kept */

static struct lent lent;
static const char *folder;

#include "samples.h"

/* ---- tables ---- */

static void heading(const char *title, const char *label, const char *unit)
{
    printf("\n%s\n%-34s %10s %10s %10s   %11s %11s %11s\n", title, label, "plain", "same", "ours",
           "plain/ours", "ours/same", "plain/same");
    printf("%-34s %10s %10s %10s\n", "", unit, unit, unit);
}

static void cell(int width, double value, bool known)
{
    if (known)
        printf(" %*.*f", width, value < 100 ? 2 : 0, value);
    else
        printf(" %*s", width, "-");
}

static void row(const char *label, const struct figures *f)
{
    bool ours = f->value[OURS] != 0;
    printf("%-34s", label);
    for (int i = 0; i < IMPLEMENTATIONS; i++)
        cell(10, f->value[i], i != OURS || ours);
    printf("  ");
    cell(11, f->plain_ours, ours);
    cell(11, f->ours_same, ours);
    cell(11, f->plain_same, true);
    printf("\n");
    fflush(stdout);
}

static struct bytes sheet_named(const char *name)
{
    char path[4096];
    snprintf(path, sizeof path, "%s/%s.sheet", folder, name);
    return file_bytes(path);
}

/* ---- (a) the test ---- */

/* The first conflict that a listing learns, into the job. */
static void take_first_conflict(struct job *job)
{
    struct job listing = {&implementations[SAME], job->sheet, {16, 0, 1000000}, 4096, 64, 0, 0};
    run(&listing);
    job->mask = lent.store[0];
    job->values = lent.store[1];
}

struct tested {
    const char *name;
    bool of_conflict; /* its first conflict; otherwise the empty assignment */
    uint32_t limit;
};

static const struct tested TESTED[] = {
    {"driveline-08b", true, 100000}, {"driveline-10b", true, 100000},
    {"driveline-12b", true, 100000}, {"driveline-14b", true, 100000},
    {"driveline-16c", true, 100000}, {"test-96", false, 100000},
    {"test-512", false, 20000},
};
enum { TESTED_COUNT = sizeof TESTED / sizeof *TESTED };

/* A test call, less the same call with limit 0, over its trials; and the call
 * with limit 0. In nanoseconds and microseconds. */
static void time_test(const struct tested *t, char *label, struct figures *per_trial,
                      struct figures *reading)
{
    struct job jobs[JOBS_MOST], job = {NULL, sheet_named(t->name), {0, 0, t->limit}, 0, 0, 0, 0};
    struct samples s;
    if (t->of_conflict)
        take_first_conflict(&job);
    for_each(jobs, job);
    run(&jobs[PLAIN]);
    uint32_t trials = lent.result[1];
    snprintf(label, 64, "%s, %" PRIu32 " trials", t->name, trials);
    job.settings.limit = 0;
    for_each(jobs + IMPLEMENTATIONS, job);
    take_samples(jobs, JOBS_MOST, &s);
    *per_trial = figures_of(&s, 0, IMPLEMENTATIONS, 1e9 / trials);
    *reading = figures_of(&s, IMPLEMENTATIONS, -1, 1e6);
    free(job.sheet.at);
}

static void table_of_tests(void)
{
    char labels[TESTED_COUNT][64];
    struct figures reading[TESTED_COUNT], per_trial;
    heading("(a) The test: a trial", "plant", "ns");
    for (int i = 0; i < TESTED_COUNT; i++) {
        time_test(&TESTED[i], labels[i], &per_trial, &reading[i]);
        row(labels[i], &per_trial);
    }
    heading("(a') A test call with limit 0: reading the sheet, preparing the test", "plant", "us");
    for (int i = 0; i < TESTED_COUNT; i++)
        row(TESTED[i].name, &reading[i]);
}

/* ---- (b) and (c), between two lengths of the list ---- */

struct counts {
    uint64_t removals, looks;
};

static struct counts count_run(struct job job, uint32_t k)
{
    static const struct implementation counted = {"counted", counted_list, NULL, NULL};
    job.own = &counted;
    job.settings.k = k;
    counted_removals = counted_looks = 0;
    run(&job);
    return (struct counts){counted_removals, counted_looks};
}

/* Two runs that differ in k only; their difference, over its removals. */
static struct figures time_removals(struct job job, uint32_t from, uint32_t to,
                                    struct counts *between)
{
    struct job jobs[JOBS_MOST];
    struct samples s;
    struct counts less = count_run(job, from);
    *between = count_run(job, to);
    between->removals -= less.removals;
    between->looks -= less.looks;
    job.settings.k = to;
    for_each(jobs, job);
    job.settings.k = from;
    for_each(jobs + IMPLEMENTATIONS, job);
    take_samples(jobs, JOBS_MOST, &s);
    return figures_of(&s, 0, IMPLEMENTATIONS, 1e9 / (double)between->removals);
}

struct queued {
    const char *name;
    size_t entries, first, last; /* lent; in the queue at `from` and at `to` */
    uint32_t from, to;
};

static const struct queued QUEUED[] = {
    {"queue-16", 16, 15, 12, 1, 4},
    {"queue-256", 256, 240, 208, 16, 48},
    {"queue-4096", 4096, 3840, 3584, 256, 512},
    {"full-196", 196, 195, 196, 20, 180},
    {"full-4096", 4096, 4095, 4096, 280, 700},
};

static void table_of_queues(void)
{
    heading("(b) The queue: a removal, no clauses, no store", "entries", "ns");
    for (size_t i = 0; i < sizeof QUEUED / sizeof *QUEUED; i++) {
        const struct queued *q = &QUEUED[i];
        struct job job = {NULL, sheet_named(q->name), {0, 0, 1000000}, q->entries, 0, 0, 0};
        struct counts between;
        char label[64];
        struct figures f = time_removals(job, q->from, q->to, &between);
        snprintf(label, sizeof label, "%zu (%zu to %zu), %" PRIu64 " removals", q->entries,
                 q->first, q->last, between.removals);
        row(label, &f);
        free(job.sheet.at);
    }
}

/* Offers so many conflicts, in no order; all survive, so the store stays. */
static void offer_conflicts(uint32_t count)
{
    for (uint32_t i = 0; i < count; i++)
        make_conflict(i * 1009 % 5040, &lent.store[2 * i]);
}

/* The same with each thirteenth without its last member, so that it is contained
 * in up to fifteen others, which come before it and behind it. */
static void make_shortened(uint32_t count, uint64_t *entries)
{
    for (uint32_t i = 0; i < count; i++) {
        uint32_t number = i * 1009 % 5040;
        make_conflict(number, &entries[2 * i]);
        if (number % 13)
            continue;
        entries[2 * i] ^= UINT64_C(1) << 48;
        entries[2 * i + 1] &= ~UINT64_C(15);
    }
}

static void table_of_stores(void)
{
    static const uint32_t counts[] = {0, 64, 4096};
    struct job job = {NULL, sheet_named("store-4096"), {0, 0, 1000000}, 4096, 0, 0, 0};
    heading("(c) The store: a removal, with the scans of it and its children", "entries", "ns");
    for (size_t i = 0; i < sizeof counts / sizeof *counts; i++) {
        struct counts between;
        char label[64];
        job.store = job.settings.held = counts[i];
        offer_conflicts(counts[i]);
        struct figures f = time_removals(job, 3, 30, &between);
        snprintf(label, sizeof label, "%" PRIu32 ", %" PRIu64 " removals", counts[i],
                 between.removals);
        row(label, &f);
        if (counts[i] < 4096)
            continue;
        for (int k = 0; k < IMPLEMENTATIONS; k++)
            f.value[k] *= (double)between.removals / (double)between.looks;
        row("4096, an entry looked at", &f);
    }
    free(job.sheet.at);
}

/* ---- (d) whole runs ---- */

/* One run by each implementation, which shall answer alike; its label. */
static void label_run(const struct job *jobs, const char *name, char *label)
{
    static const char *const endings[] = {"?", "enough", "all", "full", "spent"};
    uint32_t first[RESULT_WORDS];
    for (int i = 0; i < IMPLEMENTATIONS; i++) {
        if (!can_run(&jobs[i]))
            continue;
        run(&jobs[i]);
        if (i == 0)
            memcpy(first, lent.result, sizeof first);
        if (memcmp(first, lent.result, sizeof first))
            give_up("another answer than plain's (make check) on", name);
    }
    snprintf(label, 64, "%s %s %" PRIu32 " (%" PRIu32 ")", name, endings[first[0]], first[1],
             first[5]);
}

/* The run's row, under this name. */
static struct figures time_whole(const struct whole *w, const char *name)
{
    struct job jobs[IMPLEMENTATIONS];
    struct job job = {NULL, sheet_named(w->name), w->settings, 4096, w->store, 0, 0};
    struct samples s;
    char label[64];
    for_each(jobs, job);
    label_run(jobs, name, label);
    take_samples(jobs, IMPLEMENTATIONS, &s);
    struct figures f = figures_of(&s, 0, -1, 1e6);
    row(label, &f);
    free(job.sheet.at);
    return f;
}

/* 4,096 offered, most of which are dropped or pushed out. */
static void time_pushing(void)
{
    static const struct whole pushing = {"store-4096", {64, 4096, 1000000}, 4096};
    static uint64_t shortened[2 * 4096];
    make_shortened(4096, shortened);
    offered = shortened;
    time_whole(&pushing, "store-4096 pushed");
    offered = NULL;
}

static void table_of_runs(void)
{
    struct figures total = {{0}, 0, 0, 0};
    double least = 0, most = 0;
    heading("(d) Whole runs: sheet, ending, listed (trials)", "run", "us");
    for (size_t i = 0; i < sizeof WHOLE / sizeof *WHOLE; i++) {
        const struct whole *w = &WHOLE[i];
        offer_conflicts((uint32_t)w->settings.held);
        struct figures f = time_whole(w, w->name);
        if (strncmp(w->name, "driveline", 9) == 0) {
            for (int k = 0; k < IMPLEMENTATIONS; k++)
                total.value[k] += f.value[k];
            if (least == 0 || f.plain_ours < least)
                least = f.plain_ours;
            if (f.ours_same > most)
                most = f.ours_same;
        }
    }
    time_pushing();
    total.plain_ours = total.value[PLAIN] / total.value[OURS];
    total.ours_same = total.value[OURS] / total.value[SAME];
    total.plain_same = total.value[PLAIN] / total.value[SAME];
    row("all drivelines", &total);
    if (most > 0)
        printf("drivelines: plain/ours at least %.2f, ours/same at most %.2f\n", least, most);
}

/* ---- (g) step 1 ---- */

/* A queue of one entry is full right after step 1, so that a run is its tests and
 * the comparisons of what they find. */
static void table_of_offers(void)
{
    static const uint32_t counts[] = {512, 1024, 2048, 4096};
    struct job jobs[IMPLEMENTATIONS];
    struct job job = {NULL, sheet_named("store-4096"), {1, 0, 1000000}, 1, 4096, 0, 0};
    heading("(g) Step 1: conflicts offered, of which none contains another", "offered", "us");
    for (size_t i = 0; i < sizeof counts / sizeof *counts; i++) {
        struct samples s;
        char label[64];
        job.settings.held = counts[i];
        offer_conflicts(counts[i]);
        for_each(jobs, job);
        snprintf(label, sizeof label, "%" PRIu32, counts[i]);
        take_samples(jobs, IMPLEMENTATIONS, &s);
        struct figures f = figures_of(&s, 0, -1, 1e6);
        row(label, &f);
    }
    free(job.sheet.at);
}

/* ---- (e) a learned conflict ---- */

enum { LEARNED = 64 };

struct sieved {
    const char *name;
    size_t entries; /* in the queue when the first conflict is learned */
    uint32_t k;
};

static const struct sieved SIEVED[] = {{"sieve-196", 196, 47}, {"sieve-4096", 4096, 308}};

/* A run that learns 64 conflicts with members of its own, less the same run
 * with no store, where the same tests are made and nothing is learned. */
static void table_of_learning(void)
{
    heading("(e) A learned conflict: reduction, store, sieve of the queue", "queue", "us");
    for (size_t i = 0; i < sizeof SIEVED / sizeof *SIEVED; i++) {
        const struct sieved *w = &SIEVED[i];
        struct job jobs[JOBS_MOST];
        struct job job = {NULL, sheet_named(w->name), {w->k, 0, 1000000}, w->entries, LEARNED, 0, 0};
        struct samples s;
        char label[64];
        for_each(jobs, job);
        run(&jobs[PLAIN]);
        if (lent.result[3] != LEARNED)
            give_up("other than 64 learned", w->name);
        job.store = 0;
        for_each(jobs + IMPLEMENTATIONS, job);
        take_samples(jobs, JOBS_MOST, &s);
        struct figures f = figures_of(&s, 0, IMPLEMENTATIONS, 1e6 / LEARNED);
        snprintf(label, sizeof label, "%zu to %zu entries", w->entries, w->entries - LEARNED);
        row(label, &f);
        free(job.sheet.at);
    }
}

int main(int count, char **words)
{
    if (count != 2)
        give_up("usage", "bench CORPUS_FOLDER");
    folder = words[1];
    fill_with_junk(&lent);
    printf("Processor time, medians of interleaved runs in one process. The lent buffers were\n"
           "filled with junk once and are lent again as the last run left them: not cleared\n"
           "before a run, and warm.\n");
#ifndef OURS_LIST
    printf("Without ours: make LIB=target/lib/libleading.a links it.\n");
#endif
    table_of_tests();
    table_of_queues();
    table_of_stores();
    table_of_runs();
    table_of_learning();
    table_of_offers();
    return 0;
}
