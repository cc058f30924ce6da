/* Times whole listings by two archives in turn: turns CORPUS_FOLDER.
 *
 * `before` is the listing of another archive, whose names the Makefile changes, and
 * `ours` that of the archive under test. Each round runs both; a ratio is the median
 * of those within a round, and stands beside the ratio of the least times. */
#define _POSIX_C_SOURCE 199309L
#include "clock.h"
#include "conflicts.h"
#include "lent.h"
#include "whole.h"

#include <stdio.h>
#include <stdlib.h>
#include <string.h>

list_call leading_list, before_list;

enum { ROUNDS = 31, OFFERED_MOST = 4096, QUEUE_ENTRIES = 4096 };
static const double BATCH = 2e-3; /* seconds that a sample shall take at least */

static struct lent lent;
static uint64_t offered[2 * OFFERED_MOST];

/* Seconds of one run, over a batch of them; what is offered is offered anew each time. */
static double sample(list_call *list, struct bytes sheet, const struct whole *w, unsigned batch)
{
    double seconds = 0;
    for (unsigned i = 0; i < batch; i++) {
        memcpy(lent.store, offered, 2 * w->settings.held * sizeof *offered);
        double start = now();
        if (list_lent(list, sheet, &lent, w->settings))
            give_up("refused", w->name);
        seconds += now() - start;
    }
    return seconds / batch;
}

static int compare(const void *a, const void *b)
{
    double x = *(const double *)a, y = *(const double *)b;
    return (x > y) - (x < y);
}

static void time_both(const char *folder, const struct whole *w)
{
    double before[ROUNDS], ours[ROUNDS], ratio[ROUNDS];
    char path[4096];
    snprintf(path, sizeof path, "%s/%s.sheet", folder, w->name);
    struct bytes sheet = file_bytes(path);
    lent.codes_len = lent.costs_len = w->settings.k;
    lent.values_len = STATE_BYTES * lent.codes_len;
    lent.queue_len = 2 * QUEUE_ENTRIES;
    lent.store_len = 2 * w->store;
    lent.result_len = RESULT_WORDS;
    unsigned batch = 1 + (unsigned)(BATCH / sample(before_list, sheet, w, 1));
    for (int i = 0; i < ROUNDS; i++) {
        before[i] = sample(before_list, sheet, w, batch);
        ours[i] = sample(leading_list, sheet, w, batch);
        ratio[i] = ours[i] / before[i];
    }
    qsort(before, ROUNDS, sizeof *before, compare);
    qsort(ours, ROUNDS, sizeof *ours, compare);
    qsort(ratio, ROUNDS, sizeof *ratio, compare);
    printf("%-16s %10.1f %10.1f   %8.2f %8.2f\n", w->name, 1e6 * before[0], 1e6 * ours[0],
           ratio[ROUNDS / 2], ours[0] / before[0]);
    free(sheet.at);
}

int main(int argc, char **argv)
{
    if (argc != 2)
        give_up("wants the corpus's folder", argv[0]);
    fill_with_junk(&lent);
    for (uint32_t i = 0; i < OFFERED_MOST; i++)
        make_conflict(i * 1009 % 5040, &offered[2 * i]);
    printf("%-16s %10s %10s   %8s %8s\n", "run", "before us", "ours us", "median", "least");
    for (size_t i = 0; i < sizeof WHOLE / sizeof *WHOLE; i++)
        time_both(argv[1], &WHOLE[i]);
    return 0;
}
