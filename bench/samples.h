/* Part of bench.c, which includes it: jobs, their interleaved runs, medians. */

/* ---- jobs and their samples ---- */

/* One call, of a test or, with k not 0, of a listing. */
struct job {
    const struct implementation *own;
    struct bytes sheet;
    struct settings settings;
    size_t queue, store; /* in entries */
    uint64_t mask, values;
};

/* Offered anew before each run; NULL where the store stays as a run leaves it. */
static const uint64_t *offered;

static void run(const struct job *j)
{
    const struct bytes sheet = j->sheet;
    uint32_t refusal;
    if (offered)
        memcpy(lent.store, offered, 2 * j->settings.held * sizeof *offered);
    if (j->settings.k) {
        lent.codes_len = lent.costs_len = j->settings.k;
        lent.values_len = STATE_BYTES * lent.codes_len;
        lent.queue_len = 2 * j->queue;
        lent.store_len = 2 * j->store;
        lent.result_len = RESULT_WORDS;
        refusal = list_lent(j->own->list, sheet, &lent, j->settings);
    } else {
        refusal = j->own->test(sheet.at, sheet.length, j->mask, j->values, j->settings.limit,
                               lent.values, lent.result, 2);
    }
    if (refusal)
        give_up("refused by", j->own->name);
}

static bool can_run(const struct job *j)
{
    return j->settings.k ? j->own->list != NULL : j->own->test != NULL;
}

/* Seconds for one call, over a batch of them. */
static double sample(const struct job *j, unsigned batch)
{
    double start = now();
    for (unsigned i = 0; i < batch; i++)
        run(j);
    return (now() - start) / batch;
}

/* A slow job takes part in the first rounds only; one that cannot run in none. */
struct samples {
    unsigned rounds[JOBS_MOST];
    double seconds[JOBS_MOST][ROUNDS_MOST];
};

/* How many calls make a sample, and in how many rounds. */
static unsigned plan(const struct job *j, unsigned *rounds)
{
    *rounds = 0;
    if (!can_run(j))
        return 0;
    double once = sample(j, 1);
    if (once < BATCH)
        once = sample(j, 1); /* warm */
    unsigned batch = once < BATCH ? (unsigned)(BATCH / once) + 1 : 1;
    double fit = BUDGET / (batch * once);
    *rounds = fit > ROUNDS_MOST ? ROUNDS_MOST : fit < ROUNDS_LEAST ? ROUNDS_LEAST : (unsigned)fit;
    return batch;
}

/* Runs the jobs in turn, round after round, each round from the next job on. */
static void take_samples(const struct job *jobs, unsigned count, struct samples *s)
{
    unsigned batch[JOBS_MOST];
    for (unsigned i = 0; i < count; i++)
        batch[i] = plan(&jobs[i], &s->rounds[i]);
    for (unsigned r = 0; r < ROUNDS_MOST; r++)
        for (unsigned n = 0; n < count; n++) {
            unsigned i = (r + n) % count;
            if (r < s->rounds[i])
                s->seconds[i][r] = sample(&jobs[i], batch[i]);
        }
}

static int compare_doubles(const void *a, const void *b)
{
    double x = *(const double *)a, y = *(const double *)b;
    return (x > y) - (x < y);
}

static double median(const double *values, unsigned count)
{
    double sorted[ROUNDS_MOST];
    if (count == 0)
        return 0;
    memcpy(sorted, values, count * sizeof *sorted);
    qsort(sorted, count, sizeof *sorted, compare_doubles);
    return (sorted[count / 2] + sorted[(count - 1) / 2]) / 2;
}

/* The samples of one implementation, perhaps less others of the same round. */
struct series {
    unsigned count;
    double values[ROUNDS_MOST];
};

/* The median of the ratios within a round: a slower round slows both. */
static double ratio(const struct series *above, const struct series *below)
{
    double ratios[ROUNDS_MOST];
    unsigned count = above->count < below->count ? above->count : below->count;
    for (unsigned r = 0; r < count; r++)
        ratios[r] = above->values[r] / below->values[r];
    return median(ratios, count);
}

/* What a row shows; zeros where ours cannot run. */
struct figures {
    double value[IMPLEMENTATIONS], plain_ours, ours_same, plain_same;
};

/* Over the jobs from `first` on, one for each implementation; with `less` not
 * negative, less those from `less` on. */
static struct figures figures_of(const struct samples *s, int first, int less, double scale)
{
    struct series series[IMPLEMENTATIONS];
    struct figures f;
    for (int i = 0; i < IMPLEMENTATIONS; i++) {
        unsigned count = s->rounds[first + i];
        if (less >= 0 && s->rounds[less + i] < count)
            count = s->rounds[less + i];
        for (unsigned r = 0; r < count; r++)
            series[i].values[r] =
                s->seconds[first + i][r] - (less < 0 ? 0 : s->seconds[less + i][r]);
        series[i].count = count;
        f.value[i] = scale * median(series[i].values, count);
    }
    f.plain_ours = ratio(&series[PLAIN], &series[OURS]);
    f.ours_same = ratio(&series[OURS], &series[SAME]);
    f.plain_same = ratio(&series[PLAIN], &series[SAME]);
    return f;
}

/* The same job for each implementation. */
static void for_each(struct job *jobs, struct job job)
{
    for (int i = 0; i < IMPLEMENTATIONS; i++) {
        jobs[i] = job;
        jobs[i].own = &implementations[i];
    }
}
