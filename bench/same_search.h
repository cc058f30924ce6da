/* Part of same.c: assignments, the consistency test on sets of clauses, the
 * reduction. */

/* ---- sets of clauses ---- */

typedef uint64_t set[SET_WORDS];

/* What a test needs of a plant, built once. */
struct sets {
    set satisfied[VARIABLES_MOST][VALUES_MOST]; /* by the variable at the value */
    set mentioning[VARIABLES_MOST];
};

static void add(uint64_t *row, size_t clause)
{
    row[clause / 64] |= UINT64_C(1) << (clause % 64);
}

static void join(uint64_t *into, const uint64_t *row)
{
    for (size_t i = 0; i < SET_WORDS; i++)
        into[i] |= row[i];
}

/* Puts the clause into the rows of the values at which the literal holds. */
static void mark(set *rows, const uint8_t *triple, size_t size, size_t clause)
{
    if (triple[1] == 0) {
        add(rows[triple[2]], clause);
        return;
    }
    for (size_t x = 0; x < size; x++)
        if (x != triple[2])
            add(rows[x], clause);
}

static void build_sets(const struct tables *t, struct sets *s)
{
    memset(s->satisfied, 0, t->variables * sizeof s->satisfied[0]);
    memset(s->mentioning, 0, t->variables * sizeof s->mentioning[0]);
    const uint8_t *triple = t->literals;
    for (size_t c = 0; c < t->clauses; c++)
        for (size_t i = 0; i < t->counts[c]; i++, triple += 3) {
            size_t v = triple[0];
            add(s->mentioning[v], c);
            mark(s->satisfied[v], triple, t->sizes[v], c);
        }
}

/* ---- assignments ---- */

static uint64_t bit(size_t v)
{
    return UINT64_C(1) << (63 - v);
}

static uint64_t nibble(size_t v, uint64_t x)
{
    return x << (60 - 4 * v);
}

/* A mask's sixteen top bits, each widened to four. */
static uint64_t widen(uint64_t mask)
{
    uint64_t w = mask >> 48;
    w = (w | w << 24) & UINT64_C(0x000000ff000000ff);
    w = (w | w << 12) & UINT64_C(0x000f000f000f000f);
    w = (w | w << 6) & UINT64_C(0x0303030303030303);
    w = (w | w << 3) & UINT64_C(0x1111111111111111);
    return w * 15;
}

/* Refusal 14 or 15, or 0. */
static uint32_t ill_formed(const struct tables *t, uint64_t mask, uint64_t values)
{
    if (mask << t->decisions)
        return 14;
    if (values & ~widen(mask))
        return 15;
    for (size_t v = 0; v < t->decisions; v++)
        if ((values >> (60 - 4 * v) & 15) >= t->sizes[v])
            return 15;
    return 0;
}

/* ---- consistency test ---- */

/* A set of the first 128 clauses. */
struct pair {
    uint64_t first, second;
};

/* At an unassigned variable: its size, the next one, and the clauses due. Once
 * values are found, its value is in place of its size. */
struct row {
    size_t size, next;
    struct pair due;
};

/* Of the last search from an unassigned variable on that found no values: the
 * clauses that it went by, which of these were satisfied, and its trials. */
struct note {
    struct pair needs, held;
    uint64_t trials;
};

/* In place of trials: nothing is noted. */
static const uint64_t NONE = UINT64_C(1) << 32;

/* The rows and notes of the unassigned variables. */
struct plan {
    struct row rows[VARIABLES_MOST];
    size_t end; /* the number of variables */
    struct note notes[VARIABLES_MOST];
};

/* Made once for a run; each test writes what it reads of the last three, and
 * nothing is cleared in between. */
struct search {
    const struct tables *tables;
    const struct sets *sets;
    uint32_t trials, limit;
    uint8_t values[VARIABLES_MOST];
    struct plan plan;        /* for at most 128 clauses */
    set due[VARIABLES_MOST]; /* for more: clauses whose largest unassigned variable it is */
};

static struct pair with_row(struct pair p, const uint64_t *row)
{
    return (struct pair){p.first | row[0], p.second | row[1]};
}

static struct pair with_pair(struct pair p, struct pair q)
{
    return (struct pair){p.first | q.first, p.second | q.second};
}

static bool is_in(struct pair p, size_t clause)
{
    return clause < 128 && (clause < 64 ? p.first : p.second) >> (clause % 64) & 1;
}

/* Whether the word has each of its first n bits. */
static bool has_low(uint64_t word, size_t n)
{
    if (n < 64)
        return (~word & ((UINT64_C(1) << n) - 1)) == 0;
    return n == 64 && word == UINT64_MAX;
}

/* Whether the set has each of the first n clauses. */
static bool has_all(struct pair p, size_t n)
{
    if (n <= 64)
        return has_low(p.first, n);
    return has_low(p.first, 64) && has_low(p.second, n - 64);
}

static bool clause_is_false(const uint8_t *part, size_t count, const uint8_t *values)
{
    for (size_t i = 0; i < count; i++, part += 3) {
        uint8_t x = values[part[0]];
        if (x == UNASSIGNED || (x == part[2]) != (part[1] == 1))
            return false;
    }
    return true;
}

/* The first question of a test, by a scan of the literals; a clause in `clear`
 * has an unassigned variable or is satisfied. */
static bool some_clause_is_false(const struct tables *t, const uint8_t *values, struct pair clear)
{
    if (has_all(clear, t->clauses))
        return false;
    const uint8_t *part = t->literals;
    for (size_t c = 0; c < t->clauses; c++) {
        if (!is_in(clear, c) && clause_is_false(part, t->counts[c], values))
            return true;
        part += 3 * t->counts[c];
    }
    return false;
}

/* ---- of at most 128 clauses: sets of two words ---- */

/* What the variables satisfy and leave open, and the first unassigned one. */
struct start {
    struct pair held, open;
    size_t next;
};

/* How a search ends and the trials left, in one word, which is below 2^32 where
 * no values are found: gcc makes slower code of a struct of the two. */
static uint64_t outcome(enum answer answer, uint32_t left)
{
    return (uint64_t)(answer ^ INCONSISTENT) << 32 | left;
}

static enum answer answer_of(uint64_t word)
{
    return (enum answer)(word >> 32 ^ INCONSISTENT);
}

static uint32_t left_of(uint64_t word)
{
    return (uint32_t)word;
}

/* Makes the rows of the unassigned variables, from the last to the first, with
 * nothing noted. */
static struct start make_plan(const struct search *s, struct plan *plan)
{
    plan->end = s->tables->variables;
    struct start made = {{0, 0}, {0, 0}, plan->end};
    for (size_t v = plan->end; v-- > 0;) {
        if (s->values[v] != UNASSIGNED) {
            made.held = with_row(made.held, s->sets->satisfied[v][s->values[v]]);
            continue;
        }
        const uint64_t *mentioning = s->sets->mentioning[v];
        struct row *row = &plan->rows[v];
        row->size = s->tables->sizes[v];
        row->next = made.next;
        row->due.first = mentioning[0] & ~made.open.first;
        row->due.second = mentioning[1] & ~made.open.second;
        plan->notes[v].trials = NONE;
        made.open = with_row(made.open, mentioning);
        made.next = v;
    }
    return made;
}

/* Whether a search with this set satisfied would go as the noted one, within the
 * trials left. Where nothing is noted, only the trials are read. */
static bool is_noted(const struct note *note, uint64_t first, uint64_t second, uint32_t left)
{
    return note->trials <= left && (first & note->needs.first) == note->held.first &&
           (second & note->needs.second) == note->held.second;
}

/* Finds values of the unassigned variables from v on; where there are none, it
 * notes what it went by. The set is handed down as two words: gcc would pass a
 * struct of them through memory. */
static uint64_t descend_pairs(const struct sets *sets, struct plan *plan, uint64_t first,
                              uint64_t second, size_t v, uint32_t left)
{
    if (v == plan->end)
        return outcome(CONSISTENT, left);
    struct row *row = &plan->rows[v];
    struct note *note = &plan->notes[v];
    if (is_noted(note, first, second, left))
        return outcome(INCONSISTENT, left - (uint32_t)note->trials);
    struct pair needs = row->due;
    size_t size = row->size;
    uint32_t rest = left;
    for (size_t x = 0; x < size; x++) {
        if (rest == 0)
            return outcome(SPENT, 0);
        rest--;
        const uint64_t *satisfied = sets->satisfied[v][x];
        uint64_t a = first | satisfied[0], b = second | satisfied[1];
        if (row->due.first & ~a || row->due.second & ~b)
            continue;
        uint64_t deeper = descend_pairs(sets, plan, a, b, row->next, rest);
        if (answer_of(deeper) != INCONSISTENT) {
            row->size = x;
            return deeper;
        }
        rest = left_of(deeper);
        needs = with_pair(needs, plan->notes[row->next].needs);
    }
    *note = (struct note){needs, {needs.first & first, needs.second & second}, left - rest};
    return outcome(INCONSISTENT, rest);
}

/* Takes over the values found. */
static void fill_values(uint8_t *values, const struct plan *plan)
{
    for (size_t v = 0; v < plan->end; v++)
        if (values[v] == UNASSIGNED)
            values[v] = (uint8_t)plan->rows[v].size;
}

static enum answer test_pairs(struct search *s)
{
    struct start made = make_plan(s, &s->plan);
    if (some_clause_is_false(s->tables, s->values, with_pair(made.held, made.open)))
        return INCONSISTENT;
    uint32_t left = s->limit - s->trials;
    uint64_t found =
        descend_pairs(s->sets, &s->plan, made.held.first, made.held.second, made.next, left);
    s->trials += left - left_of(found);
    if (answer_of(found) == CONSISTENT)
        fill_values(s->values, &s->plan);
    return answer_of(found);
}

/* ---- of any number: sets of eight words ---- */

/* Fills `due` for the unassigned variables, from the last to the first. */
static void fill_due(struct search *s)
{
    set later = {0};
    for (size_t v = s->tables->variables; v-- > 0;) {
        if (s->values[v] != UNASSIGNED)
            continue;
        const uint64_t *mentioning = s->sets->mentioning[v];
        for (size_t i = 0; i < SET_WORDS; i++)
            s->due[v][i] = mentioning[i] & ~later[i];
        join(later, mentioning);
    }
}

static void fill_satisfied(const struct search *s, uint64_t *held)
{
    for (size_t v = 0; v < s->tables->decisions; v++)
        if (s->values[v] != UNASSIGNED)
            join(held, s->sets->satisfied[v][s->values[v]]);
}

/* One trial: the satisfied set with the value's added; whether all due are in.
 * Most trials fail at the first word, before the rest is joined. */
static bool trial(const uint64_t *held, const uint64_t *satisfied, const uint64_t *due,
                  uint64_t *joined)
{
    uint64_t lacking = 0;
    if (due[0] & ~(held[0] | satisfied[0]))
        return false;
    for (size_t i = 0; i < SET_WORDS; i++) {
        joined[i] = held[i] | satisfied[i];
        lacking |= due[i] & ~joined[i];
    }
    return lacking == 0;
}

/* Sets the unassigned variables from v on. */
static enum answer descend_rows(struct search *s, size_t v, const uint64_t *held)
{
    while (v < s->tables->variables && s->values[v] != UNASSIGNED)
        v++;
    if (v == s->tables->variables)
        return CONSISTENT;
    size_t size = s->tables->sizes[v];
    for (size_t x = 0; x < size; x++) {
        set joined;
        if (s->trials >= s->limit)
            return SPENT;
        s->trials++;
        if (!trial(held, s->sets->satisfied[v][x], s->due[v], joined))
            continue;
        s->values[v] = (uint8_t)x;
        enum answer answer = descend_rows(s, v + 1, joined);
        if (answer != INCONSISTENT)
            return answer;
    }
    s->values[v] = UNASSIGNED;
    return INCONSISTENT;
}

static enum answer test_rows(struct search *s)
{
    set held = {0};
    if (some_clause_is_false(s->tables, s->values, (struct pair){0, 0}))
        return INCONSISTENT;
    fill_due(s);
    fill_satisfied(s, held);
    return descend_rows(s, 0, held);
}

/* Tests the assignment; `trials` goes on from what it was. */
static enum answer test(struct search *s, uint64_t mask, uint64_t values)
{
    memset(s->values, UNASSIGNED, s->tables->variables);
    for (size_t v = 0; v < s->tables->decisions; v++)
        if (mask & bit(v))
            s->values[v] = (uint8_t)(values >> (60 - 4 * v) & 15);
    return s->tables->clauses <= 128 ? test_pairs(s) : test_rows(s);
}

/* Shows the values that a consistent test found. */
static void show(const struct search *s, uint8_t *shown)
{
    size_t variables = s->tables->variables;
    memcpy(shown, s->values, variables);
    memset(shown + variables, 0, STATE_BYTES - variables);
}

/* Reduces an assignment found inconsistent: INCONSISTENT, or SPENT. */
static enum answer reduce(struct search *s, uint64_t *mask, uint64_t *values)
{
    for (size_t v = 0; v < s->tables->decisions; v++) {
        if (!(*mask & bit(v)))
            continue;
        uint64_t rest_mask = *mask & ~bit(v), rest_values = *values & ~nibble(v, 15);
        enum answer answer = test(s, rest_mask, rest_values);
        if (answer == SPENT)
            return SPENT;
        if (answer == INCONSISTENT) {
            *mask = rest_mask;
            *values = rest_values;
        }
    }
    return INCONSISTENT;
}
