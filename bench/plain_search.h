/* Part of plain.c, which includes it: reading a plant sheet, assignments, the
 * consistency test by scanning all clauses, the reduction. */

/* ---- plant sheet ---- */

struct literal {
    uint8_t variable, sign, value;
};

struct clause {
    uint8_t count;
    struct literal literals[LITERALS_MOST];
};

struct plant {
    unsigned decisions, variables, clause_count;
    uint8_t sizes[VARIABLES_MOST];
    uint16_t costs[DECISIONS_MOST][VALUES_MOST];
    struct clause clauses[CLAUSES_MOST];
};

/* Stands over the sheet at a bit place; the first refusal stays. */
struct reader {
    const uint8_t *sheet;
    size_t length, place;
    uint32_t refusal;
};

/* The next field, held to its rule; after a refusal the least it may be. */
static unsigned ruled(struct reader *r, unsigned width, unsigned least, unsigned most,
                      uint32_t refusal)
{
    if (r->refusal)
        return least;
    if (r->place + width > 8 * r->length) {
        r->refusal = 5;
        return least;
    }
    unsigned number = 0;
    for (unsigned i = 0; i < width; i++, r->place++)
        number = 2 * number + (r->sheet[r->place / 8] >> (7 - r->place % 8) & 1);
    if (number < least || number > most) {
        r->refusal = refusal;
        return least;
    }
    return number;
}

/* The next field, which has no rule of its own. */
static unsigned field(struct reader *r, unsigned width)
{
    return ruled(r, width, 0, (1u << width) - 1, 0);
}

static void read_clause(struct reader *r, const struct plant *p, struct clause *c)
{
    c->count = (uint8_t)field(r, 4);
    for (unsigned i = 0; i < c->count; i++) {
        struct literal *l = &c->literals[i];
        l->variable = (uint8_t)ruled(r, 6, 0, p->variables - 1, 10);
        l->sign = (uint8_t)field(r, 1);
        l->value = (uint8_t)ruled(r, 4, 0, p->sizes[l->variable] - 1u, 11);
    }
}

/* Reads the sheet; the refusal's number or 0. */
static uint32_t read_plant(const uint8_t *sheet, size_t length, struct plant *p)
{
    struct reader r = {sheet, length, 0, 0};
    ruled(&r, 8, 1, 1, 6);
    p->decisions = ruled(&r, 5, 1, DECISIONS_MOST, 7);
    p->variables = p->decisions + ruled(&r, 6, 0, STATES_MOST, 8);
    p->clause_count = ruled(&r, 10, 0, CLAUSES_MOST, 9);
    for (unsigned v = 0; v < p->variables; v++) {
        p->sizes[v] = (uint8_t)(field(&r, 4) + 1);
        for (unsigned x = 0; v < p->decisions && x < p->sizes[v]; x++)
            p->costs[v][x] = (uint16_t)field(&r, 16);
    }
    for (unsigned c = 0; c < p->clause_count; c++)
        read_clause(&r, p, &p->clauses[c]);
    ruled(&r, -(unsigned)r.place % 8, 0, 0, 12);
    if (!r.refusal && r.place != 8 * length)
        r.refusal = 13;
    return r.refusal;
}

/* ---- assignments ---- */

static bool assigned(uint64_t mask, unsigned v)
{
    return mask >> (63 - v) & 1;
}

static unsigned value_of(uint64_t values, unsigned v)
{
    return (unsigned)(values >> (60 - 4 * v) & 15);
}

static void assign(uint64_t *mask, uint64_t *values, unsigned v, unsigned x)
{
    *mask |= UINT64_C(1) << (63 - v);
    *values |= (uint64_t)x << (60 - 4 * v);
}

static void unassign(uint64_t *mask, uint64_t *values, unsigned v)
{
    *mask &= ~(UINT64_C(1) << (63 - v));
    *values &= ~(UINT64_C(15) << (60 - 4 * v));
}

/* Refusal 14 or 15, or 0. */
static uint32_t ill_formed(const struct plant *p, uint64_t mask, uint64_t values)
{
    if (mask << p->decisions)
        return 14;
    for (unsigned v = 0; v < DECISIONS_MOST; v++)
        if (value_of(values, v) >= (assigned(mask, v) ? p->sizes[v] : 1))
            return 15;
    return 0;
}

static bool is_full(const struct plant *p, uint64_t mask)
{
    return (unsigned)__builtin_popcountll(mask) == p->decisions;
}

/* ---- consistency test ---- */

struct meter {
    uint32_t trials, limit;
};

static bool literal_fails(const struct literal *l, const uint8_t *setting)
{
    uint8_t x = setting[l->variable];
    return x != UNASSIGNED && (x == l->value) == (l->sign == 1);
}

static bool clause_is_false(const struct clause *c, const uint8_t *setting)
{
    for (unsigned i = 0; i < c->count; i++)
        if (!literal_fails(&c->literals[i], setting))
            return false;
    return true;
}

static bool some_clause_is_false(const struct plant *p, const uint8_t *setting)
{
    for (unsigned c = 0; c < p->clause_count; c++)
        if (clause_is_false(&p->clauses[c], setting))
            return true;
    return false;
}

/* Sets the unassigned variables from v on; no clause is false before. */
static enum answer descend(const struct plant *p, uint8_t *setting, unsigned v,
                           struct meter *meter)
{
    if (v == p->variables)
        return CONSISTENT;
    if (setting[v] != UNASSIGNED)
        return descend(p, setting, v + 1, meter);
    for (unsigned x = 0; x < p->sizes[v]; x++) {
        if (meter->trials == meter->limit)
            return SPENT;
        meter->trials++;
        setting[v] = (uint8_t)x;
        if (some_clause_is_false(p, setting))
            continue;
        enum answer answer = descend(p, setting, v + 1, meter);
        if (answer != INCONSISTENT)
            return answer;
    }
    setting[v] = UNASSIGNED;
    return INCONSISTENT;
}

/* Shows the value of every variable where the answer is CONSISTENT, and zeros
 * otherwise and beyond them. */
static enum answer test(const struct plant *p, uint64_t mask, uint64_t values,
                        struct meter *meter, uint8_t *shown)
{
    uint8_t setting[VARIABLES_MOST];
    memset(setting, UNASSIGNED, sizeof setting);
    for (unsigned v = 0; v < p->decisions; v++)
        if (assigned(mask, v))
            setting[v] = (uint8_t)value_of(values, v);
    enum answer answer = INCONSISTENT;
    if (!some_clause_is_false(p, setting))
        answer = descend(p, setting, 0, meter);
    memset(shown, 0, STATE_BYTES);
    if (answer == CONSISTENT)
        memcpy(shown, setting, p->variables);
    return answer;
}

/* Reduces an assignment found inconsistent: INCONSISTENT, or SPENT. */
static enum answer reduce(const struct plant *p, uint64_t *mask, uint64_t *values,
                          struct meter *meter)
{
    for (unsigned v = 0; v < p->decisions; v++) {
        uint64_t rest_mask = *mask, rest_values = *values;
        uint8_t shown[STATE_BYTES];
        unassign(&rest_mask, &rest_values, v);
        if (rest_mask == *mask)
            continue;
        enum answer answer = test(p, rest_mask, rest_values, meter, shown);
        if (answer == SPENT)
            return SPENT;
        if (answer == INCONSISTENT) {
            *mask = rest_mask;
            *values = rest_values;
        }
    }
    return INCONSISTENT;
}
