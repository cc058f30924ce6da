/* Part of same.c, which includes it: one translation unit, so that the compiler
 * may inline. Reading a plant sheet. */

/* ---- plant sheet ---- */

enum { SET_WORDS = CLAUSES_MOST / 64 };

/* The decoded tables; literals are byte triples variable, sign, value. */
struct tables {
    size_t decisions, variables, clauses;
    uint8_t sizes[VARIABLES_MOST];
    uint16_t costs[DECISIONS_MOST][VALUES_MOST];
    uint8_t counts[CLAUSES_MOST];
    uint8_t literals[CLAUSES_MOST * LITERALS_MOST * 3];
};

struct reader {
    const uint8_t *sheet;
    size_t bits, place;
    uint32_t refusal;
};

/* The next field of at most 16 bits; 0 once something is refused. */
static uint32_t field(struct reader *r, uint32_t width)
{
    if (r->refusal)
        return 0;
    if (width > r->bits - r->place) {
        r->refusal = 5;
        return 0;
    }
    size_t first = r->place / 8, end = (r->place + width + 7) / 8;
    uint32_t window = 0;
    for (size_t i = first; i < end; i++)
        window = window << 8 | r->sheet[i];
    r->place += width;
    return window >> (8 * end - r->place) & ((1u << width) - 1);
}

/* Refuses unless the rule holds, or something was refused before. */
static bool rule(struct reader *r, bool holds, uint32_t refusal)
{
    if (!r->refusal && !holds)
        r->refusal = refusal;
    return !r->refusal;
}

static bool read_counts(struct reader *r, struct tables *t)
{
    rule(r, field(r, 8) == 1, 6);
    t->decisions = field(r, 5);
    rule(r, 1 <= t->decisions && t->decisions <= DECISIONS_MOST, 7);
    uint32_t states = field(r, 6);
    rule(r, states <= STATES_MOST, 8);
    t->variables = t->decisions + states;
    t->clauses = field(r, 10);
    return rule(r, t->clauses <= CLAUSES_MOST, 9);
}

static void read_variables(struct reader *r, struct tables *t)
{
    for (size_t v = 0; v < t->variables; v++) {
        t->sizes[v] = (uint8_t)(field(r, 4) + 1);
        if (v < t->decisions)
            for (size_t x = 0; x < t->sizes[v]; x++)
                t->costs[v][x] = (uint16_t)field(r, 16);
    }
}

/* One literal into a byte triple. */
static bool read_literal(struct reader *r, const struct tables *t, uint8_t *triple)
{
    uint32_t variable = field(r, 6);
    if (!rule(r, variable < t->variables, 10))
        return false;
    triple[0] = (uint8_t)variable;
    triple[1] = (uint8_t)field(r, 1);
    triple[2] = (uint8_t)field(r, 4);
    return rule(r, triple[2] < t->sizes[variable], 11);
}

static bool read_clauses(struct reader *r, struct tables *t)
{
    uint8_t *triple = t->literals;
    for (size_t c = 0; c < t->clauses; c++) {
        t->counts[c] = (uint8_t)field(r, 4);
        for (size_t i = 0; i < t->counts[c]; i++, triple += 3)
            if (!read_literal(r, t, triple))
                return false;
    }
    return true;
}

/* Reads the sheet; the refusal's number or 0. */
static uint32_t read_sheet(const uint8_t *sheet, size_t length, struct tables *t)
{
    struct reader r = {sheet, 8 * length, 0, 0};
    if (!read_counts(&r, t))
        return r.refusal;
    read_variables(&r, t);
    if (!read_clauses(&r, t))
        return r.refusal;
    rule(&r, field(&r, (uint32_t)(-r.place % 8)) == 0, 12);
    rule(&r, r.place == r.bits, 13);
    return r.refusal;
}
