/* Part of same.c: the queue as a heap, and what is asked of a stored conflict. */

/* ---- queue ---- */

/* A node: the best state's cost above the mask's sixteen bits, and its code. */
struct entry {
    uint64_t key, code;
};

static uint64_t mask_of(struct entry e)
{
    return e.key << 48;
}

static uint64_t cost_of(struct entry e)
{
    return e.key >> 16;
}

static bool comes_before(struct entry a, struct entry b)
{
    uint64_t x = cost_of(a), y = cost_of(b);
    return (x < y) | ((x == y) & (a.code < b.code));
}

static struct entry entry_at(const uint64_t *queue, size_t i)
{
    return (struct entry){queue[2 * i], queue[2 * i + 1]};
}

static void put(uint64_t *queue, size_t i, struct entry e)
{
    queue[2 * i] = e.key;
    queue[2 * i + 1] = e.code;
}

/* Puts the entry at place i or below it, in a heap of n entries. */
static void sift_down(uint64_t *queue, size_t n, size_t i, struct entry e)
{
    while (2 * i + 1 < n) {
        size_t c = 2 * i + 1;
        if (c + 1 < n)
            c += comes_before(entry_at(queue, c + 1), entry_at(queue, c));
        struct entry lesser = entry_at(queue, c);
        if (!comes_before(lesser, e))
            break;
        put(queue, i, lesser);
        i = c;
    }
    put(queue, i, e);
}

/* Adds the entry to a heap of n entries. */
static void push(uint64_t *queue, size_t n, struct entry e)
{
    size_t i = n;
    while (i > 0) {
        struct entry parent = entry_at(queue, (i - 1) / 2);
        if (!comes_before(e, parent))
            break;
        put(queue, i, parent);
        i = (i - 1) / 2;
    }
    put(queue, i, e);
}

/* Takes the first entry out of a heap of n entries. */
static struct entry pop(uint64_t *queue, size_t n)
{
    struct entry first = entry_at(queue, 0);
    if (n > 1)
        sift_down(queue, n - 1, 0, entry_at(queue, n - 1));
    return first;
}

/* Puts any n entries into the heap's order (Floyd's way). */
static void rebuild(uint64_t *queue, size_t n)
{
    for (size_t i = n / 2; i-- > 0;)
        sift_down(queue, n, i, entry_at(queue, i));
}

/* ---- store ---- */

/* While a run lasts an entry is the widened mask and the values. A node's code
 * at unassigned variables never counts: the masks see to it. */
static bool manifests(uint64_t code, uint64_t wide, const uint64_t *conflict)
{
    return !(((code ^ conflict[1]) | ~wide) & conflict[0]);
}

/* A scan goes by so many entries at a time, written out by the compiler: a loop's
 * own steps cost as much as a look. */
enum { BLOCK = 8 };

/* Whether one of n entries is manifested. */
static bool manifests_one(uint64_t code, uint64_t wide, const uint64_t *store, size_t n)
{
    for (size_t i = 0; i < n; i++)
        if (manifests(code, wide, &store[2 * i]))
            return true;
    return false;
}

/* The same, for many. */
static bool manifests_any(uint64_t code, uint64_t wide, const uint64_t *store, size_t n)
{
    for (; n >= BLOCK; n -= BLOCK, store += 2 * BLOCK)
        if (manifests_one(code, wide, store, BLOCK))
            return true;
    return manifests_one(code, wide, store, n);
}

/* Whether one of two entries contains the other. */
static bool related(const uint64_t *a, const uint64_t *b)
{
    uint64_t apart = (a[0] ^ b[0]) | (a[1] ^ b[1]);
    return !(apart & a[0]) || !(apart & b[0]);
}

/* The place of the first of n entries related to the conflict, or n. */
static size_t first_in(const uint64_t *store, size_t n, const uint64_t *conflict)
{
    size_t i = 0;
    while (i < n && !related(conflict, &store[2 * i]))
        i++;
    return i;
}

/* The same, for many. */
static size_t first_related(const uint64_t *store, size_t n, const uint64_t *conflict)
{
    size_t i = 0;
    while (n - i >= BLOCK && first_in(&store[2 * i], BLOCK, conflict) == BLOCK)
        i += BLOCK;
    return i + first_in(&store[2 * i], n - i, conflict);
}

/* Of n entries removes those from place i on that contain the conflict, and puts
 * it behind the others; how many there are then. */
static size_t push_out(uint64_t *store, size_t n, size_t i, const uint64_t *conflict)
{
    size_t left = i;
    for (; i < n; i++) {
        if (manifests(store[2 * i + 1], store[2 * i], conflict))
            continue;
        store[2 * left] = store[2 * i];
        store[2 * left + 1] = store[2 * i + 1];
        left++;
    }
    store[2 * left] = conflict[0];
    store[2 * left + 1] = conflict[1];
    return left + 1;
}

/* The same, unless the conflict contains an entry. No entry contains another, so
 * the first related one says which of the two it is. */
static size_t admit(uint64_t *store, size_t n, const uint64_t *conflict)
{
    size_t i = first_related(store, n, conflict);
    if (i < n && manifests(conflict[1], conflict[0], &store[2 * i]))
        return n;
    return push_out(store, n, i, conflict);
}

static bool resolves(uint64_t code, uint64_t wide, const uint64_t *conflict)
{
    return ((code ^ conflict[1]) & wide & conflict[0]) != 0;
}

/* The mask that was widened. */
static uint64_t narrow(uint64_t wide)
{
    uint64_t w = wide & UINT64_C(0x1111111111111111);
    w = (w | w >> 3) & UINT64_C(0x0303030303030303);
    w = (w | w >> 6) & UINT64_C(0x000f000f000f000f);
    w = (w | w >> 12) & UINT64_C(0x000000ff000000ff);
    return (w | w >> 24) << 48;
}

/* Keeps the entries that do not manifest the conflict; how many these are. */
static size_t sieve(uint64_t *queue, size_t n, const uint64_t *conflict)
{
    uint64_t mask = narrow(conflict[0]);
    size_t kept = 0;
    for (size_t i = 0; i < n; i++) {
        struct entry e = entry_at(queue, i);
        if (mask & ~mask_of(e) || (e.code ^ conflict[1]) & conflict[0])
            put(queue, kept++, e);
    }
    rebuild(queue, kept);
    return kept;
}
