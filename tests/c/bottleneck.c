/* A plan whose worst pair is as good as possible: what the call says is what a search of all plans finds, at once, in pieces
   and from wild records; each fault and each refused growth leaves the lists as they were. */
#include "calls.h"

enum { ROWS = 6, COLUMNS = 7, ROOM = 60 };

/* What the call reads and writes. */
struct asked {
    uint32_t sense;
    size_t n, m, pairs;
    int is_sparse;
    int64_t costs[ROOM];
    uint32_t of_persons[ROOM], of_objects[ROOM], objects[ROWS], persons[ROWS], few[ROWS];
    uint64_t budget;
    struct nushbaret_record record;
    struct nushbaret_info info;
};

static int32_t ask(struct asked *a) {
    const size_t pairs = a->is_sparse ? a->pairs : 0;
    int32_t code = nushbaret_bottleneck(a->sense, a->n, a->m, a->of_persons, pairs, a->of_objects, pairs, a->costs, a->pairs,
        a->objects, a->n, a->persons, a->n, a->few, a->n, a->budget, &a->record, &a->info);
    return blocks == 0 ? code : -1;
}

/* The best cost of each pair, turned under NUSHBARET_MAX so that less is better; INT64_MAX if it isn't listed. */
struct table {
    int64_t cost[ROWS][COLUMNS];
};

static struct table table_of(const struct asked *a) {
    struct table table;
    size_t i, j, k;
    for (i = 0; i < ROWS; i++)
        for (j = 0; j < COLUMNS; j++) table.cost[i][j] = INT64_MAX;
    for (k = 0; k < a->pairs; k++) {
        int64_t *cost = &table.cost[a->of_persons[k] - 1][a->of_objects[k] - 1];
        const int64_t turned = a->sense == NUSHBARET_MIN ? a->costs[k] : -a->costs[k];
        if (turned < *cost) *cost = turned;
    }
    return table;
}

/* The best worst cost of a plan of persons from i on, by all of them; INT64_MAX if there is none. */
static int64_t best_worst(const struct asked *a, const struct table *table, size_t i, unsigned used) {
    int64_t best = INT64_MAX;
    size_t j;
    if (i == a->n) return INT64_MIN;
    for (j = 0; j < a->m; j++)
        if (!(used >> j & 1) && table->cost[i][j] < best) {
            const int64_t rest = best_worst(a, table, i + 1, used | 1u << j);
            const int64_t worst = rest > table->cost[i][j] ? rest : table->cost[i][j];
            if (worst < best) best = worst;
        }
    return best;
}

/* Whether the objects are a plan whose worst pair has this turned cost. */
static int is_plan(const struct asked *a, const struct table *table, int64_t worst) {
    unsigned used = 0;
    int64_t found = INT64_MIN;
    size_t i;
    for (i = 0; i < a->n; i++) {
        const uint32_t object = a->objects[i];
        if (object < 1 || object > a->m || used >> object & 1) return 0;
        used |= 1u << object;
        if (table->cost[i][object - 1] > found) found = table->cost[i][object - 1];
    }
    return found == worst;
}

/* Whether the persons list, at turned costs below one, only the few objects, which are fewer; both lists rise. */
static int are_short(const struct asked *a, const struct table *table, int64_t worst) {
    unsigned few = 0;
    size_t k, j;
    if (a->info.objects >= a->info.persons || a->info.persons > a->n) return 0;
    for (k = 0; k < a->info.objects; k++) {
        if (a->few[k] < 1 || a->few[k] > a->m || (k > 0 && a->few[k] <= a->few[k - 1])) return 0;
        few |= 1u << a->few[k];
    }
    for (k = 0; k < a->info.persons; k++) {
        if (a->persons[k] < 1 || a->persons[k] > a->n || (k > 0 && a->persons[k] <= a->persons[k - 1])) return 0;
        for (j = 0; j < a->m; j++)
            if (table->cost[a->persons[k] - 1][j] < worst && !(few >> (j + 1) & 1)) return 0;
    }
    return 1;
}

/* Whether an answer is that of the search of all plans, and what it doesn't name is as it was. */
static int is_as_searched(const struct asked *a, const struct asked *before, int32_t code) {
    const struct table table = table_of(a);
    const int64_t worst = best_worst(a, &table, 0, 0);
    struct asked now = *a;
    const int has_plan = worst < INT64_MAX;
    if (code != (has_plan ? NUSHBARET_BEST : NUSHBARET_HALL)) return 0;
    if (!are_short(a, &table, worst)) return 0;
    if (has_plan && (a->info.total != (a->sense == NUSHBARET_MIN ? worst : -worst) || !is_plan(a, &table, worst))) return 0;
    memcpy(now.persons, before->persons, a->info.persons * sizeof *now.persons);
    memcpy(now.few, before->few, a->info.objects * sizeof *now.few);
    if (has_plan) memcpy(now.objects, before->objects, a->n * sizeof *now.objects), now.info.total = before->info.total;
    now.info.persons = before->info.persons, now.info.objects = before->info.objects;
    return memcmp(&now, before, sizeof now) == 0;
}

/* A drawn problem of listed pairs, some of them twice, or dense. */
static struct asked draw(unsigned *seed) {
    struct asked a;
    const unsigned values = 1 + drawn(seed) % 40;
    size_t k;
    memset(&a, 0, sizeof a);
    a.n = 1 + drawn(seed) % ROWS, a.m = a.n + drawn(seed) % (COLUMNS - a.n + 1);
    if (drawn(seed) % 2) a.m = a.n;
    a.is_sparse = drawn(seed) % 2, a.sense = drawn(seed) % 2;
    a.pairs = a.is_sparse ? 1 + drawn(seed) % ROOM : a.n * a.m;
    for (k = 0; k < a.pairs; k++) {
        a.costs[k] = (int64_t)(drawn(seed) % values) - 5;
        a.of_persons[k] = (uint32_t)(a.is_sparse ? drawn(seed) % a.n : k / a.m) + 1;
        a.of_objects[k] = (uint32_t)(a.is_sparse ? drawn(seed) % a.m : k % a.m) + 1;
    }
    return a;
}

/* A record that no call wrote, and objects that may be no plan. */
static void make_wild(struct asked *a, unsigned *seed) {
    size_t i;
    a->record.stage = drawn(seed) % 5;
    a->record.slackness = (int64_t)(drawn(seed) % 60) - 30;
    a->record.bids = drawn(seed) % 3 ? ((uint64_t)1 << 62) + drawn(seed) % 60 - 30 : ~(uint64_t)drawn(seed);
    a->record.arc_scans = drawn(seed) % 2 ? drawn(seed) : ~(uint64_t)drawn(seed);
    for (i = 0; i < a->n; i++) a->objects[i] = drawn(seed) % (a->m + 2);
}

/* The answer at once, in pieces of one look, and from a wild record. */
static void compare(unsigned *seed, size_t *ends, size_t *stops) {
    const struct asked drawn_one = draw(seed);
    struct asked a = drawn_one, before = drawn_one;
    int32_t code = ask(&a);
    size_t k;
    WANT(is_as_searched(&a, &before, code));
    ends[code == NUSHBARET_HALL ? 0 : a.info.persons == 1 ? 1 : a.info.persons == a.n ? 2 : 3]++;
    a = drawn_one;
    a.budget = 1;
    for (k = 0; k < 100; k++) {
        before = a;
        code = ask(&a);
        if (code != NUSHBARET_STOPPED) break;
        ++*stops;
        memcpy(before.objects, a.objects, sizeof a.objects), before.record = a.record;
        WANT(memcmp(&a, &before, sizeof a) == 0);
    }
    WANT(is_as_searched(&a, &before, code));
    a = drawn_one;
    make_wild(&a, seed);
    before = a;
    code = ask(&a);
    WANT(is_as_searched(&a, &before, code));
}

/* Two persons and two objects: 0 and 9 have the lesser sum, but 5 and 5 the better worst pair. Under NUSHBARET_MAX it is 0
   and 9 against 5 and 5 once more, where the least is to be great. */
static struct asked worked(uint32_t sense) {
    static const int64_t costs[] = {0, 5, 5, 9};
    struct asked a;
    size_t k;
    memset(&a, 0, sizeof a);
    a.sense = sense, a.n = 2, a.m = 2, a.pairs = 4;
    memcpy(a.costs, costs, sizeof costs);
    for (k = 0; k < 4; k++) a.of_persons[k] = (uint32_t)(k / 2 + 1), a.of_objects[k] = (uint32_t)(k % 2 + 1);
    return a;
}

static void shown(void) {
    uint32_t sense;
    for (sense = 0; sense < 2; sense++) {
        struct asked a = worked(sense);
        WANT(ask(&a) == NUSHBARET_BEST && a.info.total == 5);
        WANT(a.objects[0] == 2 && a.objects[1] == 1);
        WANT(a.info.persons == 1 && a.info.objects == 0 && a.persons[0] == (sense ? 1 : 2));
    }
}

/* Each fault is the first, and writes its place alone. */
static void faults(void) {
    static const int32_t codes[] = {NUSHBARET_SENSE, NUSHBARET_SIZE, NUSHBARET_SIZE, NUSHBARET_LENGTH, NUSHBARET_COST,
        NUSHBARET_PERSON, NUSHBARET_OBJECT};
    size_t k;
    for (k = 0; k < sizeof codes / sizeof *codes; k++) {
        struct asked a = worked(NUSHBARET_MIN), before;
        a.info.place = 99;
        if (k == 0) a.sense = 2;
        if (k == 1) a.n = 0;
        if (k == 2) a.m = 0;
        if (k == 3) a.pairs = 3;
        if (k == 4) a.costs[3] = NUSHBARET_GREATEST_COST + 1;
        if (k > 4) a.is_sparse = 1;
        if (k == 5) a.of_persons[2] = 3;
        if (k == 6) a.of_objects[1] = 0;
        before = a;
        WANT(ask(&a) == codes[k]);
        WANT(a.info.place == (k < 4 ? 99u : k == 4 ? 3u : k == 5 ? 2u : 1u));
        before.info = a.info;
        WANT(memcmp(&a, &before, sizeof a) == 0);
    }
    for (k = 0; k < 3; k++) {
        struct asked a = worked(NUSHBARET_MIN);
        WANT(nushbaret_bottleneck(0, 2, 2, a.of_persons, 0, a.of_objects, 0, a.costs, 4, a.objects, k == 0 ? 1 : 2, a.persons,
            k == 1 ? 1 : 2, a.few, k == 2 ? 3 : 2, 0, &a.record, &a.info) == NUSHBARET_LENGTH);
    }
}

static void refused(int is_sparse, int has_plan) {
    struct asked a = worked(NUSHBARET_MIN);
    a.is_sparse = is_sparse;
    if (!has_plan) a.is_sparse = 1, a.of_objects[1] = a.of_objects[3] = 1;
    WANT_REFUSALS(struct asked, ask, a, has_plan ? NUSHBARET_BEST : NUSHBARET_HALL, 5);
}

/* Whether costs i * j are right, of which half of the persons are short of objects; how many calls it takes. */
static int are_products_right(uint64_t budget, size_t *calls) {
    enum { WIDE = 120 };
    static int64_t costs[WIDE * WIDE];
    static uint32_t objects[WIDE], persons[WIDE], few[WIDE], none[1];
    struct nushbaret_record record;
    struct nushbaret_info info;
    int32_t code = NUSHBARET_STOPPED;
    size_t k;
    for (k = 0; k < WIDE * WIDE; k++) costs[k] = (int64_t)((k / WIDE + 1) * (k % WIDE + 1));
    memset(&record, 0, sizeof record);
    for (*calls = 0; code == NUSHBARET_STOPPED && *calls < 2000; ++*calls)
        code = nushbaret_bottleneck(NUSHBARET_MIN, WIDE, WIDE, none, 0, none, 0, costs, WIDE * WIDE, objects, WIDE, persons, WIDE,
            few, WIDE, budget, &record, &info);
    return code == NUSHBARET_BEST && info.total == WIDE / 2 * (WIDE / 2 + 1) && info.persons > info.objects && blocks == 0;
}

int is_bottleneck_long_right(void) {
    size_t calls;
    return are_products_right(0, &calls);
}

int is_bottleneck_right(unsigned *seed) {
    struct asked a = draw(seed), before = a;
    const int32_t code = ask(&a);
    return is_as_searched(&a, &before, code);
}

void test_bottleneck(void) {
    unsigned seed = 11;
    size_t ends[4] = {0, 0, 0, 0}, stops = 0, calls;
    int k;
    shown();
    faults();
    for (k = 0; k < 4; k++) refused(k / 2, k % 2);
    WANT(are_products_right(0, &calls) && calls == 1);
    WANT(are_products_right(500, &calls) && calls > 1);
    for (k = 0; k < 2000; k++) compare(&seed, ends, &stops);
    WANT(ends[0] > 100 && ends[1] > 100 && ends[2] > 20 && ends[3] > 20 && stops > 100);
}
