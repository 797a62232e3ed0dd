/* Best plans with fewest changes: what the call says is what a search of all plans finds, its prices prove it at combined
   costs, each fault and each refused growth leaves the lists as they were. */
#include "calls.h"

enum { ROWS = 5, COLUMNS = 6, ROOM = 40 };

/* What the call reads and writes. */
struct asked {
    uint32_t sense;
    size_t n, m, pairs, changed;
    int is_sparse;
    int64_t costs[ROOM];
    struct nushbaret_wide_number prices[COLUMNS];
    uint32_t of_persons[ROOM], of_objects[ROOM], kept[ROWS], objects[ROWS], persons[ROWS];
    struct nushbaret_info info;
};

static int32_t ask(struct asked *a) {
    const size_t pairs = a->is_sparse ? a->pairs : 0;
    int32_t code = nushbaret_fewest_changes(a->sense, a->n, a->m, a->of_persons, pairs, a->of_objects, pairs, a->costs, a->pairs,
        a->kept, a->n, a->objects, a->n, a->persons, a->n, a->prices, a->m, &a->changed, &a->info);
    return blocks == 0 ? code : -1;
}

/* A plan's cost, turned under NUSHBARET_MAX, and how many persons it changes. */
struct worth {
    int is_there;
    int64_t cost;
    size_t changed;
};

static int is_better(struct worth one, struct worth other) {
    if (!other.is_there || !one.is_there) return one.is_there;
    return one.cost != other.cost ? one.cost < other.cost : one.changed < other.changed;
}

/* The best plan of persons from i on, by all plans. */
static struct worth best_plan(const struct asked *a, size_t i, unsigned used) {
    struct worth best = {0, 0, 0};
    size_t k;
    if (i == a->n) best.is_there = 1;
    for (k = 0; k < a->pairs; k++)
        if (a->of_persons[k] == i + 1 && !(used >> a->of_objects[k] & 1)) {
            struct worth plan = best_plan(a, i + 1, used | 1u << a->of_objects[k]);
            plan.cost += a->sense == NUSHBARET_MIN ? a->costs[k] : -a->costs[k];
            plan.changed += a->of_objects[k] != a->kept[i];
            if (is_better(plan, best)) best = plan;
        }
    return best;
}

static size_t changes_of(const struct asked *a) {
    size_t count = 0, i;
    for (i = 0; i < a->n; i++) count += a->objects[i] != a->kept[i];
    return count;
}

/* Whether what the call left alone is as it was. */
static int stays(const struct asked *a, const struct asked *before, int32_t code) {
    struct asked now = *a;
    PUT_BACK(&now, before, code);
    if (code == NUSHBARET_BEST) now.changed = before->changed, now.info.total = before->info.total;
    return memcmp(&now, before, sizeof now) == 0;
}

/* Whether the prices prove the plan at combined costs, as the header says what these are. */
static int is_proved(struct asked *a) {
    struct nushbaret_wide_number combined[ROOM];
    const size_t pairs = a->is_sparse ? a->pairs : 0;
    size_t k;
    for (k = 0; k < a->pairs; k++) {
        const int64_t change = a->of_objects[k] != a->kept[a->of_persons[k] - 1];
        const int64_t cost = (int64_t)(a->n + 1) * a->costs[k] + (a->sense == NUSHBARET_MIN ? change : -change);
        combined[k] = number_of(cost);
    }
    return nushbaret_check_wide(a->sense, a->n, a->m, a->of_persons, pairs, a->of_objects, pairs, combined, a->pairs, a->objects,
        a->n, a->prices, a->m, &a->info) == NUSHBARET_BEST;
}

static int is_hall(struct asked *a) {
    return nushbaret_check_hall(a->n, a->m, a->of_persons, a->pairs, a->of_objects, a->pairs, a->costs, a->pairs, a->persons,
        (size_t)a->info.persons, a->objects, (size_t)a->info.objects, &a->info) == NUSHBARET_HALL;
}

static int is_as_searched(struct asked *a, const struct asked *before, int32_t code) {
    const struct worth best = best_plan(a, 0, 0);
    if (!stays(a, before, code)) return 0;
    if (!best.is_there) return code == NUSHBARET_HALL && is_hall(a);
    if (code != NUSHBARET_BEST || a->info.total != (a->sense == NUSHBARET_MIN ? best.cost : -best.cost)) return 0;
    return a->changed == best.changed && changes_of(a) == best.changed && is_proved(a);
}

/* Costs of few values, so that many plans tie; of any size up to the greatest; and those that are nearly the greatest. */
static int64_t drawn_cost(unsigned *seed, unsigned kind) {
    const int64_t few = (int64_t)(drawn(seed) % 3) - 1;
    if (kind == 0) return few;
    if (kind == 1) return few * NUSHBARET_GREATEST_COST;
    return ((int64_t)drawn(seed) << 16 | drawn(seed)) * 200 - NUSHBARET_GREATEST_COST / 2;
}

/* A drawn problem of listed pairs, some of them twice, or dense, with some pairs kept, the same one twice, or none. */
static struct asked draw(unsigned *seed) {
    struct asked a;
    const unsigned kind = drawn(seed) % 3, keeps = drawn(seed) % 4;
    size_t k;
    memset(&a, 0, sizeof a);
    a.n = 1 + drawn(seed) % ROWS, a.m = a.n + drawn(seed) % (COLUMNS - a.n + 1);
    if (drawn(seed) % 16 == 0 && a.n > 1) a.m = a.n - 1;
    a.is_sparse = drawn(seed) % 2, a.sense = drawn(seed) % 2;
    a.pairs = a.is_sparse ? 1 + drawn(seed) % ROOM : a.n * a.m;
    for (k = 0; k < a.pairs; k++) {
        a.costs[k] = drawn_cost(seed, kind);
        a.of_persons[k] = (uint32_t)(a.is_sparse ? drawn(seed) % a.n : k / a.m) + 1;
        a.of_objects[k] = (uint32_t)(a.is_sparse ? drawn(seed) % a.m : k % a.m) + 1;
    }
    for (k = 0; k < a.n; k++) a.kept[k] = keeps == 0 ? 0 : drawn(seed) % (unsigned)(a.m + 1);
    return a;
}

static int is_right_once(unsigned *seed) {
    struct asked a = draw(seed), before = a;
    const int32_t code = ask(&a);
    return is_as_searched(&a, &before, code);
}

/* Two persons and three objects, with costs 1, 1 and 2; 1, 1 and 1: yesterday person 1 had object 2, person 2 object 3. */
static struct asked worked(void) {
    static const int64_t costs[] = {1, 1, 2, 1, 1, 1};
    struct asked a;
    size_t k;
    memset(&a, 0, sizeof a);
    a.n = 2, a.m = 3, a.pairs = 6, a.kept[0] = 2, a.kept[1] = 3;
    memcpy(a.costs, costs, sizeof costs);
    for (k = 0; k < 6; k++) a.of_persons[k] = (uint32_t)(k / 3 + 1), a.of_objects[k] = (uint32_t)(k % 3 + 1);
    return a;
}

static void shown(void) {
    struct asked a = worked();
    WANT(ask(&a) == NUSHBARET_BEST && a.info.total == 2 && a.changed == 0 && a.objects[0] == 2 && a.objects[1] == 3);
    a = worked();
    a.kept[0] = 3, a.kept[1] = 1;
    WANT(ask(&a) == NUSHBARET_BEST && a.info.total == 2 && a.changed == 1 && a.objects[0] == 2 && a.objects[1] == 1);
    a = worked();
    a.sense = NUSHBARET_MAX, a.kept[0] = 0, a.kept[1] = 1;
    WANT(ask(&a) == NUSHBARET_BEST && a.info.total == 3 && a.changed == 1 && a.objects[0] == 3 && a.objects[1] == 1);
}

/* Each fault is the first, and writes its place alone. */
static void faults(void) {
    static const int32_t codes[] = {NUSHBARET_SENSE, NUSHBARET_SIZE, NUSHBARET_SIZE, NUSHBARET_LENGTH, NUSHBARET_COST,
        NUSHBARET_COST, NUSHBARET_PERSON, NUSHBARET_OBJECT, NUSHBARET_UNLISTED};
    size_t k;
    for (k = 0; k < sizeof codes / sizeof *codes; k++) {
        struct asked a = worked(), before;
        a.info.place = 99;
        a.kept[1] = 4;
        if (k == 0) a.sense = 2;
        if (k == 1) a.n = 0;
        if (k == 2) a.m = 0;
        if (k == 3) a.pairs = 5;
        if (k == 4) a.costs[5] = NUSHBARET_GREATEST_COST + 1;
        if (k == 5) a.costs[4] = -NUSHBARET_GREATEST_COST - 1;
        if (k == 6 || k == 7) a.is_sparse = 1;
        if (k == 6) a.of_persons[2] = 3;
        if (k == 7) a.of_objects[1] = 0;
        before = a;
        WANT(ask(&a) == codes[k]);
        WANT(a.info.place == (k < 4 ? 99u : k == 4 ? 5u : k == 5 ? 4u : k == 6 ? 2u : 1u));
        before.info = a.info;
        WANT(memcmp(&a, &before, sizeof a) == 0);
    }
    for (k = 0; k < 4; k++) {
        struct asked a = worked();
        WANT(nushbaret_fewest_changes(0, 2, 3, a.of_persons, 0, a.of_objects, 0, a.costs, 6, a.kept, k == 0 ? 1 : 2, a.objects,
            k == 1 ? 1 : 2, a.persons, k == 2 ? 1 : 2, a.prices, k == 3 ? 2 : 3, &a.changed, &a.info) == NUSHBARET_LENGTH);
    }
}

static void refused(int is_sparse, int has_plan) {
    struct asked a = worked();
    a.is_sparse = is_sparse;
    if (!has_plan) a.is_sparse = 1, a.of_objects[1] = a.of_objects[2] = a.of_objects[4] = a.of_objects[5] = 1;
    WANT_REFUSALS(struct asked, ask, a, has_plan ? NUSHBARET_BEST : NUSHBARET_HALL, 5);
}

void test_fewest(void) {
    unsigned seed = 41;
    int k;
    shown(), faults();
    for (k = 0; k < 4; k++) refused(k % 2, k / 2);
    for (k = 0; k < 4000; k++) WANT(is_right_once(&seed));
}
