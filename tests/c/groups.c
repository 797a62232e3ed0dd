/* Which objects of a best plan can change places: the groups are those of a search of all plans and of all arrows, each
   fault leaves the list as it was, and so does each refused growth. */
#include "calls.h"

enum { ROWS = 5, COLUMNS = 7, ROOM = 48 };

/* What the call reads and writes. */
struct asked {
    uint32_t sense;
    size_t n, m, pairs;
    int is_sparse;
    int64_t costs[ROOM], prices[COLUMNS + 1];
    uint32_t of_persons[ROOM], of_objects[ROOM], objects[ROWS + 1], persons[ROWS + 1], groups[COLUMNS + 1];
    struct nushbaret_info info;
};

static int32_t ask(struct asked *a) {
    const size_t pairs = a->is_sparse ? a->pairs : 0;
    int32_t code = nushbaret_groups(a->sense, a->n, a->m, a->of_persons, pairs, a->of_objects, pairs, a->costs, a->pairs,
        a->objects, a->n, a->prices, a->m, a->groups, a->m, &a->info);
    return blocks == 0 ? code : -1;
}

static int32_t check_plan(struct asked *a) {
    const size_t pairs = a->is_sparse ? a->pairs : 0;
    return nushbaret_check(a->sense, a->n, a->m, a->of_persons, pairs, a->of_objects, pairs, a->costs, a->pairs,
        a->objects, a->n, a->prices, a->m, &a->info);
}

static int32_t solve_plan(struct asked *a) {
    return a->is_sparse
        ? nushbaret_sparse(a->sense, a->n, a->m, a->of_persons, a->pairs, a->of_objects, a->pairs, a->costs, a->pairs,
            a->objects, a->n, a->persons, a->n, a->prices, a->m, &a->info)
        : nushbaret_dense(a->sense, a->n, a->m, a->costs, a->pairs, a->objects, a->n, a->persons, a->n, a->prices, a->m,
            &a->info);
}

/* All best plans: which pairs they have. */
struct all {
    int64_t table[ROWS][COLUMNS], least;
    int may[ROWS][COLUMNS];
    size_t now[ROWS];
};

static void look(const struct asked *a, struct all *all, size_t i, unsigned used, int64_t sum) {
    size_t j;
    if (i == a->n) {
        if (sum < all->least) {
            all->least = sum;
            memset(all->may, 0, sizeof all->may);
        }
        for (j = 0; j < a->n && sum == all->least; j++) all->may[j][all->now[j]] = 1;
        return;
    }
    for (j = 0; j < a->m; j++)
        if (!(used >> j & 1) && all->table[i][j] != INT64_MAX) {
            all->now[i] = j;
            look(a, all, i + 1, used | 1u << j, sum + all->table[i][j]);
        }
}

static struct all look_at_all(const struct asked *a) {
    struct all all;
    size_t i, j, k;
    memset(&all, 0, sizeof all);
    for (i = 0; i < ROWS; i++)
        for (j = 0; j < COLUMNS; j++) all.table[i][j] = INT64_MAX;
    for (k = 0; k < a->pairs; k++) {
        const int64_t cost = a->sense == NUSHBARET_MIN ? a->costs[k] : -a->costs[k];
        int64_t *best = &all.table[a->of_persons[k] - 1][a->of_objects[k] - 1];
        if (cost < *best) *best = cost;
    }
    all.least = INT64_MAX;
    look(a, &all, 0, 0, 0);
    return all;
}

/* Whether an object is as good for a person as its own one. */
static int is_as_good(const struct asked *a, const struct all *all, size_t i, size_t j) {
    const size_t own = a->objects[i] - 1;
    return all->table[i][j] != INT64_MAX && all->table[i][j] + a->prices[j] == all->table[i][own] + a->prices[own];
}

/* Which objects reach which along arrows; 0 is no person's. */
static void reach(const struct asked *a, const struct all *all, int to[COLUMNS + 1][COLUMNS + 1]) {
    size_t i, j, k;
    memset(to, 0, (COLUMNS + 1) * sizeof *to);
    for (j = 1; j <= a->m; j++) {
        int is_owned = 0;
        for (i = 0; i < a->n; i++) is_owned |= a->objects[i] == j;
        to[j][0] = !is_owned, to[0][j] = is_owned && a->prices[j - 1] == 0;
    }
    for (i = 0; i < a->n; i++)
        for (j = 0; j < a->m; j++) to[a->objects[i]][j + 1] |= is_as_good(a, all, i, j);
    for (k = 0; k <= a->m; k++)
        for (i = 0; i <= a->m; i++)
            for (j = 0; j <= a->m; j++) to[i][j] |= to[i][k] && to[k][j];
}

/* Whether the groups are what the header says; how many pairs other than the own ones may be had. */
static size_t judge(const struct asked *a, const struct all *all) {
    static int to[COLUMNS + 1][COLUMNS + 1];
    size_t i, j, others = 0;
    reach(a, all, to);
    for (i = 0; i < a->n; i++) {
        const size_t own = a->objects[i] - 1;
        for (j = 0; j < a->m; j++) {
            const int is_in = is_as_good(a, all, i, j) && a->groups[j] == a->groups[own];
            WANT(is_in == all->may[i][j]);
            others += is_in && j != own;
        }
    }
    for (i = 0; i < a->m; i++)
        for (j = 0; j < a->m; j++)
            WANT((a->groups[i] == a->groups[j]) == (i == j || (to[i + 1][j + 1] && to[j + 1][i + 1])));
    return others;
}

/* A drawn problem of listed pairs, some of them twice, or dense. */
static struct asked draw(unsigned *seed) {
    struct asked a;
    const unsigned values = 1 + drawn(seed) % 8;
    size_t k;
    memset(&a, 0, sizeof a);
    a.n = 1 + drawn(seed) % ROWS, a.m = a.n + drawn(seed) % (COLUMNS - a.n + 1);
    a.is_sparse = drawn(seed) % 2, a.sense = drawn(seed) % 2;
    a.pairs = a.is_sparse ? 1 + drawn(seed) % ROOM : a.n * a.m;
    for (k = 0; k < a.pairs; k++) {
        a.costs[k] = (int64_t)(drawn(seed) % values) - 3;
        a.of_persons[k] = (uint32_t)(a.is_sparse ? drawn(seed) % a.n : k / a.m) + 1;
        a.of_objects[k] = (uint32_t)(a.is_sparse ? drawn(seed) % a.m : k % a.m) + 1;
    }
    return a;
}

/* The answer on a drawn problem; then the verdict where a price or an object is another one. */
static void compare(unsigned *seed, size_t *plans, size_t *changes) {
    struct asked a = draw(seed), before;
    int32_t end = solve_plan(&a), code;
    struct all all;
    size_t others;
    if (end != NUSHBARET_BEST) return;
    all = look_at_all(&a);
    before = a;
    WANT(ask(&a) == NUSHBARET_BEST);
    others = judge(&a, &all);
    *plans += 1, *changes += others > 0;
    memcpy(before.groups, a.groups, sizeof a.groups);
    WANT(memcmp(&a, &before, sizeof a) == 0);
    if (drawn(seed) % 2) a.prices[drawn(seed) % a.m] += (int64_t)(drawn(seed) % 5) - 2;
    else a.objects[drawn(seed) % a.n] = drawn(seed) % (a.m + 2);
    before = a;
    end = check_plan(&before);
    code = ask(&a);
    if (end != NUSHBARET_BEST) WANT(code == end && memcmp(&a, &before, sizeof a) == 0);
    else judge(&a, &all);
}

/* Persons 1 and 2 can change places, person 3 can't; object 4 is nobody's, and nobody can have it. */
static struct asked worked(void) {
    static const int64_t costs[] = {1, 2, 9, 9, 2, 3, 9, 9, 9, 9, 1, 9};
    struct asked a;
    size_t k;
    memset(&a, 0, sizeof a);
    a.n = 3, a.m = 4, a.pairs = 12;
    memcpy(a.costs, costs, sizeof costs);
    for (k = 0; k < 12; k++) a.of_persons[k] = (uint32_t)(k / 4 + 1), a.of_objects[k] = (uint32_t)(k % 4 + 1);
    WANT(solve_plan(&a) == NUSHBARET_BEST);
    return a;
}

static void shown(void) {
    struct asked a = worked();
    WANT(ask(&a) == NUSHBARET_BEST);
    WANT(a.groups[0] == a.groups[1] && a.groups[0] != a.groups[2] && a.groups[0] != a.groups[3] && a.groups[2] != a.groups[3]);
}

/* Each fault is the first, and writes its place alone. */
static void faults(void) {
    static const int32_t codes[] = {NUSHBARET_SENSE, NUSHBARET_SIZE, NUSHBARET_SIZE, NUSHBARET_LENGTH, NUSHBARET_COST,
        NUSHBARET_PRICE_RANGE, NUSHBARET_UNLISTED};
    struct asked one = worked();
    size_t k;
    for (k = 0; k < sizeof codes / sizeof *codes; k++) {
        struct asked a = worked(), before;
        a.info.place = 99;
        if (k == 0) a.sense = 2;
        if (k == 1) a.n = 0;
        if (k == 2) a.m = 0;
        if (k == 3) a.pairs = 5;
        if (k == 4) a.costs[4] = NUSHBARET_GREATEST_COST + 1;
        if (k == 5) a.prices[1] = -1;
        if (k == 6) a.objects[1] = 9;
        before = a;
        WANT(ask(&a) == codes[k]);
        WANT(a.info.place == (k == 4 ? 4u : 99u));
        before.info = a.info;
        WANT(memcmp(&a, &before, sizeof a) == 0);
    }
    WANT(nushbaret_groups(0, 3, 4, one.of_persons, 0, one.of_objects, 0, one.costs, 12, one.objects, 3, one.prices, 4,
        one.groups, 3, &one.info) == NUSHBARET_LENGTH);
    WANT(nushbaret_groups(0, 3, 4, one.of_persons, 0, one.of_objects, 0, one.costs, 12, one.objects, 2, one.prices, 4,
        one.groups, 4, &one.info) == NUSHBARET_ANSWER_LENGTH);
}

/* A ring in which each person could take the next one's object as well, closed or not: its path has all persons. */
static void ring(size_t n, int is_closed) {
    static uint32_t of_persons[200000], of_objects[200000], objects[100000], groups[100000];
    static int64_t costs[200000], prices[100000];
    struct nushbaret_info info;
    const size_t pairs = 2 * n - (is_closed ? 0 : 1);
    size_t i;
    for (i = 0; i < n; i++) {
        of_persons[2 * i] = of_objects[2 * i] = objects[i] = (uint32_t)i + 1;
        of_persons[2 * i + 1] = (uint32_t)i + 1, of_objects[2 * i + 1] = (uint32_t)((i + 1) % n) + 1;
    }
    memset(&info, 0, sizeof info);
    WANT(nushbaret_groups(NUSHBARET_MIN, n, n, of_persons, pairs, of_objects, pairs, costs, pairs, objects, n, prices, n,
        groups, n, &info) == NUSHBARET_BEST);
    for (i = 1; i < n; i++) WANT((groups[i] == groups[i - 1]) == is_closed);
}

/* Two blocks of persons and objects of equal costs, of which rows have more than the search reads at first: persons of
   one block could have objects of the other too, or not. */
static void tied_blocks(int64_t there, int64_t back) {
    enum { HALF = 20, BOTH = 2 * HALF };
    static int64_t costs[BOTH * BOTH], prices[BOTH];
    static uint32_t objects[BOTH], groups[BOTH];
    struct nushbaret_info info;
    size_t k;
    for (k = 0; k < BOTH * BOTH; k++) {
        const int from = k / BOTH >= HALF, to = k % BOTH >= HALF;
        costs[k] = from == to ? 0 : from ? back : there;
    }
    for (k = 0; k < BOTH; k++) objects[k] = (uint32_t)k + 1;
    memset(&info, 0, sizeof info);
    WANT(nushbaret_groups(NUSHBARET_MIN, BOTH, BOTH, objects, 0, objects, 0, costs, BOTH * BOTH, objects, BOTH, prices, BOTH,
        groups, BOTH, &info) == NUSHBARET_BEST);
    for (k = 1; k < BOTH; k++) WANT((groups[k] == groups[k - 1]) == (k != HALF || (there == 0 && back == 0)));
}

void test_groups(void) {
    unsigned seed = 9;
    size_t plans = 0, changes = 0;
    int k;
    shown();
    faults();
    for (k = 0; k < 2; k++) {
        struct asked a = worked();
        a.is_sparse = k;
        WANT(solve_plan(&a) == NUSHBARET_BEST);
        WANT_REFUSALS(struct asked, ask, a, NUSHBARET_BEST, 10);
    }
    ring(100000, 0);
    ring(100000, 1);
    for (k = 0; k < 4; k++) tied_blocks(k % 2, k / 2);
    for (k = 0; k < 8000; k++) compare(&seed, &plans, &changes);
    WANT(plans > 4000 && changes > 1000);
}
