/* Whether a plan is the only best one, which is the next, and which are the first: what the calls say is what a search of
   all plans finds, each fault leaves the lists as they were, and so does each refused growth. */
#include "calls.h"
#include <stdlib.h>

enum { ROWS = 6, COLUMNS = 7, ROOM = 60, FEW = 12, MOST_PLANS = 5040 };

/* What the call reads and writes. */
struct asked {
    uint32_t sense;
    size_t n, m, pairs;
    int is_sparse;
    int64_t costs[ROOM], prices[COLUMNS + 1];
    uint32_t of_persons[ROOM], of_objects[ROOM], objects[ROWS + 1], other[ROWS + 1], persons[ROWS + 1];
    int32_t ranks[COLUMNS + 1];
    int64_t margin, totals[FEW];
    uint32_t plans[FEW * ROWS];
    size_t wanted, found;
    struct nushbaret_info info;
};

/* One of the three calls. */
typedef int32_t question(struct asked *a);

static int32_t ask_unique(struct asked *a) {
    const size_t pairs = a->is_sparse ? a->pairs : 0;
    int32_t code = nushbaret_unique(a->sense, a->n, a->m, a->of_persons, pairs, a->of_objects, pairs, a->costs, a->pairs,
        a->objects, a->n, a->prices, a->m, a->other, a->n, a->ranks, a->m, &a->info);
    return blocks == 0 ? code : -1;
}

static int32_t ask_next(struct asked *a) {
    const size_t pairs = a->is_sparse ? a->pairs : 0;
    int32_t code = nushbaret_next(a->sense, a->n, a->m, a->of_persons, pairs, a->of_objects, pairs, a->costs, a->pairs,
        a->objects, a->n, a->prices, a->m, UINT64_MAX, a->other, a->n, &a->margin, &a->info);
    return blocks == 0 ? code : -1;
}

static int32_t ask_ranked(struct asked *a) {
    const size_t pairs = a->is_sparse ? a->pairs : 0;
    int32_t code = nushbaret_ranked(a->sense, a->n, a->m, a->of_persons, pairs, a->of_objects, pairs, a->costs, a->pairs,
        a->objects, a->n, a->prices, a->m, UINT64_MAX, a->plans, a->wanted * a->n, a->totals, a->wanted, &a->found, &a->info);
    return blocks == 0 ? code : -1;
}

static int32_t check_plan(struct asked *a) {
    const size_t pairs = a->is_sparse ? a->pairs : 0;
    return nushbaret_check(a->sense, a->n, a->m, a->of_persons, pairs, a->of_objects, pairs, a->costs, a->pairs,
        a->objects, a->n, a->prices, a->m, &a->info);
}

static int32_t solve_plan(struct asked *a) {
    return a->is_sparse
        ? nushbaret_sparse(a->sense, a->n, a->m, a->of_persons, a->pairs, a->of_objects, a->pairs, a->costs, a->pairs,
            a->objects, a->n, a->persons, a->n, a->prices, a->m, &a->info)
        : nushbaret_dense(a->sense, a->n, a->m, a->costs, a->pairs, a->objects, a->n, a->persons, a->n, a->prices, a->m,
            &a->info);
}

/* The least cost of a pair, turned under NUSHBARET_MAX; INT64_MAX if it isn't listed. */
static int64_t cost_of(const struct asked *a, size_t i, size_t j) {
    int64_t least = INT64_MAX;
    size_t k;
    for (k = 0; k < a->pairs; k++) {
        const int64_t cost = a->sense == NUSHBARET_MIN ? a->costs[k] : -a->costs[k];
        if (a->of_persons[k] == i + 1 && a->of_objects[k] == j + 1 && cost < least) least = cost;
    }
    return least;
}

/* All plans: how many there are, their sums, the two least, which may be one, and how many have the least. */
struct all {
    int64_t table[ROWS][COLUMNS], sums[MOST_PLANS], least, next;
    size_t count, plans;
};

static void look(const struct asked *a, struct all *all, size_t i, unsigned used, int64_t sum) {
    size_t j;
    if (i == a->n) {
        all->sums[all->plans] = sum;
        if (all->plans++ == 0 || sum < all->least) {
            all->next = all->least;
            all->least = sum;
            all->count = 0;
        } else if (all->plans == 2 || sum < all->next) all->next = sum;
        if (sum == all->least) all->count++;
        return;
    }
    for (j = 0; j < a->m; j++)
        if (!(used >> j & 1) && all->table[i][j] != INT64_MAX) look(a, all, i + 1, used | 1u << j, sum + all->table[i][j]);
}

static struct all look_at_all(const struct asked *a) {
    struct all all;
    size_t i, j;
    memset(&all, 0, sizeof all);
    for (i = 0; i < a->n; i++)
        for (j = 0; j < a->m; j++) all.table[i][j] = cost_of(a, i, j);
    look(a, &all, 0, 0, 0);
    return all;
}

/* The sum of a plan, INT64_MAX if these objects aren't one. */
static int64_t sum_of(const struct asked *a, const struct all *all, const uint32_t *objects) {
    unsigned used = 0;
    int64_t sum = 0;
    size_t i;
    for (i = 0; i < a->n; i++) {
        if (objects[i] < 1 || objects[i] > a->m || used >> objects[i] & 1) return INT64_MAX;
        if (all->table[i][objects[i] - 1] == INT64_MAX) return INT64_MAX;
        used |= 1u << objects[i];
        sum += all->table[i][objects[i] - 1];
    }
    return sum;
}

/* Whether the ranks show what the header says. */
static int are_ranks(const struct asked *a, const struct all *all) {
    size_t i, j;
    for (j = 0; j < a->m; j++) {
        int is_owned = 0;
        for (i = 0; i < a->n; i++) is_owned |= a->objects[i] == j + 1;
        if ((!is_owned && a->ranks[j] != 0) || (a->prices[j] == 0 && a->ranks[j] < 0)) return 0;
    }
    for (i = 0; i < a->n; i++) {
        const size_t own = a->objects[i] - 1;
        for (j = 0; j < a->m; j++)
            if (j != own && all->table[i][j] != INT64_MAX
                && all->table[i][j] + a->prices[j] == all->table[i][own] + a->prices[own] && a->ranks[j] <= a->ranks[own])
                return 0;
    }
    return 1;
}

/* A drawn problem of listed pairs, some of them twice, or dense. */
static struct asked draw(unsigned *seed) {
    struct asked a;
    const unsigned values = 1 + drawn(seed) % 12;
    size_t k;
    memset(&a, 0, sizeof a);
    a.wanted = 1 + drawn(seed) % FEW;
    a.n = 1 + drawn(seed) % ROWS, a.m = a.n + drawn(seed) % (COLUMNS - a.n + 1);
    a.is_sparse = drawn(seed) % 2, a.sense = drawn(seed) % 2;
    a.pairs = a.is_sparse ? 1 + drawn(seed) % ROOM : a.n * a.m;
    for (k = 0; k < a.pairs; k++) {
        a.costs[k] = (int64_t)(drawn(seed) % values) - 5;
        a.of_persons[k] = (uint32_t)(a.is_sparse ? drawn(seed) % a.n : k / a.m) + 1;
        a.of_objects[k] = (uint32_t)(a.is_sparse ? drawn(seed) % a.m : k % a.m) + 1;
    }
    return a;
}

/* How often each answer came. */
struct counted {
    size_t only, tied, next, alone, first, all;
};

/* Whether another plan was written, and what it costs. */
static int64_t sum_of_other(const struct asked *a, const struct all *all) {
    WANT(memcmp(a->other, a->objects, a->n * sizeof *a->other) != 0);
    return sum_of(a, all, a->other);
}

static void judge_unique(const struct asked *a, const struct all *all, int32_t code, struct counted *counted) {
    WANT(code == (all->count == 1 ? NUSHBARET_BEST : NUSHBARET_TIED));
    if (code == NUSHBARET_BEST) {
        WANT(are_ranks(a, all));
        counted->only++;
    } else {
        WANT(sum_of_other(a, all) == all->least);
        counted->tied++;
    }
}

static void judge_next(const struct asked *a, const struct all *all, int32_t code, struct counted *counted) {
    WANT(code == (all->plans == 1 ? NUSHBARET_ALONE : NUSHBARET_BEST));
    if (code == NUSHBARET_ALONE) {
        counted->alone++;
        return;
    }
    WANT(sum_of_other(a, all) == all->next && a->margin == all->next - all->least);
    WANT(a->info.total == (a->sense == NUSHBARET_MIN ? all->next : -all->next));
    counted->next++;
}

static int by_sum(const void *a, const void *b) {
    const int64_t x = *(const int64_t *)a, y = *(const int64_t *)b;
    return (x > y) - (x < y);
}

static void judge_ranked(const struct asked *a, const struct all *all, int32_t code, struct counted *counted) {
    static int64_t sums[MOST_PLANS];
    const size_t few = all->plans < a->wanted ? all->plans : a->wanted;
    size_t s, t;
    memcpy(sums, all->sums, all->plans * sizeof *sums);
    qsort(sums, all->plans, sizeof *sums, by_sum);
    WANT(code == (few < a->wanted ? NUSHBARET_ALONE : NUSHBARET_BEST) && a->found == few);
    for (t = 0; t < few; t++) {
        WANT(sum_of(a, all, a->plans + t * a->n) == sums[t]);
        WANT(a->totals[t] == (a->sense == NUSHBARET_MIN ? sums[t] : -sums[t]));
        for (s = 0; s < t; s++) WANT(memcmp(a->plans + s * a->n, a->plans + t * a->n, a->n * sizeof *a->plans) != 0);
    }
    if (few < a->wanted) counted->all++;
    else counted->first++;
}

static void judge(const struct asked *a, const struct all *all, question ask, int32_t code, struct counted *counted) {
    if (ask == ask_ranked) judge_ranked(a, all, code, counted);
    else if (ask == ask_next) judge_next(a, all, code, counted);
    else judge_unique(a, all, code, counted);
}

/* What an answer writes stands in both; nothing else does. */
static int is_all_else_the_same(const struct asked *a, const struct asked *before, question ask, int32_t code) {
    struct asked same = *before;
    const int is_next = ask == ask_next;
    if (ask == ask_ranked) {
        const size_t few = a->found < a->wanted ? a->found : a->wanted;
        memcpy(same.plans, a->plans, few * a->n * sizeof *same.plans);
        memcpy(same.totals, a->totals, few * sizeof *same.totals);
        same.found = a->found;
        return memcmp(a, &same, sizeof same) == 0;
    }
    if (code == (is_next ? NUSHBARET_BEST : NUSHBARET_TIED)) memcpy(same.other, a->other, sizeof same.other);
    if (code == NUSHBARET_BEST && !is_next) memcpy(same.ranks, a->ranks, sizeof same.ranks);
    if (code == NUSHBARET_BEST && is_next) {
        same.margin = a->margin;
        same.info.total = a->info.total;
    }
    return memcmp(a, &same, sizeof same) == 0;
}

/* The answer on a drawn problem; then the verdict where a price or an object is another one. */
static void compare(unsigned *seed, question ask, struct counted *counted) {
    struct asked a = draw(seed), before;
    int32_t end = solve_plan(&a);
    const struct all all = look_at_all(&a);
    int32_t code;
    WANT((end == NUSHBARET_BEST) == (all.plans > 0));
    if (end != NUSHBARET_BEST) return;
    before = a;
    code = ask(&a);
    judge(&a, &all, ask, code, counted);
    WANT(is_all_else_the_same(&a, &before, ask, code));
    if (drawn(seed) % 2) a.prices[drawn(seed) % a.m] += (int64_t)(drawn(seed) % 5) - 2;
    else a.objects[drawn(seed) % a.n] = drawn(seed) % (a.m + 2);
    before = a;
    end = check_plan(&before);
    code = ask(&a);
    if (end != NUSHBARET_BEST) WANT(code == end && memcmp(&a, &before, sizeof a) == 0);
    else judge(&a, &all, ask, code, counted);
}

/* Two persons and three objects: the plan 2, 1 is the only one of its sum; with another cost there are two. */
static struct asked worked(void) {
    static const int64_t costs[] = {4, 1, 9, 2, 3, 9};
    struct asked a;
    size_t k;
    memset(&a, 0, sizeof a);
    a.n = 2, a.m = 3, a.pairs = 6, a.wanted = 4;
    memcpy(a.costs, costs, sizeof costs);
    for (k = 0; k < 6; k++) a.of_persons[k] = (uint32_t)(k / 3 + 1), a.of_objects[k] = (uint32_t)(k % 3 + 1);
    WANT(solve_plan(&a) == NUSHBARET_BEST);
    return a;
}

static void shown(void) {
    struct asked a = worked();
    WANT(ask_unique(&a) == NUSHBARET_BEST);
    WANT(ask_next(&a) == NUSHBARET_BEST && a.margin == 4 && a.other[0] == 1 && a.other[1] == 2);
    WANT(ask_ranked(&a) == NUSHBARET_BEST && a.found == 4 && a.totals[0] == 3 && a.totals[1] == 7 && a.totals[3] == 11);
    WANT(a.plans[0] == 2 && a.plans[1] == 1 && a.plans[2] == 1 && a.plans[3] == 2);
    a.wanted = 7;
    WANT(ask_ranked(&a) == NUSHBARET_ALONE && a.found == 6);
    a.costs[4] = -1;
    WANT(solve_plan(&a) == NUSHBARET_BEST && a.info.total == 3);
    WANT(ask_unique(&a) == NUSHBARET_TIED);
    WANT(a.other[0] == (a.objects[0] == 1 ? 2 : 1) && a.other[1] == (a.objects[1] == 1 ? 2 : 1));
    WANT(ask_next(&a) == NUSHBARET_BEST && a.margin == 0);
}

/* Each fault is the first, and writes its place alone. */
static void faults(question ask) {
    static const int32_t codes[] = {NUSHBARET_SENSE, NUSHBARET_SIZE, NUSHBARET_SIZE, NUSHBARET_LENGTH, NUSHBARET_COST,
        NUSHBARET_PRICE_RANGE, NUSHBARET_UNLISTED};
    size_t k;
    for (k = 0; k < sizeof codes / sizeof *codes; k++) {
        struct asked a = worked(), before;
        a.info.place = 99;
        if (k == 0) a.sense = 2;
        if (k == 1) a.n = 0;
        if (k == 2) a.m = 0;
        if (k == 3) a.pairs = 5;
        if (k == 4) a.costs[4] = NUSHBARET_GREATEST_COST + 1;
        if (k == 5) a.prices[1] = -1;
        if (k == 6) a.objects[1] = 9;
        before = a;
        WANT(ask(&a) == codes[k]);
        WANT(a.info.place == (k == 4 ? 4u : 99u));
        before.info = a.info;
        WANT(memcmp(&a, &before, sizeof a) == 0);
    }
}

/* Lists of wrong lengths. */
static void lengths(void) {
    struct asked a = worked();
    WANT(nushbaret_unique(0, 2, 3, a.of_persons, 0, a.of_objects, 0, a.costs, 6, a.objects, 2, a.prices, 3, a.other, 1,
        a.ranks, 3, &a.info) == NUSHBARET_LENGTH);
    WANT(nushbaret_unique(0, 2, 3, a.of_persons, 0, a.of_objects, 0, a.costs, 6, a.objects, 2, a.prices, 3, a.other, 2,
        a.ranks, 2, &a.info) == NUSHBARET_LENGTH);
    WANT(nushbaret_unique(0, 2, 3, a.of_persons, 0, a.of_objects, 0, a.costs, 6, a.objects, 1, a.prices, 3, a.other, 2,
        a.ranks, 3, &a.info) == NUSHBARET_ANSWER_LENGTH);
    WANT(nushbaret_next(0, 2, 3, a.of_persons, 0, a.of_objects, 0, a.costs, 6, a.objects, 2, a.prices, 3, 9, a.other, 1,
        &a.margin, &a.info) == NUSHBARET_LENGTH);
    WANT(nushbaret_next(0, 2, 3, a.of_persons, 0, a.of_objects, 0, a.costs, 6, a.objects, 2, a.prices, 3, 0, a.other, 2,
        &a.margin, &a.info) == NUSHBARET_UNDECIDED);
    WANT(nushbaret_ranked(0, 2, 3, a.of_persons, 0, a.of_objects, 0, a.costs, 6, a.objects, 2, a.prices, 3, 9, a.plans, 0,
        a.totals, 0, &a.found, &a.info) == NUSHBARET_LENGTH);
    WANT(nushbaret_ranked(0, 2, 3, a.of_persons, 0, a.of_objects, 0, a.costs, 6, a.objects, 2, a.prices, 3, 9, a.plans, 5,
        a.totals, 3, &a.found, &a.info) == NUSHBARET_LENGTH);
    WANT(nushbaret_ranked(0, 2, 3, a.of_persons, 0, a.of_objects, 0, a.costs, 6, a.objects, 2, a.prices, 2, 9, a.plans, 6,
        a.totals, 3, &a.found, &a.info) == NUSHBARET_ANSWER_LENGTH);
}

static void refused(question ask, int is_sparse, int is_tied) {
    struct asked a = worked();
    a.is_sparse = is_sparse;
    if (is_tied) a.costs[4] = -1;
    WANT(solve_plan(&a) == NUSHBARET_BEST);
    WANT_REFUSALS(struct asked, ask, a, is_tied && ask == ask_unique ? NUSHBARET_TIED : NUSHBARET_BEST, 5);
}

/* A ring in which each person could take the next one's object as well, or at 1 more each: its path has all persons. */
static void ring(size_t n, int is_closed, int64_t more) {
    static uint32_t of_persons[200000], of_objects[200000], objects[100000], other[100000];
    static int64_t costs[200000], prices[100000];
    static int32_t ranks[100000];
    struct nushbaret_info info;
    const size_t pairs = 2 * n - (is_closed ? 0 : 1);
    int64_t margin = -1;
    size_t i;
    for (i = 0; i < n; i++) {
        of_persons[2 * i] = of_objects[2 * i] = objects[i] = (uint32_t)i + 1;
        of_persons[2 * i + 1] = (uint32_t)i + 1, of_objects[2 * i + 1] = (uint32_t)((i + 1) % n) + 1;
        costs[2 * i + 1] = more;
    }
    memset(&info, 0, sizeof info);
    WANT(nushbaret_unique(NUSHBARET_MIN, n, n, of_persons, pairs, of_objects, pairs, costs, pairs, objects, n, prices, n,
        other, n, ranks, n, &info) == (is_closed && more == 0 ? NUSHBARET_TIED : NUSHBARET_BEST));
    for (i = 0; i < n && more == 0; i++) WANT(is_closed ? other[i] == (i + 1) % n + 1 : i == 0 || ranks[i] > ranks[i - 1]);
    if (is_closed && more > 0) return;
    WANT(nushbaret_next(NUSHBARET_MIN, n, n, of_persons, pairs, of_objects, pairs, costs, pairs, objects, n, prices, n,
        UINT64_MAX, other, n, &margin, &info) == (is_closed ? NUSHBARET_BEST : NUSHBARET_ALONE));
    WANT(margin == (is_closed ? (int64_t)n * more : -1));
}

void test_plans(void) {
    unsigned seed = 5;
    struct counted counted;
    int k;
    memset(&counted, 0, sizeof counted);
    shown();
    faults(ask_unique);
    faults(ask_next);
    faults(ask_ranked);
    lengths();
    for (k = 0; k < 4; k++) {
        refused(ask_unique, k / 2, k % 2);
        refused(ask_next, k / 2, k % 2);
        refused(ask_ranked, k / 2, k % 2);
    }
    ring(100000, 0, 0);
    ring(100000, 1, 0);
    ring(100000, 0, 1);
    for (k = 0; k < 6000; k++) compare(&seed, ask_unique, &counted), compare(&seed, ask_next, &counted);
    for (k = 0; k < 3000; k++) compare(&seed, ask_ranked, &counted);
    WANT(counted.first > 500 && counted.all > 500);
    WANT(counted.only > 1000 && counted.tied > 1000);
    WANT(counted.next > 1000 && counted.alone > 100);
}
