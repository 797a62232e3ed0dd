/* Drawn squares and rectangles compared with a slow search, begun with first prices, plans and records of any kind, in pieces
   and in one. */
#include "calls.h"

/* The least sum of costs by trying all; `listed` is 0 for a pair that isn't listed. */
static int64_t least(const struct call *c, const int64_t *costs, const char *listed, size_t i, unsigned used) {
    int64_t best = INT64_MAX;
    size_t j;
    if (i == c->n) return 0;
    for (j = 0; j < c->m; j++)
        if (!(used >> j & 1) && listed[i * c->m + j]) {
            int64_t rest = least(c, costs, listed, i + 1, used | 1u << j);
            if (rest != INT64_MAX && costs[i * c->m + j] + rest < best) best = costs[i * c->m + j] + rest;
        }
    return best;
}

/* Whether objects and prices are a certificate, looked at here: each person's own object is a best one, and objects that
   nobody has cost 0. */
static int is_certificate(const struct call *c, const int64_t *costs, const char *listed) {
    unsigned used = 0;
    size_t i, j;
    for (i = 0; i < c->n; i++) used |= 1u << (c->objects[i] - 1);
    for (j = 0; j < c->m; j++)
        if (c->prices[j] < 0 || c->prices[j] > NUSHBARET_GREATEST_PRICE || (!(used >> j & 1) && c->prices[j] != 0)) return 0;
    for (i = 0; i < c->n; i++) {
        size_t own = (size_t)c->objects[i] - 1;
        int64_t paid = costs[i * c->m + own] + c->prices[own];
        for (j = 0; j < c->m; j++)
            if (listed[i * c->m + j] && costs[i * c->m + j] + c->prices[j] < paid) return 0;
    }
    return 1;
}

/* Of all assignments that give persons from i on what isn't used, how many are judged wrongly under the prices that
   were found: those of the best sum are to pass, and no others; and the library's verdict is that
   of the definition. */
static int wrongly_judged(struct call *c, const int64_t *costs, const char *listed, int64_t left, size_t i, unsigned used) {
    size_t j;
    int wrong = 0;
    if (i == c->n) {
        int is_best = check(c) == NUSHBARET_BEST;
        return is_best != (left == 0) || is_best != is_certificate(c, costs, listed);
    }
    for (j = 0; j < c->m; j++)
        if (!(used >> j & 1) && listed[i * c->m + j]) {
            c->objects[i] = (uint32_t)(j + 1);
            wrong += wrongly_judged(c, costs, listed, left - costs[i * c->m + j], i + 1, used | 1u << j);
        }
    return wrong;
}

unsigned drawn(unsigned *seed) {
    *seed = *seed * 1664525u + 1013904223u;
    return *seed >> 16;
}

/* Lists a pair, and one in four twice, at a cost that is no better; returns the cost to minimise. */
static int64_t list_one(struct call *c, size_t k, unsigned *seed) {
    int64_t sign = c->sense == NUSHBARET_MAX ? -1 : 1, cost = (int64_t)(drawn(seed) % 2001) - 1000;
    size_t times = c->is_sparse && drawn(seed) % 4 == 0 ? 2 : 1, worse = drawn(seed) % 2, time;
    if (drawn(seed) % 4 == 0) cost /= 200;
    for (time = 0; time < times; time++) {
        c->of_persons[c->pairs] = (uint32_t)(k / c->m + 1), c->of_objects[c->pairs] = (uint32_t)(k % c->m + 1);
        c->costs[c->pairs++] = times == 2 && time == worse ? cost + sign * (int64_t)(drawn(seed) % 50) : cost;
    }
    return sign * cost;
}

/* A start of any kind: first prices or none, a plan with numbers that are no objects, and one in four times a record of any
   numbers. */
static void start_anywhere(struct call *c, unsigned *seed) {
    size_t k;
    c->is_from = 1, c->is_without_first = (int)(drawn(seed) % 2), c->budget = drawn(seed) % 3 ? 0 : 1 + drawn(seed) % 100;
    for (k = 0; k < c->m; k++) c->first[k] = drawn(seed) % 2000, c->prices[k] = (int64_t)drawn(seed) - 9000;
    for (k = 0; k < c->n; k++) c->objects[k] = drawn(seed) % 9;
    if (drawn(seed) % 4) return;
    c->record.stage = drawn(seed) % 16, c->record.shift = drawn(seed) % 80, c->record.slackness = (int64_t)drawn(seed) - 500;
    c->record.bids = drawn(seed), c->record.passes = drawn(seed), c->record.dummy_bids = drawn(seed);
    c->record.flags = drawn(seed), c->record.arc_scans = drawn(seed);
    if (drawn(seed) % 4 == 0) c->record.slackness = INT64_MIN, c->record.bids = UINT64_MAX, c->record.arc_scans = UINT64_MAX;
}

/* Whether each person has an object, or none yet (0), and no two the same. */
static int are_objects_or_none(const struct call *c) {
    unsigned used = 1;
    size_t i;
    for (i = 0; i < c->n; i++) {
        if (c->objects[i] > c->m || (c->objects[i] > 0 && used >> c->objects[i] & 1)) return 0;
        used |= 1u << c->objects[i];
    }
    return 1;
}

/* Calls until the search ends; -3 where it doesn't in so many pieces. */
static int32_t solve_in_pieces(struct call *c, long *pieces) {
    int32_t code = -3;
    for (*pieces = 1; *pieces < 100000; ++*pieces) {
        struct call before = *c;
        code = solve(c);
        if (code != NUSHBARET_STOPPED) return code;
        WANT(memcmp(before.persons, c->persons, sizeof c->persons) == 0 && memcmp(&before.info, &c->info, sizeof c->info) == 0);
        WANT(are_objects_or_none(c));
    }
    return -3;
}

/* A problem of up to five persons and seven objects, dense or sparse, under either sense, by lists or by structs; also its
   costs to minimise, and which pairs are listed. */
static struct call drawn_call(int64_t *costs, char *listed, unsigned *seed) {
    struct call c;
    size_t k;
    memset(&c, 0, sizeof c);
    c.n = 1 + drawn(seed) % 5, c.m = drawn(seed) % 4 ? 1 + drawn(seed) % 7 : c.n;
    c.sense = drawn(seed) % 2, c.is_sparse = (int)(drawn(seed) % 2), c.is_by_struct = (int)(drawn(seed) % 2);
    for (k = 0; k < c.n * c.m; k++) {
        listed[k] = (char)(!c.is_sparse || drawn(seed) % 3 != 0);
        costs[k] = listed[k] ? list_one(&c, k, seed) : 0;
    }
    return c;
}

/* Begun anywhere; 1 where it is solved as the slow search says, and the prices prove each best assignment. */
int is_right(unsigned *seed) {
    int64_t costs[42], best, sign;
    char listed[42];
    struct call c = drawn_call(costs, listed, seed);
    long pieces;
    int32_t code;
    sign = c.sense == NUSHBARET_MAX ? -1 : 1;
    if (drawn(seed) % 2) start_anywhere(&c, seed);
    best = c.n > c.m ? INT64_MAX : least(&c, costs, listed, 0, 0);
    code = solve_in_pieces(&c, &pieces);
    if (best == INT64_MAX) return code == NUSHBARET_HALL && (c.pairs == 0 || check_hall(&c) == NUSHBARET_HALL);
    return code == NUSHBARET_BEST && c.info.total == sign * best && check(&c) == NUSHBARET_BEST
        && is_certificate(&c, costs, listed) && wrongly_judged(&c, costs, listed, best, 0, 0) == 0;
}

/* Without first prices, or with all of them 0, a `_from` call does what the plain one does, whatever its plan. */
static void as_the_plain_calls(void) {
    unsigned seed = 1, trial;
    for (trial = 0; trial < 300; trial++) {
        int64_t costs[42];
        char listed[42];
        struct call from = drawn_call(costs, listed, &seed), plain;
        start_anywhere(&from, &seed);
        memset(from.first, 0, sizeof from.first);
        from.record.stage = 0, from.budget = 0, from.is_by_struct = 0;
        plain = from, plain.is_from = 0;
        WANT(solve(&from) == solve(&plain) && memcmp(&from.info, &plain.info, sizeof from.info) == 0);
        WANT(memcmp(from.objects, plain.objects, sizeof from.objects) == 0);
        WANT(memcmp(from.persons, plain.persons, sizeof from.persons) == 0);
        WANT(memcmp(from.prices, plain.prices, sizeof from.prices) == 0);
    }
}

void test_drawn(void) {
    as_the_plain_calls();
}
