/* Times warm starts of the library for C: a drawn problem is solved, some rows are drawn again, and it is solved from
   nothing, from the prices of before, from these with the plan, and from useless prices. Processor time, the least of
   three calls; shares of the call from nothing.
     warm N M EACH MOST ROWS [fallback]   N persons, M objects, EACH pairs a person (0: all), costs 1..MOST, so many rows
                            drawn again; with the word fallback the last N objects are each for one person alone, at 2 MOST
   Build: cc -O2 -o warm bench/warm.c c/out/libnushbaret.a */
#define _DEFAULT_SOURCE
#include "../c/nushbaret.h"
#include <stdio.h>
#include <stdlib.h>
#include <string.h>
#include <time.h>

enum { TIMES = 3 };

struct drawn {
    size_t n, m, each, count;
    int64_t most;
    int is_dense, has_fallback;
    uint32_t *persons, *objects;
    int64_t *costs;
};

struct call {
    uint32_t *objects, *persons;
    int64_t *prices;
    struct nushbaret_info info;
};

static uint64_t state = 88172645463325252u;

static uint64_t draw(void) {
    state ^= state << 13;
    state ^= state >> 7;
    return state ^= state << 17;
}

static void *room(size_t count, size_t size) {
    void *block = calloc(count + 1, size);
    if (block == NULL) exit(4);
    return block;
}

static void draw_row(struct drawn *d, size_t person) {
    size_t k, shared = d->has_fallback ? d->m - d->n : d->m;
    for (k = 0; k < d->each; k++) {
        const size_t at = person * d->each + k;
        const int is_fallback = d->has_fallback && k == 0;
        d->costs[at] = is_fallback ? 2 * d->most : 1 + (int64_t)(draw() % (uint64_t)d->most);
        if (d->is_dense) continue;
        d->persons[at] = (uint32_t)(person + 1);
        d->objects[at] = (uint32_t)(is_fallback ? shared + person + 1 : k == 0 ? person + 1 : 1 + draw() % shared);
    }
}

static int32_t solve(const struct drawn *d, struct call *c, const int64_t *first, size_t first_count) {
    struct nushbaret_record record;
    memset(&record, 0, sizeof record);
    if (d->is_dense)
        return nushbaret_dense_from(NUSHBARET_MIN, d->n, d->m, d->costs, d->count, first, first_count, c->objects, d->n,
            c->persons, d->n, c->prices, d->m, 0, &record, &c->info);
    return nushbaret_sparse_from(NUSHBARET_MIN, d->n, d->m, d->persons, d->count, d->objects, d->count, d->costs, d->count,
        first, first_count, c->objects, d->n, c->persons, d->n, c->prices, d->m, 0, &record, &c->info);
}

/* The least seconds of a call from these prices and this plan; either may be missing. */
static double least(const struct drawn *d, struct call *c, const int64_t *first, const uint32_t *plan) {
    double found = 1e9;
    int k;
    for (k = 0; k < TIMES; k++) {
        struct timespec from, to;
        double seconds;
        memset(c->objects, 0, d->n * sizeof *c->objects);
        if (plan != NULL) memcpy(c->objects, plan, d->n * sizeof *plan);
        clock_gettime(CLOCK_THREAD_CPUTIME_ID, &from);
        if (solve(d, c, first != NULL ? first : c->prices, first != NULL ? d->m : 0) != NUSHBARET_BEST) exit(3);
        clock_gettime(CLOCK_THREAD_CPUTIME_ID, &to);
        seconds = (double)(to.tv_sec - from.tv_sec) + (double)(to.tv_nsec - from.tv_nsec) / 1e9;
        if (seconds < found) found = seconds;
    }
    return found;
}

int main(int count, char **words) {
    struct drawn d;
    struct call c;
    uint32_t *plan;
    int64_t *prices, total;
    double cold, share[3];
    size_t k, rows;
    if (count < 6) return 2;
    d.n = (size_t)atol(words[1]), d.m = (size_t)atol(words[2]), d.each = (size_t)atol(words[3]);
    d.most = atol(words[4]), rows = (size_t)atol(words[5]);
    d.is_dense = d.each == 0, d.has_fallback = count > 6;
    if (d.is_dense) d.each = d.m;
    d.count = d.n * d.each;
    d.persons = (uint32_t *)room(d.count, 4), d.objects = (uint32_t *)room(d.count, 4);
    d.costs = (int64_t *)room(d.count, 8);
    c.objects = (uint32_t *)room(d.n, 4), c.persons = (uint32_t *)room(d.n, 4), c.prices = (int64_t *)room(d.m, 8);
    plan = (uint32_t *)room(d.n, 4), prices = (int64_t *)room(d.m, 8);
    for (k = 0; k < d.n; k++) draw_row(&d, k);
    if (solve(&d, &c, c.prices, 0) != NUSHBARET_BEST) return 3;
    memcpy(plan, c.objects, d.n * sizeof *plan);
    memcpy(prices, c.prices, d.m * sizeof *prices);
    for (k = 0; k < rows; k++) draw_row(&d, draw() % d.n);
    cold = least(&d, &c, NULL, NULL);
    total = c.info.total;
    share[0] = least(&d, &c, prices, NULL) / cold;
    share[1] = least(&d, &c, prices, plan) / cold;
    for (k = 0; k < d.m; k++) prices[k] = (int64_t)(draw() % (uint64_t)(10 * d.most));
    share[2] = least(&d, &c, prices, NULL) / cold;
    if (c.info.total != total) return 5;
    printf("%zu x %zu, %zu pairs a person, costs to %lld, %zu rows drawn again: %.4f s from nothing; shares: prices %.2f, "
           "with the plan %.2f, useless prices %.2f\n",
        d.n, d.m, d.each, (long long)d.most, rows, cold, share[0], share[1], share[2]);
    return 0;
}
