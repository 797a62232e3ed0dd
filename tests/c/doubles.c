/* Calls over doubles with each growth refused in turn: they end with NUSHBARET_MEMORY, or without needing it, write nothing
   else then, and leave no block. Faults come before it. */
#include "calls.h"
#include <math.h>

enum { SIDE = 24 };

/* What a call reads and writes. */
struct doubles {
    size_t n, m;
    int kind; /* 0: nushbaret_doubles; 1: from the lists; 2: the checking call */
    double costs[SIDE * SIDE], prices[SIDE];
    uint32_t objects[SIDE], persons[SIDE];
    struct nushbaret_doubles_info info;
};

static int32_t make(struct doubles *c) {
    size_t n = c->n, m = c->m;
    if (c->kind == 2)
        return nushbaret_check_doubles(NUSHBARET_MIN, n, m, c->costs, n * m, c->objects, n, c->prices, m, &c->info);
    if (c->kind == 1)
        return nushbaret_doubles_from(NUSHBARET_MIN, n, m, c->costs, n * m, c->objects, n, c->persons, n, c->prices, m, &c->info);
    return nushbaret_doubles(NUSHBARET_MIN, n, m, c->costs, n * m, c->objects, n, c->persons, n, c->prices, m, &c->info);
}

/* Refuses each growth of a call in turn. */
static void refuse(const struct doubles *given, int32_t wanted) {
    long k, all;
    struct doubles c = *given;
    growths = 0, refuse_at = 0;
    WANT(make(&c) == wanted);
    WANT(blocks == 0);
    all = growths;
    WANT(all > 0);
    for (k = 1; k <= all; k++) {
        int32_t code;
        struct doubles again = *given;
        growths = 0, refuse_at = k;
        code = make(&again);
        WANT(code == NUSHBARET_MEMORY);
        WANT(code == wanted || memcmp(&again, given, sizeof again) == 0);
        WANT(blocks == 0);
    }
    refuse_at = 0;
}

static struct doubles drawn_doubles(size_t n, size_t m) {
    struct doubles c;
    unsigned seed = 1;
    size_t k;
    memset(&c, 0, sizeof c);
    c.n = n, c.m = m;
    for (k = 0; k < n * m; k++) {
        c.costs[k] = drawn(&seed) / 65536.0;
        c.costs[k] += drawn(&seed) / 4294967296.0;
    }
    return c;
}

void test_doubles(void) {
    size_t sizes[4][2] = {{1, 1}, {2, 3}, {5, 5}, {24, 24}}, k;
    for (k = 0; k < 4; k++) {
        size_t n = sizes[k][0], m = sizes[k][1];
        struct doubles c = drawn_doubles(n, m), solved;
        refuse(&c, NUSHBARET_BEST);
        solved = c;
        WANT(make(&solved) == NUSHBARET_BEST);
        solved.kind = 1, solved.objects[0] = 0;
        refuse(&solved, NUSHBARET_BEST);
        solved = c;
        WANT(make(&solved) == NUSHBARET_BEST);
        solved.kind = 2;
        refuse(&solved, NUSHBARET_BEST);
        solved.objects[0] = 0;
        refuse(&solved, NUSHBARET_UNLISTED);
        c.costs[n * m - 1] = NAN;
        for (c.kind = 0; c.kind < 3; c.kind++) {
            struct doubles faulty = c;
            refuse_at = 1, growths = 0;
            WANT(make(&faulty) == NUSHBARET_COST && faulty.info.place == n * m - 1);
            WANT(blocks == 0);
            refuse_at = 0;
        }
    }
    {
        struct doubles c = drawn_doubles(3, 3);
        c.costs[3] = c.costs[4] = c.costs[5] = INFINITY;
        refuse(&c, NUSHBARET_HALL);
        c = drawn_doubles(4, 2);
        refuse(&c, NUSHBARET_HALL);
    }
}
