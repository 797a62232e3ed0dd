/* Costs of 128 bits: what the call says is what a search of all plans finds, its prices prove it, each fault and each refused
   growth leaves the lists as they were. */
#include "calls.h"

enum { ROWS = 6, COLUMNS = 7, ROOM = 60 };

/* What the calls read and write. */
struct asked {
    uint32_t sense;
    size_t n, m, pairs;
    int is_sparse;
    struct nushbaret_wide_number costs[ROOM], prices[COLUMNS], total;
    uint32_t of_persons[ROOM], of_objects[ROOM], objects[ROWS], persons[ROWS];
    struct nushbaret_info info;
};

static int32_t ask(struct asked *a) {
    const size_t pairs = a->is_sparse ? a->pairs : 0;
    int32_t code = nushbaret_wide(a->sense, a->n, a->m, a->of_persons, pairs, a->of_objects, pairs, a->costs, a->pairs,
        a->objects, a->n, a->persons, a->n, a->prices, a->m, &a->total, &a->info);
    return blocks == 0 ? code : -1;
}

static int32_t check_wide(struct asked *a) {
    const size_t pairs = a->is_sparse ? a->pairs : 0;
    int32_t code = nushbaret_check_wide(a->sense, a->n, a->m, a->of_persons, pairs, a->of_objects, pairs, a->costs, a->pairs,
        a->objects, a->n, a->prices, a->m, &a->info);
    return blocks == 0 ? code : -1;
}

/* The least sum of persons from i on, by all plans, costs turned under NUSHBARET_MAX; `none` if there is no plan. */
static const wide none = (wide)1 << 124;

static wide least_sum(const struct asked *a, size_t i, unsigned used) {
    wide least = none;
    size_t k;
    if (i == a->n) return 0;
    for (k = 0; k < a->pairs; k++)
        if (a->of_persons[k] == i + 1 && !(used >> a->of_objects[k] & 1)) {
            const wide cost = value_of(a->costs[k]), rest = least_sum(a, i + 1, used | 1u << a->of_objects[k]);
            const wide sum = (a->sense == NUSHBARET_MIN ? cost : -cost) + rest;
            if (rest < none && sum < least) least = sum;
        }
    return least;
}

/* Whether what the call left alone is as it was. */
static int stays(const struct asked *a, const struct asked *before, int32_t code) {
    struct asked now = *a;
    PUT_BACK(&now, before, code);
    if (code == NUSHBARET_BEST) now.total = before->total;
    return memcmp(&now, before, sizeof now) == 0;
}

/* The Hall set of an answer, on costs of 0. */
static int is_hall(struct asked *a) {
    static const int64_t zeros[ROOM] = {0};
    return nushbaret_check_hall(a->n, a->m, a->of_persons, a->pairs, a->of_objects, a->pairs, zeros, a->pairs, a->persons,
        (size_t)a->info.persons, a->objects, (size_t)a->info.objects, &a->info) == NUSHBARET_HALL;
}

static int is_as_searched(struct asked *a, const struct asked *before, int32_t code) {
    const wide least = least_sum(a, 0, 0);
    if (!stays(a, before, code)) return 0;
    if (least == none) return code == NUSHBARET_HALL && is_hall(a);
    if (code != NUSHBARET_BEST || value_of(a->total) != (a->sense == NUSHBARET_MIN ? least : -least)) return 0;
    return check_wide(a) == NUSHBARET_BEST;
}

/* A number of up to so many bits, of either sign. */
static wide drawn_wide(unsigned *seed, unsigned bits) {
    wide value = 0;
    unsigned k;
    for (k = 0; k < bits; k += 10) value = value * 1024 + drawn(seed) % 1024;
    value &= ((wide)1 << bits) - 1;
    return drawn(seed) % 3 == 0 ? -value : value;
}

/* A drawn problem of listed pairs, some of them twice, or dense: costs of any size, few values, values that nearly tie. */
static struct asked draw(unsigned *seed) {
    struct asked a;
    const unsigned kind = drawn(seed) % 3, bits = 1 + drawn(seed) % 100;
    const wide unit = drawn_wide(seed, bits);
    size_t k;
    memset(&a, 0, sizeof a);
    a.n = 1 + drawn(seed) % ROWS, a.m = a.n + drawn(seed) % (COLUMNS - a.n + 1);
    a.is_sparse = drawn(seed) % 2, a.sense = drawn(seed) % 2;
    a.pairs = a.is_sparse ? 1 + drawn(seed) % ROOM : a.n * a.m;
    for (k = 0; k < a.pairs; k++) {
        const wide near = kind == 2 ? (wide)(drawn(seed) % 3) : 0;
        a.costs[k] = number_of(kind == 0 ? drawn_wide(seed, bits) : unit / 8 * (wide)(drawn(seed) % 6) + near);
        a.of_persons[k] = (uint32_t)(a.is_sparse ? drawn(seed) % a.n : k / a.m) + 1;
        a.of_objects[k] = (uint32_t)(a.is_sparse ? drawn(seed) % a.m : k % a.m) + 1;
    }
    return a;
}

int is_wide_right(unsigned *seed) {
    struct asked a = draw(seed), before = a;
    const int32_t code = ask(&a);
    return is_as_searched(&a, &before, code);
}

/* Two persons and three objects: 2^99, 1 and 2^100; 1, 2 and -2^100. */
static struct asked worked(void) {
    struct asked a;
    size_t k;
    memset(&a, 0, sizeof a);
    a.n = 2, a.m = 3, a.pairs = 6;
    a.costs[0] = number_of((wide)1 << 99), a.costs[1] = number_of(1), a.costs[2] = number_of((wide)1 << 100);
    a.costs[3] = number_of(1), a.costs[4] = number_of(2), a.costs[5] = number_of(-((wide)1 << 100));
    for (k = 0; k < 6; k++) a.of_persons[k] = (uint32_t)(k / 3 + 1), a.of_objects[k] = (uint32_t)(k % 3 + 1);
    return a;
}

static void shown(void) {
    struct asked a = worked();
    WANT(ask(&a) == NUSHBARET_BEST && value_of(a.total) == 1 - ((wide)1 << 100));
    WANT(a.objects[0] == 2 && a.objects[1] == 3);
    a = worked();
    a.sense = NUSHBARET_MAX;
    WANT(ask(&a) == NUSHBARET_BEST && value_of(a.total) == ((wide)1 << 100) + 2);
    WANT(a.objects[0] == 3 && a.objects[1] == 2);
}

/* Each fault is the first, and writes its place alone. */
static void faults(void) {
    static const int32_t codes[] = {NUSHBARET_SENSE, NUSHBARET_SIZE, NUSHBARET_SIZE, NUSHBARET_LENGTH, NUSHBARET_COST,
        NUSHBARET_COST, NUSHBARET_PERSON, NUSHBARET_OBJECT};
    size_t k;
    for (k = 0; k < sizeof codes / sizeof *codes; k++) {
        struct asked a = worked(), before;
        a.info.place = 99;
        if (k == 0) a.sense = 2;
        if (k == 1) a.n = 0;
        if (k == 2) a.m = 0;
        if (k == 3) a.pairs = 5;
        if (k == 4) a.costs[5] = number_of(((wide)1 << 100) + 1);
        if (k == 5) a.costs[4] = number_of(-((wide)1 << 100) - 1);
        if (k > 5) a.is_sparse = 1;
        if (k == 6) a.of_persons[2] = 3;
        if (k == 7) a.of_objects[1] = 0;
        before = a;
        WANT(ask(&a) == codes[k]);
        WANT(a.info.place == (k < 4 ? 99u : k == 4 ? 5u : k == 5 ? 4u : k == 6 ? 2u : 1u));
        before.info = a.info;
        WANT(memcmp(&a, &before, sizeof a) == 0);
        WANT(check_wide(&a) == codes[k]);
    }
    for (k = 0; k < 3; k++) {
        struct asked a = worked();
        WANT(nushbaret_wide(0, 2, 3, a.of_persons, 0, a.of_objects, 0, a.costs, 6, a.objects, k == 0 ? 1 : 2, a.persons,
            k == 1 ? 1 : 2, a.prices, k == 2 ? 2 : 3, &a.total, &a.info) == NUSHBARET_LENGTH);
    }
}

/* Each verdict on a plan names the first fault. */
static void verdicts(void) {
    struct asked solved = worked(), a;
    WANT(ask(&solved) == NUSHBARET_BEST && check_wide(&solved) == NUSHBARET_BEST);
    WANT(nushbaret_check_wide(0, 2, 3, solved.of_persons, 0, solved.of_objects, 0, solved.costs, 6, solved.objects, 1,
        solved.prices, 3, &solved.info) == NUSHBARET_ANSWER_LENGTH);
    a = solved, a.objects[1] = 4;
    WANT(check_wide(&a) == NUSHBARET_UNLISTED && a.info.person == 2);
    a = solved, a.objects[1] = 2;
    WANT(check_wide(&a) == NUSHBARET_TWICE && a.info.object == 2);
    a = solved, a.prices[0] = number_of(-1);
    WANT(check_wide(&a) == NUSHBARET_PRICE_RANGE && a.info.object == 1);
    a = solved, a.prices[1] = number_of(((wide)1 << 124) + 1);
    WANT(check_wide(&a) == NUSHBARET_PRICE_RANGE && a.info.object == 2);
    a = solved, a.prices[0] = number_of(1);
    WANT(check_wide(&a) == NUSHBARET_OVERPRICED && a.info.object == 1);
    a = solved, a.objects[0] = 1, a.objects[1] = 2;
    memset(a.prices, 0, sizeof a.prices);
    WANT(check_wide(&a) == NUSHBARET_SLACK && a.info.person == 1 && a.info.object == 2);
}

static void refused(int is_sparse, int has_plan) {
    struct asked a = worked();
    a.is_sparse = is_sparse;
    if (!has_plan) a.is_sparse = 1, a.of_objects[1] = a.of_objects[2] = a.of_objects[4] = a.of_objects[5] = 1;
    WANT_REFUSALS(struct asked, ask, a, has_plan ? NUSHBARET_BEST : NUSHBARET_HALL, 5);
}

void test_wide(void) {
    unsigned seed = 31;
    int k;
    shown(), faults(), verdicts();
    for (k = 0; k < 4; k++) refused(k % 2, k / 2);
    for (k = 0; k < 3000; k++) WANT(is_wide_right(&seed));
}
