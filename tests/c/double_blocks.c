/* Blocks over doubles: what one shows is what a plain program sees in exact sums, and each fault and each refused growth
   leaves the lists as they were. */
#include "calls.h"
#include <math.h>

enum { ROWS = 4, COLUMNS = 5, ROOM = ROWS * COLUMNS };

/* A whole number and a tiny one, one of which is 0. The sum of two of them may be no double. */
struct number {
    int whole, tiny;
};

struct block {
    uint32_t sense;
    size_t n, m, most, room;
    double costs[ROOM], number_costs[ROWS], number_prices[ROWS], prices[COLUMNS], least_costs[ROWS], better_costs[ROOM];
    uint32_t objects[ROWS], least_objects[ROWS], better_persons[ROOM], better_objects[ROOM];
    uint8_t own[ROWS];
    struct nushbaret_doubles_info info;
};

static int32_t look(struct block *b) {
    int32_t code = nushbaret_block_doubles(b->sense, b->n, b->m, b->costs, b->n * b->m, b->objects, b->n, b->number_costs, b->n,
        b->number_prices, b->n, b->prices, b->m, b->most, b->least_objects, b->n, b->least_costs, b->n, b->own, b->n,
        b->better_persons, b->room, b->better_objects, b->room, b->better_costs, b->room, &b->info);
    return blocks == 0 ? code : -1;
}

/* Two rows of three columns at prices 0, 0.2 and 0.1; own objects 2 and 1 at their sums. */
static struct block worked(void) {
    static const double costs[] = {0.4, 0.1, INFINITY, 0.2, 0.3, 0.9}, prices[] = {0, 0.2, 0.1};
    struct block b;
    memset(&b, 0, sizeof b);
    b.n = 2, b.m = 3, b.most = 2, b.room = ROOM;
    memcpy(b.costs, costs, sizeof costs);
    memcpy(b.prices, prices, sizeof prices);
    b.objects[0] = 2, b.objects[1] = 1;
    b.number_costs[0] = 0.1, b.number_prices[0] = 0.2, b.number_costs[1] = 0.2;
    return b;
}

static void shown(void) {
    struct block b = worked();
    WANT(look(&b) == NUSHBARET_BEST);
    WANT(b.least_objects[0] == 2 && b.least_costs[0] == 0.1 && b.least_objects[1] == 1 && b.least_costs[1] == 0.2);
    WANT(b.own[0] == 1 && b.own[1] == 1);
    /* The double 0.3 is below the exact sum of 0.1 and 0.2, the next one above it, though both round to one number. */
    b.number_costs[0] = 0.3, b.number_prices[0] = 0;
    WANT(look(&b) == NUSHBARET_BEST && b.own[0] == 0);
    b.number_costs[0] = 0.1 + 0.2;
    WANT(look(&b) == NUSHBARET_SLACK && b.info.person == 1 && b.info.object == 2 && b.own[0] == 0);
    WANT(b.info.persons == 1 && b.better_persons[0] == 1 && b.better_objects[0] == 2 && b.better_costs[0] == 0.1);
    b.costs[0] = b.costs[1] = INFINITY;
    WANT(look(&b) == NUSHBARET_BEST && b.least_objects[0] == 0 && b.info.persons == 0);
}

/* Each fault is the first, and writes what it names alone. */
static void faults(void) {
    static const int32_t codes[] = {NUSHBARET_SENSE, NUSHBARET_SIZE, NUSHBARET_SIZE, NUSHBARET_COST, NUSHBARET_COST,
        NUSHBARET_PRICE_RANGE, NUSHBARET_PRICE, NUSHBARET_PRICE};
    size_t k;
    for (k = 0; k < sizeof codes / sizeof *codes; k++) {
        struct block b = worked(), before;
        if (k == 0) b.sense = 2;
        if (k == 1) b.n = 0;
        if (k == 2) b.m = 0;
        if (k == 3) b.costs[4] = NAN;
        if (k == 4) b.costs[4] = -INFINITY;
        if (k == 5) b.prices[1] = INFINITY;
        if (k == 6) b.number_costs[1] = NAN;
        if (k == 7) b.number_prices[1] = -INFINITY;
        before = b;
        WANT(look(&b) == codes[k]);
        WANT(b.info.place == (k == 3 || k == 4 ? 4u : 0u));
        WANT(b.info.object == (k == 5 ? 2u : 0u) && b.info.person == (k > 5 ? 2u : 0u));
        before.info = b.info;
        WANT(memcmp(&b, &before, sizeof b) == 0);
    }
    {
        struct block b = worked();
        WANT(nushbaret_block_doubles(0, 2, 3, b.costs, 6, b.objects, 2, b.number_costs, 2, b.number_prices, 1, b.prices, 3, 1,
            b.least_objects, 2, b.least_costs, 2, b.own, 2, b.better_persons, 2, b.better_objects, 2, b.better_costs, 2, &b.info)
            == NUSHBARET_LENGTH);
        WANT(nushbaret_block_doubles(0, 2, 3, b.costs, 6, b.objects, 2, b.number_costs, 2, b.number_prices, 2, b.prices, 3, 1,
            b.least_objects, 2, b.least_costs, 2, b.own, 2, b.better_persons, 2, b.better_objects, 2, b.better_costs, 3, &b.info)
            == NUSHBARET_LENGTH);
    }
}

static void refused(void) {
    struct block b = worked();
    b.number_costs[0] = 11;
    WANT_REFUSALS(struct block, look, b, NUSHBARET_SLACK, 3);
}

static struct number draw(unsigned *seed, double *value) {
    struct number one = {0, 0};
    const int size = (int)(drawn(seed) % 7) - 3;
    if (drawn(seed) % 2) one.whole = size, *value = size;
    else one.tiny = size, *value = ldexp(size, -80);
    return one;
}

/* The sum of a cost, turned so that less is better, and a price. */
static struct number sum(uint32_t sense, struct number cost, struct number price) {
    const int sign = sense == NUSHBARET_MIN ? 1 : -1;
    struct number both = {sign * cost.whole + price.whole, sign * cost.tiny + price.tiny};
    return both;
}

static int compare(struct number one, struct number other) {
    return one.whole != other.whole ? one.whole - other.whole : one.tiny - other.tiny;
}

/* The pairs that were written of a person are better ones, each once, and none that is left out is lower by a whole number;
   returns how many they are. */
static size_t count_written(const struct block *b, const struct number *costs, const struct number *prices,
    const struct number *numbers, size_t i) {
    size_t k, j, count = 0, last = 0;
    struct number most = {-1000, 0};
    int is_written[COLUMNS] = {0};
    for (k = 0; k < b->info.persons; k++) {
        if (b->better_persons[k] != i + 1) continue;
        j = b->better_objects[k] - 1;
        WANT(j + 1 > last && b->better_costs[k] == b->costs[i * b->m + j] && !isinf(b->better_costs[k]));
        WANT(compare(sum(b->sense, costs[i * b->m + j], prices[j]), numbers[i]) < 0);
        if (compare(sum(b->sense, costs[i * b->m + j], prices[j]), most) > 0) most = sum(b->sense, costs[i * b->m + j], prices[j]);
        is_written[j] = 1, last = j + 1, count++;
    }
    for (j = 0; j < b->m && count > 0; j++)
        WANT(is_written[j] || isinf(b->costs[i * b->m + j])
            || sum(b->sense, costs[i * b->m + j], prices[j]).whole >= most.whole);
    return count;
}

/* What a drawn block shows is what a plain look sees. */
static void drawn_block(unsigned *seed) {
    struct block b;
    struct number costs[ROOM], prices[COLUMNS], numbers[ROWS];
    size_t i, j, first = 0, written = 0;
    int32_t code;
    memset(&b, 0, sizeof b);
    b.n = 1 + drawn(seed) % ROWS, b.m = 1 + drawn(seed) % COLUMNS, b.sense = drawn(seed) % 2;
    b.most = drawn(seed) % 4, b.room = ROOM;
    for (j = 0; j < b.m; j++) prices[j] = draw(seed, &b.prices[j]);
    for (j = 0; j < b.n * b.m; j++) {
        costs[j] = draw(seed, &b.costs[j]);
        if (drawn(seed) % 5 == 0) b.costs[j] = b.sense == NUSHBARET_MIN ? INFINITY : -INFINITY;
    }
    for (i = 0; i < b.n; i++) {
        struct number cost = draw(seed, &b.number_costs[i]);
        numbers[i] = sum(b.sense, cost, draw(seed, &b.number_prices[i]));
        b.objects[i] = drawn(seed) % (b.m + 2);
    }
    code = look(&b);
    for (i = 0; i < b.n; i++) {
        struct number least = {0, 0};
        size_t at = 0, under = 0;
        int own = 0;
        for (j = 0; j < b.m; j++) {
            const struct number one = sum(b.sense, costs[i * b.m + j], prices[j]);
            if (isinf(b.costs[i * b.m + j])) continue;
            if (at == 0 || compare(one, least) < 0) least = one, at = j + 1;
            if (compare(one, numbers[i]) == 0 && b.objects[i] == j + 1) own = 1;
            if (compare(one, numbers[i]) >= 0) continue;
            under++;
            if (first != 0) continue;
            first = j + 1;
            WANT(b.info.person == i + 1 && b.info.object == j + 1);
        }
        WANT(b.least_objects[i] == at && b.own[i] == own);
        WANT(at == 0 || b.least_costs[i] == b.costs[i * b.m + at - 1]);
        WANT(count_written(&b, costs, prices, numbers, i) == (under < b.most ? under : b.most));
        written += under < b.most ? under : b.most;
    }
    WANT(code == (first != 0 ? NUSHBARET_SLACK : NUSHBARET_BEST) && b.info.persons == written);
}

void test_double_blocks(void) {
    unsigned seed = 11;
    int k;
    shown();
    faults();
    refused();
    for (k = 0; k < 3000; k++) drawn_block(&seed);
}
