/* Blocks: what one shows is what a plain program sees, each fault leaves the lists as they were, and so does each refused
   growth. */
#include "calls.h"

enum { ROWS = 5, COLUMNS = 6, ROOM = ROWS * COLUMNS };

/* What a call on a block reads and writes. */
struct block {
    uint32_t sense;
    size_t n, m, pairs, most, room;
    int is_sparse;
    int64_t costs[ROOM], numbers[ROWS], prices[COLUMNS], least[ROWS], better_costs[ROOM];
    uint32_t of_persons[ROOM], of_objects[ROOM], objects[ROWS], better_persons[ROOM], better_objects[ROOM];
    uint8_t own[ROWS];
    struct nushbaret_info info;
};

static int32_t look(struct block *b) {
    const size_t pairs = b->is_sparse ? b->pairs : 0;
    int32_t code = nushbaret_block(b->sense, b->n, b->m, b->of_persons, pairs, b->of_objects, pairs, b->costs, b->pairs,
        b->objects, b->n, b->numbers, b->n, b->prices, b->m, b->most, b->least, b->n, b->own, b->n,
        b->better_persons, b->room, b->better_objects, b->room, b->better_costs, b->room, &b->info);
    return blocks == 0 ? code : -1;
}

/* The sum of a cost and a price. */
static int64_t sum(const struct block *b, size_t k) {
    const int64_t price = b->prices[b->of_objects[k] - 1];
    return b->sense == NUSHBARET_MIN ? price + b->costs[k] : price - b->costs[k];
}

/* Two rows of three columns, then what a dense call would list; prices 0, 2, 1, own objects 2 and 1 at their sums. */
static struct block worked(void) {
    static const int64_t costs[] = {4, 1, 9, 2, 3, 9};
    struct block b;
    size_t k;
    memset(&b, 0, sizeof b);
    b.n = 2, b.m = 3, b.pairs = 6, b.most = 2, b.room = ROOM;
    memcpy(b.costs, costs, sizeof costs);
    for (k = 0; k < 6; k++) b.of_persons[k] = (uint32_t)(k / 3 + 1), b.of_objects[k] = (uint32_t)(k % 3 + 1);
    b.prices[1] = 2, b.prices[2] = 1, b.objects[0] = 2, b.objects[1] = 1, b.numbers[0] = 3, b.numbers[1] = 2;
    return b;
}

static void shown(void) {
    struct block b = worked();
    WANT(look(&b) == NUSHBARET_BEST && b.info.persons == 0);
    WANT(b.least[0] == 3 && b.least[1] == 2 && b.own[0] == 1 && b.own[1] == 1);
    b.numbers[0] = 11, b.objects[1] = 2;
    WANT(look(&b) == NUSHBARET_SLACK && b.info.person == 1 && b.info.object == 1 && b.info.persons == 2);
    WANT(b.better_persons[0] == 1 && b.better_objects[0] == 1 && b.better_costs[0] == 4);
    WANT(b.better_persons[1] == 1 && b.better_objects[1] == 2 && b.better_costs[1] == 1);
    WANT(b.own[0] == 0 && b.own[1] == 0);
    b.sense = NUSHBARET_MAX, b.numbers[0] = -8, b.numbers[1] = -8, b.objects[0] = b.objects[1] = 3;
    WANT(look(&b) == NUSHBARET_BEST && b.least[0] == -8 && b.least[1] == -8 && b.own[0] == 1 && b.own[1] == 1);
}

/* Each fault is the first, and writes its place alone. */
static void faults(void) {
    static const int32_t codes[] = {NUSHBARET_SENSE, NUSHBARET_SIZE, NUSHBARET_SIZE, NUSHBARET_LENGTH, NUSHBARET_COST,
        NUSHBARET_PRICE, NUSHBARET_PRICE};
    size_t k;
    for (k = 0; k < sizeof codes / sizeof *codes; k++) {
        struct block b = worked(), before;
        b.info.place = 99;
        if (k == 0) b.sense = 2;
        if (k == 1) b.n = 0;
        if (k == 2) b.m = 0;
        if (k == 3) b.pairs = 5;
        if (k == 4) b.costs[4] = NUSHBARET_GREATEST_COST + 1;
        if (k == 5) b.prices[1] = -1;
        if (k == 6) b.prices[2] = NUSHBARET_GREATEST_PRICE + 1;
        before = b;
        WANT(look(&b) == codes[k]);
        WANT(b.info.place == (k == 4 ? 4u : k == 5 ? 1u : k == 6 ? 2u : 99u));
        before.info.place = b.info.place;
        WANT(memcmp(&b, &before, sizeof b) == 0);
    }
    {
        struct block b = worked();
        WANT(nushbaret_block(0, 2, 3, b.of_persons, 0, b.of_objects, 0, b.costs, 6, b.objects, 2, b.numbers, 2, b.prices, 3, 1,
            b.least, 2, b.own, 2, b.better_persons, 2, b.better_objects, 3, b.better_costs, 2, &b.info) == NUSHBARET_LENGTH);
    }
}

static void refused(int is_sparse) {
    struct block b = worked();
    b.is_sparse = is_sparse, b.numbers[0] = 11;
    WANT_REFUSALS(struct block, look, b, NUSHBARET_SLACK, 3);
}

/* A drawn block of listed pairs, or dense. */
static struct block draw(unsigned *seed) {
    struct block b;
    size_t k;
    memset(&b, 0, sizeof b);
    b.n = 1 + drawn(seed) % ROWS, b.m = 1 + drawn(seed) % COLUMNS, b.is_sparse = drawn(seed) % 2, b.sense = drawn(seed) % 2;
    b.pairs = b.is_sparse ? 1 + drawn(seed) % ROOM : b.n * b.m, b.most = drawn(seed) % 4, b.room = ROOM;
    for (k = 0; k < b.pairs; k++) {
        b.costs[k] = (int64_t)(drawn(seed) % 20) - 10;
        b.of_persons[k] = (uint32_t)(b.is_sparse ? drawn(seed) % b.n : k / b.m) + 1;
        b.of_objects[k] = (uint32_t)(b.is_sparse ? drawn(seed) % b.m : k % b.m) + 1;
    }
    for (k = 0; k < b.m; k++) b.prices[k] = drawn(seed) % 12;
    for (k = 0; k < b.n; k++) {
        b.objects[k] = (uint32_t)(drawn(seed) % (b.m + 2));
        b.numbers[k] = (int64_t)(drawn(seed) % 24) - 12;
    }
    return b;
}

/* How many pairs of a person are better, by a plain look; its least sum and its mark are right. */
static size_t count_better(const struct block *b, size_t i, uint32_t *first) {
    int64_t least = INT64_MAX, own = INT64_MAX;
    size_t k, under = 0;
    for (k = 0; k < b->pairs; k++) {
        if (b->of_persons[k] != i + 1) continue;
        if (sum(b, k) < least) least = sum(b, k);
        if (b->of_objects[k] == b->objects[i] && sum(b, k) < own) own = sum(b, k);
        if (sum(b, k) >= b->numbers[i]) continue;
        under++;
        if (*first == 0 || b->of_objects[k] < *first) *first = b->of_objects[k];
    }
    WANT(b->least[i] == least && b->own[i] == (own != INT64_MAX && own == b->numbers[i]));
    return under;
}

/* How many of the written pairs are of a person; each is better, and no pair that is left out is
   better than one of them. */
static size_t count_written(const struct block *b, size_t i) {
    int64_t worst = INT64_MIN;
    size_t k, lower = 0, count = 0;
    for (k = 0; k < b->info.persons; k++) {
        struct block one = *b;
        if (b->better_persons[k] != i + 1) continue;
        one.of_objects[0] = b->better_objects[k], one.costs[0] = b->better_costs[k];
        WANT(sum(&one, 0) < b->numbers[i]);
        worst = worst < sum(&one, 0) ? sum(&one, 0) : worst, count++;
    }
    for (k = 0; k < b->pairs; k++) lower += b->of_persons[k] == i + 1 && sum(b, k) < worst;
    WANT(lower < count || count == 0);
    return count;
}

/* What a drawn block shows is what a plain look sees. */
static void compare(unsigned *seed) {
    struct block b = draw(seed);
    const int32_t code = look(&b);
    size_t i, written = 0, better = 0;
    for (i = 0; i < b.n; i++) {
        uint32_t first = 0;
        const size_t under = count_better(&b, i, &first), count = count_written(&b, i);
        if (under > 0 && better == 0) WANT(b.info.person == i + 1 && b.info.object == first);
        WANT(count == (under < b.most ? under : b.most));
        written += count, better += under;
    }
    WANT(code == (better > 0 ? NUSHBARET_SLACK : NUSHBARET_BEST) && b.info.persons == written);
}

void test_blocks(void) {
    unsigned seed = 7;
    int k;
    shown();
    faults();
    refused(0);
    refused(1);
    for (k = 0; k < 3000; k++) compare(&seed);
}
