/* Each fault of a problem, of a length and of first prices, and the version. */
#include "calls.h"

/* The code of a spoilt call; what isn't reported must be as it was. */
static int32_t spoilt(struct call c) {
    struct call before;
    int32_t code;
    c.info.place = 99, c.record.arc_scans = 98, c.objects[1] = 97, c.prices[1] = -96;
    before = c;
    code = solve(&c);
    if (memcmp(c.objects, before.objects, sizeof c.objects) != 0) return -2;
    if (memcmp(c.persons, before.persons, sizeof c.persons) != 0) return -2;
    if (memcmp(c.prices, before.prices, sizeof c.prices) != 0) return -2;
    if (memcmp(&c.record, &before.record, sizeof c.record) != 0) return -2;
    return code * 100 + (int32_t)c.info.place;
}

static void sizes(void) {
    static const size_t wrong[] = {0, NUSHBARET_MOST_PERSONS + 1, (size_t)1 << 31, SIZE_MAX / 2 + 1, SIZE_MAX};
    struct call c = two(NUSHBARET_MIN, 1, 2, 3, 5);
    size_t k;
    for (k = 0; k < sizeof wrong / sizeof *wrong; k++) {
        c.n = wrong[k], c.m = 2;
        WANT(spoilt(c) == NUSHBARET_SIZE * 100 + 99);
        c.n = 2, c.m = wrong[k];
        WANT(spoilt(c) == NUSHBARET_SIZE * 100 + 99);
        c.is_sparse = !c.is_sparse, c.is_from = 1;
        WANT(spoilt(c) == NUSHBARET_SIZE * 100 + 99);
        WANT(nushbaret_check(0, wrong[k], 2, c.objects, 0, c.objects, 0, c.costs, 4, c.objects, 2, c.prices, 2, &c.info)
            == NUSHBARET_SIZE);
        WANT(nushbaret_check_hall(2, wrong[k], c.objects, 0, c.objects, 0, c.costs, 4, c.persons, 2, c.objects, 1, &c.info)
            == NUSHBARET_SIZE);
    }
    c.sense = 2;
    WANT(spoilt(c) == NUSHBARET_SENSE * 100 + 99);
    c.sense = UINT32_MAX, c.n = 0;
    WANT(spoilt(c) == NUSHBARET_SENSE * 100 + 99);
}

/* The code of a dense call whose lists have these lengths in place of those of two persons and three objects. */
static int32_t with_lengths(size_t costs, size_t first, size_t objects, size_t persons, size_t prices) {
    struct call c = two_of_three(NUSHBARET_MIN);
    return nushbaret_dense_from(0, 2, 3, c.costs, costs, c.first, first, c.objects, objects, c.persons, persons, c.prices,
        prices, 0, &c.record, &c.info);
}

/* Lengths are those of n persons and m objects, each list by itself. */
static void lengths(void) {
    struct call c = two_of_three(NUSHBARET_MIN);
    size_t k;
    WANT(with_lengths(6, 3, 2, 2, 3) == NUSHBARET_BEST);
    for (k = 0; k < 8; k++) {
        WANT(k == 6 || with_lengths(k, 3, 2, 2, 3) == NUSHBARET_LENGTH);
        WANT(with_lengths(6, k, 2, 2, 3) == (k == 3 || k == 0 ? NUSHBARET_BEST : NUSHBARET_LENGTH));
        WANT(k == 2 || with_lengths(6, 3, k, 2, 3) == NUSHBARET_LENGTH);
        WANT(k == 2 || with_lengths(6, 3, 2, k, 3) == NUSHBARET_LENGTH);
        WANT(k == 3 || with_lengths(6, 3, 2, 2, k) == NUSHBARET_LENGTH);
        WANT(k == 2 || nushbaret_check(0, 2, 3, c.objects, 0, c.objects, 0, c.costs, 6, c.objects, k, c.prices, 3, &c.info)
            == NUSHBARET_ANSWER_LENGTH);
        WANT(k == 3 || nushbaret_check(0, 2, 3, c.objects, 0, c.objects, 0, c.costs, 6, c.objects, 2, c.prices, k, &c.info)
            == NUSHBARET_ANSWER_LENGTH);
    }
    WANT(nushbaret_dense(0, 2, 3, c.costs, 4, c.objects, 2, c.persons, 2, c.prices, 3, &c.info) == NUSHBARET_LENGTH);
    WANT(nushbaret_dense(0, 2, 3, c.costs, 6, c.objects, 3, c.persons, 2, c.prices, 3, &c.info) == NUSHBARET_LENGTH);
    WANT(nushbaret_dense(0, 2, 3, c.costs, 6, c.objects, 2, c.persons, 2, c.prices, 2, &c.info) == NUSHBARET_LENGTH);
    list_pairs(&c);
    for (k = 0; k < 8; k++) {
        if (k == 4) continue;
        WANT(nushbaret_sparse(0, 2, 3, c.of_persons, k, c.of_objects, 4, c.costs, 4, c.objects, 2, c.persons, 2, c.prices, 3,
            &c.info) == NUSHBARET_LENGTH);
        WANT(nushbaret_sparse(0, 2, 3, c.of_persons, 4, c.of_objects, k, c.costs, 4, c.objects, 2, c.persons, 2, c.prices, 3,
            &c.info) == NUSHBARET_LENGTH);
        WANT(nushbaret_check_hall(2, 3, c.of_persons, 4, c.of_objects, k, c.costs, 4, c.persons, 2, c.objects, 1, &c.info)
            == NUSHBARET_LENGTH);
    }
}

static void faults(void) {
    uint8_t text[32];
    size_t length = strlen(NUSHBARET_VERSION);
    struct call c = two(NUSHBARET_MIN, 1, 2, 3, 5);
    c.costs[2] = INT64_C(1000000000001), c.costs[3] = INT64_MIN;
    c.is_from = 1, c.first[0] = -1;
    WANT(spoilt(c) == NUSHBARET_COST * 100 + 2);
    c.costs[2] = 3;
    WANT(spoilt(c) == NUSHBARET_COST * 100 + 3);
    c.costs[3] = 5;
    WANT(spoilt(c) == NUSHBARET_PRICE * 100 + 0);
    c.first[0] = NUSHBARET_GREATEST_PRICE, c.first[1] = NUSHBARET_GREATEST_PRICE + 1;
    WANT(spoilt(c) == NUSHBARET_PRICE * 100 + 1);
    c = two_of_three(NUSHBARET_MIN);
    c.is_from = 1, c.first[2] = INT64_MIN;
    WANT(spoilt(c) == NUSHBARET_PRICE * 100 + 2);
    c = three();
    c.of_persons[2] = 4, c.of_persons[3] = 0, c.of_objects[0] = 0, c.costs[0] = INT64_MAX;
    WANT(spoilt(c) == NUSHBARET_PERSON * 100 + 2);
    c.of_persons[2] = 3, c.of_persons[3] = 3;
    WANT(spoilt(c) == NUSHBARET_OBJECT * 100 + 0);
    c.of_objects[0] = 1;
    WANT(spoilt(c) == NUSHBARET_COST * 100 + 0);
    c.costs[0] = 4, c.n = 2, c.m = 8;
    WANT(spoilt(c) == NUSHBARET_PERSON * 100 + 2);
    c.n = 8, c.m = 1;
    WANT(spoilt(c) == NUSHBARET_OBJECT * 100 + 3);
    c.of_objects[3] = UINT32_MAX, c.m = MOST;
    WANT(spoilt(c) == NUSHBARET_OBJECT * 100 + 3);
    memset(text, 9, sizeof text);
    WANT(nushbaret_version(text, length) == length && text[0] == 9);
    WANT(nushbaret_version(text, sizeof text) == length && strcmp((const char *)text, NUSHBARET_VERSION) == 0);
    WANT(text[length + 1] == 9);
    memset(text, 9, sizeof text);
    WANT(nushbaret_version(text, 0) == length && text[0] == 9);
    WANT(nushbaret_version(text, length + 1) == length && strcmp((const char *)text, NUSHBARET_VERSION) == 0);
}

void test_faults(void) {
    sizes();
    lengths();
    faults();
}
