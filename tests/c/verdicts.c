/* Each verdict of the checking calls. */
#include "calls.h"

static void verdicts(void) {
    struct call c = two(NUSHBARET_MIN, 1, 2, 3, 5);
    WANT(solve(&c) == NUSHBARET_BEST);
    WANT(nushbaret_check(0, 2, 2, c.objects, 0, c.objects, 0, c.costs, 4, c.objects, 1, c.prices, 2, &c.info)
        == NUSHBARET_ANSWER_LENGTH);
    c.objects[0] = 1;
    WANT(check(&c) == NUSHBARET_TWICE && c.info.object == 1);
    c.objects[1] = 2;
    WANT(check(&c) == NUSHBARET_SLACK && c.info.person == 2 && c.info.object == 1);
    c.objects[1] = 3;
    WANT(check(&c) == NUSHBARET_UNLISTED && c.info.person == 2);
    c.objects[1] = 2, c.prices[1] = INT64_MIN;
    WANT(check(&c) == NUSHBARET_PRICE_RANGE && c.info.object == 2);
    c.prices[0] = NUSHBARET_GREATEST_PRICE + 1;
    WANT(check(&c) == NUSHBARET_PRICE_RANGE && c.info.object == 1);
    c.sense = 9;
    WANT(check(&c) == NUSHBARET_SENSE);
    c = three();
    WANT(solve(&c) == NUSHBARET_HALL);
    c.persons[1] = 3;
    WANT(check_hall(&c) == NUSHBARET_HALL_MISSING && c.info.person == 3 && c.info.object == 2);
    c.persons[1] = 1;
    WANT(check_hall(&c) == NUSHBARET_HALL_ORDER);
    c.persons[1] = 4;
    WANT(check_hall(&c) == NUSHBARET_HALL_RANGE);
    c.persons[1] = 2, c.objects[1] = 3, c.info.objects = 2;
    WANT(check_hall(&c) == NUSHBARET_HALL_EXTRA && c.info.object == 3);
    c.objects[1] = 4;
    WANT(check_hall(&c) == NUSHBARET_HALL_RANGE);
    c.info.persons = 1, c.info.objects = 1;
    WANT(check_hall(&c) == NUSHBARET_HALL_COUNT);
    c.info.persons = 0;
    WANT(check_hall(&c) == NUSHBARET_HALL_EXTRA && c.info.object == c.objects[0]);
    c.info.objects = 0;
    WANT(check_hall(&c) == NUSHBARET_HALL_COUNT);
}

static void price(struct call *c, int64_t a, int64_t b, int64_t d, int64_t e) {
    c->prices[0] = a, c->prices[1] = b, c->prices[2] = d, c->prices[3] = e;
}

/* Two persons and four objects at cost 0 each: an object that nobody has costs 0. */
static void overpriced(void) {
    struct call c;
    memset(&c, 0, sizeof c);
    c.n = 2, c.m = 4, c.pairs = 8, c.objects[0] = 2, c.objects[1] = 4, c.info.object = 99, c.info.person = 99;
    WANT(check(&c) == NUSHBARET_BEST && c.info.object == 99);
    price(&c, 1, 0, 0, 0);
    WANT(check(&c) == NUSHBARET_OVERPRICED && c.info.object == 1 && c.info.person == 99);
    price(&c, 0, 0, 2, 0);
    WANT(check(&c) == NUSHBARET_OVERPRICED && c.info.object == 3);
    price(&c, NUSHBARET_GREATEST_PRICE, 0, NUSHBARET_GREATEST_PRICE, 0);
    WANT(check(&c) == NUSHBARET_OVERPRICED && c.info.object == 1);
    price(&c, 5, 5, 5, 5);
    WANT(check(&c) == NUSHBARET_OVERPRICED && c.info.object == 1);
    price(&c, 9, 9, 12, 0);
    WANT(check(&c) == NUSHBARET_SLACK && c.info.person == 1 && c.info.object == 4);
    price(&c, 9, 1, 0, 0);
    WANT(check(&c) == NUSHBARET_SLACK && c.info.person == 1 && c.info.object == 3);
    c.objects[1] = 1, c.prices[1] = 0;
    WANT(check(&c) == NUSHBARET_SLACK && c.info.person == 2 && c.info.object == 2);
    list_pairs(&c);
    c.objects[1] = 4;
    WANT(check(&c) == NUSHBARET_OVERPRICED && c.info.object == 1);
    c.n = 3, c.objects[2] = 1, c.pairs = 9;
    c.of_persons[8] = 3, c.of_objects[8] = 1;
    WANT(check(&c) == NUSHBARET_BEST);
    c.prices[2] = 1;
    WANT(check(&c) == NUSHBARET_OVERPRICED && c.info.object == 3);
}

/* Three persons and four objects at cost 0 each, with all faults at once, of which the first is mended in turn. */
static void first_fault(void) {
    struct call c;
    memset(&c, 0, sizeof c);
    c.n = 3, c.m = 4, c.pairs = 12, c.objects[0] = 9, c.objects[1] = 2, c.objects[2] = 2;
    price(&c, 3, -1, 5, 1);
    WANT(check(&c) == NUSHBARET_UNLISTED && c.info.person == 1);
    c.objects[0] = 3;
    WANT(check(&c) == NUSHBARET_TWICE && c.info.object == 2);
    c.objects[2] = 4;
    WANT(check(&c) == NUSHBARET_PRICE_RANGE && c.info.object == 2);
    c.prices[1] = 0;
    WANT(check(&c) == NUSHBARET_SLACK && c.info.person == 1 && c.info.object == 1);
    price(&c, 3, 0, 0, 0);
    WANT(check(&c) == NUSHBARET_OVERPRICED && c.info.object == 1);
    c.prices[0] = 0;
    WANT(check(&c) == NUSHBARET_BEST);
    c = three();
    c.info.persons = 2, c.info.objects = 2, c.persons[0] = 3, c.persons[1] = 2, c.objects[0] = 4, c.objects[1] = 3;
    WANT(check_hall(&c) == NUSHBARET_HALL_RANGE);
    c.objects[0] = 1;
    WANT(check_hall(&c) == NUSHBARET_HALL_ORDER);
    c.persons[0] = 2, c.persons[1] = 3;
    WANT(check_hall(&c) == NUSHBARET_HALL_MISSING && c.info.person == 3 && c.info.object == 2);
    c.persons[0] = 1, c.persons[1] = 2;
    WANT(check_hall(&c) == NUSHBARET_HALL_EXTRA && c.info.object == 3);
    c.info.persons = 1, c.info.objects = 1;
    WANT(check_hall(&c) == NUSHBARET_HALL_COUNT);
    c.info.persons = 2;
    WANT(check_hall(&c) == NUSHBARET_HALL);
}

/* A problem without pairs is a sparse one, also by structs whose persons and objects are NULL. */
static void without_pairs(void) {
    struct call c = two(NUSHBARET_MIN, 1, 2, 3, 5);
    int form;
    c.objects[0] = 2, c.objects[1] = 1, c.persons[0] = 2, c.info.persons = 1, c.prices[0] = 1;
    WANT(check(&c) == NUSHBARET_BEST && check_hall(&c) == NUSHBARET_HALL_MISSING);
    WANT(nushbaret_check(0, 2, 2, c.objects, 0, c.objects, 2, c.costs, 4, c.objects, 2, c.prices, 2, &c.info) == NUSHBARET_LENGTH);
    for (form = 0; form < 4; form++) {
        c.pairs = 0, c.is_sparse = form & 1, c.is_by_struct = form >> 1;
        WANT(check(&c) == NUSHBARET_UNLISTED && c.info.person == 1);
        WANT(check_hall(&c) == NUSHBARET_HALL);
        WANT(solve(&c) == (c.is_sparse ? NUSHBARET_HALL : NUSHBARET_LENGTH));
        c.info.persons = 1, c.info.objects = 0, c.persons[0] = 2;
    }
}

void test_verdicts(void) {
    verdicts();
    overpriced();
    first_fault();
    without_pairs();
}
