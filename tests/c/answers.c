/* Problems worked by hand, square and not, by lists and by structs, from first prices and plans of any kind. */
#include "calls.h"

static void worked(void) {
    struct call c = two(NUSHBARET_MIN, 1, 2, 3, 5);
    c.persons[0] = 77;
    WANT(solve(&c) == NUSHBARET_BEST && c.info.total == 5 && c.objects[0] == 2 && c.objects[1] == 1);
    WANT(c.persons[0] == 77 && c.info.place == 0 && c.info.persons == 0);
    WANT(check(&c) == NUSHBARET_BEST);
    memcpy(c.first, c.prices, sizeof c.first);
    c.is_from = 1;
    WANT(solve(&c) == NUSHBARET_BEST && c.info.total == 5 && check(&c) == NUSHBARET_BEST);
    c = two(NUSHBARET_MAX, 1, 2, 3, 5);
    WANT(solve(&c) == NUSHBARET_BEST && c.info.total == 6 && c.objects[0] == 1 && c.objects[1] == 2);
    c = two(NUSHBARET_MIN, INT64_C(1000000000000), INT64_C(-1000000000000), 0, 0);
    WANT(solve(&c) == NUSHBARET_BEST && c.info.total == INT64_C(-1000000000000) && check(&c) == NUSHBARET_BEST);
    c = three();
    c.objects[2] = 88;
    WANT(solve(&c) == NUSHBARET_HALL && c.info.persons == 2 && c.info.objects == 1);
    WANT(c.persons[0] == 1 && c.persons[1] == 2 && c.objects[0] == 1 && c.objects[2] == 88);
    WANT(check_hall(&c) == NUSHBARET_HALL);
    c.is_from = 1;
    WANT(solve(&c) == NUSHBARET_HALL && check_hall(&c) == NUSHBARET_HALL);
    c = three();
    c.n = 1, c.m = 1, c.pairs = 0;
    WANT(solve(&c) == NUSHBARET_HALL && c.info.persons == 1 && c.info.objects == 0 && c.persons[0] == 1);
    c.n = 1, c.pairs = 2, c.sense = NUSHBARET_MAX;
    c.of_persons[1] = 1, c.costs[0] = 7, c.costs[1] = -7;
    WANT(solve(&c) == NUSHBARET_BEST && c.info.total == 7 && check(&c) == NUSHBARET_BEST);
    c.sense = NUSHBARET_MIN;
    WANT(solve(&c) == NUSHBARET_BEST && c.info.total == -7 && check(&c) == NUSHBARET_BEST);
}

/* Persons and objects of unequal numbers: what follows n objects and m prices stays, and more persons than objects
   have no assignment. */
static void rectangles(void) {
    struct call c = two_of_three(NUSHBARET_MIN);
    c.objects[2] = 66, c.persons[0] = 77, c.prices[3] = 88;
    WANT(solve(&c) == NUSHBARET_BEST && c.info.total == 3 && c.objects[0] == 2 && c.objects[1] == 1 && check(&c) == NUSHBARET_BEST);
    WANT(c.objects[2] == 66 && c.persons[0] == 77 && c.prices[3] == 88);
    list_pairs(&c);
    WANT(solve(&c) == NUSHBARET_BEST && c.info.total == 3 && check(&c) == NUSHBARET_BEST);
    c = two_of_three(NUSHBARET_MAX);
    WANT(solve(&c) == NUSHBARET_BEST && c.info.total == 13 && c.objects[0] == 1 && c.objects[1] == 3 && check(&c) == NUSHBARET_BEST);
    c.n = 3, c.m = 2, c.objects[2] = 66;
    WANT(solve(&c) == NUSHBARET_HALL && c.info.persons == 3 && c.info.objects == 2 && check_hall(&c) == NUSHBARET_HALL);
    WANT(c.persons[2] == 3 && c.objects[1] == 2 && c.objects[2] == 66);
    c = three();
    c.m = 2;
    WANT(solve(&c) == NUSHBARET_HALL && check_hall(&c) == NUSHBARET_HALL);
    c.n = 2, c.m = 3, c.pairs = 2;
    WANT(solve(&c) == NUSHBARET_HALL && c.info.persons == 2 && c.info.objects == 1 && check_hall(&c) == NUSHBARET_HALL);
    c.of_objects[1] = 3;
    WANT(solve(&c) == NUSHBARET_BEST && c.info.total == 10 && c.objects[0] == 1 && c.objects[1] == 3 && check(&c) == NUSHBARET_BEST);
}

/* The functions that take structs make the calls that they stand for. */
static void structs(void) {
    struct call lists, form;
    int kind;
    for (kind = 0; kind < 8; kind++) {
        lists = kind & 1 ? two_of_three(NUSHBARET_MAX) : two(NUSHBARET_MIN, 1, 2, 3, 5);
        if (kind & 2) list_pairs(&lists);
        lists.is_from = kind >> 2, lists.first[0] = 5, lists.first[1] = 3;
        form = lists, form.is_by_struct = 1;
        WANT(solve(&lists) == NUSHBARET_BEST && solve(&form) == NUSHBARET_BEST && check(&form) == NUSHBARET_BEST);
        WANT(lists.info.total == form.info.total && memcmp(lists.objects, form.objects, sizeof lists.objects) == 0);
        WANT(memcmp(lists.prices, form.prices, sizeof lists.prices) == 0);
        form.objects[1] = form.objects[0];
        WANT(check(&form) == NUSHBARET_TWICE && form.info.object == form.objects[0]);
    }
    form = three(), form.is_by_struct = 1;
    WANT(solve(&form) == NUSHBARET_HALL && form.info.persons == 2 && check_hall(&form) == NUSHBARET_HALL);
    form.persons[1] = 3;
    WANT(check_hall(&form) == NUSHBARET_HALL_MISSING && form.info.person == 3 && form.info.object == 2);
    form = two(NUSHBARET_MIN, 1, 2, 3, 5), form.is_by_struct = 1, form.pairs = 3;
    WANT(solve(&form) == NUSHBARET_LENGTH);
    form.m = 0;
    WANT(solve(&form) == NUSHBARET_SIZE);
}

/* First prices and earlier plans of any kind, dense and sparse: the answer is as good. */
static void starts(void) {
    static const int64_t firsts[][3] = {{0, 0, 0}, {2, 0, 0}, {7, 5, 5}, {0, 9, 0}, {0, 0, NUSHBARET_GREATEST_PRICE},
        {NUSHBARET_GREATEST_PRICE, NUSHBARET_GREATEST_PRICE, NUSHBARET_GREATEST_PRICE}};
    static const uint32_t plans[][2] = {{0, 0}, {2, 1}, {1, 2}, {1, 1}, {3, UINT32_MAX}, {0, 2}};
    size_t form, first, plan;
    for (form = 0; form < 16; form++)
        for (first = 0; first < 6; first++)
            for (plan = 0; plan < 6; plan++) {
                struct call c = form & 1 ? two_of_three(NUSHBARET_MIN) : two(NUSHBARET_MIN, 1, 2, 3, 5);
                if (form & 2) list_pairs(&c);
                c.is_from = 1, c.is_without_first = form & 4 ? 1 : 0, c.is_by_struct = form & 8 ? 1 : 0;
                memcpy(c.first, firsts[first], sizeof firsts[first]);
                memcpy(c.objects, plans[plan], sizeof plans[plan]);
                WANT(solve(&c) == NUSHBARET_BEST && c.info.total == (form & 1 ? 3 : 5) && check(&c) == NUSHBARET_BEST);
                WANT(c.objects[0] == 2 && c.objects[1] == 1 && c.record.stage == 0 && c.record.arc_scans == 0);
            }
}

void test_answers(void) {
    worked();
    rectangles();
    structs();
    starts();
}
