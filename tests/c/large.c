/* Larger problems: more persons than 16 bits count, searches in pieces, and the longest sides. */
#include "calls.h"

/* Room for larger problems. */
enum { FULL = NUSHBARET_MOST_PERSONS };
static uint32_t full_of_persons[FULL], full_of_objects[FULL], full_objects[FULL], full_persons[FULL];
static int64_t full_costs[FULL], full_prices[FULL];

static struct nushbaret_problem large(size_t n, size_t m, size_t pairs, int is_sparse) {
    struct nushbaret_problem problem;
    memset(&problem, 0, sizeof problem);
    problem.n = n, problem.m = m, problem.costs = full_costs, problem.count = pairs;
    problem.persons = is_sparse ? full_of_persons : NULL, problem.objects = is_sparse ? full_of_objects : NULL;
    return problem;
}

static struct nushbaret_answer room(void) {
    struct nushbaret_answer answer;
    memset(&answer, 0, sizeof answer);
    answer.objects = full_objects, answer.persons = full_persons, answer.prices = full_prices;
    memset(full_objects, 0, sizeof full_objects);
    return answer;
}

/* More persons than 16 bits count; each lists the object of its number at 2 and the next one at 1. */
static void numbers_of_32_bits(void) {
    enum { MANY = 70000 };
    struct nushbaret_problem problem = large(MANY, MANY, 2 * MANY, 1);
    struct nushbaret_answer answer = room();
    size_t k;
    for (k = 0; k < 2 * MANY; k++) {
        full_of_persons[k] = (uint32_t)(k / 2 + 1);
        full_of_objects[k] = (uint32_t)((k / 2 + k % 2) % MANY + 1);
        full_costs[k] = 2 - (int64_t)(k % 2);
    }
    WANT(nushbaret_solve(&problem, &answer) == NUSHBARET_BEST);
    WANT(answer.info.total == MANY && full_objects[0] == 2 && full_objects[65535] == 65537 && full_objects[MANY - 1] == 1);
    WANT(nushbaret_verify(&problem, &answer) == NUSHBARET_BEST && blocks == 0);
    full_of_objects[2 * MANY - 1] = MANY - 1, full_of_objects[2 * MANY - 2] = MANY - 1, full_of_objects[2 * MANY - 4] = MANY - 1;
    WANT(nushbaret_solve(&problem, &answer) == NUSHBARET_BEST && full_objects[MANY - 1] == MANY - 1);
    full_of_objects[2 * MANY - 3] = MANY - 1;
    WANT(nushbaret_solve(&problem, &answer) == NUSHBARET_HALL && full_persons[answer.info.persons - 1] == MANY);
    WANT(nushbaret_verify_hall(&problem, &answer) == NUSHBARET_HALL && blocks == 0);
}

/* Draws eight pairs for each of n persons, one of them of a plan that uses each object once. */
static struct nushbaret_problem drawn_sparse(size_t n, unsigned seed) {
    size_t k;
    for (k = 0; k < 8 * n; k++) {
        size_t object = k % 8 == 0 ? (k / 8 * 7919 + 11) % n : ((size_t)drawn(&seed) << 15 | drawn(&seed)) % n;
        full_of_persons[k] = (uint32_t)(k / 8 + 1), full_of_objects[k] = (uint32_t)(object + 1);
        full_costs[k] = (int64_t)(drawn(&seed) % 10007) * 99;
    }
    return large(n, n, 8 * n, 1);
}

/* Solves in pieces until the search ends; how many they are, or 0 where it finds nothing, or nothing that is proved. */
static long pieces_of(const struct nushbaret_problem *problem, struct nushbaret_answer *answer) {
    long pieces;
    for (pieces = 1; pieces < 100000; pieces++) {
        int32_t code = nushbaret_solve(problem, answer);
        if (code == NUSHBARET_STOPPED) continue;
        return code == NUSHBARET_BEST && nushbaret_verify(problem, answer) == NUSHBARET_BEST && blocks == 0 ? pieces : 0;
    }
    return 0;
}

/* A problem of 20000 persons: in pieces it has the sum that it has in one, and from its own prices and plan it takes fewer. */
static void pieces(void) {
    enum { MANY = 20000 };
    static int64_t first[MANY];
    static uint32_t plan[MANY];
    struct nushbaret_problem problem = drawn_sparse(MANY, 5);
    struct nushbaret_answer answer = room();
    int64_t total;
    long cold, warm;
    WANT(pieces_of(&problem, &answer) == 1);
    total = answer.info.total;
    memcpy(first, full_prices, sizeof first);
    memcpy(plan, full_objects, sizeof plan);
    answer = room(), problem.budget = 400000;
    cold = pieces_of(&problem, &answer);
    WANT(cold > 1 && answer.info.total == total && answer.record.arc_scans > 0);
    for (problem.sense = NUSHBARET_MIN; problem.sense <= NUSHBARET_MAX; problem.sense++) {
        answer = room(), problem.first = first;
        memcpy(full_objects, plan, sizeof plan);
        warm = pieces_of(&problem, &answer);
        WANT(warm > 0 && (problem.sense == NUSHBARET_MAX || (warm < cold && answer.info.total == total)));
    }
    printf("pieces: %ld cold\n", cold);
}

/* One person among as many objects as there may be, and as many persons for one object; dense and sparse. */
static void longest_sides(void) {
    struct nushbaret_problem problem;
    struct nushbaret_answer answer = room();
    size_t k;
    for (k = 0; k < FULL; k++) full_costs[k] = (int64_t)((k * 7919 + 11) % FULL) * 238000 - INT64_C(500000000000);
    for (k = 0; k < FULL; k++) full_of_persons[k] = 1, full_of_objects[k] = (uint32_t)(k + 1);
    for (k = 0; k < 2; k++) {
        problem = large(1, FULL, FULL, (int)k);
        WANT(nushbaret_solve(&problem, &answer) == NUSHBARET_BEST && answer.info.total == INT64_C(-500000000000));
        WANT(full_objects[0] > 0 && full_costs[(full_objects[0] + FULL - 1) % FULL] == answer.info.total);
        WANT(nushbaret_verify(&problem, &answer) == NUSHBARET_BEST);
        full_prices[full_objects[0] % FULL] += 2;
        WANT(nushbaret_verify(&problem, &answer) == NUSHBARET_OVERPRICED && answer.info.object == full_objects[0] % FULL + 1u);
        problem = large(FULL, 1, FULL, (int)k);
        if (k) problem.persons = full_of_objects, problem.objects = full_of_persons;
        WANT(nushbaret_solve(&problem, &answer) == NUSHBARET_HALL && answer.info.persons > 1 && answer.info.objects == 1);
        WANT(nushbaret_verify_hall(&problem, &answer) == NUSHBARET_HALL && blocks == 0);
    }
}

void test_large(void) {
    numbers_of_32_bits();
    pieces();
    longest_sides();
}
