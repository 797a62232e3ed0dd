/* Drawn problems of up to seven persons, over the library for Windows, against a slow search over sets of objects: drawn COUNT.
   Dense and by pairs, with and without first prices, squares and rectangles, small costs and the greatest. Ends with 0 where all
   agrees. */
#include "nushbaret.h"
#include <stdio.h>
#include <stdlib.h>
#include <string.h>

enum { MOST = 9 };
static const int64_t NONE = INT64_MAX;
static uint64_t state = 88172645463325252u;

/* A problem: its table, NONE for a pair that isn't listed, and the same as the library takes it. The table has the costs with
   the sign under which the least sum is wanted. */
struct problem {
    int64_t table[MOST][MOST], costs[MOST * MOST], first[MOST], prices[MOST];
    uint32_t of_persons[MOST * MOST], of_objects[MOST * MOST], objects[MOST], persons[MOST];
    int n, m, sign;
    struct nushbaret_problem taken;
    struct nushbaret_answer given;
};

static unsigned drawn(unsigned below) {
    state ^= state << 13, state ^= state >> 7, state ^= state << 17;
    return (unsigned)((state >> 11) % below);
}

static int64_t drawn_cost(unsigned range) {
    if (range == 0) return (int64_t)drawn(3) - 1;
    if (range == 1) return (int64_t)drawn(1000) - 500;
    return (range == 2 ? 1 : -1) * (NUSHBARET_GREATEST_COST - (int64_t)drawn(4));
}

/* One more person, who has object j next to those of each set: from the sums of sets to those of larger ones. */
static void add_object(const int64_t *best, int64_t *next, int j, int sets, int64_t cost) {
    int set;
    for (set = 0; set < sets; set++) {
        int64_t *with = &next[set | 1 << j];
        if (!(set >> j & 1) && best[set] != NONE && best[set] + cost < *with) *with = best[set] + cost;
    }
}

/* Sums of sets that no person has been added to. */
static void clear(int64_t *sums) {
    int set;
    for (set = 0; set < 1 << MOST; set++) sums[set] = NONE;
}

static void add_person(const struct problem *p, int i, int64_t *best) {
    static int64_t next[1 << MOST];
    int j;
    clear(next);
    for (j = 0; j < p->m; j++)
        if (p->table[i][j] != NONE) add_object(best, next, j, 1 << p->m, p->table[i][j]);
    memcpy(best, next, sizeof next);
}

/* The least sum by the table; NONE where there is no assignment. */
static int64_t least(const struct problem *p) {
    static int64_t best[1 << MOST];
    int64_t found = NONE;
    int i, set;
    clear(best);
    best[0] = 0;
    for (i = 0; i < p->n; i++) add_person(p, i, best);
    for (set = 0; set < 1 << MOST; set++)
        if (best[set] < found) found = best[set];
    return found;
}

static void draw_pair(struct problem *p, int place, int is_sparse, unsigned range) {
    int i = place / p->m, j = place % p->m;
    size_t k = p->taken.count;
    p->table[i][j] = NONE;
    if (is_sparse && drawn(3) == 0) return;
    p->of_persons[k] = (uint32_t)(i + 1), p->of_objects[k] = (uint32_t)(j + 1);
    p->costs[k] = drawn_cost(range);
    p->table[i][j] = p->sign * p->costs[k];
    p->taken.count++;
}

static void draw(struct problem *p) {
    int is_sparse = drawn(2) == 1, is_from = drawn(3) == 0, k;
    unsigned range = drawn(4);
    memset(p, 0, sizeof *p);
    p->n = 1 + (int)drawn(7);
    p->m = drawn(4) ? p->n + (int)drawn(3) : 1 + (int)drawn(8);
    p->taken.sense = drawn(2);
    p->sign = p->taken.sense == NUSHBARET_MAX ? -1 : 1;
    p->taken.n = (size_t)p->n, p->taken.m = (size_t)p->m, p->taken.costs = p->costs;
    if (is_sparse) p->taken.persons = p->of_persons, p->taken.objects = p->of_objects;
    if (is_from) p->taken.first = p->first;
    p->given.objects = p->objects, p->given.persons = p->persons, p->given.prices = p->prices;
    for (k = 0; k < p->n * p->m; k++) draw_pair(p, k, is_sparse, range);
    for (k = 0; k < p->m; k++) p->first[k] = drawn(2) ? (int64_t)drawn(5000) << drawn(48) : 0;
}

static int64_t sum_of(const struct problem *p) {
    int64_t sum = 0;
    int i;
    for (i = 0; i < p->n; i++) sum += p->table[i][p->objects[i] - 1];
    return sum;
}

/* Whether a best assignment is the wanted one, and its proof passes, and fails at a price that is too great. */
static int is_best(struct problem *p, int64_t wanted) {
    int32_t code;
    if (p->given.info.total != p->sign * wanted || sum_of(p) != wanted) return 0;
    if (nushbaret_verify(&p->taken, &p->given) != NUSHBARET_BEST) return 0;
    p->prices[0] = NUSHBARET_GREATEST_PRICE;
    code = nushbaret_verify(&p->taken, &p->given);
    /* At any price a person has the only object that it lists. */
    return code == NUSHBARET_SLACK || code == NUSHBARET_OVERPRICED || (code == NUSHBARET_BEST && (p->m == 1 || p->taken.persons != NULL));
}

/* The code that the library answers, or -1 where it isn't as the search says. */
static int32_t code_of(struct problem *p) {
    int64_t wanted = least(p);
    int32_t code = nushbaret_solve(&p->taken, &p->given);
    if (wanted == NONE && code == NUSHBARET_HALL)
        return p->taken.count == 0 || nushbaret_verify_hall(&p->taken, &p->given) == NUSHBARET_HALL ? code : -1;
    return wanted != NONE && code == NUSHBARET_BEST && is_best(p, wanted) ? code : -1;
}

int main(int count, char **words) {
    static struct problem problem;
    int k, best = 0, how_many = count > 1 ? atoi(words[1]) : 0;
    for (k = 0; k < how_many; k++) {
        int32_t code;
        draw(&problem);
        code = code_of(&problem);
        if (code < 0) {
            printf("problem %d isn't as wanted\n", k);
            return 1;
        }
        best += code == NUSHBARET_BEST;
    }
    printf("%d problems: %d with a best plan, %d with a Hall set, as a search over sets says\n", k, best, k - best);
    return k == 0 || best == 0 || best == k;
}
