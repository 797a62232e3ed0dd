/* Doubles as costs of 128 bits: what the call says is what a search of all plans finds in exact arithmetic, its prices prove
   it, each fault and each refused growth leaves the lists as they were. A problem of finite costs has the same answers where a
   column that is forbidden to all makes a list of pairs of it. */
#include "calls.h"
#include <math.h>

enum { ROWS = 5, COLUMNS = 6, ROOM = 30 };

/* What the calls read and write. */
struct asked {
    uint32_t sense;
    int32_t unit;
    size_t n, m;
    double costs[ROOM];
    struct nushbaret_wide_number prices[COLUMNS], total;
    uint32_t objects[ROWS], persons[ROWS];
    struct nushbaret_info info;
};

static int32_t ask(struct asked *a) {
    int32_t code = nushbaret_exact_doubles(a->sense, a->n, a->m, a->costs, a->n * a->m, a->objects, a->n, a->persons, a->n,
        a->prices, a->m, &a->total, &a->unit, &a->info);
    return blocks == 0 ? code : -1;
}

static int32_t check_exact(struct asked *a) {
    int32_t code = nushbaret_check_exact_doubles(a->sense, a->n, a->m, a->costs, a->n * a->m, a->objects, a->n, a->prices, a->m,
        &a->unit, &a->info);
    return blocks == 0 ? code : -1;
}

/* A finite double: an odd number, or 0, times 2^exponent. */
struct odd {
    int64_t digits;
    int exponent;
};

static double of_bits(uint64_t bits) {
    double value;
    memcpy(&value, &bits, sizeof value);
    return value;
}

static struct odd odd_of(double value) {
    struct odd odd;
    uint64_t bits;
    memcpy(&bits, &value, sizeof bits);
    odd.exponent = (int)(bits >> 52 & 2047) - 1074;
    odd.digits = (int64_t)(bits & ((UINT64_C(1) << 52) - 1));
    if (odd.exponent > -1074) odd.digits += INT64_C(1) << 52, odd.exponent--;
    while (odd.digits != 0 && odd.digits % 2 == 0) odd.digits /= 2, odd.exponent++;
    if (value < 0) odd.digits = -odd.digits;
    return odd;
}

/* The greatest unit of all finite costs. */
static int unit_of(const struct asked *a) {
    int unit = 10000;
    size_t k;
    for (k = 0; k < a->n * a->m; k++)
        if (isfinite(a->costs[k]) && a->costs[k] != 0 && odd_of(a->costs[k]).exponent < unit)
            unit = odd_of(a->costs[k]).exponent;
    return unit == 10000 ? 0 : unit;
}

/* Whether a finite cost is at most 2^100 units, and the cost in units. */
static int is_within(double cost, int unit) {
    const struct odd odd = odd_of(cost);
    const int64_t size = odd.digits < 0 ? -odd.digits : odd.digits;
    return size == 0 || (odd.exponent - unit <= 100 && (wide)size <= (wide)1 << (100 - (odd.exponent - unit)));
}

static wide in_units(double cost, int unit) {
    const struct odd odd = odd_of(cost);
    return odd.digits == 0 ? 0 : (wide)odd.digits * ((wide)1 << (odd.exponent - unit));
}

/* The first place of a cost above 2^100 units, or n * m. */
static size_t first_above(const struct asked *a) {
    size_t k = 0;
    while (k < a->n * a->m && (!isfinite(a->costs[k]) || is_within(a->costs[k], unit_of(a)))) k++;
    return k;
}

/* The least sum of persons from i on, by all plans, costs turned under NUSHBARET_MAX; `none` if there is no plan. */
static const wide none = (wide)1 << 124;

static wide turned(const struct asked *a, size_t place, int unit) {
    const wide cost = in_units(a->costs[place], unit);
    return a->sense == NUSHBARET_MIN ? cost : -cost;
}

static wide least_sum(const struct asked *a, int unit, size_t i, unsigned used) {
    wide least = none;
    size_t j;
    if (i == a->n) return 0;
    for (j = 0; j < a->m; j++)
        if (isfinite(a->costs[i * a->m + j]) && !(used >> j & 1)) {
            const wide rest = least_sum(a, unit, i + 1, used | 1u << j);
            if (rest < none && turned(a, i * a->m + j, unit) + rest < least) least = turned(a, i * a->m + j, unit) + rest;
        }
    return least;
}

/* The sum of a plan, turned; `none` if a pair is forbidden. */
static wide sum_of(const struct asked *a, int unit) {
    wide sum = 0;
    size_t i;
    for (i = 0; i < a->n; i++) {
        const size_t place = i * a->m + a->objects[i] - 1;
        if (!isfinite(a->costs[place])) return none;
        sum += turned(a, place, unit);
    }
    return sum;
}

/* Whether what the call left alone is as it was. */
static int stays(const struct asked *a, const struct asked *before, int32_t code) {
    struct asked now = *a;
    now.unit = code == NUSHBARET_BEST || code == NUSHBARET_HALL ? before->unit : now.unit;
    PUT_BACK(&now, before, code);
    if (code == NUSHBARET_BEST) now.total = before->total;
    if (code == NUSHBARET_COST) now.info.place = before->info.place;
    return memcmp(&now, before, sizeof now) == 0;
}

/* The persons of a Hall set have finite costs for its objects alone, which are fewer. */
static int is_hall(const struct asked *a) {
    uint64_t i, j, k;
    if (a->info.objects >= a->info.persons) return 0;
    for (i = 0; i < a->info.persons; i++)
        for (j = 1; j <= a->m; j++) {
            for (k = 0; k < a->info.objects && a->objects[k] != j; k++) continue;
            if (k == a->info.objects && isfinite(a->costs[(a->persons[i] - 1) * a->m + j - 1])) return 0;
        }
    return 1;
}

/* The plan of a proof with two persons' objects changed is best exactly where its sum is as good. */
static int is_changed_right(const struct asked *solved, int unit, wide least) {
    struct asked a = *solved;
    uint32_t object = a.objects[0];
    if (a.n < 2) return 1;
    a.objects[0] = a.objects[1], a.objects[1] = object;
    return (check_exact(&a) == NUSHBARET_BEST) == (sum_of(&a, unit) == least);
}

static int is_as_searched(struct asked *a, const struct asked *before, int32_t code) {
    const int unit = unit_of(before);
    const size_t above = first_above(before);
    wide least;
    if (!stays(a, before, code)) return 0;
    if (above < before->n * before->m) return code == NUSHBARET_COST && a->info.place == above;
    least = least_sum(before, unit, 0, 0);
    if (a->unit != unit) return 0;
    if (least == none) return code == NUSHBARET_HALL && is_hall(a);
    if (code != NUSHBARET_BEST || value_of(a->total) != (a->sense == NUSHBARET_MIN ? least : -least)) return 0;
    return sum_of(a, unit) == least && check_exact(a) == NUSHBARET_BEST && is_changed_right(a, unit, least);
}

/* A cost of a kind: cents, tenths, neighbours among the doubles, the least doubles, great ones, and ones far apart. */
static double drawn_cost(unsigned *seed, unsigned kind) {
    const double sign = drawn(seed) % 3 == 0 ? -1 : 1;
    if (kind == 0) return sign * (drawn(seed) % 50000 / 100.0);
    if (kind == 1) return sign * (drawn(seed) % 40 / 10.0);
    if (kind == 2) return of_bits(UINT64_C(0x4114585555555555) + drawn(seed) % 4);
    if (kind == 3) return sign * of_bits(drawn(seed) % 6);
    if (kind == 4) return sign * (drawn(seed) % 1001 * 1e290);
    if (kind == 5) return sign * (1e300 + drawn(seed) % 100 * 1e285);
    return sign * of_bits((uint64_t)(1 + drawn(seed) % 160 * 13) << 52);
}

static struct asked draw(unsigned *seed) {
    struct asked a;
    const unsigned kind = drawn(seed) % 7, forbids = drawn(seed) % 3;
    size_t k;
    memset(&a, 0, sizeof a);
    a.sense = drawn(seed) % 2;
    a.unit = 99;
    a.n = 1 + drawn(seed) % ROWS, a.m = a.n + drawn(seed) % (COLUMNS - a.n + 1);
    if (drawn(seed) % 20 == 0) a.m = 1 + drawn(seed) % a.n;
    for (k = 0; k < a.n * a.m; k++) {
        a.costs[k] = drawn_cost(seed, kind);
        if (drawn(seed) % 4 < forbids) a.costs[k] = a.sense == NUSHBARET_MIN ? INFINITY : -INFINITY;
    }
    return a;
}

/* Two persons and three objects, where doubles are no help: 0.1 + 0.2 is above 0.3 by less than rounding. */
static struct asked worked(void) {
    static const double costs[] = {0.1, 0.3, 1, 0, 0.2, 1};
    struct asked a;
    memset(&a, 0, sizeof a);
    a.n = 2, a.m = 3;
    memcpy(a.costs, costs, sizeof costs);
    return a;
}

static void shown(void) {
    struct asked a = worked();
    WANT(ask(&a) == NUSHBARET_BEST && a.objects[0] == 2 && a.objects[1] == 1 && a.unit == -55);
    WANT(value_of(a.total) == in_units(0.3, -55));
    a = worked(), a.sense = NUSHBARET_MAX;
    WANT(ask(&a) == NUSHBARET_BEST && a.objects[0] == 2 && a.objects[1] == 3);
    a = worked(), memset(a.costs, 0, sizeof a.costs);
    WANT(ask(&a) == NUSHBARET_BEST && a.unit == 0 && value_of(a.total) == 0);
}

/* Each fault is the first, and writes its place alone. */
static void faults(void) {
    static const int32_t codes[] = {NUSHBARET_SENSE, NUSHBARET_SIZE, NUSHBARET_SIZE, NUSHBARET_COST, NUSHBARET_COST,
        NUSHBARET_COST, NUSHBARET_COST};
    size_t k;
    for (k = 0; k < sizeof codes / sizeof *codes; k++) {
        struct asked a = worked(), before;
        a.info.place = 99;
        if (k == 0) a.sense = 2;
        if (k == 1) a.n = 0;
        if (k == 2) a.m = 0;
        if (k == 3) a.costs[5] = NAN, a.costs[1] = 1e40;
        if (k == 4) a.costs[4] = -INFINITY;
        if (k == 5) a.sense = NUSHBARET_MAX, a.costs[2] = INFINITY;
        if (k == 6) a.costs[1] = 1e40, a.costs[2] = 1e41;
        before = a;
        WANT(ask(&a) == codes[k]);
        WANT(a.info.place == (k < 3 ? 99u : k == 3 ? 5u : k == 4 ? 4u : k == 5 ? 2u : 1u));
        before.info = a.info;
        WANT(memcmp(&a, &before, sizeof a) == 0);
        WANT(check_exact(&a) == codes[k] && a.unit == before.unit);
    }
    for (k = 0; k < 4; k++) {
        struct asked a = worked();
        WANT(nushbaret_exact_doubles(0, 2, 3, a.costs, k == 3 ? 5 : 6, a.objects, k == 0 ? 1 : 2, a.persons, k == 1 ? 1 : 2,
            a.prices, k == 2 ? 2 : 3, &a.total, &a.unit, &a.info) == NUSHBARET_LENGTH);
    }
}

/* Each verdict on a plan names the first fault. */
static void verdicts(void) {
    struct asked solved = worked(), a;
    WANT(ask(&solved) == NUSHBARET_BEST && check_exact(&solved) == NUSHBARET_BEST);
    WANT(nushbaret_check_exact_doubles(0, 2, 3, solved.costs, 6, solved.objects, 1, solved.prices, 3, &solved.unit,
        &solved.info) == NUSHBARET_ANSWER_LENGTH);
    a = solved, a.costs[1] = INFINITY;
    WANT(check_exact(&a) == NUSHBARET_UNLISTED && a.info.person == 1);
    a = solved, a.objects[1] = 2;
    WANT(check_exact(&a) == NUSHBARET_TWICE && a.info.object == 2);
    a = solved, a.prices[0].high = -1;
    WANT(check_exact(&a) == NUSHBARET_PRICE_RANGE && a.info.object == 1);
    a = solved, a.prices[2].low = 1;
    WANT(check_exact(&a) == NUSHBARET_OVERPRICED && a.info.object == 3);
    a = solved, a.objects[0] = 1, a.objects[1] = 2;
    memset(a.prices, 0, sizeof a.prices);
    WANT(check_exact(&a) == NUSHBARET_SLACK && a.info.person == 2 && a.info.object == 1);
}

/* The worked problem with so many forbidden pairs. */
static void refused(int forbidden) {
    static const int places[] = {5, 1, 2, 4};
    struct asked a = worked();
    int k;
    for (k = 0; k < forbidden; k++) a.costs[places[k]] = INFINITY;
    WANT_REFUSALS(struct asked, ask, a, forbidden < 4 ? NUSHBARET_BEST : NUSHBARET_HALL, 5);
}

/* A problem with one more column, which is forbidden to all. */
static struct asked widened(const struct asked *a) {
    struct asked wide = *a;
    size_t i, j;
    wide.m++;
    for (i = 0; i < wide.n; i++)
        for (j = 0; j < wide.m; j++) {
            const double forbidden = a->sense == NUSHBARET_MIN ? INFINITY : -INFINITY;
            wide.costs[i * wide.m + j] = j < a->m ? a->costs[i * a->m + j] : forbidden;
        }
    return wide;
}

/* Whether a plan and prices of one problem are proved for the other one too. */
static int is_shared(const struct asked *solved, const struct asked *other) {
    struct asked a = *other;
    memcpy(a.objects, solved->objects, sizeof a.objects);
    memcpy(a.prices, solved->prices, sizeof a.prices);
    return check_exact(&a) == NUSHBARET_BEST && a.unit == solved->unit;
}

/* Both forms of a problem of finite costs. */
static void both_forms(const struct asked *drawn_one) {
    struct asked all = *drawn_one, listed;
    int32_t code;
    size_t k;
    for (k = 0; k < all.n * all.m; k++)
        if (!isfinite(all.costs[k])) return;
    if (all.m == COLUMNS) return;
    listed = widened(&all);
    code = ask(&all);
    WANT(ask(&listed) == code);
    if (code != NUSHBARET_BEST) return;
    WANT(value_of(all.total) == value_of(listed.total) && all.unit == listed.unit);
    WANT(is_shared(&all, &listed) && is_shared(&listed, &all));
}

void test_exact(void) {
    unsigned seed = 37;
    int k;
    shown(), faults(), verdicts(), refused(0), refused(1), refused(4);
    for (k = 0; k < 3000; k++) {
        struct asked a = draw(&seed), before = a;
        const int32_t code = ask(&a);
        WANT(is_as_searched(&a, &before, code));
        both_forms(&before);
    }
}
