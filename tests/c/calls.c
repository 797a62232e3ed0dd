/* Calls each function of the library, as C and as C++; ends with 0 where all is as it has to be. After each call no block may be
   left. Here are the calls by lists and by structs, and the problems worked by hand. */
#include "calls.h"

int failed;

static struct nushbaret_problem problem_of(struct call *c) {
    struct nushbaret_problem problem;
    problem.sense = c->sense, problem.n = c->n, problem.m = c->m;
    problem.costs = c->costs, problem.count = c->pairs;
    problem.persons = c->is_sparse ? c->of_persons : NULL, problem.objects = c->is_sparse ? c->of_objects : NULL;
    problem.first = c->is_from && !c->is_without_first ? c->first : NULL, problem.budget = c->budget;
    return problem;
}

/* A call by structs, with a room of the answer's own. */
static int32_t by_struct(struct call *c, int32_t (*call)(const struct nushbaret_problem *, struct nushbaret_answer *)) {
    struct nushbaret_problem problem = problem_of(c);
    struct nushbaret_answer answer;
    int32_t code;
    answer.objects = c->objects, answer.persons = c->persons, answer.prices = c->prices;
    answer.info = c->info, answer.record = c->record;
    code = call(&problem, &answer);
    c->info = answer.info, c->record = answer.record;
    return code;
}

static int32_t solving(struct call *c) {
    size_t n = c->n, m = c->m, firsts = c->is_without_first ? 0 : m;
    if (c->is_by_struct) return by_struct(c, nushbaret_solve);
    if (c->is_sparse && c->is_from)
        return nushbaret_sparse_from(c->sense, n, m, c->of_persons, c->pairs, c->of_objects, c->pairs, c->costs, c->pairs,
            c->first, firsts, c->objects, n, c->persons, n, c->prices, m, c->budget, &c->record, &c->info);
    if (c->is_sparse)
        return nushbaret_sparse(c->sense, n, m, c->of_persons, c->pairs, c->of_objects, c->pairs, c->costs, c->pairs,
            c->objects, n, c->persons, n, c->prices, m, &c->info);
    if (c->is_from)
        return nushbaret_dense_from(c->sense, n, m, c->costs, c->pairs, c->first, firsts, c->objects, n, c->persons, n,
            c->prices, m, c->budget, &c->record, &c->info);
    return nushbaret_dense(c->sense, n, m, c->costs, c->pairs, c->objects, n, c->persons, n, c->prices, m, &c->info);
}

static int32_t checking(struct call *c) {
    size_t pairs = c->is_sparse ? c->pairs : 0;
    if (c->is_by_struct) return by_struct(c, nushbaret_verify);
    return nushbaret_check(c->sense, c->n, c->m, c->of_persons, pairs, c->of_objects, pairs, c->costs, c->pairs,
        c->objects, c->n, c->prices, c->m, &c->info);
}

static int32_t checking_hall(struct call *c) {
    size_t pairs = c->is_sparse ? c->pairs : 0;
    if (c->is_by_struct) return by_struct(c, nushbaret_verify_hall);
    return nushbaret_check_hall(c->n, c->m, c->of_persons, pairs, c->of_objects, pairs, c->costs, c->pairs,
        c->persons, (size_t)c->info.persons, c->objects, (size_t)c->info.objects, &c->info);
}

/* What a call may write. */
struct room {
    uint32_t objects[MOST], persons[MOST];
    int64_t prices[MOST];
    struct nushbaret_record record;
    struct nushbaret_info info;
};

static struct room room_of(const struct call *c) {
    struct room room;
    memcpy(room.objects, c->objects, sizeof room.objects);
    memcpy(room.persons, c->persons, sizeof room.persons);
    memcpy(room.prices, c->prices, sizeof room.prices);
    room.record = c->record, room.info = c->info;
    return room;
}

/* Takes over the fields that the header's table names for a code. */
static void take_fields(struct nushbaret_info *info, const struct nushbaret_info *now, int32_t code, int is_solving) {
    int is_pair = code == NUSHBARET_SLACK || code == NUSHBARET_HALL_MISSING;
    if (is_solving && code == NUSHBARET_BEST) info->total = now->total;
    if (is_solving && code == NUSHBARET_HALL) info->persons = now->persons, info->objects = now->objects;
    if (code >= NUSHBARET_PERSON && code <= NUSHBARET_PRICE) info->place = now->place;
    if (is_pair || code == NUSHBARET_UNLISTED) info->person = now->person;
    if (is_pair || code == NUSHBARET_TWICE || code == NUSHBARET_PRICE_RANGE || code == NUSHBARET_OVERPRICED
        || code == NUSHBARET_HALL_EXTRA)
        info->object = now->object;
}

/* Whether a call wrote nothing but what the header's table names for its code. */
static int wrote_as_said(struct room *before, const struct call *c, int32_t code, int is_solving) {
    int has_plan = code == NUSHBARET_STOPPED || (is_solving && code == NUSHBARET_BEST);
    int has_hall = is_solving && code == NUSHBARET_HALL;
    size_t objects = has_plan ? c->n : has_hall ? (size_t)c->info.objects : 0;
    struct room now = room_of(c);
    memcpy(before->objects, now.objects, objects * sizeof *now.objects);
    memcpy(before->persons, now.persons, (has_hall ? (size_t)c->info.persons : 0) * sizeof *now.persons);
    memcpy(before->prices, now.prices, (has_plan ? c->m : 0) * sizeof *now.prices);
    if (code == NUSHBARET_STOPPED) before->record = now.record;
    take_fields(&before->info, &now.info, code, is_solving);
    return memcmp(before, &now, sizeof now) == 0;
}

static int32_t watched(struct call *c, int32_t (*call)(struct call *)) {
    struct room before = room_of(c);
    int32_t code = call(c);
    return blocks == 0 && wrote_as_said(&before, c, code, call == solving) ? code : -1;
}

int32_t solve(struct call *c) {
    return watched(c, solving);
}

int32_t check(struct call *c) {
    return watched(c, checking);
}

int32_t check_hall(struct call *c) {
    return watched(c, checking_hall);
}

/* A dense problem of two persons and two objects. */
struct call two(uint32_t sense, int64_t a, int64_t b, int64_t c, int64_t d) {
    struct call call;
    memset(&call, 0, sizeof call);
    call.sense = sense, call.n = 2, call.m = 2, call.pairs = 4;
    call.costs[0] = a, call.costs[1] = b, call.costs[2] = c, call.costs[3] = d;
    return call;
}

/* A dense problem of two persons and three objects. */
struct call two_of_three(uint32_t sense) {
    static const int64_t costs[] = {4, 1, 9, 2, 3, 9};
    struct call call;
    memset(&call, 0, sizeof call);
    call.sense = sense, call.n = 2, call.m = 3, call.pairs = 6;
    memcpy(call.costs, costs, sizeof costs);
    return call;
}

/* Makes a dense problem a sparse one that lists each pair. */
void list_pairs(struct call *c) {
    size_t k;
    c->is_sparse = 1;
    for (k = 0; k < c->pairs; k++) {
        c->of_persons[k] = (uint32_t)(k / c->m + 1);
        c->of_objects[k] = (uint32_t)(k % c->m + 1);
    }
}

/* A sparse problem of three persons and three objects. Person 1 and person 2 list object 1 alone. */
struct call three(void) {
    static const uint32_t i[] = {1, 2, 3, 3}, j[] = {1, 1, 1, 2};
    static const int64_t cost[] = {4, 6, 2, 3};
    struct call call;
    memset(&call, 0, sizeof call);
    call.n = 3, call.m = 3, call.pairs = 4, call.is_sparse = 1;
    memcpy(call.of_persons, i, sizeof i);
    memcpy(call.of_objects, j, sizeof j);
    memcpy(call.costs, cost, sizeof cost);
    return call;
}

int main(void) {
    test_answers();
    test_faults();
    test_verdicts();
    test_blocks();
    test_double_blocks();
    test_plans();
    test_groups();
    test_bottleneck();
    test_wide();
    test_exact();
    test_fewest();
    test_drawn();
    test_memory();
    test_large();
    test_doubles();
    test_rows();
    test_counts();
    test_threads();
    puts(failed ? "failed" : "calls: all as wanted");
    return failed;
}
