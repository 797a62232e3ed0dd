/* Memory: this program counts growths and blocks, and each growth of a call is refused in turn. */
#include "calls.h"

#ifdef __cplusplus
#define EXTERN extern "C"
#else
#define EXTERN extern
#endif
EXTERN void *__real_malloc(size_t);
EXTERN void *__real_realloc(void *, size_t);
EXTERN void __real_free(void *);
EXTERN void *__wrap_malloc(size_t);
EXTERN void *__wrap_realloc(void *, size_t);
EXTERN void __wrap_free(void *);

__thread long growths, refuse_at, blocks;

static int is_refused(void) {
    return ++growths == refuse_at;
}

void *__wrap_malloc(size_t size) {
    void *block = is_refused() ? NULL : __real_malloc(size);
    blocks += block != NULL;
    return block;
}

void *__wrap_realloc(void *block, size_t size) {
    void *moved = is_refused() ? NULL : __real_realloc(block, size);
    blocks += block == NULL && moved != NULL;
    return moved;
}

void __wrap_free(void *block) {
    blocks -= block != NULL;
    __real_free(block);
}

/* Refuses each growth in turn: the call says so, or goes on to its answer. Returns how often it said so. */
static long refusals_of(struct call c, int32_t wanted, int32_t (*call)(struct call *), const char *name) {
    long k, answered = 0;
    for (k = 1;; k++) {
        struct call now = c;
        int32_t code;
        growths = 0, refuse_at = k;
        code = call(&now);
        refuse_at = 0;
        WANT(code == wanted || code == NUSHBARET_MEMORY);
        WANT(code == wanted || memcmp(now.objects, c.objects, sizeof c.objects) == 0);
        WANT(code == wanted || memcmp(now.persons, c.persons, sizeof c.persons) == 0);
        WANT(code == wanted || memcmp(now.prices, c.prices, sizeof c.prices) == 0);
        WANT(code == wanted || memcmp(&now.info, &c.info, sizeof c.info) == 0);
        WANT(code == wanted || memcmp(&now.record, &c.record, sizeof c.record) == 0);
        answered += code == NUSHBARET_MEMORY;
        if (growths < k) break;
    }
    printf("%s: %ld growths, %ld answered with MEMORY\n", name, k - 1, answered);
    return answered;
}

static void refused(struct call c, int32_t wanted, int32_t (*call)(struct call *), const char *name) {
    WANT(refusals_of(c, wanted, call, name) > 0);
}

static void refusals(void) {
    struct call c = two(NUSHBARET_MIN, 1, 2, 3, 5);
    refused(c, NUSHBARET_BEST, solve, "dense");
    WANT(solve(&c) == NUSHBARET_BEST);
    refused(c, NUSHBARET_BEST, check, "check");
    c.is_from = 1;
    refused(c, NUSHBARET_BEST, solve, "dense_from");
    list_pairs(&c);
    refused(c, NUSHBARET_BEST, solve, "sparse_from, best");
    c = two_of_three(NUSHBARET_MAX);
    refused(c, NUSHBARET_BEST, solve, "dense, rectangle");
    WANT(solve(&c) == NUSHBARET_BEST);
    refused(c, NUSHBARET_BEST, check, "check, rectangle");
    memcpy(c.first, c.prices, sizeof c.first);
    c.is_from = 1;
    /* The plan is mended; where that lacks memory, a search follows. */
    WANT(refusals_of(c, NUSHBARET_BEST, solve, "dense_from, rectangle") == 0);
    list_pairs(&c);
    refused(c, NUSHBARET_BEST, solve, "sparse_from, rectangle");
    c.is_from = 0;
    refused(c, NUSHBARET_BEST, solve, "sparse, rectangle");
    c.n = 3, c.m = 2, c.is_sparse = 0;
    refused(c, NUSHBARET_HALL, solve, "dense, more persons");
    c = three();
    refused(c, NUSHBARET_HALL, solve, "sparse");
    c.is_from = 1;
    refused(c, NUSHBARET_HALL, solve, "sparse_from");
    WANT(solve(&c) == NUSHBARET_HALL);
    refused(c, NUSHBARET_HALL, check_hall, "check_hall");
}

/* Where the first growth is refused, the lists are still judged first. */
static void faults_before_memory(void) {
    struct call c = two(NUSHBARET_MIN, 1, 2, 3, 5);
    c.is_from = 1, c.first[1] = -1;
    growths = 0, refuse_at = 1;
    WANT(solve(&c) == NUSHBARET_PRICE && c.info.place == 1);
    c.costs[3] = NUSHBARET_GREATEST_COST + 1;
    growths = 0;
    WANT(solve(&c) == NUSHBARET_COST && c.info.place == 3);
    refuse_at = 0;
}

/* The code of a call whose first growth is refused. */
static int32_t without_memory(struct call *c, int32_t (*call)(struct call *)) {
    int32_t code;
    growths = 0, refuse_at = 1;
    code = call(c);
    refuse_at = 0;
    return code;
}

/* The checking calls ask for memory before they judge an answer, except its lengths, and the range and order of a Hall set. */
static void verdicts_and_memory(void) {
    struct call c = two(NUSHBARET_MIN, 1, 2, 3, 5);
    WANT(check(&c) == NUSHBARET_UNLISTED && without_memory(&c, check) == NUSHBARET_MEMORY);
    growths = 0, refuse_at = 1;
    WANT(nushbaret_check(0, 2, 2, c.objects, 0, c.objects, 0, c.costs, 4, c.objects, 1, c.prices, 2, &c.info)
        == NUSHBARET_ANSWER_LENGTH);
    c.costs[1] = INT64_MIN;
    WANT(without_memory(&c, check) == NUSHBARET_COST && c.info.place == 1);
    c = three(), c.info.persons = 2;
    WANT(without_memory(&c, check_hall) == NUSHBARET_HALL_RANGE);
    c.persons[0] = 2, c.persons[1] = 1;
    WANT(without_memory(&c, check_hall) == NUSHBARET_HALL_ORDER);
    c.persons[1] = 3;
    WANT(without_memory(&c, check_hall) == NUSHBARET_MEMORY && check_hall(&c) == NUSHBARET_HALL_MISSING);
    c.of_objects[3] = 4;
    WANT(without_memory(&c, check_hall) == NUSHBARET_OBJECT && c.info.place == 3);
}

void test_memory(void) {
    refusals();
    faults_before_memory();
    verdicts_and_memory();
}
