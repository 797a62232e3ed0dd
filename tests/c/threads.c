/* Threads with just the stack that the header names, and eight threads at a time. */
#include "calls.h"
#include <limits.h>
#include <pthread.h>

/* What a thread has of stack beyond what was asked for: on ARM the least that a system gives is more than the header names. */
static size_t spare;

static pthread_attr_t with_stack(size_t stack) {
    pthread_attr_t attributes;
    size_t least = (size_t)PTHREAD_STACK_MIN;
    spare = stack < least ? least - stack : 0;
    pthread_attr_init(&attributes);
    WANT(pthread_attr_setstacksize(&attributes, stack + spare) == 0);
    return attributes;
}

/* Persons and objects at costs i * j, whose searches are long. */
enum { WIDE = 300 };
static int64_t wide_costs[WIDE * WIDE];
static double wide_doubles[WIDE * WIDE];
static uint32_t wide_of_persons[WIDE * WIDE], wide_of_objects[WIDE * WIDE], wide_objects[WIDE], wide_persons[WIDE];
static int64_t wide_prices[WIDE];
static double wide_double_prices[WIDE];
static struct nushbaret_info wide_info;

static void list_wide(void) {
    size_t k;
    for (k = 0; k < WIDE * WIDE; k++) {
        wide_of_persons[k] = (uint32_t)(k / WIDE + 1), wide_of_objects[k] = (uint32_t)(k % WIDE + 1);
        wide_costs[k] = (int64_t)wide_of_persons[k] * wide_of_objects[k];
        wide_doubles[k] = (double)wide_costs[k];
    }
}

/* Whether the greatest sum is found, and no block is left: that of the squares, or for two thirds of the persons that of
   each with the object by as much dearer. */
static int is_dense_right(void) {
    size_t n, i;
    for (n = WIDE; n >= WIDE / 3; n -= WIDE / 3) {
        int64_t sum = 0;
        int32_t code = nushbaret_dense(NUSHBARET_MAX, n, WIDE, wide_costs, n * WIDE, wide_objects, n, wide_persons, n,
            wide_prices, WIDE, &wide_info);
        for (i = 1; i <= n; i++) sum += (int64_t)(i * (i + WIDE - n));
        if (code != NUSHBARET_BEST || wide_info.total != sum || blocks != 0) return 0;
    }
    return 1;
}

/* Whether each person i of 200 has object i + 100, and no block is left. */
static int has_dearer(int32_t code) {
    size_t i;
    for (i = 0; i < WIDE / 3 * 2; i++)
        if (wide_objects[i] != i + 1 + WIDE / 3) return 0;
    return code == NUSHBARET_BEST && blocks == 0;
}

static int is_sparse_right(void) {
    struct nushbaret_record record;
    size_t n = WIDE / 3 * 2, pairs = n * WIDE;
    memset(&record, 0, sizeof record);
    memset(wide_objects, 0, sizeof wide_objects);
    return has_dearer(nushbaret_sparse_from(NUSHBARET_MAX, n, WIDE, wide_of_persons, pairs, wide_of_objects, pairs, wide_costs,
        pairs, wide_costs, WIDE, wide_objects, n, wide_persons, n, wide_prices, WIDE, 0, &record, &wide_info));
}

static int are_doubles_right(void) {
    struct nushbaret_doubles_info info;
    size_t n = WIDE / 3 * 2;
    return has_dearer(nushbaret_doubles(NUSHBARET_MAX, n, WIDE, wide_doubles, n * WIDE, wide_objects, n, wide_persons, n,
        wide_double_prices, WIDE, &info));
}

/* NULL where a call is right. It may not use what is spare of the stack. */
static void *on_the_rest(void *is_call_right) {
    volatile char *taken = (volatile char *)__builtin_alloca(spare + 1);
    taken[0] = 0;
    return (*(int (**)(void))is_call_right)() ? NULL : is_call_right;
}

/* Threads with just the stack that the header names; the compiler's own checks of addresses want more of it. */
static void on_its_stack(void) {
    int (*are_right[])(void) = {is_dense_right, is_sparse_right, are_doubles_right, is_deep_right, is_school_right,
        is_bottleneck_long_right};
    pthread_attr_t attributes;
    size_t k;
#ifdef __SANITIZE_ADDRESS__
    size_t stack = 48 << 10;
#else
    size_t stack = 32 << 10;
#endif
    list_wide();
    attributes = with_stack(stack);
    for (k = 0; k < sizeof are_right / sizeof *are_right; k++) {
        pthread_t thread;
        void *wrong = &are_right[k];
        WANT(pthread_create(&thread, &attributes, on_the_rest, &are_right[k]) == 0);
        pthread_join(thread, &wrong);
        WANT(wrong == NULL);
    }
}

static void *many(void *seed) {
    int trial;
    for (trial = 0; trial < 500; trial++)
        if (!is_right((unsigned *)seed) || !are_counts_right() || !is_bottleneck_right((unsigned *)seed)
            || !is_wide_right((unsigned *)seed)) return seed;
    return NULL;
}

/* Eight threads, each with problems of its own. Their stack takes what the header names and what this program's functions
   take. */
static void threads(void) {
    pthread_t running[8];
    pthread_attr_t attributes;
    unsigned seeds[8], t;
    attributes = with_stack(48 << 10);
    for (t = 0; t < 8; t++) {
        seeds[t] = t + 1;
        WANT(pthread_create(&running[t], &attributes, many, &seeds[t]) == 0);
    }
    for (t = 0; t < 8; t++) {
        void *wrong;
        pthread_join(running[t], &wrong);
        WANT(wrong == NULL);
    }
}

void test_threads(void) {
    on_its_stack();
    threads();
}
