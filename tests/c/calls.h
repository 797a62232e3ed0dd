/* What the files of tests/c share, as C and as C++. */
#ifndef CALLS_H
#define CALLS_H
#include "nushbaret.h"
#include <stdio.h>
#include <string.h>

#define WANT(x) \
    do { \
        if (!(x)) { \
            printf("%s:%d: %s\n", __FILE__, __LINE__, #x); \
            failed = 1; \
        } \
    } while (0)
extern int failed;

/* Growths of this thread, the one to refuse (from 1; 0: none), and blocks that aren't given back. */
extern __thread long growths, refuse_at, blocks;

/* Refuses the first growth of a call that reads and writes a struct of this type, then the second, and so on, up to one that it
   doesn't ask for: it returns what is wanted, or says that memory was refused and leaves the struct as it was. More than
   `fewest` calls have to be made. */
#define WANT_REFUSALS(type, call, given, wanted, fewest) \
    do { \
        const type before = (given); \
        long k; \
        for (k = 1;; k++) { \
            type now = before; \
            int32_t code; \
            growths = 0, refuse_at = k; \
            code = call(&now); \
            refuse_at = 0; \
            WANT(code == (wanted) || (code == NUSHBARET_MEMORY && memcmp(&now, &before, sizeof now) == 0)); \
            if (growths < k) break; \
        } \
        WANT(k > (fewest)); \
    } while (0)

/* Puts back what an answer wrote: a plan's objects and prices, or the numbers of a Hall set and how many they are. */
#define PUT_BACK(now, before, code) \
    do { \
        if ((code) == NUSHBARET_BEST) { \
            memcpy((now)->objects, (before)->objects, sizeof (now)->objects); \
            memcpy((now)->prices, (before)->prices, sizeof (now)->prices); \
        } \
        if ((code) == NUSHBARET_HALL) { \
            memcpy((now)->objects, (before)->objects, (now)->info.objects * sizeof *(now)->objects); \
            memcpy((now)->persons, (before)->persons, (now)->info.persons * sizeof *(now)->persons); \
            (now)->info.persons = (before)->info.persons, (now)->info.objects = (before)->info.objects; \
        } \
    } while (0)

/* A number of 128 bits in one and in two words. */
__extension__ typedef __int128 wide;

static inline wide value_of(struct nushbaret_wide_number number) { return (wide)number.high * ((wide)1 << 64) + number.low; }

static inline struct nushbaret_wide_number number_of(wide value) {
    struct nushbaret_wide_number number;
    number.low = (uint64_t)value, number.high = (int64_t)(value >> 64);
    return number;
}

enum { MOST = 64, PAIRS = 256 };

/* What a call reads and writes. `is_by_struct` sends it through the functions of the header that take structs, and
   `is_without_first` has a `_from` call begin without first prices. */
struct call {
    uint32_t sense;
    size_t n, m, pairs;
    int is_sparse, is_from, is_without_first, is_by_struct;
    int64_t costs[PAIRS];
    uint32_t of_persons[PAIRS], of_objects[PAIRS];
    uint32_t objects[MOST], persons[MOST];
    int64_t first[MOST], prices[MOST];
    uint64_t budget;
    struct nushbaret_record record;
    struct nushbaret_info info;
};

/* The code of a call; -1 where it left a block, or wrote what the header's table doesn't name. */
int32_t solve(struct call *c);
int32_t check(struct call *c);
int32_t check_hall(struct call *c);

/* Problems worked by hand. */
struct call two(uint32_t sense, int64_t a, int64_t b, int64_t c, int64_t d);
struct call two_of_three(uint32_t sense);
struct call three(void);
void list_pairs(struct call *c);

/* A number below 2^16. */
unsigned drawn(unsigned *seed);

/* Whether a drawn problem is solved as a slow search says, and whether a tree of 1000 splits is shown. */
int is_right(unsigned *seed);
int is_deep_right(void);

/* Whether counts are: a worked problem, and a school whose search is long. */
int are_counts_right(void);
int is_school_right(void);

/* Whether a bottleneck is: of a drawn problem, and of one whose search is long. */
int is_bottleneck_right(unsigned *seed);
int is_bottleneck_long_right(void);

/* Whether costs of 128 bits are. */
int is_wide_right(unsigned *seed);

void test_answers(void);
void test_faults(void);
void test_verdicts(void);
void test_blocks(void);
void test_double_blocks(void);
void test_plans(void);
void test_groups(void);
void test_bottleneck(void);
void test_wide(void);
void test_exact(void);
void test_fewest(void);
void test_drawn(void);
void test_memory(void);
void test_large(void);
void test_doubles(void);
void test_rows(void);
void test_counts(void);
void test_threads(void);
#endif
