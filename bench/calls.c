/* Times calls of the library for C, plain Rust (bench/plain/paths.rs as a library) and plain C (bench/plain/lapjv.c):
   processor time of this thread, the least of so many calls in turns. What they find is compared. Each line ends with four
   numbers: seconds of the library, of plain Rust, of plain C, and of a check of the library's answer. 0: it wasn't called.
     calls text TIMES FORM [alone]   a problem from standard input, dense or sparse; with the word alone the library alone
     calls drawn N M MOST COUNT TIMES [alone]   so many dense problems of N persons and M objects, costs 1..MOST; MOST 0:
                                distances of points drawn in a square, MOST -1: i * j
     calls memory N M MOST       the greatest memory of a call and of a check, next to the caller's lists, as shares of the costs
     calls starts TIMES          N = 2000, costs 1..1000: cold, then from the prices of the same problem, of one with one
                                redrawn row, and with more and more of them; seconds
     calls neighbours TIMES      N = 1000, six drawn problems each: cold, then from the prices before one row in 200, 50, 30
                                and 20 was redrawn; seconds
     calls poor TIMES            a dense problem from standard input: cold, then from first prices of
                                it: drawn, drawn up to 9 * 10^18, one of these, and the prices of it turned round; seconds
     calls wide                  three equal objects with first prices 0, 0 and 9 * 10^18, and prices 1, 5 and 7: seconds
     calls rectangle N M EACH MOST TIMES   N persons with EACH pairs of M objects, costs 1..MOST: cold, then from the prices of the
                                same problem and of ones with redrawn rows, and from useless prices; seconds */
#define _DEFAULT_SOURCE
#include "../c/nushbaret.h"
#include <math.h>
#include <stdio.h>
#include <stdlib.h>
#include <string.h>
#include <sys/mman.h>
#include <sys/types.h>
#include <sys/wait.h>
#include <time.h>
#include <unistd.h>

extern int64_t plain_dense(size_t n, const int64_t *costs, uint32_t *columns);
extern int64_t plain_c(size_t n, size_t m, const int64_t *costs, uint32_t *columns);
extern int64_t plain_sparse(size_t n, size_t pairs, const uint32_t *of_rows, const uint32_t *of_columns,
    const int64_t *costs, uint32_t *columns);

/* A problem, its answer, the lists of its pairs where it is sparse, and its costs to be changed. */
struct problem {
    struct nushbaret_problem given;
    struct nushbaret_answer answer;
    uint32_t *of_persons, *of_objects;
    int64_t *costs;
    int64_t total;
};

static void *room(size_t bytes) {
    void *block = malloc(bytes + 1);
    if (block == NULL) exit(4);
    return block;
}

static struct problem problem(size_t n, size_t m, size_t pairs, int is_sparse) {
    struct problem p;
    memset(&p, 0, sizeof p);
    p.of_persons = (uint32_t *)room(pairs * 4), p.of_objects = (uint32_t *)room(pairs * 4);
    p.costs = (int64_t *)room(pairs * 8);
    p.given.sense = NUSHBARET_MIN, p.given.n = n, p.given.m = m, p.given.count = pairs, p.given.costs = p.costs;
    p.given.persons = is_sparse ? p.of_persons : NULL, p.given.objects = is_sparse ? p.of_objects : NULL;
    p.answer.objects = (uint32_t *)room(n * 4), p.answer.persons = (uint32_t *)room(n * 4);
    p.answer.prices = (int64_t *)room(m * sizeof *p.answer.prices);
    return p;
}

static double now(void) {
    struct timespec at;
    clock_gettime(CLOCK_THREAD_CPUTIME_ID, &at);
    return (double)at.tv_sec + (double)at.tv_nsec / 1e9;
}

/* The seconds of a solve, from first prices where they are given. */
static double proved(struct problem *p, const int64_t *first) {
    double begin;
    int32_t code;
    p->given.first = first;
    memset(p->answer.objects, 0, p->given.n * sizeof *p->answer.objects);
    memset(&p->answer.record, 0, sizeof p->answer.record);
    begin = now();
    code = nushbaret_solve(&p->given, &p->answer);
    begin = now() - begin;
    p->given.first = NULL;
    if (code != NUSHBARET_BEST && code != NUSHBARET_HALL) exit(3);
    p->total = code == NUSHBARET_BEST ? p->answer.info.total : INT64_MIN;
    return begin;
}

static void same(const struct problem *p, int64_t total) {
    if (total == p->total) return;
    fprintf(stderr, "other sums: %lld and %lld\n", (long long)p->total, (long long)total);
    exit(5);
}

/* The seconds of plain Rust, which takes squares alone. */
static double by_rust(struct problem *p) {
    double begin = now();
    int64_t total;
    if (p->given.n != p->given.m) return 0;
    if (p->given.persons != NULL)
        total = plain_sparse(p->given.n, p->given.count, p->of_persons, p->of_objects, p->costs, p->answer.objects);
    else
        total = plain_dense(p->given.n, p->costs, p->answer.objects);
    begin = now() - begin;
    same(p, total);
    return begin;
}

/* The seconds of plain C, which takes full rows alone. */
static double by_c(struct problem *p) {
    double begin = now();
    int64_t total;
    if (p->given.persons != NULL) return 0;
    total = plain_c(p->given.n, p->given.m, p->costs, p->answer.objects);
    begin = now() - begin;
    same(p, total);
    return begin;
}

/* The seconds of a check of what was found. */
static double checked(struct problem *p) {
    double begin = now();
    nushbaret_verify(&p->given, &p->answer);
    return now() - begin;
}

static void less(double *least, double seconds) {
    if (seconds < *least) *least = seconds;
}

/* The next number of a text, and 0 at its end. */
static int64_t number(const char **text) {
    int64_t value = 0;
    while (**text != '\0' && (**text < '0' || **text > '9')) ++*text;
    for (; **text >= '0' && **text <= '9'; ++*text) value = value * 10 + (**text - '0');
    return value;
}

static int by_pair(const void *a, const void *b) {
    const int64_t *x = (const int64_t *)a, *y = (const int64_t *)b;
    int k;
    for (k = 0; k < 3; k++)
        if (x[k] != y[k]) return x[k] < y[k] ? -1 : 1;
    return 0;
}

/* The problem of a text; of a pair that stands there several times the least cost. */
static struct problem read_text(int is_sparse) {
    size_t size = 0, most = 1 << 20, k, n, pairs;
    char *text = (char *)room(most);
    const char *at;
    int64_t *triples;
    struct problem p;
    while ((k = fread(text + size, 1, most - size, stdin)) > 0)
        if ((size += k) == most && (text = (char *)realloc(text, (most *= 2) + 1)) == NULL) exit(4);
    text[size] = '\0';
    at = text;
    n = (size_t)number(&at);
    if (!is_sparse) {
        p = problem(n, n, n * n, 0);
        for (k = 0; k < p.given.count; k++) p.costs[k] = number(&at);
        free(text);
        return p;
    }
    triples = (int64_t *)room(size * 12);
    for (pairs = 0; (triples[3 * pairs] = number(&at)) != 0; pairs++)
        triples[3 * pairs + 1] = number(&at), triples[3 * pairs + 2] = number(&at);
    qsort(triples, pairs, 3 * sizeof *triples, by_pair);
    p = problem(n, n, pairs, 1);
    p.given.count = 0;
    for (k = 0; k < pairs; k++) {
        const int64_t *one = triples + 3 * k;
        if (k > 0 && one[-3] == one[0] && one[-2] == one[1]) continue;
        p.of_persons[p.given.count] = (uint32_t)one[0], p.of_objects[p.given.count] = (uint32_t)one[1];
        p.costs[p.given.count++] = one[2];
    }
    free(triples);
    free(text);
    return p;
}

static uint64_t state = 7;

static int64_t next(void) {
    state = state * UINT64_C(6364136223846793005) + UINT64_C(1442695040888963407);
    return (int64_t)(state >> 33);
}

static void draw(int64_t *costs, size_t count, int64_t most) {
    while (count-- > 0) {
        int64_t drawn = next();
        if (most > INT64_C(1) << 31) drawn = drawn << 31 | next();
        *costs++ = 1 + drawn % most;
    }
}

/* Distances of persons and objects, which are points of a square of 10^5 by 10^5. */
static void draw_points(struct problem *p) {
    const size_t n = p->given.n, m = p->given.m;
    int64_t *places = (int64_t *)room((n + m) * 2 * sizeof *places);
    size_t i, j;
    draw(places, (n + m) * 2, 100000);
    for (i = 0; i < n; i++)
        for (j = 0; j < m; j++) {
            const double x = (double)(places[2 * i] - places[2 * (n + j)]);
            const double y = (double)(places[2 * i + 1] - places[2 * (n + j) + 1]);
            p->costs[i * m + j] = (int64_t)sqrt(x * x + y * y);
        }
    free(places);
}

static void draw_products(struct problem *p) {
    size_t i, j;
    for (i = 0; i < p->given.n; i++)
        for (j = 0; j < p->given.m; j++) p->costs[i * p->given.m + j] = (int64_t)((i + 1) * (j + 1));
}

/* Seconds of the library, of what stands next to it, and of a check. */
static void tell(const char *what, double seconds, double rust, double c, double check) {
    printf("%s %.6f %.6f %.6f %.6f\n", what, seconds, rust, c, check);
}

/* From first prices, cold, and a check, in turns: the least of each. */
static void tell_start(const char *name, struct problem *p, const int64_t *first, int times) {
    double cold = 1e9, warm = 1e9, check = 1e9;
    int turn;
    for (turn = 0; turn < times; turn++) {
        int64_t total;
        less(&cold, proved(p, NULL));
        total = p->total;
        less(&warm, proved(p, first));
        if (total != p->total) exit(5);
        less(&check, checked(p));
    }
    tell(name, warm, cold, 0, check);
}

/* The objects that a person of a sparse problem lists: one of each of `each` equal parts. */
static void draw_objects(struct problem *p, size_t person, size_t each) {
    int64_t width = (int64_t)(p->given.m / each), drawn;
    size_t k;
    for (k = 0; k < each; k++) {
        draw(&drawn, 1, width);
        p->of_persons[person * each + k] = (uint32_t)(person + 1);
        p->of_objects[person * each + k] = (uint32_t)((int64_t)k * width + drawn);
    }
}

/* Redraws one row in `every`, with costs up to `most`. */
static void draw_rows(struct problem *p, int64_t most, size_t every) {
    size_t i, each = p->given.count / p->given.n;
    for (i = 0; every > 0 && i < p->given.n; i += every) {
        draw(p->costs + i * each, each, most);
        if (p->given.persons != NULL) draw_objects(p, i, each);
    }
}

/* The best prices of a problem whose rows are drawn, with costs up to `most`. */
static int64_t *drawn_prices(struct problem *p, int64_t most) {
    int64_t *first = (int64_t *)room(p->given.m * sizeof *first);
    draw_rows(p, most, 1);
    proved(p, NULL);
    memcpy(first, p->answer.prices, p->given.m * sizeof *first);
    return first;
}

static void starts(int times) {
    static const size_t every[] = {0, 2000, 100, 50, 20, 10};
    static const char *names[] = {"same", "one row", "1 %", "2 %", "5 %", "10 %"};
    size_t k;
    struct problem p = problem(2000, 2000, 2000 * 2000, 0);
    int64_t *first = drawn_prices(&p, 1000);
    for (k = 0; k < sizeof every / sizeof *every; k++) {
        draw_rows(&p, 1000, every[k]);
        tell_start(names[k], &p, first, times);
    }
}

static void neighbours(int times) {
    static const int64_t most[] = {10, 1000, 1000000};
    static const size_t every[] = {200, 50, 30, 20};
    size_t i, k;
    int drawn;
    struct problem p = problem(1000, 1000, 1000 * 1000, 0);
    for (i = 0; i < sizeof most / sizeof *most; i++)
        for (k = 0; k < sizeof every / sizeof *every; k++)
            for (drawn = 0; drawn < 6; drawn++) {
                char name[64];
                int64_t *first = drawn_prices(&p, most[i]);
                draw_rows(&p, most[i], every[k]);
                sprintf(name, "1..%ld every %zu", (long)most[i], every[k]);
                tell_start(name, &p, first, times);
                free(first);
            }
}

/* Useless first prices. `own` are the prices that a cold call found. */
static int64_t poor_price(int kind, int64_t own, size_t place) {
    const int64_t most = NUSHBARET_GREATEST_PRICE;
    int64_t drawn[2];
    draw(drawn, 2, 1000);
    if (kind == 0) return drawn[0] * 1000 + drawn[1];
    if (kind == 1) return drawn[0] * (most / 1000) - drawn[1];
    if (kind == 2) return place == 0 ? most : 0;
    return own < INT64_C(1) << 40 ? (INT64_C(1) << 40) - own : 0;
}

static void poor(int times) {
    static const char *names[] = {"drawn", "drawn up to 9 * 10^18", "one of 9 * 10^18", "turned round"};
    struct problem p = read_text(0);
    size_t j, n = p.given.n;
    int64_t *own = (int64_t *)room(n * sizeof *own);
    int64_t *first = (int64_t *)room(n * sizeof *first);
    int kind;
    proved(&p, NULL);
    memcpy(own, p.answer.prices, n * sizeof *own);
    for (kind = 0; kind < 4; kind++) {
        for (j = 0; j < n; j++) first[j] = poor_price(kind, own[j], j);
        tell_start(names[kind], &p, first, times);
    }
}

static void wide(void) {
    struct problem p = problem(3, 3, 9, 0);
    int64_t far[3] = {0, 0, NUSHBARET_GREATEST_PRICE};
    int64_t odd[3] = {1, 5, 7};
    size_t k;
    for (k = 0; k < 9; k++) p.costs[k] = 2;
    tell("0, 0, 9 * 10^18", proved(&p, far), 0, 0, 0);
    tell("1, 5, 7", proved(&p, odd), 0, 0, 0);
    if (p.total != 6) exit(5);
}

static void rectangle(size_t n, size_t m, size_t each, int64_t most, int times) {
    static const char *names[] = {"drawn", "drawn up to 9 * 10^18", "one of 9 * 10^18", "turned round"};
    const size_t every[] = {0, n, 100, 20};
    static const char *shares[] = {"same", "one row", "1 %", "5 %"};
    struct problem p = problem(n, m, n * each, each < m);
    int64_t *own = drawn_prices(&p, most);
    int64_t *first = (int64_t *)room(m * sizeof *first);
    size_t j, k;
    int kind;
    for (k = 0; k < sizeof every / sizeof *every; k++) {
        draw_rows(&p, most, every[k]);
        tell_start(shares[k], &p, own, times);
    }
    for (kind = 0; kind < 4; kind++) {
        for (j = 0; j < m; j++) first[j] = poor_price(kind, own[j], j);
        tell_start(names[kind], &p, first, times);
    }
}

/* The least seconds of each, over several turns. */
struct least {
    double library, rust, c, check;
};

/* Adds a turn of a problem to its seconds; the library alone is called where `alone` says so. */
static void take_turn(struct problem *p, int alone, struct least *spent) {
    spent->library += proved(p, NULL);
    spent->check += checked(p);
    if (alone) return;
    spent->rust += by_rust(p);
    spent->c += by_c(p);
}

static void keep(struct least *least, const struct least *spent) {
    less(&least->library, spent->library), less(&least->rust, spent->rust);
    less(&least->c, spent->c), less(&least->check, spent->check);
}

static void text(int times, int is_sparse, int alone) {
    struct least least = {1e9, 1e9, 1e9, 1e9};
    struct problem p = read_text(is_sparse);
    while (times-- > 0) {
        struct least spent = {0, 0, 0, 0};
        take_turn(&p, alone, &spent);
        keep(&least, &spent);
    }
    tell("text", least.library, least.rust, least.c, least.check);
}

static void drawn(size_t n, size_t m, int64_t most, int count, int times, int alone) {
    struct least least = {1e9, 1e9, 1e9, 1e9};
    struct problem p = problem(n, m, n * m, 0);
    while (times-- > 0) {
        struct least spent = {0, 0, 0, 0};
        int k;
        state = 7;
        for (k = 0; k < count; k++) {
            if (most > 0) draw(p.costs, p.given.count, most);
            else if (most == 0) draw_points(&p);
            else draw_products(&p);
            take_turn(&p, alone, &spent);
        }
        keep(&least, &spent);
    }
    tell("drawn", least.library, least.rust, least.c, least.check);
}

/* What this process holds and the most that it held, in KB. */
static long held(const char *name) {
    FILE *file = fopen("/proc/self/status", "r");
    char line[256];
    long found = 0;
    while (file != NULL && fgets(line, sizeof line, file) != NULL)
        if (strncmp(line, name, strlen(name)) == 0) found = atol(line + strlen(name));
    if (file != NULL) fclose(file);
    return found;
}

/* The greatest memory of a call, in a process of its own, as a share of the costs. */
static double share_held(struct problem *p, int checks) {
    double bytes = (double)p->given.count * 8, share = 0;
    int ends[2];
    pid_t child;
    if (pipe(ends) != 0 || (child = fork()) < 0) exit(4);
    if (child == 0) {
        long before = held("VmRSS:");
        if (checks) nushbaret_verify(&p->given, &p->answer);
        else proved(p, NULL);
        share = (double)(held("VmHWM:") - before) * 1024 / bytes;
        _exit(write(ends[1], &share, sizeof share) != sizeof share);
    }
    if (read(ends[0], &share, sizeof share) != sizeof share || waitpid(child, NULL, 0) != child) exit(4);
    close(ends[0]), close(ends[1]);
    return share;
}

static void *shared(size_t bytes) {
    void *block = mmap(NULL, bytes, PROT_READ | PROT_WRITE, MAP_SHARED | MAP_ANONYMOUS, -1, 0);
    if (block == MAP_FAILED) exit(4);
    return block;
}

static void memory(size_t n, size_t m, int64_t most) {
    struct problem p = problem(n, m, n * m, 0);
    double solving, checking;
    draw(p.costs, p.given.count, most);
    /* The process that solves writes the answer for the one that checks it. */
    p.answer.objects = (uint32_t *)shared(n * 4), p.answer.persons = (uint32_t *)shared(n * 4);
    p.answer.prices = (int64_t *)shared(m * sizeof *p.answer.prices);
    solving = share_held(&p, 0), checking = share_held(&p, 1);
    if (nushbaret_verify(&p.given, &p.answer) != NUSHBARET_BEST) exit(5);
    tell("memory", solving, 0, 0, checking);
}

int main(int argc, char **argv) {
    const char *what = argc > 1 ? argv[1] : "";
    if (strcmp(what, "text") == 0 && argc > 3) {
        text(atoi(argv[2]), strcmp(argv[3], "sparse") == 0, argc > 4);
    } else if (strcmp(what, "drawn") == 0 && argc > 6) {
        drawn((size_t)atoi(argv[2]), (size_t)atoi(argv[3]), atol(argv[4]), atoi(argv[5]), atoi(argv[6]), argc > 7);
    } else if (strcmp(what, "memory") == 0 && argc > 4) {
        memory((size_t)atoi(argv[2]), (size_t)atoi(argv[3]), atol(argv[4]));
    } else if (strcmp(what, "starts") == 0 && argc > 2) {
        starts(atoi(argv[2]));
    } else if (strcmp(what, "neighbours") == 0 && argc > 2) {
        neighbours(atoi(argv[2]));
    } else if (strcmp(what, "poor") == 0 && argc > 2) {
        poor(atoi(argv[2]));
    } else if (strcmp(what, "wide") == 0) {
        wide();
    } else if (strcmp(what, "rectangle") == 0 && argc > 6) {
        rectangle((size_t)atoi(argv[2]), (size_t)atoi(argv[3]), (size_t)atoi(argv[4]), atol(argv[5]), atoi(argv[6]));
    } else {
        return 2;
    }
    return 0;
}
