/* Runs the machine code of nushbaret.dll on x86-64 Linux: lays out its sections, relocates them, binds the C library's functions by
   Windows' calling convention, and hands on the calls of nushbaret.h. As a shared library in the place of libnushbaret.so it lets the
   tests of the Python package run over the DLL. It says nothing of Windows' own loader. NUSHBARET_DLL names the file. */
#define _GNU_SOURCE
#include "nushbaret.h"
#include <stdio.h>
#include <stdlib.h>
#include <string.h>
#include <sys/mman.h>
#define WINDOWS __attribute__((ms_abi))

/* Where the fields of a PE32+ file stand: in its header after the mark PE, and in the optional header. */
enum { MACHINE = 4, SECTIONS = 6, OPTIONAL_SIZE = 20, OPTIONAL = 24, AMD64 = 0x8664, PE32_PLUS = 0x20b };
enum { IMAGE_BASE = 24, IMAGE_SIZE = 56, EXPORTS = 112, IMPORTS = 120, RELOCATIONS = 152 };
/* The same in a section's header, and the flag of code. */
enum { SECTION = 40, SIZE = 8, PLACE = 12, RAW_SIZE = 16, RAW_PLACE = 20, FLAGS = 36, IS_CODE = 0x20000000 };

static char held[1 << 24];
static char *base;
static const char *head, *optional;

static void stop(const char *text, const char *more) {
    fprintf(stderr, "loader.c: %s%s\n", text, more);
    exit(3);
}

static uint16_t number16(const char *at) { uint16_t value; memcpy(&value, at, 2); return value; }
static uint32_t number32(const char *at) { uint32_t value; memcpy(&value, at, 4); return value; }
static uint64_t number64(const char *at) { uint64_t value; memcpy(&value, at, 8); return value; }

static WINDOWS void *of_malloc(size_t size) { return malloc(size); }
static WINDOWS void *of_realloc(void *block, size_t size) { return realloc(block, size); }
static WINDOWS void of_free(void *block) { free(block); }
static WINDOWS void *of_memcpy(void *to, const void *from, size_t size) { return memcpy(to, from, size); }
static WINDOWS void *of_memmove(void *to, const void *from, size_t size) { return memmove(to, from, size); }
static WINDOWS void *of_memset(void *to, int byte, size_t size) { return memset(to, byte, size); }

static const struct { const char *name; void *code; } OF_C[] = {
    {"malloc", (void *)of_malloc}, {"realloc", (void *)of_realloc}, {"free", (void *)of_free},
    {"memcpy", (void *)of_memcpy}, {"memmove", (void *)of_memmove}, {"memset", (void *)of_memset},
};

static void *function_of_c(const char *name) {
    size_t k;
    for (k = 0; k < sizeof OF_C / sizeof OF_C[0]; k++)
        if (!strcmp(OF_C[k].name, name)) return OF_C[k].code;
    stop("the DLL needs ", name);
    return NULL;
}

static void read_file(void) {
    const char *name = getenv("NUSHBARET_DLL");
    FILE *in = name ? fopen(name, "rb") : NULL;
    size_t size;
    if (!in) stop("NUSHBARET_DLL names no file", "");
    size = fread(held, 1, sizeof held, in);
    fclose(in);
    head = held + number32(held + 60), optional = head + OPTIONAL;
    if (size < 1024 || size == sizeof held || memcmp(head, "PE\0\0", 4) || number16(head + MACHINE) != AMD64 ||
        number16(optional) != PE32_PLUS)
        stop("no DLL for x86-64: ", name);
}

static const char *section(int k) {
    return optional + number16(head + OPTIONAL_SIZE) + SECTION * k;
}

static void lay_out(void) {
    int k;
    base = mmap(NULL, number32(optional + IMAGE_SIZE), PROT_READ | PROT_WRITE, MAP_PRIVATE | MAP_ANONYMOUS, -1, 0);
    if (base == MAP_FAILED) stop("no memory", "");
    for (k = 0; k < number16(head + SECTIONS); k++) {
        const char *one = section(k);
        uint32_t raw = number32(one + RAW_SIZE), size = number32(one + SIZE);
        memcpy(base + number32(one + PLACE), held + number32(one + RAW_PLACE), raw < size ? raw : size);
    }
}

/* The functions of one library, which has to be that of C; a name stands after a hint of two bytes. */
static void bind_library(const char *import) {
    char *slot = base + number32(import + 16);
    if (strcmp(base + number32(import + 12), "msvcrt.dll")) stop("the DLL needs ", base + number32(import + 12));
    for (; number64(slot); slot += 8) {
        void *code = function_of_c(base + number64(slot) + 2);
        memcpy(slot, &code, 8);
    }
}

/* The addresses of a page of 4 KB; kind 10 is an address of 64 bits, kind 0 nothing. */
static void relocate_page(const char *page) {
    uint32_t j;
    for (j = 8; j < number32(page + 4); j += 2) {
        uint16_t entry = number16(page + j);
        char *place = base + number32(page) + (entry & 0xfff);
        uint64_t value;
        if (entry >> 12 == 0) continue;
        if (entry >> 12 != 10) stop("a relocation of another kind", "");
        value = number64(place) - number64(optional + IMAGE_BASE) + (uint64_t)base;
        memcpy(place, &value, 8);
    }
}

static void bind(void) {
    const char *import = base + number32(optional + IMPORTS);
    for (; number32(import + 12); import += 20) bind_library(import);
}

static void relocate(void) {
    const char *page = base + number32(optional + RELOCATIONS), *end = page + number32(optional + RELOCATIONS + 4);
    for (; page < end; page += number32(page + 4)) relocate_page(page);
}

static void protect(void) {
    int k;
    for (k = 0; k < number16(head + SECTIONS); k++) {
        const char *one = section(k);
        if (number32(one + FLAGS) & IS_CODE) mprotect(base + number32(one + PLACE), number32(one + SIZE), PROT_READ | PROT_EXEC);
    }
}

static void *exported(const char *wanted) {
    const char *table = base + number32(optional + EXPORTS);
    const char *codes = base + number32(table + 28), *names = base + number32(table + 32), *places = base + number32(table + 36);
    uint32_t k, count = number32(table + 24);
    for (k = 0; k < count; k++)
        if (!strcmp(base + number32(names + 4 * k), wanted)) return base + number32(codes + 4 * number16(places + 2 * k));
    stop("not exported: ", wanted);
    return NULL;
}

#define PAIRS const uint32_t *a, size_t ac, const uint32_t *b, size_t bc
#define COSTS const int64_t *c, size_t cc
#define ROOM uint32_t *o, size_t oc, uint32_t *p, size_t pc, int64_t *q, size_t qc
#define INFO struct nushbaret_info *info
#define PLAN const uint32_t *o, size_t oc, const int64_t *q, size_t qc
#define PIECE const int64_t *f, size_t fc, ROOM, uint64_t budget, struct nushbaret_record *record, INFO
#define CALL(type, name, taken, given) \
    static WINDOWS type(*dll_##name) taken; \
    type nushbaret_##name taken { return dll_##name given; }
CALL(int32_t, dense, (uint32_t s, size_t n, size_t m, COSTS, ROOM, INFO), (s, n, m, c, cc, o, oc, p, pc, q, qc, info))
CALL(int32_t, dense_from, (uint32_t s, size_t n, size_t m, COSTS, PIECE),
    (s, n, m, c, cc, f, fc, o, oc, p, pc, q, qc, budget, record, info))
CALL(int32_t, sparse, (uint32_t s, size_t n, size_t m, PAIRS, COSTS, ROOM, INFO),
    (s, n, m, a, ac, b, bc, c, cc, o, oc, p, pc, q, qc, info))
CALL(int32_t, sparse_from, (uint32_t s, size_t n, size_t m, PAIRS, COSTS, PIECE),
    (s, n, m, a, ac, b, bc, c, cc, f, fc, o, oc, p, pc, q, qc, budget, record, info))
CALL(int32_t, check, (uint32_t s, size_t n, size_t m, PAIRS, COSTS, PLAN, INFO),
    (s, n, m, a, ac, b, bc, c, cc, o, oc, q, qc, info))
CALL(int32_t, check_hall, (size_t n, size_t m, PAIRS, COSTS, const uint32_t *p, size_t pc, const uint32_t *o, size_t oc, INFO),
    (n, m, a, ac, b, bc, c, cc, p, pc, o, oc, info))
CALL(int32_t, bottleneck, (uint32_t s, size_t n, size_t m, PAIRS, COSTS, uint32_t *o, size_t oc, uint32_t *p, size_t pc,
    uint32_t *q, size_t qc, uint64_t budget, struct nushbaret_record *record, INFO),
    (s, n, m, a, ac, b, bc, c, cc, o, oc, p, pc, q, qc, budget, record, info))
CALL(int32_t, unique, (uint32_t s, size_t n, size_t m, PAIRS, COSTS, PLAN, uint32_t *other, size_t count, int32_t *r, size_t rc, INFO),
    (s, n, m, a, ac, b, bc, c, cc, o, oc, q, qc, other, count, r, rc, info))
CALL(int32_t, groups, (uint32_t s, size_t n, size_t m, PAIRS, COSTS, PLAN, uint32_t *g, size_t gc, INFO),
    (s, n, m, a, ac, b, bc, c, cc, o, oc, q, qc, g, gc, info))
CALL(int32_t, next, (uint32_t s, size_t n, size_t m, PAIRS, COSTS, PLAN, uint64_t arc_scans, uint32_t *other, size_t count,
    int64_t *margin, INFO), (s, n, m, a, ac, b, bc, c, cc, o, oc, q, qc, arc_scans, other, count, margin, info))
CALL(int32_t, ranked, (uint32_t s, size_t n, size_t m, PAIRS, COSTS, PLAN, uint64_t arc_scans, uint32_t *plans, size_t count,
    int64_t *totals, size_t tc, size_t *found, INFO),
    (s, n, m, a, ac, b, bc, c, cc, o, oc, q, qc, arc_scans, plans, count, totals, tc, found, info))
CALL(int32_t, wide, (uint32_t s, size_t n, size_t m, PAIRS, const struct nushbaret_wide_number *c, size_t cc, uint32_t *o, size_t oc,
    uint32_t *p, size_t pc, struct nushbaret_wide_number *q, size_t qc, struct nushbaret_wide_number *total, INFO),
    (s, n, m, a, ac, b, bc, c, cc, o, oc, p, pc, q, qc, total, info))
CALL(int32_t, fewest_changes, (uint32_t s, size_t n, size_t m, PAIRS, COSTS, const uint32_t *k, size_t kc, uint32_t *o, size_t oc,
    uint32_t *p, size_t pc, struct nushbaret_wide_number *q, size_t qc, size_t *changed, INFO),
    (s, n, m, a, ac, b, bc, c, cc, k, kc, o, oc, p, pc, q, qc, changed, info))
CALL(int32_t, doubles_from, (uint32_t s, size_t n, size_t m, const double *c, size_t cc, uint32_t *o, size_t oc, uint32_t *p,
    size_t pc, double *q, size_t qc, struct nushbaret_doubles_info *info), (s, n, m, c, cc, o, oc, p, pc, q, qc, info))
#define BETTER uint32_t *bp, size_t bpc, uint32_t *bo, size_t boc
CALL(int32_t, block, (uint32_t s, size_t n, size_t m, PAIRS, COSTS, const uint32_t *o, size_t oc, const int64_t *v, size_t vc,
    const int64_t *q, size_t qc, size_t most, int64_t *l, size_t lc, uint8_t *own, size_t count, BETTER, int64_t *k, size_t kc, INFO),
    (s, n, m, a, ac, b, bc, c, cc, o, oc, v, vc, q, qc, most, l, lc, own, count, bp, bpc, bo, boc, k, kc, info))
CALL(int32_t, block_doubles, (uint32_t s, size_t n, size_t m, const double *c, size_t cc, const uint32_t *o, size_t oc, const double *v,
    size_t vc, const double *w, size_t wc, const double *q, size_t qc, size_t most, uint32_t *lo, size_t loc, double *l, size_t lc,
    uint8_t *own, size_t count, BETTER, double *bc, size_t bcc, struct nushbaret_doubles_info *info),
    (s, n, m, c, cc, o, oc, v, vc, w, wc, q, qc, most, lo, loc, l, lc, own, count, bp, bpc, bo, boc, bc, bcc, info))
CALL(int32_t, rows, (size_t n, const size_t *s, size_t sc, const uint32_t *v, size_t vc, COSTS, const int64_t *l, size_t lc,
    const int64_t *u, size_t uc, const uint8_t *p, size_t pc, const int64_t *t, size_t tc, struct nushbaret_rows_info *info),
    (n, s, sc, v, vc, c, cc, l, lc, u, uc, p, pc, t, tc, info))
CALL(int32_t, counts_from, (uint32_t sense, const uint32_t *r, size_t rc, const uint32_t *c, size_t cc, const int64_t *k, size_t kc,
    const uint32_t *rl, size_t rlc, const uint32_t *rm, size_t rmc, const uint32_t *cl, size_t clc, const uint32_t *cm, size_t cmc,
    const uint32_t *g, size_t gc, uint8_t *p, size_t pc, int64_t *u, size_t uc, int64_t *v, size_t vc, uint8_t *s, size_t sc,
    uint8_t *t, size_t tc, uint64_t budget, struct nushbaret_counts_record *record, struct nushbaret_counts_info *info),
    (sense, r, rc, c, cc, k, kc, rl, rlc, rm, rmc, cl, clc, cm, cmc, g, gc, p, pc, u, uc, v, vc, s, sc, t, tc, budget, record, info))
CALL(size_t, version, (uint8_t *room, size_t count), (room, count))

#define FOUND(name) (*(void **)&dll_##name = exported("nushbaret_" #name))

__attribute__((constructor)) static void start(void) {
    read_file();
    lay_out();
    bind();
    relocate();
    protect();
    FOUND(dense), FOUND(dense_from), FOUND(sparse), FOUND(sparse_from);
    FOUND(check), FOUND(check_hall), FOUND(bottleneck), FOUND(unique), FOUND(groups), FOUND(next), FOUND(ranked), FOUND(wide), FOUND(rows);
    FOUND(fewest_changes), FOUND(counts_from), FOUND(doubles_from), FOUND(block), FOUND(block_doubles);
    FOUND(version);
}
