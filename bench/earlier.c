/* The calls of c/nushbaret.h that bench/calls.c makes, by version 3's library, whose calls bench/paths.py renames to begin with
   `earlier_`. Its numbers had 16 bits, and its prices 128, in the unit of the costs times m + 1: lists are turned into those,
   which takes far less time than a call. Of a solve only objects and the total are handed on; a check takes exact prices. */
#include "../c/nushbaret.h"
#include <stdlib.h>

struct earlier_price {
    uint64_t low;
    int64_t high;
};

int32_t earlier_nushbaret_dense(uint32_t sense, size_t n, size_t m, const int64_t *costs, size_t count,
    uint16_t *objects, size_t objects_count, uint16_t *persons, size_t persons_count,
    struct earlier_price *prices, size_t prices_count, struct nushbaret_info *info);

int32_t earlier_nushbaret_sparse(uint32_t sense, size_t n, size_t m, const uint16_t *of_persons, size_t of_persons_count,
    const uint16_t *of_objects, size_t of_objects_count, const int64_t *costs, size_t count,
    uint16_t *objects, size_t objects_count, uint16_t *persons, size_t persons_count,
    struct earlier_price *prices, size_t prices_count, struct nushbaret_info *info);

int32_t earlier_nushbaret_check(uint32_t sense, size_t n, size_t m, const uint16_t *of_persons, size_t of_persons_count,
    const uint16_t *of_objects, size_t of_objects_count, const int64_t *costs, size_t count,
    const uint16_t *objects, size_t objects_count, const struct earlier_price *prices, size_t prices_count,
    struct nushbaret_info *info);

static void *room(size_t bytes) {
    void *block = calloc(bytes + 1, 1);
    if (block == NULL) exit(4);
    return block;
}

static uint16_t *narrow(const uint32_t *numbers, size_t count) {
    uint16_t *narrowed = (uint16_t *)room(count * sizeof *narrowed);
    size_t k;
    for (k = 0; k < count; k++) narrowed[k] = (uint16_t)numbers[k];
    return narrowed;
}

static void widen(const uint16_t *numbers, size_t count, uint32_t *widened) {
    size_t k;
    for (k = 0; k < count; k++) widened[k] = numbers[k];
}

int32_t nushbaret_dense(uint32_t sense, size_t n, size_t m, const int64_t *costs, size_t count,
    uint32_t *objects, size_t objects_count, uint32_t *persons, size_t persons_count,
    int64_t *prices, size_t prices_count, struct nushbaret_info *info) {
    uint16_t *found = (uint16_t *)room(n * 2), *set = (uint16_t *)room(n * 2);
    struct earlier_price *paid = (struct earlier_price *)room(m * sizeof *paid);
    int32_t code = earlier_nushbaret_dense(sense, n, m, costs, count, found, n, set, n, paid, m, info);
    (void)prices, (void)prices_count, (void)persons, (void)persons_count;
    widen(found, objects_count, objects);
    free(found), free(set), free(paid);
    return code;
}

int32_t nushbaret_sparse(uint32_t sense, size_t n, size_t m, const uint32_t *of_persons, size_t of_persons_count,
    const uint32_t *of_objects, size_t of_objects_count, const int64_t *costs, size_t count,
    uint32_t *objects, size_t objects_count, uint32_t *persons, size_t persons_count,
    int64_t *prices, size_t prices_count, struct nushbaret_info *info) {
    uint16_t *found = (uint16_t *)room(n * 2), *set = (uint16_t *)room(n * 2);
    uint16_t *by_persons = narrow(of_persons, of_persons_count), *by_objects = narrow(of_objects, of_objects_count);
    struct earlier_price *paid = (struct earlier_price *)room(m * sizeof *paid);
    int32_t code = earlier_nushbaret_sparse(sense, n, m, by_persons, of_persons_count, by_objects, of_objects_count, costs, count,
        found, n, set, n, paid, m, info);
    (void)prices, (void)prices_count, (void)persons, (void)persons_count;
    widen(found, objects_count, objects);
    free(found), free(set), free(by_persons), free(by_objects), free(paid);
    return code;
}

int32_t nushbaret_check(uint32_t sense, size_t n, size_t m, const uint32_t *of_persons, size_t of_persons_count,
    const uint32_t *of_objects, size_t of_objects_count, const int64_t *costs, size_t count,
    const uint32_t *objects, size_t objects_count, const int64_t *prices, size_t prices_count,
    struct nushbaret_info *info) {
    uint16_t *owned = narrow(objects, objects_count);
    uint16_t *by_persons = narrow(of_persons, of_persons_count), *by_objects = narrow(of_objects, of_objects_count);
    struct earlier_price *paid = (struct earlier_price *)room(prices_count * sizeof *paid);
    size_t k;
    int32_t code;
    for (k = 0; k < prices_count; k++) paid[k].low = (uint64_t)prices[k] * (m + 1);
    code = earlier_nushbaret_check(sense, n, m, by_persons, of_persons_count, by_objects, of_objects_count, costs, count,
        owned, objects_count, paid, prices_count, info);
    free(owned), free(by_persons), free(by_objects), free(paid);
    return code;
}

/* Only this library is called from first prices or in pieces. */
int32_t nushbaret_dense_from(uint32_t sense, size_t n, size_t m, const int64_t *costs, size_t count,
    const int64_t *first, size_t first_count, uint32_t *objects, size_t objects_count,
    uint32_t *persons, size_t persons_count, int64_t *prices, size_t prices_count,
    uint64_t budget, struct nushbaret_record *record, struct nushbaret_info *info) {
    (void)first, (void)first_count, (void)budget, (void)record;
    return nushbaret_dense(sense, n, m, costs, count, objects, objects_count, persons, persons_count, prices, prices_count, info);
}

int32_t nushbaret_sparse_from(uint32_t sense, size_t n, size_t m, const uint32_t *of_persons, size_t of_persons_count,
    const uint32_t *of_objects, size_t of_objects_count, const int64_t *costs, size_t count,
    const int64_t *first, size_t first_count, uint32_t *objects, size_t objects_count,
    uint32_t *persons, size_t persons_count, int64_t *prices, size_t prices_count,
    uint64_t budget, struct nushbaret_record *record, struct nushbaret_info *info) {
    (void)first, (void)first_count, (void)budget, (void)record;
    return nushbaret_sparse(sense, n, m, of_persons, of_persons_count, of_objects, of_objects_count, costs, count,
        objects, objects_count, persons, persons_count, prices, prices_count, info);
}
