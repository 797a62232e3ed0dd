/* Numbers of arrays, of any kind, as doubles or as whole numbers of 64 bits. */
#include <math.h>
#include <string.h>
#include "extension.h"

/* A number's bytes, in the other order where they are swapped. */
static void bytes_of(const char *from, size_t size, int swapped, void *to) {
    if (!swapped) {
        memcpy(to, from, size);
        return;
    }
    char *there = to;
    for (size_t k = 0; k < size; k++) there[k] = from[size - 1 - k];
}

/* A float of 16 bits. */
static double of_half(uint16_t half) {
    const int exponent = half >> 10 & 31, rest = half & 1023;
    const double size = exponent == 31 ? (rest ? NAN : INFINITY) : ldexp(exponent ? rest + 1024 : rest, (exponent ? exponent : 1) - 25);
    return half >> 15 ? -size : size;
}

#define EACH(type, change) \
    for (Py_ssize_t k = 0; k < count; k++) { \
        type number; \
        memcpy(&number, from + k * step, sizeof number); \
        to[k] = change; \
    } \
    return 1

#define EACH_SWAPPED(type, change) \
    for (Py_ssize_t k = 0; k < count; k++) { \
        type number; \
        bytes_of(from + k * step, sizeof number, 1, &number); \
        to[k] = change; \
    } \
    return 1

/* Whole numbers of 64 bits as doubles; 0 where one isn't sure to be a double. */
static int of_longs(const char *from, Py_ssize_t step, Py_ssize_t count, int swapped, double *to) {
    int good = 1;
    for (Py_ssize_t k = 0; k < count; k++) {
        int64_t number;
        bytes_of(from + k * step, sizeof number, swapped, &number);
        good &= number <= WHOLE && number >= -WHOLE;
        to[k] = (double)number;
    }
    return good;
}

static int of_ulongs(const char *from, Py_ssize_t step, Py_ssize_t count, int swapped, double *to) {
    int good = 1;
    for (Py_ssize_t k = 0; k < count; k++) {
        uint64_t number;
        bytes_of(from + k * step, sizeof number, swapped, &number);
        good &= number <= (uint64_t)WHOLE;
        to[k] = (double)number;
    }
    return good;
}

/* The same for kinds whose bytes stand in the other order. */
static int of_swapped(int kind, const char *from, Py_ssize_t step, Py_ssize_t count, double *to) {
    switch (kind) {
    case SHORTS: EACH_SWAPPED(int16_t, number);
    case USHORTS: EACH_SWAPPED(uint16_t, number);
    case INTS: EACH_SWAPPED(int32_t, number);
    case UINTS: EACH_SWAPPED(uint32_t, number);
    case FLOATS: EACH_SWAPPED(float, (double)number);
    case DOUBLES: EACH_SWAPPED(double, number);
    case HALVES: EACH_SWAPPED(uint16_t, of_half(number));
    case ULONGS: case ULONG_LONGS: return of_ulongs(from, step, count, 1, to);
    case LONGS: case LONG_LONGS: return of_longs(from, step, count, 1, to);
    default: return 0;
    }
}

/* Some numbers of an array as doubles; 0 where one isn't sure to be a double. Floats of 32 bits are what they are, or what they print as. */
int of_numbers(const Matrix *matrix, const char *from, Py_ssize_t step, Py_ssize_t count, double *to) {
    if (matrix->kind == FLOATS && matrix->as_printed) {
        if (!matrix->swapped) as_printed((const float *)from, step, count, to);
        return !matrix->swapped;
    }
    if (matrix->swapped) return of_swapped(matrix->kind, from, step, count, to);
    switch (matrix->kind) {
    case BOOLS: case UBYTES: EACH(uint8_t, (double)number);
    case BYTES: EACH(int8_t, (double)number);
    case SHORTS: EACH(int16_t, (double)number);
    case USHORTS: EACH(uint16_t, (double)number);
    case INTS: EACH(int32_t, (double)number);
    case UINTS: EACH(uint32_t, (double)number);
    case FLOATS: EACH(float, (double)number);
    case DOUBLES: EACH(double, number);
    case HALVES: EACH(uint16_t, of_half(number));
    case ULONGS: case ULONG_LONGS: return of_ulongs(from, step, count, 0, to);
    default: return of_longs(from, step, count, 0, to);
    }
}

/* Some whole numbers of an array; 0 where one has more than 63 bits, or where their bytes are swapped. */
int whole_of_numbers(int kind, int swapped, const char *from, Py_ssize_t step, Py_ssize_t count, int64_t *to) {
    int good = 1;
    if (swapped) return 0;
    switch (kind) {
    case BOOLS: case UBYTES: EACH(uint8_t, number);
    case BYTES: EACH(int8_t, number);
    case SHORTS: EACH(int16_t, number);
    case USHORTS: EACH(uint16_t, number);
    case INTS: EACH(int32_t, number);
    case UINTS: EACH(uint32_t, number);
    case LONGS: case LONG_LONGS: EACH(int64_t, number);
    default:
        for (Py_ssize_t k = 0; k < count; k++) {
            uint64_t number;
            memcpy(&number, from + k * step, sizeof number);
            good &= number <= (uint64_t)INT64_MAX;
            to[k] = (int64_t)number;
        }
        return good;
    }
}
