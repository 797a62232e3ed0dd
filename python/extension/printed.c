/* Floats of 32 bits as the decimals that they print as: each stands for the shortest decimal that is read as this float, the nearest one of
   several. Here it is the double nearest to that decimal.

   Of the decimals whose unit is a power of ten, at least the distance of floats and less than ten times it, at most one is read as the
   float. If one is, it is the shortest decimal but for zeros at its end; else it is the nearest one with a place more (R. Giulietti, The
   Schubfach way to render doubles, 2020). */
#include <math.h>
#include <stdio.h>
#include <stdlib.h>
#include <string.h>
#include "extension.h"

enum { BITS = 23, MOST_EXPONENT = 255, MOST_DIGITS = 9 };
#define SIGN 0x80000000u
#define FRACTION 0x7fffffu

/* ---- Floats of a usual size ---- */

/* From 2^-14 to below 2^24 all is exact in doubles: by the bits of the exponent, how many of the units are 1. Other exponents have 0, but
   for zero, infinity and NaN, whose quotient is what they are. */
#define LEAST_USUAL 0x38800000u
#define NOT_USUAL 0x4b800000u
#define NOT_FINITE 0x7f800000u
static const double UNITS[MOST_EXPONENT + 1] = {
    [0] = 1, [MOST_EXPONENT] = 1,
    [113] = 1e11, 1e10, 1e10, 1e10, 1e9, 1e9, 1e9, 1e9, 1e8, 1e8, 1e8, 1e7, 1e7, 1e7, 1e6, 1e6, 1e6, 1e6, 1e5, 1e5, 1e5, 1e4, 1e4, 1e4,
    1e3, 1e3, 1e3, 1e3, 1e2, 1e2, 1e2, 1e1, 1e1, 1e1, 1, 1, 1, 1
};
/* So many floats at a time. */
enum { BLOCK = 64 };

/* Floats and their bits. */
union floats {
    uint32_t bits[BLOCK];
    float each[BLOCK];
};

/* Writes what some floats print as, as if all were of a usual size; whether they are. Half the distance of floats is 2^-24 of the power of
   two that a float begins with, and no middle between floats is a decimal of these units. Above a power of two floats are less near to each
   other than below it; of those of a usual size this changes none. */
static inline __attribute__((always_inline)) int of_usual(const union floats *floats, int width, double *to) {
    double units[BLOCK];
    uint32_t others = 0;
    union floats powers;
    for (int k = 0; k < width; k++) units[k] = UNITS[floats->bits[k] >> BITS & MOST_EXPONENT];
    for (int k = 0; k < width; k++) {
        const uint32_t size = floats->bits[k] & ~SIGN;
        others |= ((size < LEAST_USUAL) & (size > 0)) | ((size >= NOT_USUAL) & (size < NOT_FINITE));
        powers.bits[k] = size & ~FRACTION;
    }
    for (int k = 0; k < width; k++) {
        const double scaled = floats->each[k] * units[k], nearest = scaled + TO_WHOLE - TO_WHOLE, as_finer = nearest * 10;
        const double nearest_finer = scaled * 10 + TO_WHOLE - TO_WHOLE, off = fabs(scaled - nearest) * 0x1p24;
        const double found = off < powers.each[k] * units[k] ? as_finer : nearest_finer;
        to[k] = copysign(found / (units[k] * 10), floats->each[k]);
    }
    return !others;
}

static int of_usual_here(const union floats *floats, int width, double *to) {
    return of_usual(floats, width, to);
}

/* The same for a whole block, four at a time where the processor has AVX2. */
#ifdef __x86_64__
#define BY_FOURS __attribute__((target("avx2")))
#define HAS_FOURS __builtin_cpu_supports("avx2")
#else
#define BY_FOURS
#define HAS_FOURS 1
#endif
BY_FOURS static int of_usual_by_fours(const union floats *floats, double *to) {
    return of_usual(floats, BLOCK, to);
}

/* ---- Any other float ---- */

/* A whole number divided by another, rounded to the nearest, halves to even; and how far it is from that. */
static uint64_t nearest_of(uint64_t number, uint64_t by, uint64_t *off) {
    const uint64_t down = number / by, rest = number % by;
    const int up = rest > by - rest || (rest == by - rest && (down & 1));
    *off = up ? by - rest : rest;
    return down + (uint64_t)up;
}

/* fraction * 2^power, from 2^24 to below 2^63, but no power of two. */
static double of_great(uint32_t fraction, int power) {
    const uint64_t size = (uint64_t)fraction << power, half = (uint64_t)1 << (power - 1);
    uint64_t unit = 10, off;
    while (unit < 2 * half) unit *= 10;
    const uint64_t nearest = nearest_of(size, unit, &off);
    if (off < half || (off == half && !(fraction & 1))) return (double)(nearest * unit);
    return (double)(nearest_of(size, unit / 10, &off) * (unit / 10));
}

/* fraction / 2^power, from 2^-50 to below 2^-14, but no power of two. Its decimals have at most 22 places, and powers of ten are doubles up
   to this one. Again no middle between floats is a decimal of the unit. */
static double of_small(uint32_t fraction, int power) {
    typedef unsigned __int128 wide;
    double units = 1e11;
    uint64_t fives = 48828125;
    int shift = power - 11;
    for (const double most = ldexp(0.1, power); units <= most; shift--) units *= 10, fives *= 5;
    const wide scaled = (wide)fraction * fives, finer = 5 * scaled, one = 1;
    const wide nearest = (scaled + (one << (shift - 1))) >> shift, back = nearest << shift;
    if (2 * (scaled < back ? back - scaled : scaled - back) < fives) return (double)(uint64_t)nearest / units;
    return (double)(uint64_t)((finer + (one << (shift - 2))) >> (shift - 1)) / (10 * units);
}

/* Any positive float. Of a power of two, above which floats are less near to each other than below it, what is a unit more than the nearest
   decimal may be read as the float where this one isn't. */
static double of_text(float size, int is_power) {
    char text[48];
    for (int digits = 1; digits <= MOST_DIGITS; digits++) {
        long long number = 0;
        snprintf(text, sizeof text, "%.*e", digits - 1, (double)size);
        for (const char *at = text; *at != 'e'; at++) number = *at >= '0' && *at <= '9' ? 10 * number + *at - '0' : number;
        const int exponent = atoi(strchr(text, 'e') + 1) - digits + 1;
        for (int more = 0; more <= is_power; more++) {
            snprintf(text, sizeof text, "%llde%d", number + more, exponent);
            if (strtof(text, NULL) == size) return strtod(text, NULL);
        }
    }
    return size;
}

/* Any float that isn't of a usual size. */
static double of_other(float value) {
    uint32_t bits;
    memcpy(&bits, &value, sizeof bits);
    const uint32_t size = bits & ~SIGN, fraction = (size & FRACTION) | (FRACTION + 1);
    const int exponent = (int)(size >> BITS) - 150, is_power = !(size & FRACTION);
    const double found = is_power || exponent < -73 || exponent > 39 ? of_text(fabsf(value), is_power)
        : exponent > 0 ? of_great(fraction, exponent) : of_small(fraction, -exponent);
    return copysign(found, value);
}

static int is_usual(float value) {
    const float size = fabsf(value);
    return !(size > 0 && size < 0x1p-14f) && !(size >= 0x1p24f && size < INFINITY);
}

void as_printed(const float *from, Py_ssize_t step, Py_ssize_t count, double *to) {
    const int by_fours = HAS_FOURS;
    union floats floats;
    for (Py_ssize_t first = 0; first < count; first += BLOCK, to += BLOCK) {
        const int width = count - first < BLOCK ? (int)(count - first) : BLOCK;
        const char *next = (const char *)from + first * step;
        if (step == sizeof *from) memcpy(floats.each, next, (size_t)width * sizeof *from);
        for (int k = 0; k < width && step != sizeof *from; k++) memcpy(floats.each + k, next + k * step, sizeof *from);
        const int usual = width == BLOCK && by_fours ? of_usual_by_fours(&floats, to) : of_usual_here(&floats, width, to);
        for (int k = 0; k < width && !usual; k++)
            if (!is_usual(floats.each[k])) to[k] = of_other(floats.each[k]);
    }
}

/* printed(floats, doubles): writes what the floats of an array of 32 bits print as into an array of as many doubles; false where these are
   no such arrays of one dimension. */
PyObject *printed(PyObject *module, PyObject *arguments) {
    State *state = PyModule_GetState(module);
    PyObject *from, *to;
    if (!PyArg_ParseTuple(arguments, "OO", &from, &to)) return NULL;
    if (!is_array(state, from, 1) || !is_array(state, to, 1)) Py_RETURN_FALSE;
    const struct array *floats = (const struct array *)from, *doubles = (const struct array *)to;
    const Py_ssize_t count = *floats->shape;
    if (floats->kind->number != FLOATS || floats->kind->byte_order == '>' || *doubles->shape != count) Py_RETURN_FALSE;
    if (doubles->kind->number != DOUBLES || doubles->kind->byte_order == '>' || (*doubles->steps != 8 && count > 1)) Py_RETURN_FALSE;
    as_printed((const float *)floats->data, *floats->steps, count, (double *)doubles->data);
    Py_RETURN_TRUE;
}
