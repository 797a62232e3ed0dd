/* What compiled code calls by name for numbers of 128 bits on WebAssembly. No proof covers it. None of these may itself do what it
   is called for, except the division, which the compiler writes out under -expand-div-rem-bits=64. */
typedef unsigned long long word;
typedef unsigned __int128 whole;

static whole joined(word low, word high) {
    union {
        word halves[2];
        whole all;
    } it = {{low, high}};
    return it.all;
}

static word high_of(whole number) {
    union {
        whole all;
        word halves[2];
    } it = {number};
    return it.halves[1];
}

/* The lower 128 bits of a product, for either sign. A product of two numbers of 32 bits and two more of them fit 64 bits. */
whole __multi3(whole x, whole y) {
    word a = (word)x, b = (word)y, low_a = a & 0xffffffff, high_a = a >> 32, low_b = b & 0xffffffff, high_b = b >> 32;
    word first = low_a * low_b, second = high_a * low_b + (first >> 32), third = low_a * high_b + (second & 0xffffffff);
    word high = high_a * high_b + (second >> 32) + (third >> 32) + a * high_of(y) + high_of(x) * b;
    return joined(third << 32 | (first & 0xffffffff), high);
}

/* Shifts by 0 to 127. */
whole __ashlti3(whole x, int count) {
    word low = (word)x;
    if (count & 64) {
        return joined(0, low << (count & 63));
    }
    return count == 0 ? x : joined(low << count, high_of(x) << count | low >> (64 - count));
}

whole __lshrti3(whole x, int count) {
    word high = high_of(x);
    if (count & 64) {
        return joined(high >> (count & 63), 0);
    }
    return count == 0 ? x : joined((word)x >> count | high << (64 - count), high >> count);
}

__int128 __divti3(__int128 x, __int128 y) {
    return x / y;
}
