/* Compares arrays, which are converted many singles at a time or by tables, with calls on single values, which
 * have neither: all 2^32 singles to each format of 8 or 16 bits, and all values of the formats of 8 bits to every
 * format; values and counts.
 *
 *     cc -O2 -Iinclude evidence/arrays.c libapfloat_c.a -o arrays
 *     arrays [MODE [SATURATING [RULE [FORMAT]]]]      0 to 4; 0 or 1; 0, 1 or 3, as in the code of a format; the only
 *                                                     format to which singles are converted
 *
 * The singles of an array are in an order in which neighbours differ in every field. */
#include "apfloat.h"
#include <stdio.h>
#include <stdlib.h>
#include <string.h>

enum { MOST = 1 << 15 };

typedef struct { const char *name; uint32_t code; size_t bytes; int ieee; } format;

static const format formats[] = {
    {"half", APFLOAT_HALF, 2, 1},       {"single", APFLOAT_SINGLE, 4, 1}, {"double", APFLOAT_DOUBLE, 8, 1},
    {"quad", APFLOAT_QUAD, 16, 1},      {"bfloat", APFLOAT_BFLOAT, 2, 1}, {"x87", APFLOAT_X87, 10, 1},
    {"tf32", APFLOAT_TF32, 4, 0},       {"e5m2", APFLOAT_E5M2, 1, 1},     {"e4m3fn", APFLOAT_E4M3FN, 1, 0},
    {"e4m3", APFLOAT_E4M3, 1, 0},       {"e4m3fnuz", APFLOAT_E4M3FNUZ, 1, 0},
    {"e5m2fnuz", APFLOAT_E5M2FNUZ, 1, 0}, {"e4m3b11fnuz", APFLOAT_E4M3B11FNUZ, 1, 0},
};
enum { FORMATS = sizeof formats / sizeof *formats, BYTES = 7 };

static uint8_t input[4 * MOST], output[16 * MOST];
static uint64_t wrong;

/* an odd factor permutes the singles */
static uint32_t single_at(uint64_t place) { return (uint32_t)place * UINT32_C(2654435761); }

static int is_finite(uint32_t code, apfloat_halves bits) {
    apfloat_answer a;
    if (apfloat_classify(code, bits, &a)) abort();
    return a.number > APFLOAT_NEGATIVE_INFINITY && a.number < APFLOAT_POSITIVE_INFINITY;
}

static int is_nan(uint32_t code, apfloat_halves bits) {
    apfloat_answer a;
    if (apfloat_classify(code, bits, &a)) abort();
    return a.number <= APFLOAT_QUIET_NAN;
}

/* the largest value of a sign, found by the mode that never leads out of the range with it */
static apfloat_halves largest(uint32_t from, uint32_t to, apfloat_halves x) {
    apfloat_answer a;
    if (apfloat_convert(from, APFLOAT_TOWARD_ZERO, to, x, &a)) abort();
    return a.bits;
}

static void check(format from, format to, uint32_t rule, uint32_t mode, int saturate, size_t count) {
    uint32_t code = to.code | rule << 8;
    apfloat_array_answer all, sum;
    memset(&sum, 0, sizeof sum);
    if (apfloat_convert_array(from.code, mode | (saturate ? APFLOAT_SATURATE : 0), code, input, from.bytes * count,
                              output, to.bytes * count, &all)) abort();
    for (size_t i = 0; i < count; i++) {
        apfloat_halves x = {0, 0}, got = {0, 0}, bits;
        apfloat_answer a;
        uint8_t *bytes = output + i * to.bytes;
        memcpy(&x.low, input + i * from.bytes, from.bytes);
        memcpy(&got.low, bytes, to.bytes < 8 ? to.bytes : 8);
        if (to.bytes > 8) memcpy(&got.high, bytes + 8, to.bytes - 8);
        if (apfloat_convert(from.code, mode, code, x, &a)) abort();
        bits = a.bits;
        if (saturate && is_finite(from.code, x) && !is_finite(code, bits)) bits = largest(from.code, code, x);
        if ((got.low != bits.low || got.high != bits.high) && wrong++ < 5)
            printf("%s to %s, %llx: %llx, not %llx\n", from.name, to.name, (unsigned long long)x.low,
                   (unsigned long long)got.low, (unsigned long long)bits.low);
        sum.inexact += a.status >> 4 & 1;
        sum.underflow += a.status >> 3 & 1;
        sum.overflow += a.status >> 2 & 1;
        sum.invalid_op += a.status & 1;
        sum.nans += (uint64_t)is_nan(code, bits);
    }
    if ((all.inexact != sum.inexact || all.underflow != sum.underflow || all.overflow != sum.overflow
         || all.invalid_op != sum.invalid_op || all.nans != sum.nans || all.values != count) && wrong++ < 5)
        printf("%s to %s: other counts\n", from.name, to.name);
}

int main(int argc, char **argv) {
    uint32_t mode = argc > 1 ? (uint32_t)atoi(argv[1]) : 0;
    int saturate = argc > 2 && atoi(argv[2]);
    uint32_t rule = argc > 3 ? (uint32_t)atoi(argv[3]) : 0;
    const char *only = argc > 4 ? argv[4] : NULL;
    for (size_t i = 0; i < MOST; i++) input[i] = (uint8_t)(i * 37);
    for (int from = BYTES; from < FORMATS; from++)
        for (int to = 0; to < FORMATS; to++)
            if (!rule || formats[to].ieee) check(formats[from], formats[to], rule, mode, saturate, 1024);
    for (int to = 0; to < FORMATS; to++) {
        if (formats[to].bytes > 2 || (rule && !formats[to].ieee)) continue;
        if (only && strcmp(only, formats[to].name)) continue;
        for (uint64_t place = 0; place < UINT64_C(1) << 32; place += MOST) {
            for (size_t i = 0; i < MOST; i++) {
                uint32_t x = single_at(place + i);
                memcpy(input + 4 * i, &x, 4);
            }
            check(formats[1], formats[to], rule, mode, saturate, MOST);
        }
        printf("single to %s: compared\n", formats[to].name);
        fflush(stdout);
    }
    return wrong != 0;
}
