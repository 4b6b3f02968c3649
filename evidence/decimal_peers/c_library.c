// Compares how the library for C reads decimals with strtof and strtold of the C library, and with strtoflt128 of
// libquadmath: c_library SEED COUNT
//
//     ./build apfloat_c
//     cc -O2 -Iinclude evidence/decimal_peers/c_library.c crates/apfloat_c/out/libapfloat_c.a -lquadmath -lm -o PEERS
//     ./PEERS 1 1000000
//
// For each of single, x87 and quad it draws COUNT texts: any digits with any exponent, values written with a few digits
// too many or too few, and numbers halfway between two values or next to that. Half of them are read to nearest, and
// the others in one of the three other modes. It prints the texts whose values differ, at most 20 a format, and how
// many agree. Flags are not compared. It needs x86-64, where long double is the format of the x87.
#include "../drawing.h"
#include "apfloat.h"

#include <fenv.h>
#include <quadmath.h>
#include <stdio.h>
#include <stdlib.h>
#include <string.h>

enum { SINGLE, X87, QUAD, FORMATS, MOST = 20, LENGTH = 20000 };

static const struct {
    const char *name;
    uint32_t code;
    int bytes, trailing, field_bits, reach;
} FORMAT[FORMATS] = {{"strtof", APFLOAT_SINGLE, 4, 23, 8, 50},
                     {"strtold", APFLOAT_X87, 10, 63, 15, 5000},
                     {"strtoflt128", APFLOAT_QUAD, 16, 112, 15, 5000}};

static const struct {
    int control;
    uint32_t code;
} MODES[] = {{FE_TONEAREST, APFLOAT_NEAREST_EVEN},
             {FE_UPWARD, APFLOAT_UPWARD},
             {FE_DOWNWARD, APFLOAT_DOWNWARD},
             {FE_TOWARDZERO, APFLOAT_TOWARD_ZERO}};

static int below(int count) { return (int)between(0, count - 1); }

// A positive number of a format, or halfway from it to the next one where binary128 has that.
static __float128 number(int format, int halfway) {
    unsigned __int128 trailing = ((unsigned __int128)word() << 64 | word()) >> (128 - FORMAT[format].trailing);
    int greatest = (1 << FORMAT[format].field_bits) - 1, bias = greatest / 2;
    // Most of the numbers are near 1, since far ones have thousands of digits.
    int field = word() % 4 && format != SINGLE ? bias - 100 + below(200) : below(greatest);
    __float128 unit = scalbnq(1, (field ? field : 1) - bias - FORMAT[format].trailing);
    if (field) trailing |= (unsigned __int128)1 << FORMAT[format].trailing;
    __float128 x = unit * (__float128)trailing;
    return halfway && format != QUAD ? x + unit / 2 : x;
}

static void any_digits(int format, char *text) {
    int length = 1 + below(40), point = below(length + 1);
    char *end = text;
    for (int i = 0; i < length; i++) {
        if (i == point) *end++ = '.';
        *end++ = (char)('0' + below(10));
    }
    sprintf(end, "e%d", below(2 * FORMAT[format].reach) - FORMAT[format].reach);
}

// The digits of a number: rounded to a few of them, or all, with or without one more at the end.
static void near_number(int format, char *text) {
    int halfway = word() % 2, few = word() % 3 == 0;
    int places = few ? 5 + below(36) : 17000;
    quadmath_snprintf(text, LENGTH, "%.*Qe", places, number(format, halfway));
    if (few) return;
    char *exponent = strchr(text, 'e'), *last = exponent;
    while (last[-1] == '0') last--;
    char kept[16];
    strcpy(kept, exponent);
    if (word() % 2) *last++ = '1';
    strcpy(last, kept);
}

static apfloat_halves bits_of(const void *value, int bytes) {
    apfloat_halves bits = {0, 0};
    memcpy(&bits, value, (size_t)bytes);
    return bits;
}

static apfloat_halves read_by_peer(int format, const char *text) {
    if (format == SINGLE) {
        float x = strtof(text, NULL);
        return bits_of(&x, 4);
    }
    if (format == X87) {
        long double x = strtold(text, NULL);
        return bits_of(&x, 10);
    }
    __float128 x = strtoflt128(text, NULL);
    return bits_of(&x, 16);
}

// Whether the bits of a format are a zero or an infinity.
static int is_limit(int format, apfloat_halves x) {
    int bits = 8 * FORMAT[format].bytes;
    uint64_t high = bits > 64 ? x.high << (128 - bits) << 1 : 0, low = bits > 64 ? x.low : x.low << (64 - bits) << 1;
    uint64_t infinite_high = UINT64_C(0xfffe) << 48;
    if (format == SINGLE) return low == 0 || low == UINT64_C(0xff) << 56;
    if (format == X87) return (high == 0 && low == 0) || (high == infinite_high && low == UINT64_C(1) << 63);
    return low == 0 && (high == 0 || high == infinite_high);
}

static int agrees(int format, int mode, const char *text, int *limit) {
    fesetround(MODES[mode].control);
    apfloat_halves peer = read_by_peer(format, text);
    fesetround(FE_TONEAREST);
    *limit = is_limit(format, peer);
    apfloat_answer answer;
    uint32_t code =
        apfloat_parse_decimal(FORMAT[format].code, MODES[mode].code, (const uint8_t *)text, strlen(text), &answer);
    return code == APFLOAT_ANSWERED && answer.bits.low == peer.low && answer.bits.high == peer.high;
}

int main(int argc, char **argv) {
    static char text[LENGTH + 64];
    if (argc != 3) return 2;
    state = strtoull(argv[1], NULL, 10);
    long count = strtol(argv[2], NULL, 10);
    for (int format = 0; format < FORMATS; format++) {
        long agree = 0, differ[4] = {0}, different = 0, limits = 0;
        int limit;
        for (long i = 0; i < count; i++) {
            char *body = text;
            if (word() % 2) *body++ = '-';
            if (word() % 3)
                any_digits(format, body);
            else
                near_number(format, body);
            int mode = word() % 2 ? 0 : 1 + below(3);
            if (agrees(format, mode, text, &limit))
                agree++;
            else {
                differ[mode]++;
                limits += limit;
                if (different++ < MOST) printf("%s, mode %d: %.120s\n", FORMAT[format].name, mode, text);
            }
        }
        printf("%s: %ld agree, %ld differ to nearest, %ld in other modes; for %ld of these it gives 0 or infinity\n",
               FORMAT[format].name, agree, differ[0], differ[1] + differ[2] + differ[3], limits);
    }
    return 0;
}
