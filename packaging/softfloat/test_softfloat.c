/* Calls every function of softfloat.h, and compares each result and the flags with those that arithmetic by hand gives;
 * NaNs and integers of invalid conversions are those of the way that it is built for. Prints how many calls agree, and
 * names each that does not. */
#include "internals.h"
#include "softfloat.h"
#include "specialize.h"

#include <stdio.h>

#define INEXACT softfloat_flag_inexact
#define INVALID softfloat_flag_invalid

static unsigned agreeing, differing;

static void check(const char *call, bool is_same, unsigned flags) {
    if (is_same && softfloat_exceptionFlags == flags)
        agreeing++;
    else {
        differing++;
        printf("%s differs; flags %u, not %u\n", call, (unsigned)softfloat_exceptionFlags, flags);
    }
    softfloat_exceptionFlags = 0;
}

/* ---- the ways */

#if defined(SOFTFLOAT_ARM_VFPV2)
#define WAY "ARM-VFPv2"
#define OF_QUIET_AND_SIGNALING QUIETED
#define OF_QUIET QUIET
#define OF_DEFAULT_AND_QUIET POSITIVE_DEFAULT
#define DEFAULT POSITIVE_DEFAULT
#define TININESS softfloat_tininess_beforeRounding
#elif defined(SOFTFLOAT_ARM_VFPV2_DEFAULTNAN)
#define WAY "ARM-VFPv2-defaultNaN"
#define OF_QUIET_AND_SIGNALING POSITIVE_DEFAULT
#define OF_QUIET POSITIVE_DEFAULT
#define OF_DEFAULT_AND_QUIET POSITIVE_DEFAULT
#define DEFAULT POSITIVE_DEFAULT
#define TININESS softfloat_tininess_beforeRounding
#elif defined(SOFTFLOAT_RISCV)
#define WAY "RISCV"
#define OF_QUIET_AND_SIGNALING POSITIVE_DEFAULT
#define OF_QUIET POSITIVE_DEFAULT
#define OF_DEFAULT_AND_QUIET POSITIVE_DEFAULT
#define DEFAULT POSITIVE_DEFAULT
#define TININESS softfloat_tininess_afterRounding
#elif defined(SOFTFLOAT_8086)
#define WAY "8086"
#define OF_QUIET_AND_SIGNALING QUIET
#define OF_QUIET QUIET
#define OF_DEFAULT_AND_QUIET QUIET
#define DEFAULT NEGATIVE_DEFAULT
#define TININESS softfloat_tininess_afterRounding
#else
#define WAY "8086-SSE"
#define OF_QUIET_AND_SIGNALING QUIET
#define OF_QUIET QUIET
#define OF_DEFAULT_AND_QUIET NEGATIVE_DEFAULT
#define DEFAULT NEGATIVE_DEFAULT
#define TININESS softfloat_tininess_afterRounding
#endif

/* The integers of NaNs, and that of a negative number as an unsigned one. */
#if defined(SOFTFLOAT_ARM_VFPV2) || defined(SOFTFLOAT_ARM_VFPV2_DEFAULTNAN)
#define UNSIGNED_OF_NAN(WIDTH) UINT64_C(0)
#define SIGNED_OF_NAN(WIDTH) INT64_C(0)
#define UNSIGNED_OF_NEGATIVE(WIDTH) UINT64_C(0)
#elif defined(SOFTFLOAT_RISCV)
#define UNSIGNED_OF_NAN(WIDTH) UINT##WIDTH##_MAX
#define SIGNED_OF_NAN(WIDTH) INT##WIDTH##_MAX
#define UNSIGNED_OF_NEGATIVE(WIDTH) UINT64_C(0)
#else
#define UNSIGNED_OF_NAN(WIDTH) UINT##WIDTH##_MAX
#define SIGNED_OF_NAN(WIDTH) INT##WIDTH##_MIN
#define UNSIGNED_OF_NEGATIVE(WIDTH) UINT##WIDTH##_MAX
#endif

/* ---- values, by their bits */

struct bits {
    uint64_t high, low;
};

enum {
    ONE,
    ONE_AND_HALF,
    TWO,
    THREE,
    FOUR,
    MINUS_ONE,
    INFINITE,
    QUIET,
    SIGNALING,
    QUIETED, /* the signaling one */
    POSITIVE_DEFAULT,
    NEGATIVE_DEFAULT
};

static const struct bits f16_values[] = {{0, 0x3c00}, {0, 0x3e00}, {0, 0x4000}, {0, 0x4200}, {0, 0x4400}, {0, 0xbc00},
                                         {0, 0x7c00}, {0, 0x7e01}, {0, 0x7c02}, {0, 0x7e02}, {0, 0x7e00}, {0, 0xfe00}};
static const struct bits f32_values[] = {
    {0, 0x3f800000}, {0, 0x3fc00000}, {0, 0x40000000}, {0, 0x40400000}, {0, 0x40800000}, {0, 0xbf800000},
    {0, 0x7f800000}, {0, 0x7fc00001}, {0, 0x7f800002}, {0, 0x7fc00002}, {0, 0x7fc00000}, {0, 0xffc00000}};
static const struct bits f64_values[] = {
    {0, UINT64_C(0x3ff0000000000000)}, {0, UINT64_C(0x3ff8000000000000)}, {0, UINT64_C(0x4000000000000000)},
    {0, UINT64_C(0x4008000000000000)}, {0, UINT64_C(0x4010000000000000)}, {0, UINT64_C(0xbff0000000000000)},
    {0, UINT64_C(0x7ff0000000000000)}, {0, UINT64_C(0x7ff8000000000001)}, {0, UINT64_C(0x7ff0000000000002)},
    {0, UINT64_C(0x7ff8000000000002)}, {0, UINT64_C(0x7ff8000000000000)}, {0, UINT64_C(0xfff8000000000000)}};
static const struct bits extF80_values[] = {
    {0x3fff, UINT64_C(0x8000000000000000)}, {0x3fff, UINT64_C(0xc000000000000000)},
    {0x4000, UINT64_C(0x8000000000000000)}, {0x4000, UINT64_C(0xc000000000000000)},
    {0x4001, UINT64_C(0x8000000000000000)}, {0xbfff, UINT64_C(0x8000000000000000)},
    {0x7fff, UINT64_C(0x8000000000000000)}, {0x7fff, UINT64_C(0xc000000000000001)},
    {0x7fff, UINT64_C(0x8000000000000002)}, {0x7fff, UINT64_C(0xc000000000000002)},
    {0x7fff, UINT64_C(0xc000000000000000)}, {0xffff, UINT64_C(0xc000000000000000)}};
static const struct bits f128_values[] = {
    {UINT64_C(0x3fff000000000000), 0}, {UINT64_C(0x3fff800000000000), 0}, {UINT64_C(0x4000000000000000), 0},
    {UINT64_C(0x4000800000000000), 0}, {UINT64_C(0x4001000000000000), 0}, {UINT64_C(0xbfff000000000000), 0},
    {UINT64_C(0x7fff000000000000), 0}, {UINT64_C(0x7fff800000000000), 1}, {UINT64_C(0x7fff000000000000), 2},
    {UINT64_C(0x7fff800000000000), 2}, {UINT64_C(0x7fff800000000000), 0}, {UINT64_C(0xffff800000000000), 0}};

#if defined(__BYTE_ORDER__) && __BYTE_ORDER__ == __ORDER_BIG_ENDIAN__
enum { LOW = 1, HIGH = 0 };
#else
enum { LOW = 0, HIGH = 1 };
#endif

#define SHORT_VALUES(F, T, WORD) \
    static T F##_of(struct bits bits) { \
        const T a = {(WORD)bits.low}; \
        return a; \
    } \
    static struct bits F##_bits(T a) { \
        const struct bits bits = {0, a.v}; \
        return bits; \
    }
SHORT_VALUES(f16, float16_t, uint16_t)
SHORT_VALUES(f32, float32_t, uint32_t)
SHORT_VALUES(f64, float64_t, uint64_t)

static extFloat80_t extF80_of(struct bits bits) {
    extFloat80_t a;
    a.signExp = (uint16_t)bits.high;
    a.signif = bits.low;
    return a;
}
static struct bits extF80_bits(extFloat80_t a) {
    const struct bits bits = {a.signExp, a.signif};
    return bits;
}
static float128_t f128_of(struct bits bits) {
    float128_t a;
    a.v[LOW] = bits.low;
    a.v[HIGH] = bits.high;
    return a;
}
static struct bits f128_bits(float128_t a) {
    const struct bits bits = {a.v[HIGH], a.v[LOW]};
    return bits;
}

static bool is_same(struct bits a, struct bits b) {
    return a.high == b.high && a.low == b.low;
}

static struct bits bits(uint64_t high, uint64_t low) {
    const struct bits both = {high, low};
    return both;
}

#define VALUE(F, WHICH) F##_of(F##_values[WHICH])
#define CHECK_BITS(F, CALL, WANTED, FLAGS) check(#CALL, is_same(F##_bits(CALL), WANTED), FLAGS)
#define CHECK_VALUE(F, CALL, WHICH, FLAGS) CHECK_BITS(F, CALL, F##_values[WHICH], FLAGS)
#define CHECK_NUMBER(CALL, WANTED, FLAGS) check(#CALL, (CALL) == (WANTED), FLAGS)

/* ---- functions by pointers, as functions of values: extF80P_add for extF80M_add, and so on */

#define OF_TWO(F, T, NAME) \
    static T F##P_##NAME(T a, T b) { \
        T z; \
        F##M_##NAME(&a, &b, &z); \
        return z; \
    }
#define COMPARISON(F, T, NAME) \
    static bool F##P_##NAME(T a, T b) { \
        return F##M_##NAME(&a, &b); \
    }
#define TO_INTEGER(F, T, I, RETURNED) \
    static RETURNED F##P_to_##I(T a, uint_fast8_t mode, bool exact) { \
        return F##M_to_##I(&a, mode, exact); \
    } \
    static RETURNED F##P_to_##I##_r_minMag(T a, bool exact) { \
        return F##M_to_##I##_r_minMag(&a, exact); \
    }
#define INTO(F, T, G, U) \
    static T G##_to_##F##P(U a) { \
        T z; \
        G##_to_##F##M(a, &z); \
        return z; \
    }
#define OUT_OF(F, T, G, U) \
    static U F##P_to_##G(T a) { \
        return F##M_to_##G(&a); \
    }
#define BETWEEN(F, T, G, U) \
    static U F##P_to_##G##P(T a) { \
        U z; \
        F##M_to_##G##M(&a, &z); \
        return z; \
    }
#define BY_POINTERS(F, T) \
    INTO(F, T, ui32, uint32_t) \
    INTO(F, T, ui64, uint64_t) \
    INTO(F, T, i32, int32_t) \
    INTO(F, T, i64, int64_t) \
    INTO(F, T, f16, float16_t) \
    INTO(F, T, f32, float32_t) \
    INTO(F, T, f64, float64_t) \
    OUT_OF(F, T, f16, float16_t) \
    OUT_OF(F, T, f32, float32_t) \
    OUT_OF(F, T, f64, float64_t) \
    TO_INTEGER(F, T, ui32, uint_fast32_t) \
    TO_INTEGER(F, T, ui64, uint_fast64_t) \
    TO_INTEGER(F, T, i32, int_fast32_t) \
    TO_INTEGER(F, T, i64, int_fast64_t) \
    static T F##P_roundToInt(T a, uint_fast8_t mode, bool exact) { \
        T z; \
        F##M_roundToInt(&a, mode, exact, &z); \
        return z; \
    } \
    OF_TWO(F, T, add) \
    OF_TWO(F, T, sub) \
    OF_TWO(F, T, mul) \
    OF_TWO(F, T, div) \
    OF_TWO(F, T, rem) \
    static T F##P_sqrt(T a) { \
        T z; \
        F##M_sqrt(&a, &z); \
        return z; \
    } \
    COMPARISON(F, T, eq) \
    COMPARISON(F, T, le) \
    COMPARISON(F, T, lt) \
    COMPARISON(F, T, eq_signaling) \
    COMPARISON(F, T, le_quiet) \
    COMPARISON(F, T, lt_quiet) \
    static bool F##P_isSignalingNaN(T a) { \
        return F##M_isSignalingNaN(&a); \
    }
BY_POINTERS(extF80, extFloat80_t)
BY_POINTERS(f128, float128_t)
BETWEEN(extF80, extFloat80_t, f128, float128_t)
BETWEEN(f128, float128_t, extF80, extFloat80_t)
static float128_t f128P_mulAdd(float128_t a, float128_t b, float128_t c) {
    float128_t z;
    f128M_mulAdd(&a, &b, &c, &z);
    return z;
}

/* ---- every function of the format F; its name begins with G */

#define CHECK_INTEGERS(F, G, U, I, WIDTH) \
    CHECK_NUMBER(G##_to_##U##WIDTH(VALUE(F, ONE_AND_HALF), softfloat_round_near_maxMag, true), 2, INEXACT); \
    CHECK_NUMBER(G##_to_##U##WIDTH(VALUE(F, ONE_AND_HALF), softfloat_round_min, false), 1, 0); \
    CHECK_NUMBER(G##_to_##U##WIDTH(VALUE(F, QUIET), softfloat_round_min, true), UNSIGNED_OF_NAN(WIDTH), INVALID); \
    CHECK_NUMBER(G##_to_##U##WIDTH##_r_minMag(VALUE(F, THREE), true), 3, 0); \
    CHECK_NUMBER(G##_to_##U##WIDTH##_r_minMag(VALUE(F, MINUS_ONE), true), UNSIGNED_OF_NEGATIVE(WIDTH), INVALID); \
    CHECK_NUMBER(G##_to_##I##WIDTH(VALUE(F, ONE_AND_HALF), softfloat_round_max, true), 2, INEXACT); \
    CHECK_NUMBER(G##_to_##I##WIDTH(VALUE(F, ONE_AND_HALF), softfloat_round_odd, false), 1, 0); \
    CHECK_NUMBER(G##_to_##I##WIDTH##_r_minMag(VALUE(F, MINUS_ONE), true), -1, 0); \
    CHECK_NUMBER(G##_to_##I##WIDTH##_r_minMag(VALUE(F, SIGNALING), true), SIGNED_OF_NAN(WIDTH), INVALID); \
    CHECK_VALUE(F, U##WIDTH##_to_##G(3), THREE, 0); \
    CHECK_VALUE(F, I##WIDTH##_to_##G(-1), MINUS_ONE, 0)

#define CHECK_FORMAT(F, G) \
    do { \
        CHECK_INTEGERS(F, G, ui, i, 32); \
        CHECK_INTEGERS(F, G, ui, i, 64); \
        CHECK_VALUE(F, G##_roundToInt(VALUE(F, ONE_AND_HALF), softfloat_round_near_even, true), TWO, INEXACT); \
        CHECK_VALUE(F, G##_roundToInt(VALUE(F, ONE_AND_HALF), softfloat_round_minMag, false), ONE, 0); \
        CHECK_VALUE(F, G##_roundToInt(VALUE(F, ONE_AND_HALF), softfloat_round_odd, false), ONE, 0); \
        CHECK_VALUE(F, G##_roundToInt(VALUE(F, QUIET), softfloat_round_max, true), OF_QUIET, 0); \
        CHECK_VALUE(F, G##_add(VALUE(F, ONE), VALUE(F, TWO)), THREE, 0); \
        CHECK_VALUE(F, G##_add(VALUE(F, QUIET), VALUE(F, SIGNALING)), OF_QUIET_AND_SIGNALING, INVALID); \
        CHECK_VALUE(F, G##_sub(VALUE(F, THREE), VALUE(F, TWO)), ONE, 0); \
        CHECK_VALUE(F, G##_sub(VALUE(F, INFINITE), VALUE(F, INFINITE)), DEFAULT, INVALID); \
        CHECK_VALUE(F, G##_mul(VALUE(F, TWO), VALUE(F, ONE_AND_HALF)), THREE, 0); \
        CHECK_VALUE(F, G##_mul(VALUE(F, ONE), VALUE(F, QUIET)), OF_QUIET, 0); \
        CHECK_VALUE(F, G##_div(VALUE(F, THREE), VALUE(F, TWO)), ONE_AND_HALF, 0); \
        CHECK_VALUE(F, G##_div(VALUE(F, ONE), F##_of(bits(0, 0))), INFINITE, softfloat_flag_infinite); \
        CHECK_VALUE(F, G##_rem(VALUE(F, THREE), VALUE(F, TWO)), MINUS_ONE, 0); \
        CHECK_VALUE(F, G##_rem(VALUE(F, INFINITE), VALUE(F, ONE)), DEFAULT, INVALID); \
        CHECK_VALUE(F, G##_sqrt(VALUE(F, FOUR)), TWO, 0); \
        CHECK_VALUE(F, G##_sqrt(VALUE(F, MINUS_ONE)), DEFAULT, INVALID); \
        CHECK_NUMBER(G##_eq(VALUE(F, ONE), VALUE(F, ONE)), true, 0); \
        CHECK_NUMBER(G##_eq(VALUE(F, QUIET), VALUE(F, QUIET)), false, 0); \
        CHECK_NUMBER(G##_eq_signaling(VALUE(F, ONE), VALUE(F, TWO)), false, 0); \
        CHECK_NUMBER(G##_eq_signaling(VALUE(F, ONE), VALUE(F, QUIET)), false, INVALID); \
        CHECK_NUMBER(G##_le(VALUE(F, ONE), VALUE(F, ONE)), true, 0); \
        CHECK_NUMBER(G##_le(VALUE(F, ONE), VALUE(F, QUIET)), false, INVALID); \
        CHECK_NUMBER(G##_le_quiet(VALUE(F, MINUS_ONE), VALUE(F, ONE)), true, 0); \
        CHECK_NUMBER(G##_le_quiet(VALUE(F, QUIET), VALUE(F, ONE)), false, 0); \
        CHECK_NUMBER(G##_lt(VALUE(F, ONE), VALUE(F, ONE)), false, 0); \
        CHECK_NUMBER(G##_lt(VALUE(F, ONE), VALUE(F, QUIET)), false, INVALID); \
        CHECK_NUMBER(G##_lt_quiet(VALUE(F, ONE), VALUE(F, TWO)), true, 0); \
        CHECK_NUMBER(G##_lt_quiet(VALUE(F, SIGNALING), VALUE(F, TWO)), false, INVALID); \
        CHECK_NUMBER(G##_isSignalingNaN(VALUE(F, SIGNALING)), true, 0); \
        CHECK_NUMBER(G##_isSignalingNaN(VALUE(F, QUIET)), false, 0); \
    } while (0)

#define CHECK_FUSED(F, G) \
    do { \
        CHECK_VALUE(F, G##_mulAdd(VALUE(F, TWO), VALUE(F, ONE), VALUE(F, ONE)), THREE, 0); \
        CHECK_VALUE(F, G##_mulAdd(VALUE(F, INFINITE), F##_of(bits(0, 0)), VALUE(F, ONE)), DEFAULT, INVALID); \
        CHECK_VALUE(F, G##_mulAdd(VALUE(F, INFINITE), F##_of(bits(0, 0)), VALUE(F, QUIET)), OF_DEFAULT_AND_QUIET, \
                    INVALID); \
        CHECK_VALUE(F, G##_mulAdd(VALUE(F, ONE), VALUE(F, QUIET), VALUE(F, SIGNALING)), OF_QUIET_AND_SIGNALING, \
                    INVALID); \
        CHECK_VALUE(F, G##_mulAdd(VALUE(F, ONE), VALUE(F, ONE), VALUE(F, QUIET)), OF_QUIET, 0); \
    } while (0)

/* There, and back: names with P are those by pointers. */
#define CHECK_CONVERSION(F, OUT, H, WHICH, FLAGS, WANTED) CHECK_VALUE(H, OUT(VALUE(F, WHICH)), WANTED, FLAGS)
#define CHECK_CONVERSIONS(F, G, H, I) \
    do { \
        CHECK_CONVERSION(F, G##_to_##I, H, ONE_AND_HALF, 0, ONE_AND_HALF); \
        CHECK_CONVERSION(F, G##_to_##I, H, INFINITE, 0, INFINITE); \
        CHECK_CONVERSION(H, I##_to_##G, F, THREE, 0, THREE); \
        CHECK_CONVERSION(H, I##_to_##G, F, MINUS_ONE, 0, MINUS_ONE); \
    } while (0)

static void check_every_function(void) {
    CHECK_FORMAT(f16, f16);
    CHECK_FORMAT(f32, f32);
    CHECK_FORMAT(f64, f64);
    CHECK_FORMAT(extF80, extF80);
    CHECK_FORMAT(extF80, extF80P);
    CHECK_FORMAT(f128, f128);
    CHECK_FORMAT(f128, f128P);
    CHECK_FUSED(f16, f16);
    CHECK_FUSED(f32, f32);
    CHECK_FUSED(f64, f64);
    CHECK_FUSED(f128, f128);
    CHECK_FUSED(f128, f128P);
    CHECK_CONVERSIONS(f16, f16, f32, f32);
    CHECK_CONVERSIONS(f16, f16, f64, f64);
    CHECK_CONVERSIONS(f16, f16, extF80, extF80);
    CHECK_CONVERSIONS(f16, f16, extF80, extF80P);
    CHECK_CONVERSIONS(f16, f16, f128, f128);
    CHECK_CONVERSIONS(f16, f16, f128, f128P);
    CHECK_CONVERSIONS(f32, f32, f64, f64);
    CHECK_CONVERSIONS(f32, f32, extF80, extF80);
    CHECK_CONVERSIONS(f32, f32, extF80, extF80P);
    CHECK_CONVERSIONS(f32, f32, f128, f128);
    CHECK_CONVERSIONS(f32, f32, f128, f128P);
    CHECK_CONVERSIONS(f64, f64, extF80, extF80);
    CHECK_CONVERSIONS(f64, f64, extF80, extF80P);
    CHECK_CONVERSIONS(f64, f64, f128, f128);
    CHECK_CONVERSIONS(f64, f64, f128, f128P);
    CHECK_CONVERSIONS(extF80, extF80, f128, f128);
    CHECK_CONVERSIONS(extF80, extF80P, f128, f128P);
}

/* ---- the state */

static void check_nans_converted(void) {
    /* A NaN keeps the highest bits of its payload. */
    const struct bits quiet = OF_QUIET == POSITIVE_DEFAULT ? bits(0, 0x7e00) : bits(0, 0x7e01);
    CHECK_BITS(f16, f32_to_f16(f32_of(bits(0, 0x7fc02001))), quiet, 0);
    CHECK_BITS(f16, f64_to_f16(f64_of(bits(0, UINT64_C(0x7ff0040000000000)))), quiet, INVALID);
}

static void check_odd(void) {
    softfloat_roundingMode = softfloat_round_odd;
    CHECK_BITS(f32, f32_div(VALUE(f32, ONE), VALUE(f32, THREE)), bits(0, 0x3eaaaaab), INEXACT);
    CHECK_BITS(f32, f32_add(VALUE(f32, ONE), f32_of(bits(0, 0x30800000))), bits(0, 0x3f800001), INEXACT);
    CHECK_BITS(f32, f64_to_f32(f64_of(bits(0, UINT64_C(0x3ff0000000001000)))), bits(0, 0x3f800001), INEXACT);
    CHECK_BITS(f32, ui32_to_f32(0x1000001), bits(0, 0x4b800001), INEXACT);
    CHECK_BITS(f16, f16_mul(f16_of(bits(0, 0x7bff)), VALUE(f16, TWO)), bits(0, 0x7bff),
               INEXACT | softfloat_flag_overflow);
    CHECK_BITS(f32, f32_sub(VALUE(f32, ONE), VALUE(f32, ONE)), bits(0, 0), 0);
    softfloat_roundingMode = softfloat_round_near_even;
    /* 2.5, 3.5 and -2.5 to integers; -0.5 to an unsigned one */
    const float32_t two_and_half = f32_of(bits(0, 0x40200000)), three_and_half = f32_of(bits(0, 0x40600000));
    CHECK_VALUE(f32, f32_roundToInt(two_and_half, softfloat_round_odd, true), THREE, INEXACT);
    CHECK_VALUE(f32, f32_roundToInt(three_and_half, softfloat_round_odd, false), THREE, 0);
    CHECK_NUMBER(f32_to_i32(f32_of(bits(0, 0xc0200000)), softfloat_round_odd, true), -3, INEXACT);
    CHECK_NUMBER(f32_to_ui32(f32_of(bits(0, 0xbf000000)), softfloat_round_odd, true), UNSIGNED_OF_NEGATIVE(32),
                 INVALID);
}

static void check_modes(void) {
    static const struct {
        uint_fast8_t mode;
        uint32_t sum;
    } sums[] = {{softfloat_round_near_even, 0x3f800000}, {softfloat_round_minMag, 0x3f800000},
                {softfloat_round_min, 0x3f800000},       {softfloat_round_max, 0x3f800001},
                {softfloat_round_near_maxMag, 0x3f800001}};
    /* 1 + 2^-24, a tie */
    for (unsigned i = 0; i < sizeof sums / sizeof sums[0]; i++) {
        softfloat_roundingMode = sums[i].mode;
        CHECK_BITS(f32, f32_add(VALUE(f32, ONE), f32_of(bits(0, 0x33800000))), bits(0, sums[i].sum), INEXACT);
    }
    softfloat_roundingMode = softfloat_round_min;
    CHECK_BITS(f64, f64_sub(VALUE(f64, ONE), VALUE(f64, ONE)), bits(0, UINT64_C(0x8000000000000000)), 0);
    softfloat_roundingMode = softfloat_round_near_even;
}

static void check_tininess(void) {
    CHECK_NUMBER(softfloat_detectTininess, TININESS, 0);
    /* (1 - 2^-10) * (1 + 2^-10) * 2^-14: tiny, and no more when it is rounded to 11 digits */
    softfloat_detectTininess = softfloat_tininess_beforeRounding;
    CHECK_BITS(f16, f16_mul(f16_of(bits(0, 0x3bfe)), f16_of(bits(0, 0x0401))), bits(0, 0x0400),
               INEXACT | softfloat_flag_underflow);
    softfloat_detectTininess = softfloat_tininess_afterRounding;
    CHECK_BITS(f16, f16_mul(f16_of(bits(0, 0x3bfe)), f16_of(bits(0, 0x0401))), bits(0, 0x0400), INEXACT);
}

static void check_precision(void) {
    const extFloat80_t one = VALUE(extF80, ONE), three = VALUE(extF80, THREE);
    const extFloat80_t half = extF80_of(bits(0x3ffe, UINT64_C(0x8000000000000000)));
    const extFloat80_t largest = extF80_of(bits(0x7ffe, UINT64_MAX)), small = extF80_of(bits(1, UINT64_MAX));
    const unsigned overflow = softfloat_flag_overflow | INEXACT, underflow = softfloat_flag_underflow | INEXACT;
    CHECK_NUMBER(extF80_roundingPrecision, 80, 0);
    CHECK_BITS(extF80, extF80_div(one, three), bits(0x3ffd, UINT64_C(0xaaaaaaaaaaaaaaab)), INEXACT);
    extF80_roundingPrecision = 64;
    CHECK_BITS(extF80, extF80_div(one, three), bits(0x3ffd, UINT64_C(0xaaaaaaaaaaaaa800)), INEXACT);
    CHECK_BITS(extF80, extF80_sub(one, one), bits(0, 0), 0);
    CHECK_BITS(extF80, extF80_mul(largest, one), extF80_values[INFINITE], overflow);
    softfloat_roundingMode = softfloat_round_minMag;
    CHECK_BITS(extF80, extF80_mul(largest, one), bits(0x7ffe, UINT64_C(0xfffffffffffff800)), INEXACT);
    CHECK_BITS(extF80, extF80_add(largest, largest), bits(0x7ffe, UINT64_C(0xfffffffffffff800)), overflow);
    softfloat_roundingMode = softfloat_round_near_even;
    /* 2^-16382 - 2^-16446 */
    CHECK_BITS(extF80, extF80_mul(small, half), bits(1, UINT64_C(0x8000000000000000)), INEXACT);
    softfloat_detectTininess = softfloat_tininess_beforeRounding;
    CHECK_BITS(extF80, extF80_mul(small, half), bits(1, UINT64_C(0x8000000000000000)), underflow);
    softfloat_detectTininess = softfloat_tininess_afterRounding;
    extF80_roundingPrecision = 32;
    CHECK_BITS(extF80, extF80_div(one, three), bits(0x3ffd, UINT64_C(0xaaaaab0000000000)), INEXACT);
    CHECK_BITS(extF80, extF80_sqrt(VALUE(extF80, TWO)), bits(0x3fff, UINT64_C(0xb504f30000000000)), INEXACT);
    /* the remainder, and conversions, have all digits */
    CHECK_BITS(extF80, extF80_rem(small, one), extF80_bits(small), 0);
    extF80_roundingPrecision = 80;
}

/* ---- what simulators add */

#define CHECK_ADDED(F) \
    do { \
        const uint64_t sign = F##_values[MINUS_ONE].low - F##_values[ONE].low; \
        CHECK_NUMBER(F##_classify(F##_of(bits(0, F##_values[INFINITE].low + sign))), 1 << 0, 0); \
        CHECK_NUMBER(F##_classify(VALUE(F, MINUS_ONE)), 1 << 1, 0); \
        CHECK_NUMBER(F##_classify(F##_of(bits(0, sign + 1))), 1 << 2, 0); \
        CHECK_NUMBER(F##_classify(F##_of(bits(0, sign))), 1 << 3, 0); \
        CHECK_NUMBER(F##_classify(F##_of(bits(0, 0))), 1 << 4, 0); \
        CHECK_NUMBER(F##_classify(F##_of(bits(0, 1))), 1 << 5, 0); \
        CHECK_NUMBER(F##_classify(VALUE(F, THREE)), 1 << 6, 0); \
        CHECK_NUMBER(F##_classify(VALUE(F, INFINITE)), 1 << 7, 0); \
        CHECK_NUMBER(F##_classify(VALUE(F, SIGNALING)), 1 << 8, 0); \
        CHECK_NUMBER(F##_classify(VALUE(F, QUIET)), 1 << 9, 0); \
        CHECK_VALUE(F, F##_min(VALUE(F, ONE), VALUE(F, TWO)), ONE, 0); \
        CHECK_VALUE(F, F##_max(VALUE(F, ONE), VALUE(F, TWO)), TWO, 0); \
        CHECK_VALUE(F, F##_max(VALUE(F, QUIET), VALUE(F, TWO)), TWO, 0); \
        CHECK_VALUE(F, F##_min(VALUE(F, TWO), VALUE(F, SIGNALING)), TWO, INVALID); \
        CHECK_VALUE(F, F##_min(VALUE(F, QUIET), VALUE(F, QUIET)), DEFAULT, 0); \
        CHECK_BITS(F, F##_min(F##_of(bits(0, 0)), F##_of(bits(0, sign))), bits(0, sign), 0); \
        CHECK_BITS(F, F##_max(F##_of(bits(0, 0)), F##_of(bits(0, sign))), bits(0, 0), 0); \
    } while (0)

static void check_added(void) {
    const float32_t thirty_thousand = f32_of(bits(0, 0x46ea6000)), forty_thousand = f32_of(bits(0, 0x471c4000));
    const float16_t two_hundred_and_half = f16_of(bits(0, 0x5a44)), minus_one = VALUE(f16, MINUS_ONE);
    CHECK_ADDED(f16);
    CHECK_ADDED(f32);
    CHECK_ADDED(f64);
    CHECK_NUMBER(f128_classify(VALUE(f128, MINUS_ONE)), 1 << 1, 0);
    CHECK_NUMBER(f128_classify(VALUE(f128, SIGNALING)), 1 << 8, 0);
    CHECK_NUMBER(f16_to_ui8(two_hundred_and_half, softfloat_round_near_even, true), 200, INEXACT);
    CHECK_NUMBER(f16_to_ui8(two_hundred_and_half, softfloat_round_max, false), 201, 0);
    CHECK_NUMBER(f16_to_i8(two_hundred_and_half, softfloat_round_min, true), (int8_t)i8_fromPosOverflow, INVALID);
    CHECK_NUMBER(f16_to_i8(minus_one, softfloat_round_min, true), -1, 0);
    CHECK_NUMBER(f16_to_i16(VALUE(f16, QUIET), softfloat_round_min, true), (int16_t)i16_fromNaN, INVALID);
    CHECK_NUMBER(f16_to_ui16(minus_one, softfloat_round_min, true), (uint16_t)ui16_fromNegOverflow, INVALID);
    CHECK_NUMBER(f32_to_i16(thirty_thousand, softfloat_round_min, true), 30000, 0);
    CHECK_NUMBER(f32_to_i16(forty_thousand, softfloat_round_min, true), (int16_t)i16_fromPosOverflow, INVALID);
    CHECK_NUMBER(f32_to_ui16(forty_thousand, softfloat_round_min, true), 40000, 0);
    CHECK_NUMBER(f32_to_ui16(VALUE(f32, INFINITE), softfloat_round_min, true), UINT16_MAX, INVALID);
    CHECK_NUMBER(f32_to_bf16(f32_of(bits(0, 0x3f808001))).v, 0x3f81, INEXACT);
    CHECK_NUMBER(bf16_to_f32(f32_to_bf16(VALUE(f32, THREE))).v, f32_values[THREE].low, 0);
    CHECK_NUMBER(bf16_isSignalingNaN(f32_to_bf16(VALUE(f32, ONE))), false, 0);
}

/* What the headers say of bits is what the functions do. */
static void check_headers(void) {
    const uint64_t quiet = f64_values[QUIET].low, signaling = f64_values[SIGNALING].low;
    CHECK_NUMBER(init_detectTininess, TININESS, 0);
    CHECK_BITS(f16, f16_sqrt(VALUE(f16, MINUS_ONE)), bits(0, defaultNaNF16UI), INVALID);
    CHECK_BITS(f32, f32_sqrt(VALUE(f32, MINUS_ONE)), bits(0, defaultNaNF32UI), INVALID);
    CHECK_BITS(f64, f64_sqrt(VALUE(f64, MINUS_ONE)), bits(0, defaultNaNF64UI), INVALID);
    CHECK_BITS(extF80, extF80_sqrt(VALUE(extF80, MINUS_ONE)), bits(defaultNaNExtF80UI64, defaultNaNExtF80UI0), INVALID);
    CHECK_BITS(f128, f128_sqrt(VALUE(f128, MINUS_ONE)), bits(defaultNaNF128UI64, defaultNaNF128UI0), INVALID);
    CHECK_NUMBER((uint32_t)f64_to_ui32(VALUE(f64, QUIET), 0, true), ui32_fromNaN, INVALID);
    CHECK_NUMBER((uint32_t)f64_to_ui32(VALUE(f64, MINUS_ONE), 0, true), ui32_fromNegOverflow, INVALID);
    CHECK_NUMBER((uint32_t)f64_to_ui32(VALUE(f64, INFINITE), 0, true), ui32_fromPosOverflow, INVALID);
    CHECK_NUMBER((int64_t)f64_to_i64(VALUE(f64, QUIET), 0, true), i64_fromNaN, INVALID);
    CHECK_NUMBER((int64_t)f64_to_i64(VALUE(f64, INFINITE), 0, true), i64_fromPosOverflow, INVALID);
    CHECK_NUMBER(softfloat_isSigNaNF64UI(quiet) || !softfloat_isSigNaNF64UI(signaling), 0, 0);
    CHECK_NUMBER(isNaNF64UI(quiet) && isNaNF64UI(signaling) && !isNaNF64UI(f64_values[INFINITE].low), 1, 0);
    CHECK_NUMBER(isNaNF16UI(f16_values[SIGNALING].low) && !isNaNF16UI(f16_values[INFINITE].low), 1, 0);
    CHECK_NUMBER(isNaNF32UI(f32_values[SIGNALING].low) && !isNaNF32UI(f32_values[INFINITE].low), 1, 0);
    CHECK_NUMBER(packToF16UI(1, expF16UI(0x3e00), fracF16UI(0x3e00)), 0xbe00, 0);
    CHECK_NUMBER(packToF32UI(1, expF32UI(0x3fc00000), fracF32UI(0x3fc00000)), UINT32_C(0xbfc00000), 0);
    CHECK_NUMBER(packToF64UI(signF64UI(signaling), expF64UI(signaling), fracF64UI(signaling)), signaling, 0);
}

int main(void) {
    check_tininess();
    check_every_function();
    check_nans_converted();
    check_modes();
    check_odd();
    check_precision();
    check_added();
    check_headers();
    softfloat_raiseFlags(INVALID | INEXACT);
    check("softfloat_raiseFlags", true, INVALID | INEXACT);
    printf("%s: %u calls agree, %u differ\n", WAY, agreeing, differing);
    return differing != 0;
}
