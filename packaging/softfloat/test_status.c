/* Calls the functions of softfloat.h with operands at random, and prints a checksum of the results and flags of each:
 * the same with -DSOFTFLOAT_STATUS, where nothing is flushed, as without it. What the two do differently is left out:
 * NaNs of fused sums, and minima and maxima of NaNs and of zeros. With -DSOFTFLOAT_STATUS it then checks, with results
 * found by hand, what only a status that is passed has. In C and C++. */
#include "softfloat.h"

#include <stdio.h>

enum { ROUNDS = 6000, ALL_MASKED = 63 };

#ifdef SOFTFLOAT_STATUS
static struct softfloat_status_t state;
#define S , &state
#define OP , 0
#define FLAGS state.softfloat_exceptionFlags
#define MODE state.softfloat_roundingMode
#define PRECISION state.extF80_roundingPrecision
#define BITS(A) (A)
#else
#define S
#define OP
#define FLAGS softfloat_exceptionFlags
#define MODE softfloat_roundingMode
#define PRECISION extF80_roundingPrecision
#define BITS(A) ((A).v)
#endif

static const uint8_t modes[] = {softfloat_round_near_even, softfloat_round_minMag,      softfloat_round_min,
                                softfloat_round_max,       softfloat_round_near_maxMag, softfloat_round_odd};

/* ---- values at random */

static uint64_t drawn;

/* The generator splitmix64. */
static uint64_t word(void) {
    uint64_t z = drawn += UINT64_C(0x9e3779b97f4a7c15);
    z = (z ^ z >> 30) * UINT64_C(0xbf58476d1ce4e5b9);
    z = (z ^ z >> 27) * UINT64_C(0x94d049bb133111eb);
    return z ^ z >> 31;
}

/* Digits, some of them long and some short. */
static uint64_t digits(int width) {
    const uint64_t some = word() >> (64 - width), low = word() % (unsigned)width;
    switch (word() % 5) {
    case 0: return 0;
    case 1: return some >> low << low;
    case 2: return UINT64_MAX >> (64 - width) ^ low % 4;
    default: return some;
    }
}

/* A sign and a biased exponent: one of the ends, near 1, or any. */
static uint64_t field(int width) {
    const uint64_t greatest = (UINT64_C(1) << width) - 1, sign = word() % 2 << width, some = word();
    switch (word() % 8) {
    case 0: return sign;
    case 1: return sign | greatest;
    case 2: return sign | (some & greatest);
    case 3: return sign | (greatest - 1);
    default: return sign | (greatest / 2 + some % 12);
    }
}

#ifdef SOFTFLOAT_STATUS
#define SHORT(T, WORD, BITS_OF) \
    const T a = (T)(BITS_OF); \
    return a;
#else
#define SHORT(T, WORD, BITS_OF) \
    T a; \
    a.v = (WORD)(BITS_OF); \
    return a;
#endif
static float16_t f16_drawn(void) {
    const uint64_t high = field(5) << 10;
    SHORT(float16_t, uint16_t, high | digits(10))
}
static float32_t f32_drawn(void) {
    const uint64_t high = field(8) << 23;
    SHORT(float32_t, uint32_t, high | digits(23))
}
static float64_t f64_drawn(void) {
    const uint64_t high = field(11) << 52;
    SHORT(float64_t, uint64_t, high | digits(52))
}
static extFloat80_t extF80_drawn(void) {
    extFloat80_t a;
    a.signExp = (uint16_t)field(15);
    a.signif = digits(63) | (a.signExp & 0x7fff ? UINT64_C(1) << 63 : 0);
    return a;
}
#if defined(__BYTE_ORDER__) && __BYTE_ORDER__ == __ORDER_BIG_ENDIAN__
enum { LOW = 1, HIGH = 0 };
#else
enum { LOW = 0, HIGH = 1 };
#endif
static float128_t f128_drawn(void) {
    float128_t a;
    a.v[HIGH] = field(15) << 48;
    a.v[HIGH] |= digits(48);
    a.v[LOW] = digits(64);
    return a;
}

/* ---- checksums */

static uint64_t sum;

/* The flags by their places in SoftFloat, without that of a denormal operand. */
static unsigned common_flags(void) {
    return (FLAGS & softfloat_flag_inexact ? 1u : 0) | (FLAGS & softfloat_flag_underflow ? 2u : 0) |
           (FLAGS & softfloat_flag_overflow ? 4u : 0) | (FLAGS & softfloat_flag_infinite ? 8u : 0) |
           (FLAGS & softfloat_flag_invalid ? 16u : 0);
}

static void add_word(uint64_t result) {
    sum = (sum ^ result) * UINT64_C(0x100000001b3);
    sum ^= sum >> 29;
}

static void number_added(uint64_t result) {
    add_word(result);
    add_word(common_flags());
}
static void f16_added(float16_t a) {
    number_added(BITS(a));
}
static void f32_added(float32_t a) {
    number_added(BITS(a));
}
static void f64_added(float64_t a) {
    number_added(BITS(a));
}
static void bf16_added(bfloat16_t a) {
    number_added(BITS(a));
}
static void extF80_added(extFloat80_t a) {
    add_word(a.signExp);
    number_added(a.signif);
}
static void f128_added(float128_t a) {
    add_word(a.v[HIGH]);
    number_added(a.v[LOW]);
}

static void begin_round(void) {
    static const uint8_t precisions[] = {80, 64, 32};
    FLAGS = 0;
    MODE = modes[word() % 6];
    PRECISION = precisions[word() % 3];
}

/* What a call adds to the checksum of its function, over and over. Operands are drawn in the order of the text. */
#define SUMMED(NAME, ...) \
    do { \
        sum = 0; \
        for (int round = 0; round < ROUNDS; round++) { \
            begin_round(); \
            __VA_ARGS__; \
        } \
        printf("%s %08lx%08lx\n", NAME, (unsigned long)(sum >> 32), (unsigned long)(sum & 0xffffffff)); \
    } while (0)

#define OF_TWO(F, NAME, ADDED) \
    SUMMED(#F "_" #NAME, const F##_t a = F##_drawn(), b = word() % 8 ? F##_drawn() : a; ADDED(F##_##NAME(a, b S)))
#define OF_ONE(F, NAME, ADDED) SUMMED(#F "_" #NAME, ADDED(F##_##NAME(F##_drawn() S)))
#define MODED(F) \
    const F##_t a = F##_drawn(); \
    const uint8_t mode = modes[word() % 6]; \
    const bool exact = word() % 2
#define TO_INTEGER(F, I) \
    SUMMED(#F "_to_" #I, MODED(F); number_added((uint64_t)F##_to_##I(a, mode, exact S))); \
    SUMMED(#F "_to_" #I "_r_minMag", MODED(F); (void)mode; \
           number_added((uint64_t)F##_to_##I##_r_minMag(a, exact S)))
#define FROM_INTEGER(F, I, TYPE) \
    SUMMED(#I "_to_" #F, const uint64_t width = word() % 64; F##_added(I##_to_##F((TYPE)(word() >> width) S)))
#define FORMAT(F) \
    do { \
        FROM_INTEGER(F, ui32, uint32_t); \
        FROM_INTEGER(F, ui64, uint64_t); \
        FROM_INTEGER(F, i32, int32_t); \
        FROM_INTEGER(F, i64, int64_t); \
        TO_INTEGER(F, ui32); \
        TO_INTEGER(F, ui64); \
        TO_INTEGER(F, i32); \
        TO_INTEGER(F, i64); \
        SUMMED(#F "_roundToInt", MODED(F); F##_added(F##_roundToInt(a, mode, exact S))); \
        OF_TWO(F, add, F##_added); \
        OF_TWO(F, sub, F##_added); \
        OF_TWO(F, mul, F##_added); \
        OF_TWO(F, div, F##_added); \
        OF_TWO(F, rem, F##_added); \
        OF_ONE(F, sqrt, F##_added); \
        OF_TWO(F, eq, number_added); \
        OF_TWO(F, le, number_added); \
        OF_TWO(F, lt, number_added); \
        OF_TWO(F, eq_signaling, number_added); \
        OF_TWO(F, le_quiet, number_added); \
        OF_TWO(F, lt_quiet, number_added); \
        SUMMED(#F "_isSignalingNaN", number_added(F##_isSignalingNaN(F##_drawn()))); \
    } while (0)
#define FUSED(F) \
    SUMMED(#F "_mulAdd", const F##_t a = F##_drawn(), b = F##_drawn(), c = F##_drawn(), \
                                     z = F##_mulAdd(a, b, c OP S); \
           if (F##_eq(z, z S)) F##_added(z))
#define CONVERSIONS(F, G) \
    SUMMED(#F "_to_" #G, G##_added(F##_to_##G(F##_drawn() S))); \
    SUMMED(#G "_to_" #F, F##_added(G##_to_##F(G##_drawn() S)))
#define EXTREMA(F) \
    SUMMED(#F "_min", const F##_t a = F##_drawn(), b = F##_drawn(); \
           if (F##_lt_quiet(a, b S) || F##_lt_quiet(b, a S)) F##_added(F##_min(a, b S))); \
    SUMMED(#F "_max", const F##_t a = F##_drawn(), b = F##_drawn(); \
           if (F##_lt_quiet(a, b S) || F##_lt_quiet(b, a S)) F##_added(F##_max(a, b S)))
#define SHORT_INTEGER(F, I) SUMMED(#F "_to_" #I, MODED(F); number_added((uint64_t)F##_to_##I(a, mode, exact S)))

typedef float16_t f16_t;
typedef float32_t f32_t;
typedef float64_t f64_t;
typedef extFloat80_t extF80_t;
typedef float128_t f128_t;

static void print_checksums(void) {
    FORMAT(f16);
    FORMAT(f32);
    FORMAT(f64);
    FORMAT(extF80);
    FORMAT(f128);
    FUSED(f16);
    FUSED(f32);
    FUSED(f64);
    FUSED(f128);
    CONVERSIONS(f16, f32);
    CONVERSIONS(f16, f64);
    CONVERSIONS(f16, extF80);
    CONVERSIONS(f16, f128);
    CONVERSIONS(f32, f64);
    CONVERSIONS(f32, extF80);
    CONVERSIONS(f32, f128);
    CONVERSIONS(f64, extF80);
    CONVERSIONS(f64, f128);
    CONVERSIONS(extF80, f128);
    SUMMED("f32_to_bf16", bf16_added(f32_to_bf16(f32_drawn() S)));
    SUMMED("bf16_to_f32", const bfloat16_t a = f32_to_bf16(f32_drawn() S); f32_added(bf16_to_f32(a S)));
    EXTREMA(f16);
    EXTREMA(f32);
    EXTREMA(f64);
    SHORT_INTEGER(f16, ui8);
    SHORT_INTEGER(f16, ui16);
    SHORT_INTEGER(f16, i8);
    SHORT_INTEGER(f16, i16);
    SHORT_INTEGER(f32, ui16);
    SHORT_INTEGER(f32, i16);
    SUMMED("f16_classify", number_added(f16_classify(f16_drawn())));
    SUMMED("f32_classify", number_added(f32_classify(f32_drawn())));
    SUMMED("f64_classify", number_added(f64_classify(f64_drawn())));
    SUMMED("f128_classify", number_added(f128_classify(f128_drawn())));
}

/* ---- what only a status that is passed has */

#ifdef SOFTFLOAT_STATUS
static int differing;

static void check(const char *call, bool is_same, int flags) {
    if (!is_same || state.softfloat_exceptionFlags != flags) {
        fprintf(stderr, "%s differs; flags %d, not %d\n", call, state.softfloat_exceptionFlags, flags);
        differing++;
    }
    state.softfloat_exceptionFlags = 0;
}
#define CHECK(CALL, WANTED, RAISED) check(#CALL, (CALL) == (WANTED), RAISED)

static void begin(int masks, bool denormals_are_zeros, bool flushes) {
    const struct softfloat_status_t first = {softfloat_round_near_even, 0, masks, 0, denormals_are_zeros, flushes, 80};
    state = first;
}

#if defined(SOFTFLOAT_ARM_VFPV2) || defined(SOFTFLOAT_ARM_VFPV2_DEFAULTNAN)
enum { IS_ARM = true, HAS_NANS_OF_X86 = false };
#elif defined(SOFTFLOAT_RISCV)
enum { IS_ARM = false, HAS_NANS_OF_X86 = false };
#else
enum { IS_ARM = false, HAS_NANS_OF_X86 = true };
#endif

static void check_by_hand(void) {
    const int inexact = softfloat_flag_inexact, underflow = softfloat_flag_underflow, invalid = softfloat_flag_invalid;
    const int denormal = softfloat_flag_denormal, flushed = IS_ARM ? underflow : underflow | inexact;
    const int unless_arm = IS_ARM ? 0 : denormal, arm_alone = IS_ARM ? denormal : 0;
    const uint32_t one = 0x3f800000, half = 0x3f000000, least = 1, least_normal = 0x800000, minus = 0x80000000;
    const uint32_t infinite = 0x7f800000, quiet = 0x7fc00001, signaling = 0x7f800002;
    const extFloat80_t least_of_x87 = {1, 0};

    begin(ALL_MASKED, false, false);
    CHECK(f32_add(one, least, &state), one, inexact | unless_arm);
    CHECK(f32_add(least, least, &state), 2, unless_arm);
    CHECK(f32_mul(least_normal, half, &state), 0x400000, 0);
    CHECK(f32_div(least, 0, &state), infinite, softfloat_flag_divbyzero);
    CHECK(f32_sqrt(minus | least, &state) & 0x7fffffff, 0x7fc00000, invalid);
    CHECK(f32_roundToInt(least, softfloat_round_max, true, &state), one, inexact);
    CHECK(f32_to_i32(least, softfloat_round_near_even, true, &state), 0, inexact);
    CHECK(f32_to_f64(least, &state), UINT64_C(0x36a0000000000000), unless_arm);
    CHECK(f64_to_f32(1, &state), 0, underflow | inexact | unless_arm);
    CHECK(f32_lt(least, one, &state), true, unless_arm);
    CHECK(extF80_to_f32(least_of_x87, &state), 0, underflow | inexact);
    CHECK(extF80_roundToInt(least_of_x87, softfloat_round_near_even, false, &state).signExp, 0, unless_arm);
    state.softfloat_suppressException = inexact;
    f32_add(one, least, &state);
    CHECK(softfloat_getExceptionFlags(&state), unless_arm, inexact | unless_arm);

    /* an exact denormal result where underflow is not masked, and an unmasked flag beside flushing */
    begin(ALL_MASKED & ~underflow, false, true);
    CHECK(f32_mul(least_normal, half, &state), 0x400000, underflow);

    begin(ALL_MASKED, false, true);
    CHECK(f32_mul(least_normal, half, &state), 0, flushed);
    CHECK(f32_mul(minus | least_normal, half, &state), minus, flushed);
    CHECK(f32_sub(least_normal, least_normal, &state), 0, 0);
    CHECK(f64_to_f32(UINT64_C(0x36a0000000000000), &state), 0, flushed);
    /* (1 - 2^-24) * 2^-126 is below the normal numbers until it is rounded to fewer digits than it has */
    CHECK(f32_mul(0x3f7fffff, least_normal, &state), 0, flushed);

    begin(ALL_MASKED, true, false);
    CHECK(f32_add(one, least, &state), one, arm_alone);
    CHECK(f32_div(one, minus | least, &state), minus | infinite, softfloat_flag_divbyzero | arm_alone);
    CHECK(f32_eq(least, 0, &state), true, arm_alone);
    CHECK(f32_mulAdd(one, one, least, 0, &state), one, arm_alone);
    CHECK(f32_to_f64(minus | least, &state), UINT64_C(1) << 63, arm_alone);
    CHECK(f32_to_ui32(least, softfloat_round_max, true, &state), 0, arm_alone);

    begin(ALL_MASKED, false, false);
    CHECK(f32_mulAdd(one, one, half, softfloat_mulAdd_subC, &state), half, 0);
    CHECK(f32_mulAdd(one, half, one, softfloat_mulAdd_subProd, &state), half, 0);
    CHECK(f32_mulAdd(one, half, half, softfloat_mulAdd_subProd | softfloat_mulAdd_subC, &state), minus | one, 0);
    CHECK(f32_compare(one, half, false, &state), softfloat_relation_greater, 0);
    CHECK(f32_compare(0, minus, false, &state), softfloat_relation_equal, 0);
    CHECK(f32_compare(half, one, false, &state), softfloat_relation_less, 0);
    CHECK(f32_compare(one, quiet, true, &state), softfloat_relation_unordered, 0);
    CHECK(f32_compare(one, quiet, false, &state), softfloat_relation_unordered, invalid);
    CHECK(f32_compare(one, signaling, true, &state), softfloat_relation_unordered, invalid);
    CHECK(f32_min(one, quiet, &state), quiet, invalid);
    CHECK(f32_min(quiet, one, &state), one, invalid);
    CHECK(f32_max(0, minus, &state), minus, 0);
    if (!HAS_NANS_OF_X86) return;
    /* infinity times zero and a quiet NaN; a NaN does not change its sign */
    CHECK(f32_mulAdd(infinite, 0, quiet, 0, &state), quiet, 0);
    CHECK(f32_mulAdd(infinite, 0, one, 0, &state), 0xffc00000, invalid);
    CHECK(f32_mulAdd(one, one, quiet, softfloat_mulAdd_subC, &state), quiet, 0);
    CHECK(f32_mulAdd(quiet, one, 0x7fc00002, softfloat_mulAdd_subProd, &state), quiet, 0);
}
#endif

int main(void) {
#ifdef SOFTFLOAT_STATUS
    begin(ALL_MASKED, false, false);
    print_checksums();
    check_by_hand();
    return differing != 0;
#else
    print_checksums();
    return 0;
#endif
}
