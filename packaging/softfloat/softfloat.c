/* The interface of Berkeley SoftFloat 3e, made of calls of libapfloat: with the state of a thread or, by
 * -DSOFTFLOAT_STATUS, a status that is passed. README.md here says how to build it. */
#include "softfloat.h"

#include "apfloat.h"
#include "specialize.h"

#if defined(__GNUC__)
#define INLINE static inline __attribute__((always_inline))
#define OUT_OF_LINE static __attribute__((noinline))
#else
#define INLINE static inline
#define OUT_OF_LINE static
#endif

/* ---- which NaNs and which integers: one of the ways in which SoftFloat is built */

#if defined(SOFTFLOAT_ARM_VFPV2)
#define WAY APFLOAT_MACHINE_ARM
#define WAY_OF_EXTF80 APFLOAT_MACHINE_ARM
#define TININESS softfloat_tininess_beforeRounding
#elif defined(SOFTFLOAT_ARM_VFPV2_DEFAULTNAN)
#define WAY APFLOAT_MACHINE_ARM_DEFAULT_NAN
#define WAY_OF_EXTF80 APFLOAT_MACHINE_ARM_DEFAULT_NAN
#define TININESS softfloat_tininess_beforeRounding
#elif defined(SOFTFLOAT_8086)
#define WAY APFLOAT_MACHINE_X87
#define WAY_OF_EXTF80 APFLOAT_MACHINE_X87
#define TININESS softfloat_tininess_afterRounding
#elif defined(SOFTFLOAT_RISCV)
#define WAY APFLOAT_MACHINE_RISC_V
#define WAY_OF_EXTF80 APFLOAT_MACHINE_RISC_V
#define TININESS softfloat_tininess_afterRounding
#else /* 8086-SSE */
#define WAY APFLOAT_MACHINE_X86
#define WAY_OF_EXTF80 APFLOAT_MACHINE_X87
#define TININESS softfloat_tininess_afterRounding
#endif

/* ---- the state: that of a thread, or the status that is the last argument
 *
 * The five lowest bits of a status of the library are APFLOAT_INVALID_OP, .._DIV_BY_ZERO, .._OVERFLOW, .._UNDERFLOW and
 * .._INEXACT. SoftFloat has them in the opposite order; a status that is passed has them in the same one, with the flag
 * of a denormal operand after the first. */

#define AND_STATUS SOFTFLOAT_AND_STATUS
#ifdef SOFTFLOAT_STATUS
#define WITH_STATUS , status
#define BITS(A) (A)
#define IN_STATE(NAME) status->NAME
#define DETECTED_TININESS TININESS

INLINE void raise_flags(uint32_t flags AND_STATUS) {
    const uint32_t first = flags & APFLOAT_INVALID_OP;
    softfloat_raiseFlags(status, (int)(first | (flags - first) << 1));
}
#else
#define WITH_STATUS
#define BITS(A) ((A).v)
#define IN_STATE(NAME) NAME
#define DETECTED_TININESS softfloat_detectTininess

THREAD_LOCAL uint_fast8_t softfloat_detectTininess = TININESS;
THREAD_LOCAL uint_fast8_t softfloat_roundingMode = softfloat_round_near_even;
THREAD_LOCAL uint_fast8_t softfloat_exceptionFlags = 0;
THREAD_LOCAL uint_fast8_t extF80_roundingPrecision = 80;

void softfloat_raiseFlags(uint_fast8_t flags) {
    softfloat_exceptionFlags |= flags;
}

INLINE void raise_flags(uint32_t flags) {
    static const uint8_t reversed[32] = {0, 16, 8, 24, 4, 20, 12, 28, 2, 18, 10, 26, 6, 22, 14, 30,
                                         1, 17, 9, 25, 5, 21, 13, 29, 3, 19, 11, 27, 7, 23, 15, 31};
    softfloat_raiseFlags(reversed[flags & 31]);
}
#endif

/* The result, with its flags raised. */
INLINE apfloat_halves raised(apfloat_answer answer AND_STATUS) {
    raise_flags(answer.status WITH_STATUS);
    return answer.bits;
}

/* ---- values as halves */

#if defined(__BYTE_ORDER__) && __BYTE_ORDER__ == __ORDER_BIG_ENDIAN__
enum { LOW = 1, HIGH = 0 };
#else
enum { LOW = 0, HIGH = 1 };
#endif

#define CODE_f16 APFLOAT_HALF
#define CODE_f32 APFLOAT_SINGLE
#define CODE_f64 APFLOAT_DOUBLE
#define CODE_extF80 APFLOAT_X87
#define CODE_f128 APFLOAT_QUAD
#define CODE_bf16 APFLOAT_BFLOAT

static apfloat_halves of_low(uint64_t low) {
    const apfloat_halves halves = {low, 0};
    return halves;
}

static apfloat_halves of_f16(float16_t a) {
    return of_low(BITS(a));
}
static apfloat_halves of_bf16(bfloat16_t a) {
    return of_low(BITS(a));
}
static apfloat_halves of_f32(float32_t a) {
    return of_low(BITS(a));
}
static apfloat_halves of_f64(float64_t a) {
    return of_low(BITS(a));
}
static apfloat_halves of_extF80(extFloat80_t a) {
    const apfloat_halves halves = {a.signif, a.signExp};
    return halves;
}
static apfloat_halves of_f128(float128_t a) {
    const apfloat_halves halves = {a.v[LOW], a.v[HIGH]};
    return halves;
}

static float16_t as_f16(apfloat_halves bits) {
    const float16_t a = {(uint16_t)bits.low};
    return a;
}
static bfloat16_t as_bf16(apfloat_halves bits) {
    const bfloat16_t a = {(uint16_t)bits.low};
    return a;
}
static float32_t as_f32(apfloat_halves bits) {
    const float32_t a = {(uint32_t)bits.low};
    return a;
}
static float64_t as_f64(apfloat_halves bits) {
    const float64_t a = {bits.low};
    return a;
}
static extFloat80_t as_extF80(apfloat_halves bits) {
    extFloat80_t a;
    a.signif = bits.low;
    a.signExp = (uint16_t)bits.high;
    return a;
}
static float128_t as_f128(apfloat_halves bits) {
    float128_t a;
    a.v[LOW] = bits.low;
    a.v[HIGH] = bits.high;
    return a;
}

/* ---- calls of the library */

/* The format with the flags of IEEE 754 and the tininess of the state. */
INLINE uint32_t ruled(uint32_t format) {
    const bool is_before = DETECTED_TININESS == softfloat_tininess_beforeRounding;
    return format | APFLOAT_IEEE_FLAGS | (is_before ? APFLOAT_TINY_BEFORE_ROUNDING : 0);
}

/* A mode of the library. Rounding to odd begins with truncation. */
INLINE uint32_t direction(uint_fast8_t mode) {
    switch (mode) {
    case softfloat_round_minMag:
    case softfloat_round_odd: return APFLOAT_TOWARD_ZERO;
    case softfloat_round_min: return APFLOAT_DOWNWARD;
    case softfloat_round_max: return APFLOAT_UPWARD;
    case softfloat_round_near_maxMag: return APFLOAT_NEAREST_AWAY;
    default: return APFLOAT_NEAREST_EVEN;
    }
}

/* The x87 unit has no unsigned integers and no fused sums. SoftFloat has both there, with the integers and the default
 * NaN of SSE; fused() takes all other NaNs from a product and a sum. */
static uint32_t machine_for(uint32_t operation, uint32_t format) {
    const uint32_t machine = format == APFLOAT_X87 ? WAY_OF_EXTF80 : WAY;
    const bool is_lacking = operation == APFLOAT_TO_U128 || operation == APFLOAT_FMA;
    return machine == APFLOAT_MACHINE_X87 && is_lacking ? APFLOAT_MACHINE_X86 : machine;
}

/* Whether a result of a format is a NaN. */
INLINE bool is_nan(uint32_t format, apfloat_halves bits) {
    const uint64_t magnitude_of_double = bits.low & INT64_MAX, magnitude_of_quad = bits.high & INT64_MAX;
    switch (format) {
    case APFLOAT_HALF: return (bits.low & 0x7fff) > 0x7c00;
    case APFLOAT_BFLOAT: return (bits.low & 0x7fff) > 0x7f80;
    case APFLOAT_SINGLE: return (bits.low & 0x7fffffff) > 0x7f800000;
    case APFLOAT_DOUBLE: return magnitude_of_double > UINT64_C(0x7ff0000000000000);
    case APFLOAT_X87: return (bits.high & 0x7fff) == 0x7fff && bits.low << 1 != 0;
    default:
        return magnitude_of_quad > UINT64_C(0x7fff000000000000) ||
               (magnitude_of_quad == UINT64_C(0x7fff000000000000) && bits.low != 0);
    }
}

/* No call is refused: formats, operations and widths are known, and no value has bits above its width. */
OUT_OF_LINE apfloat_answer by_machine(uint32_t operation, uint32_t format, uint32_t mode, uint32_t to,
                                      apfloat_halves x, apfloat_halves y, apfloat_halves z) {
    apfloat_answer answer = {{0, 0}, 0, 0};
    apfloat_machine(machine_for(operation, format), operation, ruled(format), mode, to, x, y, z, &answer);
    return answer;
}

/* Machines differ in NaNs and in invalid integers alone. */
INLINE apfloat_answer delivered(uint32_t operation, uint32_t format, uint32_t mode, uint32_t to, apfloat_halves x,
                                apfloat_halves y, apfloat_halves z) {
    apfloat_answer answer = {{0, 0}, 0, 0};
    const uint32_t rule = ruled(format);
    bool is_special;
    switch (operation) {
    case APFLOAT_ADD: apfloat_add(rule, mode, x, y, &answer); break;
    case APFLOAT_SUB: apfloat_sub(rule, mode, x, y, &answer); break;
    case APFLOAT_MUL: apfloat_mul(rule, mode, x, y, &answer); break;
    case APFLOAT_DIV: apfloat_div(rule, mode, x, y, &answer); break;
    case APFLOAT_REM: apfloat_rem(rule, x, y, &answer); break;
    case APFLOAT_SQRT: apfloat_sqrt(rule, mode, x, &answer); break;
    case APFLOAT_FMA: apfloat_fma(rule, mode, x, y, z, &answer); break;
    case APFLOAT_CONVERT: apfloat_convert(rule, mode, to, x, &answer); break;
    case APFLOAT_TO_U128: apfloat_to_u128(rule, mode, x, to, &answer); break;
    case APFLOAT_TO_I128: apfloat_to_i128(rule, mode, x, to, &answer); break;
    case APFLOAT_INTEGRAL: apfloat_integral(rule, mode, x, &answer); break;
    default: apfloat_round_to_integral(rule, mode, x, &answer);
    }
    switch (operation) {
    case APFLOAT_TO_U128:
    case APFLOAT_TO_I128: is_special = answer.status & APFLOAT_INVALID_OP; break;
    case APFLOAT_CONVERT: is_special = is_nan(to & 0xff, answer.bits); break;
    default: is_special = is_nan(format, answer.bits);
    }
    return is_special ? by_machine(operation, format, mode, to, x, y, z) : answer;
}

/* A truncated result with an odd last digit, in the mode that asks for it, unless it is exact. The lowest bit is the
 * last digit in every format, and the largest value has an odd one. */
INLINE apfloat_answer odd_if_asked(apfloat_answer answer, uint_fast8_t mode) {
    if (mode == softfloat_round_odd && (answer.status & APFLOAT_INEXACT)) answer.bits.low |= 1;
    return answer;
}

static int32_t class_of(uint32_t format, apfloat_halves x) {
    apfloat_answer answer = {{0, 0}, 0, 0};
    apfloat_classify(format, x, &answer);
    return answer.number;
}

/* ---- extFloat80_t with 53 or 24 digits */

/* A result with fewer digits, rounded once, with the exponents of extFloat80_t. NaNs are those of the machine. */
OUT_OF_LINE apfloat_answer shortened(uint32_t operation, uint32_t digits, uint_fast8_t mode, apfloat_halves x,
                                     apfloat_halves y) {
    const uint32_t control = digits == 64 ? APFLOAT_ROUND_TO_53_DIGITS : APFLOAT_ROUND_TO_24_DIGITS;
    const uint32_t rounding = mode == softfloat_round_odd ? APFLOAT_TO_ODD : direction(mode);
    apfloat_answer answer = {{0, 0}, 0, 0};
    apfloat_instruction(APFLOAT_MACHINE_X87, operation, ruled(APFLOAT_X87), rounding, control, 0, x, y, y, &answer);
    answer.number = 0;
    return is_nan(APFLOAT_X87, answer.bits) ? by_machine(operation, APFLOAT_X87, direction(mode), 0, x, y, y) : answer;
}

/* ---- denormal operands and results, which only a status that is passed has a say in */

#ifdef SOFTFLOAT_STATUS
#if defined(SOFTFLOAT_ARM_VFPV2) || defined(SOFTFLOAT_ARM_VFPV2_DEFAULTNAN)
enum { IS_ARM = true, FLAGS_OF_FLUSHED = APFLOAT_UNDERFLOW };
#else
enum { IS_ARM = false, FLAGS_OF_FLUSHED = APFLOAT_UNDERFLOW | APFLOAT_INEXACT };
#endif

/* The bit of the sign. */
static apfloat_halves sign_bit(uint32_t format) {
    apfloat_halves sign = {0, 0};
    switch (format) {
    case APFLOAT_HALF:
    case APFLOAT_BFLOAT: sign.low = 0x8000; break;
    case APFLOAT_SINGLE: sign.low = UINT32_C(1) << 31; break;
    case APFLOAT_DOUBLE: sign.low = UINT64_C(1) << 63; break;
    case APFLOAT_X87: sign.high = 0x8000; break;
    default: sign.high = UINT64_C(1) << 63;
    }
    return sign;
}

static bool is_denormal(uint32_t format, apfloat_halves bits) {
    const apfloat_halves sign = sign_bit(format);
    bits.low &= ~sign.low, bits.high &= ~sign.high;
    if (bits.low == 0 && bits.high == 0) return false;
    switch (format) {
    case APFLOAT_HALF: return bits.low >> 10 == 0;
    case APFLOAT_BFLOAT: return bits.low >> 7 == 0;
    case APFLOAT_SINGLE: return bits.low >> 23 == 0;
    case APFLOAT_DOUBLE: return bits.low >> 52 == 0;
    case APFLOAT_X87: return bits.high == 0; /* with an integer bit too */
    default: return bits.high >> 48 == 0;
    }
}

static apfloat_halves zero_like(uint32_t format, apfloat_halves bits) {
    const apfloat_halves sign = sign_bit(format);
    bits.low &= sign.low, bits.high &= sign.high;
    return bits;
}

/* The operand, with the opposite sign if a bit of `op` says so and it is no NaN. */
#define SIGNED(FORMAT, X, BIT) (op & (BIT) ? negated_number(FORMAT, X) : (X))
static apfloat_halves negated_number(uint32_t format, apfloat_halves x) {
    const apfloat_halves sign = sign_bit(format);
    if (!is_nan(format, x)) x.low ^= sign.low, x.high ^= sign.high;
    return x;
}

/* The operand, or the zero that a denormal one is taken for, which ARM alone tells. */
INLINE apfloat_halves taken(uint32_t format, apfloat_halves x AND_STATUS) {
    if (!status->softfloat_denormals_are_zeros || !is_denormal(format, x)) return x;
    if (IS_ARM) softfloat_raiseFlags(status, softfloat_flag_denormal);
    return zero_like(format, x);
}

/* Raises the flag of a denormal operand, as x86 does: not beside a NaN, and with no other flag of operands. */
INLINE void raise_denormal(uint32_t format, uint32_t flags, apfloat_halves x, apfloat_halves y,
                           apfloat_halves z AND_STATUS) {
    const bool is_other = (flags & (APFLOAT_INVALID_OP | APFLOAT_DIV_BY_ZERO)) || is_nan(format, x) ||
                          is_nan(format, y) || is_nan(format, z);
    if (!IS_ARM && !is_other && (is_denormal(format, x) || is_denormal(format, y) || is_denormal(format, z)))
        softfloat_raiseFlags(status, softfloat_flag_denormal);
}

/* A tiny result is flushed if that is asked for and underflow is masked. Where it is not, an exact one underflows too
 * (IEEE 754-2019 7.5). */
INLINE apfloat_answer flushed(uint32_t format, apfloat_answer answer AND_STATUS) {
    if (!(answer.status & APFLOAT_UNDERFLOW) && !is_denormal(format, answer.bits)) return answer;
    if (!softfloat_isMaskedException(status, softfloat_flag_underflow)) {
        answer.status |= APFLOAT_UNDERFLOW;
    } else if (status->softfloat_flush_underflow_to_zero) {
        answer.bits = zero_like(format, answer.bits);
        answer.status = FLAGS_OF_FLUSHED;
    }
    return answer;
}
#else
#define SIGNED(FORMAT, X, BIT) (X)
#define taken(FORMAT, X) (X)
#define raise_denormal(FORMAT, FLAGS, X, Y, Z) ((void)0)
#define flushed(FORMAT, ANSWER) (ANSWER)
#endif

/* ---- operations */

/* A sum, a difference, a product, a quotient, a remainder or a square root in the mode of the state. */
INLINE apfloat_halves computed(uint32_t operation, uint32_t format, apfloat_halves a, apfloat_halves b AND_STATUS) {
    const uint_fast8_t mode = IN_STATE(softfloat_roundingMode), digits = IN_STATE(extF80_roundingPrecision);
    const bool is_shortened = format == APFLOAT_X87 && operation != APFLOAT_REM && (digits == 64 || digits == 32);
    const apfloat_halves x = taken(format, a WITH_STATUS), y = taken(format, b WITH_STATUS);
    const apfloat_answer answer = is_shortened
                                      ? shortened(operation, digits, mode, x, y)
                                      : odd_if_asked(delivered(operation, format, direction(mode), 0, x, y, y), mode);
    raise_denormal(format, answer.status, x, y, y WITH_STATUS);
    return raised(flushed(format, answer WITH_STATUS) WITH_STATUS);
}

/* A product plus a third value of which the result is a NaN. SoftFloat takes the NaN of the two factors, that of an
 * invalid product among them, and then that of this NaN and the third value, on every machine. With a status that is
 * passed it is the processor's. */
OUT_OF_LINE apfloat_answer fused_nan(uint32_t format, uint32_t mode, apfloat_halves x, apfloat_halves y,
                                     apfloat_halves z) {
#ifndef SOFTFLOAT_STATUS
    if (is_nan(format, x) || is_nan(format, y) || is_nan(format, z)) {
        apfloat_answer product = by_machine(APFLOAT_MUL, format, APFLOAT_TOWARD_ZERO, 0, x, y, y), sum;
        if (!is_nan(format, product.bits)) product.status = 0; /* the third value is the NaN */
        if (!is_nan(format, z)) return product;
        sum = by_machine(APFLOAT_ADD, format, APFLOAT_TOWARD_ZERO, 0, product.bits, z, z);
        sum.status |= product.status;
        return sum;
    }
#endif
    return by_machine(APFLOAT_FMA, format, mode, 0, x, y, z);
}

INLINE apfloat_halves fused(uint32_t format, apfloat_halves a, apfloat_halves b, apfloat_halves c AND_STATUS) {
    const uint_fast8_t mode = IN_STATE(softfloat_roundingMode);
    const apfloat_halves x = taken(format, a WITH_STATUS), y = taken(format, b WITH_STATUS);
    const apfloat_halves z = taken(format, c WITH_STATUS);
    apfloat_answer answer = {{0, 0}, 0, 0};
    apfloat_fma(ruled(format), direction(mode), x, y, z, &answer);
    answer = is_nan(format, answer.bits) ? fused_nan(format, direction(mode), x, y, z) : odd_if_asked(answer, mode);
    raise_denormal(format, answer.status, x, y, z WITH_STATUS);
    return raised(flushed(format, answer WITH_STATUS) WITH_STATUS);
}

/* What x87 stores in another format raises no flag of a denormal operand. */
INLINE apfloat_halves converted(uint32_t format, uint32_t to, apfloat_halves a AND_STATUS) {
    const uint_fast8_t mode = IN_STATE(softfloat_roundingMode);
    const apfloat_halves x = taken(format, a WITH_STATUS);
    const apfloat_answer answer =
        odd_if_asked(delivered(APFLOAT_CONVERT, format, direction(mode), ruled(to), x, x, x), mode);
    if (format != APFLOAT_X87) raise_denormal(format, answer.status, x, x, x WITH_STATUS);
    return raised(flushed(to, answer WITH_STATUS) WITH_STATUS);
}

INLINE apfloat_halves of_unsigned(uint32_t format, uint64_t n AND_STATUS) {
    const uint_fast8_t mode = IN_STATE(softfloat_roundingMode);
    apfloat_answer answer = {{0, 0}, 0, 0};
    apfloat_from_u128(ruled(format), direction(mode), of_low(n), &answer);
    return raised(odd_if_asked(answer, mode) WITH_STATUS);
}

INLINE apfloat_halves of_signed(uint32_t format, int64_t n AND_STATUS) {
    const apfloat_halves number = {(uint64_t)n, n < 0 ? UINT64_MAX : 0};
    const uint_fast8_t mode = IN_STATE(softfloat_roundingMode);
    apfloat_answer answer = {{0, 0}, 0, 0};
    apfloat_from_i128(ruled(format), direction(mode), number, &answer);
    return raised(odd_if_asked(answer, mode) WITH_STATUS);
}

/* The direction in which a value is rounded to an integer to odd: away from zero if the value lies between two integers
 * of which the one nearer to zero is even. */
OUT_OF_LINE uint32_t direction_to_odd_integer(uint32_t format, apfloat_halves x) {
    apfloat_answer truncated = {{0, 0}, 0, 0}, sign = {{0, 0}, 0, 0};
    apfloat_to_i128(format, APFLOAT_TOWARD_ZERO, x, 128, &truncated);
    if (truncated.status != APFLOAT_INEXACT || (truncated.bits.low & 1)) return APFLOAT_TOWARD_ZERO;
    apfloat_is_negative(format, x, &sign);
    return sign.number ? APFLOAT_DOWNWARD : APFLOAT_UPWARD;
}

INLINE uint32_t direction_to_integer(uint32_t format, apfloat_halves x, uint_fast8_t mode) {
    return mode == softfloat_round_odd ? direction_to_odd_integer(format, x) : direction(mode);
}

/* FRNDINT alone of such instructions raises the flag of a denormal operand. */
INLINE apfloat_halves integral(uint32_t format, apfloat_halves a, uint_fast8_t mode, bool exact AND_STATUS) {
    const uint32_t operation = exact ? APFLOAT_ROUND_TO_INTEGRAL : APFLOAT_INTEGRAL;
    const apfloat_halves x = taken(format, a WITH_STATUS);
    const apfloat_answer answer = delivered(operation, format, direction_to_integer(format, x, mode), 0, x, x, x);
    if (format == APFLOAT_X87) raise_denormal(format, answer.status, x, x, x WITH_STATUS);
    return raised(answer WITH_STATUS);
}

/* The value as an integer of `width` bits, in the lowest bits. */
INLINE uint64_t integer(uint32_t operation, uint32_t format, apfloat_halves a, uint32_t width, uint_fast8_t mode,
                        bool exact AND_STATUS) {
    const apfloat_halves x = taken(format, a WITH_STATUS);
    apfloat_answer answer = delivered(operation, format, direction_to_integer(format, x, mode), width, x, x, x);
    if (!exact) answer.status &= ~APFLOAT_INEXACT;
    return raised(answer WITH_STATUS).low;
}

/* APFLOAT_LESS, APFLOAT_EQUAL, APFLOAT_GREATER or APFLOAT_UNORDERED. */
INLINE int32_t ordered(uint32_t format, uint32_t on_nan, apfloat_halves a, apfloat_halves b AND_STATUS) {
    const apfloat_halves x = taken(format, a WITH_STATUS), y = taken(format, b WITH_STATUS);
    apfloat_answer order = {{0, 0}, 0, 0}, equal = {{0, 0}, 0, 0};
    apfloat_compare(format, x, y, &order);
    if (order.number == APFLOAT_UNORDERED) {
        apfloat_compare_predicate(format, APFLOAT_IS_EQUAL, on_nan, x, y, &equal);
        raise_flags(equal.status WITH_STATUS);
    } else {
        raise_denormal(format, 0, x, y, y WITH_STATUS);
    }
    return order.number;
}

INLINE bool compared(uint32_t format, uint32_t predicate, uint32_t on_nan, apfloat_halves x,
                     apfloat_halves y AND_STATUS) {
    const int32_t order = ordered(format, on_nan, x, y WITH_STATUS);
    switch (predicate) {
    case APFLOAT_IS_EQUAL: return order == APFLOAT_EQUAL;
    case APFLOAT_IS_LESS: return order == APFLOAT_LESS;
    default: return order == APFLOAT_LESS || order == APFLOAT_EQUAL;
    }
}

/* ---- the functions of a format F of type T, and those of its pointers */

#define OF_TWO(F, T, NAME, OPERATION) \
    T F##_##NAME(T a, T b AND_STATUS) { \
        return as_##F(computed(OPERATION, CODE_##F, of_##F(a), of_##F(b) WITH_STATUS)); \
    }
#define COMPARISON(F, T, NAME, PREDICATE, ON_NAN) \
    bool F##_##NAME(T a, T b AND_STATUS) { \
        return compared(CODE_##F, PREDICATE, ON_NAN, of_##F(a), of_##F(b) WITH_STATUS); \
    }
#define TO_INTEGER(F, T, I, RETURNED, INTEGER, OPERATION, WIDTH) \
    RETURNED F##_to_##I(T a, uint_fast8_t mode, bool exact AND_STATUS) { \
        return (INTEGER)integer(OPERATION, CODE_##F, of_##F(a), WIDTH, mode, exact WITH_STATUS); \
    } \
    RETURNED F##_to_##I##_r_minMag(T a, bool exact AND_STATUS) { \
        return F##_to_##I(a, softfloat_round_minMag, exact WITH_STATUS); \
    }
#define OF_FORMAT(F, T) \
    T ui32_to_##F(uint32_t n AND_STATUS) { \
        return as_##F(of_unsigned(CODE_##F, n WITH_STATUS)); \
    } \
    T ui64_to_##F(uint64_t n AND_STATUS) { \
        return as_##F(of_unsigned(CODE_##F, n WITH_STATUS)); \
    } \
    T i32_to_##F(int32_t n AND_STATUS) { \
        return as_##F(of_signed(CODE_##F, n WITH_STATUS)); \
    } \
    T i64_to_##F(int64_t n AND_STATUS) { \
        return as_##F(of_signed(CODE_##F, n WITH_STATUS)); \
    } \
    TO_INTEGER(F, T, ui32, uint_fast32_t, uint32_t, APFLOAT_TO_U128, 32) \
    TO_INTEGER(F, T, ui64, uint_fast64_t, uint64_t, APFLOAT_TO_U128, 64) \
    TO_INTEGER(F, T, i32, int_fast32_t, int32_t, APFLOAT_TO_I128, 32) \
    TO_INTEGER(F, T, i64, int_fast64_t, int64_t, APFLOAT_TO_I128, 64) \
    T F##_roundToInt(T a, uint_fast8_t mode, bool exact AND_STATUS) { \
        return as_##F(integral(CODE_##F, of_##F(a), mode, exact WITH_STATUS)); \
    } \
    OF_TWO(F, T, add, APFLOAT_ADD) \
    OF_TWO(F, T, sub, APFLOAT_SUB) \
    OF_TWO(F, T, mul, APFLOAT_MUL) \
    OF_TWO(F, T, div, APFLOAT_DIV) \
    OF_TWO(F, T, rem, APFLOAT_REM) \
    T F##_sqrt(T a AND_STATUS) { \
        return as_##F(computed(APFLOAT_SQRT, CODE_##F, of_##F(a), of_##F(a) WITH_STATUS)); \
    } \
    COMPARISON(F, T, eq, APFLOAT_IS_EQUAL, APFLOAT_QUIET) \
    COMPARISON(F, T, le, APFLOAT_IS_LESS_EQUAL, APFLOAT_SIGNALING) \
    COMPARISON(F, T, lt, APFLOAT_IS_LESS, APFLOAT_SIGNALING) \
    COMPARISON(F, T, eq_signaling, APFLOAT_IS_EQUAL, APFLOAT_SIGNALING) \
    COMPARISON(F, T, le_quiet, APFLOAT_IS_LESS_EQUAL, APFLOAT_QUIET) \
    COMPARISON(F, T, lt_quiet, APFLOAT_IS_LESS, APFLOAT_QUIET) \
    bool F##_isSignalingNaN(T a) { \
        return class_of(CODE_##F, of_##F(a)) == APFLOAT_SIGNALING_NAN; \
    }
#define FUSED(F, T) \
    T F##_mulAdd(T a, T b, T c SOFTFLOAT_AND_OP AND_STATUS) { \
        const apfloat_halves x = SIGNED(CODE_##F, of_##F(a), softfloat_mulAdd_subProd); \
        const apfloat_halves z = SIGNED(CODE_##F, of_##F(c), softfloat_mulAdd_subC); \
        return as_##F(fused(CODE_##F, x, of_##F(b), z WITH_STATUS)); \
    }

OF_FORMAT(f16, float16_t)
OF_FORMAT(f32, float32_t)
OF_FORMAT(f64, float64_t)
OF_FORMAT(extF80, extFloat80_t)
OF_FORMAT(f128, float128_t)
FUSED(f16, float16_t)
FUSED(f32, float32_t)
FUSED(f64, float64_t)
FUSED(f128, float128_t)

/* ---- conversions between formats */

#define TO_FORMAT(F, T, G, U) \
    U F##_to_##G(T a AND_STATUS) { \
        return as_##G(converted(CODE_##F, CODE_##G, of_##F(a) WITH_STATUS)); \
    }

TO_FORMAT(f16, float16_t, f32, float32_t)
TO_FORMAT(f16, float16_t, f64, float64_t)
TO_FORMAT(f16, float16_t, extF80, extFloat80_t)
TO_FORMAT(f16, float16_t, f128, float128_t)
TO_FORMAT(f32, float32_t, f16, float16_t)
TO_FORMAT(f32, float32_t, f64, float64_t)
TO_FORMAT(f32, float32_t, extF80, extFloat80_t)
TO_FORMAT(f32, float32_t, f128, float128_t)
TO_FORMAT(f64, float64_t, f16, float16_t)
TO_FORMAT(f64, float64_t, f32, float32_t)
TO_FORMAT(f64, float64_t, extF80, extFloat80_t)
TO_FORMAT(f64, float64_t, f128, float128_t)
TO_FORMAT(extF80, extFloat80_t, f16, float16_t)
TO_FORMAT(extF80, extFloat80_t, f32, float32_t)
TO_FORMAT(extF80, extFloat80_t, f64, float64_t)
TO_FORMAT(extF80, extFloat80_t, f128, float128_t)
TO_FORMAT(f128, float128_t, f16, float16_t)
TO_FORMAT(f128, float128_t, f32, float32_t)
TO_FORMAT(f128, float128_t, f64, float64_t)
TO_FORMAT(f128, float128_t, extF80, extFloat80_t)
TO_FORMAT(bf16, bfloat16_t, f32, float32_t)
TO_FORMAT(f32, float32_t, bf16, bfloat16_t)

/* ---- functions that simulators add */

bool bf16_isSignalingNaN(bfloat16_t a) {
    return class_of(CODE_bf16, of_bf16(a)) == APFLOAT_SIGNALING_NAN;
}

#define CLASS(F, T) \
    uint_fast16_t F##_classify(T a) { \
        const int32_t code = class_of(CODE_##F, of_##F(a)); \
        return (uint_fast16_t)1 << (code >= APFLOAT_NEGATIVE_INFINITY ? code - APFLOAT_NEGATIVE_INFINITY \
                                    : code == APFLOAT_SIGNALING_NAN   ? 8 \
                                                                      : 9); \
    }
CLASS(f16, float16_t)
CLASS(f32, float32_t)
CLASS(f64, float64_t)
CLASS(f128, float128_t)

/* With a status that is passed, as MINSS and MAXSS do it. */
#ifdef SOFTFLOAT_STATUS
static apfloat_halves extremum(uint32_t format, uint32_t which, uint64_t default_nan, apfloat_halves a,
                               apfloat_halves b AND_STATUS) {
    const uint32_t operation = which == APFLOAT_MINIMUM ? APFLOAT_LEAST : APFLOAT_GREATEST;
    const apfloat_halves x = taken(format, a WITH_STATUS), y = taken(format, b WITH_STATUS);
    const apfloat_answer answer = by_machine(operation, format, APFLOAT_NEAREST_EVEN, APFLOAT_RULE_SECOND, x, y, y);
    (void)default_nan;
    raise_denormal(format, answer.status, x, y, y WITH_STATUS);
    return raised(answer WITH_STATUS);
}
#else
static apfloat_halves extremum(uint32_t format, uint32_t which, uint64_t default_nan, apfloat_halves x,
                               apfloat_halves y) {
    apfloat_answer answer = {{0, 0}, 0, 0};
    apfloat_extremum(format, which, 1, x, y, &answer);
    raise_flags(answer.status);
    return is_nan(format, answer.bits) ? of_low(default_nan) : answer.bits;
}
#endif

#define EXTREMA(F, T, DEFAULT) \
    T F##_min(T a, T b AND_STATUS) { \
        return as_##F(extremum(CODE_##F, APFLOAT_MINIMUM, DEFAULT, of_##F(a), of_##F(b) WITH_STATUS)); \
    } \
    T F##_max(T a, T b AND_STATUS) { \
        return as_##F(extremum(CODE_##F, APFLOAT_MAXIMUM, DEFAULT, of_##F(a), of_##F(b) WITH_STATUS)); \
    }
EXTREMA(f16, float16_t, defaultNaNF16UI)
EXTREMA(f32, float32_t, defaultNaNF32UI)
EXTREMA(f64, float64_t, defaultNaNF64UI)

#ifdef SOFTFLOAT_STATUS
#define RELATION(F, T) \
    int F##_compare(T a, T b, bool is_quiet, struct softfloat_status_t *status) { \
        return ordered(CODE_##F, is_quiet ? APFLOAT_QUIET : APFLOAT_SIGNALING, of_##F(a), of_##F(b), status); \
    }
RELATION(f16, float16_t)
RELATION(f32, float32_t)
RELATION(f64, float64_t)
RELATION(extF80, extFloat80_t)
RELATION(f128, float128_t)
#endif

/* An integer of 8 or 16 bits, from that of 32. Of a number that has the latter alone, the flag is INVALID alone. */
#define TO_SHORT(F, T, I, RETURNED, WIDE, INTEGER, NAME) \
    RETURNED F##_to_##I(T a, uint_fast8_t mode, bool exact AND_STATUS) { \
        const int flags = IN_STATE(softfloat_exceptionFlags); \
        const INTEGER n = (INTEGER)F##_to_##WIDE(a, mode, exact WITH_STATUS); \
        if (n >= NAME##_MIN && n <= NAME##_MAX) return (RETURNED)n; \
        IN_STATE(softfloat_exceptionFlags) = flags; \
        raise_flags(APFLOAT_INVALID_OP WITH_STATUS); \
        return n < 0 ? I##_fromNegOverflow : I##_fromPosOverflow; \
    }
#define UINT8_MIN 0
#define UINT16_MIN 0
TO_SHORT(f16, float16_t, ui8, uint_fast8_t, ui32, int64_t, UINT8)
TO_SHORT(f16, float16_t, ui16, uint_fast16_t, ui32, int64_t, UINT16)
TO_SHORT(f16, float16_t, i8, int_fast8_t, i32, int32_t, INT8)
TO_SHORT(f16, float16_t, i16, int_fast16_t, i32, int32_t, INT16)
TO_SHORT(f32, float32_t, ui16, uint_fast16_t, ui32, int64_t, UINT16)
TO_SHORT(f32, float32_t, i16, int_fast16_t, i32, int32_t, INT16)

#ifndef SOFTFLOAT_STATUS
/* ---- by pointers */

#define OF_TWO_BY_POINTERS(F, T, NAME) \
    void F##M_##NAME(const T *a, const T *b, T *z) { \
        *z = F##_##NAME(*a, *b); \
    }
#define COMPARISON_BY_POINTERS(F, T, NAME) \
    bool F##M_##NAME(const T *a, const T *b) { \
        return F##_##NAME(*a, *b); \
    }
#define TO_POINTER(F, T, G, U) \
    void F##_to_##G##M(T a, U *z) { \
        *z = F##_to_##G(a); \
    }
#define INTEGER_BY_POINTERS(F, T, I, GIVEN, RETURNED) \
    TO_POINTER(I, GIVEN, F, T) \
    RETURNED F##M_to_##I(const T *a, uint_fast8_t mode, bool exact) { \
        return F##_to_##I(*a, mode, exact); \
    } \
    RETURNED F##M_to_##I##_r_minMag(const T *a, bool exact) { \
        return F##_to_##I##_r_minMag(*a, exact); \
    }
#define FORMAT_BY_POINTERS(F, T, G, U) \
    TO_POINTER(G, U, F, T) \
    U F##M_to_##G(const T *a) { \
        return F##_to_##G(*a); \
    }
#define BY_POINTERS(F, T) \
    INTEGER_BY_POINTERS(F, T, ui32, uint32_t, uint_fast32_t) \
    INTEGER_BY_POINTERS(F, T, ui64, uint64_t, uint_fast64_t) \
    INTEGER_BY_POINTERS(F, T, i32, int32_t, int_fast32_t) \
    INTEGER_BY_POINTERS(F, T, i64, int64_t, int_fast64_t) \
    FORMAT_BY_POINTERS(F, T, f16, float16_t) \
    FORMAT_BY_POINTERS(F, T, f32, float32_t) \
    FORMAT_BY_POINTERS(F, T, f64, float64_t) \
    void F##M_roundToInt(const T *a, uint_fast8_t mode, bool exact, T *z) { \
        *z = F##_roundToInt(*a, mode, exact); \
    } \
    OF_TWO_BY_POINTERS(F, T, add) \
    OF_TWO_BY_POINTERS(F, T, sub) \
    OF_TWO_BY_POINTERS(F, T, mul) \
    OF_TWO_BY_POINTERS(F, T, div) \
    OF_TWO_BY_POINTERS(F, T, rem) \
    void F##M_sqrt(const T *a, T *z) { \
        *z = F##_sqrt(*a); \
    } \
    COMPARISON_BY_POINTERS(F, T, eq) \
    COMPARISON_BY_POINTERS(F, T, le) \
    COMPARISON_BY_POINTERS(F, T, lt) \
    COMPARISON_BY_POINTERS(F, T, eq_signaling) \
    COMPARISON_BY_POINTERS(F, T, le_quiet) \
    COMPARISON_BY_POINTERS(F, T, lt_quiet) \
    bool F##M_isSignalingNaN(const T *a) { \
        return F##_isSignalingNaN(*a); \
    }

BY_POINTERS(extF80, extFloat80_t)
BY_POINTERS(f128, float128_t)

void f128M_mulAdd(const float128_t *a, const float128_t *b, const float128_t *c, float128_t *z) {
    *z = f128_mulAdd(*a, *b, *c);
}
void extF80M_to_f128M(const extFloat80_t *a, float128_t *z) {
    *z = extF80_to_f128(*a);
}
void f128M_to_extF80M(const float128_t *a, extFloat80_t *z) {
    *z = f128_to_extF80(*a);
}
#endif
