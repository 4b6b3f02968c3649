// Compares `packaging/softfloat`, as 8086-SSE, with what an x86-64 processor computes: SSE, FMA, F16C, AVX-512 and x87,
// with operands drawn at random and special ones, in the four modes of the processor, and all five flags. What rounding
// to odd gives is the processor's truncated result with its last digit set if it is inexact; of an integer, the one
// below. A fused sum with NaNs is, as in SoftFloat, the processor's product and then its sum.
//
//     gcc -std=gnu11 -O1 -march=native -Iinclude -Ipackaging/softfloat -o softfloat
//         evidence/processor/softfloat.c packaging/softfloat/softfloat.c LIBRARY
//     ./softfloat [SEED] [DRAWS]
#include <immintrin.h>
#include <math.h>
#include <stdbool.h>
#include <stdint.h>
#include <stdio.h>
#include <stdlib.h>
#include <string.h>

#include "softfloat.h"

// Bits of a value, or an integer, and the flags of SoftFloat.
typedef struct {
    uint64_t low, high;
    unsigned flags;
} Outcome;

static uint64_t state;

static uint64_t drawn(void) {
    state += 0x9e3779b97f4a7c15;
    uint64_t z = state;
    z = (z ^ (z >> 30)) * 0xbf58476d1ce4e5b9;
    z = (z ^ (z >> 27)) * 0x94d049bb133111eb;
    return z ^ (z >> 31);
}

// A fraction of `width` bits: any, one with few ones or few zeros, or one near either end.
static uint64_t drawn_fraction(unsigned width) {
    const uint64_t mask = width == 64 ? ~0ull : (1ull << width) - 1, x = drawn();
    switch (drawn() % 6) {
    case 0: return 0;
    case 1: return (1ull << x % width | 1ull << (x >> 8) % width) & mask;
    case 2: return ~(1ull << x % width) & mask;
    case 3: return (x % 4) & mask;
    default: return x & mask;
    }
}

// Exponents: any, the ends, near the bias, or near a half or a double of what is in the middle.
static uint64_t drawn_exponent(unsigned width) {
    const uint64_t greatest = (1ull << width) - 1, x = drawn(), bias = greatest / 2;
    switch (drawn() % 8) {
    case 0: return 0;
    case 1: return greatest;
    case 2: return greatest - 1 - x % 3;
    case 3: return 1 + x % 3;
    case 4: return bias - 4 + x % 8;
    case 5: return (bias + x % 70) & greatest;
    case 6: return bias / 2 - 2 + x % 5 + (x >> 32 & 1) * bias;
    default: return x & greatest;
    }
}

static uint64_t drawn_value(unsigned exponent, unsigned fraction) {
    return (drawn() & 1) << (exponent + fraction) | drawn_exponent(exponent) << fraction | drawn_fraction(fraction);
}

static extFloat80_t drawn_extF80(void) {
    extFloat80_t a;
    const uint64_t exponent = drawn_exponent(15);
    a.signExp = (uint16_t)((drawn() & 1) << 15 | exponent);
    a.signif = drawn_fraction(63) | (exponent ? 1ull << 63 : 0);
    return a;
}

static uint64_t drawn_integer(void) {
    const uint64_t x = drawn(), y = drawn();
    switch (x % 4) {
    case 0: return y;
    case 1: return y >> (x >> 8) % 64;
    case 2: return (1ull << (x >> 8) % 64) + y % 5 - 2;
    default: return -(y >> (x >> 8) % 64);
    }
}

// A value near an integer that is near a bound, for conversions to integers.
static double drawn_near_integer(void) {
    const double ends[] = {0, 1, 2147483648.0, 4294967296.0, 9223372036854775808.0, 18446744073709551616.0, 5, 1e6};
    const double end = ends[drawn() % 8], part = (double)(int64_t)(drawn() % 17 - 8) / 4;
    return drawn() & 1 ? -(end + part) : end + part;
}

static uint64_t f64_bits(double x) {
    uint64_t bits;
    memcpy(&bits, &x, 8);
    return bits;
}

// ---- the processor

static unsigned of_mxcsr(unsigned word) {
    return (word & 1 ? softfloat_flag_invalid : 0) | (word & 4 ? softfloat_flag_infinite : 0) |
           (word & 8 ? softfloat_flag_overflow : 0) | (word & 16 ? softfloat_flag_underflow : 0) |
           (word & 32 ? softfloat_flag_inexact : 0);
}

static unsigned direction; // 0 nearest, 1 down, 2 up, 3 toward zero, of MXCSR and of the control word of x87

#define SSE(TEXT, RESULT, ...)                                                                                         \
    unsigned word = 0x1f80 | direction << 13;                                                                          \
    __asm__ volatile("ldmxcsr %[word]\n\t" TEXT "\n\tstmxcsr %[word]" : RESULT, [word] "+m"(word) : __VA_ARGS__)

#define IN_SSE(NAME, TYPE, BITS, TWO, ONE)                                                                             \
    static TYPE NAME##_of(uint64_t bits) {                                                                             \
        const BITS narrow = (BITS)bits;                                                                                \
        TYPE x;                                                                                                        \
        memcpy(&x, &narrow, sizeof x);                                                                                 \
        return x;                                                                                                      \
    }                                                                                                                  \
    static Outcome NAME##_outcome(TYPE x, unsigned word) {                                                             \
        BITS bits;                                                                                                     \
        memcpy(&bits, &x, sizeof x);                                                                                   \
        return (Outcome){bits, 0, of_mxcsr(word)};                                                                     \
    }                                                                                                                  \
    TWO(NAME, TYPE, add) TWO(NAME, TYPE, sub) TWO(NAME, TYPE, mul) TWO(NAME, TYPE, div) ONE

#define TWO_SS(NAME, TYPE, OPERATION)                                                                                  \
    static Outcome NAME##_##OPERATION##_sse(uint64_t x, uint64_t y) {                                                  \
        TYPE a = NAME##_of(x), b = NAME##_of(y);                                                                       \
        SSE(#OPERATION "ss %[b], %[a]", [a] "+x"(a), [b] "x"(b));                                                      \
        return NAME##_outcome(a, word);                                                                                \
    }
#define TWO_SD(NAME, TYPE, OPERATION)                                                                                  \
    static Outcome NAME##_##OPERATION##_sse(uint64_t x, uint64_t y) {                                                  \
        TYPE a = NAME##_of(x), b = NAME##_of(y);                                                                       \
        SSE(#OPERATION "sd %[b], %[a]", [a] "+x"(a), [b] "x"(b));                                                      \
        return NAME##_outcome(a, word);                                                                                \
    }
IN_SSE(f32, float, uint32_t, TWO_SS, )
IN_SSE(f64, double, uint64_t, TWO_SD, )

#define TO_INTEGER_SSE(NAME, TYPE, INTEGER, BITS, INSTRUCTION, RESULT)                                                 \
    static Outcome NAME##_to_##INTEGER##_sse(uint64_t x) {                                                             \
        TYPE a = NAME##_of(x);                                                                                         \
        BITS r;                                                                                                        \
        SSE(INSTRUCTION " %[a], " RESULT, [r] "=r"(r), [a] "x"(a));                                                    \
        return (Outcome){r, 0, of_mxcsr(word)};                                                                        \
    }
#define FROM_INTEGER_SSE(NAME, TYPE, INTEGER, INSTRUCTION)                                                             \
    static Outcome INTEGER##_to_##NAME##_sse(uint64_t n) {                                                             \
        TYPE a = 0;                                                                                                    \
        SSE(INSTRUCTION, [a] "+x"(a), [n] "r"(n));                                                                     \
        return NAME##_outcome(a, word);                                                                                \
    }

#define REST(NAME, TYPE, END)                                                                                          \
    static Outcome NAME##_sqrt_sse(uint64_t x) {                                                                       \
        TYPE a = NAME##_of(x);                                                                                         \
        SSE("sqrts" END " %[a], %[a]", [a] "+x"(a), "x"(a));                                                           \
        return NAME##_outcome(a, word);                                                                                \
    }                                                                                                                  \
    static Outcome NAME##_roundToInt_sse(uint64_t x) {                                                                 \
        TYPE a = NAME##_of(x);                                                                                         \
        SSE("rounds" END " $4, %[a], %[a]", [a] "+x"(a), "x"(a));                                                      \
        return NAME##_outcome(a, word);                                                                                \
    }                                                                                                                  \
    static Outcome NAME##_fused_sse(uint64_t x, uint64_t y, uint64_t z) {                                              \
        TYPE a = NAME##_of(z), b = NAME##_of(x), c = NAME##_of(y);                                                     \
        SSE("vfmadd231s" END " %[c], %[b], %[a]", [a] "+x"(a), [b] "x"(b), [c] "x"(c));                                \
        return NAME##_outcome(a, word);                                                                                \
    }                                                                                                                  \
    static bool NAME##_is_nan(uint64_t x) {                                                                            \
        return isnan(NAME##_of(x));                                                                                    \
    }                                                                                                                  \
    static Outcome NAME##_mulAdd_sse(uint64_t x, uint64_t y, uint64_t z) {                                             \
        if (!NAME##_is_nan(x) && !NAME##_is_nan(y) && !NAME##_is_nan(z)) return NAME##_fused_sse(x, y, z);             \
        const Outcome product = NAME##_mul_sse(x, y);                                                                  \
        Outcome sum = NAME##_add_sse(product.low, z);                                                                  \
        sum.flags = (sum.flags | product.flags) & softfloat_flag_invalid;                                              \
        return sum;                                                                                                    \
    }                                                                                                                  \
    TO_INTEGER_SSE(NAME, TYPE, i32, uint32_t, "cvts" END "2si", "%k[r]")                                               \
    TO_INTEGER_SSE(NAME, TYPE, i64, uint64_t, "cvts" END "2si", "%q[r]")                                               \
    TO_INTEGER_SSE(NAME, TYPE, ui32, uint32_t, "vcvts" END "2usi", "%k[r]")                                            \
    TO_INTEGER_SSE(NAME, TYPE, ui64, uint64_t, "vcvts" END "2usi", "%q[r]")                                            \
    FROM_INTEGER_SSE(NAME, TYPE, i32, "cvtsi2s" END "l %k[n], %[a]")                                                   \
    FROM_INTEGER_SSE(NAME, TYPE, i64, "cvtsi2s" END "q %q[n], %[a]")                                                   \
    FROM_INTEGER_SSE(NAME, TYPE, ui32, "vcvtusi2s" END "l %k[n], %[a], %[a]")                                          \
    FROM_INTEGER_SSE(NAME, TYPE, ui64, "vcvtusi2s" END "q %q[n], %[a], %[a]")                                          \
    static Outcome NAME##_compared(uint64_t x, uint64_t y, bool is_signaling, char relation) {                         \
        TYPE a = NAME##_of(x), b = NAME##_of(y);                                                                       \
        unsigned char below, equal, unordered;                                                                         \
        unsigned word = 0x1f80;                                                                                        \
        if (is_signaling)                                                                                              \
            __asm__ volatile("ldmxcsr %[w]\n\tcomis" END " %[b], %[a]\n\tsetb %[l]\n\tsete %[e]\n\tsetp %[u]\n\t"      \
                             "stmxcsr %[w]"                                                                            \
                             : [w] "+m"(word), [l] "=&q"(below), [e] "=&q"(equal), [u] "=&q"(unordered)                \
                             : [a] "x"(a), [b] "x"(b));                                                                \
        else                                                                                                           \
            __asm__ volatile("ldmxcsr %[w]\n\tucomis" END " %[b], %[a]\n\tsetb %[l]\n\tsete %[e]\n\tsetp %[u]\n\t"     \
                             "stmxcsr %[w]"                                                                            \
                             : [w] "+m"(word), [l] "=&q"(below), [e] "=&q"(equal), [u] "=&q"(unordered)                \
                             : [a] "x"(a), [b] "x"(b));                                                                \
        const bool holds = relation == '=' ? equal : relation == '<' ? below : below || equal;                         \
        return (Outcome){holds && !unordered, 0, of_mxcsr(word)};                                                      \
    }
REST(f32, float, "s")
REST(f64, double, "d")

static Outcome f32_to_f64_sse(uint64_t x) {
    float a = f32_of(x);
    double r = 0;
    SSE("cvtss2sd %[a], %[r]", [r] "+x"(r), [a] "x"(a));
    return f64_outcome(r, word);
}

static Outcome f64_to_f32_sse(uint64_t x) {
    double a = f64_of(x);
    float r = 0;
    SSE("cvtsd2ss %[a], %[r]", [r] "+x"(r), [a] "x"(a));
    return f32_outcome(r, word);
}

static Outcome f16_to_f32_sse(uint64_t x) {
    __m128i a = _mm_cvtsi32_si128((int)x);
    __m128 r;
    SSE("vcvtph2ps %[a], %[r]", [r] "=x"(r), [a] "x"(a));
    return f32_outcome(_mm_cvtss_f32(r), word);
}

static Outcome f32_to_f16_sse(uint64_t x) {
    __m128i a = _mm_cvtsi32_si128((int)x), r;
    SSE("vcvtps2ph $4, %[a], %[r]", [r] "=x"(r), [a] "x"(a));
    return (Outcome){(uint64_t)_mm_cvtsi128_si32(r) & 0xffff, 0, of_mxcsr(word)};
}

#define X87(NAME, TEXT)                                                                                                \
    static Outcome extF80_##NAME##_x87(extFloat80_t x, extFloat80_t y) {                                               \
        const uint16_t precision = extF80_roundingPrecision == 80 ? 3 : extF80_roundingPrecision == 64 ? 2 : 0;        \
        uint16_t control = (uint16_t)(0x3f | precision << 8 | direction << 10), standard = 0x37f, status;              \
        extFloat80_t r;                                                                                                \
        memset(&r, 0, sizeof r);                                                                                       \
        __asm__ volatile("fldt %[y]\n\tfldt %[x]\n\tfnclex\n\tfldcw %[control]\n\t" TEXT                             \
                         "\n\tfnstsw %[status]\n\tfldcw %[standard]\n\tfstpt %[r]\n\tfnclex"                           \
                         : [r] "=m"(r), [status] "=m"(status)                                                          \
                         : [x] "m"(x), [y] "m"(y), [control] "m"(control), [standard] "m"(standard)                    \
                         : "st", "st(1)");                                                                             \
        return (Outcome){r.signif, r.signExp, of_mxcsr(status)};                                                       \
    }
// st(0) is x and st(1) is y. In the text of the assembler, `fsubp` and `fsubrp` have the names of each other.
X87(add, "faddp")
X87(sub, "fsubp")
X87(mul, "fmulp")
X87(div, "fdivp")
X87(sqrt, "fstp %%st(1)\n\tfsqrt")
X87(roundToInt, "fstp %%st(1)\n\tfrndint")

// A result of x87 that it stores as another type: a narrower value, or an integer, in the mode of `way`.
#define STORED(NAME, TYPE, TEXT)                                                                                       \
    static Outcome extF80_to_##NAME##_x87(extFloat80_t x, unsigned way) {                                              \
        uint16_t control = (uint16_t)(0x33f | way << 10), standard = 0x37f, status;                                    \
        TYPE r;                                                                                                        \
        __asm__ volatile("fldt %[x]\n\tfnclex\n\tfldcw %[control]\n\t" TEXT                                            \
                         " %[r]\n\tfnstsw %[status]\n\tfldcw %[standard]\n\tfnclex"                                   \
                         : [r] "=m"(r), [status] "=m"(status)                                                          \
                         : [x] "m"(x), [control] "m"(control), [standard] "m"(standard)                                \
                         : "st");                                                                                      \
        return (Outcome){r, 0, of_mxcsr(status)};                                                                      \
    }
STORED(f32, uint32_t, "fstps")
STORED(f64, uint64_t, "fstpl")
STORED(i32, uint32_t, "fistpl")
STORED(i64, uint64_t, "fistpll")

#define LOADED(NAME, TYPE, TEXT)                                                                                       \
    static Outcome NAME##_to_extF80_x87(TYPE x) {                                                                      \
        uint16_t status;                                                                                               \
        extFloat80_t r;                                                                                                \
        memset(&r, 0, sizeof r);                                                                                       \
        __asm__ volatile("fnclex\n\t" TEXT " %[x]\n\tfnstsw %[status]\n\tfstpt %[r]\n\tfnclex"                         \
                         : [r] "=m"(r), [status] "=m"(status)                                                          \
                         : [x] "m"(x)                                                                                  \
                         : "st");                                                                                      \
        return (Outcome){r.signif, r.signExp, of_mxcsr(status)};                                                       \
    }
LOADED(f32, uint32_t, "flds")
LOADED(f64, uint64_t, "fldl")
LOADED(i32, int32_t, "fildl")
LOADED(i64, int64_t, "fildll")

// Steps of `fprem1` until the status word says that the remainder is there.
static Outcome extF80_rem_x87(extFloat80_t x, extFloat80_t y) {
    uint16_t status;
    extFloat80_t r;
    memset(&r, 0, sizeof r);
    __asm__ volatile("fldt %[y]\n\tfldt %[x]\n\tfnclex\n"
                     "1:\tfprem1\n\tfnstsw %%ax\n\ttestw $0x400, %%ax\n\tjne 1b\n\t"
                     "movw %%ax, %[status]\n\tfstpt %[r]\n\tfstp %%st(0)\n\tfnclex"
                     : [r] "=m"(r), [status] "=m"(status)
                     : [x] "m"(x), [y] "m"(y)
                     : "ax", "cc", "st", "st(1)");
    return (Outcome){r.signif, r.signExp, of_mxcsr(status)};
}

static Outcome extF80_compared(extFloat80_t x, extFloat80_t y, bool is_signaling, char relation) {
    unsigned char below, equal, unordered;
    uint16_t status;
#define BY(INSTRUCTION)                                                                                                \
    __asm__ volatile("fldt %[y]\n\tfldt %[x]\n\tfnclex\n\t" INSTRUCTION                                              \
                     " %%st(1), %%st\n\tsetb %[l]\n\tsete %[e]\n\tsetp %[u]\n\tfnstsw %[status]\n\t"                \
                     "fstp %%st(0)\n\tfstp %%st(0)\n\tfnclex"                                                         \
                     : [l] "=&q"(below), [e] "=&q"(equal), [u] "=&q"(unordered), [status] "=m"(status)                 \
                     : [x] "m"(x), [y] "m"(y)                                                                          \
                     : "cc", "st", "st(1)")
    if (is_signaling)
        BY("fcomi");
    else
        BY("fucomi");
    const bool holds = relation == '=' ? equal : relation == '<' ? below : below || equal;
    return (Outcome){holds && !unordered, 0, of_mxcsr(status)};
}

// ---- comparison

static const struct {
    uint8_t mode;
    unsigned direction;
    const char *name;
} MODES[] = {{softfloat_round_near_even, 0, "even"},
             {softfloat_round_min, 1, "down"},
             {softfloat_round_max, 2, "up"},
             {softfloat_round_minMag, 3, "zero"},
             {softfloat_round_odd, 3, "odd"}};

enum { KINDS = 96 };
static struct {
    const char *name;
    unsigned long agree, differ;
} kinds[KINDS];
static unsigned now;

// How many results of the processor raised each flag, the lowest first.
static unsigned long raised[5];

static Outcome odd(Outcome x) {
    if (MODES[now].mode == softfloat_round_odd && x.flags & softfloat_flag_inexact) x.low |= 1;
    return x;
}

static void compare(const char *name, Outcome expected, uint64_t low, uint64_t high, const uint64_t *operands) {
    const unsigned flags = softfloat_exceptionFlags;
    unsigned i = 0;
    while (kinds[i].name && strcmp(kinds[i].name, name)) i++;
    if (i == KINDS) abort();
    kinds[i].name = name;
    for (unsigned flag = 0; flag < 5; flag++)
        raised[flag] += expected.flags >> flag & 1;
    if (low == expected.low && high == expected.high && flags == expected.flags) {
        kinds[i].agree++;
    } else if (kinds[i].differ++ < 5) {
        printf("%s %s %u: %016llx %016llx %016llx: %04llx %016llx %02x, the processor %04llx %016llx %02x\n", name,
               MODES[now].name, (unsigned)extF80_roundingPrecision, (unsigned long long)operands[0],
               (unsigned long long)operands[1], (unsigned long long)operands[2], (unsigned long long)high,
               (unsigned long long)low, flags, (unsigned long long)expected.high, (unsigned long long)expected.low,
               expected.flags);
    }
    softfloat_exceptionFlags = 0;
}

static void integers(const char *name, Outcome expected, uint64_t result, bool is_exact, const uint64_t *operands) {
    if (!is_exact) expected.flags &= ~(unsigned)softfloat_flag_inexact;
    compare(name, expected, result, 0, operands);
}

#define TO_INTEGER(F, N, MASK)                                                                                         \
    do {                                                                                                               \
        Outcome expected;                                                                                              \
        direction = MODES[now].mode == softfloat_round_odd ? 1 : MODES[now].direction;                                 \
        expected = odd(F##_to_##N##_sse(a.v));                                                                         \
        integers(#F "_to_" #N, expected, F##_to_##N(a, mode, is_exact) & MASK, is_exact, operands);                    \
        direction = 3;                                                                                                 \
        expected = F##_to_##N##_sse(a.v);                                                                              \
        integers(#F "_to_" #N "_r_minMag", expected, F##_to_##N##_r_minMag(a, is_exact) & MASK, is_exact, operands);   \
        direction = MODES[now].direction;                                                                              \
    } while (0)

#define FROM_INTEGER(N, F) compare(#N "_to_" #F, odd(N##_to_##F##_sse(n)), N##_to_##F((N##_t)n).v, 0, whole)

#define COMPARED(F, NAME, SIGNALING, RELATION)                                                                         \
    compare(#F "_" #NAME, F##_compared(a.v, b.v, SIGNALING, RELATION), F##_##NAME(a, b), 0, operands)

#define TRY(F, BITS, EXPONENT, FRACTION)                                                                               \
    static void try_##F(void) {                                                                                        \
        const uint8_t mode = MODES[now].mode;                                                                          \
        const bool is_exact = drawn() & 1;                                                                             \
        F##_t a = {(BITS)drawn_value(EXPONENT, FRACTION)}, b = {(BITS)drawn_value(EXPONENT, FRACTION)};                \
        F##_t c = {(BITS)drawn_value(EXPONENT, FRACTION)};                                                             \
        const uint64_t chosen = drawn();                                                                               \
        if (chosen % 5 == 0) b.v = a.v ^ (BITS)(chosen >> 8) % 8;                                                      \
        if (chosen % 3 == 0) {                                                                                         \
            const Outcome product = F##_mul_sse(a.v, b.v);                                                             \
            c.v = (BITS)(product.low ^ (1ull << (EXPONENT + FRACTION)) ^ (chosen >> 8) % 8);                           \
        }                                                                                                              \
        const uint64_t operands[] = {a.v, b.v, c.v};                                                                   \
        compare(#F "_add", odd(F##_add_sse(a.v, b.v)), F##_add(a, b).v, 0, operands);                                  \
        compare(#F "_sub", odd(F##_sub_sse(a.v, b.v)), F##_sub(a, b).v, 0, operands);                                  \
        compare(#F "_mul", odd(F##_mul_sse(a.v, b.v)), F##_mul(a, b).v, 0, operands);                                  \
        compare(#F "_div", odd(F##_div_sse(a.v, b.v)), F##_div(a, b).v, 0, operands);                                  \
        compare(#F "_sqrt", odd(F##_sqrt_sse(a.v)), F##_sqrt(a).v, 0, operands);                                       \
        compare(#F "_mulAdd", odd(F##_mulAdd_sse(a.v, b.v, c.v)), F##_mulAdd(a, b, c).v, 0, operands);                 \
        if (mode != softfloat_round_odd)                                                                               \
            integers(#F "_roundToInt", F##_roundToInt_sse(a.v), F##_roundToInt(a, mode, is_exact).v, is_exact,         \
                     operands);                                                                                        \
        COMPARED(F, eq, false, '=');                                                                                   \
        COMPARED(F, le, true, 'l');                                                                                    \
        COMPARED(F, lt, true, '<');                                                                                    \
        COMPARED(F, eq_signaling, true, '=');                                                                          \
        COMPARED(F, le_quiet, false, 'l');                                                                             \
        COMPARED(F, lt_quiet, false, '<');                                                                             \
    }                                                                                                                  \
    static void try_integers_##F(void) {                                                                               \
        const uint8_t mode = MODES[now].mode;                                                                          \
        const bool is_exact = drawn() & 1;                                                                             \
        const double near = drawn_near_integer();                                                                      \
        F##_t a = {(BITS)drawn_value(EXPONENT, FRACTION)};                                                             \
        if (drawn() & 1) a.v = FRACTION == 52 ? (BITS)f64_bits(near) : (BITS)f64_to_f32_sse(f64_bits(near)).low;       \
        const uint64_t operands[] = {a.v, is_exact, 0}, n = drawn_integer(), whole[] = {n, 0, 0};                      \
        TO_INTEGER(F, i32, 0xffffffff);                                                                                \
        TO_INTEGER(F, i64, ~0ull);                                                                                     \
        TO_INTEGER(F, ui32, 0xffffffff);                                                                               \
        TO_INTEGER(F, ui64, ~0ull);                                                                                    \
        FROM_INTEGER(i32, F);                                                                                          \
        FROM_INTEGER(i64, F);                                                                                          \
        FROM_INTEGER(ui32, F);                                                                                         \
        FROM_INTEGER(ui64, F);                                                                                         \
    }
typedef int32_t i32_t;
typedef int64_t i64_t;
typedef uint32_t ui32_t;
typedef uint64_t ui64_t;
typedef float32_t f32_t;
typedef float64_t f64_t;
TRY(f32, uint32_t, 8, 23)
TRY(f64, uint64_t, 11, 52)

static void try_conversions(void) {
    const float16_t half = {(uint16_t)drawn_value(5, 10)};
    float32_t single = {(uint32_t)drawn_value(8, 23)};
    float64_t wide = {drawn_value(11, 52)};
    // Near the ends of the narrower format, and near what is halfway.
    if (drawn() & 1) wide.v = (wide.v & 0x800fffffffffffff) | (1023 - 152 + drawn() % 282) << 52;
    if (drawn() & 1) single.v = (single.v & 0x807fffff) | (uint32_t)(127 - 27 + drawn() % 45) << 23;
    if (drawn() % 3 == 0) wide.v = (wide.v & ~0x3fffffffull) | 0x10000000 | drawn() % 3;
    const uint64_t operands[] = {half.v, single.v, wide.v};
    compare("f16_to_f32", f16_to_f32_sse(half.v), f16_to_f32(half).v, 0, operands);
    compare("f32_to_f16", odd(f32_to_f16_sse(single.v)), f32_to_f16(single).v, 0, operands);
    compare("f32_to_f64", f32_to_f64_sse(single.v), f32_to_f64(single).v, 0, operands);
    compare("f64_to_f32", odd(f64_to_f32_sse(wide.v)), f64_to_f32(wide).v, 0, operands);
}

// Rounding to odd in fewer digits than 64 sets the last of these.
static Outcome odd_digit(Outcome x) {
    const unsigned dropped = extF80_roundingPrecision == 80 ? 0 : extF80_roundingPrecision == 64 ? 11 : 40;
    if (MODES[now].mode == softfloat_round_odd && x.flags & softfloat_flag_inexact) x.low |= 1ull << dropped;
    return x;
}

#define EXTENDED(NAME, DIGITS, EXPECTED, ...)                                                                          \
    do {                                                                                                               \
        const Outcome expected = EXPECTED;                                                                             \
        const extFloat80_t z = extF80_##NAME(__VA_ARGS__);                                                             \
        compare("extF80_" #NAME DIGITS, expected, z.signif, z.signExp, operands);                                      \
    } while (0)
#define IN_DIGITS(DIGITS)                                                                                              \
    EXTENDED(add, DIGITS, odd_digit(extF80_add_x87(a, b)), a, b);                                                      \
    EXTENDED(sub, DIGITS, odd_digit(extF80_sub_x87(a, b)), a, b);                                                      \
    EXTENDED(mul, DIGITS, odd_digit(extF80_mul_x87(a, b)), a, b);                                                      \
    EXTENDED(div, DIGITS, odd_digit(extF80_div_x87(a, b)), a, b);                                                      \
    EXTENDED(sqrt, DIGITS, odd_digit(extF80_sqrt_x87(a, a)), a)

static void try_extF80(void) {
    const extFloat80_t a = drawn_extF80();
    extFloat80_t b = drawn_extF80();
    const uint64_t chosen = drawn();
    if (chosen % 5 == 0) b = (extFloat80_t){a.signif ^ (chosen >> 8) % 8, a.signExp};
    const uint64_t operands[] = {a.signif, (uint64_t)a.signExp << 32 | b.signExp, b.signif};
    const uint8_t mode = MODES[now].mode;
    extF80_roundingPrecision = 80;
    IN_DIGITS(", 64 digits");
    if (mode != softfloat_round_odd) EXTENDED(roundToInt, "", extF80_roundToInt_x87(a, a), a, mode, true);
    EXTENDED(rem, "", extF80_rem_x87(a, b), a, b);
    compare("extF80_eq", extF80_compared(a, b, false, '='), extF80_eq(a, b), 0, operands);
    compare("extF80_le", extF80_compared(a, b, true, 'l'), extF80_le(a, b), 0, operands);
    compare("extF80_lt", extF80_compared(a, b, true, '<'), extF80_lt(a, b), 0, operands);
    compare("extF80_eq_signaling", extF80_compared(a, b, true, '='), extF80_eq_signaling(a, b), 0, operands);
    compare("extF80_le_quiet", extF80_compared(a, b, false, 'l'), extF80_le_quiet(a, b), 0, operands);
    compare("extF80_lt_quiet", extF80_compared(a, b, false, '<'), extF80_lt_quiet(a, b), 0, operands);
    extF80_roundingPrecision = 64;
    IN_DIGITS(", 53 digits");
    extF80_roundingPrecision = 32;
    IN_DIGITS(", 24 digits");
    extF80_roundingPrecision = 80;
}

static void try_extF80_conversions(void) {
    const uint8_t mode = MODES[now].mode;
    const unsigned way = mode == softfloat_round_odd ? 1 : direction;
    extFloat80_t a = drawn_extF80();
    // Near the ends of the narrower formats, or near an integer.
    if (drawn() & 1) a.signExp = (uint16_t)((a.signExp & 0x8000) | (16383 - 152 + drawn() % 282));
    if (drawn() % 8 == 0) a.signExp = (uint16_t)((a.signExp & 0x8000) | (16383 - 1076 + drawn() % 70));
    if (a.signExp & 0x7fff) a.signif |= 1ull << 63;
    if (drawn() % 3 == 0) {
        const Outcome near = f64_to_extF80_x87(f64_bits(drawn_near_integer()));
        a = (extFloat80_t){near.low, (uint16_t)near.high};
    }
    const float32_t single = {(uint32_t)drawn_value(8, 23)};
    const float64_t wide = {drawn_value(11, 52)};
    const uint64_t n = drawn_integer();
    const uint64_t operands[] = {a.signif, a.signExp, single.v}, others[] = {single.v, wide.v, n};
    extFloat80_t z;
    compare("extF80_to_f32", odd(extF80_to_f32_x87(a, direction)), extF80_to_f32(a).v, 0, operands);
    compare("extF80_to_f64", odd(extF80_to_f64_x87(a, direction)), extF80_to_f64(a).v, 0, operands);
    compare("extF80_to_i32", odd(extF80_to_i32_x87(a, way)), extF80_to_i32(a, mode, true) & 0xffffffff, 0, operands);
    compare("extF80_to_i64", odd(extF80_to_i64_x87(a, way)), (uint64_t)extF80_to_i64(a, mode, true), 0, operands);
    z = f32_to_extF80(single);
    compare("f32_to_extF80", f32_to_extF80_x87(single.v), z.signif, z.signExp, others);
    z = f64_to_extF80(wide);
    compare("f64_to_extF80", f64_to_extF80_x87(wide.v), z.signif, z.signExp, others);
    z = i32_to_extF80((int32_t)n);
    compare("i32_to_extF80", i32_to_extF80_x87((int32_t)n), z.signif, z.signExp, others);
    z = i64_to_extF80((int64_t)n);
    compare("i64_to_extF80", i64_to_extF80_x87((int64_t)n), z.signif, z.signExp, others);
}

int main(int count, char **words) {
    const unsigned long draws = count > 2 ? strtoul(words[2], NULL, 10) : 20000;
    unsigned long agree = 0, differ = 0;
    state = count > 1 ? strtoull(words[1], NULL, 10) : 1;
    for (now = 0; now < sizeof MODES / sizeof *MODES; now++) {
        softfloat_roundingMode = MODES[now].mode;
        direction = MODES[now].direction;
        for (unsigned long i = 0; i < draws; i++) {
            try_f32();
            try_f64();
            try_integers_f32();
            try_integers_f64();
            try_conversions();
            try_extF80();
            try_extF80_conversions();
        }
    }
    for (unsigned i = 0; i < KINDS && kinds[i].name; i++) {
        printf("%s: %lu agree, %lu differ\n", kinds[i].name, kinds[i].agree, kinds[i].differ);
        agree += kinds[i].agree;
        differ += kinds[i].differ;
    }
    printf("flags: %lu inexact, %lu underflow, %lu overflow, %lu infinite, %lu invalid\n", raised[0], raised[1],
           raised[2], raised[3], raised[4]);
    printf("%lu agree, %lu differ\n", agree, differ);
    return differ != 0;
}
