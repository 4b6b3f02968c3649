/* A program that calls the library, and computes with types for which the C compiler calls functions of its own. It
 * prints their results and flags in each rounding mode, which are those of a program that is compiled with -DALONE and
 * without the library (tests/c/linked), and what differs from results that are known. Ends with 0 if nothing does. */
#ifndef ALONE
#include <apfloat.h>
#endif
#include <fenv.h>
#include <stdint.h>
#include <stdio.h>
#include <string.h>

static int wrong;

static void check(const char *what, int holds) {
    if (!holds) {
        printf("%s: wrong\n", what);
        wrong = 1;
    }
}

#ifndef ALONE
static void library(void) {
    apfloat_halves one = {0x3c00, 0}, three = {0x4200, 0};
    apfloat_answer third;
    uint32_t error = apfloat_div(APFLOAT_HALF, APFLOAT_UPWARD, one, three, &third);
    check("apfloat_div", error == 0 && third.bits.low == 0x3556 && third.status == APFLOAT_INEXACT);
}
#endif

#ifdef FE_UPWARD
/* From here on upward, without flags. */
static void begin(void) {
    fesetround(FE_UPWARD);
    feclearexcept(FE_ALL_EXCEPT);
}

/* To nearest again; whether what was computed is inexact. */
static int ends_inexact(void) {
    int inexact = fetestexcept(FE_INEXACT) != 0;
    fesetround(FE_TONEAREST);
    return inexact;
}
#endif

#if defined __SIZEOF_INT128__ && defined FE_UPWARD
static void integers(void) {
    volatile unsigned __int128 integer = ((unsigned __int128)1 << 127) + 1;
    check("a quotient of integers", integer / 3 == (((unsigned __int128)0x2aaaaaaaaaaaaaaa << 64) | 0xaaaaaaaaaaaaaaab));
    begin();
    volatile double number = (double)integer;
    check("an integer as a double, upward", ends_inexact() && number == 0x1.0000000000001p127);
}
#endif

#if defined __SIZEOF_FLOAT128__ && defined __x86_64__ && defined FE_UPWARD
static void quads(void) {
    volatile __float128 one = 1, small = 0x1p-112;
    begin();
    volatile __float128 sum = one + small;
    check("an exact sum of quads", !ends_inexact() && sum != one);
    begin();
    volatile double narrow = (double)sum;
    check("a quad as a double, upward", ends_inexact() && narrow == 0x1.0000000000001p0);
    begin();
    volatile __float128 third = one / 3;
    check("a quotient of quads, upward", ends_inexact() && third == 0x1.5555555555555555555555555556p-2q);
}
#endif

#if defined __FLT16_MANT_DIG__ && defined __x86_64__ && defined __GNUC__ && !defined __clang__ && defined FE_UPWARD
static void halves(void) {
    volatile double number = 0x1.0000000000001p0;
    begin();
    volatile _Float16 half = (_Float16)number;
    check("a double as a half, upward", ends_inexact() && (double)half == 0x1.004p0);
}
#endif

#ifdef FE_UPWARD
static const struct {
    const char *name;
    int mode;
} modes[] = {{"even", FE_TONEAREST}, {"up", FE_UPWARD}, {"down", FE_DOWNWARD}, {"zero", FE_TOWARDZERO}};

/* Prints the bytes of a result, from the highest one on, and the flags. */
static void print(const char *what, int mode, const void *result, size_t size) {
    unsigned char bytes[16];
    int flags = fetestexcept(FE_ALL_EXCEPT);
    fesetround(FE_TONEAREST);
    memcpy(bytes, result, size);
    printf("%s %s ", what, modes[mode].name);
    while (size > 0) {
        printf("%02x", bytes[--size]);
    }
    printf("%s%s%s%s%s\n", flags & FE_INVALID ? " invalid" : "", flags & FE_DIVBYZERO ? " zero" : "",
           flags & FE_OVERFLOW ? " overflow" : "", flags & FE_UNDERFLOW ? " underflow" : "",
           flags & FE_INEXACT ? " inexact" : "");
}

/* Computes in each mode, without flags at first. */
#define IN_EACH_MODE(type, what, computed)                                                                             \
    for (int mode = 0; mode < 4; mode++) {                                                                             \
        fesetround(modes[mode].mode);                                                                                  \
        feclearexcept(FE_ALL_EXCEPT);                                                                                  \
        volatile type made = (type)(computed);                                                                         \
        type result = made;                                                                                            \
        print(what, mode, &result, sizeof result);                                                                     \
    }

static void each_mode(void) {
    /* One, numbers near it, the largest and the smallest ones, and what is invalid. */
    static volatile double doubles[] = {1, -3, 0x1.0000000000001p0, 0x1.ffep15, 0x1.001p-15, -0x1p-1074, 0x1.fp1023, 0,
                                        0x1.ffffffp127};
    for (unsigned i = 0; i < sizeof doubles / sizeof *doubles; i++) {
        volatile double y = doubles[i], x = doubles[(i + 1) % (sizeof doubles / sizeof *doubles)];
        IN_EACH_MODE(float, "float", y)
        IN_EACH_MODE(double, "double", y / x)
#if defined __SIZEOF_INT128__
        if (y >= 0 && y < 0x1p127) {
            IN_EACH_MODE(unsigned __int128, "unsigned", y)
        }
        volatile __int128 integer = ((__int128)(int64_t)(i * 0x9e3779b97f4a7c15u) << 64) | 0x8000000000000001u;
        IN_EACH_MODE(double, "signed", integer)
        IN_EACH_MODE(float, "signed", integer)
        IN_EACH_MODE(__int128, "quotient", integer / 1000003)
        IN_EACH_MODE(__int128, "rest", integer % 1000003)
        IN_EACH_MODE(unsigned __int128, "quotient", (unsigned __int128)integer / 0x123456789abcdef1u)
#endif
#if defined __SIZEOF_FLOAT128__ && defined __x86_64__
        volatile __float128 quad = (__float128)y + 0x1p-112q, other = (__float128)x / 3;
        IN_EACH_MODE(__float128, "sum", quad + other)
        IN_EACH_MODE(__float128, "difference", quad - other)
        IN_EACH_MODE(__float128, "product", quad * other)
        IN_EACH_MODE(__float128, "quotient", quad / other)
        IN_EACH_MODE(double, "narrow", quad)
        IN_EACH_MODE(float, "narrow", quad)
        IN_EACH_MODE(int, "order", (quad < other) + 2 * (quad == other) + 4 * (quad >= other))
        IN_EACH_MODE(__float128, "of an integer", (int64_t)(i * 0x9e3779b97f4a7c15u))
#if defined __SIZEOF_INT128__
        IN_EACH_MODE(__float128, "of an integer", integer)
#endif
#endif
#if defined __FLT16_MANT_DIG__ && defined __x86_64__ && !defined __clang__
        volatile _Float16 half = (_Float16)0.1;
        IN_EACH_MODE(_Float16, "half", y)
        IN_EACH_MODE(_Float16, "half", (float)y)
        IN_EACH_MODE(float, "of a half", half * half + half)
#if defined __SIZEOF_FLOAT128__
        IN_EACH_MODE(_Float16, "half", quad)
#endif
#endif
    }
}
#endif

int main(void) {
#ifndef ALONE
    library();
#endif
#ifdef FE_UPWARD
    each_mode();
#endif
#if defined __SIZEOF_INT128__ && defined FE_UPWARD
    integers();
#endif
#if defined __SIZEOF_FLOAT128__ && defined __x86_64__ && defined FE_UPWARD
    quads();
#endif
#if defined __FLT16_MANT_DIG__ && defined __x86_64__ && defined __GNUC__ && !defined __clang__ && defined FE_UPWARD
    halves();
#endif
    return wrong;
}
