/* The time of square roots, products and fused sums of another library, rounded to nearest even.

       peers_bench FORMAT OPERATION FILE

   FILE has the operands of a call on each line, in hexadecimal. Prints the nanoseconds of a call in the fastest of up
   to 300 rounds. The exit status is 1 if the library does not have the operation in that format.

   Compiled with -DQUADMATH the library is that of GCC: sqrtq and fmaq of libquadmath, and the product of libgcc. They
   have the format quad alone. Otherwise it is MPFR, with the range of the format's exponents, its denormal numbers and
   its flags. */
#include "timing.h"

#include <mpfr.h>
#include <quadmath.h>
#include <stdio.h>
#include <string.h>

struct format {
    const char *name;
    int bits, precision, least, greatest, writes_integer_bit;
};
static const struct format FORMATS[] = {
    {"half", 16, 11, -14, 15, 0},        {"bfloat", 16, 8, -126, 127, 0},
    {"e5m2", 8, 3, -14, 15, 0},          {"single", 32, 24, -126, 127, 0},
    {"double", 64, 53, -1022, 1023, 0},  {"x87", 80, 64, -16382, 16383, 1},
    {"quad", 128, 113, -16382, 16383, 0}};

static const struct format *form;
static u128 bits[3][COUNT];

#define TIMED(CALL)  \
    do {             \
        TIME(CALL);  \
        puts("");    \
        return 0;    \
    } while (0)

#ifdef QUADMATH

static int measured(const char *operation)
{
    static __float128 x[3][COUNT], magnitude[COUNT];
    static volatile __float128 result[COUNT];
    if (strcmp(form->name, "quad"))
        return 1;
    memcpy(x, bits, sizeof x);
    for (int i = 0; i < COUNT; i++)
        magnitude[i] = fabsq(x[0][i]);
    if (!strcmp(operation, "sqrt"))
        TIMED(result[i] = sqrtq(magnitude[i]));
    if (!strcmp(operation, "wide_mul"))
        TIMED(result[i] = x[0][i] * x[1][i]);
    if (!strcmp(operation, "wide_fma"))
        TIMED(result[i] = fmaq(x[0][i], x[1][i], x[2][i]));
    return 1;
}

#else

static void read_number(mpfr_t value, u128 pattern)
{
    int width = form->precision - !form->writes_integer_bit;
    u128 significand = pattern & (((u128)1 << width) - 1);
    int field = (int)(pattern >> width & ((1u << (form->bits - 1 - width)) - 1));
    if (field > 0 && !form->writes_integer_bit)
        significand |= (u128)1 << width;
    int exponent = (field > 0 ? field - 1 : 0) + form->least - (form->precision - 1);
    mpfr_t low;
    mpfr_init2(low, 64);
    mpfr_init2(value, (mpfr_prec_t)form->precision);
    mpfr_set_ui_2exp(value, (unsigned long)(significand >> 64), exponent + 64, MPFR_RNDN);
    mpfr_set_ui_2exp(low, (unsigned long)significand, exponent, MPFR_RNDN);
    mpfr_add(value, value, low, MPFR_RNDN);
    mpfr_clear(low);
    if (pattern >> (form->bits - 1) & 1)
        mpfr_neg(value, value, MPFR_RNDN);
}

static volatile unsigned long seen;

#define ROUNDED(CALL)                                                   \
    TIMED(mpfr_clear_flags(); int side = CALL;                           \
         side = mpfr_check_range(result[i], side, MPFR_RNDN);           \
         side = mpfr_subnormalize(result[i], side, MPFR_RNDN);          \
         seen += (unsigned long)side + mpfr_flags_save())

static int measured(const char *operation)
{
    static mpfr_t x[3][COUNT], magnitude[COUNT], result[COUNT];
    for (int i = 0; i < COUNT; i++) {
        for (int k = 0; k < 3; k++)
            read_number(x[k][i], bits[k][i]);
        mpfr_init2(result[i], (mpfr_prec_t)form->precision);
        mpfr_init2(magnitude[i], (mpfr_prec_t)form->precision);
        mpfr_abs(magnitude[i], x[0][i], MPFR_RNDN);
    }
    mpfr_set_emin(form->least - form->precision + 2);
    mpfr_set_emax(form->greatest + 1);
    if (!strcmp(operation, "sqrt"))
        ROUNDED(mpfr_sqrt(result[i], magnitude[i], MPFR_RNDN));
    if (!strcmp(operation, "wide_mul"))
        ROUNDED(mpfr_mul(result[i], x[0][i], x[1][i], MPFR_RNDN));
    if (!strcmp(operation, "wide_fma"))
        ROUNDED(mpfr_fma(result[i], x[0][i], x[1][i], x[2][i], MPFR_RNDN));
    return 1;
}

#endif

int main(int count, char **words)
{
    FILE *file = count == 4 ? fopen(words[3], "r") : NULL;
    if (!file)
        return 2;
    for (int i = 0; i < COUNT; i++) {
        char operands[3][40];
        if (fscanf(file, "%39s %39s %39s", operands[0], operands[1], operands[2]) != 3)
            return 1;
        for (int k = 0; k < 3; k++)
            bits[k][i] = number_of(operands[k]);
    }
    for (size_t i = 0; i < sizeof FORMATS / sizeof *FORMATS; i++)
        if (!strcmp(FORMATS[i].name, words[1]))
            form = &FORMATS[i];
    return form ? measured(words[2]) : 1;
}
