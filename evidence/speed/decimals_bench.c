/* The time of reading decimals, or of writing values as decimals, to nearest even.

       decimals_bench FORMAT read|write FILE

   FILE has a text on each line, or the bits of a value in hexadecimal. Prints the nanoseconds of a call in the fastest
   of up to 300 rounds, and for `read` a checksum of the bits. The exit status is 1 if the library does not do this.

   Compiled with -DLIBRARY it calls the library for C of this repository, which writes the shortest decimal. Otherwise
   it calls the C library and libquadmath, which write as many digits as are enough for every value of the format. */
#include "timing.h"

#include <math.h>
#include <quadmath.h>
#include <stdint.h>
#include <stdio.h>
#include <stdlib.h>
#include <string.h>

#ifdef LIBRARY
#include "apfloat.h"
#endif

enum { LONGEST = 1 << 14 };

static char *texts[COUNT];
static size_t lengths[COUNT];
static u128 bits[COUNT];
static char line[LONGEST];

static void print_checksum(void)
{
    u128 sum = 0, modulus = ((u128)1 << 61) - 1;
    for (int i = 0; i < COUNT; i++)
        for (int half = 0; half < 2; half++)
            sum = (sum * 31 + (uint64_t)(bits[i] >> (64 * half))) % modulus;
    printf(" %016llx\n", (unsigned long long)sum);
}

#ifdef LIBRARY

static int measured(const char *format, int reads)
{
    static const char *const NAMES[] = {"single", "double", "x87", "quad"};
    static const uint32_t CODES[] = {APFLOAT_SINGLE, APFLOAT_DOUBLE, APFLOAT_X87, APFLOAT_QUAD};
    static apfloat_halves values[COUNT];
    static apfloat_answer answer;
    static apfloat_text text;
    uint32_t code = 0;
    for (int i = 0; i < 4; i++)
        if (!strcmp(NAMES[i], format))
            code = CODES[i];
    if (!code)
        return 1;
    if (reads) {
        TIME(apfloat_parse_decimal(code, APFLOAT_NEAREST_EVEN, (const uint8_t *)texts[i], lengths[i], &answer);
             values[i] = answer.bits);
        for (int i = 0; i < COUNT; i++)
            bits[i] = (u128)values[i].high << 64 | values[i].low;
        print_checksum();
        return 0;
    }
    for (int i = 0; i < COUNT; i++)
        values[i] = (apfloat_halves){(uint64_t)bits[i], (uint64_t)(bits[i] >> 64)};
    TIME(apfloat_shortest(code, values[i], &text));
    return 0;
}

#else

#define MEASURED(TYPE, READ, WRITE)                                     \
    do {                                                                \
        static TYPE values[COUNT];                                      \
        if (reads) {                                                    \
            TIME(values[i] = READ(texts[i], NULL));                     \
            for (int i = 0; i < COUNT; i++) {                           \
                bits[i] = 0;                                            \
                memcpy(&bits[i], &values[i], bytes);                    \
            }                                                           \
            print_checksum();                                           \
        } else {                                                        \
            for (int i = 0; i < COUNT; i++)                             \
                memcpy(&values[i], &bits[i], bytes);                    \
            TIME(WRITE);                                                \
        }                                                               \
        return 0;                                                       \
    } while (0)

static int measured(const char *format, int reads)
{
    static char text[64];
    size_t bytes;
    if (!strcmp(format, "single")) {
        bytes = 4;
        MEASURED(float, strtof, snprintf(text, sizeof text, "%.9g", values[i]));
    }
    if (!strcmp(format, "double")) {
        bytes = 8;
        MEASURED(double, strtod, snprintf(text, sizeof text, "%.17g", values[i]));
    }
    if (!strcmp(format, "x87")) {
        bytes = 10;
        MEASURED(long double, strtold, snprintf(text, sizeof text, "%.21Lg", values[i]));
    }
    if (!strcmp(format, "quad")) {
        bytes = 16;
        MEASURED(__float128, strtoflt128, quadmath_snprintf(text, sizeof text, "%.36Qg", values[i]));
    }
    return 1;
}

#endif

int main(int count, char **words)
{
    FILE *file = count == 4 ? fopen(words[3], "r") : NULL;
    if (!file)
        return 2;
    int reads = !strcmp(words[2], "read");
    for (int i = 0; i < COUNT; i++) {
        if (!fgets(line, sizeof line, file))
            return 2;
        line[strcspn(line, "\n")] = 0;
        lengths[i] = strlen(line);
        texts[i] = strdup(line);
        bits[i] = reads ? 0 : number_of(line);
    }
    int missing = measured(words[1], reads);
    if (!missing && !reads)
        puts("");
    return missing;
}
