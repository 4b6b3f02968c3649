/* The time of apfloat_machine and of the plain calls of the library for C, on the same operands, in turn.

       machine_bench time FORMAT OPERATION FILE
       machine_bench plain|machine FORMAT OPERATION FILE CALLS

   FILE has the operands of a call on each line, in hexadecimal. `time` prints the nanoseconds of the plain call and of
   the call of a machine, X86, in the fastest of their rounds; the others make so many of the calls, for a counter of
   instructions. The plain call has the flags of IEEE 754 with tininess after rounding, as that machine does. Both have
   to give the same answers where no result is a NaN. machines.py runs it.

       cc -O2 -Iinclude evidence/speed/machine_bench.c libapfloat.a -o machine_bench */
#include "apfloat.h"
#include "timing.h"

#include <stdlib.h>
#include <string.h>

struct format {
    const char *name;
    uint32_t code, target;
};
static const struct format FORMATS[] = {
    {"half", APFLOAT_HALF, APFLOAT_SINGLE},     {"single", APFLOAT_SINGLE, APFLOAT_DOUBLE},
    {"double", APFLOAT_DOUBLE, APFLOAT_SINGLE}, {"quad", APFLOAT_QUAD, APFLOAT_DOUBLE},
    {"x87", APFLOAT_X87, APFLOAT_DOUBLE}};

struct operation {
    const char *name;
    uint32_t code;
};
static const struct operation OPERATIONS[] = {
    {"add", APFLOAT_ADD},         {"mul", APFLOAT_MUL},       {"div", APFLOAT_DIV},
    {"fma", APFLOAT_FMA},         {"sqrt", APFLOAT_SQRT},     {"integral", APFLOAT_ROUND_TO_INTEGRAL},
    {"convert", APFLOAT_CONVERT}, {"to_i64", APFLOAT_TO_I128}};

enum { INTEGER = 64, EVERY_ROUND = 200 };

static apfloat_halves x[COUNT], y[COUNT], z[COUNT];
static apfloat_answer plain[COUNT], machine[COUNT];
static uint32_t format, target, code;

#define EACH(CALL)                      \
    for (int i = 0; i < count; i++)     \
        CALL;                           \
    break

static void calls_plain(int count)
{
    const uint32_t f = format, even = APFLOAT_NEAREST_EVEN, to = target;
    switch (code) {
    case APFLOAT_ADD: EACH(apfloat_add(f, even, x[i], y[i], &plain[i]));
    case APFLOAT_MUL: EACH(apfloat_mul(f, even, x[i], y[i], &plain[i]));
    case APFLOAT_DIV: EACH(apfloat_div(f, even, x[i], y[i], &plain[i]));
    case APFLOAT_FMA: EACH(apfloat_fma(f, even, x[i], y[i], z[i], &plain[i]));
    case APFLOAT_SQRT: EACH(apfloat_sqrt(f, even, x[i], &plain[i]));
    case APFLOAT_ROUND_TO_INTEGRAL: EACH(apfloat_round_to_integral(f, even, x[i], &plain[i]));
    case APFLOAT_CONVERT: EACH(apfloat_convert(f, even, to, x[i], &plain[i]));
    default: EACH(apfloat_to_i128(f, even, x[i], INTEGER, &plain[i]));
    }
}

/* An operand that an operation does not take is zero. */
static void calls_machine(int count)
{
    const uint32_t f = format, even = APFLOAT_NEAREST_EVEN, to = target, operation = code;
    const apfloat_halves none = {0, 0};
    switch (code) {
    case APFLOAT_FMA:
        EACH(apfloat_machine(APFLOAT_MACHINE_X86, operation, f, even, to, x[i], y[i], z[i], &machine[i]));
    case APFLOAT_ADD:
    case APFLOAT_MUL:
    case APFLOAT_DIV:
        EACH(apfloat_machine(APFLOAT_MACHINE_X86, operation, f, even, to, x[i], y[i], none, &machine[i]));
    default:
        EACH(apfloat_machine(APFLOAT_MACHINE_X86, operation, f, even, to, x[i], none, none, &machine[i]));
    }
}

/* The nanoseconds of a call in a round, if it is less than before. */
static void take(void (*calls)(int), double *least)
{
    double start = now();
    calls(COUNT);
    double time = (now() - start) / COUNT;
    *least = time < *least ? time : *least;
}

static int is_same(int i)
{
    return plain[i].bits.low == machine[i].bits.low && plain[i].bits.high == machine[i].bits.high &&
           plain[i].status == machine[i].status;
}

static int timed(void)
{
    double least[2] = {1e18, 1e18};
    for (int round = 0; round < EVERY_ROUND; round++) {
        take(calls_plain, &least[0]);
        take(calls_machine, &least[1]);
    }
    printf("%.2f %.2f\n", least[0], least[1]);
    for (int i = 0; i < COUNT; i++)
        if (!(machine[i].status & APFLOAT_INVALID_OP) && !is_same(i))
            return 1;
    return 0;
}

static apfloat_halves halves(u128 bits)
{
    return (apfloat_halves){(uint64_t)bits, (uint64_t)(bits >> 64)};
}

static int read_operands(const char *name)
{
    FILE *file = fopen(name, "r");
    for (int i = 0; i < COUNT; i++) {
        char words[3][40];
        if (!file || fscanf(file, "%39s %39s %39s", words[0], words[1], words[2]) != 3)
            return 0;
        x[i] = halves(number_of(words[0]));
        y[i] = halves(number_of(words[1]));
        z[i] = halves(number_of(words[2]));
    }
    return !fclose(file);
}

int main(int count, char **words)
{
    if (count < 5 || !read_operands(words[4]))
        return 2;
    for (size_t i = 0; i < sizeof FORMATS / sizeof *FORMATS; i++)
        if (!strcmp(words[2], FORMATS[i].name)) {
            format = FORMATS[i].code | APFLOAT_IEEE_FLAGS;
            target = FORMATS[i].target | APFLOAT_IEEE_FLAGS;
        }
    for (size_t i = 0; i < sizeof OPERATIONS / sizeof *OPERATIONS; i++)
        if (!strcmp(words[3], OPERATIONS[i].name))
            code = OPERATIONS[i].code;
    if (!format || !code)
        return 2;
    if (code == APFLOAT_TO_I128)
        target = INTEGER;
    if (!strcmp(words[1], "time"))
        return timed();
    if (count < 6)
        return 2;
    (strcmp(words[1], "plain") ? calls_machine : calls_plain)(atoi(words[5]));
    return 0;
}
