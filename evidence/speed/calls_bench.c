/* The time of arithmetic by several builds of the library for C, interleaved: a call on single values, and an operation
   on arrays.

       calls_bench ROUNDS LIBRARY..

   Each LIBRARY is a shared library, made as arrays_bench.c says. In each round each library makes the same calls, one
   library after the other. A line says the operation, the format, what the operands are like, and for each library the
   nanoseconds of a call, and of an element of an array, in its fastest round; arrays are not made integers. Normal
   operands have exponents near 0; of the others a quarter are denormal. Those of a root, and those made unsigned
   integers, are positive. All libraries have to give the same bits, flags and counts.

       cc -O2 -Iinclude evidence/speed/calls_bench.c -o calls_bench -ldl */
#define _GNU_SOURCE
#include "apfloat.h"
#include "opened.h"
#include "timing.h"

#include <stdint.h>
#include <stdlib.h>
#include <string.h>

enum { LIBRARIES = 8 };

typedef uint32_t of_two(uint32_t, uint32_t, apfloat_halves, apfloat_halves, apfloat_answer *);
typedef uint32_t of_three(uint32_t, uint32_t, apfloat_halves, apfloat_halves, apfloat_halves, apfloat_answer *);
typedef uint32_t of_one(uint32_t, uint32_t, apfloat_halves, apfloat_answer *);
typedef uint32_t to_width(uint32_t, uint32_t, apfloat_halves, uint32_t, apfloat_answer *);
typedef uint32_t of_arrays(uint32_t, uint32_t, uint32_t, const uint8_t *, size_t, const uint8_t *, size_t,
                           const uint8_t *, size_t, uint8_t *, size_t, apfloat_array_answer *);

struct library {
    of_two *add, *sub, *mul, *div;
    of_three *fma;
    of_one *sqrt;
    to_width *to_u128, *to_i128;
    of_arrays *map;
};

struct format {
    const char *name;
    uint32_t code;
    size_t bytes;
    unsigned digits, exponent_bits;
};

static const struct format FORMATS[] = {{"double", APFLOAT_DOUBLE, 8, 52, 11},
                                        {"double+ieee", APFLOAT_DOUBLE | APFLOAT_IEEE_FLAGS, 8, 52, 11},
                                        {"single", APFLOAT_SINGLE, 4, 23, 8},
                                        {"half", APFLOAT_HALF, 2, 10, 5},
                                        {"e4m3fn", APFLOAT_E4M3FN, 1, 3, 4}};

/* Not codes of the library: they stand beside its codes of operations. */
enum { TO_U64 = 1000, TO_I64 };

static const struct {
    const char *name;
    uint32_t code;
    int operands, in_arrays, signs;
} OPERATIONS[] = {{"add", APFLOAT_ADD, 2, 1, 1}, {"sub", APFLOAT_SUB, 2, 1, 1}, {"mul", APFLOAT_MUL, 2, 1, 1},
                  {"div", APFLOAT_DIV, 2, 1, 1}, {"fma", APFLOAT_FMA, 3, 1, 1}, {"sqrt", APFLOAT_SQRT, 1, 1, 0},
                  {"to_u64", TO_U64, 1, 0, 0},   {"to_i64", TO_I64, 1, 0, 1}};

static struct library libraries[LIBRARIES];
static int count, rounds;
static apfloat_halves x[COUNT], y[COUNT], z[COUNT];
static apfloat_answer answers[COUNT], first[COUNT];
static uint8_t xs[8 * COUNT], ys[8 * COUNT], zs[8 * COUNT], results[8 * COUNT], first_results[8 * COUNT];

static uint64_t state = 0x9e3779b97f4a7c15;

static uint64_t draw(void)
{
    state ^= state << 13;
    state ^= state >> 7;
    state ^= state << 17;
    return state * UINT64_C(2685821657736338717);
}

static uint64_t operand(const struct format *format, int denormal, int negative)
{
    uint64_t digits = draw() >> (64 - format->digits), one = (UINT64_C(1) << (format->exponent_bits - 1)) - 1;
    uint64_t exponent = one + draw() % 9 - 4;
    uint64_t sign = negative && draw() >> 63;
    if (denormal)
        exponent = draw() % 4 ? draw() % 4 + 1 : 0;
    return ((sign << format->exponent_bits | exponent) << format->digits) | digits;
}

static void draw_operands(const struct format *format, int denormal, int negative)
{
    apfloat_halves *values[3] = {x, y, z};
    uint8_t *bytes[3] = {xs, ys, zs};
    for (int k = 0; k < 3; k++)
        for (int i = 0; i < COUNT; i++) {
            uint64_t bits = operand(format, denormal, negative);
            values[k][i] = (apfloat_halves){bits, 0};
            memcpy(bytes[k] + (size_t)i * format->bytes, &bits, format->bytes);
        }
}

#define CALLS(CALL)                     \
    for (int i = 0; i < COUNT; i++)     \
        code |= CALL;                   \
    break

static uint32_t call(const struct library *by, uint32_t operation, uint32_t format)
{
    uint32_t code = 0, mode = APFLOAT_NEAREST_EVEN;
    switch (operation) {
    case APFLOAT_ADD:
        CALLS(by->add(format, mode, x[i], y[i], &answers[i]));
    case APFLOAT_SUB:
        CALLS(by->sub(format, mode, x[i], y[i], &answers[i]));
    case APFLOAT_MUL:
        CALLS(by->mul(format, mode, x[i], y[i], &answers[i]));
    case APFLOAT_DIV:
        CALLS(by->div(format, mode, x[i], y[i], &answers[i]));
    case APFLOAT_FMA:
        CALLS(by->fma(format, mode, x[i], y[i], z[i], &answers[i]));
    case TO_U64:
        CALLS(by->to_u128(format, mode, x[i], 64, &answers[i]));
    case TO_I64:
        CALLS(by->to_i128(format, mode, x[i], 64, &answers[i]));
    default:
        CALLS(by->sqrt(format, mode, x[i], &answers[i]));
    }
    return code;
}

static void different(int k)
{
    printf("library %d gives other results\n", k + 1);
    exit(1);
}

static void measure(const struct format *format, size_t operation, const char *values)
{
    double least[LIBRARIES], least_of_arrays[LIBRARIES];
    apfloat_array_answer counts = {0}, first_counts;
    int operands = OPERATIONS[operation].operands, in_arrays = OPERATIONS[operation].in_arrays;
    size_t bytes = COUNT * format->bytes;
    for (int k = 0; k < count; k++)
        least[k] = least_of_arrays[k] = 1e18;
    for (int round = 0; round < rounds; round++)
        for (int k = 0; k < count; k++) {
            double start = now();
            uint32_t code = call(&libraries[k], OPERATIONS[operation].code, format->code);
            double time = now() - start;
            least[k] = time < least[k] ? time : least[k];
            start = now();
            if (in_arrays)
                code |= libraries[k].map(format->code, APFLOAT_NEAREST_EVEN, OPERATIONS[operation].code, xs, bytes,
                                         ys, operands > 1 ? bytes : 0, zs, operands > 2 ? bytes : 0, results, bytes,
                                         &counts);
            time = now() - start;
            least_of_arrays[k] = time < least_of_arrays[k] ? time : least_of_arrays[k];
            if (code)
                abort();
            if (round == 0 && k == 0) {
                memcpy(first, answers, sizeof first);
                memcpy(first_results, results, bytes);
                first_counts = counts;
            }
            if (round == 0 && (memcmp(first, answers, sizeof first) || memcmp(first_results, results, bytes)
                               || memcmp(&first_counts, &counts, sizeof counts)))
                different(k);
        }
    printf("%s\t%s\t%s", OPERATIONS[operation].name, format->name, values);
    for (int k = 0; k < count; k++) {
        printf("\t%.2f", least[k] / COUNT);
        if (in_arrays)
            printf(" %.2f", least_of_arrays[k] / COUNT);
    }
    puts("");
    fflush(stdout);
}

int main(int words_count, char **words)
{
    if (words_count < 3 || words_count - 2 > LIBRARIES)
        return 2;
    rounds = atoi(words[1]);
    for (count = 0; count < words_count - 2; count++) {
        void *library = opened(words[count + 2]);
        static const char *const names[] = {"apfloat_add",     "apfloat_sub",     "apfloat_mul",
                                            "apfloat_div",     "apfloat_fma",     "apfloat_sqrt",
                                            "apfloat_to_u128", "apfloat_to_i128", "apfloat_map_array"};
        void *found[9];
        for (int i = 0; i < 9; i++)
            found[i] = dlsym(library, names[i]);
        memcpy(&libraries[count], found, sizeof found);
    }
    for (size_t format = 0; format < sizeof FORMATS / sizeof *FORMATS; format++)
        for (int denormal = 0; denormal < 2; denormal++) {
            for (size_t operation = 0; operation < sizeof OPERATIONS / sizeof *OPERATIONS; operation++) {
                draw_operands(&FORMATS[format], denormal, OPERATIONS[operation].signs);
                measure(&FORMATS[format], operation, denormal ? "denormal" : "normal");
            }
        }
    return 0;
}
