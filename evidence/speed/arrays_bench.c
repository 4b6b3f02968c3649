/* The time of conversions of arrays by several builds of the library for C, interleaved.

       arrays_bench ROUNDS LIBRARY..

   Each LIBRARY is a shared library with the exports of include/apfloat.h, made of a static one by

       cc -shared -Wl,--whole-archive libapfloat_c.a -Wl,--no-whole-archive -o NAME.so

   In each round each library converts the same array, one after the other. A line says the conversion, what the values
   are like, how many there are, and for each library the nanoseconds of a value in its fastest round. Random bits are
   mostly numbers far out of the range of short formats; the other values are those of tensors, normally distributed
   with the deviations 1 and 0.02. All libraries have to write the same bytes and counts.

       cc -O2 -Iinclude evidence/speed/arrays_bench.c -o arrays_bench -ldl -lm */
#define _GNU_SOURCE
#include "apfloat.h"
#include "opened.h"
#include "timing.h"

#include <math.h>
#include <stdint.h>
#include <stdlib.h>
#include <string.h>

enum { LIBRARIES = 8, MOST = 1 << 22 };

typedef uint32_t conversion(uint32_t, uint32_t, uint32_t, const uint8_t *, size_t, uint8_t *, size_t,
                            apfloat_array_answer *);

struct format {
    const char *name;
    uint32_t code;
    size_t bytes;
};

static const struct format HALF = {"half", APFLOAT_HALF, 2}, SINGLE = {"single", APFLOAT_SINGLE, 4},
                           BFLOAT = {"bfloat", APFLOAT_BFLOAT, 2}, E5M2 = {"e5m2", APFLOAT_E5M2, 1},
                           E4M3FN = {"e4m3fn", APFLOAT_E4M3FN, 1}, E4M3FNUZ = {"e4m3fnuz", APFLOAT_E4M3FNUZ, 1};

static conversion *convert[LIBRARIES];
static int libraries, rounds;
static float singles[MOST];
static uint8_t input[4 * MOST], results[4 * MOST], first[4 * MOST];

static uint64_t state = 0x9e3779b97f4a7c15;

static uint64_t draw(void)
{
    state ^= state << 13;
    state ^= state >> 7;
    state ^= state << 17;
    return state * UINT64_C(2685821657736338717);
}

static double unit(void)
{
    return ((double)(draw() >> 11) + 0.5) / 9007199254740992.0;
}

/* Random bits if the deviation is 0. */
static void draw_singles(double deviation)
{
    for (size_t i = 0; i < MOST; i++) {
        if (deviation == 0) {
            uint32_t bits = (uint32_t)(draw() >> 32);
            memcpy(&singles[i], &bits, sizeof bits);
        } else {
            singles[i] = (float)(deviation * sqrt(-2 * log(unit())) * cos(6.283185307179586 * unit()));
        }
    }
}

/* The values in the format, rounded by the first library. */
static void write_input(struct format from, int random)
{
    apfloat_array_answer answer;
    if (random)
        memcpy(input, singles, sizeof singles);
    else if (from.code == SINGLE.code)
        memcpy(input, singles, sizeof singles);
    else if (convert[0](SINGLE.code, APFLOAT_NEAREST_EVEN, from.code, (const uint8_t *)singles, sizeof singles, input,
                        from.bytes * MOST, &answer))
        abort();
}

static void measure(struct format from, struct format to, const char *values, size_t count)
{
    double least[LIBRARIES];
    apfloat_array_answer answers[LIBRARIES];
    for (int k = 0; k < libraries; k++)
        least[k] = 1e18;
    for (int round = 0; round < rounds; round++)
        for (int k = 0; k < libraries; k++) {
            double start = now();
            uint32_t code = convert[k](from.code, APFLOAT_NEAREST_EVEN, to.code, input, from.bytes * count, results,
                                       to.bytes * count, &answers[k]);
            double time = now() - start;
            least[k] = time < least[k] ? time : least[k];
            if (code)
                abort();
            if (round == 0 && k == 0)
                memcpy(first, results, to.bytes * count);
            if (round == 0 && (memcmp(first, results, to.bytes * count)
                               || memcmp(&answers[0], &answers[k], sizeof answers[0]))) {
                printf("library %d gives other results\n", k + 1);
                exit(1);
            }
        }
    printf("%s\t%s\t%s\t%zu", from.name, to.name, values, count);
    for (int k = 0; k < libraries; k++)
        printf("\t%.2f", least[k] / (double)count);
    puts("");
    fflush(stdout);
}

int main(int count, char **words)
{
    static const struct {
        const struct format *from, *to;
    } pairs[] = {{&SINGLE, &E4M3FN}, {&SINGLE, &E5M2},   {&SINGLE, &E4M3FNUZ}, {&SINGLE, &HALF},   {&SINGLE, &BFLOAT},
                 {&HALF, &E4M3FN},   {&BFLOAT, &E4M3FN}, {&E4M3FN, &SINGLE},   {&E4M3FN, &HALF},   {&E5M2, &BFLOAT},
                 {&E4M3FN, &E5M2},   {&HALF, &SINGLE}};
    static const size_t counts[] = {256, 4096, 16384, 1 << 18, MOST};
    static const struct {
        const char *name;
        double deviation;
    } kinds[] = {{"random bits", 0}, {"N(0, 1)", 1}, {"N(0, 0.02)", 0.02}};
    if (count < 3 || count - 2 > LIBRARIES)
        return 2;
    rounds = atoi(words[1]);
    for (libraries = 0; libraries < count - 2; libraries++) {
        void *found = dlsym(opened(words[libraries + 2]), "apfloat_convert_array");
        memcpy(&convert[libraries], &found, sizeof found);
    }
    for (size_t kind = 0; kind < sizeof kinds / sizeof *kinds; kind++) {
        draw_singles(kinds[kind].deviation);
        for (size_t pair = 0; pair < sizeof pairs / sizeof *pairs; pair++) {
            write_input(*pairs[pair].from, kind == 0);
            for (size_t size = 0; size < sizeof counts / sizeof *counts; size++)
                measure(*pairs[pair].from, *pairs[pair].to, kinds[kind].name, counts[size]);
        }
    }
    return 0;
}
