/* The time of operations on arrays of values of 8 bits, and of conversions of those of 16, by a table of all results
   and without, in turn.

       cc -O2 -Iinclude evidence/speed/tables_bench.c LIBRARY.a -o tables_bench -lpthread -ldl -lm

   A line says the operation, the format, or both formats, how many pairs or values there are, and the nanoseconds of
   each without a table and by one, in the fastest round. Each call by a table fills it anew. Both have to write the
   same bytes and counts. */
#define _GNU_SOURCE
#include "apfloat.h"
#include "timing.h"

#include <stdint.h>
#include <string.h>

enum { MOST = 1 << 22 };

static uint8_t xs[2 * MOST], ys[MOST], plain[4 * MOST], looked_up[4 * MOST], table[APFLOAT_TABLE_BYTES];

static int convert(void) {
    static const struct {
        const char *name;
        uint32_t code;
        size_t bytes;
    } formats[] = {{"half", APFLOAT_HALF, 2},     {"bfloat", APFLOAT_BFLOAT, 2}, {"single", APFLOAT_SINGLE, 4},
                   {"e4m3fn", APFLOAT_E4M3FN, 1}, {"e5m2", APFLOAT_E5M2, 1}};
    for (size_t from = 0; from < 2; from++)
        for (size_t to = 0; to < sizeof formats / sizeof formats[0]; to++)
            for (size_t count = 1 << 17; count <= MOST; count *= 2) {
                double without = 1e18, with = 1e18;
                size_t room = formats[to].bytes * count;
                apfloat_array_answer first, second;
                for (int round = 0; round < 4; round++) {
                    double begun = now();
                    apfloat_convert_array(formats[from].code, APFLOAT_NEAREST_EVEN, formats[to].code, xs, 2 * count,
                                          plain, room, &first);
                    double between = now();
                    apfloat_convert_array_by_table(formats[from].code, APFLOAT_NEAREST_EVEN, formats[to].code, xs,
                                                   2 * count, looked_up, room, table, sizeof table, &second);
                    double ended = now();
                    if (between - begun < without) without = between - begun;
                    if (ended - between < with) with = ended - between;
                }
                if (memcmp(plain, looked_up, room) != 0 || memcmp(&first, &second, sizeof first) != 0) {
                    printf("%s to %s differs\n", formats[from].name, formats[to].name);
                    return 1;
                }
                printf("%s to %s\t%zu\t%.2f\t%.2f\n", formats[from].name, formats[to].name, count, without / count,
                       with / count);
            }
    return 0;
}

int main(void) {
    static const char *const names[] = {"", "sum", "difference", "product", "quotient"};
    static const struct {
        const char *name;
        uint32_t code;
    } formats[] = {{"e5m2", APFLOAT_E5M2}, {"e4m3fn", APFLOAT_E4M3FN}};
    uint64_t state = 88172645463325252;
    for (size_t i = 0; i < MOST; i++) {
        state ^= state << 13;
        state ^= state >> 7;
        state ^= state << 17;
        xs[i] = (uint8_t)(state >> 20);
        ys[i] = (uint8_t)(state >> 40);
        xs[MOST + i] = (uint8_t)(state >> 50);
    }
    for (size_t f = 0; f < sizeof formats / sizeof formats[0]; f++)
        for (uint32_t operation = APFLOAT_ADD; operation <= APFLOAT_DIV; operation++)
            for (size_t count = 1 << 17; count <= MOST; count *= 2) {
                double without = 1e18, with = 1e18;
                apfloat_array_answer first, second;
                for (int round = 0; round < 4; round++) {
                    double begun = now();
                    apfloat_map_array(formats[f].code, APFLOAT_NEAREST_EVEN, operation, xs, count, ys, count, xs, 0,
                                      plain, count, &first);
                    double between = now();
                    apfloat_map_array_by_table(formats[f].code, APFLOAT_NEAREST_EVEN, operation, xs, count, ys, count,
                                               xs, 0, looked_up, count, table, sizeof table, &second);
                    double ended = now();
                    if (between - begun < without) without = between - begun;
                    if (ended - between < with) with = ended - between;
                }
                if (memcmp(plain, looked_up, count) != 0 || memcmp(&first, &second, sizeof first) != 0) {
                    printf("a %s in %s differs\n", names[operation], formats[f].name);
                    return 1;
                }
                printf("%s\t%s\t%zu\t%.2f\t%.2f\n", names[operation], formats[f].name, count,
                       without / count, with / count);
            }
    return convert();
}
