/* Calls the library from C for the rows of tests/rows/by_crate/reductions.tsv and block_dots.tsv there, which
 * evidence/reductions.py and block_dots.py compute, and compares each field of the answer. Formats without a code, a
 * user's own and some with IEEE flags, are skipped. The program prints each row that differs, how many of each call
 * agree, and how many errors do. By hand, at the top of the repository, after `rt lib` in crates/apfloat_c:
 *
 *   cc -std=c99 -Wall -Wextra -O2 -Iinclude tests/c/check_reductions.c crates/apfloat_c/out/libapfloat_c.a -o check
 *   cat tests/rows/by_crate/reductions.tsv tests/rows/by_crate/block_dots.tsv | ./check |
 *       diff - tests/c/agreeing_reductions */
#include "apfloat.h"
#include "rows.h"

#include <stdbool.h>
#include <stdio.h>
#include <string.h>

enum { COLUMNS = 7, MOST = 1 << 13 };

struct array {
    uint8_t bytes[MOST];
    size_t length;
};

/* How many bytes a value takes in an array. */
static size_t width_of(uint32_t format) {
    static const uint8_t widths[] = {0, 2, 4, 8, 16, 2, 1, 1, 1, 10, 16, 0, 0, 0, 0, 0, 1, 1, 1, 4};
    return widths[format & 0xff];
}

/* Reads the bits of values; a hyphen stands for none. */
static bool read_array(char *words, uint32_t format, struct array *array) {
    size_t width = width_of(format);
    apfloat_halves bits;
    array->length = 0;
    for (char *word = strtok(words, " "); word && strcmp(word, "-") != 0; word = strtok(NULL, " ")) {
        if (array->length + width > MOST || !read_integer(word, 16, &bits)) return false;
        for (size_t n = 0; n < width; n++)
            array->bytes[array->length++] = (uint8_t)((n < 8 ? bits.low : bits.high) >> 8 * (n % 8));
    }
    return true;
}

static uint32_t make(const char *call, uint32_t format, uint32_t mode, const struct array *xs, const struct array *ys,
                     apfloat_answer *answer) {
    if (strcmp(call, "sum") == 0) return apfloat_sum(format, mode, xs->bytes, xs->length, answer);
    if (strcmp(call, "sum_abs") == 0) return apfloat_sum_abs(format, mode, xs->bytes, xs->length, answer);
    if (strcmp(call, "sum_square") == 0) return apfloat_sum_square(format, mode, xs->bytes, xs->length, answer);
    return apfloat_dot(format, mode, xs->bytes, xs->length, ys->bytes, ys->length, answer);
}

/* A vector in blocks. */
struct vector {
    uint32_t element, tensor;
    size_t length;
    struct array scales, codes;
};

/* Reads bytes of two digits each; a hyphen stands for none. */
static bool read_bytes(const char *digits, struct array *array) {
    array->length = 0;
    for (; digits && *digits && *digits != '-'; digits += 2) {
        const char two[] = {digits[0], digits[1], '\0'};
        apfloat_halves bits;
        if (array->length == MOST || !digits[1] || !read_integer(two, 16, &bits)) return false;
        array->bytes[array->length++] = (uint8_t)bits.low;
    }
    return digits != NULL;
}

/* Reads the format of a vector, of NVFP4 with the scale of its tensor, the length of a block, the scales and codes. */
static bool read_vector(char *words, struct vector *vector) {
    static const struct code elements[] = {{"E5M2", APFLOAT_E5M2},     {"E4M3FN", APFLOAT_E4M3FN},
                                           {"E3M2FN", APFLOAT_E3M2FN}, {"E2M3FN", APFLOAT_E2M3FN},
                                           {"E2M1FN", APFLOAT_E2M1FN}, {"NVFP4", APFLOAT_NVFP4}};
    char *name = strtok(words, " "), *length = strtok(NULL, " "), *scales = strtok(NULL, " ");
    char *tensor = name ? strchr(name, ':') : NULL;
    if (tensor) *tensor++ = '\0';
    if (!length) return false;
    vector->element = code_of(elements, COUNT(elements), name);
    vector->tensor = tensor ? (uint32_t)strtoul(tensor, NULL, 16) : 0;
    vector->length = strtoul(length, NULL, 10);
    return read_bytes(scales, &vector->scales) && read_bytes(strtok(NULL, " "), &vector->codes);
}

static bool is_fitting(const struct vector *x) {
    return x->length != 0 && x->codes.length == x->scales.length * x->length;
}

static bool has_scale(const struct vector *x) {
    return x->element != APFLOAT_NVFP4 || (x->tensor > 0 && x->tensor < 0x7f800000);
}

/* The error of vectors, of which one is none. */
static uint32_t error_of(const struct vector *x, const struct vector *y) {
    for (const struct vector *each = x;; each = y) {
        if (!is_fitting(each)) return APFLOAT_WRONG_LENGTH;
        if (!has_scale(each)) return APFLOAT_NO_SUCH_OPERATION;
        if (each == y) return APFLOAT_WIDE_OPERAND;
    }
}

static uint32_t dot_blocks(uint32_t format, uint32_t mode, const struct vector *x, const struct vector *y,
                           apfloat_answer *answer) {
    return apfloat_dot_blocks(format, mode, x->element, x->tensor, x->length, x->scales.bytes, x->scales.length,
                              x->codes.bytes, x->codes.length, y->element, y->tensor, y->length, y->scales.bytes,
                              y->scales.length, y->codes.bytes, y->codes.length, answer);
}

/* Whether the call gives what the row says, in its mode or in any. */
static bool agrees(char *columns[], uint32_t format) {
    static struct array xs, ys;
    static struct vector left, right;
    const bool is_none = strcmp(columns[4], "NotBlocks") == 0, in_blocks = strcmp(columns[0], "dot_blocks") == 0;
    bool is_refused = is_none || strcmp(columns[4], "LengthsDiffer") == 0, is_any = strcmp(columns[2], "any") == 0;
    apfloat_answer wanted = {{0, 0}, 0, 0};
    char *slash = strstr(columns[3], " / ");
    if (slash) *slash = '\0';
    if (in_blocks ? !slash || !read_vector(columns[3], &left) || !read_vector(slash + 3, &right)
                  : !read_array(columns[3], format, &xs) || (slash && !read_array(slash + 3, format, &ys)))
        return false;
    const uint32_t error = is_none ? error_of(&left, &right) : APFLOAT_WRONG_LENGTH;
    if (!is_refused && (!read_integer(columns[4], 16, &wanted.bits) || !read_flags(columns[5], &wanted.status)))
        return false;
    for (uint32_t mode = 0; mode < 5; mode++) {
        if (!is_refused && !is_any && code_of(modes, COUNT(modes), columns[2]) != mode) continue;
        apfloat_answer answer = before;
        uint32_t code = in_blocks ? dot_blocks(format, mode, &left, &right, &answer)
                                  : make(columns[0], format, mode, &xs, &ys, &answer);
        const apfloat_answer *left = is_refused ? &before : &wanted;
        if (code != (is_refused ? error : APFLOAT_ANSWERED) || answer.bits.low != left->bits.low ||
            answer.bits.high != left->bits.high || answer.status != left->status || answer.number != left->number)
            return false;
    }
    return true;
}

/* The errors, each of which leaves the answer as it was. */
static unsigned refusals(void) {
    const uint8_t bytes[16] = {0};
    apfloat_answer answer = before;
#define DOT(format, mode, x, y, length, scales, codes) \
    apfloat_dot_blocks(format, mode, x, 0, 1, bytes, 1, bytes, 1, y, 0, length, bytes, scales, bytes, codes, &answer)
    const uint32_t codes[][2] = {
        {DOT(0, 5, APFLOAT_E5M2, APFLOAT_E5M2, 0, 0, 0), APFLOAT_UNKNOWN_FORMAT},
        {DOT(APFLOAT_NVFP4, 0, APFLOAT_E5M2, APFLOAT_E5M2, 1, 1, 1), APFLOAT_UNKNOWN_FORMAT},
        {DOT(APFLOAT_HALF, 0, APFLOAT_E4M3, APFLOAT_E5M2, 0, 0, 0), APFLOAT_UNKNOWN_FORMAT},
        {DOT(APFLOAT_HALF, 0, APFLOAT_E5M2, APFLOAT_NVFP4 + 1, 0, 0, 0), APFLOAT_UNKNOWN_FORMAT},
        {DOT(APFLOAT_DOUBLE_PAIR, 5, APFLOAT_E4M3, APFLOAT_E5M2, 0, 0, 0), APFLOAT_UNKNOWN_MODE},
        {DOT(APFLOAT_DOUBLE_PAIR, 0, APFLOAT_E4M3, APFLOAT_E5M2, 0, 0, 0), APFLOAT_NO_SUCH_OPERATION},
        {DOT(APFLOAT_HALF, 0, APFLOAT_E5M2, APFLOAT_NVFP4, 0, 0, 0), APFLOAT_WRONG_LENGTH},
        {DOT(APFLOAT_HALF, 0, APFLOAT_E5M2, APFLOAT_NVFP4, 2, 1, 2), APFLOAT_NO_SUCH_OPERATION},
        {DOT(APFLOAT_HALF, 0, APFLOAT_E5M2, APFLOAT_E2M1FN, 2, 1, 2), APFLOAT_WRONG_LENGTH},
        {apfloat_sum(0, 5, bytes, 1, &answer), APFLOAT_UNKNOWN_FORMAT},
        {apfloat_sum(APFLOAT_E2M1FN, 0, bytes, 1, &answer), APFLOAT_UNKNOWN_FORMAT},
        {apfloat_sum_abs(APFLOAT_QUAD, 5, bytes, 1, &answer), APFLOAT_UNKNOWN_MODE},
        {apfloat_sum_square(APFLOAT_HALF, APFLOAT_SATURATE, bytes, 2, &answer), APFLOAT_UNKNOWN_MODE},
        {apfloat_sum(APFLOAT_QUAD, 0, bytes, 8, &answer), APFLOAT_WRONG_LENGTH},
        {apfloat_sum_abs(APFLOAT_DOUBLE_PAIR, 0, bytes, 16, &answer), APFLOAT_NO_SUCH_OPERATION},
        {apfloat_dot(APFLOAT_DOUBLE_PAIR, 0, bytes, 1, bytes, 2, &answer), APFLOAT_NO_SUCH_OPERATION},
        {apfloat_sum(APFLOAT_HALF, 0, bytes, 3, &answer), APFLOAT_WRONG_LENGTH},
        {apfloat_sum_square(APFLOAT_TF32, 0, bytes, 6, &answer), APFLOAT_WRONG_LENGTH},
        {apfloat_dot(APFLOAT_HALF, 0, bytes, 4, bytes, 2, &answer), APFLOAT_WRONG_LENGTH},
        {apfloat_dot(APFLOAT_HALF, 0, bytes, 3, bytes, 3, &answer), APFLOAT_WRONG_LENGTH}};
    unsigned count = 0;
    for (size_t i = 0; i < COUNT(codes); i++)
        if (codes[i][0] == codes[i][1] && memcmp(&answer, &before, sizeof answer) == 0) count++;
    return count;
}

/* Whether the library has the format. `tests/c/agreeing_reductions` has the counts, so none is skipped unnoticed. */
static bool is_known(uint32_t format) {
    apfloat_answer answer;
    return format != NO_CODE && apfloat_sum(format, 0, (const uint8_t *)"", 0, &answer) != APFLOAT_UNKNOWN_FORMAT;
}

int main(void) {
    static const char *const calls[] = {"sum", "sum_abs", "sum_square", "dot", "dot_blocks"};
    static char line[1 << 14];
    unsigned agreeing[COUNT(calls)] = {0};
    for (unsigned row = 1; fgets(line, sizeof line, stdin); row++) {
        line[strcspn(line, "\n")] = '\0';
        char *columns[COLUMNS];
        if (*line == '#' || split(line, columns, COLUMNS) != COLUMNS) continue;
        uint32_t format = format_of(columns[1]);
        if (!is_known(format)) continue;
        if (!agrees(columns, format)) printf("row %u differs\n", row);
        else
            for (size_t i = 0; i < COUNT(calls); i++) agreeing[i] += strcmp(columns[0], calls[i]) == 0;
    }
    for (size_t i = 0; i < COUNT(calls); i++) printf("%s: %u rows agree\n", calls[i], agreeing[i]);
    printf("%u errors agree\n", refusals());
    return 0;
}
