/* Calls the library from C for the rows of tests/c/blocks, which evidence/block_calls.py computes, and compares each
 * field of the answer. The columns, with tabs between them, are the call (quantize_blocks, quantize_nvfp4 or
 * dequantize_nvfp4), the format of 32 values, the mode, the format of elements and the rule of scales, or the scale of
 * the tensor, the values, the scales of the blocks, the codes, how many roundings raised INEXACT, UNDERFLOW and
 * OVERFLOW, how many values are NaNs, and the flags. The program prints each
 * row that differs, how many of each call agree, and how many errors do. */
#include "apfloat.h"
#include "row_kinds.h"

#include <inttypes.h>
#include <stdlib.h>

enum { VALUES = 32, BLOCK = 16 };

struct given {
    uint32_t format, mode, tensor, element;
    uint8_t values[16 * VALUES], scales[VALUES], codes[VALUES];
    size_t width, blocks, length;
};

/* How many bytes a value takes in an array. */
static size_t width_of(const char *format) {
    static const struct code widths[] = {{"half", 2}, {"single", 4}, {"double", 8}, {"quad", 16}, {"x87", 10},
                                         {"bfloat", 2}, {"tf32", 4}, {"e5m2", 1}, {"e4m3fn", 1}, {"e4m3fnuz", 1}};
    char name[16] = "";
    strncat(name, format, strcspn(format, "+") < sizeof name ? strcspn(format, "+") : 0);
    return code_of(widths, COUNT(widths), name);
}

/* Reads numbers of so many bytes, the lowest byte first. Returns how many there were, or one more than there may be. */
static size_t read_bytes(char *words, size_t width, uint8_t *bytes) {
    size_t count = 0;
    for (char *word = strtok(words, " "); word; word = strtok(NULL, " "), count++) {
        apfloat_halves x;
        if (count == VALUES || !read_integer(word, 16, &x)) return VALUES + 1;
        for (size_t i = 0; i < width; i++)
            bytes[count * width + i] = (uint8_t)(i < 8 ? x.low >> 8 * i : x.high >> 8 * (i - 8));
    }
    return count;
}

static bool read_row(char *columns[], struct given *row) {
    row->width = width_of(columns[1]);
    row->format = format_of(columns[1]);
    row->mode = code_of(modes, COUNT(modes), columns[2]);
    row->tensor = (uint32_t)strtoul(columns[3], NULL, 16);
    const char *rule = strchr(columns[3], '+');
    if (rule) {
        static const struct code elements[] = {{"e5m2", APFLOAT_E5M2}, {"e4m3fn", APFLOAT_E4M3FN},
                                               {"e3m2fn", APFLOAT_E3M2FN}, {"e2m3fn", APFLOAT_E2M3FN},
                                               {"e2m1fn", APFLOAT_E2M1FN}};
        static const struct code rules[] = {{"floor", 0}, {"ceil", APFLOAT_SCALE_CEIL}, {"even", APFLOAT_SCALE_EVEN}};
        char element[16] = "";
        strncat(element, columns[3], (size_t)(rule - columns[3]) % sizeof element);
        row->element = code_of(elements, COUNT(elements), element);
        row->mode |= code_of(rules, COUNT(rules), rule + 1);
    }
    if (read_bytes(columns[4], row->width, row->values) != VALUES) return false;
    row->blocks = read_bytes(columns[5], 1, row->scales);
    if (row->blocks == 0 || VALUES % row->blocks != 0) return false;
    row->length = VALUES / row->blocks;
    return read_bytes(columns[6], 1, row->codes) == VALUES;
}

/* Whether the counts are those of the row. */
static bool are_counts(const apfloat_array_answer *answer, char *columns[]) {
    char counts[64];
    snprintf(counts, sizeof counts, "%" PRIu64 " %" PRIu64 " %" PRIu64, answer->inexact, answer->underflow,
             answer->overflow);
    uint32_t status;
    return read_flags(columns[9], &status) && answer->values == VALUES && strcmp(counts, columns[7]) == 0 &&
           answer->div_by_zero == 0 &&
           answer->nans == strtoull(columns[8], NULL, 10) && answer->invalid_op == 0 && answer->status == status &&
           answer->reserved == 0;
}

static bool is_quantized(char *columns[]) {
    uint8_t scales[VALUES], codes[VALUES];
    struct given row;
    apfloat_array_answer answer;
    if (!read_row(columns, &row)) return false;
    const bool is_nvfp4 = strcmp(columns[0], "quantize_nvfp4") == 0;
    return (is_nvfp4 ? apfloat_quantize_nvfp4(row.format, row.mode, row.tensor, row.length, row.values,
                                              VALUES * row.width, scales, row.blocks, codes, VALUES, &answer)
                     : apfloat_quantize_blocks(row.format, row.mode, row.element, row.length, row.values,
                                               VALUES * row.width, scales, row.blocks, codes, VALUES, &answer)) ==
               APFLOAT_ANSWERED &&
           memcmp(scales, row.scales, row.blocks) == 0 && memcmp(codes, row.codes, VALUES) == 0 &&
           are_counts(&answer, columns);
}

static bool is_dequantized(char *columns[]) {
    uint8_t results[16 * VALUES];
    struct given row;
    apfloat_array_answer answer;
    return read_row(columns, &row) &&
           apfloat_dequantize_nvfp4(row.tensor, row.mode, row.format, row.length, row.scales, row.blocks, row.codes,
                                    VALUES, results, VALUES * row.width, &answer) == APFLOAT_ANSWERED &&
           memcmp(results, row.values, VALUES * row.width) == 0 && are_counts(&answer, columns);
}

/* The errors, each of which leaves all as it was. */
static unsigned refusals(void) {
    static const uint8_t bytes[2 * BLOCK + 1] = {0}, wide[BLOCK] = {0, 16}, high[] = {128};
    uint8_t scales[2] = {1, 2}, codes[BLOCK + 1] = {3}, results[2 * BLOCK + 1] = {4};
    apfloat_array_answer answer, untouched;
    memset(&answer, 0xa5, sizeof answer);
    untouched = answer;
    const uint32_t one = 0x3f800000, none = 0, minus_one = 0xbf800000, infinite = 0x7f800000, nan = 0x7fc00000;
#define INTO(format, mode, tensor, length, given, many, room) \
    apfloat_quantize_nvfp4(format, mode, tensor, length, bytes, given, scales, many, codes, room, &answer)
#define BY_RULE(mode) \
    apfloat_quantize_blocks(APFLOAT_HALF, mode, APFLOAT_E5M2, BLOCK, bytes, 2 * BLOCK, scales, 1, codes, BLOCK, &answer)
#define OUT_OF(tensor, mode, to, scale, many, from, given, room) \
    apfloat_dequantize_nvfp4(tensor, mode, to, BLOCK, scale, many, from, given, results, room, &answer)
    const uint32_t errors[][2] = {
        {INTO(0, 7, none, 0, 0, 0, 0), APFLOAT_UNKNOWN_FORMAT},
        {INTO(APFLOAT_HALF, APFLOAT_TO_ODD, none, 0, 0, 0, 0), APFLOAT_UNKNOWN_MODE},
        {INTO(APFLOAT_HALF, APFLOAT_SCALE_CEIL, none, 0, 0, 0, 0), APFLOAT_UNKNOWN_MODE},
        {BY_RULE(APFLOAT_SCALE_CEIL | APFLOAT_SCALE_EVEN), APFLOAT_UNKNOWN_MODE},
        {BY_RULE(APFLOAT_SCALE_CEIL | APFLOAT_TO_ODD), APFLOAT_UNKNOWN_MODE},
        {BY_RULE(2 * APFLOAT_SCALE_EVEN), APFLOAT_UNKNOWN_MODE},
        {BY_RULE(APFLOAT_SCALE_EVEN | APFLOAT_SATURATE), APFLOAT_UNKNOWN_MODE},
        {INTO(APFLOAT_DOUBLE_PAIR, 0, none, 0, 0, 0, 0), APFLOAT_NO_SUCH_OPERATION},
        {INTO(APFLOAT_HALF, 0, none, 0, 2 * BLOCK, 1, BLOCK), APFLOAT_WRONG_LENGTH},
        {INTO(APFLOAT_HALF, 0, none, 3, 2 * BLOCK, 1, BLOCK), APFLOAT_WRONG_LENGTH},
        {INTO(APFLOAT_HALF, 0, none, BLOCK, 2 * BLOCK + 1, 1, BLOCK), APFLOAT_WRONG_LENGTH},
        {INTO(APFLOAT_HALF, 0, none, BLOCK, 2 * BLOCK - 2, 1, BLOCK), APFLOAT_WRONG_LENGTH},
        {INTO(APFLOAT_HALF, 0, none, BLOCK, 2 * BLOCK, 2, BLOCK), APFLOAT_WRONG_LENGTH},
        {INTO(APFLOAT_HALF, 0, none, BLOCK, 2 * BLOCK, 1, BLOCK + 1), APFLOAT_WRONG_LENGTH},
        {INTO(APFLOAT_HALF, 0, none, BLOCK, 2 * BLOCK, 1, BLOCK), APFLOAT_NO_SUCH_OPERATION},
        {INTO(APFLOAT_HALF, 0, minus_one, BLOCK, 2 * BLOCK, 1, BLOCK), APFLOAT_NO_SUCH_OPERATION},
        {INTO(APFLOAT_HALF, 0, infinite, BLOCK, 2 * BLOCK, 1, BLOCK), APFLOAT_NO_SUCH_OPERATION},
        {INTO(APFLOAT_HALF, 0, nan, BLOCK, 2 * BLOCK, 1, BLOCK), APFLOAT_NO_SUCH_OPERATION},
        {INTO(APFLOAT_HALF, 0, nan, BLOCK, 0, 0, 0), APFLOAT_NO_SUCH_OPERATION},
        {OUT_OF(none, 7, 0, bytes, 0, bytes, 0, 0), APFLOAT_UNKNOWN_FORMAT},
        {OUT_OF(none, 7, APFLOAT_HALF, bytes, 0, bytes, 0, 0), APFLOAT_UNKNOWN_MODE},
        {OUT_OF(one, 0, APFLOAT_DOUBLE_PAIR, bytes, 1, bytes, BLOCK, 2 * BLOCK), APFLOAT_NO_SUCH_OPERATION},
        {OUT_OF(none, 0, APFLOAT_HALF, bytes, 2, bytes, BLOCK, 2 * BLOCK), APFLOAT_WRONG_LENGTH},
        {OUT_OF(none, 0, APFLOAT_HALF, bytes, 1, bytes, BLOCK - 1, 2 * BLOCK), APFLOAT_WRONG_LENGTH},
        {OUT_OF(none, 0, APFLOAT_HALF, bytes, 1, bytes, BLOCK, 2 * BLOCK + 1), APFLOAT_WRONG_LENGTH},
        {OUT_OF(none, 0, APFLOAT_HALF, high, 1, wide, BLOCK, 2 * BLOCK), APFLOAT_NO_SUCH_OPERATION},
        {OUT_OF(one, 0, APFLOAT_HALF, high, 1, bytes, BLOCK, 2 * BLOCK), APFLOAT_WIDE_OPERAND},
        {OUT_OF(one, 0, APFLOAT_HALF, bytes, 1, wide, BLOCK, 2 * BLOCK), APFLOAT_WIDE_OPERAND}};
    unsigned count = 0;
    for (size_t i = 0; i < COUNT(errors); i++) count += errors[i][0] == errors[i][1];
    bool is_kept = scales[0] == 1 && scales[1] == 2 && codes[0] == 3 && results[0] == 4;
    for (size_t i = 1; i < sizeof codes; i++) is_kept = is_kept && codes[i] == 0 && results[i] == 0;
    return is_kept && memcmp(&answer, &untouched, sizeof answer) == 0 ? count : 0;
}

int main(void) {
    struct row_kind kinds[] = {{"quantize_blocks", 10, is_quantized, 0},
                               {"quantize_nvfp4", 10, is_quantized, 0},
                               {"dequantize_nvfp4", 10, is_dequantized, 0}};
    count_rows(kinds, COUNT(kinds), NULL);
    printf("%u errors agree\n", refusals());
    return 0;
}
