/* Calls the library from C for the rows of tests/c/p3109, which evidence/p3109_calls.py computes, and compares each
 * field of the answer. A row has tabs between its columns:
 *
 *   to_p3109    FORMAT>P3109  MODE  BITS  CODE  FLAGS  whether information is lost; MODE may end in a saturation
 *   to_p3109_by  as to_p3109; MODE is the way a, b or c, the count of random digits, and the random number
 *   from_p3109  P3109>FORMAT  MODE  CODE  BITS  FLAGS  whether information is lost
 *
 * The program prints each row that differs, how many of each call agree, and how many errors do. */
#include "apfloat.h"
#include "row_kinds.h"

#include <inttypes.h>
#include <stdlib.h>

static uint32_t mode_of(char *word) {
    char *mark = strchr(word, '+');
    uint32_t large = !mark ? 0 : strcmp(mark, "+finite") == 0 ? APFLOAT_SATURATE_FINITE : APFLOAT_SATURATE;
    if (mark) *mark = '\0';
    return large | (strcmp(word, "odd") == 0 ? APFLOAT_TO_ODD : code_of(modes, COUNT(modes), word));
}

/* The format of P3109 with this name: binary, the width, p, the precision, and letters for the sign and infinities. */
static bool read_form(const char *name, apfloat_p3109 *form) {
    char sign, end;
    if (sscanf(name, "binary%" SCNu32 "p%" SCNu32 "%c%c", &form->bits, &form->precision, &sign, &end) != 4)
        return false;
    form->is_signed = sign == 's';
    form->is_extended = end == 'e';
    return true;
}

static bool is_projected(char *columns[]) {
    apfloat_answer answer = before, other = before;
    apfloat_halves x;
    apfloat_p3109 to;
    char *mark = strchr(columns[1], '>');
    if (!mark || !read_form(mark + 1, &to) || !read_integer(columns[3], 16, &x)) return false;
    *mark = '\0';
    const uint32_t format = format_of(columns[1]), mode = mode_of(columns[2]);
    return is_answer(apfloat_to_p3109(format, mode, to, x, &answer), &answer, columns) &&
           apfloat_to_p3109_by(format, mode, to, 77, 5, x, &other) == APFLOAT_ANSWERED &&
           memcmp(&answer, &other, sizeof answer) == 0;
}

static bool is_projected_randomly(char *columns[]) {
    apfloat_answer answer = before;
    apfloat_halves x;
    apfloat_p3109 to;
    uint32_t digits, random, large = 0;
    char way, end[16] = "", *mark = strchr(columns[1], '>');
    if (sscanf(columns[2], "%c %" SCNu32 " %" SCNx32 "+%15s", &way, &digits, &random, end) < 3) return false;
    if (*end) large = strcmp(end, "finite") == 0 ? APFLOAT_SATURATE_FINITE : APFLOAT_SATURATE;
    if (!mark || !read_form(mark + 1, &to) || !read_integer(columns[3], 16, &x)) return false;
    *mark = '\0';
    const uint32_t mode = APFLOAT_RANDOM_DIGITS + (uint32_t)(way - 'a');
    return is_answer(apfloat_to_p3109_by(format_of(columns[1]), mode | large, to, digits, random, x, &answer), &answer,
                     columns);
}

static bool is_decoded(char *columns[]) {
    apfloat_answer answer = before, other = before;
    apfloat_halves code;
    apfloat_p3109 from;
    char *mark = strchr(columns[1], '>');
    if (!mark || !read_form(columns[1], &from) || !read_integer(columns[3], 16, &code)) return false;
    const uint32_t narrow = (uint32_t)code.low, to = format_of(mark + 1), mode = mode_of(columns[2]);
    /* The bits above those of the format are ignored. */
    const uint32_t wide = narrow | UINT32_MAX << from.bits;
    return is_answer(apfloat_from_p3109(from, mode, to, narrow, &answer), &answer, columns) &&
           apfloat_from_p3109(from, mode, to, wide, &other) == APFLOAT_ANSWERED &&
           memcmp(&answer, &other, sizeof answer) == 0;
}

/* The errors, each of which leaves the answer as it was. */
static unsigned refusals(void) {
    const apfloat_halves x = {1, 0};
    const apfloat_p3109 good = {8, 3, 1, 1};
    const apfloat_p3109 bad[] = {{2, 1, 0, 0}, {16, 3, 1, 1}, {8, 0, 1, 1}, {8, 8, 1, 1}, {8, 9, 0, 1},
                                 {8, 3, 2, 1}, {8, 3, 1, 2}, {8, UINT32_MAX, 1, 1}, {0, 0, 0, 0}};
    apfloat_answer answer = before;
#define TO(format, mode, to) apfloat_to_p3109(format, mode, to, x, &answer)
#define BY(format, mode, to, digits) apfloat_to_p3109_by(format, mode, to, digits, 1, x, &answer)
#define FROM(format, mode, to) apfloat_from_p3109(format, mode, to, 1, &answer)
    const uint32_t codes[][2] = {
        {TO(0, 7, bad[0]), APFLOAT_UNKNOWN_FORMAT},
        {TO(APFLOAT_HALF, APFLOAT_RANDOM_DIGITS, bad[0]), APFLOAT_UNKNOWN_MODE},
        {TO(APFLOAT_HALF, APFLOAT_SATURATE_ALL, good), APFLOAT_UNKNOWN_MODE},
        {TO(APFLOAT_E2M1FN, 0, good), APFLOAT_UNKNOWN_FORMAT},
        {TO(APFLOAT_DOUBLE_PAIR, 0, good), APFLOAT_NO_SUCH_OPERATION},
        {BY(0, 9, bad[0], 0), APFLOAT_UNKNOWN_FORMAT},
        {BY(APFLOAT_HALF, 9, bad[0], 0), APFLOAT_UNKNOWN_MODE},
        {BY(APFLOAT_HALF, APFLOAT_RANDOM_DIGITS | APFLOAT_SATURATE_ALL, good, 0), APFLOAT_UNKNOWN_MODE},
        {BY(APFLOAT_HALF, APFLOAT_RANDOM_DIGITS_B, bad[0], 0), APFLOAT_WRONG_WIDTH},
        {BY(APFLOAT_HALF, APFLOAT_RANDOM_DIGITS_C, good, 33), APFLOAT_WRONG_WIDTH},
        {BY(APFLOAT_HALF, APFLOAT_RANDOM_DIGITS, bad[0], 32), APFLOAT_UNKNOWN_FORMAT},
        {BY(APFLOAT_DOUBLE_PAIR, APFLOAT_RANDOM_DIGITS, good, 1), APFLOAT_NO_SUCH_OPERATION},
        {FROM(bad[0], 7, 0), APFLOAT_UNKNOWN_FORMAT},
        {FROM(good, APFLOAT_TO_ODD, 0), APFLOAT_UNKNOWN_MODE},
        {FROM(good, 0, APFLOAT_E2M1FN), APFLOAT_UNKNOWN_FORMAT},
        {FROM(good, 0, APFLOAT_DOUBLE_PAIR), APFLOAT_NO_SUCH_OPERATION}};
    unsigned count = 0;
    for (size_t i = 0; i < COUNT(codes); i++) count += codes[i][0] == codes[i][1];
    for (size_t i = 0; i < COUNT(bad); i++)
        count += TO(APFLOAT_HALF, 0, bad[i]) == APFLOAT_UNKNOWN_FORMAT &&
                 FROM(bad[i], 0, APFLOAT_HALF) == APFLOAT_UNKNOWN_FORMAT;
    return memcmp(&answer, &before, sizeof answer) == 0 ? count : 0;
}

int main(void) {
    struct row_kind kinds[] = {{"to_p3109", 7, is_projected, 0},
                               {"to_p3109_by", 7, is_projected_randomly, 0},
                               {"from_p3109", 7, is_decoded, 0}};
    count_rows(kinds, COUNT(kinds), NULL);
    printf("%u errors agree\n", refusals());
    return 0;
}
