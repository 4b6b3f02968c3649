/* Calls the library from C for the rows of tests/c/storage, which evidence/storage_calls.py computes, and compares each
 * field of the answer. A row has tabs between its columns:
 *
 *   to_storage    FORMAT>STORED  MODE  BITS  CODE  FLAGS  whether the code is a NaN's
 *   from_storage  STORED>FORMAT  MODE  CODE  BITS  FLAGS  whether the value is a NaN
 *   to_storage_by  as to_storage; the mode is odd, or random DIGITS NUMBER
 *   between_storage  STORED>STORED  MODE  CODE  CODE  FLAGS  whether the code is a NaN's
 *   storage_operation  STORED  MODE  OPERATION and three codes  CODE  FLAGS  0
 *
 * A MODE may be followed by what becomes of an overflow, as in even+finite. Each row of to_storage_by is tried with an
 * array, too. The program prints each row that differs,
 * how many of each call agree, and how many errors do. By hand, at the top of the repository, after `rt lib` in
 * crates/apfloat_c:
 *
 *   cc -std=c99 -Wall -Wextra -O2 -Iinclude tests/c/check_storage.c crates/apfloat_c/out/libapfloat_c.a -o check
 *   ./check < tests/c/storage */
#include "apfloat.h"
#include "rows.h"

#include <stdbool.h>
#include <stdio.h>
#include <stdlib.h>
#include <string.h>

enum { COLUMNS = 7, LINE = 1 << 12 };

static const struct code stored[] = {{"e2m1fn", APFLOAT_E2M1FN}, {"e2m3fn", APFLOAT_E2M3FN},
                                     {"e3m2fn", APFLOAT_E3M2FN}, {"e3m4", APFLOAT_E3M4},
                                     {"e8m0fnu", APFLOAT_E8M0FNU}, {"ue4m3", APFLOAT_UE4M3}};

static const struct code overflows[] = {
    {"saturate", APFLOAT_SATURATE}, {"finite", APFLOAT_SATURATE_FINITE}, {"all", APFLOAT_SATURATE_ALL}};

/* The part of a word before a mark, which is cut off, and the part after it, or null. */
static char *cut(char *word, char mark) {
    char *rest = strchr(word, mark);
    if (rest) *rest++ = '\0';
    return rest;
}

/* The code of a mode, with what becomes of an overflow. */
static uint32_t mode_of(char *word) {
    char *large = cut(word, '+');
    return code_of(modes, COUNT(modes), word) | (large ? code_of(overflows, COUNT(overflows), large) : 0);
}

static bool is_stored(char *columns[]) {
    apfloat_answer answer = before;
    apfloat_halves x;
    char *to = cut(columns[1], '>');
    if (!to || !read_integer(columns[3], 16, &x)) return false;
    uint32_t code = apfloat_to_storage(format_of(columns[1]), mode_of(columns[2]), code_of(stored, COUNT(stored), to),
                                       x, &answer);
    return is_answer(code, &answer, columns);
}

static bool is_loaded(char *columns[]) {
    apfloat_answer answer = before;
    apfloat_halves given;
    char *to = cut(columns[1], '>');
    if (!to || !read_integer(columns[3], 16, &given)) return false;
    uint32_t code = apfloat_from_storage(code_of(stored, COUNT(stored), columns[1]), mode_of(columns[2]),
                                         format_of(to), (uint32_t)given.low, &answer);
    return is_answer(code, &answer, columns);
}

/* How many bytes a value takes in an array. */
static size_t width_of(const char *format) {
    static const struct code widths[] = {{"half", 2}, {"single", 4}, {"double", 8}, {"quad", 16}, {"x87", 10},
                                         {"bfloat", 2}, {"tf32", 4}, {"e5m2", 1}, {"e4m3fn", 1}, {"e4m3fnuz", 1}};
    return code_of(widths, COUNT(widths), format);
}

enum { TIMES = 3 };

/* Whether an array of the same value several times gives this, with random numbers that differ above their digits. */
static bool is_stored_in_array(const char *format, uint32_t mode, uint32_t to, uint32_t digits, uint32_t random,
                               apfloat_halves x, const apfloat_answer *one) {
    uint8_t values[16 * TIMES], randoms[4 * TIMES], codes[TIMES + 1];
    apfloat_array_answer answer;
    size_t width = width_of(format), lent = mode == APFLOAT_RANDOM_DIGITS ? sizeof randoms : 0;
    for (size_t i = 0; i < TIMES; i++) {
        uint32_t number = digits < 32 ? random | (uint32_t)i << digits : random;
        for (size_t n = 0; n < 4; n++) randoms[4 * i + n] = (uint8_t)(number >> 8 * n);
        for (size_t n = 0; n < width; n++)
            values[width * i + n] = (uint8_t)(n < 8 ? x.low >> 8 * n : x.high >> 8 * (n - 8));
    }
    memset(codes, 0xa5, sizeof codes);
    uint32_t code = apfloat_convert_array_by(code_of(formats, COUNT(formats), format), mode, to, digits, randoms, lent,
                                             values, TIMES * width, codes, sizeof codes, &answer);
    for (size_t i = 0; i < TIMES; i++)
        if (codes[i] != one->bits.low) return false;
#define TIMES_IF(flag) (one->status & (flag) ? TIMES : 0)
    return code == APFLOAT_ANSWERED && codes[TIMES] == 0xa5 && answer.values == TIMES &&
           answer.inexact == TIMES_IF(APFLOAT_INEXACT) && answer.underflow == TIMES_IF(APFLOAT_UNDERFLOW) &&
           answer.overflow == TIMES_IF(APFLOAT_OVERFLOW) && answer.invalid_op == TIMES_IF(APFLOAT_INVALID_OP) &&
           answer.div_by_zero == 0 && answer.nans == (one->number ? TIMES : 0) && answer.status == one->status &&
           answer.reserved == 0;
}

static bool is_stored_by(char *columns[]) {
    apfloat_answer answer = before;
    apfloat_halves x, number = {0, 0};
    uint32_t mode = APFLOAT_TO_ODD, digits = 77;
    char *to = cut(columns[1], '>'), *said = cut(columns[2], ' ');
    if (said) {
        char *word = cut(said, ' ');
        mode = APFLOAT_RANDOM_DIGITS, digits = (uint32_t)atoi(said);
        if (!word || !read_integer(word, 16, &number)) return false;
    }
    if (!to || !read_integer(columns[3], 16, &x)) return false;
    uint32_t stored_to = code_of(stored, COUNT(stored), to), random = (uint32_t)number.low;
    uint32_t code = apfloat_to_storage_by(code_of(formats, COUNT(formats), columns[1]), mode, stored_to, digits, random,
                                          x, &answer);
    return is_answer(code, &answer, columns) &&
           is_stored_in_array(columns[1], mode, stored_to, digits, random, x, &answer);
}

static bool is_between(char *columns[]) {
    apfloat_answer answer = before;
    apfloat_halves given;
    char *to = cut(columns[1], '>');
    if (!to || !read_integer(columns[3], 16, &given)) return false;
    uint32_t code = apfloat_between_storage(code_of(stored, COUNT(stored), columns[1]), mode_of(columns[2]),
                                            code_of(stored, COUNT(stored), to), (uint32_t)given.low, &answer);
    return is_answer(code, &answer, columns);
}

static const struct code operations[] = {
    {"add", APFLOAT_ADD},         {"sub", APFLOAT_SUB},   {"mul", APFLOAT_MUL},       {"div", APFLOAT_DIV},
    {"mul_add", APFLOAT_FMA},     {"sqrt", APFLOAT_SQRT}, {"minimum", APFLOAT_LEAST}, {"maximum", APFLOAT_GREATEST}};

static bool is_operated(char *columns[]) {
    apfloat_answer answer = before, other = before;
    uint32_t codes[3];
    char *word = columns[3], *next = cut(word, ' ');
    for (size_t i = 0; i < COUNT(codes); i++) {
        apfloat_halves code;
        char *rest = next ? cut(next, ' ') : NULL;
        if (!next || !read_integer(next, 16, &code)) return false;
        codes[i] = (uint32_t)code.low;
        next = rest;
    }
    const uint32_t format = code_of(stored, COUNT(stored), columns[1]), mode = mode_of(columns[2]);
    const uint32_t operation = code_of(operations, COUNT(operations), word);
    /* The bits above those of the format are ignored. */
    const uint32_t above = UINT32_MAX << (format == APFLOAT_E2M1FN ? 4 : 6);
    uint32_t code = apfloat_storage_operation(format, mode, operation, codes[0], codes[1], codes[2], &answer);
    return is_answer(code, &answer, columns) &&
           apfloat_storage_operation(format, mode, operation, codes[0] | above, codes[1] | above, codes[2] | above,
                                     &other) == APFLOAT_ANSWERED &&
           memcmp(&answer, &other, sizeof answer) == 0;
}

static const struct call {
    const char *name;
    bool (*agrees)(char *columns[]);
} calls[] = {{"to_storage", is_stored},
             {"from_storage", is_loaded},
             {"to_storage_by", is_stored_by},
             {"between_storage", is_between},
             {"storage_operation", is_operated}};

/* The errors, each of which leaves the answer as it was. */
static unsigned refusals(void) {
    const apfloat_halves x = {1, 0};
    apfloat_answer answer = before;
#define TO(format, mode, to) apfloat_to_storage(format, mode, to, x, &answer)
#define FROM(format, mode, to) apfloat_from_storage(format, mode, to, 1, &answer)
#define BETWEEN(format, mode, to) apfloat_between_storage(format, mode, to, 1, &answer)
#define OPERATE(format, mode, operation) apfloat_storage_operation(format, mode, operation, 1, 2, 3, &answer)
    const uint32_t codes[][2] = {
        {TO(0, 5, 0), APFLOAT_UNKNOWN_FORMAT},
        {TO(APFLOAT_HALF, 5, 0), APFLOAT_UNKNOWN_MODE},
        {TO(APFLOAT_HALF, APFLOAT_SATURATE << 1, APFLOAT_E3M4), APFLOAT_UNKNOWN_MODE},
        {TO(APFLOAT_HALF, 0, 0), APFLOAT_UNKNOWN_FORMAT},
        {TO(APFLOAT_HALF, 0, APFLOAT_SINGLE), APFLOAT_UNKNOWN_FORMAT},
        {TO(APFLOAT_E3M4, 0, APFLOAT_E3M4), APFLOAT_UNKNOWN_FORMAT},
        {TO(APFLOAT_DOUBLE_PAIR, 0, APFLOAT_E3M4), APFLOAT_NO_SUCH_OPERATION},
        {FROM(0, 5, 0), APFLOAT_UNKNOWN_FORMAT},
        {FROM(APFLOAT_HALF, 0, APFLOAT_SINGLE), APFLOAT_UNKNOWN_FORMAT},
        {FROM(APFLOAT_UE4M3, 5, 0), APFLOAT_UNKNOWN_MODE},
        {FROM(APFLOAT_UE4M3, 0, APFLOAT_E8M0FNU), APFLOAT_UNKNOWN_FORMAT},
        {FROM(APFLOAT_UE4M3, 0, APFLOAT_DOUBLE_PAIR), APFLOAT_NO_SUCH_OPERATION},
        {BETWEEN(APFLOAT_HALF, 5, 0), APFLOAT_UNKNOWN_FORMAT},
        {BETWEEN(APFLOAT_E3M4, 5, 0), APFLOAT_UNKNOWN_MODE},
        {BETWEEN(APFLOAT_E3M4, APFLOAT_SATURATE << 1, 0), APFLOAT_UNKNOWN_MODE},
        {BETWEEN(APFLOAT_E3M4, 0, APFLOAT_HALF), APFLOAT_UNKNOWN_FORMAT},
        {OPERATE(APFLOAT_HALF, 5, 0), APFLOAT_UNKNOWN_FORMAT},
        {OPERATE(APFLOAT_E3M4, 5, 0), APFLOAT_UNKNOWN_MODE},
        {OPERATE(APFLOAT_E2M1FN, APFLOAT_SATURATE, APFLOAT_ADD), APFLOAT_UNKNOWN_MODE},
        {OPERATE(APFLOAT_E2M1FN, 0, APFLOAT_REM), APFLOAT_NO_SUCH_OPERATION},
        {OPERATE(APFLOAT_E3M4, 0, APFLOAT_ADD), APFLOAT_NO_SUCH_OPERATION}};
    unsigned count = 0;
    for (size_t i = 0; i < COUNT(codes); i++) count += codes[i][0] == codes[i][1];
    return memcmp(&answer, &before, sizeof answer) == 0 ? count : 0;
}

/* The errors of the modes of conversions. */
static unsigned refusals_by_mode(void) {
    const apfloat_halves x = {1, 0};
    static const uint8_t bytes[16] = {0};
    uint8_t results[16] = {1, 2, 3}, unchanged[sizeof results];
    apfloat_answer one = before;
    apfloat_array_answer answer, untouched;
    memcpy(unchanged, results, sizeof results);
    memset(&answer, 0xa5, sizeof answer);
    untouched = answer;
#define BY(format, mode, to, digits) apfloat_to_storage_by(format, mode, to, digits, 1, x, &one)
#define ARRAY(format, mode, to, digits, lent, given, room) \
    apfloat_convert_array_by(format, mode, to, digits, bytes, lent, bytes, given, results, room, &answer)
    const uint32_t codes[][2] = {
        {BY(0, 7, 0, 0), APFLOAT_UNKNOWN_FORMAT},
        {BY(APFLOAT_HALF, 7, 0, 0), APFLOAT_UNKNOWN_MODE},
        {BY(APFLOAT_HALF, APFLOAT_TO_ODD | APFLOAT_SATURATE, APFLOAT_E3M4, 0), APFLOAT_UNKNOWN_MODE},
        {BY(APFLOAT_HALF, APFLOAT_RANDOM_DIGITS, 0, 0), APFLOAT_WRONG_WIDTH},
        {BY(APFLOAT_HALF, APFLOAT_RANDOM_DIGITS, APFLOAT_E3M4, 33), APFLOAT_WRONG_WIDTH},
        {BY(APFLOAT_HALF, APFLOAT_RANDOM_DIGITS, APFLOAT_HALF, 32), APFLOAT_UNKNOWN_FORMAT},
        {BY(APFLOAT_DOUBLE_PAIR, APFLOAT_TO_ODD, APFLOAT_E3M4, 0), APFLOAT_NO_SUCH_OPERATION},
        {ARRAY(APFLOAT_HALF, 7, APFLOAT_E3M4, 0, 0, 4, 2), APFLOAT_UNKNOWN_MODE},
        {ARRAY(APFLOAT_HALF, APFLOAT_TO_ODD, APFLOAT_E3M4, 0, 0, 3, 2), APFLOAT_WRONG_LENGTH},
        {ARRAY(APFLOAT_HALF, APFLOAT_TO_ODD, APFLOAT_E3M4, 0, 0, 4, 1), APFLOAT_WRONG_LENGTH},
        {ARRAY(APFLOAT_HALF, APFLOAT_TO_ODD, APFLOAT_E3M4, 0, 8, 4, 2), APFLOAT_WRONG_LENGTH},
        {ARRAY(APFLOAT_HALF, APFLOAT_RANDOM_DIGITS, APFLOAT_E3M4, 9, 4, 4, 2), APFLOAT_WRONG_LENGTH},
        {ARRAY(APFLOAT_HALF, APFLOAT_RANDOM_DIGITS, APFLOAT_E3M4, 9, 9, 4, 2), APFLOAT_WRONG_LENGTH},
        {ARRAY(APFLOAT_HALF, APFLOAT_RANDOM_DIGITS, APFLOAT_E3M4, 0, 8, 4, 2), APFLOAT_WRONG_WIDTH}};
    unsigned count = 0;
    for (size_t i = 0; i < COUNT(codes); i++) count += codes[i][0] == codes[i][1];
    bool is_kept = memcmp(&one, &before, sizeof one) == 0 && memcmp(&answer, &untouched, sizeof answer) == 0;
    return is_kept && memcmp(results, unchanged, sizeof results) == 0 ? count : 0;
}

/* Whether the bits above those of a format are ignored. */
static bool ignores_upper_bits(void) {
    const apfloat_halves x = {UINT64_C(0xabcd3c00), 1};
    apfloat_answer stored_one = before, loaded_one = before;
    return apfloat_to_storage(APFLOAT_HALF, APFLOAT_UPWARD, APFLOAT_E2M1FN, x, &stored_one) == APFLOAT_ANSWERED &&
           apfloat_from_storage(APFLOAT_E2M1FN, APFLOAT_UPWARD, APFLOAT_HALF, UINT32_C(0xfffffff2), &loaded_one) ==
               APFLOAT_ANSWERED &&
           stored_one.bits.low == 2 && loaded_one.bits.low == 0x3c00;
}

/* How many formats have their names, with any rule of flags. */
static unsigned names(void) {
    static const struct code stored[] = {{"e2m1fn", APFLOAT_E2M1FN}, {"e2m3fn", APFLOAT_E2M3FN},
                                         {"e3m2fn", APFLOAT_E3M2FN}, {"e3m4", APFLOAT_E3M4},
                                         {"e8m0fnu", APFLOAT_E8M0FNU}, {"ue4m3", APFLOAT_UE4M3}};
    unsigned count = 0;
    for (size_t i = 0; i < COUNT(formats); i++)
        count += strcmp(apfloat_format_name(formats[i].code | APFLOAT_IEEE_FLAGS), formats[i].name) == 0;
    for (size_t i = 0; i < COUNT(stored); i++)
        count += strcmp(apfloat_format_name(stored[i].code), stored[i].name) == 0;
    return *apfloat_format_name(0) || *apfloat_format_name(11) ? 0 : count;
}

int main(void) {
    static char row[LINE], kept[LINE];
    unsigned agreeing[COUNT(calls)] = {0};
    while (fgets(row, sizeof row, stdin)) {
        row[strcspn(row, "\n")] = '\0';
        if (*row == '#') continue;
        strcpy(kept, row);
        char *columns[COLUMNS];
        bool agrees = false;
        if (split(row, columns, COLUMNS) == COLUMNS)
            for (size_t i = 0; i < COUNT(calls); i++)
                if (strcmp(columns[0], calls[i].name) == 0 && (agrees = calls[i].agrees(columns))) agreeing[i]++;
        if (!agrees) printf("%s\n", kept);
    }
    for (size_t i = 0; i < COUNT(calls); i++) printf("%s: %u rows agree\n", calls[i].name, agreeing[i]);
    printf("%u errors agree\n", refusals());
    printf("%u errors of modes of conversions agree\n", refusals_by_mode());
    printf("%u names agree\n", names());
    printf("the upper bits are %s\n", ignores_upper_bits() ? "ignored" : "not ignored");
    return 0;
}
