/* Calls for digits, decimals with flags and formats from C, for the rows of tests/c/texts, which evidence/text_rows.py
 * computes, and compares each field of what is left. A row has tabs between its columns:
 *
 *   facts        FORMAT  LARGEST  SMALLEST_NORMAL  SMALLEST, and the other fields in their order
 *   read         FORMAT  MODE  TEXT  BITS  FLAGS, or ParseError and the flags -
 *   count        FORMAT  BITS  COUNT
 *   digits       FORMAT  MODE  COUNT  BITS  DIGITS, or - if there are none, EXPONENT  FLAGS
 *   hex          FORMAT  BITS  TEXT
 *   hex_rounded  FORMAT  MODE  PLACES  BITS  TEXT  FLAGS
 *
 * and those of tests/rows/pair_operations.tsv are calls on pairs of doubles:
 *
 *   convert_r    dd>FORMAT or FORMAT>dd  MODE  BITS  BITS  FLAGS  -
 *   mul_add_r    dd  MODE  BITS BITS BITS  BITS  FLAGS  -
 *   shortest     dd  -  BITS  TEXT, or None  -  -
 *   read_decimal dd  MODE  TEXT  BITS  -  -
 *
 * Those of tests/rows/augmented.tsv, and some of tests/rows/stored, are augmented operations, and payloads of NaNs:
 *
 *   augmented_add, augmented_subtract or augmented_multiply  FORMAT  -  BITS BITS  BITS BITS  FLAGS  -
 *   get_payload, set_payload or set_payload_signaling        FORMAT  -  BITS  BITS  -  -
 *
 * The program prints each row that differs, and how many agree. By hand, at the top of the repository, after `rt lib`
 * in crates/apfloat_c:
 *
 *   cc -std=c99 -Wall -Wextra -O2 -Iinclude tests/c/check_texts.c crates/apfloat_c/out/libapfloat_c.a -o check
 *   cat tests/c/texts tests/rows/pair_operations.tsv tests/rows/augmented.tsv | ./check */
#include "apfloat.h"
#include "row_kinds.h"

#include <stdbool.h>
#include <stdio.h>
#include <stdlib.h>
#include <string.h>

enum { ROOM = 1 << 10 };

/* Bytes that no call left as they are. */
static uint8_t room[ROOM];

/* Whether the room has this text, and nothing after it. */
static bool has_room(const char *text) {
    size_t length = strlen(text);
    for (size_t i = length; i < ROOM; i++)
        if (room[i] != '#') return false;
    return memcmp(room, text, length) == 0;
}

static bool is_unchanged(const apfloat_answer *answer) {
    return memcmp(answer, &before, sizeof before) == 0 && has_room("");
}

/* Whether an answer has a count, flags and an exponent. */
static bool is_counted(const apfloat_answer *answer, uint64_t count, uint32_t status, long number) {
    return answer->bits.low == count && answer->bits.high == 0 && answer->status == status && answer->number == number;
}

static bool has_bits(apfloat_halves given, const char *word) {
    apfloat_halves bits;
    return read_integer(word, 16, &bits) && bits.low == given.low && bits.high == given.high;
}

static bool are_facts(char *columns[]) {
    apfloat_facts facts;
    memset(&facts, 0xa5, sizeof facts);
    if (apfloat_format_facts(format_of(columns[1]), &facts) != APFLOAT_ANSWERED) return false;
    const long fields[] = {facts.bits,           facts.bytes,          facts.precision, facts.least_exponent,
                           facts.greatest_exponent, facts.decimal_digits, facts.has_infinities, facts.nans};
    for (size_t i = 0; i < COUNT(fields); i++)
        if (fields[i] != atol(columns[5 + i])) return false;
    return has_bits(facts.largest, columns[2]) && has_bits(facts.smallest_normal, columns[3]) &&
           has_bits(facts.smallest, columns[4]);
}

static bool is_read(char *columns[]) {
    apfloat_answer answer = before;
    uint32_t format = format_of(columns[1]), mode = code_of(modes, COUNT(modes), columns[2]), status;
    uint32_t code = apfloat_read_decimal(format, mode, (const uint8_t *)columns[3], strlen(columns[3]), &answer);
    if (strcmp(columns[4], "ParseError") == 0)
        return code == APFLOAT_REFUSED_TEXT && memcmp(&answer, &before, sizeof answer) == 0;
    return code == APFLOAT_ANSWERED && has_bits(answer.bits, columns[4]) && read_flags(columns[5], &status) &&
           answer.status == status && answer.number == 0;
}

static bool is_count(char *columns[]) {
    apfloat_answer answer = before;
    apfloat_halves x;
    return read_integer(columns[2], 16, &x) &&
           apfloat_digit_count(format_of(columns[1]), x, &answer) == APFLOAT_ANSWERED &&
           is_counted(&answer, strtoull(columns[3], NULL, 10), 0, 0);
}

static bool are_digits(char *columns[]) {
    apfloat_answer answer = before;
    apfloat_halves x;
    uint32_t format = format_of(columns[1]), mode = code_of(modes, COUNT(modes), columns[2]), status;
    size_t count = strtoull(columns[3], NULL, 10);
    const char *digits = strcmp(columns[5], "-") == 0 ? "" : columns[5];
    if (!read_integer(columns[4], 16, &x) || !read_flags(columns[7], &status)) return false;
    if (apfloat_write_digits(format, mode, x, room, count, &answer) != APFLOAT_ANSWERED) return false;
    if (!has_room(digits) || !is_counted(&answer, strlen(digits), status, atol(columns[6]))) return false;
    /* Without room, nothing is written. */
    memset(room, '#', ROOM);
    answer = before;
    return *digits == '\0' || (apfloat_write_digits(format, mode, x, room, 0, &answer) == APFLOAT_WRONG_LENGTH &&
                               is_unchanged(&answer));
}

static bool is_hex(char *columns[]) {
    apfloat_answer answer = before;
    apfloat_halves x;
    uint32_t format = format_of(columns[1]);
    size_t length = strlen(columns[3]);
    if (!read_integer(columns[2], 16, &x)) return false;
    if (apfloat_write_hex(format, x, room, length - 1, &answer) != APFLOAT_WRONG_LENGTH) return false;
    if (!is_unchanged(&answer)) return false;
    return apfloat_write_hex(format, x, room, ROOM, &answer) == APFLOAT_ANSWERED && has_room(columns[3]) &&
           is_counted(&answer, length, 0, 0);
}

static bool is_hex_rounded(char *columns[]) {
    apfloat_answer answer = before;
    apfloat_halves x;
    uint32_t format = format_of(columns[1]), mode = code_of(modes, COUNT(modes), columns[2]), status;
    uint32_t places = (uint32_t)strtoul(columns[3], NULL, 10);
    size_t length = strlen(columns[5]);
    if (!read_integer(columns[4], 16, &x) || !read_flags(columns[6], &status)) return false;
    if (apfloat_write_hex_rounded(format, mode, places, x, room, length - 1, &answer) != APFLOAT_WRONG_LENGTH ||
        apfloat_write_hex_rounded(format, mode, 32, x, room, ROOM, &answer) != APFLOAT_WRONG_LENGTH ||
        !is_unchanged(&answer))
        return false;
    return apfloat_write_hex_rounded(format, mode, places, x, room, length, &answer) == APFLOAT_ANSWERED &&
           has_room(columns[5]) && is_counted(&answer, length, status, 0);
}

static bool is_converted(char *columns[]) {
    apfloat_answer answer = before;
    apfloat_halves x;
    uint32_t mode = code_of(modes, COUNT(modes), columns[2]), status, code;
    char *to = strchr(columns[1], '>');
    if (!to || !read_integer(columns[3], 16, &x) || !read_flags(columns[5], &status)) return false;
    *to++ = '\0';
    if (strcmp(to, "dd") == 0)
        code = apfloat_pair_from_format(format_of(columns[1]), mode, x, &answer);
    else
        code = apfloat_pair_to_format(format_of(to), mode, x, &answer);
    return code == APFLOAT_ANSWERED && has_bits(answer.bits, columns[4]) && answer.status == status &&
           answer.number == 0;
}

static bool is_fused_sum(char *columns[]) {
    apfloat_answer answer = before;
    apfloat_halves operands[3];
    uint32_t mode = code_of(modes, COUNT(modes), columns[2]), status;
    char *word = strtok(columns[3], " ");
    for (size_t i = 0; i < COUNT(operands); i++, word = strtok(NULL, " "))
        if (!word || !read_integer(word, 16, &operands[i])) return false;
    return read_flags(columns[5], &status) &&
           apfloat_pair_fma(mode, operands[0], operands[1], operands[2], &answer) == APFLOAT_ANSWERED &&
           has_bits(answer.bits, columns[4]) && answer.status == status && answer.number == 0;
}

/* Infinities and NaNs have a text, but no decimal. */
static bool is_shortest(char *columns[]) {
    apfloat_text text, expected;
    apfloat_halves x;
    apfloat_answer class;
    memset(&text, 'x', sizeof text);
    expected = text;
    if (!read_integer(columns[3], 16, &x)) return false;
    apfloat_classify(APFLOAT_DOUBLE_PAIR, x, &class);
    uint32_t code = apfloat_pair_shortest(x, &text);
    const char *word = columns[4];
    if (strcmp(word, "None") == 0) {
        if (class.number == APFLOAT_QUIET_NAN || class.number == APFLOAT_SIGNALING_NAN) word = "nan";
        if (class.number == APFLOAT_NEGATIVE_INFINITY) word = "-inf";
        if (class.number == APFLOAT_POSITIVE_INFINITY) word = "inf";
        if (word == columns[4]) return code == APFLOAT_NO_SUCH_OPERATION && memcmp(&text, &expected, sizeof text) == 0;
    }
    memset(&expected, 0, sizeof expected);
    expected.length = (uint32_t)strlen(word);
    memcpy(expected.bytes, word, expected.length);
    return code == APFLOAT_ANSWERED && memcmp(&text, &expected, sizeof text) == 0;
}

static bool is_pair_read(char *columns[]) {
    apfloat_answer answer = before;
    uint32_t mode = code_of(modes, COUNT(modes), columns[2]);
    return apfloat_read_decimal(APFLOAT_DOUBLE_PAIR, mode, (const uint8_t *)columns[3], strlen(columns[3]),
                                &answer) == APFLOAT_ANSWERED && has_bits(answer.bits, columns[4]);
}

/* Two words as bits. */
static bool are_two(char *words, apfloat_halves bits[2]) {
    char *second = strchr(words, ' ');
    if (!second) return false;
    *second++ = '\0';
    return read_integer(words, 16, &bits[0]) && read_integer(second, 16, &bits[1]);
}

static bool is_augmented(char *columns[], uint32_t operation) {
    apfloat_answer answer = before;
    apfloat_halves operands[2], results[2], tail = before.bits;
    uint32_t status;
    return are_two(columns[3], operands) && are_two(columns[4], results) && read_flags(columns[5], &status) &&
           apfloat_augmented(operation, format_of(columns[1]), operands[0], operands[1], &tail, &answer) ==
               APFLOAT_ANSWERED &&
           memcmp(&answer.bits, &results[0], sizeof tail) == 0 && memcmp(&tail, &results[1], sizeof tail) == 0 &&
           answer.status == status && answer.number == 0;
}

static bool is_sum(char *columns[]) { return is_augmented(columns, APFLOAT_ADD); }
static bool is_difference(char *columns[]) { return is_augmented(columns, APFLOAT_SUB); }
static bool is_product(char *columns[]) { return is_augmented(columns, APFLOAT_MUL); }

static bool is_payload(char *columns[], uint32_t operation) {
    apfloat_answer answer = before;
    apfloat_halves x;
    return read_integer(columns[3], 16, &x) &&
           apfloat_payload(operation, format_of(columns[1]), x, &answer) == APFLOAT_ANSWERED &&
           has_bits(answer.bits, columns[4]) && answer.status == 0 && answer.number == 0;
}

static bool is_got(char *columns[]) { return is_payload(columns, APFLOAT_GET_PAYLOAD); }
static bool is_set(char *columns[]) { return is_payload(columns, APFLOAT_SET_PAYLOAD); }
static bool is_set_signaling(char *columns[]) { return is_payload(columns, APFLOAT_SET_PAYLOAD_SIGNALING); }

/* The errors that no row has, each of which leaves what was there before. */
static unsigned refusals(void) {
    const apfloat_halves one = {1, 0};
    const uint8_t text[] = {'1', '.', '5'};
    const uint32_t pairs = APFLOAT_DOUBLE_PAIR, single = APFLOAT_SINGLE;
    apfloat_answer answer = before;
    apfloat_halves tail = one;
    apfloat_facts facts, unchanged;
    memset(&facts, 0xa5, sizeof facts);
    unchanged = facts;
    memset(room, '#', ROOM);
    const uint32_t codes[][2] = {
        {apfloat_read_decimal(0, 5, text, 3, &answer), APFLOAT_UNKNOWN_FORMAT},
        {apfloat_read_decimal(pairs | APFLOAT_IEEE_FLAGS, 0, text, 3, &answer), APFLOAT_UNKNOWN_FORMAT},
        {apfloat_read_decimal(single | APFLOAT_IEEE_FLAGS, 5, text, 3, &answer), APFLOAT_UNKNOWN_MODE},
        {apfloat_read_decimal(single | APFLOAT_IEEE_FLAGS, 0, text, 0, &answer), APFLOAT_REFUSED_TEXT},
        {apfloat_write_digits(0, 5, one, room, 3, &answer), APFLOAT_UNKNOWN_FORMAT},
        {apfloat_write_digits(pairs, 5, one, room, 3, &answer), APFLOAT_UNKNOWN_MODE},
        {apfloat_write_digits(pairs, 0, one, room, 3, &answer), APFLOAT_NO_SUCH_OPERATION},
        {apfloat_digit_count(0, one, &answer), APFLOAT_UNKNOWN_FORMAT},
        {apfloat_digit_count(pairs, one, &answer), APFLOAT_NO_SUCH_OPERATION},
        {apfloat_write_hex(0, one, room, ROOM, &answer), APFLOAT_UNKNOWN_FORMAT},
        {apfloat_write_hex(pairs, one, room, ROOM, &answer), APFLOAT_NO_SUCH_OPERATION},
        {apfloat_write_hex_rounded(0, 5, 2, one, room, ROOM, &answer), APFLOAT_UNKNOWN_FORMAT},
        {apfloat_write_hex_rounded(pairs, 5, 2, one, room, ROOM, &answer), APFLOAT_UNKNOWN_MODE},
        {apfloat_write_hex_rounded(pairs, 0, 2, one, room, ROOM, &answer), APFLOAT_NO_SUCH_OPERATION},
        {apfloat_pair_to_format(0, 5, one, &answer), APFLOAT_UNKNOWN_FORMAT},
        {apfloat_pair_to_format(pairs, 5, one, &answer), APFLOAT_UNKNOWN_MODE},
        {apfloat_pair_to_format(pairs, 0, one, &answer), APFLOAT_NO_SUCH_OPERATION},
        {apfloat_pair_from_format(0, 5, one, &answer), APFLOAT_UNKNOWN_FORMAT},
        {apfloat_pair_from_format(pairs, 5, one, &answer), APFLOAT_UNKNOWN_MODE},
        {apfloat_pair_from_format(pairs, 0, one, &answer), APFLOAT_NO_SUCH_OPERATION},
        {apfloat_pair_fma(5, one, one, one, &answer), APFLOAT_UNKNOWN_MODE},
        {apfloat_augmented(4, 0, one, one, &tail, &answer), APFLOAT_UNKNOWN_FORMAT},
        {apfloat_augmented(1, pairs, one, one, &tail, &answer), APFLOAT_NO_SUCH_OPERATION},
        {apfloat_augmented(4, single, one, one, &tail, &answer), APFLOAT_NO_SUCH_OPERATION},
        {apfloat_payload(3, 0, one, &answer), APFLOAT_UNKNOWN_FORMAT},
        {apfloat_payload(0, pairs, one, &answer), APFLOAT_NO_SUCH_OPERATION},
        {apfloat_payload(3, single, one, &answer), APFLOAT_NO_SUCH_OPERATION},
        {apfloat_format_facts(0, &facts), APFLOAT_UNKNOWN_FORMAT},
        {apfloat_format_facts(pairs, &facts), APFLOAT_NO_SUCH_OPERATION}};
    unsigned count = 0;
    for (size_t i = 0; i < COUNT(codes); i++)
        if (codes[i][0] == codes[i][1] && is_unchanged(&answer) && memcmp(&tail, &one, sizeof one) == 0 &&
            memcmp(&facts, &unchanged, sizeof facts) == 0)
            count++;
    return count;
}

/* The kinds of rows. */
static struct row_kind kinds[] = {
    {"facts", 13, are_facts, 0}, {"read", 6, is_read, 0}, {"count", 4, is_count, 0}, {"digits", 8, are_digits, 0},
    {"hex", 4, is_hex, 0}, {"hex_rounded", 7, is_hex_rounded, 0}, {"convert_r", 7, is_converted, 0},
    {"mul_add_r", 7, is_fused_sum, 0}, {"shortest", 7, is_shortest, 0}, {"read_decimal", 7, is_pair_read, 0},
    {"augmented_add", 7, is_sum, 0}, {"augmented_subtract", 7, is_difference, 0},
    {"augmented_multiply", 7, is_product, 0}, {"get_payload", 7, is_got, 0}, {"set_payload", 7, is_set, 0},
    {"set_payload_signaling", 7, is_set_signaling, 0}};

/* What the room contains before each row. */
static void fill_room(void) { memset(room, '#', ROOM); }

int main(void) {
    count_rows(kinds, COUNT(kinds), fill_room);
    printf("%u errors agree\n", refusals());
    return 0;
}
