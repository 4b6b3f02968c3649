/* Calls the decimals of the library from C for the rows of tests/c/decimals, which evidence/decimal_rows.py computes,
 * and compares each field of what is left. A row has tabs between its columns:
 *
 *   read      FORMAT  MODE  TEXT  BITS  FLAGS, or ParseError and the flags -
 *   shortest  FORMAT  BITS  TEXT
 *   each      FORMAT  WIDTH  CHECKSUM of the shortest texts of all bits, and another of what they are read as
 *   ties      FORMAT  TRAILING  PLACES  LAST  CHECKSUM of what is read at all midpoints and next to them
 *
 * A significand has TRAILING bits, a midpoint as many decimal PLACES, and LAST is the bits of the largest number.
 * A TEXT that is read may be in a short form (short_forms.h). The program prints each row that differs, and how many
 * agree. By hand, at the top of the repository, after `rt lib` in crates/apfloat_c:
 *
 *   cc -std=c99 -Wall -Wextra -O2 -Iinclude tests/c/check_decimals.c crates/apfloat_c/out/libapfloat_c.a -o check
 *   ./check < tests/c/decimals */
#include "apfloat.h"
#include "row_kinds.h"
#include "short_forms.h"

#include <stdbool.h>
#include <stdio.h>
#include <stdlib.h>
#include <string.h>

/* Memory that no call left as it is. */
static apfloat_text text_before(void) {
    apfloat_text text;
    memset(text.bytes, 'x', sizeof text.bytes);
    text.length = 99;
    return text;
}

static uint32_t parsed(uint32_t format, uint32_t mode, const char *text, apfloat_answer *answer) {
    return apfloat_parse_decimal(format, mode, (const uint8_t *)text, strlen(text), answer);
}

static bool is_read(char *columns[]) {
    apfloat_answer answer = before;
    uint32_t format = format_of(columns[1]), mode = code_of(modes, COUNT(modes), columns[2]);
    uint32_t code = parsed(format, mode, spelled_out(columns[3]), &answer);
    if (strcmp(columns[4], "ParseError") == 0)
        return code == APFLOAT_REFUSED_TEXT && memcmp(&answer, &before, sizeof answer) == 0;
    apfloat_halves bits;
    uint32_t status;
    return read_integer(columns[4], 16, &bits) && read_flags(columns[5], &status) && code == APFLOAT_ANSWERED &&
           answer.bits.low == bits.low && answer.bits.high == bits.high && answer.status == status &&
           answer.number == 0;
}

static bool is_written(char *columns[]) {
    apfloat_text text = text_before(), expected;
    apfloat_halves x;
    const bool is_shortest = strcmp(columns[0], "shortest") == 0;
    memset(&expected, 0, sizeof expected);
    expected.length = (uint32_t)strlen(columns[3]);
    memcpy(expected.bytes, columns[3], expected.length);
    return read_integer(columns[2], 16, &x) &&
           (is_shortest ? apfloat_shortest : apfloat_to_text)(format_of(columns[1]), x, &text) == APFLOAT_ANSWERED &&
           memcmp(&text, &expected, sizeof text) == 0;
}

/* A checksum with one word more. */
static uint64_t summed(uint64_t total, uint64_t word) {
    return (uint64_t)(((unsigned __int128)total * 31 + word) % ((UINT64_C(1) << 61) - 1));
}

/* A checksum with the flags and the bits that a text is read as in each mode. */
static uint64_t summed_readings(uint64_t total, uint32_t format, const char *text) {
    for (size_t i = 0; i < COUNT(modes); i++) {
        apfloat_answer answer = before;
        parsed(format, modes[i].code, text, &answer);
        total = summed(summed(total, answer.status), answer.bits.low);
    }
    return total;
}

/* Whether a text is read, to nearest, as these bits. */
static bool is_read_as(uint32_t format, const char *text, uint64_t pattern) {
    apfloat_answer answer = before;
    return parsed(format, APFLOAT_NEAREST_EVEN, text, &answer) == APFLOAT_ANSWERED && answer.bits.low == pattern &&
           answer.bits.high == 0;
}

/* Every value of a format, which is written and then read as itself; a NaN is read as any NaN. */
static bool is_each(char *columns[]) {
    uint32_t format = format_of(columns[1]);
    uint64_t texts = 0, readings = 0;
    for (uint64_t pattern = 0; pattern >> strtoul(columns[2], NULL, 10) == 0; pattern++) {
        apfloat_text text = text_before();
        if (apfloat_shortest(format, (apfloat_halves){pattern, 0}, &text) != APFLOAT_ANSWERED) return false;
        for (const char *byte = text.bytes; *byte; byte++) texts = summed(texts, (uint8_t)*byte);
        texts = summed(texts, '\n');
        readings = summed_readings(readings, format, text.bytes);
        if (strcmp(text.bytes, "nan") != 0 && !is_read_as(format, text.bytes, pattern)) return false;
    }
    return texts == strtoull(columns[3], NULL, 16) && readings == strtoull(columns[4], NULL, 16);
}

/* The quanta of a magnitude, or, of the bits above the largest number, what its place would have. */
static uint64_t quanta_of(uint64_t pattern, unsigned trailing) {
    uint64_t field = pattern >> trailing, digits = pattern & ((UINT64_C(1) << trailing) - 1);
    return field == 0 ? digits : (digits | UINT64_C(1) << trailing) << (field - 1);
}

/* The midpoint after each magnitude, with a minus sign after each odd one, and the decimals one unit of its last place
 * away. */
static bool is_ties(char *columns[]) {
    static const char *const changes[] = {"-1", "", "+1"};
    uint32_t format = format_of(columns[1]);
    unsigned trailing = (unsigned)strtoul(columns[2], NULL, 10), places = (unsigned)strtoul(columns[3], NULL, 10);
    uint64_t last = strtoull(columns[4], NULL, 16), total = 0;
    for (uint64_t pattern = 0; pattern <= last; pattern++) {
        uint64_t halves = quanta_of(pattern, trailing) + quanta_of(pattern + 1, trailing);
        for (size_t i = 0; i < COUNT(changes); i++) {
            char form[64];
            snprintf(form, sizeof form, "%s{%llu*5^%u%s}e-%u", pattern % 2 ? "-" : "", (unsigned long long)halves,
                     places, changes[i], places);
            total = summed_readings(total, format, spelled_out(form));
        }
    }
    return total == strtoull(columns[5], NULL, 16);
}

/* The errors that no row has, each of which leaves what was there before. */
static unsigned refusals(void) {
    const apfloat_halves one = {1, 0};
    const uint8_t text[] = {'1', '.', '5'}, accented[] = {'1', 0xe9};
    apfloat_answer answer = before;
    apfloat_text written = text_before(), unchanged = text_before();
    const uint32_t codes[][2] = {
        {apfloat_parse_decimal(0, 5, text, 3, &answer), APFLOAT_UNKNOWN_FORMAT},
        {apfloat_parse_decimal(APFLOAT_DOUBLE, 5, text, 3, &answer), APFLOAT_UNKNOWN_MODE},
        {apfloat_parse_decimal(APFLOAT_DOUBLE | APFLOAT_IEEE_FLAGS, 0, text, 3, &answer), APFLOAT_NO_SUCH_OPERATION},
        {apfloat_parse_decimal(APFLOAT_DOUBLE_PAIR | APFLOAT_IEEE_FLAGS, 0, text, 3, &answer), APFLOAT_UNKNOWN_FORMAT},
        {apfloat_parse_decimal(APFLOAT_DOUBLE, 0, text, 0, &answer), APFLOAT_REFUSED_TEXT},
        {apfloat_parse_decimal(APFLOAT_DOUBLE, 0, accented, 2, &answer), APFLOAT_REFUSED_TEXT},
        {apfloat_shortest(0, one, &written), APFLOAT_UNKNOWN_FORMAT},
        {apfloat_shortest(APFLOAT_DOUBLE | APFLOAT_TINY_BEFORE_ROUNDING, one, &written), APFLOAT_UNKNOWN_FORMAT},
        {apfloat_shortest(APFLOAT_DOUBLE_PAIR, one, &written), APFLOAT_NO_SUCH_OPERATION},
        {apfloat_to_text(0, one, &written), APFLOAT_UNKNOWN_FORMAT},
        {apfloat_to_text(APFLOAT_DOUBLE_PAIR, one, &written), APFLOAT_NO_SUCH_OPERATION}};
    unsigned count = 0;
    for (size_t i = 0; i < COUNT(codes); i++)
        if (codes[i][0] == codes[i][1] && memcmp(&answer, &before, sizeof answer) == 0 &&
            memcmp(&written, &unchanged, sizeof written) == 0) count++;
    return count;
}

/* The kinds of rows. */
static struct row_kind kinds[] = {
    {"read", 6, is_read, 0},
    {"shortest", 4, is_written, 0}, {"to_text", 4, is_written, 0},
    {"each", 5, is_each, 0}, {"ties", 6, is_ties, 0}};

int main(void) {
    count_rows(kinds, COUNT(kinds), NULL);
    printf("%u errors agree\n", refusals());
    return 0;
}
