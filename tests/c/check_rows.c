/* Calls the library from C for rows of calls with their results, as tests/rows/stored has them
 * (docs/PROGRAMS.md), and compares each field of the answer: a field or an argument in the wrong place shows only in a
 * call from C. Rows that the library has no function or no code for are skipped.
 *
 * It prints each row that differs, and for each call that has rows how many agree. .ci/run compares this with
 * tests/c/agreeing.
 * By hand, at the top of the repository, after `rt lib` in crates/apfloat_c:
 *
 *   cc -std=c99 -Wall -Wextra -O2 -Iinclude tests/c/check_rows.c crates/apfloat_c/out/libapfloat_c.a -o check_rows
 *   ./check_rows < tests/rows/stored | diff - tests/c/agreeing */
#include "apfloat.h"
#include "rows.h"

#include <stdbool.h>
#include <stdio.h>
#include <stdlib.h>
#include <string.h>

static const struct code orders[] = {{"Less", (uint32_t)APFLOAT_LESS},
                                     {"Equal", APFLOAT_EQUAL},
                                     {"Greater", APFLOAT_GREATER},
                                     {"None", APFLOAT_UNORDERED}};

/* Each question about a value that is answered by its class, with the classes for which the answer is yes. */
#define CLASS(number) (UINT32_C(1) << (number))
static const struct code questions[] = {
    {"is_signaling", CLASS(APFLOAT_SIGNALING_NAN)},
    {"is_nan", CLASS(APFLOAT_SIGNALING_NAN) | CLASS(APFLOAT_QUIET_NAN)},
    {"is_neg_infinity", CLASS(APFLOAT_NEGATIVE_INFINITY)},
    {"is_neg_zero", CLASS(APFLOAT_NEGATIVE_ZERO)},
    {"is_denormal", CLASS(APFLOAT_NEGATIVE_SUBNORMAL) | CLASS(APFLOAT_POSITIVE_SUBNORMAL)},
    {"is_normal", CLASS(APFLOAT_NEGATIVE_NORMAL) | CLASS(APFLOAT_POSITIVE_NORMAL)},
    {"is_pos_zero", CLASS(APFLOAT_POSITIVE_ZERO)},
    {"is_pos_infinity", CLASS(APFLOAT_POSITIVE_INFINITY)},
    /* The class of a NaN does not show its sign, which apfloat_is_negative tells. */
    {"is_negative", CLASS(APFLOAT_NEGATIVE_INFINITY) | CLASS(APFLOAT_NEGATIVE_NORMAL) |
                        CLASS(APFLOAT_NEGATIVE_SUBNORMAL) | CLASS(APFLOAT_NEGATIVE_ZERO)}};

/* ---- calls */

struct arguments {
    uint32_t format, mode, to, width;
    int32_t power;
    apfloat_halves x, y, z;
    const char *text;
};

typedef uint32_t made(const struct arguments *a, apfloat_answer *answer);

#define MAKES(name, ...) \
    static uint32_t make_##name(const struct arguments *a, apfloat_answer *answer) { \
        return apfloat_##name(__VA_ARGS__, answer); \
    }

MAKES(add, a->format, a->mode, a->x, a->y)
MAKES(sub, a->format, a->mode, a->x, a->y)
MAKES(mul, a->format, a->mode, a->x, a->y)
MAKES(div, a->format, a->mode, a->x, a->y)
MAKES(fma, a->format, a->mode, a->x, a->y, a->z)
MAKES(sqrt, a->format, a->mode, a->x)
MAKES(rem, a->format, a->x, a->y)
MAKES(mod, a->format, a->x, a->y)
MAKES(convert, a->format, a->mode, a->to, a->x)
MAKES(from_u128, a->format, a->mode, a->x)
MAKES(from_i128, a->format, a->mode, a->x)
MAKES(to_u128, a->format, a->mode, a->x, a->width)
MAKES(to_i128, a->format, a->mode, a->x, a->width)
MAKES(round_to_integral, a->format, a->mode, a->x)
MAKES(scalbn, a->format, a->mode, a->x, a->power)
MAKES(ilogb, a->format, a->x)
MAKES(frexp, a->format, a->mode, a->x)
MAKES(next_up, a->format, a->x)
MAKES(next_down, a->format, a->x)
MAKES(compare, a->format, a->x, a->y)
MAKES(classify, a->format, a->x)
MAKES(is_negative, a->format, a->x)
MAKES(neg, a->format, a->x)
MAKES(abs, a->format, a->x)
MAKES(copy_sign, a->format, a->x, a->y)
MAKES(min, a->format, a->x, a->y)
MAKES(max, a->format, a->x, a->y)
MAKES(minimum, a->format, a->x, a->y)
MAKES(maximum, a->format, a->x, a->y)
MAKES(qnan, a->format, 0, a->x)
MAKES(snan, a->format, 0, a->x)
MAKES(parse, a->format, a->mode, (const uint8_t *)a->text, strlen(a->text))

/* The operations of IEEE 754-2019: those of a function, with the code that a name stands for. */
#define MAKES_BY(name, function, ...) \
    static uint32_t make_##name(const struct arguments *a, apfloat_answer *answer) { \
        return apfloat_##function(__VA_ARGS__, answer); \
    }
#define COMPARES(name, code) \
    MAKES_BY(quiet_##name, compare_predicate, a->format, code, APFLOAT_QUIET, a->x, a->y) \
    MAKES_BY(signaling_##name, compare_predicate, a->format, code, APFLOAT_SIGNALING, a->x, a->y)
#define TAKES(name, code) \
    MAKES_BY(name##_of, extremum, a->format, code, 0, a->x, a->y) \
    MAKES_BY(name##_number_of, extremum, a->format, code, 1, a->x, a->y)

COMPARES(equal, APFLOAT_IS_EQUAL)
COMPARES(not_equal, APFLOAT_IS_NOT_EQUAL)
COMPARES(greater, APFLOAT_IS_GREATER)
COMPARES(greater_equal, APFLOAT_IS_GREATER_EQUAL)
COMPARES(less, APFLOAT_IS_LESS)
COMPARES(less_equal, APFLOAT_IS_LESS_EQUAL)
COMPARES(not_greater, APFLOAT_IS_NOT_GREATER)
COMPARES(less_unordered, APFLOAT_IS_LESS_UNORDERED)
COMPARES(not_less, APFLOAT_IS_NOT_LESS)
COMPARES(greater_unordered, APFLOAT_IS_GREATER_UNORDERED)
MAKES_BY(quiet_unordered, compare_predicate, a->format, APFLOAT_IS_UNORDERED, APFLOAT_QUIET, a->x, a->y)
MAKES_BY(quiet_ordered, compare_predicate, a->format, APFLOAT_IS_ORDERED, APFLOAT_QUIET, a->x, a->y)
TAKES(minimum, APFLOAT_MINIMUM)
TAKES(maximum, APFLOAT_MAXIMUM)
TAKES(minimum_magnitude, APFLOAT_MINIMUM_MAGNITUDE)
TAKES(maximum_magnitude, APFLOAT_MAXIMUM_MAGNITUDE)
MAKES(total_order, a->format, a->x, a->y)
MAKES(log_b, a->format, a->mode, a->x)
MAKES(scale_b, a->format, a->mode, a->x, a->power)
MAKES(integral, a->format, a->mode, a->x)
MAKES_BY(add_to, to_format, APFLOAT_SUM_TO, a->format, a->mode, a->to, a->x, a->y, a->z)
MAKES_BY(sub_to, to_format, APFLOAT_DIFFERENCE_TO, a->format, a->mode, a->to, a->x, a->y, a->z)
MAKES_BY(mul_to, to_format, APFLOAT_PRODUCT_TO, a->format, a->mode, a->to, a->x, a->y, a->z)
MAKES_BY(div_to, to_format, APFLOAT_QUOTIENT_TO, a->format, a->mode, a->to, a->x, a->y, a->z)
MAKES_BY(mul_add_to, to_format, APFLOAT_FUSED_SUM_TO, a->format, a->mode, a->to, a->x, a->y, a->z)
MAKES_BY(sqrt_to, to_format, APFLOAT_ROOT_TO, a->format, a->mode, a->to, a->x, a->y, a->z)

/* The operands of a call, by letters: x, y and z are bits, l is a payload or None, n is an integer, w a width, p a power,
 * and t a text. Its value: b for bits, n for an integer in the bits, e for an exponent, o for an order, q for a
 * question's answer, h for whether a predicate holds. And the name of its extra result, if it has one. */
static const struct call {
    const char *name, *operands;
    char value;
    made *make;
    const char *extra;
} calls[] = {{"add_r", "xy", 'b', make_add, NULL},
             {"sub_r", "xy", 'b', make_sub, NULL},
             {"mul_r", "xy", 'b', make_mul, NULL},
             {"div_r", "xy", 'b', make_div, NULL},
             {"mul_add_r", "xyz", 'b', make_fma, NULL},
             {"wide_mul_r", "xy", 'b', make_mul, NULL},
             {"wide_mul_add_r", "xyz", 'b', make_fma, NULL},
             {"sqrt_r", "x", 'b', make_sqrt, NULL},
             {"ieee_rem", "xy", 'b', make_rem, NULL},
             {"c_fmod", "xy", 'b', make_mod, NULL},
             {"convert_r", "x", 'b', make_convert, "loses_info"},
             {"from_u128_r", "n", 'b', make_from_u128, NULL},
             {"from_i128_r", "n", 'b', make_from_i128, NULL},
             {"to_u128_r", "xw", 'n', make_to_u128, "is_exact"},
             {"to_i128_r", "xw", 'n', make_to_i128, "is_exact"},
             {"round_to_integral", "x", 'b', make_round_to_integral, NULL},
             {"scalbn_r", "xp", 'b', make_scalbn, NULL},
             {"ilogb", "x", 'e', make_ilogb, NULL},
             {"frexp_r", "x", 'b', make_frexp, "exponent"},
             {"next_up", "x", 'b', make_next_up, NULL},
             {"next_down", "x", 'b', make_next_down, NULL},
             {"partial_cmp", "xy", 'o', make_compare, NULL},
             {"is_signaling", "x", 'q', make_classify, NULL},
             {"is_nan", "x", 'q', make_classify, NULL},
             {"is_neg_infinity", "x", 'q', make_classify, NULL},
             {"is_neg_zero", "x", 'q', make_classify, NULL},
             {"is_denormal", "x", 'q', make_classify, NULL},
             {"is_normal", "x", 'q', make_classify, NULL},
             {"is_pos_zero", "x", 'q', make_classify, NULL},
             {"is_pos_infinity", "x", 'q', make_classify, NULL},
             {"is_negative", "x", 'q', make_classify, NULL},
             {"neg", "x", 'b', make_neg, NULL},
             {"abs", "x", 'b', make_abs, NULL},
             {"copy_sign", "xy", 'b', make_copy_sign, NULL},
             {"min", "xy", 'b', make_min, NULL},
             {"max", "xy", 'b', make_max, NULL},
             {"minimum", "xy", 'b', make_minimum, NULL},
             {"maximum", "xy", 'b', make_maximum, NULL},
             {"qnan", "l", 'b', make_qnan, NULL},
             {"snan", "l", 'b', make_snan, NULL},
             {"from_str_r", "t", 'b', make_parse, NULL},
             {"compare_quiet_equal", "xy", 'h', make_quiet_equal, NULL},
             {"compare_quiet_not_equal", "xy", 'h', make_quiet_not_equal, NULL},
             {"compare_quiet_greater", "xy", 'h', make_quiet_greater, NULL},
             {"compare_quiet_greater_equal", "xy", 'h', make_quiet_greater_equal, NULL},
             {"compare_quiet_less", "xy", 'h', make_quiet_less, NULL},
             {"compare_quiet_less_equal", "xy", 'h', make_quiet_less_equal, NULL},
             {"compare_quiet_not_greater", "xy", 'h', make_quiet_not_greater, NULL},
             {"compare_quiet_less_unordered", "xy", 'h', make_quiet_less_unordered, NULL},
             {"compare_quiet_not_less", "xy", 'h', make_quiet_not_less, NULL},
             {"compare_quiet_greater_unordered", "xy", 'h', make_quiet_greater_unordered, NULL},
             {"compare_quiet_unordered", "xy", 'h', make_quiet_unordered, NULL},
             {"compare_quiet_ordered", "xy", 'h', make_quiet_ordered, NULL},
             {"compare_signaling_equal", "xy", 'h', make_signaling_equal, NULL},
             {"compare_signaling_not_equal", "xy", 'h', make_signaling_not_equal, NULL},
             {"compare_signaling_greater", "xy", 'h', make_signaling_greater, NULL},
             {"compare_signaling_greater_equal", "xy", 'h', make_signaling_greater_equal, NULL},
             {"compare_signaling_less", "xy", 'h', make_signaling_less, NULL},
             {"compare_signaling_less_equal", "xy", 'h', make_signaling_less_equal, NULL},
             {"compare_signaling_not_greater", "xy", 'h', make_signaling_not_greater, NULL},
             {"compare_signaling_less_unordered", "xy", 'h', make_signaling_less_unordered, NULL},
             {"compare_signaling_not_less", "xy", 'h', make_signaling_not_less, NULL},
             {"compare_signaling_greater_unordered", "xy", 'h', make_signaling_greater_unordered, NULL},
             {"minimum_of", "xy", 'b', make_minimum_of, NULL},
             {"maximum_of", "xy", 'b', make_maximum_of, NULL},
             {"minimum_magnitude_of", "xy", 'b', make_minimum_magnitude_of, NULL},
             {"maximum_magnitude_of", "xy", 'b', make_maximum_magnitude_of, NULL},
             {"minimum_number_of", "xy", 'b', make_minimum_number_of, NULL},
             {"maximum_number_of", "xy", 'b', make_maximum_number_of, NULL},
             {"minimum_magnitude_number_of", "xy", 'b', make_minimum_magnitude_number_of, NULL},
             {"maximum_magnitude_number_of", "xy", 'b', make_maximum_magnitude_number_of, NULL},
             {"total_cmp", "xy", 'o', make_total_order, NULL},
             {"log_b", "x", 'b', make_log_b, NULL},
             {"scale_b", "xp", 'b', make_scale_b, NULL},
             {"round_to_integral_in", "x", 'b', make_integral, NULL},
             {"add_to", "xy", 'b', make_add_to, NULL},
             {"sub_to", "xy", 'b', make_sub_to, NULL},
             {"mul_to", "xy", 'b', make_mul_to, NULL},
             {"div_to", "xy", 'b', make_div_to, NULL},
             {"mul_add_to", "xyz", 'b', make_mul_add_to, NULL},
             {"sqrt_to", "x", 'b', make_sqrt_to, NULL}};

static unsigned agreeing[COUNT(calls)];

/* ---- reading */

static bool read_operands(char *words, const char *letters, struct arguments *a) {
    if (*letters == 't') {
        a->text = words;
        return true;
    }
    for (char *word = strtok(words, " "); word; word = strtok(NULL, " "), letters++) {
        apfloat_halves number = {0, 0};
        if (*letters == '\0') return false;
        bool is_bits = strchr("xyzl", *letters) != NULL, is_none = *letters == 'l' && strcmp(word, "None") == 0;
        if (!is_none && !read_integer(word, is_bits ? 16 : 10, &number)) return false;
        if (*letters == 'x' || *letters == 'l' || *letters == 'n') a->x = number;
        if (*letters == 'y') a->y = number;
        if (*letters == 'z') a->z = number;
        if (*letters == 'w') a->width = (uint32_t)number.low;
        if (*letters == 'p') a->power = (int32_t)strtol(word, NULL, 10);
    }
    return *letters == '\0';
}

/* What a row says of an answer; `classes` are those of its value, if it answers a question. */
struct expected {
    uint32_t code, classes;
    apfloat_answer answer;
    bool has_number;
};

enum column { CALL, FORMAT, MODE, OPERANDS, VALUE, FLAGS, MORE, COLUMNS };

static bool read_expected(char *columns[], const struct call *call, struct expected *e) {
    char value = call->value;
    *e = (struct expected){APFLOAT_ANSWERED, 0, {{0, 0}, 0, 0}, true};
    if (strcmp(columns[FLAGS], "ParseError") == 0) {
        e->code = APFLOAT_REFUSED_TEXT;
        e->answer = before;
        return true;
    }
    if (call->extra) {
        size_t length = strlen(call->extra);
        e->has_number = strncmp(columns[MORE], call->extra, length) == 0 && columns[MORE][length] == '=';
        const char *said = columns[MORE] + length + 1;
        if (e->has_number)
            e->answer.number = strcmp(said, "true") == 0 ? 1 : (int32_t)strtol(said, NULL, 10);
    }
    if (value == 'e') e->answer.number = (int32_t)strtol(columns[VALUE], NULL, 10);
    if (value == 'h') e->answer.number = strcmp(columns[VALUE], "true") == 0;
    if (value == 'o') e->answer.number = (int32_t)code_of(orders, COUNT(orders), columns[VALUE]);
    if (value == 'q') {
        uint32_t yes = code_of(questions, COUNT(questions), columns[CALL]);
        bool is_true = strcmp(columns[VALUE], "true") == 0;
        e->classes = is_true ? yes : ~yes;
        e->answer.number = is_true;
    }
    if ((value == 'b' || value == 'n') &&
        !read_integer(columns[VALUE], value == 'b' ? 16 : 10, &e->answer.bits)) return false;
    return read_flags(columns[FLAGS], &e->answer.status);
}

/* ---- checking */

static bool is_as_expected(const struct expected *e, uint32_t code, const apfloat_answer *answer) {
    bool is_number = !e->has_number || answer->number == e->answer.number;
    if (e->classes) is_number = answer->number >= 0 && answer->number < 10 && e->classes >> answer->number & 1;
    return code == e->code && answer->bits.low == e->answer.bits.low && answer->bits.high == e->answer.bits.high &&
           answer->status == e->answer.status && is_number;
}

/* Whether apfloat_is_negative agrees, and the class too, unless it is that of a NaN, which does not show the sign. */
static bool sign_agrees(const struct arguments *a, const struct expected *e) {
    struct expected number = *e;
    number.classes = 0;
    apfloat_answer answer = before, class = before;
    uint32_t code = make_is_negative(a, &answer), class_code = make_classify(a, &class);
    bool is_nan = class_code == APFLOAT_ANSWERED && class.number <= APFLOAT_QUIET_NAN;
    return is_as_expected(&number, code, &answer) && (is_nan || is_as_expected(e, class_code, &class));
}

static bool agrees(const struct call *call, const struct arguments *a, const struct expected *e) {
    if (strcmp(call->name, "is_negative") == 0) return sign_agrees(a, e);
    apfloat_answer answer = before;
    uint32_t code = call->make(a, &answer);
    return is_as_expected(e, code, &answer);
}

/* ---- arrays */

enum { ELEMENTS = 3, MOST_BYTES = 16 };

/* The operations on arrays that are calls of rows. */
static const struct code operations[] = {{"add_r", APFLOAT_ADD},       {"sub_r", APFLOAT_SUB},
                                         {"wide_mul_r", APFLOAT_MUL},  {"div_r", APFLOAT_DIV},
                                         {"ieee_rem", APFLOAT_REM},    {"c_fmod", APFLOAT_MOD},
                                         {"wide_mul_add_r", APFLOAT_FMA}, {"sqrt_r", APFLOAT_SQRT}};

/* How many bytes a value takes in an array. */
static size_t bytes_of(uint32_t format) {
    static const size_t bytes[] = {0, 2, 4, 8, 16, 2, 1, 1, 1, 10, 16, 0, 0, 0, 0, 0, 1, 1, 1, 4};
    return bytes[format & 0xff];
}

/* Puts a value at an index of an array. */
static void put(uint8_t *array, size_t width, size_t index, apfloat_halves x) {
    for (size_t i = 0; i < width; i++)
        array[index * width + i] = (uint8_t)((i < 8 ? x.low : x.high) >> i % 8 * 8);
}

/* Counts one more answer. */
static void count_answer(apfloat_array_answer *counts, uint32_t format, const apfloat_answer *answer) {
    apfloat_answer class;
    apfloat_classify(format, answer->bits, &class);
    counts->values++;
    counts->inexact += (answer->status & APFLOAT_INEXACT) != 0;
    counts->underflow += (answer->status & APFLOAT_UNDERFLOW) != 0;
    counts->overflow += (answer->status & APFLOAT_OVERFLOW) != 0;
    counts->div_by_zero += (answer->status & APFLOAT_DIV_BY_ZERO) != 0;
    counts->invalid_op += (answer->status & APFLOAT_INVALID_OP) != 0;
    counts->nans += class.number <= APFLOAT_QUIET_NAN;
    counts->status |= answer->status;
}

/* Whether a call on arrays, whose elements are those of the row before, of this row and of both mixed, agrees with the
 * call on single values. Rows that no call on arrays has are passed over. */
static bool agrees_in_arrays(const struct call *call, const struct arguments *a) {
    static struct arguments last;
    static uint8_t xs[ELEMENTS * MOST_BYTES], ys[sizeof xs], zs[sizeof xs];
    static uint8_t results[sizeof xs + 1], wanted[sizeof results];
    uint32_t operation = code_of(operations, COUNT(operations), call->name);
    bool converts = call->make == make_convert;
    if (operation == NO_CODE && !converts) return true;
    struct arguments elements[ELEMENTS] = {*a, *a, *a};
    if (last.format == a->format) {
        elements[0].x = elements[2].y = last.x;
        elements[0].y = last.y;
        elements[0].z = elements[2].z = last.z;
    }
    last = *a;
    uint32_t to = converts ? a->to : a->format;
    size_t width = bytes_of(a->format), result_width = bytes_of(to), size = ELEMENTS * width;
    apfloat_array_answer counts = {0}, answer;
    memset(wanted, 0xa5, sizeof wanted);
    memset(results, 0xa5, sizeof results);
    memset(&answer, 0xa5, sizeof answer);
    for (size_t i = 0; i < ELEMENTS; i++) {
        apfloat_answer single;
        if (call->make(&elements[i], &single) != APFLOAT_ANSWERED) return false;
        put(xs, width, i, elements[i].x);
        put(ys, width, i, elements[i].y);
        put(zs, width, i, elements[i].z);
        put(wanted, result_width, i, single.bits);
        count_answer(&counts, to, &single);
    }
    size_t operands = strlen(call->operands);
    uint32_t mode = a->mode == NO_CODE ? APFLOAT_NEAREST_EVEN : a->mode;
    uint32_t code = converts ? apfloat_convert_array(a->format, mode, to, xs, size, results, sizeof results, &answer)
                             : apfloat_map_array(a->format, mode, operation, xs, size, ys, operands > 1 ? size : 0, zs,
                                                 operands > 2 ? size : 0, results, sizeof results, &answer);
    return code == APFLOAT_ANSWERED && memcmp(results, wanted, sizeof results) == 0 &&
           memcmp(&answer, &counts, sizeof answer) == 0;
}

/* The operations on two values of 8 bits, on each pair of them three times: by a table they give the bytes and counts
 * that they give without. */
static unsigned tables(void) {
    enum { PAIRS = 3 << 16 };
    static const uint32_t formats[] = {APFLOAT_E5M2,     APFLOAT_E5M2FNUZ,   APFLOAT_E4M3FN,
                                       APFLOAT_E4M3FNUZ, APFLOAT_E4M3B11FNUZ, APFLOAT_E5M2 | APFLOAT_IEEE_FLAGS};
    static uint8_t xs[PAIRS], ys[PAIRS], wanted[PAIRS], results[PAIRS], table[APFLOAT_TABLE_BYTES];
    unsigned count = 0;
    for (size_t i = 0; i < PAIRS; i++) {
        xs[i] = (uint8_t)(i >> 8);
        ys[i] = (uint8_t)i;
    }
    for (size_t i = 0; i < COUNT(formats); i++)
        for (uint32_t operation = APFLOAT_ADD; operation <= APFLOAT_SQRT; operation++)
            for (uint32_t mode = 0; mode < 5; mode++) {
                size_t second = operation == APFLOAT_SQRT ? 0 : PAIRS, third = operation == APFLOAT_FMA ? PAIRS : 0;
                /* One byte is missing from the table in every third case. */
                size_t room = sizeof table - (mode % 3 == 2);
                apfloat_array_answer plain, by_table;
                memset(results, 0xa5, sizeof results);
                uint32_t code = apfloat_map_array(formats[i], mode, operation, xs, PAIRS, ys, second, ys, third, wanted,
                                                  PAIRS, &plain);
                uint32_t other = apfloat_map_array_by_table(formats[i], mode, operation, xs, PAIRS, ys, second, ys,
                                                            third, results, PAIRS, table, room, &by_table);
                if (code == APFLOAT_ANSWERED && other == APFLOAT_ANSWERED &&
                    memcmp(wanted, results, sizeof results) == 0 && memcmp(&plain, &by_table, sizeof plain) == 0)
                    count++;
            }
    return count;
}

/* Conversions of all values of 16 bits, three times: by a table they give the bytes and counts that they give without.
 * Those to formats of more than 32 bits go without. */
static unsigned conversions_by_tables(void) {
    enum { VALUES = 3 << 16 };
    static const uint32_t formats[] = {APFLOAT_HALF, APFLOAT_BFLOAT};
    static const uint32_t targets[] = {
        APFLOAT_HALF,     APFLOAT_SINGLE, APFLOAT_BFLOAT,     APFLOAT_E5M2,   APFLOAT_E4M3FN,
        APFLOAT_E4M3FNUZ, APFLOAT_E4M3,   APFLOAT_E5M2FNUZ,   APFLOAT_TF32,   APFLOAT_SINGLE | APFLOAT_IEEE_FLAGS,
        APFLOAT_E2M3FN,   APFLOAT_DOUBLE, APFLOAT_E4M3B11FNUZ};
    static const uint32_t asked[] = {0, APFLOAT_SATURATE, APFLOAT_SATURATE_FINITE, APFLOAT_SATURATE_ALL, 0};
    static uint8_t values[2 * VALUES], wanted[8 * VALUES], results[8 * VALUES], table[APFLOAT_TABLE_BYTES];
    unsigned count = 0;
    for (size_t i = 0; i < VALUES; i++) {
        values[2 * i] = (uint8_t)i;
        values[2 * i + 1] = (uint8_t)(i >> 8);
    }
    for (size_t i = 0; i < COUNT(formats); i++)
        for (size_t k = 0; k < COUNT(targets); k++)
            for (uint32_t mode = 0; mode < 5; mode++) {
                /* One byte is missing from the table in every third case. */
                size_t room = sizeof table - (mode % 3 == 2);
                apfloat_array_answer plain, by_table;
                memset(wanted, 0xa5, sizeof wanted);
                memset(results, 0xa5, sizeof results);
                uint32_t code = apfloat_convert_array(formats[i], mode | asked[mode], targets[k], values, sizeof values,
                                                      wanted, sizeof wanted, &plain);
                uint32_t other = apfloat_convert_array_by_table(formats[i], mode | asked[mode], targets[k], values,
                                                                sizeof values, results, sizeof results, table, room,
                                                                &by_table);
                if (code == APFLOAT_ANSWERED && other == APFLOAT_ANSWERED &&
                    memcmp(wanted, results, sizeof results) == 0 && memcmp(&plain, &by_table, sizeof plain) == 0)
                    count++;
            }
    return count;
}

/* 1, 1000, -1000, both infinities, a signaling NaN, 448, 464, and the largest value of binary32, each in binary32, and
 * their conversions that saturate, to nearest, as evidence/streams.py computes them. */
static const uint32_t beyond[] = {0x3f800000, 0x447a0000, 0xc47a0000, 0x7f800000, 0xff800000,
                                  0x7f800001, 0x43e00000, 0x43e80000, 0x7f7fffff};
static const struct saturation {
    uint32_t asked, to;
    uint8_t results[COUNT(beyond)];
    apfloat_array_answer answer;
} saturations[] = {
    {APFLOAT_SATURATE, APFLOAT_E4M3FN, {0x38, 0x7e, 0xfe, 0x7f, 0xff, 0x7f, 0x7e, 0x7e, 0x7e},
     {9, 6, 0, 3, 0, 1, 3, 0x15, 0}},
    {APFLOAT_SATURATE, APFLOAT_E4M3FNUZ, {0x40, 0x7f, 0xff, 0x80, 0x80, 0x80, 0x7f, 0x7f, 0x7f},
     {9, 7, 0, 5, 0, 1, 3, 0x15, 0}},
    {APFLOAT_SATURATE, APFLOAT_E5M2, {0x3c, 0x64, 0xe4, 0x7c, 0xfc, 0x7e, 0x5f, 0x5f, 0x7b},
     {9, 4, 0, 1, 0, 1, 1, 0x15, 0}},
    {APFLOAT_SATURATE, APFLOAT_E4M3, {0x38, 0x77, 0xf7, 0x78, 0xf8, 0x7c, 0x77, 0x77, 0x77},
     {9, 5, 0, 5, 0, 1, 1, 0x15, 0}},
    {APFLOAT_SATURATE, APFLOAT_E5M2FNUZ, {0x40, 0x68, 0xe8, 0x80, 0x80, 0x80, 0x63, 0x63, 0x7f},
     {9, 6, 0, 1, 0, 1, 3, 0x15, 0}},
    {APFLOAT_SATURATE, APFLOAT_E4M3B11FNUZ, {0x58, 0x7f, 0xff, 0x80, 0x80, 0x80, 0x7f, 0x7f, 0x7f},
     {9, 7, 0, 5, 0, 1, 3, 0x15, 0}},
    {APFLOAT_SATURATE_FINITE, APFLOAT_E4M3FN, {0x38, 0x7e, 0xfe, 0x7e, 0xfe, 0x7f, 0x7e, 0x7e, 0x7e},
     {9, 6, 0, 3, 0, 1, 1, 0x15, 0}},
    {APFLOAT_SATURATE_FINITE, APFLOAT_E4M3FNUZ, {0x40, 0x7f, 0xff, 0x7f, 0xff, 0x80, 0x7f, 0x7f, 0x7f},
     {9, 7, 0, 5, 0, 1, 1, 0x15, 0}},
    {APFLOAT_SATURATE_FINITE, APFLOAT_E5M2, {0x3c, 0x64, 0xe4, 0x7b, 0xfb, 0x7e, 0x5f, 0x5f, 0x7b},
     {9, 6, 0, 1, 0, 1, 1, 0x15, 0}},
    {APFLOAT_SATURATE_FINITE, APFLOAT_E4M3, {0x38, 0x77, 0xf7, 0x77, 0xf7, 0x7c, 0x77, 0x77, 0x77},
     {9, 7, 0, 5, 0, 1, 1, 0x15, 0}},
    {APFLOAT_SATURATE_FINITE, APFLOAT_E5M2FNUZ, {0x40, 0x68, 0xe8, 0x7f, 0xff, 0x80, 0x63, 0x63, 0x7f},
     {9, 6, 0, 1, 0, 1, 1, 0x15, 0}},
    {APFLOAT_SATURATE_FINITE, APFLOAT_E4M3B11FNUZ, {0x58, 0x7f, 0xff, 0x7f, 0xff, 0x80, 0x7f, 0x7f, 0x7f},
     {9, 7, 0, 5, 0, 1, 1, 0x15, 0}},
    {APFLOAT_SATURATE_ALL, APFLOAT_E4M3FN, {0x38, 0x7e, 0xfe, 0x7e, 0xfe, 0x7e, 0x7e, 0x7e, 0x7e},
     {9, 6, 0, 3, 0, 1, 0, 0x15, 0}},
    {APFLOAT_SATURATE_ALL, APFLOAT_E4M3FNUZ, {0x40, 0x7f, 0xff, 0x7f, 0xff, 0x7f, 0x7f, 0x7f, 0x7f},
     {9, 7, 0, 5, 0, 1, 0, 0x15, 0}},
    {APFLOAT_SATURATE_ALL, APFLOAT_E5M2, {0x3c, 0x64, 0xe4, 0x7b, 0xfb, 0x7b, 0x5f, 0x5f, 0x7b},
     {9, 6, 0, 1, 0, 1, 0, 0x15, 0}},
    {APFLOAT_SATURATE_ALL, APFLOAT_E4M3, {0x38, 0x77, 0xf7, 0x77, 0xf7, 0x77, 0x77, 0x77, 0x77},
     {9, 7, 0, 5, 0, 1, 0, 0x15, 0}},
    {APFLOAT_SATURATE_ALL, APFLOAT_E5M2FNUZ, {0x40, 0x68, 0xe8, 0x7f, 0xff, 0x7f, 0x63, 0x63, 0x7f},
     {9, 6, 0, 1, 0, 1, 0, 0x15, 0}},
    {APFLOAT_SATURATE_ALL, APFLOAT_E4M3B11FNUZ, {0x58, 0x7f, 0xff, 0x7f, 0xff, 0x7f, 0x7f, 0x7f, 0x7f},
     {9, 7, 0, 5, 0, 1, 0, 0x15, 0}}};

/* How many of these conversions agree. */
static unsigned saturated(void) {
    unsigned count = 0;
    uint8_t values[sizeof beyond], results[COUNT(beyond)];
    for (size_t i = 0; i < COUNT(beyond); i++) put(values, 4, i, (apfloat_halves){beyond[i], 0});
    for (size_t i = 0; i < COUNT(saturations); i++) {
        const struct saturation *s = &saturations[i];
        apfloat_array_answer answer;
        uint32_t code = apfloat_convert_array(APFLOAT_SINGLE, APFLOAT_NEAREST_EVEN | s->asked, s->to, values,
                                              sizeof values, results, sizeof results, &answer);
        if (code == APFLOAT_ANSWERED && memcmp(results, s->results, sizeof results) == 0 &&
            memcmp(&answer, &s->answer, sizeof answer) == 0) count++;
    }
    return count;
}

/* Arrays of singles of each length up to two blocks and more, in which infinities and NaNs stand here and there: how
 * many of them agree with calls on single values. */
static unsigned lengths_agree(void) {
    enum { MOST = 150 };
    static const uint32_t formats[] = {APFLOAT_E4M3FN, APFLOAT_E5M2, APFLOAT_E4M3FNUZ, APFLOAT_HALF, APFLOAT_BFLOAT};
    static uint8_t values[4 * MOST], results[2 * MOST + 1], wanted[sizeof results];
    unsigned count = 0;
    for (size_t format = 0; format < COUNT(formats); format++)
        for (uint32_t mode = 0; mode < 5; mode++)
            for (uint32_t length = 0; length <= MOST; length++) {
                uint32_t to = formats[format], code = APFLOAT_ANSWERED;
                size_t width = bytes_of(to);
                apfloat_array_answer counts = {0}, answer;
                memset(wanted, 0xa5, sizeof wanted);
                memset(results, 0xa5, sizeof results);
                for (uint32_t i = 0; i < length; i++) {
                    uint32_t spread = (i * MOST + length) * UINT32_C(2654435761);
                    uint32_t near_one = (spread & UINT32_C(0x807fffff)) | (UINT32_C(110) + spread % 32) << 23;
                    apfloat_halves x = {(i + length) % 37 == 0 ? beyond[i % COUNT(beyond)] : near_one, 0};
                    apfloat_answer single;
                    code |= apfloat_convert(APFLOAT_SINGLE, mode, to, x, &single);
                    put(values, 4, i, x);
                    put(wanted, width, i, single.bits);
                    count_answer(&counts, to, &single);
                }
                code |= apfloat_convert_array(APFLOAT_SINGLE, mode, to, values, 4 * length, results, width * length,
                                              &answer);
                if (code == APFLOAT_ANSWERED && memcmp(results, wanted, sizeof results) == 0 &&
                    memcmp(&answer, &counts, sizeof answer) == 0)
                    count++;
            }
    return count;
}

/* 0.75, -5, 1000, -1000, both infinities, a signaling NaN, 464, the largest value of binary32, and -0, each in
 * binary32, and their conversions to storage formats, to nearest, as the classes of evidence/storage_formats.py and
 * evidence/e3m4.py compute them. */
static const uint32_t stored[] = {0x3f400000, 0xc0a00000, 0x447a0000, 0xc47a0000, 0x7f800000,
                                  0xff800000, 0x7f800001, 0x43e80000, 0x7f7fffff, 0x80000000};
static const struct storing {
    uint32_t asked, to;
    uint8_t codes[COUNT(stored)];
    apfloat_array_answer answer;
} storings[] = {
    {0, APFLOAT_E2M1FN, {0x02, 0x0e, 0x07, 0x0f, 0x07, 0x0f, 0x00, 0x07, 0x07, 0x08},
     {10, 6, 0, 4, 0, 3, 0, 0x15, 0}},
    {0, APFLOAT_E2M3FN, {0x06, 0x3a, 0x1f, 0x3f, 0x1f, 0x3f, 0x00, 0x1f, 0x1f, 0x20},
     {10, 4, 0, 4, 0, 3, 0, 0x15, 0}},
    {0, APFLOAT_E3M2FN, {0x0a, 0x35, 0x1f, 0x3f, 0x1f, 0x3f, 0x00, 0x1f, 0x1f, 0x20},
     {10, 4, 0, 4, 0, 3, 0, 0x15, 0}},
    {0, APFLOAT_E3M4, {0x28, 0xd4, 0x70, 0xf0, 0x70, 0xf0, 0x78, 0x70, 0x70, 0x80},
     {10, 4, 0, 4, 0, 1, 1, 0x15, 0}},
    {0, APFLOAT_E8M0FNU, {0x7e, 0xff, 0x89, 0xff, 0xff, 0xff, 0xff, 0x88, 0xff, 0x00},
     {10, 6, 1, 1, 0, 4, 6, 0x1d, 0}},
    {0, APFLOAT_UE4M3, {0x34, 0x7f, 0x7f, 0x7f, 0x7f, 0x7f, 0x7f, 0x7e, 0x7f, 0x00},
     {10, 5, 0, 2, 0, 4, 7, 0x15, 0}},
    {APFLOAT_SATURATE, APFLOAT_E2M1FN, {0x02, 0x0e, 0x07, 0x0f, 0x07, 0x0f, 0x00, 0x07, 0x07, 0x08},
     {10, 6, 0, 4, 0, 3, 0, 0x15, 0}},
    {APFLOAT_SATURATE, APFLOAT_E2M3FN, {0x06, 0x3a, 0x1f, 0x3f, 0x1f, 0x3f, 0x00, 0x1f, 0x1f, 0x20},
     {10, 4, 0, 4, 0, 3, 0, 0x15, 0}},
    {APFLOAT_SATURATE, APFLOAT_E3M2FN, {0x0a, 0x35, 0x1f, 0x3f, 0x1f, 0x3f, 0x00, 0x1f, 0x1f, 0x20},
     {10, 4, 0, 4, 0, 3, 0, 0x15, 0}},
    {APFLOAT_SATURATE, APFLOAT_E3M4, {0x28, 0xd4, 0x6f, 0xef, 0x70, 0xf0, 0x78, 0x6f, 0x6f, 0x80},
     {10, 4, 0, 4, 0, 1, 1, 0x15, 0}},
    {APFLOAT_SATURATE, APFLOAT_E8M0FNU, {0x7e, 0xff, 0x89, 0xff, 0xff, 0xff, 0xff, 0x88, 0xfe, 0x00},
     {10, 6, 1, 1, 0, 4, 5, 0x1d, 0}},
    {APFLOAT_SATURATE, APFLOAT_UE4M3, {0x34, 0x7f, 0x7e, 0x7f, 0x7f, 0x7f, 0x7f, 0x7e, 0x7e, 0x00},
     {10, 5, 0, 2, 0, 4, 5, 0x15, 0}},
    {APFLOAT_SATURATE_FINITE, APFLOAT_E2M1FN, {0x02, 0x0e, 0x07, 0x0f, 0x07, 0x0f, 0x00, 0x07, 0x07, 0x08},
     {10, 6, 0, 4, 0, 3, 0, 0x15, 0}},
    {APFLOAT_SATURATE_FINITE, APFLOAT_E2M3FN, {0x06, 0x3a, 0x1f, 0x3f, 0x1f, 0x3f, 0x00, 0x1f, 0x1f, 0x20},
     {10, 4, 0, 4, 0, 3, 0, 0x15, 0}},
    {APFLOAT_SATURATE_FINITE, APFLOAT_E3M2FN, {0x0a, 0x35, 0x1f, 0x3f, 0x1f, 0x3f, 0x00, 0x1f, 0x1f, 0x20},
     {10, 4, 0, 4, 0, 3, 0, 0x15, 0}},
    {APFLOAT_SATURATE_FINITE, APFLOAT_E3M4, {0x28, 0xd4, 0x6f, 0xef, 0x6f, 0xef, 0x78, 0x6f, 0x6f, 0x80},
     {10, 6, 0, 4, 0, 1, 1, 0x15, 0}},
    {APFLOAT_SATURATE_FINITE, APFLOAT_E8M0FNU, {0x7e, 0xff, 0x89, 0xff, 0xfe, 0xff, 0xff, 0x88, 0xfe, 0x00},
     {10, 6, 1, 1, 0, 4, 4, 0x1d, 0}},
    {APFLOAT_SATURATE_FINITE, APFLOAT_UE4M3, {0x34, 0x7f, 0x7e, 0x7f, 0x7e, 0x7f, 0x7f, 0x7e, 0x7e, 0x00},
     {10, 5, 0, 2, 0, 4, 4, 0x15, 0}},
    {APFLOAT_SATURATE_ALL, APFLOAT_E2M1FN, {0x02, 0x0e, 0x07, 0x0f, 0x07, 0x0f, 0x07, 0x07, 0x07, 0x08},
     {10, 6, 0, 4, 0, 3, 0, 0x15, 0}},
    {APFLOAT_SATURATE_ALL, APFLOAT_E2M3FN, {0x06, 0x3a, 0x1f, 0x3f, 0x1f, 0x3f, 0x1f, 0x1f, 0x1f, 0x20},
     {10, 4, 0, 4, 0, 3, 0, 0x15, 0}},
    {APFLOAT_SATURATE_ALL, APFLOAT_E3M2FN, {0x0a, 0x35, 0x1f, 0x3f, 0x1f, 0x3f, 0x1f, 0x1f, 0x1f, 0x20},
     {10, 4, 0, 4, 0, 3, 0, 0x15, 0}},
    {APFLOAT_SATURATE_ALL, APFLOAT_E3M4, {0x28, 0xd4, 0x6f, 0xef, 0x6f, 0xef, 0x6f, 0x6f, 0x6f, 0x80},
     {10, 6, 0, 4, 0, 1, 0, 0x15, 0}},
    {APFLOAT_SATURATE_ALL, APFLOAT_E8M0FNU, {0x7e, 0xff, 0x89, 0xff, 0xfe, 0xff, 0xfe, 0x88, 0xfe, 0x00},
     {10, 6, 1, 1, 0, 4, 3, 0x1d, 0}},
    {APFLOAT_SATURATE_ALL, APFLOAT_UE4M3, {0x34, 0x7f, 0x7e, 0x7f, 0x7e, 0x7f, 0x7e, 0x7e, 0x7e, 0x00},
     {10, 5, 0, 2, 0, 4, 3, 0x15, 0}}};

/* Some codes of each storage format in binary32, which raise no flag. The formats with fewer bits ignore the others. */
static const uint8_t codes_loaded[] = {0, 1, 3, 7, 8, 15, 31, 46, 63, 112, 126, 127, 128, 200, 254, 255};
static const struct loading {
    uint32_t format, results[COUNT(codes_loaded)];
} loadings[] = {
    {APFLOAT_E2M1FN,
     {0x00000000, 0x3f000000, 0x3fc00000, 0x40c00000, 0x80000000, 0xc0c00000, 0xc0c00000, 0xc0800000,
      0xc0c00000, 0x00000000, 0xc0800000, 0xc0c00000, 0x00000000, 0x80000000, 0xc0800000, 0xc0c00000}},
    {APFLOAT_E2M3FN,
     {0x00000000, 0x3e000000, 0x3ec00000, 0x3f600000, 0x3f800000, 0x3ff00000, 0x40f00000, 0xbfe00000,
      0xc0f00000, 0xc0000000, 0xc0e00000, 0xc0f00000, 0x00000000, 0x3f800000, 0xc0e00000, 0xc0f00000}},
    {APFLOAT_E3M2FN,
     {0x00000000, 0x3d800000, 0x3e400000, 0x3ee00000, 0x3f000000, 0x3fe00000, 0x41e00000, 0xbfc00000,
      0xc1e00000, 0xc0000000, 0xc1c00000, 0xc1e00000, 0x00000000, 0x3f000000, 0xc1c00000, 0xc1e00000}},
    {APFLOAT_E3M4,
     {0x00000000, 0x3c800000, 0x3d400000, 0x3de00000, 0x3e000000, 0x3e700000, 0x3ef80000, 0x3f700000,
      0x3ff80000, 0x7f800000, 0x7ff00000, 0x7ff80000, 0x80000000, 0xc0400000, 0xfff00000, 0xfff80000}},
    {APFLOAT_E8M0FNU,
     {0x00400000, 0x00800000, 0x01800000, 0x03800000, 0x04000000, 0x07800000, 0x0f800000, 0x17000000,
      0x1f800000, 0x38000000, 0x3f000000, 0x3f800000, 0x40000000, 0x64000000, 0x7f000000, 0x7fc00000}},
    {APFLOAT_UE4M3,
     {0x00000000, 0x3b000000, 0x3bc00000, 0x3c600000, 0x3c800000, 0x3cf00000, 0x3df00000, 0x3ee00000,
      0x3ff00000, 0x43000000, 0x43e00000, 0x7ff00000, 0x00000000, 0x40800000, 0x43e00000, 0x7ff00000}}};

/* How many conversions into storage formats and out of them agree. */
static unsigned stored_and_loaded(void) {
    unsigned count = 0;
    uint8_t values[sizeof stored], codes[COUNT(stored) + 1], results[4 * COUNT(codes_loaded)], wanted[sizeof results];
    apfloat_array_answer answer;
    for (size_t i = 0; i < COUNT(stored); i++) put(values, 4, i, (apfloat_halves){stored[i], 0});
    for (size_t i = 0; i < COUNT(storings); i++) {
        const struct storing *s = &storings[i];
        codes[COUNT(stored)] = 0xa5;
        uint32_t code = apfloat_convert_array(APFLOAT_SINGLE, APFLOAT_NEAREST_EVEN | s->asked, s->to, values,
                                              sizeof values, codes, sizeof codes, &answer);
        if (code == APFLOAT_ANSWERED && memcmp(codes, s->codes, sizeof s->codes) == 0 &&
            codes[COUNT(stored)] == 0xa5 && memcmp(&answer, &s->answer, sizeof answer) == 0) count++;
    }
    for (size_t i = 0; i < COUNT(loadings); i++) {
        const struct loading *l = &loadings[i];
        for (size_t n = 0; n < COUNT(codes_loaded); n++) put(wanted, 4, n, (apfloat_halves){l->results[n], 0});
        uint32_t code = apfloat_convert_array(l->format, APFLOAT_TOWARD_ZERO, APFLOAT_SINGLE, codes_loaded,
                                              sizeof codes_loaded, results, sizeof results, &answer);
        if (code == APFLOAT_ANSWERED && memcmp(results, wanted, sizeof results) == 0 && answer.status == 0 &&
            answer.values == COUNT(codes_loaded)) count++;
    }
    return count;
}

/* Three blocks of four values of binary32, the last of them with an infinity; their scales and elements in each element
 * format, to nearest, and the products in binary32, as the classes of evidence/blocks.py compute them. */
static const uint32_t blocks[] = {0x40e00000, 0x40c00000, 0x40a00000, 0x3e800000, 0x7f7fffff, 0xff7fffff,
                                  0x3f800000, 0x80000001, 0x7f800000, 0x3f800000, 0x00000000, 0x80000000};
static const struct blocks_in {
    uint32_t element;
    uint8_t scales[COUNT(blocks) / 4], codes[COUNT(blocks)];
    apfloat_array_answer quantized;
    uint32_t products[COUNT(blocks)];
    apfloat_array_answer dequantized;
} blocks_made[] = {
    {APFLOAT_E5M2, {0x72, 0xef, 0xff}, {0x7b, 0x7a, 0x79, 0x68, 0x7b, 0xfb, 0x00, 0x80, 0x00, 0x00, 0x00, 0x00},
     {12, 4, 2, 2, 0, 0, 4, 0x1c, 0},
     {0x40e00000, 0x40c00000, 0x40a00000, 0x3e800000, 0x7f600000, 0xff600000,
      0x00000000, 0x80000000, 0x7fc00000, 0x7fc00000, 0x7fc00000, 0x7fc00000},
     {12, 0, 0, 0, 0, 0, 4, 0x00, 0}},
    {APFLOAT_E4M3FN, {0x79, 0xf6, 0xff}, {0x7e, 0x7c, 0x7a, 0x58, 0x7e, 0xfe, 0x00, 0x80, 0x00, 0x00, 0x00, 0x00},
     {12, 4, 2, 2, 0, 0, 4, 0x1c, 0},
     {0x40e00000, 0x40c00000, 0x40a00000, 0x3e800000, 0x7f600000, 0xff600000,
      0x00000000, 0x80000000, 0x7fc00000, 0x7fc00000, 0x7fc00000, 0x7fc00000},
     {12, 0, 0, 0, 0, 0, 4, 0x00, 0}},
    {APFLOAT_E3M2FN, {0x7d, 0xfa, 0xff}, {0x1f, 0x1e, 0x1d, 0x0c, 0x1f, 0x3f, 0x00, 0x20, 0x00, 0x00, 0x00, 0x00},
     {12, 4, 2, 2, 0, 0, 4, 0x1c, 0},
     {0x40e00000, 0x40c00000, 0x40a00000, 0x3e800000, 0x7f600000, 0xff600000,
      0x00000000, 0x80000000, 0x7fc00000, 0x7fc00000, 0x7fc00000, 0x7fc00000},
     {12, 0, 0, 0, 0, 0, 4, 0x00, 0}},
    {APFLOAT_E2M3FN, {0x7f, 0xfc, 0xff}, {0x1e, 0x1c, 0x1a, 0x02, 0x1f, 0x3f, 0x00, 0x20, 0x00, 0x00, 0x00, 0x00},
     {12, 4, 2, 2, 0, 0, 4, 0x1c, 0},
     {0x40e00000, 0x40c00000, 0x40a00000, 0x3e800000, 0x7f700000, 0xff700000,
      0x00000000, 0x80000000, 0x7fc00000, 0x7fc00000, 0x7fc00000, 0x7fc00000},
     {12, 0, 0, 0, 0, 0, 4, 0x00, 0}},
    {APFLOAT_E2M1FN, {0x7f, 0xfc, 0xff}, {0x07, 0x07, 0x06, 0x00, 0x07, 0x0f, 0x00, 0x08, 0x00, 0x00, 0x00, 0x00},
     {12, 7, 3, 3, 0, 0, 4, 0x1c, 0},
     {0x40c00000, 0x40c00000, 0x40800000, 0x00000000, 0x7f400000, 0xff400000,
      0x00000000, 0x80000000, 0x7fc00000, 0x7fc00000, 0x7fc00000, 0x7fc00000},
     {12, 0, 0, 0, 0, 0, 4, 0x00, 0}}};

/* In how many element formats blocks agree, with packed codes. */
static unsigned blocks_agree(void) {
    unsigned count = 0;
    uint8_t values[sizeof blocks], results[sizeof blocks], wanted[sizeof blocks];
    uint8_t scales[COUNT(blocks) / 4], codes[COUNT(blocks)], packed[COUNT(blocks)], again[COUNT(blocks)];
    apfloat_array_answer answer;
    for (size_t i = 0; i < COUNT(blocks); i++) put(values, 4, i, (apfloat_halves){blocks[i], 0});
    for (size_t i = 0; i < COUNT(blocks_made); i++) {
        const struct blocks_in *b = &blocks_made[i];
        for (size_t n = 0; n < COUNT(blocks); n++) put(wanted, 4, n, (apfloat_halves){b->products[n], 0});
        size_t room = b->element == APFLOAT_E2M1FN ? sizeof codes / 2 : sizeof codes / 4 * 3;
        bool eight = b->element == APFLOAT_E5M2 || b->element == APFLOAT_E4M3FN;
        uint32_t packing = eight ? APFLOAT_NO_SUCH_OPERATION : APFLOAT_ANSWERED;
        if (apfloat_quantize_blocks(APFLOAT_SINGLE, APFLOAT_NEAREST_EVEN, b->element, 4, values, sizeof values, scales,
                                    sizeof scales, codes, sizeof codes, &answer) == APFLOAT_ANSWERED &&
            memcmp(scales, b->scales, sizeof scales) == 0 && memcmp(codes, b->codes, sizeof codes) == 0 &&
            memcmp(&answer, &b->quantized, sizeof answer) == 0 &&
            apfloat_dequantize_blocks(b->element, APFLOAT_NEAREST_EVEN, APFLOAT_SINGLE, 4, scales, sizeof scales, codes,
                                      sizeof codes, results, sizeof results, &answer) == APFLOAT_ANSWERED &&
            memcmp(results, wanted, sizeof results) == 0 && memcmp(&answer, &b->dequantized, sizeof answer) == 0 &&
            apfloat_pack_codes(b->element, codes, sizeof codes, packed, room) == packing &&
            apfloat_unpack_codes(b->element, packed, room, again, sizeof again) == packing &&
            (eight || memcmp(again, codes, sizeof codes) == 0)) count++;
    }
    return count;
}

/* The errors of calls on blocks, each of which leaves what it would write as it was. */
static unsigned block_refusals(void) {
    static const uint8_t bytes[16] = {0, 0x10};
    uint8_t scales[4] = {1, 2}, results[16] = {1, 2, 3}, kept[4], unchanged[16];
    apfloat_array_answer answer, untouched;
    memcpy(kept, scales, sizeof kept);
    memcpy(unchanged, results, sizeof unchanged);
    memset(&answer, 0xa5, sizeof answer);
    untouched = answer;
#define QUANTIZE(format, mode, element, length, given, blocks, codes) \
    apfloat_quantize_blocks(format, mode, element, length, bytes, given, scales, blocks, results, codes, &answer)
#define DEQUANTIZE(element, mode, to, length, blocks, codes, room) \
    apfloat_dequantize_blocks(element, mode, to, length, bytes, blocks, bytes, codes, results, room, &answer)
    const uint32_t codes[][2] = {
        {QUANTIZE(0, 0, APFLOAT_E2M1FN, 2, 8, 2, 4), APFLOAT_UNKNOWN_FORMAT},
        {QUANTIZE(1, 5, APFLOAT_E2M1FN, 2, 8, 2, 4), APFLOAT_UNKNOWN_MODE},
        {QUANTIZE(1, 0, APFLOAT_E3M4, 2, 8, 2, 4), APFLOAT_UNKNOWN_FORMAT},
        {QUANTIZE(APFLOAT_DOUBLE_PAIR, 0, APFLOAT_E2M1FN, 1, 16, 1, 1), APFLOAT_NO_SUCH_OPERATION},
        {QUANTIZE(1, 0, APFLOAT_E2M1FN, 0, 8, 2, 4), APFLOAT_WRONG_LENGTH},
        {QUANTIZE(1, 0, APFLOAT_E2M1FN, 3, 8, 2, 4), APFLOAT_WRONG_LENGTH},
        {QUANTIZE(1, 0, APFLOAT_E2M1FN, 2, 7, 2, 4), APFLOAT_WRONG_LENGTH},
        {QUANTIZE(1, 0, APFLOAT_E2M1FN, 2, 8, 1, 4), APFLOAT_WRONG_LENGTH},
        {QUANTIZE(1, 0, APFLOAT_E2M1FN, 2, 8, 2, 5), APFLOAT_WRONG_LENGTH},
        {DEQUANTIZE(0, 0, 1, 2, 2, 4, 8), APFLOAT_UNKNOWN_FORMAT},
        {DEQUANTIZE(APFLOAT_E2M1FN, 5, 1, 2, 2, 4, 8), APFLOAT_UNKNOWN_MODE},
        {DEQUANTIZE(APFLOAT_E2M1FN, 0, APFLOAT_E2M1FN, 2, 2, 4, 4), APFLOAT_UNKNOWN_FORMAT},
        {DEQUANTIZE(APFLOAT_E2M1FN, 0, APFLOAT_DOUBLE_PAIR, 1, 1, 1, 16), APFLOAT_NO_SUCH_OPERATION},
        {DEQUANTIZE(APFLOAT_E2M1FN, 0, 1, 2, 2, 4, 6), APFLOAT_WRONG_LENGTH},
        {DEQUANTIZE(APFLOAT_E2M1FN, 0, 1, 2, 2, 4, 8), APFLOAT_WIDE_OPERAND},
        {apfloat_pack_codes(0, bytes, 4, results, 2), APFLOAT_UNKNOWN_FORMAT},
        {apfloat_pack_codes(APFLOAT_E5M2, bytes, 4, results, 4), APFLOAT_NO_SUCH_OPERATION},
        {apfloat_pack_codes(APFLOAT_E2M1FN, bytes, 3, results, 2), APFLOAT_WRONG_LENGTH},
        {apfloat_pack_codes(APFLOAT_E2M1FN, bytes, 4, results, 2), APFLOAT_WIDE_OPERAND},
        {apfloat_unpack_codes(APFLOAT_E3M2FN, bytes, 2, results, 4), APFLOAT_WRONG_LENGTH}};
    unsigned count = 0;
    for (size_t i = 0; i < COUNT(codes); i++)
        if (codes[i][0] == codes[i][1] && memcmp(results, unchanged, sizeof results) == 0 &&
            memcmp(scales, kept, sizeof scales) == 0 && memcmp(&answer, &untouched, sizeof answer) == 0) count++;
    return count;
}

/* The errors of calls on arrays, each of which leaves the results and the answer as they were. */
static unsigned array_refusals(void) {
    static const uint8_t bytes[16] = {0};
    uint8_t results[16] = {1, 2, 3}, unchanged[sizeof results];
    apfloat_array_answer answer, untouched;
    memcpy(unchanged, results, sizeof results);
    memset(&answer, 0xa5, sizeof answer);
    untouched = answer;
#define CONVERT(format, mode, to, given, room) \
    apfloat_convert_array(format, mode, to, bytes, given, results, room, &answer)
#define MAP(format, mode, operation, first, second, third, room) \
    apfloat_map_array(format, mode, operation, bytes, first, bytes, second, bytes, third, results, room, &answer)
    const uint32_t codes[][2] = {
        {CONVERT(0, 0, 1, 2, 2), APFLOAT_UNKNOWN_FORMAT},
        {CONVERT(1, 5, 1, 2, 2), APFLOAT_UNKNOWN_MODE},
        {CONVERT(1, APFLOAT_SATURATE << 1, 1, 2, 2), APFLOAT_UNKNOWN_MODE},
        {CONVERT(1, APFLOAT_SATURATE_ALL << 1, 1, 2, 2), APFLOAT_UNKNOWN_MODE},
        {CONVERT(1, 0, 0, 2, 2), APFLOAT_UNKNOWN_FORMAT},
        {CONVERT(APFLOAT_DOUBLE_PAIR, 0, 1, 16, 16), APFLOAT_NO_SUCH_OPERATION},
        {CONVERT(1, 0, APFLOAT_DOUBLE_PAIR, 2, 16), APFLOAT_NO_SUCH_OPERATION},
        {CONVERT(APFLOAT_E2M1FN, 0, APFLOAT_E8M0FNU, 2, 2), APFLOAT_NO_SUCH_OPERATION},
        {CONVERT(APFLOAT_E3M4, 0, APFLOAT_DOUBLE_PAIR, 2, 32), APFLOAT_NO_SUCH_OPERATION},
        {CONVERT(APFLOAT_DOUBLE_PAIR, 0, APFLOAT_UE4M3, 16, 1), APFLOAT_NO_SUCH_OPERATION},
        {CONVERT(APFLOAT_E3M4 + 1, 0, 1, 2, 16), APFLOAT_UNKNOWN_FORMAT},
        {CONVERT(APFLOAT_E8M0FNU - 1, 0, 1, 2, 16), APFLOAT_UNKNOWN_FORMAT},
        {CONVERT(APFLOAT_E2M1FN | APFLOAT_IEEE_FLAGS, 0, 1, 2, 16), APFLOAT_UNKNOWN_FORMAT},
        {CONVERT(1, 0, APFLOAT_UE4M3 + 1, 2, 16), APFLOAT_UNKNOWN_FORMAT},
        {CONVERT(APFLOAT_E2M1FN, 5, 0, 2, 2), APFLOAT_UNKNOWN_MODE},
        {CONVERT(APFLOAT_E2M1FN, 0, 0, 2, 2), APFLOAT_UNKNOWN_FORMAT},
        {CONVERT(APFLOAT_SINGLE, 0, APFLOAT_E2M1FN, 6, 16), APFLOAT_WRONG_LENGTH},
        {CONVERT(APFLOAT_E2M1FN, 0, APFLOAT_SINGLE, 2, 7), APFLOAT_WRONG_LENGTH},
        {MAP(APFLOAT_E2M1FN, 0, APFLOAT_ADD, 2, 2, 0, 2), APFLOAT_UNKNOWN_FORMAT},
        {CONVERT(1, 0, 1, 3, 16), APFLOAT_WRONG_LENGTH},
        {CONVERT(1, 0, 2, 4, 7), APFLOAT_WRONG_LENGTH},
        {MAP(0, 0, APFLOAT_ADD, 2, 2, 0, 2), APFLOAT_UNKNOWN_FORMAT},
        {MAP(1, APFLOAT_SATURATE, APFLOAT_ADD, 2, 2, 0, 2), APFLOAT_UNKNOWN_MODE},
        {MAP(1, 0, 0, 2, 2, 0, 2), APFLOAT_NO_SUCH_OPERATION},
        {MAP(1, 0, 9, 2, 2, 0, 2), APFLOAT_NO_SUCH_OPERATION},
        {MAP(APFLOAT_DOUBLE_PAIR, 0, APFLOAT_FMA, 16, 16, 16, 16), APFLOAT_NO_SUCH_OPERATION},
        {MAP(1, 0, APFLOAT_ADD, 3, 3, 0, 16), APFLOAT_WRONG_LENGTH},
        {MAP(1, 0, APFLOAT_ADD, 4, 2, 0, 16), APFLOAT_WRONG_LENGTH},
        {MAP(1, 0, APFLOAT_ADD, 4, 4, 4, 16), APFLOAT_WRONG_LENGTH},
        {MAP(1, 0, APFLOAT_SQRT, 4, 4, 0, 16), APFLOAT_WRONG_LENGTH},
        {MAP(1, 0, APFLOAT_FMA, 4, 4, 0, 16), APFLOAT_WRONG_LENGTH},
        {MAP(1, 0, APFLOAT_FMA, 4, 4, 4, 2), APFLOAT_WRONG_LENGTH}};
    unsigned count = 0;
    for (size_t i = 0; i < COUNT(codes); i++)
        if (codes[i][0] == codes[i][1] && memcmp(results, unchanged, sizeof results) == 0 &&
            memcmp(&answer, &untouched, sizeof answer) == 0) count++;
    return count;
}

/* The index of a call, or COUNT(calls). */
static size_t call_named(const char *name) {
    size_t i = 0;
    while (i < COUNT(calls) && strcmp(calls[i].name, name) != 0) i++;
    return i;
}

/* Whether a row agrees. One that the library has no function for is skipped. */
static bool check(char *columns[]) {
    size_t i = call_named(columns[CALL]);
    if (i == COUNT(calls)) return true;
    struct arguments a = {0, 0, 0, 0, 0, {0, 0}, {0, 0}, {0, 0}, NULL};
    char *target = strchr(columns[FORMAT], '>');
    if (target) {
        *target++ = '\0';
        a.to = format_of(target);
        /* A comparison of values of two formats. */
        if (strncmp(columns[CALL], "compare_", 8) == 0) return true;
    }
    a.format = format_of(columns[FORMAT]);
    if (a.format == NO_CODE || a.to == NO_CODE) return true;
    struct expected e;
    bool has_mode = strcmp(columns[MODE], "any") != 0;
    a.mode = has_mode ? code_of(modes, COUNT(modes), columns[MODE]) : 0;
    if (has_mode && a.mode == NO_CODE && strcmp(columns[MODE], "-") != 0) return false;
    if (!read_expected(columns, &calls[i], &e) || !read_operands(columns[OPERANDS], calls[i].operands, &a))
        return false;
    if (has_mode) {
        if (!agrees(&calls[i], &a, &e) || !agrees_in_arrays(&calls[i], &a)) return false;
    } else
        for (size_t m = 0; m < COUNT(modes); m++) {
            a.mode = modes[m].code;
            if (!agrees(&calls[i], &a, &e) || !agrees_in_arrays(&calls[i], &a)) return false;
        }
    agreeing[i]++;
    return true;
}

#define MACHINE(machine, operation, format, mode, to, x) \
    apfloat_machine(machine, operation, format, mode, to, x, x, x, &answer)

/* The errors that no row has, each of which leaves the answer as it was. */
static unsigned refusals(void) {
    const apfloat_halves one = {1, 0}, wide = {UINT64_C(0x10000), 0}, past_x87 = {1, UINT64_C(0x10000)};
    apfloat_answer answer = before;
    const uint32_t codes[][2] = {
        {apfloat_add(0, APFLOAT_NEAREST_EVEN, one, one, &answer), APFLOAT_UNKNOWN_FORMAT},
        {apfloat_add(11, 5, one, one, &answer), APFLOAT_UNKNOWN_FORMAT},
        {apfloat_add(APFLOAT_DOUBLE, 5, one, one, &answer), APFLOAT_UNKNOWN_MODE},
        {apfloat_add(APFLOAT_DOUBLE | APFLOAT_TINY_BEFORE_ROUNDING, APFLOAT_UPWARD, one, one, &answer),
         APFLOAT_UNKNOWN_FORMAT},
        {apfloat_add(APFLOAT_DOUBLE | APFLOAT_IEEE_FLAGS << 2, APFLOAT_UPWARD, one, one, &answer),
         APFLOAT_UNKNOWN_FORMAT},
        {apfloat_add(APFLOAT_E4M3FN | APFLOAT_IEEE_FLAGS, APFLOAT_UPWARD, one, one, &answer), APFLOAT_UNKNOWN_FORMAT},
        {apfloat_add(APFLOAT_DOUBLE_PAIR | APFLOAT_IEEE_FLAGS, APFLOAT_UPWARD, one, one, &answer),
         APFLOAT_UNKNOWN_FORMAT},
        {apfloat_fma(APFLOAT_DOUBLE_PAIR, APFLOAT_UPWARD, one, one, one, &answer), APFLOAT_NO_SUCH_OPERATION},
        {apfloat_convert(APFLOAT_HALF, APFLOAT_UPWARD, APFLOAT_DOUBLE_PAIR, one, &answer), APFLOAT_NO_SUCH_OPERATION},
        {apfloat_convert(APFLOAT_HALF, APFLOAT_UPWARD, 0, one, &answer), APFLOAT_UNKNOWN_FORMAT},
        {apfloat_to_u128(APFLOAT_HALF, APFLOAT_UPWARD, one, 129, &answer), APFLOAT_WRONG_WIDTH},
        {apfloat_to_i128(APFLOAT_HALF, APFLOAT_UPWARD, one, 1, &answer), APFLOAT_WRONG_WIDTH},
        {apfloat_neg(0, one, &answer), APFLOAT_UNKNOWN_FORMAT},
        {apfloat_minimum(11, one, one, &answer), APFLOAT_UNKNOWN_FORMAT},
        {apfloat_qnan(APFLOAT_E4M3FN | APFLOAT_IEEE_FLAGS, 0, one, &answer), APFLOAT_UNKNOWN_FORMAT},
        {apfloat_is_negative(APFLOAT_DOUBLE | APFLOAT_TINY_BEFORE_ROUNDING, one, &answer), APFLOAT_UNKNOWN_FORMAT},
        {apfloat_compare_predicate(APFLOAT_HALF, 12, APFLOAT_QUIET, one, one, &answer), APFLOAT_NO_SUCH_OPERATION},
        {apfloat_compare_predicate(APFLOAT_HALF, APFLOAT_IS_LESS, 2, one, one, &answer), APFLOAT_NO_SUCH_OPERATION},
        {apfloat_extremum(APFLOAT_DOUBLE_PAIR, APFLOAT_MINIMUM, 0, one, one, &answer), APFLOAT_NO_SUCH_OPERATION},
        {apfloat_extremum(APFLOAT_HALF, 4, 0, one, one, &answer), APFLOAT_NO_SUCH_OPERATION},
        {apfloat_log_b(APFLOAT_HALF, 5, one, &answer), APFLOAT_UNKNOWN_MODE},
        {apfloat_to_format(6, APFLOAT_HALF, 5, 0, one, one, one, &answer), APFLOAT_UNKNOWN_FORMAT},
        {apfloat_to_format(6, APFLOAT_HALF, 5, APFLOAT_SINGLE, one, one, one, &answer), APFLOAT_UNKNOWN_MODE},
        {apfloat_to_format(6, APFLOAT_HALF, 0, APFLOAT_SINGLE, one, one, one, &answer), APFLOAT_NO_SUCH_OPERATION},
        {MACHINE(0, 0, 0, 5, 0, one), APFLOAT_UNKNOWN_FORMAT},
        {MACHINE(0, 0, APFLOAT_HALF, 5, 0, one), APFLOAT_UNKNOWN_MODE},
        {MACHINE(0, APFLOAT_ADD, APFLOAT_DOUBLE_PAIR, 0, 0, one), APFLOAT_NO_SUCH_OPERATION},
        {MACHINE(0, APFLOAT_CONVERT, APFLOAT_E4M3FN, 0, 0, one), APFLOAT_NO_SUCH_OPERATION},
        {MACHINE(0, 0, APFLOAT_HALF, 0, 0, one), APFLOAT_NO_SUCH_OPERATION},
        {MACHINE(0, 21, APFLOAT_HALF, 0, 0, one), APFLOAT_NO_SUCH_OPERATION},
        {MACHINE(0, APFLOAT_LEAST, APFLOAT_HALF, 0, 0, one), APFLOAT_NO_SUCH_OPERATION},
        {MACHINE(0, APFLOAT_GREATEST, APFLOAT_HALF, 0, 7, one), APFLOAT_NO_SUCH_OPERATION},
        {MACHINE(0, APFLOAT_CONVERT, APFLOAT_HALF, 0, 0, one), APFLOAT_UNKNOWN_FORMAT},
        {MACHINE(0, APFLOAT_CONVERT, APFLOAT_HALF, 0, APFLOAT_E4M3FNUZ, one), APFLOAT_NO_SUCH_OPERATION},
        {MACHINE(0, APFLOAT_TO_U128, APFLOAT_HALF, 0, 0, wide), APFLOAT_UNKNOWN_MACHINE},
        {MACHINE(16, APFLOAT_ADD, APFLOAT_HALF, 0, 0, one), APFLOAT_UNKNOWN_MACHINE},
        {MACHINE(APFLOAT_MACHINE_X87, APFLOAT_FMA, APFLOAT_HALF, 0, 0, wide), APFLOAT_WIDE_OPERAND},
        {MACHINE(APFLOAT_MACHINE_X86, APFLOAT_ADD, APFLOAT_X87, 0, 0, past_x87), APFLOAT_WIDE_OPERAND},
        {MACHINE(APFLOAT_MACHINE_X87, APFLOAT_TO_U128, APFLOAT_HALF, 0, 129, one), APFLOAT_WRONG_WIDTH},
        {MACHINE(APFLOAT_MACHINE_ARM, APFLOAT_TO_I128, APFLOAT_HALF, 0, 1, one), APFLOAT_WRONG_WIDTH},
        {MACHINE(APFLOAT_MACHINE_X87, APFLOAT_TO_U128, APFLOAT_X87, 0, 32, one), APFLOAT_LACKING_OPERATION},
        {MACHINE(APFLOAT_MACHINE_X87, APFLOAT_FMA, APFLOAT_X87, 0, 0, one), APFLOAT_LACKING_OPERATION}};
    unsigned count = 0;
    for (size_t i = 0; i < COUNT(codes); i++)
        if (codes[i][0] == codes[i][1] && memcmp(&answer, &before, sizeof answer) == 0) count++;
    return count;
}

/* Negative NaNs, as evidence/exact/data.py makes them: the quiet and the signaling one with the payload 5. */
static const struct {
    uint32_t format;
    apfloat_halves quiet, signaling;
} nans[] = {{APFLOAT_HALF, {0xfe05, 0}, {0xfc05, 0}},
            {APFLOAT_SINGLE, {0xffc00005, 0}, {0xff800005, 0}},
            {APFLOAT_DOUBLE, {UINT64_C(0xfff8000000000005), 0}, {UINT64_C(0xfff0000000000005), 0}},
            {APFLOAT_QUAD, {5, UINT64_C(0xffff800000000000)}, {5, UINT64_C(0xffff000000000000)}},
            {APFLOAT_BFLOAT, {0xffc5, 0}, {0xff85, 0}},
            {APFLOAT_E5M2, {0xff, 0}, {0xfd, 0}},
            {APFLOAT_E4M3FN, {0xff, 0}, {0xff, 0}},
            {APFLOAT_E4M3FNUZ, {0x80, 0}, {0x80, 0}},
            {APFLOAT_E4M3, {0xfd, 0}, {0xf9, 0}},
            {APFLOAT_E5M2FNUZ, {0x80, 0}, {0x80, 0}},
            {APFLOAT_E4M3B11FNUZ, {0x80, 0}, {0x80, 0}},
            {APFLOAT_TF32, {0x7fe05, 0}, {0x7fc05, 0}},
            {APFLOAT_X87, {UINT64_C(0xc000000000000005), 0xffff}, {UINT64_C(0x8000000000000005), 0xffff}},
            {APFLOAT_DOUBLE_PAIR, {UINT64_C(0xfff8000000000005), 0}, {UINT64_C(0xfff0000000000005), 0}}};

static bool has_bits(uint32_t code, const apfloat_answer *answer, apfloat_halves bits) {
    return code == APFLOAT_ANSWERED && answer->bits.low == bits.low && answer->bits.high == bits.high &&
           answer->status == 0 && answer->number == 0;
}

/* How many of them agree, in a format with the flags of IEEE 754-2019 too, whose values are the same. */
static unsigned negative_nans(void) {
    const apfloat_halves payload = {5, 0};
    unsigned count = 0;
    for (size_t i = 0; i < COUNT(nans); i++) {
        uint32_t format = nans[i].format;
        apfloat_answer quiet = before, signaling = before, ieee = before;
        uint32_t of_quiet = apfloat_qnan(format, 1, payload, &quiet);
        uint32_t of_signaling = apfloat_snan(format, UINT32_MAX, payload, &signaling);
        if (!has_bits(of_quiet, &quiet, nans[i].quiet) || !has_bits(of_signaling, &signaling, nans[i].signaling))
            continue;
        uint32_t of_ieee = apfloat_qnan(format | APFLOAT_IEEE_FLAGS, 1, payload, &ieee);
        if (of_ieee == APFLOAT_UNKNOWN_FORMAT || has_bits(of_ieee, &ieee, nans[i].quiet)) count++;
    }
    return count;
}

/* How many codes have their text, and whether a number that is no code has none. */
static unsigned error_texts(void) {
    static const char *const texts[] = {"no error",
                                        "unknown format",
                                        "unknown rounding mode",
                                        "the format does not have the operation",
                                        "an integer cannot have this width",
                                        "the text was refused",
                                        "wrong length of an array",
                                        "unknown error code",
                                        "unknown machine",
                                        "an operand is wider than its format",
                                        "the machine does not have the operation",
                                        "arrays overlap",
                                        "wrong control word"};
    unsigned count = 0;
    for (uint32_t error = 0; error <= COUNT(texts); error++) {
        apfloat_text text, wanted;
        memset(&text, 0xa5, sizeof text);
        wanted = text;
        bool is_known = error < COUNT(texts);
        if (is_known) {
            memset(wanted.bytes, 0, sizeof wanted.bytes);
            strcpy(wanted.bytes, texts[error]);
            wanted.length = (uint32_t)strlen(texts[error]);
        }
        uint32_t code = apfloat_error_text(error, &text);
        if (code == (is_known ? APFLOAT_ANSWERED : APFLOAT_UNKNOWN_ERROR) && memcmp(&text, &wanted, sizeof text) == 0)
            count++;
    }
    return count;
}

/* What machines deliver, to nearest, in binary32 unless the row has another format. Those of X86 and X87 are results of
 * a processor (evidence/processor/machines.c); the others follow from the tables of docs/MACHINES.md by hand. */
#define X86 APFLOAT_MACHINE_X86
#define X87 APFLOAT_MACHINE_X87
#define ARM APFLOAT_MACHINE_ARM
#define ARM_DEFAULT APFLOAT_MACHINE_ARM_DEFAULT_NAN
#define ARM_ALTERNATE APFLOAT_MACHINE_ARM_ALTERNATE
#define RISC_V APFLOAT_MACHINE_RISC_V
#define POWER APFLOAT_MACHINE_POWER
#define S390X APFLOAT_MACHINE_S390X
#define ARM_ALTERNATE_DEFAULT APFLOAT_MACHINE_ARM_ALTERNATE_DEFAULT_NAN
#define WEBASSEMBLY APFLOAT_MACHINE_WEBASSEMBLY
#define PTX APFLOAT_MACHINE_PTX
#define MIPS_2008 APFLOAT_MACHINE_MIPS_2008
#define LOONGARCH APFLOAT_MACHINE_LOONGARCH
#define SPARC APFLOAT_MACHINE_SPARC
#define M68K APFLOAT_MACHINE_M68K
static const struct {
    uint32_t machine, operation, format, to;
    apfloat_halves x, y, z, bits;
    uint32_t status;
} on_machines[] = {
    /* two NaNs, of which one is signaling; an invalid sum */
    {X86, APFLOAT_ADD, 2, 0, {0x7fc00001, 0}, {0x7f800003, 0}, {0, 0}, {0x7fc00001, 0}, 0x01},
    {ARM, APFLOAT_ADD, 2, 0, {0x7fc00001, 0}, {0x7f800003, 0}, {0, 0}, {0x7fc00003, 0}, 0x01},
    {ARM_DEFAULT, APFLOAT_ADD, 2, 0, {0x3f800000, 0}, {0xff800004, 0}, {0, 0}, {0x7fc00000, 0}, 0x01},
    {ARM_ALTERNATE, APFLOAT_ADD, 2, 0, {0x7fc00001, 0}, {0x7f800003, 0}, {0, 0}, {0x7fc00001, 0}, 0x01},
    {RISC_V, APFLOAT_ADD, 2, 0, {0x3f800000, 0}, {0x7f800003, 0}, {0, 0}, {0x7fc00000, 0}, 0x01},
    {POWER, APFLOAT_ADD, 2, 0, {0xffc00002, 0}, {0x7f800003, 0}, {0, 0}, {0xffc00002, 0}, 0x01},
    {S390X, APFLOAT_ADD, 2, 0, {0x7fc00001, 0}, {0xff800004, 0}, {0, 0}, {0xffc00004, 0}, 0x01},
    {ARM_ALTERNATE_DEFAULT, APFLOAT_ADD, 2, 0, {0x7fc00001, 0}, {0x7f800003, 0}, {0, 0}, {0xffc00000, 0}, 0x01},
    {WEBASSEMBLY, APFLOAT_ADD, 2, 0, {0xffc00002, 0}, {0x3f800000, 0}, {0, 0}, {0x7fc00000, 0}, 0x00},
    {PTX, APFLOAT_ADD, 2, 0, {0xffc00002, 0}, {0x3f800000, 0}, {0, 0}, {0x7fffffff, 0}, 0x00},
    {MIPS_2008, APFLOAT_ADD, 2, 0, {0x7fc00001, 0}, {0xff800004, 0}, {0, 0}, {0xffc00004, 0}, 0x01},
    {SPARC, APFLOAT_ADD, 2, 0, {0x7fc00001, 0}, {0xffc00002, 0}, {0, 0}, {0xffc00002, 0}, 0x00},
    {M68K, APFLOAT_SUB, 9, 0, {UINT64_C(0x8000000000000000), 0x7fff}, {UINT64_C(0x8000000000000000), 0x7fff}, {0, 0},
     {UINT64_MAX, 0x7fff}, 0x01},
    {X86, APFLOAT_SUB, 2, 0, {0x7f800000, 0}, {0x7f800000, 0}, {0, 0}, {0xffc00000, 0}, 0x01},
    {ARM, APFLOAT_SUB, 2, 0, {0x7f800000, 0}, {0x7f800000, 0}, {0, 0}, {0x7fc00000, 0}, 0x01},
    {X87, APFLOAT_ADD, 9, 0, {UINT64_C(0xc000000000000001), 0x7fff}, {UINT64_C(0x8000000000000003), 0x7fff}, {0, 0},
     {UINT64_C(0xc000000000000001), 0x7fff}, 0x01},
    {X87, APFLOAT_ADD, 9, 0, {UINT64_C(0x4000000000000000), 0x3fff}, {UINT64_C(0x8000000000000000), 0x3fff}, {0, 0},
     {UINT64_C(0xc000000000000000), 0xffff}, 0x01},
    /* the other operations on values */
    {X86, APFLOAT_MUL, 2, 0, {0, 0}, {0x7f800000, 0}, {0, 0}, {0xffc00000, 0}, 0x01},
    {X86, APFLOAT_DIV, 2, 0, {0x3f800000, 0}, {0, 0}, {0, 0}, {0x7f800000, 0}, 0x02},
    {S390X, APFLOAT_REM, 2, 0, {0x3f800000, 0}, {0, 0}, {0, 0}, {0x7fc00000, 0}, 0x01},
    {S390X, APFLOAT_MOD, 2, 0, {0xffc00002, 0}, {0x7f800003, 0}, {0, 0}, {0x7fc00003, 0}, 0x01},
    {X86, APFLOAT_FMA, 2, 0, {0x7f800000, 0}, {0, 0}, {0x7fc00001, 0}, {0x7fc00001, 0}, 0x00},
    {ARM, APFLOAT_FMA, 2, 0, {0x7f800000, 0}, {0, 0}, {0x7fc00001, 0}, {0x7fc00000, 0}, 0x01},
    {ARM, APFLOAT_FMA, 2, 0, {0x7fc00001, 0}, {0x3f800000, 0}, {0xffc00002, 0}, {0xffc00002, 0}, 0x00},
    {POWER, APFLOAT_FMA, 2, 0, {0x3f800000, 0}, {0xffc00002, 0}, {0x7fc00001, 0}, {0x7fc00001, 0}, 0x00},
    {ARM_ALTERNATE_DEFAULT, APFLOAT_FMA, 2, 0, {0x7f800000, 0}, {0, 0}, {0x7fc00001, 0}, {0xffc00000, 0}, 0x00},
    {LOONGARCH, APFLOAT_FMA, 2, 0, {0x7f800000, 0}, {0, 0}, {0x7fc00001, 0}, {0x7fc00001, 0}, 0x01},
    {X86, APFLOAT_SQRT, 2, 0, {0xbf800000, 0}, {0, 0}, {0, 0}, {0xffc00000, 0}, 0x01},
    {RISC_V, APFLOAT_ROUND_TO_INTEGRAL, 2, 0, {0x3fc00000, 0}, {0, 0}, {0, 0}, {0x40000000, 0}, 0x10},
    {RISC_V, APFLOAT_INTEGRAL, 2, 0, {0x3fc00000, 0}, {0, 0}, {0, 0}, {0x40000000, 0}, 0x00},
    {RISC_V, APFLOAT_INTEGRAL, 2, 0, {0xff800004, 0}, {0, 0}, {0, 0}, {0x7fc00000, 0}, 0x01},
    {ARM, APFLOAT_CONVERT, 3, 2, {UINT64_C(0xfff8000020000000), 0}, {0, 0}, {0, 0}, {0xffc00001, 0}, 0x00},
    {RISC_V, APFLOAT_CONVERT, 3, 2, {UINT64_C(0x7ff4000000000000), 0}, {0, 0}, {0, 0}, {0x7fc00000, 0}, 0x01},
    /* integers: NaNs, out of range, and to nearest */
    {X86, APFLOAT_TO_I128, 2, 32, {0x7fc00001, 0}, {0, 0}, {0, 0},
     {UINT64_C(0xffffffff80000000), UINT64_MAX}, 0x01},
    {ARM, APFLOAT_TO_I128, 2, 32, {0xffc00002, 0}, {0, 0}, {0, 0}, {0, 0}, 0x01},
    {RISC_V, APFLOAT_TO_I128, 2, 32, {0xffc00002, 0}, {0, 0}, {0, 0}, {0x7fffffff, 0}, 0x01},
    {S390X, APFLOAT_TO_I128, 2, 32, {0x7f800000, 0}, {0, 0}, {0, 0}, {0x7fffffff, 0}, 0x11},
    {SPARC, APFLOAT_TO_I128, 2, 32, {0x7fc00001, 0}, {0, 0}, {0, 0}, {0x7fffffff, 0}, 0x01},
    {SPARC, APFLOAT_TO_I128, 2, 32, {0xffc00002, 0}, {0, 0}, {0, 0}, {UINT64_C(0xffffffff80000000), UINT64_MAX}, 0x01},
    {X86, APFLOAT_TO_U128, 2, 32, {0xbf800000, 0}, {0, 0}, {0, 0}, {0xffffffff, 0}, 0x01},
    {ARM, APFLOAT_TO_U128, 2, 32, {0xbf800000, 0}, {0, 0}, {0, 0}, {0, 0}, 0x01},
    {X86, APFLOAT_TO_I128, 2, 32, {0x3fc00000, 0}, {0, 0}, {0, 0}, {2, 0}, 0x10},
    /* minima and maxima */
    {X86, APFLOAT_LEAST, 2, APFLOAT_RULE_SECOND, {0, 0}, {0x80000000, 0}, {0, 0}, {0x80000000, 0}, 0x00},
    {X86, APFLOAT_GREATEST, 2, APFLOAT_RULE_SECOND, {0x7fc00001, 0}, {0x3f800000, 0}, {0, 0}, {0x3f800000, 0}, 0x01},
    {POWER, APFLOAT_LEAST, 2, APFLOAT_RULE_SECOND_QUIETLY, {0x3f800000, 0}, {0x7fc00001, 0}, {0, 0},
     {0x7fc00001, 0}, 0x00},
    {POWER, APFLOAT_GREATEST, 2, APFLOAT_RULE_FIRST_NAN, {0x80000000, 0}, {0, 0}, {0, 0}, {0, 0}, 0x00},
    {ARM, APFLOAT_LEAST, 2, APFLOAT_RULE_NUMBER_2008, {0x7fc00001, 0}, {0x3f800000, 0}, {0, 0}, {0x3f800000, 0}, 0x00},
    {RISC_V, APFLOAT_LEAST, 2, APFLOAT_RULE_NUMBER_2019, {0x7f800003, 0}, {0x3f800000, 0}, {0, 0},
     {0x3f800000, 0}, 0x01},
    {ARM, APFLOAT_GREATEST, 2, APFLOAT_RULE_PROPAGATED, {0x3f800000, 0}, {0x7fc00001, 0}, {0, 0},
     {0x7fc00001, 0}, 0x00},
    /* 2^-14 - 2^-34 in binary16: tiny, and no more when it is rounded to 11 digits. The code's rule comes first. */
    {ARM, APFLOAT_MUL, 1, 0, {0x3bfe, 0}, {0x0401, 0}, {0, 0}, {0x0400, 0}, 0x18},
    {X86, APFLOAT_MUL, 1, 0, {0x3bfe, 0}, {0x0401, 0}, {0, 0}, {0x0400, 0}, 0x10},
    {ARM, APFLOAT_MUL, 1 | APFLOAT_IEEE_FLAGS, 0, {0x3bfe, 0}, {0x0401, 0}, {0, 0}, {0x0400, 0}, 0x10},
    {X86, APFLOAT_MUL, 1 | APFLOAT_IEEE_FLAGS | APFLOAT_TINY_BEFORE_ROUNDING, 0, {0x3bfe, 0}, {0x0401, 0}, {0, 0},
     {0x0400, 0}, 0x18}};

/* How many of them agree. */
static unsigned machines(void) {
    unsigned count = 0;
    for (size_t i = 0; i < COUNT(on_machines); i++) {
        apfloat_answer answer = before;
        uint32_t code = apfloat_machine(on_machines[i].machine, on_machines[i].operation, on_machines[i].format,
                                        APFLOAT_NEAREST_EVEN, on_machines[i].to, on_machines[i].x, on_machines[i].y,
                                        on_machines[i].z, &answer);
        if (code == APFLOAT_ANSWERED && answer.bits.low == on_machines[i].bits.low &&
            answer.bits.high == on_machines[i].bits.high && answer.status == on_machines[i].status &&
            answer.number == 0)
            count++;
        else
            printf("machines: row %u differs\n", (unsigned)i);
    }
    return count;
}

/* 1 + 1, with each field of the answer written. */
static bool adds_ones(void) {
    const apfloat_halves one = {UINT64_C(0x3ff0000000000000), 0};
    apfloat_answer answer = before;
    uint32_t code = apfloat_add(APFLOAT_DOUBLE, APFLOAT_NEAREST_EVEN, one, one, &answer);
    return code == APFLOAT_ANSWERED && answer.bits.low == UINT64_C(0x4000000000000000) && answer.bits.high == 0 &&
           answer.status == 0 && answer.number == 0;
}

int main(void) {
    static char line[4096], copy[4096];
    while (fgets(line, sizeof line, stdin)) {
        line[strcspn(line, "\r\n")] = '\0';
        strcpy(copy, line);
        char *columns[COLUMNS];
        if (line[0] != '#' && split(copy, columns, COLUMNS) == COLUMNS && !check(columns))
            printf("differs: %s\n", line);
    }
    for (size_t i = 0; i < COUNT(calls); i++)
        if (agreeing[i]) printf("%s: %u rows agree\n", calls[i].name, agreeing[i]);
    printf("%u errors agree\n", refusals());
    printf("1 + 1 %s\n", adds_ones() ? "agrees" : "differs");
    printf("%u formats' negative NaNs agree\n", negative_nans());
    printf("%u answers of machines agree\n", machines());
    printf("%u texts of errors agree, and version %u\n", error_texts(), apfloat_version());
    printf("%u errors of arrays agree\n", array_refusals());
    printf("%u operations by tables agree\n", tables());
    printf("%u conversions by tables agree\n", conversions_by_tables());
    printf("%u conversions that saturate agree\n", saturated());
    printf("%u arrays of each length agree\n", lengths_agree());
    printf("%u conversions of storage formats agree\n", stored_and_loaded());
    printf("%u formats of blocks agree\n", blocks_agree());
    printf("%u errors of blocks agree\n", block_refusals());
    return 0;
}
