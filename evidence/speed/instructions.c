/* Calls of the library for C, for a counter of instructions: evidence/speed/instructions runs it under callgrind.

   A cell is a call on operands of one kind. The counter has a count for each call of `measured`, which makes the calls
   of a cell, or as many of a function that only returns: the difference is what the library executes in the cell. For
   each cell a line says the call, the format, what the operands are like, how many calls there are, of how many values
   each, and which of the counts are that of the loop alone and that of the cell.

   The operands are drawn from a seed. */
#include "apfloat.h"

#include <stdio.h>
#include <stdlib.h>
#include <string.h>

typedef unsigned __int128 u128;
typedef void function(void);

/* Only returns; memory.s has it. */
void nothing(void);

/* ---- formats */

struct format {
    const char *name;
    uint32_t code;
    int bytes, digits, exponent_bits;
};

/* `digits` are those that are encoded. A pair of doubles is drawn as its high double, and an x87 value with its integer
   bit. */
static const struct format FORMATS[] = {
    {"half", APFLOAT_HALF, 2, 10, 5},
    {"bfloat", APFLOAT_BFLOAT, 2, 7, 8},
    {"single", APFLOAT_SINGLE, 4, 23, 8},
    {"double", APFLOAT_DOUBLE, 8, 52, 11},
    {"double+ieee", APFLOAT_DOUBLE | APFLOAT_IEEE_FLAGS, 8, 52, 11},
    {"x87", APFLOAT_X87, 10, 63, 15},
    {"quad", APFLOAT_QUAD, 16, 112, 15},
    {"dd", APFLOAT_DOUBLE_PAIR, 16, 52, 11},
    {"e5m2", APFLOAT_E5M2, 1, 2, 5},
    {"e4m3fn", APFLOAT_E4M3FN, 1, 3, 4},
    {"e4m3fnuz", APFLOAT_E4M3FNUZ, 1, 3, 4},
    {"e4m3", APFLOAT_E4M3, 1, 3, 4},
    {"e5m2fnuz", APFLOAT_E5M2FNUZ, 1, 2, 5},
    {"e4m3b11fnuz", APFLOAT_E4M3B11FNUZ, 1, 3, 4},
    {"tf32", APFLOAT_TF32, 4, 10, 8},
    {"e2m1fn", APFLOAT_E2M1FN, 1, 1, 2},
    {"e2m3fn", APFLOAT_E2M3FN, 1, 3, 2},
    {"e3m2fn", APFLOAT_E3M2FN, 1, 2, 3},
    {"e3m4", APFLOAT_E3M4, 1, 4, 3},
    {"e8m0fnu", APFLOAT_E8M0FNU, 1, 0, 8},
    {"ue4m3", APFLOAT_UE4M3, 1, 3, 4},
};
enum { ALL = sizeof FORMATS / sizeof *FORMATS, COMPUTED = 10, WITH_ARITHMETIC = 15 };

static const struct format *named(const char *name)
{
    for (int i = 0; i < ALL; i++)
        if (!strcmp(FORMATS[i].name, name))
            return &FORMATS[i];
    abort();
}

static int is_pair(const struct format *format)
{
    return format->code == APFLOAT_DOUBLE_PAIR;
}

static int bias(const struct format *format)
{
    return (1 << (format->exponent_bits - 1)) - 1;
}

/* ---- operands */

/* Twice the most that are drawn go by tables in memory that is lent, so that these pay. */
enum { CALLS = 128, MOST = 1 << 17, BY_TABLE = 2 * MOST };

static uint64_t state;

/* splitmix64 */
static uint64_t draw(void)
{
    uint64_t z = state += UINT64_C(0x9e3779b97f4a7c15);
    z = (z ^ z >> 30) * UINT64_C(0xbf58476d1ce4e5b9);
    z = (z ^ z >> 27) * UINT64_C(0x94d049bb133111eb);
    return z ^ z >> 31;
}

static int below(int limit)
{
    return (int)(draw() % (uint64_t)limit);
}

static u128 wide_draw(void)
{
    u128 high = draw();
    return high << 64 | draw();
}

/* The value with that encoded exponent, which is taken into the range of numbers. */
static u128 encoded(const struct format *format, int negative, int exponent, u128 fraction)
{
    int most = (1 << format->exponent_bits) - 2, digits = format->digits;
    exponent = exponent < 0 ? 0 : exponent > most ? most : exponent;
    u128 bits = (u128)exponent << digits | (fraction & (((u128)1 << digits) - 1));
    if (format->code == APFLOAT_X87)
        bits = (u128)exponent << 64 | (u128)(exponent > 0) << 63 | (uint64_t)fraction >> 1;
    u128 sign = (u128)(negative && format->code != APFLOAT_E8M0FNU && format->code != APFLOAT_UE4M3)
                << (digits + format->exponent_bits + (format->code == APFLOAT_X87));
    if (!is_pair(format))
        return sign | bits;
    int low = exponent - 54 - below(3);
    return (low > 0 ? (u128)encoded(named("double"), below(2), low, draw()) << 64 : 0) | sign | bits;
}

static u128 special(const struct format *format)
{
    int digits = format->digits, past = (1 << format->exponent_bits) - 1, bits = digits + format->exponent_bits;
    u128 one_digit = 1, integer_bit = 0;
    if (format->code == APFLOAT_X87) {
        integer_bit = (u128)1 << 63;
        digits = 64;
        bits++;
    }
    u128 sign = (u128)below(2) << bits, infinity = (u128)past << digits | integer_bit;
    switch (below(8)) {
    case 0: return sign | infinity | one_digit << (format->digits - 1);
    case 1: return sign | infinity | one_digit;
    case 2: return sign | infinity;
    case 3: return sign;
    case 4: return sign | (infinity - integer_bit - 1);
    case 5: return sign | one_digit;
    case 6: return sign | (u128)bias(format) << digits | integer_bit;
    default: return sign | (wide_draw() & ((one_digit << bits) - 1));
    }
}

static apfloat_halves halves(u128 bits)
{
    return (apfloat_halves){(uint64_t)bits, (uint64_t)(bits >> 64)};
}

enum set { NORMAL, DENORMAL, SPECIAL, MODES, SETS };
static const char *const SET_NAMES[] = {"normal", "denormal", "special", "other modes"};

/* Exponents near 0, or near the least one: a quarter of these is denormal. */
static u128 operand(const struct format *format, enum set set)
{
    if (set == SPECIAL)
        return special(format);
    if (set == DENORMAL)
        return encoded(format, below(2), below(4) ? below(4) + 1 : 0, wide_draw());
    return encoded(format, below(2), bias(format) + below(9) - 4, wide_draw());
}

/* What the loops below pass on. */
static struct {
    uint32_t format, to, operation, machine, modes[CALLS], width;
    int32_t power;
    apfloat_halves x[CALLS], y[CALLS], z[CALLS];
    apfloat_answer answer;
    apfloat_text text;
    const uint8_t *texts[CALLS];
    size_t lengths[CALLS];
    uint32_t mode;
    const uint8_t *xs, *ys, *zs;
    size_t xs_length, ys_length, zs_length, results_length, codes_length, block;
    int calls;
    apfloat_array_answer array_answer;
} now;

static uint8_t values[3][16 * MOST], results[16 * MOST], codes[MOST], table[1 << 19];

static void draw_modes(enum set set)
{
    for (int i = 0; i < CALLS; i++)
        now.modes[i] = set == MODES ? APFLOAT_UPWARD + (uint32_t)i % 4 : APFLOAT_NEAREST_EVEN;
}

/* A second operand near the least exponent would leave little of a product or a quotient. */
static void draw_operands(const struct format *format, enum set set)
{
    now.format = format->code;
    draw_modes(set);
    for (int i = 0; i < CALLS; i++) {
        now.x[i] = halves(operand(format, set));
        now.y[i] = halves(operand(format, set == DENORMAL && below(2) ? NORMAL : set));
        now.z[i] = halves(operand(format, set));
    }
}

/* ---- loops, one for each list of parameters */

#define LOOP(NAME, TYPES, ARGUMENTS)                        \
    static uint32_t NAME(function *called)                  \
    {                                                       \
        uint32_t(*call) TYPES = (uint32_t(*) TYPES)called;  \
        uint32_t code = 0;                                  \
        for (int i = 0; i < now.calls; i++)                 \
            code |= call ARGUMENTS;                         \
        return code;                                        \
    }

typedef apfloat_halves bits;
typedef apfloat_answer *out;
typedef apfloat_array_answer *counts;
typedef const uint8_t *bytes;

LOOP(of_one, (uint32_t, bits, out), (now.format, now.x[i], &now.answer))
LOOP(of_two, (uint32_t, bits, bits, out), (now.format, now.x[i], now.y[i], &now.answer))
LOOP(rounded_one, (uint32_t, uint32_t, bits, out), (now.format, now.modes[i], now.x[i], &now.answer))
LOOP(rounded_two, (uint32_t, uint32_t, bits, bits, out), (now.format, now.modes[i], now.x[i], now.y[i], &now.answer))
LOOP(rounded_three, (uint32_t, uint32_t, bits, bits, bits, out),
     (now.format, now.modes[i], now.x[i], now.y[i], now.z[i], &now.answer))
LOOP(converted, (uint32_t, uint32_t, uint32_t, bits, out),
     (now.format, now.modes[i], now.to, now.x[i], &now.answer))
LOOP(of_width, (uint32_t, uint32_t, bits, uint32_t, out),
     (now.format, now.modes[i], now.x[i], now.width, &now.answer))
LOOP(of_power, (uint32_t, uint32_t, bits, int32_t, out),
     (now.format, now.modes[i], now.x[i], now.power, &now.answer))
LOOP(of_choices, (uint32_t, uint32_t, uint32_t, bits, bits, out),
     (now.format, (uint32_t)i % 4, (uint32_t)i / 4 % 2, now.x[i], now.y[i], &now.answer))
LOOP(with_payload, (uint32_t, uint32_t, bits, out), (now.format, (uint32_t)i % 2, now.x[i], &now.answer))
LOOP(in_another, (uint32_t, uint32_t, uint32_t, uint32_t, bits, bits, bits, out),
     (now.operation, now.format, now.modes[i], now.to, now.x[i], now.y[i], now.z[i], &now.answer))
LOOP(on_machine, (uint32_t, uint32_t, uint32_t, uint32_t, uint32_t, bits, bits, bits, out),
     (now.machine, now.operation, now.format, now.modes[i], now.to, now.x[i], now.y[i], now.z[i], &now.answer))
LOOP(of_text, (uint32_t, uint32_t, bytes, size_t, out),
     (now.format, now.modes[i], now.texts[i], now.lengths[i], &now.answer))
LOOP(to_text, (uint32_t, bits, apfloat_text *), (now.format, now.x[i], &now.text))
LOOP(array_converted, (uint32_t, uint32_t, uint32_t, bytes, size_t, uint8_t *, size_t, counts),
     (now.format, now.mode, now.to, now.xs, now.xs_length, results, now.results_length, &now.array_answer))
LOOP(array_by_table, (uint32_t, uint32_t, uint32_t, bytes, size_t, uint8_t *, size_t, uint8_t *, size_t, counts),
     (now.format, now.mode, now.to, now.xs, now.xs_length, results, now.results_length, table, sizeof table,
      &now.array_answer))
LOOP(arrays_mapped,
     (uint32_t, uint32_t, uint32_t, bytes, size_t, bytes, size_t, bytes, size_t, uint8_t *, size_t, counts),
     (now.format, now.mode, now.operation, now.xs, now.xs_length, now.ys, now.ys_length, now.zs, now.zs_length, results,
      now.results_length, &now.array_answer))
LOOP(arrays_by_table,
     (uint32_t, uint32_t, uint32_t, bytes, size_t, bytes, size_t, bytes, size_t, uint8_t *, size_t, uint8_t *, size_t,
      counts),
     (now.format, now.mode, now.operation, now.xs, now.xs_length, now.ys, now.ys_length, now.zs, now.zs_length, results,
      now.results_length, table, sizeof table, &now.array_answer))
LOOP(quantized,
     (uint32_t, uint32_t, uint32_t, size_t, bytes, size_t, uint8_t *, size_t, uint8_t *, size_t, counts),
     (now.format, now.mode, now.to, now.block, now.xs, now.xs_length, results, now.results_length, codes,
      now.codes_length, &now.array_answer))
LOOP(dequantized,
     (uint32_t, uint32_t, uint32_t, size_t, bytes, size_t, bytes, size_t, uint8_t *, size_t, counts),
     (now.format, now.mode, now.to, now.block, now.xs, now.xs_length, now.ys, now.ys_length, results,
      now.results_length, &now.array_answer))
LOOP(packed, (uint32_t, bytes, size_t, uint8_t *, size_t),
     (now.format, now.xs, now.xs_length, results, now.results_length))

typedef uint32_t loop(function *);

/* What the counter counts, and how many such counts there are. */
__attribute__((noinline)) uint32_t measured(loop *loop, function *called)
{
    uint32_t code = loop(called);
    __asm__ volatile("" : "+r"(code));
    return code;
}
static int counted;

/* The count of a loop that calls `nothing`, made once for each loop and number of calls. */
static int count_of_loop(loop *loop)
{
    enum { LOOPS = 64 };
    static struct {
        uint32_t (*loop)(function *);
        int calls, count;
    } known[LOOPS];
    int k = 0;
    while (known[k].loop && (known[k].loop != loop || known[k].calls != now.calls))
        k++;
    if (!known[k].loop) {
        if (k == LOOPS - 1)
            abort();
        known[k].loop = loop;
        known[k].calls = now.calls;
        known[k].count = counted++;
        measured(loop, nothing);
    }
    return known[k].count;
}

/* `called` by `loop`, so many times, each of so many values. */
static void count(const char *name, const char *format, const char *operands, loop *loop, function *called, int calls,
                  int each)
{
    now.calls = calls;
    int of_loop = count_of_loop(loop);
    if (measured(loop, called)) {
        fprintf(stderr, "%s %s %s is refused\n", name, format, operands);
        exit(1);
    }
    printf("%s\t%s\t%s\t%d\t%d\t%d\t%d\n", name, format, operands, calls, each, of_loop, counted++);
}

/* ---- cells of calls */

struct call {
    const char *name;
    loop *loop;
    function *called;
};
#define CALL(LOOP, NAME) {#NAME, LOOP, (function *)apfloat_##NAME}

/* In each of the first formats, with all sets of operands. */
static const struct call MAIN_CALLS[] = {
    CALL(rounded_two, add),  CALL(rounded_two, sub),       CALL(rounded_two, mul),
    CALL(rounded_two, div),  CALL(rounded_three, fma),     CALL(rounded_one, sqrt),
    CALL(of_power, scalbn),  CALL(rounded_one, round_to_integral),
};
/* Without a mode. */
static const struct call PLAIN_CALLS[] = {
    CALL(of_two, rem),       CALL(of_two, mod),     CALL(of_two, compare),  CALL(of_one, classify),
    CALL(of_one, next_up),   CALL(of_one, ilogb),   CALL(of_two, minimum),
};
/* In single, double and quad alone. */
static const struct call OTHER_CALLS[] = {
    CALL(of_one, next_down),    CALL(of_one, is_negative),    CALL(of_one, neg),         CALL(of_one, abs),
    CALL(of_two, copy_sign),    CALL(of_two, min),            CALL(of_two, max),         CALL(of_two, maximum),
    CALL(with_payload, qnan),   CALL(with_payload, snan),     CALL(of_two, total_order), CALL(of_choices, extremum),
    CALL(rounded_one, log_b),   CALL(of_power, scale_b),      CALL(rounded_one, frexp),  CALL(rounded_one, integral),
    CALL(of_choices, compare_predicate),
};
#define EACH(CALLED, ARRAY) \
    for (const struct call *CALLED = ARRAY; CALLED < ARRAY + sizeof ARRAY / sizeof *ARRAY; CALLED++)

static void count_call(const struct call *call, const struct format *format, enum set set)
{
    draw_operands(format, set);
    count(call->name, format->name, SET_NAMES[set], call->loop, call->called, CALLS, 1);
}

static void count_calls(void)
{
    now.power = 3;
    for (const struct format *format = FORMATS; format < FORMATS + COMPUTED; format++) {
        EACH(call, MAIN_CALLS)
            for (enum set set = NORMAL; set < SETS; set++)
                if (!is_pair(format) || call->loop != rounded_three)
                    count_call(call, format, set);
        EACH(call, PLAIN_CALLS)
            for (enum set set = NORMAL; set < MODES; set++)
                count_call(call, format, set);
    }
    static const char *const THREE[] = {"single", "double", "quad"};
    for (int i = 0; i < 3; i++)
        EACH(call, OTHER_CALLS)
            for (enum set set = NORMAL; set < MODES; set++)
                count_call(call, named(THREE[i]), set);
}

/* Integers of at most so many digits. */
static void count_integers(void)
{
    static const int DIGITS[] = {10, 64, 128};
    static const char *const TO[] = {"10 digits", "64 digits", "128 digits"};
    for (const struct format *format = FORMATS; format < FORMATS + COMPUTED; format++)
        for (int k = 0; k < 3; k++) {
            now.format = format->code;
            draw_modes(NORMAL);
            for (int i = 0; i < CALLS; i++)
                now.x[i] = halves(wide_draw() >> (128 - DIGITS[k]) >> below(DIGITS[k]));
            count("from_u128", format->name, TO[k], rounded_one, (function *)apfloat_from_u128, CALLS, 1);
            for (int i = 0; i < CALLS; i += 2)
                now.x[i] = halves(-((u128)now.x[i].high << 64 | now.x[i].low));
            count("from_i128", format->name, TO[k], rounded_one, (function *)apfloat_from_i128, CALLS, 1);
            for (int i = 0; i < CALLS; i++)
                now.x[i] = halves(encoded(format, 0, bias(format) - 2 + below(DIGITS[k] + 1), wide_draw()));
            now.width = (uint32_t)DIGITS[k];
            count("to_u128", format->name, TO[k], of_width, (function *)apfloat_to_u128, CALLS, 1);
            for (int i = 0; i < CALLS; i++)
                now.x[i] = halves(encoded(format, below(2), bias(format) - 2 + below(DIGITS[k] + 1), wide_draw()));
            count("to_i128", format->name, TO[k], of_width, (function *)apfloat_to_i128, CALLS, 1);
        }
}

static const char *pair_of_names(const struct format *format, const struct format *to)
{
    static char name[40];
    snprintf(name, sizeof name, "%s to %s", format->name, to->name);
    return name;
}

/* The denormal operands of a conversion are those that are denormal in the format that they are converted to. */
static void count_conversions(void)
{
    for (const struct format *format = FORMATS; format < FORMATS + WITH_ARITHMETIC; format++)
        for (const struct format *to = FORMATS; to < FORMATS + WITH_ARITHMETIC; to++) {
            int is_main = format < FORMATS + COMPUTED && to < FORMATS + COMPUTED;
            if (is_pair(format) || is_pair(to) || (!is_main && format != named("single") && to != named("single")))
                continue;
            for (enum set set = NORMAL; set < SETS; set++) {
                draw_operands(format, set);
                now.to = to->code;
                for (int i = 0; i < CALLS && set == DENORMAL; i++) {
                    int exponent = bias(format) - bias(to) + 2 - below(to->digits + 4);
                    now.x[i] = halves(encoded(format, below(2), exponent, wide_draw()));
                }
                count("convert", pair_of_names(format, to), SET_NAMES[set], converted, (function *)apfloat_convert,
                      CALLS, 1);
            }
        }
}

static void count_to_formats(void)
{
    static const struct {
        const char *name;
        uint32_t code;
    } OPERATIONS[] = {{"sum to", APFLOAT_SUM_TO},           {"product to", APFLOAT_PRODUCT_TO},
                      {"quotient to", APFLOAT_QUOTIENT_TO}, {"fused sum to", APFLOAT_FUSED_SUM_TO},
                      {"root to", APFLOAT_ROOT_TO}};
    static const char *const PAIRS[][2] = {{"double", "single"}, {"single", "double"}, {"quad", "double"},
                                           {"single", "half"}};
    for (size_t k = 0; k < sizeof PAIRS / sizeof *PAIRS; k++)
        for (size_t operation = 0; operation < sizeof OPERATIONS / sizeof *OPERATIONS; operation++)
            for (enum set set = NORMAL; set < MODES; set++) {
                const struct format *format = named(PAIRS[k][0]), *to = named(PAIRS[k][1]);
                draw_operands(format, set);
                now.to = to->code;
                now.operation = OPERATIONS[operation].code;
                count(OPERATIONS[operation].name, pair_of_names(format, to), SET_NAMES[set], in_another,
                      (function *)apfloat_to_format, CALLS, 1);
            }
}

static void count_machines(void)
{
    static const struct {
        const char *name;
        uint32_t code, to;
    } OPERATIONS[] = {{"x86 add", APFLOAT_ADD, 0},
                      {"x86 mul", APFLOAT_MUL, 0},
                      {"x86 div", APFLOAT_DIV, 0},
                      {"x86 rem", APFLOAT_REM, 0},
                      {"x86 fma", APFLOAT_FMA, 0},
                      {"x86 sqrt", APFLOAT_SQRT, 0},
                      {"x86 integral", APFLOAT_ROUND_TO_INTEGRAL, 0},
                      {"x86 to half", APFLOAT_CONVERT, APFLOAT_HALF},
                      {"x86 to double", APFLOAT_CONVERT, APFLOAT_DOUBLE},
                      {"x86 to i64", APFLOAT_TO_I128, 64},
                      {"x86 to u32", APFLOAT_TO_U128, 32},
                      {"x86 least", APFLOAT_LEAST, APFLOAT_RULE_SECOND}};
    static const struct {
        const char *name;
        uint32_t code;
    } OTHERS[] = {{"arm fma", APFLOAT_MACHINE_ARM}, {"riscv fma", APFLOAT_MACHINE_RISC_V},
                  {"power fma", APFLOAT_MACHINE_POWER}, {"s390x fma", APFLOAT_MACHINE_S390X}};
    static const char *const NAMES[] = {"half", "single", "double", "x87", "quad"};
    for (size_t k = 0; k < sizeof NAMES / sizeof *NAMES; k++) {
        const struct format *format = named(NAMES[k]);
        for (size_t operation = 0; operation < sizeof OPERATIONS / sizeof *OPERATIONS; operation++)
            for (enum set set = NORMAL; set < MODES; set++) {
                draw_operands(format, set);
                now.machine = APFLOAT_MACHINE_X86;
                now.operation = OPERATIONS[operation].code;
                now.to = OPERATIONS[operation].to;
                count(OPERATIONS[operation].name, format->name, SET_NAMES[set], on_machine, (function *)apfloat_machine,
                      CALLS, 1);
            }
        for (size_t other = 0; other < sizeof OTHERS / sizeof *OTHERS; other++)
            for (enum set set = NORMAL; set < MODES; set++) {
                draw_operands(format, set);
                now.machine = OTHERS[other].code;
                now.operation = APFLOAT_FMA;
                count(OTHERS[other].name, format->name, SET_NAMES[set], on_machine, (function *)apfloat_machine, CALLS,
                      1);
            }
    }
}

/* ---- cells of texts */

enum { LONGEST = 1200 };
static char texts[CALLS][LONGEST];

static void use_texts(void)
{
    for (int i = 0; i < CALLS; i++) {
        now.texts[i] = (const uint8_t *)texts[i];
        now.lengths[i] = strlen(texts[i]);
    }
}

static void count_texts_of(const struct format *format, const char *operands)
{
    use_texts();
    count("parse_decimal", format->name, operands, of_text, (function *)apfloat_parse_decimal, CALLS, 1);
}

static void draw_digits(char *to, int digits)
{
    for (int k = 0; k < digits; k++)
        to[k] = (char)('0' + (k ? below(10) : 1 + below(9)));
    to[digits] = 0;
}

/* The exact decimals of values of `format`, or of the middle of two, which are doubles. */
static void write_exact(const struct format *format, int middle)
{
    int cut = 52 - format->digits;
    for (int i = 0; i < CALLS; i++) {
        uint64_t fraction = draw() >> 12 >> cut << cut | (middle ? UINT64_C(1) << (cut - 1) : 0);
        uint64_t word = (uint64_t)encoded(named("double"), below(2), 1023 + below(25) - 12, fraction);
        double value;
        memcpy(&value, &word, sizeof value);
        snprintf(texts[i], LONGEST, "%.100g", value);
    }
}

static void count_texts(void)
{
    static const char *const NAMES[] = {"half", "bfloat", "single", "double", "x87", "quad", "e4m3fn"};
    draw_modes(NORMAL);
    for (size_t k = 0; k < sizeof NAMES / sizeof *NAMES; k++) {
        const struct format *format = named(NAMES[k]);
        char digits[LONGEST];
        int exponents = format->exponent_bits < 9 ? 1 << (format->exponent_bits - 1) : 1 << 9;
        /* As Rust writes them, and read again. */
        static const char *const SHORT[] = {"near 1", "any exponent", "denormal", "special"};
        for (int set = 0; set < 4; set++) {
            for (int i = 0; i < CALLS; i++) {
                enum set like = set == 2 ? DENORMAL : set == 3 ? SPECIAL : NORMAL;
                u128 bits = operand(format, like);
                if (set == 1)
                    bits = encoded(format, below(2), bias(format) + below(exponents) - exponents / 2, wide_draw());
                now.x[i] = halves(bits);
            }
            now.format = format->code;
            count("shortest", format->name, SHORT[set], to_text, (function *)apfloat_shortest, CALLS, 1);
            for (int i = 0; i < CALLS; i++) {
                apfloat_shortest(format->code, now.x[i], &now.text);
                memcpy(texts[i], now.text.bytes, sizeof now.text.bytes);
            }
            char operands[40];
            snprintf(operands, sizeof operands, "shortest, %s", SHORT[set]);
            count_texts_of(format, operands);
        }
        for (int i = 0; i < CALLS; i++) {
            draw_digits(digits, 5);
            snprintf(texts[i], LONGEST, "%.3s.%s", digits, digits + 3);
            /* 448 is the largest value of e4m3fn. */
            if (format->exponent_bits == 4)
                texts[i][0] = '1';
        }
        count_texts_of(format, "5 digits");
        for (int i = 0; i < CALLS; i++) {
            draw_digits(digits, 17);
            snprintf(texts[i], LONGEST, "%.1s.%s", digits, digits + 1);
        }
        count_texts_of(format, "17 digits");
        for (int i = 0; i < CALLS; i++) {
            draw_digits(digits, 17);
            snprintf(texts[i], LONGEST, "%s%.1s.%se%d", i % 2 ? "-" : "", digits, digits + 1,
                     (below(exponents) - exponents / 2) / 4);
        }
        count_texts_of(format, "17 digits and an exponent");
        for (int i = 0; i < CALLS; i++) {
            draw_digits(digits, 300);
            snprintf(texts[i], LONGEST, "%.2s.%s", digits, digits + 2);
        }
        count_texts_of(format, "300 digits");
        if (format->digits <= 52) {
            write_exact(format, 0);
            count_texts_of(format, "exact");
        }
        if (format->digits < 52) {
            write_exact(format, 1);
            count_texts_of(format, "middle of two");
        }
        for (int i = 0; i < CALLS; i++)
            snprintf(texts[i], LONGEST, "-0x1.%llxp-%d", (unsigned long long)draw() >> 16, below(4));
        use_texts();
        count("parse", format->name, "hexadecimal", of_text, (function *)apfloat_parse, CALLS, 1);
    }
}

/* ---- cells of arrays */

/* The sum of eight random numbers, nearly a normal distribution, of the deviation 1 or, times 2^-6, about 0.02; or
   random bits. */
static const char *const SPREADS[] = {"N(0, 1)", "N(0, 0.02)", "random bits"};

static uint8_t singles[3][4 * MOST];

static void draw_singles(void)
{
    for (size_t i = 0; i < MOST; i++) {
        int64_t sum = 0;
        for (int k = 0; k < 8; k++)
            sum += (int64_t)(draw() >> 32) - INT64_C(0x80000000);
        float value = (float)sum * 0x1.4p-32f, small = value * 0x1p-6f;
        uint32_t word = (uint32_t)draw();
        memcpy(singles[0] + 4 * i, &value, 4);
        memcpy(singles[1] + 4 * i, &small, 4);
        memcpy(singles[2] + 4 * i, &word, 4);
    }
}

/* The first values in `format`, by the library, or random bits. */
static void take_values(const struct format *format, int spread, int length)
{
    if (format->code == APFLOAT_SINGLE || spread == 2)
        memcpy(values[0], singles[spread], (size_t)(format->bytes * length));
    else if (apfloat_convert_array(APFLOAT_SINGLE, APFLOAT_NEAREST_EVEN, format->code, singles[spread],
                                   (size_t)(4 * length), values[0], (size_t)(format->bytes * length),
                                   &now.array_answer))
        abort();
}

static void set_array(const struct format *format, const struct format *to, int length)
{
    now.format = format->code;
    now.to = to->code;
    now.mode = APFLOAT_NEAREST_EVEN;
    now.xs = values[0];
    now.xs_length = (size_t)(format->bytes * length);
    now.results_length = (size_t)(to->bytes * length);
}

static void count_array(const struct format *format, const struct format *to, const char *operands, int length,
                        uint32_t mode)
{
    set_array(format, to, length);
    now.mode = mode;
    count("convert_array", pair_of_names(format, to), operands, array_converted, (function *)apfloat_convert_array, 1,
          length);
}

enum { USUAL_LENGTH = 4096 };

static void count_arrays_of_singles(void)
{
    const struct format *single = named("single");
    for (const struct format *to = FORMATS; to < FORMATS + ALL; to++) {
        if (is_pair(to) || to->code == APFLOAT_QUAD || to->code == APFLOAT_X87)
            continue;
        for (int spread = 2; spread >= 0; spread--) {
            take_values(single, spread, USUAL_LENGTH);
            count_array(single, to, SPREADS[spread], USUAL_LENGTH, APFLOAT_NEAREST_EVEN);
        }
        count_array(single, to, "15 values", 15, APFLOAT_NEAREST_EVEN);
        count_array(single, to, "100 values", 100, APFLOAT_NEAREST_EVEN);
        count_array(single, to, "toward zero", USUAL_LENGTH, APFLOAT_TOWARD_ZERO);
        count_array(single, to, "saturating", USUAL_LENGTH, APFLOAT_NEAREST_EVEN | APFLOAT_SATURATE_FINITE);
    }
}

static void count_arrays_of_others(void)
{
    static const char *const PAIRS[][2] = {
        {"half", "single"},     {"half", "bfloat"},     {"half", "e4m3fn"},   {"half", "e5m2"},
        {"half", "e2m1fn"},     {"bfloat", "single"},   {"bfloat", "half"},   {"bfloat", "e4m3fn"},
        {"bfloat", "e2m1fn"},   {"e4m3fn", "single"},   {"e4m3fn", "half"},   {"e4m3fn", "e5m2"},
        {"e5m2", "single"},     {"e5m2", "bfloat"},     {"e4m3fnuz", "single"}, {"tf32", "single"},
        {"double", "single"},   {"double", "half"},     {"double", "e4m3fn"}, {"double", "double"},
        {"x87", "double"},      {"quad", "double"},     {"e2m1fn", "single"}, {"e2m3fn", "single"},
        {"e3m2fn", "single"},   {"e3m4", "single"},     {"e8m0fnu", "single"}, {"ue4m3", "single"},
        {"e2m1fn", "half"},     {"e2m1fn", "bfloat"}};
    for (size_t k = 0; k < sizeof PAIRS / sizeof *PAIRS; k++) {
        const struct format *format = named(PAIRS[k][0]), *to = named(PAIRS[k][1]);
        for (int spread = 2; spread >= 0; spread -= 2) {
            take_values(format, spread, format->bytes == 2 ? MOST : USUAL_LENGTH);
            count_array(format, to, SPREADS[spread], USUAL_LENGTH, APFLOAT_NEAREST_EVEN);
        }
        count_array(format, to, "15 values", 15, APFLOAT_NEAREST_EVEN);
        if (format->bytes != 2)
            continue;
        count_array(format, to, "many", 1 << 15, APFLOAT_NEAREST_EVEN);
        if (to->code >= APFLOAT_E2M1FN)
            continue;
        memcpy(values[0] + 2 * MOST, values[0], 2 * MOST);
        set_array(format, to, BY_TABLE);
        count("convert_array_by_table", pair_of_names(format, to), "many", array_by_table,
              (function *)apfloat_convert_array_by_table, 1, BY_TABLE);
    }
}

static void count_array_conversions(void)
{
    draw_singles();
    count_arrays_of_singles();
    count_arrays_of_others();
}

static void count_maps(void)
{
    static const struct {
        const char *name;
        uint32_t code;
        int operands;
    } OPERATIONS[] = {{"array add", APFLOAT_ADD, 2}, {"array mul", APFLOAT_MUL, 2},  {"array div", APFLOAT_DIV, 2},
                      {"array rem", APFLOAT_REM, 2}, {"array fma", APFLOAT_FMA, 3}, {"array sqrt", APFLOAT_SQRT, 1}};
    enum { LENGTH = 256 };
    for (const struct format *format = FORMATS; format < FORMATS + COMPUTED; format++)
        for (size_t k = 0; k < sizeof OPERATIONS / sizeof *OPERATIONS; k++)
            for (enum set set = NORMAL; set < MODES; set++) {
                if (is_pair(format) && OPERATIONS[k].code == APFLOAT_FMA)
                    continue;
                for (int operand_of = 0; operand_of < 3; operand_of++)
                    for (int i = 0; i < LENGTH; i++) {
                        u128 word = operand(format, set == DENORMAL && operand_of == 1 && i % 2 ? NORMAL : set);
                        memcpy(values[operand_of] + i * format->bytes, &word, (size_t)format->bytes);
                    }
                now.format = format->code;
                now.mode = APFLOAT_NEAREST_EVEN;
                now.operation = OPERATIONS[k].code;
                now.xs = values[0], now.ys = values[1], now.zs = values[2];
                now.xs_length = now.results_length = (size_t)(LENGTH * format->bytes);
                now.ys_length = OPERATIONS[k].operands > 1 ? now.xs_length : 0;
                now.zs_length = OPERATIONS[k].operands > 2 ? now.xs_length : 0;
                count(OPERATIONS[k].name, format->name, SET_NAMES[set], arrays_mapped, (function *)apfloat_map_array, 1,
                      LENGTH);
            }
    take_values(named("e4m3fn"), 0, MOST);
    memcpy(values[0] + MOST, values[0], MOST);
    memcpy(values[1], values[0], BY_TABLE);
    now.format = APFLOAT_E4M3FN;
    now.operation = APFLOAT_ADD;
    now.xs_length = now.ys_length = now.results_length = BY_TABLE;
    now.zs_length = 0;
    count("array add by table", "e4m3fn", "many", arrays_by_table, (function *)apfloat_map_array_by_table, 1,
          BY_TABLE);
}

static void count_blocks(void)
{
    static const char *const PAIRS[][2] = {{"single", "e5m2"},   {"single", "e4m3fn"}, {"single", "e3m2fn"},
                                           {"single", "e2m3fn"}, {"single", "e2m1fn"}, {"half", "e4m3fn"},
                                           {"bfloat", "e2m1fn"}};
    enum { LENGTH = 2048, BLOCK = 32 };
    for (size_t k = 0; k < sizeof PAIRS / sizeof *PAIRS; k++) {
        const struct format *format = named(PAIRS[k][0]), *element = named(PAIRS[k][1]);
        for (int spread = 0; spread < 3; spread++) {
            take_values(format, spread, LENGTH);
            now.format = format->code;
            now.to = element->code;
            now.mode = APFLOAT_NEAREST_EVEN;
            now.block = BLOCK;
            now.xs = values[0];
            now.xs_length = (size_t)(format->bytes * LENGTH);
            now.results_length = LENGTH / BLOCK;
            now.codes_length = LENGTH;
            count("quantize_blocks", pair_of_names(format, element), SPREADS[spread], quantized,
                  (function *)apfloat_quantize_blocks, 1, LENGTH);
            now.format = element->code;
            now.to = format->code;
            memcpy(values[0], results, LENGTH / BLOCK);
            memcpy(values[1], codes, LENGTH);
            now.ys = values[1];
            now.xs_length = LENGTH / BLOCK;
            now.ys_length = LENGTH;
            now.results_length = (size_t)(format->bytes * LENGTH);
            count("dequantize_blocks", pair_of_names(element, format), SPREADS[spread], dequantized,
                  (function *)apfloat_dequantize_blocks, 1, LENGTH);
        }
    }
    static const char *const PACKED[] = {"e2m1fn", "e3m2fn"};
    for (int k = 0; k < 2; k++) {
        const struct format *element = named(PACKED[k]);
        int bits = 1 + element->digits + element->exponent_bits;
        for (int i = 0; i < LENGTH; i++)
            values[0][i] = (uint8_t)(draw() >> (64 - bits));
        now.format = element->code;
        now.xs = values[0];
        now.xs_length = LENGTH;
        now.results_length = (size_t)(LENGTH * bits / 8);
        count("pack_codes", element->name, "random bits", packed, (function *)apfloat_pack_codes, 1, LENGTH);
        memcpy(values[0], results, now.results_length);
        now.xs_length = now.results_length;
        now.results_length = LENGTH;
        count("unpack_codes", element->name, "random bits", packed, (function *)apfloat_unpack_codes, 1, LENGTH);
    }
}

/* Each begins from its own seed, so that a cell that is added changes no operands of the others. */
int main(void)
{
    static void (*const COUNTS[])(void) = {count_calls,    count_integers, count_conversions,       count_to_formats,
                                           count_machines, count_texts,    count_array_conversions, count_maps,
                                           count_blocks};
    for (size_t k = 0; k < sizeof COUNTS / sizeof *COUNTS; k++) {
        state = k;
        COUNTS[k]();
    }
    return 0;
}
