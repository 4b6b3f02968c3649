// Rows that the processor computes: rows SEED COUNT [--count]
//
// Draws operands from a seed, lets an x86-64 processor compute with them in its four modes, and writes each result with
// the flags that it raised as a row (docs/PROGRAMS.md). With --count it writes how often each call raised which flags
// instead. Single and double are computed by SSE and FMA, conversions to half by F16C, and x87 by the instructions of
// that name. The processor has to have FMA and AVX2.
//
// The formats are written with +ieee: the processor raises OVERFLOW in each mode, and decides after rounding whether a
// result is tiny, as if exponents had no end. No operand is a NaN. IEEE 754 leaves open which NaN an invalid operation
// returns, so any NaN is written as the positive one without payload; and what an invalid conversion to an integer
// returns, so the nearest end of the range is written.
#include "../drawing.h"

#include <stdint.h>
#include <stdio.h>
#include <stdlib.h>
#include <string.h>

// The bits of a value. While operands are drawn those of x87 are without the integer bit.
typedef unsigned __int128 Bits;

typedef struct {
    const char *name;
    int bits;
    int trailing; // digits after the integer bit
    int field_bits;
} Format;

enum { HALF, SINGLE, DOUBLE, X87, FORMAT_COUNT };
static const Format FORMATS[] = {
    {"half", 16, 10, 5}, {"single", 32, 23, 8}, {"double", 64, 52, 11}, {"x87", 80, 63, 15}};

enum { ADD, SUBTRACT, MULTIPLY, DIVIDE, ROOT, FUSE, INTEGRAL, CONVERT, FROM_INTEGER, TO_INTEGER, CALL_COUNT };
static const char *const CALLS[] = {"add_r",     "sub_r",             "mul_r",     "div_r",       "sqrt_r",
                                    "mul_add_r", "round_to_integral", "convert_r", "from_i128_r", "to_i128_r"};
static const int OPERANDS[] = {2, 2, 2, 2, 1, 3, 1, 1, 0, 1};

// In the order of the rounding control.
static const char *const MODES[] = {"even", "down", "up", "zero"};

// In the order in which rows name them, with their bits in MXCSR, and in the status word of x87.
static const struct {
    const char *name;
    unsigned bit;
} FLAGS[] = {{"INVALID_OP", 1}, {"DIV_BY_ZERO", 4}, {"OVERFLOW", 8}, {"UNDERFLOW", 16}, {"INEXACT", 32}};
enum { FLAG_COUNT = 5, INVALID = 1, DENORMAL_OPERAND = 2, RAISED = 0x3f };

// A call on values of a format in a mode. The target is that of a conversion, and the width that of an integer.
typedef struct {
    int call, format, target, width;
    unsigned mode;
    Bits operands[3];
    int64_t integer;
} Question;

static const Format *format_of_result(const Question *q) {
    return &FORMATS[q->call == CONVERT ? q->target : q->format];
}

// The bits of a value, or an integer, and what was raised.
typedef struct {
    Bits bits;
    int64_t integer;
    unsigned flags;
} Answer;

static Bits one_at(int place) { return (Bits)1 << place; }
static int greatest_field(const Format *f) { return (1 << f->field_bits) - 1; }
static Bits infinity_of(const Format *f) { return (Bits)greatest_field(f) << f->trailing; }
static Bits sign_bit(const Format *f) { return one_at(f->trailing + f->field_bits); }
static int field_of(const Format *f, Bits x) { return (int)(x >> f->trailing) & greatest_field(f); }
static int is_nan(const Format *f, Bits x) { return (x & (sign_bit(f) - 1)) > infinity_of(f); }

// Trailing digits: any, few of them ones, few of them zeros, or short.
static uint64_t digits(const Format *f) {
    int place = (int)between(0, f->trailing);
    uint64_t few = UINT64_C(1) << place | UINT64_C(1) << between(0, f->trailing);
    switch (word() % 6) {
    case 0: return few;
    case 1: return ~few;
    case 2: return word() << place;
    case 3: return (uint64_t)between(-3, 3);
    default: return word();
    }
}

static Bits with_any_sign(const Format *f, Bits x) { return word() & 1 ? x ^ sign_bit(f) : x; }

// The bits, some steps away.
static Bits steps_away(Bits x, int steps) { return x + (Bits)between(-steps, steps); }

// The number with a field, which is brought into the range of numbers.
static Bits number(const Format *f, int64_t field) {
    if (field < 0) field = 0;
    if (field >= greatest_field(f)) field = greatest_field(f) - 1;
    return with_any_sign(f, (Bits)field << f->trailing | (digits(f) & (one_at(f->trailing) - 1)));
}

// A zero, an infinity, or a number at an end of a range.
static Bits limit(const Format *f) {
    Bits normal = one_at(f->trailing), one = (Bits)(greatest_field(f) / 2) << f->trailing;
    Bits limits[] = {0, 1, normal - 1, normal, one, infinity_of(f) - 1, infinity_of(f), steps_away(normal, 3)};
    return with_any_sign(f, limits[word() % 8]);
}

static Bits any(const Format *f) {
    return word() % 8 == 0 ? limit(f) : number(f, between(0, greatest_field(f) - 1));
}

// A number with which the call on x has a result of about this field.
static Bits aiming_at(const Format *f, int call, Bits x, int64_t field) {
    int one = greatest_field(f) / 2;
    int64_t other = field;
    if (call == MULTIPLY || call == FUSE) other = field - field_of(f, x) + one;
    if (call == DIVIDE) other = field_of(f, x) - field + one;
    return number(f, other + between(-1, 1));
}

// The field of a result: below the normal numbers, at the least or the greatest exponent, or any.
static int64_t goal(const Format *f) {
    switch (word() % 4) {
    case 0: return between(-f->trailing - 3, 0);
    case 1: return between(0, 2);
    case 2: return greatest_field(f) - between(0, 2);
    default: return between(0, greatest_field(f));
    }
}

// The 80 bits of x87 of a value, with the integer bit.
static Bits with_integer_bit(Bits x) {
    const Format *f = &FORMATS[X87];
    Bits integer_bit = field_of(f, x) > 0 ? one_at(f->trailing) : 0;
    return x >> f->trailing << (f->trailing + 1) | integer_bit | (x & (one_at(f->trailing) - 1));
}

static Bits without_integer_bit(Bits x) {
    int trailing = FORMATS[X87].trailing;
    return x >> (trailing + 1) << trailing | (x & (one_at(trailing) - 1));
}

// Instructions of SSE. The control word is set, and the flags are read, in one statement, so that the compiler moves
// nothing in between.
#define SSE(NAME, X, ...)                                                                                              \
    __asm__ volatile("ldmxcsr %[control]\n\t" NAME "\n\tstmxcsr %[control]" : X, [control] "+m"(control) : __VA_ARGS__)

enum { MASKED = 0x1f80 };

// Defines a function that computes in one format. SUFFIX ends the names of its instructions; SHORTEN is the one that
// converts to fewer digits, with its first operand.
#define COMPUTES_BY_SSE(FUNCTION, BITS, FLOAT, SUFFIX, SHORTEN)                                                        \
    static Answer FUNCTION(const Question *q) {                                                                        \
        BITS bits[] = {(BITS)q->operands[0], (BITS)q->operands[1], (BITS)q->operands[2]};                              \
        FLOAT operands[3];                                                                                             \
        memcpy(operands, bits, sizeof operands);                                                                       \
        FLOAT x = operands[0], y = operands[1], z = operands[2];                                                       \
        unsigned control = MASKED | q->mode << 13;                                                                     \
        Answer answer = {0};                                                                                           \
        switch (q->call) {                                                                                             \
        case ADD: SSE("adds" SUFFIX " %[y], %[x]", [x] "+x"(x), [y] "x"(y)); break;                                    \
        case SUBTRACT: SSE("subs" SUFFIX " %[y], %[x]", [x] "+x"(x), [y] "x"(y)); break;                               \
        case MULTIPLY: SSE("muls" SUFFIX " %[y], %[x]", [x] "+x"(x), [y] "x"(y)); break;                               \
        case DIVIDE: SSE("divs" SUFFIX " %[y], %[x]", [x] "+x"(x), [y] "x"(y)); break;                                 \
        case ROOT: SSE("sqrts" SUFFIX " %[x], %[x]", [x] "+x"(x), "m"(y)); break;                                      \
        case FUSE: SSE("vfmadd213s" SUFFIX " %[z], %[y], %[x]", [x] "+x"(x), [y] "x"(y), [z] "x"(z)); break;           \
        case INTEGRAL: SSE("rounds" SUFFIX " $4, %[x], %[x]", [x] "+x"(x), "m"(y)); break;                             \
        case CONVERT: SSE(SHORTEN " %[x], %[x]", [x] "+x"(x), "m"(y)); break;                                          \
        case FROM_INTEGER: SSE("cvtsi2s" SUFFIX "q %[i], %[x]", [x] "+x"(x), [i] "r"(q->integer)); break;              \
        case TO_INTEGER:                                                                                               \
            if (q->width == 64) {                                                                                      \
                SSE("cvts" SUFFIX "2siq %[x], %[i]", [i] "=r"(answer.integer), [x] "x"(x));                            \
            } else {                                                                                                   \
                int32_t narrow;                                                                                        \
                SSE("cvts" SUFFIX "2sil %[x], %[i]", [i] "=r"(narrow), [x] "x"(x));                                    \
                answer.integer = narrow;                                                                               \
            }                                                                                                          \
        }                                                                                                              \
        memcpy(bits, &x, sizeof x);                                                                                    \
        answer.bits = bits[0] & (one_at(format_of_result(q)->bits) - 1);                                               \
        answer.flags = control;                                                                                        \
        return answer;                                                                                                 \
    }

COMPUTES_BY_SSE(in_single, uint32_t, float, "s", "vcvtps2ph $4,")
COMPUTES_BY_SSE(in_double, uint64_t, double, "d", "cvtsd2ss")

// Instructions of x87 on values in memory, in the same way. The precision is that of 64 digits.
#define FPU(STEPS)                                                                                                     \
    __asm__ volatile("fninit\n\tfldcw %[control]\n\t" STEPS "\n\tfnstsw %[status]"                                     \
                     : [x] "+m"(x), [status] "=m"(status), [single] "=m"(single), [wide] "=m"(wide)                    \
                     : [y] "m"(y), [control] "m"(control))
#define ON_TWO(NAME) FPU("fldt %[x]\n\tfldt %[y]\n\t" NAME "\n\tfstpt %[x]")

static Answer in_x87(const Question *q) {
    struct {
        unsigned char bytes[10];
    } x, y;
    memcpy(&x, &q->operands[0], sizeof x);
    memcpy(&y, &q->operands[1], sizeof y);
    uint16_t control = (uint16_t)(0x37f | q->mode << 10), status = 0;
    uint32_t single = 0;
    uint64_t wide = 0;
    switch (q->call) {
    case ADD: ON_TWO("faddp"); break;
    case SUBTRACT: ON_TWO("fsubrp %%st, %%st(1)"); break;
    case MULTIPLY: ON_TWO("fmulp"); break;
    case DIVIDE: ON_TWO("fdivrp %%st, %%st(1)"); break;
    case ROOT: FPU("fldt %[x]\n\tfsqrt\n\tfstpt %[x]"); break;
    case INTEGRAL: FPU("fldt %[x]\n\tfrndint\n\tfstpt %[x]"); break;
    case TO_INTEGER: FPU("fldt %[x]\n\tfistpq %[wide]"); break;
    default:
        if (q->target == SINGLE) FPU("fldt %[x]\n\tfstps %[single]");
        else FPU("fldt %[x]\n\tfstpl %[wide]");
    }
    Answer answer = {.integer = (int64_t)wide, .flags = status};
    if (q->call == CONVERT) answer.bits = q->target == SINGLE ? single : wide;
    else memcpy(&answer.bits, &x, sizeof x);
    return answer;
}

static Answer computed(const Question *q) {
    Answer answer = q->format == SINGLE ? in_single(q) : q->format == DOUBLE ? in_double(q) : in_x87(q);
    answer.flags &= RAISED & ~DENORMAL_OPERAND;
    return answer;
}

// A product or a quotient of numbers as they are drawn, in any mode.
static Bits about(int format, int call, Bits x, Bits y) {
    Question q = {.call = call, .format = format, .mode = word() & 3, .operands = {x, y}};
    if (format != X87) return computed(&q).bits;
    for (int i = 0; i < 2; i++) q.operands[i] = with_integer_bit(q.operands[i]);
    return without_integer_bit(computed(&q).bits);
}

// A second operand for a product or a quotient next to the smallest normal number or past the largest one.
static Bits reaching_an_end(int format, int call, Bits x) {
    const Format *f = &FORMATS[format];
    Bits end = word() % 4 ? one_at(f->trailing) : infinity_of(f) - 1;
    return steps_away(call == DIVIDE ? about(format, DIVIDE, x, end) : about(format, DIVIDE, end, x), 1);
}

// A second operand, in view of the first one.
static Bits second(int format, int call, Bits x) {
    const Format *f = &FORMATS[format];
    switch (word() % 8) {
    case 0: return any(f);
    case 1: return with_any_sign(f, steps_away(x, 3));
    case 2: return number(f, field_of(f, x) + between(-f->trailing - 3, f->trailing + 3));
    case 3: return reaching_an_end(format, call, x);
    default: return aiming_at(f, call, x, goal(f));
    }
}

// A number whose root is short or near a short one: a square or its neighbour.
static Bits square(int format, Bits x) {
    Bits root = x & ~(one_at((int)between(0, FORMATS[format].trailing)) - 1);
    Bits product = about(format, MULTIPLY, root, root);
    return word() & 1 ? steps_away(product, 2) : product;
}

// An addend, in view of the product: its negation or near it, or some places away.
static Bits addend(int format, Bits x, Bits y) {
    const Format *f = &FORMATS[format];
    Bits product = about(format, MULTIPLY, x, y);
    switch (word() % 5) {
    case 0: return any(f);
    case 1: return limit(f);
    case 2: return steps_away(product ^ sign_bit(f), 2);
    case 3: return product ^ sign_bit(f);
    default: return number(f, field_of(f, product) + between(-2 * f->trailing - 6, 2 * f->trailing + 6));
    }
}

// A number near an end of the range of another format, or halfway between two of its numbers.
static Bits near_target(const Format *f, const Format *target) {
    int shorter = f->trailing - target->trailing, bias = greatest_field(f) / 2 - greatest_field(target) / 2;
    Bits ends[] = {0, one_at(target->trailing), infinity_of(target), any(target) & (sign_bit(target) - 1)};
    Bits end = (ends[word() % 4] << shorter) + ((Bits)bias << f->trailing);
    Bits x = steps_away(end, 3);
    if (word() & 1) x ^= one_at((int)between(0, shorter + 1));
    if (word() % 4 == 0) x -= (Bits)between(0, target->trailing + 2) << f->trailing;
    return with_any_sign(f, x);
}

// A number near an integer, or halfway between two.
static Bits near_integer(const Format *f) { return number(f, greatest_field(f) / 2 + between(-2, 66)); }

static int64_t integer(void) {
    int place = (int)between(0, 63);
    if (word() % 3) return (int64_t)word() >> place;
    return (int64_t)((UINT64_C(1) << place) + (uint64_t)between(-2, 2));
}

// What has to be a number or an infinity of a format.
static int are_numbers(const Format *f, const Bits x[3]) {
    for (int i = 0; i < 3; i++)
        if (x[i] >= 2 * sign_bit(f) || is_nan(f, x[i])) return 0;
    return 1;
}

static void draw_operands(Question *q) {
    const Format *f = &FORMATS[q->format];
    Bits *x = q->operands;
    do {
        x[0] = any(f);
        if (q->call == ROOT && word() & 1) x[0] = square(q->format, x[0]);
        if (q->call == ROOT && word() % 8) x[0] &= ~sign_bit(f);
        if (q->call == CONVERT && word() % 4) x[0] = near_target(f, &FORMATS[q->target]);
        if ((q->call == INTEGRAL || q->call == TO_INTEGER) && word() % 8) x[0] = near_integer(f);
        x[1] = OPERANDS[q->call] > 1 ? second(q->format, q->call, x[0]) : 0;
        x[2] = q->call == FUSE ? addend(q->format, x[0], x[1]) : 0;
    } while (!are_numbers(f, x));
    for (int i = 0; q->format == X87 && i < 3; i++) {
        // The smallest exponent has a second encoding, that of pseudo-denormal numbers.
        int is_pseudo = field_of(f, x[i]) == 1 && word() & 1;
        x[i] = with_integer_bit(x[i]) - (is_pseudo ? one_at(f->trailing + 1) : 0);
    }
}

static Question drawn(void) {
    static const int CALLS_OF[][CALL_COUNT + 1] = {
        [SINGLE] = {10, ADD, SUBTRACT, MULTIPLY, DIVIDE, ROOT, FUSE, INTEGRAL, CONVERT, FROM_INTEGER, TO_INTEGER},
        [DOUBLE] = {10, ADD, SUBTRACT, MULTIPLY, DIVIDE, ROOT, FUSE, INTEGRAL, CONVERT, FROM_INTEGER, TO_INTEGER},
        [X87] = {8, ADD, SUBTRACT, MULTIPLY, DIVIDE, ROOT, INTEGRAL, CONVERT, TO_INTEGER},
    };
    Question q = {.format = (int)between(SINGLE, X87)};
    q.mode = word() & 3;
    q.call = CALLS_OF[q.format][between(1, CALLS_OF[q.format][0])];
    q.target = q.format - 1;
    if (q.format == X87) q.target = (int)between(SINGLE, DOUBLE);
    q.width = q.format == X87 || word() & 1 ? 64 : 32;
    q.integer = integer();
    draw_operands(&q);
    return q;
}

// What IEEE 754 leaves open is written as the library has it.
static void settle(const Question *q, Answer *answer) {
    if (q->call == TO_INTEGER && answer->flags & INVALID) {
        const Format *f = &FORMATS[q->format];
        int64_t greatest = q->width == 64 ? INT64_MAX : INT32_MAX;
        int negative = (int)(q->operands[0] >> (f->bits - 1)) & 1;
        answer->integer = negative ? -greatest - 1 : greatest;
    }
    int is_x87 = q->format == X87 && q->call != CONVERT;
    const Format *f = format_of_result(q);
    Bits compact = is_x87 ? without_integer_bit(answer->bits) : answer->bits;
    if (!is_nan(f, compact)) return;
    compact = infinity_of(f) | one_at(f->trailing - 1);
    answer->bits = is_x87 ? with_integer_bit(compact) : compact;
}

static void print_bits(const Format *f, Bits x) {
    for (int place = f->bits - 4; place >= 0; place -= 4) putchar("0123456789abcdef"[(int)(x >> place) & 15]);
}

static const char *names(unsigned flags) {
    static char text[64];
    *text = 0;
    for (int i = 0; i < FLAG_COUNT; i++) {
        if (!(flags & FLAGS[i].bit)) continue;
        if (*text) strcat(text, "|");
        strcat(text, FLAGS[i].name);
    }
    return *text ? text : "OK";
}

// The call and the format, or both formats of a conversion.
static void print_call(const Question *q) {
    printf("%s\t%s", CALLS[q->call], FORMATS[q->format].name);
    if (q->call == CONVERT) printf("+ieee>%s", FORMATS[q->target].name);
    printf("+ieee\t");
}

static void print_row(const Question *q, const Answer *answer) {
    const Format *f = &FORMATS[q->format];
    print_call(q);
    printf("%s\t", MODES[q->mode]);
    for (int i = 0; i < OPERANDS[q->call]; i++) {
        if (i > 0) putchar(' ');
        print_bits(f, q->operands[i]);
    }
    if (q->call == FROM_INTEGER) printf("%lld", (long long)q->integer);
    if (q->call == TO_INTEGER) printf(" %d\t%lld", q->width, (long long)answer->integer);
    else putchar('\t'), print_bits(format_of_result(q), answer->bits);
    printf("\t%s\t-\n", names(answer->flags));
}

int main(int argc, char **argv) {
    int counting = argc == 4 && strcmp(argv[3], "--count") == 0;
    if (argc != 3 && !counting) {
        fprintf(stderr, "usage: %s SEED COUNT [--count]\n", argv[0]);
        return 2;
    }
    // Every processor with AVX2 has F16C, for which not every compiler has a word.
    if (!__builtin_cpu_supports("fma") || !__builtin_cpu_supports("avx2")) {
        fprintf(stderr, "%s: the processor needs FMA and AVX2\n", argv[0]);
        return 2;
    }
    static unsigned long counts[CALL_COUNT][FORMAT_COUNT][FORMAT_COUNT][RAISED + 1];
    state = strtoull(argv[1], NULL, 10);
    for (unsigned long count = strtoul(argv[2], NULL, 10); count > 0; count--) {
        Question q = drawn();
        Answer answer = computed(&q);
        settle(&q, &answer);
        if (counting) counts[q.call][q.format][q.call == CONVERT ? q.target : 0][answer.flags]++;
        else print_row(&q, &answer);
    }
    for (int place = 0; counting && place < CALL_COUNT * FORMAT_COUNT * FORMAT_COUNT * (RAISED + 1); place++) {
        unsigned flags = place & RAISED;
        Question q = {.target = place / (RAISED + 1) % FORMAT_COUNT};
        q.format = place / (RAISED + 1) / FORMAT_COUNT % FORMAT_COUNT;
        q.call = place / (RAISED + 1) / FORMAT_COUNT / FORMAT_COUNT;
        unsigned long times = counts[q.call][q.format][q.target][flags];
        if (times == 0) continue;
        print_call(&q);
        printf("%s\t%lu\n", names(flags), times);
    }
    return ferror(stdout) || fflush(stdout) ? 1 : 0;
}
