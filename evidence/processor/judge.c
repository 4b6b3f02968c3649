// Compares lines of `instructions.c` with apfloat_instruction, and those of the x87 that have all digits with
// apfloat_machine, called as docs/MACHINES.md says: with what is flushed, and the flag of a denormal operand.
//
//     cc -O2 -Iinclude -o JUDGE evidence/processor/judge.c LIBRARY && ./RUN 1 100000 | ./JUDGE
//
// Prints how many lines of each instruction agree, and of those that differ the one with the fewest bits set in its
// operands, for each set of flags that differ with the value or without it. The status is 1 if a line differs.
#include "instructions.h"

#include <stdio.h>
#include <stdlib.h>
#include <string.h>

typedef struct {
    char name[32];
    uint32_t machine, operation, format, to, mode, controls;
    apfloat_halves operands[3], value;
    uint32_t flags;
} Line;

static bool is_half(uint32_t format) { return format == APFLOAT_HALF; }

static int32_t class_of(uint32_t format, apfloat_halves bits) {
    apfloat_answer answer = {{0, 0}, 0, 0};
    apfloat_classify(format, bits, &answer);
    return answer.number;
}

// On the x87, with an exponent of zero, though the integer bit may be set.
static bool is_denormal(uint32_t format, apfloat_halves bits) {
    int32_t code = class_of(format, bits);
    if (format == APFLOAT_X87) return (bits.high & 0x7fff) == 0 && bits.low != 0;
    return code == APFLOAT_NEGATIVE_SUBNORMAL || code == APFLOAT_POSITIVE_SUBNORMAL;
}

static bool is_nan(uint32_t format, apfloat_halves bits) {
    int32_t code = class_of(format, bits);
    return code == APFLOAT_SIGNALING_NAN || code == APFLOAT_QUIET_NAN;
}

static apfloat_halves zero_like(uint32_t format, apfloat_halves bits) {
    int width = format == APFLOAT_DOUBLE ? 64 : format == APFLOAT_SINGLE ? 32 : 16;
    return (apfloat_halves){bits.low & UINT64_C(1) << (width - 1), 0};
}

static bool is_arm(const Line *line) {
    return line->machine == APFLOAT_MACHINE_ARM || line->machine == APFLOAT_MACHINE_ARM_DEFAULT_NAN;
}

// Half is flushed by FZ16 of Arm alone, in arithmetic.
static bool is_flushed(const Line *line, uint32_t format, uint32_t control) {
    if (!is_half(format)) return line->controls & control;
    return is_arm(line) && line->operation != APFLOAT_CONVERT && line->controls & FLUSHES_HALF;
}

static bool has_values(const Line *line) {
    return line->operation != APFLOAT_TO_I128 && line->operation != APFLOAT_TO_U128 &&
           line->operation != APFLOAT_TO_I128_MODULO;
}

// Whether an instruction of x86 raises the flag of a denormal operand.
static bool tells_denormal(const Line *line) {
    switch (line->operation) {
    case APFLOAT_ROUND_TO_INTEGRAL: return line->format == APFLOAT_X87;
    case APFLOAT_INTEGRAL:
    case APFLOAT_TO_I128:
    case APFLOAT_TO_U128: return false;
    case APFLOAT_CONVERT: return !is_half(line->format) && line->format != APFLOAT_X87;
    default: return true;
    }
}

static apfloat_answer compared(const Line *line, apfloat_halves x, apfloat_halves y) {
    const uint32_t on_nan = line->operation == COMPARE_SIGNALING ? APFLOAT_SIGNALING : APFLOAT_QUIET;
    apfloat_answer order = {{0, 0}, 0, 0}, equal = order;
    apfloat_compare(line->format, x, y, &order);
    apfloat_compare_predicate(line->format, APFLOAT_IS_EQUAL, on_nan, x, y, &equal);
    equal.bits.low = (uint64_t)(order.number + 1);
    return equal;
}

// By apfloat_instruction, which flushes, and tells of denormal operands itself.
static apfloat_answer instructed(const Line *line, uint32_t to) {
    const apfloat_halves *of = line->operands;
    uint32_t control = 0;
    apfloat_answer answer = {{0, 0}, 0, 0};
    if (is_flushed(line, line->format, FLUSHES_OPERANDS)) control |= APFLOAT_DENORMALS_ARE_ZEROS;
    if (is_flushed(line, to, FLUSHES_RESULTS)) control |= APFLOAT_FLUSH_RESULTS;
    if (apfloat_instruction(line->machine, line->operation, line->format, line->mode, control, line->to, of[0], of[1],
                            of[2], &answer)) {
        answer.status = ~UINT32_C(0);
        return answer;
    }
    if (answer.number & APFLOAT_DENORMAL_OPERAND) {
        const bool is_told = control & APFLOAT_DENORMALS_ARE_ZEROS
                                 ? is_arm(line) && !is_half(line->format)
                                 : line->machine == APFLOAT_MACHINE_X86 && tells_denormal(line);
        if (is_told) answer.status |= DENORMAL_OPERAND;
    }
    if (!has_values(line)) // a negative integer has more bits
        answer.bits = (apfloat_halves){answer.bits.low & UINT64_MAX >> (64 - line->to), 0};
    return answer;
}

// VCVTNEPS2BF16 takes and delivers no denormal numbers, in nearest even, without flags.
static apfloat_answer to_bfloat_of_x86(const Line *line) {
    apfloat_halves x = line->operands[0];
    apfloat_answer answer = {{0, 0}, 0, 0};
    if (is_denormal(APFLOAT_SINGLE, x)) x = zero_like(APFLOAT_SINGLE, x);
    apfloat_machine(line->machine, APFLOAT_CONVERT, APFLOAT_SINGLE, APFLOAT_NEAREST_EVEN, APFLOAT_BFLOAT, x, x, x,
                    &answer);
    if (is_denormal(APFLOAT_BFLOAT, answer.bits)) answer.bits = zero_like(APFLOAT_BFLOAT, answer.bits);
    answer.status = 0;
    return answer;
}

// By apfloat_machine, or with fewer digits by apfloat_instruction.
static apfloat_error delivered(const Line *line, const apfloat_halves of[3], apfloat_answer *answer) {
    const uint32_t digits = line->controls & (DIGITS_24 | DIGITS_53);
    if (digits && line->format == APFLOAT_X87)
        return apfloat_instruction(line->machine, line->operation, line->format, line->mode, digits, line->to, of[0],
                                   of[1], of[2], answer);
    return apfloat_machine(line->machine, line->operation, line->format, line->mode, line->to, of[0], of[1], of[2],
                           answer);
}

static apfloat_answer expected(const Line *line) {
    const bool is_x86 = line->machine == APFLOAT_MACHINE_X86 || line->machine == APFLOAT_MACHINE_X87;
    const uint32_t to = line->operation == APFLOAT_CONVERT ? line->to & 0xff : line->format;
    apfloat_halves operands[3];
    bool denormal = false, nan = false;
    uint32_t flags = 0;
    if (is_x86 && line->operation == APFLOAT_CONVERT && to == APFLOAT_BFLOAT) return to_bfloat_of_x86(line);
    // On the x87 pseudo-denormal numbers are denormal too.
    if (line->operation < COMPARE_QUIET && line->machine != APFLOAT_MACHINE_X87) return instructed(line, to);
    for (int i = 0; i < 3; i++) {
        operands[i] = line->operands[i];
        nan |= is_nan(line->format, operands[i]);
        if (!is_denormal(line->format, operands[i])) continue;
        if (!is_flushed(line, line->format, FLUSHES_OPERANDS)) {
            denormal = true;
            continue;
        }
        operands[i] = zero_like(line->format, operands[i]);
        if (is_arm(line) && !is_half(line->format)) flags |= DENORMAL_OPERAND;
    }
    apfloat_answer answer = {{0, 0}, 0, 0};
    if (line->operation >= COMPARE_QUIET) {
        answer = compared(line, operands[0], operands[1]);
    } else if (delivered(line, operands, &answer)) {
        answer.status = ~UINT32_C(0);
        return answer;
    }
    if (is_x86 && denormal && !nan && tells_denormal(line) &&
        !(answer.status & (APFLOAT_INVALID_OP | APFLOAT_DIV_BY_ZERO)))
        flags |= DENORMAL_OPERAND;
    answer.status |= flags;
    if (!has_values(line)) // a negative integer has more bits
        answer.bits = (apfloat_halves){answer.bits.low & UINT64_MAX >> (64 - line->to), 0};
    return answer;
}

// ---- counts

enum { KINDS = 128 };
static struct {
    unsigned long long count;
    int bits;
    char text[512];
} differing[KINDS];
static unsigned long long agreeing, all_differing;
static char current[32];

static void report(void) {
    unsigned long long wrong = 0;
    if (!current[0]) return;
    for (int i = 0; i < KINDS; i++) wrong += differing[i].count;
    printf("%s: %llu lines agree, %llu differ\n", current, agreeing, wrong);
    for (int i = 0; i < KINDS; i++)
        if (differing[i].count) printf("  %llu as %s\n", differing[i].count, differing[i].text);
    all_differing += wrong;
    agreeing = 0;
    memset(differing, 0, sizeof differing);
}

static int bits_of(const Line *line) {
    int count = 0;
    for (int i = 0; i < 3; i++)
        count += __builtin_popcountll(line->operands[i].low) + __builtin_popcountll(line->operands[i].high);
    return count;
}

static void take(const Line *line, const char *text) {
    if (strcmp(current, line->name)) report(), strcpy(current, line->name);
    const apfloat_answer answer = expected(line);
    const bool is_same = answer.bits.low == line->value.low && answer.bits.high == line->value.high;
    if (is_same && answer.status == line->flags) {
        agreeing++;
        return;
    }
    const int kind = (int)((answer.status ^ line->flags) & 63) | (is_same ? 0 : 64);
    const int bits = bits_of(line);
    if (differing[kind].count++ && differing[kind].bits <= bits) return;
    differing[kind].bits = bits;
    snprintf(differing[kind].text, sizeof differing->text, "%.*s: the library %llx_%016llx %x",
             (int)strcspn(text, "\n"), text, (unsigned long long)answer.bits.high, (unsigned long long)answer.bits.low,
             answer.status);
}

// The value of up to 32 hexadecimal digits.
static apfloat_halves halves_of(const char *word) {
    const size_t length = strlen(word), high = length > 16 ? length - 16 : 0;
    char upper[17] = "0";
    memcpy(upper, word, high);
    return (apfloat_halves){strtoull(word + high, NULL, 16), strtoull(upper, NULL, 16)};
}

int main(void) {
    char text[256];
    while (fgets(text, sizeof text, stdin)) {
        Line line;
        char words[4][33];
        if (sscanf(text, "%31s %x %x %x %x %x %x %32s %32s %32s %32s %x", line.name, &line.machine, &line.operation,
                   &line.format, &line.to, &line.mode, &line.controls, words[0], words[1], words[2], words[3],
                   &line.flags) != 12) {
            fprintf(stderr, "malformed: %s", text);
            return 2;
        }
        for (int i = 0; i < 3; i++) line.operands[i] = halves_of(words[i]);
        line.value = halves_of(words[3]);
        take(&line, text);
    }
    report();
    return all_differing != 0;
}
