// Compares what an x87 delivers with overflow and underflow unmasked with apfloat_instruction: values, flags, that of a
// denormal operand too, and C1. Most operands are drawn so that results are around or past the ends of the range.
//
//     cc -O2 -Iinclude -o UNMASKED evidence/processor/unmasked.c LIBRARY && ./UNMASKED SEED COUNT
//
// COUNT operands of each operation with 24, 53 and 64 digits in each mode. Prints for each operation how many answers
// agree, how many overflowed, were tiny, were tiny and exact, and the first that differs; the status is then 1.
#include "apfloat.h"

#include <stdbool.h>
#include <stdio.h>
#include <stdlib.h>
#include <string.h>

static uint64_t state;

static uint64_t word(void) {
    uint64_t z = state += UINT64_C(0x9e3779b97f4a7c15);
    z = (z ^ z >> 30) * UINT64_C(0xbf58476d1ce4e5b9);
    z = (z ^ z >> 27) * UINT64_C(0x94d049bb133111eb);
    return z ^ z >> 31;
}

static int between(int least, int greatest) { return least + (int)(word() % (uint64_t)(greatest - least + 1)); }

enum { LEAST = -16382, GREATEST = 16383, DIGITS = 64 };

static apfloat_halves packed(uint64_t significand, int field) {
    return (apfloat_halves){significand, (word() & 1) << 15 | (uint64_t)field};
}

// A number of any count of digits with about this exponent, which may be a denormal one.
static apfloat_halves number(int exponent) {
    uint64_t digits = (word() | UINT64_C(1) << 63) >> between(0, DIGITS - 1);
    while (!(digits >> 63)) digits <<= 1;
    if (exponent > GREATEST) exponent = GREATEST;
    if (exponent >= LEAST) return packed(digits, exponent + GREATEST);
    int places = LEAST - exponent;
    return packed(digits >> (places < DIGITS ? places : DIGITS - 1), 0);
}

static apfloat_halves special(void) {
    switch (between(0, 5)) {
    case 0: return packed(0, 0);
    case 1: return packed(UINT64_C(1) << 63, 0x7fff);
    case 2: return packed(UINT64_C(3) << 62 | word() >> 2, 0x7fff);
    case 3: return packed(UINT64_C(1) << 63 | word() >> 2 | 1, 0x7fff);
    case 4: return packed(~UINT64_C(0), GREATEST + GREATEST);
    default: return packed(UINT64_C(1) << 63, 1);
    }
}

static void draw(int operation, apfloat_halves operands[2]) {
    bool below = word() & 1;
    int reach = between(0, 2) ? DIGITS + 2 : GREATEST;
    int end = below ? LEAST + between(-reach, 2) : GREATEST + between(-2, reach);
    if (operation == APFLOAT_ADD || operation == APFLOAT_SUB) {
        for (int i = 0; i < 2; i++) operands[i] = number(end - between(0, 3));
    } else {
        int own = between(end / 2 - DIGITS, end / 2 + DIGITS);
        operands[0] = number(own);
        operands[1] = number(operation == APFLOAT_DIV ? own - end : end - own);
    }
    for (int i = 0; i < 2; i++)
        if (between(0, 31) == 0) operands[i] = special();
}

// What the unit delivers, and its status word. The exceptions that are pending are cleared by an instruction that does
// not wait for them.
static uint16_t executed(int operation, uint16_t control, const apfloat_halves operands[2], apfloat_halves *result) {
    unsigned char x[10], y[10], r[10];
    uint16_t status;
    memcpy(x, &operands[0], 10), memcpy(y, &operands[1], 10);
#define RUN(text)                                                                                                  \
    __asm__ volatile("fninit\n fldt %2\n fldt %3\n fldcw %4\n " text "\n fnstsw %1\n fnclex\n fstpt %0\n fninit"      \
                     : "=m"(r), "=m"(status)                                                                       \
                     : "m"(y), "m"(x), "m"(control)                                                                \
                     : "st", "st(1)", "st(2)", "st(3)", "st(4)", "st(5)", "st(6)", "st(7)")
    switch (operation) {
    case APFLOAT_ADD: RUN("fadd %%st(1), %%st"); break;
    case APFLOAT_SUB: RUN("fsub %%st(1), %%st"); break;
    case APFLOAT_MUL: RUN("fmul %%st(1), %%st"); break;
    case APFLOAT_DIV: RUN("fdiv %%st(1), %%st"); break;
    default: RUN("fsqrt");
    }
    *result = (apfloat_halves){0, 0};
    memcpy(result, r, 10);
    return status;
}

static uint32_t flags_of(uint16_t status) {
    static const struct {
        int bit;
        uint32_t flag;
    } flags[] = {{1, APFLOAT_INVALID_OP}, {4, APFLOAT_DIV_BY_ZERO}, {8, APFLOAT_OVERFLOW}, {16, APFLOAT_UNDERFLOW},
                 {32, APFLOAT_INEXACT}};
    uint32_t sum = 0;
    for (size_t i = 0; i < sizeof flags / sizeof *flags; i++) sum += status & flags[i].bit ? flags[i].flag : 0;
    return sum;
}

int main(int count, char **words) {
    static const struct {
        const char *name;
        apfloat_operation code;
    } operations[] = {{"fadd", APFLOAT_ADD}, {"fsub", APFLOAT_SUB}, {"fmul", APFLOAT_MUL}, {"fdiv", APFLOAT_DIV},
                      {"fsqrt", APFLOAT_SQRT}};
    // By the precision control and the rounding control of the unit.
    static const uint32_t precisions[] = {APFLOAT_ROUND_TO_24_DIGITS, 0, APFLOAT_ROUND_TO_53_DIGITS, 0};
    static const apfloat_mode modes[] = {APFLOAT_NEAREST_EVEN, APFLOAT_DOWNWARD, APFLOAT_UPWARD, APFLOAT_TOWARD_ZERO};
    if (count != 3) return 2;
    state = strtoull(words[1], NULL, 10);
    long each = strtol(words[2], NULL, 10);
    bool differs = false;
    for (size_t o = 0; o < sizeof operations / sizeof *operations; o++) {
        unsigned long agree = 0, differ = 0, over = 0, tiny = 0, exact = 0;
        for (long i = 0; i < 12 * each; i++) {
            int precision = (int[]){0, 2, 3}[i % 3], mode = (int)(i / 3 % 4);
            uint16_t control = (uint16_t)(mode << 10 | precision << 8 | 0x27); // PM, ZM, DM and IM
            uint32_t word = APFLOAT_UNMASKED | APFLOAT_TELL_ROUNDED_UP | precisions[precision];
            apfloat_halves operands[2], result;
            apfloat_answer answer;
            draw(operations[o].code, operands);
            uint16_t status = executed(operations[o].code, control, operands, &result);
            if (apfloat_instruction(APFLOAT_MACHINE_X87, operations[o].code, APFLOAT_X87, modes[mode],
                                    (apfloat_control)word, 0, operands[0], operands[1], operands[1], &answer))
                return 2;
            uint32_t number = (status & 2 ? APFLOAT_DENORMAL_OPERAND : 0) + (status & 0x200 ? APFLOAT_ROUNDED_UP : 0);
            over += (status & 8) != 0, tiny += (status & 16) != 0, exact += (status & 48) == 16;
            if (answer.bits.low == result.low && answer.bits.high == result.high &&
                answer.status == flags_of(status) && (uint32_t)answer.number == number) {
                agree++;
            } else if (differ++ == 0) {
                printf("%s %04x %04x:%016llx %04x:%016llx: %04x:%016llx %04x, and %04x:%016llx %u %d\n",
                       operations[o].name, control, (unsigned)operands[0].high, (unsigned long long)operands[0].low,
                       (unsigned)operands[1].high, (unsigned long long)operands[1].low, (unsigned)result.high,
                       (unsigned long long)result.low, status, (unsigned)answer.bits.high,
                       (unsigned long long)answer.bits.low, answer.status, answer.number);
            }
        }
        printf("%s: %lu agree, %lu differ; %lu overflowed, %lu tiny, %lu of them exact\n", operations[o].name, agree,
               differ, over, tiny, exact);
        differs = differs || differ > 0;
    }
    return differs;
}
