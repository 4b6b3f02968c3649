/* Calls apfloat_instruction for the rows of tests/c/instructions, which evidence/instructions.py computes, and compares
 * each field of the answer. A row has tabs between its columns:
 *
 *   CALL  FORMAT@MACHINE  MODE CONTROL TO  OPERANDS  BITS  FLAGS  NUMBER
 *
 * The program prints each row that differs, how many of each call agree, and how many errors do. By hand, at the top of
 * the repository, after `rt lib` in crates/apfloat_c:
 *
 *   cc -std=c99 -Wall -Wextra -O2 -Iinclude tests/c/check_instructions.c crates/apfloat_c/out/libapfloat_c.a -o check
 *   ./check < tests/c/instructions */
#include "apfloat.h"
#include "rows.h"

#include <stdbool.h>
#include <stdio.h>
#include <stdlib.h>
#include <string.h>

enum { COLUMNS = 7, LINE = 1 << 12 };

static const struct code calls[] = {
    {"add", APFLOAT_ADD},         {"sub", APFLOAT_SUB},
    {"mul", APFLOAT_MUL},         {"div", APFLOAT_DIV},
    {"rem", APFLOAT_REM},         {"mod", APFLOAT_MOD},
    {"fma", APFLOAT_FMA},         {"sqrt", APFLOAT_SQRT},
    {"convert", APFLOAT_CONVERT}, {"round_to_integral", APFLOAT_ROUND_TO_INTEGRAL},
    {"to_u128", APFLOAT_TO_U128}, {"integral", APFLOAT_INTEGRAL},
    {"to_i128", APFLOAT_TO_I128}, {"least", APFLOAT_LEAST},
    {"greatest", APFLOAT_GREATEST}, {"to_i128_modulo", APFLOAT_TO_I128_MODULO},
    {"mul_extended", APFLOAT_MUL_EXTENDED}, {"range", APFLOAT_RANGE},
    {"to_alternative_half", APFLOAT_TO_ALTERNATIVE_HALF},
    {"from_alternative_half", APFLOAT_FROM_ALTERNATIVE_HALF}};

static const struct code machines[] = {{"x86", APFLOAT_MACHINE_X86},
                                       {"x87", APFLOAT_MACHINE_X87},
                                       {"arm", APFLOAT_MACHINE_ARM},
                                       {"arm_default_nan", APFLOAT_MACHINE_ARM_DEFAULT_NAN},
                                       {"arm_alternate", APFLOAT_MACHINE_ARM_ALTERNATE},
                                       {"risc_v", APFLOAT_MACHINE_RISC_V},
                                       {"power", APFLOAT_MACHINE_POWER},
                                       {"s390x", APFLOAT_MACHINE_S390X},
                                       {"arm_alternate_default_nan", APFLOAT_MACHINE_ARM_ALTERNATE_DEFAULT_NAN},
                                       {"webassembly", APFLOAT_MACHINE_WEBASSEMBLY},
                                       {"ptx", APFLOAT_MACHINE_PTX},
                                       {"mips_2008", APFLOAT_MACHINE_MIPS_2008},
                                       {"loongarch", APFLOAT_MACHINE_LOONGARCH},
                                       {"sparc", APFLOAT_MACHINE_SPARC},
                                       {"m68k", APFLOAT_MACHINE_M68K}};

static const struct code rules[] = {
    {"second", APFLOAT_RULE_SECOND},           {"second_quietly", APFLOAT_RULE_SECOND_QUIETLY},
    {"first_nan", APFLOAT_RULE_FIRST_NAN},     {"number_2008", APFLOAT_RULE_NUMBER_2008},
    {"number_2019", APFLOAT_RULE_NUMBER_2019}, {"propagated", APFLOAT_RULE_PROPAGATED}};

/* What a conversion goes to, the width of an integer, or the rule of a minimum or of VRANGE. */
static uint32_t to_of(char *word) {
    uint32_t code = code_of(rules, COUNT(rules), word);
    if (code == NO_CODE) code = format_of(word);
    return code == NO_CODE ? (uint32_t)strtoul(word, NULL, 10) : code;
}

static bool is_row_right(char *columns[]) {
    apfloat_answer answer = before;
    apfloat_halves operands[3] = {{1, 1}, {1, 1}, {1, 1}}; /* what is not taken is ignored */
    char *machine = strchr(columns[1], '@'), *mode = strtok(columns[2], " "), *control = strtok(NULL, " ");
    char *to = strtok(NULL, " ");
    size_t count = 0;
    if (!machine || !control || !to) return false;
    *machine++ = '\0';
    for (char *word = strtok(columns[3], " "); word && count < 3; word = strtok(NULL, " "))
        if (!read_integer(word, 16, &operands[count++])) return false;
    uint32_t code = strcmp(mode, "odd") == 0 ? (uint32_t)APFLOAT_TO_ODD : code_of(modes, COUNT(modes), mode);
    uint32_t on = code_of(machines, COUNT(machines), machine), operation = code_of(calls, COUNT(calls), columns[0]);
    uint32_t word = (uint32_t)strtoul(control, NULL, 10);
    apfloat_error made = apfloat_instruction(on, operation, format_of(columns[1]), code, word, to_of(to), operands[0],
                                             operands[1], operands[2], &answer);
    return is_answer(made, &answer, columns);
}

/* A call that is refused, with the code of the error. */
struct refusal {
    uint32_t machine, operation, format, mode, control, to;
    uint64_t high;
    uint32_t error;
};

enum { FORMAT = APFLOAT_DOUBLE, ADD = APFLOAT_ADD, X86 = APFLOAT_MACHINE_X86, X87 = APFLOAT_MACHINE_X87 };

/* Each has all later faults too, up to the first one that needs another operation. */
static const struct refusal refusals[] = {
    {99, 99, 99, 99, 99, 0, 1, APFLOAT_UNKNOWN_FORMAT},
    {99, 99, FORMAT, 99, 99, 0, 1, APFLOAT_UNKNOWN_MODE},
    {99, ADD, FORMAT, APFLOAT_RANDOM_DIGITS, 99, 0, 1, APFLOAT_UNKNOWN_MODE},
    {99, ADD, APFLOAT_E4M3FN, APFLOAT_TO_ODD, 99, 0, 1, APFLOAT_NO_SUCH_OPERATION},
    {99, 99, FORMAT, 0, 99, 0, 1, APFLOAT_UNKNOWN_MACHINE},
    {X86, 99, FORMAT, 0, APFLOAT_UNMASKED, 0, 1, APFLOAT_WRONG_CONTROL},
    {X86, ADD, APFLOAT_X87, 0, APFLOAT_ROUND_TO_24_DIGITS, 0, 1, APFLOAT_WRONG_CONTROL},
    {X87, ADD, FORMAT, 0, APFLOAT_ROUND_TO_53_DIGITS, 0, 1, APFLOAT_WRONG_CONTROL},
    {APFLOAT_MACHINE_M68K, ADD, APFLOAT_X87, 0, APFLOAT_ROUND_TO_53_DIGITS, 0, 1, APFLOAT_WRONG_CONTROL},
    {X87, ADD, APFLOAT_X87, 0, APFLOAT_ROUND_TO_24_DIGITS | APFLOAT_ROUND_TO_53_DIGITS, 0, 1, APFLOAT_WRONG_CONTROL},
    {X87, ADD, APFLOAT_X87, 0, APFLOAT_ROUND_TO_24_DIGITS | APFLOAT_FLUSH_RESULTS, 0, 1, APFLOAT_WRONG_CONTROL},
    {X86, 99, FORMAT, 0, UINT32_C(1) << 31, 0, 1, APFLOAT_WRONG_CONTROL},
    {X87, 99, FORMAT, 0, 64, 0, 1, APFLOAT_WRONG_CONTROL},
    {X87, ADD, APFLOAT_X87, 0, APFLOAT_UNMASKED | APFLOAT_FLUSH_RESULTS, 0, 1, APFLOAT_WRONG_CONTROL},
    {X87, ADD, APFLOAT_X87, 0, APFLOAT_UNMASKED | APFLOAT_ROUND_TO_24_DIGITS | APFLOAT_ROUND_TO_53_DIGITS, 0, 1,
     APFLOAT_WRONG_CONTROL},
    {X87, ADD, FORMAT, 0, APFLOAT_UNMASKED | APFLOAT_ROUND_TO_24_DIGITS, 0, 1, APFLOAT_WRONG_CONTROL},
    {APFLOAT_MACHINE_POWER, ADD, APFLOAT_HALF, 0, APFLOAT_UNMASKED, 0, 1, APFLOAT_WRONG_CONTROL},
    {APFLOAT_MACHINE_S390X, ADD, FORMAT, 0, APFLOAT_UNMASKED | APFLOAT_DENORMALS_ARE_ZEROS, 0, 1,
     APFLOAT_WRONG_CONTROL},
    {APFLOAT_MACHINE_M68K, ADD, FORMAT, 0, APFLOAT_UNMASKED, 0, 1, APFLOAT_WRONG_CONTROL},
    {APFLOAT_MACHINE_RISC_V, 99, FORMAT, 0, APFLOAT_FLUSH_RESULTS, 0, 1, APFLOAT_WRONG_CONTROL},
    {APFLOAT_MACHINE_POWER, ADD, FORMAT, 0, APFLOAT_DENORMALS_ARE_ZEROS, 0, 1, APFLOAT_WRONG_CONTROL},
    {X87, APFLOAT_FMA, APFLOAT_X87, 0, APFLOAT_FLUSH_RESULTS, 0, 1, APFLOAT_WRONG_CONTROL},
    {X86, 99, FORMAT, 0, 7, 0, 1, APFLOAT_NO_SUCH_OPERATION},
    {X86, APFLOAT_CONVERT, FORMAT, 0, 7, 99, 1, APFLOAT_UNKNOWN_FORMAT},
    {X86, ADD, FORMAT, 0, 7, 0, 1, APFLOAT_WIDE_OPERAND},
    {X86, APFLOAT_TO_I128, FORMAT, 0, 7, 1, 1, APFLOAT_WIDE_OPERAND},
    {X86, APFLOAT_CONVERT, FORMAT, 0, 7, APFLOAT_HALF, 1, APFLOAT_WIDE_OPERAND},
    {X86, APFLOAT_TO_I128, FORMAT, 0, 7, 1, 0, APFLOAT_WRONG_WIDTH},
    {X87, APFLOAT_TO_U128, FORMAT, 0, 4, 0, 0, APFLOAT_WRONG_WIDTH},
    {X87, APFLOAT_TO_U128, FORMAT, 0, 4, 32, 0, APFLOAT_LACKING_OPERATION},
    {X87, APFLOAT_FMA, FORMAT, 0, 4, 0, 0, APFLOAT_LACKING_OPERATION},
    {X86, APFLOAT_TO_I128_MODULO, FORMAT, 0, 7, 1, 1, APFLOAT_WIDE_OPERAND},
    {X86, APFLOAT_TO_I128_MODULO, FORMAT, 0, 7, 1, 0, APFLOAT_WRONG_WIDTH},
    {X86, APFLOAT_TO_I128_MODULO, FORMAT, 0, 7, 32, 0, APFLOAT_LACKING_OPERATION},
    {X86, APFLOAT_MUL_EXTENDED, FORMAT, 0, 7, 0, 1, APFLOAT_WIDE_OPERAND},
    {APFLOAT_MACHINE_RISC_V, APFLOAT_MUL_EXTENDED, FORMAT, 0, 4, 0, 0, APFLOAT_LACKING_OPERATION},
    {X86, APFLOAT_RANGE, FORMAT, 0, 7, 16, 1, APFLOAT_NO_SUCH_OPERATION},
    {X86, APFLOAT_RANGE, FORMAT, 0, 7, 15, 1, APFLOAT_WIDE_OPERAND},
    {APFLOAT_MACHINE_ARM, APFLOAT_RANGE, FORMAT, 0, 7, 15, 0, APFLOAT_LACKING_OPERATION},
    {X86, APFLOAT_TO_ALTERNATIVE_HALF, FORMAT, 0, 7, 0, 1, APFLOAT_WIDE_OPERAND},
    {X86, APFLOAT_TO_ALTERNATIVE_HALF, FORMAT, 0, 7, 0, 0, APFLOAT_LACKING_OPERATION},
    {X86, APFLOAT_FROM_ALTERNATIVE_HALF, APFLOAT_E5M2, 0, 7, 0, 1, APFLOAT_WIDE_OPERAND},
    {X86, APFLOAT_FROM_ALTERNATIVE_HALF, APFLOAT_E5M2, 0, 7, 0, 0, APFLOAT_LACKING_OPERATION},
    {X87, APFLOAT_FMA, APFLOAT_X87, 0, APFLOAT_ROUND_TO_24_DIGITS, 0, 0, APFLOAT_LACKING_OPERATION},
    {X87, APFLOAT_FMA, APFLOAT_X87, 0, APFLOAT_UNMASKED, 0, 0, APFLOAT_LACKING_OPERATION},
    {X87, ADD, APFLOAT_X87, 0, APFLOAT_UNMASKED, 0, UINT64_C(1) << 16, APFLOAT_WIDE_OPERAND},
    {X87, ADD, APFLOAT_X87, 0, APFLOAT_ROUND_TO_53_DIGITS, 0, UINT64_C(1) << 16, APFLOAT_WIDE_OPERAND}};

static bool is_refused(const struct refusal *it) {
    apfloat_answer answer = before;
    apfloat_halves x = {1, it->high};
    apfloat_error made = apfloat_instruction(it->machine, it->operation, it->format, it->mode, it->control, it->to, x,
                                             x, x, &answer);
    return made == it->error && memcmp(&answer, &before, sizeof answer) == 0;
}

int main(void) {
    static char row[LINE], kept[LINE];
    unsigned agreeing[COUNT(calls)] = {0}, errors = 0;
    while (fgets(row, sizeof row, stdin)) {
        row[strcspn(row, "\n")] = '\0';
        if (*row == '#') continue;
        strcpy(kept, row);
        char *columns[COLUMNS];
        bool agrees = false;
        if (split(row, columns, COLUMNS) == COLUMNS)
            for (size_t i = 0; i < COUNT(calls); i++)
                if (strcmp(columns[0], calls[i].name) == 0 && (agrees = is_row_right(columns))) agreeing[i]++;
        if (!agrees) printf("%s\n", kept);
    }
    for (size_t i = 0; i < COUNT(calls); i++) printf("%s: %u rows agree\n", calls[i].name, agreeing[i]);
    for (size_t i = 0; i < COUNT(refusals); i++) errors += is_refused(&refusals[i]);
    printf("%u of %u errors agree\n", errors, (unsigned)COUNT(refusals));
    return 0;
}
