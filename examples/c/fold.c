/* A constant folder: reads lines FORMAT OP MODE OPERAND.., and prints the bits and the flags of each result.
 *
 * OP is add, sub, mul, div, rem or mod of two values, fma of three, sqrt of one, or parse of a text. A value is its
 * bits, 1 to 32 hexadecimal digits, with or without 0x before them. Words are separated by spaces and tabs. Any other
 * line is refused with -1, as is one of more than 4000 bytes or with a zero byte; a line that the library refuses is
 * refused with the library's code. Build it at the top of the repository, after `rt lib` in crates/apfloat_c:
 *
 *   cc -std=c99 -Wall -Wextra -O2 -Iinclude examples/c/fold.c crates/apfloat_c/out/libapfloat_c.a -o fold
 *
 * and run it as `./fold < examples/c/lines`. */
#include "apfloat.h"
#include "names.h"

#include <ctype.h>
#include <stdbool.h>
#include <stdio.h>
#include <string.h>

#define MOST_WORDS 6
#define MOST_BYTES 4000

/* 1 to 32 hexadecimal digits of either case, with or without 0x before them, as bits. */
static bool read_bits(const char *word, apfloat_halves *bits) {
    bits->low = bits->high = 0;
    if (strncmp(word, "0x", 2) == 0) word += 2;
    size_t digits = strlen(word);
    if (digits == 0 || digits > 32) return false;
    for (; *word; word++) {
        const char *all = "0123456789abcdef", *digit = strchr(all, tolower((unsigned char)*word));
        if (!digit) return false;
        bits->high = bits->high << 4 | bits->low >> 60;
        bits->low = bits->low << 4 | (uint64_t)(digit - all);
    }
    return true;
}

/* Computes one line. Returns the library's code, or UINT32_MAX if the operation or an operand is malformed. */
static uint32_t fold(char *words[], size_t count, apfloat_answer *answer) {
    if (count < 4 || count > MOST_WORDS) return UINT32_MAX;
    uint32_t format = code_of(formats, COUNT(formats), words[0]);
    uint32_t mode = code_of(modes, COUNT(modes), words[2]);
    const char *op = words[1];
    if (strcmp(op, "parse") == 0 && count == 4)
        return apfloat_parse(format, mode, (const uint8_t *)words[3], strlen(words[3]), answer);
    apfloat_halves x[3];
    for (size_t i = 3; i < count; i++)
        if (!read_bits(words[i], &x[i - 3])) return UINT32_MAX;
    if (count == 4 && strcmp(op, "sqrt") == 0) return apfloat_sqrt(format, mode, x[0], answer);
    if (count == 6 && strcmp(op, "fma") == 0) return apfloat_fma(format, mode, x[0], x[1], x[2], answer);
    if (count != 5) return UINT32_MAX;
    if (strcmp(op, "add") == 0) return apfloat_add(format, mode, x[0], x[1], answer);
    if (strcmp(op, "sub") == 0) return apfloat_sub(format, mode, x[0], x[1], answer);
    if (strcmp(op, "mul") == 0) return apfloat_mul(format, mode, x[0], x[1], answer);
    if (strcmp(op, "div") == 0) return apfloat_div(format, mode, x[0], x[1], answer);
    if (strcmp(op, "rem") == 0) return apfloat_rem(format, x[0], x[1], answer);
    if (strcmp(op, "mod") == 0) return apfloat_mod(format, x[0], x[1], answer);
    return UINT32_MAX;
}

static void print(const apfloat_answer *answer) {
    if (answer->bits.high)
        printf("0x%llx%016llx", (unsigned long long)answer->bits.high, (unsigned long long)answer->bits.low);
    else
        printf("0x%llx", (unsigned long long)answer->bits.low);
    const char *before = " ";
    for (size_t i = 0; i < COUNT(flags); i++)
        if (answer->status & flags[i].code) {
            printf("%s%s", before, flags[i].name);
            before = "|";
        }
    puts(answer->status ? "" : " OK");
}

/* Reads a line without its end. One that is too long or has a zero byte is left empty. False after the last one. */
static bool read_line(char *line) {
    size_t length = 0;
    bool fits = true;
    int next = getchar();
    if (next == EOF) return false;
    for (; next != EOF && next != '\n'; next = getchar()) {
        fits = fits && next != 0 && length < MOST_BYTES;
        if (fits) line[length++] = (char)next;
    }
    line[fits ? length : 0] = 0;
    return true;
}

static uint32_t fold_line(char *line, apfloat_answer *answer) {
    char *words[MOST_WORDS];
    size_t count = 0;
    for (char *word = strtok(line, " \t\r"); word; word = strtok(NULL, " \t\r")) {
        if (count < MOST_WORDS) words[count] = word;
        count++;
    }
    return fold(words, count, answer);
}

int main(void) {
    char line[MOST_BYTES + 1];
    while (read_line(line)) {
        apfloat_answer answer;
        uint32_t code = fold_line(line, &answer);
        if (code == APFLOAT_ANSWERED)
            print(&answer);
        else
            printf("refused: %d\n", code == UINT32_MAX ? -1 : (int)code);
    }
    return 0;
}
