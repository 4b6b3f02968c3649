/* Rows with tabs between their columns, and what the columns say. */
#ifndef ROWS_H
#define ROWS_H

#include "apfloat.h"
#include "../../examples/c/names.h"

#include <stdbool.h>
#include <stdlib.h>
#include <string.h>

/* Memory that no call left as it is. */
static const apfloat_answer before = {{UINT64_C(0x0123456789abcdef), UINT64_C(0xfedcba9876543210)}, 0x55aa, -77};

/* Splits a row at its tabs. Returns how many columns it has, or one more than `most`. */
static size_t split(char *row, char *columns[], size_t most) {
    size_t count = 0;
    for (char *tab; row && count < most; row = tab) {
        columns[count++] = row;
        tab = strchr(row, '\t');
        if (tab) *tab++ = '\0';
    }
    return row ? most + 1 : count;
}

/* The code of a format, with its rule of flags in the words after each +. */
static uint32_t format_of(char *name) {
    char *rule = strchr(name, '+');
    if (rule) *rule++ = '\0';
    uint32_t code = code_of(formats, COUNT(formats), name);
    if (code == NO_CODE || !rule) return code;
    if (strcmp(rule, "ieee") == 0) return code | APFLOAT_IEEE_FLAGS;
    if (strcmp(rule, "ieee+before") == 0) return code | APFLOAT_IEEE_FLAGS | APFLOAT_TINY_BEFORE_ROUNDING;
    return NO_CODE;
}

/* Digits of a base up to 16 as 128 bits; a minus sign negates, in two's complement. */
static bool read_integer(const char *word, uint64_t base, apfloat_halves *number) {
    bool is_negative = *word == '-';
    if (is_negative) word++;
    number->low = number->high = 0;
    if (*word == '\0') return false;
    for (; *word; word++) {
        const char *all = "0123456789abcdef", *digit = strchr(all, *word);
        if (!digit || (uint64_t)(digit - all) >= base) return false;
        uint64_t lowest = (number->low & UINT32_MAX) * base + (uint64_t)(digit - all);
        uint64_t next = (number->low >> 32) * base + (lowest >> 32);
        number->high = number->high * base + (next >> 32);
        number->low = next << 32 | (lowest & UINT32_MAX);
    }
    if (is_negative) {
        number->low = -number->low;
        number->high = ~number->high + (number->low == 0);
    }
    return true;
}

static bool read_flags(char *names, uint32_t *status) {
    *status = 0;
    if (strcmp(names, "OK") == 0 || strcmp(names, "-") == 0) return true;
    for (char *name = strtok(names, "|"); name; name = strtok(NULL, "|")) {
        uint32_t flag = code_of(flags, COUNT(flags), name);
        if (flag == NO_CODE) return false;
        *status |= flag;
    }
    return true;
}

/* Whether a call was answered with the bits, flags and number of the last three of seven columns. */
static inline bool is_answer(uint32_t code, const apfloat_answer *answer, char *columns[]) {
    apfloat_halves bits;
    uint32_t status;
    return code == APFLOAT_ANSWERED && read_integer(columns[4], 16, &bits) && read_flags(columns[5], &status) &&
           answer->bits.low == bits.low && answer->bits.high == bits.high && answer->status == status &&
           answer->number == atoi(columns[6]);
}

#endif
