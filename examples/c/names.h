/* The codes of formats, modes and flags, by their names in commands and rows. */
#ifndef NAMES_H
#define NAMES_H

#include "apfloat.h"

#include <stddef.h>
#include <string.h>

struct code {
    const char *name;
    uint32_t code;
};

static const struct code formats[] = {
    {"half", APFLOAT_HALF},     {"single", APFLOAT_SINGLE}, {"double", APFLOAT_DOUBLE},
    {"quad", APFLOAT_QUAD},     {"bfloat", APFLOAT_BFLOAT}, {"e5m2", APFLOAT_E5M2},
    {"e4m3fn", APFLOAT_E4M3FN}, {"x87", APFLOAT_X87},       {"e4m3fnuz", APFLOAT_E4M3FNUZ},
    {"dd", APFLOAT_DOUBLE_PAIR},
    {"e4m3", APFLOAT_E4M3},     {"tf32", APFLOAT_TF32},     {"e5m2fnuz", APFLOAT_E5M2FNUZ},
    {"e4m3b11fnuz", APFLOAT_E4M3B11FNUZ}};

static const struct code modes[] = {{"even", APFLOAT_NEAREST_EVEN},
                                    {"up", APFLOAT_UPWARD},
                                    {"down", APFLOAT_DOWNWARD},
                                    {"zero", APFLOAT_TOWARD_ZERO},
                                    {"away", APFLOAT_NEAREST_AWAY}};

static const struct code flags[] = {{"INVALID_OP", APFLOAT_INVALID_OP},
                                    {"DIV_BY_ZERO", APFLOAT_DIV_BY_ZERO},
                                    {"OVERFLOW", APFLOAT_OVERFLOW},
                                    {"UNDERFLOW", APFLOAT_UNDERFLOW},
                                    {"INEXACT", APFLOAT_INEXACT}};

#define COUNT(table) (sizeof(table) / sizeof((table)[0]))

#define NO_CODE UINT32_MAX

/* The code of a name, or `NO_CODE`, which the library refuses, if the name is unknown. */
static uint32_t code_of(const struct code *table, size_t count, const char *name) {
    for (size_t i = 0; i < count; i++)
        if (strcmp(table[i].name, name) == 0) return table[i].code;
    return NO_CODE;
}

#endif
