// Compares lines of `instructions.c` of x86 with packaging/softfloat as 8086-SSE with a status that is passed: values
// and flags, with DAZ and FTZ, that of a denormal operand too.
//
//     cc -O2 -DSOFTFLOAT_STATUS -Iinclude -Ipackaging/softfloat -o STATUS evidence/processor/status.c
//         packaging/softfloat/softfloat.c LIBRARY && ./RUN 1 100000 | ./STATUS
#include "instructions.h"
#include "softfloat.h"

#include <stdio.h>

typedef struct {
    uint32_t operation, format, to, mode;
    uint64_t x, y, z;
} Line;

// The result of a call on singles or doubles, if the interface has it.
#define IN(F, LINE, STATE, RESULT)                                                                                     \
    switch ((LINE)->operation) {                                                                                       \
    case APFLOAT_ADD: *(RESULT) = F##_add((LINE)->x, (LINE)->y, STATE); return true;                                   \
    case APFLOAT_SUB: *(RESULT) = F##_sub((LINE)->x, (LINE)->y, STATE); return true;                                   \
    case APFLOAT_MUL: *(RESULT) = F##_mul((LINE)->x, (LINE)->y, STATE); return true;                                   \
    case APFLOAT_DIV: *(RESULT) = F##_div((LINE)->x, (LINE)->y, STATE); return true;                                   \
    case APFLOAT_SQRT: *(RESULT) = F##_sqrt((LINE)->x, STATE); return true;                                            \
    case APFLOAT_FMA: *(RESULT) = F##_mulAdd((LINE)->x, (LINE)->y, (LINE)->z, 0, STATE); return true;                  \
    case APFLOAT_LEAST: *(RESULT) = F##_min((LINE)->x, (LINE)->y, STATE); return true;                                 \
    case APFLOAT_GREATEST: *(RESULT) = F##_max((LINE)->x, (LINE)->y, STATE); return true;                              \
    case APFLOAT_ROUND_TO_INTEGRAL: *(RESULT) = F##_roundToInt((LINE)->x, mode, true, STATE); return true;             \
    case APFLOAT_INTEGRAL: *(RESULT) = F##_roundToInt((LINE)->x, mode, false, STATE); return true;                     \
    case COMPARE_QUIET: *(RESULT) = (uint64_t)(F##_compare((LINE)->x, (LINE)->y, true, STATE) + 1); return true;       \
    case COMPARE_SIGNALING: *(RESULT) = (uint64_t)(F##_compare((LINE)->x, (LINE)->y, false, STATE) + 1); return true;  \
    case APFLOAT_TO_I128:                                                                                              \
        *(RESULT) = (LINE)->to == 32 ? (uint32_t)F##_to_i32((LINE)->x, mode, true, STATE)                              \
                                     : (uint64_t)F##_to_i64((LINE)->x, mode, true, STATE);                             \
        return true;                                                                                                   \
    case APFLOAT_TO_U128:                                                                                              \
        *(RESULT) = (LINE)->to == 32 ? F##_to_ui32((LINE)->x, mode, true, STATE)                                       \
                                     : F##_to_ui64((LINE)->x, mode, true, STATE);                                      \
        return true;                                                                                                   \
    }

static bool computed(const Line *line, struct softfloat_status_t *state, uint64_t *result) {
    const uint8_t mode = state->softfloat_roundingMode;
    if (line->operation == APFLOAT_CONVERT) {
        const bool widens = line->format == APFLOAT_SINGLE && line->to == APFLOAT_DOUBLE;
        if (!widens && (line->format != APFLOAT_DOUBLE || line->to != APFLOAT_SINGLE)) return false;
        *result = widens ? f32_to_f64((float32)line->x, state) : f64_to_f32(line->x, state);
        return true;
    }
    if (line->format == APFLOAT_DOUBLE) IN(f64, line, state, result)
    if (line->format == APFLOAT_SINGLE) IN(f32, line, state, result)
    return false;
}

int main(void) {
    static const uint8_t MODES[] = {softfloat_round_near_even, softfloat_round_max, softfloat_round_min,
                                    softfloat_round_minMag};
    unsigned long agreeing = 0, differing = 0;
    char text[256];
    while (fgets(text, sizeof text, stdin)) {
        Line line;
        unsigned controls, flags;
        unsigned long long x[3], value;
        uint64_t result = 0;
        if (sscanf(text, "%*s %*x %x %x %x %x %x %llx %llx %llx %llx %x", &line.operation, &line.format, &line.to,
                   &line.mode, &controls, &x[0], &x[1], &x[2], &value, &flags) != 10)
            return 2;
        line.x = x[0], line.y = x[1], line.z = x[2];
        struct softfloat_status_t state = {MODES[line.mode], 0, softfloat_all_exceptions_mask, 0,
                                           controls & FLUSHES_OPERANDS, controls & FLUSHES_RESULTS, 80};
        if (!computed(&line, &state, &result)) continue;
        const int raised = state.softfloat_exceptionFlags;
        const unsigned ours = (raised & 1) | (raised >> 2 & 15) << 1 | (raised & 2 ? DENORMAL_OPERAND : 0);
        if (result == value && ours == flags) {
            agreeing++;
        } else if (differing++ < 10) {
            printf("%s  here: %llx %x\n", text, (unsigned long long)result, ours);
        }
    }
    printf("%lu lines agree, %lu differ\n", agreeing, differing);
    return differing != 0;
}
