/* The interface of softfloat.h with its state as an argument: each function that rounds, raises a flag or reads a
 * value takes a pointer to a status after its other arguments, as the copy of SoftFloat 3e in Bochs has it. Names,
 * codes and fields are Bochs' own as remembered (README.md in this folder). Include this header in place of
 * softfloat.h, or that with -DSOFTFLOAT_STATUS, with which softfloat.c has to be compiled too. */
#ifndef softfloat_status_h
#define softfloat_status_h 1

#ifndef SOFTFLOAT_STATUS
#ifdef softfloat_types_h
#error "SOFTFLOAT_STATUS has to be defined before a header of SoftFloat is included"
#endif
#define SOFTFLOAT_STATUS 1
#endif

#include <stdbool.h>
#include <stdint.h>

#include "softfloat_types.h"

/* The rounding mode, in the order of MXCSR and of the control word of x87. */
enum {
    softfloat_round_near_even = 0,
    softfloat_round_min = 1,
    softfloat_round_down = softfloat_round_min,
    softfloat_round_max = 2,
    softfloat_round_up = softfloat_round_max,
    softfloat_round_minMag = 3,
    softfloat_round_to_zero = softfloat_round_minMag,
    softfloat_round_near_maxMag = 4,
    softfloat_round_odd = 6
};

/* The flags, in the order of MXCSR. */
enum {
    softfloat_flag_invalid = 1,
    softfloat_flag_denormal = 2,
    softfloat_flag_infinite = 4,
    softfloat_flag_divbyzero = softfloat_flag_infinite,
    softfloat_flag_overflow = 8,
    softfloat_flag_underflow = 16,
    softfloat_flag_inexact = 32,
    softfloat_all_exceptions_mask = 63
};

/* The order of two values. */
enum {
    softfloat_relation_less = -1,
    softfloat_relation_equal = 0,
    softfloat_relation_greater = 1,
    softfloat_relation_unordered = 2
};

typedef struct softfloat_status_t {
    uint8_t softfloat_roundingMode;
    int softfloat_exceptionFlags; /* raised so far */
    /* Where underflow is not masked, an exact denormal result raises it too, and no result is flushed. */
    int softfloat_exceptionMasks;
    int softfloat_suppressException;        /* flags that softfloat_getExceptionFlags leaves out */
    bool softfloat_denormals_are_zeros;     /* of operands, in every format */
    bool softfloat_flush_underflow_to_zero; /* of tiny results, in every format */
    uint8_t extF80_roundingPrecision;       /* as in softfloat.h */
} softfloat_status_t;

static inline void softfloat_raiseFlags(struct softfloat_status_t *status, int flags) {
    status->softfloat_exceptionFlags |= flags;
}

static inline int softfloat_getExceptionFlags(const struct softfloat_status_t *status) {
    return status->softfloat_exceptionFlags & ~status->softfloat_suppressException;
}

static inline bool softfloat_isMaskedException(const struct softfloat_status_t *status, int flags) {
    return (status->softfloat_exceptionMasks & flags) != 0;
}

#ifdef __cplusplus
extern "C" {
#endif

/* What a fused sum negates; no NaN changes its sign. */
enum { softfloat_mulAdd_subC = 1, softfloat_mulAdd_subProd = 2 };

/* The order of two values; a quiet NaN is invalid unless it is_quiet. */
int f16_compare(float16_t a, float16_t b, bool is_quiet, struct softfloat_status_t *status);
int f32_compare(float32_t a, float32_t b, bool is_quiet, struct softfloat_status_t *status);
int f64_compare(float64_t a, float64_t b, bool is_quiet, struct softfloat_status_t *status);
int extF80_compare(extFloat80_t a, extFloat80_t b, bool is_quiet, struct softfloat_status_t *status);
int f128_compare(float128_t a, float128_t b, bool is_quiet, struct softfloat_status_t *status);

#ifdef __cplusplus
}
#endif

#include "softfloat.h"

#endif
