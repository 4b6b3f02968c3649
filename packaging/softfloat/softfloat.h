/* The interface of Berkeley SoftFloat 3e over libapfloat, in C99 and C++: a program that calls SoftFloat is compiled
 * with this header, or with SoftFloat's own, and linked with softfloat.c and the library instead. README.md in this
 * folder says what is the same and what is not. */
#ifndef softfloat_h
#define softfloat_h 1

#include <stdbool.h>
#include <stdint.h>

#ifdef SOFTFLOAT_STATUS
#include "softfloat_status.h"
#endif
#include "softfloat_types.h"

/* The last arguments where the state is passed (softfloat_status.h); otherwise it is that of the thread. */
#ifdef SOFTFLOAT_STATUS
#define SOFTFLOAT_AND_STATUS , struct softfloat_status_t *status
#define SOFTFLOAT_AND_OP , uint8_t op
#else
#define SOFTFLOAT_AND_STATUS
#define SOFTFLOAT_AND_OP
#endif

/* How a variable of each thread is declared. A program that was compiled with a header in which it is empty, as
 * SoftFloat's is unless its maker chose, needs -DTHREAD_LOCAL= here too. */
#ifndef THREAD_LOCAL
#if defined(__cplusplus)
#define THREAD_LOCAL thread_local
#elif defined(__STDC_VERSION__) && __STDC_VERSION__ >= 201112L
#define THREAD_LOCAL _Thread_local
#elif defined(__GNUC__)
#define THREAD_LOCAL __thread
#else
#define THREAD_LOCAL
#endif
#endif

#ifdef __cplusplus
extern "C" {
#endif

/* When a result counts as tiny. */
enum { softfloat_tininess_beforeRounding = 0, softfloat_tininess_afterRounding = 1 };

#ifndef SOFTFLOAT_STATUS
extern THREAD_LOCAL uint_fast8_t softfloat_detectTininess;

/* The rounding mode. */
enum {
    softfloat_round_near_even = 0,
    softfloat_round_minMag = 1,
    softfloat_round_min = 2,
    softfloat_round_max = 3,
    softfloat_round_near_maxMag = 4,
    softfloat_round_odd = 6
};
extern THREAD_LOCAL uint_fast8_t softfloat_roundingMode;

/* The digits of sums, products, quotients and roots of extFloat80_t: 80 for all 64, 64 for 53, 32 for 24. */
extern THREAD_LOCAL uint_fast8_t extF80_roundingPrecision;

/* The flags that were raised, which a program clears itself. */
enum {
    softfloat_flag_inexact = 1,
    softfloat_flag_underflow = 2,
    softfloat_flag_overflow = 4,
    softfloat_flag_infinite = 8,
    softfloat_flag_invalid = 16
};
extern THREAD_LOCAL uint_fast8_t softfloat_exceptionFlags;
void softfloat_raiseFlags(uint_fast8_t flags);
#endif

/* ---- functions of the format F, whose values have the type T
 *
 * A value becomes an integer in a mode, with the flag of inexact results if `exact` is true, or truncated (minMag). */

#define softfloat_functions(F, T) \
    T ui32_to_##F(uint32_t n SOFTFLOAT_AND_STATUS); \
    T ui64_to_##F(uint64_t n SOFTFLOAT_AND_STATUS); \
    T i32_to_##F(int32_t n SOFTFLOAT_AND_STATUS); \
    T i64_to_##F(int64_t n SOFTFLOAT_AND_STATUS); \
    uint_fast32_t F##_to_ui32(T a, uint_fast8_t mode, bool exact SOFTFLOAT_AND_STATUS); \
    uint_fast64_t F##_to_ui64(T a, uint_fast8_t mode, bool exact SOFTFLOAT_AND_STATUS); \
    int_fast32_t F##_to_i32(T a, uint_fast8_t mode, bool exact SOFTFLOAT_AND_STATUS); \
    int_fast64_t F##_to_i64(T a, uint_fast8_t mode, bool exact SOFTFLOAT_AND_STATUS); \
    uint_fast32_t F##_to_ui32_r_minMag(T a, bool exact SOFTFLOAT_AND_STATUS); \
    uint_fast64_t F##_to_ui64_r_minMag(T a, bool exact SOFTFLOAT_AND_STATUS); \
    int_fast32_t F##_to_i32_r_minMag(T a, bool exact SOFTFLOAT_AND_STATUS); \
    int_fast64_t F##_to_i64_r_minMag(T a, bool exact SOFTFLOAT_AND_STATUS); \
    T F##_roundToInt(T a, uint_fast8_t mode, bool exact SOFTFLOAT_AND_STATUS); \
    T F##_add(T a, T b SOFTFLOAT_AND_STATUS); \
    T F##_sub(T a, T b SOFTFLOAT_AND_STATUS); \
    T F##_mul(T a, T b SOFTFLOAT_AND_STATUS); \
    T F##_div(T a, T b SOFTFLOAT_AND_STATUS); \
    T F##_rem(T a, T b SOFTFLOAT_AND_STATUS); \
    T F##_sqrt(T a SOFTFLOAT_AND_STATUS); \
    bool F##_eq(T a, T b SOFTFLOAT_AND_STATUS); \
    bool F##_le(T a, T b SOFTFLOAT_AND_STATUS); \
    bool F##_lt(T a, T b SOFTFLOAT_AND_STATUS); \
    bool F##_eq_signaling(T a, T b SOFTFLOAT_AND_STATUS); \
    bool F##_le_quiet(T a, T b SOFTFLOAT_AND_STATUS); \
    bool F##_lt_quiet(T a, T b SOFTFLOAT_AND_STATUS); \
    bool F##_isSignalingNaN(T a);
softfloat_functions(f16, float16_t)
softfloat_functions(f32, float32_t)
softfloat_functions(f64, float64_t)
softfloat_functions(extF80, extFloat80_t)
softfloat_functions(f128, float128_t)
#undef softfloat_functions

/* a * b + c; extF80 has none. */
float16_t f16_mulAdd(float16_t a, float16_t b, float16_t c SOFTFLOAT_AND_OP SOFTFLOAT_AND_STATUS);
float32_t f32_mulAdd(float32_t a, float32_t b, float32_t c SOFTFLOAT_AND_OP SOFTFLOAT_AND_STATUS);
float64_t f64_mulAdd(float64_t a, float64_t b, float64_t c SOFTFLOAT_AND_OP SOFTFLOAT_AND_STATUS);
float128_t f128_mulAdd(float128_t a, float128_t b, float128_t c SOFTFLOAT_AND_OP SOFTFLOAT_AND_STATUS);

/* Values of one format in another. */
#define softfloat_conversions(F, T, G, U) \
    U F##_to_##G(T a SOFTFLOAT_AND_STATUS); \
    T G##_to_##F(U a SOFTFLOAT_AND_STATUS);
softfloat_conversions(f16, float16_t, f32, float32_t)
softfloat_conversions(f16, float16_t, f64, float64_t)
softfloat_conversions(f16, float16_t, extF80, extFloat80_t)
softfloat_conversions(f16, float16_t, f128, float128_t)
softfloat_conversions(f32, float32_t, f64, float64_t)
softfloat_conversions(f32, float32_t, extF80, extFloat80_t)
softfloat_conversions(f32, float32_t, f128, float128_t)
softfloat_conversions(f64, float64_t, extF80, extFloat80_t)
softfloat_conversions(f64, float64_t, f128, float128_t)
softfloat_conversions(extF80, extFloat80_t, f128, float128_t)
softfloat_conversions(f32, float32_t, bf16, bfloat16_t)
#undef softfloat_conversions

#ifndef SOFTFLOAT_STATUS
/* ---- the same by pointers: a function whose name has an M after that of a format takes its values, and leaves its
 * result, by them */

#define softfloat_conversions_by_pointers(F, T, G, U) \
    void G##_to_##F##M(U a, T *z); \
    U F##M_to_##G(const T *a);
#define softfloat_functions_by_pointers(F, T) \
    void ui32_to_##F##M(uint32_t n, T *z); \
    void ui64_to_##F##M(uint64_t n, T *z); \
    void i32_to_##F##M(int32_t n, T *z); \
    void i64_to_##F##M(int64_t n, T *z); \
    uint_fast32_t F##M_to_ui32(const T *a, uint_fast8_t mode, bool exact); \
    uint_fast64_t F##M_to_ui64(const T *a, uint_fast8_t mode, bool exact); \
    int_fast32_t F##M_to_i32(const T *a, uint_fast8_t mode, bool exact); \
    int_fast64_t F##M_to_i64(const T *a, uint_fast8_t mode, bool exact); \
    uint_fast32_t F##M_to_ui32_r_minMag(const T *a, bool exact); \
    uint_fast64_t F##M_to_ui64_r_minMag(const T *a, bool exact); \
    int_fast32_t F##M_to_i32_r_minMag(const T *a, bool exact); \
    int_fast64_t F##M_to_i64_r_minMag(const T *a, bool exact); \
    softfloat_conversions_by_pointers(F, T, f16, float16_t) \
    softfloat_conversions_by_pointers(F, T, f32, float32_t) \
    softfloat_conversions_by_pointers(F, T, f64, float64_t) \
    void F##M_roundToInt(const T *a, uint_fast8_t mode, bool exact, T *z); \
    void F##M_add(const T *a, const T *b, T *z); \
    void F##M_sub(const T *a, const T *b, T *z); \
    void F##M_mul(const T *a, const T *b, T *z); \
    void F##M_div(const T *a, const T *b, T *z); \
    void F##M_rem(const T *a, const T *b, T *z); \
    void F##M_sqrt(const T *a, T *z); \
    bool F##M_eq(const T *a, const T *b); \
    bool F##M_le(const T *a, const T *b); \
    bool F##M_lt(const T *a, const T *b); \
    bool F##M_eq_signaling(const T *a, const T *b); \
    bool F##M_le_quiet(const T *a, const T *b); \
    bool F##M_lt_quiet(const T *a, const T *b); \
    bool F##M_isSignalingNaN(const T *a);
softfloat_functions_by_pointers(extF80, extFloat80_t)
softfloat_functions_by_pointers(f128, float128_t)
#undef softfloat_functions_by_pointers
#undef softfloat_conversions_by_pointers

void extF80M_to_f128M(const extFloat80_t *a, float128_t *z);
void f128M_to_extF80M(const float128_t *a, extFloat80_t *z);
void f128M_mulAdd(const float128_t *a, const float128_t *b, const float128_t *c, float128_t *z);
#endif

/* ---- functions that simulators add to SoftFloat, and later ones of its own
 *
 * A class is that of RISC-V: one of ten bits, for -infinity, negative normal, negative subnormal, -0, +0, positive
 * subnormal, positive normal, +infinity, signaling NaN and quiet NaN, from the lowest. The minimum and maximum are the
 * number if one operand is a NaN, and the default NaN if both are; -0 is below +0, and a signaling NaN is invalid. With
 * a status that is passed, they are those of MINSS and MAXSS. */

uint_fast16_t f16_classify(float16_t a);
uint_fast16_t f32_classify(float32_t a);
uint_fast16_t f64_classify(float64_t a);
uint_fast16_t f128_classify(float128_t a);
float16_t f16_min(float16_t a, float16_t b SOFTFLOAT_AND_STATUS);
float16_t f16_max(float16_t a, float16_t b SOFTFLOAT_AND_STATUS);
float32_t f32_min(float32_t a, float32_t b SOFTFLOAT_AND_STATUS);
float32_t f32_max(float32_t a, float32_t b SOFTFLOAT_AND_STATUS);
float64_t f64_min(float64_t a, float64_t b SOFTFLOAT_AND_STATUS);
float64_t f64_max(float64_t a, float64_t b SOFTFLOAT_AND_STATUS);
uint_fast8_t f16_to_ui8(float16_t a, uint_fast8_t mode, bool exact SOFTFLOAT_AND_STATUS);
uint_fast16_t f16_to_ui16(float16_t a, uint_fast8_t mode, bool exact SOFTFLOAT_AND_STATUS);
int_fast8_t f16_to_i8(float16_t a, uint_fast8_t mode, bool exact SOFTFLOAT_AND_STATUS);
int_fast16_t f16_to_i16(float16_t a, uint_fast8_t mode, bool exact SOFTFLOAT_AND_STATUS);
uint_fast16_t f32_to_ui16(float32_t a, uint_fast8_t mode, bool exact SOFTFLOAT_AND_STATUS);
int_fast16_t f32_to_i16(float32_t a, uint_fast8_t mode, bool exact SOFTFLOAT_AND_STATUS);
bool bf16_isSignalingNaN(bfloat16_t a);

#ifdef __cplusplus
}
#endif

#endif
