/* The types of values in the interface of Berkeley SoftFloat 3e. */
#ifndef softfloat_types_h
#define softfloat_types_h 1

#include <stdint.h>

#ifdef SOFTFLOAT_STATUS
typedef uint16_t float16_t, float16;
typedef uint16_t bfloat16_t, bfloat16;
typedef uint32_t float32_t, float32;
typedef uint64_t float64_t, float64;
#else
typedef struct {
    uint16_t v;
} float16_t;

/* The upper half of a float32_t. */
typedef struct {
    uint16_t v;
} bfloat16_t;

typedef struct {
    uint32_t v;
} float32_t;

typedef struct {
    uint64_t v;
} float64_t;
#endif

/* As memory has it: the lower half first on a processor that stores the lowest byte first. */
typedef struct {
    uint64_t v[2];
} float128_t;

#if defined(__BYTE_ORDER__) && __BYTE_ORDER__ == __ORDER_BIG_ENDIAN__
struct extFloat80M {
    uint16_t signExp;
    uint64_t signif;
};
#else
struct extFloat80M {
    uint64_t signif;
    uint16_t signExp;
};
#endif
typedef struct extFloat80M extFloat80_t;

#endif
