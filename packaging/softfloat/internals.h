/* What simulators take from SoftFloat's header of this name: the fields of values by their bits, values of fields, and
 * values and bits in one place. Its functions for SoftFloat's own use are not here. */
#ifndef internals_h
#define internals_h 1

#include <stdbool.h>
#include <stdint.h>

#include "softfloat_types.h"

union ui16_f16 {
    uint16_t ui;
    float16_t f;
};
union ui32_f32 {
    uint32_t ui;
    float32_t f;
};
union ui64_f64 {
    uint64_t ui;
    float64_t f;
};

#define signF16UI(a) ((bool)((uint16_t)(a) >> 15))
#define expF16UI(a) ((int_fast8_t)((a) >> 10) & 0x1f)
#define fracF16UI(a) ((a) & 0x3ff)
#define packToF16UI(sign, exp, sig) (((uint16_t)(sign) << 15) + ((uint16_t)(exp) << 10) + (sig))
#define isNaNF16UI(a) (((~(a) & 0x7c00) == 0) && ((a) & 0x3ff))

#define signF32UI(a) ((bool)((uint32_t)(a) >> 31))
#define expF32UI(a) ((int_fast16_t)((a) >> 23) & 0xff)
#define fracF32UI(a) ((a) & UINT32_C(0x7fffff))
#define packToF32UI(sign, exp, sig) (((uint32_t)(sign) << 31) + ((uint32_t)(exp) << 23) + (sig))
#define isNaNF32UI(a) (((~(a) & UINT32_C(0x7f800000)) == 0) && ((a) & UINT32_C(0x7fffff)))

#define signF64UI(a) ((bool)((uint64_t)(a) >> 63))
#define expF64UI(a) ((int_fast16_t)((a) >> 52) & 0x7ff)
#define fracF64UI(a) ((a) & UINT64_C(0xfffffffffffff))
#define packToF64UI(sign, exp, sig) ((uint64_t)(((uint64_t)(sign) << 63) + ((uint64_t)(exp) << 52) + (sig)))
#define isNaNF64UI(a) (((~(a) & UINT64_C(0x7ff0000000000000)) == 0) && ((a) & UINT64_C(0xfffffffffffff)))

#define signExtF80UI64(a64) ((bool)((uint16_t)(a64) >> 15))
#define expExtF80UI64(a64) ((a64) & 0x7fff)
#define packToExtF80UI64(sign, exp) ((uint_fast16_t)(sign) << 15 | (exp))
#define isNaNExtF80UI(a64, a0) ((((a64) & 0x7fff) == 0x7fff) && ((a0) & UINT64_C(0x7fffffffffffffff)))

#define signF128UI64(a64) ((bool)((uint64_t)(a64) >> 63))
#define expF128UI64(a64) ((int_fast32_t)((a64) >> 48) & 0x7fff)
#define fracF128UI64(a64) ((a64) & UINT64_C(0xffffffffffff))
#define packToF128UI64(sign, exp, sig64) (((uint_fast64_t)(sign) << 63) + ((uint_fast64_t)(exp) << 48) + (sig64))
#define isNaNF128UI(a64, a0) \
    (((~(a64) & UINT64_C(0x7fff000000000000)) == 0) && ((a0) || ((a64) & UINT64_C(0xffffffffffff))))

#endif
