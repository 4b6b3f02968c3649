/* What SoftFloat's header of this name tells its users: integers of invalid conversions, default NaNs, and which NaNs
 * are signaling, of the way for which the program is compiled (README.md in this folder). */
#ifndef specialize_h
#define specialize_h 1

#include <stdbool.h>
#include <stdint.h>

#include "softfloat.h"

#if defined(SOFTFLOAT_ARM_VFPV2) || defined(SOFTFLOAT_ARM_VFPV2_DEFAULTNAN)
#define init_detectTininess softfloat_tininess_beforeRounding
#else
#define init_detectTininess softfloat_tininess_afterRounding
#endif

/* ---- integers of values out of range and of NaNs */

#if defined(SOFTFLOAT_ARM_VFPV2) || defined(SOFTFLOAT_ARM_VFPV2_DEFAULTNAN)
#define ui8_fromNaN 0
#define ui16_fromNaN 0
#define ui32_fromNaN 0
#define ui64_fromNaN UINT64_C(0)
#define i8_fromNaN 0
#define i16_fromNaN 0
#define i32_fromNaN 0
#define i64_fromNaN INT64_C(0)
#elif defined(SOFTFLOAT_RISCV)
#define ui8_fromNaN UINT8_MAX
#define ui16_fromNaN UINT16_MAX
#define ui32_fromNaN UINT32_MAX
#define ui64_fromNaN UINT64_MAX
#define i8_fromNaN INT8_MAX
#define i16_fromNaN INT16_MAX
#define i32_fromNaN INT32_MAX
#define i64_fromNaN INT64_MAX
#else
#define ui8_fromNaN UINT8_MAX
#define ui16_fromNaN UINT16_MAX
#define ui32_fromNaN UINT32_MAX
#define ui64_fromNaN UINT64_MAX
#define i8_fromNaN INT8_MIN
#define i16_fromNaN INT16_MIN
#define i32_fromNaN INT32_MIN
#define i64_fromNaN INT64_MIN
#endif

#define ui8_fromPosOverflow UINT8_MAX
#define ui16_fromPosOverflow UINT16_MAX
#define ui32_fromPosOverflow UINT32_MAX
#define ui64_fromPosOverflow UINT64_MAX
#define i8_fromNegOverflow INT8_MIN
#define i16_fromNegOverflow INT16_MIN
#define i32_fromNegOverflow INT32_MIN
#define i64_fromNegOverflow INT64_MIN

#if defined(SOFTFLOAT_ARM_VFPV2) || defined(SOFTFLOAT_ARM_VFPV2_DEFAULTNAN) || defined(SOFTFLOAT_RISCV)
#define ui8_fromNegOverflow 0
#define ui16_fromNegOverflow 0
#define ui32_fromNegOverflow 0
#define ui64_fromNegOverflow UINT64_C(0)
#define i8_fromPosOverflow INT8_MAX
#define i16_fromPosOverflow INT16_MAX
#define i32_fromPosOverflow INT32_MAX
#define i64_fromPosOverflow INT64_MAX
#else
#define ui8_fromNegOverflow UINT8_MAX
#define ui16_fromNegOverflow UINT16_MAX
#define ui32_fromNegOverflow UINT32_MAX
#define ui64_fromNegOverflow UINT64_MAX
#define i8_fromPosOverflow INT8_MIN
#define i16_fromPosOverflow INT16_MIN
#define i32_fromPosOverflow INT32_MIN
#define i64_fromPosOverflow INT64_MIN
#endif

/* ---- the NaN of an invalid operation, by its bits */

#if defined(SOFTFLOAT_ARM_VFPV2) || defined(SOFTFLOAT_ARM_VFPV2_DEFAULTNAN) || defined(SOFTFLOAT_RISCV)
#define defaultNaNF16UI 0x7e00
#define defaultNaNF32UI UINT32_C(0x7fc00000)
#define defaultNaNF64UI UINT64_C(0x7ff8000000000000)
#define defaultNaNExtF80UI64 0x7fff
#define defaultNaNF128UI64 UINT64_C(0x7fff800000000000)
#else
#define defaultNaNF16UI 0xfe00
#define defaultNaNF32UI UINT32_C(0xffc00000)
#define defaultNaNF64UI UINT64_C(0xfff8000000000000)
#define defaultNaNExtF80UI64 0xffff
#define defaultNaNF128UI64 UINT64_C(0xffff800000000000)
#endif
#define defaultNaNExtF80UI0 UINT64_C(0xc000000000000000)
#define defaultNaNF128UI0 UINT64_C(0)

/* ---- signaling NaNs, by their bits */

#define softfloat_isSigNaNF16UI(a) ((((a) & 0x7e00) == 0x7c00) && ((a) & 0x1ff))
#define softfloat_isSigNaNF32UI(a) \
    ((((a) & UINT32_C(0x7fc00000)) == UINT32_C(0x7f800000)) && ((a) & UINT32_C(0x3fffff)))
#define softfloat_isSigNaNF64UI(a) \
    ((((a) & UINT64_C(0x7ff8000000000000)) == UINT64_C(0x7ff0000000000000)) && ((a) & UINT64_C(0x7ffffffffffff)))
#define softfloat_isSigNaNExtF80UI(a64, a0) \
    ((((a64) & 0x7fff) == 0x7fff) && !((a0) & UINT64_C(0x4000000000000000)) && ((a0) & UINT64_C(0x3fffffffffffffff)))
#define softfloat_isSigNaNF128UI(a64, a0) \
    ((((a64) & UINT64_C(0x7fff800000000000)) == UINT64_C(0x7fff000000000000)) && \
     ((a0) || ((a64) & UINT64_C(0x7fffffffffff))))

#endif
