// A line of `instructions.c` has a name, and in hexadecimal digits the machine, the operation, the format, `to`, the
// mode, the controls, three operands, the result and the flags: the codes of include/apfloat.h, and these.
#ifndef INSTRUCTIONS_H
#define INSTRUCTIONS_H

#include "apfloat.h"

#include <stdbool.h>
#include <stdint.h>

// Controls: DAZ or FZ, FTZ or FZ, FZ16, and the precisions of x87, which have the bits of apfloat_control.
enum { FLUSHES_OPERANDS = 1, FLUSHES_RESULTS = 2, FLUSHES_HALF = 4, DIGITS_24 = 8, DIGITS_53 = 16 };

// A further flag, and further operations: a comparison gives 0 (less) to 3 (unordered).
enum { DENORMAL_OPERAND = 32, COMPARE_QUIET = 0x100, COMPARE_SIGNALING = 0x101 };

#endif
