/* Correctly rounded software floating point, C99. Two libraries have these functions, with the same answers: the proved
 * one, and the same text by rustc; apfloat_made_by says which it is. C.md, FORMATS.md and MACHINES.md, which the
 * comments here name, are in docs/ beside the source, and in share/doc/apfloat where the library is installed.
 *
 * A function on values takes them as their bits, with a code for the format and, if it rounds, one for the rounding
 * mode, and writes its result through a pointer. It returns APFLOAT_ANSWERED, or the code of the first error, in the
 * order in which these codes are listed, unless the function says another; on an error, *answer is unchanged.
 *
 * The library never allocates, keeps no state between calls, and calls no functions outside itself other than memcpy
 * and memset, which compilers call everywhere, and one more: the proved one the compiler's own division of 128-bit
 * integers, and the one by rustc abort, for tests that rustc leaves in and that never fail. So its functions may be
 * called from any thread, and from a signal handler. Given valid pointers, they are defined for every value of every
 * argument: no code, bit pattern, width or text causes undefined behaviour.
 *
 * Pointers are not checked. The caller must ensure that:
 *
 * - `answer` is not null, is aligned for an apfloat_answer, and points to one that nothing else reads or writes during
 *   the call. It need not be initialized.
 * - `text` is not null, not even if `length` is 0 (any address will do then, such as (const uint8_t *)""). It points to
 *   `length` bytes of one object, hence at most PTRDIFF_MAX, and nothing writes to them during the call. It needs no
 *   alignment and no terminating zero, since no byte after the last one is read.
 * - What holds for `text` holds for arrays of values: they are not null even if they are empty, and nothing writes to
 *   them during the call. It holds for `results` and `table` too, except that the call writes there; nothing else reads
 *   or writes them during the call, and they overlap no other argument. The functions whose names end in _in_place take
 *   results that are one of the operands. Arrays of operands may overlap each other.
 * - `answer` and `text` do not overlap. Values and integers are passed by value, so an answer may overwrite an operand:
 *   apfloat_add(f, m, a.bits, b, &a) is fine.
 *
 * The result of each function is stated by the contract of its export, in the library's text. Of the proved library it
 * is proved; of the one by rustc no proof is claimed. */
#ifndef APFLOAT_H
#define APFLOAT_H

#include <stddef.h>
#include <stdint.h>
#include <string.h>

/* The version of this header, by which the shared library is named as well: a program that was compiled with it needs a
 * library of the same major version. */
#define APFLOAT_VERSION "0.1.0"
#define APFLOAT_VERSION_MAJOR 0
#define APFLOAT_VERSION_MINOR 1
#define APFLOAT_VERSION_PATCH 0

#ifdef __cplusplus
extern "C" {
#endif

/* 128 bits as two 64-bit words: the bits of a value, or an integer.
 *
 * A value of fewer bits is in the lowest ones. Bits at and above the width of its format are 0 in an answer, and are
 * ignored in an operand; apfloat_machine and apfloat_instruction alone refuse them. Pairs of doubles have the high
 * double in `low` and the low one in `high`. A signed integer is in 128-bit two's complement. */
typedef struct apfloat_halves {
    uint64_t low;
    uint64_t high;
} apfloat_halves;

/* The result of a call. Fields that a call does not use are 0. */
typedef struct apfloat_answer {
    apfloat_halves bits; /* the bits of a value, or an integer */
    uint32_t status;     /* the sum of the flags that the operation raised */
    int32_t number;      /* an extra result; see the functions that set it */
} apfloat_answer;

/* The codes of each kind have a type of their own, of 32 bits: a code of another kind is a warning of -Wextra in C
 * (-Wenum-conversion), and an error in C++. The last name of each type is no code; it is there for its width. */
#ifdef __cplusplus
#define APFLOAT_CODE : uint32_t
#define APFLOAT_INLINE inline
#else
#define APFLOAT_CODE
#define APFLOAT_INLINE static inline
#endif

/* Formats. */
typedef enum apfloat_format APFLOAT_CODE {
    APFLOAT_HALF = 1,         /* binary16 */
    APFLOAT_SINGLE = 2,       /* binary32 */
    APFLOAT_DOUBLE = 3,       /* binary64 */
    APFLOAT_QUAD = 4,         /* binary128 */
    APFLOAT_BFLOAT = 5,       /* the upper half of a binary32 */
    APFLOAT_E5M2 = 6,         /* 8 bits with the exponents of binary16 */
    APFLOAT_E4M3FN = 7,       /* 8 bits without infinities */
    APFLOAT_E4M3FNUZ = 8,     /* 8 bits without infinities and without -0 */
    APFLOAT_X87 = 9,          /* the 80 bits of the x87 */
    APFLOAT_DOUBLE_PAIR = 10, /* pairs of doubles, IBM's extended double */
    APFLOAT_E4M3 = 16,        /* 8 bits, 4 of them the exponent, with infinities */
    APFLOAT_E5M2FNUZ = 17,    /* 8 bits, 5 of them the exponent, without infinities and without -0 */
    APFLOAT_E4M3B11FNUZ = 18, /* 8 bits, 4 of them the exponent, of bias 11, without infinities and -0 */
    APFLOAT_TF32 = 19,        /* 19 bits: the exponents of binary32 and the digits of binary16 */

    /* Storage formats, of apfloat_convert_array, of blocks and of the functions on storage formats alone
     * (FORMATS.md): for all other functions these codes are unknown. */
    APFLOAT_E2M1FN = 32,  /* 4 bits: 0, 0.5, 1, 1.5, 2, 3, 4, 6 and their negatives */
    APFLOAT_E2M3FN = 33,  /* 6 bits, 2 of them the exponent, to 7.5 */
    APFLOAT_E3M2FN = 34,  /* 6 bits, 3 of them the exponent, to 28 */
    APFLOAT_E3M4 = 35,    /* 8 bits, 3 of them the exponent, with infinities */
    APFLOAT_E8M0FNU = 48, /* 8 bits: the powers of two from 2^-127 to 2^127, and a NaN; no sign, no zero */
    APFLOAT_UE4M3 = 49,   /* 7 bits: the numbers of APFLOAT_E4M3FN that are not below zero, and a NaN */

    /* Of apfloat_dot_blocks alone, in the place of a format of elements: blocks of NVFP4. */
    APFLOAT_NVFP4 = 64,

    /* Joined to the code of a format by |, these choose by which rule its roundings raise APFLOAT_OVERFLOW and
     * APFLOAT_UNDERFLOW. No value depends on the rule. Without them, a result that a mode rounds to the largest value
     * raises no APFLOAT_OVERFLOW, and an inexact result raises APFLOAT_UNDERFLOW if it is below the smallest normal
     * number once it is rounded to the format. With the first, APFLOAT_OVERFLOW is raised wherever the result, rounded
     * with an unbounded exponent, is past the largest value (IEEE 754-2019 7.4), and APFLOAT_UNDERFLOW if an inexact
     * result is below the smallest normal number when it is rounded with an unbounded exponent, as x86 and RISC-V have
     * it, or, with both, before it is rounded, as Arm and POWER have it (7.5). APFLOAT_E4M3FN, APFLOAT_E4M3FNUZ,
     * APFLOAT_DOUBLE_PAIR and the formats after it have no such choice. Joined to their codes, or the second without
     * the first, these make an unknown format. In a conversion, the rule of `to` counts. */
    APFLOAT_IEEE_FLAGS = 0x100,
    APFLOAT_TINY_BEFORE_ROUNDING = 0x200,
    APFLOAT_FORMAT_BITS = 0x7fffffff
} apfloat_format;

/* Rounding modes (IEEE 754-2019 4.3). */
typedef enum apfloat_mode APFLOAT_CODE {
    APFLOAT_NEAREST_EVEN = 0, /* to the nearest value, ties to even */
    APFLOAT_UPWARD = 1,       /* toward positive infinity */
    APFLOAT_DOWNWARD = 2,     /* toward negative infinity */
    APFLOAT_TOWARD_ZERO = 3,
    APFLOAT_NEAREST_AWAY = 4, /* to the nearest value, ties away from zero */

    /* Joined to the mode of apfloat_convert_array by |: a number that is past the largest value of `to` once it is
     * rounded gives the largest value of its sign, with the same flags as without this. Infinities are converted as
     * without it, in a format without infinities to a NaN. The modes of apfloat_to_storage, apfloat_from_storage,
     * apfloat_between_storage, apfloat_to_p3109 and apfloat_to_p3109_by may have it too; in those of all others it
     * makes an unknown mode. */
    APFLOAT_SATURATE = 0x100,

    /* The same, and an infinity gives the largest value of its sign, with APFLOAT_INEXACT: the saturation of the OCP's
     * 8-bit formats. NaNs are converted as without it; with APFLOAT_SATURATE_ALL they give the largest value, sign
     * plus, with APFLOAT_INVALID_OP, but not in formats of P3109, where it is an unknown mode. What is below zero is a
     * NaN in APFLOAT_E8M0FNU and APFLOAT_UE4M3 with any of these. */
    APFLOAT_SATURATE_FINITE = 0x300,
    APFLOAT_SATURATE_ALL = 0x700,

    /* Joined to the mode of apfloat_quantize_blocks alone: which scale a block has. */
    APFLOAT_SCALE_CEIL = 0x1000, /* the least one by which no value is past the largest number of the elements */
    APFLOAT_SCALE_EVEN = 0x2000, /* that of the greatest magnitude once it is rounded to the digits of an element, to
                                  * nearest, ties to even */

    /* Of apfloat_to_storage_by, apfloat_convert_array_by and apfloat_to_p3109_by, and the first one of
     * apfloat_to_p3109 and apfloat_instruction. */
    APFLOAT_TO_ODD = 5,
    APFLOAT_RANDOM_DIGITS = 6,

    /* Of apfloat_to_p3109_by alone: the parts of a distance are rounded to nearest, ties up or to even. */
    APFLOAT_RANDOM_DIGITS_B = 7,
    APFLOAT_RANDOM_DIGITS_C = 8,
    APFLOAT_MODE_BITS = 0x7fffffff
} apfloat_mode;

/* Flags (IEEE 754-2019 7). */
typedef enum apfloat_flag APFLOAT_CODE {
    APFLOAT_INVALID_OP = 0x01,
    APFLOAT_DIV_BY_ZERO = 0x02,
    APFLOAT_OVERFLOW = 0x04,
    APFLOAT_UNDERFLOW = 0x08,
    APFLOAT_INEXACT = 0x10,
    APFLOAT_FLAG_BITS = 0x7fffffff
} apfloat_flag;

/* What a function returns. */
typedef enum apfloat_error APFLOAT_CODE {
    APFLOAT_ANSWERED = 0,
    APFLOAT_UNKNOWN_FORMAT = 1,      /* of the operands, or, after the mode, of a conversion's target */
    APFLOAT_UNKNOWN_MODE = 2,
    APFLOAT_NO_SUCH_OPERATION = 3,   /* the format does not have the operation */
    APFLOAT_WRONG_WIDTH = 4,         /* of an integer */
    APFLOAT_REFUSED_TEXT = 5,        /* the text has no meaning */
    APFLOAT_WRONG_LENGTH = 6,        /* of an array */
    APFLOAT_UNKNOWN_ERROR = 7,       /* of a code: apfloat_error_text alone returns it */
    APFLOAT_UNKNOWN_MACHINE = 8,
    APFLOAT_WIDE_OPERAND = 9,        /* bits at or above the width of its format are set */
    APFLOAT_LACKING_OPERATION = 10,  /* the machine does not have the operation */
    APFLOAT_OVERLAPPING_ARRAYS = 11, /* the results of a call in place lie partly in an operand */
    APFLOAT_WRONG_CONTROL = 12,      /* a control word has unknown bits, or some that the machine does not have */
    APFLOAT_ERROR_BITS = 0x7fffffff
} apfloat_error;

/* What these functions say of results holds in all formats but APFLOAT_DOUBLE_PAIR. There sums, differences and
 * products are chains of operations on doubles, each of which rounds. Signs, orders, classes, exponents, scaling and
 * fractions are by the parts. Everything else is computed in a wide format of 106 binary digits, to which the sum of
 * the parts of an operand is first rounded to nearest, and a pair is its result split into two doubles. So for the
 * pair 1 + 2^-200 the root is 1 in every mode with no flag, the integer is 1 with `number` 1, and the next value up
 * is the one above 1 in the wide format. */

/* Operations on two values, rounded once: x + y, x - y, x * y, x / y. */
apfloat_error apfloat_add(apfloat_format format, apfloat_mode mode, apfloat_halves x, apfloat_halves y,
                          apfloat_answer *answer);
apfloat_error apfloat_sub(apfloat_format format, apfloat_mode mode, apfloat_halves x, apfloat_halves y,
                          apfloat_answer *answer);
apfloat_error apfloat_mul(apfloat_format format, apfloat_mode mode, apfloat_halves x, apfloat_halves y,
                          apfloat_answer *answer);
apfloat_error apfloat_div(apfloat_format format, apfloat_mode mode, apfloat_halves x, apfloat_halves y,
                          apfloat_answer *answer);

/* x * y + z, rounded once. APFLOAT_DOUBLE_PAIR does not have it, but apfloat_pair_fma. */
apfloat_error apfloat_fma(apfloat_format format, apfloat_mode mode, apfloat_halves x, apfloat_halves y,
                          apfloat_halves z, apfloat_answer *answer);

/* The square root of x, rounded once (IEEE 754-2019 5.4.1): -0 gives -0, and a value below zero a NaN with
 * APFLOAT_INVALID_OP. */
apfloat_error apfloat_sqrt(apfloat_format format, apfloat_mode mode, apfloat_halves x, apfloat_answer *answer);

/* The remainder of x by y: with the quotient rounded to the nearest integer, like remainder() in C, and with the
 * quotient truncated toward zero, like fmod(). */
apfloat_error apfloat_rem(apfloat_format format, apfloat_halves x, apfloat_halves y, apfloat_answer *answer);
apfloat_error apfloat_mod(apfloat_format format, apfloat_halves x, apfloat_halves y, apfloat_answer *answer);

/* The value of `format` in the format `to`, rounded once; `number` is 1 if information was lost, else 0. There is no
 * conversion from or to APFLOAT_DOUBLE_PAIR here; see apfloat_pair_to_format. */
apfloat_error apfloat_convert(apfloat_format format, apfloat_mode mode, apfloat_format to, apfloat_halves x,
                              apfloat_answer *answer);

/* The value of an integer, rounded once. */
apfloat_error apfloat_from_u128(apfloat_format format, apfloat_mode mode, apfloat_halves number,
                                apfloat_answer *answer);
apfloat_error apfloat_from_i128(apfloat_format format, apfloat_mode mode, apfloat_halves number,
                                apfloat_answer *answer);

/* A value rounded to an integer of `width` binary digits: 1 to 128 if unsigned, 2 to 128 if signed. `bits` is the
 * integer, and `number` is 1 if that equals the value, else 0; for -0 it is 0. A value out of range gives the nearer
 * end of the range, and a NaN gives 0, both with APFLOAT_INVALID_OP. */
apfloat_error apfloat_to_u128(apfloat_format format, apfloat_mode mode, apfloat_halves x, uint32_t width,
                              apfloat_answer *answer);
apfloat_error apfloat_to_i128(apfloat_format format, apfloat_mode mode, apfloat_halves x, uint32_t width,
                              apfloat_answer *answer);

/* A value rounded to an integral value. */
apfloat_error apfloat_round_to_integral(apfloat_format format, apfloat_mode mode, apfloat_halves x,
                                        apfloat_answer *answer);

/* x times 2 to the power of `power`, rounded once; no flags are reported. */
apfloat_error apfloat_scalbn(apfloat_format format, apfloat_mode mode, apfloat_halves x, int32_t power,
                             apfloat_answer *answer);

/* `number` is the exponent of the highest binary digit; INT32_MAX for an infinity, INT32_MIN for a NaN and -INT32_MAX
 * for a zero. */
apfloat_error apfloat_ilogb(apfloat_format format, apfloat_halves x, apfloat_answer *answer);

/* The fraction, with magnitude from 0.5 to below 1, and its exponent in `number`: 0 for a zero, INT32_MAX for an
 * infinity, INT32_MIN for a NaN. Only pairs of doubles use the mode, for their low part. */
apfloat_error apfloat_frexp(apfloat_format format, apfloat_mode mode, apfloat_halves x, apfloat_answer *answer);

/* The least value above x, and the greatest value below it. */
apfloat_error apfloat_next_up(apfloat_format format, apfloat_halves x, apfloat_answer *answer);
apfloat_error apfloat_next_down(apfloat_format format, apfloat_halves x, apfloat_answer *answer);

/* `number` is one of these. No flag is raised, not even by a signaling NaN. */
#define APFLOAT_LESS (-1)
#define APFLOAT_EQUAL 0
#define APFLOAT_GREATER 1
#define APFLOAT_UNORDERED 2
apfloat_error apfloat_compare(apfloat_format format, apfloat_halves x, apfloat_halves y, apfloat_answer *answer);

/* `number` is one of these (IEEE 754-2019 5.7.2). */
#define APFLOAT_SIGNALING_NAN 0
#define APFLOAT_QUIET_NAN 1
#define APFLOAT_NEGATIVE_INFINITY 2
#define APFLOAT_NEGATIVE_NORMAL 3
#define APFLOAT_NEGATIVE_SUBNORMAL 4
#define APFLOAT_NEGATIVE_ZERO 5
#define APFLOAT_POSITIVE_ZERO 6
#define APFLOAT_POSITIVE_SUBNORMAL 7
#define APFLOAT_POSITIVE_NORMAL 8
#define APFLOAT_POSITIVE_INFINITY 9
apfloat_error apfloat_classify(apfloat_format format, apfloat_halves x, apfloat_answer *answer);

/* ---- signs, minima and maxima, NaNs
 *
 * These functions round nothing and raise no flag, not even for a signaling NaN, which stays signaling. They have no
 * mode, and joined to a format's code APFLOAT_IEEE_FLAGS makes no difference. */

/* `number` is 1 if x has a minus sign, else 0 (IEEE 754-2019 5.7.2, isSignMinus): also for a NaN, whose class does not
 * show its sign. */
apfloat_error apfloat_is_negative(apfloat_format format, apfloat_halves x, apfloat_answer *answer);

/* x with the opposite sign, without a sign, and with the sign of y (IEEE 754-2019 5.5.1). Any of them may be a NaN. In
 * APFLOAT_E4M3FNUZ zero and the NaN have no sign. A pair of doubles has the sign of its high part. */
apfloat_error apfloat_neg(apfloat_format format, apfloat_halves x, apfloat_answer *answer);
apfloat_error apfloat_abs(apfloat_format format, apfloat_halves x, apfloat_answer *answer);
apfloat_error apfloat_copy_sign(apfloat_format format, apfloat_halves x, apfloat_halves y, apfloat_answer *answer);

/* The lesser and the greater of two values (IEEE 754-2008 5.3.1, minNum and maxNum, but with a signaling NaN taken as a
 * quiet one), like fmin() and fmax() in C: y if x is a NaN, x if y is one, and x if the two are equal, as zeros of
 * opposite signs are. */
apfloat_error apfloat_min(apfloat_format format, apfloat_halves x, apfloat_halves y, apfloat_answer *answer);
apfloat_error apfloat_max(apfloat_format format, apfloat_halves x, apfloat_halves y, apfloat_answer *answer);

/* The same, but a NaN if x or y is one, and -0 is below +0 (IEEE 754-2019 9.6, minimum and maximum, but the first NaN
 * is unchanged, and a signaling one raises no flag). */
apfloat_error apfloat_minimum(apfloat_format format, apfloat_halves x, apfloat_halves y, apfloat_answer *answer);
apfloat_error apfloat_maximum(apfloat_format format, apfloat_halves x, apfloat_halves y, apfloat_answer *answer);

/* The quiet NaN and the signaling NaN with this payload, of which the bits that the format has room for are taken
 * (IEEE 754-2019 6.2.1); negative if `negative` is not 0. A signaling NaN whose payload would be 0 has the highest bit
 * of a payload set. APFLOAT_E4M3FN has only a quiet NaN of each sign, and APFLOAT_E4M3FNUZ only one NaN. In a pair of
 * doubles the high part is the NaN, and the low part 0. */
apfloat_error apfloat_qnan(apfloat_format format, uint32_t negative, apfloat_halves payload, apfloat_answer *answer);
apfloat_error apfloat_snan(apfloat_format format, uint32_t negative, apfloat_halves payload, apfloat_answer *answer);

/* The value of a text of `length` bytes, rounded once: a hexadecimal number such as -0x1.8p-1, an infinity or a NaN.
 * An infinity is one of inf, INFINITY, +Inf, -inf, -INFINITY and -Inf (not Infinity). A NaN is nan or NaN, after s or S
 * if it is signaling, and after - if it is negative; a payload may follow, with or without parentheses, as in nan(0x7).
 * Decimal numbers, texts without a meaning, and texts with a byte above 127 are refused. Decimal numbers are read by
 * apfloat_parse_decimal. */
apfloat_error apfloat_parse(apfloat_format format, apfloat_mode mode, const uint8_t *text, size_t length,
                            apfloat_answer *answer);

/* The same, and of a decimal number such as -0.1 or 1e-7 the value that it spells, rounded once, whatever its length
 * and its exponent: digits with at most one dot, after an optional sign, and an exponent after e or E if there is one,
 * with an optional sign (IEEE 754-2019 5.12.2). A pair of doubles is the value of 106 binary digits, split into two
 * doubles. Formats with APFLOAT_IEEE_FLAGS do not have it, but apfloat_read_decimal. */
apfloat_error apfloat_parse_decimal(apfloat_format format, apfloat_mode mode, const uint8_t *text, size_t length,
                                    apfloat_answer *answer);

/* A text of less than 64 bytes. The bytes after it are 0, so `bytes` is a string of C. */
typedef struct apfloat_text {
    char bytes[64];
    uint32_t length;
} apfloat_text;

/* The text of the shortest decimal that gives x when it is rounded to nearest, ties to even: of those with as few
 * digits, the nearest to x, and of two equally near ones the even one. So 448 in APFLOAT_E4M3FN is 450.0; the text for
 * a person is that of apfloat_to_text. The text is written as in 12.5, 0.000001, 1e-7 and 1.5e21: with
 * an exponent unless that of the first digit is from -6 to 20, and otherwise with at least one digit on each side of
 * the dot. A zero is 0.0 or -0.0, an infinity inf or -inf, and every NaN nan. APFLOAT_DOUBLE_PAIR does not have it, but
 * apfloat_pair_shortest. On an error, *text is unchanged; the rules for `answer` hold for `text` too. */
apfloat_error apfloat_shortest(apfloat_format format, apfloat_halves x, apfloat_text *text);

/* The text of x for a person: a whole number below 10^16 in full, as in 448.0, and any other value as apfloat_shortest
 * writes it, under its rules. */
apfloat_error apfloat_to_text(apfloat_format format, apfloat_halves x, apfloat_text *text);

/* A text for what a function returned, such as "unknown format"; APFLOAT_ANSWERED has one too. For a number that is no
 * code, APFLOAT_UNKNOWN_ERROR is returned, and *text is unchanged. The rules for `answer` hold for `text`. */
apfloat_error apfloat_error_text(apfloat_error error, apfloat_text *text);

/* The version of the library: 1,000,000 times its major number, plus 1,000 times the minor one, plus the patch. */
uint32_t apfloat_version(void);

/* What made the library: the toolchain that proves it, or rustc, of whose library no proof is claimed. */
typedef enum apfloat_maker APFLOAT_CODE {
    APFLOAT_MADE_BY_RT = 1,
    APFLOAT_MADE_BY_RUSTC = 2,
    APFLOAT_MAKER_BITS = 0x7fffffff
} apfloat_maker;
apfloat_maker apfloat_made_by(void);

/* ---- operations of IEEE 754-2019
 *
 * Pairs of doubles do not have them. An unknown code of a predicate, of a minimum or maximum, or of an operation is
 * APFLOAT_NO_SUCH_OPERATION. */

/* `number` is 1 if the predicate holds of x and y, else 0 (5.6.1, 5.11). The only flag is APFLOAT_INVALID_OP: raised if
 * an operand is a signaling NaN, and, with APFLOAT_SIGNALING, if it is any NaN. */
typedef enum apfloat_predicate APFLOAT_CODE {
    APFLOAT_IS_EQUAL = 0,
    APFLOAT_IS_NOT_EQUAL = 1,
    APFLOAT_IS_GREATER = 2,
    APFLOAT_IS_GREATER_EQUAL = 3,
    APFLOAT_IS_LESS = 4,
    APFLOAT_IS_LESS_EQUAL = 5,
    APFLOAT_IS_NOT_GREATER = 6,
    APFLOAT_IS_LESS_UNORDERED = 7,
    APFLOAT_IS_NOT_LESS = 8,
    APFLOAT_IS_GREATER_UNORDERED = 9,
    APFLOAT_IS_UNORDERED = 10,
    APFLOAT_IS_ORDERED = 11,
    APFLOAT_PREDICATE_BITS = 0x7fffffff
} apfloat_predicate;
typedef enum apfloat_on_nan APFLOAT_CODE {
    APFLOAT_QUIET = 0,
    APFLOAT_SIGNALING = 1,
    APFLOAT_ON_NAN_BITS = 0x7fffffff
} apfloat_on_nan;
apfloat_error apfloat_compare_predicate(apfloat_format format, apfloat_predicate predicate, apfloat_on_nan on_nan,
                                        apfloat_halves x, apfloat_halves y, apfloat_answer *answer);

/* `number` is APFLOAT_LESS, APFLOAT_EQUAL or APFLOAT_GREATER: the place of x beside y in the total order (5.10), in
 * which -0 is below +0, negative NaNs are below all numbers, and positive ones above. totalOrder holds if it is not
 * APFLOAT_GREATER. No flag is raised. */
apfloat_error apfloat_total_order(apfloat_format format, apfloat_halves x, apfloat_halves y, apfloat_answer *answer);

/* The minimum or maximum of x and y, with -0 below +0 (9.6). Of a NaN and a number it is the number if `prefers_number`
 * is not 0, as in minimumNumber, and otherwise a quiet NaN; of two NaNs the first one, quiet. APFLOAT_INVALID_OP is
 * raised if an operand is a signaling NaN. */
typedef enum apfloat_extremum_kind APFLOAT_CODE {
    APFLOAT_MINIMUM = 0,
    APFLOAT_MAXIMUM = 1,
    APFLOAT_MINIMUM_MAGNITUDE = 2,
    APFLOAT_MAXIMUM_MAGNITUDE = 3,
    APFLOAT_EXTREMUM_KIND_BITS = 0x7fffffff
} apfloat_extremum_kind;
apfloat_error apfloat_extremum(apfloat_format format, apfloat_extremum_kind which, uint32_t prefers_number,
                               apfloat_halves x, apfloat_halves y, apfloat_answer *answer);

/* The exponent of the highest binary digit of x, as a value (5.3.3, logB), rounded once. A zero gives the negative
 * infinity, or the NaN in its place, with APFLOAT_DIV_BY_ZERO, and an infinity the positive one. */
apfloat_error apfloat_log_b(apfloat_format format, apfloat_mode mode, apfloat_halves x, apfloat_answer *answer);

/* The value of apfloat_scalbn, with its flags (5.3.3, scaleB). */
apfloat_error apfloat_scale_b(apfloat_format format, apfloat_mode mode, apfloat_halves x, int32_t power,
                              apfloat_answer *answer);

/* The value of apfloat_round_to_integral, without APFLOAT_INEXACT (5.9). */
apfloat_error apfloat_integral(apfloat_format format, apfloat_mode mode, apfloat_halves x, apfloat_answer *answer);

/* An operation on values of `format`, rounded once to the format `target`, with the flags of that rounding (5.4.1,
 * formatOf): x + y, x - y, x * y, x / y, x * y + z or the square root of x. Operands that it does not take are ignored.
 * The errors are those of both formats, of the mode, and of the operation, in this order; the rule of flags is that of
 * `target`. */
typedef enum apfloat_operation_to APFLOAT_CODE {
    APFLOAT_SUM_TO = 0,
    APFLOAT_DIFFERENCE_TO = 1,
    APFLOAT_PRODUCT_TO = 2,
    APFLOAT_QUOTIENT_TO = 3,
    APFLOAT_FUSED_SUM_TO = 4,
    APFLOAT_ROOT_TO = 5,
    APFLOAT_OPERATION_TO_BITS = 0x7fffffff
} apfloat_operation_to;
apfloat_error apfloat_to_format(apfloat_operation_to operation, apfloat_format format, apfloat_mode mode,
                                apfloat_format target, apfloat_halves x, apfloat_halves y, apfloat_halves z,
                                apfloat_answer *answer);

/* ---- digits, pairs of doubles and formats
 *
 * Texts and digits of values, conversions and fused sums of pairs, and what a format is. */

/* The value of a text as apfloat_parse_decimal reads it, also in formats with APFLOAT_IEEE_FLAGS: 1e39 toward zero
 * as an APFLOAT_SINGLE with it raises APFLOAT_OVERFLOW. The words inf, infinity, nan and snan are read in any case and
 * with any sign (IEEE 754-2019 5.12.1). */
apfloat_error apfloat_read_decimal(apfloat_format format, apfloat_mode mode, const uint8_t *text, size_t length,
                                   apfloat_answer *answer);

/* The decimal digits of x, rounded once to as many as there is room for: all of `digits` is written, in ASCII, the
 * first digit not 0, zeros at the end too. The number is d.ddd.. times 10 to the power of `number`; its sign is that
 * of x. APFLOAT_INEXACT is raised if it is not x. `bits` is how many digits were written: of a zero, an infinity or
 * a NaN none, and *digits is unchanged. APFLOAT_WRONG_LENGTH says that there is no room for a digit. What is said of
 * `results` below holds of `digits` and `text`. APFLOAT_DOUBLE_PAIR has none of these functions. */
apfloat_error apfloat_write_digits(apfloat_format format, apfloat_mode mode, apfloat_halves x, uint8_t *digits,
                                   size_t length, apfloat_answer *answer);

/* `bits` is how many decimal digits x has, from the first one to the last one that is not 0, so many that
 * apfloat_write_digits writes them without rounding: at most 767 in APFLOAT_DOUBLE, 11563 in APFLOAT_QUAD; 0 for a
 * zero, an infinity and a NaN. */
apfloat_error apfloat_digit_count(apfloat_format format, apfloat_halves x, apfloat_answer *answer);

/* The hexadecimal text of x at the start of `text`, without a zero after it: -0x1.8p-1, 0x1p-1074, 0x0p0, inf, snan
 * and, with a payload, nan0x2a. The first digit is 1, of subnormal numbers too. `bits` is its length, at most 45,
 * and APFLOAT_WRONG_LENGTH says that it has no room. apfloat_parse reads a number and an infinity back as it is. The
 * bytes after it are unchanged. */
apfloat_error apfloat_write_hex(apfloat_format format, apfloat_halves x, uint8_t *text, size_t length,
                                apfloat_answer *answer);

/* The same with `places` digits after the dot, to which the number is rounded once, with the flags of that, and
 * without payloads. APFLOAT_WRONG_LENGTH also says that `places` is above 31. */
apfloat_error apfloat_write_hex_rounded(apfloat_format format, apfloat_mode mode, uint32_t places, apfloat_halves x,
                                        uint8_t *text, size_t length, apfloat_answer *answer);

/* Pairs of doubles, APFLOAT_DOUBLE_PAIR. In the modes and with the errors of apfloat_convert: a pair in `format`,
 * that is the exact sum of its parts, rounded once (if the high part is a zero, an infinity or a NaN, it is
 * converted alone); and a value of `format` as a pair, rounded once to 106 binary digits, and split into two
 * doubles. */
apfloat_error apfloat_pair_to_format(apfloat_format format, apfloat_mode mode, apfloat_halves x,
                                     apfloat_answer *answer);
apfloat_error apfloat_pair_from_format(apfloat_format format, apfloat_mode mode, apfloat_halves x,
                                       apfloat_answer *answer);

/* x * y + z of pairs of doubles: the sums of the parts are first rounded to 106 binary digits, then the exact result
 * is, once, and split. */
apfloat_error apfloat_pair_fma(apfloat_mode mode, apfloat_halves x, apfloat_halves y, apfloat_halves z,
                               apfloat_answer *answer);

/* The text of the shortest decimal that apfloat_read_decimal reads as the pair x, in its form that of
 * apfloat_shortest: of those with as few digits, the nearest to the sum of the parts. APFLOAT_NO_SUCH_OPERATION says
 * that no decimal is read as it, since its parts are too far apart, or overlap. On an error, *text is unchanged. */
apfloat_error apfloat_pair_shortest(apfloat_halves x, apfloat_text *text);

/* Which NaNs a format has. */
#define APFLOAT_NANS_WITH_PAYLOADS UINT32_C(0) /* quiet and signaling ones */
#define APFLOAT_NAN_OF_EACH_SIGN UINT32_C(1)   /* one alone */
#define APFLOAT_NAN_FOR_NEGATIVE_ZERO UINT32_C(2) /* one alone, whose bits are those of -0 elsewhere */

/* What a format is. */
typedef struct apfloat_facts {
    apfloat_halves largest;         /* the bits of the largest number */
    apfloat_halves smallest_normal; /* of the smallest normal number */
    apfloat_halves smallest;        /* of the smallest number above zero */
    uint32_t bits;                  /* the width of a value */
    uint32_t bytes;                 /* that a value takes in an array */
    uint32_t precision;             /* the binary digits of a normal number, with the first one */
    int32_t least_exponent;         /* of the smallest normal number */
    int32_t greatest_exponent;      /* of the largest number */
    uint32_t decimal_digits;        /* with so many, each number is read back as it was */
    uint32_t has_infinities;        /* 1 or 0 */
    uint32_t nans;                  /* one of the above */
} apfloat_facts;

/* The rule of flags of the code makes no difference. APFLOAT_DOUBLE_PAIR is no format. On an error, *facts is
 * unchanged; the rules for `answer` hold for `facts` too. */
apfloat_error apfloat_format_facts(apfloat_format format, apfloat_facts *facts);

/* The name of a format, a storage format too, as the programs have it, such as "double"; "" for what is none. The rule
 * of flags makes no difference. */
APFLOAT_INLINE const char *apfloat_format_name(apfloat_format format) {
    switch ((uint32_t)format & ~((uint32_t)APFLOAT_IEEE_FLAGS | (uint32_t)APFLOAT_TINY_BEFORE_ROUNDING)) {
    case APFLOAT_HALF: return "half";
    case APFLOAT_SINGLE: return "single";
    case APFLOAT_DOUBLE: return "double";
    case APFLOAT_QUAD: return "quad";
    case APFLOAT_BFLOAT: return "bfloat";
    case APFLOAT_E5M2: return "e5m2";
    case APFLOAT_E4M3FN: return "e4m3fn";
    case APFLOAT_E4M3FNUZ: return "e4m3fnuz";
    case APFLOAT_X87: return "x87";
    case APFLOAT_DOUBLE_PAIR: return "dd";
    case APFLOAT_E4M3: return "e4m3";
    case APFLOAT_E5M2FNUZ: return "e5m2fnuz";
    case APFLOAT_E4M3B11FNUZ: return "e4m3b11fnuz";
    case APFLOAT_TF32: return "tf32";
    case APFLOAT_E2M1FN: return "e2m1fn";
    case APFLOAT_E2M3FN: return "e2m3fn";
    case APFLOAT_E3M2FN: return "e3m2fn";
    case APFLOAT_E3M4: return "e3m4";
    case APFLOAT_E8M0FNU: return "e8m0fnu";
    case APFLOAT_UE4M3: return "ue4m3";
    default: return "";
    }
}

/* ---- augmented operations, and payloads of NaNs (IEEE 754-2019 9.5, 9.7)
 *
 * Pairs of doubles do not have them. The rule of flags of the code makes no difference. */

/* Operations: apfloat_map_array has the first eight, apfloat_augmented three of these, apfloat_storage_operation six of
 * them with the minimum and the maximum, and apfloat_machine all. */
typedef enum apfloat_operation APFLOAT_CODE {
    APFLOAT_ADD = 1,
    APFLOAT_SUB = 2,
    APFLOAT_MUL = 3,
    APFLOAT_DIV = 4,
    APFLOAT_REM = 5,
    APFLOAT_MOD = 6,
    APFLOAT_FMA = 7,
    APFLOAT_SQRT = 8,

    APFLOAT_ROUND_TO_INTEGRAL = 9, /* with APFLOAT_INEXACT */
    APFLOAT_INTEGRAL = 10,         /* without it */
    APFLOAT_CONVERT = 11,          /* to the format `to` */
    APFLOAT_TO_U128 = 12,          /* to an unsigned integer of `to` binary digits, 1 to 128 */
    APFLOAT_TO_I128 = 13,          /* to a signed one, 2 to 128 */
    APFLOAT_LEAST = 14,            /* the minimum; of a machine by the rule `to` */
    APFLOAT_GREATEST = 15,         /* the maximum */
    APFLOAT_TO_I128_MODULO = 16,   /* toward zero, modulo 2 to the power of `to`, in the range of APFLOAT_TO_I128 and
                                      with its flags; 0 for infinities and NaNs (FJCVTZS, FCVTMOD.W.D) */
    APFLOAT_MUL_EXTENDED = 17,     /* an infinity times a zero is 2 with the sign of the product, no flag (FMULX) */
    APFLOAT_RANGE = 18,            /* VRANGEPS and its forms, with `to` for the lower four bits of their imm8 */
    /* A value to and from the 16 bits of Arm's alternative half precision (FCVT with FPCR.AHP). What rounds to 2^17 or
     * more, and an infinity, is 131008 with its sign, and a NaN 0 with its sign, each with APFLOAT_INVALID_OP alone.
     * APFLOAT_TO_ODD is taken for APFLOAT_TOWARD_ZERO in the first, whose result is never flushed. */
    APFLOAT_TO_ALTERNATIVE_HALF = 19,
    APFLOAT_FROM_ALTERNATIVE_HALF = 20,
    APFLOAT_OPERATION_BITS = 0x7fffffff
} apfloat_operation;

/* The sum, the difference or the product of x and y, for the operation APFLOAT_ADD, APFLOAT_SUB or APFLOAT_MUL: the
 * exact result rounded to nearest, ties toward zero, in `bits`, and in *tail what that leaves of it. Together they
 * are exact, unless the first one is past the largest value, and so both are the infinity, or the NaN in its place,
 * with APFLOAT_OVERFLOW and APFLOAT_INEXACT, or a product has digits below the smallest number, and so the tail is
 * rounded in the same way, with APFLOAT_UNDERFLOW and APFLOAT_INEXACT. If x or y is an infinity or a NaN, both are
 * the result of the operation, with its flags. On an error, *tail is unchanged too. The rules for `answer` hold for
 * `tail`, and the two do not overlap. */
apfloat_error apfloat_augmented(apfloat_operation operation, apfloat_format format, apfloat_halves x, apfloat_halves y,
                                apfloat_halves *tail, apfloat_answer *answer);

/* The payload of the NaN x as an integral value, -1 if x is no NaN; and the positive NaN, quiet or signaling, with
 * the payload x, or +0 if x is no integer that can be one (a signaling NaN has a payload other than 0). No flag is
 * raised. */
typedef enum apfloat_payload_operation APFLOAT_CODE {
    APFLOAT_GET_PAYLOAD = 0,
    APFLOAT_SET_PAYLOAD = 1,
    APFLOAT_SET_PAYLOAD_SIGNALING = 2,
    APFLOAT_PAYLOAD_OPERATION_BITS = 0x7fffffff
} apfloat_payload_operation;
apfloat_error apfloat_payload(apfloat_payload_operation operation, apfloat_format format, apfloat_halves x,
                              apfloat_answer *answer);

/* ---- machines
 *
 * What a processor delivers where IEEE 754 leaves a choice or is not followed: the NaN, its sign and its payload, the
 * integer of an invalid conversion, minima and maxima, and when a result is tiny. MACHINES.md has the rules of
 * each machine, and what to call for each instruction. */
typedef enum apfloat_machine_kind APFLOAT_CODE {
    APFLOAT_MACHINE_X86 = 1,             /* SSE, AVX, AVX-512 */
    APFLOAT_MACHINE_X87 = 2,
    APFLOAT_MACHINE_ARM = 3,             /* AArch64 with FPCR.DN and FPCR.AH clear */
    APFLOAT_MACHINE_ARM_DEFAULT_NAN = 4, /* with FPCR.DN set */
    APFLOAT_MACHINE_ARM_ALTERNATE = 5,   /* with FPCR.AH set */
    APFLOAT_MACHINE_RISC_V = 6,
    APFLOAT_MACHINE_POWER = 7,
    APFLOAT_MACHINE_S390X = 8,
    APFLOAT_MACHINE_ARM_ALTERNATE_DEFAULT_NAN = 9, /* with both set */
    APFLOAT_MACHINE_WEBASSEMBLY = 10,
    APFLOAT_MACHINE_PTX = 11,
    APFLOAT_MACHINE_MIPS_2008 = 12, /* with FCSR.NAN2008 set */
    APFLOAT_MACHINE_LOONGARCH = 13,
    APFLOAT_MACHINE_SPARC = 14,
    APFLOAT_MACHINE_M68K = 15,
    APFLOAT_MACHINE_KIND_BITS = 0x7fffffff
} apfloat_machine_kind;

/* Rules of minima and maxima, which differ for NaNs and zeros: `x < y ? x : y`, for which any NaN is invalid; the same,
 * for which only a signaling NaN is; the first NaN; minNum (IEEE 754-2008 5.3.1); minimumNumber and minimum (both
 * IEEE 754-2019 9.6). */
typedef enum apfloat_rule APFLOAT_CODE {
    APFLOAT_RULE_SECOND = 1,
    APFLOAT_RULE_SECOND_QUIETLY = 2,
    APFLOAT_RULE_FIRST_NAN = 3,
    APFLOAT_RULE_NUMBER_2008 = 4,
    APFLOAT_RULE_NUMBER_2019 = 5,
    APFLOAT_RULE_PROPAGATED = 6,
    APFLOAT_RULE_BITS = 0x7fffffff
} apfloat_rule;

/* What the machine delivers for an operation on x, y and z, in the machine's order. Operands that the operation does
 * not take are ignored, and so is `to` where no operation above mentions it. `bits` is the result, and `number` is 0.
 * The formats are those that APFLOAT_IEEE_FLAGS can be joined to. The flags are those of IEEE 754: with it, tininess is
 * detected as the code says, and otherwise as the machine does it. In a conversion, the code `to` counts. Nothing is
 * flushed to zero.
 *
 * The errors, in this order: APFLOAT_UNKNOWN_FORMAT and APFLOAT_UNKNOWN_MODE; APFLOAT_NO_SUCH_OPERATION for another
 * format, for an unknown operation or rule, and for a conversion to another format, and APFLOAT_UNKNOWN_FORMAT for one
 * to an unknown format; APFLOAT_UNKNOWN_MACHINE; APFLOAT_WIDE_OPERAND if an operand has bits at or above the width of
 * its format, which other functions ignore; APFLOAT_WRONG_WIDTH; and APFLOAT_LACKING_OPERATION for fused sums of
 * APFLOAT_MACHINE_X87 and .._M68K, for unsigned integers of these, .._MIPS_2008 and .._SPARC, and for
 * the operations from APFLOAT_TO_I128_MODULO on of machines other than those of AArch64, which have all of them but
 * APFLOAT_RANGE, .._X86, which has this one, and .._RISC_V, which has the first. `to` is wrong in APFLOAT_RANGE, too, as
 * a rule is, if it is above 15. */
apfloat_error apfloat_machine(apfloat_machine_kind machine, apfloat_operation operation, apfloat_format format,
                              apfloat_mode mode, uint32_t to, apfloat_halves x, apfloat_halves y, apfloat_halves z,
                              apfloat_answer *answer);

/* The bits of a control word, of which the first two are of machines that can flush: .._X86, .._ARM and the three after
 * it in name, and .._PTX. */
typedef enum apfloat_control APFLOAT_CODE {
    /* Tiny results, exact ones too, are zeros of their sign, with APFLOAT_UNDERFLOW, and with APFLOAT_INEXACT but on
     * .._ARM and .._ARM_DEFAULT_NAN (FTZ, FPCR.FZ); not those of APFLOAT_RULE_SECOND and APFLOAT_RANGE, which are
     * operands. On .._X86 instructions in half do neither. */
    APFLOAT_FLUSH_RESULTS = 1,
    APFLOAT_DENORMALS_ARE_ZEROS = 2, /* denormal operands are zeros of their sign (DAZ, FPCR.FIZ, FPCR.FZ) */
    APFLOAT_TELL_ROUNDED_UP = 4,     /* computes the result twice, if it has to */
    /* The precision control of .._X87, in APFLOAT_X87 alone, and one of the two alone: sums, differences, products,
     * quotients and roots are rounded once to so many digits, with the exponents of the format. */
    APFLOAT_ROUND_TO_24_DIGITS = 8,
    APFLOAT_ROUND_TO_53_DIGITS = 16,
    /* Overflow and underflow are unmasked, on .._X87, .._POWER and .._S390X, in formats other than APFLOAT_HALF. A sum,
     * difference, product, quotient, root or fused sum that overflows is divided by 2^a, and one that is tiny, exact or
     * not, is multiplied by 2^a, with a = 3 * 2^(w - 2) for exponents of w bits (192 in APFLOAT_SINGLE, 1536 in
     * APFLOAT_DOUBLE, 24576 in APFLOAT_X87 and APFLOAT_QUAD). It is rounded once, to odd too, as if the exponents had
     * no end, with APFLOAT_OVERFLOW or APFLOAT_UNDERFLOW, and with APFLOAT_INEXACT only if that rounding is inexact. */
    APFLOAT_UNMASKED = 32,
    APFLOAT_CONTROL_BITS = 0x7fffffff
} apfloat_control;

/* What `number` is a sum of. */
#define APFLOAT_DENORMAL_OPERAND 1
#define APFLOAT_ROUNDED_UP 2

/* apfloat_machine for an interpreter of instructions, with what a control word asks for, a sum of the bits above. Also
 * in the mode APFLOAT_TO_ODD: an inexact result is the one of its two neighbours whose last digit is odd, of integers
 * the odd one, and past the largest value that value, with the flags of APFLOAT_TOWARD_ZERO; then it may be flushed.
 * `number` is the sum of
 *
 * - APFLOAT_DENORMAL_OPERAND: with APFLOAT_DENORMALS_ARE_ZEROS, if an operand was denormal (IDC of Arm with FPCR.FZ);
 *   without it, if an operand is denormal, none is a NaN, and neither APFLOAT_INVALID_OP nor APFLOAT_DIV_BY_ZERO is
 *   raised (DE of x86, IDC with FPCR.AH). Which instructions have the flag is left to the caller.
 * - APFLOAT_ROUNDED_UP, if the control word asks for it: the result is inexact, and its magnitude is greater than that
 *   of the exact one (C1 of x87, FR of POWER): it differs from the result toward zero.
 *
 * The errors are those of apfloat_machine, in its order, but that of the machine, and then APFLOAT_WRONG_CONTROL, come
 * before those of the operation. */
apfloat_error apfloat_instruction(apfloat_machine_kind machine, apfloat_operation operation, apfloat_format format,
                                  apfloat_mode mode, apfloat_control control, uint32_t to, apfloat_halves x,
                                  apfloat_halves y, apfloat_halves z, apfloat_answer *answer);

/* ---- arrays
 *
 * An array is the bytes of its values, one after another, each with its lowest byte first. A value takes the bytes of
 * its bits: 1 in the formats of 8 bits, 2 in APFLOAT_HALF and APFLOAT_BFLOAT, 4 in APFLOAT_SINGLE, 8 in APFLOAT_DOUBLE,
 * 10 in APFLOAT_X87, and 16 in APFLOAT_QUAD. One of APFLOAT_TF32 takes 4: its bits are the lowest 19, and those above
 * are ignored, and 0 in a result. A value of APFLOAT_DOUBLE_PAIR takes the 8 bytes of its high double and then the 8 of
 * its low one. Lengths are in bytes. The bytes of `results` after the last result are unchanged. */

/* The result of a call on arrays: of how many values, how many raised each flag, and how many results are NaNs. */
typedef struct apfloat_array_answer {
    uint64_t values;
    uint64_t inexact;
    uint64_t underflow;
    uint64_t overflow;
    uint64_t div_by_zero;
    uint64_t invalid_op;
    uint64_t nans;
    uint32_t status;   /* the sum of the flags that any value raised */
    uint32_t reserved; /* 0 */
} apfloat_array_answer;

/* Each value of `format` in the format `to`, rounded once. APFLOAT_WRONG_LENGTH says that `values` ends inside a value,
 * or that `results` is too short.
 *
 * One of the two formats may be a storage format, with one value a byte: bits above those of the format are ignored,
 * and 0 in a result. From one storage format to another there is no conversion (APFLOAT_NO_SUCH_OPERATION); one to
 * APFLOAT_SINGLE, which is exact, and from there is rounded once. What the format has no value for, such as an
 * infinity, a NaN or a number below zero, becomes what a table in FORMATS.md says. */
apfloat_error apfloat_convert_array(apfloat_format format, apfloat_mode mode, apfloat_format to, const uint8_t *values,
                                    size_t values_length, uint8_t *results, size_t results_length,
                                    apfloat_array_answer *answer);

/* The same with memory lent to the call: with at least APFLOAT_TABLE_BYTES of it, at least 2^17 values of 16 bits are
 * converted to a format of at most 32 by computing the results for all values once, there, and taking each value's
 * result from these. Without, or for other arrays, it is apfloat_convert_array. The contents of the memory are
 * unspecified after an answer; an error leaves it unchanged. */
#define APFLOAT_TABLE_BYTES ((size_t)1 << 19)
apfloat_error apfloat_convert_array_by_table(apfloat_format format, apfloat_mode mode, apfloat_format to,
                                             const uint8_t *values, size_t values_length, uint8_t *results,
                                             size_t results_length, uint8_t *table, size_t table_length,
                                             apfloat_array_answer *answer);

/* An operation on each element of xs, or on the elements of xs and ys, or of xs, ys and zs, as the function of its name
 * does it. APFLOAT_REM and APFLOAT_MOD do not depend on the mode, but it has to be known. Arrays of operands that the
 * operation does not take have length 0, the others the length of xs. APFLOAT_WRONG_LENGTH says that they do not, that
 * xs ends inside a value, or that `results` is shorter than xs, and APFLOAT_NO_SUCH_OPERATION that the code of the
 * operation is unknown, or that the format does not have it. */
apfloat_error apfloat_map_array(apfloat_format format, apfloat_mode mode, apfloat_operation operation,
                                const uint8_t *xs, size_t xs_length, const uint8_t *ys, size_t ys_length,
                                const uint8_t *zs, size_t zs_length, uint8_t *results, size_t results_length,
                                apfloat_array_answer *answer);

/* The same with memory lent to the call: with at least APFLOAT_TABLE_BYTES of it, an operation on two arrays of at
 * least 2^17 values of 8 bits computes its results for all pairs of values once, there, and takes each element's
 * result from these. Without, or for other arrays, it is apfloat_map_array. What the memory contains after an answer is
 * not said; an error leaves it unchanged. */
apfloat_error apfloat_map_array_by_table(apfloat_format format, apfloat_mode mode, apfloat_operation operation,
                                         const uint8_t *xs, size_t xs_length, const uint8_t *ys, size_t ys_length,
                                         const uint8_t *zs, size_t zs_length, uint8_t *results, size_t results_length,
                                         uint8_t *table, size_t table_length, apfloat_array_answer *answer);

/* ---- arrays in place
 *
 * apfloat_convert_array and apfloat_map_array, whose `results` may also begin where an operand does. Then these call
 * the library for one block after another, with the results in 4 KiB of the stack, and copy them from there. Results
 * that overlap an operand in another way are APFLOAT_OVERLAPPING_ARRAYS. The names that end in an underscore are for
 * these functions alone. */

/* Whether two arrays have no byte in common. */
APFLOAT_INLINE int apfloat_apart_(const uint8_t *x, size_t x_length, const uint8_t *y, size_t y_length) {
    const uintptr_t from = (uintptr_t)x, other = (uintptr_t)y;
    return x_length == 0 || y_length == 0 || (from < other ? other - from >= x_length : from - other >= y_length);
}

/* Whether results can replace an operand, or are apart from it. */
APFLOAT_INLINE int apfloat_replaces_(const uint8_t *results, size_t results_length, const uint8_t *operand,
                                     size_t length) {
    return results == operand || apfloat_apart_(results, results_length, operand, length);
}

/* How many bytes a value takes; 1 if the format is not known. */
APFLOAT_INLINE size_t apfloat_bytes_(apfloat_format format) {
    apfloat_facts facts;
    if (format == APFLOAT_DOUBLE_PAIR) return 16;
    return apfloat_format_facts(format, &facts) == APFLOAT_ANSWERED ? facts.bytes : 1;
}

APFLOAT_INLINE void apfloat_join_(apfloat_array_answer *all, const apfloat_array_answer *block) {
    all->values += block->values;
    all->inexact += block->inexact;
    all->underflow += block->underflow;
    all->overflow += block->overflow;
    all->div_by_zero += block->div_by_zero;
    all->invalid_op += block->invalid_op;
    all->nans += block->nans;
    all->status |= block->status;
}

APFLOAT_INLINE apfloat_error apfloat_convert_array_in_place(apfloat_format format, apfloat_mode mode, apfloat_format to,
                                                            const uint8_t *values, size_t values_length,
                                                            uint8_t *results, size_t results_length,
                                                            apfloat_array_answer *answer) {
    uint8_t block[4096];
    apfloat_array_answer all, of_block;
    size_t value, result, count, done, some, at;
    apfloat_error error;
    if (apfloat_apart_(values, values_length, results, results_length))
        return apfloat_convert_array(format, mode, to, values, values_length, results, results_length, answer);
    /* The errors that do not depend on lengths. */
    error = apfloat_convert_array(format, mode, to, values, 0, block, 0, &all);
    if (error != APFLOAT_ANSWERED) return error;
    value = apfloat_bytes_(format);
    result = apfloat_bytes_(to);
    count = values_length / value;
    if (values_length % value != 0 || results_length / result < count) return APFLOAT_WRONG_LENGTH;
    if (!apfloat_replaces_(results, count * result, values, values_length)) return APFLOAT_OVERLAPPING_ARRAYS;
    for (done = 0; done < count; done += some) {
        some = count - done < sizeof block / result ? count - done : sizeof block / result;
        /* Longer results are written from the last one on, so that each value is read before. */
        at = result > value ? count - done - some : done;
        error = apfloat_convert_array(format, mode, to, values + at * value, some * value, block, some * result,
                                      &of_block);
        if (error != APFLOAT_ANSWERED) return error;
        memcpy(results + at * result, block, some * result);
        apfloat_join_(&all, &of_block);
    }
    *answer = all;
    return APFLOAT_ANSWERED;
}

APFLOAT_INLINE apfloat_error apfloat_map_array_in_place(apfloat_format format, apfloat_mode mode,
                                                        apfloat_operation operation, const uint8_t *xs,
                                                        size_t xs_length, const uint8_t *ys, size_t ys_length,
                                                        const uint8_t *zs, size_t zs_length, uint8_t *results,
                                                        size_t results_length, apfloat_array_answer *answer) {
    uint8_t block[4096];
    apfloat_array_answer all, of_block;
    size_t value, second, third, done, some;
    apfloat_error error;
    if (apfloat_apart_(xs, xs_length, results, results_length) &&
        apfloat_apart_(ys, ys_length, results, results_length) &&
        apfloat_apart_(zs, zs_length, results, results_length))
        return apfloat_map_array(format, mode, operation, xs, xs_length, ys, ys_length, zs, zs_length, results,
                                 results_length, answer);
    error = apfloat_map_array(format, mode, operation, xs, 0, ys, 0, zs, 0, block, 0, &all);
    if (error != APFLOAT_ANSWERED) return error;
    value = apfloat_bytes_(format);
    second = operation == APFLOAT_SQRT ? 0 : xs_length;
    third = operation == APFLOAT_FMA ? xs_length : 0;
    if (xs_length % value != 0 || ys_length != second || zs_length != third || results_length < xs_length)
        return APFLOAT_WRONG_LENGTH;
    if (!apfloat_replaces_(results, xs_length, xs, xs_length) || !apfloat_replaces_(results, xs_length, ys, second) ||
        !apfloat_replaces_(results, xs_length, zs, third))
        return APFLOAT_OVERLAPPING_ARRAYS;
    for (done = 0; done < xs_length; done += some) {
        some = sizeof block / value * value;
        if (xs_length - done < some) some = xs_length - done;
        error = apfloat_map_array(format, mode, operation, xs + done, some, second ? ys + done : ys,
                                  second ? some : 0, third ? zs + done : zs, third ? some : 0, block, some, &of_block);
        if (error != APFLOAT_ANSWERED) return error;
        memcpy(results + done, block, some);
        apfloat_join_(&all, &of_block);
    }
    *answer = all;
    return APFLOAT_ANSWERED;
}

/* ---- exact sums of arrays
 *
 * The exact sum of all terms, rounded once (IEEE 754-2019 9.4), in `bits`, with the flags of that rounding; `number` is
 * 0. No term is rounded before, so the sum does not depend on their order. Without terms it is +0; an exact zero is
 * +0, or -0 with APFLOAT_DOWNWARD, but the sum of zeros of one sign keeps it. The first term that is a NaN is the sum,
 * quieted, also beside an infinity; the product of an infinity and a zero is such a term, without a payload.
 * APFLOAT_INVALID_OP is raised if a NaN was signaling or a product invalid, and for infinities of both signs, whose
 * sum is the quiet NaN without a payload. APFLOAT_DOUBLE_PAIR has no exact sums (APFLOAT_NO_SUCH_OPERATION).
 * APFLOAT_WRONG_LENGTH says that an array ends inside a value, or that two have different lengths. A sum in
 * APFLOAT_QUAD or APFLOAT_X87 takes less than 100 KB of stack. */

/* The sum of the values, of their magnitudes, and of their squares. */
apfloat_error apfloat_sum(apfloat_format format, apfloat_mode mode, const uint8_t *xs, size_t xs_length,
                          apfloat_answer *answer);
apfloat_error apfloat_sum_abs(apfloat_format format, apfloat_mode mode, const uint8_t *xs, size_t xs_length,
                              apfloat_answer *answer);
apfloat_error apfloat_sum_square(apfloat_format format, apfloat_mode mode, const uint8_t *xs, size_t xs_length,
                                 apfloat_answer *answer);

/* The sum of the products of the values at the same places: the dot product. */
apfloat_error apfloat_dot(apfloat_format format, apfloat_mode mode, const uint8_t *xs, size_t xs_length,
                          const uint8_t *ys, size_t ys_length, apfloat_answer *answer);

/* ---- blocks with a common scale
 *
 * The microscaling formats of the OCP (OCP Microscaling Formats 1.0; FORMATS.md): each block of `length`
 * elements, 32 in those formats, has a scale, a code of APFLOAT_E8M0FNU. The elements are of APFLOAT_E5M2,
 * APFLOAT_E4M3FN, APFLOAT_E3M2FN, APFLOAT_E2M3FN or APFLOAT_E2M1FN; other formats of elements are unknown. A scale and
 * a code of an element take a byte each. APFLOAT_WRONG_LENGTH says that `length` is 0 or does not divide the number of
 * values, that the values end inside one, or that there are not exactly as many codes as values and as many scales as
 * blocks. Nothing is written with an error. What is said of `results` above holds of all that a call writes. */

/* The scale of each block of `values`, and the codes of its elements: the scale is 2 to the power of the greatest
 * exponent of the block less that of the largest number of the element format, clamped to the scales that there are,
 * and that of zeros is the least one; APFLOAT_SCALE_CEIL and APFLOAT_SCALE_EVEN have other rules. An element is the
 * exact quotient by the scale, rounded once, and the largest number of its sign in place of what is past it. A block
 * with an infinity or a NaN has the scale that is a NaN, and zeros; `nans` counts its values. There are no blocks of
 * APFLOAT_DOUBLE_PAIR (APFLOAT_NO_SUCH_OPERATION). */
apfloat_error apfloat_quantize_blocks(apfloat_format format, apfloat_mode mode, apfloat_format element, size_t length,
                                      const uint8_t *values, size_t values_length, uint8_t *scales,
                                      size_t scales_length, uint8_t *codes, size_t codes_length,
                                      apfloat_array_answer *answer);

/* The product of each element and the scale of its block in the format `to`, rounded once. If the scale is the NaN, all
 * are the quiet NaN without a payload. APFLOAT_WIDE_OPERAND says that a code has more bits than its format. */
apfloat_error apfloat_dequantize_blocks(apfloat_format element, apfloat_mode mode, apfloat_format to, size_t length,
                                        const uint8_t *scales, size_t scales_length, const uint8_t *codes,
                                        size_t codes_length, uint8_t *results, size_t results_length,
                                        apfloat_array_answer *answer);

/* The same in NVFP4: elements of APFLOAT_E2M1FN, 16 in a block of that format, and two scales. That of the tensor is
 * the bits of a positive single (APFLOAT_NO_SUCH_OPERATION if `tensor` is not one); NVFP4 takes the greatest magnitude
 * of the tensor over 2688, or 1 in place of 0. That of a block is a code of APFLOAT_E4M3FN, its greatest magnitude
 * divided by 6 and by `tensor`, rounded once and at most 448, at least the least number, and 0 for zeros alone. An
 * element is divided by both scales, in a block of zeros by the least one. */
apfloat_error apfloat_quantize_nvfp4(apfloat_format format, apfloat_mode mode, uint32_t tensor, size_t length,
                                     const uint8_t *values, size_t values_length, uint8_t *scales,
                                     size_t scales_length, uint8_t *codes, size_t codes_length,
                                     apfloat_array_answer *answer);

/* The product of each element and both scales. A scale with a sign is APFLOAT_WIDE_OPERAND too. */
apfloat_error apfloat_dequantize_nvfp4(uint32_t tensor, apfloat_mode mode, apfloat_format to, size_t length,
                                       const uint8_t *scales, size_t scales_length, const uint8_t *codes,
                                       size_t codes_length, uint8_t *results, size_t results_length,
                                       apfloat_array_answer *answer);

/* The exact dot product of two vectors in blocks: the sum of the products of the elements at the same places, each
 * times its scales, rounded once to `format`, in `bits`, with the flags of that rounding; `number` is 0. Blocks of both
 * may differ in format and length. A tensor is that of APFLOAT_NVFP4; in MX it is ignored. What is said of exact sums
 * holds, but a NaN, also one of a scale, gives the quiet NaN without a payload, and raises no flag; an infinity raises
 * APFLOAT_INEXACT in a format without infinities. APFLOAT_WRONG_LENGTH says also that the vectors have different
 * numbers of elements. */
apfloat_error apfloat_dot_blocks(apfloat_format format, apfloat_mode mode, apfloat_format x_element, uint32_t x_tensor,
                                 size_t x_length, const uint8_t *x_scales, size_t x_scales_length,
                                 const uint8_t *x_codes, size_t x_codes_length, apfloat_format y_element,
                                 uint32_t y_tensor, size_t y_length, const uint8_t *y_scales, size_t y_scales_length,
                                 const uint8_t *y_codes, size_t y_codes_length, apfloat_answer *answer);

/* Codes of 4 bits two in a byte, the first one in its low half, and of 6 bits four in three bytes, from the lowest bit
 * of the first byte on; and the codes again, one in a byte. There is nothing to pack of elements of 8 bits
 * (APFLOAT_NO_SUCH_OPERATION). APFLOAT_WRONG_LENGTH says that the codes do not fill whole groups, or that there are not
 * exactly as many bytes as they fill, and APFLOAT_WIDE_OPERAND that a code has more bits. */
apfloat_error apfloat_pack_codes(apfloat_format element, const uint8_t *codes, size_t codes_length, uint8_t *bytes,
                                 size_t bytes_length);
apfloat_error apfloat_unpack_codes(apfloat_format element, const uint8_t *bytes, size_t bytes_length, uint8_t *codes,
                                   size_t codes_length);

/* ---- formats of IEEE P3109, one value
 *
 * A format is told by its constants; those that no format has are APFLOAT_UNKNOWN_FORMAT. `bits` is the result, and
 * `number` is 1 if information was lost, else 0: a NaN loses its payload. There are no conversions of
 * APFLOAT_DOUBLE_PAIR (APFLOAT_NO_SUCH_OPERATION). */
typedef struct apfloat_p3109 {
    uint32_t bits;        /* the width of a code, 3 to 15 */
    uint32_t precision;   /* the binary digits of a significand, at least 1, with a bit left for the exponent */
    uint32_t is_signed;   /* 1 if there is a sign, and the NaN is the code of -0; 0 if not, and it is the last code */
    uint32_t is_extended; /* 1 if the last code of each sign that is not the NaN is an infinity, else 0 */
} apfloat_p3109;

/* The code in the format `to` of x, a value of `format`, rounded once. The mode may be APFLOAT_TO_ODD too, and may
 * saturate. What the mode leads past the largest number becomes the infinity, or the NaN where there is none; -0 the
 * only zero, with APFLOAT_INEXACT; and, without a sign, what is below zero once it is rounded the NaN, with
 * APFLOAT_INVALID_OP (FORMATS.md). */
apfloat_error apfloat_to_p3109(apfloat_format format, apfloat_mode mode, apfloat_p3109 to, apfloat_halves x,
                               apfloat_answer *answer);

/* The same with random digits too: StochasticA, B and C of P3109 are APFLOAT_RANDOM_DIGITS, .._B and .._C, with the
 * lowest `digits` of `random`, 1 to 32 of them (APFLOAT_WRONG_WIDTH, after the mode). The other modes ignore both. */
apfloat_error apfloat_to_p3109_by(apfloat_format format, apfloat_mode mode, apfloat_p3109 to, uint32_t digits,
                                  uint32_t random, apfloat_halves x, apfloat_answer *answer);

/* The value in the format `to` of a code of the format `format`, rounded once; the bits of `code` above those of its
 * format are ignored. */
apfloat_error apfloat_from_p3109(apfloat_p3109 format, apfloat_mode mode, apfloat_format to, uint32_t code,
                                 apfloat_answer *answer);

/* ---- storage formats, one value
 *
 * What apfloat_convert_array makes of an array of this one value. `bits` is the result, and `number` is 1 if it is a
 * NaN, else 0. There are no conversions of APFLOAT_DOUBLE_PAIR (APFLOAT_NO_SUCH_OPERATION). */

/* The code in the storage format `to` of x, a value of `format`, rounded once. */
apfloat_error apfloat_to_storage(apfloat_format format, apfloat_mode mode, apfloat_format to, apfloat_halves x,
                                 apfloat_answer *answer);

/* The value in the format `to` of a code of the storage format `format`, rounded once; the bits of `code` above those
 * of its format are ignored. */
apfloat_error apfloat_from_storage(apfloat_format format, apfloat_mode mode, apfloat_format to, uint32_t code,
                                   apfloat_answer *answer);

/* The code in the storage format `to` of the number of `code` in the storage format `format`, rounded once: the single
 * between them has each value. */
APFLOAT_INLINE apfloat_error apfloat_between_storage(apfloat_format format, apfloat_mode mode, apfloat_format to,
                                                     uint32_t code, apfloat_answer *answer) {
    apfloat_answer exact;
    apfloat_error error = apfloat_from_storage(format, (apfloat_mode)(mode & 0xff), APFLOAT_SINGLE, code, &exact);
    if (error != APFLOAT_ANSWERED) return error;
    error = apfloat_to_storage(APFLOAT_SINGLE, mode, to, exact.bits, answer);
    if (error == APFLOAT_ANSWERED) answer->status |= exact.status;
    return error;
}

/* An operation on the numbers of the codes x, y and z of a storage format, of which it takes the first ones, as a code,
 * rounded once: APFLOAT_ADD, .._SUB, .._MUL, .._DIV, .._FMA or .._SQRT, and the minimum and the maximum (IEEE 754-2019
 * 9.6) as .._LEAST and .._GREATEST. APFLOAT_E2M1FN, .._E2M3FN and .._E3M2FN have them, all of whose codes are numbers;
 * there are no others (APFLOAT_NO_SUCH_OPERATION, after the mode). Past the largest number the result is that number,
 * and so it is in place of an infinity, with APFLOAT_DIV_BY_ZERO; in place of a NaN it is +0, with APFLOAT_INVALID_OP.
 * The bits of a code above those of its format are ignored, and `number` is 0. */
apfloat_error apfloat_storage_operation(apfloat_format format, apfloat_mode mode, apfloat_operation operation,
                                        uint32_t x, uint32_t y, uint32_t z, apfloat_answer *answer);

/* ---- storage formats, to odd and with random digits
 *
 * Two more modes, of these two functions alone (FORMATS.md): a value between two neighbours becomes the one whose
 * significand is odd, or the upper one in magnitude if a random number reaches the whole distance of the two together
 * with the value's distance from the lower one, in parts of which there are 2 to the power of `digits`. The caller
 * lends the random numbers, 32 bits for each value, of which the lowest `digits` are taken, 1 to 32 of them
 * (APFLOAT_WRONG_WIDTH, after the mode). The other modes ignore `digits`. Nothing can be joined to a mode here. */

/* As apfloat_to_storage, with this random number. */
apfloat_error apfloat_to_storage_by(apfloat_format format, apfloat_mode mode, apfloat_format to, uint32_t digits,
                                    uint32_t random, apfloat_halves x, apfloat_answer *answer);

/* The same of each value of an array, as apfloat_convert_array does it. With APFLOAT_RANDOM_DIGITS `randoms` has four
 * bytes for each value, the lowest one first, and otherwise none: APFLOAT_WRONG_LENGTH says that it does not, too. */
apfloat_error apfloat_convert_array_by(apfloat_format format, apfloat_mode mode, apfloat_format to, uint32_t digits,
                                       const uint8_t *randoms, size_t randoms_length, const uint8_t *values,
                                       size_t values_length, uint8_t *results, size_t results_length,
                                       apfloat_array_answer *answer);

#ifdef __cplusplus
}

constexpr apfloat_format operator|(apfloat_format format, apfloat_format rule) noexcept {
    return apfloat_format(uint32_t(format) | uint32_t(rule));
}

constexpr apfloat_mode operator|(apfloat_mode mode, apfloat_mode saturation) noexcept {
    return apfloat_mode(uint32_t(mode) | uint32_t(saturation));
}
#endif

#endif
