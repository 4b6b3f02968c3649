/* answers SEED COUNT: makes COUNT calls of each function, of operands that are drawn from the seed, and prints a
 * checksum of all that the function returned and wrote. Two libraries whose lines are equal gave the same answers, bit
 * for bit; tests/c/run compares those of the libraries that it is given. (Another compiler may draw in another order.)
 *
 * A third of the operands have random bits, the others a special pattern: zeros, ones, the least and the greatest
 * exponents, powers of two, and what differs from the operand before in the last bits. One format or mode in sixteen is
 * unknown. An answer that a call leaves as it was shows what was in it before. */
#include "apfloat.h"

#include <stdio.h>
#include <stdlib.h>
#include <string.h>

/* ---- random numbers: splitmix64 */

static uint64_t state;

static uint64_t draw(void) {
    uint64_t z = state += UINT64_C(0x9e3779b97f4a7c15);
    z = (z ^ z >> 30) * UINT64_C(0xbf58476d1ce4e5b9);
    z = (z ^ z >> 27) * UINT64_C(0x94d049bb133111eb);
    return z ^ z >> 31;
}

static uint32_t below(uint32_t limit) {
    return (uint32_t)(draw() % limit);
}

/* ---- the checksum: FNV-1a */

static uint64_t checksum;

static void add_bytes(const void *bytes, size_t length) {
    for (size_t i = 0; i < length; i++) checksum = (checksum ^ ((const uint8_t *)bytes)[i]) * UINT64_C(0x100000001b3);
}

/* ---- operands */

static const uint32_t bits_of[] = {0, 16, 32, 64, 128, 16, 8, 8, 8, 80, 128, 0, 0, 0, 0, 0, 8, 8, 8, 19};
static const uint32_t exponent_bits_of[] = {0, 5, 8, 11, 15, 8, 5, 4, 4, 15, 11, 0, 0, 0, 0, 0, 4, 5, 4, 8};

/* The code of a format without its rule of flags, or 0. */
static uint32_t known_format(uint32_t format) {
    uint32_t code = format & 0xff;
    return code < sizeof bits_of / sizeof bits_of[0] && bits_of[code] > 0 ? code : 0;
}

static uint32_t draw_format(void) {
    static const uint32_t flags[] = {0, 0, APFLOAT_IEEE_FLAGS, APFLOAT_IEEE_FLAGS | APFLOAT_TINY_BEFORE_ROUNDING};
    if (below(16) == 0) return (uint32_t)draw() >> below(32);
    uint32_t format = 1 + below(14);
    if (format > APFLOAT_DOUBLE_PAIR) format += APFLOAT_E4M3 - APFLOAT_DOUBLE_PAIR - 1;
    return format == APFLOAT_E4M3FN || format == APFLOAT_E4M3FNUZ || format >= APFLOAT_DOUBLE_PAIR
               ? format
               : format | flags[below(4)];
}

static uint32_t draw_stored(void) {
    static const uint32_t stored[] = {APFLOAT_E2M1FN, APFLOAT_E2M3FN,  APFLOAT_E3M2FN,
                                      APFLOAT_E3M4,   APFLOAT_E8M0FNU, APFLOAT_UE4M3};
    return stored[below(6)];
}

/* The formats of elements in blocks, and once in sixteen times one that may be none. */
static uint32_t draw_element(void) {
    static const uint32_t elements[] = {APFLOAT_E5M2, APFLOAT_E4M3FN, APFLOAT_E3M2FN, APFLOAT_E2M3FN, APFLOAT_E2M1FN};
    return below(16) == 0 ? draw_stored() : elements[below(5)];
}

static uint32_t draw_mode(void) {
    return below(16) == 0 ? (uint32_t)draw() >> below(32) : below(5);
}

static apfloat_halves shifted(uint64_t number, uint32_t places) {
    apfloat_halves bits = {0, 0};
    if (places < 64) bits.low = number << places;
    if (places >= 64) bits.high = number << (places - 64);
    if (places > 0 && places < 64) bits.high = number >> (64 - places);
    return bits;
}

static apfloat_halves either(apfloat_halves a, apfloat_halves b) {
    a.low |= b.low;
    a.high |= b.high;
    return a;
}

static apfloat_halves draw_value(uint32_t format, apfloat_halves before) {
    uint32_t known = known_format(format), kind = below(12);
    apfloat_halves bits = {draw(), draw()};
    if (known == 0 || kind < 4) return bits;
    uint32_t width = bits_of[known], exponent_bits = exponent_bits_of[known];
    uint32_t digits = known == APFLOAT_DOUBLE_PAIR ? 52 : width - 1 - exponent_bits;
    uint32_t fraction = digits < 64 ? digits : 63;
    uint64_t greatest = (UINT64_C(1) << exponent_bits) - 1, middle = greatest / 2;
    apfloat_halves sign = shifted(below(2), known == APFLOAT_DOUBLE_PAIR ? 63 : width - 1);
    apfloat_halves integer = shifted(known == APFLOAT_X87, 63);
    switch (kind) {
    case 4: /* zeros, subnormal numbers of few digits */
        return either(sign, shifted(below(4), below(digits)));
    case 5: /* infinities, NaNs, the greatest numbers */
        return either(either(sign, integer), shifted(greatest - below(3), digits));
    case 6: /* ones in all digits */
        bits.low = bits.high = UINT64_MAX;
        bits.low ^= UINT64_C(1) << below(64);
        return bits;
    case 7: /* powers of two, and sums of two */
        return either(either(either(sign, integer), shifted(middle + below(8) - 4, digits)),
                      shifted(below(2), below(digits)));
    case 8: /* any exponent, one or two digits */
        return either(either(either(sign, integer), shifted(draw() & greatest, digits)), shifted(1, below(digits)));
    case 9: /* near the operand before */
        before.low += below(5) - UINT64_C(2);
        return before;
    case 10: /* near it, of the other sign, and at a distance */
        before.low ^= below(16);
        return either(before, sign);
    default: /* near 1 */
        return either(either(integer, shifted(middle, digits)), shifted(draw() >> (64 - fraction), 0));
    }
}

/* How many bytes a value takes in an array. */
static uint32_t width_of(uint32_t format) {
    uint32_t known = known_format(format), bytes = (bits_of[known] + 7) / 8;
    return known == 0 ? 1 : bytes == 3 ? 4 : bytes;
}

/* Fills an array with values, of which each may be near the one before. Returns the last one. */
static apfloat_halves draw_values(uint32_t format, apfloat_halves before, uint8_t *values, size_t size) {
    uint32_t width = width_of(format);
    for (size_t place = 0; place + width <= size; place += width) {
        before = draw_value(format, before);
        uint64_t words[2] = {before.low, before.high};
        for (uint32_t byte = 0; byte < width; byte++) values[place + byte] = (uint8_t)(words[byte / 8] >> byte % 8 * 8);
    }
    return before;
}

/* The bits without those at and above the width of the format; once in sixteen times with them. */
static apfloat_halves within(uint32_t format, apfloat_halves bits) {
    uint32_t known = format & 0xff;
    if (below(16) == 0 || known == 0 || known > 10 || bits_of[known] == 128) return bits;
    uint32_t width = bits_of[known];
    if (width <= 64) bits.high = 0;
    if (width < 64) bits.low &= (UINT64_C(1) << width) - 1;
    if (width > 64) bits.high &= (UINT64_C(1) << (width - 64)) - 1;
    return bits;
}

static size_t put(char *text, const char *part) {
    size_t length = strlen(part);
    memcpy(text, part, length);
    return length;
}

static size_t draw_digits(char *text, uint32_t base, uint32_t most) {
    uint32_t length = below(most + 1);
    for (uint32_t i = 0; i < length; i++) text[i] = "0123456789abcdef"[below(4) == 0 ? 0 : below(base)];
    return length;
}

/* A number in this base, or, once in eight times, parts of texts in any order. */
static size_t draw_text(char *text, uint32_t base) {
    static const char *const parts[] = {"0",  "1", ".", "e",   "E-",  "p",     "P-1",
                                        "0x", "-", "+", "inf", "nan", "snan1", " "};
    size_t length = 0;
    if (below(8) == 0) {
        for (uint32_t count = below(7); count > 0; count--) {
            length += put(text + length, parts[below(sizeof parts / sizeof parts[0])]);
        }
        if (below(4) == 0) text[length++] = (char)draw();
        return length;
    }
    if (below(2)) text[length++] = '-';
    if (base == 16) length += put(text + length, "0x");
    length += draw_digits(text + length, base, 20);
    if (below(4)) text[length++] = '.';
    length += draw_digits(text + length, base, 20);
    if (base == 16 || below(2)) {
        text[length++] = base == 16 ? 'p' : 'e';
        if (below(2)) text[length++] = '-';
        length += draw_digits(text + length, 10, below(4) + 1);
    }
    return length;
}

/* ---- calls */

static apfloat_answer *fresh(void) {
    static apfloat_answer answer;
    memset(&answer, 0xa5, sizeof answer);
    return &answer;
}

static void note(uint32_t code, const apfloat_answer *answer) {
    add_bytes(&code, sizeof code);
    add_bytes(answer, sizeof *answer);
}

static void note_text(uint32_t code, const apfloat_text *text) {
    add_bytes(&code, sizeof code);
    add_bytes(text, sizeof *text);
}

#define CALL(NAME, ...) \
    do { \
        apfloat_answer *answer = fresh(); \
        note(NAME(__VA_ARGS__, answer), answer); \
    } while (0)

static const char *const names[] = {
    "add",       "sub",   "mul",     "div",       "rem",     "mod",      "fma",   "sqrt",          "convert",
    "from_u128", "from_i128", "to_u128", "to_i128", "round_to_integral", "scalbn", "ilogb", "frexp",         "next_up",
    "next_down", "compare", "classify", "parse",  "parse_decimal", "shortest", "is_negative",   "neg",
    "abs",       "copy_sign", "min",  "max",      "minimum", "maximum", "qnan",  "snan",          "error_text",
    "version",   "compare_predicate", "total_order", "extremum", "log_b", "scale_b", "integral", "to_format",
    "machine",   "read_decimal", "write_digits", "digit_count", "write_hex", "write_hex_rounded", "format_facts",
    "pair_to_format", "pair_from_format", "pair_fma", "pair_shortest", "augmented", "payload",
    "convert_array", "map_array", "quantize_blocks", "dequantize_blocks", "pack_codes", "unpack_codes",
    "sum", "sum_abs", "sum_square", "dot", "dot_blocks"};
#define KINDS (sizeof names / sizeof names[0])

static void call_on_arrays(uint32_t kind) {
    uint8_t operands[3][64], results[1100];
    size_t lengths[3];
    apfloat_array_answer answer;
    uint32_t format = draw_format(), mode = draw_mode(), to = draw_format(), operation = below(10);
    if (kind == 0 && below(4) == 0) *(below(2) ? &format : &to) = draw_stored();
    uint32_t width = width_of(format);
    uint32_t most = below(64 / width + 1);
    apfloat_halves before = {0, 0};
    for (size_t i = 0; i < 3; i++) {
        before = draw_values(format, before, operands[i], sizeof operands[i]);
        lengths[i] = most * width;
    }
    memset(results, 0x5a, sizeof results);
    memset(&answer, 0xa5, sizeof answer);
    if (operation < 7) lengths[2] = 0;
    if (operation == APFLOAT_SQRT) lengths[1] = lengths[2] = 0;
    if (below(16) == 0) lengths[below(3)] = below(64);
    size_t room = below(16) == 0 ? below(sizeof results) : sizeof results;
    if (below(4) == 0) mode |= APFLOAT_SATURATE;
    uint32_t code = kind == 0
                        ? apfloat_convert_array(format, mode, to, operands[0], lengths[0], results, room, &answer)
                        : apfloat_map_array(format, mode & ~APFLOAT_SATURATE, operation, operands[0], lengths[0],
                                            operands[1], lengths[1], operands[2], lengths[2], results, room, &answer);
    add_bytes(&code, sizeof code);
    add_bytes(&answer, sizeof answer);
    add_bytes(results, sizeof results);
}

static void call_on_blocks(uint32_t kind) {
    uint8_t values[256], scales[16], codes[16], packed[16];
    apfloat_array_answer answer;
    uint32_t format = draw_format(), mode = draw_mode(), element = draw_element();
    uint32_t width = width_of(format), rule = below(3) * APFLOAT_SCALE_CEIL;
    uint32_t length = below(6), blocks = below(4), count = length * blocks;
    uint32_t bits = element == APFLOAT_E2M1FN ? 4 : element < APFLOAT_E2M1FN ? 8 : 6;
    apfloat_halves before = {0, 0};
    draw_values(format, before, values, sizeof values);
    uint32_t mask = below(16) == 0 ? 0xff : (1u << bits) - 1;
    for (size_t i = 0; i < sizeof codes; i++) {
        scales[i] = (uint8_t)(below(4) ? 119 + below(16) : draw());
        codes[i] = (uint8_t)(draw() & mask);
        packed[i] = (uint8_t)draw();
    }
    memset(&answer, 0xa5, sizeof answer);
    size_t lengths[] = {count * width, blocks, count, bits == 4 ? 2 * below(8) : 4 * below(4), 0};
    lengths[4] = lengths[3] * bits / 8;
    if (below(16) == 0) lengths[below(5)] = below(16);
    /* The scale of a tensor makes the blocks those of NVFP4. */
    uint32_t code, has_tensor = below(2), tensor = (uint32_t)draw() >> (below(16) ? 1 : 0);
    for (size_t i = 0; has_tensor && i < sizeof scales; i++) scales[i] &= 127;
    switch (kind) {
    case 0:
        code = has_tensor ? apfloat_quantize_nvfp4(format, mode, tensor, length, values, lengths[0], scales, lengths[1],
                                                   codes, lengths[2], &answer)
                          : apfloat_quantize_blocks(format, mode | rule, element, length, values, lengths[0], scales,
                                                    lengths[1], codes, lengths[2], &answer);
        break;
    case 1:
        code = has_tensor ? apfloat_dequantize_nvfp4(tensor, mode, format, length, scales, lengths[1], codes,
                                                     lengths[2], values, lengths[0], &answer)
                          : apfloat_dequantize_blocks(element, mode, format, length, scales, lengths[1], codes,
                                                      lengths[2], values, lengths[0], &answer);
        break;
    case 2: code = apfloat_pack_codes(element, codes, lengths[3], packed, lengths[4]); break;
    default: code = apfloat_unpack_codes(element, packed, lengths[4], codes, lengths[3]); break;
    }
    add_bytes(&code, sizeof code);
    add_bytes(&answer, sizeof answer);
    add_bytes(values, sizeof values);
    add_bytes(scales, sizeof scales);
    add_bytes(codes, sizeof codes);
    add_bytes(packed, sizeof packed);
}

static void call_for_sum(uint32_t kind) {
    uint8_t operands[2][96];
    uint32_t format = draw_format(), mode = draw_mode();
    uint32_t width = width_of(format);
    size_t length = below(sizeof operands[0] / width + 1) * width;
    apfloat_halves before = {0, 0};
    for (size_t i = 0; i < 2; i++)
        before = draw_values(format, before, operands[i], sizeof operands[i]);
    size_t first = below(16) == 0 ? below(96) : length, second = below(16) == 0 ? below(96) : first;
    switch (kind) {
    case 0: CALL(apfloat_sum, format, mode, operands[0], first); break;
    case 1: CALL(apfloat_sum_abs, format, mode, operands[0], first); break;
    case 2: CALL(apfloat_sum_square, format, mode, operands[0], first); break;
    default: CALL(apfloat_dot, format, mode, operands[0], first, operands[1], second); break;
    }
}

/* Vectors in blocks of the same number of elements. */
static void call_on_vectors(void) {
    uint8_t scales[2][12], codes[2][12];
    uint32_t elements[2], tensors[2], lengths[2], count = 12 / (1 + below(3));
    for (size_t i = 0; i < 2; i++) {
        elements[i] = below(3) == 0 ? APFLOAT_NVFP4 : draw_element();
        tensors[i] = (uint32_t)draw() >> (below(16) ? 1 : 0);
        lengths[i] = 1 + below(4);
        uint32_t bits = elements[i] == APFLOAT_E2M1FN || elements[i] == APFLOAT_NVFP4 ? 4
                        : elements[i] < APFLOAT_E2M1FN                                ? 8
                                                                                      : 6;
        for (size_t n = 0; n < 12; n++) {
            scales[i][n] = (uint8_t)((below(4) ? 119 + below(16) : draw()) & (below(64) ? 127 : 255));
            codes[i][n] = (uint8_t)(draw() & (below(64) ? (1u << bits) - 1 : 255));
        }
    }
    CALL(apfloat_dot_blocks, draw_format(), draw_mode(), elements[0], tensors[0], lengths[0], scales[0],
         count / lengths[0], codes[0], count, elements[1], tensors[1], lengths[1], scales[1], count / lengths[1],
         codes[1], count);
}

static void call_on_digits(uint32_t kind, uint32_t format, uint32_t mode, apfloat_halves x) {
    uint8_t bytes[64];
    size_t length = below(sizeof bytes + 1);
    memset(bytes, 0x5a, sizeof bytes);
    switch (kind) {
    case 0: CALL(apfloat_write_digits, format, mode, x, bytes, length); break;
    case 1: CALL(apfloat_digit_count, format, x); break;
    case 2: CALL(apfloat_write_hex, format, x, bytes, length); break;
    default: CALL(apfloat_write_hex_rounded, format, mode, below(34), x, bytes, length); break;
    }
    add_bytes(bytes, sizeof bytes);
}

static void call(size_t kind) {
    uint32_t format = draw_format(), mode = draw_mode(), to = draw_format(), width = below(140);
    uint32_t magnitude = (uint32_t)draw() >> below(32);
    int32_t power = below(2) ? (int32_t)(magnitude / 2) : -(int32_t)(magnitude / 2);
    apfloat_halves zero = {0, 0}, x = draw_value(format, zero), y = draw_value(format, x), z = draw_value(format, y);
    apfloat_halves number = shifted(draw() >> below(64), below(65));
    apfloat_text written;
    char text[64];
    size_t length;
    switch (kind) {
    case 0: CALL(apfloat_add, format, mode, x, y); break;
    case 1: CALL(apfloat_sub, format, mode, x, y); break;
    case 2: CALL(apfloat_mul, format, mode, x, y); break;
    case 3: CALL(apfloat_div, format, mode, x, y); break;
    case 4: CALL(apfloat_rem, format, x, y); break;
    case 5: CALL(apfloat_mod, format, x, y); break;
    case 6: CALL(apfloat_fma, format, mode, x, y, z); break;
    case 7: CALL(apfloat_sqrt, format, mode, x); break;
    case 8: CALL(apfloat_convert, format, mode, to, x); break;
    case 9: CALL(apfloat_from_u128, format, mode, number); break;
    case 10: CALL(apfloat_from_i128, format, mode, number); break;
    case 11: CALL(apfloat_to_u128, format, mode, x, width); break;
    case 12: CALL(apfloat_to_i128, format, mode, x, width); break;
    case 13: CALL(apfloat_round_to_integral, format, mode, x); break;
    case 14: CALL(apfloat_scalbn, format, mode, x, power); break;
    case 15: CALL(apfloat_ilogb, format, x); break;
    case 16: CALL(apfloat_frexp, format, mode, x); break;
    case 17: CALL(apfloat_next_up, format, x); break;
    case 18: CALL(apfloat_next_down, format, x); break;
    case 19: CALL(apfloat_compare, format, x, y); break;
    case 20: CALL(apfloat_classify, format, x); break;
    case 21:
        length = draw_text(text, 16);
        CALL(apfloat_parse, format, mode, (const uint8_t *)text, length);
        break;
    case 22:
        length = draw_text(text, below(4) ? 10 : 16);
        CALL(apfloat_parse_decimal, format, mode, (const uint8_t *)text, length);
        break;
    case 23:
        memset(&written, 0xa5, sizeof written);
        note_text((below(2) ? apfloat_shortest : apfloat_to_text)(format, x, &written), &written);
        break;
    case 24: CALL(apfloat_is_negative, format, x); break;
    case 25: CALL(apfloat_neg, format, x); break;
    case 26: CALL(apfloat_abs, format, x); break;
    case 27: CALL(apfloat_copy_sign, format, x, y); break;
    case 28: CALL(apfloat_min, format, x, y); break;
    case 29: CALL(apfloat_max, format, x, y); break;
    case 30: CALL(apfloat_minimum, format, x, y); break;
    case 31: CALL(apfloat_maximum, format, x, y); break;
    case 32: CALL(apfloat_qnan, format, magnitude & 3, number); break;
    case 33: CALL(apfloat_snan, format, magnitude & 3, number); break;
    case 34:
        memset(&written, 0xa5, sizeof written);
        note_text(apfloat_error_text(magnitude, &written), &written);
        break;
    case 35: {
        uint32_t version = apfloat_version();
        add_bytes(&version, sizeof version);
        break;
    }
    case 36: CALL(apfloat_compare_predicate, format, below(13), below(3), x, y); break;
    case 37: CALL(apfloat_total_order, format, x, y); break;
    case 38: CALL(apfloat_extremum, format, below(5), below(3), x, y); break;
    case 39: CALL(apfloat_log_b, format, mode, x); break;
    case 40: CALL(apfloat_scale_b, format, mode, x, power); break;
    case 41: CALL(apfloat_integral, format, mode, x); break;
    case 42: CALL(apfloat_to_format, below(7), format, mode, to, x, y, z); break;
    case 43: {
        uint32_t operation = below(19);
        int has_rule = operation == APFLOAT_LEAST || operation == APFLOAT_GREATEST;
        uint32_t made_to = operation == APFLOAT_CONVERT ? to : has_rule ? below(8) : width;
        CALL(apfloat_machine, below(17), operation, format, mode, made_to, within(format, x), within(format, y),
             within(format, z));
        CALL(apfloat_instruction, below(17), operation, format, below(4) ? mode : APFLOAT_TO_ODD, below(9), made_to,
             within(format, x), within(format, y), within(format, z));
        break;
    }
    case 44:
        length = draw_text(text, below(4) ? 10 : 16);
        CALL(apfloat_read_decimal, format, mode, (const uint8_t *)text, length);
        break;
    case 45:
    case 46:
    case 47:
    case 48: call_on_digits((uint32_t)kind - 45, format, mode, x); break;
    case 49: {
        apfloat_facts facts;
        memset(&facts, 0xa5, sizeof facts);
        uint32_t code = apfloat_format_facts(format, &facts);
        add_bytes(&code, sizeof code);
        add_bytes(&facts, sizeof facts);
        break;
    }
    case 50: CALL(apfloat_pair_to_format, format, mode, x); break;
    case 51: CALL(apfloat_pair_from_format, format, mode, x); break;
    case 52: CALL(apfloat_pair_fma, mode, x, y, z); break;
    case 53:
        memset(&written, 0xa5, sizeof written);
        note_text(apfloat_pair_shortest(draw_value(APFLOAT_DOUBLE_PAIR, x), &written), &written);
        break;
    case 54:
        CALL(apfloat_augmented, below(5), format, x, y, &number);
        add_bytes(&number, sizeof number);
        break;
    case 55: CALL(apfloat_payload, below(4), format, x); break;
    case 56:
    case 57: call_on_arrays((uint32_t)kind - 56); break;
    case 58:
    case 59:
    case 60:
    case 61: call_on_blocks((uint32_t)kind - 58); break;
    case 66: call_on_vectors(); break;
    default: call_for_sum((uint32_t)kind - 62); break;
    }
}

int main(int argc, char **argv) {
    if (argc != 3) {
        fprintf(stderr, "usage: answers SEED COUNT\n");
        return 2;
    }
    uint64_t seed = strtoull(argv[1], NULL, 0), count = strtoull(argv[2], NULL, 0);
    for (size_t kind = 0; kind < KINDS; kind++) {
        state = seed + kind;
        checksum = UINT64_C(0xcbf29ce484222325);
        for (uint64_t i = 0; i < count; i++) call(kind);
        printf("%s: %016llx\n", names[kind], (unsigned long long)checksum);
    }
    return 0;
}
