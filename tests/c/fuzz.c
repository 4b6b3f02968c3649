/* fuzz SEED SECONDS: calls every function with codes, bits, texts, lengths and arrays at random, within what the caller
 * has to ensure. Arrays and texts end, or begin, at a page that may not be read or written, so that a byte too far ends
 * the program; and it looks whether each call does what the header says of every call: after an error nothing is
 * written, after an answer nothing beside the results, and never an argument. */
#define _GNU_SOURCE
#include <apfloat.h>
#include <stdio.h>
#include <stdlib.h>
#include <string.h>
#include <sys/mman.h>
#include <time.h>
#include <unistd.h>

static uint64_t state;

/* How many calls had no error. */
static unsigned long answered;

/* SplitMix64. */
static uint64_t random_word(void) {
    uint64_t z = state += UINT64_C(0x9e3779b97f4a7c15);
    z = (z ^ z >> 30) * UINT64_C(0xbf58476d1ce4e5b9);
    z = (z ^ z >> 27) * UINT64_C(0x94d049bb133111eb);
    return z ^ z >> 31;
}

static uint32_t below(uint32_t limit) { return (uint32_t)(random_word() >> 32) % limit; }

/* A code: mostly one of the first few, else any. */
static uint32_t code(uint32_t few) { return below(16) ? below(few) : (uint32_t)random_word(); }

static uint32_t format(void) {
    static const uint32_t codes[] = {1, 2, 3, 4, 5, 6, 7, 8, 9, 10, 16, 17, 18, 19, 32, 33, 34, 35, 48, 49};
    uint32_t known = codes[below(below(6) ? 14 : sizeof codes / sizeof *codes)];
    switch (below(24)) {
    case 0: return (uint32_t)random_word();
    case 1:
    case 3:
    case 4: return known | APFLOAT_IEEE_FLAGS;
    case 2: return known | APFLOAT_IEEE_FLAGS | APFLOAT_TINY_BEFORE_ROUNDING;
    default: return known;
    }
}

static uint32_t mode(void) {
    static const uint32_t more[] = {APFLOAT_SATURATE, APFLOAT_SATURATE_FINITE, APFLOAT_SATURATE_ALL,
                                    APFLOAT_SCALE_CEIL, APFLOAT_SCALE_EVEN};
    return (below(16) ? below(5) : code(8)) | (below(10) ? 0 : more[below(5)]);
}

static apfloat_halves bits(void) {
    apfloat_halves made = {random_word(), random_word()};
    switch (below(4)) {
    case 0: return made;
    case 1: made.high = 0; break;
    case 2: made.high = 0, made.low >>= below(64); break;
    default: made.low &= ~random_word() | UINT64_C(0x7fff) << below(49);
    }
    return made;
}

enum { PAGES = 3, AREAS = 6 };

static size_t page;

/* Pages that can be read and written, between two that cannot. */
typedef struct area {
    uint8_t *first; /* what a call is lent */
    size_t length;
    uint8_t *pages;
    uint8_t *copy; /* what the pages were before the call */
} area;

static area areas[AREAS];

static void make_areas(void) {
    page = (size_t)sysconf(_SC_PAGESIZE);
    for (int i = 0; i < AREAS; i++) {
        uint8_t *all = mmap(NULL, (PAGES + 2) * page, PROT_NONE, MAP_PRIVATE | MAP_ANONYMOUS, -1, 0);
        if (all == MAP_FAILED || mprotect(all + page, PAGES * page, PROT_READ | PROT_WRITE)) {
            exit(3);
        }
        areas[i].pages = all + page;
        areas[i].copy = malloc(PAGES * page);
        for (size_t at = 0; at < PAGES * page; at++) {
            areas[i].pages[at] = (uint8_t)random_word();
        }
    }
}

/* Lends so many bytes of an area, at its end or at its beginning. */
static area *lend(int which, size_t length) {
    area *lent = &areas[which];
    lent->length = length;
    lent->first = below(4) ? lent->pages + PAGES * page - length : lent->pages;
    for (size_t at = 0; at < length && at < 4096; at++) {
        lent->first[at] = (uint8_t)random_word();
    }
    return lent;
}

static void fail(const char *what) {
    printf("fuzz: %s\n", what);
    exit(1);
}

static void remember(void) {
    for (int i = 0; i < AREAS; i++) {
        memcpy(areas[i].copy, areas[i].pages, PAGES * page);
    }
}

/* What a call returned: only the results that it may write differ from before. */
static void returned(const char *name, uint32_t error, const area *results, const area *more, const area *table) {
    if (error > APFLOAT_WRONG_CONTROL || error == APFLOAT_UNKNOWN_ERROR) {
        fail(name);
    }
    answered += error == APFLOAT_ANSWERED;
    for (int i = 0; i < AREAS; i++) {
        const area *it = &areas[i];
        int may = error == APFLOAT_ANSWERED && (it == results || it == more || it == table);
        size_t from = (size_t)(it->first - it->pages);
        size_t after = from + it->length;
        if (memcmp(it->pages, it->copy, may ? from : PAGES * page) ||
            (may && memcmp(it->pages + after, it->copy + after, PAGES * page - after))) {
            fail(name);
        }
    }
}

/* A length of an array of values of some bytes each: mostly one that fits. */
static size_t fitting(size_t count, size_t width) { return count * width + (below(16) ? 0 : below(9)); }

/* The bytes of a value; 1 of a storage format and of one that is not known. */
static size_t exact_width_of(uint32_t of) {
    static const uint8_t widths[20] = {1, 2, 4, 8, 16, 2, 1, 1, 1, 10, 16, 1, 1, 1, 1, 1, 1, 1, 1, 4};
    return (of & 255) < 20 ? widths[of & 255] : 1;
}

/* The same, mostly. */
static size_t width_of(uint32_t of) {
    return below(16) == 0 ? 1 + below(16) : exact_width_of(of);
}

/* Calls of single values: each with an answer that has to stay as it was after an error. */
#define ONE(name, ...)                                                                                                 \
    do {                                                                                                               \
        apfloat_answer answer, before;                                                                                 \
        memset(&before, (int)below(256), sizeof before);                                                               \
        answer = before;                                                                                               \
        uint32_t error = name(__VA_ARGS__, &answer);                                                                   \
        if (error > APFLOAT_WRONG_CONTROL || error == APFLOAT_UNKNOWN_ERROR ||                                    \
            (error && memcmp(&answer, &before, sizeof answer)) || (!error && answer.status > 31)) {                    \
            fail(#name);                                                                                               \
        }                                                                                                              \
        answered += error == APFLOAT_ANSWERED;                                                                         \
    } while (0)

/* The constants of a format of P3109, mostly. */
static apfloat_p3109 constants(void) {
    const uint32_t width = code(17);
    const apfloat_p3109 made = {width, below(16) ? 1 + below(width % 16 + 1) : code(20), code(2), code(2)};
    return made;
}

static void values(void) {
    uint32_t f = format(), m = mode();
    apfloat_halves x = bits(), y = bits(), z = bits();
    switch (below(56)) {
    case 0: ONE(apfloat_add, f, m, x, y); break;
    case 1: ONE(apfloat_sub, f, m, x, y); break;
    case 2: ONE(apfloat_mul, f, m, x, y); break;
    case 3: ONE(apfloat_div, f, m, x, y); break;
    case 4: ONE(apfloat_fma, f, m, x, y, z); break;
    case 5: ONE(apfloat_sqrt, f, m, x); break;
    case 6: ONE(apfloat_rem, f, x, y); break;
    case 7: ONE(apfloat_mod, f, x, y); break;
    case 8: ONE(apfloat_convert, f, m, format(), x); break;
    case 9: ONE(apfloat_from_u128, f, m, x); break;
    case 10: ONE(apfloat_from_i128, f, m, x); break;
    case 11: ONE(apfloat_to_u128, f, m, x, code(130)); break;
    case 12: ONE(apfloat_to_i128, f, m, x, code(130)); break;
    case 13: ONE(apfloat_round_to_integral, f, m, x); break;
    case 14: ONE(apfloat_scalbn, f, m, x, (int32_t)random_word() >> below(32)); break;
    case 15: ONE(apfloat_ilogb, f, x); break;
    case 16: ONE(apfloat_frexp, f, m, x); break;
    case 17: ONE(apfloat_next_up, f, x); break;
    case 18: ONE(apfloat_next_down, f, x); break;
    case 19: ONE(apfloat_compare, f, x, y); break;
    case 20: ONE(apfloat_copy_sign, f, x, y); break;
    case 21: ONE(apfloat_classify, f, x); break;
    case 22: ONE(apfloat_is_negative, f, x); break;
    case 23: ONE(apfloat_neg, f, x); break;
    case 24: ONE(apfloat_abs, f, x); break;
    case 25: ONE(apfloat_min, f, x, y); break;
    case 26: ONE(apfloat_max, f, x, y); break;
    case 27: ONE(apfloat_minimum, f, x, y); break;
    case 28: ONE(apfloat_maximum, f, x, y); break;
    case 29: ONE(apfloat_qnan, f, below(3), x); break;
    case 30: ONE(apfloat_snan, f, below(3), x); break;
    case 31: ONE(apfloat_compare_predicate, f, code(13), code(3), x, y); break;
    case 32: ONE(apfloat_total_order, f, x, y); break;
    case 33: ONE(apfloat_extremum, f, code(5), code(3), x, y); break;
    case 34: ONE(apfloat_log_b, f, m, x); break;
    case 35: ONE(apfloat_scale_b, f, m, x, (int32_t)random_word() >> below(32)); break;
    case 36: ONE(apfloat_integral, f, m, x); break;
    case 37: ONE(apfloat_to_format, code(7), f, m, format(), x, y, z); break;
    case 38: ONE(apfloat_pair_to_format, f, m, x); break;
    case 39: ONE(apfloat_pair_from_format, f, m, x); break;
    case 40: ONE(apfloat_pair_fma, m, x, y, z); break;
    case 41: ONE(apfloat_digit_count, f, x); break;
    case 42: ONE(apfloat_payload, code(4), f, x); break;
    case 43: ONE(apfloat_to_storage, f, m, format(), x); break;
    case 44: ONE(apfloat_from_storage, format(), m, f, (uint32_t)random_word()); break;
    case 45: ONE(apfloat_to_storage_by, f, code(8), format(), code(34), (uint32_t)random_word(), x); break;
    case 46: {
        apfloat_halves tail = y;
        const uint32_t operation = code(5);
        apfloat_answer answer;
        uint32_t error;
        ONE(apfloat_augmented, operation, f, x, y, &tail);
        tail = z;
        error = apfloat_augmented(operation, f, x, y, &tail, &answer);
        if (error && memcmp(&tail, &z, sizeof tail)) {
            fail("a tail");
        }
        break;
    }
    case 47: {
        apfloat_facts facts, before;
        memset(&before, (int)below(256), sizeof before);
        facts = before;
        if (apfloat_format_facts(f, &facts) ? memcmp(&facts, &before, sizeof facts) != 0 : facts.bits > 128) {
            fail("apfloat_format_facts");
        }
        break;
    }
    case 48: ONE(apfloat_to_p3109, f, code(6), constants(), x); break;
    case 49: ONE(apfloat_from_p3109, constants(), m, f, (uint32_t)random_word()); break;
    case 50: ONE(apfloat_to_p3109_by, f, code(10), constants(), code(34), (uint32_t)random_word(), x); break;
    case 51: ONE(apfloat_between_storage, format(), m, format(), (uint32_t)random_word()); break;
    case 52: {
        const uint32_t a = (uint32_t)x.low, b = (uint32_t)y.low, c = (uint32_t)z.low;
        ONE(apfloat_storage_operation, below(2) ? 32 + below(3) : format(), m, code(17), a, b, c);
        break;
    }
    case 53:
        ONE(apfloat_instruction, code(17), code(19), f, below(4) ? m : APFLOAT_TO_ODD, code(25),
            below(2) ? format() : code(130), x, y, z);
        break;
    default: ONE(apfloat_machine, code(17), code(19), f, m, below(2) ? format() : code(130), x, y, z);
    }
}

#define LENT(it) (it)->first, (it)->length

static void texts(void) {
    static const char letters[] = "0123456789abcdefxXpPeE.+-()infatyINFATYsS \n_,\xff";
    apfloat_text text, before;
    memset(&before, (int)below(256), sizeof before);
    text = before;
    switch (below(6)) {
    case 0: {
        uint32_t error = below(4) == 0 ? apfloat_pair_shortest(bits(), &text)
                                       : (below(2) ? apfloat_shortest : apfloat_to_text)(format(), bits(), &text);
        if (error ? memcmp(&text, &before, sizeof text) != 0 : strlen(text.bytes) != text.length) {
            fail("apfloat_shortest");
        }
        break;
    }
    case 1: {
        uint32_t error = apfloat_error_text(code(13), &text);
        if (error ? memcmp(&text, &before, sizeof text) != 0 : strlen(text.bytes) != text.length) {
            fail("apfloat_error_text");
        }
        break;
    }
    case 2: {
        /* Digits, and hexadecimal digits: all of the area, or the beginning of it, is written. */
        area *lent = lend(0, below(8) ? below(60) : below(2000));
        uint32_t f = format(), error;
        apfloat_answer answer;
        remember();
        switch (below(3)) {
        case 0: error = apfloat_write_digits(f, mode(), bits(), LENT(lent), &answer); break;
        case 1: error = apfloat_write_hex(f, bits(), LENT(lent), &answer); break;
        default: error = apfloat_write_hex_rounded(f, mode(), code(34), bits(), LENT(lent), &answer);
        }
        returned("digits", error, lent, NULL, NULL);
        if (!error && answer.bits.low > lent->length) {
            fail("more digits than there is room for");
        }
        break;
    }
    default: {
        static const char *starts[] = {"", "", "-", "0x1.8", "0x", "1e", "nan(", "snan0x", "inf", "0.000"};
        area *lent = lend(0, below(40));
        const char *start = starts[below(10)];
        for (size_t at = 0; at < lent->length; at++) {
            lent->first[at] = (uint8_t)letters[below(below(3) ? 10 : sizeof letters - 1)];
        }
        memcpy(lent->first, start, strlen(start) < lent->length ? strlen(start) : lent->length);
        remember();
        switch (below(3)) {
        case 0: ONE(apfloat_parse, format(), mode(), LENT(lent)); break;
        case 1: ONE(apfloat_parse_decimal, format(), mode(), LENT(lent)); break;
        default: ONE(apfloat_read_decimal, format(), mode(), LENT(lent));
        }
        returned("a text", 1, NULL, NULL, NULL);
    }
    }
}

static void arrays(void) {
    size_t count = below(3) ? below(20) : below(600);
    uint32_t from = format(), to = format(), element = below(8) ? 32 + below(3) : format();
    uint32_t operation = code(10), tensor = (uint32_t)random_word() >> below(2);
    area *xs = lend(0, fitting(count, width_of(from))), *results = lend(1, fitting(count, width_of(to)));
    area *ys = lend(2, operation == APFLOAT_SQRT ? 0 : below(8) ? xs->length : below(40));
    area *zs = lend(3, operation == APFLOAT_FMA ? xs->length : 0);
    area *table = lend(4, below(100)), *codes = lend(5, fitting(count, 1));
    apfloat_array_answer answer, before;
    uint32_t error;
    memset(&before, (int)below(256), sizeof before);
    answer = before;
    switch (below(9)) {
    case 6: {
        const uint32_t by = code(8);
        area *randoms = lend(2, by == APFLOAT_RANDOM_DIGITS ? fitting(count, 4) : below(8) ? 0 : below(40));
        remember();
        error = apfloat_convert_array_by(from, by, to, code(34), LENT(randoms), LENT(xs), LENT(results), &answer);
        returned("apfloat_convert_array_by", error, results, NULL, NULL);
        break;
    }
    case 0:
        remember();
        error = apfloat_convert_array(from, mode(), to, LENT(xs), LENT(results), &answer);
        returned("apfloat_convert_array", error, results, NULL, NULL);
        break;
    case 1:
        remember();
        error = apfloat_convert_array_by_table(from, mode(), to, LENT(xs), LENT(results), LENT(table), &answer);
        returned("apfloat_convert_array_by_table", error, results, NULL, table);
        break;
    case 2:
        remember();
        error = apfloat_map_array(from, mode(), operation, LENT(xs), LENT(ys), LENT(zs), LENT(results), &answer);
        returned("apfloat_map_array", error, results, NULL, NULL);
        break;
    case 3: {
        /* Operands may be the same array. */
        const area *last = operation == APFLOAT_FMA ? xs : zs;
        remember();
        error = apfloat_map_array_by_table(from, mode(), operation, LENT(xs), LENT(xs), LENT(last), LENT(results),
                                           LENT(table), &answer);
        returned("apfloat_map_array_by_table", error, results, NULL, table);
        break;
    }
    case 4: {
        size_t length = below(8) ? 1 + below(40) : 0, blocks = length ? count / length : below(5);
        codes = lend(5, fitting(blocks * length, 1));
        xs = lend(0, fitting(codes->length, width_of(from)));
        area *scales = lend(1, fitting(blocks, 1));
        remember();
        if (below(2)) {
            error = apfloat_quantize_nvfp4(from, mode(), tensor, length, LENT(xs), LENT(scales), LENT(codes), &answer);
        } else {
            error = apfloat_quantize_blocks(from, mode(), element, length, LENT(xs), LENT(scales), LENT(codes),
                                            &answer);
        }
        returned("blocks", error, scales, codes, NULL);
        break;
    }
    case 5: {
        size_t length = below(8) ? 1 + below(40) : 0, blocks = length ? count / length : below(5);
        area *scales = lend(2, fitting(blocks, 1));
        codes = lend(5, fitting(blocks * length, 1));
        for (size_t at = 0; at < codes->length; at++) {
            codes->first[at] &= below(2000) ? 15 : 255;
        }
        const uint32_t has_tensor = below(2);
        for (size_t at = 0; has_tensor && at < scales->length; at++) {
            scales->first[at] &= below(200) ? 127 : 255;
        }
        results = lend(1, fitting(codes->length, width_of(to)));
        remember();
        if (has_tensor) {
            error = apfloat_dequantize_nvfp4(tensor, mode(), to, length, LENT(scales), LENT(codes), LENT(results),
                                             &answer);
        } else {
            error = apfloat_dequantize_blocks(element, mode(), to, length, LENT(scales), LENT(codes), LENT(results),
                                              &answer);
        }
        returned("values of blocks", error, results, NULL, NULL);
        break;
    }
    default: {
        int pack = (int)below(2);
        area *bytes = lend(3, fitting(element == APFLOAT_E2M1FN ? count / 2 : count / 4 * 3, 1));
        codes = lend(5, fitting(count / 4 * 4, 1));
        for (size_t at = 0; pack && at < codes->length; at++) {
            codes->first[at] &= below(2000) ? 15 : 255;
        }
        remember();
        error = pack ? apfloat_pack_codes(element, LENT(codes), LENT(bytes))
                     : apfloat_unpack_codes(element, LENT(bytes), LENT(codes));
        returned(pack ? "apfloat_pack_codes" : "apfloat_unpack_codes", error, pack ? bytes : codes, NULL, NULL);
        return;
    }
    }
    if (error ? memcmp(&answer, &before, sizeof answer) != 0 : answer.status > 31 || answer.reserved != 0) {
        fail("an answer of an array");
    }
}

/* Results in the place of an operand are those that a call with arrays apart from each other makes. */
static void in_place(void) {
    size_t count = below(3) ? below(20) : below(700), mapped = below(3), wide = below(2) ? count : below(20);
    uint32_t from = format(), to = mapped ? from : format(), by = mode(), operation = code(10);
    size_t width = width_of(from), room = mapped ? fitting(count, width) : fitting(wide, width_of(to));
    size_t length = mapped && below(8) ? room : fitting(count, width);
    size_t second = operation == APFLOAT_SQRT ? 0 : below(8) ? length : below(40);
    size_t third = operation == APFLOAT_FMA ? length : 0;
    area *place = lend(0, length > room ? length : room), *values = lend(1, length), *results = lend(2, room);
    area *other = lend(3, second);
    apfloat_array_answer wanted, answer, before;
    uint32_t error, made;
    memset(&before, (int)below(256), sizeof before);
    wanted = answer = before;
    memcpy(values->first, place->first, length);
    /* The bytes after the results stay as they were. */
    memcpy(results->first, place->first, room);
    if (mapped) {
        /* The place is the first operand, and with `mapped` 2 the second one, too, as far as it is as long. */
        const uint8_t *apart = mapped == 2 && second == length ? values->first : other->first;
        const uint8_t *same = mapped == 2 && second == length ? place->first : other->first;
        error = apfloat_map_array(from, by, operation, LENT(values), apart, second, values->first, third, LENT(results),
                                  &wanted);
        remember();
        made = apfloat_map_array_in_place(from, by, operation, place->first, length, same, second, place->first, third,
                                          place->first, room, &answer);
    } else {
        error = apfloat_convert_array(from, by, to, LENT(values), LENT(results), &wanted);
        remember();
        made = apfloat_convert_array_in_place(from, by, to, place->first, length, place->first, room, &answer);
    }
    returned("a call in place", made, place, NULL, NULL);
    if (made != error || memcmp(&answer, &wanted, sizeof answer)) {
        fail("the answer in place");
    }
    if (error) {
        return;
    }
    if (memcmp(place->first, results->first, room) ||
        (length > room && memcmp(place->first + room, values->first + room, length - room))) {
        fail("results in place");
    }
    /* A byte further on, an operand overlaps results of more than a byte. */
    if ((size_t)answer.values * exact_width_of(to) > 1) {
        place = lend(0, (length > room ? length : room) + 1);
        answer = before;
        remember();
        made = mapped ? apfloat_map_array_in_place(from, by, operation, place->first + 1, length, other->first, second,
                                                   values->first, third, place->first, room, &answer)
                      : apfloat_convert_array_in_place(from, by, to, place->first + 1, length, place->first, room,
                                                       &answer);
        returned("an overlap", 1, NULL, NULL, NULL);
        if (made != APFLOAT_OVERLAPPING_ARRAYS || memcmp(&answer, &before, sizeof answer)) {
            fail("an overlap is not refused");
        }
    }
}

static void sums(void) {
    uint32_t of = format();
    area *xs = lend(0, fitting(below(3) ? below(20) : below(600), width_of(of)));
    area *ys = below(4) ? lend(2, below(8) ? xs->length : below(40)) : xs;
    remember();
    switch (below(4)) {
    case 0: ONE(apfloat_sum, of, mode(), LENT(xs)); break;
    case 1: ONE(apfloat_sum_abs, of, mode(), LENT(xs)); break;
    case 2: ONE(apfloat_sum_square, of, mode(), LENT(xs)); break;
    default: ONE(apfloat_dot, of, mode(), LENT(xs), LENT(ys));
    }
    returned("a sum", 1, NULL, NULL, NULL);
}

/* Vectors in blocks, mostly of as many elements. */
static void dots(void) {
    static const size_t some[] = {1, 2, 3, 4, 6, 12, 0};
    area *scales[2], *codes[2];
    uint32_t element[2], tensor[2];
    size_t length[2], count = 12 * below(below(3) ? 3 : 50);
    for (int i = 0; i < 2; i++) {
        length[i] = some[below(below(8) ? 6 : 7)];
        element[i] = below(3) ? 32 + below(3) : below(8) ? APFLOAT_NVFP4 : format();
        tensor[i] = (uint32_t)random_word() >> (below(8) ? 2 : 0);
        scales[i] = lend(i, fitting(length[i] ? count / length[i] : below(5), 1));
        codes[i] = lend(2 + i, fitting(count, 1));
        for (size_t at = 0; at < codes[i]->length; at++) codes[i]->first[at] &= below(2000) ? 15 : 255;
        for (size_t at = 0; at < scales[i]->length; at++) scales[i]->first[at] &= below(2000) ? 127 : 255;
    }
    remember();
    ONE(apfloat_dot_blocks, format(), mode(), element[0], tensor[0], length[0], LENT(scales[0]), LENT(codes[0]),
        element[1], tensor[1], length[1], LENT(scales[1]), LENT(codes[1]));
    returned("a dot product of blocks", 1, NULL, NULL, NULL);
}

int main(int count, char **words) {
    unsigned long calls = 0;
    time_t end = time(NULL) + (count > 2 ? atoi(words[2]) : 2);
    state = count > 1 ? strtoull(words[1], NULL, 0) : 1;
    make_areas();
    if (apfloat_version() != APFLOAT_VERSION_MAJOR * 1000000 + APFLOAT_VERSION_MINOR * 1000 + APFLOAT_VERSION_PATCH) {
        fail("apfloat_version");
    }
    if (apfloat_made_by() != APFLOAT_MADE_BY_RT && apfloat_made_by() != APFLOAT_MADE_BY_RUSTC) {
        fail("apfloat_made_by");
    }
    for (; calls % 1024 || time(NULL) < end; calls++) {
        switch (below(9)) {
        case 0: arrays(); break;
        case 1: texts(); break;
        case 2: below(4) ? sums() : dots(); break;
        case 3: in_place(); break;
        default: values();
        }
    }
    printf("%lu calls, %lu answered\n", calls, answered);
    return 0;
}
