// Compares the small formats of the library for C with APFloat of LLVM 19: small_formats SUBJECT SEED COUNT [ROWS]
//
//     apt-get install llvm-19-dev
//     c++ -std=c++17 -O2 -DNDEBUG -Iinclude $(llvm-config-19 --cppflags) -c evidence/llvm_peers/small_formats.cpp
//     c++ small_formats.o $(tests/c/library) $(llvm-config-19 --ldflags --libs support) -o PEERS
//     ./PEERS all 1 1000000
//
// Values, flags and, of conversions between built-in formats, whether information was lost are compared, in the five
// modes. The subjects, of which only `random` and `fused` draw operands, COUNT of them for each pair of formats or each
// format:
//
//     codes    all codes of the formats of at most 8 bits, of half, bfloat and tf32, to every small format; those of
//              the small formats to half, bfloat, single and double too
//     points   singles and doubles at each value and each midpoint of a small format, past its largest number, and the
//              two bit patterns on either side of each of these, with both signs; zeros, infinities, NaNs
//     random   singles and doubles, to every small format
//     pairs    sums, differences, products, quotients and remainders of all pairs of codes of the six formats of 8 bits
//     triples  fused sums of all triples of codes of these formats; not in `all`
//     fused    fused sums in these formats and in tf32, half, bfloat, single and double: in three quarters of them the
//              product and the addend nearly cancel, and in most of these the addend is subnormal
//
// Differences are counted in groups, by the call, the format of the result, the operands and both results. For each
// group it prints how many calls differ in each mode (even, up, down, zero, away) and the first of them. The file ROWS
// gets a row for each call that differs, with the library's answer (docs/PROGRAMS.md), which the model computes again
// by `python3 evidence/rows.py ROWS | cmp - ROWS`.
//
// In a format that has neither, LLVM's infinities and NaNs are values that have no code: their bits are not compared.
#include "../drawing.h"
#include "apfloat.h"

#include "llvm/ADT/APFloat.h"
#include "llvm/ADT/APInt.h"

#include <algorithm>
#include <cstdio>
#include <cstdlib>
#include <cstring>
#include <map>
#include <string>
#include <vector>

using llvm::APFloat;
using llvm::APInt;
using llvm::fltSemantics;

struct Format {
    const char *word;
    uint32_t code;
    const fltSemantics &(*semantics)();
    unsigned bits;

    bool is_stored() const { return code >= APFLOAT_E2M1FN; }
    unsigned bytes() const { return bits <= 8 ? 1 : bits <= 16 ? 2 : bits <= 32 ? 4 : 8; }
    APFloat value(uint64_t pattern) const { return APFloat(semantics(), APInt(bits, pattern)); }
};

// Those with arithmetic of at most 8 bits, the stored ones, and tf32: the small formats. Then the others.
static const std::vector<Format> FORMATS = {
    {"e5m2", APFLOAT_E5M2, APFloat::Float8E5M2, 8},
    {"e4m3fn", APFLOAT_E4M3FN, APFloat::Float8E4M3FN, 8},
    {"e4m3fnuz", APFLOAT_E4M3FNUZ, APFloat::Float8E4M3FNUZ, 8},
    {"e4m3", APFLOAT_E4M3, APFloat::Float8E4M3, 8},
    {"e5m2fnuz", APFLOAT_E5M2FNUZ, APFloat::Float8E5M2FNUZ, 8},
    {"e4m3b11fnuz", APFLOAT_E4M3B11FNUZ, APFloat::Float8E4M3B11FNUZ, 8},
    {"e2m1fn", APFLOAT_E2M1FN, APFloat::Float4E2M1FN, 4},
    {"e2m3fn", APFLOAT_E2M3FN, APFloat::Float6E2M3FN, 6},
    {"e3m2fn", APFLOAT_E3M2FN, APFloat::Float6E3M2FN, 6},
    {"tf32", APFLOAT_TF32, APFloat::FloatTF32, 19},
    {"half", APFLOAT_HALF, APFloat::IEEEhalf, 16},
    {"bfloat", APFLOAT_BFLOAT, APFloat::BFloat, 16},
    {"single", APFLOAT_SINGLE, APFloat::IEEEsingle, 32},
    {"double", APFLOAT_DOUBLE, APFloat::IEEEdouble, 64},
};
enum { EIGHT_BITS = 6, SMALL = 10, SHORT = 12, SINGLE = 12, DOUBLE = 13, ALL = 14 };

static uint64_t mask_of(const Format &format) { return ~UINT64_C(0) >> (64 - format.bits); }

static uint64_t sign_of(const Format &format) { return UINT64_C(1) << (format.bits - 1); }

static const struct {
    const char *word;
    uint32_t code;
    APFloat::roundingMode peer;
} MODES[] = {{"even", APFLOAT_NEAREST_EVEN, APFloat::rmNearestTiesToEven},
             {"up", APFLOAT_UPWARD, APFloat::rmTowardPositive},
             {"down", APFLOAT_DOWNWARD, APFloat::rmTowardNegative},
             {"zero", APFLOAT_TOWARD_ZERO, APFloat::rmTowardZero},
             {"away", APFLOAT_NEAREST_AWAY, APFloat::rmNearestTiesToAway}};
enum { MODE_COUNT = 5, NO_MODE = 0 };

// The bits of an infinity or a NaN of LLVM's in a format that has neither.
static const uint64_t NO_CODE = ~UINT64_C(0);

// What a call gives: `loses` is -1 where the library does not tell.
struct Result {
    uint64_t bits;
    uint32_t flags;
    int loses;
};

static std::string flag_names(uint32_t flags) {
    static const char *const NAMES[] = {"INVALID_OP", "DIV_BY_ZERO", "OVERFLOW", "UNDERFLOW", "INEXACT"};
    std::string names;
    for (int i = 0; i < 5; i++)
        if (flags >> i & 1) names += (names.empty() ? "" : "|") + std::string(NAMES[i]);
    return names.empty() ? "OK" : names;
}

static std::string digits(const Format &format, uint64_t bits) {
    if (bits == NO_CODE && format.is_stored()) return "no code";
    char text[20];
    snprintf(text, sizeof text, "%0*llx", (int)(format.bits + 3) / 4, (unsigned long long)bits);
    return text;
}

static std::string kind_of(const APFloat &x) {
    std::string sign = x.isNegative() ? "-" : "+";
    if (x.isNaN()) return x.isSignaling() ? "signaling NaN" : "NaN";
    if (x.isInfinity()) return sign + "infinity";
    if (x.isZero()) return sign + "0";
    if (x.isLargest()) return "largest";
    return x.isDenormal() ? "subnormal" : "normal";
}

// What one of the operands is: the first of these kinds.
static std::string operands_of(const Format &format, const std::vector<uint64_t> &operands) {
    bool nan = false, signaling = false, infinite = false, zero = false;
    for (uint64_t bits : operands) {
        APFloat x = format.value(bits);
        nan |= x.isNaN();
        signaling |= x.isSignaling();
        infinite |= x.isInfinity();
        zero |= x.isZero();
    }
    return signaling ? "signaling NaN" : nan ? "NaN" : infinite ? "infinity" : zero ? "zero" : "numbers";
}

// ---- calls that differ

struct Group {
    uint64_t counts[MODE_COUNT] = {0};
    std::string first;
};

static std::map<std::string, Group> groups;
static FILE *rows;
static uint64_t compared, different;

struct Call {
    const char *name;
    const Format &source, &target;
    int mode;
    bool has_mode;
    std::vector<uint64_t> operands;
};

static std::string difference(const Format &format, const Result &peer, const Result &own) {
    if (peer.bits == own.bits && peer.flags == own.flags)
        return peer.loses ? "loses_info true, ours false" : "loses_info false, ours true";
    std::string flags = flag_names(peer.flags), own_flags = flag_names(own.flags);
    if (peer.bits == own.bits) return "the same value, " + flags + ", ours " + own_flags;
    APFloat ours = format.value(own.bits);
    if (peer.bits == NO_CODE && format.is_stored())
        return "no code " + flags + ", ours " + kind_of(ours) + " " + own_flags;
    APFloat theirs = format.value(peer.bits);
    if (theirs.isNaN() && ours.isNaN() && peer.flags == own.flags) return "another NaN";
    return kind_of(theirs) + " " + flags + ", ours " + kind_of(ours) + " " + own_flags;
}

static void write_row(const Call &call, const std::string &operands, const Result &own) {
    std::string formats = call.source.word;
    if (&call.source != &call.target) formats += ">" + std::string(call.target.word);
    const char *loses = own.loses < 0 ? "-" : own.loses ? "loses_info=true" : "loses_info=false";
    fprintf(rows, "%s\t%s\t%s\t%s\t%s\t%s\t%s\n", call.name, formats.c_str(),
            call.has_mode ? MODES[call.mode].word : "-", operands.c_str(), digits(call.target, own.bits).c_str(),
            flag_names(own.flags).c_str(), loses);
}

static void note(const Call &call, const Result &peer, const Result &own) {
    std::string operands;
    for (uint64_t bits : call.operands) operands += (operands.empty() ? "" : " ") + digits(call.source, bits);
    std::string key = std::string(call.name) + "\t" + call.target.word + "\t" +
                      operands_of(call.source, call.operands) + "\t" + difference(call.target, peer, own);
    Group &group = groups[key];
    group.counts[call.mode]++;
    if (group.first.empty())
        group.first = std::string(call.source.word) + " " + MODES[call.mode].word + " " + operands + ": " +
                      digits(call.target, peer.bits) + ", ours " + digits(call.target, own.bits);
    if (rows) write_row(call, operands, own);
}

static void compare(const Call &call, const Result &peer, const Result &own) {
    compared++;
    bool agree = peer.bits == own.bits && peer.flags == own.flags && (own.loses < 0 || peer.loses == own.loses);
    if (agree) return;
    different++;
    note(call, peer, own);
}

static void print_groups(const char *subject) {
    printf("%s: %llu calls compared, %llu differ\n", subject, (unsigned long long)compared,
           (unsigned long long)different);
    for (const auto &[key, group] : groups) {
        for (uint64_t count : group.counts) printf("%llu ", (unsigned long long)count);
        printf("\t%s\t%s\n", key.c_str(), group.first.c_str());
    }
    fflush(stdout);
    groups.clear();
    compared = different = 0;
}

// ---- conversions

static Result own_array(const Format &source, const Format &target, int mode, uint64_t bits) {
    uint8_t value[8], result[8] = {0};
    memcpy(value, &bits, 8);
    apfloat_array_answer answer;
    if (apfloat_convert_array(source.code, MODES[mode].code, target.code, value, source.bytes(), result,
                              target.bytes(), &answer) != APFLOAT_ANSWERED)
        abort();
    Result own = {0, answer.status, -1};
    memcpy(&own.bits, result, 8);
    return own;
}

static Result own_conversion(const Format &source, const Format &target, int mode, uint64_t bits) {
    if (source.is_stored() || target.is_stored()) return own_array(source, target, mode, bits);
    apfloat_answer answer;
    if (apfloat_convert(source.code, MODES[mode].code, target.code, {bits, 0}, &answer) != APFLOAT_ANSWERED) abort();
    return {answer.bits.low, answer.status, answer.number};
}

static Result peer_conversion(const Format &target, int mode, APFloat x) {
    bool loses;
    uint32_t flags = x.convert(target.semantics(), MODES[mode].peer, &loses);
    if (target.is_stored() && !x.isFinite()) return {NO_CODE, flags, loses};
    return {x.bitcastToAPInt().getZExtValue(), flags, loses};
}

// From one storage format to another the library has no conversion, so its value is taken as a single, which is exact.
static void convert(const Format &source, const Format &target, uint64_t bits) {
    APFloat x = source.value(bits);
    bool by_single = source.is_stored() && target.is_stored();
    const Format &from = by_single ? FORMATS[SINGLE] : source;
    uint64_t own_bits = by_single ? own_array(source, from, 0, bits).bits : bits;
    for (int mode = 0; mode < MODE_COUNT; mode++) {
        Result own = own_conversion(from, target, mode, own_bits);
        compare({"convert_r", from, target, mode, true, {own_bits}}, peer_conversion(target, mode, x), own);
    }
}

static void codes() {
    for (int i = 0; i < SHORT; i++)
        for (int k = 0; k < (i < SMALL ? ALL : SMALL); k++)
            if (i != k)
                for (uint64_t bits = 0; bits >> FORMATS[i].bits == 0; bits++) convert(FORMATS[i], FORMATS[k], bits);
}

static double number(const Format &format, uint64_t bits) {
    APFloat x = format.value(bits);
    bool loses;
    x.convert(APFloat::IEEEdouble(), APFloat::rmNearestTiesToEven, &loses);
    return x.convertToDouble();
}

// The numbers of a format that are not below zero, the next ones past the largest, and the midpoints between all these.
static std::vector<double> points(const Format &format) {
    std::vector<double> numbers;
    for (uint64_t bits = 0; bits >> (format.bits - 1) == 0; bits++)
        if (format.value(bits).isFinite()) numbers.push_back(number(format, bits));
    std::sort(numbers.begin(), numbers.end());
    for (int i = 0; i < 4; i++) numbers.push_back(2 * numbers.back() - numbers[numbers.size() - 2]);
    std::vector<double> all = numbers;
    for (size_t i = 1; i < numbers.size(); i++) all.push_back(numbers[i - 1] / 2 + numbers[i] / 2);
    return all;
}

static uint64_t bits_of(const Format &format, double x) {
    return peer_conversion(format, 0, APFloat(x)).bits;
}

static void at_and_beside(const Format &source, const Format &target, double point) {
    uint64_t middle = bits_of(source, point), sign = sign_of(source);
    for (uint64_t bits = middle < 2 ? 0 : middle - 2; bits <= middle + 2; bits++) {
        convert(source, target, bits);
        convert(source, target, bits | sign);
    }
}

static void specials(const Format &source, const Format &target) {
    int trailing = source.bits == 32 ? 23 : 52;
    uint64_t sign = sign_of(source), infinity = sign - (UINT64_C(1) << trailing);
    std::vector<uint64_t> magnitudes = {0, 1, 2, (UINT64_C(1) << trailing) - 1, UINT64_C(1) << trailing, infinity - 1,
                                        infinity};
    for (int i = 0; i < trailing; i++) {
        magnitudes.push_back(infinity | UINT64_C(1) << i);
        magnitudes.push_back(infinity | UINT64_C(1) << i | UINT64_C(1) << (trailing - 1));
    }
    for (uint64_t bits : magnitudes)
        for (uint64_t signed_bits : {bits, bits | sign}) convert(source, target, signed_bits);
}

static void at_points() {
    for (int k = 0; k < SMALL; k++) {
        std::vector<double> all = points(FORMATS[k]);
        for (int i : {SINGLE, DOUBLE}) {
            for (double point : all) at_and_beside(FORMATS[i], FORMATS[k], point);
            specials(FORMATS[i], FORMATS[k]);
        }
    }
}

// Half of them of any bits, and half near the numbers of the target.
static uint64_t drawn(const Format &source, const Format &target) {
    uint64_t any = word();
    if (word() % 2) return any & mask_of(source);
    int trailing = source.bits == 32 ? 23 : 52, bias = source.bits == 32 ? 127 : 1023;
    int64_t least = APFloat::semanticsMinExponent(target.semantics()) -
                    (int64_t)APFloat::semanticsPrecision(target.semantics()) - 3;
    int64_t field = between(least, APFloat::semanticsMaxExponent(target.semantics()) + 3) + bias;
    int64_t greatest = 2 * bias + 1;
    uint64_t kept = (uint64_t)std::clamp<int64_t>(field, 0, greatest) << trailing;
    // Three quarters of these end in zeros, so that ties are frequent.
    int zeros = word() % 4 ? (int)between(0, trailing - 2) : 0;
    uint64_t digits = any >> (64 - trailing) >> zeros << zeros;
    return (any & 1) << (source.bits - 1) | kept | digits;
}

static void at_random(long count) {
    for (int k = 0; k < SMALL; k++)
        for (int i : {SINGLE, DOUBLE})
            for (long n = 0; n < count; n++) convert(FORMATS[i], FORMATS[k], drawn(FORMATS[i], FORMATS[k]));
}

// ---- arithmetic

using Own = uint32_t (*)(uint32_t, uint32_t, apfloat_halves, apfloat_halves, apfloat_answer *);
using Peer = APFloat::opStatus (APFloat::*)(const APFloat &, APFloat::roundingMode);

static const struct {
    const char *name;
    Own own;
    Peer peer;
} OPERATIONS[] = {{"add_r", apfloat_add, &APFloat::add},
                  {"sub_r", apfloat_sub, &APFloat::subtract},
                  {"mul_r", apfloat_mul, &APFloat::multiply},
                  {"div_r", apfloat_div, &APFloat::divide}};

static Result result_of(const APFloat &x, uint32_t flags) { return {x.bitcastToAPInt().getZExtValue(), flags, -1}; }

static Result own_result(uint32_t error, const apfloat_answer &answer) {
    if (error != APFLOAT_ANSWERED) abort();
    return {answer.bits.low, answer.status, -1};
}

static void remainders(const Format &format, uint64_t x, uint64_t y) {
    apfloat_answer answer;
    APFloat left = format.value(x), right = format.value(y), kept = left;
    uint32_t flags = kept.remainder(right);
    Result own = own_result(apfloat_rem(format.code, {x, 0}, {y, 0}, &answer), answer);
    compare({"ieee_rem", format, format, NO_MODE, false, {x, y}}, result_of(kept, flags), own);
    kept = left;
    flags = kept.mod(right);
    own = own_result(apfloat_mod(format.code, {x, 0}, {y, 0}, &answer), answer);
    compare({"c_fmod", format, format, NO_MODE, false, {x, y}}, result_of(kept, flags), own);
}

static void operations(const Format &format, uint64_t x, uint64_t y) {
    APFloat left = format.value(x), right = format.value(y);
    for (const auto &operation : OPERATIONS)
        for (int mode = 0; mode < MODE_COUNT; mode++) {
            APFloat result = left;
            uint32_t flags = (result.*operation.peer)(right, MODES[mode].peer);
            apfloat_answer answer;
            uint32_t error = operation.own(format.code, MODES[mode].code, {x, 0}, {y, 0}, &answer);
            compare({operation.name, format, format, mode, true, {x, y}}, result_of(result, flags),
                    own_result(error, answer));
        }
}

static void pairs() {
    for (int i = 0; i < EIGHT_BITS; i++)
        for (uint64_t x = 0; x < 256; x++)
            for (uint64_t y = 0; y < 256; y++) {
                operations(FORMATS[i], x, y);
                remainders(FORMATS[i], x, y);
            }
}

static void fused_sum(const Format &format, uint64_t x, uint64_t y, uint64_t z) {
    APFloat left = format.value(x), right = format.value(y), addend = format.value(z);
    for (int mode = 0; mode < MODE_COUNT; mode++) {
        APFloat result = left;
        uint32_t flags = result.fusedMultiplyAdd(right, addend, MODES[mode].peer);
        apfloat_answer answer;
        uint32_t error = apfloat_fma(format.code, MODES[mode].code, {x, 0}, {y, 0}, {z, 0}, &answer);
        compare({"mul_add_r", format, format, mode, true, {x, y, z}}, result_of(result, flags),
                own_result(error, answer));
    }
}

static void triples() {
    for (int i = 0; i < EIGHT_BITS; i++)
        for (uint64_t x = 0; x < 256; x++)
            for (uint64_t y = 0; y < 256; y++)
                for (uint64_t z = 0; z < 256; z++) fused_sum(FORMATS[i], x, y, z);
}

static uint64_t drawn_subnormal(const Format &format) {
    int trailing = (int)APFloat::semanticsPrecision(format.semantics()) - 1;
    return word() & (sign_of(format) | ((UINT64_C(1) << trailing) - 1));
}

// The opposite of a value, or of one that is at most two units of the last place from it.
static uint64_t near_opposite(const Format &format, const APFloat &x) {
    uint64_t opposite = x.bitcastToAPInt().getZExtValue() ^ sign_of(format);
    return (opposite + (uint64_t)between(-2, 2)) & mask_of(format);
}

// The inverse of an odd number modulo 2^64: each step doubles the digits that are right.
static uint64_t inverse(uint64_t odd) {
    uint64_t found = odd;
    for (int right = 3; right < 64; right *= 2) found *= 2 - odd * found;
    return found;
}

static uint64_t scaled(const Format &format, uint64_t number, int64_t power) {
    APFloat x(format.semantics());
    x.convertFromAPInt(APInt(64, number), false, APFloat::rmNearestTiesToEven);
    return scalbn(x, (int)power, APFloat::rmNearestTiesToEven).bitcastToAPInt().getZExtValue();
}

// A product of m * 2^k + 1 units and a subnormal addend of -m * 2^k, or both with the other sign: k exceeds the
// precision by 1 to 4, so that the sum is far below the smallest value.
static void drawn_cancelling_sum(const Format &format) {
    int precision = (int)APFloat::semanticsPrecision(format.semantics()), k;
    int64_t least = APFloat::semanticsMinExponent(format.semantics());
    uint64_t x, y;
    do {
        k = precision + (int)between(1, 4);
        x = word() >> (64 - precision) | UINT64_C(1) << (precision - 1) | 1;
        y = inverse(x) & ((UINT64_C(1) << k) - 1);
    } while (y >> precision);
    uint64_t m = (uint64_t)((unsigned __int128)x * y >> k), sign = word() % 2 ? sign_of(format) : 0;
    int64_t power = between(least, precision - 1 - k) - (precision - 1);
    uint64_t left = scaled(format, x, power), right = scaled(format, y, least - (precision - 1) - k - power);
    if (m != 0) fused_sum(format, left ^ sign, right, m | (sign ^ sign_of(format)));
}

static void drawn_fused_sum(const Format &format) {
    uint64_t x = word() & mask_of(format), y = word() & mask_of(format), z = word() & mask_of(format);
    APFloat product = format.value(x), quotient = product;
    switch (word() % 4) {
    case 0:
        break;
    case 1:
        product.multiply(format.value(y), APFloat::rmNearestTiesToEven);
        z = near_opposite(format, product);
        break;
    case 2:
        if (word() % 4) z = drawn_subnormal(format);
        quotient = format.value(z);
        quotient.divide(format.value(x), APFloat::rmNearestTiesToEven);
        y = near_opposite(format, quotient);
        break;
    default:
        return drawn_cancelling_sum(format);
    }
    fused_sum(format, x, y, z);
}

static void fused(long count) {
    for (const Format &format : FORMATS)
        if (!format.is_stored())
            for (long n = 0; n < count; n++) drawn_fused_sum(format);
}

static const struct {
    const char *word;
    void (*run)(long count);
    bool is_in_all;
} SUBJECTS[] = {{"codes", [](long) { codes(); }, true},     {"points", [](long) { at_points(); }, true},
                {"random", at_random, true},                {"pairs", [](long) { pairs(); }, true},
                {"triples", [](long) { triples(); }, false}, {"fused", fused, true}};

int main(int argc, char **argv) {
    if (argc < 4 || argc > 5) return 2;
    std::string wanted = argv[1];
    state = strtoull(argv[2], nullptr, 10);
    long count = strtol(argv[3], nullptr, 10);
    if (argc == 5 && !(rows = fopen(argv[4], "w"))) return 2;
    bool is_known = false;
    for (const auto &subject : SUBJECTS) {
        if (wanted != subject.word && !(wanted == "all" && subject.is_in_all)) continue;
        is_known = true;
        subject.run(count);
        print_groups(subject.word);
    }
    if (rows && fclose(rows)) return 1;
    return is_known ? 0 : 2;
}
