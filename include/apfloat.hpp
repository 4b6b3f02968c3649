// Correctly rounded software floating point for C++17 and later: types and operators over apfloat.h.
//
//   namespace af = apfloat;
//   using number = af::value<af::binary64>;
//
//   auto [sum, status] = af::add(number(0.1), number(0.2), af::rounding::upward);   // a value and its flags
//
//   af::gather flags(af::rounding::upward);   // a mode, and the flags of what is computed with it
//   number y = (flags(sum) + number(1.0)) / number(3.0);
//   if (flags.raised().has(af::flag::inexact)) ..
//
//   af::unflagged<af::binary64> z = 2;        // operators to nearest even, whose flags are dropped
//   std::cout << z * z + 1 << '\n';
//
// What is rounded is computed by the library for C, so programs link libapfloat_c.a; only the digits that `<<` writes
// by the precision of a stream are computed here. Nothing is global: a rounding mode is an argument, a part of a type,
// or that of a `gather`, and flags are returned, or joined to a `gather`. What a format does not have does not compile.
// A text or a length that the library refuses is returned as an `errc`, and of all that is here only
// `expected::value()` throws it. A `rounding` that is no enumerator is returned as an `errc` too where an error can be
// returned, and ends the program with a message elsewhere.
//
// What needs no rounding is found from the bits alone, and is `constexpr`: signs, classes, order, minima and maxima,
// NaNs and neighbours, of all formats but pairs of doubles. CPP.md is an introduction.
#ifndef APFLOAT_HPP
#define APFLOAT_HPP

#include "apfloat.h"

#include <array>
#include <cmath>
#include <cstddef>
#include <cstdint>
#include <cstdio>
#include <cstdlib>
#include <cstring>
#include <functional>
#include <ios>
#include <istream>
#include <limits>
#include <optional>
#include <ostream>
#include <string>
#include <string_view>
#include <type_traits>
#include <utility>
#if defined(__has_include)
#if __has_include(<version>)
#include <version>
#endif
#endif
#if defined(__cpp_exceptions)
#include <stdexcept>
#endif
#if defined(__cpp_lib_bit_cast)
#include <bit>
#endif
#if defined(__cpp_impl_three_way_comparison) && __cpp_impl_three_way_comparison >= 201907L
#include <compare>
#define APFLOAT_HAS_THREE_WAY_COMPARISON 1
#endif
#if defined(__cpp_lib_format)
#include <format>
#endif

namespace apfloat {

// ---- modes, flags and errors

/// The rounding modes of IEEE 754-2019 4.3.
enum class rounding : std::uint32_t {
    nearest_even = APFLOAT_NEAREST_EVEN, ///< to the nearest value, ties to even
    upward = APFLOAT_UPWARD,             ///< toward positive infinity
    downward = APFLOAT_DOWNWARD,         ///< toward negative infinity
    toward_zero = APFLOAT_TOWARD_ZERO,
    nearest_away = APFLOAT_NEAREST_AWAY ///< to the nearest value, ties away from zero
};

/// One of the flags of IEEE 754-2019 7.
enum class flag : std::uint32_t {
    invalid_op = APFLOAT_INVALID_OP,
    div_by_zero = APFLOAT_DIV_BY_ZERO,
    overflow = APFLOAT_OVERFLOW,
    underflow = APFLOAT_UNDERFLOW,
    inexact = APFLOAT_INEXACT
};

/// A set of flags.
class flags {
public:
    constexpr flags() = default;
    constexpr flags(flag one) noexcept : code_(static_cast<std::uint32_t>(one)) {}

    /// The flags of a sum of APFLOAT_INVALID_OP .. APFLOAT_INEXACT.
    static constexpr flags of_code(std::uint32_t code) noexcept {
        flags made;
        made.code_ = code;
        return made;
    }
    constexpr std::uint32_t code() const noexcept { return code_; }

    constexpr bool none() const noexcept { return code_ == 0; }
    constexpr bool any() const noexcept { return code_ != 0; }
    constexpr bool has(flag one) const noexcept { return (code_ & static_cast<std::uint32_t>(one)) != 0; }

    constexpr flags &operator|=(flags more) noexcept {
        code_ |= more.code_;
        return *this;
    }
    friend constexpr flags operator|(flags x, flags y) noexcept { return x |= y; }
    friend constexpr flags operator&(flags x, flags y) noexcept { return of_code(x.code_ & y.code_); }
    friend constexpr bool operator==(flags x, flags y) noexcept { return x.code_ == y.code_; }
    friend constexpr bool operator!=(flags x, flags y) noexcept { return x.code_ != y.code_; }

    /// Writes the names of the flags, as in OVERFLOW|INEXACT, or OK for none.
    friend std::ostream &operator<<(std::ostream &out, flags raised) { return out << raised.names(); }

    /// The names of the flags, as `<<` writes them.
    std::string names() const {
        constexpr std::pair<flag, const char *> all[] = {{flag::invalid_op, "INVALID_OP"},
                                                         {flag::div_by_zero, "DIV_BY_ZERO"},
                                                         {flag::overflow, "OVERFLOW"},
                                                         {flag::underflow, "UNDERFLOW"},
                                                         {flag::inexact, "INEXACT"}};
        std::string joined;
        for (const auto &[one, name] : all)
            if (has(one)) joined.append(joined.empty() ? "" : "|").append(name);
        return joined.empty() ? "OK" : joined;
    }

private:
    std::uint32_t code_ = 0;
};

constexpr flags operator|(flag x, flag y) noexcept { return flags(x) | flags(y); }

/// Why the library refuses a call: the codes of apfloat.h.
enum class errc : std::uint32_t {
    unknown_format = APFLOAT_UNKNOWN_FORMAT,
    unknown_mode = APFLOAT_UNKNOWN_MODE,
    no_such_operation = APFLOAT_NO_SUCH_OPERATION,
    wrong_width = APFLOAT_WRONG_WIDTH,
    refused_text = APFLOAT_REFUSED_TEXT,
    wrong_length = APFLOAT_WRONG_LENGTH,
    unknown_machine = APFLOAT_UNKNOWN_MACHINE,
    wide_operand = APFLOAT_WIDE_OPERAND,
    lacking_operation = APFLOAT_LACKING_OPERATION,
    overlapping_arrays = APFLOAT_OVERLAPPING_ARRAYS,
    wrong_control = APFLOAT_WRONG_CONTROL
};

/// An error in words: those of apfloat_error_text.
constexpr const char *message(errc error) noexcept {
    switch (error) {
    case errc::unknown_format: return "unknown format";
    case errc::unknown_mode: return "unknown rounding mode";
    case errc::no_such_operation: return "the format does not have the operation";
    case errc::wrong_width: return "an integer cannot have this width";
    case errc::refused_text: return "the text was refused";
    case errc::wrong_length: return "wrong length of an array";
    case errc::unknown_machine: return "unknown machine";
    case errc::wide_operand: return "an operand is wider than its format";
    case errc::lacking_operation: return "the machine does not have the operation";
    case errc::overlapping_arrays: return "arrays overlap";
    case errc::wrong_control: return "wrong control word";
    }
    return "unknown error code";
}

namespace detail {

// Ends the program: the caller broke a condition, and no error can be returned.
[[noreturn]] inline void refuse(const char *why) noexcept {
    std::fprintf(stderr, "apfloat: %s\n", why);
    std::abort();
}
[[noreturn]] inline void refuse(errc error) noexcept { refuse(message(error)); }

} // namespace detail

#if defined(__cpp_exceptions)
/// What `expected::value()` throws.
class error : public std::runtime_error {
public:
    explicit error(errc code) : std::runtime_error(message(code)), code_(code) {}
    errc code() const noexcept { return code_; }

private:
    errc code_;
};
#endif

/// A result, or the error because of which there is none: a part of the interface of C++23's std::expected.
template <class T>
class [[nodiscard]] expected {
public:
    constexpr expected(T result) : result_(std::move(result)) {}
    constexpr expected(errc error) noexcept : error_(error), has_value_(false) {}

    constexpr bool has_value() const noexcept { return has_value_; }
    constexpr explicit operator bool() const noexcept { return has_value_; }

    /// The result. Without one, the program ends with a message.
    constexpr const T &operator*() const noexcept {
        if (!has_value_) detail::refuse(error_);
        return result_;
    }
    constexpr const T *operator->() const noexcept { return &**this; }

    /// The result. Without one, `apfloat::error` is thrown.
    constexpr const T &value() const {
#if defined(__cpp_exceptions)
        if (!has_value_) throw apfloat::error(error_);
#endif
        return **this;
    }
    constexpr T value_or(T other) const { return has_value_ ? result_ : other; }

    /// Why there is no result. With one, the program ends with a message.
    constexpr errc error() const noexcept {
        if (has_value_) detail::refuse("the error of a result was asked for, which has none");
        return error_;
    }

private:
    T result_{};
    errc error_{};
    bool has_value_ = true;
};

// ---- formats

/// The 80 bits of the x87: the significand, and above it the exponent and the sign.
struct bits80 {
    std::uint64_t low;
    std::uint16_t high;
};

/// 128 bits, the lower half first. Pairs of doubles have the high double in `low`.
using bits128 = apfloat_halves;

namespace detail {

struct no_host {};

// Positive values of a format, by their bits. Infinity and signaling NaN are zeros in formats without them.
template <class Bits>
struct constants {
    Bits smallest, smallest_normal, largest, infinity, quiet_nan, signaling_nan, epsilon, half;
};

// What the formats with a fixed number of digits have in common.
template <class Plain, apfloat_format Code, class Bits, int Width, int Precision, int MinExponent, int MaxExponent,
          class Host = no_host>
struct binary {
    using plain = Plain;
    using bits_type = Bits;
    using host = Host;
    static constexpr apfloat_format code = Code;
    static constexpr int width = Width, precision = Precision;
    static constexpr int min_exponent = MinExponent, max_exponent = MaxExponent;
    static constexpr bool is_pair = false, reads_decimals = true, raises_ieee_flags = false;
    static constexpr bool tiny_before_rounding = false;
    static constexpr bool has_infinity = true, has_signaling_nan = true, has_ieee_flags = true;
    static constexpr bool has_negative_zero = true;
};

} // namespace detail

/// A format, named by a type. `width` is the number of bits of a value, `precision` the number of binary digits, and
/// `min_exponent` and `max_exponent` are the least and the greatest exponent of normal numbers (IEEE 754-2019 3.3).
struct binary16 : detail::binary<binary16, APFLOAT_HALF, std::uint16_t, 16, 11, -14, 15> {
    static constexpr detail::constants<bits_type> constants = {1,      0x0400, 0x7bff, 0x7c00,
                                                               0x7e00, 0x7d00, 0x1400, 0x3800};
};

/// The upper half of a binary32.
struct bfloat16 : detail::binary<bfloat16, APFLOAT_BFLOAT, std::uint16_t, 16, 8, -126, 127> {
    static constexpr detail::constants<bits_type> constants = {1,      0x0080, 0x7f7f, 0x7f80,
                                                               0x7fc0, 0x7fa0, 0x3c00, 0x3f00};
};

struct binary32 : detail::binary<binary32, APFLOAT_SINGLE, std::uint32_t, 32, 24, -126, 127, float> {
    static constexpr detail::constants<bits_type> constants = {1,          0x00800000, 0x7f7fffff, 0x7f800000,
                                                               0x7fc00000, 0x7fa00000, 0x34000000, 0x3f000000};
};

struct binary64 : detail::binary<binary64, APFLOAT_DOUBLE, std::uint64_t, 64, 53, -1022, 1023, double> {
    static constexpr detail::constants<bits_type> constants = {
        1,
        UINT64_C(0x0010000000000000),
        UINT64_C(0x7fefffffffffffff),
        UINT64_C(0x7ff0000000000000),
        UINT64_C(0x7ff8000000000000),
        UINT64_C(0x7ff4000000000000),
        UINT64_C(0x3cb0000000000000),
        UINT64_C(0x3fe0000000000000)};
};

struct binary128 : detail::binary<binary128, APFLOAT_QUAD, bits128, 128, 113, -16382, 16383> {
    static constexpr detail::constants<bits_type> constants = {
        {1, 0},
        {0, UINT64_C(0x0001000000000000)},
        {UINT64_C(0xffffffffffffffff), UINT64_C(0x7ffeffffffffffff)},
        {0, UINT64_C(0x7fff000000000000)},
        {0, UINT64_C(0x7fff800000000000)},
        {0, UINT64_C(0x7fff400000000000)},
        {0, UINT64_C(0x3f8f000000000000)},
        {0, UINT64_C(0x3ffe000000000000)}};
};

/// The 80 bits of the x87.
struct x87 : detail::binary<x87, APFLOAT_X87, bits80, 80, 64, -16382, 16383> {
    static constexpr detail::constants<bits_type> constants = {{1, 0},
                                                               {UINT64_C(0x8000000000000000), 0x0001},
                                                               {UINT64_C(0xffffffffffffffff), 0x7ffe},
                                                               {UINT64_C(0x8000000000000000), 0x7fff},
                                                               {UINT64_C(0xc000000000000000), 0x7fff},
                                                               {UINT64_C(0xa000000000000000), 0x7fff},
                                                               {UINT64_C(0x8000000000000000), 0x3fc0},
                                                               {UINT64_C(0x8000000000000000), 0x3ffe}};
};

/// 8 bits with the exponents of binary16.
struct e5m2 : detail::binary<e5m2, APFLOAT_E5M2, std::uint8_t, 8, 3, -14, 15> {
    static constexpr detail::constants<bits_type> constants = {1, 0x04, 0x7b, 0x7c, 0x7e, 0x7d, 0x34, 0x38};
};

/// 8 bits without infinities.
struct e4m3fn : detail::binary<e4m3fn, APFLOAT_E4M3FN, std::uint8_t, 8, 4, -6, 8> {
    static constexpr bool has_infinity = false, has_signaling_nan = false, has_ieee_flags = false;
    static constexpr detail::constants<bits_type> constants = {1, 0x08, 0x7e, 0, 0x7f, 0, 0x20, 0x30};
};

/// 8 bits without infinities and without -0.
struct e4m3fnuz : detail::binary<e4m3fnuz, APFLOAT_E4M3FNUZ, std::uint8_t, 8, 4, -7, 7> {
    static constexpr bool has_infinity = false, has_signaling_nan = false, has_ieee_flags = false;
    static constexpr bool has_negative_zero = false;
    static constexpr detail::constants<bits_type> constants = {1, 0x08, 0x7f, 0, 0x80, 0, 0x28, 0x38};
};

/// 8 bits with 4 of the exponent, and infinities.
struct e4m3 : detail::binary<e4m3, APFLOAT_E4M3, std::uint8_t, 8, 4, -6, 7> {
    static constexpr bool has_ieee_flags = false;
    static constexpr detail::constants<bits_type> constants = {1, 0x08, 0x77, 0x78, 0x7c, 0x7a, 0x20, 0x30};
};

/// 8 bits with 5 of the exponent, without infinities and without -0.
struct e5m2fnuz : detail::binary<e5m2fnuz, APFLOAT_E5M2FNUZ, std::uint8_t, 8, 3, -15, 15> {
    static constexpr bool has_infinity = false, has_signaling_nan = false, has_ieee_flags = false;
    static constexpr bool has_negative_zero = false;
    static constexpr detail::constants<bits_type> constants = {1, 0x04, 0x7f, 0, 0x80, 0, 0x38, 0x3c};
};

/// 8 bits with 4 of the exponent, of bias 11, without infinities and without -0.
struct e4m3b11fnuz : detail::binary<e4m3b11fnuz, APFLOAT_E4M3B11FNUZ, std::uint8_t, 8, 4, -10, 4> {
    static constexpr bool has_infinity = false, has_signaling_nan = false, has_ieee_flags = false;
    static constexpr bool has_negative_zero = false;
    static constexpr detail::constants<bits_type> constants = {1, 0x08, 0x7f, 0, 0x80, 0, 0x40, 0x50};
};

/// 19 bits: the exponents of binary32 and the digits of binary16. A value is stored in 32 bits, and its bits are the
/// lowest of these.
struct tf32 : detail::binary<tf32, APFLOAT_TF32, std::uint32_t, 19, 11, -126, 127> {
    static constexpr bool has_ieee_flags = false;
    static constexpr detail::constants<bits_type> constants = {1,       0x00400, 0x3fbff, 0x3fc00,
                                                               0x3fe00, 0x3fd00, 0x1d400, 0x1f800};
};

/// Pairs of doubles, IBM's extended double, whose results are not rounded once (apfloat.h says how they are made).
/// Their fused sums, conversions and shortest decimals have names of their own, `pair_fma` and so on, and what
/// std::numeric_limits says of them is not all that it says of the other formats.
struct double_pair : detail::binary<double_pair, APFLOAT_DOUBLE_PAIR, bits128, 128, 106, -969, 1023> {
    static constexpr bool is_pair = true, has_ieee_flags = false;
    static constexpr detail::constants<bits_type> constants = {
        {1, 0},
        {UINT64_C(0x0360000000000000), 0},
        {UINT64_C(0x7fefffffffffffff), UINT64_C(0x7c8ffffffffffffe)},
        {UINT64_C(0x7ff0000000000000), 0},
        {UINT64_C(0x7ff8000000000000), 0},
        {UINT64_C(0x7ff4000000000000), 0},
        {UINT64_C(0x3960000000000000), 0},
        {UINT64_C(0x3fe0000000000000), 0}};
};

/// A format whose roundings raise the flags of IEEE 754-2019 7.4 and 7.5, with tininess detected after rounding, as
/// x86 and RISC-V do. The values and their bits are those of the format; apfloat.h has the rule of the others. Their
/// decimals are read by `read_decimal`, not by `parse`.
template <class F>
struct ieee : F {
    static_assert(F::has_ieee_flags && !F::raises_ieee_flags, "this format has no choice of flags");
    static constexpr apfloat_format code = F::code | APFLOAT_IEEE_FLAGS;
    static constexpr bool reads_decimals = false, raises_ieee_flags = true;
};

/// The same, with tininess detected before rounding, as Arm and POWER do.
template <class F>
struct ieee_tiny_before : F {
    static_assert(F::has_ieee_flags && !F::raises_ieee_flags, "this format has no choice of flags");
    static constexpr apfloat_format code = F::code | APFLOAT_IEEE_FLAGS | APFLOAT_TINY_BEFORE_ROUNDING;
    static constexpr bool reads_decimals = false, raises_ieee_flags = true, tiny_before_rounding = true;
};

namespace detail {

constexpr apfloat_halves halves_of(std::uint64_t bits) noexcept { return {bits, 0}; }
constexpr apfloat_halves halves_of(bits80 bits) noexcept { return {bits.low, bits.high}; }
constexpr apfloat_halves halves_of(bits128 bits) noexcept { return bits; }

// The lowest bits of two words, as many as `Bits` has.
template <class Bits>
constexpr Bits bits_of(apfloat_halves halves) noexcept {
    if constexpr (std::is_same_v<Bits, bits128>)
        return halves;
    else if constexpr (std::is_same_v<Bits, bits80>)
        return {halves.low, static_cast<std::uint16_t>(halves.high)};
    else
        return static_cast<Bits>(halves.low);
}

constexpr bool is_equal(apfloat_halves x, apfloat_halves y) noexcept { return x.low == y.low && x.high == y.high; }

template <class To, class From>
constexpr To bit_cast(const From &from) noexcept {
    static_assert(sizeof(To) == sizeof(From), "a float has 32 bits and a double 64");
#if defined(__cpp_lib_bit_cast)
    return std::bit_cast<To>(from);
#else
#if defined(__has_builtin)
#if __has_builtin(__builtin_bit_cast)
#define APFLOAT_HAS_BUILTIN_BIT_CAST 1
#endif
#endif
#if defined(APFLOAT_HAS_BUILTIN_BIT_CAST)
    return __builtin_bit_cast(To, from);
#else
    To to{};
    std::memcpy(&to, &from, sizeof to);
    return to;
#endif
#endif
}

inline constexpr std::uint64_t top_bit = UINT64_C(1) << 63;

// The bit that is the sign of a value; of a pair, the sign of its high double.
template <class F>
constexpr apfloat_halves sign_of() noexcept {
    if constexpr (F::is_pair || F::width == 64)
        return {top_bit, 0};
    else if constexpr (F::width < 64)
        return {UINT64_C(1) << (F::width - 1), 0};
    else
        return {0, UINT64_C(1) << (F::width - 65)};
}

constexpr bool is_zero_double(std::uint64_t bits) noexcept { return (bits & ~top_bit) == 0; }
constexpr bool is_finite_double(std::uint64_t bits) noexcept {
    return (bits & binary64::constants.infinity) != binary64::constants.infinity;
}

// The bits that the library writes for a value that has these. They differ only for patterns that an x87 never writes:
// the pseudo-denormals, whose exponent is that of the smallest normal number, and those without an integer bit that
// are no denormals, which are NaNs.
template <class F>
constexpr apfloat_halves written(apfloat_halves bits) noexcept {
    if constexpr (std::is_same_v<typename F::plain, x87>) {
        const bool has_integer_bit = bits.low & top_bit, has_exponent = bits.high & 0x7fff;
        if (has_integer_bit && !has_exponent) bits.high |= 1;
        if (!has_integer_bit && has_exponent) bits.high |= 0x7fff;
    }
    return bits;
}

template <class F>
constexpr bool is_negative(apfloat_halves bits) noexcept {
    constexpr auto sign = sign_of<F>();
    // A format without -0 has its NaN there, and it has no sign.
    if constexpr (!F::has_negative_zero)
        if (bits.low == F::constants.quiet_nan) return false;
    return (bits.low & sign.low) != 0 || (bits.high & sign.high) != 0;
}

template <class F>
constexpr apfloat_halves negated(apfloat_halves bits) noexcept {
    constexpr auto sign = sign_of<F>();
    bits = written<F>(bits);
    if constexpr (!F::has_negative_zero)
        if (bits.low == 0 || bits.low == F::constants.quiet_nan) return bits;
    // Only a low double that is a nonzero number has a sign that counts.
    if constexpr (F::is_pair)
        if (!is_zero_double(bits.high) && is_finite_double(bits.high)) bits.high ^= top_bit;
    return {bits.low ^ sign.low, bits.high ^ sign.high};
}

// ---- classes and order by bits, of all formats but pairs

constexpr bool is_below(apfloat_halves x, apfloat_halves y) noexcept {
    return x.high != y.high ? x.high < y.high : x.low < y.low;
}

// The bits without the sign, as an integer that grows with the magnitude. A NaN without a sign is the greatest.
template <class F>
constexpr apfloat_halves magnitude(apfloat_halves bits) noexcept {
    if constexpr (!F::has_negative_zero)
        if (bits.low == F::constants.quiet_nan) return bits;
    constexpr auto sign = sign_of<F>();
    bits = written<F>(bits);
    return {bits.low & ~sign.low, bits.high & ~sign.high};
}

template <class F>
constexpr bool is_infinite(apfloat_halves bits) noexcept {
    return F::has_infinity && is_equal(magnitude<F>(bits), halves_of(F::constants.infinity));
}
template <class F>
constexpr bool is_nan(apfloat_halves bits) noexcept {
    return is_below(halves_of(F::constants.largest), magnitude<F>(bits)) && !is_infinite<F>(bits);
}
template <class F>
constexpr bool is_zero(apfloat_halves bits) noexcept {
    return is_equal(magnitude<F>(bits), {0, 0});
}

constexpr apfloat_halves power_of_two(int exponent) noexcept {
    return exponent < 64 ? apfloat_halves{UINT64_C(1) << exponent, 0}
                         : apfloat_halves{0, UINT64_C(1) << (exponent - 64)};
}
constexpr apfloat_halves joined(apfloat_halves x, apfloat_halves y) noexcept {
    return {x.low | y.low, x.high | y.high};
}
constexpr apfloat_halves common(apfloat_halves x, apfloat_halves y) noexcept {
    return {x.low & y.low, x.high & y.high};
}
constexpr apfloat_halves less_one(apfloat_halves x) noexcept { return {x.low - 1, x.high - (x.low == 0)}; }
constexpr apfloat_halves plus_one(apfloat_halves x) noexcept {
    return {x.low + 1, x.high + (x.low == UINT64_MAX)};
}

// The bits that are set in quiet NaNs, and not all of them in signaling ones: in an x87 the one before the point too.
template <class F>
constexpr apfloat_halves quiet_bits() noexcept {
    const auto bit = power_of_two(F::precision - 2);
    return std::is_same_v<typename F::plain, x87> ? joined(bit, {top_bit, 0}) : bit;
}
// All bits that the payload of a NaN has room for.
template <class F>
constexpr apfloat_halves payload_bits() noexcept {
    return less_one(power_of_two(F::precision - 2));
}
template <class F>
constexpr bool is_signaling(apfloat_halves bits) noexcept {
    constexpr auto quiet = quiet_bits<F>();
    return F::has_signaling_nan && is_nan<F>(bits) && !is_equal(common(bits, quiet), quiet);
}
// The quiet NaN of a NaN.
template <class F>
constexpr apfloat_halves quieted(apfloat_halves bits) noexcept {
    bits = written<F>(bits);
    return F::has_signaling_nan ? joined(bits, power_of_two(F::precision - 2)) : bits;
}

template <class F>
constexpr std::int32_t class_of(apfloat_halves bits) noexcept {
    if (is_nan<F>(bits)) return is_signaling<F>(bits) ? APFLOAT_SIGNALING_NAN : APFLOAT_QUIET_NAN;
    const bool negative = is_negative<F>(bits);
    if (is_infinite<F>(bits)) return negative ? APFLOAT_NEGATIVE_INFINITY : APFLOAT_POSITIVE_INFINITY;
    if (is_zero<F>(bits)) return negative ? APFLOAT_NEGATIVE_ZERO : APFLOAT_POSITIVE_ZERO;
    if (is_below(magnitude<F>(bits), halves_of(F::constants.smallest_normal)))
        return negative ? APFLOAT_NEGATIVE_SUBNORMAL : APFLOAT_POSITIVE_SUBNORMAL;
    return negative ? APFLOAT_NEGATIVE_NORMAL : APFLOAT_POSITIVE_NORMAL;
}

// The order of the magnitudes, and of signed ones.
template <class F>
constexpr std::int32_t order_of_magnitudes(apfloat_halves x, apfloat_halves y) noexcept {
    // A NaN of the x87 without an integer bit is above infinity too.
    if (is_infinite<F>(x) && is_nan<F>(y)) return APFLOAT_LESS;
    if (is_nan<F>(x) && is_infinite<F>(y)) return APFLOAT_GREATER;
    if (is_below(magnitude<F>(x), magnitude<F>(y))) return APFLOAT_LESS;
    return is_below(magnitude<F>(y), magnitude<F>(x)) ? APFLOAT_GREATER : APFLOAT_EQUAL;
}
template <class F>
constexpr std::int32_t total_order_of(apfloat_halves x, apfloat_halves y) noexcept {
    const bool negative = is_negative<F>(x);
    if (negative != is_negative<F>(y)) return negative ? APFLOAT_LESS : APFLOAT_GREATER;
    return negative ? order_of_magnitudes<F>(y, x) : order_of_magnitudes<F>(x, y);
}
template <class F>
constexpr std::int32_t order_of(apfloat_halves x, apfloat_halves y) noexcept {
    if (is_nan<F>(x) || is_nan<F>(y)) return APFLOAT_UNORDERED;
    return is_zero<F>(x) && is_zero<F>(y) ? APFLOAT_EQUAL : total_order_of<F>(x, y);
}

// The next magnitude above one that is finite. An x87 has a bit before the point, which its patterns may lack.
template <class F>
constexpr apfloat_halves next_magnitude(apfloat_halves bits) noexcept {
    if (is_equal(bits, halves_of(F::constants.largest)))
        return halves_of(F::has_infinity ? F::constants.infinity : F::constants.quiet_nan);
    bits = plus_one(bits);
    if constexpr (std::is_same_v<typename F::plain, x87>) {
        // All digits were ones: the carry has moved the exponent.
        if (bits.low == 0) return {top_bit, bits.high};
        if (bits.low == top_bit && bits.high == 0) bits.high = 1;
    }
    return bits;
}
template <class F>
constexpr apfloat_halves previous_magnitude(apfloat_halves bits) noexcept {
    if constexpr (std::is_same_v<typename F::plain, x87>) {
        if (bits.low == top_bit && bits.high == 1) return {top_bit - 1, 0};
        if (bits.low == top_bit) return {UINT64_MAX, bits.high - 1};
    }
    if (is_equal(bits, halves_of(F::constants.infinity))) return halves_of(F::constants.largest);
    return less_one(bits);
}

// The least value above one that is no NaN.
template <class F>
constexpr apfloat_halves next_up_of(apfloat_halves bits) noexcept {
    const auto found = magnitude<F>(bits);
    if (is_zero<F>(bits)) return halves_of(F::constants.smallest);
    if (!is_negative<F>(bits)) return is_infinite<F>(bits) ? found : next_magnitude<F>(found);
    return negated<F>(previous_magnitude<F>(found));
}

// Two words that are the same for values that compare equal.
template <class F>
constexpr apfloat_halves same_for_equals(apfloat_halves bits) noexcept {
    if constexpr (F::is_pair)
        return {is_zero_double(bits.low) ? 0 : bits.low, is_zero_double(bits.high) ? 0 : bits.high};
    constexpr auto sign = sign_of<F>();
    bits = written<F>(bits);
    const bool is_zero = (bits.low & ~sign.low) == 0 && (bits.high & ~sign.high) == 0;
    return is_zero ? apfloat_halves{0, 0} : bits;
}

// Makes a call of the library that is never refused, unless a mode is none of the enumerators.
template <class... Parameters, class... Arguments>
apfloat_answer answer_of(apfloat_error (*call)(Parameters...), Arguments... arguments) noexcept {
    apfloat_answer answer = {{0, 0}, 0, 0};
    const apfloat_error code = call(arguments..., &answer);
    if (code != APFLOAT_ANSWERED) refuse(static_cast<errc>(code));
    return answer;
}

constexpr apfloat_mode code_of(rounding mode) noexcept { return static_cast<apfloat_mode>(mode); }

} // namespace detail

// ---- values

/// The order of two values: `unordered` if either is a NaN.
enum class order : std::int32_t {
    less = APFLOAT_LESS,
    equal = APFLOAT_EQUAL,
    greater = APFLOAT_GREATER,
    unordered = APFLOAT_UNORDERED
};

template <class T>
struct result;
class gather;

/// A value of a format, stored as its bits. It has no operators that round: see `add` and the like, `gather` and
/// `unflagged`. Without an argument it is +0.
template <class F>
class value {
public:
    using format = F;
    using bits_type = typename F::bits_type;

    constexpr value() = default;

    /// The value of a float for a format of binary32, and of a double for one of binary64, with the same bits.
    template <class Host, std::enable_if_t<std::is_same_v<Host, typename F::host>, int> = 0>
    constexpr value(Host x) noexcept : bits_(detail::bit_cast<bits_type>(x)) {
        static_assert(std::numeric_limits<Host>::is_iec559, "float and double are formats of IEEE 754");
    }

    /// The value of a text, as `parse` reads it, and of infinities and NaNs in any case and with any sign.
    static expected<result<value>> from_text(std::string_view text,
                                             rounding mode = rounding::nearest_even) noexcept;
    static expected<value> from_text(std::string_view text, gather &with) noexcept;

    /// The value of a double, rounded once: exact in a format that has every double. The double is the high one of a
    /// pair.
    static result<value> from_double(double x, rounding mode = rounding::nearest_even) noexcept;
    static value from_double(double x, gather &with) noexcept;

    /// The same value in a format that differs in the rule for flags only.
    template <class G, std::enable_if_t<!std::is_same_v<F, G> && std::is_same_v<typename F::plain, typename G::plain>,
                                        int> = 0>
    constexpr explicit value(value<G> x) noexcept : bits_(x.bits()) {}

    /// The value with these bits. Those of `tf32` are the lowest 19, and the others are ignored.
    static constexpr value from_bits(bits_type bits) noexcept {
        value made;
        if constexpr (std::is_same_v<typename F::plain, tf32>) bits &= 0x7ffff;
        made.bits_ = bits;
        return made;
    }
    constexpr bits_type bits() const noexcept { return bits_; }

    /// The value whose bits are the lowest of two words; nothing if a bit above them is set.
    static constexpr std::optional<value> from_halves(apfloat_halves halves) noexcept {
        const auto made = from_lowest(halves);
        if (!detail::is_equal(made.halves(), halves)) return std::nullopt;
        return made;
    }
    /// The same, whatever the bits above them are, as in C.
    static constexpr value from_lowest(apfloat_halves halves) noexcept {
        return from_bits(detail::bits_of<bits_type>(halves));
    }
    constexpr apfloat_halves halves() const noexcept { return detail::halves_of(bits_); }

    /// The float or double with the same bits.
    template <class Host, std::enable_if_t<std::is_same_v<Host, typename F::host>, int> = 0>
    constexpr explicit operator Host() const noexcept {
        return detail::bit_cast<Host>(bits_);
    }

    /// Whether the sign is that of negative values, also of a zero or a NaN.
    constexpr bool sign_bit() const noexcept { return detail::is_negative<F>(halves()); }

    /// The value with the opposite sign, also of a zero or a NaN (IEEE 754-2019 5.5.1). The zero and the NaN of a
    /// format without -0 have no sign.
    constexpr value operator-() const noexcept { return from_lowest(detail::negated<F>(halves())); }
    constexpr value operator+() const noexcept { return *this; }

#if defined(APFLOAT_HAS_THREE_WAY_COMPARISON)
    friend constexpr std::partial_ordering operator<=>(const value &x, const value &y) noexcept {
        switch (compare(x, y)) {
        case order::less: return std::partial_ordering::less;
        case order::equal: return std::partial_ordering::equivalent;
        case order::greater: return std::partial_ordering::greater;
        case order::unordered: break;
        }
        return std::partial_ordering::unordered;
    }
#else
    friend constexpr bool operator!=(const value &x, const value &y) noexcept { return compare(x, y) != order::equal; }
    friend constexpr bool operator<(const value &x, const value &y) noexcept { return compare(x, y) == order::less; }
    friend constexpr bool operator>(const value &x, const value &y) noexcept { return compare(x, y) == order::greater; }
    friend constexpr bool operator<=(const value &x, const value &y) noexcept { return x < y || x == y; }
    friend constexpr bool operator>=(const value &x, const value &y) noexcept { return x > y || x == y; }
#endif
    /// Zeros of either sign are equal, and a NaN is equal to nothing. No comparison raises a flag.
    friend constexpr bool operator==(const value &x, const value &y) noexcept { return compare(x, y) == order::equal; }

private:
    bits_type bits_{};
};

/// The order of two values. No flag is raised, not even by a signaling NaN.
template <class F>
constexpr order compare(const value<F> &x, const value<F> &y) noexcept {
    if constexpr (F::is_pair)
        return static_cast<order>(detail::answer_of(apfloat_compare, F::code, x.halves(), y.halves()).number);
    else
        return static_cast<order>(detail::order_of<F>(x.halves(), y.halves()));
}

// ---- parts of a pair

/// The pair with these doubles, as they are.
constexpr value<double_pair> pair_of(const value<binary64> &high, const value<binary64> &low = {}) noexcept {
    return value<double_pair>::from_bits({high.bits(), low.bits()});
}
constexpr value<binary64> high_of(const value<double_pair> &x) noexcept {
    return value<binary64>::from_bits(x.bits().low);
}
constexpr value<binary64> low_of(const value<double_pair> &x) noexcept {
    return value<binary64>::from_bits(x.bits().high);
}

// ---- signs

/// The value without its sign (IEEE 754-2019 5.5.1).
template <class F>
constexpr value<F> abs(const value<F> &x) noexcept {
    const auto negated = -x;
    return x.sign_bit() ? negated : -negated;
}

/// `x` with the sign of `y` (IEEE 754-2019 5.5.1).
template <class F>
constexpr value<F> copy_sign(const value<F> &x, const value<F> &y) noexcept {
    const auto negated = -x;
    return x.sign_bit() == y.sign_bit() ? -negated : negated;
}

// ---- minima, maxima and NaNs
//
// These round nothing and raise no flag, not even for a signaling NaN, which stays signaling.

namespace detail {

template <class F>
value<F> value_of(const apfloat_answer &answer) noexcept {
    return value<F>::from_lowest(answer.bits);
}

// A value as the library writes it.
template <class F>
constexpr value<F> as_written(const value<F> &x) noexcept {
    return value<F>::from_lowest(written<F>(x.halves()));
}

} // namespace detail

/// The lesser of two values (IEEE 754-2008 5.3.1, minNum, but with a signaling NaN taken as a quiet one), like
/// std::fmin: y if x is a NaN, x if y is one, and x if the two are equal, as zeros of opposite signs are.
template <class F>
constexpr value<F> min(const value<F> &x, const value<F> &y) noexcept {
    if constexpr (F::is_pair)
        return detail::value_of<F>(detail::answer_of(apfloat_min, F::code, x.halves(), y.halves()));
    else
        return detail::as_written(is_nan(x) || y < x ? y : x);
}
/// The greater of two values (maxNum), in the same way.
template <class F>
constexpr value<F> max(const value<F> &x, const value<F> &y) noexcept {
    if constexpr (F::is_pair)
        return detail::value_of<F>(detail::answer_of(apfloat_max, F::code, x.halves(), y.halves()));
    else
        return detail::as_written(is_nan(x) || x < y ? y : x);
}
namespace detail {

// Whether a number is not above another, with -0 below +0.
template <class F>
constexpr bool is_in_order(const value<F> &x, const value<F> &y) noexcept {
    return total_order_of<F>(x.halves(), y.halves()) != APFLOAT_GREATER;
}

} // namespace detail

/// The lesser of two values (IEEE 754-2019 9.6, minimum, but without a flag): the first NaN, unchanged, if there is
/// one; -0 is below +0.
template <class F>
constexpr value<F> minimum(const value<F> &x, const value<F> &y) noexcept {
    if constexpr (F::is_pair)
        return detail::value_of<F>(detail::answer_of(apfloat_minimum, F::code, x.halves(), y.halves()));
    else
        return detail::as_written(is_nan(x) || (!is_nan(y) && detail::is_in_order(x, y)) ? x : y);
}
/// The greater of two values (maximum), in the same way.
template <class F>
constexpr value<F> maximum(const value<F> &x, const value<F> &y) noexcept {
    if constexpr (F::is_pair)
        return detail::value_of<F>(detail::answer_of(apfloat_maximum, F::code, x.halves(), y.halves()));
    else
        return detail::as_written(is_nan(x) || (!is_nan(y) && detail::is_in_order(y, x)) ? x : y);
}

/// The quiet NaN with this payload, of which the bits that the format has room for are taken (IEEE 754-2019 6.2.1).
template <class F>
constexpr value<F> quiet_nan(apfloat_halves payload = {0, 0}, bool negative = false) noexcept {
    if constexpr (F::is_pair) {
        return pair_of(quiet_nan<binary64>(payload, negative));
    } else {
        auto bits = detail::halves_of(F::constants.quiet_nan);
        if (F::has_signaling_nan)
            bits = detail::joined(bits, detail::common(payload, detail::payload_bits<F>()));
        return value<F>::from_lowest(negative ? detail::negated<F>(bits) : bits);
    }
}
/// The signaling NaN with this payload; with the highest bit of a payload if it would be 0. Formats with one NaN have a
/// quiet one.
template <class F>
constexpr value<F> signaling_nan(apfloat_halves payload = {0, 0}, bool negative = false) noexcept {
    if constexpr (F::is_pair) {
        return pair_of(signaling_nan<binary64>(payload, negative));
    } else if constexpr (!F::has_signaling_nan) {
        return quiet_nan<F>(payload, negative);
    } else {
        const auto kept = detail::common(payload, detail::payload_bits<F>());
        auto bits = detail::halves_of(F::constants.signaling_nan);
        if (!detail::is_equal(kept, {0, 0})) bits = detail::joined(detail::halves_of(F::constants.infinity), kept);
        return value<F>::from_lowest(negative ? detail::negated<F>(bits) : bits);
    }
}

// ---- classes

/// The classes of values (IEEE 754-2019 5.7.2).
enum class number_class : std::int32_t {
    signaling_nan = APFLOAT_SIGNALING_NAN,
    quiet_nan = APFLOAT_QUIET_NAN,
    negative_infinity = APFLOAT_NEGATIVE_INFINITY,
    negative_normal = APFLOAT_NEGATIVE_NORMAL,
    negative_subnormal = APFLOAT_NEGATIVE_SUBNORMAL,
    negative_zero = APFLOAT_NEGATIVE_ZERO,
    positive_zero = APFLOAT_POSITIVE_ZERO,
    positive_subnormal = APFLOAT_POSITIVE_SUBNORMAL,
    positive_normal = APFLOAT_POSITIVE_NORMAL,
    positive_infinity = APFLOAT_POSITIVE_INFINITY
};

template <class F>
constexpr number_class classify(const value<F> &x) noexcept {
    if constexpr (F::is_pair)
        return static_cast<number_class>(detail::answer_of(apfloat_classify, F::code, x.halves()).number);
    else
        return static_cast<number_class>(detail::class_of<F>(x.halves()));
}

template <class F>
constexpr bool is_nan(const value<F> &x) noexcept {
    const auto found = classify(x);
    return found == number_class::signaling_nan || found == number_class::quiet_nan;
}
template <class F>
constexpr bool is_signaling(const value<F> &x) noexcept {
    return classify(x) == number_class::signaling_nan;
}
template <class F>
constexpr bool is_infinite(const value<F> &x) noexcept {
    const auto found = classify(x);
    return found == number_class::negative_infinity || found == number_class::positive_infinity;
}
template <class F>
constexpr bool is_finite(const value<F> &x) noexcept {
    const auto found = classify(x);
    return found >= number_class::negative_normal && found <= number_class::positive_normal;
}
template <class F>
constexpr bool is_zero(const value<F> &x) noexcept {
    const auto found = classify(x);
    return found == number_class::negative_zero || found == number_class::positive_zero;
}
template <class F>
constexpr bool is_normal(const value<F> &x) noexcept {
    const auto found = classify(x);
    return found == number_class::negative_normal || found == number_class::positive_normal;
}
template <class F>
constexpr bool is_subnormal(const value<F> &x) noexcept {
    const auto found = classify(x);
    return found == number_class::negative_subnormal || found == number_class::positive_subnormal;
}

// ---- results

/// A result, and the flags that the operation raised.
template <class T>
struct [[nodiscard]] result {
    T value;
    flags status;
};

/// The result of a conversion between formats; `loses_info` says whether information was lost.
template <class T>
struct [[nodiscard]] conversion {
    T value;
    flags status;
    bool loses_info;
};

/// A value as an integer; `is_exact` says whether they are equal. It is false for -0.
template <class T>
struct [[nodiscard]] integer {
    T value;
    flags status;
    bool is_exact;
};

/// A fraction, with magnitude from 0.5 to below 1, and its exponent.
template <class T>
struct [[nodiscard]] fraction {
    T value;
    flags status;
    int exponent;
};

template <class F>
class gathered;
template <class F, rounding Mode = rounding::nearest_even>
class unflagged;

/// A rounding mode, and the flags of all that was computed with it: an object of the caller, passed by reference.
class gather {
public:
    explicit gather(rounding mode = rounding::nearest_even) noexcept : mode_(mode) {}
    // The flags of a copy would not reach the original.
    gather(const gather &) = delete;
    gather &operator=(const gather &) = delete;

    rounding mode() const noexcept { return mode_; }
    /// The flags raised since the beginning, or since they were cleared.
    flags raised() const noexcept { return raised_; }
    void clear() noexcept { raised_ = flags(); }
    void raise(flags more) noexcept { raised_ |= more; }

    /// The value of a result of any mode, whose flags are joined to these.
    template <class T>
    T operator()(const result<T> &computed) noexcept {
        raise(computed.status);
        return computed.value;
    }
    // The exponent, `is_exact` or `loses_info` would be lost. `raise` joins the flags of such results, and `convert`,
    // `to_integer` and `frexp` take a gather.
    template <class T>
    void operator()(const fraction<T> &) = delete;
    template <class T>
    void operator()(const integer<T> &) = delete;
    template <class T>
    void operator()(const conversion<T> &) = delete;

    /// The value as an operand whose operators round in this mode and join their flags to these.
    template <class F>
    gathered<F> operator()(const value<F> &x) noexcept {
        return gathered<F>(x, *this);
    }

private:
    rounding mode_;
    flags raised_;
};

namespace detail {

template <class F>
result<value<F>> result_of(const apfloat_answer &answer) noexcept {
    return {value<F>::from_lowest(answer.bits), flags::of_code(answer.status)};
}

} // namespace detail

// ---- operations
//
// Each is rounded once, in the mode given. With a `gather` in place of a mode, the mode is the gather's, the flags are
// joined to it, and the value alone is returned.

/// x + y
template <class F>
result<value<F>> add(const value<F> &x, const value<F> &y, rounding mode = rounding::nearest_even) noexcept {
    return detail::result_of<F>(
        detail::answer_of(apfloat_add, F::code, detail::code_of(mode), x.halves(), y.halves()));
}
template <class F>
value<F> add(const value<F> &x, const value<F> &y, gather &with) noexcept {
    return with(add(x, y, with.mode()));
}

/// x - y
template <class F>
result<value<F>> sub(const value<F> &x, const value<F> &y, rounding mode = rounding::nearest_even) noexcept {
    return detail::result_of<F>(
        detail::answer_of(apfloat_sub, F::code, detail::code_of(mode), x.halves(), y.halves()));
}
template <class F>
value<F> sub(const value<F> &x, const value<F> &y, gather &with) noexcept {
    return with(sub(x, y, with.mode()));
}

/// x * y
template <class F>
result<value<F>> mul(const value<F> &x, const value<F> &y, rounding mode = rounding::nearest_even) noexcept {
    return detail::result_of<F>(
        detail::answer_of(apfloat_mul, F::code, detail::code_of(mode), x.halves(), y.halves()));
}
template <class F>
value<F> mul(const value<F> &x, const value<F> &y, gather &with) noexcept {
    return with(mul(x, y, with.mode()));
}

/// x / y
template <class F>
result<value<F>> div(const value<F> &x, const value<F> &y, rounding mode = rounding::nearest_even) noexcept {
    return detail::result_of<F>(
        detail::answer_of(apfloat_div, F::code, detail::code_of(mode), x.halves(), y.halves()));
}
template <class F>
value<F> div(const value<F> &x, const value<F> &y, gather &with) noexcept {
    return with(div(x, y, with.mode()));
}

/// x * y + z, rounded once.
template <class F>
result<value<F>> fma(const value<F> &x, const value<F> &y, const value<F> &z,
                     rounding mode = rounding::nearest_even) noexcept {
    static_assert(!F::is_pair, "pairs of doubles have no fused sum");
    return detail::result_of<F>(
        detail::answer_of(apfloat_fma, F::code, detail::code_of(mode), x.halves(), y.halves(), z.halves()));
}
template <class F>
value<F> fma(const value<F> &x, const value<F> &y, const value<F> &z, gather &with) noexcept {
    return with(fma(x, y, z, with.mode()));
}

/// The square root.
template <class F>
result<value<F>> sqrt(const value<F> &x, rounding mode = rounding::nearest_even) noexcept {
    return detail::result_of<F>(detail::answer_of(apfloat_sqrt, F::code, detail::code_of(mode), x.halves()));
}
template <class F>
value<F> sqrt(const value<F> &x, gather &with) noexcept {
    return with(sqrt(x, with.mode()));
}

/// The remainder of x by y, with the quotient rounded to the nearest integer, like std::remainder. It is exact.
template <class F>
result<value<F>> rem(const value<F> &x, const value<F> &y) noexcept {
    return detail::result_of<F>(detail::answer_of(apfloat_rem, F::code, x.halves(), y.halves()));
}
template <class F>
value<F> rem(const value<F> &x, const value<F> &y, gather &with) noexcept {
    return with(rem(x, y));
}

/// The remainder of x by y, with the quotient truncated toward zero, like std::fmod. It is exact.
template <class F>
result<value<F>> mod(const value<F> &x, const value<F> &y) noexcept {
    return detail::result_of<F>(detail::answer_of(apfloat_mod, F::code, x.halves(), y.halves()));
}
template <class F>
value<F> mod(const value<F> &x, const value<F> &y, gather &with) noexcept {
    return with(mod(x, y));
}

/// The value rounded to an integral value.
template <class F>
result<value<F>> round_to_integral(const value<F> &x, rounding mode) noexcept {
    return detail::result_of<F>(
        detail::answer_of(apfloat_round_to_integral, F::code, detail::code_of(mode), x.halves()));
}
template <class F>
value<F> round_to_integral(const value<F> &x, gather &with) noexcept {
    return with(round_to_integral(x, with.mode()));
}

/// x times 2 to the power of `power`, rounded once. The library reports no flags of it.
template <class F>
result<value<F>> scalbn(const value<F> &x, std::int32_t power, rounding mode = rounding::nearest_even) noexcept {
    return detail::result_of<F>(
        detail::answer_of(apfloat_scalbn, F::code, detail::code_of(mode), x.halves(), power));
}
template <class F>
value<F> scalbn(const value<F> &x, std::int32_t power, gather &with) noexcept {
    return with(scalbn(x, power, with.mode()));
}

/// The exponent of the highest binary digit; INT32_MAX for an infinity, INT32_MIN for a NaN and -INT32_MAX for a zero.
template <class F>
std::int32_t ilogb(const value<F> &x) noexcept {
    return detail::answer_of(apfloat_ilogb, F::code, x.halves()).number;
}

/// The fraction and the exponent, which is 0 for a zero, INT32_MAX for an infinity and INT32_MIN for a NaN. Only pairs
/// of doubles use the mode, for their low part.
template <class F>
fraction<value<F>> frexp(const value<F> &x, rounding mode = rounding::nearest_even) noexcept {
    const auto answer = detail::answer_of(apfloat_frexp, F::code, detail::code_of(mode), x.halves());
    const auto made = detail::result_of<F>(answer);
    return {made.value, made.status, answer.number};
}
/// The fraction and the exponent alone: const auto [fraction, exponent] = frexp(x, flags);
template <class F>
[[nodiscard]] std::pair<value<F>, int> frexp(const value<F> &x, gather &with) noexcept {
    const auto made = frexp(x, with.mode());
    with.raise(made.status);
    return {made.value, made.exponent};
}

namespace detail {

template <class F>
constexpr result<value<F>> next_of(const value<F> &x) noexcept {
    if (!is_nan(x)) return {value<F>::from_lowest(next_up_of<F>(x.halves())), {}};
    if (!is_signaling(x)) return {as_written(x), {}};
    // The library drops the payload.
    return {quiet_nan<F>({0, 0}, x.sign_bit()), flag::invalid_op};
}

} // namespace detail

/// The least value above x. Like `next_down`, it raises a flag for a signaling NaN alone.
template <class F>
constexpr result<value<F>> next_up(const value<F> &x) noexcept {
    if constexpr (F::is_pair)
        return detail::result_of<F>(detail::answer_of(apfloat_next_up, F::code, x.halves()));
    else
        return detail::next_of(x);
}
template <class F>
value<F> next_up(const value<F> &x, gather &with) noexcept {
    return with(next_up(x));
}
/// The greatest value below x.
template <class F>
constexpr result<value<F>> next_down(const value<F> &x) noexcept {
    if constexpr (F::is_pair)
        return detail::result_of<F>(detail::answer_of(apfloat_next_down, F::code, x.halves()));
    else
        if (is_nan(x)) return detail::next_of(x);
    return {-detail::next_of(-x).value, {}};
}
template <class F>
value<F> next_down(const value<F> &x, gather &with) noexcept {
    return with(next_down(x));
}

// ---- operations of IEEE 754-2019, which pairs of doubles do not have

/// A comparison predicate (IEEE 754-2019 5.6.1, 5.11).
enum class predicate : std::uint32_t {
    equal = APFLOAT_IS_EQUAL,
    not_equal = APFLOAT_IS_NOT_EQUAL,
    greater = APFLOAT_IS_GREATER,
    greater_equal = APFLOAT_IS_GREATER_EQUAL,
    less = APFLOAT_IS_LESS,
    less_equal = APFLOAT_IS_LESS_EQUAL,
    not_greater = APFLOAT_IS_NOT_GREATER,
    less_unordered = APFLOAT_IS_LESS_UNORDERED,
    not_less = APFLOAT_IS_NOT_LESS,
    greater_unordered = APFLOAT_IS_GREATER_UNORDERED,
    unordered = APFLOAT_IS_UNORDERED,
    ordered = APFLOAT_IS_ORDERED
};
/// The NaNs that make a comparison an invalid operation: signaling ones, or all.
enum class on_nan : std::uint32_t { quiet = APFLOAT_QUIET, signaling = APFLOAT_SIGNALING };

namespace detail {

constexpr bool holds(predicate asked, order found) noexcept {
    switch (asked) {
    case predicate::equal: return found == order::equal;
    case predicate::not_equal: return found != order::equal;
    case predicate::greater: return found == order::greater;
    case predicate::greater_equal: return found == order::greater || found == order::equal;
    case predicate::less: return found == order::less;
    case predicate::less_equal: return found == order::less || found == order::equal;
    case predicate::not_greater: return found != order::greater;
    case predicate::less_unordered: return found == order::less || found == order::unordered;
    case predicate::not_less: return found != order::less;
    case predicate::greater_unordered: return found == order::greater || found == order::unordered;
    case predicate::unordered: return found == order::unordered;
    case predicate::ordered: return found != order::unordered;
    }
    refuse(errc::no_such_operation);
}

} // namespace detail

/// Whether a predicate holds; the only flag is that of an invalid operation.
template <class F>
constexpr result<bool> holds(predicate asked, on_nan invalid, const value<F> &x, const value<F> &y) noexcept {
    static_assert(!F::is_pair, "pairs of doubles do not have this operation");
    const auto found = compare(x, y);
    const bool is_invalid = invalid == on_nan::signaling ? found == order::unordered
                                                         : is_signaling(x) || is_signaling(y);
    return {detail::holds(asked, found), is_invalid ? flags(flag::invalid_op) : flags()};
}

/// The order in the total order (IEEE 754-2019 5.10), which is never `unordered`.
template <class F>
constexpr order total_order(const value<F> &x, const value<F> &y) noexcept {
    static_assert(!F::is_pair, "pairs of doubles do not have this operation");
    return static_cast<order>(detail::total_order_of<F>(x.halves(), y.halves()));
}

/// A minimum or a maximum (IEEE 754-2019 9.6).
enum class extremum : std::uint32_t {
    minimum = APFLOAT_MINIMUM,
    maximum = APFLOAT_MAXIMUM,
    minimum_magnitude = APFLOAT_MINIMUM_MAGNITUDE,
    maximum_magnitude = APFLOAT_MAXIMUM_MAGNITUDE
};

namespace detail {

template <class F>
constexpr value<F> chosen(extremum which, const value<F> &x, const value<F> &y) noexcept {
    switch (which) {
    case extremum::minimum: return minimum(x, y);
    case extremum::maximum: return maximum(x, y);
    case extremum::minimum_magnitude:
    case extremum::maximum_magnitude: break;
    default: refuse(errc::no_such_operation);
    }
    const bool is_least = which == extremum::minimum_magnitude;
    const auto found = order_of_magnitudes<F>(x.halves(), y.halves());
    if (found == APFLOAT_EQUAL) return is_least ? minimum(x, y) : maximum(x, y);
    return as_written((found == APFLOAT_LESS) == is_least ? x : y);
}

template <class F>
constexpr result<value<F>> extreme(extremum which, bool prefers_number, const value<F> &x,
                                   const value<F> &y) noexcept {
    static_assert(!F::is_pair, "pairs of doubles do not have this operation");
    const bool is_invalid = is_signaling<F>(x.halves()) || is_signaling<F>(y.halves());
    const flags raised = is_invalid ? flags(flag::invalid_op) : flags();
    const bool is_number = !is_nan(x) && !is_nan(y), is_none = is_nan(x) && is_nan(y);
    const auto found = chosen(which, is_number ? x : y, y);
    if (is_number) return {found, raised};
    if (prefers_number && !is_none) return {as_written(is_nan(x) ? y : x), raised};
    return {value<F>::from_lowest(quieted<F>((is_nan(x) ? x : y).halves())), raised};
}

} // namespace detail

/// The minimum or maximum, with its flag; a quiet NaN if an operand is a NaN.
template <class F>
constexpr result<value<F>> extremum_of(extremum which, const value<F> &x, const value<F> &y) noexcept {
    return detail::extreme(which, false, x, y);
}
/// The same, but of a NaN and a number the number.
template <class F>
constexpr result<value<F>> extremum_number_of(extremum which, const value<F> &x, const value<F> &y) noexcept {
    return detail::extreme(which, true, x, y);
}

/// The exponent of the highest binary digit as a value (IEEE 754-2019 5.3.3, logB), rounded once.
template <class F>
result<value<F>> log_b(const value<F> &x, rounding mode = rounding::nearest_even) noexcept {
    static_assert(!F::is_pair, "pairs of doubles do not have this operation");
    return detail::result_of<F>(detail::answer_of(apfloat_log_b, F::code, detail::code_of(mode), x.halves()));
}

/// x times 2 to the power of `power`, rounded once, with its flags (IEEE 754-2019 5.3.3, scaleB).
template <class F>
result<value<F>> scale_b(const value<F> &x, std::int32_t power, rounding mode = rounding::nearest_even) noexcept {
    static_assert(!F::is_pair, "pairs of doubles do not have this operation");
    return detail::result_of<F>(
        detail::answer_of(apfloat_scale_b, F::code, detail::code_of(mode), x.halves(), power));
}

/// The value rounded to an integral value, without the flag of inexact results (IEEE 754-2019 5.9).
template <class F>
result<value<F>> integral(const value<F> &x, rounding mode) noexcept {
    static_assert(!F::is_pair, "pairs of doubles do not have this operation");
    return detail::result_of<F>(detail::answer_of(apfloat_integral, F::code, detail::code_of(mode), x.halves()));
}

namespace detail {

template <class T, class F>
result<value<T>> to_format(apfloat_operation_to operation, rounding mode, const value<F> &x, const value<F> &y = {},
                           const value<F> &z = {}) noexcept {
    static_assert(!T::is_pair && !F::is_pair, "pairs of doubles do not have this operation");
    return result_of<T>(answer_of(apfloat_to_format, operation, F::code, code_of(mode), T::code, x.halves(),
                                  y.halves(), z.halves()));
}

} // namespace detail

/// x + y in the format T, rounded once (IEEE 754-2019 5.4.1, formatOf), and the like:
/// add_to<binary32>(x, y, rounding::nearest_even).
template <class T, class F>
result<value<T>> add_to(const value<F> &x, const value<F> &y, rounding mode = rounding::nearest_even) noexcept {
    return detail::to_format<T>(APFLOAT_SUM_TO, mode, x, y);
}
template <class T, class F>
result<value<T>> sub_to(const value<F> &x, const value<F> &y, rounding mode = rounding::nearest_even) noexcept {
    return detail::to_format<T>(APFLOAT_DIFFERENCE_TO, mode, x, y);
}
template <class T, class F>
result<value<T>> mul_to(const value<F> &x, const value<F> &y, rounding mode = rounding::nearest_even) noexcept {
    return detail::to_format<T>(APFLOAT_PRODUCT_TO, mode, x, y);
}
template <class T, class F>
result<value<T>> div_to(const value<F> &x, const value<F> &y, rounding mode = rounding::nearest_even) noexcept {
    return detail::to_format<T>(APFLOAT_QUOTIENT_TO, mode, x, y);
}
template <class T, class F>
result<value<T>> fma_to(const value<F> &x, const value<F> &y, const value<F> &z,
                        rounding mode = rounding::nearest_even) noexcept {
    return detail::to_format<T>(APFLOAT_FUSED_SUM_TO, mode, x, y, z);
}
template <class T, class F>
result<value<T>> sqrt_to(const value<F> &x, rounding mode = rounding::nearest_even) noexcept {
    return detail::to_format<T>(APFLOAT_ROOT_TO, mode, x);
}

// ---- names of <cmath>, found by argument
//
// `fma`, `sqrt`, `scalbn`, `ilogb` and `frexp` are above. On a `value`, what can raise a flag returns a `result`; on an
// operand of a `gather` and on `unflagged` values, the same names return such a value.

template <class F>
constexpr bool isnan(const value<F> &x) noexcept {
    return is_nan(x);
}
template <class F>
constexpr bool isinf(const value<F> &x) noexcept {
    return is_infinite(x);
}
template <class F>
constexpr bool isfinite(const value<F> &x) noexcept {
    return is_finite(x);
}
template <class F>
constexpr bool isnormal(const value<F> &x) noexcept {
    return is_normal(x);
}
template <class F>
constexpr bool signbit(const value<F> &x) noexcept {
    return x.sign_bit();
}
/// FP_NAN, FP_INFINITE, FP_ZERO, FP_SUBNORMAL or FP_NORMAL.
template <class F>
constexpr int fpclassify(const value<F> &x) noexcept {
    if (is_nan(x)) return FP_NAN;
    if (is_infinite(x)) return FP_INFINITE;
    if (is_zero(x)) return FP_ZERO;
    return is_subnormal(x) ? FP_SUBNORMAL : FP_NORMAL;
}

template <class F>
constexpr value<F> fabs(const value<F> &x) noexcept {
    return abs(x);
}
template <class F>
constexpr value<F> copysign(const value<F> &x, const value<F> &y) noexcept {
    return copy_sign(x, y);
}
template <class F>
constexpr value<F> fmin(const value<F> &x, const value<F> &y) noexcept {
    return min(x, y);
}
template <class F>
constexpr value<F> fmax(const value<F> &x, const value<F> &y) noexcept {
    return max(x, y);
}

template <class F>
result<value<F>> fmod(const value<F> &x, const value<F> &y) noexcept {
    return mod(x, y);
}
template <class F>
result<value<F>> remainder(const value<F> &x, const value<F> &y) noexcept {
    return rem(x, y);
}

/// The value rounded to an integral value, with the flag of inexact results, and without it.
template <class F>
result<value<F>> rint(const value<F> &x, rounding mode) noexcept {
    return round_to_integral(x, mode);
}
template <class F>
value<F> rint(const value<F> &x, gather &with) noexcept {
    return round_to_integral(x, with);
}
template <class F>
result<value<F>> nearbyint(const value<F> &x, rounding mode) noexcept {
    const auto made = round_to_integral(x, mode);
    return {made.value, made.status & flag::invalid_op};
}
template <class F>
value<F> nearbyint(const value<F> &x, gather &with) noexcept {
    return with(nearbyint(x, with.mode()));
}
/// The integral value below, above, toward zero, and the nearest one, with ties away from zero; without the flag of
/// inexact results.
template <class F>
result<value<F>> floor(const value<F> &x) noexcept {
    return nearbyint(x, rounding::downward);
}
template <class F>
result<value<F>> ceil(const value<F> &x) noexcept {
    return nearbyint(x, rounding::upward);
}
template <class F>
result<value<F>> trunc(const value<F> &x) noexcept {
    return nearbyint(x, rounding::toward_zero);
}
template <class F>
result<value<F>> round(const value<F> &x) noexcept {
    return nearbyint(x, rounding::nearest_away);
}

/// x times 2 to the power of `power`, rounded once, with its flags, unless it is a pair.
template <class F>
result<value<F>> ldexp(const value<F> &x, std::int32_t power, rounding mode = rounding::nearest_even) noexcept {
    if constexpr (F::is_pair)
        return scalbn(x, power, mode);
    else
        return scale_b(x, power, mode);
}
template <class F>
value<F> ldexp(const value<F> &x, std::int32_t power, gather &with) noexcept {
    return with(ldexp(x, power, with.mode()));
}
/// The fraction, and its exponent by a pointer.
template <class F>
result<value<F>> frexp(const value<F> &x, int *exponent, rounding mode = rounding::nearest_even) noexcept {
    const auto made = frexp(x, mode);
    *exponent = made.exponent;
    return {made.value, made.status};
}
/// The exponent of the highest binary digit as a value, rounded once, which pairs of doubles do not have.
template <class F>
result<value<F>> logb(const value<F> &x, rounding mode = rounding::nearest_even) noexcept {
    return log_b(x, mode);
}
template <class F>
value<F> logb(const value<F> &x, gather &with) noexcept {
    return with(log_b(x, with.mode()));
}

/// The value next to x on the side of y, and y if the two are equal. Unlike C's, it raises a flag for a signaling NaN
/// alone.
template <class F>
constexpr result<value<F>> nextafter(const value<F> &x, const value<F> &y) noexcept {
    switch (compare(x, y)) {
    case order::less: return next_up(x);
    case order::equal: return {y, {}};
    case order::greater: return next_down(x);
    case order::unordered: break;
    }
    const auto made = next_up(is_nan(x) ? x : y);
    return {made.value, is_signaling(y) ? flags(flag::invalid_op) : made.status};
}

// ---- conversions

/// The value in another format, rounded once: convert<binary16>(x). The rule of the format `To` decides the flags.
template <class To, class From>
conversion<value<To>> convert(const value<From> &x, rounding mode = rounding::nearest_even) noexcept {
    static_assert(!To::is_pair && !From::is_pair, "there is no conversion from or to pairs of doubles");
    const auto answer = detail::answer_of(apfloat_convert, From::code, detail::code_of(mode), To::code, x.halves());
    const auto made = detail::result_of<To>(answer);
    return {made.value, made.status, answer.number != 0};
}
template <class To, class From>
value<To> convert(const value<From> &x, gather &with) noexcept {
    const auto made = convert<To>(x, with.mode());
    with.raise(made.status);
    return made.value;
}

namespace detail {

#if defined(__SIZEOF_INT128__)
__extension__ typedef __int128 signed128;
__extension__ typedef unsigned __int128 unsigned128;
template <class I>
inline constexpr bool is_128 = std::is_same_v<I, signed128> || std::is_same_v<I, unsigned128>;
#else
template <class I>
inline constexpr bool is_128 = false;
#endif

template <class I>
inline constexpr bool is_integer = is_128<I> || (std::is_integral_v<I> && !std::is_same_v<I, bool>);

template <class I>
inline constexpr bool is_signed = static_cast<I>(-1) < static_cast<I>(0);

template <class I>
constexpr apfloat_halves halves_of_integer(I n) noexcept {
    const std::uint64_t low = static_cast<std::uint64_t>(n);
    if constexpr (is_128<I>)
        return {low, static_cast<std::uint64_t>(n >> 64)};
    else if constexpr (is_signed<I>)
        return {low, n < 0 ? UINT64_MAX : 0};
    else
        return {low, 0};
}

template <class I>
constexpr I integer_of(apfloat_halves halves) noexcept {
#if defined(__SIZEOF_INT128__)
    if constexpr (is_128<I>) return static_cast<I>(static_cast<unsigned128>(halves.high) << 64 | halves.low);
#endif
    return static_cast<I>(halves.low);
}

} // namespace detail

/// The value of an integer, rounded once: from_integer<binary16>(70000).
template <class F, class I, std::enable_if_t<detail::is_integer<I>, int> = 0>
result<value<F>> from_integer(I n, rounding mode = rounding::nearest_even) noexcept {
    const auto call = detail::is_signed<I> ? apfloat_from_i128 : apfloat_from_u128;
    return detail::result_of<F>(
        detail::answer_of(call, F::code, detail::code_of(mode), detail::halves_of_integer(n)));
}
template <class F, class I, std::enable_if_t<detail::is_integer<I>, int> = 0>
value<F> from_integer(I n, gather &with) noexcept {
    return with(from_integer<F>(n, with.mode()));
}

/// The value rounded to an integer: to_integer<int>(x, rounding::toward_zero). A value out of range gives the nearer
/// end of the range, and a NaN gives 0, both with invalid_op.
template <class I, class F, std::enable_if_t<detail::is_integer<I>, int> = 0>
integer<I> to_integer(const value<F> &x, rounding mode) noexcept {
    const auto call = detail::is_signed<I> ? apfloat_to_i128 : apfloat_to_u128;
    const std::uint32_t width = 8 * sizeof(I);
    const auto answer = detail::answer_of(call, F::code, detail::code_of(mode), x.halves(), width);
    return {detail::integer_of<I>(answer.bits), flags::of_code(answer.status), answer.number != 0};
}
template <class I, class F, std::enable_if_t<detail::is_integer<I>, int> = 0>
I to_integer(const value<F> &x, gather &with) noexcept {
    const auto made = to_integer<I>(x, with.mode());
    with.raise(made.status);
    return made.value;
}

// ---- machines, which have the formats with a choice of flags (MACHINES.md)

/// A machine.
enum class machine : std::uint32_t {
    x86 = APFLOAT_MACHINE_X86,
    x87 = APFLOAT_MACHINE_X87,
    arm = APFLOAT_MACHINE_ARM,
    arm_default_nan = APFLOAT_MACHINE_ARM_DEFAULT_NAN,
    arm_alternate = APFLOAT_MACHINE_ARM_ALTERNATE,
    risc_v = APFLOAT_MACHINE_RISC_V,
    power = APFLOAT_MACHINE_POWER,
    s390x = APFLOAT_MACHINE_S390X,
    arm_alternate_default_nan = APFLOAT_MACHINE_ARM_ALTERNATE_DEFAULT_NAN,
    webassembly = APFLOAT_MACHINE_WEBASSEMBLY,
    ptx = APFLOAT_MACHINE_PTX,
    mips_2008 = APFLOAT_MACHINE_MIPS_2008,
    loongarch = APFLOAT_MACHINE_LOONGARCH,
    sparc = APFLOAT_MACHINE_SPARC,
    m68k = APFLOAT_MACHINE_M68K
};

/// An operation of a machine whose result is of the format of its operands.
enum class machine_operation : std::uint32_t {
    add = APFLOAT_ADD,
    sub = APFLOAT_SUB,
    mul = APFLOAT_MUL,
    div = APFLOAT_DIV,
    rem = APFLOAT_REM,
    mod = APFLOAT_MOD,
    fma = APFLOAT_FMA,
    sqrt = APFLOAT_SQRT,
    round_to_integral = APFLOAT_ROUND_TO_INTEGRAL,
    integral = APFLOAT_INTEGRAL,
    mul_extended = APFLOAT_MUL_EXTENDED
};

/// The sign of what `range_on` gives: that of the first operand, that of the operand that is chosen, plus, or minus.
enum class range_sign : std::uint32_t { of_first, of_chosen, positive, negative };

/// What a minimum or a maximum of a machine is if an operand is a NaN, or both are zeros.
enum class minimum_rule : std::uint32_t {
    second = APFLOAT_RULE_SECOND,
    second_quietly = APFLOAT_RULE_SECOND_QUIETLY,
    first_nan = APFLOAT_RULE_FIRST_NAN,
    number_2008 = APFLOAT_RULE_NUMBER_2008,
    number_2019 = APFLOAT_RULE_NUMBER_2019,
    propagated = APFLOAT_RULE_PROPAGATED
};

namespace detail {

template <class F>
expected<apfloat_answer> delivered(machine on, apfloat_operation operation, rounding mode, std::uint32_t to,
                                   apfloat_halves x, apfloat_halves y, apfloat_halves z) noexcept {
    static_assert(F::has_ieee_flags, "machines have the formats with a choice of flags");
    apfloat_answer answer = {{0, 0}, 0, 0};
    const apfloat_error code = apfloat_machine(static_cast<apfloat_machine_kind>(on), operation, F::code, code_of(mode),
                                               to, x, y, z, &answer);
    if (code != APFLOAT_ANSWERED) return static_cast<errc>(code);
    return answer;
}

template <class F>
expected<apfloat_answer> delivered(machine on, apfloat_operation operation, rounding mode, std::uint32_t to,
                                   const value<F> &x, const value<F> &y, const value<F> &z) noexcept {
    return delivered<F>(on, operation, mode, to, x.halves(), y.halves(), z.halves());
}

template <class F>
expected<result<value<F>>> as_value(const expected<apfloat_answer> &answer) noexcept {
    if (!answer) return answer.error();
    return result_of<F>(*answer);
}

} // namespace detail

/// What a machine delivers: on_machine(machine::arm, machine_operation::add, rounding::nearest_even, x, y). Operands
/// that the operation does not take are ignored. The error is lacking_operation if the machine does not have it.
template <class F>
expected<result<value<F>>> on_machine(machine on, machine_operation operation, rounding mode, const value<F> &x,
                                      const value<F> &y = {}, const value<F> &z = {}) noexcept {
    const std::uint32_t to = 0;
    return detail::as_value<F>(detail::delivered(on, static_cast<apfloat_operation>(operation), mode, to, x, y, z));
}

/// The value in another format, as a machine converts it.
template <class To, class F>
expected<result<value<To>>> convert_on(machine on, const value<F> &x, rounding mode = rounding::nearest_even) noexcept {
    static_assert(To::has_ieee_flags, "machines have the formats with a choice of flags");
    return detail::as_value<To>(detail::delivered(on, APFLOAT_CONVERT, mode, To::code, x, x, x));
}

/// The lesser and the greater of two values of a machine, by a rule.
template <class F>
expected<result<value<F>>> least_on(machine on, minimum_rule rule, const value<F> &x, const value<F> &y) noexcept {
    return detail::as_value<F>(detail::delivered(on, APFLOAT_LEAST, rounding::nearest_even,
                                                 static_cast<std::uint32_t>(rule), x, y, y));
}
template <class F>
expected<result<value<F>>> greatest_on(machine on, minimum_rule rule, const value<F> &x, const value<F> &y) noexcept {
    return detail::as_value<F>(detail::delivered(on, APFLOAT_GREATEST, rounding::nearest_even,
                                                 static_cast<std::uint32_t>(rule), x, y, y));
}

/// VRANGEPS and its forms, of x86: the extremum that bits 1:0 of their immediate operand choose, with a sign.
template <class F>
expected<result<value<F>>> range_on(machine on, extremum which, range_sign sign, const value<F> &x,
                                    const value<F> &y) noexcept {
    const std::uint32_t rule = static_cast<std::uint32_t>(which) + 4 * static_cast<std::uint32_t>(sign);
    return detail::as_value<F>(detail::delivered(on, APFLOAT_RANGE, rounding::nearest_even, rule, x, y, y));
}

/// The bits of the value in Arm's alternative half precision, whose greatest exponent is one of numbers (FPCR.AHP).
template <class F>
expected<result<std::uint16_t>> to_alternative_half_on(machine on, const value<F> &x, rounding mode) noexcept {
    const auto answer = detail::delivered(on, APFLOAT_TO_ALTERNATIVE_HALF, mode, 0, x, x, x);
    if (!answer) return answer.error();
    return result<std::uint16_t>{static_cast<std::uint16_t>(answer->bits.low), flags::of_code(answer->status)};
}

/// The value of bits of Arm's alternative half precision.
template <class F>
expected<result<value<F>>> from_alternative_half_on(machine on, std::uint16_t bits, rounding mode) noexcept {
    const apfloat_halves x = {bits, 0};
    return detail::as_value<F>(detail::delivered<F>(on, APFLOAT_FROM_ALTERNATIVE_HALF, mode, 0, x, x, x));
}

/// The value rounded to an integer, as a machine does it.
template <class I, class F, std::enable_if_t<detail::is_integer<I>, int> = 0>
expected<result<I>> to_integer_on(machine on, const value<F> &x, rounding mode) noexcept {
    const apfloat_operation operation = detail::is_signed<I> ? APFLOAT_TO_I128 : APFLOAT_TO_U128;
    const auto answer = detail::delivered(on, operation, mode, std::uint32_t{8 * sizeof(I)}, x, x, x);
    if (!answer) return answer.error();
    return result<I>{detail::integer_of<I>(answer->bits), flags::of_code(answer->status)};
}

// ---- texts

/// The value of a text, rounded once: a decimal, such as -0.1 or 1e-7, or what `parse_hexadecimal` reads. The formats
/// with the flags of IEEE 754-2019 read no decimals here.
template <class F>
expected<result<value<F>>> parse(std::string_view text, rounding mode = rounding::nearest_even) noexcept;

/// The value of a text, rounded once: a hexadecimal number such as 0x1.8p-1, an infinity or a NaN, in the words that
/// apfloat.h lists at apfloat_parse. Decimals are refused.
template <class F>
expected<result<value<F>>> parse_hexadecimal(std::string_view text,
                                             rounding mode = rounding::nearest_even) noexcept;

namespace detail {

constexpr bool is_spelled(std::string_view text, std::string_view word) noexcept {
    if (text.size() != word.size()) return false;
    for (std::size_t at = 0; at < word.size(); ++at) {
        if (text[at] != word[at] && text[at] != word[at] - 'a' + 'A') return false;
    }
    return true;
}

// A text as `parse` reads it: `inf`, `infinity`, `nan` and `snan` may be in any case and have any sign
// (IEEE 754-2019 5.12.1).
constexpr std::string_view spelled(std::string_view text) noexcept {
    if (text.empty()) return text;
    const bool negative = text[0] == '-';
    const std::string_view word = text.substr(negative || text[0] == '+' ? 1 : 0);
    if (is_spelled(word, "inf") || is_spelled(word, "infinity")) return negative ? "-inf" : "inf";
    if (is_spelled(word, "nan")) return negative ? "-nan" : "nan";
    if (is_spelled(word, "snan")) return negative ? "-snan" : "snan";
    // With a payload.
    const bool is_nan = is_spelled(word.substr(0, 3), "nan") || is_spelled(word.substr(0, 4), "snan");
    return is_nan && text[0] == '+' ? word : text;
}

template <class F>
expected<result<value<F>>> read(decltype(apfloat_parse) *call, std::string_view text, rounding mode) noexcept {
    // The library takes no null pointer, not even for an empty text.
    const char *bytes = text.empty() ? "" : text.data();
    apfloat_answer answer = {{0, 0}, 0, 0};
    const apfloat_error code =
        call(F::code, code_of(mode), reinterpret_cast<const std::uint8_t *>(bytes), text.size(), &answer);
    if (code != APFLOAT_ANSWERED) return static_cast<errc>(code);
    return result_of<F>(answer);
}

// The value of what was read, whose flags are joined to those of a gather. An error has none.
template <class F>
expected<value<F>> joined(const expected<result<value<F>>> &read, gather &with) noexcept {
    if (!read) return read.error();
    return with(*read);
}

} // namespace detail

template <class F>
expected<result<value<F>>> parse(std::string_view text, rounding mode) noexcept {
    return detail::read<F>(F::reads_decimals ? apfloat_parse_decimal : apfloat_parse, text, mode);
}
/// The value alone; its flags are joined to those of the gather. An error joins none.
template <class F>
expected<value<F>> parse(std::string_view text, gather &with) noexcept {
    return detail::joined(parse<F>(text, with.mode()), with);
}

template <class F>
expected<result<value<F>>> parse_hexadecimal(std::string_view text, rounding mode) noexcept {
    return detail::read<F>(apfloat_parse, text, mode);
}
/// The value alone; its flags are joined to those of the gather. An error joins none.
template <class F>
expected<value<F>> parse_hexadecimal(std::string_view text, gather &with) noexcept {
    return detail::joined(parse_hexadecimal<F>(text, with.mode()), with);
}

/// The value of a text, rounded once: a decimal, in every format, also with the flags of IEEE 754-2019, or what
/// `parse_hexadecimal` reads.
template <class F>
expected<result<value<F>>> read_decimal(std::string_view text, rounding mode = rounding::nearest_even) noexcept {
    return detail::read<F>(apfloat_read_decimal, text, mode);
}
/// The value alone; its flags are joined to those of the gather. An error joins none.
template <class F>
expected<value<F>> read_decimal(std::string_view text, gather &with) noexcept {
    return detail::joined(read_decimal<F>(text, with.mode()), with);
}

template <class F>
expected<result<value<F>>> value<F>::from_text(std::string_view text, rounding mode) noexcept {
    return parse<F>(detail::spelled(text), mode);
}
template <class F>
expected<value<F>> value<F>::from_text(std::string_view text, gather &with) noexcept {
    return parse<F>(detail::spelled(text), with);
}
template <class F>
result<value<F>> value<F>::from_double(double x, rounding mode) noexcept {
    const value<binary64> given(x);
    if constexpr (F::is_pair) {
        return {pair_of(given), {}};
    } else if constexpr (std::is_same_v<typename F::plain, binary64>) {
        return {value(value<typename F::plain>(given)), {}};
    } else {
        const auto made = convert<F>(given, mode);
        return {made.value, made.status};
    }
}
template <class F>
value<F> value<F>::from_double(double x, gather &with) noexcept {
    return with(from_double(x, with.mode()));
}

/// A text of less than 64 bytes, without an allocation.
class text {
public:
    constexpr text() = default;
    constexpr explicit text(const apfloat_text &of) noexcept : text_(of) {}

    constexpr std::size_t size() const noexcept { return text_.length; }
    constexpr const char *c_str() const noexcept { return text_.bytes; }
    constexpr std::string_view view() const noexcept { return {text_.bytes, text_.length}; }
    constexpr operator std::string_view() const noexcept { return view(); }
    friend std::ostream &operator<<(std::ostream &out, const text &written) { return out << written.view(); }

private:
    apfloat_text text_ = {{0}, 0};
};

namespace detail {

// The number of a finite value without its sign: an integer times a power of two.
struct scaled {
    apfloat_halves significand;
    int exponent;
};

template <class F>
constexpr scaled scaled_of(const value<F> &x) noexcept {
    static_assert(!F::is_pair, "a pair is a sum of two numbers");
    constexpr int trailing = F::precision - 1;
    const auto bits = magnitude<F>(x.halves());
    std::uint64_t exponent = bits.high;
    apfloat_halves significand = {bits.low, 0};
    if constexpr (!std::is_same_v<typename F::plain, x87>) {
        exponent = trailing < 64 ? bits.low >> trailing % 64 : bits.high >> trailing % 64;
        significand = common(bits, less_one(power_of_two(trailing)));
        if (exponent != 0) significand = joined(significand, power_of_two(trailing));
    }
    const int above_least = exponent == 0 ? 0 : static_cast<int>(exponent) - 1;
    return {significand, above_least + F::min_exponent - trailing};
}

} // namespace detail

/// The shortest decimal that gives x when it is rounded to nearest, ties to even, written as apfloat.h says at
/// apfloat_shortest: 65504 of `binary16` is 65500.0. Pairs of doubles have none.
template <class F>
text shortest_text(const value<F> &x) noexcept {
    static_assert(!F::is_pair, "pairs of doubles have no shortest decimal");
    apfloat_text written = {{0}, 0};
    const apfloat_error code = apfloat_shortest(F::code, x.halves(), &written);
    if (code != APFLOAT_ANSWERED) detail::refuse(static_cast<errc>(code));
    return text(written);
}

// ---- digits of any count

/// Digits that were written: how many, and the exponent of ten of the first one.
struct written_digits {
    std::size_t count;
    int exponent;
};

/// Writes the decimal digits of x, rounded once to as many as there is room for, which is at least one: all of the room
/// is written, the first digit is not 0, and the sign is that of x. Of a zero, an infinity or a NaN none are written.
template <class F>
result<written_digits> write_digits(const value<F> &x, char *digits, std::size_t room,
                                    rounding mode = rounding::nearest_even) noexcept {
    static_assert(!F::is_pair, "pairs of doubles have no digits of any count");
    const auto answer = detail::answer_of(apfloat_write_digits, F::code, detail::code_of(mode), x.halves(),
                                          reinterpret_cast<std::uint8_t *>(digits), room);
    return {{static_cast<std::size_t>(answer.bits.low), answer.number}, flags::of_code(answer.status)};
}

/// How many decimal digits x has, at most 11563: with so many, `write_digits` does not round. Of a zero, an infinity
/// and a NaN it is 0.
template <class F>
std::size_t digit_count(const value<F> &x) noexcept {
    static_assert(!F::is_pair, "pairs of doubles have no digits of any count");
    return static_cast<std::size_t>(detail::answer_of(apfloat_digit_count, F::code, x.halves()).bits.low);
}

/// The hexadecimal text of x, as in -0x1.8p-1, inf and nan0x2a, which `parse_hexadecimal` reads back.
template <class F>
text hexadecimal_text(const value<F> &x) noexcept {
    static_assert(!F::is_pair, "pairs of doubles have no hexadecimal text");
    apfloat_text written = {{0}, 0};
    const auto answer = detail::answer_of(apfloat_write_hex, F::code, x.halves(),
                                          reinterpret_cast<std::uint8_t *>(written.bytes), sizeof written.bytes);
    written.length = static_cast<std::uint32_t>(answer.bits.low);
    return text(written);
}

/// The same, rounded once to so many digits after the dot, at most 31, and without the payload of a NaN.
template <class F>
result<text> hexadecimal_text(const value<F> &x, unsigned places, rounding mode = rounding::nearest_even) noexcept {
    static_assert(!F::is_pair, "pairs of doubles have no hexadecimal text");
    apfloat_text written = {{0}, 0};
    const auto answer =
        detail::answer_of(apfloat_write_hex_rounded, F::code, detail::code_of(mode), std::uint32_t{places}, x.halves(),
                          reinterpret_cast<std::uint8_t *>(written.bytes), sizeof written.bytes);
    written.length = static_cast<std::uint32_t>(answer.bits.low);
    return {text(written), flags::of_code(answer.status)};
}

/// What a format is, as apfloat.h says at apfloat_facts.
template <class F>
apfloat_facts facts_of() noexcept {
    static_assert(!F::is_pair, "pairs of doubles are no format");
    apfloat_facts facts = {{0, 0}, {0, 0}, {0, 0}, 0, 0, 0, 0, 0, 0, 0, 0};
    const apfloat_error code = apfloat_format_facts(F::code, &facts);
    if (code != APFLOAT_ANSWERED) detail::refuse(static_cast<errc>(code));
    return facts;
}

// ---- augmented operations, and payloads of NaNs

/// The two results of an augmented operation (IEEE 754-2019 9.5): the exact result rounded to nearest, ties toward
/// zero, and what that leaves of it.
template <class F>
struct augmented {
    value<F> head, tail;
};

namespace detail {

template <class F>
result<augmented<F>> augmented_of(apfloat_operation operation, const value<F> &x, const value<F> &y) noexcept {
    static_assert(!F::is_pair, "pairs of doubles have no augmented operations");
    apfloat_halves tail = {0, 0};
    apfloat_answer answer = {{0, 0}, 0, 0};
    const apfloat_error code = apfloat_augmented(operation, F::code, x.halves(), y.halves(), &tail, &answer);
    if (code != APFLOAT_ANSWERED) refuse(static_cast<errc>(code));
    return {{value<F>::from_lowest(answer.bits), value<F>::from_lowest(tail)}, flags::of_code(answer.status)};
}

template <class F>
value<F> payload_of(apfloat_payload_operation operation, const value<F> &x) noexcept {
    static_assert(!F::is_pair, "pairs of doubles have no payloads as values");
    return value<F>::from_lowest(answer_of(apfloat_payload, operation, F::code, x.halves()).bits);
}

} // namespace detail

/// The augmented sum, difference and product, with the flags that apfloat.h describes at apfloat_augmented.
template <class F>
result<augmented<F>> augmented_add(const value<F> &x, const value<F> &y) noexcept {
    return detail::augmented_of(APFLOAT_ADD, x, y);
}
template <class F>
result<augmented<F>> augmented_subtract(const value<F> &x, const value<F> &y) noexcept {
    return detail::augmented_of(APFLOAT_SUB, x, y);
}
template <class F>
result<augmented<F>> augmented_multiply(const value<F> &x, const value<F> &y) noexcept {
    return detail::augmented_of(APFLOAT_MUL, x, y);
}

/// The payload of a NaN as an integral value, and -1 of any other value (IEEE 754-2019 9.7).
template <class F>
value<F> get_payload(const value<F> &x) noexcept {
    return detail::payload_of(APFLOAT_GET_PAYLOAD, x);
}
/// The positive quiet NaN and the positive signaling NaN with the payload x, or +0 if x is no payload.
template <class F>
value<F> set_payload(const value<F> &x) noexcept {
    return detail::payload_of(APFLOAT_SET_PAYLOAD, x);
}
template <class F>
value<F> set_payload_signaling(const value<F> &x) noexcept {
    return detail::payload_of(APFLOAT_SET_PAYLOAD_SIGNALING, x);
}

// ---- pairs of doubles and formats

/// The exact sum of the parts of a pair, rounded once to a format. A high part that is a zero, an infinity or a NaN is
/// converted alone.
template <class F>
result<value<F>> pair_to_format(const value<double_pair> &x, rounding mode = rounding::nearest_even) noexcept {
    static_assert(!F::is_pair, "a pair is converted to a format");
    return detail::result_of<F>(
        detail::answer_of(apfloat_pair_to_format, F::code, detail::code_of(mode), x.halves()));
}

/// A value of a format, rounded once to 106 binary digits, and split into two doubles.
template <class F>
result<value<double_pair>> pair_from_format(const value<F> &x, rounding mode = rounding::nearest_even) noexcept {
    static_assert(!F::is_pair, "a pair is made of a value of a format");
    return detail::result_of<double_pair>(
        detail::answer_of(apfloat_pair_from_format, F::code, detail::code_of(mode), x.halves()));
}

/// x * y + z: the sums of the parts are first rounded to 106 binary digits, then the exact result is, once, and split.
inline result<value<double_pair>> pair_fma(const value<double_pair> &x, const value<double_pair> &y,
                                           const value<double_pair> &z,
                                           rounding mode = rounding::nearest_even) noexcept {
    return detail::result_of<double_pair>(
        detail::answer_of(apfloat_pair_fma, detail::code_of(mode), x.halves(), y.halves(), z.halves()));
}

/// The shortest decimal that is read as the pair, to nearest, ties to even; nothing if no decimal is.
inline std::optional<text> shortest_text_of_pair(const value<double_pair> &x) noexcept {
    apfloat_text written = {{0}, 0};
    if (apfloat_pair_shortest(x.halves(), &written) != APFLOAT_ANSWERED) return std::nullopt;
    return text(written);
}

/// A text that reads back as x: a whole number below 10^16 in full, as in 65504.0, and any other number as its shortest
/// decimal. Of a pair of doubles, that of the high double and, if the low one is not zero, that of the low one too, as
/// in 0.3333333333333333 + 1.8503717077085944e-17, which `parse` does not read.
template <class F>
text to_text(const value<F> &x) noexcept {
    if constexpr (F::is_pair) {
        const auto high = to_text(high_of(x)), low = to_text(low_of(x));
        if (is_zero(low_of(x))) return high;
        apfloat_text written = {{0}, 0};
        for (const auto part : {high.view(), std::string_view(" + "), low.view()})
            for (const char letter : part) written.bytes[written.length++] = letter;
        return text(written);
    } else {
        apfloat_text written = {{0}, 0};
        const apfloat_error code = apfloat_to_text(F::code, x.halves(), &written);
        if (code != APFLOAT_ANSWERED) detail::refuse(static_cast<errc>(code));
        return text(written);
    }
}

template <class F>
std::string to_string(const value<F> &x) {
    return std::string(to_text(x).view());
}

// ---- streams

namespace detail {

// A number without its sign as binary digits: words of 32, the lowest first, `point` of them after the point. Numbers
// of every format have room.
struct wide {
    static constexpr int words_of_all = 524;
    std::array<std::uint32_t, words_of_all> words{};
    int point = 0;

    // Adds a number whose lowest bit has this place, if it overlaps no other.
    void put(apfloat_halves bits, int place) noexcept {
        for (int i = 0; i < 4; i++) {
            const std::uint64_t half = i < 2 ? bits.low : bits.high;
            const std::uint64_t shifted = (half >> (i % 2 * 32) & UINT32_MAX) << place % 32;
            auto *at = &words[static_cast<std::size_t>(place / 32 + i)];
            at[0] |= static_cast<std::uint32_t>(shifted);
            at[1] |= static_cast<std::uint32_t>(shifted >> 32);
        }
    }
    bool bit(int place) const noexcept {
        return place >= 0 && (words[static_cast<std::size_t>(place / 32)] >> place % 32 & 1) != 0;
    }
    // The places of the lowest and of the highest bit. Without one, the highest is -1.
    int lowest() const noexcept {
        int place = 0;
        while (place < words_of_all * 32 && !bit(place)) place += words[static_cast<std::size_t>(place / 32)] ? 1 : 32;
        return place;
    }
    int highest() const noexcept {
        int place = words_of_all * 32 - 1;
        while (place >= 0 && !bit(place)) place -= words[static_cast<std::size_t>(place / 32)] ? 1 : 32;
        return place;
    }
};

// The number of a finite value, and whether it is below zero, or a zero with a minus sign.
template <class F>
std::pair<wide, bool> wide_of(const value<F> &x) noexcept {
    wide made;
    if constexpr (F::is_pair) {
        const auto high = high_of(x), low = low_of(x);
        wide less;
        made.point = less.point = 34; // 1074 binary digits of doubles after the point
        const auto more_part = scaled_of(high), less_part = scaled_of(low);
        made.put(more_part.significand, more_part.exponent + 34 * 32);
        less.put(less_part.significand, less_part.exponent + 34 * 32);
        bool negative = high.sign_bit();
        const bool subtracts = negative != low.sign_bit();
        if (made.words != less.words && abs(high) < abs(low)) {
            std::swap(made, less);
            negative = low.sign_bit();
        }
        std::uint64_t carry = 0;
        for (std::size_t i = 0; i < made.words.size(); i++) {
            const std::uint64_t part = less.words[i] + carry;
            const std::uint64_t sum = subtracts ? made.words[i] - part : made.words[i] + part;
            made.words[i] = static_cast<std::uint32_t>(sum);
            carry = subtracts ? sum >> 63 : sum >> 32;
        }
        return {made, negative};
    } else {
        const auto [significand, exponent] = scaled_of(x);
        made.point = exponent < 0 ? (31 - exponent) / 32 : 0;
        made.put(significand, exponent + 32 * made.point);
        return {made, x.sign_bit()};
    }
}

// Decimal digits of a number that is not 0, from the first one that is not: 0.d1 d2 .. times 10 to the power of
// `point`. `has_more` says whether the number is above what the digits are.
struct decimal {
    std::string digits;
    std::ptrdiff_t point = 0;
    bool has_more = false;

    // At least `count` digits, or all that there are: `count` after the point if `after_point`, else from the first.
    decimal(wide number, std::ptrdiff_t count, bool after_point) {
        constexpr std::uint64_t billion = 1000000000;
        auto &words = number.words;
        const auto first = static_cast<std::size_t>(number.point);
        std::size_t top = words.size();
        const auto drop_zeros = [&] {
            while (top > first && words[top - 1] == 0) top--;
        };
        drop_zeros();
        while (top > first) {
            std::uint64_t rest = 0;
            for (std::size_t i = top; i-- > first;) {
                rest = rest << 32 | words[i];
                words[i] = static_cast<std::uint32_t>(rest / billion);
                rest %= billion;
            }
            for (int i = 0; i < 9; i++, rest /= 10) digits.push_back(static_cast<char>('0' + rest % 10));
            drop_zeros();
        }
        digits.erase(digits.find_last_not_of('0') + 1);
        digits.assign(digits.rbegin(), digits.rend());
        point = static_cast<std::ptrdiff_t>(digits.size());

        std::size_t low = 0;
        const auto has_fraction = [&] {
            while (low < first && words[low] == 0) low++;
            return low < first;
        };
        while (has_fraction() && static_cast<std::ptrdiff_t>(digits.size()) < (after_point ? point + count : count)) {
            std::uint64_t group = 0;
            for (std::size_t i = low; i < first; i++) {
                group += words[i] * billion;
                words[i] = static_cast<std::uint32_t>(group);
                group >>= 32;
            }
            for (std::uint64_t unit = billion / 10; unit != 0; unit /= 10) {
                const auto digit = static_cast<char>('0' + group / unit % 10);
                if (digits.empty() && digit == '0') point--;
                else digits.push_back(digit);
            }
        }
        has_more = has_fraction();
    }

    // Rounds to as many digits, to nearest, ties to even. No digits are a zero.
    void round_to(std::ptrdiff_t count) {
        const auto size = static_cast<std::ptrdiff_t>(digits.size());
        if (count >= size) return digits.append(static_cast<std::size_t>(count - size), '0'), void();
        if (count < 0) return digits.clear();
        const auto kept = static_cast<std::size_t>(count);
        const bool is_odd = kept > 0 && (digits[kept - 1] - '0') % 2 != 0;
        const bool is_above = has_more || digits.find_first_not_of('0', kept + 1) != std::string::npos;
        const bool goes_up = digits[kept] > '5' || (digits[kept] == '5' && (is_above || is_odd));
        digits.resize(kept);
        if (!goes_up) return;
        auto at = digits.rbegin();
        for (; at != digits.rend() && *at == '9'; ++at) *at = '0';
        if (at != digits.rend()) return ++*at, void();
        digits.insert(digits.begin(), '1');
        point++;
    }
};

// Digits with a point, and as many after it.
inline std::string with_point(const decimal &of, std::ptrdiff_t places, bool shows_point) {
    const auto whole = static_cast<std::size_t>(of.point > 0 && !of.digits.empty() ? of.point : 0);
    std::string written = whole == 0 ? "0" : of.digits.substr(0, whole);
    if (places > 0 || shows_point) written.push_back('.');
    const auto end = written.size() + static_cast<std::size_t>(places);
    if (!of.digits.empty() && of.point < 0) written.append(static_cast<std::size_t>(-of.point), '0');
    if (!of.digits.empty()) written.append(of.digits, whole, std::string::npos);
    written.resize(end, '0');
    return written;
}

inline std::string with_exponent(const decimal &of, bool shows_point) {
    std::string written = of.digits.substr(0, 1);
    if (of.digits.size() > 1 || shows_point) written.push_back('.');
    written.append(of.digits, 1, std::string::npos);
    const auto exponent = of.point - 1;
    written.append(exponent < 0 ? "e-" : "e+");
    const auto number = std::to_string(exponent < 0 ? -exponent : exponent);
    if (number.size() < 2) written.push_back('0');
    return written + number;
}

// Hexadecimal digits from the one with the place `first`, which is 0 or 1, without zeros at the end.
inline std::string hexadecimal(const wide &number, int first, int exponent, bool shows_point) {
    std::string written = number.bit(first) ? "0x1" : "0x0";
    const int lowest = number.lowest();
    if (lowest < first || shows_point) written.push_back('.');
    for (int place = first; place > lowest; place -= 4) {
        int digit = 0;
        for (int i = 1; i <= 4; i++) digit = digit * 2 + number.bit(place - i);
        written.push_back("0123456789abcdef"[digit]);
    }
    return written + (exponent < 0 ? "p-" : "p+") + std::to_string(exponent < 0 ? -exponent : exponent);
}

// What std::printf writes for the flags of a stream, without a sign.
template <class F>
std::string written_by(std::ios_base::fmtflags asked, std::streamsize precision, const wide &number) {
    const auto style = asked & std::ios_base::floatfield;
    const bool shows_point = (asked & std::ios_base::showpoint) != 0;
    const int highest = number.highest();
    const bool is_number = highest >= 0;
    if (style == (std::ios_base::fixed | std::ios_base::scientific)) {
        if (!is_number) return shows_point ? "0x0.p+0" : "0x0p+0";
        // Below the normal numbers the first digit is 0.
        const int found = highest - 32 * number.point;
        const int exponent = found < F::min_exponent && !F::is_pair ? F::min_exponent : found;
        return hexadecimal(number, exponent + 32 * number.point, exponent, shows_point);
    }
    std::ptrdiff_t places = precision < 0 ? 6 : static_cast<std::ptrdiff_t>(precision);
    if (style == std::ios_base::fixed) {
        decimal found(number, places + 1, true);
        found.round_to(is_number ? found.point + places : 0);
        return with_point(found, places, shows_point);
    }
    const bool is_general = style != std::ios_base::scientific;
    if (!is_general) places++;
    if (places == 0) places = 1;
    decimal found(number, places + 1, false);
    if (!is_number) found.point = 1;
    found.round_to(places);
    found.digits.resize(static_cast<std::size_t>(places));
    if (!is_general) return with_exponent(found, shows_point);
    if (!shows_point) found.digits.resize(is_number ? found.digits.find_last_not_of('0') + 1 : 1);
    const auto size = static_cast<std::ptrdiff_t>(found.digits.size());
    if (found.point < -3 || found.point > places) return with_exponent(found, shows_point);
    if (size < found.point) found.round_to(found.point);
    return with_point(found, size > found.point ? size - found.point : 0, shows_point);
}

// What a stream with these flags writes for a value, before it fills it up to its width.
template <class F>
std::string written_by(std::ios_base::fmtflags asked, std::streamsize precision, const value<F> &x) {
    bool is_counted = is_finite(x);
    if constexpr (F::is_pair) is_counted = is_finite(high_of(x)) && is_finite(low_of(x));
    std::string written;
    if (!is_counted || ((asked & std::ios_base::floatfield) == 0 && precision == 6)) {
        written = to_text(x).view();
    } else {
        const auto [number, negative] = wide_of(x);
        written = (negative ? "-" : "") + written_by<F>(asked, precision, number);
    }
    if ((asked & std::ios_base::showpos) != 0 && written[0] != '-') written.insert(0, 1, '+');
    if ((asked & std::ios_base::uppercase) != 0)
        for (char &letter : written)
            if (letter >= 'a' && letter <= 'z') letter = static_cast<char>(letter - 'a' + 'A');
    return written;
}

constexpr bool is_digit(char letter, bool hexadecimal) noexcept {
    return (letter >= '0' && letter <= '9') ||
           (hexadecimal && ((letter >= 'a' && letter <= 'f') || (letter >= 'A' && letter <= 'F')));
}

// Whether a letter goes on with the text of a number.
inline bool goes_on(const std::string &read, char letter) {
    const bool is_signed = !read.empty() && (read[0] == '-' || read[0] == '+');
    const auto body = std::string_view(read).substr(is_signed ? 1 : 0);
    const auto is_one_of = [&](const char *letters) { return std::strchr(letters, letter) != nullptr; };
    if (letter == '\0') return false;
    const bool is_plain_digit = letter >= '0' && letter <= '9';
    const bool is_letter = (letter >= 'a' && letter <= 'z') || (letter >= 'A' && letter <= 'Z');
    if (body.empty()) return is_plain_digit || is_one_of(".iInNsS") || (!is_signed && is_one_of("+-"));
    // A word, such as inf, or nan(0x7).
    if (std::strchr("iInNsS", body[0]) != nullptr)
        return body.back() != ')' && (is_plain_digit || is_letter || is_one_of("()"));
    const bool hexadecimal = body.size() > 1 && (body[1] == 'x' || body[1] == 'X');
    const auto exponent = body.find_first_of(hexadecimal ? "pP" : "eE");
    if (exponent != std::string_view::npos)
        return is_plain_digit || (exponent + 1 == body.size() && is_one_of("+-"));
    if (is_plain_digit || (letter == '.' && body.find('.') == std::string_view::npos)) return true;
    if (hexadecimal) return is_digit(letter, true) || is_one_of("pP");
    return is_one_of("eE") || (body == "0" && is_one_of("xX"));
}

template <class F>
value<F> read_from(std::istream &in, rounding mode) {
    const std::istream::sentry ready(in);
    if (!ready) return {};
    using traits = std::istream::traits_type;
    auto state = std::ios_base::goodbit;
    std::string read;
    for (auto next = in.rdbuf()->sgetc();; next = in.rdbuf()->snextc()) {
        if (traits::eq_int_type(next, traits::eof())) {
            state |= std::ios_base::eofbit;
            break;
        }
        const char letter = traits::to_char_type(next);
        if (!goes_on(read, letter)) break;
        read.push_back(letter);
    }
    const auto found = parse<typename F::plain>(spelled(read), mode);
    if (!found) state |= std::ios_base::failbit;
    if (state != std::ios_base::goodbit) in.setstate(state);
    return found ? value<F>::from_bits(found->value.bits()) : value<F>();
}

} // namespace detail

/// Writes what `to_text` returns, or, with `fixed`, `scientific`, `hexfloat` or a precision that is not 6, what
/// std::printf would write of such a value: the digits of the exact value, rounded once to nearest, ties to even. The
/// other flags of the stream count too, but not its locale.
template <class F>
std::ostream &operator<<(std::ostream &out, const value<F> &x) {
    auto written = detail::written_by(out.flags(), out.precision(), x);
    const auto size = static_cast<std::streamsize>(written.size());
    if ((out.flags() & std::ios_base::adjustfield) == std::ios_base::internal && size < out.width()) {
        const bool is_signed = written[0] == '-' || written[0] == '+', is_prefixed = written.find_first_of("xX") == 1;
        const std::size_t at = is_signed ? 1 : is_prefixed ? 2 : 0;
        written.insert(at, static_cast<std::size_t>(out.width() - size), out.fill());
    }
    return out << written;
}

/// Reads a text as `parse` does, rounded to nearest, ties to even, and drops the flags. It reads no further than a
/// number goes; a text that is none sets failbit, and x to +0.
template <class F>
std::istream &operator>>(std::istream &in, value<F> &x) {
    x = detail::read_from<F>(in, rounding::nearest_even);
    return in;
}
/// The same, rounded in the mode of the type.
template <class F, rounding Mode>
std::istream &operator>>(std::istream &in, unflagged<F, Mode> &x) {
    x = detail::read_from<F>(in, Mode);
    return in;
}

// ---- operators

/// A value whose operators round in the mode of a `gather` and join their flags to it: flags(x) + y. If both operands
/// have one, the left operand's counts. It is an operand only as long as it has no name, since a named one could
/// outlive the gather: after `auto y = flags(a) * b`, `y` is a value, and `flags(y)` the operand again.
template <class F>
class gathered : public value<F> {
public:
    gathered(const value<F> &x, gather &with) noexcept : value<F>(x), with_(&with) {}
    gathered(gathered &&) = default;
    gathered &operator=(gathered &&) = delete;

    friend gathered operator+(gathered &&x, gathered &&y) noexcept { return x.computed(add(x, y, *x.with_)); }
    friend gathered operator+(gathered &&x, const value<F> &y) noexcept { return x.computed(add(x, y, *x.with_)); }
    friend gathered operator+(const value<F> &x, gathered &&y) noexcept { return y.computed(add(x, y, *y.with_)); }

    friend gathered operator-(gathered &&x, gathered &&y) noexcept { return x.computed(sub(x, y, *x.with_)); }
    friend gathered operator-(gathered &&x, const value<F> &y) noexcept { return x.computed(sub(x, y, *x.with_)); }
    friend gathered operator-(const value<F> &x, gathered &&y) noexcept { return y.computed(sub(x, y, *y.with_)); }

    friend gathered operator*(gathered &&x, gathered &&y) noexcept { return x.computed(mul(x, y, *x.with_)); }
    friend gathered operator*(gathered &&x, const value<F> &y) noexcept { return x.computed(mul(x, y, *x.with_)); }
    friend gathered operator*(const value<F> &x, gathered &&y) noexcept { return y.computed(mul(x, y, *y.with_)); }

    friend gathered operator/(gathered &&x, gathered &&y) noexcept { return x.computed(div(x, y, *x.with_)); }
    friend gathered operator/(gathered &&x, const value<F> &y) noexcept { return x.computed(div(x, y, *x.with_)); }
    friend gathered operator/(const value<F> &x, gathered &&y) noexcept { return y.computed(div(x, y, *y.with_)); }

    gathered operator-() &&noexcept { return computed(value<F>::operator-()); }
    gathered operator+() &&noexcept { return computed(*this); }
    constexpr value<F> operator-() const &noexcept { return value<F>::operator-(); }
    constexpr value<F> operator+() const &noexcept { return *this; }

    friend gathered sqrt(gathered &&x) noexcept { return x.computed(sqrt(x, *x.with_)); }
    friend gathered fma(gathered &&x, const value<F> &y, const value<F> &z) noexcept {
        return x.computed(fma(x, y, z, *x.with_));
    }
    friend gathered fmod(gathered &&x, const value<F> &y) noexcept { return x.computed(mod(x, y, *x.with_)); }
    friend gathered remainder(gathered &&x, const value<F> &y) noexcept { return x.computed(rem(x, y, *x.with_)); }
    friend gathered rint(gathered &&x) noexcept { return x.computed(rint(x, *x.with_)); }
    friend gathered nearbyint(gathered &&x) noexcept { return x.computed(nearbyint(x, *x.with_)); }
    friend gathered floor(gathered &&x) noexcept { return x.computed((*x.with_)(floor(x))); }
    friend gathered ceil(gathered &&x) noexcept { return x.computed((*x.with_)(ceil(x))); }
    friend gathered trunc(gathered &&x) noexcept { return x.computed((*x.with_)(trunc(x))); }
    friend gathered round(gathered &&x) noexcept { return x.computed((*x.with_)(round(x))); }

private:
    gathered computed(const value<F> &x) const noexcept { return gathered(x, *with_); }

    gather *with_;
};

namespace detail {

template <class X>
using plain_of = std::remove_cv_t<std::remove_reference_t<X>>;

template <class X>
struct is_value : std::false_type {};
template <class F>
struct is_value<value<F>> : std::true_type {};
template <class X>
struct is_gathered : std::false_type {};
template <class F>
struct is_gathered<gathered<F>> : std::true_type {};
template <class X>
struct is_unflagged : std::false_type {};
template <class F, rounding Mode>
struct is_unflagged<unflagged<F, Mode>> : std::true_type {};

// Of the type that a reference of any kind has deduced: values, and the operands of a gather that have a name.
template <class X>
inline constexpr bool has_no_mode =
    is_value<plain_of<X>>::value || (is_gathered<plain_of<X>>::value && !is_gathered<X>::value);

template <class X, class Y>
inline constexpr bool have_no_mode = (has_no_mode<X> && (has_no_mode<Y> || std::is_arithmetic_v<plain_of<Y>>)) ||
                                     (has_no_mode<Y> && std::is_arithmetic_v<plain_of<X>>);

template <class X, class Y>
inline constexpr bool have_two_modes = (is_gathered<plain_of<X>>::value && is_unflagged<plain_of<Y>>::value) ||
                                       (is_unflagged<plain_of<X>>::value && is_gathered<plain_of<Y>>::value);

// Their names are in the first line of what compilers say that have no other message.
struct use_unflagged_or_a_gather {};
struct unflagged_or_a_gather_but_not_both {};

} // namespace detail

// Uses that do not compile, each with a message.
#define APFLOAT_NO_MODE \
    "a value has no operators that round: write unflagged<F>(x), or flags(x) of a gather, or add(x, y, mode)"
#define APFLOAT_TWO_MODES "an operand of a gather and one that is unflagged: which of the two counts?"
#if __cplusplus > 202302L && defined(__cpp_deleted_function)
#define APFLOAT_REFUSES(message)
#define APFLOAT_REFUSED(message) = delete (message)
#elif defined(__clang__)
#define APFLOAT_REFUSES(message) __attribute__((unavailable(message)))
#define APFLOAT_REFUSED(message)
#else
#define APFLOAT_REFUSES(message)
#define APFLOAT_REFUSED(message) = delete
#endif

#define APFLOAT_REFUSED_OPERATOR(sign)                                                                            \
    template <class X, class Y, std::enable_if_t<detail::have_no_mode<X, Y>, int> = 0>                            \
    APFLOAT_REFUSES(APFLOAT_NO_MODE)                                                                              \
    detail::use_unflagged_or_a_gather operator sign(X &&, Y &&) APFLOAT_REFUSED(APFLOAT_NO_MODE);                 \
    template <class X, class Y, std::enable_if_t<detail::have_two_modes<X, Y>, int> = 0>                          \
    APFLOAT_REFUSES(APFLOAT_TWO_MODES)                                                                            \
    detail::unflagged_or_a_gather_but_not_both operator sign(X &&, Y &&) APFLOAT_REFUSED(APFLOAT_TWO_MODES);      \
    template <class X, class Y, std::enable_if_t<detail::have_no_mode<X &, Y>, int> = 0>                          \
    APFLOAT_REFUSES(APFLOAT_NO_MODE)                                                                              \
    detail::use_unflagged_or_a_gather operator sign##=(X &, Y &&) APFLOAT_REFUSED(APFLOAT_NO_MODE);               \
    template <class X, class Y, std::enable_if_t<detail::have_two_modes<X &, Y>, int> = 0>                        \
    APFLOAT_REFUSES(APFLOAT_TWO_MODES)                                                                            \
    detail::unflagged_or_a_gather_but_not_both operator sign##=(X &, Y &&) APFLOAT_REFUSED(APFLOAT_TWO_MODES);    \
    /* A value changes by the operand of a gather: sum += flags(x). */                                            \
    template <class X, class F, std::enable_if_t<std::is_same_v<X, value<F>>, int> = 0>                           \
    X &operator sign##=(X &x, gathered<F> &&y) noexcept {                                                         \
        return x = x sign static_cast<gathered<F> &&>(y);                                                         \
    }
APFLOAT_REFUSED_OPERATOR(+)
APFLOAT_REFUSED_OPERATOR(-)
APFLOAT_REFUSED_OPERATOR(*)
APFLOAT_REFUSED_OPERATOR(/)
#undef APFLOAT_REFUSED_OPERATOR
#undef APFLOAT_REFUSED
#undef APFLOAT_REFUSES
#undef APFLOAT_TWO_MODES
#undef APFLOAT_NO_MODE

/// A value whose operators round in one mode and drop all flags. Integers become values in the same way, and so do
/// those that it is compared with.
template <class F, rounding Mode>
class unflagged : public value<F> {
public:
    constexpr unflagged() = default;
    constexpr unflagged(const value<F> &x) noexcept : value<F>(x) {}
    template <class Host, std::enable_if_t<std::is_same_v<Host, typename F::host>, int> = 0>
    constexpr unflagged(Host x) noexcept : value<F>(x) {}
    template <class I, std::enable_if_t<detail::is_integer<I>, int> = 0>
    unflagged(I n) noexcept : value<F>(from_integer<F>(n, Mode).value) {}

    friend unflagged operator+(const unflagged &x, const unflagged &y) noexcept { return add(x, y, Mode).value; }
    friend unflagged operator-(const unflagged &x, const unflagged &y) noexcept { return sub(x, y, Mode).value; }
    friend unflagged operator*(const unflagged &x, const unflagged &y) noexcept { return mul(x, y, Mode).value; }
    friend unflagged operator/(const unflagged &x, const unflagged &y) noexcept { return div(x, y, Mode).value; }

    unflagged &operator+=(const unflagged &y) noexcept { return *this = *this + y; }
    unflagged &operator-=(const unflagged &y) noexcept { return *this = *this - y; }
    unflagged &operator*=(const unflagged &y) noexcept { return *this = *this * y; }
    unflagged &operator/=(const unflagged &y) noexcept { return *this = *this / y; }
    unflagged &operator++() noexcept { return *this += 1; }
    unflagged &operator--() noexcept { return *this -= 1; }
    unflagged operator++(int) noexcept { return std::exchange(*this, *this + 1); }
    unflagged operator--(int) noexcept { return std::exchange(*this, *this - 1); }

    constexpr unflagged operator-() const noexcept { return value<F>::operator-(); }
    constexpr unflagged operator+() const noexcept { return *this; }

    template <class I, std::enable_if_t<detail::is_integer<I>, int> = 0>
    friend bool operator==(const unflagged &x, I n) noexcept {
        return x.compared(n) == order::equal;
    }
#if defined(APFLOAT_HAS_THREE_WAY_COMPARISON)
    template <class I, std::enable_if_t<detail::is_integer<I>, int> = 0>
    friend std::partial_ordering operator<=>(const unflagged &x, I n) noexcept {
        return static_cast<const value<F> &>(x) <=> static_cast<const value<F> &>(unflagged(n));
    }
#else
    template <class I, std::enable_if_t<detail::is_integer<I>, int> = 0>
    friend bool operator!=(const unflagged &x, I n) noexcept {
        return x.compared(n) != order::equal;
    }
    template <class I, std::enable_if_t<detail::is_integer<I>, int> = 0>
    friend bool operator<(const unflagged &x, I n) noexcept {
        return x.compared(n) == order::less;
    }
    template <class I, std::enable_if_t<detail::is_integer<I>, int> = 0>
    friend bool operator>(const unflagged &x, I n) noexcept {
        return x.compared(n) == order::greater;
    }
    template <class I, std::enable_if_t<detail::is_integer<I>, int> = 0>
    friend bool operator<=(const unflagged &x, I n) noexcept {
        return x < n || x == n;
    }
    template <class I, std::enable_if_t<detail::is_integer<I>, int> = 0>
    friend bool operator>=(const unflagged &x, I n) noexcept {
        return x > n || x == n;
    }
    template <class I, std::enable_if_t<detail::is_integer<I>, int> = 0>
    friend bool operator==(I n, const unflagged &x) noexcept {
        return x == n;
    }
    template <class I, std::enable_if_t<detail::is_integer<I>, int> = 0>
    friend bool operator!=(I n, const unflagged &x) noexcept {
        return x != n;
    }
    template <class I, std::enable_if_t<detail::is_integer<I>, int> = 0>
    friend bool operator<(I n, const unflagged &x) noexcept {
        return x > n;
    }
    template <class I, std::enable_if_t<detail::is_integer<I>, int> = 0>
    friend bool operator>(I n, const unflagged &x) noexcept {
        return x < n;
    }
    template <class I, std::enable_if_t<detail::is_integer<I>, int> = 0>
    friend bool operator<=(I n, const unflagged &x) noexcept {
        return x >= n;
    }
    template <class I, std::enable_if_t<detail::is_integer<I>, int> = 0>
    friend bool operator>=(I n, const unflagged &x) noexcept {
        return x <= n;
    }
#endif

    friend unflagged sqrt(const unflagged &x) noexcept { return apfloat::sqrt<F>(x, Mode).value; }
    friend unflagged fma(const unflagged &x, const unflagged &y, const unflagged &z) noexcept {
        return apfloat::fma<F>(x, y, z, Mode).value;
    }

    friend unflagged fmod(const unflagged &x, const unflagged &y) noexcept { return mod<F>(x, y).value; }
    friend unflagged remainder(const unflagged &x, const unflagged &y) noexcept { return rem<F>(x, y).value; }
    friend unflagged floor(const unflagged &x) noexcept { return apfloat::floor<F>(x).value; }
    friend unflagged ceil(const unflagged &x) noexcept { return apfloat::ceil<F>(x).value; }
    friend unflagged trunc(const unflagged &x) noexcept { return apfloat::trunc<F>(x).value; }
    friend unflagged round(const unflagged &x) noexcept { return apfloat::round<F>(x).value; }
    friend unflagged rint(const unflagged &x) noexcept { return apfloat::rint<F>(x, Mode).value; }
    friend unflagged nearbyint(const unflagged &x) noexcept { return apfloat::nearbyint<F>(x, Mode).value; }
    friend unflagged scalbn(const unflagged &x, std::int32_t power) noexcept {
        return apfloat::scalbn<F>(x, power, Mode).value;
    }
    friend unflagged ldexp(const unflagged &x, std::int32_t power) noexcept { return scalbn(x, power); }
    friend unflagged frexp(const unflagged &x, int *exponent) noexcept {
        return apfloat::frexp<F>(x, exponent, Mode).value;
    }
    friend unflagged logb(const unflagged &x) noexcept { return apfloat::logb<F>(x, Mode).value; }
    friend constexpr unflagged nextafter(const unflagged &x, const unflagged &y) noexcept {
        return apfloat::nextafter<F>(x, y).value;
    }
    friend constexpr unflagged abs(const unflagged &x) noexcept { return apfloat::abs<F>(x); }
    friend constexpr unflagged fabs(const unflagged &x) noexcept { return apfloat::abs<F>(x); }
    friend constexpr unflagged copysign(const unflagged &x, const unflagged &y) noexcept {
        return copy_sign<F>(x, y);
    }
    friend constexpr unflagged fmin(const unflagged &x, const unflagged &y) noexcept {
        return apfloat::min<F>(x, y);
    }
    friend constexpr unflagged fmax(const unflagged &x, const unflagged &y) noexcept {
        return apfloat::max<F>(x, y);
    }

private:
    template <class I>
    order compared(I n) const noexcept {
        return compare<F>(*this, unflagged(n));
    }
};

// ---- arrays

/// Of a call on arrays: how many values there were, how many of them raised each flag, and how many results are NaNs.
struct [[nodiscard]] array_counts {
    std::uint64_t values, inexact, underflow, overflow, div_by_zero, invalid_op, nans;
    flags status; ///< the flags that any value raised
};

/// What becomes of numbers past the largest value of the target: as a conversion has it, or the largest value of their
/// sign, with the same flags. The last two make infinities the largest value of their sign too, with inexact; the last
/// one makes NaNs the largest value, with invalid_op.
enum class overflowing : std::uint32_t {
    rounds = 0,
    saturates = APFLOAT_SATURATE,
    saturates_finite = APFLOAT_SATURATE_FINITE,
    saturates_all = APFLOAT_SATURATE_ALL
};

/// The operations on arrays.
enum class array_operation : std::uint32_t {
    add = APFLOAT_ADD,
    sub = APFLOAT_SUB,
    mul = APFLOAT_MUL,
    div = APFLOAT_DIV,
    rem = APFLOAT_REM,
    mod = APFLOAT_MOD,
    fma = APFLOAT_FMA,
    sqrt = APFLOAT_SQRT
};

namespace detail {

// Values as the bytes of an array, which are not null, not even if there are none.
template <class F>
const std::uint8_t *bytes_of(const value<F> *values) noexcept {
    // Three bytes are four in an array.
    constexpr int bytes = (F::width + 7) / 8;
    static_assert(sizeof(value<F>) == (bytes == 3 ? 4 : bytes),
                  "values of this format have padding; apfloat.h has calls on bytes");
    static constexpr std::uint8_t none = 0;
    return values == nullptr ? &none : reinterpret_cast<const std::uint8_t *>(values);
}

template <class F>
std::uint8_t *bytes_of(value<F> *values) noexcept {
    // Nothing is written to an array that is empty.
    return const_cast<std::uint8_t *>(bytes_of(static_cast<const value<F> *>(values)));
}

// The bytes of an array are those of a value's bits, the lowest first.
inline bool has_lowest_byte_first() noexcept {
    const std::uint16_t one = 1;
    return *reinterpret_cast<const std::uint8_t *>(&one) == 1;
}

inline expected<array_counts> counts_of(apfloat_error code, const apfloat_array_answer &answer) noexcept {
    if (code != APFLOAT_ANSWERED) return static_cast<errc>(code);
    return array_counts{answer.values,      answer.inexact,    answer.underflow, answer.overflow,
                        answer.div_by_zero, answer.invalid_op, answer.nans,      flags::of_code(answer.status)};
}

template <class T>
struct not_deduced {
    using type = T;
};

} // namespace detail

namespace detail {

// A storage format: its values are only stored and converted, in arrays (FORMATS.md).
template <apfloat_format Code, int Width>
struct storage {
    static constexpr apfloat_format code = Code;
    static constexpr int width = Width;
    static constexpr bool is_storage = true;
};

template <class F, class = void>
struct is_storage : std::false_type {};
template <class F>
struct is_storage<F, std::enable_if_t<F::is_storage>> : std::true_type {};

} // namespace detail

/// 4 bits: 0, 0.5, 1, 1.5, 2, 3, 4, 6 and their negatives.
struct e2m1fn : detail::storage<APFLOAT_E2M1FN, 4> {};
/// 6 bits with 2 of the exponent, to 7.5.
struct e2m3fn : detail::storage<APFLOAT_E2M3FN, 6> {};
/// 6 bits with 3 of the exponent, to 28.
struct e3m2fn : detail::storage<APFLOAT_E3M2FN, 6> {};
/// 8 bits with 3 of the exponent, with infinities and NaNs.
struct e3m4 : detail::storage<APFLOAT_E3M4, 8> {};
/// 8 bits: the powers of two from 2^-127 to 2^127, and a NaN.
struct e8m0fnu : detail::storage<APFLOAT_E8M0FNU, 8> {};
/// 7 bits: the numbers of `e4m3fn` that are not below zero, and a NaN.
struct ue4m3 : detail::storage<APFLOAT_UE4M3, 7> {};

/// A value of a storage format as its bits, the lowest of a byte. Without an argument all of them are 0.
template <class F>
class stored {
public:
    using format = F;

    constexpr stored() = default;

    /// The value with these bits; those above the width of the format are ignored.
    static constexpr stored from_bits(std::uint8_t bits) noexcept {
        stored made;
        made.bits_ = static_cast<std::uint8_t>(bits & ((1u << F::width) - 1));
        return made;
    }
    constexpr std::uint8_t bits() const noexcept { return bits_; }

private:
    std::uint8_t bits_ = 0;
};

namespace detail {

template <class F>
const std::uint8_t *bytes_of(const stored<F> *values) noexcept {
    static_assert(sizeof(stored<F>) == 1, "a value of a storage format is a byte");
    static constexpr std::uint8_t none = 0;
    return values == nullptr ? &none : reinterpret_cast<const std::uint8_t *>(values);
}

template <class F>
std::uint8_t *bytes_of(stored<F> *values) noexcept {
    return const_cast<std::uint8_t *>(bytes_of(static_cast<const stored<F> *>(values)));
}

template <class From, class To>
expected<array_counts> convert_values(const From *values, std::size_t count, To *results, rounding mode,
                                      overflowing large) noexcept {
    if (!has_lowest_byte_first()) return errc::no_such_operation;
    const bool is_missing = count != 0 && (values == nullptr || results == nullptr);
    const std::size_t present = is_missing ? 0 : count;
    apfloat_array_answer answer = {0, 0, 0, 0, 0, 0, 0, 0, 0};
    const apfloat_error code = apfloat_convert_array_in_place(
        From::format::code, code_of(mode) | static_cast<apfloat_mode>(large), To::format::code, bytes_of(values),
        present * sizeof(From), bytes_of(results), present * sizeof(To), &answer);
    if (code == APFLOAT_ANSWERED && is_missing) return errc::wrong_length;
    return counts_of(code, answer);
}

} // namespace detail

/// Converts `count` values, each rounded once. The results may begin where the values do; if they overlap in another
/// way, the error is overlapping_arrays, and if an array is null and `count` is not 0, wrong_length. `x87` has no such
/// arrays, and on a processor that stores the highest byte first the error is no_such_operation.
template <class To, class From,
          std::enable_if_t<!detail::is_storage<To>::value && !detail::is_storage<From>::value, int> = 0>
expected<array_counts> convert_array(const value<From> *values, std::size_t count, value<To> *results,
                                     rounding mode = rounding::nearest_even,
                                     overflowing large = overflowing::rounds) noexcept {
    static_assert(!To::is_pair && !From::is_pair, "there is no conversion from or to pairs of doubles");
    return detail::convert_values(values, count, results, mode, large);
}

/// The same, into a storage format.
template <class To, class From, std::enable_if_t<detail::is_storage<To>::value, int> = 0>
expected<array_counts> convert_array(const value<From> *values, std::size_t count, stored<To> *results,
                                     rounding mode = rounding::nearest_even,
                                     overflowing large = overflowing::rounds) noexcept {
    static_assert(!From::is_pair, "there is no conversion from pairs of doubles");
    return detail::convert_values(values, count, results, mode, large);
}

/// The same, out of a storage format.
template <class To, class From, std::enable_if_t<detail::is_storage<From>::value, int> = 0>
expected<array_counts> convert_array(const stored<From> *values, std::size_t count, value<To> *results,
                                     rounding mode = rounding::nearest_even,
                                     overflowing large = overflowing::rounds) noexcept {
    static_assert(!To::is_pair, "there is no conversion to pairs of doubles");
    return detail::convert_values(values, count, results, mode, large);
}

/// The same for values of 16 bits, with memory lent to the call: with at least APFLOAT_TABLE_BYTES of it, the results
/// of long arrays in a format of at most 32 bits are taken from a table of all results, which the call makes there. No
/// pointer is null, `table` overlaps nothing else, and its contents are unspecified afterwards.
template <class To, class From>
expected<array_counts> convert_array_by_table(const value<From> *values, std::size_t count, value<To> *results,
                                              unsigned char *table, std::size_t table_length,
                                              rounding mode = rounding::nearest_even,
                                              overflowing large = overflowing::rounds) noexcept {
    static_assert(sizeof(value<From>) == 2, "a table is for values of 16 bits");
    static_assert(sizeof(value<To>) <= 4, "a table has results of at most 32 bits");
    if (!detail::has_lowest_byte_first()) return errc::no_such_operation;
    if (values == nullptr || results == nullptr) return errc::wrong_length;
    apfloat_array_answer answer = {0, 0, 0, 0, 0, 0, 0, 0, 0};
    const apfloat_error code = apfloat_convert_array_by_table(
        From::code, detail::code_of(mode) | static_cast<apfloat_mode>(large), To::code, detail::bytes_of(values),
        count * sizeof(value<From>), detail::bytes_of(results), count * sizeof(value<To>), table, table_length,
        &answer);
    return detail::counts_of(code, answer);
}

/// Makes an operation on each element of xs, or on the elements of xs and ys, or of xs, ys and zs: as many arrays of
/// `count` values as the operation has operands, else wrong_length, as for results that are null. `results` may be one
/// of the operands; if it overlaps one in another way, the error is overlapping_arrays.
template <class F>
expected<array_counts> map_array(array_operation operation, std::size_t count, value<F> *results, rounding mode,
                                 const typename detail::not_deduced<value<F>>::type *xs,
                                 const typename detail::not_deduced<value<F>>::type *ys = nullptr,
                                 const typename detail::not_deduced<value<F>>::type *zs = nullptr) noexcept {
    if (!detail::has_lowest_byte_first()) return errc::no_such_operation;
    const bool is_missing = count != 0 && (xs == nullptr || results == nullptr);
    const std::size_t present = is_missing ? 0 : count * sizeof(value<F>);
    const auto length = [&](const value<F> *operand) { return operand == nullptr ? 0 : present; };
    apfloat_array_answer answer = {0, 0, 0, 0, 0, 0, 0, 0, 0};
    const apfloat_error code = apfloat_map_array_in_place(
        F::code, detail::code_of(mode), static_cast<apfloat_operation>(operation), detail::bytes_of(xs), length(xs),
        detail::bytes_of(ys), length(ys), detail::bytes_of(zs), length(zs), detail::bytes_of(results), present,
        &answer);
    if (code == APFLOAT_ANSWERED && is_missing) return errc::wrong_length;
    return detail::counts_of(code, answer);
}

/// The same for two arrays of values of 8 bits, with memory lent to the call: with at least APFLOAT_TABLE_BYTES of it,
/// the results of long arrays are taken from a table of all results, which the call makes there. `table` is not null,
/// overlaps nothing else, and its contents are unspecified afterwards.
template <class F>
expected<array_counts> map_array_by_table(array_operation operation, std::size_t count, value<F> *results,
                                          rounding mode, const typename detail::not_deduced<value<F>>::type *xs,
                                          const typename detail::not_deduced<value<F>>::type *ys,
                                          unsigned char *table, std::size_t table_length) noexcept {
    static_assert(sizeof(value<F>) == 1, "a table is for values of 8 bits");
    if (xs == nullptr || ys == nullptr || results == nullptr) return errc::wrong_length;
    apfloat_array_answer answer = {0, 0, 0, 0, 0, 0, 0, 0, 0};
    const apfloat_error code = apfloat_map_array_by_table(
        F::code, detail::code_of(mode), static_cast<apfloat_operation>(operation), detail::bytes_of(xs), count,
        detail::bytes_of(ys), count, detail::bytes_of(ys), 0, detail::bytes_of(results), count, table, table_length,
        &answer);
    return detail::counts_of(code, answer);
}

// ---- exact sums of arrays

namespace detail {

// The answer of an exact sum of values that are there, or the error.
template <class F, class... Parameters, class... Arrays>
expected<result<value<F>>> exact_sum(apfloat_error (*call)(Parameters...), rounding mode, bool is_missing,
                                     Arrays... arrays) noexcept {
    static_assert(!F::is_pair, "pairs of doubles have no exact sums");
    if (!has_lowest_byte_first()) return errc::no_such_operation;
    apfloat_answer answer = {{0, 0}, 0, 0};
    const apfloat_error code = call(F::code, code_of(mode), arrays..., &answer);
    if (code != APFLOAT_ANSWERED) return static_cast<errc>(code);
    if (is_missing) return errc::wrong_length;
    return result_of<F>(answer);
}

template <class F, class... Parameters>
expected<result<value<F>>> exact_sum_of_one(apfloat_error (*call)(Parameters...), const value<F> *xs,
                                            std::size_t count, rounding mode) noexcept {
    const bool is_missing = count != 0 && xs == nullptr;
    const std::size_t length = is_missing ? 0 : count * sizeof(value<F>);
    return exact_sum<F>(call, mode, is_missing, bytes_of(xs), length);
}

} // namespace detail

/// The sum of `count` values, of their magnitudes, or of their squares: the exact sum, rounded once, whatever their
/// order (IEEE 754-2019 9.4; apfloat.h says what NaNs, infinities and zeros give). If `xs` is null and `count` is not
/// 0, the error is wrong_length, and on a processor that stores the highest byte first it is no_such_operation.
template <class F>
expected<result<value<F>>> sum(const value<F> *xs, std::size_t count,
                               rounding mode = rounding::nearest_even) noexcept {
    return detail::exact_sum_of_one(apfloat_sum, xs, count, mode);
}
template <class F>
expected<result<value<F>>> sum_abs(const value<F> *xs, std::size_t count,
                                   rounding mode = rounding::nearest_even) noexcept {
    return detail::exact_sum_of_one(apfloat_sum_abs, xs, count, mode);
}
template <class F>
expected<result<value<F>>> sum_square(const value<F> *xs, std::size_t count,
                                      rounding mode = rounding::nearest_even) noexcept {
    return detail::exact_sum_of_one(apfloat_sum_square, xs, count, mode);
}

/// The dot product: the sum of the products of the values at the same places of two arrays, likewise.
template <class F>
expected<result<value<F>>> dot(const value<F> *xs, const value<F> *ys, std::size_t count,
                               rounding mode = rounding::nearest_even) noexcept {
    const bool is_missing = count != 0 && (xs == nullptr || ys == nullptr);
    const std::size_t length = is_missing ? 0 : count * sizeof(value<F>);
    return detail::exact_sum<F>(apfloat_dot, mode, is_missing, detail::bytes_of(xs), length, detail::bytes_of(ys),
                                length);
}

/// The value alone; its flags are joined to those of the gather. An error joins none.
template <class F>
expected<value<F>> sum(const value<F> *xs, std::size_t count, gather &with) noexcept {
    return detail::joined(sum(xs, count, with.mode()), with);
}
template <class F>
expected<value<F>> sum_abs(const value<F> *xs, std::size_t count, gather &with) noexcept {
    return detail::joined(sum_abs(xs, count, with.mode()), with);
}
template <class F>
expected<value<F>> sum_square(const value<F> *xs, std::size_t count, gather &with) noexcept {
    return detail::joined(sum_square(xs, count, with.mode()), with);
}
template <class F>
expected<value<F>> dot(const value<F> *xs, const value<F> *ys, std::size_t count, gather &with) noexcept {
    return detail::joined(dot(xs, ys, count, with.mode()), with);
}

// ---- blocks with a common scale

namespace detail {

// The formats of elements in blocks.
template <class F>
struct is_element : std::false_type {};
template <>
struct is_element<e5m2> : std::true_type {};
template <>
struct is_element<e4m3fn> : std::true_type {};
template <>
struct is_element<e3m2fn> : std::true_type {};
template <>
struct is_element<e2m3fn> : std::true_type {};
template <>
struct is_element<e2m1fn> : std::true_type {};

inline std::size_t blocks_of(std::size_t count, std::size_t length) noexcept {
    return length == 0 ? 0 : count / length;
}

} // namespace detail

/// Which scale a block of a microscaling format has: that of the OCP's rule, the least one by which no value is past
/// the largest number of the elements, or the first for magnitudes rounded to the digits of an element.
enum class scale_rule : std::uint32_t { floor = 0, ceil = APFLOAT_SCALE_CEIL, even = APFLOAT_SCALE_EVEN };

/// Quantizes `count` values in blocks of `length`, in the microscaling formats of the OCP (apfloat.h): the scale of
/// each block, and the code of each element, a `value` of `e5m2` or `e4m3fn`, or a `stored` one of `e3m2fn`, `e2m3fn`
/// or `e2m1fn`. The arrays do not overlap; if one is null and `count` is not 0, or `length` is 0 or does not divide
/// `count`, the error is wrong_length.
template <class From, class Code>
expected<array_counts> quantize_blocks(const value<From> *values, std::size_t count, std::size_t length,
                                       stored<e8m0fnu> *scales, Code *codes,
                                       rounding mode = rounding::nearest_even,
                                       scale_rule rule = scale_rule::floor) noexcept {
    static_assert(!From::is_pair, "there are no blocks of pairs of doubles");
    static_assert(detail::is_element<typename Code::format>::value, "this is no format of elements in blocks");
    if (!detail::has_lowest_byte_first()) return errc::no_such_operation;
    const bool is_missing = count != 0 && (values == nullptr || scales == nullptr || codes == nullptr);
    const std::size_t present = is_missing ? 0 : count;
    apfloat_array_answer answer = {0, 0, 0, 0, 0, 0, 0, 0, 0};
    const auto joined = static_cast<std::uint32_t>(detail::code_of(mode)) | static_cast<std::uint32_t>(rule);
    const apfloat_error code = apfloat_quantize_blocks(
        From::code, static_cast<apfloat_mode>(joined), Code::format::code, length, detail::bytes_of(values),
        present * sizeof(value<From>), detail::bytes_of(scales), detail::blocks_of(present, length),
        detail::bytes_of(codes), present, &answer);
    if (code == APFLOAT_ANSWERED && is_missing) return errc::wrong_length;
    return detail::counts_of(code, answer);
}

/// Takes `count` values out of blocks of `length`: each element times the scale of its block, rounded once.
template <class To, class Code>
expected<array_counts> dequantize_blocks(const stored<e8m0fnu> *scales, const Code *codes, std::size_t count,
                                         std::size_t length, value<To> *results,
                                         rounding mode = rounding::nearest_even) noexcept {
    static_assert(!To::is_pair, "there are no blocks of pairs of doubles");
    static_assert(detail::is_element<typename Code::format>::value, "this is no format of elements in blocks");
    if (!detail::has_lowest_byte_first()) return errc::no_such_operation;
    const bool is_missing = count != 0 && (scales == nullptr || codes == nullptr || results == nullptr);
    const std::size_t present = is_missing ? 0 : count;
    apfloat_array_answer answer = {0, 0, 0, 0, 0, 0, 0, 0, 0};
    const apfloat_error code = apfloat_dequantize_blocks(
        Code::format::code, detail::code_of(mode), To::code, length, detail::bytes_of(scales),
        detail::blocks_of(present, length), detail::bytes_of(codes), present, detail::bytes_of(results),
        present * sizeof(value<To>), &answer);
    if (code == APFLOAT_ANSWERED && is_missing) return errc::wrong_length;
    return detail::counts_of(code, answer);
}

/// How many elements a block of NVFP4 has.
inline constexpr std::size_t nvfp4_block = 16;

/// Quantizes `count` values in blocks of NVFP4 (apfloat.h) with the scale of their tensor: the scale of each block, and
/// the code of each element. The arrays do not overlap; if the scale of the tensor is not positive, the error is
/// no_such_operation, and wrong_length as for quantize_blocks.
template <class From>
expected<array_counts> quantize_nvfp4(const value<From> *values, std::size_t count, const value<binary32> &tensor,
                                      value<e4m3fn> *scales, stored<e2m1fn> *codes,
                                      rounding mode = rounding::nearest_even) noexcept {
    static_assert(!From::is_pair, "there are no blocks of pairs of doubles");
    if (!detail::has_lowest_byte_first()) return errc::no_such_operation;
    const bool is_missing = count != 0 && (values == nullptr || scales == nullptr || codes == nullptr);
    const std::size_t present = is_missing ? 0 : count;
    apfloat_array_answer answer = {0, 0, 0, 0, 0, 0, 0, 0, 0};
    const apfloat_error code = apfloat_quantize_nvfp4(
        From::code, detail::code_of(mode), tensor.bits(), nvfp4_block, detail::bytes_of(values),
        present * sizeof(value<From>), detail::bytes_of(scales), present / nvfp4_block, detail::bytes_of(codes),
        present, &answer);
    if (code == APFLOAT_ANSWERED && is_missing) return errc::wrong_length;
    return detail::counts_of(code, answer);
}

/// Takes `count` values out of blocks of NVFP4: each element times both scales, rounded once. If a scale has a sign,
/// the error is wide_operand.
template <class To>
expected<array_counts> dequantize_nvfp4(const value<e4m3fn> *scales, const stored<e2m1fn> *codes, std::size_t count,
                                        const value<binary32> &tensor, value<To> *results,
                                        rounding mode = rounding::nearest_even) noexcept {
    static_assert(!To::is_pair, "there are no blocks of pairs of doubles");
    if (!detail::has_lowest_byte_first()) return errc::no_such_operation;
    const bool is_missing = count != 0 && (scales == nullptr || codes == nullptr || results == nullptr);
    const std::size_t present = is_missing ? 0 : count;
    apfloat_array_answer answer = {0, 0, 0, 0, 0, 0, 0, 0, 0};
    const apfloat_error code = apfloat_dequantize_nvfp4(
        tensor.bits(), detail::code_of(mode), To::code, nvfp4_block, detail::bytes_of(scales), present / nvfp4_block,
        detail::bytes_of(codes), present, detail::bytes_of(results), present * sizeof(value<To>), &answer);
    if (code == APFLOAT_ANSWERED && is_missing) return errc::wrong_length;
    return detail::counts_of(code, answer);
}

/// A vector in blocks of `length` elements of a microscaling format: the scale of each block, and the codes of the
/// elements.
template <class Code>
struct mx_vector {
    static_assert(detail::is_element<typename Code::format>::value, "this is no format of elements in blocks");
    const stored<e8m0fnu> *scales;
    const Code *codes;
    std::size_t length;
    static constexpr apfloat_format element = Code::format::code;
    static constexpr value<binary32> tensor = {};
};

/// A vector in blocks of NVFP4, and the scale of its tensor.
struct nvfp4_vector {
    const value<e4m3fn> *scales;
    const stored<e2m1fn> *codes;
    value<binary32> tensor;
    std::size_t length = nvfp4_block;
    static constexpr apfloat_format element = APFLOAT_NVFP4;
};

/// The exact dot product of two vectors of `count` elements in blocks, whatever their formats and lengths, rounded once
/// to the format `To` (apfloat.h). Errors are those of dequantize_blocks and dequantize_nvfp4.
template <class To, class X, class Y>
expected<result<value<To>>> dot_blocks(const X &x, const Y &y, std::size_t count,
                                       rounding mode = rounding::nearest_even) noexcept {
    const bool are_there = x.scales != nullptr && x.codes != nullptr && y.scales != nullptr && y.codes != nullptr;
    const bool is_missing = count != 0 && !are_there;
    const std::size_t present = is_missing ? 0 : count;
    return detail::exact_sum<To>(
        apfloat_dot_blocks, mode, is_missing, X::element, x.tensor.bits(), x.length, detail::bytes_of(x.scales),
        detail::blocks_of(present, x.length), detail::bytes_of(x.codes), present, Y::element, y.tensor.bits(),
        y.length, detail::bytes_of(y.scales), detail::blocks_of(present, y.length), detail::bytes_of(y.codes), present);
}
template <class To, class X, class Y>
expected<value<To>> dot_blocks(const X &x, const Y &y, std::size_t count, gather &with) noexcept {
    return detail::joined(dot_blocks<To>(x, y, count, with.mode()), with);
}

/// The scale of a tensor of NVFP4: the greatest magnitude over 2688, rounded once to nearest, at most the largest
/// value, and 1 in place of 0. If a value is an infinity or a NaN, the error is no_such_operation.
template <class From>
expected<value<binary32>> nvfp4_tensor_scale(const value<From> *values, std::size_t count) noexcept {
    static_assert(!From::is_pair, "there are no blocks of pairs of doubles");
    if (count != 0 && values == nullptr) return errc::wrong_length;
    value<From> greatest;
    for (std::size_t i = 0; i < count; i++) {
        if (!is_finite(values[i])) return errc::no_such_operation;
        if (abs(values[i]) > greatest) greatest = abs(values[i]);
    }
    const auto exact = convert<binary128>(greatest).value, most = value<binary128>::from_double(2688).value;
    const auto scale = div_to<binary32>(exact, most).value;
    if (!is_finite(scale)) return value<binary32>::from_bits(binary32::constants.largest);
    return is_zero(scale) ? value<binary32>(1.0f) : scale;
}

// ---- formats of IEEE P3109, one value

/// A format of IEEE P3109 by its constants: its width, its precision, whether there is a sign, and whether there are
/// infinities. Constants that no format has are refused with the error unknown_format.
struct p3109 {
    std::uint32_t bits;
    std::uint32_t precision;
    bool is_signed = true;
    bool is_extended = true;

    /// The code of a value, rounded once: p3109{8, 4}.encode(x). NaNs do not saturate (unknown_mode).
    template <class From>
    expected<result<std::uint16_t>> encode(const value<From> &x, rounding mode = rounding::nearest_even,
                                           overflowing large = overflowing::rounds) const noexcept {
        return encoded(x, detail::code_of(mode) | static_cast<apfloat_mode>(large));
    }

    /// The code of a value, rounded to odd.
    template <class From>
    expected<result<std::uint16_t>> encode_odd(const value<From> &x,
                                               overflowing large = overflowing::rounds) const noexcept {
        return encoded(x, APFLOAT_TO_ODD | static_cast<apfloat_mode>(large));
    }

    /// The code of a value, rounded with the lowest `digits` binary digits of a random number, in the way 'a', 'b' or
    /// 'c' of P3109 (unknown_mode for another). If there are not 1 to 32 of them, the error is wrong_width.
    template <class From>
    expected<result<std::uint16_t>> encode_random(const value<From> &x, std::uint32_t digits, std::uint32_t random,
                                                  char way = 'a',
                                                  overflowing large = overflowing::rounds) const noexcept {
        if (way < 'a' || way > 'c') return errc::unknown_mode;
        const auto mode = static_cast<apfloat_mode>(APFLOAT_RANDOM_DIGITS + static_cast<unsigned>(way - 'a'));
        return encoded(x, mode | static_cast<apfloat_mode>(large), digits, random);
    }

    /// The value of a code in another format, rounded once: p3109{8, 4}.decode<binary32>(code). The bits above those of
    /// this format are ignored. The rule of the format `To` decides the flags.
    template <class To>
    expected<result<value<To>>> decode(std::uint16_t code, rounding mode = rounding::nearest_even) const noexcept {
        static_assert(!To::is_pair, "there is no conversion to pairs of doubles");
        apfloat_answer answer = {{0, 0}, 0, 0};
        const apfloat_error error = apfloat_from_p3109(constants(), detail::code_of(mode), To::code, code, &answer);
        if (error != APFLOAT_ANSWERED) return static_cast<errc>(error);
        return detail::result_of<To>(answer);
    }

private:
    apfloat_p3109 constants() const noexcept { return {bits, precision, is_signed ? 1u : 0u, is_extended ? 1u : 0u}; }

    template <class From>
    expected<result<std::uint16_t>> encoded(const value<From> &x, apfloat_mode mode, std::uint32_t digits = 0,
                                            std::uint32_t random = 0) const noexcept {
        static_assert(!From::is_pair, "there is no conversion from pairs of doubles");
        apfloat_answer answer = {{0, 0}, 0, 0};
        const apfloat_error error =
            apfloat_to_p3109_by(From::code, mode, constants(), digits, random, x.halves(), &answer);
        if (error != APFLOAT_ANSWERED) return static_cast<errc>(error);
        return result<std::uint16_t>{static_cast<std::uint16_t>(answer.bits.low), flags::of_code(answer.status)};
    }
};

// ---- storage formats, one value

/// A value in a storage format, rounded once: to_storage<e2m1fn>(x).
template <class To, class From>
result<stored<To>> to_storage(const value<From> &x, rounding mode = rounding::nearest_even,
                              overflowing large = overflowing::rounds) noexcept {
    static_assert(detail::is_storage<To>::value, "this is no storage format");
    static_assert(!From::is_pair, "there is no conversion from pairs of doubles");
    const auto answer =
        detail::answer_of(apfloat_to_storage, From::code, detail::code_of(mode) | static_cast<apfloat_mode>(large),
                          To::code, x.halves());
    return {stored<To>::from_bits(static_cast<std::uint8_t>(answer.bits.low)), flags::of_code(answer.status)};
}

/// A value of a storage format in another one, rounded once: from_storage<binary32>(x). The rule of the format `To`
/// decides the flags.
template <class To, class From>
result<value<To>> from_storage(const stored<From> &x, rounding mode = rounding::nearest_even,
                               overflowing large = overflowing::rounds) noexcept {
    static_assert(!To::is_pair, "there is no conversion to pairs of doubles");
    return detail::result_of<To>(
        detail::answer_of(apfloat_from_storage, From::code, detail::code_of(mode) | static_cast<apfloat_mode>(large),
                          To::code, static_cast<std::uint32_t>(x.bits())));
}

namespace detail {

template <class F>
result<stored<F>> stored_result(const apfloat_answer &answer) noexcept {
    return {stored<F>::from_bits(static_cast<std::uint8_t>(answer.bits.low)), flags::of_code(answer.status)};
}

template <class F>
result<stored<F>> operate(apfloat_operation operation, rounding mode, const stored<F> &x, const stored<F> &y,
                          const stored<F> &z) noexcept {
    static_assert(std::is_same_v<F, e2m1fn> || std::is_same_v<F, e2m3fn> || std::is_same_v<F, e3m2fn>,
                  "this storage format has no operations");
    return stored_result<F>(answer_of(apfloat_storage_operation, F::code, code_of(mode), operation,
                                      std::uint32_t{x.bits()}, std::uint32_t{y.bits()}, std::uint32_t{z.bits()}));
}

} // namespace detail

/// A value of a storage format in another one, rounded once: to_storage<e2m1fn>(x).
template <class To, class From>
result<stored<To>> to_storage(const stored<From> &x, rounding mode = rounding::nearest_even,
                              overflowing large = overflowing::rounds) noexcept {
    static_assert(detail::is_storage<To>::value, "this is no storage format");
    return detail::stored_result<To>(detail::answer_of(
        apfloat_between_storage, From::code, detail::code_of(mode) | static_cast<apfloat_mode>(large), To::code,
        std::uint32_t{x.bits()}));
}

/// Operations on numbers of `e2m1fn`, `e2m3fn` and `e3m2fn`, rounded once. Past the largest number the result is that
/// number, and so it is in place of an infinity, with div_by_zero; in place of a NaN it is +0, with invalid_op.
template <class F>
result<stored<F>> add(const stored<F> &x, const stored<F> &y, rounding mode = rounding::nearest_even) noexcept {
    return detail::operate(APFLOAT_ADD, mode, x, y, y);
}
template <class F>
result<stored<F>> sub(const stored<F> &x, const stored<F> &y, rounding mode = rounding::nearest_even) noexcept {
    return detail::operate(APFLOAT_SUB, mode, x, y, y);
}
template <class F>
result<stored<F>> mul(const stored<F> &x, const stored<F> &y, rounding mode = rounding::nearest_even) noexcept {
    return detail::operate(APFLOAT_MUL, mode, x, y, y);
}
template <class F>
result<stored<F>> div(const stored<F> &x, const stored<F> &y, rounding mode = rounding::nearest_even) noexcept {
    return detail::operate(APFLOAT_DIV, mode, x, y, y);
}
/// x * y + z
template <class F>
result<stored<F>> fma(const stored<F> &x, const stored<F> &y, const stored<F> &z,
                      rounding mode = rounding::nearest_even) noexcept {
    return detail::operate(APFLOAT_FMA, mode, x, y, z);
}
template <class F>
result<stored<F>> sqrt(const stored<F> &x, rounding mode = rounding::nearest_even) noexcept {
    return detail::operate(APFLOAT_SQRT, mode, x, x, x);
}

/// The lesser and the greater number; -0 is below +0 (IEEE 754-2019 9.6).
template <class F>
stored<F> minimum(const stored<F> &x, const stored<F> &y) noexcept {
    return detail::operate(APFLOAT_LEAST, rounding::nearest_even, x, y, y).value;
}
template <class F>
stored<F> maximum(const stored<F> &x, const stored<F> &y) noexcept {
    return detail::operate(APFLOAT_GREATEST, rounding::nearest_even, x, y, y).value;
}

/// The order of two values of any storage format.
template <class F>
order compare(const stored<F> &x, const stored<F> &y) noexcept {
    return compare(from_storage<binary32>(x).value, from_storage<binary32>(y).value);
}

// ---- storage formats, to odd and with random digits

/// A value in a storage format, rounded to odd.
template <class To, class From>
result<stored<To>> to_storage_odd(const value<From> &x) noexcept {
    static_assert(detail::is_storage<To>::value, "this is no storage format");
    static_assert(!From::is_pair, "there is no conversion from pairs of doubles");
    const auto answer =
        detail::answer_of(apfloat_to_storage_by, From::code, APFLOAT_TO_ODD, To::code, 0u, 0u, x.halves());
    return {stored<To>::from_bits(static_cast<std::uint8_t>(answer.bits.low)), flags::of_code(answer.status)};
}

/// A value in a storage format, rounded with the lowest `digits` binary digits of a random number. If there are not 1
/// to 32 of them, the error is wrong_width.
template <class To, class From>
expected<result<stored<To>>> to_storage_random(const value<From> &x, std::uint32_t digits,
                                               std::uint32_t random) noexcept {
    static_assert(detail::is_storage<To>::value, "this is no storage format");
    static_assert(!From::is_pair, "there is no conversion from pairs of doubles");
    apfloat_answer answer = {{0, 0}, 0, 0};
    const apfloat_error code = apfloat_to_storage_by(From::code, APFLOAT_RANDOM_DIGITS, To::code, digits, random,
                                                     x.halves(), &answer);
    if (code != APFLOAT_ANSWERED) return static_cast<errc>(code);
    return result<stored<To>>{stored<To>::from_bits(static_cast<std::uint8_t>(answer.bits.low)),
                              flags::of_code(answer.status)};
}

namespace detail {

template <class From, class To>
expected<array_counts> convert_by(apfloat_mode mode, std::uint32_t digits, const std::uint32_t *randoms,
                                  const value<From> *values, std::size_t count, stored<To> *results) noexcept {
    static_assert(is_storage<To>::value, "this is no storage format");
    static_assert(!From::is_pair, "there is no conversion from pairs of doubles");
    if (!has_lowest_byte_first()) return errc::no_such_operation;
    const bool is_random = mode == APFLOAT_RANDOM_DIGITS;
    if (count != 0 && (values == nullptr || results == nullptr || (is_random && randoms == nullptr)))
        return errc::wrong_length;
    const bool has_randoms = is_random && randoms != nullptr;
    const auto *lent = has_randoms ? reinterpret_cast<const std::uint8_t *>(randoms) : bytes_of(values);
    apfloat_array_answer answer = {0, 0, 0, 0, 0, 0, 0, 0, 0};
    const apfloat_error code = apfloat_convert_array_by(
        From::code, mode, To::code, digits, lent, has_randoms ? count * sizeof *randoms : 0, bytes_of(values),
        count * sizeof(value<From>), bytes_of(results), count, &answer);
    return counts_of(code, answer);
}

} // namespace detail

/// Rounds `count` values to odd. If an array is null and `count` is not 0, the error is wrong_length.
template <class To, class From>
expected<array_counts> convert_array_odd(const value<From> *values, std::size_t count, stored<To> *results) noexcept {
    return detail::convert_by(APFLOAT_TO_ODD, 0, nullptr, values, count, results);
}

/// Rounds `count` values, each with the lowest `digits` binary digits of a random number of its own; if there are not 1
/// to 32 of them, the error is wrong_width.
template <class To, class From>
expected<array_counts> convert_array_random(const value<From> *values, std::size_t count, std::uint32_t digits,
                                            const std::uint32_t *randoms, stored<To> *results) noexcept {
    return detail::convert_by(APFLOAT_RANDOM_DIGITS, digits, randoms, values, count, results);
}

// ---- formats that are chosen when the program runs

/// A format by its code in apfloat.h, with a rule of flags or without.
enum class format_code : std::uint32_t {};

template <class F>
inline constexpr format_code format_code_of = format_code{F::code};

namespace detail {

// Calls a function with a null pointer to the format that has a code, or returns another answer.
template <class Function, class Answer>
Answer with_format(apfloat_format code, Function function, Answer otherwise) {
    switch (code & ~(APFLOAT_IEEE_FLAGS | APFLOAT_TINY_BEFORE_ROUNDING)) {
    case binary16::code: return function(static_cast<binary16 *>(nullptr));
    case bfloat16::code: return function(static_cast<bfloat16 *>(nullptr));
    case binary32::code: return function(static_cast<binary32 *>(nullptr));
    case binary64::code: return function(static_cast<binary64 *>(nullptr));
    case binary128::code: return function(static_cast<binary128 *>(nullptr));
    case x87::code: return function(static_cast<x87 *>(nullptr));
    case e5m2::code: return function(static_cast<e5m2 *>(nullptr));
    case e4m3fn::code: return function(static_cast<e4m3fn *>(nullptr));
    case e4m3fnuz::code: return function(static_cast<e4m3fnuz *>(nullptr));
    case e4m3::code: return function(static_cast<e4m3 *>(nullptr));
    case e5m2fnuz::code: return function(static_cast<e5m2fnuz *>(nullptr));
    case e4m3b11fnuz::code: return function(static_cast<e4m3b11fnuz *>(nullptr));
    case tf32::code: return function(static_cast<tf32 *>(nullptr));
    case double_pair::code: return function(static_cast<double_pair *>(nullptr));
    }
    return otherwise;
}

} // namespace detail

/// The format of a name: that of its type here, or half, single, double, quad, bfloat or dd; then +ieee for the flags
/// of IEEE 754-2019, and +before for tininess that is detected before rounding.
inline expected<format_code> format_of_name(std::string_view name) noexcept {
    constexpr std::pair<std::string_view, apfloat_format> all[] = {
        {"half", binary16::code},         {"binary16", binary16::code},
        {"bfloat", bfloat16::code},       {"bfloat16", bfloat16::code},
        {"single", binary32::code},       {"binary32", binary32::code},
        {"double", binary64::code},       {"binary64", binary64::code},
        {"quad", binary128::code},        {"binary128", binary128::code},
        {"x87", x87::code},               {"e5m2", e5m2::code},
        {"e4m3fn", e4m3fn::code},         {"e4m3fnuz", e4m3fnuz::code},
        {"e4m3", e4m3::code},             {"e5m2fnuz", e5m2fnuz::code},
        {"tf32", tf32::code},             {"e4m3b11fnuz", e4m3b11fnuz::code},
        {"double_pair", double_pair::code}, {"dd", double_pair::code}};
    const auto end = name.find('+') < name.size() ? name.find('+') : name.size();
    const auto rule = name.substr(end);
    apfloat_format more = APFLOAT_IEEE_FLAGS | APFLOAT_TINY_BEFORE_ROUNDING;
    if (rule.empty()) more = apfloat_format{};
    else if (rule == "+ieee") more = APFLOAT_IEEE_FLAGS;
    else if (rule != "+ieee+before") return errc::unknown_format;
    for (const auto &[known, code] : all) {
        if (known != name.substr(0, end)) continue;
        const auto has_choice = [](auto *format) { return std::remove_pointer_t<decltype(format)>::has_ieee_flags; };
        if (more != 0 && !detail::with_format(code, has_choice, false)) return errc::unknown_format;
        return format_code{code | more};
    }
    return errc::unknown_format;
}

/// A value of any format, with the code of that. Without an argument it has none, and every operation on it returns
/// unknown_format.
class any_value {
public:
    constexpr any_value() = default;
    template <class F>
    constexpr explicit any_value(const value<F> &x) noexcept : format_(format_code_of<F>), bits_(x.halves()) {}

    /// The value with these bits. The error is unknown_format, or wide_operand if a bit above those of the format is
    /// set.
    static expected<any_value> from_bits(format_code format, apfloat_halves bits) noexcept {
        apfloat_answer answer = {{0, 0}, 0, 0};
        const auto code = static_cast<apfloat_format>(format);
        if (apfloat_is_negative(code, bits, &answer) != APFLOAT_ANSWERED) return errc::unknown_format;
        const auto is_in = [&](auto *of) {
            return value<std::remove_pointer_t<decltype(of)>>::from_halves(bits).has_value();
        };
        if (!detail::with_format(code, is_in, false)) return errc::wide_operand;
        return any_value(format, bits);
    }
    static expected<result<any_value>> from_text(format_code format, std::string_view text,
                                                 rounding mode = rounding::nearest_even) noexcept;

    constexpr format_code format() const noexcept { return format_; }
    constexpr apfloat_halves bits() const noexcept { return bits_; }

    /// The value, if it is of the format F.
    template <class F>
    constexpr std::optional<value<F>> as() const noexcept {
        if (format_ != format_code_of<F>) return std::nullopt;
        return value<F>::from_lowest(bits_);
    }

private:
    friend struct any_call;
    constexpr any_value(format_code format, apfloat_halves bits) noexcept : format_(format), bits_(bits) {}

    format_code format_{};
    apfloat_halves bits_{};
};

/// What the operations below are made of.
struct any_call {
    static constexpr apfloat_format code_of(const any_value &x) noexcept {
        return static_cast<apfloat_format>(x.format());
    }
    template <class... Parameters, class... Arguments>
    static expected<apfloat_answer> answer(apfloat_error (*call)(Parameters...), Arguments... arguments) noexcept {
        apfloat_answer made = {{0, 0}, 0, 0};
        const apfloat_error code = call(arguments..., &made);
        if (code != APFLOAT_ANSWERED) return static_cast<errc>(code);
        return made;
    }
    static expected<result<any_value>> result_in(format_code format, const expected<apfloat_answer> &found) noexcept {
        if (!found) return found.error();
        return result<any_value>{any_value(format, found->bits), flags::of_code(found->status)};
    }
    template <class Call>
    static expected<result<any_value>> of_two(Call *call, rounding mode, const any_value &x,
                                              const any_value &y) noexcept {
        if (x.format() != y.format()) return errc::no_such_operation;
        return result_in(x.format(), answer(call, code_of(x), detail::code_of(mode), x.bits(), y.bits()));
    }
};

/// The operations of the library on values of any format. Those on operands of different formats are no_such_operation.
inline expected<result<any_value>> add(const any_value &x, const any_value &y,
                                       rounding mode = rounding::nearest_even) noexcept {
    return any_call::of_two(apfloat_add, mode, x, y);
}
inline expected<result<any_value>> sub(const any_value &x, const any_value &y,
                                       rounding mode = rounding::nearest_even) noexcept {
    return any_call::of_two(apfloat_sub, mode, x, y);
}
inline expected<result<any_value>> mul(const any_value &x, const any_value &y,
                                       rounding mode = rounding::nearest_even) noexcept {
    return any_call::of_two(apfloat_mul, mode, x, y);
}
inline expected<result<any_value>> div(const any_value &x, const any_value &y,
                                       rounding mode = rounding::nearest_even) noexcept {
    return any_call::of_two(apfloat_div, mode, x, y);
}
inline expected<result<any_value>> fma(const any_value &x, const any_value &y, const any_value &z,
                                       rounding mode = rounding::nearest_even) noexcept {
    if (x.format() != y.format() || x.format() != z.format()) return errc::no_such_operation;
    return any_call::result_in(x.format(), any_call::answer(apfloat_fma, any_call::code_of(x), detail::code_of(mode),
                                                            x.bits(), y.bits(), z.bits()));
}
inline expected<result<any_value>> sqrt(const any_value &x, rounding mode = rounding::nearest_even) noexcept {
    return any_call::result_in(
        x.format(), any_call::answer(apfloat_sqrt, any_call::code_of(x), detail::code_of(mode), x.bits()));
}

/// The value in another format, rounded once.
inline expected<conversion<any_value>> convert(const any_value &x, format_code to,
                                               rounding mode = rounding::nearest_even) noexcept {
    const auto found = any_call::answer(apfloat_convert, any_call::code_of(x), detail::code_of(mode),
                                        static_cast<apfloat_format>(to), x.bits());
    const auto made = any_call::result_in(to, found);
    if (!made) return made.error();
    return conversion<any_value>{made->value, made->status, found->number != 0};
}

inline expected<order> compare(const any_value &x, const any_value &y) noexcept {
    if (x.format() != y.format()) return errc::no_such_operation;
    const auto found = any_call::answer(apfloat_compare, any_call::code_of(x), x.bits(), y.bits());
    if (!found) return found.error();
    return static_cast<order>(found->number);
}

/// The value of a text, as `parse<F>` reads it.
inline expected<result<any_value>> parse(format_code format, std::string_view text,
                                         rounding mode = rounding::nearest_even) noexcept {
    const auto code = static_cast<apfloat_format>(format);
    const auto call = (code & APFLOAT_IEEE_FLAGS) != 0 ? apfloat_parse : apfloat_parse_decimal;
    const char *bytes = text.empty() ? "" : text.data();
    return any_call::result_in(format, any_call::answer(call, code, detail::code_of(mode),
                                                        reinterpret_cast<const std::uint8_t *>(bytes), text.size()));
}
inline expected<result<any_value>> any_value::from_text(format_code format, std::string_view text,
                                                        rounding mode) noexcept {
    return parse(format, detail::spelled(text), mode);
}

/// The text of the value, as `to_text` of a `value` writes it.
inline expected<text> to_text(const any_value &x) noexcept {
    const auto written = [&](auto *format) -> expected<text> {
        return to_text(value<std::remove_pointer_t<decltype(format)>>::from_lowest(x.bits()));
    };
    return detail::with_format(any_call::code_of(x), written, expected<text>(errc::unknown_format));
}

// ---- literals

namespace detail {

// Whether the library reads a literal as the number that it is in C++: a decimal, or a hexadecimal number with an
// exponent. Binary, octal and hexadecimal integers are none.
constexpr bool is_readable(const char *literal, std::size_t length) noexcept {
    const bool hexadecimal = length > 1 && literal[0] == '0' && (literal[1] == 'x' || literal[1] == 'X');
    std::size_t at = hexadecimal ? 2 : 0, digits = 0;
    bool has_dot = false;
    for (; at < length && (literal[at] == '.' || is_digit(literal[at], hexadecimal)); at++) {
        if (literal[at] == '.') has_dot = true;
        else digits++;
    }
    if (digits == 0) return false;
    if (at == length) return !hexadecimal && (has_dot || digits == 1 || literal[0] != '0');
    const char letter = literal[at];
    if (hexadecimal ? letter != 'p' && letter != 'P' : letter != 'e' && letter != 'E') return false;
    at++;
    if (at < length && (literal[at] == '+' || literal[at] == '-')) at++;
    if (at == length) return false;
    for (; at < length; at++)
        if (!is_digit(literal[at], false)) return false;
    return true;
}

// A literal without the marks between its digits.
template <char... Letters>
struct unmarked {
    char letters[sizeof...(Letters)] = {};
    std::size_t length = 0;
    constexpr unmarked() noexcept {
        for (const char letter : {Letters...})
            if (letter != '\'') letters[length++] = letter;
    }
};

template <class F, char... Letters>
value<F> literal() noexcept {
    static constexpr unmarked<Letters...> written;
    static_assert(is_readable(written.letters, written.length),
                  "a literal is a decimal such as 0.1 or 1e-7, or hexadecimal with an exponent, such as 0x1.8p-1");
    static const value<F> read = parse<F>(std::string_view(written.letters, written.length))->value;
    return read;
}

} // namespace detail

/// Literals: 0.1_binary64, 0x1.8p-1_x87. Each is read once, and rounded to nearest, ties to even, as compilers round
/// those of double; `parse` reads a text in any mode, and returns its flags.
namespace literals {

template <char... Letters>
value<binary16> operator""_binary16() noexcept {
    return detail::literal<binary16, Letters...>();
}
template <char... Letters>
value<bfloat16> operator""_bfloat16() noexcept {
    return detail::literal<bfloat16, Letters...>();
}
template <char... Letters>
value<binary32> operator""_binary32() noexcept {
    return detail::literal<binary32, Letters...>();
}
template <char... Letters>
value<binary64> operator""_binary64() noexcept {
    return detail::literal<binary64, Letters...>();
}
template <char... Letters>
value<binary128> operator""_binary128() noexcept {
    return detail::literal<binary128, Letters...>();
}
template <char... Letters>
value<x87> operator""_x87() noexcept {
    return detail::literal<x87, Letters...>();
}
template <char... Letters>
value<e5m2> operator""_e5m2() noexcept {
    return detail::literal<e5m2, Letters...>();
}
template <char... Letters>
value<e4m3fn> operator""_e4m3fn() noexcept {
    return detail::literal<e4m3fn, Letters...>();
}
template <char... Letters>
value<e4m3fnuz> operator""_e4m3fnuz() noexcept {
    return detail::literal<e4m3fnuz, Letters...>();
}
template <char... Letters>
value<e4m3> operator""_e4m3() noexcept {
    return detail::literal<e4m3, Letters...>();
}
template <char... Letters>
value<e5m2fnuz> operator""_e5m2fnuz() noexcept {
    return detail::literal<e5m2fnuz, Letters...>();
}
template <char... Letters>
value<e4m3b11fnuz> operator""_e4m3b11fnuz() noexcept {
    return detail::literal<e4m3b11fnuz, Letters...>();
}
template <char... Letters>
value<tf32> operator""_tf32() noexcept {
    return detail::literal<tf32, Letters...>();
}
template <char... Letters>
value<double_pair> operator""_double_pair() noexcept {
    return detail::literal<double_pair, Letters...>();
}

} // namespace literals

namespace detail {

// What std::numeric_limits says of numbers of any format, whose type is `Number`.
template <class F, class Number>
struct limits_of_all {
    static constexpr bool is_specialized = !F::is_pair, is_signed = true, is_integer = false, is_exact = false;
    static constexpr bool is_bounded = true, is_modulo = false, traps = false;
    static constexpr bool has_infinity = F::has_infinity, has_quiet_NaN = true;
    static constexpr bool has_signaling_NaN = F::has_signaling_nan;
    static constexpr bool is_iec559 = F::has_infinity && F::has_signaling_nan && !F::is_pair;
    static constexpr std::float_round_style round_style = std::round_to_nearest;
    static constexpr bool tinyness_before = F::tiny_before_rounding;
#if __cplusplus <= 202002L
    // Deprecated since C++23.
    static constexpr std::float_denorm_style has_denorm = std::denorm_present;
    static constexpr bool has_denorm_loss = false;
#endif
    static constexpr int radix = 2, digits = F::precision;
    // 30103 / 100000 is just above the decimal logarithm of 2, and near enough for each of these.
    static constexpr int digits10 = (F::precision - 1) * 30103 / 100000;
    static constexpr int min_exponent = F::min_exponent + 1, max_exponent = F::max_exponent + 1;
    static constexpr int min_exponent10 = F::min_exponent * 30103 / 100000;
    static constexpr int max_exponent10 = max_exponent * 30103 / 100000;

    static constexpr Number min() noexcept { return value<F>::from_bits(F::constants.smallest_normal); }
    static constexpr Number max() noexcept { return value<F>::from_bits(F::constants.largest); }
    static constexpr Number lowest() noexcept { return -max(); }
    static constexpr Number infinity() noexcept { return value<F>::from_bits(F::constants.infinity); }
    static constexpr Number quiet_NaN() noexcept { return value<F>::from_bits(F::constants.quiet_nan); }
    static constexpr Number signaling_NaN() noexcept { return value<F>::from_bits(F::constants.signaling_nan); }
    static constexpr Number denorm_min() noexcept { return value<F>::from_bits(F::constants.smallest); }
};

template <class F, class Number>
struct limits : limits_of_all<F, Number> {
    static constexpr int max_digits10 = 2 + F::precision * 30103 / 100000;

    static constexpr Number epsilon() noexcept { return value<F>::from_bits(F::constants.epsilon); }
    static constexpr Number round_error() noexcept { return value<F>::from_bits(F::constants.half); }
};

// The doubles of a pair may be any distance apart, so pairs have no greatest number of digits, and what rests on it.
template <class Number>
struct limits<double_pair, Number> : limits_of_all<double_pair, Number> {};

} // namespace detail

} // namespace apfloat

namespace std {

template <class F>
struct numeric_limits<apfloat::value<F>> : apfloat::detail::limits<F, apfloat::value<F>> {};

template <class F, apfloat::rounding Mode>
struct numeric_limits<apfloat::unflagged<F, Mode>> : apfloat::detail::limits<F, apfloat::unflagged<F, Mode>> {};

/// Values that compare equal have equal hashes.
template <class F>
struct hash<apfloat::value<F>> {
    size_t operator()(const apfloat::value<F> &x) const noexcept {
        const auto words = apfloat::detail::same_for_equals<F>(x.halves());
        return hash<uint64_t>()(words.low ^ words.high * UINT64_C(0x9e3779b97f4a7c15));
    }
};

template <class F, apfloat::rounding Mode>
struct hash<apfloat::unflagged<F, Mode>> : hash<apfloat::value<F>> {};

#if defined(__cpp_lib_format) && defined(__cpp_exceptions)
/// Formats what `to_text` returns, by a fill, an alignment and a width. A precision is refused.
template <class F>
struct formatter<apfloat::value<F>, char> : formatter<string_view, char> {
    constexpr auto parse(format_parse_context &context) {
        auto at = context.begin();
        const auto end = context.end();
        // What stands before an alignment is a fill, even if it is a dot.
        if (end - at > 1 && (at[1] == '<' || at[1] == '>' || at[1] == '^')) at += 2;
        // A width may be the number of an argument, in braces of its own.
        for (int depth = 0; at != end && (depth > 0 || *at != '}'); ++at) {
            if (*at == '.') throw format_error("apfloat: a value is formatted without a precision");
            if (*at == '{') ++depth;
            if (*at == '}') --depth;
        }
        return formatter<string_view, char>::parse(context);
    }
    template <class Context>
    auto format(const apfloat::value<F> &x, Context &context) const {
        return formatter<string_view, char>::format(apfloat::to_text(x).view(), context);
    }
};

template <class F, apfloat::rounding Mode>
struct formatter<apfloat::unflagged<F, Mode>, char> : formatter<apfloat::value<F>, char> {};
#endif

} // namespace std

#endif
