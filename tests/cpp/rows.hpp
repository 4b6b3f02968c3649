// Rows with tabs between their columns (docs/PROGRAMS.md), and what their columns say in C++.
#ifndef ROWS_HPP
#define ROWS_HPP

#include "apfloat.hpp"

#include <algorithm>
#include <array>
#include <optional>
#include <string>
#include <string_view>
#include <utility>
#include <vector>

namespace rows {

using apfloat::rounding;

inline std::vector<std::string> split(const std::string &line, char between) {
    std::vector<std::string> parts(1);
    for (const char letter : line)
        if (letter == between) parts.emplace_back();
        else parts.back() += letter;
    return parts;
}

// Digits of a base up to 16 as 128 bits; a minus sign negates, in two's complement.
inline std::optional<apfloat_halves> integer_of(std::string_view word, unsigned base) {
    const bool is_negative = !word.empty() && word.front() == '-';
    if (is_negative) word.remove_prefix(1);
    apfloat_halves number = {0, 0};
    if (word.empty()) return std::nullopt;
    for (const char letter : word) {
        const auto digit = std::string_view("0123456789abcdef").find(letter);
        if (digit >= base) return std::nullopt;
        const std::uint64_t lowest = (number.low & UINT32_MAX) * base + digit;
        const std::uint64_t next = (number.low >> 32) * base + (lowest >> 32);
        number.high = number.high * base + (next >> 32);
        number.low = next << 32 | (lowest & UINT32_MAX);
    }
    if (is_negative) {
        number.low = ~number.low + 1;
        number.high = ~number.high + (number.low == 0);
    }
    return number;
}

inline constexpr std::array<std::pair<std::string_view, rounding>, 5> modes = {{{"even", rounding::nearest_even},
                                                                                {"up", rounding::upward},
                                                                                {"down", rounding::downward},
                                                                                {"zero", rounding::toward_zero},
                                                                                {"away", rounding::nearest_away}}};

inline std::optional<rounding> mode_of(std::string_view word) {
    for (const auto &[name, mode] : modes)
        if (name == word) return mode;
    return std::nullopt;
}

template <class Format>
struct tag {
    using format = Format;
};

// Calls a function with the tag of a format that has a rule of flags in the words after each +.
template <class F, class Function>
bool with_rule(std::string_view rule, Function function) {
    if (rule.empty()) return function(tag<F>()), true;
    if constexpr (F::has_ieee_flags) {
        if (rule == "+ieee") return function(tag<apfloat::ieee<F>>()), true;
        if (rule == "+ieee+before") return function(tag<apfloat::ieee_tiny_before<F>>()), true;
    }
    return false;
}

// Calls a function with the tag of the format that a word names. Returns false if there is none.
template <class Function>
bool with_format(std::string_view word, Function function) {
    const auto end = std::min(word.find('+'), word.size());
    const auto name = word.substr(0, end), rule = word.substr(end);
    if (name == "half") return with_rule<apfloat::binary16>(rule, function);
    if (name == "bfloat") return with_rule<apfloat::bfloat16>(rule, function);
    if (name == "single") return with_rule<apfloat::binary32>(rule, function);
    if (name == "double") return with_rule<apfloat::binary64>(rule, function);
    if (name == "quad") return with_rule<apfloat::binary128>(rule, function);
    if (name == "x87") return with_rule<apfloat::x87>(rule, function);
    if (name == "e5m2") return with_rule<apfloat::e5m2>(rule, function);
    if (name == "e4m3fn") return with_rule<apfloat::e4m3fn>(rule, function);
    if (name == "e4m3fnuz") return with_rule<apfloat::e4m3fnuz>(rule, function);
    if (name == "e4m3") return with_rule<apfloat::e4m3>(rule, function);
    if (name == "e5m2fnuz") return with_rule<apfloat::e5m2fnuz>(rule, function);
    if (name == "e4m3b11fnuz") return with_rule<apfloat::e4m3b11fnuz>(rule, function);
    if (name == "tf32") return with_rule<apfloat::tf32>(rule, function);
    if (name == "dd") return with_rule<apfloat::double_pair>(rule, function);
    return false;
}

} // namespace rows

#endif
