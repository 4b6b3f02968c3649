// Makes the calls of tests/rows/by_crate/reductions.tsv from C++, and of block_dots.tsv there those that give a single,
// and compares their results. Prints each row that differs, and then how many agree. By hand, at the top of the
// repository, after `rt lib` in crates/apfloat_c:
//
//   c++ -std=c++17 -Iinclude tests/cpp/check_reductions.cpp crates/apfloat_c/out/libapfloat_c.a -o check_reductions
//   ./check_reductions < tests/rows/by_crate/reductions.tsv
#include "rows.hpp"

#include <iostream>

namespace {

using namespace apfloat;

// The values of a list of bits; a hyphen is a list of none.
template <class F>
std::vector<value<F>> values_of(const std::string &words) {
    std::vector<value<F>> values;
    if (words == "-") return values;
    for (const auto &word : rows::split(words, ' '))
        values.push_back(*value<F>::from_halves(*rows::integer_of(word, 16)));
    return values;
}

template <class F, class Mode>
auto summed(const std::string &call, const std::vector<value<F>> &xs, const std::vector<value<F>> &ys, Mode &mode) {
    if (call == "sum") return sum(xs.data(), xs.size(), mode);
    if (call == "sum_abs") return sum_abs(xs.data(), xs.size(), mode);
    if (call == "sum_square") return sum_square(xs.data(), xs.size(), mode);
    return dot(xs.data(), ys.data(), xs.size(), mode);
}

template <class F>
bool agrees(const std::vector<std::string> &columns) {
    const auto middle = columns[3].find(" / ");
    const auto xs = values_of<F>(columns[3].substr(0, middle));
    const auto ys = middle == std::string::npos ? xs : values_of<F>(columns[3].substr(middle + 3));
    for (const auto &[word, mode] : rows::modes) {
        if (columns[2] != "any" && columns[2] != word) continue;
        gather flags(mode);
        const auto made = summed(columns[0], xs, ys, mode);
        const auto alone = summed(columns[0], xs, ys, flags);
        if (!made || !detail::is_equal(made->value.halves(), *rows::integer_of(columns[4], 16)) ||
            made->status.names() != columns[5] || !alone ||
            !detail::is_equal(alone->halves(), made->value.halves()) || !(flags.raised() == made->status))
            return false;
    }
    return true;
}

// Calls a function with a vector in blocks, as a row has it.
template <class Function>
bool with_vector(const std::string &operand, Function function) {
    const auto words = rows::split(operand, ' ');
    const auto bytes = [&](const std::string &digits) {
        std::vector<unsigned char> made;
        for (std::size_t at = 0; digits != "-" && at < digits.size(); at += 2)
            made.push_back(static_cast<unsigned char>(rows::integer_of(digits.substr(at, 2), 16)->low));
        return made;
    };
    const auto scales = bytes(words[2]), codes = bytes(words[3]);
    const auto each = [](auto of, const std::vector<unsigned char> &from) {
        std::vector<decltype(of)> made;
        for (const auto byte : from) made.push_back(decltype(of)::from_bits(byte));
        return made;
    };
    const auto length = static_cast<std::size_t>(std::stoul(words[1]));
    const auto in_mx = [&](auto of) {
        const auto by = each(stored<e8m0fnu>(), scales);
        const auto made = each(of, codes);
        return function(mx_vector<decltype(of)>{by.data(), made.data(), length}, made.size());
    };
    if (words[0] == "E5M2") return in_mx(value<e5m2>());
    if (words[0] == "E4M3FN") return in_mx(value<e4m3fn>());
    if (words[0] == "E3M2FN") return in_mx(stored<e3m2fn>());
    if (words[0] == "E2M3FN") return in_mx(stored<e2m3fn>());
    if (words[0] == "E2M1FN") return in_mx(stored<e2m1fn>());
    const auto by = each(value<e4m3fn>(), scales);
    const auto made = each(stored<e2m1fn>(), codes);
    const auto bits = rows::integer_of(words[0].substr(6), 16)->low;
    const auto tensor = value<binary32>::from_bits(static_cast<std::uint32_t>(bits));
    return function(nvfp4_vector{by.data(), made.data(), tensor, length}, made.size());
}

// Whether the call gives the single that the row has.
bool agrees_in_blocks(const std::vector<std::string> &columns) {
    const auto middle = columns[3].find(" / ");
    return with_vector(columns[3].substr(0, middle), [&](const auto &x, std::size_t count) {
        return with_vector(columns[3].substr(middle + 3), [&](const auto &y, std::size_t) {
            for (const auto &[word, mode] : rows::modes) {
                if (columns[2] != "any" && columns[2] != word) continue;
                gather flags(mode);
                const auto made = dot_blocks<binary32>(x, y, count, mode);
                const auto alone = dot_blocks<binary32>(x, y, count, flags);
                if (!made || !alone || made->value.bits() != rows::integer_of(columns[4], 16)->low ||
                    made->status.names() != columns[5] || alone->bits() != made->value.bits() ||
                    !(flags.raised() == made->status))
                    return false;
            }
            return true;
        });
    });
}

// What no row shows: arrays without values, and a mode that is none.
bool refuses() {
    const value<binary16> x, *none = nullptr;
    const value<e4m3fn> scales[2] = {};
    const stored<e2m1fn> codes[17] = {}, *no_codes = nullptr;
    const nvfp4_vector zeros = {scales, codes, value<binary32>(1.0f)}, unscaled = {scales, codes, value<binary32>()};
    const nvfp4_vector missing = {scales, no_codes, value<binary32>(1.0f)};
    gather flags;
    if (dot_blocks<binary16>(zeros, zeros, 16)->value != x || dot_blocks<binary16>(missing, missing, 0)->value != x ||
        dot_blocks<binary16>(zeros, missing, 16).error() != errc::wrong_length ||
        dot_blocks<binary16>(zeros, zeros, 17).error() != errc::wrong_length ||
        dot_blocks<binary16>(zeros, unscaled, 16, flags).error() != errc::no_such_operation)
        return false;
    return sum(none, 1).error() == errc::wrong_length && dot(&x, none, 1).error() == errc::wrong_length &&
           dot(none, &x, 1, flags).error() == errc::wrong_length && sum_abs(none, 0)->value == x &&
           sum_square(&x, 1, static_cast<rounding>(7)).error() == errc::unknown_mode && flags.raised().none();
}

} // namespace

int main() {
    unsigned agreeing = 0;
    bool all = refuses();
    if (!all) std::cout << "a call that has to be refused\n";
    for (std::string line; std::getline(std::cin, line);) {
        const auto columns = rows::split(line, '\t');
        // Slices of two lengths are none of a count, the format of a user has no name, and values of x87 have padding.
        if (line[0] == '#' || columns.at(4) == "LengthsDiffer" || columns.at(4) == "NotBlocks") continue;
        if (columns[0] == "dot_blocks") {
            if (columns[1] != "single") continue;
            if (agrees_in_blocks(columns)) agreeing++;
            else all = false, std::cout << line << '\n';
            continue;
        }
        bool found = false, has_padding = false;
        const bool is_known = rows::with_format(columns.at(1), [&](auto format) {
            using F = typename decltype(format)::format;
            if constexpr (!F::is_pair && F::width != 80) found = agrees<F>(columns);
            else has_padding = true;
        });
        if (found) agreeing++;
        else if (is_known && !has_padding) all = false, std::cout << line << '\n';
    }
    std::cout << agreeing << " rows of exact sums agree\n";
    return all && agreeing > 0 ? 0 : 1;
}
