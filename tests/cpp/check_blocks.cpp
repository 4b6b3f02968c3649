// Makes the calls of tests/c/blocks from C++ (tests/c/check_blocks.c has what its columns say), and compares their
// results. Prints each row that differs, and then how many agree. Rows of x87, whose values have padding, and of blocks
// of other lengths have no call.
#include "rows.hpp"

#include <iostream>
#include <vector>

namespace {

using namespace apfloat;

using row = std::vector<std::string>;

std::uint32_t word_of(const std::string &digits) {
    return static_cast<std::uint32_t>(rows::integer_of(digits, 16).value().low);
}

template <class V>
std::vector<V> values_of(const std::string &words) {
    std::vector<V> values;
    for (const auto &word : rows::split(words, ' ')) {
        const auto bits = rows::integer_of(word, 16).value();
        values.push_back(V::from_bits(detail::bits_of<decltype(V().bits())>(bits)));
    }
    return values;
}

template <class V>
bool are_same(const std::vector<V> &made, const std::vector<V> &wanted) {
    return std::equal(made.begin(), made.end(), wanted.begin(), wanted.end(), [](const V &x, const V &y) {
        if constexpr (std::is_class_v<decltype(x.bits())>) return detail::is_equal(x.bits(), y.bits());
        else return x.bits() == y.bits();
    });
}

bool are_counts(const expected<array_counts> &counts, const row &r) {
    const auto words = rows::split(r[7], ' ');
    return counts && counts->values == 32 && counts->inexact == std::stoull(words[0]) &&
           counts->underflow == std::stoull(words[1]) && counts->overflow == std::stoull(words[2]) &&
           counts->nans == std::stoull(r[8]) && counts->status.names() == r[9];
}

template <class F, class Code>
bool agrees_in_blocks(const row &r, rounding mode, scale_rule rule) {
    const auto values = values_of<value<F>>(r[4]);
    const auto scales = values_of<stored<e8m0fnu>>(r[5]);
    const auto codes = values_of<Code>(r[6]);
    std::vector<stored<e8m0fnu>> by(scales.size());
    std::vector<Code> made(codes.size());
    const auto counts = quantize_blocks(values.data(), values.size(), values.size() / scales.size(), by.data(),
                                        made.data(), mode, rule);
    return are_counts(counts, r) && are_same(by, scales) && are_same(made, codes);
}

template <class F>
bool agrees_by_rule(const row &r, rounding mode) {
    const auto words = rows::split(r[3], '+');
    const auto rule = words[1] == "floor" ? scale_rule::floor
                      : words[1] == "ceil" ? scale_rule::ceil
                                           : scale_rule::even;
    if (words[0] == "e5m2") return agrees_in_blocks<F, value<e5m2>>(r, mode, rule);
    if (words[0] == "e4m3fn") return agrees_in_blocks<F, value<e4m3fn>>(r, mode, rule);
    if (words[0] == "e3m2fn") return agrees_in_blocks<F, stored<e3m2fn>>(r, mode, rule);
    if (words[0] == "e2m3fn") return agrees_in_blocks<F, stored<e2m3fn>>(r, mode, rule);
    return words[0] == "e2m1fn" && agrees_in_blocks<F, stored<e2m1fn>>(r, mode, rule);
}

template <class F>
bool agrees_in(const row &r) {
    const auto mode = rows::mode_of(r[2]).value();
    if (r[0] == "quantize_blocks") return agrees_by_rule<F>(r, mode);
    const auto tensor = value<binary32>::from_bits(word_of(r[3]));
    const auto values = values_of<value<F>>(r[4]);
    const auto scales = values_of<value<e4m3fn>>(r[5]);
    const auto codes = values_of<stored<e2m1fn>>(r[6]);
    if (scales.size() != 2) return true;
    if (r[0] == "quantize_nvfp4") {
        std::vector<value<e4m3fn>> by(2);
        std::vector<stored<e2m1fn>> made(codes.size());
        const auto counts = quantize_nvfp4(values.data(), values.size(), tensor, by.data(), made.data(), mode);
        return are_counts(counts, r) && are_same(by, scales) && are_same(made, codes);
    }
    std::vector<value<F>> made(values.size());
    return are_counts(dequantize_nvfp4(scales.data(), codes.data(), codes.size(), tensor, made.data(), mode), r) &&
           are_same(made, values);
}

bool agrees(const row &r) {
    bool found = false;
    rows::with_format(r[1], [&](auto of) {
        using F = typename decltype(of)::format;
        if constexpr (std::is_same_v<typename F::plain, x87>) found = true;
        else if constexpr (!F::is_pair) found = agrees_in<F>(r);
    });
    return found;
}

// The scale of a tensor of numbers that a float has each of.
template <class F>
bool has_scale(const std::vector<double> &numbers, float wanted) {
    std::vector<value<F>> tensor;
    for (const double number : numbers) tensor.push_back(value<F>::from_double(number).value);
    const auto scale = nvfp4_tensor_scale(tensor.data(), tensor.size());
    return scale && static_cast<float>(*scale) == wanted;
}

// What no row shows.
bool is_right() {
    const value<binary32> one(1.0f), x, infinite(std::numeric_limits<float>::infinity());
    const value<binary32> *none = nullptr;
    value<e4m3fn> scale;
    stored<e2m1fn> codes[16];
    return quantize_nvfp4(none, 16, one, &scale, codes).error() == errc::wrong_length &&
           quantize_nvfp4(&x, 1, one, &scale, codes).error() == errc::wrong_length &&
           quantize_nvfp4(none, 0, one, &scale, codes)->values == 0 &&
           quantize_nvfp4(none, 0, x, &scale, codes).error() == errc::no_such_operation &&
           dequantize_nvfp4(&scale, codes, 16, one, static_cast<value<binary32> *>(nullptr)).error() ==
               errc::wrong_length &&
           has_scale<binary32>({1, -5376, 3}, 2) && has_scale<e4m3fn>({-0.0}, 1) && has_scale<binary16>({2688}, 1) &&
           has_scale<binary64>({1e300}, std::numeric_limits<float>::max()) && has_scale<binary64>({1e-300}, 1) &&
           has_scale<binary16>({}, 1) && nvfp4_tensor_scale(&infinite, 1).error() == errc::no_such_operation &&
           nvfp4_tensor_scale(none, 1).error() == errc::wrong_length;
}

} // namespace

int main() {
    unsigned agreeing = 0;
    bool all = true;
    for (std::string line; std::getline(std::cin, line);) {
        if (line.empty() || line[0] == '#') continue;
        if (agrees(rows::split(line, '\t'))) agreeing++;
        else all = false, std::cout << line << '\n';
    }
    if (!is_right()) all = false, std::cout << "a call that no row has\n";
    std::cout << agreeing << " rows of blocks agree\n";
    return all && agreeing > 0 ? 0 : 1;
}
