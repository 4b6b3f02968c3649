// A constant folder in C++17: reads the lines of examples/c/fold.c, and prints the same.
//
// CMakeLists.txt finds the library where packaging/install put it:
//
//   packaging/install PREFIX
//   cmake -S examples/cpp -B BUILD -DCMAKE_PREFIX_PATH=PREFIX && cmake --build BUILD
//   BUILD/fold < examples/c/lines
#include <apfloat.hpp>

#include <cstdint>
#include <iostream>
#include <map>
#include <optional>
#include <sstream>
#include <string>
#include <utility>
#include <vector>

namespace {

using apfloat::errc;
using apfloat::expected;
using apfloat::result;
using apfloat::rounding;
using apfloat::value;

constexpr std::size_t most_bytes = 4000;

enum class operation { add, sub, mul, div, rem, mod, fma, sqrt, parse };

// The operations by their names, each with how many operands it takes.
const std::map<std::string, std::pair<operation, std::size_t>> operations = {
    {"add", {operation::add, 2}}, {"sub", {operation::sub, 2}},   {"mul", {operation::mul, 2}},
    {"div", {operation::div, 2}}, {"rem", {operation::rem, 2}},   {"mod", {operation::mod, 2}},
    {"fma", {operation::fma, 3}}, {"sqrt", {operation::sqrt, 1}}, {"parse", {operation::parse, 1}}};

const std::map<std::string, rounding> modes = {{"even", rounding::nearest_even},
                                               {"up", rounding::upward},
                                               {"down", rounding::downward},
                                               {"zero", rounding::toward_zero},
                                               {"away", rounding::nearest_away}};

// The words of a line. Its operands are bits, or a text.
struct request {
    operation asked;
    std::string format, mode;
    std::vector<apfloat_halves> bits;
    std::string text;
};

// 1 to 32 hexadecimal digits of either case, with or without 0x before them, as bits.
std::optional<apfloat_halves> bits_of(std::string word) {
    if (word.rfind("0x", 0) == 0) word.erase(0, 2);
    if (word.empty() || word.size() > 32) return std::nullopt;
    apfloat_halves bits = {0, 0};
    for (const char letter : word) {
        static const std::string lower = "0123456789abcdef", upper = "0123456789ABCDEF";
        auto digit = lower.find(letter);
        if (digit == std::string::npos) digit = upper.find(letter);
        if (digit == std::string::npos) return std::nullopt;
        bits.high = bits.high << 4 | bits.low >> 60;
        bits.low = bits.low << 4 | digit;
    }
    return bits;
}

std::vector<std::string> words_of(const std::string &line) {
    std::vector<std::string> words;
    std::string word;
    for (const char letter : line + '\n')
        if (letter == ' ' || letter == '\t' || letter == '\r' || letter == '\n') {
            if (!word.empty()) words.push_back(word);
            word.clear();
        } else {
            word += letter;
        }
    return words;
}

// What a line asks for; nothing if its operation or an operand is malformed.
std::optional<request> request_of(const std::string &line) {
    if (line.size() > most_bytes || line.find('\0') != std::string::npos) return std::nullopt;
    const auto words = words_of(line);
    if (words.size() < 4) return std::nullopt;
    const auto found = operations.find(words[1]);
    if (found == operations.end() || words.size() - 3 != found->second.second) return std::nullopt;
    request made = {found->second.first, words[0], words[2], {}, {}};
    if (made.asked == operation::parse) {
        made.text = words[3];
        return made;
    }
    for (std::size_t i = 3; i < words.size(); i++) {
        const auto bits = bits_of(words[i]);
        if (!bits) return std::nullopt;
        made.bits.push_back(*bits);
    }
    return made;
}

template <class F>
expected<result<value<F>>> computed(const request &of, rounding mode) {
    const auto operand = [&](std::size_t i) { return value<F>::from_lowest(of.bits[i]); };
    switch (of.asked) {
    case operation::add: return add(operand(0), operand(1), mode);
    case operation::sub: return sub(operand(0), operand(1), mode);
    case operation::mul: return mul(operand(0), operand(1), mode);
    case operation::div: return div(operand(0), operand(1), mode);
    case operation::rem: return rem(operand(0), operand(1));
    case operation::mod: return mod(operand(0), operand(1));
    case operation::sqrt: return sqrt(operand(0), mode);
    case operation::parse: return apfloat::parse_hexadecimal<F>(of.text, mode);
    case operation::fma:
        // Pairs of doubles have no fused sum: a call of it would not compile.
        if constexpr (!F::is_pair) return fma(operand(0), operand(1), operand(2), mode);
    }
    return errc::no_such_operation;
}

std::string hexadecimal(apfloat_halves bits) {
    std::ostringstream digits;
    digits << "0x" << std::hex;
    if (bits.high) {
        digits << bits.high;
        digits.width(16);
        digits.fill('0');
    }
    digits << bits.low;
    return digits.str();
}

// The bits and the flags of a result, as they are printed.
template <class F>
expected<std::string> folded(const request &of, rounding mode) {
    const auto found = computed<F>(of, mode);
    if (!found) return found.error();
    return hexadecimal(found->value.halves()) + ' ' + found->status.names();
}

using fold_in_format = expected<std::string> (*)(const request &, rounding);

const std::map<std::string, fold_in_format> formats = {
    {"half", folded<apfloat::binary16>},   {"single", folded<apfloat::binary32>},
    {"double", folded<apfloat::binary64>}, {"quad", folded<apfloat::binary128>},
    {"bfloat", folded<apfloat::bfloat16>}, {"x87", folded<apfloat::x87>},
    {"e5m2", folded<apfloat::e5m2>},       {"e4m3fn", folded<apfloat::e4m3fn>},
    {"e4m3fnuz", folded<apfloat::e4m3fnuz>}, {"dd", folded<apfloat::double_pair>}};

expected<std::string> fold(const request &of) {
    const auto format = formats.find(of.format);
    if (format == formats.end()) return errc::unknown_format;
    const auto mode = modes.find(of.mode);
    const bool rounds = of.asked != operation::rem && of.asked != operation::mod;
    if (mode == modes.end() && rounds) return errc::unknown_mode;
    return format->second(of, rounds ? mode->second : rounding::nearest_even);
}

} // namespace

int main() {
    for (std::string line; std::getline(std::cin, line);) {
        const auto asked = request_of(line);
        if (!asked) {
            std::cout << "refused: -1\n";
            continue;
        }
        const auto found = fold(*asked);
        if (found)
            std::cout << *found << '\n';
        else
            std::cout << "refused: " << static_cast<int>(found.error()) << '\n';
    }
}
