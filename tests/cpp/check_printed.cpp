// What streams write and read: doubles as std::printf writes them, the rows of tests/cpp/printed of other formats, and
// what is read. Reads the rows, prints what differs, and then how many texts agree.
#include "rows.hpp"

#include <cstdarg>
#include <cstdio>
#include <iomanip>
#include <iostream>
#include <random>
#include <sstream>

namespace {

using namespace apfloat;
using single = value<binary32>;
using number = value<binary64>;

unsigned long agreeing = 0, differing = 0;

void check(const std::string &found, const std::string &expected, const std::string &what) {
    if (found == expected) {
        agreeing++;
    } else if (differing++ < 20) {
        std::cout << what << ": '" << found << "' is not '" << expected << "'\n";
    }
}

std::string printed(const char *format, ...) {
    char text[2000];
    std::va_list arguments;
    va_start(arguments, format);
    std::vsnprintf(text, sizeof text, format, arguments);
    va_end(arguments);
    return text;
}

void set_style(std::ostream &out, const std::string &style) {
    out << std::defaultfloat;
    if (style == "fixed") out << std::fixed;
    if (style == "scientific") out << std::scientific;
    if (style == "hexfloat") out << std::hexfloat;
}

// A stream for values, and one for doubles, with the same flags.
class streams {
public:
    template <class Manipulator>
    void set(const Manipulator &to) {
        ours_ << to;
        theirs_ << to;
    }
    void set_style(const std::string &style) {
        ::set_style(ours_, style);
        ::set_style(theirs_, style);
    }
    void check(double x, const std::string &what) {
        ours_.str("");
        theirs_.str("");
        ours_ << number(x);
        theirs_ << x;
        ::check(ours_.str(), theirs_.str(), what);
    }

private:
    std::ostringstream ours_, theirs_;
};

void check_doubles() {
    std::mt19937_64 random_bits(5);
    std::ostringstream out;
    const double special[] = {0.0,    -0.0,   0.5,      1.5,      2.5,    0.125, 9.5,   9.995, 99.5, 0.05, 1e22, 1e23,
                              5e-324, -1e-5,  0.0001,   0.00001,  123456, 1e6,   1e-300, 1e300, 0.1,  0.3,  1e15, 1e16,
                              2.5e-5, 999999, 999999.5, 9999995.0, 1.0,   10.0,  1e-4,  9.9999e-5};
    for (int i = 0; i < 200000; i++) {
        const auto drawn = random_bits();
        double x = special[drawn % std::size(special)];
        if (drawn / 64 % 4 == 1) {
            x = static_cast<double>(number::from_bits(random_bits()));
        } else if (drawn / 64 % 4 == 2) {
            // Few digits, so that many are ties.
            x = static_cast<double>(static_cast<std::int64_t>(random_bits() % 2000001) - 1000000) /
                static_cast<double>(1u << drawn / 256 % 12);
        } else if (drawn / 64 % 4 == 3) {
            const auto bits = random_bits() % (UINT64_C(100) << 52) + (UINT64_C(973) << 52);
            x = static_cast<double>(number::from_bits(bits));
        }
        // What printf writes for NaNs, and for infinities in the sizes below, is checked elsewhere.
        if (!is_finite(number(x))) continue;
        const int places = static_cast<int>(drawn >> 32) & 31;
        const int style = static_cast<int>(drawn >> 40) & 3;
        static constexpr const char *styles[] = {"fixed", "scientific", "general", "hexfloat"};
        static constexpr const char *formats[] = {"%.*f", "%.*e", "%.*g"};
        out.str("");
        set_style(out, styles[style]);
        out << std::setprecision(places) << number(x);
        const auto expected = style == 3 ? printed("%a", x)
                              : style == 2 && places == 6 ? to_string(number(x))
                                                          : printed(formats[style], places, x);
        check(out.str(), expected, std::string(styles[style]) + ' ' + std::to_string(places) + printed(" %a", x));
    }
}

// The other flags, beside those of the streams of double.
void check_flags() {
    for (const char *style : {"fixed", "scientific", "general", "hexfloat"})
        for (const int places : {0, 1, 3, 5, 7, 12, 400})
            for (const unsigned flags : {0u, 1u, 2u, 4u, 7u})
                for (const auto adjusted : {std::ios_base::left, std::ios_base::right, std::ios_base::internal})
                    for (const double x : {0.0, -0.0, 1.0, -2.5, 1234.5, 1e-7, 1e30, 5e-324, 100.0}) {
                        streams both;
                        both.set_style(style);
                        both.set(std::setprecision(places));
                        both.set(std::setfill('*'));
                        if (flags & 1) both.set(std::showpos);
                        if (flags & 2) both.set(std::uppercase);
                        if (flags & 4) both.set(std::showpoint);
                        both.set(std::setiosflags(adjusted));
                        both.set(std::setw(20));
                        both.check(x, std::string(style) + ' ' + std::to_string(places) + ' ' + std::to_string(flags) +
                                          printed(" %a", x));
                    }
    std::ostringstream out;
    const auto infinity = std::numeric_limits<number>::infinity();
    out << std::fixed << std::setprecision(2) << infinity << ' ' << -infinity << ' '
        << std::numeric_limits<number>::quiet_NaN() << ' ' << std::showpos << std::uppercase << infinity;
    check(out.str(), "inf -inf nan +INF", "infinities");
    out = std::ostringstream();
    out << std::fixed << std::setprecision(16500) << std::numeric_limits<value<binary128>>::denorm_min();
    const auto least = out.str();
    check(least.substr(0, 2) + std::to_string(least.find_first_not_of("0.")), "0.4967", "the least quad");
    check(least.substr(4967, 16) + least.substr(least.size() - 7), "64751751194380255000000", "its digits");
    // Pairs are written by the sum of their parts.
    out = std::ostringstream();
    out << std::fixed << std::setprecision(20) << pair_of(number(1.0), number(-0x1p-60)) << ' '
        << pair_of(number(-0x1p-60), number(1.0)) << ' ' << pair_of(number(0x1p60), number(0.5)) << ' ' << std::hexfloat
        << pair_of(number(-1.0), number(-0x1p-60));
    check(out.str(), "0.99999999999999999913 0.99999999999999999913 1152921504606846976.50000000000000000000 "
                     "-0x1.000000000000001p+0", "pairs");
    out = std::ostringstream();
    out << value<e4m3fn>::from_bits(0x7e) << ' ' << -std::numeric_limits<value<binary16>>::max() << ' '
        << shortest_text(std::numeric_limits<value<binary16>>::max()).view() << ' ' << single(16777216.0f) << ' '
        << single(1e20f) << ' ' << value<bfloat16>::from_bits(0x5a0e) << ' ' << value<bfloat16>::from_bits(0x5a0f);
    check(out.str(), "448.0 -65504.0 65500.0 16777216.0 100000000000000000000.0 9992361673228288.0 10060000000000000.0",
          "whole numbers");
}

// What is read of a text: the value, whether it failed, and what is left.
template <class Number>
void check_read(const std::string &text, const std::string &expected) {
    std::istringstream in(text);
    Number x = -Number();
    in >> x;
    const std::string state = in.fail() ? "fails" : in.eof() ? "ends" : "goes on";
    in.clear();
    std::string rest;
    std::getline(in, rest);
    check(to_string(x) + '|' + state + '|' + rest, expected, "reading '" + text + '\'');
}

void check_reading() {
    check_read<number>(" 1.5,2", "1.5|goes on|,2");
    check_read<number>("-1e-7 x", "-1e-7|goes on| x");
    check_read<number>("0x1.8p+1", "3.0|ends|");
    check_read<number>("+.5e1abc", "5.0|goes on|abc");
    check_read<number>("1.2.3", "1.2|goes on|.3");
    check_read<number>("inf nan", "inf|goes on| nan");
    check_read<number>("-inf", "-inf|ends|");
    check_read<number>("nan(0x7)7", "nan|goes on|7");
    check_read<number>("one", "0.0|fails|one");
    check_read<number>("1e", "0.0|fails|");
    check_read<number>("--1", "0.0|fails|-1");
    check_read<number>("", "0.0|fails|");
    check_read<number>("  ", "0.0|fails|");
    check_read<value<ieee<binary16>>>("0.1", "0.1|ends|");
    check_read<unflagged<binary64, rounding::downward>>("0.1", "0.09999999999999999|ends|");
    check_read<unflagged<binary64, rounding::upward>>("0.1", "0.1|ends|");
    check_read<value<double_pair>>("0.5", "0.5|ends|");
    std::istringstream in("1 2.5 1e400 x");
    number first, second, third, fourth;
    in >> first >> second >> third >> fourth;
    check(to_string(first) + to_string(second) + to_string(third) + (in.fail() ? " fails" : ""), "1.02.5inf fails",
          "four values");
}

void check_rows() {
    for (std::string line; std::getline(std::cin, line);) {
        const auto columns = rows::split(line, '\t');
        rows::with_format(columns.at(0), [&](auto named) {
            using F = typename decltype(named)::format;
            const auto x = value<F>::from_halves(rows::integer_of(columns.at(1), 16).value()).value();
            std::ostringstream out;
            set_style(out, columns.at(2));
            out << std::setprecision(std::stoi(columns.at(3))) << x;
            check(out.str(), columns.at(4), line);
        });
    }
}

} // namespace

int main() {
    check_doubles();
    check_flags();
    check_rows();
    check_reading();
    std::cout << agreeing << " texts agree, " << differing << " differ\n";
    return differing == 0 ? 0 : 1;
}
