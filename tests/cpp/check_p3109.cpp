// Makes the calls of tests/c/p3109 from C++ (tests/c/check_p3109.c has what its columns say), and compares their
// results. Prints each row that differs, and then how many agree.
#include "rows.hpp"

#include <iostream>

namespace {

using namespace apfloat;

using row = std::vector<std::string>;

std::uint32_t word_of(const std::string &digits) {
    return static_cast<std::uint32_t>(rows::integer_of(digits, 16).value().low);
}

// The format of P3109 with this name: binary, the width, p, the precision, and letters for the sign and infinities.
p3109 form_of(const std::string &name) {
    const auto mark = name.find('p');
    const auto number = [&](std::size_t from) { return static_cast<std::uint32_t>(std::stoul(name.substr(from))); };
    return {number(6), number(mark + 1), name[name.size() - 2] == 's', name.back() == 'e'};
}

template <class F>
bool is_encoded(const row &r, const p3109 &form) {
    const auto x = value<F>::from_halves(rows::integer_of(r[3], 16).value()).value();
    const auto words = rows::split(r[2] + "+", '+'), drawn = rows::split(words[0], ' ');
    const auto large = words.at(1) == "finite"     ? overflowing::saturates_finite
                       : words.at(1) == "saturate" ? overflowing::saturates
                                                   : overflowing::rounds;
    const auto made = drawn.size() == 3 ? form.encode_random(x, static_cast<std::uint32_t>(std::stoul(drawn[1])),
                                                             word_of(drawn[2]), drawn[0][0], large)
                      : words[0] == "odd" ? form.encode_odd(x, large)
                                          : form.encode(x, rows::mode_of(words[0]).value(), large);
    return made && made->value == word_of(r[4]) && made->status.names() == r[5];
}

template <class F>
bool is_decoded(const row &r, const p3109 &form) {
    const auto code = static_cast<std::uint16_t>(word_of(r[3]));
    const auto made = form.template decode<F>(code, rows::mode_of(r[2]).value());
    return made && detail::is_equal(made->value.halves(), rows::integer_of(r[4], 16).value()) &&
           made->status.names() == r[5];
}

bool agrees(const row &r) {
    const auto ends = rows::split(r[1], '>');
    const bool is_code = r[0] == "from_p3109";
    bool found = false;
    rows::with_format(is_code ? ends.at(1) : ends.at(0), [&](auto of) {
        using F = typename decltype(of)::format;
        if constexpr (!F::is_pair)
            found = is_code ? is_decoded<F>(r, form_of(ends[0])) : is_encoded<F>(r, form_of(ends.at(1)));
    });
    return found;
}

// What no row shows.
bool refuses() {
    const value<binary32> x;
    return p3109{8, 8}.encode(x).error() == errc::unknown_format &&
           p3109{2, 1}.encode_odd(x).error() == errc::unknown_format &&
           p3109{8, 4}.encode_random(x, 33, 0, 'b').error() == errc::wrong_width &&
           p3109{8, 4}.encode_random(x, 1, 0, 'd').error() == errc::unknown_mode &&
           p3109{16, 1}.decode<binary32>(0).error() == errc::unknown_format;
}

} // namespace

int main() {
    unsigned agreeing = 0;
    bool all = true;
    for (std::string line; std::getline(std::cin, line);) {
        if (line.empty() || line[0] == '#') continue;
        if (agrees(rows::split(line, '\t'))) agreeing++;
        else all = false, std::cout << line << '\n';
    }
    if (!refuses()) all = false, std::cout << "a format that has to be refused\n";
    std::cout << agreeing << " rows of formats of P3109 agree\n";
    return all && agreeing > 0 ? 0 : 1;
}
