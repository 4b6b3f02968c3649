// Makes the calls of tests/c/storage from C++ (tests/c/check_storage.c has what its columns say), and compares their
// results. Prints each row that differs, and then how many agree. By hand, at the top of the repository, after `rt lib`
// in crates/apfloat_c:
//
//   c++ -std=c++17 -Iinclude tests/cpp/check_storage.cpp crates/apfloat_c/out/libapfloat_c.a -o check_storage
//   ./check_storage < tests/c/storage
#include "rows.hpp"

#include <iostream>
#include <vector>

namespace {

using namespace apfloat;

// Calls a function with the tag of the storage format that a word names.
template <class Function>
bool with_storage(std::string_view word, Function function) {
    if (word == "e2m1fn") return function(rows::tag<e2m1fn>()), true;
    if (word == "e2m3fn") return function(rows::tag<e2m3fn>()), true;
    if (word == "e3m2fn") return function(rows::tag<e3m2fn>()), true;
    if (word == "e3m4") return function(rows::tag<e3m4>()), true;
    if (word == "e8m0fnu") return function(rows::tag<e8m0fnu>()), true;
    if (word == "ue4m3") return function(rows::tag<ue4m3>()), true;
    return false;
}

struct row {
    std::string call, format, target, mode, operand, result, status;

    apfloat_halves given() const { return rows::integer_of(operand, 16).value(); }
    bool is(apfloat_halves bits, flags raised) const {
        return detail::is_equal(bits, rows::integer_of(result, 16).value()) && raised.names() == status;
    }
    rounding round() const { return rows::mode_of(mode.substr(0, mode.find('+'))).value(); }
    overflowing large() const {
        const auto end = mode.find('+');
        const auto word = end == std::string::npos ? "" : mode.substr(end);
        if (word == "+saturate") return overflowing::saturates;
        if (word == "+finite") return overflowing::saturates_finite;
        return word == "+all" ? overflowing::saturates_all : overflowing::rounds;
    }
};

template <class F>
apfloat_halves halves(const stored<F> &x) {
    return {x.bits(), 0};
}

// Whether an array of the value twice gives the codes that the value alone does.
template <class To, class Convert>
bool is_in_array(const result<stored<To>> &made, Convert convert) {
    std::vector<stored<To>> codes(2);
    const auto counts = convert(codes.data());
    return counts && counts->values == 2 && counts->status.names() == made.status.names() &&
           codes[0].bits() == made.value.bits() && codes[1].bits() == made.value.bits();
}

// Values of x87 have padding, and no arrays.
template <class From>
constexpr bool has_arrays = !std::is_same_v<From, x87>;

template <class From, class To>
bool is_stored_by(const row &r, const value<From> &x) {
    const std::vector<value<From>> values(2, x);
    if (r.mode == "odd") {
        const auto made = to_storage_odd<To>(x);
        bool same = r.is(halves(made.value), made.status);
        if constexpr (has_arrays<From>)
            same = same && is_in_array<To>(made, [&](stored<To> *codes) {
                       return convert_array_odd(values.data(), values.size(), codes);
                   });
        return same;
    }
    const auto words = rows::split(r.mode, ' ');
    const auto digits = static_cast<std::uint32_t>(std::stoul(words.at(1)));
    const auto random = static_cast<std::uint32_t>(std::stoul(words.at(2), nullptr, 16));
    const std::uint32_t randoms[] = {random, random};
    const auto made = to_storage_random<To>(x, digits, random);
    bool same = made && r.is(halves(made->value), made->status);
    if constexpr (has_arrays<From>)
        same = same && is_in_array<To>(*made, [&](stored<To> *codes) {
                   return convert_array_random(values.data(), values.size(), digits, randoms, codes);
               });
    return same;
}

template <class From, class To>
bool is_stored(const row &r) {
    const auto x = value<From>::from_halves(r.given()).value();
    if (r.call == "to_storage_by") return is_stored_by<From, To>(r, x);
    const auto made = to_storage<To>(x, r.round(), r.large());
    return r.is(halves(made.value), made.status);
}

template <class From, class To>
bool is_loaded(const row &r) {
    const auto code = stored<From>::from_bits(static_cast<std::uint8_t>(r.given().low));
    const auto made = from_storage<To>(code, r.round(), r.large());
    return r.is(made.value.halves(), made.status);
}

// The number that a code in hexadecimal digits is.
template <class F>
stored<F> code_of(const std::string &digits) {
    return stored<F>::from_bits(static_cast<std::uint8_t>(std::stoul(digits, nullptr, 16)));
}

template <class F>
bool is_operated(const row &r) {
    const auto words = rows::split(r.operand, ' ');
    const auto x = code_of<F>(words.at(1)), y = code_of<F>(words.at(2)), z = code_of<F>(words.at(3));
    const auto &name = words[0];
    if (name == "minimum") return r.is(halves(minimum(x, y)), {});
    if (name == "maximum") return r.is(halves(maximum(x, y)), {});
    const auto mode = r.round();
    const auto made = name == "add"    ? add(x, y, mode)
                      : name == "sub"  ? sub(x, y, mode)
                      : name == "mul"  ? mul(x, y, mode)
                      : name == "div"  ? div(x, y, mode)
                      : name == "sqrt" ? sqrt(x, mode)
                                       : fma(x, y, z, mode);
    return r.is(halves(made.value), made.status);
}

bool agrees_on_codes(const row &r) {
    bool found = false;
    with_storage(r.format, [&](auto source) {
        using S = typename decltype(source)::format;
        if (r.call == "between_storage")
            with_storage(r.target, [&](auto target) {
                using T = typename decltype(target)::format;
                const auto made = to_storage<T>(code_of<S>(r.operand), r.round(), r.large());
                found = r.is(halves(made.value), made.status);
            });
        else if constexpr (S::width <= 6) found = is_operated<S>(r);
    });
    return found;
}

bool agrees(const row &r) {
    if (r.call == "between_storage" || r.call == "storage_operation") return agrees_on_codes(r);
    bool found = false;
    const bool goes_out = r.call == "from_storage";
    rows::with_format(goes_out ? r.target : r.format, [&](auto built_in) {
        using F = typename decltype(built_in)::format;
        if constexpr (!F::is_pair)
            with_storage(goes_out ? r.format : r.target, [&](auto storage) {
                using S = typename decltype(storage)::format;
                if (goes_out) found = is_loaded<S, F>(r);
                else if constexpr (std::is_same_v<F, typename F::plain>) found = is_stored<F, S>(r);
            });
    });
    return found;
}

// What no row shows: arrays without values, refused digits, and orders.
bool refuses() {
    const value<binary16> x;
    const value<binary16> *none = nullptr;
    stored<e3m4> code;
    const std::uint32_t random = 0;
    return to_storage_random<e3m4>(x, 0, 0).error() == errc::wrong_width &&
           to_storage_random<e3m4>(x, 33, 0).error() == errc::wrong_width &&
           convert_array_random(&x, 1, 33, &random, &code).error() == errc::wrong_width &&
           convert_array_random(&x, 1, 8, nullptr, &code).error() == errc::wrong_length &&
           convert_array_odd(none, 1, &code).error() == errc::wrong_length &&
           convert_array_odd(none, 0, &code)->values == 0 &&
           convert_array_random(none, 0, 8, nullptr, &code)->values == 0 &&
           compare(code_of<e3m4>("80"), code_of<e3m4>("00")) == order::equal &&
           compare(code_of<e8m0fnu>("ff"), code_of<e8m0fnu>("00")) == order::unordered &&
           compare(code_of<e2m1fn>("9"), code_of<e2m1fn>("1")) == order::less;
}

} // namespace

int main() {
    unsigned agreeing = 0;
    bool all = true;
    for (std::string line; std::getline(std::cin, line);) {
        if (line.empty() || line[0] == '#') continue;
        const auto columns = rows::split(line, '\t');
        const auto kind = rows::split(columns.at(1), '>');
        const row r = {columns[0], kind.at(0), kind.back(), columns.at(2), columns.at(3), columns.at(4), columns.at(5)};
        if (agrees(r)) agreeing++;
        else all = false, std::cout << line << '\n';
    }
    if (!refuses()) all = false, std::cout << "a call that has to be refused\n";
    std::cout << agreeing << " rows of storage formats agree\n";
    return all && agreeing > 0 ? 0 : 1;
}
