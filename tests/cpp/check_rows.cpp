// Makes the calls of rows from C++, and compares their results: those of tests/rows/stored and of
// tests/c/decimals, in which long texts are left out. Rows that the header has no call or no format for are skipped.
//
// It prints each row that differs, and how many rows of each call agree, which tests/cpp/agreeing has. By hand, at the
// top of the repository, after `rt lib` in crates/apfloat_c:
//
//   c++ -std=c++17 -Iinclude tests/cpp/check_rows.cpp crates/apfloat_c/out/libapfloat_c.a -o check_rows
//   cat tests/rows/stored tests/c/decimals | ./check_rows | diff - tests/cpp/agreeing
#include "rows.hpp"

#include <functional>
#include <iostream>
#include <map>
#include <sstream>

namespace {

using namespace apfloat;
using rows::tag;

struct row {
    std::string call, format, target, mode_word, operands, value, status, more;
    rounding mode = rounding::nearest_even;
    std::vector<std::string> words; // of the operands
};

enum class verdict { agrees, differs, skipped };

verdict of(bool agrees) { return agrees ? verdict::agrees : verdict::differs; }

// What a function returns for a mode that is known when the program is compiled. Two of them are enough, since such a
// mode is only passed on, and each takes time to compile.
template <class Function>
bool with_mode(rounding mode, Function function) {
    switch (mode) {
    case rounding::nearest_even: return function(std::integral_constant<rounding, rounding::nearest_even>());
    case rounding::upward: return function(std::integral_constant<rounding, rounding::upward>());
    default: return true;
    }
}

// An operand by its number. A row without it stops the program.
template <class F>
value<F> operand(const row &r, std::size_t number) {
    return value<F>::from_halves(rows::integer_of(r.words.at(number), 16).value()).value();
}

bool is_number(apfloat_halves found, unsigned base, const row &r) {
    const auto expected = rows::integer_of(r.value, base);
    return expected && detail::is_equal(found, *expected);
}

template <class F>
bool is_value(const value<F> &x, const row &r) {
    return is_number(x.halves(), 16, r);
}

bool is_status(flags raised, const row &r) { return r.status == "-" ? raised.none() : raised.names() == r.status; }

template <class F>
bool is_result(const result<value<F>> &found, const row &r) {
    return is_value(found.value, r) && is_status(found.status, r);
}

bool is_truth(bool found, const row &r) { return r.value == (found ? "true" : "false"); }

// Whether the last column says so of an extra result, if it says anything.
bool is_extra(const char *name, bool found, const row &r) {
    return r.more == "-" || r.more == std::string(name) + (found ? "=true" : "=false");
}

// ---- operations

// A function that returns its flags, and one that joins them.
template <class F, class Returning, class Joining>
bool both_agree(const row &r, Returning returning, Joining joining) {
    const result<value<F>> found = returning();
    gather flags(r.mode);
    flags.raise(flag::div_by_zero);
    const value<F> joined = joining(flags);
    return is_result(found, r) && is_value(joined, r) && flags.raised() == (found.status | flag::div_by_zero);
}

// An operation as a function, as an operator, and as an assignment.
struct sum {
    template <class X, class Mode>
    static auto call(const X &x, const X &y, Mode &&mode) { return add(x, y, mode); }
    template <class X, class Y>
    static auto apply(X &&x, Y &&y) { return std::forward<X>(x) + std::forward<Y>(y); }
    template <class X, class Y>
    static void assign(X &x, Y &&y) { x += std::forward<Y>(y); }
};

struct difference {
    template <class X, class Mode>
    static auto call(const X &x, const X &y, Mode &&mode) { return sub(x, y, mode); }
    template <class X, class Y>
    static auto apply(X &&x, Y &&y) { return std::forward<X>(x) - std::forward<Y>(y); }
    template <class X, class Y>
    static void assign(X &x, Y &&y) { x -= std::forward<Y>(y); }
};

struct product {
    template <class X, class Mode>
    static auto call(const X &x, const X &y, Mode &&mode) { return mul(x, y, mode); }
    template <class X, class Y>
    static auto apply(X &&x, Y &&y) { return std::forward<X>(x) * std::forward<Y>(y); }
    template <class X, class Y>
    static void assign(X &x, Y &&y) { x *= std::forward<Y>(y); }
};

struct quotient {
    template <class X, class Mode>
    static auto call(const X &x, const X &y, Mode &&mode) { return div(x, y, mode); }
    template <class X, class Y>
    static auto apply(X &&x, Y &&y) { return std::forward<X>(x) / std::forward<Y>(y); }
    template <class X, class Y>
    static void assign(X &x, Y &&y) { x /= std::forward<Y>(y); }
};

template <class Operation, class F>
bool gathered_agree(const row &r, const value<F> &x, const value<F> &y) {
    gather by_left(r.mode), by_right(r.mode), by_both(r.mode), in_place(r.mode);
    const value<F> results[] = {Operation::apply(by_left(x), y), Operation::apply(x, by_right(y)),
                                Operation::apply(by_both(x), by_both(y))};
    value<F> changed = x;
    Operation::assign(changed, in_place(y));
    for (const auto &found : results)
        if (!is_value(found, r)) return false;
    for (const gather *flags : {&by_left, &by_right, &by_both, &in_place})
        if (!is_status(flags->raised(), r)) return false;
    return is_value(changed, r);
}

template <class Operation, class F>
bool unflagged_agree(const row &r, const value<F> &x, const value<F> &y) {
    return with_mode(r.mode, [&](auto mode) {
        using number = unflagged<F, decltype(mode)::value>;
        number changed = x;
        Operation::assign(changed, y);
        return is_value<F>(changed, r) && is_value<F>(Operation::apply(number(x), number(y)), r) &&
               is_value<F>(Operation::apply(number(x), y), r) && is_value<F>(Operation::apply(x, number(y)), r);
    });
}

template <class F, class Operation>
verdict check_operation(const row &r) {
    const auto x = operand<F>(r, 0), y = operand<F>(r, 1);
    return of(both_agree<F>(r, [&] { return Operation::call(x, y, r.mode); },
                            [&](gather &with) { return Operation::call(x, y, with); }) &&
              gathered_agree<Operation>(r, x, y) && unflagged_agree<Operation>(r, x, y));
}

template <class F>
verdict check_fused_sum(const row &r) {
    if constexpr (F::is_pair) {
        return verdict::skipped;
    } else {
        const auto x = operand<F>(r, 0), y = operand<F>(r, 1), z = operand<F>(r, 2);
        const auto is_same_unflagged = [&](auto mode) {
            using number = unflagged<F, decltype(mode)::value>;
            return is_value<F>(fma(number(x), number(y), number(z)), r);
        };
        return of(both_agree<F>(r, [&] { return fma(x, y, z, r.mode); },
                                [&](gather &with) { return fma(x, y, z, with); }) &&
                  with_mode(r.mode, is_same_unflagged));
    }
}

template <class F>
verdict check_root(const row &r) {
    const auto x = operand<F>(r, 0);
    const auto is_same_unflagged = [&](auto mode) {
        return is_value<F>(sqrt(unflagged<F, decltype(mode)::value>(x)), r);
    };
    return of(both_agree<F>(r, [&] { return sqrt(x, r.mode); }, [&](gather &with) { return sqrt(x, with); }) &&
              with_mode(r.mode, is_same_unflagged));
}

template <class F>
verdict check_near_remainder(const row &r) {
    const auto x = operand<F>(r, 0), y = operand<F>(r, 1);
    return of(both_agree<F>(r, [&] { return rem(x, y); }, [&](gather &with) { return rem(x, y, with); }));
}

template <class F>
verdict check_remainder(const row &r) {
    const auto x = operand<F>(r, 0), y = operand<F>(r, 1);
    return of(both_agree<F>(r, [&] { return mod(x, y); }, [&](gather &with) { return mod(x, y, with); }));
}

template <class F>
verdict check_integral(const row &r) {
    const auto x = operand<F>(r, 0);
    return of(both_agree<F>(r, [&] { return round_to_integral(x, r.mode); },
                            [&](gather &with) { return round_to_integral(x, with); }));
}

template <class F>
verdict check_scaling(const row &r) {
    const auto x = operand<F>(r, 0);
    const auto power = static_cast<std::int32_t>(std::stol(r.words.at(1)));
    return of(both_agree<F>(r, [&] { return scalbn(x, power, r.mode); },
                            [&](gather &with) { return scalbn(x, power, with); }));
}

template <class F>
verdict check_exponent(const row &r) {
    return of(std::to_string(ilogb(operand<F>(r, 0))) == r.value);
}

template <class F>
verdict check_fraction(const row &r) {
    const auto x = operand<F>(r, 0);
    const auto found = frexp(x, r.mode);
    gather flags(r.mode);
    const auto [joined, exponent] = frexp(x, flags);
    return of(is_value(found.value, r) && is_status(found.status, r) &&
              "exponent=" + std::to_string(found.exponent) == r.more && is_value(joined, r) &&
              exponent == found.exponent && flags.raised() == found.status);
}

template <class F>
verdict check_next_up(const row &r) {
    const auto x = operand<F>(r, 0);
    return of(both_agree<F>(r, [&] { return next_up(x); }, [&](gather &with) { return next_up(x, with); }));
}

template <class F>
verdict check_next_down(const row &r) {
    const auto x = operand<F>(r, 0);
    return of(both_agree<F>(r, [&] { return next_down(x); }, [&](gather &with) { return next_down(x, with); }));
}

// ---- conversions

template <class F>
verdict check_conversion(const row &r) {
    auto found = verdict::skipped;
    if constexpr (!F::is_pair)
        rows::with_format(r.target, [&](auto target) {
            using To = typename decltype(target)::format;
            if constexpr (!To::is_pair) {
                const auto x = operand<F>(r, 0);
                const auto made = convert<To>(x, r.mode);
                gather flags(r.mode);
                const auto joined = convert<To>(x, flags);
                found = of(is_value(made.value, r) && is_status(made.status, r) && is_value(joined, r) &&
                           flags.raised() == made.status && is_extra("loses_info", made.loses_info, r));
            }
        });
    return found;
}

// Whether the integer of the row, if a type has it, becomes the value of the row.
template <class F, class I>
bool is_from(const row &r, apfloat_halves number) {
    const I made = detail::integer_of<I>(number);
    if (!detail::is_equal(detail::halves_of_integer(made), number)) return true;
    gather flags(r.mode);
    const value<F> joined = from_integer<F>(made, flags);
    return is_result(from_integer<F>(made, r.mode), r) && is_value(joined, r) && is_status(flags.raised(), r);
}

template <class F, class... Types>
bool is_from_each(const row &r) {
    const auto number = rows::integer_of(r.words.at(0), 10).value();
    return (is_from<F, Types>(r, number) && ...);
}

template <class F>
verdict check_from_unsigned(const row &r) {
    return of(is_from_each<F, unsigned char, unsigned short, unsigned, unsigned long, unsigned long long,
                           detail::unsigned128>(r));
}

template <class F>
verdict check_from_signed(const row &r) {
    return of(is_from_each<F, signed char, short, int, long, long long, detail::signed128>(r));
}

template <class I, class F>
bool is_to_integer(const row &r, const value<F> &x) {
    const auto found = to_integer<I>(x, r.mode);
    gather flags(r.mode);
    const I joined = to_integer<I>(x, flags);
    return is_number(detail::halves_of_integer(found.value), 10, r) && joined == found.value &&
           is_status(found.status, r) && flags.raised() == found.status && is_extra("is_exact", found.is_exact, r);
}

// Rows of widths that no type of integers has are skipped.
template <class F, class I8, class I16, class I32, class I64, class I128>
verdict check_to_integer(const row &r) {
    const auto x = operand<F>(r, 0);
    switch (std::stoi(r.words.at(1))) {
    case 8: return of(is_to_integer<I8>(r, x));
    case 16: return of(is_to_integer<I16>(r, x));
    case 32: return of(is_to_integer<I32>(r, x));
    case 64: return of(is_to_integer<I64>(r, x));
    case 128: return of(is_to_integer<I128>(r, x));
    default: return verdict::skipped;
    }
}

template <class F>
verdict check_to_unsigned(const row &r) {
    return check_to_integer<F, std::uint8_t, std::uint16_t, std::uint32_t, std::uint64_t, detail::unsigned128>(r);
}

template <class F>
verdict check_to_signed(const row &r) {
    return check_to_integer<F, std::int8_t, std::int16_t, std::int32_t, std::int64_t, detail::signed128>(r);
}

// ---- order, signs and classes

template <class F>
verdict check_order(const row &r) {
    const auto x = operand<F>(r, 0), y = operand<F>(r, 1);
    const bool is_less = r.value == "Less", is_equal = r.value == "Equal", is_greater = r.value == "Greater";
    const order expected = is_less ? order::less : is_equal ? order::equal : is_greater ? order::greater
                                                                                        : order::unordered;
    const std::hash<value<F>> hash;
#if defined(APFLOAT_HAS_THREE_WAY_COMPARISON)
    const auto found = x <=> y;
    if ((found < 0) != is_less || (found == 0) != is_equal || (found > 0) != is_greater) return verdict::differs;
#endif
    return of(compare(x, y) == expected && (x < y) == is_less && (x == y) == is_equal && (x > y) == is_greater &&
              (x <= y) == (is_less || is_equal) && (x >= y) == (is_greater || is_equal) && (x != y) == !is_equal &&
              (!is_equal || hash(x) == hash(y)));
}

template <class F>
verdict check_equal(const row &r) {
    const auto x = operand<F>(r, 0), y = operand<F>(r, 1);
    return of(is_truth(x == y, r) && is_truth(!(x != y), r));
}

template <class F>
verdict check_negation(const row &r) {
    const auto x = operand<F>(r, 0);
    gather flags;
    return of(is_value(-x, r) && is_value<F>(-flags(x), r) && is_value<F>(-unflagged<F>(x), r));
}

template <class F>
verdict check_magnitude(const row &r) {
    return of(is_value(abs(operand<F>(r, 0)), r));
}

template <class F>
verdict check_copied_sign(const row &r) {
    return of(is_value(copy_sign(operand<F>(r, 0), operand<F>(r, 1)), r));
}

template <class F>
verdict check_minimum(const row &r) {
    const auto x = operand<F>(r, 0), y = operand<F>(r, 1);
    return of(is_value(r.call == "min" ? min(x, y) : minimum(x, y), r));
}

template <class F>
verdict check_maximum(const row &r) {
    const auto x = operand<F>(r, 0), y = operand<F>(r, 1);
    return of(is_value(r.call == "max" ? max(x, y) : maximum(x, y), r));
}

// A NaN with a payload, or with none; with the other sign it is the negated one.
template <class F>
verdict check_nan(const row &r) {
    const auto payload = rows::integer_of(r.operands == "None" ? "0" : r.operands, 16).value();
    const bool quiet = r.call == "qnan";
    const auto made = quiet ? quiet_nan<F>(payload) : signaling_nan<F>(payload);
    const auto negative = quiet ? quiet_nan<F>(payload, true) : signaling_nan<F>(payload, true);
    return of(is_value(made, r) && is_value(-negative, r));
}

template <class F>
verdict check_question(const row &r) {
    const auto x = operand<F>(r, 0);
    const auto found = classify(x);
    const std::pair<std::string_view, bool> answers[] = {
        {"is_signaling", is_signaling(x)},
        {"is_nan", is_nan(x)},
        {"is_infinite", is_infinite(x)},
        {"is_finite", is_finite(x)},
        {"is_finite_non_zero", is_finite(x) && !is_zero(x)},
        {"is_zero", is_zero(x)},
        {"is_non_zero", !is_zero(x)},
        {"is_normal", is_normal(x)},
        {"is_denormal", is_subnormal(x)},
        {"is_negative", x.sign_bit()},
        {"is_pos_zero", found == number_class::positive_zero},
        {"is_neg_zero", found == number_class::negative_zero},
        {"is_pos_infinity", found == number_class::positive_infinity},
        {"is_neg_infinity", found == number_class::negative_infinity}};
    for (const auto &[question, answer] : answers)
        if (question == r.call) return of(is_truth(answer, r));
    return verdict::differs;
}

// ---- constants

template <class F>
verdict check_constant(const row &r) {
    using limits = std::numeric_limits<value<F>>;
    const auto magnitude = abs(operand<F>(r, 0));
    const auto constant = r.call == "is_largest"    ? limits::max()
                          : r.call == "is_smallest" ? limits::denorm_min()
                                                    : limits::min();
    // A pair that has -0 as its low double is equal to a constant, and is not the constant.
    const bool is_same = F::is_pair ? detail::is_equal(magnitude.halves(), constant.halves()) : magnitude == constant;
    return of(is_truth(is_same, r));
}

// ---- texts

template <class F>
bool is_read(const expected<result<value<F>>> &found, const row &r) {
    if (r.status == "ParseError" || r.value == "ParseError") return !found && found.error() == errc::refused_text;
    return found && is_result(*found, r);
}

// What is read with a gather: the same value or error, and the flags, which an error does not raise.
template <class F>
bool is_joined(const expected<result<value<F>>> &found, const expected<value<F>> &joined, flags raised) {
    if (!found) return !joined && joined.error() == found.error() && raised.none();
    return joined && detail::is_equal(joined->halves(), found->value.halves()) && raised == found->status;
}

template <class F>
verdict check_hexadecimal(const row &r) {
    const auto found = parse_hexadecimal<F>(r.operands, r.mode);
    gather flags(r.mode);
    const auto joined = parse_hexadecimal<F>(r.operands, flags);
    return of(is_read(found, r) && is_joined(found, joined, flags.raised()));
}

// Long texts have a short form, in braces.
template <class F>
verdict check_decimal(const row &r) {
    if (r.operands.find('{') != std::string::npos) return verdict::skipped;
    const auto found = parse<F>(r.operands, r.mode);
    gather flags(r.mode);
    const auto joined = parse<F>(r.operands, flags);
    return of(is_read(found, r) && is_joined(found, joined, flags.raised()));
}

// A row has no text of an infinity or a NaN.
template <class F>
verdict check_shortest(const row &r) {
    if (F::is_pair || r.value == "None") return verdict::skipped;
    const auto x = operand<F>(r, 0);
    std::ostringstream written;
    written << x;
    const std::string found = to_text(x).c_str();
    // A whole number that is written in full is exactly what it says.
    const auto read = parse<typename F::plain>(found);
    const bool is_in_full = F::precision < 53 && read && read->status.none() && detail::is_equal(read->value.halves(), x.halves());
    if constexpr (!F::is_pair)
        if (shortest_text(x).view() != r.value) return verdict::differs;
    return of((found == r.value || is_in_full) && to_string(x) == found && written.str() == found);
}

// ---- rows

using check = verdict (*)(const row &);

// The check of a call in a format, or null.
template <class F>
check check_of(std::string_view call) {
    static constexpr std::pair<std::string_view, check> all[] = {
        {"add_r", check_operation<F, sum>},
        {"sub_r", check_operation<F, difference>},
        {"mul_r", check_operation<F, product>},
        {"wide_mul_r", check_operation<F, product>},
        {"div_r", check_operation<F, quotient>},
        {"mul_add_r", check_fused_sum<F>},
        {"wide_mul_add_r", check_fused_sum<F>},
        {"sqrt_r", check_root<F>},
        {"ieee_rem", check_near_remainder<F>},
        {"c_fmod", check_remainder<F>},
        {"round_to_integral", check_integral<F>},
        {"scalbn_r", check_scaling<F>},
        {"ilogb", check_exponent<F>},
        {"frexp_r", check_fraction<F>},
        {"next_up", check_next_up<F>},
        {"next_down", check_next_down<F>},
        {"convert_r", check_conversion<F>},
        {"from_u128_r", check_from_unsigned<F>},
        {"from_i128_r", check_from_signed<F>},
        {"to_u128_r", check_to_unsigned<F>},
        {"to_i128_r", check_to_signed<F>},
        {"partial_cmp", check_order<F>},
        {"eq", check_equal<F>},
        {"neg", check_negation<F>},
        {"abs", check_magnitude<F>},
        {"copy_sign", check_copied_sign<F>},
        {"min", check_minimum<F>},
        {"max", check_maximum<F>},
        {"minimum", check_minimum<F>},
        {"maximum", check_maximum<F>},
        {"qnan", check_nan<F>},
        {"snan", check_nan<F>},
        {"is_signaling", check_question<F>},
        {"is_nan", check_question<F>},
        {"is_infinite", check_question<F>},
        {"is_finite", check_question<F>},
        {"is_finite_non_zero", check_question<F>},
        {"is_zero", check_question<F>},
        {"is_non_zero", check_question<F>},
        {"is_normal", check_question<F>},
        {"is_denormal", check_question<F>},
        {"is_negative", check_question<F>},
        {"is_pos_zero", check_question<F>},
        {"is_neg_zero", check_question<F>},
        {"is_pos_infinity", check_question<F>},
        {"is_neg_infinity", check_question<F>},
        {"is_largest", check_constant<F>},
        {"is_smallest", check_constant<F>},
        {"is_smallest_normalized", check_constant<F>},
        {"from_str_r", check_hexadecimal<F>},
        {"read", check_decimal<F>},
        {"shortest", check_shortest<F>}};
    for (const auto &[name, function] : all)
        if (name == call) return function;
    return nullptr;
}

// Rows of tests/c/decimals have fewer columns.
std::optional<row> row_of(const std::string &line) {
    const auto columns = rows::split(line, '\t');
    row r;
    if (columns.size() == 7)
        r = {columns[0], columns[1], "", columns[2], columns[3], columns[4], columns[5], columns[6], {}, {}};
    else if (columns.size() == 6 && columns[0] == "read")
        r = {columns[0], columns[1], "", columns[2], columns[3], columns[4], columns[5], "-", {}, {}};
    else if (columns.size() == 4 && columns[0] == "shortest")
        r = {columns[0], columns[1], "", "-", columns[2], columns[3], "-", "-", {}, {}};
    else
        return std::nullopt;
    const auto end = r.format.find('>');
    if (end != std::string::npos) {
        r.target = r.format.substr(end + 1);
        r.format.erase(end);
    }
    r.words = rows::split(r.operands, ' ');
    return r;
}

// A row with `any` as its mode holds in each.
verdict in_each_mode(check function, row &r) {
    if (r.mode_word != "any") {
        const auto mode = rows::mode_of(r.mode_word);
        if (!mode && r.mode_word != "-") return verdict::differs;
        r.mode = mode.value_or(rounding::nearest_even);
        return function(r);
    }
    auto found = verdict::agrees;
    for (const auto &[name, mode] : rows::modes) {
        r.mode = mode;
        if (found == verdict::agrees) found = function(r);
    }
    return found;
}

} // namespace

int main() {
    std::map<std::string, unsigned> agreeing;
    for (std::string line; std::getline(std::cin, line);) {
        auto r = line.empty() || line.front() == '#' ? std::nullopt : row_of(line);
        // A comparison of values of two formats is skipped.
        if (!r || (!r->target.empty() && r->call.rfind("compare_", 0) == 0)) continue;
        auto found = verdict::skipped;
        rows::with_format(r->format, [&](auto named) {
            using F = typename decltype(named)::format;
            if (const check function = check_of<F>(r->call)) found = in_each_mode(function, *r);
        });
        if (found == verdict::agrees) agreeing[r->call]++;
        if (found == verdict::differs) std::cout << "differs: " << line << '\n';
    }
    for (const auto &[call, count] : agreeing) std::cout << call << ": " << count << " rows agree\n";
}
