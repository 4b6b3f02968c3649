// What the header does that no row shows: constants, flags, gathered flags, errors, exceptions, literals, streams,
// hashes, arrays. Prints what fails, and then how many checks there were.
#include "apfloat.hpp"

#include <iomanip>
#include <iostream>
#include <sstream>
#include <unordered_map>
#include <vector>

namespace {

using namespace apfloat;
using namespace apfloat::literals;

unsigned checks = 0, failures = 0;

void check(bool holds, const char *claim, int line) {
    checks++;
    if (holds) return;
    failures++;
    std::cout << "line " << line << ": " << claim << '\n';
}
#define CHECK(...) check(__VA_ARGS__, #__VA_ARGS__, __LINE__)

using half = value<binary16>;
using single = value<binary32>;
using number = value<binary64>;
using quad = value<binary128>;
using extended = value<x87>;
using pair = value<double_pair>;

// ---- what is known when the program is compiled

static_assert(number(1.5).bits() == UINT64_C(0x3ff8000000000000));
static_assert(single(-0.0f).bits() == 0x80000000 && single(-0.0f).sign_bit());
static_assert(static_cast<double>(-number(1.5)) == -1.5);
static_assert(static_cast<float>(abs(single(-2.0f))) == 2.0f);
static_assert(copy_sign(number(1.0), number(-0.0)).bits() == UINT64_C(0xbff0000000000000));
static_assert(!half::from_halves({0x10000, 0}) && !half::from_halves({0, 1}) && half::from_halves({0xffff, 0}));
static_assert(!extended::from_halves({0, 0x10000}) && extended::from_halves({0, 0xffff}));
static_assert(sizeof(value<e5m2>) == 1 && sizeof(half) == 2 && sizeof(single) == 4 && sizeof(number) == 8);
static_assert(sizeof(quad) == 16 && sizeof(value<ieee<binary16>>) == 2);
static_assert(std::is_trivially_copyable_v<quad> && std::is_standard_layout_v<quad>);
static_assert(!std::is_convertible_v<float, number> && !std::is_convertible_v<int, number>);
static_assert(!std::is_convertible_v<number, double> && !std::is_convertible_v<half, number>);
static_assert((flag::inexact | flag::overflow).has(flag::overflow) && flags().none());
static_assert(value<ieee<binary64>>(number(1.5)).bits() == number(1.5).bits());

// What needs no rounding, while the program is compiled.
static_assert(number(1.0) < number(2.0) && number(-0.0) == number(0.0) && number(1.0) != number(2.0));
static_assert(compare(half::from_bits(0x7e00), half()) == order::unordered && is_nan(quiet_nan<e4m3fnuz>()));
static_assert(classify(single(0x1p-149f)) == number_class::positive_subnormal && is_finite(extended()));
static_assert(next_up(number(1.0)).value.bits() == UINT64_C(0x3ff0000000000001) && next_down(half()).value.sign_bit());
static_assert(next_up(signaling_nan<binary64>()).status == flag::invalid_op && is_signaling(signaling_nan<x87>()));
static_assert(min(number(1.0), number(2.0)) == number(1.0) && maximum(number(-0.0), number(0.0)).bits() == 0);
static_assert(extremum_number_of(extremum::maximum, number(1.0), quiet_nan<binary64>()).value == number(1.0));
static_assert(total_order(number(-0.0), number(0.0)) == order::less);
static_assert(holds(predicate::less, on_nan::signaling, number(1.0), number(2.0)).value);
static_assert(isnan(quiet_nan<binary16>()) && isfinite(half()) && !isinf(half()) && !isnormal(half()));
static_assert(fpclassify(half()) == FP_ZERO && fpclassify(number(1.0)) == FP_NORMAL && signbit(number(-1.0)));
static_assert(fmin(number(1.0), number(2.0)) == fabs(number(-1.0)) && fmax(number(1.0), number(2.0)) == number(2.0));
static_assert(copysign(number(1.0), number(-0.0)) == nextafter(number(-1.0), number(-1.0)).value);
static_assert(nextafter(number(1.0), number(0.0)).value < number(1.0));
static_assert(any_value(number(1.0)).as<binary64>() == number(1.0) && !any_value(number(1.0)).as<ieee<binary64>>());
#if defined(APFLOAT_HAS_THREE_WAY_COMPARISON)
static_assert((number(1.0) <=> number(2.0)) < 0);
#endif

// The calls take no memory.
static_assert(noexcept(add(number(), number())) && noexcept(number() < number()) && noexcept(sqrt(quad())));
static_assert(noexcept(convert<binary16>(number())) && noexcept(from_integer<binary16>(1)));
static_assert(noexcept(fma(half(), half(), half())) && noexcept(floor(number())) && noexcept(-number()));
static_assert(noexcept(parse<binary64>("1")) && noexcept(number::from_text("1")) && noexcept(to_text(number())));
static_assert(noexcept(unflagged<binary64>(1) + 2) && noexcept(add(any_value(), any_value())));

// Whether operands can be added.
template <class X, class Y, class = void>
struct adds : std::false_type {};
template <class X, class Y>
struct adds<X, Y, std::void_t<decltype(std::declval<X>() + std::declval<Y>())>> : std::true_type {};
static_assert(!adds<number, number>::value && !adds<number, int>::value && !adds<number, half>::value);
static_assert(adds<unflagged<binary64>, number>::value && adds<int, unflagged<binary64>>::value);
static_assert(adds<gathered<binary64>, number &>::value && adds<number, gathered<binary64>>::value);
static_assert(!adds<gathered<binary64> &, number>::value && !adds<gathered<binary64>, unflagged<binary64>>::value);

template <class F>
constexpr bool agrees_with_host() {
    using host = std::numeric_limits<typename F::host>;
    using ours = std::numeric_limits<value<F>>;
    constexpr auto is_same = [](value<F> x, typename F::host y) { return static_cast<typename F::host>(x) == y; };
    return ours::digits == host::digits && ours::digits10 == host::digits10 &&
           ours::max_digits10 == host::max_digits10 && ours::min_exponent == host::min_exponent &&
           ours::max_exponent == host::max_exponent && ours::min_exponent10 == host::min_exponent10 &&
           ours::max_exponent10 == host::max_exponent10 && ours::has_infinity && ours::is_iec559 &&
           is_same(ours::min(), host::min()) && is_same(ours::max(), host::max()) &&
           is_same(ours::lowest(), host::lowest()) && is_same(ours::epsilon(), host::epsilon()) &&
           is_same(ours::round_error(), host::round_error()) && is_same(ours::infinity(), host::infinity()) &&
           is_same(ours::denorm_min(), host::denorm_min());
}
static_assert(agrees_with_host<binary32>() && agrees_with_host<binary64>());
static_assert(std::numeric_limits<extended>::digits10 == 18 && std::numeric_limits<extended>::max_digits10 == 21);
static_assert(std::numeric_limits<quad>::digits10 == 33 && std::numeric_limits<quad>::max_digits10 == 36);
static_assert(std::numeric_limits<quad>::min_exponent10 == -4931 && std::numeric_limits<quad>::max_exponent10 == 4932);
static_assert(!std::numeric_limits<value<e4m3fn>>::has_infinity && !std::numeric_limits<pair>::is_specialized);

// Of pairs, what does not rest on a greatest number of digits.
using pair_limits = std::numeric_limits<pair>;
static_assert(pair_limits::digits == 106 && pair_limits::digits10 == 31 && pair_limits::radix == 2);
static_assert(pair_limits::min_exponent == -968 && pair_limits::max_exponent == 1024);
static_assert(pair_limits::min_exponent10 == -291 && pair_limits::max_exponent10 == 308);
static_assert(pair_limits::is_signed && pair_limits::has_infinity && pair_limits::has_quiet_NaN);
static_assert(!pair_limits::is_iec559 && !pair_limits::is_integer && !pair_limits::is_exact);
static_assert(high_of(-pair_limits::max()).bits() == high_of(pair_limits::lowest()).bits());
static_assert(low_of(-pair_limits::max()).bits() == low_of(pair_limits::lowest()).bits());

// What the constants of a type are.
template <class Number>
constexpr bool answers_its_own_type() {
    using limits = std::numeric_limits<Number>;
    return std::is_same_v<decltype(limits::min()), Number> && std::is_same_v<decltype(limits::max()), Number> &&
           std::is_same_v<decltype(limits::lowest()), Number> && std::is_same_v<decltype(limits::epsilon()), Number> &&
           std::is_same_v<decltype(limits::round_error()), Number> &&
           std::is_same_v<decltype(limits::infinity()), Number> &&
           std::is_same_v<decltype(limits::quiet_NaN()), Number> &&
           std::is_same_v<decltype(limits::signaling_NaN()), Number> &&
           std::is_same_v<decltype(limits::denorm_min()), Number>;
}
static_assert(answers_its_own_type<number>() && answers_its_own_type<unflagged<binary16>>());
static_assert(answers_its_own_type<unflagged<ieee<x87>, rounding::upward>>());
static_assert(std::numeric_limits<unflagged<binary16>>::max().bits() == 0x7bff);
static_assert(std::numeric_limits<unflagged<binary16>>::lowest().bits() == 0xfbff);
static_assert(std::is_same_v<decltype(std::numeric_limits<unflagged<double_pair>>::max()), unflagged<double_pair>>);

// ---- what is not

template <class F>
void check_constants() {
    using limits = std::numeric_limits<value<F>>;
    const auto one = from_integer<F>(1).value, two = from_integer<F>(2).value;
    CHECK(sub(next_up(one).value, one).value == limits::epsilon());
    CHECK(div(one, two).value == limits::round_error());
    CHECK(classify(limits::quiet_NaN()) == number_class::quiet_nan);
    CHECK(!limits::has_infinity || classify(limits::infinity()) == number_class::positive_infinity);
    CHECK(!limits::has_signaling_NaN || is_signaling(limits::signaling_NaN()));
    CHECK(is_normal(limits::min()) && is_subnormal(next_down(limits::min()).value));
    CHECK(is_zero(next_down(limits::denorm_min()).value) && !is_zero(limits::denorm_min()));
    CHECK(is_finite(limits::max()) && !is_finite(next_up(limits::max()).value));
    CHECK(ilogb(limits::min()) == F::min_exponent && ilogb(limits::max()) == F::max_exponent);
    CHECK(ilogb(limits::denorm_min()) == F::min_exponent - F::precision + 1);
    CHECK(ilogb(limits::epsilon()) == 1 - F::precision);
}

// The same of pairs, whose neighbours are nearer to each other than 106 digits are.
void check_constants_of_pairs() {
    CHECK(classify(pair_limits::quiet_NaN()) == number_class::quiet_nan && is_signaling(pair_limits::signaling_NaN()));
    CHECK(classify(pair_limits::infinity()) == number_class::positive_infinity);
    CHECK(is_normal(pair_limits::min()) && is_subnormal(pair_limits::denorm_min()));
    CHECK(is_zero(next_down(pair_limits::denorm_min()).value) && !is_zero(pair_limits::denorm_min()));
    CHECK(is_finite(pair_limits::max()) && is_infinite(next_up(pair_limits::max()).value));
    CHECK(quiet_nan<double_pair>().bits().low == pair_limits::quiet_NaN().bits().low);
    CHECK(scalbn(from_integer<double_pair>(1).value, double_pair::min_exponent).value == pair_limits::min());
}

void check_flags() {
    std::ostringstream written;
    written << flags() << ' ' << (flag::inexact | flag::invalid_op) << ' ' << flags::of_code(0x1f);
    CHECK(written.str() == "OK INVALID_OP|INEXACT INVALID_OP|DIV_BY_ZERO|OVERFLOW|UNDERFLOW|INEXACT");
    const auto [third, status] = div(number(1.0), number(3.0));
    CHECK(static_cast<double>(third) == 1.0 / 3.0 && status == flag::inexact);
    // The largest value of binary16, doubled: the rule of its format, and that of IEEE 754-2019 7.4.
    const auto largest = std::numeric_limits<half>::max();
    const value<ieee<binary16>> with_ieee_flags(largest);
    CHECK(add(largest, largest, rounding::toward_zero).status == flag::inexact);
    CHECK(add(with_ieee_flags, with_ieee_flags, rounding::toward_zero).status == (flag::overflow | flag::inexact));
    // (1 + 2^-10) * 2^-14 * (1 - 2^-10) is below 2^-14, and is 2^-14 once it is rounded to 11 digits.
    const auto x = half::from_bits(0x0401), y = half::from_bits(0x3bfe);
    CHECK(mul(x, y).value.bits() == 0x0400);
    CHECK(!mul(value<ieee<binary16>>(x), value<ieee<binary16>>(y)).status.has(flag::underflow));
    CHECK(mul(value<ieee_tiny_before<binary16>>(x), value<ieee_tiny_before<binary16>>(y)).status.has(flag::underflow));
}

void check_gathered() {
    gather upward(rounding::upward);
    const number one(1.0), three(3.0), zero;
    const number third = upward(one) / three;
    CHECK(static_cast<double>(third) == 0.33333333333333337 && upward.raised() == flag::inexact);
    upward.clear();
    CHECK(upward.raised().none() && upward.mode() == rounding::upward);
    const number infinite = (upward(one) + one) / zero;
    CHECK(is_infinite(infinite) && upward.raised() == flag::div_by_zero);
    CHECK(upward(parse<binary64>("0.1").value()) == number(0.1) && upward.raised().has(flag::inexact));
    // Each gather has the flags of what was computed with it.
    gather other;
    const number difference = other(infinite) - infinite;
    CHECK(is_nan(difference) && other.raised() == flag::invalid_op && !upward.raised().has(flag::invalid_op));
    // If both operands have one, the left one's counts.
    gather left(rounding::downward), right(rounding::upward);
    CHECK(static_cast<double>(left(one) / right(three)) == 0.3333333333333333);
    CHECK(left.raised() == flag::inexact && right.raised().none());
    CHECK(next_up(left(one)).value == next_up(one).value && to_integer<int>(three, left) == 3);
}

// The functions that return more than a value and flags, and those without a mode.
void check_gathered_results() {
    gather flags(rounding::upward);
    const auto [half_of_three, exponent] = frexp(number(3.0), flags);
    CHECK(static_cast<double>(half_of_three) == 0.75 && exponent == 2 && flags.raised().none());
    const auto signaling = std::numeric_limits<number>::signaling_NaN();
    CHECK(is_nan(frexp(signaling, flags).first) && flags.raised() == frexp(signaling).status);
    flags.clear();
    CHECK(next_up(number(1.0), flags).bits() == UINT64_C(0x3ff0000000000001) && flags.raised().none());
    CHECK(next_down(number(1.0), flags).bits() == UINT64_C(0x3fefffffffffffff) && flags.raised().none());
    CHECK(is_nan(next_up(signaling, flags)) && flags.raised() == next_up(signaling).status);
    CHECK(flags.raised() == flag::invalid_op);
    flags.clear();
    CHECK(is_nan(next_down(signaling, flags)) && flags.raised() == flag::invalid_op);
    flags.clear();
    // 0.1 is no double, and rounded upward it is the double that the compiler has for it.
    const expected<number> tenth = parse<binary64>("0.1", flags);
    CHECK(tenth && *tenth == number(0.1) && flags.raised() == flag::inexact);
    flags.clear();
    const expected<number> small = parse_hexadecimal<binary64>("0x1p-1080", flags);
    CHECK(small && *small == std::numeric_limits<number>::denorm_min());
    CHECK(flags.raised() == (flag::underflow | flag::inexact));
    flags.clear();
    CHECK(parse<binary64>("one", flags).error() == errc::refused_text && flags.raised().none());
    CHECK(parse_hexadecimal<binary64>("0.5", flags).error() == errc::refused_text && flags.raised().none());
    // Of a conversion, what the gather does not hold is in the result that the function returns without it.
    const auto narrow = convert<binary16>(number(0.1), rounding::downward);
    flags.raise(narrow.status);
    CHECK(narrow.loses_info && narrow.value.bits() == 0x2e66 && flags.raised() == flag::inexact);
}

void check_unflagged() {
    unflagged<binary64> x = 2;
    x = (x * x + 1) / 3 - 0.5;
    CHECK(static_cast<double>(x) == 5.0 / 3.0 - 0.5);
    const unflagged<binary64, rounding::downward> one = 1;
    CHECK(static_cast<double>(one / 10) == 0.09999999999999999 && one / 10 < 0.1_binary64);
    const unflagged<binary16> large = 70000;
    CHECK(is_infinite(large) && large > half::from_bits(0x7bff));
    std::vector<unflagged<e5m2>> zeros(3);
    CHECK(zeros[2].bits() == 0);
}

// Comparisons of each kind with an integer on each side.
template <class Number, class I>
void check_order(const Number &x, I n, bool is_less, bool is_equal, bool is_greater) {
    CHECK((x < n) == is_less && (n > x) == is_less && (x > n) == is_greater && (n < x) == is_greater);
    CHECK((x == n) == is_equal && (n == x) == is_equal && (x != n) == !is_equal && (n != x) == !is_equal);
    CHECK((x <= n) == (is_less || is_equal) && (n >= x) == (is_less || is_equal));
    CHECK((x >= n) == (is_greater || is_equal) && (n <= x) == (is_greater || is_equal));
#if defined(APFLOAT_HAS_THREE_WAY_COMPARISON)
    CHECK(((x <=> n) < 0) == is_less && ((x <=> n) == 0) == is_equal && ((n <=> x) < 0) == is_greater);
#endif
}

void check_order_with_integers() {
    const unflagged<binary64> two = 2, zero = -0.0_binary64;
    check_order(two, 3, true, false, false);
    check_order(two, 2L, false, true, false);
    check_order(two, 1u, false, false, true);
    check_order(two, -1, false, false, true);
    check_order(two, UINT64_MAX, true, false, false);
    check_order(zero, 0, false, true, false);
    check_order(unflagged<binary64>(std::numeric_limits<number>::quiet_NaN()), 0, false, false, false);
    // 2049 lies between two numbers of 11 digits: it is rounded before it is compared, as it is before it is added.
    check_order(unflagged<binary16>(2048), 2049, false, true, false);
    check_order(unflagged<binary16, rounding::upward>(2048), 2049, true, false, false);
    check_order(unflagged<double_pair>(7), std::int8_t{7}, false, true, false);
    CHECK(two > 1.5_binary64 && two == unflagged<binary64, rounding::upward>(2) && two < number(2.5));
    CHECK(two >= 0 && two + 1 > 0 && two - 2 == 0);
}

void check_errors() {
    const auto refused = parse<binary64>("one");
    CHECK(!refused && !refused.has_value() && refused.error() == errc::refused_text);
    CHECK(refused.value_or({number(2.0), {}}).value == number(2.0));
    CHECK(std::string(message(errc::refused_text)) == "the text was refused");
    // The code of a number that is no code has a text too.
    for (std::uint32_t code = APFLOAT_UNKNOWN_FORMAT; code <= APFLOAT_WRONG_CONTROL; code++) {
        apfloat_text text = {{0}, 0};
        CHECK(apfloat_error_text(static_cast<apfloat_error>(code), &text) == APFLOAT_ANSWERED);
        CHECK(std::string(message(static_cast<errc>(code))) == text.bytes);
    }
    for (const char *text : {"inf", "INF", "+Infinity", "InFiNiTy"}) {
        CHECK(value<binary64>::from_text(text)->value.bits() == 0x7ff0000000000000);
    }
    CHECK(value<binary64>::from_text("-INFINITY")->value.bits() == 0xfff0000000000000);
    CHECK(value<binary64>::from_text("+nan")->value.bits() == 0x7ff8000000000000);
    CHECK(value<binary64>::from_text("-NAN")->value.bits() == 0xfff8000000000000);
    CHECK(value<binary64>::from_text("SNaN")->value.bits() == 0x7ff4000000000000);
    CHECK(value<binary64>::from_text("+nan(0x7)")->value.bits() == 0x7ff8000000000007);
    CHECK(any_value::from_text(*format_of_name("double"), "+Inf")->value.bits().low == 0x7ff0000000000000);
    for (const char *text : {"infinit", "+-inf", "+", "na", ""}) CHECK(!value<binary64>::from_text(text));
    // `parse` reads what the library does.
    CHECK(!parse<binary64>("INF") && !parse<binary64>("infinity") && !parse_hexadecimal<binary64>("+nan"));
    CHECK(parse<binary64>("").error() == errc::refused_text && parse<binary64>({}).error() == errc::refused_text);
    CHECK(parse<binary64>("1", static_cast<rounding>(5)).error() == errc::unknown_mode);
    CHECK(parse_hexadecimal<binary64>("0.5").error() == errc::refused_text);
    // Formats with the flags of IEEE 754-2019 read no decimals.
    CHECK(parse<ieee<binary64>>("0.5").error() == errc::refused_text);
    CHECK(parse<ieee<binary64>>("0x1p-1")->value.bits() == number(0.5).bits());
    const auto read = parse<binary16>("65519.99", rounding::nearest_even);
    CHECK(read && read->value.bits() == 0x7bff && read->status == flag::inexact && (*read).value == read.value().value);
#if defined(__cpp_exceptions)
    try {
        (void)refused.value();
        CHECK(false);
    } catch (const error &thrown) {
        CHECK(thrown.code() == errc::refused_text && std::string(thrown.what()) == message(errc::refused_text));
    }
#endif
}

void check_literals() {
    CHECK(0.1_binary64 == number(0.1) && 0.1_binary32 == single(0.1f) && 1'000'000_binary64 == number(1e6));
    CHECK(0x1.8p-1_binary64 == number(0.75) && 0X1P3_binary32 == single(8.0f) && 1e400_binary64 > number(1e308));
    CHECK(0_binary64 == number(0.0) && 00.5_binary64 == number(0.5) && 5._binary64 == number(5.0));
    CHECK(.5_binary64 == number(0.5) && 017.5e0_binary64 == number(17.5) && 1E+2_binary64 == number(100.0));
    CHECK((0.1_binary16).bits() == 0x2e66 && (0.1_bfloat16).bits() == 0x3dcd && (0.1_e5m2).bits() == 0x2e);
    CHECK((0.1_e4m3fn).bits() == 0x1d && (0.1_e4m3fnuz).bits() == 0x25 && (0.1_e4m3).bits() == 0x1d);
    CHECK((0.1_e5m2fnuz).bits() == 0x32 && (0.1_e4m3b11fnuz).bits() == 0x3d && (0.1_tf32).bits() == 0x1ee66);
    CHECK((0.1_x87).bits().low == UINT64_C(0xcccccccccccccccd) && (0.1_x87).bits().high == 0x3ffb);
    CHECK((0.1_binary128).bits().high == UINT64_C(0x3ffb999999999999));
    CHECK((0.1_double_pair).bits().low == number(0.1).bits());
    CHECK(-0.0_binary64 == number(0.0) && (-0.0_binary64).sign_bit());
}

void check_texts() {
    std::ostringstream written;
    written << std::setw(6) << std::setfill('*') << std::left << 0.1_binary16 << '|' << std::right << std::setw(5)
            << std::numeric_limits<half>::infinity() << '|' << div(pair(), pair()).value;
    CHECK(written.str() == "0.1***|**inf|nan");
    CHECK(high_of(pair_of(number(1.0))) == number(1.0) && is_zero(low_of(pair_of(number(1.0)))));
    const auto third = div(from_integer<double_pair>(1).value, from_integer<double_pair>(3).value).value;
    CHECK(to_string(third) == "0.3333333333333333 + 1.8503717077085944e-17");
    CHECK(to_string(from_integer<double_pair>(3).value) == "3.0");
    CHECK(to_string(pair_of(number(1.0), number(-1e-20))) == "1.0 + -1e-20");
    CHECK(to_text(number(1e21)).view() == "1e21" && to_text(number(1e21)).size() == 4);
#if defined(__cpp_lib_format)
    CHECK(std::format("{:*>6}|{}", 0.1_binary16, number(1.5)) == "***0.1|1.5");
    CHECK(std::format("{:.<6}|{:>{}}", 0.1_binary16, number(1.5), 4) == "0.1...| 1.5");
#endif
}

void check_hashes() {
    std::unordered_map<half, int> counts;
    counts[half::from_bits(0)]++;
    counts[half::from_bits(0x8000)]++;
    counts[half::from_bits(1)]++;
    CHECK(counts.size() == 2 && counts[half()] == 2);
    // A pseudo-denormal of the x87, and the normal number that it is.
    const auto pseudo = extended::from_bits({UINT64_C(1) << 63, 0});
    const auto normal = extended::from_bits({UINT64_C(1) << 63, 1});
    CHECK(pseudo == normal && std::hash<extended>()(pseudo) == std::hash<extended>()(normal));
    const auto x = pair_of(number(1.0), number(0.0)), y = pair_of(number(1.0), number(-0.0));
    CHECK(x == y && std::hash<pair>()(x) == std::hash<pair>()(y));
    CHECK(std::hash<unflagged<binary64>>()(unflagged<binary64>(2)) == std::hash<number>()(number(2.0)));
}

void check_arrays() {
    const std::vector<single> values = {single(1.0f), single(1000.0f), single(-1000.0f),
                                        std::numeric_limits<single>::infinity(), single(0.1f)};
    std::vector<value<e4m3fn>> results(values.size());
    const auto plain = convert_array(values.data(), values.size(), results.data());
    CHECK(plain && plain->values == 5 && plain->nans == 3 && plain->overflow == 2 && plain->inexact == 4);
    CHECK(plain->status == (flag::overflow | flag::inexact) && plain->invalid_op == 0 && plain->underflow == 0);
    for (std::size_t i = 0; i < values.size(); i++)
        CHECK(results[i].bits() == convert<e4m3fn>(values[i]).value.bits());
    const auto saturated =
        convert_array(values.data(), values.size(), results.data(), rounding::nearest_even, overflowing::saturates);
    CHECK(saturated && saturated->overflow == 2 && saturated->nans == 1);
    CHECK(results[1] == std::numeric_limits<value<e4m3fn>>::max() && results[2] == -results[1]);
    const auto made_finite = convert_array(values.data(), values.size(), results.data(), rounding::nearest_even,
                                           overflowing::saturates_finite);
    CHECK(made_finite && made_finite->inexact == 4 && made_finite->nans == 0 && results[3] == results[1]);
    const single no_number = std::numeric_limits<single>::quiet_NaN();
    CHECK(convert_array(&no_number, 1, results.data(), rounding::upward, overflowing::saturates_finite)->nans == 1);
    CHECK(convert_array(&no_number, 1, results.data(), rounding::upward, overflowing::saturates_all)->invalid_op == 1 &&
          results[0] == results[1]);
    CHECK(convert_array<e4m3fn, binary32>(nullptr, 0, nullptr)->values == 0);
    // A value of tf32 is the lowest 19 bits of four bytes.
    std::vector<value<tf32>> rounded(values.size());
    CHECK(convert_array(values.data(), values.size(), rounded.data())->inexact == 1);
    for (std::size_t i = 0; i < values.size(); i++)
        CHECK(rounded[i].bits() == convert<tf32>(values[i]).value.bits());
    CHECK(value<tf32>::from_bits(0xfff9fc00).bits() == 0x1fc00 && !value<tf32>::from_halves({0x80000, 0}));
    CHECK(convert_array(values.data(), 1, results.data(), static_cast<rounding>(7)).error() == errc::unknown_mode);

    const std::vector<number> xs = {1.0, 2.0, 0.0}, ys = {3.0, 0.5, 0.0};
    std::vector<number> quotients(xs.size());
    const auto divided =
        map_array(array_operation::div, xs.size(), quotients.data(), rounding::upward, xs.data(), ys.data());
    CHECK(divided && divided->values == 3 && divided->inexact == 1 && divided->invalid_op == 1 && divided->nans == 1);
    for (std::size_t i = 0; i < xs.size(); i++)
        CHECK(quotients[i].bits() == div(xs[i], ys[i], rounding::upward).value.bits());
    const auto of_one = map_array(array_operation::div, xs.size(), quotients.data(), rounding::upward, xs.data());
    CHECK(!of_one && of_one.error() == errc::wrong_length);
    const std::vector<pair> pairs(1);
    std::vector<pair> sums(1);
    const auto fused = map_array(array_operation::fma, 1, sums.data(), rounding::upward, pairs.data());
    CHECK(!fused && fused.error() == errc::no_such_operation);
    CHECK(map_array<binary64>(array_operation::sqrt, 0, nullptr, rounding::upward, nullptr)->values == 0);
    // In the place of the dividends, and of values of as many bits.
    std::vector<number> dividends = xs;
    const auto replaced = map_array(array_operation::div, xs.size(), dividends.data(), rounding::upward,
                                    dividends.data(), ys.data());
    CHECK(replaced && replaced->values == 3 && replaced->inexact == 1 && replaced->nans == 1);
    for (std::size_t i = 0; i < xs.size(); i++) CHECK(dividends[i].bits() == quotients[i].bits());
    CHECK(map_array(array_operation::sqrt, 2, &dividends[0], rounding::upward, &dividends[1]).error() ==
          errc::overlapping_arrays);
    CHECK(convert_array(&dividends[0], 2, &dividends[1]).error() == errc::overlapping_arrays);
    CHECK(convert_array(&dividends[0], 3, &dividends[0])->values == 3 && dividends[0].bits() == quotients[0].bits());

    // Each pair of bytes three times, by a table and without.
    std::vector<value<e4m3fn>> left, right;
    for (std::uint32_t place = 0; place < 3 * 65536; place++) {
        left.push_back(*value<e4m3fn>::from_halves({place / 256 % 256, 0}));
        right.push_back(*value<e4m3fn>::from_halves({place % 256, 0}));
    }
    std::vector<value<e4m3fn>> one_by_one(left.size()), looked_up(left.size());
    std::vector<unsigned char> table(APFLOAT_TABLE_BYTES);
    const auto without =
        map_array(array_operation::mul, left.size(), one_by_one.data(), rounding::downward, left.data(), right.data());
    const auto by_table = map_array_by_table(array_operation::mul, left.size(), looked_up.data(), rounding::downward,
                                             left.data(), right.data(), table.data(), table.size());
    CHECK(without && by_table && std::memcmp(one_by_one.data(), looked_up.data(), one_by_one.size()) == 0);
    CHECK(without->values == by_table->values && without->inexact == by_table->inexact &&
          without->underflow == by_table->underflow && without->overflow == by_table->overflow &&
          without->invalid_op == by_table->invalid_op && without->nans == by_table->nans);
    CHECK(!map_array_by_table(array_operation::fma, left.size(), looked_up.data(), rounding::downward, left.data(),
                              right.data(), table.data(), table.size()));

    // Each value of binary16 three times, by a table and without.
    std::vector<value<binary16>> halves;
    for (std::uint32_t place = 0; place < 3 * 65536; place++)
        halves.push_back(value<binary16>::from_bits(static_cast<std::uint16_t>(place)));
    std::vector<value<bfloat16>> converted(halves.size()), found(halves.size());
    const auto plainly = convert_array(halves.data(), halves.size(), converted.data(), rounding::upward);
    const auto from_table = convert_array_by_table(halves.data(), halves.size(), found.data(), table.data(),
                                                   table.size(), rounding::upward);
    CHECK(plainly && from_table &&
          std::memcmp(converted.data(), found.data(), converted.size() * sizeof converted[0]) == 0);
    CHECK(plainly->values == from_table->values && plainly->inexact == from_table->inexact &&
          plainly->invalid_op == from_table->invalid_op && plainly->nans == from_table->nans);
    CHECK(!convert_array_by_table(halves.data(), halves.size(), found.data(), table.data(), table.size(),
                                  static_cast<rounding>(7)));
}

void check_stored_arrays() {
    const std::vector<single> values = {single(0.7f), single(-5.0f), single(1000.0f), single(-0.0f)};
    std::vector<stored<e2m1fn>> codes(values.size());
    const auto counts = convert_array(values.data(), values.size(), codes.data());
    CHECK(counts && counts->values == 4 && counts->inexact == 3 && counts->overflow == 1 && counts->nans == 0);
    CHECK(codes[0].bits() == 1 && codes[1].bits() == 0xe && codes[2].bits() == 7 && codes[3].bits() == 8);
    std::vector<number> numbers(values.size());
    CHECK(convert_array(codes.data(), codes.size(), numbers.data())->inexact == 0);
    CHECK(numbers[0] == number(0.5) && numbers[1] == number(-4.0) && numbers[2] == number(6.0));
    CHECK(numbers[3].sign_bit());

    const auto scale = [](float x, overflowing large) {
        const single given(x);
        stored<e8m0fnu> made;
        const auto told = convert_array(&given, 1, &made, rounding::upward, large);
        CHECK(told && told->nans == (made.bits() == 0xff ? 1u : 0u));
        return made.bits();
    };
    CHECK(scale(3.0f, overflowing::rounds) == 129 && scale(-1.0f, overflowing::saturates_finite) == 0xff);
    CHECK(scale(std::numeric_limits<float>::infinity(), overflowing::saturates) == 0xff);
    CHECK(scale(std::numeric_limits<float>::infinity(), overflowing::saturates_finite) == 0xfe);

    CHECK(stored<e2m3fn>::from_bits(0xff).bits() == 0x3f && stored<ue4m3>::from_bits(0xff).bits() == 0x7f);
    CHECK(stored<e3m4>::from_bits(0xff).bits() == 0xff && stored<e3m2fn>().bits() == 0);
    const stored<e3m4> *none = nullptr;
    CHECK(convert_array(none, 1, numbers.data()).error() == errc::wrong_length);
    CHECK(convert_array(none, 0, numbers.data())->values == 0);
    CHECK(convert_array(values.data(), 1, codes.data(), static_cast<rounding>(7)).error() == errc::unknown_mode);
}

void check_blocks() {
    const std::vector<single> values = {single(7.0f), single(6.0f), single(5.0f), single(0.25f),
                                        std::numeric_limits<single>::infinity(), single(1.0f), single(), single(2.0f)};
    const std::size_t count = values.size();
    std::vector<stored<e8m0fnu>> scales(2);
    std::vector<stored<e2m1fn>> codes(count);
    const auto made = quantize_blocks(values.data(), count, 4, scales.data(), codes.data());
    CHECK(made && made->values == 8 && made->inexact == 3 && made->overflow == 1 && made->underflow == 1);
    CHECK(made->nans == 4 && made->invalid_op == 0);
    CHECK(scales[0].bits() == 127 && scales[1].bits() == 255);
    CHECK(codes[0].bits() == 7 && codes[1].bits() == 7 && codes[2].bits() == 6 && codes[3].bits() == 0);
    std::vector<number> back(count);
    const auto taken = dequantize_blocks(scales.data(), codes.data(), count, 4, back.data());
    CHECK(taken && taken->values == 8 && taken->nans == 4 && taken->status.none());
    CHECK(back[0] == number(6.0) && back[1] == back[0] && back[2] == number(4.0) && back[3] == number());
    CHECK(is_nan(back[4]) && is_nan(back[7]));

    std::vector<value<e4m3fn>> elements(count);
    CHECK(quantize_blocks(values.data(), 4, 2, scales.data(), elements.data(), rounding::upward)->inexact == 0);
    CHECK(scales[0].bits() == 121 && scales[1].bits() == 121 && elements[0].bits() == 0x7e);

    CHECK(quantize_blocks(values.data(), 4, 0, scales.data(), codes.data()).error() == errc::wrong_length);
    CHECK(quantize_blocks(values.data(), 4, 3, scales.data(), codes.data()).error() == errc::wrong_length);
    CHECK(quantize_blocks(values.data(), 0, 3, scales.data(), codes.data())->values == 0);
    stored<e8m0fnu> *no_scales = nullptr;
    CHECK(quantize_blocks(values.data(), 4, 4, no_scales, codes.data()).error() == errc::wrong_length);
    CHECK(dequantize_blocks(no_scales, codes.data(), 4, 4, back.data()).error() == errc::wrong_length);
    CHECK(dequantize_blocks(scales.data(), codes.data(), 4, 2, back.data(), static_cast<rounding>(7)).error() ==
          errc::unknown_mode);
}

void check_missing_arrays() {
    const std::vector<single> values(3);
    const auto unchanged = value<e4m3fn>::from_bits(0x55);
    std::vector<value<e4m3fn>> codes(3, unchanged);
    const single *none = nullptr;
    CHECK(convert_array(none, 3, codes.data()).error() == errc::wrong_length);
    CHECK(convert_array<e4m3fn>(values.data(), 3, nullptr).error() == errc::wrong_length);
    CHECK(convert_array<e4m3fn>(none, 1, nullptr).error() == errc::wrong_length);
    // The errors that come before it in the list do so here too.
    CHECK(convert_array(none, 3, codes.data(), static_cast<rounding>(7)).error() == errc::unknown_mode);
    for (const auto &code : codes) CHECK(code.bits() == unchanged.bits());

    std::vector<single> results(3, single(1.5f));
    const auto add_all = [&](single *sums, const single *xs, const single *ys) {
        return map_array(array_operation::add, 3, sums, rounding::nearest_even, xs, ys);
    };
    CHECK(add_all(results.data(), values.data(), values.data())->values == 3);
    results.assign(3, single(1.5f));
    CHECK(add_all(results.data(), none, none).error() == errc::wrong_length);
    CHECK(add_all(results.data(), none, values.data()).error() == errc::wrong_length);
    CHECK(add_all(results.data(), values.data(), none).error() == errc::wrong_length);
    CHECK(add_all(nullptr, values.data(), values.data()).error() == errc::wrong_length);
    CHECK(map_array(array_operation::sqrt, 3, results.data(), rounding::upward, none).error() == errc::wrong_length);
    CHECK(map_array(array_operation::sqrt, 3, results.data(), rounding::upward, none, values.data()).error() ==
          errc::wrong_length);
    for (const auto &result : results) CHECK(result == single(1.5f));
    const value<double_pair> *no_pairs = nullptr;
    CHECK(map_array<double_pair>(array_operation::fma, 1, nullptr, rounding::upward, no_pairs).error() ==
          errc::no_such_operation);
}

// What is named as in <cmath>.
void check_names_of_cmath() {
    const number x(-2.5), two(2.0);
    CHECK(floor(x).value == number(-3.0) && ceil(x).value == number(-2.0) && floor(x).status.none());
    CHECK(trunc(x).value == number(-2.0) && round(x).value == number(-3.0));
    CHECK(nearbyint(x, rounding::nearest_even).value == number(-2.0));
    CHECK(rint(x, rounding::upward).status == flag::inexact);
    CHECK(fmod(x, two).value == number(-0.5) && remainder(x, two).value == number(-0.5));
    CHECK(ldexp(x, 2000).status == (flag::overflow | flag::inexact) && logb(x).value == number(1.0));
    int exponent = 0;
    CHECK(frexp(x, &exponent).value == number(-0.625) && exponent == 2);
    const auto invalid = std::numeric_limits<number>::signaling_NaN();
    CHECK(nextafter(two, invalid).status == flag::invalid_op && floor(invalid).status == flag::invalid_op);
    CHECK(floor(pair_of(x)).value == pair_of(number(-3.0)) && ldexp(pair_of(x), 1).value == pair_of(number(-5.0)));

    gather flags(rounding::upward);
    number sum;
    sum += flags(two) * two;
    CHECK(sum == number(4.0) && sqrt(flags(two)) + two > number(3.41) && flags.raised() == flag::inexact);
    CHECK(fma(flags(two), two, two) == number(6.0) && rint(flags(x)) == number(-2.0));
    CHECK(-floor(flags(x)) == number(3.0));
    // What has a name is a value: the gather is given again.
    const auto product = flags(two) * x;
    CHECK(flags(product) + two == number(-3.0) && -product == number(5.0) && product + flags(two) == number(-3.0));

    unflagged<binary64> z = 2;
    CHECK(z++ == 2 && ++z == 4 && z-- == 4 && --z == 2);
    z = floor(z / 3) + fmax(z, fabs(-z)) * nextafter(z, z) + remainder(z, 3) + ldexp(z, 1);
    CHECK(z == 7 && frexp(z, &exponent) * 8 == 7 && exponent == 3 && nearbyint(z / 2) == 4 && logb(z) + 1 == 3);
}

void check_construction() {
    CHECK(half::from_text("0.1")->value == 0.1_binary16 && !half::from_text("one"));
    CHECK(half::from_double(0.1).status == flag::inexact && quad::from_double(0.1).status.none());
    CHECK(half::from_double(0.1, rounding::upward).value == next_up(half::from_double(0.1).value).value);
    CHECK(quad::from_double(0.1).value == convert<binary128>(number(0.1)).value);
    CHECK(pair::from_double(0.1).value == pair_of(number(0.1)) && number::from_double(0.1).value == number(0.1));
    CHECK(value<ieee<binary64>>::from_double(0.5).value.bits() == number(0.5).bits());
    gather flags(rounding::upward);
    CHECK(half::from_double(1e-9, flags) == std::numeric_limits<half>::denorm_min());
    CHECK(flags.raised() == (flag::underflow | flag::inexact) && *single::from_text("0.5", flags) == single(0.5f));
}

void check_any_values() {
    const auto format = format_of_name("half").value();
    CHECK(format == format_code_of<binary16> && format_of_name("binary16").value() == format);
    CHECK(format_of_name("double+ieee+before").value() == format_code_of<ieee_tiny_before<binary64>>);
    CHECK(!format_of_name("e4m3fn+ieee") && !format_of_name("") && !format_of_name("half+"));
    const auto tenth = parse(format, "0.1");
    CHECK(tenth && tenth->status == flag::inexact && tenth->value.bits().low == 0x2e66);
    const any_value x = tenth->value, three(from_integer<binary16>(3).value);
    CHECK(add(x, three)->value.as<binary16>() == add(0.1_binary16, 3_binary16).value);
    const auto mode = rounding::upward;
    CHECK(sub(x, three, mode)->value.as<binary16>() == sub(0.1_binary16, 3_binary16, mode).value);
    CHECK(mul(x, three)->value.as<binary16>() == mul(0.1_binary16, 3_binary16).value);
    CHECK(div(three, x)->status == flag::inexact && sqrt(three)->value.as<binary16>() == sqrt(3_binary16).value);
    CHECK(fma(x, three, x)->value.as<binary16>() == fma(0.1_binary16, 3_binary16, 0.1_binary16).value);
    CHECK(*compare(x, three) == order::less && to_text(x)->view() == "0.1");
    const auto narrow = convert(any_value(number(1e-9)), format);
    CHECK(narrow && narrow->loses_info && narrow->value.format() == format);
    CHECK(to_text(any_value(std::numeric_limits<half>::max()))->view() == "65504.0");
    CHECK(add(x, any_value(number(1.0))).error() == errc::no_such_operation);
    CHECK(add(any_value(), any_value()).error() == errc::unknown_format && !to_text(any_value()));
    CHECK(fma(any_value(pair()), any_value(pair()), any_value(pair())).error() == errc::no_such_operation);
    CHECK(any_value::from_bits(format, {0x10000, 0}).error() == errc::wide_operand);
    CHECK(any_value::from_bits(format_code{99}, {0, 0}).error() == errc::unknown_format);
    CHECK(any_value::from_text(format, "x").error() == errc::refused_text);
    CHECK(sqrt(x, static_cast<rounding>(9)).error() == errc::unknown_mode);
}

// What machines deliver, as the tables of docs/MACHINES.md have it.
void check_machines() {
    const auto quiet = single::from_bits(0x7fc00001), signaling = single::from_bits(0x7f800003), one = single(1.0f);
    const auto even = rounding::nearest_even;
    const auto on_x86 = on_machine(machine::x86, machine_operation::add, even, quiet, signaling);
    CHECK(on_x86 && on_x86->value.bits() == 0x7fc00001 && on_x86->status == flag::invalid_op);
    CHECK(on_machine(machine::arm, machine_operation::add, even, quiet, signaling)->value.bits() == 0x7fc00003);
    CHECK(on_machine(machine::risc_v, machine_operation::sqrt, even, quiet)->value.bits() == 0x7fc00000);
    CHECK(on_machine(machine::ptx, machine_operation::sqrt, even, quiet)->value.bits() == 0x7fffffff);
    CHECK(on_machine(machine::x87, machine_operation::fma, even, one, one, one).error() == errc::lacking_operation);
    CHECK(convert_on<binary32>(machine::arm, number::from_bits(0xfff8000020000000))->value.bits() == 0xffc00001);
    CHECK(least_on(machine::x86, minimum_rule::second, quiet, one)->value.bits() == one.bits());
    CHECK(greatest_on(machine::arm, minimum_rule::propagated, one, quiet)->value.bits() == quiet.bits());
    const auto least = to_integer_on<std::int32_t>(machine::x86, quiet, even);
    CHECK(least && least->value == INT32_MIN && least->status == flag::invalid_op);
    CHECK(to_integer_on<std::uint64_t>(machine::arm, quiet, even)->value == 0);
    CHECK(to_integer_on<std::uint8_t>(machine::x87, one, even).error() == errc::lacking_operation);
    const auto ranged = range_on(machine::x86, extremum::maximum_magnitude, range_sign::negative, quiet, one);
    CHECK(ranged && ranged->value.bits() == (-one).bits() && ranged->status == flags());
    CHECK(range_on(machine::arm, extremum::minimum, range_sign::of_first, one, one).error() == errc::lacking_operation);
    CHECK(to_alternative_half_on(machine::arm, one, even)->value == 0x3c00);
    CHECK(to_alternative_half_on(machine::arm, quiet, even)->status == flag::invalid_op);
    CHECK(from_alternative_half_on<binary32>(machine::arm, 0x7fff, even)->value.bits() == 0x47ffe000);
    CHECK(on_machine(static_cast<machine>(16), machine_operation::add, even, one, one).error() ==
          errc::unknown_machine);
}

// The operations of IEEE 754-2019; their rows are checked in C and Python.
void check_digits() {
    const auto read = read_decimal<ieee<binary32>>("1e39", rounding::toward_zero);
    CHECK(read && read->value.bits() == 0x7f7fffff && read->status == (flag::overflow | flag::inexact));
    CHECK(read_decimal<binary64>("0.1")->value == number(0.1) && !read_decimal<ieee<binary32>>("1e"));
    char digits[] = "#####";
    auto written = write_digits(number(0.1), digits, 5);
    CHECK(std::string_view(digits) == "10000" && written.value.count == 5 && written.value.exponent == -1);
    CHECK(written.status == flag::inexact);
    written = write_digits(number(-0.0), digits, 5);
    CHECK(written.value.count == 0 && written.value.exponent == 0 && written.status.none());
    // 0.1 as a double has the digits 1000000000000000055511151231257827021181583404541015625.
    CHECK(digit_count(number(0.1)) == 55 && digit_count(number(0.0)) == 0);
    CHECK(hexadecimal_text(number(-0.75)).view() == "-0x1.8p-1");
    CHECK(hexadecimal_text(value<binary16>::from_bits(0x7e01)).view() == "nan0x1");
    CHECK(hexadecimal_text(number(0.1), 3).value.view() == "0x1.99ap-4");
    CHECK(hexadecimal_text(number(0.1), 3).status == flag::inexact);
    const auto facts = facts_of<binary64>();
    CHECK(facts.decimal_digits == 17 && facts.greatest_exponent == 1023 && facts.nans == APFLOAT_NANS_WITH_PAYLOADS);
    CHECK(facts.largest.low == UINT64_C(0x7fefffffffffffff) && facts.smallest.low == 1 && facts.bytes == 8);
}

void check_pairs_and_formats() {
    // 1 + 2^-60 is no double; its square is 1 + 2^-59 + 2^-120.
    const auto near_one = pair_of(number(1.0), number(0x1p-60));
    CHECK(pair_to_format<binary64>(near_one).value == number(1.0));
    CHECK(pair_to_format<binary64>(near_one).status == flag::inexact);
    CHECK(pair_to_format<binary64>(near_one, rounding::upward).value == number(0x1.0000000000001p0));
    const auto quad_one = pair_to_format<binary128>(near_one);
    CHECK(quad_one.status.none() && pair_from_format(quad_one.value).value == near_one);
    const auto rest = pair_fma(near_one, near_one, pair_of(number(-1.0)));
    CHECK(rest.status.none() && high_of(rest.value) == number(0x1p-59) && low_of(rest.value) == number(0x1p-120));
    CHECK(shortest_text_of_pair(read_decimal<double_pair>("0.1")->value)->view() == "0.1");
    CHECK(!shortest_text_of_pair(pair_of(number(1.0), number(0x1p-200))));
}

void check_augmented() {
    const auto sum = augmented_add(number(1.0), number(0x1p-53));
    CHECK(sum.status.none() && sum.value.head == number(1.0) && sum.value.tail == number(0x1p-53));
    const auto rest = augmented_subtract(number(1.0), number(0x1p-60));
    CHECK(rest.value.head == number(1.0) && rest.value.tail == number(-0x1p-60));
    const auto square = augmented_multiply(number(0x1.0000000000001p0), number(0x1.0000000000001p0));
    CHECK(square.value.head == number(0x1.0000000000002p0) && square.value.tail == number(0x1p-104));
    const auto past = augmented_add(half::from_bits(0x7bff), half::from_bits(0x7bff));
    CHECK(is_infinite(past.value.tail) && past.status == (flag::overflow | flag::inexact));
    CHECK(get_payload(half::from_bits(0x7e07)).bits() == 0x4700 && get_payload(number(2.0)) == number(-1.0));
    CHECK(set_payload(half::from_bits(0x4700)).bits() == 0x7e07 && set_payload(number(0.5)) == number(0.0));
    CHECK(set_payload_signaling(half::from_bits(0x4700)).bits() == 0x7c07);
}

void check_operations() {
    const auto quiet = single::from_bits(0x7fc00001), signaling = single::from_bits(0x7f800003), one = single(1.0f);
    const auto is_less = holds(predicate::less, on_nan::quiet, quiet, one);
    CHECK(!is_less.value && is_less.status.none());
    CHECK(holds(predicate::less, on_nan::signaling, quiet, one).status == flag::invalid_op);
    CHECK(holds(predicate::unordered, on_nan::quiet, signaling, one).value);
    CHECK(total_order(single(-0.0f), single(0.0f)) == order::less && total_order(quiet, one) == order::greater);
    CHECK(extremum_of(extremum::minimum_magnitude, single(-2.0f), one).value.bits() == one.bits());
    CHECK(extremum_of(extremum::maximum, quiet, one).value.bits() == quiet.bits());
    CHECK(extremum_number_of(extremum::maximum, quiet, one).value.bits() == one.bits());
    CHECK(log_b(single(10.0f)).value.bits() == single(3.0f).bits() && log_b(single()).status == flag::div_by_zero);
    CHECK(scale_b(one, 128).status == (flag::overflow | flag::inexact));
    const auto whole = integral(single(2.5f), rounding::nearest_even);
    CHECK(whole.value.bits() == single(2.0f).bits() && whole.status.none());
    // 1 + 2^-24 + 2^-60 is above the midpoint of 1 and the next single.
    const number small(0x1p-24 + 0x1p-60);
    CHECK(add_to<binary32>(number(1.0), small).value.bits() == 0x3f800001);
    CHECK(sub_to<binary32>(number(1.0), -small).value.bits() == 0x3f800001);
    CHECK(mul_to<binary32>(number(3.0), number(0.5)).value.bits() == single(1.5f).bits());
    CHECK(div_to<binary32>(number(3.0), number(2.0)).value.bits() == single(1.5f).bits());
    CHECK(fma_to<binary32>(number(1.0), number(1.0), small).value.bits() == 0x3f800001);
    CHECK(sqrt_to<binary32>(number(2.25)).value.bits() == single(1.5f).bits());
}

} // namespace

// With an argument, a call with a mode that is none of the enumerators.
int main(int count, char **) {
    if (count > 1) (void)add(number(1.0), number(1.0), static_cast<rounding>(5));
    check_constants<binary16>();
    check_constants<bfloat16>();
    check_constants<binary32>();
    check_constants<binary64>();
    check_constants<binary128>();
    check_constants<x87>();
    check_constants<e5m2>();
    check_constants<e4m3fn>();
    check_constants<e4m3fnuz>();
    check_constants<e4m3>();
    check_constants<e5m2fnuz>();
    check_constants<e4m3b11fnuz>();
    check_constants<tf32>();
    check_constants<ieee<binary64>>();
    check_constants<ieee_tiny_before<x87>>();
    check_constants_of_pairs();
    check_flags();
    check_gathered();
    check_gathered_results();
    check_unflagged();
    check_order_with_integers();
    check_errors();
    check_literals();
    check_texts();
    check_digits();
    check_pairs_and_formats();
    check_augmented();
    check_hashes();
    check_arrays();
    check_stored_arrays();
    check_blocks();
    check_missing_arrays();
    check_machines();
    check_operations();
    check_names_of_cmath();
    check_construction();
    check_any_values();
    std::cout << checks - failures << " checks hold, " << failures << " fail\n";
    return failures == 0 ? 0 : 1;
}
