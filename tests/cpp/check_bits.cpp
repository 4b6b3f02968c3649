// What the header finds from bits alone, beside the answers of the library: for a third of the pairs of values of 8
// bits, and for many of each other format, at its ends and at random. Prints what differs, and then how many answers
// agree.
#include "apfloat.hpp"

#include <algorithm>
#include <array>
#include <iostream>
#include <random>

namespace {

using namespace apfloat;

unsigned long agreeing = 0, differing = 0;
std::mt19937_64 random_bits(7);

template <class F>
class comparison {
public:
    comparison(apfloat_halves x, apfloat_halves y) : x_(x), y_(y) {}

    // Makes a call, and compares its answer.
    template <class... Parameters, class... Arguments>
    void of(const char *name, apfloat_halves bits, flags raised, int number,
            apfloat_error (*call)(apfloat_format, Parameters...), Arguments... arguments) const {
        apfloat_answer answer = {{0, 0}, 0, 0};
        const bool answered = call(F::code, arguments..., &answer) == APFLOAT_ANSWERED;
        if (answered && detail::is_equal(answer.bits, bits) && answer.status == raised.code() &&
            answer.number == number) {
            agreeing++;
            return;
        }
        if (differing++ < 20)
            std::cout << std::hex << name << " in format " << F::code << " differs for " << x_.high << ' ' << x_.low
                      << ", " << y_.high << ' ' << y_.low << std::dec << '\n';
    }
    void number(const char *name, int found, decltype(apfloat_compare) *call) const {
        of(name, {0, 0}, {}, found, call, x_, y_);
    }
    void value_of(const char *name, const value<F> &found, decltype(apfloat_min) *call) const {
        of(name, found.halves(), {}, 0, call, x_, y_);
    }
    void value_of(const char *name, const value<F> &found, decltype(apfloat_abs) *call) const {
        of(name, found.halves(), {}, 0, call, x_);
    }
    void result_of(const char *name, const result<value<F>> &found, decltype(apfloat_next_up) *call) const {
        of(name, found.value.halves(), found.status, 0, call, x_);
    }

private:
    apfloat_halves x_, y_;
};

template <class F>
void compare_operations(const comparison<F> &with, const value<F> &x, const value<F> &y) {
    with.number("total_order", static_cast<int>(total_order(x, y)), apfloat_total_order);
    for (std::uint32_t which = APFLOAT_MINIMUM; which <= APFLOAT_MAXIMUM_MAGNITUDE; which++)
        for (const std::uint32_t prefers : {0u, 1u}) {
            const auto asked = static_cast<extremum>(which);
            const auto found = prefers ? extremum_number_of(asked, x, y) : extremum_of(asked, x, y);
            with.of("extremum", found.value.halves(), found.status, 0, apfloat_extremum,
                    static_cast<apfloat_extremum_kind>(which), prefers, x.halves(), y.halves());
        }
    for (std::uint32_t asked = APFLOAT_IS_EQUAL; asked <= APFLOAT_IS_ORDERED; asked++)
        for (const auto invalid : {APFLOAT_QUIET, APFLOAT_SIGNALING}) {
            const auto found = holds(static_cast<predicate>(asked), static_cast<on_nan>(invalid), x, y);
            with.of("holds", {0, 0}, found.status, found.value, apfloat_compare_predicate,
                    static_cast<apfloat_predicate>(asked), invalid, x.halves(), y.halves());
        }
}

template <class F>
void compare_values(apfloat_halves x_bits, apfloat_halves y_bits, bool negative) {
    const auto x = value<F>::from_lowest(x_bits), y = value<F>::from_lowest(y_bits);
    const comparison<F> with(x.halves(), y.halves());
    with.of("classify", {0, 0}, {}, static_cast<int>(classify(x)), apfloat_classify, x.halves());
    with.of("sign_bit", {0, 0}, {}, x.sign_bit(), apfloat_is_negative, x.halves());
    with.number("compare", static_cast<int>(compare(x, y)), apfloat_compare);
    with.value_of("min", min(x, y), apfloat_min);
    with.value_of("max", max(x, y), apfloat_max);
    with.value_of("minimum", minimum(x, y), apfloat_minimum);
    with.value_of("maximum", maximum(x, y), apfloat_maximum);
    with.value_of("copy_sign", copy_sign(x, y), apfloat_copy_sign);
    with.value_of("abs", abs(x), apfloat_abs);
    with.value_of("neg", -x, apfloat_neg);
    with.result_of("next_up", next_up(x), apfloat_next_up);
    with.result_of("next_down", next_down(x), apfloat_next_down);
    const std::uint32_t sign = negative;
    with.of("quiet_nan", quiet_nan<F>(y_bits, negative).halves(), {}, 0, apfloat_qnan, sign, y_bits);
    with.of("signaling_nan", signaling_nan<F>(y_bits, negative).halves(), {}, 0, apfloat_snan, sign, y_bits);
    if constexpr (!F::is_pair) compare_operations(with, x, y);
}

// Bits at the ends of a format or of doubles, and near to them, and others.
template <class F>
apfloat_halves some_bits() {
    static constexpr auto &ends = F::constants;
    static const std::array<apfloat_halves, 7> all = {
        detail::halves_of(ends.smallest), detail::halves_of(ends.smallest_normal),
        detail::halves_of(ends.largest),  detail::halves_of(ends.infinity),
        detail::halves_of(ends.half),     detail::halves_of(ends.quiet_nan),
        detail::halves_of(ends.signaling_nan)};
    static constexpr std::uint64_t words[] = {0, 0x7fff, UINT64_C(0x7ff0000000000000), UINT64_C(0x8000000000000000)};
    const auto drawn = random_bits();
    if (drawn % 4 != 0) {
        const auto word = [&] {
            const auto found = random_bits();
            if (found % 3 == 0) return found;
            return words[found / 3 % 4] ^ (found % 3 == 1 ? UINT64_C(1) << found / 16 % 64 : 0);
        };
        return {word(), word()};
    }
    auto bits = all[drawn / 4 % all.size()];
    if (drawn / 32 % 3 == 1) bits = detail::plus_one(bits);
    if (drawn / 32 % 3 == 2) bits = detail::less_one(bits);
    const auto sign = detail::sign_of<F>();
    if (drawn / 128 % 2) bits = {bits.low ^ sign.low, bits.high ^ sign.high};
    return bits;
}

template <class F>
void compare_format() {
    if constexpr (F::width == 8) {
        for (std::uint32_t both = 0; both < 65536; both += 3)
            compare_values<F>({both & 0xff, 0}, {both >> 8, 0}, both & 0x100);
    } else {
        for (int i = 0; i < 5000; i++) compare_values<F>(some_bits<F>(), some_bits<F>(), random_bits() & 1);
    }
}

template <class... Formats>
void compare_formats() {
    (compare_format<Formats>(), ...);
}

} // namespace

int main() {
    compare_formats<binary16, bfloat16, binary32, binary64, binary128, x87, e5m2, e4m3fn, e4m3fnuz, e4m3, e5m2fnuz,
                    e4m3b11fnuz, tf32, double_pair, ieee<x87>, ieee_tiny_before<binary16>>();
    std::cout << agreeing << " answers agree, " << differing << " differ\n";
    return differing == 0 ? 0 : 1;
}
