// Each CASE above 0 is a use that does not compile; tests/cpp/run tries them. The words after "says" are in the first
// error.
#include "apfloat.hpp"

using namespace apfloat;
using namespace apfloat::literals;
using number = value<binary64>;
using pair = value<double_pair>;

void use(number x, number y, pair p, value<binary16> h) {
    (void)x, (void)y, (void)p, (void)h;
#if CASE == 1 // says unflagged gather
    (void)(x + y); // which mode, and where to with the flags
#elif CASE == 2
    (void)fma(p, p, p);
#elif CASE == 3
    (void)convert<binary64>(p);
#elif CASE == 4
    (void)value<ieee<e4m3fn>>();
#elif CASE == 5
    (void)0b1_binary64;
#elif CASE == 6
    (void)0x1f_binary64;
#elif CASE == 7
    (void)017_binary64;
#elif CASE == 8
    x = 1.5f; // not the bits of a binary64
#elif CASE == 9
    x = 1; // from_integer rounds
#elif CASE == 10
    x = h; // convert rounds
#elif CASE == 11
    (void)add(x, h);
#elif CASE == 12
    gather flags;
    gather copy = flags; // whose flags would be lost
#elif CASE == 13
    unflagged<binary64> up(x);
    unflagged<binary64, rounding::upward> down(y);
    (void)(up + down); // in which mode
#elif CASE == 14
    value<x87> results[1];
    (void)convert_array(&x, 1, results); // whose values have padding
#elif CASE == 15
    float narrow = static_cast<float>(x);
#elif CASE == 16
    (void)(x == h);
#elif CASE == 17 // says unflagged gather
    gather flags;
    (void)(flags(x) + unflagged<binary64>(y)); // whether the flags are joined or dropped
#elif CASE == 18 // says unflagged gather
    gather flags;
    (void)(unflagged<binary64, rounding::upward>(x) / flags(y)); // and in which mode
#elif CASE == 19 // says unflagged gather
    gather flags;
    auto joins = flags(x);
    joins *= unflagged<binary64>(y);
#elif CASE == 20 // says unflagged gather
    gather flags;
    unflagged<binary64> drops(x);
    drops -= flags(y);
#elif CASE == 21
    gather flags;
    (void)flags(frexp(x)); // where to with the exponent
#elif CASE == 22
    gather flags;
    (void)flags(to_integer<int>(x, rounding::upward)); // is it exact
#elif CASE == 23
    gather flags;
    (void)flags(convert<binary16>(x)); // does it lose information
#elif CASE == 24
    (void)std::numeric_limits<pair>::epsilon();
#elif CASE == 25
    (void)(unflagged<binary64>(x) > true);
#elif CASE == 26
    (void)log_b(p);
#elif CASE == 27
    (void)add_to<binary64>(p, p);
#elif CASE == 28 // says unflagged gather
    (void)(x - y);
#elif CASE == 29 // says unflagged gather
    (void)(x * 2);
#elif CASE == 30 // says unflagged gather
    (void)(0.5 / x);
#elif CASE == 31 // says unflagged gather
    (void)(x + h); // and in which format
#elif CASE == 32 // says unflagged gather
    x += y;
#elif CASE == 33 // says unflagged gather
    x -= 1;
#elif CASE == 34 // says unflagged gather
    x *= y;
#elif CASE == 35 // says unflagged gather
    x /= h;
#elif CASE == 36 // says unflagged gather
    gather flags;
    auto z = flags(x) * y; // could outlive the gather
    (void)(z + y);
#elif CASE == 37 // says unflagged gather
    gather flags;
    const auto z = flags(x) - y;
    (void)(x / z);
#elif CASE == 38 // says unflagged gather
    gather flags;
    auto z = flags(x) / y;
    z += x;
#elif CASE == 39
    gather flags;
    auto z = flags(x) * y;
    auto copy = z;
#elif CASE == 40
    (void)(any_value(x) + any_value(y));
#elif CASE == 41
    any_value any = x;
#elif CASE == 42
    (void)value<binary64>::from_double(1);
    number z = value<binary64>::from_double(1.0); // where to with the flags
#elif CASE == 43
    (void)total_order(p, p);
#elif CASE == 44
    (void)shortest_text(p);
#elif CASE == 45
    (void)logb(p);
#elif CASE == 46
    number z = floor(x); // a signaling NaN has a flag
#elif CASE == 47
    apfloat_answer answer;
    (void)apfloat_add(APFLOAT_UPWARD, APFLOAT_DOUBLE, x.halves(), y.halves(), &answer); // swapped
#endif
}
