/* The time of what users do, by the library for C and by the best of others, interleaved.

       uses_bench ROUNDS

   Prints for each use and each side the nanoseconds of a call, or of an element of an array, in the fastest of ROUNDS
   rounds; in a round each side does the same, one after the other. The sides are

     library    this library: the nearest even value, with all flags, and for arrays with all counts
     peer       the best of other software that does it: compiler-rt (to nearest even, no flags), MPFR with the range,
                the denormal numbers and the flags of the format, libstdc++, or a plain loop in C
     processor  its own instruction, whose flags are not read
     copy       of the bytes of an array

   Signs are random, and exponents near 0, but for tensors (normally distributed, with the deviations 1 and 0.02) and
   random bits. uses.py builds and runs it. */
#include "apfloat.h"

#include <mpfr.h>

#include <charconv>
#include <cmath>
#include <cstdint>
#include <cstdio>
#include <cstdlib>
#include <cstring>
#include <ctime>
#include <functional>
#include <immintrin.h>
#include <string>
#include <vector>

extern "C" {
double __adddf3(double, double);
double __muldf3(double, double);
double __divdf3(double, double);
int64_t __fixdfdi(double);
uint16_t __truncdfhf2(double);
}

namespace {

constexpr int COUNT = 4096;
int rounds;

struct side {
    const char *name;
    std::function<void()> run;
};

double now()
{
    timespec time;
    clock_gettime(CLOCK_MONOTONIC, &time);
    return static_cast<double>(time.tv_sec) * 1e9 + static_cast<double>(time.tv_nsec);
}

void measure(const std::string &use, const std::vector<side> &sides)
{
    std::vector<double> least(sides.size(), 1e18);
    for (int round = 0; round < rounds; round++)
        for (std::size_t i = 0; i < sides.size(); i++) {
            double start = now();
            sides[i].run();
            least[i] = std::fmin(least[i], now() - start);
        }
    for (std::size_t i = 0; i < sides.size(); i++)
        std::printf("%s\t%s\t%.2f\n", use.c_str(), sides[i].name, least[i] / COUNT);
    std::fflush(stdout);
}

uint64_t state = 0x9e3779b97f4a7c15;

uint64_t draw()
{
    state ^= state << 13;
    state ^= state >> 7;
    state ^= state << 17;
    return state * UINT64_C(2685821657736338717);
}

double unit()
{
    return (static_cast<double>(draw() >> 11) + 0.5) / 9007199254740992.0;
}

double normal()
{
    return std::sqrt(-2 * std::log(unit())) * std::cos(6.283185307179586 * unit());
}

apfloat_halves bits_of(double x)
{
    apfloat_halves halves = {0, 0};
    std::memcpy(&halves.low, &x, sizeof x);
    return halves;
}

double x[COUNT], y[COUNT], z[COUNT], magnitudes[COUNT];
apfloat_halves xs[COUNT], ys[COUNT], zs[COUNT], magnitude_bits[COUNT];
apfloat_answer answers[COUNT];
mpfr_t wide_x[COUNT], wide_y[COUNT], wide_z[COUNT], wide_magnitude[COUNT], wide_result[COUNT];
volatile double results[COUNT];
volatile int64_t integers[COUNT];
volatile unsigned flags;

void draw_doubles()
{
    for (int i = 0; i < COUNT; i++) {
        for (double *to : {&x[i], &y[i], &z[i]})
            *to = std::ldexp(1 + unit(), static_cast<int>(draw() % 9) - 4) * (draw() >> 63 ? -1 : 1);
        magnitudes[i] = std::fabs(x[i]);
        xs[i] = bits_of(x[i]), ys[i] = bits_of(y[i]), zs[i] = bits_of(z[i]);
        magnitude_bits[i] = bits_of(magnitudes[i]);
        for (auto [wide, value] : {std::pair{wide_x[i], x[i]}, {wide_y[i], y[i]}, {wide_z[i], z[i]},
                                   {wide_magnitude[i], magnitudes[i]}, {wide_result[i], 0.0}}) {
            mpfr_init2(wide, 53);
            mpfr_set_d(wide, value, MPFR_RNDN);
        }
    }
    mpfr_set_emin(-1073);
    mpfr_set_emax(1024);
}

#define EACH(NAME, CALL)                \
    side                                \
    {                                   \
        NAME, [] {                      \
            for (int i = 0; i < COUNT; i++) { \
                CALL;                   \
            }                           \
        }                               \
    }
#define LIBRARY(CALL) EACH("library", CALL)
#define PEER(NAME, CALL) EACH(NAME, CALL)
#define PROCESSOR(CALL) EACH("processor", CALL)
#define WITH_MPFR(CALL)                                                         \
    EACH("MPFR", mpfr_clear_flags(); int rounded = CALL;                        \
         rounded = mpfr_check_range(wide_result[i], rounded, MPFR_RNDN);        \
         rounded = mpfr_subnormalize(wide_result[i], rounded, MPFR_RNDN);       \
         flags = static_cast<unsigned>(rounded) + static_cast<unsigned>(mpfr_flags_save()))

constexpr uint32_t EVEN = APFLOAT_NEAREST_EVEN, DOUBLE = APFLOAT_DOUBLE;

void measure_calls()
{
    draw_doubles();
    measure("sum of doubles", {LIBRARY(apfloat_add(DOUBLE, EVEN, xs[i], ys[i], &answers[i])),
                               PEER("compiler-rt", results[i] = __adddf3(x[i], y[i])),
                               PROCESSOR(results[i] = x[i] + y[i])});
    measure("product of doubles", {LIBRARY(apfloat_mul(DOUBLE, EVEN, xs[i], ys[i], &answers[i])),
                                   PEER("compiler-rt", results[i] = __muldf3(x[i], y[i])),
                                   PROCESSOR(results[i] = x[i] * y[i])});
    measure("quotient of doubles", {LIBRARY(apfloat_div(DOUBLE, EVEN, xs[i], ys[i], &answers[i])),
                                    PEER("compiler-rt", results[i] = __divdf3(x[i], y[i])),
                                    PROCESSOR(results[i] = x[i] / y[i])});
    measure("fused sum of doubles",
            {LIBRARY(apfloat_fma(DOUBLE, EVEN, xs[i], ys[i], zs[i], &answers[i])),
             WITH_MPFR(mpfr_fma(wide_result[i], wide_x[i], wide_y[i], wide_z[i], MPFR_RNDN))});
    measure("root of a double", {LIBRARY(apfloat_sqrt(DOUBLE, EVEN, magnitude_bits[i], &answers[i])),
                                 WITH_MPFR(mpfr_sqrt(wide_result[i], wide_magnitude[i], MPFR_RNDN)),
                                 PROCESSOR(results[i] = _mm_cvtsd_f64(_mm_sqrt_pd(_mm_set1_pd(magnitudes[i]))))});
    measure("double to half", {LIBRARY(apfloat_convert(DOUBLE, EVEN, APFLOAT_HALF, xs[i], &answers[i])),
                               PEER("compiler-rt", integers[i] = __truncdfhf2(x[i]))});
    measure("double to a 64-bit integer", {LIBRARY(apfloat_to_i128(DOUBLE, APFLOAT_TOWARD_ZERO, xs[i], 64, &answers[i])),
                                           PEER("compiler-rt", integers[i] = __fixdfdi(x[i])),
                                           PROCESSOR(integers[i] = static_cast<int64_t>(x[i]))});
}

char texts[COUNT][32];
std::size_t lengths[COUNT];

/* Decimals of 17 digits for doubles, of 9 for singles. */
template <class T> void measure_decimals(const char *name, uint32_t format, int digits)
{
    static T values[COUNT];
    static apfloat_halves bits[COUNT];
    static apfloat_text written[COUNT];
    static char others[COUNT][64];
    for (int i = 0; i < COUNT; i++) {
        values[i] = static_cast<T>(x[i]);
        bits[i] = {0, 0};
        std::memcpy(&bits[i].low, &values[i], sizeof values[i]);
        lengths[i] = static_cast<std::size_t>(std::snprintf(texts[i], sizeof texts[i], "%.*g", digits, x[i]));
    }
    static uint32_t code;
    code = format;
    measure(std::string("shortest decimal of a ") + name,
            {LIBRARY(apfloat_shortest(code, bits[i], &written[i])),
             PEER("libstdc++", *std::to_chars(others[i], others[i] + 63, values[i]).ptr = 0)});
    measure(std::string("decimal of ") + std::to_string(digits) + " digits read as a " + name,
            {LIBRARY(apfloat_parse_decimal(code, EVEN, reinterpret_cast<const uint8_t *>(texts[i]), lengths[i],
                                           &answers[i])),
             PEER("libstdc++", std::from_chars(texts[i], texts[i] + lengths[i], values[i]))});
}

float singles[COUNT];
uint8_t converted[4 * COUNT], sums[8 * COUNT];
apfloat_array_answer counts;

void convert_to(uint32_t format, std::size_t bytes)
{
    apfloat_convert_array(APFLOAT_SINGLE, EVEN, format, reinterpret_cast<const uint8_t *>(singles), sizeof singles,
                          converted, bytes * COUNT, &counts);
}

/* To nearest even, without counts: one step for normal results, one for denormal ones, one for those past the largest. */
uint8_t e4m3fn_of(float single)
{
    uint32_t bits, magnitude;
    std::memcpy(&bits, &single, sizeof bits);
    magnitude = bits & 0x7fffffff;
    uint8_t sign = static_cast<uint8_t>(bits >> 24 & 0x80);
    if (magnitude >= 0x43e80000)
        return magnitude == 0x43e80000 ? sign | 0x7e : sign | 0x7f;
    if (magnitude >= 0x3c800000)
        return sign | static_cast<uint8_t>((magnitude - 0x3c000000 + 0x7ffff + (magnitude >> 20 & 1)) >> 20);
    float least, shifted;
    std::memcpy(&least, &magnitude, sizeof least);
    shifted = least + 16384.0f;
    std::memcpy(&magnitude, &shifted, sizeof magnitude);
    return sign | static_cast<uint8_t>(magnitude - 0x46800000);
}

void loop_to_e4m3fn()
{
    for (int i = 0; i < COUNT; i++)
        converted[i] = e4m3fn_of(singles[i]);
}

__attribute__((target("f16c"))) void instructions_to_half()
{
    for (int i = 0; i < COUNT; i += 8) {
        __m128i halves = _mm256_cvtps_ph(_mm256_loadu_ps(singles + i), _MM_FROUND_TO_NEAREST_INT);
        _mm_storeu_si128(reinterpret_cast<__m128i *>(converted + 2 * i), halves);
    }
}

void measure_arrays(const char *values)
{
    measure(std::string("array of singles to e4m3fn, ") + values,
            {{"library", [] { convert_to(APFLOAT_E4M3FN, 1); }},
             {"plain loop", loop_to_e4m3fn},
             {"copy", [] { std::memcpy(converted, singles, sizeof singles); }}});
    measure(std::string("array of singles to half, ") + values,
            {{"library", [] { convert_to(APFLOAT_HALF, 2); }}, {"processor", instructions_to_half}});
}

void measure_sums()
{
    static side peer = PEER("compiler-rt", results[i] = __adddf3(x[i], y[i]));
    measure("array of sums of doubles",
            {{"library",
              [] {
                  apfloat_map_array(DOUBLE, EVEN, APFLOAT_ADD, reinterpret_cast<const uint8_t *>(x), sizeof x,
                                    reinterpret_cast<const uint8_t *>(y), sizeof y, nullptr, 0, sums, sizeof sums,
                                    &counts);
              }},
             peer, PROCESSOR(results[i] = x[i] + y[i])});
}

} // namespace

int main(int count, char **words)
{
    if (count != 2)
        return 2;
    rounds = std::atoi(words[1]);
    measure_calls();
    measure_decimals<double>("double", APFLOAT_DOUBLE, 17);
    measure_decimals<float>("single", APFLOAT_SINGLE, 9);
    measure_sums();
    for (auto [values, deviation] : {std::pair{"random bits", 0.0}, {"N(0, 1)", 1.0}, {"N(0, 0.02)", 0.02}}) {
        for (float &single : singles) {
            uint32_t bits = static_cast<uint32_t>(draw() >> 32);
            std::memcpy(&single, &bits, sizeof bits);
            if (deviation != 0)
                single = static_cast<float>(deviation * normal());
        }
        measure_arrays(values);
    }
    return 0;
}
