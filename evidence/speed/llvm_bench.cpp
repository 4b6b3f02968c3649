// Times one operation of LLVM's APFloat: llvm_bench FORMAT OPERATION FILE.
//
// The file, the loop and what is printed are those of crate_bench.rs. APFloat works in place, so
// each call copies its first operand.
#include "llvm/ADT/APFloat.h"
#include "llvm/ADT/APInt.h"
#include "llvm/Support/Error.h"
#include <algorithm>
#include <chrono>
#include <cstdio>
#include <cstdlib>
#include <fstream>
#include <map>
#include <sstream>
#include <string>
#include <vector>

using namespace llvm;
using Clock = std::chrono::steady_clock;
using Nanoseconds = std::chrono::duration<double, std::nano>;

static const auto EVEN = APFloat::rmNearestTiesToEven;

struct Result {
  APFloat value;
  unsigned status;
};

struct IntegerResult {
  APFloat::integerPart value;
  unsigned status;
};

class Checksum {
  unsigned __int128 sum = 0;

public:
  void word(uint64_t word) { sum = (sum * 31 + word) % ((1ull << 61) - 1); }
  void take(const Result &result) {
    APInt bits = result.value.bitcastToAPInt();
    word(result.status);
    word(bits.getRawData()[0]);
    word(bits.getNumWords() > 1 ? bits.getRawData()[1] : 0);
  }
  void take(const IntegerResult &result) {
    word(result.status);
    word(result.value);
    word(static_cast<int64_t>(result.value) < 0 ? ~0ull : 0);
  }
  unsigned long long value() const { return static_cast<unsigned long long>(sum); }
};

// Calls the operation for each operand, in rounds, until a fifth of a second is spent.
template <class R, class Call> static int timed(size_t count, const R &blank, Call call) {
  std::vector<R> results(count, blank);
  Nanoseconds least(1e18), spent(0);
  for (int round = 0; round < 300 && spent.count() < 2e8; round++) {
    auto start = Clock::now();
    for (size_t i = 0; i < count; i++) call(i, results[i]);
    asm volatile("" : : "r"(results.data()) : "memory");
    Nanoseconds time = Clock::now() - start;
    least = std::min(least, time);
    spent += time;
  }
  Checksum sum;
  for (const R &result : results) sum.take(result);
  printf("%f %016llx\n", least.count() / count, sum.value());
  return 0;
}

static int measure(const fltSemantics &format, const std::string &operation, const std::vector<std::string> &lines,
                   const std::map<std::string, const fltSemantics *> &formats) {
  Result blank{APFloat::getZero(format), 0};
  if (operation == "parse")
    return timed(lines.size(), blank, [&](size_t i, Result &to) {
      to.status = cantFail(to.value.convertFromString(lines[i], EVEN));
    });
  if (operation == "int") {
    std::vector<APInt> integers;
    for (auto &line : lines) integers.push_back(APInt(128, line, 16));
    return timed(lines.size(), blank, [&](size_t i, Result &to) {
      to.status = to.value.convertFromAPInt(integers[i], false, EVEN);
    });
  }
  std::vector<APFloat> x;
  for (auto &line : lines) {
    std::istringstream words(line);
    unsigned width = APFloat::getSizeInBits(format);
    for (std::string word; words >> word;) x.push_back(APFloat(format, APInt(width, word, 16)));
  }
  size_t count = lines.size();
  if (operation == "toint")
    return timed(count, IntegerResult{0, 0}, [&](size_t i, IntegerResult &to) {
      bool is_exact;
      to.value = 0;
      to.status = x[3 * i].convertToInteger(makeMutableArrayRef(to.value), 64, true, APFloat::rmTowardZero, &is_exact);
    });
  if (operation.rfind("conv:", 0) == 0) {
    const fltSemantics &target = *formats.at(operation.substr(5));
    return timed(count, blank, [&](size_t i, Result &to) {
      bool loses_info;
      to.value = x[3 * i];
      to.status = to.value.convert(target, EVEN, &loses_info);
    });
  }
#define OPERATION(NAME, CALL)                                                                                          \
  if (operation == NAME)                                                                                               \
    return timed(count, blank, [&](size_t i, Result &to) {                                                             \
      to.value = x[3 * i];                                                                                             \
      to.status = to.value.CALL;                                                                                       \
    });
  OPERATION("add", add(x[3 * i + 1], EVEN))
  OPERATION("sub", subtract(x[3 * i + 1], EVEN))
  OPERATION("mul", multiply(x[3 * i + 1], EVEN))
  OPERATION("div", divide(x[3 * i + 1], EVEN))
  OPERATION("fma", fusedMultiplyAdd(x[3 * i + 1], x[3 * i + 2], EVEN))
  OPERATION("rem", remainder(x[3 * i + 1]))
  OPERATION("mod", mod(x[3 * i + 1]))
  return 2;
}

int main(int argc, char **argv) {
  const std::map<std::string, const fltSemantics *> formats = {
      {"half", &APFloat::IEEEhalf()},     {"single", &APFloat::IEEEsingle()},
      {"double", &APFloat::IEEEdouble()}, {"quad", &APFloat::IEEEquad()},
      {"bfloat", &APFloat::BFloat()},     {"x87", &APFloat::x87DoubleExtended()}};
  auto format = formats.find(argv[1]);
  if (argc != 4 || format == formats.end()) return 2;
  std::ifstream file(argv[3]);
  std::vector<std::string> lines;
  for (std::string line; std::getline(file, line);) lines.push_back(line);
  return measure(*format->second, argv[2], lines, formats);
}
