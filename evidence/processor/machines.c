// Rows of `crates/tests/src/machines.rt` that an x86-64 processor computes: NaNs, integers of invalid
// conversions, minima and flushed results of SSE, FMA, AVX-512 (where the processor has it) and x87, with their flags.
//
//     gcc -O1 -march=native -o machines machines.c && ./machines
#include <immintrin.h>
#include <stdint.h>
#include <stdio.h>
#include <string.h>

typedef unsigned __int128 Bits;

static const char *flags_of(unsigned raised) {
    static char text[64];
    static const struct { const char *name; unsigned bit; } FLAGS[] = {
        {"INVALID", 1}, {"DIV_BY_ZERO", 4}, {"OVERFLOW", 8}, {"UNDERFLOW", 16}, {"INEXACT", 32}, {"DENORMAL", 2}};
    text[0] = 0;
    for (int i = 0; i < 6; i++)
        if (raised & FLAGS[i].bit) {
            if (text[0]) strcat(text, "|");
            strcat(text, FLAGS[i].name);
        }
    return text[0] ? text : "OK";
}

enum { MASKED = 0x1f80, FTZ = 0x8000, DAZ = 0x40 };

static unsigned raised;

static float of(uint32_t bits) { float x; memcpy(&x, &bits, 4); return x; }
static uint32_t bits_of(float x) { uint32_t bits; memcpy(&bits, &x, 4); return bits; }

#define SSE(CONTROL, NAME, OUT, ...)                                                                                   \
    do {                                                                                                               \
        unsigned word = (CONTROL);                                                                                     \
        __asm__ volatile("ldmxcsr %[word]\n\t" NAME "\n\tstmxcsr %[word]"                                              \
                         : OUT, [word] "+m"(word) : __VA_ARGS__);                                                      \
        raised = word & 0x3f;                                                                                          \
    } while (0)

static const uint32_t VALUES[] = {0x3f800000, 0x7fc00001, 0xffc00002, 0x7f800003, 0xff800004, 0x7f800000, 0x00000000};
enum { COUNT = 7 };

static void two(const char *name, unsigned control, uint32_t x, uint32_t y) {
    float a = of(x), b = of(y);
    if (!strcmp(name, "add")) SSE(control, "addss %[b], %[a]", [a] "+x"(a), [b] "x"(b));
    if (!strcmp(name, "sub")) SSE(control, "subss %[b], %[a]", [a] "+x"(a), [b] "x"(b));
    if (!strcmp(name, "mul")) SSE(control, "mulss %[b], %[a]", [a] "+x"(a), [b] "x"(b));
    if (!strcmp(name, "div")) SSE(control, "divss %[b], %[a]", [a] "+x"(a), [b] "x"(b));
    if (!strcmp(name, "min")) SSE(control, "minss %[b], %[a]", [a] "+x"(a), [b] "x"(b));
    if (!strcmp(name, "max")) SSE(control, "maxss %[b], %[a]", [a] "+x"(a), [b] "x"(b));
    printf("sse %s %08x %08x -> %08x %s\n", name, x, y, bits_of(a), flags_of(raised));
}

static void fused(uint32_t x, uint32_t y, uint32_t z) {
    // 231: src2, src3, dst; here dst = a is the addend: a = b * c + a
    float a = of(z), b = of(x), c = of(y);
    SSE(MASKED, "vfmadd231ss %[c], %[b], %[a]", [a] "+x"(a), [b] "x"(b), [c] "x"(c));
    printf("fma231 %08x %08x %08x -> %08x %s\n", x, y, z, bits_of(a), flags_of(raised));
}

static void root(uint32_t x) {
    float a = of(x), r = 0;
    SSE(MASKED, "sqrtss %[a], %[r]", [r] "+x"(r), [a] "x"(a));
    printf("sse sqrt %08x -> %08x %s\n", x, bits_of(r), flags_of(raised));
}

static void integer(uint32_t x) {
    float a = of(x);
    uint32_t r;
    SSE(MASKED, "cvtss2si %[a], %[r]", [r] "=r"(r), [a] "x"(a));
    printf("sse to_i32 %08x -> %08x %s\n", x, r, flags_of(raised));
    if (__builtin_cpu_supports("avx512f")) {
        SSE(MASKED, "vcvtss2usi %[a], %[r]", [r] "=r"(r), [a] "x"(a));
        printf("avx512 to_u32 %08x -> %08x %s\n", x, r, flags_of(raised));
    }
}

static void convert(uint64_t x) {
    double a;
    float r = 0;
    memcpy(&a, &x, 8);
    SSE(MASKED, "cvtsd2ss %[a], %[r]", [r] "+x"(r), [a] "x"(a));
    printf("sse double to single %016llx -> %08x %s\n", (unsigned long long)x, bits_of(r), flags_of(raised));
}

// ---- x87

typedef struct { uint64_t significand; uint16_t top; } __attribute__((packed)) X87;

static X87 x87(uint16_t top, uint64_t significand) { X87 r = {significand, top}; return r; }

static void x87_two(const char *name, X87 x, X87 y) {
    X87 r;
    uint16_t status;
    __asm__ volatile("fninit\n\tfldt %[x]\n\tfldt %[y]\n\tfnclex\n\tfaddp\n\tfnstsw %[status]\n\tfstpt %[r]"
                     : [r] "=m"(r), [status] "=a"(status) : [x] "m"(x), [y] "m"(y));
    printf("x87 %s %04x%016llx %04x%016llx -> %04x%016llx %s\n", name, x.top, (unsigned long long)x.significand, y.top,
           (unsigned long long)y.significand, r.top, (unsigned long long)r.significand, flags_of(status & 0x3f));
}

static void x87_integer(X87 x) {
    int32_t r;
    uint16_t status;
    __asm__ volatile("fninit\n\tfldt %[x]\n\tfnclex\n\tfistpl %[r]\n\tfnstsw %[status]"
                     : [r] "=m"(r), [status] "=a"(status) : [x] "m"(x));
    printf("x87 to_i32 %04x%016llx -> %08x %s\n", x.top, (unsigned long long)x.significand, (unsigned)r,
           flags_of(status & 0x3f));
}

static void x87_short(X87 x) {
    int16_t r;
    uint16_t status;
    __asm__ volatile("fninit\n\tfldt %[x]\n\tfnclex\n\tfistps %[r]\n\tfnstsw %[status]"
                     : [r] "=m"(r), [status] "=a"(status) : [x] "m"(x));
    printf("x87 to_i16 %04x%016llx -> %04x %s\n", x.top, (unsigned long long)x.significand, (uint16_t)r,
           flags_of(status & 0x3f));
}

static void x87_convert(X87 x) {
    uint64_t r;
    uint16_t status;
    __asm__ volatile("fninit\n\tfldt %[x]\n\tfnclex\n\tfstpl %[r]\n\tfnstsw %[status]"
                     : [r] "=m"(r), [status] "=a"(status) : [x] "m"(x));
    printf("x87 to double %04x%016llx -> %016llx %s\n", x.top, (unsigned long long)x.significand,
           (unsigned long long)r, flags_of(status & 0x3f));
}

int main(void) {
    const char *const calls[] = {"add", "sub", "mul", "div", "min", "max"};
    for (int c = 0; c < 6; c++)
        for (int i = 0; i < COUNT; i++)
            for (int j = 0; j < COUNT; j++) two(calls[c], MASKED, VALUES[i], VALUES[j]);
    two("add", MASKED, 0x7f800000, 0xff800000);
    const char *const extrema[] = {"min", "max"};
    for (int c = 0; c < 2; c++) {
        two(extrema[c], MASKED, 0x3f800000, 0x40000000);
        two(extrema[c], MASKED, 0x80000000, 0);
        two(extrema[c], MASKED, 0, 0x80000000);
    }
    fused(0x7f800000, 0x3f800000, 0xff800000);
    for (int i = 0; i < COUNT; i++)
        for (int j = 0; j < COUNT; j++)
            for (int k = 0; k < COUNT; k++) fused(VALUES[i], VALUES[j], VALUES[k]);
    for (int i = 0; i < COUNT; i++) root(VALUES[i]);
    root(0xbf800000);
    const uint32_t numbers[] = {0x4f000000, 0xcf000000, 0xcf000001, 0x4f800000, 0xbf800000, 0xff800000, 0x3fc00000};
    for (int i = 0; i < COUNT; i++) integer(VALUES[i]);
    for (int i = 0; i < 7; i++) integer(numbers[i]);
    const uint64_t doubles[] = {0x7ff0000000000001, 0xfff8000020000000, 0x7ff4000000000000};
    for (int i = 0; i < 3; i++) convert(doubles[i]);
    // smallest normal / 2 is exact and tiny; the product is inexact; the product rounds up to the smallest normal
    for (int ftz = 0; ftz < 2; ftz++) {
        unsigned control = ftz ? MASKED | FTZ : MASKED;
        printf("ftz %d: ", ftz), two("mul", control, 0x00800000, 0x3f000000);
        printf("ftz %d: ", ftz), two("mul", control, 0x80800000, 0x3f000000);
        printf("ftz %d: ", ftz), two("mul", control, 0x80800001, 0x3f000000);
        printf("ftz %d: ", ftz), two("mul", control, 0x00ffffff, 0x3f000000);
        printf("ftz %d: ", ftz), two("mul", control, 0x3f7fffff, 0x00800000);
        printf("ftz %d: ", ftz), two("mul", control, 0x00800001, 0x3f7ffffe);
    }
    printf("daz: "), two("add", MASKED | DAZ, 0x80000001, 0x80000002);
    printf("daz: "), two("add", MASKED, 0x80000001, 0x80000002);
    const X87 values[] = {x87(0x3fff, 0x8000000000000000), x87(0x7fff, 0xc000000000000001),
                          x87(0xffff, 0xc000000000000001), x87(0xffff, 0xc000000000000002),
                          x87(0x7fff, 0x8000000000000003), x87(0xffff, 0x8000000000000004),
                          x87(0x3fff, 0x4000000000000000), x87(0x7fff, 0x4000000000000001)};
    for (int i = 0; i < 8; i++)
        for (int j = 0; j < 8; j++) x87_two("add", values[i], values[j]);
    x87_two("add", x87(0x7fff, 1ull << 63), x87(0xffff, 1ull << 63));
    for (int i = 0; i < 8; i++) x87_integer(values[i]), x87_short(values[i]), x87_convert(values[i]);
    x87_integer(x87(0x7fff, 1ull << 63));
    return 0;
}
