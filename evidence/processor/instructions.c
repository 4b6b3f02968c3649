// Lines that a processor, or an emulator of one, computes: RUN SEED COUNT [NAME]
//
// Draws operands and controls (the mode, what is flushed, default NaNs, the precision of x87) from a seed, and writes
// for each instruction, or for that of a name, COUNT lines of `instructions.h`, which `judge.c` compares with the
// library. On this computer, and under qemu for aarch64 (-march=armv8.6-a+fp16+bf16), riscv64, powerpc64le
// (-mcpu=power9) and s390x:
//
//     gcc -O1 -march=native -Iinclude -o RUN evidence/processor/instructions.c && ./RUN 1 100000 | ./JUDGE
//     s390x-linux-gnu-gcc -O1 -march=z14 -static -Iinclude -o RUN evidence/processor/instructions.c
//     qemu-s390x -cpu max RUN 1 100000 | ./JUDGE
#include "instructions.h"

#include "../drawing.h"

#include <stdio.h>
#include <stdlib.h>
#include <string.h>

// What an instruction is given beside its operands.
typedef struct {
    uint32_t machine, mode, controls;
} Setting;

// Executes an instruction on three operands; the flags are those of the library.
typedef uint64_t Made(Setting setting, const uint64_t x[3], uint32_t *flags);

// An instruction; `own_mode` is less than 0 unless it has a mode of its own. Lines are without what it negates.
typedef struct {
    const char *name;
    Made *made;
    uint32_t operation, format, to;
    int own_mode, negated;
} Instruction;

// What an instruction negates.
enum { FACTOR = 1, ADDEND = 2, RESULT = 4 };

enum { ANY_MODE = -1, EVEN = APFLOAT_NEAREST_EVEN, UP = APFLOAT_UPWARD, DOWN = APFLOAT_DOWNWARD };
enum { ZERO = APFLOAT_TOWARD_ZERO, AWAY = APFLOAT_NEAREST_AWAY };

// What operands and a result have above 64 bits.
static uint16_t upper[4];

// An instruction in single and double.
#define BOTH(NAME, OPERATION, TO, MODE)                                                                                \
    {#NAME "_s", NAME##_s, OPERATION, APFLOAT_SINGLE, TO, MODE},                                                       \
        {#NAME "_d", NAME##_d, OPERATION, APFLOAT_DOUBLE, TO, MODE}

// A fused sum in single and double that negates.
#define NEGATED(NAME, WHAT)                                                                                            \
    {#NAME "_s", NAME##_s, APFLOAT_FMA, APFLOAT_SINGLE, 0, ANY_MODE, WHAT},                                            \
        {#NAME "_d", NAME##_d, APFLOAT_FMA, APFLOAT_DOUBLE, 0, ANY_MODE, WHAT}

// ---- the processors: `STEP(NAME, STEPS)` defines a function that loads the operands, takes the steps of an
// instruction, and reads the flags and the result

#if defined(__x86_64__)

// Operands are in xmm1 to xmm3, results in xmm0 or rax.
static uint32_t flags_of(uint32_t mxcsr) {
    return (mxcsr & 1) | (mxcsr >> 2 & 15) << 1 | (mxcsr & 2 ? DENORMAL_OPERAND : 0);
}
#define STEP(NAME, STEPS)                                                                                              \
    static uint64_t NAME(Setting setting, const uint64_t x[3], uint32_t *flags) {                                      \
        static const uint32_t ROUNDING[] = {0, 2, 1, 3};                                                               \
        uint32_t word = 0x1f80 | ROUNDING[setting.mode] << 13, usual = 0x1f80;                                         \
        uint64_t vector, whole;                                                                                        \
        word |= (setting.controls & FLUSHES_OPERANDS ? 0x40 : 0) | (setting.controls & FLUSHES_RESULTS ? 0x8000 : 0);  \
        __asm__ volatile("ldmxcsr %[word]\n\tmovq %[x], %%xmm1\n\tmovq %[y], %%xmm2\n\tmovq %[z], %%xmm3\n\t"          \
                         "pxor %%xmm0, %%xmm0\n\txor %%eax, %%eax\n\t" STEPS "\n\tstmxcsr %[word]\n\t"                 \
                         "movq %%xmm0, %[vector]\n\tldmxcsr %[usual]"                                                  \
                         : [word] "+m"(word), [vector] "=&r"(vector), "=&a"(whole)                                     \
                         : [x] "r"(x[0]), [y] "r"(x[1]), [z] "r"(x[2]), [usual] "m"(usual)                             \
                         : "xmm0", "xmm1", "xmm2", "xmm3", "rcx", "cc");                                               \
        *flags = flags_of(word);                                                                                       \
        return vector | whole;                                                                                         \
    }
enum { NEGATES_NANS = 0 };
static Setting drawn_setting(void) {
    static const uint32_t CONTROLS[] = {0, 0, 1, 2, 3};
    return (Setting){APFLOAT_MACHINE_X86, (uint32_t)(word() % 4), CONTROLS[word() % 5]};
}
// Less, equal, greater or unordered from CF, ZF and PF: 1, 0, 2 or 3.
#define COMPARE(TEXT)                                                                                                  \
    TEXT " %%xmm2, %%xmm1\n\tmov $0, %%eax\n\tmov $3, %%ecx\n\tcmovp %%ecx, %%eax\n\tjp 1f\n\tmov $1, %%ecx\n\t"       \
         "cmovz %%ecx, %%eax\n\tmov $2, %%ecx\n\tcmova %%ecx, %%eax\n1:"
#define IN_EACH(NAME, STEPS) STEP(NAME##_s, STEPS("s")) STEP(NAME##_d, STEPS("d"))
#define TWO(NAME) IN_EACH(NAME##s, TWO_##NAME)
#define TWO_add(S) "movq %%xmm1, %%xmm0\n\tadds" S " %%xmm2, %%xmm0"
#define TWO_sub(S) "movq %%xmm1, %%xmm0\n\tsubs" S " %%xmm2, %%xmm0"
#define TWO_mul(S) "movq %%xmm1, %%xmm0\n\tmuls" S " %%xmm2, %%xmm0"
#define TWO_div(S) "movq %%xmm1, %%xmm0\n\tdivs" S " %%xmm2, %%xmm0"
#define TWO_min(S) "movq %%xmm1, %%xmm0\n\tmins" S " %%xmm2, %%xmm0"
#define TWO_max(S) "movq %%xmm1, %%xmm0\n\tmaxs" S " %%xmm2, %%xmm0"
#define TWO_sqrt(S) "sqrts" S " %%xmm1, %%xmm0"
#define TWO_round(S) "rounds" S " $4, %%xmm1, %%xmm0"
#define TWO_floor(S) "rounds" S " $9, %%xmm1, %%xmm0"
#define TWO_fmadd(S) "movq %%xmm3, %%xmm0\n\tvfmadd231s" S " %%xmm2, %%xmm1, %%xmm0"
#define TWO_fmsub(S) "movq %%xmm3, %%xmm0\n\tvfmsub231s" S " %%xmm2, %%xmm1, %%xmm0"
#define TWO_fnmadd(S) "movq %%xmm3, %%xmm0\n\tvfnmadd231s" S " %%xmm2, %%xmm1, %%xmm0"
#define TWO_fnmsub(S) "movq %%xmm3, %%xmm0\n\tvfnmsub231s" S " %%xmm2, %%xmm1, %%xmm0"
#define TWO_to_i32(S) "cvts" S "2si %%xmm1, %%eax"
#define TWO_to_i64(S) "cvts" S "2si %%xmm1, %%rax"
#define TWO_cut_to_i32(S) "cvtts" S "2si %%xmm1, %%eax"
#define TWO_ucomi(S) COMPARE("ucomis" S)
#define TWO_comi(S) COMPARE("comis" S)
TWO(add) TWO(sub) TWO(mul) TWO(div) TWO(min) TWO(max) TWO(sqrt) TWO(round) TWO(floor) TWO(fmadd)
TWO(fmsub) TWO(fnmadd) TWO(fnmsub) TWO(to_i32) TWO(to_i64) TWO(cut_to_i32) TWO(ucomi) TWO(comi)
STEP(cvtsd2ss, "cvtsd2ss %%xmm1, %%xmm0")
STEP(cvtss2sd, "cvtss2sd %%xmm1, %%xmm0")
STEP(vcvtps2ph, "vcvtps2ph $4, %%xmm1, %%xmm0")
STEP(vcvtph2ps, "vcvtph2ps %%xmm1, %%xmm0")

// Of the x87 operands, and what else is loaded or stored, are in memory.
static struct {
    uint64_t low;
    uint16_t high;
} __attribute__((packed)) unit[4];
#define UNIT(NAME, STEPS)                                                                                              \
    static uint64_t NAME(Setting setting, const uint64_t x[3], uint32_t *flags) {                                      \
        static const uint16_t ROUNDING[] = {0, 2, 1, 3};                                                               \
        uint16_t digits = setting.controls & DIGITS_24 ? 0 : setting.controls & DIGITS_53 ? 0x200 : 0x300, status;     \
        uint16_t control = (uint16_t)(0x7f | digits | ROUNDING[setting.mode] << 10);                                   \
        memset(&unit[3], 0, sizeof unit[3]);                                                                           \
        unit[0].low = x[0], unit[1].low = x[1], unit[0].high = upper[0], unit[1].high = upper[1];                      \
        __asm__ volatile("fninit\n\tfldcw %[control]\n\t" STEPS "\n\tfnstsw %[status]\n\tfninit"                     \
                         : [r] "+m"(unit[3]), [status] "=m"(status)                                                    \
                         : [x] "m"(unit[0]), [y] "m"(unit[1]), [control] "m"(control)                                  \
                         : "st", "st(1)", "st(2)", "st(3)", "st(4)", "st(5)", "st(6)", "st(7)", "memory");             \
        *flags = flags_of(status & 63);                                                                                \
        upper[3] = unit[3].high;                                                                                       \
        return unit[3].low;                                                                                            \
    }
UNIT(x87_add, "fldt %[x]\n\tfldt %[y]\n\tfaddp\n\tfstpt %[r]")
UNIT(x87_sub, "fldt %[x]\n\tfldt %[y]\n\tfsubrp %%st, %%st(1)\n\tfstpt %[r]")
UNIT(x87_mul, "fldt %[x]\n\tfldt %[y]\n\tfmulp\n\tfstpt %[r]")
UNIT(x87_div, "fldt %[x]\n\tfldt %[y]\n\tfdivrp %%st, %%st(1)\n\tfstpt %[r]")
UNIT(x87_sqrt, "fldt %[x]\n\tfsqrt\n\tfstpt %[r]")
UNIT(x87_rndint, "fldt %[x]\n\tfrndint\n\tfstpt %[r]")
UNIT(x87_to_i16, "fldt %[x]\n\tfistps %[r]") UNIT(x87_to_i32, "fldt %[x]\n\tfistpl %[r]")
UNIT(x87_to_i64, "fldt %[x]\n\tfistpq %[r]") UNIT(x87_cut_to_i64, "fldt %[x]\n\tfisttpq %[r]")
UNIT(x87_to_s, "fldt %[x]\n\tfstps %[r]") UNIT(x87_to_d, "fldt %[x]\n\tfstpl %[r]")
UNIT(x87_of_s, "flds %[x]\n\tfstpt %[r]") UNIT(x87_of_d, "fldl %[x]\n\tfstpt %[r]")
#ifdef __AVX512F__
#define TWO_to_u32(S) "vcvts" S "2usi %%xmm1, %%eax"
#define TWO_to_u64(S) "vcvts" S "2usi %%xmm1, %%rax"
#define TWO_rndscale(S) "vrndscales" S " $4, %%xmm1, %%xmm1, %%xmm0"
TWO(to_u32) TWO(to_u64) TWO(rndscale)
#endif
#ifdef __AVX512DQ__
#define RANGE(N)                                                                                                       \
    STEP(range##N##_s, "vrangess $" #N ", %%xmm2, %%xmm1, %%xmm0")                                                     \
    STEP(range##N##_d, "vrangesd $" #N ", %%xmm2, %%xmm1, %%xmm0")
#define RANGED(N) BOTH(range##N, APFLOAT_RANGE, N, ANY_MODE)
RANGE(0) RANGE(1) RANGE(2) RANGE(3) RANGE(4) RANGE(5) RANGE(6) RANGE(7)
RANGE(8) RANGE(9) RANGE(10) RANGE(11) RANGE(12) RANGE(13) RANGE(14) RANGE(15)
#endif
#ifdef __AVX512BF16__
STEP(vcvtneps2bf16, "vcvtneps2bf16 %%xmm1, %%xmm0")
#endif
#ifdef __AVX512FP16__
STEP(vaddsh, "vaddsh %%xmm2, %%xmm1, %%xmm0")
STEP(vsubsh, "vsubsh %%xmm2, %%xmm1, %%xmm0")
STEP(vmulsh, "vmulsh %%xmm2, %%xmm1, %%xmm0")
STEP(vdivsh, "vdivsh %%xmm2, %%xmm1, %%xmm0")
STEP(vminsh, "vminsh %%xmm2, %%xmm1, %%xmm0")
STEP(vmaxsh, "vmaxsh %%xmm2, %%xmm1, %%xmm0")
STEP(vsqrtsh, "vsqrtsh %%xmm1, %%xmm1, %%xmm0")
STEP(vfmaddsh, "movq %%xmm3, %%xmm0\n\tvfmadd231sh %%xmm2, %%xmm1, %%xmm0")
#endif
static const Instruction INSTRUCTIONS[] = {
    BOTH(adds, APFLOAT_ADD, 0, ANY_MODE), BOTH(subs, APFLOAT_SUB, 0, ANY_MODE), BOTH(muls, APFLOAT_MUL, 0, ANY_MODE),
    BOTH(divs, APFLOAT_DIV, 0, ANY_MODE), BOTH(sqrts, APFLOAT_SQRT, 0, ANY_MODE),
    BOTH(fmadds, APFLOAT_FMA, 0, ANY_MODE), NEGATED(fmsubs, ADDEND), NEGATED(fnmadds, FACTOR),
    NEGATED(fnmsubs, FACTOR | ADDEND),
    BOTH(mins, APFLOAT_LEAST, APFLOAT_RULE_SECOND, ANY_MODE),
    BOTH(maxs, APFLOAT_GREATEST, APFLOAT_RULE_SECOND, ANY_MODE),
    BOTH(rounds, APFLOAT_ROUND_TO_INTEGRAL, 0, ANY_MODE), BOTH(floors, APFLOAT_INTEGRAL, 0, DOWN),
    BOTH(to_i32s, APFLOAT_TO_I128, 32, ANY_MODE), BOTH(to_i64s, APFLOAT_TO_I128, 64, ANY_MODE),
    BOTH(cut_to_i32s, APFLOAT_TO_I128, 32, ZERO), BOTH(ucomis, COMPARE_QUIET, 0, ANY_MODE),
    BOTH(comis, COMPARE_SIGNALING, 0, ANY_MODE),
    {"cvtsd2ss", cvtsd2ss, APFLOAT_CONVERT, APFLOAT_DOUBLE, APFLOAT_SINGLE, ANY_MODE},
    {"cvtss2sd", cvtss2sd, APFLOAT_CONVERT, APFLOAT_SINGLE, APFLOAT_DOUBLE, ANY_MODE},
    {"vcvtps2ph", vcvtps2ph, APFLOAT_CONVERT, APFLOAT_SINGLE, APFLOAT_HALF, ANY_MODE},
    {"vcvtph2ps", vcvtph2ps, APFLOAT_CONVERT, APFLOAT_HALF, APFLOAT_SINGLE, ANY_MODE},
    {"x87_add", x87_add, APFLOAT_ADD, APFLOAT_X87, 0, ANY_MODE},
    {"x87_sub", x87_sub, APFLOAT_SUB, APFLOAT_X87, 0, ANY_MODE},
    {"x87_mul", x87_mul, APFLOAT_MUL, APFLOAT_X87, 0, ANY_MODE},
    {"x87_div", x87_div, APFLOAT_DIV, APFLOAT_X87, 0, ANY_MODE},
    {"x87_sqrt", x87_sqrt, APFLOAT_SQRT, APFLOAT_X87, 0, ANY_MODE},
    {"x87_rndint", x87_rndint, APFLOAT_ROUND_TO_INTEGRAL, APFLOAT_X87, 0, ANY_MODE},
    {"x87_to_i16", x87_to_i16, APFLOAT_TO_I128, APFLOAT_X87, 16, ANY_MODE},
    {"x87_to_i32", x87_to_i32, APFLOAT_TO_I128, APFLOAT_X87, 32, ANY_MODE},
    {"x87_to_i64", x87_to_i64, APFLOAT_TO_I128, APFLOAT_X87, 64, ANY_MODE},
    {"x87_cut_to_i64", x87_cut_to_i64, APFLOAT_TO_I128, APFLOAT_X87, 64, ZERO},
    {"x87_to_s", x87_to_s, APFLOAT_CONVERT, APFLOAT_X87, APFLOAT_SINGLE, ANY_MODE},
    {"x87_to_d", x87_to_d, APFLOAT_CONVERT, APFLOAT_X87, APFLOAT_DOUBLE, ANY_MODE},
    {"x87_of_s", x87_of_s, APFLOAT_CONVERT, APFLOAT_SINGLE, APFLOAT_X87, ANY_MODE},
    {"x87_of_d", x87_of_d, APFLOAT_CONVERT, APFLOAT_DOUBLE, APFLOAT_X87, ANY_MODE},
#ifdef __AVX512F__
    BOTH(to_u32s, APFLOAT_TO_U128, 32, ANY_MODE), BOTH(to_u64s, APFLOAT_TO_U128, 64, ANY_MODE),
    BOTH(rndscales, APFLOAT_ROUND_TO_INTEGRAL, 0, ANY_MODE),
#endif
#ifdef __AVX512DQ__
    RANGED(0), RANGED(1), RANGED(2), RANGED(3), RANGED(4), RANGED(5), RANGED(6), RANGED(7),
    RANGED(8), RANGED(9), RANGED(10), RANGED(11), RANGED(12), RANGED(13), RANGED(14), RANGED(15),
#endif
#ifdef __AVX512BF16__
    {"vcvtneps2bf16", vcvtneps2bf16, APFLOAT_CONVERT, APFLOAT_SINGLE, APFLOAT_BFLOAT, ANY_MODE},
#endif
#ifdef __AVX512FP16__
    {"vaddsh", vaddsh, APFLOAT_ADD, APFLOAT_HALF, 0, ANY_MODE},
    {"vsubsh", vsubsh, APFLOAT_SUB, APFLOAT_HALF, 0, ANY_MODE},
    {"vmulsh", vmulsh, APFLOAT_MUL, APFLOAT_HALF, 0, ANY_MODE},
    {"vdivsh", vdivsh, APFLOAT_DIV, APFLOAT_HALF, 0, ANY_MODE},
    {"vminsh", vminsh, APFLOAT_LEAST, APFLOAT_HALF, APFLOAT_RULE_SECOND, ANY_MODE},
    {"vmaxsh", vmaxsh, APFLOAT_GREATEST, APFLOAT_HALF, APFLOAT_RULE_SECOND, ANY_MODE},
    {"vsqrtsh", vsqrtsh, APFLOAT_SQRT, APFLOAT_HALF, 0, ANY_MODE},
    {"vfmaddsh", vfmaddsh, APFLOAT_FMA, APFLOAT_HALF, 0, ANY_MODE},
#endif
};

#elif defined(__aarch64__)

// Operands are in v1 to v3, results in v0 or x0.
#define STEP(NAME, STEPS)                                                                                              \
    static uint64_t NAME(Setting setting, const uint64_t x[3], uint32_t *flags) {                                      \
        uint64_t fpcr = (uint64_t)setting.mode << 22 | (setting.controls & FLUSHES_RESULTS ? 1 << 24 : 0), vector;     \
        uint64_t whole, fpsr;                                                                                          \
        fpcr |= setting.controls & FLUSHES_HALF ? 1 << 19 : 0;                                                         \
        fpcr |= setting.machine == APFLOAT_MACHINE_ARM_DEFAULT_NAN ? 1 << 25 : 0;                                      \
        __asm__ volatile("msr fpcr, %[fpcr]\n\tmsr fpsr, xzr\n\tfmov d1, %[x]\n\tfmov d2, %[y]\n\tfmov d3, %[z]\n\t"   \
                         "movi v0.2d, #0\n\tmov x0, #0\n\t" STEPS "\n\tmrs %[fpsr], fpsr\n\t"                          \
                         "fmov %[vector], d0\n\tmov %[whole], x0\n\tmsr fpcr, xzr"                                     \
                         : [vector] "=&r"(vector), [whole] "=&r"(whole), [fpsr] "=&r"(fpsr)                            \
                         : [fpcr] "r"(fpcr), [x] "r"(x[0]), [y] "r"(x[1]), [z] "r"(x[2])                               \
                         : "x0", "x9", "v0", "v1", "v2", "v3", "cc");                                                  \
        *flags = (fpsr & 31) | (fpsr & 0x80 ? DENORMAL_OPERAND : 0);                                                   \
        return vector | whole;                                                                                         \
    }
enum { NEGATES_NANS = 1 };
static Setting drawn_setting(void) {
    const bool has_default = word() % 4 == 0;
    uint32_t controls = (word() & 1 ? FLUSHES_OPERANDS | FLUSHES_RESULTS : 0) | (word() & 1 ? FLUSHES_HALF : 0);
    uint32_t machine = has_default ? APFLOAT_MACHINE_ARM_DEFAULT_NAN : APFLOAT_MACHINE_ARM;
    return (Setting){machine, (uint32_t)(word() % 4), controls};
}
#define COMPARE(TEXT)                                                                                                  \
    TEXT "\n\tmov x0, #0\n\tmov x9, #1\n\tcsel x0, x9, x0, eq\n\tmov x9, #2\n\tcsel x0, x9, x0, gt\n\tmov x9, #3\n\t"  \
         "csel x0, x9, x0, vs"
#define TWO(NAME)                                                                                                      \
    STEP(NAME##_h, #NAME " h0, h1, h2") STEP(NAME##_s, #NAME " s0, s1, s2") STEP(NAME##_d, #NAME " d0, d1, d2")
#define ONE(NAME) STEP(NAME##_h, #NAME " h0, h1") STEP(NAME##_s, #NAME " s0, s1") STEP(NAME##_d, #NAME " d0, d1")
#define WHOLE(NAME) STEP(NAME##_h, #NAME " w0, h1") STEP(NAME##_s, #NAME " w0, s1") STEP(NAME##_d, #NAME " w0, d1")
#define ORDER(NAME)                                                                                                    \
    STEP(NAME##_h, COMPARE(#NAME " h1, h2")) STEP(NAME##_s, COMPARE(#NAME " s1, s2"))                                  \
    STEP(NAME##_d, COMPARE(#NAME " d1, d2"))
TWO(fadd) TWO(fsub) TWO(fmul) TWO(fmulx) TWO(fdiv) TWO(fminnm) TWO(fmaxnm) TWO(fmin) TWO(fmax)
ONE(fsqrt) ONE(frinti) ONE(frintx)
WHOLE(fcvtns) WHOLE(fcvtzs) WHOLE(fcvtzu) WHOLE(fcvtau) ORDER(fcmp) ORDER(fcmpe)
#define THREE(NAME)                                                                                                    \
    STEP(NAME##_h, #NAME " h0, h1, h2, h3") STEP(NAME##_s, #NAME " s0, s1, s2, s3")                                    \
    STEP(NAME##_d, #NAME " d0, d1, d2, d3")
THREE(fmadd) THREE(fmsub) THREE(fnmadd) THREE(fnmsub) TWO(fnmul)
STEP(fjcvtzs, "fjcvtzs w0, d1")
STEP(fcvt_h_s, "fcvt s0, h1") STEP(fcvt_h_d, "fcvt d0, h1") STEP(fcvt_s_h, "fcvt h0, s1") STEP(fcvt_s_d, "fcvt d0, s1")
STEP(fcvt_d_h, "fcvt h0, d1") STEP(fcvt_d_s, "fcvt s0, d1") STEP(bfcvt, "bfcvt h0, s1")
// With FPCR.AHP.
#define ALTERNATIVE(NAME, STEPS) STEP(NAME, "mrs x9, fpcr\n\torr x9, x9, #0x4000000\n\tmsr fpcr, x9\n\t" STEPS)
ALTERNATIVE(alternative_h_s, "fcvt s0, h1") ALTERNATIVE(alternative_h_d, "fcvt d0, h1")
ALTERNATIVE(alternative_s_h, "fcvt h0, s1") ALTERNATIVE(alternative_d_h, "fcvt h0, d1")
#define EACH(NAME, OPERATION, TO, MODE)                                                                                \
    {#NAME "_h", NAME##_h, OPERATION, APFLOAT_HALF, TO, MODE}, BOTH(NAME, OPERATION, TO, MODE)
#define CONVERSION(NAME, FROM, TO) {#NAME, NAME, APFLOAT_CONVERT, FROM, TO, ANY_MODE}
static const Instruction INSTRUCTIONS[] = {
    EACH(fadd, APFLOAT_ADD, 0, ANY_MODE), EACH(fsub, APFLOAT_SUB, 0, ANY_MODE), EACH(fmul, APFLOAT_MUL, 0, ANY_MODE),
    EACH(fmulx, APFLOAT_MUL_EXTENDED, 0, ANY_MODE),
    EACH(fdiv, APFLOAT_DIV, 0, ANY_MODE), EACH(fsqrt, APFLOAT_SQRT, 0, ANY_MODE), EACH(fmadd, APFLOAT_FMA, 0, ANY_MODE),
    {"fmsub_h", fmsub_h, APFLOAT_FMA, APFLOAT_HALF, 0, ANY_MODE, FACTOR}, NEGATED(fmsub, FACTOR),
    NEGATED(fnmadd, FACTOR | ADDEND), NEGATED(fnmsub, ADDEND),
    {"fnmul_h", fnmul_h, APFLOAT_MUL, APFLOAT_HALF, 0, ANY_MODE, RESULT},
    {"fnmul_d", fnmul_d, APFLOAT_MUL, APFLOAT_DOUBLE, 0, ANY_MODE, RESULT},
    EACH(fminnm, APFLOAT_LEAST, APFLOAT_RULE_NUMBER_2008, ANY_MODE),
    EACH(fmaxnm, APFLOAT_GREATEST, APFLOAT_RULE_NUMBER_2008, ANY_MODE),
    EACH(fmin, APFLOAT_LEAST, APFLOAT_RULE_PROPAGATED, ANY_MODE),
    EACH(fmax, APFLOAT_GREATEST, APFLOAT_RULE_PROPAGATED, ANY_MODE),
    EACH(frinti, APFLOAT_INTEGRAL, 0, ANY_MODE), EACH(frintx, APFLOAT_ROUND_TO_INTEGRAL, 0, ANY_MODE),
    EACH(fcvtns, APFLOAT_TO_I128, 32, EVEN), EACH(fcvtzs, APFLOAT_TO_I128, 32, ZERO),
    EACH(fcvtzu, APFLOAT_TO_U128, 32, ZERO), EACH(fcvtau, APFLOAT_TO_U128, 32, AWAY),
    {"fjcvtzs", fjcvtzs, APFLOAT_TO_I128_MODULO, APFLOAT_DOUBLE, 32, ZERO},
    EACH(fcmp, COMPARE_QUIET, 0, ANY_MODE), EACH(fcmpe, COMPARE_SIGNALING, 0, ANY_MODE),
    CONVERSION(fcvt_h_s, APFLOAT_HALF, APFLOAT_SINGLE), CONVERSION(fcvt_h_d, APFLOAT_HALF, APFLOAT_DOUBLE),
    CONVERSION(fcvt_s_h, APFLOAT_SINGLE, APFLOAT_HALF), CONVERSION(fcvt_s_d, APFLOAT_SINGLE, APFLOAT_DOUBLE),
    CONVERSION(fcvt_d_h, APFLOAT_DOUBLE, APFLOAT_HALF), CONVERSION(fcvt_d_s, APFLOAT_DOUBLE, APFLOAT_SINGLE),
    CONVERSION(bfcvt, APFLOAT_SINGLE, APFLOAT_BFLOAT),
    {"alternative_h_s", alternative_h_s, APFLOAT_FROM_ALTERNATIVE_HALF, APFLOAT_SINGLE, 0, ANY_MODE},
    {"alternative_h_d", alternative_h_d, APFLOAT_FROM_ALTERNATIVE_HALF, APFLOAT_DOUBLE, 0, ANY_MODE},
    {"alternative_s_h", alternative_s_h, APFLOAT_TO_ALTERNATIVE_HALF, APFLOAT_SINGLE, 0, ANY_MODE},
    {"alternative_d_h", alternative_d_h, APFLOAT_TO_ALTERNATIVE_HALF, APFLOAT_DOUBLE, 0, ANY_MODE},
};

#elif defined(__riscv)

// Operands are in ft1 to ft3, singles boxed; results in ft0 or a0.
#define STEP(NAME, STEPS)                                                                                              \
    static uint64_t NAME(Setting setting, const uint64_t x[3], uint32_t *flags) {                                      \
        static const uint64_t ROUNDING[] = {0, 3, 2, 1, 4};                                                            \
        static const uint8_t REVERSED[] = {0, 16, 8, 24, 4, 20, 12, 28, 2, 18, 10, 26, 6, 22, 14, 30,                  \
                                           1, 17, 9, 25, 5, 21, 13, 29, 3, 19, 11, 27, 7, 23, 15, 31};                 \
        uint64_t box = #NAME[sizeof #NAME - 2] == 's' ? UINT64_MAX << 32 : 0, vector, whole, raised;                   \
        __asm__ volatile("fscsr %[csr]\n\tfmv.d.x ft1, %[x]\n\tfmv.d.x ft2, %[y]\n\tfmv.d.x ft3, %[z]\n\t"             \
                         "fmv.d.x ft0, zero\n\tli a0, 0\n\t" STEPS "\n\tfrflags %[raised]\n\t"                         \
                         "fmv.x.d %[vector], ft0\n\tmv %[whole], a0\n\tfscsr zero"                                    \
                         : [vector] "=&r"(vector), [whole] "=&r"(whole), [raised] "=&r"(raised)                        \
                         : [csr] "r"(ROUNDING[setting.mode] << 5), [x] "r"(x[0] | box), [y] "r"(x[1] | box),           \
                           [z] "r"(x[2] | box)                                                                         \
                         : "a0", "t0", "ft0", "ft1", "ft2", "ft3");                                                    \
        *flags = REVERSED[raised & 31];                                                                                \
        return vector | whole;                                                                                         \
    }
enum { NEGATES_NANS = 0 };
static Setting drawn_setting(void) { return (Setting){APFLOAT_MACHINE_RISC_V, (uint32_t)(word() % 5), 0}; }
#define TWO(NAME) STEP(NAME##_s, #NAME ".s ft0, ft1, ft2") STEP(NAME##_d, #NAME ".d ft0, ft1, ft2")
#define ONE(NAME) STEP(NAME##_s, #NAME ".s ft0, ft1") STEP(NAME##_d, #NAME ".d ft0, ft1")
#define WHOLE(NAME, WIDTH, MODE)                                                                                       \
    STEP(NAME##_s, "fcvt." WIDTH ".s a0, ft1, " MODE) STEP(NAME##_d, "fcvt." WIDTH ".d a0, ft1, " MODE)
TWO(fadd) TWO(fsub) TWO(fmul) TWO(fdiv) TWO(fmin) TWO(fmax) ONE(fsqrt)
WHOLE(fcvt_w, "w", "dyn") WHOLE(fcvt_wu, "wu", "rtz") WHOLE(fcvt_l, "l", "dyn") WHOLE(fcvt_lu, "lu", "dyn")
#define THREE(NAME) STEP(NAME##_s, #NAME ".s ft0, ft1, ft2, ft3") STEP(NAME##_d, #NAME ".d ft0, ft1, ft2, ft3")
THREE(fmadd) THREE(fmsub) THREE(fnmadd) THREE(fnmsub)
STEP(to_d_s, "fcvt.d.s ft0, ft1") STEP(to_s_d, "fcvt.s.d ft0, ft1")
static const Instruction INSTRUCTIONS[] = {
    BOTH(fadd, APFLOAT_ADD, 0, ANY_MODE), BOTH(fsub, APFLOAT_SUB, 0, ANY_MODE), BOTH(fmul, APFLOAT_MUL, 0, ANY_MODE),
    BOTH(fdiv, APFLOAT_DIV, 0, ANY_MODE), BOTH(fsqrt, APFLOAT_SQRT, 0, ANY_MODE), BOTH(fmadd, APFLOAT_FMA, 0, ANY_MODE),
    NEGATED(fmsub, ADDEND), NEGATED(fnmadd, FACTOR | ADDEND), NEGATED(fnmsub, FACTOR),
    BOTH(fmin, APFLOAT_LEAST, APFLOAT_RULE_NUMBER_2019, ANY_MODE),
    BOTH(fmax, APFLOAT_GREATEST, APFLOAT_RULE_NUMBER_2019, ANY_MODE),
    BOTH(fcvt_w, APFLOAT_TO_I128, 32, ANY_MODE), BOTH(fcvt_wu, APFLOAT_TO_U128, 32, ZERO),
    BOTH(fcvt_l, APFLOAT_TO_I128, 64, ANY_MODE), BOTH(fcvt_lu, APFLOAT_TO_U128, 64, ANY_MODE),
    {"to_d_s", to_d_s, APFLOAT_CONVERT, APFLOAT_SINGLE, APFLOAT_DOUBLE, ANY_MODE},
    {"to_s_d", to_s_d, APFLOAT_CONVERT, APFLOAT_DOUBLE, APFLOAT_SINGLE, ANY_MODE},
};

#elif defined(__powerpc64__)

// Operands are in registers 1 to 3, results in 0. Singles are loaded and stored as doubles.
#define STEP_BY(NAME, LOAD, STORE, STEPS)                                                                              \
    static uint64_t NAME(Setting setting, const uint64_t x[3], uint32_t *flags) {                                      \
        static const uint64_t ROUNDING[] = {0, 2, 3, 1};                                                               \
        uint64_t control = ROUNDING[setting.mode], state, result = 0, usual = 0;                                       \
        __asm__ volatile("lfd 0, %[control]\n\tmtfsf 255, 0\n\t" LOAD " 1, 0(%[x])\n\t" LOAD " 2, 8(%[x])\n\t"         \
                         LOAD " 3, 16(%[x])\n\txxlxor 0, 0, 0\n\t" STEPS "\n\tmffs 1\n\tstfd 1, %[state]\n\t"          \
                         STORE " 0, %[result]\n\tlfd 0, %[usual]\n\tmtfsf 255, 0"                                      \
                         : [state] "=m"(state), [result] "+m"(result)                                                  \
                         : [control] "m"(control), [usual] "m"(usual), [x] "b"(x), "m"(*(const uint64_t(*)[3])x)       \
                         : "fr0", "fr1", "fr2", "fr3");                                                                \
        *flags = (state >> 29 & 1) | (state >> 26 & 1) << 1 | (state >> 28 & 1) << 2 | (state >> 27 & 1) << 3 |        \
                 (state >> 25 & 1) << 4;                                                                               \
        return result;                                                                                                 \
    }
#define STEP(NAME, STEPS) STEP_BY(NAME, "lfd", "stfd", STEPS)
enum { NEGATES_NANS = 0 };
static Setting drawn_setting(void) { return (Setting){APFLOAT_MACHINE_POWER, (uint32_t)(word() % 4), 0}; }
STEP_BY(fadds, "lfs", "stfs", "fadds 0, 1, 2") STEP(fadd, "fadd 0, 1, 2")
STEP_BY(fsubs, "lfs", "stfs", "fsubs 0, 1, 2") STEP(fsub, "fsub 0, 1, 2")
STEP_BY(fmuls, "lfs", "stfs", "fmuls 0, 1, 2") STEP(fmul, "fmul 0, 1, 2")
STEP_BY(fdivs, "lfs", "stfs", "fdivs 0, 1, 2") STEP(fdiv, "fdiv 0, 1, 2")
STEP_BY(fsqrts, "lfs", "stfs", "fsqrts 0, 1") STEP(fsqrt, "fsqrt 0, 1")
STEP_BY(fmadds, "lfs", "stfs", "fmadds 0, 1, 2, 3") STEP(fmadd, "fmadd 0, 1, 2, 3")
STEP_BY(fmsub_s, "lfs", "stfs", "fmsubs 0, 1, 2, 3") STEP(fmsub_d, "fmsub 0, 1, 2, 3")
STEP_BY(fnmadd_s, "lfs", "stfs", "fnmadds 0, 1, 2, 3") STEP(fnmadd_d, "fnmadd 0, 1, 2, 3")
STEP_BY(fnmsub_s, "lfs", "stfs", "fnmsubs 0, 1, 2, 3") STEP(fnmsub_d, "fnmsub 0, 1, 2, 3")
STEP(xsmindp, "xsmindp 0, 1, 2") STEP(xsmaxdp, "xsmaxdp 0, 1, 2")
STEP(xsmincdp, "xsmincdp 0, 1, 2") STEP(xsmaxcdp, "xsmaxcdp 0, 1, 2")
STEP(xsminjdp, "xsminjdp 0, 1, 2") STEP(xsmaxjdp, "xsmaxjdp 0, 1, 2")
STEP(xsrdpi, "xsrdpi 0, 1") STEP(xsrdpic, "xsrdpic 0, 1")
STEP(fctiw, "fctiw 0, 1") STEP(fctiwuz, "fctiwuz 0, 1") STEP(fctid, "fctid 0, 1") STEP(fctidu, "fctidu 0, 1")
STEP_BY(frsp, "lfd", "stfs", "frsp 0, 1") STEP(xscvdphp, "xscvdphp 0, 1") STEP(xscvhpdp, "xscvhpdp 0, 1")
#define OF_DOUBLE(NAME, OPERATION, TO, MODE) {#NAME, NAME, OPERATION, APFLOAT_DOUBLE, TO, MODE}
#define SHORT_AND_LONG(NAME, OPERATION)                                                                                \
    {#NAME "s", NAME##s, OPERATION, APFLOAT_SINGLE, 0, ANY_MODE},                                                      \
        {#NAME, NAME, OPERATION, APFLOAT_DOUBLE, 0, ANY_MODE}
static const Instruction INSTRUCTIONS[] = {
    SHORT_AND_LONG(fadd, APFLOAT_ADD), SHORT_AND_LONG(fsub, APFLOAT_SUB), SHORT_AND_LONG(fmul, APFLOAT_MUL),
    SHORT_AND_LONG(fdiv, APFLOAT_DIV), SHORT_AND_LONG(fsqrt, APFLOAT_SQRT), SHORT_AND_LONG(fmadd, APFLOAT_FMA),
    NEGATED(fmsub, ADDEND), NEGATED(fnmadd, RESULT), NEGATED(fnmsub, ADDEND | RESULT),
    OF_DOUBLE(xsmindp, APFLOAT_LEAST, APFLOAT_RULE_NUMBER_2008, ANY_MODE),
    OF_DOUBLE(xsmaxdp, APFLOAT_GREATEST, APFLOAT_RULE_NUMBER_2008, ANY_MODE),
    OF_DOUBLE(xsmincdp, APFLOAT_LEAST, APFLOAT_RULE_SECOND_QUIETLY, ANY_MODE),
    OF_DOUBLE(xsmaxcdp, APFLOAT_GREATEST, APFLOAT_RULE_SECOND_QUIETLY, ANY_MODE),
    OF_DOUBLE(xsminjdp, APFLOAT_LEAST, APFLOAT_RULE_FIRST_NAN, ANY_MODE),
    OF_DOUBLE(xsmaxjdp, APFLOAT_GREATEST, APFLOAT_RULE_FIRST_NAN, ANY_MODE),
    OF_DOUBLE(xsrdpi, APFLOAT_INTEGRAL, 0, AWAY), OF_DOUBLE(xsrdpic, APFLOAT_ROUND_TO_INTEGRAL, 0, ANY_MODE),
    OF_DOUBLE(fctiw, APFLOAT_TO_I128, 32, ANY_MODE), OF_DOUBLE(fctiwuz, APFLOAT_TO_U128, 32, ZERO),
    OF_DOUBLE(fctid, APFLOAT_TO_I128, 64, ANY_MODE), OF_DOUBLE(fctidu, APFLOAT_TO_U128, 64, ANY_MODE),
    OF_DOUBLE(frsp, APFLOAT_CONVERT, APFLOAT_SINGLE, ANY_MODE),
    OF_DOUBLE(xscvdphp, APFLOAT_CONVERT, APFLOAT_HALF, ANY_MODE),
    {"xscvhpdp", xscvhpdp, APFLOAT_CONVERT, APFLOAT_HALF, APFLOAT_DOUBLE, ANY_MODE},
};

#elif defined(__s390x__)

// Operands are in f1 to f3, results in f0 or r0. A single is the upper half of its register.
#define STEP_BY(NAME, LOAD, PLACE, STEPS)                                                                              \
    static uint64_t NAME(Setting setting, const uint64_t x[3], uint32_t *flags) {                                      \
        static const uint32_t ROUNDING[] = {0, 2, 3, 1};                                                               \
        uint64_t a = x[0] << LOAD, b = x[1] << LOAD, c = x[2] << LOAD, vector, whole;                                  \
        uint32_t state;                                                                                                \
        __asm__ volatile("sfpc %[control]\n\tldgr %%f1, %[a]\n\tldgr %%f2, %[b]\n\tldgr %%f3, %[c]\n\tlzdr %%f0\n\t"   \
                         "lghi %%r0, 0\n\t" STEPS "\n\tefpc %[state]\n\tlgdr %[vector], %%f0\n\t"                    \
                         "lgr %[whole], %%r0\n\tsfpc %[usual]"                                                         \
                         : [state] "=&d"(state), [vector] "=&d"(vector), [whole] "=&d"(whole)                          \
                         : [control] "d"(ROUNDING[setting.mode]), [usual] "d"(0), [a] "d"(a), [b] "d"(b), [c] "d"(c)   \
                         : "r0", "f0", "f1", "f2", "f3", "cc");                                                        \
        *flags = (state >> 23 & 1) | (state >> 22 & 1) << 1 | (state >> 21 & 1) << 2 | (state >> 20 & 1) << 3 |        \
                 (state >> 19 & 1) << 4;                                                                               \
        return vector >> PLACE | whole;                                                                                \
    }
enum { NEGATES_NANS = 0 };
static Setting drawn_setting(void) { return (Setting){APFLOAT_MACHINE_S390X, (uint32_t)(word() % 4), 0}; }
#define IN_EACH(NAME, SINGLE_STEPS, DOUBLE_STEPS)                                                                      \
    STEP_BY(NAME##_s, 32, 32, SINGLE_STEPS) STEP_BY(NAME##_d, 0, 0, DOUBLE_STEPS)
#define TWO(NAME, S, D) IN_EACH(NAME, "ldr %%f0, %%f1\n\t" S " %%f0, %%f2", "ldr %%f0, %%f1\n\t" D " %%f0, %%f2")
#define EXTREMUM(NAME, S, D, KIND)                                                                                     \
    IN_EACH(NAME, S " %%v0, %%v1, %%v2, " KIND, D " %%v0, %%v1, %%v2, " KIND)
TWO(add, "aebr", "adbr") TWO(sub, "sebr", "sdbr") TWO(mul, "meebr", "mdbr") TWO(div, "debr", "ddbr")
IN_EACH(sqrt, "sqebr %%f0, %%f1", "sqdbr %%f0, %%f1")
IN_EACH(fma, "ldr %%f0, %%f3\n\tmaebr %%f0, %%f1, %%f2", "ldr %%f0, %%f3\n\tmadbr %%f0, %%f1, %%f2")
IN_EACH(fms, "ldr %%f0, %%f3\n\tmsebr %%f0, %%f1, %%f2", "ldr %%f0, %%f3\n\tmsdbr %%f0, %%f1, %%f2")
EXTREMUM(min_0, "wfminsb", "wfmindb", "0") EXTREMUM(max_0, "wfmaxsb", "wfmaxdb", "0")
EXTREMUM(min_1, "wfminsb", "wfmindb", "1") EXTREMUM(max_1, "wfmaxsb", "wfmaxdb", "1")
EXTREMUM(min_2, "wfminsb", "wfmindb", "2") EXTREMUM(max_2, "wfmaxsb", "wfmaxdb", "2")
IN_EACH(integral, "fiebr %%f0, 0, %%f1", "fidbr %%f0, 0, %%f1")
IN_EACH(integral_quietly, "fiebra %%f0, 0, %%f1, 4", "fidbra %%f0, 0, %%f1, 4")
IN_EACH(to_i32, "cfebr %%r0, 0, %%f1", "cfdbr %%r0, 0, %%f1")
IN_EACH(to_i64, "cgebr %%r0, 5, %%f1", "cgdbr %%r0, 5, %%f1")
IN_EACH(to_u32, "clfebr %%r0, 0, %%f1, 0", "clfdbr %%r0, 0, %%f1, 0")
IN_EACH(to_u64, "clgebr %%r0, 4, %%f1, 0", "clgdbr %%r0, 4, %%f1, 0")
STEP_BY(ledbr, 0, 32, "ledbr %%f0, %%f1")
STEP_BY(ldebr, 32, 0, "ldebr %%f0, %%f1")
static const Instruction INSTRUCTIONS[] = {
    BOTH(add, APFLOAT_ADD, 0, ANY_MODE), BOTH(sub, APFLOAT_SUB, 0, ANY_MODE), BOTH(mul, APFLOAT_MUL, 0, ANY_MODE),
    BOTH(div, APFLOAT_DIV, 0, ANY_MODE), BOTH(sqrt, APFLOAT_SQRT, 0, ANY_MODE), BOTH(fma, APFLOAT_FMA, 0, ANY_MODE),
    NEGATED(fms, ADDEND),
    BOTH(min_0, APFLOAT_LEAST, APFLOAT_RULE_NUMBER_2008, ANY_MODE),
    BOTH(max_0, APFLOAT_GREATEST, APFLOAT_RULE_NUMBER_2008, ANY_MODE),
    BOTH(min_1, APFLOAT_LEAST, APFLOAT_RULE_PROPAGATED, ANY_MODE),
    BOTH(max_1, APFLOAT_GREATEST, APFLOAT_RULE_PROPAGATED, ANY_MODE),
    BOTH(min_2, APFLOAT_LEAST, APFLOAT_RULE_SECOND, ANY_MODE),
    BOTH(max_2, APFLOAT_GREATEST, APFLOAT_RULE_SECOND, ANY_MODE),
    BOTH(integral, APFLOAT_ROUND_TO_INTEGRAL, 0, ANY_MODE), BOTH(integral_quietly, APFLOAT_INTEGRAL, 0, ANY_MODE),
    BOTH(to_i32, APFLOAT_TO_I128, 32, ANY_MODE), BOTH(to_i64, APFLOAT_TO_I128, 64, ZERO),
    BOTH(to_u32, APFLOAT_TO_U128, 32, ANY_MODE), BOTH(to_u64, APFLOAT_TO_U128, 64, EVEN),
    {"ledbr", ledbr, APFLOAT_CONVERT, APFLOAT_DOUBLE, APFLOAT_SINGLE, ANY_MODE},
    {"ldebr", ldebr, APFLOAT_CONVERT, APFLOAT_SINGLE, APFLOAT_DOUBLE, ANY_MODE},
};
#endif

// ---- operands

typedef struct {
    int field_bits, trailing;
} Format;

// Of x87 without the lowest digits and the integer bit.
static const Format *format_of(uint32_t code) {
    static const Format HALF = {5, 10}, BFLOAT = {8, 7}, SINGLE = {8, 23}, DOUBLE = {11, 52}, X87 = {15, 48};
    switch (code) {
    case APFLOAT_HALF: return &HALF;
    case APFLOAT_BFLOAT: return &BFLOAT;
    case APFLOAT_SINGLE: return &SINGLE;
    case APFLOAT_X87: return &X87;
    default: return &DOUBLE;
    }
}

static uint64_t digits(int count) { return count == 0 ? 0 : word() >> (64 - count); }

// Bits of a format. Half are NaNs, infinities, zeros, denormal numbers or at an end of the range; most of the others
// have an exponent near that of another value, or about 1.
static uint64_t value(const Format *f, uint64_t near) {
    uint64_t greatest = (UINT64_C(1) << f->field_bits) - 1, one = UINT64_C(1) << f->trailing;
    uint64_t infinity = greatest << f->trailing, sign = (word() & 1) << (f->field_bits + f->trailing);
    switch (word() % 16) {
    case 0: return sign | infinity | one >> 1 | digits(f->trailing - 1);
    case 1: return sign | infinity | digits(f->trailing - 1) | 1;
    case 2: return sign | infinity;
    case 3: return sign;
    case 4: case 5: return sign | digits(f->trailing) >> word() % (unsigned)f->trailing;
    case 6: return sign | (one - 2 + word() % 4);
    case 7: return sign | (infinity - 1 - word() % 2);
    }
    uint64_t field = word() & 1 ? near >> f->trailing & greatest : word() % greatest;
    field += word() % 7;
    if (field >= greatest) field = greatest - 1;
    int kept = (int)(word() % (unsigned)f->trailing);
    return sign | field << f->trailing | (word() & 1 ? digits(f->trailing) : digits(f->trailing) >> kept << kept);
}

// The exponent of a value around the ends of a narrower format or of integers.
static uint64_t near_target(const Format *f) {
    static const int ENDS[] = {-1074, -1022, -149, -126, -24, -14, 0, 15, 31, 63, 127, 1023};
    int64_t field = ENDS[word() % 12] + (1 << (f->field_bits - 1)) - 4;
    return field < 0 ? 0 : (uint64_t)field << f->trailing;
}

static int operand_count(uint32_t operation) {
    switch (operation) {
    case APFLOAT_FMA: return 3;
    case APFLOAT_SQRT:
    case APFLOAT_ROUND_TO_INTEGRAL:
    case APFLOAT_INTEGRAL:
    case APFLOAT_CONVERT:
    case APFLOAT_TO_U128:
    case APFLOAT_TO_I128:
    case APFLOAT_TO_I128_MODULO:
    case APFLOAT_TO_ALTERNATIVE_HALF:
    case APFLOAT_FROM_ALTERNATIVE_HALF: return 1;
    default: return 2;
    }
}

static int result_width(const Instruction *made) {
    if (made->operation >= COMPARE_QUIET) return 64;
    switch (made->operation) {
    case APFLOAT_TO_U128:
    case APFLOAT_TO_I128:
    case APFLOAT_TO_I128_MODULO: return (int)made->to;
    case APFLOAT_TO_ALTERNATIVE_HALF: return 16;
    }
    const Format *f = format_of(made->operation == APFLOAT_CONVERT ? made->to : made->format);
    return 1 + f->field_bits + f->trailing;
}

// Negates a value of a format, and a NaN where the processor negates it too.
static uint64_t negated(const Format *f, uint64_t x) {
    uint64_t sign = UINT64_C(1) << (f->field_bits + f->trailing), infinity = (sign - 1) >> f->trailing << f->trailing;
    return (x & (sign - 1)) > infinity && !NEGATES_NANS ? x : x ^ sign;
}

// The lower word of a value of x87 of which the others are given; one in sixteen has an integer bit that does not fit.
static uint64_t lower_word(uint64_t drawn) {
    uint64_t digits_drawn = drawn << 16 >> 1, lowest = digits_drawn && word() & 1 ? digits(15) : 0;
    bool has_integer_bit = (drawn >> 48 & 0x7fff) != 0;
    if (word() % 16 == 0) has_integer_bit = !has_integer_bit;
    return (uint64_t)has_integer_bit << 63 | digits_drawn | lowest;
}

static void write_word(int place, uint64_t bits) {
    if (upper[place]) printf(" %x%016llx", upper[place], (unsigned long long)bits);
    else printf(" %llx", (unsigned long long)bits);
}

static void write_line(const Instruction *made) {
    static const uint32_t PRECISIONS[] = {0, 0, DIGITS_24, DIGITS_53};
    const Format *f = format_of(made->operation == APFLOAT_FROM_ALTERNATIVE_HALF ? APFLOAT_HALF : made->format);
    const bool to_unit = made->operation == APFLOAT_CONVERT && made->to == APFLOAT_X87;
    const bool is_unit = made->format == APFLOAT_X87 || to_unit;
    Setting setting = drawn_setting();
    uint64_t x[3] = {0};
    uint32_t flags;
    memset(upper, 0, sizeof upper);
    x[0] = value(f, near_target(f));
    for (int k = 1; k < operand_count(made->operation); k++) x[k] = value(f, x[0]);
    for (int k = 0; k < operand_count(made->operation) && made->format == APFLOAT_X87; k++)
        upper[k] = (uint16_t)(x[k] >> 48), x[k] = lower_word(x[k]);
    if (is_unit) setting.machine = APFLOAT_MACHINE_X87, setting.controls = PRECISIONS[word() % 4];
    uint64_t result = made->made(setting, x, &flags) & UINT64_MAX >> (64 - result_width(made));
    if (made->negated & FACTOR) x[0] = negated(f, x[0]);
    if (made->negated & ADDEND) x[2] = negated(f, x[2]);
    if (made->negated & RESULT) result = negated(f, result);
    printf("%s %x %x %x %x %x %x", made->name, setting.machine, made->operation, made->format, made->to,
           made->own_mode < 0 ? setting.mode : (uint32_t)made->own_mode, setting.controls);
    for (int k = 0; k < 3; k++) write_word(k, x[k]);
    write_word(3, result);
    printf(" %x\n", flags);
}

int main(int argc, char **argv) {
    if (argc < 3) {
        fprintf(stderr, "usage: %s SEED COUNT [NAME]\n", argv[0]);
        return 2;
    }
    state = strtoull(argv[1], NULL, 10);
    unsigned long count = strtoul(argv[2], NULL, 10);
    for (size_t i = 0; i < sizeof INSTRUCTIONS / sizeof *INSTRUCTIONS; i++)
        if (argc == 3 || !strcmp(argv[3], INSTRUCTIONS[i].name))
            for (unsigned long row = 0; row < count; row++) write_line(&INSTRUCTIONS[i]);
    return ferror(stdout) || fflush(stdout) ? 1 : 0;
}
