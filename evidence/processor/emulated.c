// What other processors do with NaNs, invalid conversions to integers, and minima, for an emulator of their
// instructions: without a C library, so that only a compiler for the processor is needed.
//
//     s390x-linux-gnu-gcc -O1 -march=z14 -static -nostdlib -ffreestanding -o RUN evidence/processor/emulated.c
//     qemu-s390x RUN | python3 evidence/processor/emulated.py
//
// The same for aarch64, riscv64 and powerpc64le (with -mcpu=power9), and for MIPS by clang, with
//
//     clang --target=mips64el-linux-gnuabi64 -mcpu=mips64r6 -mnan=2008 -O1 -ffreestanding -nostdlib -static -fno-pic \
//         -mno-abicalls -G0 -mxgot -fuse-ld=lld -Wl,-e,_start -o RUN evidence/processor/emulated.c
//     qemu-mips64el -cpu I6400 RUN | python3 evidence/processor/emulated.py
//
// Values are doubles, since POWER computes in them.
typedef unsigned long long u64;
typedef unsigned u32;

// ---- instructions

static u32 raised;

// What a conversion leaves in a register.
static inline u32 of_word(u64 r) { return (u32)r; }
static inline u32 of_single(float r) {
    u32 bits;
    __builtin_memcpy(&bits, &r, 4);
    return bits;
}
static inline u64 of_double(double r) {
    u64 bits;
    __builtin_memcpy(&bits, &r, 8);
    return bits;
}
static inline u32 of_lower_half(double r) { return (u32)of_double(r); }
static inline u32 of_upper_half(double r) { return (u32)(of_double(r) >> 32); }

// A conversion of a double: its name, the type of its result and what reads that, the instruction, the kinds of its
// registers, and what else it writes.
#define CONVERSION(NAME, TYPE, READ, TEXT, TO, FROM, ...)            \
    static u32 NAME(double x) {                                      \
        TYPE r;                                                      \
        BEGIN;                                                       \
        __asm__ volatile(TEXT : TO(r) : FROM(x) : __VA_ARGS__);      \
        read_flags();                                                \
        return READ(r);                                              \
    }

#if defined(__aarch64__)
static long write_out(const char *text, long length) {
    register long x8 __asm__("x8") = 64, x0 __asm__("x0") = 1, x2 __asm__("x2") = length;
    register const char *x1 __asm__("x1") = text;
    __asm__ volatile("svc 0" : "+r"(x0) : "r"(x1), "r"(x2), "r"(x8) : "memory");
    return x0;
}
static void stop(void) {
    register long x8 __asm__("x8") = 93, x0 __asm__("x0") = 0;
    __asm__ volatile("svc 0" : : "r"(x8), "r"(x0));
}
static u64 control;
static void read_flags(void) {
    u64 s;
    __asm__ volatile("mrs %0, fpsr" : "=r"(s));
    raised = s & 0x1f;
}
#define BEGIN __asm__ volatile("msr fpcr, %0\n\tmsr fpsr, xzr" : : "r"(control))
#define TWO(NAME) __asm__ volatile(NAME " %d0, %d1, %d2" : "=w"(r) : "w"(x), "w"(y))
#define CALLS_OF_TWO(CALL)                   \
    CALL(0, "add", TWO("fadd"))              \
    CALL(1, "mul", TWO("fmul"))              \
    CALL(2, "min:Number2008", TWO("fminnm")) \
    CALL(3, "min:Propagated", TWO("fmin"))   \
    CALL(4, "max:Number2008", TWO("fmaxnm")) \
    CALL(5, "max:Propagated", TWO("fmax"))
enum { MACHINE_COUNT = 2 };
static const char *const MACHINES[] = {"Arm", "ArmDefaultNan"};
static void choose(int machine) { control = machine ? 1 << 25 : 0; }
#define FUSED __asm__ volatile("fmadd %d0, %d1, %d2, %d3" : "=w"(r) : "w"(x), "w"(y), "w"(z))
CONVERSION(to_signed, u32, of_word, "fcvtns %w0, %d1", "=r", "w")
CONVERSION(to_unsigned, u32, of_word, "fcvtnu %w0, %d1", "=r", "w")
CONVERSION(to_single, float, of_single, "fcvt %s0, %d1", "=w", "w")

#elif defined(__riscv)
static long write_out(const char *text, long length) {
    register long a7 __asm__("a7") = 64, a0 __asm__("a0") = 1, a2 __asm__("a2") = length;
    register const char *a1 __asm__("a1") = text;
    __asm__ volatile("ecall" : "+r"(a0) : "r"(a1), "r"(a2), "r"(a7) : "memory");
    return a0;
}
static void stop(void) {
    register long a7 __asm__("a7") = 93, a0 __asm__("a0") = 0;
    __asm__ volatile("ecall" : : "r"(a7), "r"(a0));
}
static void read_flags(void) {
    u64 s;
    __asm__ volatile("frflags %0" : "=r"(s));
    raised = (s & 16 ? 1 : 0) | (s & 8 ? 2 : 0) | (s & 4) | (s & 2 ? 8 : 0) | (s & 1 ? 16 : 0);
}
#define BEGIN __asm__ volatile("fscsr x0")
#define TWO(NAME) __asm__ volatile(NAME " %0, %1, %2" : "=f"(r) : "f"(x), "f"(y))
#define CALLS_OF_TWO(CALL)                   \
    CALL(0, "add", TWO("fadd.d"))            \
    CALL(1, "mul", TWO("fmul.d"))            \
    CALL(2, "min:Number2019", TWO("fmin.d")) \
    CALL(3, "max:Number2019", TWO("fmax.d"))
enum { MACHINE_COUNT = 1 };
static const char *const MACHINES[] = {"RiscV"};
static void choose(int machine) { (void)machine; }
#define FUSED __asm__ volatile("fmadd.d %0, %1, %2, %3" : "=f"(r) : "f"(x), "f"(y), "f"(z))
CONVERSION(to_signed, u64, of_word, "fcvt.w.d %0, %1, rne", "=r", "f")
CONVERSION(to_unsigned, u64, of_word, "fcvt.wu.d %0, %1, rne", "=r", "f")
CONVERSION(to_single, float, of_single, "fcvt.s.d %0, %1", "=f", "f")

#elif defined(__powerpc64__)
static long write_out(const char *text, long length) {
    register long r0 __asm__("r0") = 4, r3 __asm__("r3") = 1, r5 __asm__("r5") = length;
    register const char *r4 __asm__("r4") = text;
    __asm__ volatile("sc"
                     : "+r"(r3), "+r"(r0)
                     : "r"(r4), "r"(r5)
                     : "memory", "cr0", "ctr", "r6", "r7", "r8", "r9", "r10", "r11", "r12");
    return r3;
}
static void stop(void) {
    register long r0 __asm__("r0") = 1, r3 __asm__("r3") = 0;
    __asm__ volatile("sc" : : "r"(r0), "r"(r3));
}
static void clear_flags(void) {
    double zero = 0;
    __asm__ volatile("mtfsf 255, %0" : : "d"(zero));
}
static void read_flags(void) {
    double s;
    __asm__ volatile("mffs %0" : "=d"(s));
    u64 bits = of_double(s);
    raised = (bits & 0x20000000 ? 1 : 0) | (bits & 0x04000000 ? 2 : 0) | (bits & 0x10000000 ? 4 : 0)
        | (bits & 0x08000000 ? 8 : 0) | (bits & 0x02000000 ? 16 : 0);
}
#define BEGIN clear_flags()
#define TWO(NAME) __asm__ volatile(NAME " %x0, %x1, %x2" : "=wa"(r) : "wa"(x), "wa"(y))
#define CALLS_OF_TWO(CALL)                        \
    CALL(0, "add", TWO("xsadddp"))                \
    CALL(1, "mul", TWO("xsmuldp"))                \
    CALL(2, "min:Number2008", TWO("xsmindp"))     \
    CALL(3, "max:Number2008", TWO("xsmaxdp"))     \
    CALL(4, "min:SecondQuietly", TWO("xsmincdp")) \
    CALL(5, "max:SecondQuietly", TWO("xsmaxcdp")) \
    CALL(6, "min:FirstNan", TWO("xsminjdp"))      \
    CALL(7, "max:FirstNan", TWO("xsmaxjdp"))
enum { MACHINE_COUNT = 1 };
static const char *const MACHINES[] = {"Power"};
static void choose(int machine) { (void)machine; }
#define FUSED __asm__ volatile("fmadd %0, %1, %2, %3" : "=d"(r) : "d"(x), "d"(y), "d"(z))
CONVERSION(to_signed, double, of_lower_half, "fctiw %0, %1", "=d", "d")
CONVERSION(to_unsigned, double, of_lower_half, "fctiwu %0, %1", "=d", "d")
CONVERSION(to_single, double, of_upper_half, "xscvdpsp %x0, %x1", "=wa", "wa")

#elif defined(__s390x__)
static long write_out(const char *text, long length) {
    register long r1 __asm__("1") = 4, r2 __asm__("2") = 1, r4 __asm__("4") = length;
    register const char *r3 __asm__("3") = text;
    __asm__ volatile("svc 0" : "+r"(r2) : "r"(r1), "r"(r3), "r"(r4) : "memory");
    return r2;
}
static void stop(void) {
    register long r1 __asm__("1") = 1, r2 __asm__("2") = 0;
    __asm__ volatile("svc 0" : : "r"(r1), "r"(r2));
}
static void read_flags(void) {
    u64 s;
    __asm__ volatile("efpc %0" : "=r"(s));
    raised = (s & 0x00800000 ? 1 : 0) | (s & 0x00400000 ? 2 : 0) | (s & 0x00200000 ? 4 : 0)
        | (s & 0x00100000 ? 8 : 0) | (s & 0x00080000 ? 16 : 0);
}
#define BEGIN __asm__ volatile("sfpc %0" : : "r"(0L))
#define VECTOR(NAME, KIND) __asm__ volatile(NAME " %v0,%v1,%v2," KIND : "=v"(r) : "v"(x), "v"(y))
#define CALLS_OF_TWO(CALL)                                                \
    CALL(0, "add", __asm__ volatile("adbr %0, %1" : "+f"(r) : "f"(y)))    \
    CALL(1, "mul", __asm__ volatile("mdbr %0, %1" : "+f"(r) : "f"(y)))    \
    CALL(2, "min:Number2008", VECTOR("wfmindb", "0"))                     \
    CALL(3, "max:Number2008", VECTOR("wfmaxdb", "0"))                     \
    CALL(4, "min:Propagated", VECTOR("wfmindb", "1"))                     \
    CALL(5, "max:Propagated", VECTOR("wfmaxdb", "1"))                     \
    CALL(6, "min:Second", VECTOR("wfmindb", "2"))                         \
    CALL(7, "max:Second", VECTOR("wfmaxdb", "2"))
enum { MACHINE_COUNT = 1 };
static const char *const MACHINES[] = {"S390x"};
static void choose(int machine) { (void)machine; }
#define FUSED __asm__ volatile("madbr %0, %1, %2" : "+f"(r) : "f"(x), "f"(y))
CONVERSION(to_signed, u64, of_word, "cfdbr %0, 4, %1", "=r", "f", "cc")
CONVERSION(to_unsigned, u64, of_word, "clfdbr %0, 4, %1, 0", "=r", "f", "cc")
CONVERSION(to_single, float, of_single, "ledbr %0, %1", "=f", "f")

#elif defined(__mips__)
static long write_out(const char *text, long length) {
    register long v0 __asm__("$2") = 5001, a0 __asm__("$4") = 1, a2 __asm__("$6") = length, a3 __asm__("$7");
    register const char *a1 __asm__("$5") = text;
    __asm__ volatile("syscall" : "+r"(v0), "=r"(a3) : "r"(a0), "r"(a1), "r"(a2) : "memory", "$1", "$3", "$8", "$9",
                     "$10", "$11", "$12", "$13", "$14", "$15", "$24", "$25");
    return v0;
}
static void stop(void) {
    register long v0 __asm__("$2") = 5058, a0 __asm__("$4") = 0;
    __asm__ volatile("syscall" : : "r"(v0), "r"(a0));
}
static void read_flags(void) {
    u32 s;
    __asm__ volatile("cfc1 %0, $31" : "=r"(s));
    raised = (s >> 6 & 1) | (s >> 5 & 1) << 1 | (s >> 4 & 1) << 2 | (s >> 3 & 1) << 3 | (s >> 2 & 1) << 4;
}
#define BEGIN __asm__ volatile("ctc1 $zero, $31")
#define TWO(NAME) __asm__ volatile(NAME " %0, %1, %2" : "=f"(r) : "f"(x), "f"(y))
// max.d $f0, $f2, $f4; clang 14 makes mina.d of it.
#define MAXIMUM                                                                      \
    __asm__ volatile("mov.d $f2, %1\n\tmov.d $f4, %2\n\t.word 0x4624101e\n\tmov.d %0, $f0" \
                     : "=f"(r)                                                       \
                     : "f"(x), "f"(y)                                                \
                     : "$f0", "$f2", "$f4")
#define CALLS_OF_TWO(CALL)                  \
    CALL(0, "add", TWO("add.d"))            \
    CALL(1, "mul", TWO("mul.d"))            \
    CALL(2, "min:Number2008", TWO("min.d")) \
    CALL(3, "max:Number2008", MAXIMUM)
enum { MACHINE_COUNT = 1 };
static const char *const MACHINES[] = {"Mips2008"};
static void choose(int machine) { (void)machine; }
#define FUSED __asm__ volatile("maddf.d %0, %1, %2" : "+f"(r) : "f"(x), "f"(y))
CONVERSION(to_signed, float, of_single, "cvt.w.d %0, %1", "=f", "f")
#define HAS_NO_UNSIGNED
CONVERSION(to_single, float, of_single, "cvt.s.d %0, %1", "=f", "f")
#endif

#define NAMED(NUMBER, NAME, INSTRUCTION) NAME,
static const char *const CALLS[] = {CALLS_OF_TWO(NAMED)};
enum { CALL_COUNT = sizeof CALLS / sizeof *CALLS };

#define MADE(NUMBER, NAME, INSTRUCTION) \
    case NUMBER: INSTRUCTION; break;
static double of_two(int call, double x, double y) {
    double r = x;
    BEGIN;
    switch (call) { CALLS_OF_TWO(MADE) }
    read_flags();
    return r;
}

static double fused(double x, double y, double z) {
    double r = z;
    BEGIN;
    FUSED;
    read_flags();
    return r;
}

// ---- lines: a machine, a call, operands, the result and the flags, as the library counts them

static char line[256];
static int place;

static void put_text(const char *text) {
    while (*text) line[place++] = *text++;
    line[place++] = ' ';
}

static void put_bits(u64 bits) {
    for (int i = 60; i >= 0; i -= 4) line[place++] = "0123456789abcdef"[bits >> i & 15];
    line[place++] = ' ';
}

static void end_line(u64 bits) {
    put_bits(bits);
    put_bits(raised);
    line[place - 1] = '\n';
    write_out(line, place);
    place = 0;
}

static double of_bits(u64 bits) {
    double x;
    __builtin_memcpy(&x, &bits, 8);
    return x;
}

static const u64 VALUES[] = {0x3ff0000000000000, 0x7ff8000000000001, 0xfff8000000000002, 0x7ff0000000000003,
                             0xfff0000000000004, 0x7ff0000000000000, 0xfff0000000000000, 0x0000000000000000,
                             0x8000000000000000};
enum { COUNT = 9 };
static const u64 NUMBERS[] = {0x41e0000000000000, 0xc1e0000000000000, 0xc1e0000000200000,
                              0xc1e0000000100000, 0x41f0000000000000, 0xbff0000000000000,
                              0x3ff8000000000000, 0xbfe0000000000000, 0x41dfffffffe00000};

static void integers(const char *machine, u64 bits) {
    u64 r = to_signed(of_bits(bits));
    put_text(machine), put_text("signed"), put_bits(bits), end_line(r);
#ifndef HAS_NO_UNSIGNED
    r = to_unsigned(of_bits(bits));
    put_text(machine), put_text("unsigned"), put_bits(bits), end_line(r);
#endif
}

void run(void) {
    for (int m = 0; m < MACHINE_COUNT; m++) {
        choose(m);
        for (int c = 0; c < CALL_COUNT; c++)
            for (int i = 0; i < COUNT; i++)
                for (int j = 0; j < COUNT; j++) {
                    u64 r = of_double(of_two(c, of_bits(VALUES[i]), of_bits(VALUES[j])));
                    put_text(MACHINES[m]), put_text(CALLS[c]);
                    put_bits(VALUES[i]), put_bits(VALUES[j]), end_line(r);
                }
        for (int i = 0; i < COUNT; i++)
            for (int j = 0; j < COUNT; j++)
                for (int k = 0; k < COUNT; k++) {
                    u64 r = of_double(fused(of_bits(VALUES[i]), of_bits(VALUES[j]), of_bits(VALUES[k])));
                    put_text(MACHINES[m]), put_text("fma"), put_bits(VALUES[i]), put_bits(VALUES[j]);
                    put_bits(VALUES[k]), end_line(r);
                }
        for (int i = 0; i < COUNT; i++) {
            integers(MACHINES[m], VALUES[i]);
            u64 r = to_single(of_bits(VALUES[i]));
            put_text(MACHINES[m]), put_text("single"), put_bits(VALUES[i]), end_line(r);
        }
        for (int i = 0; i < COUNT; i++) integers(MACHINES[m], NUMBERS[i]);
    }
    stop();
}

#if defined(__riscv)
__asm__(".globl _start\n_start:\n\t.option push\n\t.option norelax\n\tla gp, __global_pointer$\n\t.option pop\n"
        "\tcall run\n");
#elif defined(__aarch64__)
__asm__(".globl _start\n_start:\n\tbl run\n");
#elif defined(__powerpc64__)
__asm__(".globl _start\n_start:\n\tlis 2,.TOC.@ha\n\taddi 2,2,.TOC.@l\n\tbl run\n\tnop\n");
#elif defined(__mips__)
__asm__(".globl _start\n_start:\n\tjal run\n\tnop\n");
#elif defined(__s390x__)
__asm__(".globl _start\n_start:\n\taghi 15,-160\n\tbrasl 14,run\n");
#endif
