// Which level of x86-64 this processor has, and the system on it.
#include <cpuid.h>

// What `cpuid` says in the leaves that the levels are told by.
struct features {
    unsigned first, seventh, extended;
};

static struct features features(void) {
    struct features found = {0, 0, 0};
    unsigned a, b, c, d;
    if (__get_cpuid(1, &a, &b, &c, &d)) found.first = c;
    if (__get_cpuid_count(7, 0, &a, &b, &c, &d)) found.seventh = b;
    if (__get_cpuid(0x80000001, &a, &b, &c, &d)) found.extended = c;
    return found;
}

// SSE3, SSSE3, CMPXCHG16B, SSE4.1, SSE4.2 and POPCNT; LAHF and SAHF
static int has_level_2(struct features found) {
    const unsigned first = 1u << 0 | 1u << 9 | 1u << 13 | 1u << 19 | 1u << 20 | 1u << 23;
    return (found.first & first) == first && (found.extended & 1u) != 0;
}

// FMA, MOVBE, OSXSAVE, AVX and F16C; BMI1, AVX2 and BMI2; LZCNT
static int has_level_3(struct features found) {
    const unsigned first = 1u << 12 | 1u << 22 | 1u << 27 | 1u << 28 | 1u << 29;
    const unsigned seventh = 1u << 3 | 1u << 5 | 1u << 8;
    return (found.first & first) == first && (found.seventh & seventh) == seventh && (found.extended & 1u << 5) != 0;
}

// Whether the system keeps the registers of SSE and of AVX. The instruction is there where OSXSAVE is.
static int keeps_avx(void) {
    unsigned low, high;
    __asm__ volatile("xgetbv" : "=a"(low), "=d"(high) : "c"(0));
    return (low & 6) == 6;
}

// 1, 2 or 3. It is inline, since an archive of one level asks for none, and the compilers tell of what is not called.
static inline int processor_level(void) {
    struct features found = features();
    if (!has_level_2(found)) return 1;
    return has_level_3(found) && keeps_avx() ? 3 : 2;
}
