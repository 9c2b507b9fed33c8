/* Which of the proved exports are called: on x86-64 they are there three times, built for its levels
 * x86-64, x86-64-v2 and x86-64-v3 (osb_core_NAME_v1, _v2, _v3), and those of the highest level that the
 * processor has are chosen, once. The choice is only tested; each of what it chooses from is proved.
 *
 * The table has those of the lowest level from the start, so that a call is right at any time. A constructor
 * changes it, before main and before dlopen returns. A call in another thread meanwhile, which only another
 * constructor can have begun, uses the one or the other, and both answer the same.
 *
 * It is included by osbytes.c after the list of the exports. OSB_HIGHEST is the highest level that is
 * chosen, for tests. CPUID is asked by hand, since __builtin_cpu_supports needs a part of libgcc. */
#include <cpuid.h>
#ifdef _WIN32
#define WIN32_LEAN_AND_MEAN
#include <windows.h>
#else
#include <sys/mman.h>
#endif

#ifndef OSB_HIGHEST
#define OSB_HIGHEST 3
#endif

#define DECLARED(result, name, parameters)                                                         \
    OSB_HIDDEN result osb_core_##name##_v1 parameters, osb_core_##name##_v2 parameters,            \
        osb_core_##name##_v3 parameters;
EXPORTS(DECLARED)

#define POINTER(result, name, parameters) result(*name) parameters;
#define LOWEST(result, name, parameters) osb_core_##name##_v1,
/* It has a page of its own, which is read-only once the level is chosen: what it points to is called. */
#define PAGE 4096
static union {
    struct {
        EXPORTS(POINTER)
    };
    char page[PAGE];
} chosen __attribute__((aligned(PAGE))) = {{EXPORTS(LOWEST)}};
_Static_assert(sizeof chosen == PAGE, "the table is in one page");

/* Whether the processor has all of x86-64-v2, as the ABI for x86-64 lists it. */
static bool is_v2(void) {
    unsigned a, b, c, d;
    const unsigned in_c =
        bit_SSE3 | bit_SSSE3 | bit_CMPXCHG16B | bit_SSE4_1 | bit_SSE4_2 | bit_POPCNT;
    if (!__get_cpuid(1, &a, &b, &c, &d) || (c & in_c) != in_c) return false;
    return __get_cpuid(0x80000001, &a, &b, &c, &d) && (c & bit_LAHF_LM) != 0;
}

/* Whether the processor and the system have all of x86-64-v3. */
static bool is_v3(void) {
    unsigned a, b, c, d, low, high;
    const unsigned in_c = bit_FMA | bit_MOVBE | bit_OSXSAVE | bit_AVX | bit_F16C;
    const unsigned in_b = bit_AVX2 | bit_BMI | bit_BMI2;
    if (!__get_cpuid(1, &a, &b, &c, &d) || (c & in_c) != in_c) return false;
    __asm__("xgetbv" : "=a"(low), "=d"(high) : "c"(0));
    if ((low & 6) != 6) return false; /* the system keeps the wide registers */
    if (!__get_cpuid_count(7, 0, &a, &b, &c, &d) || (b & in_b) != in_b) return false;
    return __get_cpuid(0x80000001, &a, &b, &c, &d) && (c & bit_LZCNT) != 0;
}

#define TAKE_V2(result, name, parameters)                                                          \
    __atomic_store_n(&chosen.name, osb_core_##name##_v2, __ATOMIC_RELAXED);
#define TAKE_V3(result, name, parameters)                                                          \
    __atomic_store_n(&chosen.name, osb_core_##name##_v3, __ATOMIC_RELAXED);
static void take_highest(void) {
    if (OSB_HIGHEST < 2 || !is_v2()) return;
    EXPORTS(TAKE_V2)
    if (OSB_HIGHEST < 3 || !is_v3()) return;
    EXPORTS(TAKE_V3)
}

#ifdef _WIN32
static void choose(void) {
    DWORD before;
    take_highest();
    VirtualProtect(&chosen, PAGE, PAGE_READONLY, &before);
}
/* The functions that the start-up code of mingw-w64, and that of MSVC, calls before main and in DllMain. */
__attribute__((section(".CRT$XCL"), used)) static void (*const chosen_at_start)(void) = choose;
#else
__attribute__((constructor(101))) static void choose(void) {
    take_highest();
    mprotect(&chosen, PAGE, PROT_READ);
}
#endif

/* An export of the level that is chosen. */
#define CORE(name) __atomic_load_n(&chosen.name, __ATOMIC_RELAXED)
