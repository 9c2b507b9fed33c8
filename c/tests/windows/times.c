/* Prints how many nanoseconds calls take, the least of many runs, on Linux and on Windows. */
#define _POSIX_C_SOURCE 200809L
#include "osbytes.h"

#include <stdio.h>
#include <string.h>

#ifdef _WIN32
#include <windows.h>
static double now(void) {
    LARGE_INTEGER rate, at;
    QueryPerformanceFrequency(&rate);
    QueryPerformanceCounter(&at);
    return 1e9 * (double)at.QuadPart / (double)rate.QuadPart;
}
#else
#include <time.h>
static double now(void) {
    struct timespec at;
    clock_gettime(CLOCK_MONOTONIC, &at);
    return 1e9 * (double)at.tv_sec + (double)at.tv_nsec;
}
#endif

enum { RUNS = 400, BYTES = 1 << 16 };

static char ascii[BYTES], mixed[BYTES], out[6 * BYTES];
static uint16_t wide[BYTES];
static osb_component parts[16];
static volatile size_t results;

#define TIME(name, turns, call)                                                                    \
    do {                                                                                           \
        double least = 1e300;                                                                      \
        for (int run = 0; run < RUNS; run++) {                                                     \
            double began = now();                                                                  \
            for (int turn = 0; turn < (turns); turn++) results += (size_t)(call);                  \
            double each = (now() - began) / (turns);                                               \
            if (each < least) least = each;                                                        \
        }                                                                                          \
        printf("%-40s %12.0f\n", name, least);                                                     \
    } while (0)

int main(void) {
    const char path[] = "C:\\Users\\me\\Documents\\report.final.txt", base[] = "C:\\Users\\you";
    const size_t len = sizeof path - 1, base_len = sizeof base - 1;
    const osb_view patterns[] = {{"**/*.rs", 7}, {"target/**", 9}, {"*.{c,h,cc}", 10}};
    size_t count = 0;
    osb_globs *globs;
    osb_ignores *ignores;
    osb_decision decision;
    for (size_t i = 0; i < BYTES; i++) ascii[i] = "src/lib/name.rs "[i % 16];
    for (size_t i = 0; i < BYTES; i += 4) memcpy(mixed + i, i % 8 != 0 ? "\xed\xa0\x80-" : "a\xe3\x81\x82", 4);
    if (osb_globs_new(OSB_UNIX, OSB_GLOB_SLASH, patterns, 3, &globs, NULL) != OSB_OK) return 2;
    if (osb_ignores_new(&ignores) != OSB_OK) return 2;
    if (osb_ignores_add(ignores, "", 0, "*.o\n/target/\n!keep.o\ndoc/**/*.txt\n", 33) != OSB_OK) return 2;
    TIME("osb_check, 38 bytes", 2000, osb_check(OSB_WINDOWS, path, len, NULL));
    TIME("osb_check, 64 KiB of ASCII", 4, osb_check(OSB_WINDOWS, ascii, BYTES, NULL));
    TIME("osb_check, 64 KiB with surrogates", 4, osb_check(OSB_WINDOWS, mixed, BYTES, NULL));
    TIME("osb_to_wide, 38 bytes", 2000, osb_to_wide(path, len, wide, BYTES, &count, NULL));
    TIME("osb_to_wide, 64 KiB with surrogates", 4, osb_to_wide(mixed, BYTES, wide, BYTES, &count, NULL));
    const size_t units = count;
    TIME("osb_from_wide, the same units", 4, osb_from_wide(wide, units, out, sizeof out, &count));
    TIME("osb_escape_line, 38 bytes", 1000, osb_escape_line(OSB_WINDOWS, path, len, out, sizeof out, &count, NULL));
    TIME("osb_escape_line, 64 KiB with surrogates", 2, osb_escape_line(OSB_WINDOWS, mixed, BYTES, out, sizeof out, &count, NULL));
    TIME("osb_find in 64 KiB", 8, osb_find(ascii, BYTES, "zz", 2, &count));
    TIME("osb_path_components", 1000, osb_path_components(OSB_WINDOWS, path, len, parts, 16, &count));
    TIME("osb_path_join, which allocates", 1000, osb_path_join(OSB_WINDOWS, path, len, "a\\b", 3, out, sizeof out, &count));
    TIME("osb_path_relative, which allocates", 500, osb_path_relative(OSB_WINDOWS, path, len, base, base_len, out, sizeof out, &count));
    TIME("osb_windows_quote", 1000, osb_windows_quote("a b\"c\\", 6, wide, BYTES, &count, NULL, NULL));
    TIME("osb_shell_quote", 1000, osb_shell_quote("it's a name", 11, out, sizeof out, &count, NULL));
    TIME("osb_globs_is_match", 1000, osb_globs_is_match(globs, "src/lib/name.rs", 15));
    TIME("osb_ignores_match", 500, osb_ignores_match(ignores, "src/lib/name.rs", 15, false, &decision));
    TIME("osb_version", 20000, osb_version());
    osb_globs_free(globs);
    osb_ignores_free(ignores);
    return 0;
}
