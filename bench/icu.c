/* Times the conversions of the C library beside those of ICU, by turns: 200 different texts of 1 KiB, and
 * one of 1 MiB, of letters at random. README.md describes how. */
#include <osbytes.h>

#include <unicode/ustring.h>

#include <stdio.h>
#include <stdlib.h>
#include <string.h>
#include <time.h>

enum { TURNS = 200, TEXTS = 200, MOST = 1 << 20 };

/* The letters of a kind of text, by ranges: the first, and how many there are from it on. */
static const struct {
    const char *name;
    struct {
        uint32_t first, count;
    } letters[4];
    uint32_t ranges;
} KINDS[] = {
    {"ASCII", {{0x61, 26}}, 1},
    {"Cyrillic", {{0x430, 32}}, 1},
    {"CJK", {{0x4E00, 0x5000}}, 1},
    {"emoji", {{0x1F600, 80}}, 1},
    {"mixed", {{0x61, 26}, {0x430, 32}, {0x4E00, 0x5000}, {0x1F600, 80}}, 4},
};

struct text {
    char *bytes, *back;
    UChar *units, *wide;
    size_t len, unit_count;
};
static struct text texts[TEXTS];

static void fail(const char *what) {
    fprintf(stderr, "icu: %s\n", what);
    exit(1);
}

/* A generator of numbers (Marsaglia's xorshift). */
static uint32_t random_below(uint32_t bound) {
    static uint64_t state = 88172645463325252;
    state ^= state << 13;
    state ^= state >> 7;
    state ^= state << 17;
    return (uint32_t)(state >> 33) % bound;
}

/* Makes a text of letters of a kind, and a slash in place of one in twelve, as many as have room. */
static void make(struct text *it, size_t kind, size_t len) {
    it->len = 0;
    while (it->len + 4 <= len) {
        uint32_t range = random_below(KINDS[kind].ranges);
        uint32_t letter =
            KINDS[kind].letters[range].first + random_below(KINDS[kind].letters[range].count);
        U8_APPEND_UNSAFE(it->bytes, it->len, random_below(12) == 0 ? '/' : (UChar32)letter);
    }
}

/* The four calls; each returns how much it wrote. */
static size_t osb_wide(const struct text *it) {
    size_t count = 0;
    osb_status status = osb_to_wide(it->bytes, it->len, it->wide, it->len, &count, NULL);
    return status == OSB_OK ? count : SIZE_MAX;
}
static size_t icu_wide(const struct text *it) {
    UErrorCode error = U_ZERO_ERROR;
    int32_t count = 0;
    u_strFromUTF8(it->wide, (int32_t)it->len, &count, it->bytes, (int32_t)it->len, &error);
    return U_SUCCESS(error) ? (size_t)count : SIZE_MAX;
}
static size_t osb_bytes(const struct text *it) {
    size_t count = 0;
    osb_status status = osb_from_wide(it->units, it->unit_count, it->back, it->len, &count);
    return status == OSB_OK ? count : SIZE_MAX;
}
static size_t icu_bytes(const struct text *it) {
    UErrorCode error = U_ZERO_ERROR;
    int32_t count = 0;
    u_strToUTF8(it->back, (int32_t)it->len, &count, it->units, (int32_t)it->unit_count,
                &error);
    return U_SUCCESS(error) ? (size_t)count : SIZE_MAX;
}

typedef size_t timed(const struct text *it);

/* Nanoseconds of processor time that a call takes for so many texts. */
static double once(timed *call, size_t count) {
    struct timespec begin, end;
    size_t sum = 0;
    clock_gettime(CLOCK_THREAD_CPUTIME_ID, &begin);
    for (size_t i = 0; i < count; i++) sum += call(&texts[i]);
    clock_gettime(CLOCK_THREAD_CPUTIME_ID, &end);
    if (sum == 0) fail("nothing was written");
    return (double)(end.tv_sec - begin.tv_sec) * 1e9 + (double)(end.tv_nsec - begin.tv_nsec);
}

/* Times the two calls of so many texts by turns, and prints the least times. */
static void time_pair(const char *name, const char *input, timed *ours, timed *theirs, size_t count,
                      size_t len) {
    double least[2] = {1e18, 1e18};
    for (int turn = 0; turn < TURNS; turn++)
        for (int k = 0; k < 2; k++) {
            int which = (turn + k) % 2;
            double took = once(which == 0 ? ours : theirs, count);
            if (took < least[which] && took > 0) least[which] = took;
        }
    double bytes = (double)count * (double)len;
    printf("| `%s` | %s, %s | %.3f | %.3f | %.2f |\n", name, input,
           len == MOST ? "1 MiB" : "1 KiB", least[0] / bytes, least[1] / bytes,
           least[0] / least[1]);
}

/* Compares what both write of a text, and keeps its units. */
static void compare(struct text *it) {
    it->unit_count = icu_wide(it);
    memcpy(it->units, it->wide, it->unit_count * sizeof *it->units);
    if (osb_wide(it) != it->unit_count ||
        memcmp(it->units, it->wide, it->unit_count * sizeof *it->units) != 0)
        fail("different units");
    timed *const both[] = {icu_bytes, osb_bytes};
    for (size_t i = 0; i < 2; i++)
        if (both[i](it) != it->len || memcmp(it->bytes, it->back, it->len) != 0)
            fail("different bytes");
}

int main(void) {
    for (size_t i = 0; i < TEXTS; i++) {
        size_t room = i == 0 ? MOST : 1 << 10;
        texts[i].bytes = malloc(room), texts[i].back = malloc(room);
        texts[i].units = malloc(2 * room), texts[i].wide = malloc(2 * room);
        if (!texts[i].bytes || !texts[i].back || !texts[i].units || !texts[i].wide)
            fail("no memory");
    }
    printf("| Call | Input | Ours, ns a byte | ICU | Ours/ICU |\n|---|---|---|---|---|\n");
    for (size_t kind = 0; kind < sizeof KINDS / sizeof *KINDS; kind++)
        for (int is_long = 0; is_long < 2; is_long++) {
            size_t count = is_long ? 1 : TEXTS, len = is_long ? MOST : 1 << 10;
            for (size_t i = 0; i < count; i++) make(&texts[i], kind, len), compare(&texts[i]);
            time_pair("osb_to_wide", KINDS[kind].name, osb_wide, icu_wide, count, len);
            time_pair("osb_from_wide", KINDS[kind].name, osb_bytes, icu_bytes, count, len);
        }
    return 0;
}
