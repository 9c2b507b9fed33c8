/* Times each call of the C library beside the Rattle call that does the same work: an export of
 * crates/bench_exports, the two by turns. For each it prints by how many nanoseconds the call of C
 * takes longer, on strings of 10 to 80 bytes, or how many times as long, on strings of 1 KiB and
 * 1 MiB. README.md describes how. */
#include <osbytes.h>

#include <stdio.h>
#include <stdlib.h>
#include <string.h>
#include <time.h>

uint64_t port_check(const char *at, size_t len);
uint64_t port_feed(const char *at, size_t len);
size_t port_wtf8_fault(const char *at, size_t len);
size_t port_utf8_fault(const char *at, size_t len);
bool port_is_utf8(const char *at, size_t len);
size_t port_fault_text(uint8_t byte);
size_t port_encode_wide(const char *at, size_t len, uint16_t *out, size_t room);
size_t port_decode_wide(const uint16_t *units, size_t len, char *out, size_t room);
size_t port_write_wide(const char *at, size_t len, uint16_t *out, size_t room);
size_t port_write_from_wide(const uint16_t *units, size_t len, char *out, size_t room);
size_t port_lossy(const char *at, size_t len);
size_t port_write_lossy(const char *at, size_t len, char *out, size_t room);
size_t port_win_write_lossy(const char *at, size_t len, char *out, size_t room);
size_t port_escape(const char *at, size_t len);
size_t port_escape_line(const char *at, size_t len);
size_t port_write_escape(const char *at, size_t len, char *out, size_t room);
size_t port_win_write_escape(const char *at, size_t len, char *out, size_t room);
size_t port_write_escape_line(const char *at, size_t len, char *out, size_t room);
size_t port_win_write_escape_line(const char *at, size_t len, char *out, size_t room);
size_t port_unescape(const char *at, size_t len);
size_t port_unescape_line(const char *at, size_t len);
size_t port_write_unescaped(const char *at, size_t len, char *out, size_t room);
size_t port_win_write_unescaped(const char *at, size_t len, char *out, size_t room);
size_t port_wasm_write_unescaped(const char *at, size_t len, char *out, size_t room);
size_t port_write_unescaped_line(const char *at, size_t len, char *out, size_t room);
size_t port_win_write_unescaped_line(const char *at, size_t len, char *out, size_t room);
size_t port_wasm_write_unescaped_line(const char *at, size_t len, char *out, size_t room);
size_t port_find(const char *at, size_t len, const char *pattern, size_t pattern_len);
size_t port_rfind(const char *at, size_t len, const char *pattern, size_t pattern_len);
bool port_contains(const char *at, size_t len, const char *pattern, size_t pattern_len);
bool port_starts_with(const char *at, size_t len, const char *pattern, size_t pattern_len);
bool port_ends_with(const char *at, size_t len, const char *pattern, size_t pattern_len);
bool port_starts_with_os(const char *at, size_t len, const char *prefix, size_t prefix_len);
bool port_ends_with_os(const char *at, size_t len, const char *end, size_t end_len);
bool port_is_boundary(const char *at, size_t len, size_t index);
bool port_is_less(const char *a, size_t a_len, const char *b, size_t b_len);
size_t port_split(const char *at, size_t len, const char *pattern, size_t pattern_len);
size_t port_rsplit(const char *at, size_t len, const char *pattern, size_t pattern_len);
size_t port_chunks(const char *at, size_t len);
uint64_t port_symbols(const char *at, size_t len);

/* How long the strings are, in bytes, how many calls are timed together, and how many turns a line
 * has at once: then come all the others, so that what else runs on the machine weighs little. The
 * last column of short strings has all lengths in turn. What is past the limit is counted. */
enum { MOST_LENS = 6, MOST_COLUMNS = MOST_LENS + 1, MOST_CALLS = 64 };
struct plan {
    size_t lens[MOST_LENS], len_count, columns, calls[MOST_COLUMNS], at_once;
    bool is_ratio;
    double limit;
};
static const struct plan SHORT = {
    {10, 16, 24, 40, 64, 80}, 6, 7, {64, 64, 64, 64, 64, 64, 64}, 100, false, 20};
static const struct plan LONG = {{1 << 10, 1 << 20}, 2, 2, {64, 1}, 2, true, 1.05};
static const struct plan *plan = &SHORT;

/* On which platforms a string is one. */
enum { TEXT = 7, OF_WINDOWS = 3, OF_UNIX = 1 };

/* What strings are made of: a text, again and again, and what is put into their middle. */
static const struct {
    const char *name, *text, *middle;
    int platforms;
} KINDS[] = {
    {"ASCII", "/usr/share/doc-1.2/name.txt", "", TEXT},
    {"Cyrillic", "/привет/мир-2024/имена.txt", "", TEXT},
    {"CJK", "/中文/文件名字-2024/目录.txt", "", TEXT},
    {"emoji", "/😀😁😂/🤣😃-2024/😄.txt", "", TEXT},
    {"mixed", "/aé中😀я-ñ文b/😁ö.txt", "", TEXT},
    {"a line feed", "/usr/share/имена/name.txt", "\n", TEXT},
    {"backslashes", "\\usr\\share\\имя\\name.txt", "", TEXT},
    {"a surrogate", "/имя/usr/文件/name.txt", "\xED\xA0\x80", OF_WINDOWS},
    {"FF", "/имя/usr/文件/name.txt", "\xFF", OF_UNIX},
};
enum { KIND_COUNT = sizeof KINDS / sizeof *KINDS };

/* A string, its first half and its second, which are texts, its escapes and its units. */
struct input {
    char *string, *escape[3], *line[3];
    uint16_t *units;
    size_t len, prefix, suffix, escape_len[3], line_len[3], unit_count;
};
static struct input inputs[KIND_COUNT][MOST_LENS];

/* The pattern of a search: a slash, or a half of the string. */
static bool is_half;
static const char *prefix_of(const struct input *it) { return is_half ? it->string : "/"; }
static size_t prefix_len(const struct input *it) { return is_half ? it->prefix : 1; }
static const char *suffix_of(const struct input *it) { return is_half ? it->string + it->suffix : "/"; }
static size_t suffix_len(const struct input *it) { return is_half ? it->len - it->suffix : 1; }

/* Where calls write, with room for the escape of each string. */
static char *out;
static uint16_t *wide;
static size_t room;
static size_t count;
static osb_fault fault;

typedef size_t timed(const struct input *it);
#define TIMED(name, answer)                                                                        \
    static size_t name(const struct input *it) { return answer; }
#define STRING it->string, it->len
#define PREFIX prefix_of(it), prefix_len(it)
#define SUFFIX suffix_of(it), suffix_len(it)
#define OR_NONE(status, answer) ((status) == OSB_OK ? (answer) : SIZE_MAX)

/* What was counted, or the index of the first fault of bytes that are no string of Windows. */
static size_t or_fault(osb_status status) { return status == OSB_OK ? count : fault.index; }
static size_t or_fault_of(const struct input *it, size_t answer) {
    return answer == SIZE_MAX ? port_wtf8_fault(STRING) : answer;
}

/* Checks return the index of the first fault. */
TIMED(c_check_windows, osb_check(OSB_WINDOWS, STRING, &fault) == OSB_OK ? SIZE_MAX : fault.index)
TIMED(r_check_windows, port_check(STRING) == 0 ? SIZE_MAX : port_wtf8_fault(STRING))
TIMED(c_check_wasm, osb_check(OSB_WASM, STRING, &fault) == OSB_OK ? SIZE_MAX : fault.index)
TIMED(r_check_wasm, port_utf8_fault(STRING))
static size_t c_feed(const struct input *it) {
    osb_checker checker;
    osb_checker_start(&checker);
    osb_checker_feed(&checker, STRING, &fault);
    return osb_checker_finish(&checker, &fault);
}
TIMED(r_feed, port_feed(STRING))
static size_t c_fault_text(const struct input *it) {
    osb_fault named = {OSB_FAULT_BYTE, (uint8_t)it->len, 0, 1};
    return OR_NONE(osb_fault_text(&named, out, room, &count), count);
}
TIMED(r_fault_text, port_fault_text((uint8_t)it->len))

/* Conversions. */
TIMED(c_to_wide, or_fault(osb_to_wide(STRING, wide, room, &count, &fault)))
TIMED(r_to_wide, or_fault_of(it, port_encode_wide(STRING, wide, room)))
TIMED(c_from_wide, OR_NONE(osb_from_wide(it->units, it->unit_count, out, room, &count), count))
TIMED(r_from_wide, port_decode_wide(it->units, it->unit_count, out, room))
TIMED(r_write_wide, or_fault_of(it, port_write_wide(STRING, wide, room)))
TIMED(r_write_from_wide, port_write_from_wide(it->units, it->unit_count, out, room))

/* Texts. */
#define WRITTEN(call, platform) or_fault(call(platform, STRING, out, room, &count, &fault))
TIMED(c_lossy, WRITTEN(osb_lossy, OSB_UNIX))
TIMED(r_lossy, port_lossy(STRING))
TIMED(r_write_lossy, port_write_lossy(STRING, out, room))
TIMED(c_lossy_windows, WRITTEN(osb_lossy, OSB_WINDOWS))
TIMED(r_lossy_windows, or_fault_of(it, port_win_write_lossy(STRING, out, room)))
TIMED(c_escape, WRITTEN(osb_escape, OSB_UNIX))
TIMED(r_escape, port_escape(STRING))
TIMED(r_write_escape, port_write_escape(STRING, out, room))
TIMED(c_escape_windows, WRITTEN(osb_escape, OSB_WINDOWS))
TIMED(r_escape_windows, or_fault_of(it, port_win_write_escape(STRING, out, room)))
TIMED(c_escape_line, WRITTEN(osb_escape_line, OSB_UNIX))
TIMED(r_escape_line, port_escape_line(STRING))
TIMED(r_write_escape_line, port_write_escape_line(STRING, out, room))
TIMED(c_escape_line_windows, WRITTEN(osb_escape_line, OSB_WINDOWS))
TIMED(r_escape_line_windows, or_fault_of(it, port_win_write_escape_line(STRING, out, room)))

/* Strings from escapes. */
#define ESCAPE(platform) it->escape[platform], it->escape_len[platform]
#define LINE(platform) it->line[platform], it->line_len[platform]
#define READ(platform)                                                                             \
    OR_NONE(osb_unescape(platform, ESCAPE(platform), out, room, &count, NULL), count)
TIMED(c_unescape, READ(OSB_UNIX))
TIMED(r_unescape, port_unescape(ESCAPE(OSB_UNIX)))
TIMED(r_checked_unescape,
      port_is_utf8(ESCAPE(OSB_UNIX)) ? port_unescape(ESCAPE(OSB_UNIX)) : SIZE_MAX)
TIMED(r_write_unescaped, port_write_unescaped(ESCAPE(OSB_UNIX), out, room))
TIMED(c_unescape_windows, READ(OSB_WINDOWS))
TIMED(r_unescape_windows, port_win_write_unescaped(ESCAPE(OSB_WINDOWS), out, room))
TIMED(c_unescape_wasm, READ(OSB_WASM))
TIMED(r_unescape_wasm, port_wasm_write_unescaped(ESCAPE(OSB_WASM), out, room))
#define READ_LINE(platform)                                                                        \
    OR_NONE(osb_unescape_line(platform, LINE(platform), out, room, &count, NULL), count)
TIMED(c_unescape_line, READ_LINE(OSB_UNIX))
TIMED(r_unescape_line, port_unescape_line(LINE(OSB_UNIX)))
TIMED(r_checked_unescape_line,
      port_is_utf8(LINE(OSB_UNIX)) ? port_unescape_line(LINE(OSB_UNIX)) : SIZE_MAX)
TIMED(r_write_unescaped_line, port_write_unescaped_line(LINE(OSB_UNIX), out, room))
TIMED(c_unescape_line_windows, READ_LINE(OSB_WINDOWS))
TIMED(r_unescape_line_windows, port_win_write_unescaped_line(LINE(OSB_WINDOWS), out, room))
TIMED(c_unescape_line_wasm, READ_LINE(OSB_WASM))
TIMED(r_unescape_line_wasm, port_wasm_write_unescaped_line(LINE(OSB_WASM), out, room))

/* Searches. */
TIMED(c_find, OR_NONE(osb_find(STRING, SUFFIX, &count), count))
TIMED(r_find, port_find(STRING, SUFFIX))
TIMED(r_checked_find, port_is_utf8(SUFFIX) ? port_find(STRING, SUFFIX) : SIZE_MAX)
TIMED(c_rfind, OR_NONE(osb_rfind(STRING, PREFIX, &count), count))
TIMED(r_rfind, port_rfind(STRING, PREFIX))
TIMED(r_checked_rfind, port_is_utf8(PREFIX) ? port_rfind(STRING, PREFIX) : SIZE_MAX)
TIMED(c_contains, osb_contains(STRING, SUFFIX) == 1)
TIMED(r_contains, port_contains(STRING, SUFFIX))
TIMED(r_checked_contains, port_is_utf8(SUFFIX) && port_contains(STRING, SUFFIX))
TIMED(c_starts_with, osb_starts_with(STRING, PREFIX) == 1)
TIMED(r_starts_with, port_starts_with(STRING, PREFIX))
TIMED(r_checked_starts_with, port_is_utf8(PREFIX) && port_starts_with(STRING, PREFIX))
TIMED(c_ends_with, osb_ends_with(STRING, SUFFIX) == 1)
TIMED(r_ends_with, port_ends_with(STRING, SUFFIX))
TIMED(r_checked_ends_with, port_is_utf8(SUFFIX) && port_ends_with(STRING, SUFFIX))
TIMED(c_starts_units, osb_starts_with_units(OSB_WINDOWS, STRING, PREFIX) == 1)
TIMED(r_starts_units,
      port_check(STRING) == 0 && port_check(PREFIX) == 0 && port_starts_with_os(STRING, PREFIX))
TIMED(c_ends_units, osb_ends_with_units(OSB_WINDOWS, STRING, SUFFIX) == 1)
TIMED(r_ends_units,
      port_check(STRING) == 0 && port_check(SUFFIX) == 0 && port_ends_with_os(STRING, SUFFIX))
TIMED(c_is_boundary, osb_is_boundary(STRING, it->suffix) == 1)
TIMED(r_is_boundary, port_is_boundary(STRING, it->suffix))
static size_t c_compare(const struct input *it) {
    int32_t order = 0;
    osb_compare(STRING, it->escape[0], it->escape_len[0], &order);
    return order < 0;
}
TIMED(r_compare, port_is_less(STRING, ESCAPE(OSB_UNIX)))

/* Walks: from the start on to the end, which is a call more than there are items. */
static size_t c_split(const struct input *it) {
    osb_split split;
    osb_view piece;
    size_t pieces = 0;
    osb_split_start(&split, STRING, "/", 1);
    while (osb_split_next(&split, &piece) == OSB_OK) pieces++;
    return pieces;
}
TIMED(r_split, port_split(STRING, "/", 1))
TIMED(r_checked_split, port_is_utf8("/", 1) ? port_split(STRING, "/", 1) : SIZE_MAX)
static size_t c_rsplit(const struct input *it) {
    osb_split split;
    osb_view piece;
    size_t pieces = 0;
    osb_rsplit_start(&split, STRING, "/", 1);
    while (osb_rsplit_next(&split, &piece) == OSB_OK) pieces++;
    return pieces;
}
TIMED(r_rsplit, port_rsplit(STRING, "/", 1))
TIMED(r_checked_rsplit, port_is_utf8("/", 1) ? port_rsplit(STRING, "/", 1) : SIZE_MAX)
static size_t c_chunks(const struct input *it) {
    osb_chunks chunks;
    osb_chunk chunk;
    size_t number = 0;
    osb_chunks_start(&chunks, STRING);
    while (osb_chunks_next(&chunks, &chunk) == OSB_OK) number++;
    return number;
}
TIMED(r_chunks, port_chunks(STRING))
static size_t symbol_count;
static size_t c_symbols(const struct input *it) {
    osb_symbols symbols;
    osb_symbol symbol;
    size_t sum = 0;
    symbol_count = 0;
    osb_symbols_start(&symbols, OSB_UNIX, STRING, NULL);
    while (osb_symbols_next(&symbols, &symbol) == OSB_OK) {
        sum += symbol.value;
        symbol_count++;
    }
    return sum;
}
TIMED(r_symbols, port_symbols(STRING))

/* The same walks by arrays of so many items. */
enum { FILLED = 256 };
static size_t c_split_fill(const struct input *it) {
    osb_split split;
    osb_view pieces[FILLED];
    size_t number = 0;
    osb_split_start(&split, STRING, "/", 1);
    while (osb_split_fill(&split, pieces, FILLED, &count) == OSB_OK) number += count;
    return number;
}
static size_t c_rsplit_fill(const struct input *it) {
    osb_split split;
    osb_view pieces[FILLED];
    size_t number = 0;
    osb_rsplit_start(&split, STRING, "/", 1);
    while (osb_rsplit_fill(&split, pieces, FILLED, &count) == OSB_OK) number += count;
    return number;
}
static size_t c_chunks_fill(const struct input *it) {
    osb_chunks chunks;
    osb_chunk filled[FILLED];
    size_t number = 0;
    osb_chunks_start(&chunks, STRING);
    while (osb_chunks_fill(&chunks, filled, FILLED, &count) == OSB_OK) number += count;
    return number;
}
static size_t c_symbols_fill(const struct input *it) {
    osb_symbols symbols;
    osb_symbol filled[FILLED];
    size_t sum = 0;
    osb_symbols_start(&symbols, OSB_UNIX, STRING, NULL);
    while (osb_symbols_fill(&symbols, filled, FILLED, &count) == OSB_OK)
        for (size_t i = 0; i < count; i++) sum += filled[i].value;
    return sum;
}

/* How many calls of C are timed together. */
static size_t one(const struct input *it) {
    (void)it;
    return 1;
}
/* Of a checker: start, one piece, finish. */
static size_t three(const struct input *it) {
    (void)it;
    return 3;
}
static size_t for_pieces(const struct input *it) { return c_split(it) + 2; }
static size_t for_chunks(const struct input *it) { return c_chunks(it) + 2; }
static size_t for_symbols(const struct input *it) {
    c_symbols(it);
    return symbol_count + 2;
}

/* A walk by arrays makes so many calls, for so many items. */
static size_t for_arrays(size_t items) { return items / FILLED + 3; }
static size_t for_piece_arrays(const struct input *it) { return for_arrays(c_split(it)); }
static size_t for_chunk_arrays(const struct input *it) { return for_arrays(c_chunks(it)); }
static size_t for_symbol_arrays(const struct input *it) {
    c_symbols(it);
    return for_arrays(symbol_count);
}

/* The pairs: on the strings of which platforms they are timed, whether the calls search for a
 * pattern, and whether that of Rattle takes a `str`, which that of C has to check. */
enum { ANY = 0, SEARCHES = 1, OF_STR = 2 };
static const struct pair {
    const char *c, *rattle;
    timed *call, *beside, *calls;
    int platforms, traits;
} PAIRS[] = {
    {"`osb_check`, Windows", "`check`, `wtf8_fault`", c_check_windows, r_check_windows, one, ANY,
     0},
    {"`osb_check`, wasm", "`utf8_fault`", c_check_wasm, r_check_wasm, one, ANY, 0},
    {"`osb_checker_start`, `_feed`, `_finish`", "`Checker`", c_feed, r_feed, three, ANY, 0},
    {"`osb_fault_text`", "`to_string`", c_fault_text, r_fault_text, one, ANY, 0},
    {"`osb_to_wide`", "`encode_wide`", c_to_wide, r_to_wide, one, ANY, 0},
    {"`osb_to_wide`", "`checked`, `write_wide`", c_to_wide, r_write_wide, one, ANY, 0},
    {"`osb_from_wide`", "`DecodeWide`", c_from_wide, r_from_wide, one, OF_WINDOWS, 0},
    {"`osb_from_wide`", "`write_from_wide`", c_from_wide, r_write_from_wide, one, OF_WINDOWS, 0},
    {"`osb_lossy`", "`write_lossy`", c_lossy, r_write_lossy, one, ANY, 0},
    {"`osb_lossy`", "`to_string_lossy`", c_lossy, r_lossy, one, ANY, 0},
    {"`osb_lossy`, Windows", "`checked`, `write_lossy`", c_lossy_windows, r_lossy_windows, one, ANY,
     0},
    {"`osb_escape`", "`write_escape`", c_escape, r_write_escape, one, ANY, 0},
    {"`osb_escape`", "`escape`", c_escape, r_escape, one, ANY, 0},
    {"`osb_escape`, Windows", "`checked`, `write_escape`", c_escape_windows, r_escape_windows, one,
     ANY, 0},
    {"`osb_escape_line`", "`write_escape_line`", c_escape_line, r_write_escape_line, one, ANY, 0},
    {"`osb_escape_line`", "`escape_line`", c_escape_line, r_escape_line, one, ANY, 0},
    {"`osb_escape_line`, Windows", "`checked`, `write_escape_line`", c_escape_line_windows,
     r_escape_line_windows, one, ANY, 0},
    {"`osb_unescape`", "`write_unescaped_bytes`", c_unescape, r_write_unescaped, one, ANY, 0},
    {"`osb_unescape`", "`is_utf8`, `unescape`", c_unescape, r_checked_unescape, one, ANY, 0},
    {"`osb_unescape`", "`unescape` of a `str`", c_unescape, r_unescape, one, ANY, OF_STR},
    {"`osb_unescape`, Windows", "`write_unescaped_bytes`", c_unescape_windows, r_unescape_windows,
     one, OF_WINDOWS, 0},
    {"`osb_unescape`, wasm", "`write_unescaped_bytes`", c_unescape_wasm, r_unescape_wasm, one, TEXT,
     0},
    {"`osb_unescape_line`", "`write_unescaped_line_bytes`", c_unescape_line, r_write_unescaped_line,
     one, ANY, 0},
    {"`osb_unescape_line`", "`is_utf8`, `unescape_line`", c_unescape_line, r_checked_unescape_line,
     one, ANY, 0},
    {"`osb_unescape_line`", "`unescape_line` of a `str`", c_unescape_line, r_unescape_line, one,
     ANY, OF_STR},
    {"`osb_unescape_line`, Windows", "`write_unescaped_line_bytes`", c_unescape_line_windows,
     r_unescape_line_windows, one, OF_WINDOWS, 0},
    {"`osb_unescape_line`, wasm", "`write_unescaped_line_bytes`", c_unescape_line_wasm,
     r_unescape_line_wasm, one, TEXT, 0},
    {"`osb_find`", "`is_utf8`, `find`", c_find, r_checked_find, one, ANY, SEARCHES},
    {"`osb_find`", "`find` of a `str`", c_find, r_find, one, ANY, SEARCHES | OF_STR},
    {"`osb_rfind`", "`is_utf8`, `rfind`", c_rfind, r_checked_rfind, one, ANY, SEARCHES},
    {"`osb_rfind`", "`rfind` of a `str`", c_rfind, r_rfind, one, ANY, SEARCHES | OF_STR},
    {"`osb_contains`", "`is_utf8`, `contains`", c_contains, r_checked_contains, one, ANY, SEARCHES},
    {"`osb_contains`", "`contains` of a `str`", c_contains, r_contains, one, ANY,
     SEARCHES | OF_STR},
    {"`osb_starts_with`", "`is_utf8`, `starts_with`", c_starts_with, r_checked_starts_with, one,
     ANY, SEARCHES},
    {"`osb_starts_with`", "`starts_with` of a `str`", c_starts_with, r_starts_with, one, ANY,
     SEARCHES | OF_STR},
    {"`osb_ends_with`", "`is_utf8`, `ends_with`", c_ends_with, r_checked_ends_with, one, ANY,
     SEARCHES},
    {"`osb_ends_with`", "`ends_with` of a `str`", c_ends_with, r_ends_with, one, ANY,
     SEARCHES | OF_STR},
    {"`osb_starts_with_units`, Windows", "`check` of both, `starts_with_os`", c_starts_units,
     r_starts_units, one, OF_WINDOWS, SEARCHES},
    {"`osb_ends_with_units`, Windows", "`check` of both, `ends_with_os`", c_ends_units,
     r_ends_units, one, OF_WINDOWS, SEARCHES},
    {"`osb_is_boundary`", "`is_boundary`", c_is_boundary, r_is_boundary, one, ANY, 0},
    {"`osb_compare`", "`cmp`", c_compare, r_compare, one, ANY, 0},
    {"`osb_split_start`, `_next`", "`is_utf8`, `split`", c_split, r_checked_split, for_pieces, ANY,
     0},
    {"`osb_split_start`, `_next`", "`split` by a `str`", c_split, r_split, for_pieces, ANY, OF_STR},
    {"`osb_rsplit_start`, `_next`", "`is_utf8`, `rsplit`", c_rsplit, r_checked_rsplit, for_pieces,
     ANY, 0},
    {"`osb_rsplit_start`, `_next`", "`rsplit` by a `str`", c_rsplit, r_rsplit, for_pieces, ANY,
     OF_STR},
    {"`osb_chunks_start`, `_next`", "`utf8_chunks`", c_chunks, r_chunks, for_chunks, ANY, 0},
    {"`osb_symbols_start`, `_next`", "`symbols`", c_symbols, r_symbols, for_symbols, ANY, 0},
    {"`osb_split_start`, `_fill`", "`is_utf8`, `split`", c_split_fill, r_checked_split,
     for_piece_arrays, ANY, 0},
    {"`osb_rsplit_start`, `_fill`", "`is_utf8`, `rsplit`", c_rsplit_fill, r_checked_rsplit,
     for_piece_arrays, ANY, 0},
    {"`osb_chunks_start`, `_fill`", "`utf8_chunks`", c_chunks_fill, r_chunks, for_chunk_arrays, ANY,
     0},
    {"`osb_symbols_start`, `_fill`", "`symbols`", c_symbols_fill, r_symbols, for_symbol_arrays, ANY,
     0},
};
enum { PAIR_COUNT = sizeof PAIRS / sizeof *PAIRS };
static bool searches(const struct pair *pair) { return (pair->traits & SEARCHES) != 0; }
static bool is_of_str(const struct pair *pair) { return (pair->traits & OF_STR) != 0; }

static void fail(const struct pair *pair, const struct input *it) {
    fprintf(stderr, "%s and %s differ on %.*s\n", pair->c, pair->rattle, (int)it->len, it->string);
    exit(1);
}

/* Appends a text again and again, up to a length, and fills up what is less than a character. */
static void append(struct input *it, const char *text, size_t to) {
    for (size_t at = 0; it->len < to; at++) it->string[it->len++] = text[at % strlen(text)];
    while (it->len > 0 && (it->string[it->len - 1] & 0xC0) == 0x80) it->len--;
    if (it->len > 0 && (it->string[it->len - 1] & 0x80) != 0) it->len--;
    while (it->len < to) it->string[it->len++] = 'x';
}

static void *memory(size_t size) {
    void *made = malloc(size);
    if (made != NULL) return made;
    fputs("no memory\n", stderr);
    exit(1);
}

static void make(struct input *it, size_t kind, size_t len) {
    const char *middle = KINDS[kind].middle;
    it->string = memory(len);
    it->units = memory(len * sizeof *it->units);
    append(it, KINDS[kind].text, (len - strlen(middle)) / 2);
    it->prefix = it->len;
    memcpy(it->string + it->len, middle, strlen(middle));
    it->len += strlen(middle);
    it->suffix = it->len;
    append(it, KINDS[kind].text, len);
    osb_to_wide(STRING, it->units, len, &it->unit_count, NULL);
    for (osb_platform platform = 0; platform < 3; platform++) {
        it->escape[platform] = memory(room);
        it->line[platform] = memory(room);
        osb_escape(platform, STRING, it->escape[platform], room, &it->escape_len[platform], NULL);
        osb_escape_line(platform, STRING, it->line[platform], room, &it->line_len[platform], NULL);
    }
}

static uint64_t nanoseconds(void) {
    struct timespec now;
    clock_gettime(CLOCK_MONOTONIC, &now);
    return (uint64_t)now.tv_sec * 1000000000 + (uint64_t)now.tv_nsec;
}

/* What is timed in a cell of a table: the least times of both calls, and how many calls of C one of
 * those is. */
struct cell {
    uint64_t least[2];
    size_t number;
};
static struct cell cells[PAIR_COUNT][2][KIND_COUNT][MOST_COLUMNS];

/* Gives both calls of a pair some turns. */
static volatile size_t sink;
static void time_cell(struct cell *cell, const struct pair *pair,
                      const struct input *const *strings, size_t number_of_calls) {
    timed *const calls[2] = {pair->call, pair->beside};
    size_t number = 0;
    for (size_t i = 0; i < number_of_calls; i++) {
        if (pair->call(strings[i]) != pair->beside(strings[i])) fail(pair, strings[i]);
        number += pair->calls(strings[i]);
    }
    cell->number = number;
    for (size_t turn = 0; turn < 2 * plan->at_once; turn++) {
        timed *call = calls[turn % 2];
        uint64_t *least = &cell->least[turn % 2];
        uint64_t start = nanoseconds();
        for (size_t i = 0; i < number_of_calls; i++) sink = call(strings[i]);
        uint64_t time = nanoseconds() - start;
        if (*least == 0 || time < *least) *least = time;
    }
}

/* By how many nanoseconds a call of C takes longer, or how many times as long it takes. */
static double over(const struct cell *cell) {
    if (plan->is_ratio) return (double)cell->least[0] / (double)cell->least[1];
    return ((double)cell->least[0] - (double)cell->least[1]) / (double)cell->number;
}

static int by_size(const void *a, const void *b) {
    double x = *(const double *)a, y = *(const double *)b;
    return (x > y) - (x < y);
}

/* The figures of a pair, or of many: of those that do the same work, of those whose call of Rattle
 * takes a `str`, of all. */
struct figures {
    double items[8192];
    size_t count;
};
static struct figures of_pairs[PAIR_COUNT], of_the_same, of_a_str, of_all;

static void add(struct figures *figures, double item) { figures->items[figures->count++] = item; }

/* A line of the summary: the least figure, the median, the greatest, and how many are past the
 * limit. */
static void summarize(const char *c, const char *rattle, struct figures *figures) {
    double *items = figures->items;
    size_t number = figures->count, above = 0;
    if (number == 0) return;
    qsort(items, number, sizeof *items, by_size);
    while (above < number && items[number - 1 - above] > plan->limit) above++;
    int digits = plan->is_ratio ? 2 : 0;
    printf("| %s | %s | %.*f | %.*f | %.*f | %zu of %zu |\n", c, rattle, digits, items[0], digits,
           items[number / 2], digits, items[number - 1], above, number);
}

/* Whether a pair is timed on strings of a kind. */
static bool is_timed_on(const struct pair *pair, size_t kind) {
    return (KINDS[kind].platforms & pair->platforms) == pair->platforms;
}

/* Times a pair on strings of a kind, by their lengths, and on all lengths in turn. */
static void time_kind(size_t at, size_t kind) {
    const struct input *strings[MOST_CALLS];
    for (size_t column = 0; column < plan->columns; column++) {
        size_t len_count = plan->len_count;
        for (size_t i = 0, random = 1; i < plan->calls[column]; i++, random = random * 13 % 67)
            strings[i] = &inputs[kind][column < len_count ? column : random % len_count];
        time_cell(&cells[at][is_half][kind][column], &PAIRS[at], strings, plan->calls[column]);
    }
}

static void time_pair(size_t at) {
    for (int half = 0; half <= searches(&PAIRS[at]); half++) {
        is_half = half != 0;
        for (size_t kind = 0; kind < KIND_COUNT; kind++)
            if (is_timed_on(&PAIRS[at], kind)) time_kind(at, kind);
    }
}

/* Prints a line of a table. */
static void print_kind(size_t at, int half, size_t kind) {
    printf("| %s%s |", KINDS[kind].name, half != 0 ? ", a half" : "");
    for (size_t column = 0; column < plan->columns; column++) {
        double figure = over(&cells[at][half][kind][column]);
        printf(" %.*f |", plan->is_ratio ? 2 : 1, figure);
        add(&of_pairs[at], figure);
        add(is_of_str(&PAIRS[at]) ? &of_a_str : &of_the_same, figure);
        add(&of_all, figure);
    }
    printf("\n");
}

static void print_pair(size_t at) {
    printf("\n### %s over %s\n\n| String |", PAIRS[at].c, PAIRS[at].rattle);
    for (size_t i = 0; i < plan->len_count; i++) printf(" %zu bytes |", plan->lens[i]);
    if (plan->columns > plan->len_count) printf(" in turn |");
    printf("\n|---|");
    for (size_t i = 0; i < plan->columns; i++) printf("---|");
    printf("\n");
    for (int half = 0; half <= searches(&PAIRS[at]); half++)
        for (size_t kind = 0; kind < KIND_COUNT; kind++)
            if (is_timed_on(&PAIRS[at], kind)) print_kind(at, half, kind);
}

int main(int words, char **word) {
    bool is_long = words > 1 && strcmp(word[1], "--long") == 0;
    if (is_long) plan = &LONG, words--, word++;
    size_t turns = words > 1 ? strtoul(word[1], NULL, 10) : 10 * plan->at_once;
    const char *part = words > 2 ? word[2] : "";
    room = 6 * plan->lens[plan->len_count - 1];
    out = memory(room);
    wide = memory(room * sizeof *wide);
    for (size_t kind = 0; kind < KIND_COUNT; kind++)
        for (size_t i = 0; i < plan->len_count; i++) make(&inputs[kind][i], kind, plan->lens[i]);
    for (size_t done = 0; done < turns; done += plan->at_once)
        for (size_t at = 0; at < PAIR_COUNT; at++)
            if (strstr(PAIRS[at].c, part) != NULL) time_pair(at);
    for (size_t at = 0; at < PAIR_COUNT; at++)
        if (strstr(PAIRS[at].c, part) != NULL) print_pair(at);
    printf("\n### Summary\n\n| C | Rattle | Least | Median | Greatest | Past %g "
           "|\n|---|---|---|---|---|---|\n",
           plan->limit);
    for (size_t at = 0; at < PAIR_COUNT; at++)
        summarize(PAIRS[at].c, PAIRS[at].rattle, &of_pairs[at]);
    summarize("all", "the same work", &of_the_same);
    summarize("all", "of a `str`", &of_a_str);
    summarize("all", "", &of_all);
}
