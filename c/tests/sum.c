/* One sum over what calls return and write for made-up strings. Each build of the library must print the same line:
 * for Linux and for Windows, with each level of the processor, as an archive and as a shared library. */
#include "osbytes.h"

#include <stdio.h>
#include <string.h>

enum { TURNS = 40000, TEXT = 4096, ROOM = 1 << 16, UNITS = 1 << 13, PARTS = 512 };

static uint64_t state = 88172645463325252u, sum = 1469598103934665603u;
static size_t calls;

/* xorshift64, by Marsaglia. */
static size_t made_up(size_t below) {
    state ^= state << 13;
    state ^= state >> 7;
    state ^= state << 17;
    return (size_t)(state % below);
}

/* FNV-1a. */
static void add(const void *at, size_t len) {
    const unsigned char *byte = at;
    for (size_t i = 0; i < len; i++) sum = (sum ^ byte[i]) * 1099511628211u;
}

static void add_number(uint64_t number) {
    add(&number, sizeof number);
}

static const char *const pieces[] = {
    "a", "/", "\\", ".", "..", "C:", "\\\\?\\", "\\\\.\\", "UNC\\", " ", "\"", "'", "$", "*", "?", "[a-c]",
    "{b,c}", "**/", "!", "#", "\n", "\t", "\xed\xa0\x80", "\xed\xb0\x80", "\xf0\x90\x80\x80", "\xc3\xa9",
    "\xff", "\xc0", "\\u{D800}", "\\x41", "NUL", "-", "--x", "=", "^", "%", "&", "b.txt",
    "longer-name-of-a-file", "\xe3\x81\x82",
};

/* Makes a string of at most so many pieces, some of which are any byte. */
static size_t text(char *out, size_t most) {
    size_t len = 0;
    for (size_t left = made_up(most + 1); left > 0; left--) {
        const char *piece = pieces[made_up(sizeof pieces / sizeof *pieces)];
        if (made_up(12) == 0) {
            out[len++] = (char)made_up(256);
        } else {
            memcpy(out + len, piece, strlen(piece));
            len += strlen(piece);
        }
    }
    return len;
}

static char a[TEXT], b[TEXT], out[ROOM];
static uint16_t units[UNITS];
static size_t a_len, b_len, count, index_of;
static osb_fault fault;

/* Adds a status, a count, and what was written if the call succeeded. */
static void add_written(osb_status status, const void *at, size_t size) {
    add_number(status);
    add_number(count);
    if (status == OSB_OK) add(at, count * size);
    count = 0;
    calls++;
}

static void add_text(osb_status status) {
    add_written(status, out, 1);
}

static void add_units(osb_status status) {
    add_written(status, units, sizeof *units);
}

static void add_answer(int answer) {
    add_number((uint64_t)(int64_t)answer);
    calls++;
}

static void ask_on(osb_platform platform) {
    static osb_component parts[PARTS];
    add_number(osb_check(platform, a, a_len, &fault));
    add_number(fault.kind);
    add_number(fault.value);
    add_number(fault.index);
    add_number(fault.count);
    add_text(osb_lossy(platform, a, a_len, out, ROOM, &count, &fault));
    add_text(osb_escape(platform, a, a_len, out, ROOM, &count, &fault));
    add_text(osb_escape_line(platform, a, a_len, out, ROOM, &count, &fault));
    add_text(osb_unescape(platform, a, a_len, out, ROOM, &count, &index_of));
    add_answer(osb_starts_with_units(platform, a, a_len, b, b_len));
    add_answer(osb_ends_with_units(platform, a, a_len, b, b_len));
    osb_status status = osb_path_components(platform, a, a_len, parts, PARTS, &count);
    for (size_t i = 0; status == OSB_OK && i < count; i++) {
        add_number(parts[i].kind);
        add_number(parts[i].start);
        add_number(parts[i].end);
    }
    add_written(status, out, 0);
    add_text(osb_path_join(platform, a, a_len, b, b_len, out, ROOM, &count));
    add_text(osb_path_join_checked(platform, b, b_len, a, a_len, out, ROOM, &count, NULL));
    add_text(osb_path_relative(platform, a, a_len, b, b_len, out, ROOM, &count));
    add_text(osb_path_normalize(platform, a, a_len, out, ROOM, &count));
    add_text(osb_path_clean(platform, a, a_len, out, ROOM, &count));
    const osb_view pattern = {b, b_len}, path = {a, a_len};
    osb_glob_fault where = {0, 0, 0};
    bool is_match = false;
    osb_status matched = osb_glob_matches(platform, OSB_GLOB_SLASH, &pattern, 1, &path, 1, &is_match, &where);
    add_number(matched == OSB_OK && is_match);
    add_number(where.index);
    add_number(where.kind);
    add_written(matched, out, 0);
}

static void ask(void) {
    add_units(osb_to_wide(a, a_len, units, UNITS, &count, &fault));
    size_t len = made_up(UNITS / 64);
    for (size_t i = 0; i < len; i++) units[i] = (uint16_t)(made_up(2) ? 0xd700 + made_up(0x900) : made_up(0x80));
    add_text(osb_from_wide(units, len, out, ROOM, &count));
    int order = 7;
    add_number(osb_compare(a, a_len, b, b_len, &order));
    add_answer(order);
    index_of = 0;
    add_number(osb_find(a, a_len, b, b_len, &index_of));
    add_number(index_of);
    add_number(osb_rfind(a, a_len, b, b_len, &index_of));
    add_number(index_of);
    add_text(osb_shell_quote(a, a_len, out, ROOM, &count, &index_of));
    add_text(osb_shell_quote_line(a, a_len, out, ROOM, &count, &index_of));
    add_text(osb_fish_quote(a, a_len, out, ROOM, &count, &index_of));
    add_text(osb_powershell_quote(a, a_len, out, ROOM, &count, &index_of));
    add_text(osb_shell_words(0, a, a_len, out, ROOM, &count, NULL));
    add_units(osb_windows_quote(a, a_len, units, UNITS, &count, &index_of, &fault));
    add_units(osb_windows_arguments(a, a_len, units, UNITS, &count, &index_of, &fault));
}

static void ask_ignores(bool is_dir) {
    osb_ignores *ignores;
    osb_decision decision = {0};
    if (osb_ignores_new(&ignores) != OSB_OK) return;
    add_number(osb_ignores_add(ignores, "", 0, b, b_len));
    osb_status status = osb_ignores_match(ignores, a, a_len, is_dir, &decision);
    add_number(decision.kind);
    add_number(decision.line);
    add_written(status, out, 0);
    osb_ignores_free(ignores);
}

int main(void) {
    for (int turn = 0; turn < TURNS; turn++) {
        a_len = text(a, turn % 50 == 0 ? 100 : 8);
        b_len = text(b, 4);
        for (osb_platform platform = OSB_UNIX; platform <= OSB_WASM; platform++) ask_on(platform);
        ask();
        ask_ignores(turn % 2 == 1);
    }
    printf("%zu calls: %016llx\n", calls, (unsigned long long)sum);
    return 0;
}
