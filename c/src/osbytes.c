/* The edge of the library: tests the pointers that C passes, and calls the proved functions, to
 * which a slice is never null, aligned, and apart from what is written. Nothing here is proved. */
#include "osbytes.h"

#include <stdlib.h>

/* The exports of the crate osbytes_c, and what they take by a pointer. */
struct core_fault {
    uint32_t kind, value;
    size_t index, count;
};
struct core_open {
    uint32_t state, bits;
};
struct core_piece {
    size_t edge, rest;
    bool last;
};
struct core_ends {
    size_t part, text;
};
struct core_step {
    uint32_t kind, value;
    size_t end;
};
struct core_span {
    size_t start, end;
};
struct core_line_fault {
    uint32_t kind;
    size_t index;
};
struct core_option {
    uint32_t kind, value;
    size_t start, end;
};
struct core_filled {
    size_t count, next;
    bool ended;
};

/* A place for what is kept: whether it is there, and room for it. */
struct core_held {
    bool full;
    void *at;
};

/* What a request for memory is answered by: the block, if there is one. */
struct core_block {
    bool is;
    void *at;
};

_Static_assert(sizeof(size_t) == 8 && sizeof(bool) == 1, "a 64-bit machine");
/* The exports have numbers of 32 bits where the header has an enum. */
_Static_assert(sizeof(osb_status) == 4 && sizeof(osb_platform) == 4, "an enum of the header");
_Static_assert(sizeof(osb_fault_kind) == 4 && sizeof(osb_symbol_kind) == 4, "an enum of the header");
_Static_assert(sizeof(osb_component_kind) == 4 && sizeof(osb_glob_fault_kind) == 4,
               "an enum of the header");
_Static_assert(sizeof(osb_verdict_kind) == 4 && sizeof(osb_option_kind) == 4,
               "an enum of the header");
_Static_assert(sizeof(struct core_block) == 16 && _Alignof(max_align_t) >= 16, "core_block");
_Static_assert(sizeof(osb_view) == 16 && offsetof(osb_view, len) == 8, "osb_view");
_Static_assert(sizeof(osb_fault) == 24 && sizeof(struct core_fault) == 24, "osb_fault");
_Static_assert(offsetof(osb_fault, kind) == 0 && offsetof(osb_fault, value) == 4, "osb_fault");
_Static_assert(offsetof(osb_fault, index) == 8 && offsetof(osb_fault, count) == 16, "osb_fault");
_Static_assert(sizeof(osb_checker) == 16 && offsetof(osb_checker, bits) == 4, "osb_checker");
_Static_assert(sizeof(osb_split) == 48 && offsetof(osb_split, pattern) == 16, "osb_split");
_Static_assert(offsetof(osb_split, next) == 32 && offsetof(osb_split, ended) == 40, "osb_split");
_Static_assert(sizeof(osb_chunks) == 24 && offsetof(osb_chunks, next) == 16, "osb_chunks");
_Static_assert(sizeof(osb_chunk) == 32 && offsetof(osb_chunk, text) == 16, "osb_chunk");
_Static_assert(sizeof(osb_symbols) == 32 && offsetof(osb_symbols, next) == 16, "osb_symbols");
_Static_assert(offsetof(osb_symbols, platform) == 24, "osb_symbols");
_Static_assert(sizeof(osb_symbol) == 24 && offsetof(osb_symbol, bytes) == 8, "osb_symbol");
_Static_assert(sizeof(osb_component) == 24 && offsetof(osb_component, kind) == 0, "osb_component");
_Static_assert(offsetof(osb_component, start) == 8 && offsetof(osb_component, end) == 16,
               "osb_component");
_Static_assert(sizeof(osb_options) == 40 && offsetof(osb_options, taken) == 16, "osb_options");
_Static_assert(offsetof(osb_options, at) == 24 && offsetof(osb_options, flags) == 32,
               "osb_options");
_Static_assert(sizeof(osb_decision) == 24 && offsetof(osb_decision, file) == 8 &&
                   offsetof(osb_decision, line) == 16,
               "osb_decision");
_Static_assert(sizeof(osb_verdict) == 16 && offsetof(osb_verdict, line) == 8, "osb_verdict");
_Static_assert(sizeof(osb_glob_fault) == 24 && offsetof(osb_glob_fault, index) == 8 &&
                   offsetof(osb_glob_fault, kind) == 16,
               "osb_glob_fault");
_Static_assert(sizeof(osb_join_fault) == 16 && offsetof(osb_join_fault, index) == 0 &&
                   offsetof(osb_join_fault, reason) == 8 && sizeof(osb_join_reason) == 4,
               "osb_join_fault");
_Static_assert(sizeof(osb_option) == 24 && offsetof(osb_option, text) == 8, "osb_option");

/* No symbol is exported unless it is named to the linker on Windows, whose objects have no visibility. */
#ifdef _WIN32
#define OSB_HIDDEN
#else
#define OSB_HIDDEN __attribute__((visibility("hidden")))
#endif

/* The exports: what each returns, its name after osb_core_, and its parameters. Their declarations and the choice of a
 * level (levels.h) are made of this list. Those that fill an array take the address at which the string begins as a
 * number, too, and write views of it. */
#define EXPORTS(each) \
    each(uint32_t, check, (uint32_t platform, const char *at, size_t len, osb_fault *fault)) \
    each(void, start, (struct core_open *opened)) \
    each(uint32_t, feed, (struct core_open *opened, const char *at, size_t len, osb_fault *fault)) \
    each(uint32_t, finish, (const struct core_open *opened, osb_fault *fault)) \
    each(uint32_t, fault_text, (const osb_fault *fault, char *out, size_t room, size_t *count)) \
    each(uint32_t, to_wide, (const char *at, size_t len, uint16_t *out, size_t room, \
        size_t *count, osb_fault *fault)) \
    each(uint32_t, from_wide, (const uint16_t *at, size_t len, char *out, size_t room, \
        size_t *count)) \
    each(uint32_t, lossy, (uint32_t platform, const char *at, size_t len, char *out, size_t room, \
        size_t *count, osb_fault *fault)) \
    each(uint32_t, escape, (uint32_t platform, const char *at, size_t len, char *out, size_t room, \
        size_t *count, osb_fault *fault)) \
    each(uint32_t, escape_line, (uint32_t platform, const char *at, size_t len, char *out, \
        size_t room, size_t *count, osb_fault *fault)) \
    each(uint32_t, unescape, (uint32_t platform, const char *escape, size_t len, char *out, \
        size_t room, size_t *count, size_t *index)) \
    each(uint32_t, unescape_line, (uint32_t platform, const char *escape, size_t len, char *out, \
        size_t room, size_t *count, size_t *index)) \
    each(uint32_t, find, (const char *at, size_t len, const char *pattern, size_t pattern_len, \
        size_t *index)) \
    each(uint32_t, rfind, (const char *at, size_t len, const char *pattern, size_t pattern_len, \
        size_t *index)) \
    each(uint32_t, contains, (const char *at, size_t len, const char *pattern, \
        size_t pattern_len)) \
    each(uint32_t, starts_with, (const char *at, size_t len, const char *pattern, \
        size_t pattern_len)) \
    each(uint32_t, ends_with, (const char *at, size_t len, const char *pattern, \
        size_t pattern_len)) \
    each(uint32_t, starts_with_units, (uint32_t platform, const char *at, size_t len, \
        const char *prefix, size_t prefix_len)) \
    each(uint32_t, ends_with_units, (uint32_t platform, const char *at, size_t len, \
        const char *suffix, size_t suffix_len)) \
    each(uint32_t, is_boundary, (const char *at, size_t len, size_t index)) \
    each(uint32_t, compare, (const char *a, size_t a_len, const char *b, size_t b_len)) \
    each(uint32_t, cut, (const char *at, size_t len, const char *pattern, size_t pattern_len, \
        size_t from, struct core_piece *piece)) \
    each(uint32_t, rcut, (const char *at, size_t len, const char *pattern, size_t pattern_len, \
        size_t to, struct core_piece *piece)) \
    each(uint32_t, chunk, (const char *at, size_t len, size_t from, struct core_ends *ends)) \
    each(uint32_t, symbol, (uint32_t platform, const char *at, size_t len, size_t from, \
        struct core_step *step)) \
    each(uint32_t, path_components, (uint32_t platform, const char *at, size_t len, \
        osb_component *out, size_t room, size_t *count)) \
    each(uint32_t, path_parent, (uint32_t platform, const char *at, size_t len, \
        struct core_span *span)) \
    each(uint32_t, path_prefix, (uint32_t platform, const char *at, size_t len, \
        struct core_span *span)) \
    each(uint32_t, path_file_name, (uint32_t platform, const char *at, size_t len, \
        struct core_span *span)) \
    each(uint32_t, path_file_stem, (uint32_t platform, const char *at, size_t len, \
        struct core_span *span)) \
    each(uint32_t, path_extension, (uint32_t platform, const char *at, size_t len, \
        struct core_span *span)) \
    each(uint32_t, path_has_root, (uint32_t platform, const char *at, size_t len)) \
    each(uint32_t, path_is_absolute, (uint32_t platform, const char *at, size_t len)) \
    each(uint32_t, path_starts_with, (uint32_t platform, const char *at, size_t len, \
        const char *base, size_t base_len)) \
    each(uint32_t, path_ends_with, (uint32_t platform, const char *at, size_t len, \
        const char *child, size_t child_len)) \
    each(uint32_t, path_strip_prefix, (uint32_t platform, const char *at, size_t len, \
        const char *base, size_t base_len, osb_view *rest)) \
    each(uint32_t, path_join, (uint32_t platform, const char *base, size_t base_len, \
        const char *at, size_t len, char *out, size_t room, size_t *count)) \
    each(uint32_t, path_join_checked, (uint32_t platform, const char *base, size_t base_len, \
        const char *at, size_t len, char *out, size_t room, size_t *count, osb_join_fault *fault)) \
    each(uint32_t, path_relative, (uint32_t platform, const char *at, size_t len, \
        const char *base, size_t base_len, char *out, size_t room, size_t *count)) \
    each(uint32_t, path_normalize, (uint32_t platform, const char *at, size_t len, char *out, \
        size_t room, size_t *count)) \
    each(uint32_t, path_clean, (uint32_t platform, const char *at, size_t len, char *out, \
        size_t room, size_t *count)) \
    each(uint32_t, path_convert, (uint32_t from, uint32_t to, const char *at, size_t len, \
        char *out, size_t room, size_t *count, size_t *index, osb_fault *fault)) \
    each(uint32_t, path_with_file_name, (uint32_t platform, const char *at, size_t len, \
        const char *name, size_t name_len, char *out, size_t room, size_t *count)) \
    each(uint32_t, path_with_extension, (uint32_t platform, const char *at, size_t len, \
        const char *extension, size_t extension_len, char *out, size_t room, size_t *count)) \
    each(uint32_t, path_with_added_extension, (uint32_t platform, const char *at, size_t len, \
        const char *extension, size_t extension_len, char *out, size_t room, size_t *count)) \
    each(uint32_t, shell_quote, (const char *at, size_t len, char *out, size_t room, \
        size_t *count, size_t *index)) \
    each(uint32_t, shell_quote_first, (const char *at, size_t len, char *out, size_t room, \
        size_t *count, size_t *index)) \
    each(uint32_t, shell_quote_line, (const char *at, size_t len, char *out, size_t room, \
        size_t *count, size_t *index)) \
    each(uint32_t, fish_quote, (const char *at, size_t len, char *out, size_t room, size_t *count, \
        size_t *index)) \
    each(uint32_t, powershell_quote, (const char *at, size_t len, char *out, size_t room, \
        size_t *count, size_t *index)) \
    each(uint32_t, shell_words, (uint32_t options, const char *line, size_t len, char *out, \
        size_t room, size_t *count, struct core_line_fault *fault)) \
    each(uint32_t, windows_quote, (const char *at, size_t len, uint16_t *out, size_t room, \
        size_t *count, size_t *index, osb_fault *fault)) \
    each(uint32_t, windows_quote_name, (const char *at, size_t len, uint16_t *out, size_t room, \
        size_t *count, size_t *index, osb_fault *fault)) \
    each(uint32_t, windows_arguments, (const char *line, size_t len, uint16_t *out, size_t room, \
        size_t *count, size_t *index, osb_fault *fault)) \
    each(uint32_t, option, (uint32_t options, const char *word, size_t len, \
        struct core_option *read)) \
    each(uint32_t, flag, (const char *word, size_t len, size_t at, struct core_option *read)) \
    each(uint32_t, glob_matches, (uint32_t platform, uint32_t options, const osb_view *patterns, \
        size_t patterns_len, const osb_view *paths, size_t paths_len, uint8_t *matched, \
        size_t room, size_t *count, osb_glob_fault *fault)) \
    each(uint32_t, globs_new, (uint32_t platform, uint32_t options, const osb_view *patterns, \
        size_t patterns_len, struct core_held *held, osb_glob_fault *fault)) \
    each(uint32_t, globs_is_match, (struct core_held *held, const char *path, size_t len)) \
    each(uint32_t, globs_matches, (struct core_held *held, const osb_view *paths, \
        size_t paths_len, uint8_t *matched, size_t room, size_t *count)) \
    each(uint32_t, globs_share, (struct core_held *held, struct core_held *other)) \
    each(uint32_t, globs_free, (struct core_held *held)) \
    each(uint32_t, ignores_new, (struct core_held *held)) \
    each(uint32_t, ignores_add, (struct core_held *held, const char *directory, \
        size_t directory_len, const char *file, size_t file_len)) \
    each(uint32_t, ignores_match, (struct core_held *held, const char *path, size_t len, \
        uint32_t is_dir, osb_decision *decision)) \
    each(uint32_t, ignores_free, (struct core_held *held)) \
    each(uint32_t, ignore_matches, (const char *file, size_t file_len, const osb_view *paths, \
        size_t paths_len, const char *dirs, size_t dirs_len, osb_verdict *out, size_t room, \
        size_t *count)) \
    each(uint32_t, split_fill, (const char *at, size_t len, const char *pattern, \
        size_t pattern_len, size_t from, size_t address, osb_view *out, size_t room, \
        struct core_filled *filled)) \
    each(uint32_t, rsplit_fill, (const char *at, size_t len, const char *pattern, \
        size_t pattern_len, size_t to, size_t address, osb_view *out, size_t room, \
        struct core_filled *filled)) \
    each(uint32_t, chunks_fill, (const char *at, size_t len, size_t from, size_t address, \
        osb_chunk *out, size_t room, struct core_filled *filled)) \
    each(uint32_t, symbols_fill, (uint32_t platform, const char *at, size_t len, size_t from, \
        size_t address, osb_symbol *out, size_t room, struct core_filled *filled))

_Static_assert(sizeof(uintptr_t) == sizeof(size_t), "an address is a size_t");

/* On Windows a struct of two words is returned in memory in C, and in two registers by the exports' compiler,
 * which compiles two functions between them: windows.ll. */
#ifdef _WIN32
#define rattle_alloc osb_edge_alloc
#define rattle_realloc osb_edge_realloc
#endif
OSB_HIDDEN struct core_block rattle_alloc(size_t len, size_t align);
OSB_HIDDEN struct core_block rattle_realloc(void *at, size_t kept, size_t len, size_t align);
OSB_HIDDEN void rattle_dealloc(void *at);

#ifdef __x86_64__
#include "levels.h"
#else
#define DECLARED(result, name, parameters) OSB_HIDDEN result osb_core_##name parameters;
EXPORTS(DECLARED)
#define CORE(name) osb_core_##name
#endif

/* A function that is inlined: so the export that it is given is called directly, and a step of an
 * iterator makes one call. */
#define INLINED static inline __attribute__((always_inline))

/* Where a string without a pointer is, and where the units of no string are. */
static const uint16_t nothing[1];
static uint16_t no_room[1];
static osb_component no_components[1];

static bool is_bad(const void *at, size_t len) {
    return len != 0 && (at == NULL || len > PTRDIFF_MAX || (uintptr_t)at > UINTPTR_MAX - len);
}

static bool are_bad_units(const uint16_t *at, size_t len) {
    return len > PTRDIFF_MAX / sizeof *at || is_bad(at, len * sizeof *at) ||
           (len != 0 && (uintptr_t)at % _Alignof(uint16_t) != 0);
}

static bool are_bad_components(const osb_component *at, size_t len) {
    return len > PTRDIFF_MAX / sizeof *at || is_bad(at, len * sizeof *at) ||
           (len != 0 && (uintptr_t)at % _Alignof(osb_component) != 0);
}

static bool do_overlap(const void *a, size_t a_len, const void *b, size_t b_len) {
    return a_len != 0 && b_len != 0 && (uintptr_t)a < (uintptr_t)b + b_len &&
           (uintptr_t)b < (uintptr_t)a + a_len;
}

/* Bytes of the caller's. An empty string stays where it is, so a view of it is there, too. */
static const char *bytes(const char *at) {
    return at == NULL ? (const char *)nothing : at;
}

/* The memory of the exports that build something, which is malloc's. They free it before they return,
 * except for a compiled set, which has it until it is freed. They request no alignment past 16. A block of no bytes has as many as its alignment, since malloc may
 * answer null for none; and where there is no block, the pointer is another than null. */
INLINED struct core_block block_at(void *at) {
    return (struct core_block){at != NULL, at == NULL ? no_room : at};
}

struct core_block rattle_alloc(size_t len, size_t align) {
    return block_at(malloc(len == 0 ? align : len));
}

struct core_block rattle_realloc(void *at, size_t kept, size_t len, size_t align) {
    (void)kept;
    return block_at(realloc(at, len == 0 ? align : len));
}

void rattle_dealloc(void *at) {
    free(at);
}

uint32_t osb_version(void) {
    return OSB_VERSION;
}

/* What a predicate returns, by the status of its export: 1 it holds, 0 it doesn't, else minus the
 * status. */
INLINED int answer(uint32_t status) {
    return status == OSB_OK ? 1 : status == OSB_NONE ? 0 : -(int)status;
}

const char *osb_status_text(osb_status status) {
    switch (status) {
    case OSB_OK: return "success";
    case OSB_FAULTY: return "the bytes aren't a string of the platform";
    case OSB_NO_ROOM: return "the buffer is too short";
    case OSB_NONE: return "there is none";
    case OSB_ENDED: return "there are no more items";
    case OSB_BAD_ESCAPE: return "a backslash of the escape begins no token";
    case OSB_NO_STRING: return "no string of the platform has this escape";
    case OSB_HAS_NUL: return "there is a NUL";
    case OSB_BAD_LINE: return "the line isn't words of a shell";
    case OSB_HAS_QUOTE: return "the program's name has a quotation mark";
    case OSB_UNEXPECTED: return "an option has a value that nothing took";
    case OSB_NO_MEMORY: return "out of memory";
    case OSB_BAD_PATH: return "the path is rejected";
    case OSB_BAD_PLATFORM: return "there is no such platform";
    case OSB_BAD_PATTERN: return "the pattern or the escape isn't UTF-8, is empty, or has a fault";
    case OSB_BAD_INDEX: return "the index is past the end";
    case OSB_BAD_FAULT: return "there is no such fault";
    case OSB_BAD_STATE: return "there is no such state of a checker";
    case OSB_TOO_LONG: return "the string is too long";
    case OSB_BAD_OPTION: return "there is no such option";
    case OSB_BAD_EXTENSION: return "the extension has a separator";
    case OSB_EMPTY: return "nothing is kept there";
    case OSB_BAD_POINTER: return "a pointer or a length is rejected";
    default: return "there is no such status";
    }
}

osb_status osb_check(osb_platform platform, const char *at, size_t len, osb_fault *fault) {
    osb_fault own = {0, 0, 0, 0};
    if (is_bad(at, len)) return OSB_BAD_POINTER;
    osb_status status = CORE(check)(platform, bytes(at), len, &own);
    if (status == OSB_FAULTY && fault != NULL) *fault = own;
    return status;
}

osb_status osb_checker_start(osb_checker *checker) {
    struct core_open own = {0, 0};
    if (checker == NULL) return OSB_BAD_POINTER;
    CORE(start)(&own);
    *checker = (osb_checker){own.state, own.bits, 0, 0};
    return OSB_OK;
}

/* The fault that an earlier piece had. */
static osb_status kept_fault(const osb_checker *checker, osb_fault *fault) {
    if (fault != NULL) *fault = (osb_fault){checker->kind, checker->value, 0, 0};
    return OSB_FAULTY;
}

osb_status osb_checker_feed(osb_checker *checker, const char *at, size_t len, osb_fault *fault) {
    osb_fault own = {0, 0, 0, 0};
    if (checker == NULL || is_bad(at, len)) return OSB_BAD_POINTER;
    if (checker->kind != 0) return kept_fault(checker, fault);
    struct core_open opened = {checker->state, checker->bits};
    osb_status status = CORE(feed)(&opened, bytes(at), len, &own);
    if (status == OSB_OK) *checker = (osb_checker){opened.state, opened.bits, 0, 0};
    if (status == OSB_FAULTY) {
        checker->kind = own.kind;
        checker->value = own.value;
        if (fault != NULL) *fault = own;
    }
    return status;
}

osb_status osb_checker_finish(const osb_checker *checker, osb_fault *fault) {
    osb_fault own = {0, 0, 0, 0};
    if (checker == NULL) return OSB_BAD_POINTER;
    if (checker->kind != 0) return kept_fault(checker, fault);
    struct core_open opened = {checker->state, checker->bits};
    osb_status status = CORE(finish)(&opened, &own);
    if (status == OSB_FAULTY && fault != NULL) *fault = own;
    return status;
}

osb_status osb_fault_text(const osb_fault *fault, char *out, size_t room, size_t *count) {
    size_t own = 0;
    if (fault == NULL || count == NULL || is_bad(out, room)) return OSB_BAD_POINTER;
    osb_fault named = *fault;
    size_t before = room == 0 ? 0 : room - 1;
    char *to = before == 0 ? (char *)no_room : out;
    osb_status status = CORE(fault_text)(&named, to, before, &own);
    if (status == OSB_OK || status == OSB_NO_ROOM) *count = own;
    if (status == OSB_OK) out[own] = 0;
    return status;
}

size_t osb_wide_bound(size_t len) {
    return len;
}

osb_status osb_to_wide(const char *at, size_t len, uint16_t *out, size_t room, size_t *count,
                       osb_fault *fault) {
    size_t own = 0;
    osb_fault own_fault = {0, 0, 0, 0};
    if (count == NULL || is_bad(at, len) || are_bad_units(out, room) ||
        do_overlap(at, len, out, room * sizeof *out))
        return OSB_BAD_POINTER;
    osb_status status =
        CORE(to_wide)(bytes(at), len, room == 0 ? no_room : out, room, &own, &own_fault);
    if (status == OSB_OK || status == OSB_NO_ROOM) *count = own;
    if (status == OSB_FAULTY && fault != NULL) *fault = own_fault;
    return status;
}

size_t osb_bytes_bound(size_t len) {
    return len > SIZE_MAX / 3 ? SIZE_MAX : 3 * len;
}

osb_status osb_from_wide(const uint16_t *units, size_t len, char *out, size_t room, size_t *count) {
    size_t own = 0;
    if (count == NULL || are_bad_units(units, len) || is_bad(out, room) ||
        do_overlap(units, len * sizeof *units, out, room))
        return OSB_BAD_POINTER;
    osb_status status = CORE(from_wide)(len == 0 ? nothing : units, len,
                                           room == 0 ? (char *)no_room : out, room, &own);
    *count = own;
    return status;
}

/* An export that writes a text of a string. */
typedef uint32_t core_text(uint32_t platform, const char *at, size_t len, char *out, size_t room,
                           size_t *count, osb_fault *fault);

INLINED osb_status write_text(core_text *call, osb_platform platform, const char *at, size_t len,
                             char *out, size_t room, size_t *count, osb_fault *fault) {
    size_t own = 0;
    osb_fault own_fault = {0, 0, 0, 0};
    if (count == NULL || is_bad(at, len) || is_bad(out, room) || do_overlap(at, len, out, room))
        return OSB_BAD_POINTER;
    osb_status status = call(platform, bytes(at), len, room == 0 ? (char *)no_room : out, room, &own,
                             &own_fault);
    if (status == OSB_OK || status == OSB_NO_ROOM) *count = own;
    if (status == OSB_FAULTY && fault != NULL) *fault = own_fault;
    return status;
}

size_t osb_lossy_bound(size_t len) {
    return len > SIZE_MAX / 3 ? SIZE_MAX : 3 * len;
}

osb_status osb_lossy(osb_platform platform, const char *at, size_t len, char *out, size_t room,
                     size_t *count, osb_fault *fault) {
    return write_text(CORE(lossy), platform, at, len, out, room, count, fault);
}

size_t osb_escape_bound(size_t len) {
    return len > SIZE_MAX / 6 ? SIZE_MAX : 6 * len;
}

osb_status osb_escape(osb_platform platform, const char *at, size_t len, char *out, size_t room,
                      size_t *count, osb_fault *fault) {
    return write_text(CORE(escape), platform, at, len, out, room, count, fault);
}

osb_status osb_escape_line(osb_platform platform, const char *at, size_t len, char *out,
                           size_t room, size_t *count, osb_fault *fault) {
    return write_text(CORE(escape_line), platform, at, len, out, room, count, fault);
}

/* An export that writes the string with an escape. */
typedef uint32_t core_string(uint32_t platform, const char *escape, size_t len, char *out,
                             size_t room, size_t *count, size_t *index);

INLINED osb_status write_string(core_string *call, osb_platform platform, const char *escape,
                               size_t len, char *out, size_t room, size_t *count, size_t *index) {
    size_t own = 0, own_index = 0;
    if (count == NULL || is_bad(escape, len) || is_bad(out, room) ||
        do_overlap(escape, len, out, room))
        return OSB_BAD_POINTER;
    osb_status status = call(platform, bytes(escape), len, room == 0 ? (char *)no_room : out, room,
                             &own, &own_index);
    if (status == OSB_OK || status == OSB_NO_ROOM) *count = own;
    if (status == OSB_BAD_ESCAPE && index != NULL) *index = own_index;
    return status;
}

size_t osb_unescape_bound(size_t len) {
    return len;
}

osb_status osb_unescape(osb_platform platform, const char *escape, size_t len, char *out,
                        size_t room, size_t *count, size_t *index) {
    return write_string(CORE(unescape), platform, escape, len, out, room, count, index);
}

osb_status osb_unescape_line(osb_platform platform, const char *escape, size_t len, char *out,
                             size_t room, size_t *count, size_t *index) {
    return write_string(CORE(unescape_line), platform, escape, len, out, room, count, index);
}

osb_status osb_find(const char *at, size_t len, const char *pattern, size_t pattern_len,
                    size_t *index) {
    size_t own = 0;
    if (index == NULL || is_bad(at, len) || is_bad(pattern, pattern_len)) return OSB_BAD_POINTER;
    osb_status status = CORE(find)(bytes(at), len, bytes(pattern), pattern_len, &own);
    if (status == OSB_OK) *index = own;
    return status;
}

osb_status osb_rfind(const char *at, size_t len, const char *pattern, size_t pattern_len,
                     size_t *index) {
    size_t own = 0;
    if (index == NULL || is_bad(at, len) || is_bad(pattern, pattern_len)) return OSB_BAD_POINTER;
    osb_status status = CORE(rfind)(bytes(at), len, bytes(pattern), pattern_len, &own);
    if (status == OSB_OK) *index = own;
    return status;
}

int osb_contains(const char *at, size_t len, const char *pattern, size_t pattern_len) {
    if (is_bad(at, len) || is_bad(pattern, pattern_len)) return answer(OSB_BAD_POINTER);
    return answer(CORE(contains)(bytes(at), len, bytes(pattern), pattern_len));
}

int osb_starts_with(const char *at, size_t len, const char *pattern, size_t pattern_len) {
    if (is_bad(at, len) || is_bad(pattern, pattern_len)) return answer(OSB_BAD_POINTER);
    return answer(CORE(starts_with)(bytes(at), len, bytes(pattern), pattern_len));
}

int osb_ends_with(const char *at, size_t len, const char *pattern, size_t pattern_len) {
    if (is_bad(at, len) || is_bad(pattern, pattern_len)) return answer(OSB_BAD_POINTER);
    return answer(CORE(ends_with)(bytes(at), len, bytes(pattern), pattern_len));
}

int osb_starts_with_units(osb_platform platform, const char *at, size_t len, const char *prefix,
                          size_t prefix_len) {
    if (is_bad(at, len) || is_bad(prefix, prefix_len)) return answer(OSB_BAD_POINTER);
    return answer(CORE(starts_with_units)(platform, bytes(at), len, bytes(prefix), prefix_len));
}

int osb_ends_with_units(osb_platform platform, const char *at, size_t len, const char *suffix,
                        size_t suffix_len) {
    if (is_bad(at, len) || is_bad(suffix, suffix_len)) return answer(OSB_BAD_POINTER);
    return answer(CORE(ends_with_units)(platform, bytes(at), len, bytes(suffix), suffix_len));
}

int osb_is_boundary(const char *at, size_t len, size_t index) {
    if (is_bad(at, len)) return answer(OSB_BAD_POINTER);
    return answer(CORE(is_boundary)(bytes(at), len, index));
}

osb_status osb_compare(const char *a, size_t a_len, const char *b, size_t b_len, int32_t *order) {
    if (order == NULL || is_bad(a, a_len) || is_bad(b, b_len)) return OSB_BAD_POINTER;
    uint32_t number = CORE(compare)(bytes(a), a_len, bytes(b), b_len);
    *order = number == 0 ? 0 : number == 1 ? -1 : 1;
    return OSB_OK;
}

/* Starts an iterator at an index. Nothing is looked for in the empty string: the export only tests
 * the pattern. */
static osb_status start_split(osb_split *split, const char *at, size_t len, const char *pattern,
                              size_t pattern_len, size_t next) {
    struct core_piece own = {0, 0, false};
    if (split == NULL || is_bad(at, len) || is_bad(pattern, pattern_len)) return OSB_BAD_POINTER;
    pattern = bytes(pattern);
    osb_status status = CORE(cut)((const char *)nothing, 0, pattern, pattern_len, 0, &own);
    if (status == OSB_OK)
        *split = (osb_split){{bytes(at), len}, {pattern, pattern_len}, next, 0};
    return status;
}

/* A started iterator has no null pointers, a struct of zeros has. */
INLINED bool is_bad_split(const osb_split *split) {
    return split == NULL || split->string.at == NULL || split->pattern.at == NULL ||
           is_bad(split->string.at, split->string.len) ||
           is_bad(split->pattern.at, split->pattern.len);
}

osb_status osb_split_start(osb_split *split, const char *at, size_t len, const char *pattern,
                           size_t pattern_len) {
    return start_split(split, at, len, pattern, pattern_len, 0);
}

osb_status osb_rsplit_start(osb_split *split, const char *at, size_t len, const char *pattern,
                            size_t pattern_len) {
    return start_split(split, at, len, pattern, pattern_len, len);
}

osb_status osb_split_next(osb_split *split, osb_view *piece) {
    struct core_piece own = {0, 0, false};
    if (piece == NULL || is_bad_split(split)) return OSB_BAD_POINTER;
    if (split->ended != 0) return OSB_ENDED;
    osb_status status = CORE(cut)(split->string.at, split->string.len, split->pattern.at,
                                     split->pattern.len, split->next, &own);
    if (status != OSB_OK) return status;
    *piece = (osb_view){split->string.at + split->next, own.edge - split->next};
    split->next = own.rest;
    split->ended = own.last;
    return OSB_OK;
}

osb_status osb_rsplit_next(osb_split *split, osb_view *piece) {
    struct core_piece own = {0, 0, false};
    if (piece == NULL || is_bad_split(split)) return OSB_BAD_POINTER;
    if (split->ended != 0) return OSB_ENDED;
    osb_status status = CORE(rcut)(split->string.at, split->string.len, split->pattern.at,
                                      split->pattern.len, split->next, &own);
    if (status != OSB_OK) return status;
    *piece = (osb_view){split->string.at + own.edge, split->next - own.edge};
    split->next = own.rest;
    split->ended = own.last;
    return OSB_OK;
}

osb_status osb_chunks_start(osb_chunks *chunks, const char *at, size_t len) {
    if (chunks == NULL || is_bad(at, len)) return OSB_BAD_POINTER;
    *chunks = (osb_chunks){{bytes(at), len}, 0};
    return OSB_OK;
}

osb_status osb_chunks_next(osb_chunks *chunks, osb_chunk *chunk) {
    struct core_ends own = {0, 0};
    if (chunks == NULL || chunk == NULL || chunks->string.at == NULL ||
        is_bad(chunks->string.at, chunks->string.len))
        return OSB_BAD_POINTER;
    osb_status status = CORE(chunk)(chunks->string.at, chunks->string.len, chunks->next, &own);
    if (status != OSB_OK) return status;
    const char *at = chunks->string.at;
    chunk->part = (osb_view){at + chunks->next, own.part - chunks->next};
    chunk->text = (osb_view){at + own.part, own.text - own.part};
    chunks->next = own.text;
    return OSB_OK;
}

osb_status osb_symbols_start(osb_symbols *symbols, osb_platform platform, const char *at,
                             size_t len, osb_fault *fault) {
    if (symbols == NULL) return OSB_BAD_POINTER;
    osb_status status = osb_check(platform, at, len, fault);
    if (status == OSB_OK) *symbols = (osb_symbols){{bytes(at), len}, 0, platform};
    return status;
}

/* A number that an export has just written. It has a load of its own: compilers join two, and a
 * joined load waits until both numbers are in the cache, since each was stored alone. A step to a
 * symbol takes 0.67 to 0.74 of the time so. */
INLINED uint32_t written(const volatile uint32_t *number) {
    return *number;
}

osb_status osb_symbols_next(osb_symbols *symbols, osb_symbol *symbol) {
    struct core_step own = {0, 0, 0};
    if (symbols == NULL || symbol == NULL || symbols->string.at == NULL ||
        is_bad(symbols->string.at, symbols->string.len))
        return OSB_BAD_POINTER;
    osb_status status = CORE(symbol)(symbols->platform, symbols->string.at, symbols->string.len,
                                        symbols->next, &own);
    if (status != OSB_OK) return status;
    osb_view own_bytes = {symbols->string.at + symbols->next, own.end - symbols->next};
    *symbol = (osb_symbol){written(&own.kind), written(&own.value), own_bytes};
    symbols->next = own.end;
    return OSB_OK;
}

osb_status osb_path_components(osb_platform platform, const char *at, size_t len,
                               osb_component *out, size_t room, size_t *count) {
    size_t own = 0;
    if (count == NULL || is_bad(at, len) || are_bad_components(out, room) ||
        do_overlap(at, len, out, room * sizeof *out))
        return OSB_BAD_POINTER;
    osb_status status = CORE(path_components)(platform, bytes(at), len,
                                                 room == 0 ? no_components : out, room, &own);
    if (status == OSB_OK || status == OSB_NO_ROOM) *count = own;
    return status;
}

/* An export that finds a part of a path. */
typedef uint32_t core_part(uint32_t platform, const char *at, size_t len, struct core_span *span);

INLINED osb_status find_part(core_part *call, osb_platform platform, const char *at, size_t len,
                            osb_view *part) {
    struct core_span own = {0, 0};
    if (part == NULL || is_bad(at, len)) return OSB_BAD_POINTER;
    at = bytes(at);
    osb_status status = call(platform, at, len, &own);
    if (status == OSB_OK) *part = (osb_view){at + own.start, own.end - own.start};
    return status;
}

osb_status osb_path_parent(osb_platform platform, const char *at, size_t len, osb_view *parent) {
    return find_part(CORE(path_parent), platform, at, len, parent);
}

osb_status osb_path_prefix(osb_platform platform, const char *at, size_t len, osb_view *prefix) {
    return find_part(CORE(path_prefix), platform, at, len, prefix);
}

osb_status osb_path_file_name(osb_platform platform, const char *at, size_t len, osb_view *name) {
    return find_part(CORE(path_file_name), platform, at, len, name);
}

osb_status osb_path_file_stem(osb_platform platform, const char *at, size_t len, osb_view *stem) {
    return find_part(CORE(path_file_stem), platform, at, len, stem);
}

osb_status osb_path_extension(osb_platform platform, const char *at, size_t len,
                              osb_view *extension) {
    return find_part(CORE(path_extension), platform, at, len, extension);
}

int osb_path_has_root(osb_platform platform, const char *at, size_t len) {
    if (is_bad(at, len)) return answer(OSB_BAD_POINTER);
    return answer(CORE(path_has_root)(platform, bytes(at), len));
}

int osb_path_is_absolute(osb_platform platform, const char *at, size_t len) {
    if (is_bad(at, len)) return answer(OSB_BAD_POINTER);
    return answer(CORE(path_is_absolute)(platform, bytes(at), len));
}

int osb_path_starts_with(osb_platform platform, const char *at, size_t len, const char *base,
                         size_t base_len) {
    if (is_bad(at, len) || is_bad(base, base_len)) return answer(OSB_BAD_POINTER);
    return answer(CORE(path_starts_with)(platform, bytes(at), len, bytes(base), base_len));
}

int osb_path_ends_with(osb_platform platform, const char *at, size_t len, const char *child,
                       size_t child_len) {
    if (is_bad(at, len) || is_bad(child, child_len)) return answer(OSB_BAD_POINTER);
    return answer(CORE(path_ends_with)(platform, bytes(at), len, bytes(child), child_len));
}

osb_status osb_path_strip_prefix(osb_platform platform, const char *at, size_t len,
                                 const char *base, size_t base_len, osb_view *rest) {
    osb_view own = {(const char *)nothing, 0};
    if (rest == NULL || is_bad(at, len) || is_bad(base, base_len)) return OSB_BAD_POINTER;
    at = bytes(at);
    osb_status status =
        CORE(path_strip_prefix)(platform, at, len, bytes(base), base_len, &own);
    if (status == OSB_OK) *rest = own.len == 0 ? (osb_view){at + len, 0} : own;
    return status;
}

/* Whether two strings can't be read, or a buffer can't be written beside them. */
static bool are_bad_strings(const char *a, size_t a_len, const char *b, size_t b_len, char *out,
                            size_t room) {
    return is_bad(a, a_len) || is_bad(b, b_len) || is_bad(out, room) ||
           do_overlap(a, a_len, out, room) || do_overlap(b, b_len, out, room);
}

/* An export that builds a path of a string. */
typedef uint32_t core_one(uint32_t platform, const char *at, size_t len, char *out, size_t room,
                          size_t *count);

INLINED osb_status build_of_one(core_one *call, osb_platform platform, const char *at, size_t len,
                                char *out, size_t room, size_t *count) {
    size_t own = 0;
    if (count == NULL || are_bad_strings(at, len, NULL, 0, out, room)) return OSB_BAD_POINTER;
    osb_status status =
        call(platform, bytes(at), len, room == 0 ? (char *)no_room : out, room, &own);
    if (status == OSB_OK || status == OSB_NO_ROOM) *count = own;
    return status;
}

/* One that builds a path of two. */
typedef uint32_t core_two(uint32_t platform, const char *a, size_t a_len, const char *b,
                          size_t b_len, char *out, size_t room, size_t *count);

INLINED osb_status build_of_two(core_two *call, osb_platform platform, const char *a, size_t a_len,
                                const char *b, size_t b_len, char *out, size_t room,
                                size_t *count) {
    size_t own = 0;
    if (count == NULL || are_bad_strings(a, a_len, b, b_len, out, room)) return OSB_BAD_POINTER;
    osb_status status = call(platform, bytes(a), a_len, bytes(b), b_len,
                             room == 0 ? (char *)no_room : out, room, &own);
    if (status == OSB_OK || status == OSB_NO_ROOM) *count = own;
    return status;
}

osb_status osb_path_join(osb_platform platform, const char *base, size_t base_len, const char *at,
                         size_t len, char *out, size_t room, size_t *count) {
    return build_of_two(CORE(path_join), platform, base, base_len, at, len, out, room, count);
}

osb_status osb_path_join_checked(osb_platform platform, const char *base, size_t base_len,
                                 const char *at, size_t len, char *out, size_t room, size_t *count,
                                 osb_join_fault *fault) {
    size_t own = 0;
    osb_join_fault own_fault = {0, (osb_join_reason)0};
    if (count == NULL || are_bad_strings(base, base_len, at, len, out, room))
        return OSB_BAD_POINTER;
    osb_status status =
        CORE(path_join_checked)(platform, bytes(base), base_len, bytes(at), len,
                                   room == 0 ? (char *)no_room : out, room, &own, &own_fault);
    if (status == OSB_OK || status == OSB_NO_ROOM) *count = own;
    if (status == OSB_BAD_PATH && fault != NULL) *fault = own_fault;
    return status;
}

osb_status osb_path_relative(osb_platform platform, const char *at, size_t len, const char *base,
                             size_t base_len, char *out, size_t room, size_t *count) {
    return build_of_two(CORE(path_relative), platform, at, len, base, base_len, out, room,
                        count);
}

osb_status osb_path_normalize(osb_platform platform, const char *at, size_t len, char *out,
                              size_t room, size_t *count) {
    return build_of_one(CORE(path_normalize), platform, at, len, out, room, count);
}

osb_status osb_path_clean(osb_platform platform, const char *at, size_t len, char *out, size_t room,
                          size_t *count) {
    return build_of_one(CORE(path_clean), platform, at, len, out, room, count);
}

osb_status osb_path_convert(osb_platform from, osb_platform to, const char *at, size_t len,
                            char *out, size_t room, size_t *count, size_t *index,
                            osb_fault *fault) {
    size_t own = 0, own_index = 0;
    osb_fault own_fault = {0, 0, 0, 0};
    if (count == NULL || are_bad_strings(at, len, NULL, 0, out, room)) return OSB_BAD_POINTER;
    osb_status status =
        CORE(path_convert)(from, to, bytes(at), len, room == 0 ? (char *)no_room : out, room,
                              &own, &own_index, &own_fault);
    if (status == OSB_OK || status == OSB_NO_ROOM) *count = own;
    if (status == OSB_BAD_PATH && index != NULL) *index = own_index;
    if (status == OSB_FAULTY && fault != NULL) *fault = own_fault;
    return status;
}

osb_status osb_path_with_file_name(osb_platform platform, const char *at, size_t len,
                                   const char *name, size_t name_len, char *out, size_t room,
                                   size_t *count) {
    return build_of_two(CORE(path_with_file_name), platform, at, len, name, name_len, out, room,
                        count);
}

osb_status osb_path_with_extension(osb_platform platform, const char *at, size_t len,
                                   const char *extension, size_t extension_len, char *out,
                                   size_t room, size_t *count) {
    return build_of_two(CORE(path_with_extension), platform, at, len, extension, extension_len,
                        out, room, count);
}

osb_status osb_path_with_added_extension(osb_platform platform, const char *at, size_t len,
                                         const char *extension, size_t extension_len, char *out,
                                         size_t room, size_t *count) {
    return build_of_two(CORE(path_with_added_extension), platform, at, len, extension,
                        extension_len, out, room, count);
}

size_t osb_shell_bound(size_t len) {
    return len > SIZE_MAX / 4 ? SIZE_MAX : 4 * len + 3;
}

/* An export that writes a name as a word of a shell. */
typedef uint32_t core_word(const char *at, size_t len, char *out, size_t room, size_t *count,
                           size_t *index);

INLINED osb_status write_word(core_word *call, const char *at, size_t len, char *out, size_t room,
                             size_t *count, size_t *index) {
    size_t own = 0, own_index = 0;
    if (count == NULL || is_bad(at, len) || is_bad(out, room) || do_overlap(at, len, out, room))
        return OSB_BAD_POINTER;
    osb_status status =
        call(bytes(at), len, room == 0 ? (char *)no_room : out, room, &own, &own_index);
    if (status == OSB_OK || status == OSB_NO_ROOM) *count = own;
    if ((status == OSB_HAS_NUL || status == OSB_FAULTY) && index != NULL) *index = own_index;
    return status;
}

osb_status osb_shell_quote(const char *at, size_t len, char *out, size_t room, size_t *count,
                           size_t *index) {
    return write_word(CORE(shell_quote), at, len, out, room, count, index);
}

osb_status osb_shell_quote_line(const char *at, size_t len, char *out, size_t room, size_t *count,
                                size_t *index) {
    return write_word(CORE(shell_quote_line), at, len, out, room, count, index);
}

osb_status osb_fish_quote(const char *at, size_t len, char *out, size_t room, size_t *count,
                          size_t *index) {
    return write_word(CORE(fish_quote), at, len, out, room, count, index);
}

osb_status osb_powershell_quote(const char *at, size_t len, char *out, size_t room, size_t *count,
                                size_t *index) {
    return write_word(CORE(powershell_quote), at, len, out, room, count, index);
}

static bool are_bad_views(const osb_view *at, size_t len) {
    return len > PTRDIFF_MAX / sizeof *at || is_bad(at, len * sizeof *at) ||
           (len != 0 && (uintptr_t)at % _Alignof(osb_view) != 0);
}

/* Whether the words can be read, and a buffer of so many bytes written beside them. */
static bool are_bad_words(const osb_view *words, size_t len, const void *out, size_t size) {
    if (are_bad_views(words, len) || do_overlap(words, len * sizeof *words, out, size)) return true;
    for (size_t i = 0; i < len; i++)
        if (is_bad(words[i].at, words[i].len) || do_overlap(words[i].at, words[i].len, out, size))
            return true;
    return false;
}

/* The room after so many items. */
INLINED size_t room_after(size_t room, size_t count) {
    return count < room ? room - count : 0;
}

/* Adds the length of a word to that of a line. */
INLINED osb_status add_word(osb_status status, size_t more, size_t *count) {
    if (status != OSB_OK && status != OSB_NO_ROOM) return status;
    if (more >= SIZE_MAX - *count) return OSB_TOO_LONG;
    *count += more;
    return OSB_OK;
}

osb_status osb_shell_join(const osb_view *names, size_t len, char *out, size_t room, size_t *count,
                          size_t *which, size_t *index) {
    size_t own = 0;
    if (count == NULL || is_bad(out, room) || are_bad_words(names, len, out, room))
        return OSB_BAD_POINTER;
    for (size_t i = 0; i < len; i++) {
        size_t more = 0;
        if (i != 0) {
            if (own < room) out[own] = ' ';
            own++;
        }
        size_t left = room_after(room, own);
        core_word *call = i == 0 ? CORE(shell_quote_first) : CORE(shell_quote);
        osb_status status = write_word(call, names[i].at, names[i].len, left == 0 ? NULL : out + own,
                                       left, &more, index);
        status = add_word(status, more, &own);
        if (status != OSB_OK) {
            if (which != NULL) *which = i;
            return status;
        }
    }
    *count = own;
    return own <= room ? OSB_OK : OSB_NO_ROOM;
}

size_t osb_words_bound(size_t len) {
    return len > SIZE_MAX / 2 ? SIZE_MAX : 2 * len + 1;
}

osb_status osb_shell_words(uint32_t options, const char *line, size_t len, char *out, size_t room,
                           size_t *count, osb_line_fault *fault) {
    size_t own = 0;
    struct core_line_fault own_fault = {0, 0};
    if (count == NULL || is_bad(line, len) || is_bad(out, room) || do_overlap(line, len, out, room))
        return OSB_BAD_POINTER;
    osb_status status = CORE(shell_words)(options, bytes(line), len,
                                             room == 0 ? (char *)no_room : out, room, &own, &own_fault);
    if (status == OSB_OK || status == OSB_NO_ROOM) *count = own;
    if ((status == OSB_BAD_LINE || status == OSB_HAS_NUL) && fault != NULL)
        *fault = (osb_line_fault){own_fault.kind, own_fault.index};
    return status;
}

size_t osb_windows_bound(size_t len) {
    return len > SIZE_MAX / 2 - 1 ? SIZE_MAX : 2 * len + 2;
}

/* An export that writes units of a command line, or of what it is read as. */
typedef uint32_t core_units(const char *at, size_t len, uint16_t *out, size_t room, size_t *count,
                            size_t *index, osb_fault *fault);

INLINED osb_status write_units(core_units *call, const char *at, size_t len, uint16_t *out,
                               size_t room, size_t *count, size_t *index, osb_fault *fault) {
    size_t own = 0, own_index = 0;
    osb_fault own_fault = {0, 0, 0, 0};
    if (count == NULL || is_bad(at, len) || are_bad_units(out, room) ||
        do_overlap(at, len, out, room * sizeof *out))
        return OSB_BAD_POINTER;
    osb_status status =
        call(bytes(at), len, room == 0 ? no_room : out, room, &own, &own_index, &own_fault);
    if (status == OSB_OK || status == OSB_NO_ROOM) *count = own;
    if ((status == OSB_HAS_NUL || status == OSB_HAS_QUOTE) && index != NULL) *index = own_index;
    if (status == OSB_FAULTY && fault != NULL) *fault = own_fault;
    return status;
}

osb_status osb_windows_quote(const char *at, size_t len, uint16_t *out, size_t room, size_t *count,
                             size_t *index, osb_fault *fault) {
    return write_units(CORE(windows_quote), at, len, out, room, count, index, fault);
}

osb_status osb_windows_quote_name(const char *at, size_t len, uint16_t *out, size_t room,
                                  size_t *count, size_t *index, osb_fault *fault) {
    return write_units(CORE(windows_quote_name), at, len, out, room, count, index, fault);
}

osb_status osb_windows_arguments(const char *line, size_t len, uint16_t *out, size_t room,
                                 size_t *count, size_t *index, osb_fault *fault) {
    return write_units(CORE(windows_arguments), line, len, out, room, count, index, fault);
}

osb_status osb_windows_command_line(const osb_view *words, size_t len, uint16_t *out, size_t room,
                                    size_t *count, size_t *which, size_t *index, osb_fault *fault) {
    size_t own = 0;
    if (count == NULL || are_bad_units(out, room) ||
        are_bad_words(words, len, out, room * sizeof *out))
        return OSB_BAD_POINTER;
    for (size_t i = 0; i < len; i++) {
        size_t more = 0;
        if (i != 0) {
            if (own < room) out[own] = ' ';
            own++;
        }
        size_t left = room_after(room, own);
        core_units *call = i == 0 ? CORE(windows_quote_name) : CORE(windows_quote);
        osb_status status = write_units(call, words[i].at, words[i].len, left == 0 ? NULL : out + own,
                                        left, &more, index, fault);
        status = add_word(status, more, &own);
        if (status != OSB_OK) {
            if (which != NULL) *which = i;
            return status;
        }
    }
    *count = own;
    return own <= room ? OSB_OK : OSB_NO_ROOM;
}

osb_status osb_options_start(osb_options *options, const osb_view *words, size_t len,
                             uint32_t flags) {
    struct core_option own = {0, 0, 0, 0};
    if (options == NULL || are_bad_words(words, len, NULL, 0)) return OSB_BAD_POINTER;
    osb_status status = CORE(option)(flags, (const char *)nothing, 0, &own);
    if (status == OSB_OK) *options = (osb_options){words, len, 0, 0, flags, 0};
    return status;
}

/* A word by its number. */
static osb_status word_at(const osb_options *options, size_t number, osb_view *word) {
    if (number >= options->len) return OSB_BAD_INDEX;
    *word = (osb_view){bytes(options->words[number].at), options->words[number].len};
    return is_bad(options->words[number].at, word->len) ? OSB_BAD_POINTER : OSB_OK;
}

/* What is left of the last word that was taken: a flag, or OSB_NONE and a value after `=`. */
static osb_status read_left(const osb_options *options, osb_view *word, struct core_option *read) {
    osb_status status = word_at(options, options->taken - 1, word);
    return status != OSB_OK ? status : CORE(flag)(word->at, word->len, options->at, read);
}

/* What the next word is read as; OSB_NONE if it is `--` and ends the options. */
static osb_status read_word(const osb_options *options, osb_view *word, struct core_option *read) {
    if (options->taken == options->len) return OSB_ENDED;
    osb_status status = word_at(options, options->taken, word);
    if (status != OSB_OK) return status;
    *read = (struct core_option){OSB_OPERAND, 0, 0, word->len};
    if (options->ended != 0) return OSB_OK;
    return CORE(option)(options->flags, word->at, word->len, read);
}

osb_status osb_options_next(osb_options *options, osb_option *option) {
    struct core_option own = {0, 0, 0, 0};
    osb_view word = {(const char *)nothing, 0};
    if (options == NULL || option == NULL || are_bad_views(options->words, options->len))
        return OSB_BAD_POINTER;
    bool is_left = options->at != 0;
    osb_status status =
        is_left ? read_left(options, &word, &own) : read_word(options, &word, &own);
    if (is_left && status == OSB_NONE) {
        own = (struct core_option){0, 0, options->at + 1, word.len};
        status = OSB_UNEXPECTED;
    }
    if (status == OSB_NONE) {
        options->taken++;
        options->ended = 1;
        status = read_word(options, &word, &own);
    }
    if (status != OSB_OK && status != OSB_UNEXPECTED) return status;
    *option = (osb_option){own.kind, own.value, {word.at + own.start, own.end - own.start}};
    options->at = own.end < word.len ? own.end : 0;
    options->taken += !is_left;
    return status;
}

osb_status osb_options_optional_value(osb_options *options, osb_view *value) {
    struct core_option own = {0, 0, 0, 0};
    osb_view word = {(const char *)nothing, 0};
    if (options == NULL || value == NULL || are_bad_views(options->words, options->len))
        return OSB_BAD_POINTER;
    const osb_options now = *options;
    if (now.at == 0) return OSB_NONE;
    osb_status status = read_left(&now, &word, &own);
    if (status != OSB_OK && status != OSB_NONE) return status;
    size_t start = now.at + (status == OSB_NONE);
    *value = (osb_view){word.at + start, word.len - start};
    options->at = 0;
    return OSB_OK;
}

osb_status osb_options_value(osb_options *options, osb_view *value) {
    osb_status status = osb_options_optional_value(options, value);
    if (status != OSB_NONE || options->taken == options->len) return status;
    osb_view word;
    status = word_at(options, options->taken, &word);
    if (status != OSB_OK) return status;
    *value = word;
    options->taken++;
    return OSB_OK;
}

/* Whether a text is a string that is ended by a 0. */
static bool is_name(osb_view text, const char *name) {
    for (size_t i = 0; i < text.len; i++)
        if (name[i] == 0 || name[i] != text.at[i]) return false;
    return name[text.len] == 0;
}

int osb_option_is(const osb_option *option, uint32_t character, const char *name) {
    if (option == NULL || is_bad(option->text.at, option->text.len)) return answer(OSB_BAD_POINTER);
    switch (option->kind) {
    case OSB_SHORT:
        return character != 0 && option->value == character;
    case OSB_LONG: return name != NULL && is_name(option->text, name);
    default: return 0;
    }
}

/* Whether an array that is filled can be written beside a string. Inlined, it divides by a
 * constant. */
INLINED bool is_bad_array(const void *out, size_t room, size_t size, size_t align,
                          osb_view string) {
    return room > PTRDIFF_MAX / size || is_bad(out, room * size) ||
           (room != 0 && (uintptr_t)out % align != 0) ||
           do_overlap(out, room * size, string.at, string.len);
}

/* An export that fills an array with pieces. */
typedef uint32_t core_pieces(const char *at, size_t len, const char *pattern, size_t pattern_len,
                             size_t from, size_t address, osb_view *out, size_t room,
                             struct core_filled *filled);

INLINED osb_status fill_split(core_pieces *call, osb_split *split, osb_view *pieces, size_t room,
                              size_t *count) {
    struct core_filled own = {0, 0, false};
    osb_view none;
    if (count == NULL || is_bad_split(split) ||
        is_bad_array(pieces, room, sizeof none, _Alignof(osb_view), split->string) ||
        do_overlap(pieces, room * sizeof none, split->pattern.at, split->pattern.len))
        return OSB_BAD_POINTER;
    if (split->ended != 0) return OSB_ENDED;
    osb_status status =
        call(split->string.at, split->string.len, split->pattern.at, split->pattern.len, split->next,
             (uintptr_t)split->string.at, room == 0 ? &none : pieces, room, &own);
    if (status != OSB_OK) return status;
    *count = own.count;
    split->next = own.next;
    split->ended = own.ended;
    return OSB_OK;
}

osb_status osb_split_fill(osb_split *split, osb_view *pieces, size_t room, size_t *count) {
    return fill_split(CORE(split_fill), split, pieces, room, count);
}

osb_status osb_rsplit_fill(osb_split *split, osb_view *pieces, size_t room, size_t *count) {
    return fill_split(CORE(rsplit_fill), split, pieces, room, count);
}

osb_status osb_chunks_fill(osb_chunks *chunks, osb_chunk *out, size_t room, size_t *count) {
    struct core_filled own = {0, 0, false};
    osb_chunk none;
    if (count == NULL || chunks == NULL || chunks->string.at == NULL ||
        is_bad(chunks->string.at, chunks->string.len) ||
        is_bad_array(out, room, sizeof none, _Alignof(osb_chunk), chunks->string))
        return OSB_BAD_POINTER;
    osb_status status =
        CORE(chunks_fill)(chunks->string.at, chunks->string.len, chunks->next,
                             (uintptr_t)chunks->string.at, room == 0 ? &none : out, room, &own);
    if (status != OSB_OK) return status;
    *count = own.count;
    chunks->next = own.next;
    return OSB_OK;
}

osb_status osb_symbols_fill(osb_symbols *symbols, osb_symbol *out, size_t room, size_t *count) {
    struct core_filled own = {0, 0, false};
    osb_symbol none;
    if (count == NULL || symbols == NULL || symbols->string.at == NULL ||
        is_bad(symbols->string.at, symbols->string.len) ||
        is_bad_array(out, room, sizeof none, _Alignof(osb_symbol), symbols->string))
        return OSB_BAD_POINTER;
    osb_status status = CORE(symbols_fill)(
        symbols->platform, symbols->string.at, symbols->string.len, symbols->next,
        (uintptr_t)symbols->string.at, room == 0 ? &none : out, room, &own);
    if (status != OSB_OK) return status;
    *count = own.count;
    symbols->next = own.next;
    return OSB_OK;
}

/* The views of a list as the exports take them, without a null pointer: the caller's, or a copy where an
 * empty item is null, which `*own` is then. Null if there is no memory for the copy. */
static const osb_view *without_null(const osb_view *views, size_t len, osb_view **own) {
    static const osb_view none;
    size_t i = 0;
    while (i < len && views[i].at != NULL) i++;
    *own = NULL;
    if (i == len) return len == 0 ? &none : views;
    *own = malloc(len * sizeof *views);
    for (i = 0; *own != NULL && i < len; i++)
        (*own)[i] = (osb_view){bytes(views[i].at), views[i].len};
    return *own;
}

osb_status osb_glob_matches(osb_platform platform, uint32_t options, const osb_view *patterns,
                            size_t patterns_len, const osb_view *paths, size_t paths_len,
                            bool *matched, osb_glob_fault *fault) {
    size_t count = 0;
    osb_view *own[2];
    osb_glob_fault own_fault = {0, 0, 0};
    if (is_bad(matched, paths_len) || are_bad_words(patterns, patterns_len, matched, paths_len) ||
        are_bad_words(paths, paths_len, matched, paths_len))
        return OSB_BAD_POINTER;
    patterns = without_null(patterns, patterns_len, &own[0]);
    paths = without_null(paths, paths_len, &own[1]);
    osb_status status = OSB_NO_MEMORY;
    if (patterns != NULL && paths != NULL)
        status = CORE(glob_matches)(platform, options, patterns, patterns_len, paths, paths_len,
                                       paths_len == 0 ? (uint8_t *)no_room : (uint8_t *)matched,
                                       paths_len, &count, &own_fault);
    free(own[0]);
    free(own[1]);
    if (fault != NULL && status == OSB_BAD_PATTERN) *fault = own_fault;
    return status;
}

osb_status osb_ignore_matches(const char *file, size_t file_len, const osb_view *paths, size_t len,
                              const bool *dirs, osb_verdict *verdicts) {
    size_t count = 0, dirs_len = dirs == NULL ? 0 : len;
    osb_view *own;
    osb_verdict none;
    if (is_bad(file, file_len) || is_bad(dirs, dirs_len) ||
        is_bad_array(verdicts, len, sizeof none, _Alignof(osb_verdict), (osb_view){file, file_len}) ||
        do_overlap(verdicts, len * sizeof none, dirs, dirs_len) ||
        are_bad_words(paths, len, verdicts, len * sizeof none))
        return OSB_BAD_POINTER;
    paths = without_null(paths, len, &own);
    osb_status status = OSB_NO_MEMORY;
    if (paths != NULL)
        status = CORE(ignore_matches)(bytes(file), file_len, paths, len,
                                         bytes((const char *)dirs), dirs_len,
                                         len == 0 ? &none : verdicts, len, &count);
    free(own);
    return status;
}

/* A set that is kept: the place of the exports, and what it has room for. The user has its address alone,
 * so that nobody copies it or writes to it. */
struct osb_globs {
    struct core_held held;
    void *set;
};

_Static_assert(sizeof(struct core_held) == 16 && offsetof(struct core_held, at) == 8, "core_held");
_Static_assert(sizeof(void *) == 8 && _Alignof(void *) == 8, "room for a pointer");

/* An empty place, or null. */
static osb_globs *empty_globs(void) {
    osb_globs *globs = malloc(sizeof *globs);
    if (globs != NULL) *globs = (osb_globs){{false, &globs->set}, NULL};
    return globs;
}

osb_status osb_globs_new(osb_platform platform, uint32_t options, const osb_view *patterns,
                         size_t len, osb_globs **globs, osb_glob_fault *fault) {
    osb_view *own;
    osb_glob_fault own_fault = {0, 0, 0};
    if (globs == NULL || are_bad_words(patterns, len, NULL, 0)) return OSB_BAD_POINTER;
    patterns = without_null(patterns, len, &own);
    osb_globs *made = empty_globs();
    osb_status status = OSB_NO_MEMORY;
    if (patterns != NULL && made != NULL)
        status = CORE(globs_new)(platform, options, patterns, len, &made->held, &own_fault);
    free(own);
    if (status == OSB_BAD_PATTERN && fault != NULL) *fault = own_fault;
    if (status == OSB_OK) *globs = made;
    else free(made);
    return status;
}

/* A place of its own for a call that leaves the set as it is. An export moves what is kept out of its place and back, so
 * of the calls that run at once on one set each has a copy of its place. None writes to the set, and they count who shares
 * it atomically. */
static struct core_held lent_globs(const osb_globs *globs, void **set) {
    *set = globs->set;
    return (struct core_held){globs->held.full, set};
}

int osb_globs_is_match(const osb_globs *globs, const char *path, size_t len) {
    if (globs == NULL || is_bad(path, len)) return answer(OSB_BAD_POINTER);
    void *set;
    struct core_held lent = lent_globs(globs, &set);
    return answer(CORE(globs_is_match)(&lent, bytes(path), len));
}

osb_status osb_globs_matches(const osb_globs *globs, const osb_view *paths, size_t len,
                             bool *matched) {
    size_t count = 0;
    osb_view *own;
    if (globs == NULL || is_bad(matched, len) || are_bad_words(paths, len, matched, len))
        return OSB_BAD_POINTER;
    paths = without_null(paths, len, &own);
    void *set;
    struct core_held lent = lent_globs(globs, &set);
    osb_status status = OSB_NO_MEMORY;
    if (paths != NULL)
        status = CORE(globs_matches)(&lent, paths, len,
                                        len == 0 ? (uint8_t *)no_room : (uint8_t *)matched, len, &count);
    free(own);
    return status;
}

osb_status osb_globs_share(const osb_globs *globs, osb_globs **other) {
    if (globs == NULL || other == NULL) return OSB_BAD_POINTER;
    osb_globs *made = empty_globs();
    if (made == NULL) return OSB_NO_MEMORY;
    void *set;
    struct core_held lent = lent_globs(globs, &set);
    osb_status status = CORE(globs_share)(&lent, &made->held);
    if (status == OSB_OK) *other = made;
    else free(made);
    return status;
}

void osb_globs_free(osb_globs *globs) {
    if (globs == NULL) return;
    CORE(globs_free)(&globs->held);
    free(globs);
}

/* What the exports keep of ignore files: two vectors, of three words each. */
struct core_files {
    void *words[6];
};

/* Ignore files that are kept, in the same way. */
struct osb_ignores {
    struct core_held held;
    struct core_files files;
    uint32_t users; /* how many calls read the files, and ADDING if one adds to them or waits to */
};

enum { ADDING = 1 << 30 };

/* Lets another thread run. */
#ifdef _WIN32
__declspec(dllimport) int __stdcall SwitchToThread(void);
#define give_way SwitchToThread
#else
#include <sched.h>
#define give_way sched_yield
#endif

/* Begins to read the files, beside others that read them, while no call adds to them. */
static void begin_reading(osb_ignores *ignores) {
    uint32_t users = __atomic_load_n(&ignores->users, __ATOMIC_RELAXED);
    for (;;) {
        if ((users & ADDING) != 0) {
            give_way();
            users = __atomic_load_n(&ignores->users, __ATOMIC_RELAXED);
        } else if (__atomic_compare_exchange_n(&ignores->users, &users, users + 1, true,
                                               __ATOMIC_ACQUIRE, __ATOMIC_RELAXED)) {
            return;
        }
    }
}

static void end_reading(osb_ignores *ignores) {
    __atomic_fetch_sub(&ignores->users, 1, __ATOMIC_RELEASE);
}

/* Begins to add to the files, once those that read them have ended. No other call begins meanwhile. */
static void begin_adding(osb_ignores *ignores) {
    while ((__atomic_fetch_or(&ignores->users, ADDING, __ATOMIC_ACQUIRE) & ADDING) != 0) give_way();
    while (__atomic_load_n(&ignores->users, __ATOMIC_ACQUIRE) != ADDING) give_way();
}

static void end_adding(osb_ignores *ignores) {
    __atomic_store_n(&ignores->users, 0, __ATOMIC_RELEASE);
}

osb_status osb_ignores_new(osb_ignores **ignores) {
    if (ignores == NULL) return OSB_BAD_POINTER;
    osb_ignores *made = malloc(sizeof *made);
    if (made == NULL) return OSB_NO_MEMORY;
    *made = (osb_ignores){{false, &made->files}, {{NULL}}, 0};
    osb_status status = CORE(ignores_new)(&made->held);
    if (status == OSB_OK) *ignores = made;
    else free(made);
    return status;
}

osb_status osb_ignores_add(osb_ignores *ignores, const char *directory, size_t directory_len,
                           const char *file, size_t file_len) {
    if (ignores == NULL || is_bad(directory, directory_len) || is_bad(file, file_len))
        return OSB_BAD_POINTER;
    begin_adding(ignores);
    osb_status status =
        CORE(ignores_add)(&ignores->held, bytes(directory), directory_len, bytes(file), file_len);
    end_adding(ignores);
    return status;
}

osb_status osb_ignores_match(osb_ignores *ignores, const char *path, size_t len, bool is_dir,
                             osb_decision *decision) {
    if (ignores == NULL || decision == NULL || is_bad(path, len)) return OSB_BAD_POINTER;
    begin_reading(ignores);
    struct core_files files = ignores->files;
    struct core_held lent = {ignores->held.full, &files};
    osb_status status = CORE(ignores_match)(&lent, bytes(path), len, is_dir, decision);
    end_reading(ignores);
    return status;
}

void osb_ignores_free(osb_ignores *ignores) {
    if (ignores == NULL) return;
    CORE(ignores_free)(&ignores->held);
    free(ignores);
}
