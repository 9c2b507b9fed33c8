/* osbytes.h: strings of operating systems, of any platform on any platform.
 *
 * A string of Unix is any bytes, one of Windows is WTF-8 (its 16-bit code units, lone surrogates
 * too, as generalized UTF-8), one of wasm is UTF-8. Lengths and indices count bytes, unless another
 * unit is named. A 0 byte is a byte like any other and doesn't end a string.
 *
 * A first example: print a file name on one line of a terminal, whatever bytes it has.
 *
 *     char text[6 * NAME_MAX];
 *     size_t len;
 *     if (osb_escape_line(OSB_UNIX, name, strlen(name), text, sizeof text, &len, NULL) == OSB_OK)
 *         printf("%.*s\n", (int)len, text);
 *
 * Contents, in the order of this header:
 *
 *     versions, statuses      osb_version, osb_status_text
 *     checks                  osb_check, osb_checker_start .., osb_fault_text
 *     16-bit units            osb_to_wide, osb_from_wide
 *     lossy text, escapes     osb_lossy, osb_escape, osb_escape_line, osb_unescape, osb_unescape_line
 *     searches                osb_find, osb_rfind, osb_contains, osb_starts_with, osb_ends_with,
 *                             osb_starts_with_units, osb_ends_with_units, osb_is_boundary,
 *                             osb_compare
 *     iterators               osb_split_start .., osb_rsplit_start .., osb_chunks_start ..,
 *                             osb_symbols_start ..
 *     parts of paths          osb_path_components, osb_path_parent, osb_path_prefix,
 *                             osb_path_file_name, osb_path_file_stem, osb_path_extension,
 *                             osb_path_has_root, osb_path_is_absolute, osb_path_starts_with,
 *                             osb_path_ends_with, osb_path_strip_prefix
 *     paths that are built    osb_path_join, osb_path_join_checked, osb_path_relative,
 *                             osb_path_normalize, osb_path_clean, osb_path_convert,
 *                             osb_path_with_file_name, osb_path_with_extension,
 *                             osb_path_with_added_extension
 *     path patterns           osb_glob_matches; osb_globs_new ..
 *     ignore files            osb_ignore_matches; osb_ignores_new ..
 *     words of a shell        osb_shell_quote, osb_shell_quote_line, osb_fish_quote,
 *                             osb_powershell_quote, osb_shell_join, osb_shell_words
 *     Windows command lines   osb_windows_quote, osb_windows_quote_name, osb_windows_command_line,
 *                             osb_windows_arguments
 *     options and operands    osb_options_start ..
 *
 * Results. A call that does something returns an osb_status: OSB_OK, or why not. A call that tests
 * something returns an int: 1 it holds, 0 it doesn't, or a negative number, which is minus the
 * osb_status of what is wrong with the arguments.
 *
 *     int found = osb_contains(at, len, "..", 2);
 *     if (found < 0) fputs(osb_status_text((osb_status)-found), stderr);
 *     else if (found) puts("it has two dots");
 *
 * Lists. A list that a call reads is an array of osb_view and how many there are: patterns, paths,
 * words. What a call writes for each item goes into an array of the caller's with as many items. A
 * text in which a 0 ends each item, as `find -print0` and `git ls-files -z` write it, is cut into views
 * by osb_split_start with the pattern "\0", of 1 byte, and osb_split_fill; the last 0 is left off:
 *
 *     osb_view paths[256];
 *     bool matched[256];
 *     osb_split split;
 *     size_t count;
 *     osb_status status = len == 0 ? OSB_ENDED : osb_split_start(&split, text, len - 1, "\0", 1);
 *     while (status == OSB_OK && (status = osb_split_fill(&split, paths, 256, &count)) == OSB_OK)
 *         status = osb_globs_matches(globs, paths, count, matched);
 *
 * What else is written as a list goes into an array of the caller's, or for words of a line into a
 * buffer with a 0 after each. Iterators return their items one by one (_next), or many at once (_fill).
 *
 * Threads and signals. No call keeps state, or writes anything but through its arguments. So every
 * call may run in any thread, if no other thread writes to what it reads or touches what it writes.
 * It may run in a signal handler, too, except for the calls that take memory by malloc: those that
 * build paths (osb_path_join to osb_path_with_added_extension), osb_glob_matches and
 * osb_ignore_matches, which free it before they return, and osb_globs_new .. and osb_ignores_new ..,
 * which keep it until osb_globs_free and osb_ignores_free. Patterns and ignore files that are kept may
 * be used by any number of threads at once, until one of them frees them (osb_globs, osb_ignores).
 *
 * What a caller owes, since no call can test it:
 *   - (at, len) is len readable bytes, (out, room) is room writable items, for the whole call;
 *   - a struct or a number that a call is given by a pointer is there, is aligned as its type, and
 *     overlaps nothing else that the call is given;
 *   - an iterator or a checker was started by its own call, and its strings stay as they were.
 * What a call tests: a null pointer with a length, a length past PTRDIFF_MAX, units and components
 * that aren't aligned, a buffer that overlaps what is read (OSB_BAD_POINTER, which any call can
 * return and none lists), and every value but the bits, kind and value of a checker, which are taken
 * as they are. A null pointer with length 0 is the empty string, or no room.
 *
 * Buffers. A call that writes into a buffer writes as far as there is room, and its count is what
 * the whole result needs, with OSB_OK and with OSB_NO_ROOM alike. So a call with room 0 returns that
 * count, and the _bound calls give a room that is always enough. What the result doesn't reach
 * stays as it is. A result that is cut off may end within a character, a token or a surrogate pair.
 * With any other status the buffer's content isn't specified, and no count is written.
 *
 * The library is for Linux, on x86-64 and on aarch64, and for Windows on x86-64. On x86-64 it uses the
 * vector instructions that the processor has (those of x86-64-v2 and x86-64-v3). It detects them
 * once, before main or while it is loaded.
 *
 * On Windows no macro is needed. For osbytes.dll MinGW links libosbytes.dll.a and MSVC osbytes.lib:
 * cl /I include outside.c lib\osbytes.lib. Without it either links libosbytes.a, which takes malloc
 * from the program's own runtime.
 */
#ifndef OSBYTES_H
#define OSBYTES_H

#include <stdbool.h>
#include <stddef.h>
#include <stdint.h>

/* A result that must be looked at: a compiler warns where it isn't used. */
#if defined(__cplusplus) && __cplusplus >= 201703L
#define OSB_NODISCARD [[nodiscard]]
#elif defined(__STDC_VERSION__) && __STDC_VERSION__ >= 202311L
#define OSB_NODISCARD [[nodiscard]]
#elif defined(__GNUC__)
#define OSB_NODISCARD __attribute__((warn_unused_result))
#else
#define OSB_NODISCARD
#endif

#ifdef __cplusplus
extern "C" {
#endif

/* The version of this header, 0.3.0, as one number. The shared library's name has its first two parts, which change if
 * a program that was compiled with the header before them no longer fits the library. */
#define OSB_VERSION 300

/* Returns the version of the library, as OSB_VERSION is that of the header: compare OSB_VERSION / 100 with
 * osb_version() / 100. */
uint32_t osb_version(void);

typedef enum osb_platform {
    OSB_UNIX = 0,
    OSB_WINDOWS = 1,
    OSB_WASM = 2
} osb_platform;

typedef enum osb_status {
    OSB_OK = 0,
    OSB_FAULTY = 1,        /* bytes aren't a string of the platform */
    OSB_NO_ROOM = 2,       /* the buffer is too short: the count is what it needs */
    OSB_NONE = 3,          /* the pattern doesn't occur; a path has no such part; no word is left */
    OSB_ENDED = 4,         /* there are no more items */
    OSB_BAD_ESCAPE = 5,    /* a backslash of an escape begins no token */
    OSB_NO_STRING = 6,     /* no string of the platform has this escape */
    OSB_HAS_NUL = 7,       /* the name or the line has a NUL, which no word and no argument can have */
    OSB_BAD_LINE = 8,      /* the line isn't words of a shell */
    OSB_HAS_QUOTE = 9,     /* the program's name has a quotation mark, which no command line can have there */
    OSB_UNEXPECTED = 10,   /* an option has a value that nothing took */
    OSB_NO_MEMORY = 11,    /* there is no memory for what is built */
    OSB_BAD_PATH = 12,     /* a path isn't below its base, or none of the other platform */
    /* from 16 on: an argument is rejected, and nothing was written but maybe into a buffer */
    OSB_BAD_PLATFORM = 16, /* there is no such platform */
    OSB_BAD_PATTERN = 17,  /* the pattern or the escape isn't UTF-8, or the pattern is empty where
                            * it may not be; a path pattern has a fault */
    OSB_BAD_INDEX = 18,    /* the index is past the end */
    OSB_BAD_FAULT = 19,    /* there is no such fault */
    OSB_BAD_STATE = 20,    /* no call leaves a checker so */
    OSB_TOO_LONG = 21,     /* what the _bound call returns is past SIZE_MAX */
    OSB_BAD_OPTION = 22,   /* there is no such option */
    OSB_BAD_EXTENSION = 23, /* the extension has a separator */
    OSB_EMPTY = 26,         /* a set or ignore files keep nothing: no call leaves them so */
    OSB_BAD_POINTER = 32   /* null, too long, not aligned, or overlapping */
} osb_status;

/* Returns what a status means, in English and ASCII, ended by a 0. It is never null, and stays. */
const char *osb_status_text(osb_status status);

/* Bytes of the caller's string. Where a call writes one, `at` is never null: a view of no bytes is
 * where it would be in the string, or anywhere if that was a null pointer. */
typedef struct osb_view {
    const char *at;
    size_t len;
} osb_view;

typedef enum osb_fault_kind {
    OSB_FAULT_BYTE = 1,       /* value: a byte that can't occur where it is */
    OSB_FAULT_CODE_POINT = 2, /* value: overlong, past 10FFFF, or the low half of a pair */
    OSB_FAULT_END = 3,        /* the bytes end within a code point */
    OSB_FAULT_UTF8 = 4,       /* a part that isn't UTF-8 */
    OSB_FAULT_UTF8_END = 5    /* the bytes end within a character */
} osb_fault_kind;

/* The first fault of bytes. */
typedef struct osb_fault {
    osb_fault_kind kind;
    uint32_t value;      /* the byte, the code point, or 0 */
    size_t index;        /* how many bytes before it are well formed */
    size_t count;        /* how many bytes are rejected with it */
} osb_fault;

/* Whether the bytes are a string of the platform: OSB_OK, OSB_FAULTY, OSB_BAD_PLATFORM. `fault`
 * may be null, here and in each call that writes one; it is written with OSB_FAULTY alone. */
OSB_NODISCARD osb_status osb_check(osb_platform platform, const char *at, size_t len,
                                   osb_fault *fault);

/* A check of bytes that come in pieces, for Windows. The fields are the library's. It holds no
 * memory, and a copy of it is independent. */
typedef struct osb_checker {
    uint32_t state;
    uint32_t bits;
    uint32_t kind;
    uint32_t value;
} osb_checker;

/* Starts a check of bytes that come in pieces: OSB_OK. */
osb_status osb_checker_start(osb_checker *checker);
/* Reads one more piece: OSB_OK, or OSB_FAULTY if the bytes joined have a fault that no later byte
 * changes, from then on in every call; OSB_BAD_STATE. The fault has kind and value, and 0 for
 * index and count, since a checker keeps no bytes. */
OSB_NODISCARD osb_status osb_checker_feed(osb_checker *checker, const char *at, size_t len,
                                          osb_fault *fault);
/* Whether all the bytes that were fed, joined, are WTF-8: OSB_OK, OSB_FAULTY, OSB_BAD_STATE. */
OSB_NODISCARD osb_status osb_checker_finish(const osb_checker *checker, osb_fault *fault);

/* A room that is enough for each fault's text and the 0 after it. */
#define OSB_FAULT_TEXT_ROOM 129

/* Writes the text of a fault, in ASCII, and a 0 after it: OSB_OK, OSB_NO_ROOM, OSB_BAD_FAULT.
 * `fault` may not be null. `*count` is the length of the text without the 0, and `room` must be
 * greater. With OSB_NO_ROOM the first room - 1 bytes of the text are written, and no 0. */
OSB_NODISCARD osb_status osb_fault_text(const osb_fault *fault, char *out, size_t room,
                                        size_t *count);

/* The maximum number of units of a Windows string with `len` bytes. */
size_t osb_wide_bound(size_t len);

/* Writes the 16-bit units of a Windows string: OSB_OK, OSB_FAULTY, OSB_NO_ROOM. `room` and
 * `*count` count units. */
OSB_NODISCARD osb_status osb_to_wide(const char *at, size_t len, uint16_t *out, size_t room,
                                     size_t *count, osb_fault *fault);

/* The maximum number of bytes of a Windows string with `len` units; SIZE_MAX past that. */
size_t osb_bytes_bound(size_t len);

/* Writes the Windows string that has these units, which may be any: OSB_OK, OSB_NO_ROOM. */
OSB_NODISCARD osb_status osb_from_wide(const uint16_t *units, size_t len, char *out, size_t room,
                                       size_t *count);

/* The maximum number of bytes of the lossy text of a string with `len` bytes; SIZE_MAX past that. */
size_t osb_lossy_bound(size_t len);

/* Writes the lossy text of a string, in which U+FFFD replaces what isn't text: OSB_OK, OSB_FAULTY,
 * OSB_NO_ROOM, OSB_TOO_LONG, OSB_BAD_PLATFORM. */
OSB_NODISCARD osb_status osb_lossy(osb_platform platform, const char *at, size_t len, char *out,
                                   size_t room, size_t *count, osb_fault *fault);

/* The maximum number of bytes of the escape of a string with `len` bytes, in either form; SIZE_MAX
 * past that. */
size_t osb_escape_bound(size_t len);

/* Writes the escape of a string, a text (UTF-8) that no other string of the platform has: in it each
 * backslash is doubled, a unit that is no part of a text is \xHH below 100 (hexadecimal), else
 * \uHHHH, and all else is as it is. OSB_OK, OSB_FAULTY, OSB_NO_ROOM, OSB_TOO_LONG,
 * OSB_BAD_PLATFORM. */
OSB_NODISCARD osb_status osb_escape(osb_platform platform, const char *at, size_t len, char *out,
                                    size_t room, size_t *count, osb_fault *fault);
/* Writes the escape of a string for a log line or a terminal, as osb_escape does. In addition, each
 * character that is hidden or changes how the others are shown is \uHHHH or \u{HHHHH}, and so is a
 * space at the end. Hidden are the categories Cc, Cf, Co, Zl, Zp and Zs except the space, and what Unicode
 * calls default ignorable. So are noncharacters, the blanks U+2800, U+13441, U+13442 and U+1D159, and all from
 * U+40000 on. It doesn't find names that look alike. */
OSB_NODISCARD osb_status osb_escape_line(osb_platform platform, const char *at, size_t len,
                                         char *out, size_t room, size_t *count, osb_fault *fault);

/* The maximum number of bytes of the string with an escape of `len` bytes, which is `len`. */
size_t osb_unescape_bound(size_t len);

/* Writes the string that has this escape: OSB_OK, OSB_NO_ROOM, OSB_BAD_ESCAPE, OSB_NO_STRING,
 * OSB_BAD_PATTERN, OSB_BAD_PLATFORM. With OSB_BAD_ESCAPE `*index` is the index of the first
 * backslash that begins no token; `index` may be null. With OSB_NO_ROOM each backslash is in a
 * token, but whether a string of the platform has this escape is known only where there is room
 * for it: `*count` is the length of the one that may. */
OSB_NODISCARD osb_status osb_unescape(osb_platform platform, const char *escape, size_t len,
                                      char *out, size_t room, size_t *count, size_t *index);
/* Writes the string that has this escape on one line (osb_escape_line), as osb_unescape does. */
OSB_NODISCARD osb_status osb_unescape_line(osb_platform platform, const char *escape, size_t len,
                                           char *out, size_t room, size_t *count, size_t *index);

/* The first and the last index at which a pattern, which is UTF-8, occurs in a string of any
 * platform: OSB_OK, OSB_NONE, OSB_BAD_PATTERN. The empty pattern occurs at 0 and at the end. */
OSB_NODISCARD osb_status osb_find(const char *at, size_t len, const char *pattern,
                                  size_t pattern_len, size_t *index);
OSB_NODISCARD osb_status osb_rfind(const char *at, size_t len, const char *pattern,
                                   size_t pattern_len, size_t *index);

/* Whether the string contains the pattern, starts with it, ends with it: 1, 0, -OSB_BAD_PATTERN. */
OSB_NODISCARD int osb_contains(const char *at, size_t len, const char *pattern, size_t pattern_len);
OSB_NODISCARD int osb_starts_with(const char *at, size_t len, const char *pattern,
                                  size_t pattern_len);
OSB_NODISCARD int osb_ends_with(const char *at, size_t len, const char *pattern,
                                size_t pattern_len);

/* Whether the units of a string start or end with those of another string of the platform; half
 * of a surrogate pair counts: 1, 0, -OSB_FAULTY (either isn't a string), -OSB_BAD_PLATFORM. */
OSB_NODISCARD int osb_starts_with_units(osb_platform platform, const char *at, size_t len,
                                        const char *prefix, size_t prefix_len);
OSB_NODISCARD int osb_ends_with_units(osb_platform platform, const char *at, size_t len,
                                      const char *suffix, size_t suffix_len);

/* Whether a string of any platform may be cut at an index: 1, 0. */
OSB_NODISCARD int osb_is_boundary(const char *at, size_t len, size_t index);

/* How two strings of a platform are ordered, as their bytes are: OSB_OK, and `*order` is -1, 0 or
 * 1. */
OSB_NODISCARD osb_status osb_compare(const char *a, size_t a_len, const char *b, size_t b_len,
                                     int32_t *order);

/* The pieces of a string between the occurrences of a pattern, which isn't empty: from the start,
 * or from the end. The fields are the library's: start an iterator by osb_split_start or
 * osb_rsplit_start, and step it by osb_split_next or osb_rsplit_next. It holds no memory, and a
 * copy of it is independent. */
typedef struct osb_split {
    osb_view string;
    osb_view pattern;
    size_t next;
    uint32_t ended;
} osb_split;

/* Starts an iterator over the pieces between the occurrences of a pattern, from the start of the
 * string (osb_split_start) or from its end (osb_rsplit_start): OSB_OK, OSB_BAD_PATTERN. */
OSB_NODISCARD osb_status osb_split_start(osb_split *split, const char *at, size_t len,
                                         const char *pattern, size_t pattern_len);
OSB_NODISCARD osb_status osb_rsplit_start(osb_split *split, const char *at, size_t len,
                                          const char *pattern, size_t pattern_len);
/* Writes the next piece: OSB_OK, OSB_ENDED after the last. Of an iterator that isn't as a call left
 * it, or whose pattern has changed, OSB_BAD_INDEX or OSB_BAD_PATTERN. */
OSB_NODISCARD osb_status osb_split_next(osb_split *split, osb_view *piece);
OSB_NODISCARD osb_status osb_rsplit_next(osb_split *split, osb_view *piece);

/* Writes the next pieces, as many as there is room for, and goes on after them, in a fraction of the
 * time of as many steps: OSB_OK with their number, OSB_ENDED after the last, with which nothing is
 * written; else as osb_split_next. With room 0 nothing is read. The array overlaps neither string. */
OSB_NODISCARD osb_status osb_split_fill(osb_split *split, osb_view *pieces, size_t room,
                                        size_t *count);
OSB_NODISCARD osb_status osb_rsplit_fill(osb_split *split, osb_view *pieces, size_t room,
                                         size_t *count);

/* The chunks of a string of any platform: each a part without whole characters, and the text
 * (UTF-8) after it. osb_to_wide gives the units of a part of a Windows string. */
typedef struct osb_chunks {
    osb_view string;
    size_t next;
} osb_chunks;

typedef struct osb_chunk {
    osb_view part;
    osb_view text;
} osb_chunk;

/* Starts an iterator over the chunks of a string: OSB_OK. */
osb_status osb_chunks_start(osb_chunks *chunks, const char *at, size_t len);
/* Writes the next chunk: OSB_OK, OSB_ENDED after the last. Of an iterator that isn't as a call left it,
 * OSB_BAD_INDEX. */
OSB_NODISCARD osb_status osb_chunks_next(osb_chunks *chunks, osb_chunk *chunk);
/* Writes the next chunks, as many as there is room for, as osb_split_fill does of pieces. */
OSB_NODISCARD osb_status osb_chunks_fill(osb_chunks *chunks, osb_chunk *out, size_t room,
                                         size_t *count);

/* The symbols of a string: its whole characters, and the units of what isn't text. The fields are
 * the library's. It holds no memory, and a copy of it is independent. */
typedef struct osb_symbols {
    osb_view string;
    size_t next;
    osb_platform platform;
} osb_symbols;

typedef enum osb_symbol_kind {
    OSB_CHARACTER = 1, /* value: the character */
    OSB_UNIT = 2       /* value: a byte of Unix, at least 80 (hexadecimal), or a lone surrogate */
} osb_symbol_kind;

typedef struct osb_symbol {
    osb_symbol_kind kind;
    uint32_t value;
    osb_view bytes;
} osb_symbol;

/* Starts an iterator over the symbols of a string: OSB_OK, OSB_FAULTY, OSB_BAD_PLATFORM. */
OSB_NODISCARD osb_status osb_symbols_start(osb_symbols *symbols, osb_platform platform,
                                           const char *at, size_t len, osb_fault *fault);
/* Writes the next symbol: OSB_OK, OSB_ENDED after the last. Of an iterator that isn't as a call left
 * it, or whose string has changed, OSB_BAD_INDEX, OSB_BAD_PLATFORM or OSB_FAULTY. */
OSB_NODISCARD osb_status osb_symbols_next(osb_symbols *symbols, osb_symbol *symbol);
/* Writes the next symbols, as many as there is room for, as osb_split_fill does of pieces. */
OSB_NODISCARD osb_status osb_symbols_fill(osb_symbols *symbols, osb_symbol *out, size_t room,
                                          size_t *count);

/* Paths are taken apart as Rust's std::path does it, without a file system: those of OSB_UNIX and
 * OSB_WASM by the rules of POSIX, those of OSB_WINDOWS by the rules of Windows. Their bytes aren't
 * checked. Each part begins and ends at an end of the path or beside an ASCII byte, so the parts of a
 * string are strings. Empty parts name nothing, and neither does `.`, but at the start of a path
 * without a root or a prefix, and after \\?\. `..` is a component like any other. */
typedef enum osb_component_kind {
    OSB_PREFIX = 1,  /* as C: or \\server\share, of Windows alone */
    OSB_ROOT = 2,    /* its separator, or no byte if the prefix implies a root */
    OSB_CURRENT = 3, /* . */
    OSB_PARENT = 4,  /* .. */
    OSB_NAME = 5     /* any other */
} osb_component_kind;

typedef struct osb_component {
    osb_component_kind kind;
    size_t start; /* the index of its first byte */
    size_t end;   /* the index after its last byte */
} osb_component;

/* Writes the components of a path, in order: OSB_OK, OSB_NO_ROOM, OSB_BAD_PLATFORM. `room` and
 * `*count` count components. A path has at most one component more than it has bytes. */
OSB_NODISCARD osb_status osb_path_components(osb_platform platform, const char *at, size_t len,
                                             osb_component *out, size_t room, size_t *count);

/* Finds a part of a path: OSB_OK, OSB_NONE (it has no such part, and nothing is written), OSB_BAD_PLATFORM.
 * The parent is the path without its last component, and there is none if that is a prefix or a
 * root; the parent of `a` is empty. The prefix is that of Windows, as C: or \\server\share. The file
 * name is the last component if it is a name, and has no trailing separator. Its stem and its
 * extension are what comes before and after its last dot, where that isn't its first byte. Without
 * such a dot there is no extension, and the stem is the name. */
OSB_NODISCARD osb_status osb_path_parent(osb_platform platform, const char *at, size_t len,
                                         osb_view *parent);
OSB_NODISCARD osb_status osb_path_prefix(osb_platform platform, const char *at, size_t len,
                                         osb_view *prefix);
OSB_NODISCARD osb_status osb_path_file_name(osb_platform platform, const char *at, size_t len,
                                            osb_view *name);
OSB_NODISCARD osb_status osb_path_file_stem(osb_platform platform, const char *at, size_t len,
                                            osb_view *stem);
OSB_NODISCARD osb_status osb_path_extension(osb_platform platform, const char *at, size_t len,
                                            osb_view *extension);

/* Whether a path has a root, and whether it is absolute, which a path of Windows is if it has a prefix,
 * too: 1, 0, -OSB_BAD_PLATFORM. */
OSB_NODISCARD int osb_path_has_root(osb_platform platform, const char *at, size_t len);
OSB_NODISCARD int osb_path_is_absolute(osb_platform platform, const char *at, size_t len);

/* Whether the first components of a path are those of a base, and the last ones those of a child:
 * 1, 0, -OSB_BAD_PLATFORM. The drives C: and c: are the same. */
OSB_NODISCARD int osb_path_starts_with(osb_platform platform, const char *at, size_t len,
                                       const char *base, size_t base_len);
OSB_NODISCARD int osb_path_ends_with(osb_platform platform, const char *at, size_t len,
                                     const char *child, size_t child_len);

/* Finds what of a path follows the components of a base, up to the end of its last component: OSB_OK, OSB_NONE
 * (its first components aren't those of the base, and nothing is written), OSB_BAD_PLATFORM. It begins with
 * the next component, or with the root if the base is a prefix alone, as C:, and is empty if none follows. */
OSB_NODISCARD osb_status osb_path_strip_prefix(osb_platform platform, const char *at, size_t len,
                                               const char *base, size_t base_len, osb_view *rest);

/* Paths that are built of others. Their bytes aren't checked: of strings of a platform the path is one, too.
 * With room 0 each returns how much room is enough. Each takes memory by malloc while it runs. */

/* Writes a path after a base, as std's Path::join does: OSB_OK, OSB_NO_ROOM, OSB_NO_MEMORY,
 * OSB_BAD_PLATFORM. A path with a prefix replaces the base, and one with a root all but the base's prefix.
 * Any other follows the base, after a separator unless the base is empty, ends with one, or is a drive alone,
 * as C:. After a base that begins with \\?\ `.` is left out, and `..` takes the name before it away. */
OSB_NODISCARD osb_status osb_path_join(osb_platform platform, const char *base, size_t base_len,
                                       const char *at, size_t len, char *out, size_t room,
                                       size_t *count);

/* Why a path isn't below a base: the first of these that holds, in the order 8, 6, 7, 1, 2. Of 3 to 5 it is that
 * of the first component at fault, even if a later `..` removes it. */
typedef enum osb_join_reason {
    OSB_JOIN_PREFIX = 1,   /* the path has a prefix */
    OSB_JOIN_ROOT = 2,     /* it has a root */
    OSB_JOIN_LEAVES = 3,   /* a `..` has no name of the path before it to take away */
    OSB_JOIN_STREAM = 4,   /* a name of a Windows path has a colon */
    OSB_JOIN_RESERVED = 5, /* a name of a Windows path is reserved, as nul.txt, has one of <>"|?* or a
                            * control character, or ends with a space or a dot, which Windows removes */
    OSB_JOIN_BASE = 6,     /* the base of Windows is incomplete, as \\server, has a reserved name, as C:\nul, or has a
                            * separator after \\?\ that Windows reads otherwise, as \\?\C:/a */
    OSB_JOIN_NUL = 7,      /* the path has a NUL, at which every system ends it */
    OSB_JOIN_BASE_NUL = 8  /* the base has one */
} osb_join_reason;

/* Why a path isn't below a base, and where. The index is the number, from 0 on, of the first component at fault, as
 * osb_path_components counts them (OSB_JOIN_LEAVES, OSB_JOIN_STREAM, OSB_JOIN_RESERVED), or the byte index of the first
 * NUL (OSB_JOIN_NUL, OSB_JOIN_BASE_NUL). With any other reason it is 0. */
typedef struct osb_join_fault {
    size_t index;
    osb_join_reason reason;
} osb_join_fault;

/* Writes a path below a base, for names out of an archive or a request: the base's components, and after
 * them the names of the path, in which `.` and `..` are resolved. OSB_OK, OSB_NO_ROOM, OSB_NO_MEMORY,
 * OSB_BAD_PLATFORM, and OSB_BAD_PATH, with which `*fault` is why there is none, as OSB_JOIN_LEAVES of
 * component 2; `fault` may be null.
 * It looks at the path alone, by the rules of `platform`: links, mounts and 8.3 names may still lead
 * elsewhere. */
OSB_NODISCARD osb_status osb_path_join_checked(osb_platform platform, const char *base,
                                               size_t base_len, const char *at, size_t len,
                                               char *out, size_t room, size_t *count,
                                               osb_join_fault *fault);

/* Writes how a path is reached from a base, without a file system: OSB_OK, OSB_NO_ROOM, OSB_NO_MEMORY,
 * OSB_NONE (it isn't), OSB_BAD_PLATFORM. The base itself is reached by the empty path. */
OSB_NODISCARD osb_status osb_path_relative(osb_platform platform, const char *at, size_t len,
                                           const char *base, size_t base_len, char *out,
                                           size_t room, size_t *count);

/* Writes the normal form of a path: without `.` but at the start, and without each `..` and the name before
 * it. OSB_OK, OSB_NO_ROOM, OSB_NO_MEMORY, OSB_NONE (a `..` has no name before it), OSB_BAD_PLATFORM. A path
 * that begins with \\?\ keeps all its components. */
OSB_NODISCARD osb_status osb_path_normalize(osb_platform platform, const char *at, size_t len,
                                            char *out, size_t room, size_t *count);
/* Writes the path cleaned, as Go's path.Clean does: also without a `.` at the start and a `..` at a root, and
 * each other `..` without a name before it stays. The empty path is `.`. On Unix two slashes at the start become
 * one, which Python's posixpath.normpath keeps. On Windows the result is that of ntpath.normpath, but what the
 * prefix of a path is follows Rust's std, and nothing is resolved of a path that begins with \\.\ or //?/, with a
 * name that has a colon, or with two separators and no prefix, as \\server.
 * A share and a drive are written with \, but //?/share with /. A path that begins with \\?\ is kept.
 * OSB_OK, OSB_NO_ROOM, OSB_NO_MEMORY, OSB_BAD_PLATFORM. */
OSB_NODISCARD osb_status osb_path_clean(osb_platform platform, const char *at, size_t len,
                                        char *out, size_t room, size_t *count);

/* Writes the path of another platform with the same components: OSB_OK, OSB_NO_ROOM, OSB_NO_MEMORY,
 * OSB_FAULTY (the bytes aren't a string of platform `to`), OSB_BAD_PATH, OSB_BAD_PLATFORM. With OSB_BAD_PATH
 * `*index` is the number, from 0 on, of the first component that paths of `to` can't have: a prefix, a name
 * with one of their separators, or a first name that would be a prefix. `index` and `fault` may be null. */
OSB_NODISCARD osb_status osb_path_convert(osb_platform from, osb_platform to, const char *at,
                                          size_t len, char *out, size_t room, size_t *count,
                                          size_t *index, osb_fault *fault);

/* Writes a path with another last name, which is joined to its parent, or to the path itself if that
 * doesn't end in a name: OSB_OK, OSB_NO_ROOM, OSB_NO_MEMORY, OSB_BAD_PLATFORM. */
OSB_NODISCARD osb_status osb_path_with_file_name(osb_platform platform, const char *at, size_t len,
                                                 const char *name, size_t name_len, char *out,
                                                 size_t room, size_t *count);
/* Writes a path with this extension of its last name, without a dot: it replaces the name's own, or follows it.
 * An empty one removes the name's own, or adds nothing. A path that doesn't end in a name stays as it is. OSB_OK,
 * OSB_NO_ROOM, OSB_NO_MEMORY, OSB_BAD_EXTENSION (it has a separator), OSB_BAD_PLATFORM. */
OSB_NODISCARD osb_status osb_path_with_extension(osb_platform platform, const char *at, size_t len,
                                                 const char *extension, size_t extension_len,
                                                 char *out, size_t room, size_t *count);
OSB_NODISCARD osb_status osb_path_with_added_extension(osb_platform platform, const char *at,
                                                       size_t len, const char *extension,
                                                       size_t extension_len, char *out, size_t room,
                                                       size_t *count);

// Path patterns. A pattern matches a whole path, never a part of one:
//     ?            one character, or one unit of what isn't text; not a separator
//     *            any number of these
//     **           as a whole component: any number of components, as in **/x and a/**
//     [abc] [a-z]  one of these characters; [!a] or [^a] one of the others; ] is one if it is first
//     [[:alpha:]]  one of a class of ASCII: alnum alpha blank cntrl digit graph lower print punct
//                  space upper xdigit, in brackets beside others
//     {a,b}        either of these: they may have wildcards, be empty, and nest
//     \x           the character x, with OSB_GLOB_ESCAPES; every other character matches itself
// Without OSB_GLOB_SLASH nothing separates. *.c doesn't match ./a.c: paths as `find .` prints them
// take **/*.c.

/* How path patterns are read and matched. Options are added. */
enum {
    OSB_GLOB_SLASH = 1,          /* a / separates, which only a / or a component ** matches */
    OSB_GLOB_BACKSLASH = 2,      /* a \ separates, too; with OSB_GLOB_SLASH alone */
    OSB_GLOB_LITERAL_DOT = 4,    /* a dot that begins a component is matched by a dot alone */
    OSB_GLOB_ESCAPES = 8,        /* a \ quotes the next character, if it doesn't separate */
    OSB_GLOB_CLASS_ESCAPES = 16, /* and in a class, too */
    OSB_GLOB_ANY_CASE = 32       /* characters that differ in case alone are one */
};

typedef enum osb_glob_fault_kind {
    OSB_GLOB_UNCLOSED_CLASS = 1, /* the index is that of its [ */
    OSB_GLOB_REVERSED_RANGE = 2, /* as in [z-a]: that of its first letter */
    OSB_GLOB_UNKNOWN_CLASS = 3,  /* as in [[:foo:]]: that of the [ before the : */
    OSB_GLOB_DANGLING_ESCAPE = 4,
    OSB_GLOB_UNCLOSED_BRACE = 5, /* that of the outermost { that isn't closed */
    OSB_GLOB_UNOPENED_BRACE = 6,
    OSB_GLOB_TOO_MANY = 7        /* the alternatives are more than 1024 patterns, or too long together; 0 */
} osb_glob_fault_kind;

/* The first pattern that has a fault: its number, and the kind and the byte index of its first fault. */
typedef struct osb_glob_fault {
    size_t which;
    size_t index;
    osb_glob_fault_kind kind;
} osb_glob_fault;

/* Writes for each path whether one of the patterns matches it, in `matched`, which has as many items as
 * there are paths: OSB_OK, OSB_NO_MEMORY, OSB_BAD_PATTERN, OSB_FAULTY (a pattern isn't a string of the
 * platform; or the patterns have no fault, and a path isn't one), OSB_BAD_OPTION, OSB_BAD_PLATFORM. The
 * patterns are compiled in each call: osb_globs_new keeps them compiled. `fault` may be null; it is written
 * with OSB_BAD_PATTERN. */
OSB_NODISCARD osb_status osb_glob_matches(osb_platform platform, uint32_t options,
                                          const osb_view *patterns, size_t patterns_len,
                                          const osb_view *paths, size_t paths_len, bool *matched,
                                          osb_glob_fault *fault);

/* A set of patterns that is compiled once. It has memory of malloc's from osb_globs_new or osb_globs_share
 * to osb_globs_free. Any number of threads may match with a set and share it at once, and none waits for
 * another. It is freed once no call uses it. */
typedef struct osb_globs osb_globs;

/* Compiles patterns, and keeps them in `*globs`, which has to be freed: OSB_OK, OSB_NO_MEMORY,
 * OSB_BAD_PATTERN, OSB_FAULTY (a pattern isn't a string of the platform), OSB_BAD_OPTION, OSB_BAD_PLATFORM.
 * With any but OSB_OK nothing is kept, and `*globs` stays as it is. Without patterns nothing matches.
 * `fault` may be null; it is written with OSB_BAD_PATTERN. */
OSB_NODISCARD osb_status osb_globs_new(osb_platform platform, uint32_t options,
                                       const osb_view *patterns, size_t len, osb_globs **globs,
                                       osb_glob_fault *fault);
/* Whether one of the patterns of a set matches a path: 1, 0, -OSB_FAULTY (it isn't a string of the set's
 * platform). It takes no memory. */
OSB_NODISCARD int osb_globs_is_match(const osb_globs *globs, const char *path, size_t len);
/* Writes for each path whether one of the patterns of a set matches it, as osb_glob_matches does: OSB_OK,
 * OSB_NO_MEMORY, OSB_FAULTY (a path isn't a string of the set's platform). */
OSB_NODISCARD osb_status osb_globs_matches(const osb_globs *globs, const osb_view *paths, size_t len,
                                           bool *matched);
/* Makes another set with the same compiled patterns, for a thread that may use them longer, which has to be
 * freed, too: OSB_OK, OSB_NO_MEMORY. The patterns are kept until the last set that has them is freed. */
OSB_NODISCARD osb_status osb_globs_share(const osb_globs *globs, osb_globs **other);
/* Frees a set, or nothing if the pointer is null. */
void osb_globs_free(osb_globs *globs);

typedef enum osb_verdict_kind {
    OSB_NEITHER = 0,
    OSB_IGNORED = 1, /* also by what is above it */
    OSB_TAKEN_IN = 2 /* by a line with a ! */
} osb_verdict_kind;

/* What an ignore file decides for a path. */
typedef struct osb_verdict {
    osb_verdict_kind kind;
    size_t line; /* which line decides it, from 1; 0 if none does */
} osb_verdict;

/* Writes the verdict of a file .gitignore at the top of a tree on each path, as git does: OSB_OK,
 * OSB_NO_MEMORY. No line is a fault. Paths are relative to the top of the tree. A path is a directory if its
 * item of `dirs` is true; without directories `dirs` may be null. `dirs` and `verdicts` have as many items
 * as there are paths. The lines are compiled in each call, so pass many paths at once. */
OSB_NODISCARD osb_status osb_ignore_matches(const char *file, size_t file_len,
                                            const osb_view *paths, size_t len, const bool *dirs,
                                            osb_verdict *verdicts);

/* The ignore files of a tree, in several directories, compiled once. They have memory of malloc's from
 * osb_ignores_new to osb_ignores_free. Any number of threads may match with them and add to them at once.
 * Calls that match don't wait for each other. One that adds waits until those have ended, and others
 * wait until it has, by giving way to other threads. They are freed once no call uses them. */
typedef struct osb_ignores osb_ignores;

/* What ignore files decide for a path. */
typedef struct osb_decision {
    osb_verdict_kind kind;
    size_t file; /* which file decides it, by the order in which they were added, from 0; 0 if none does */
    size_t line; /* which line decides it, from 1; 0 if none does */
} osb_decision;

/* Keeps no ignore files in `*ignores`, which has to be freed: OSB_OK, OSB_NO_MEMORY. */
OSB_NODISCARD osb_status osb_ignores_new(osb_ignores **ignores);
/* Adds the content of an ignore file in a directory, which is relative to the top of the tree, without a / at
 * its end, and empty at the top: OSB_OK, OSB_NO_MEMORY, with which the files stay as they were. No line is a
 * fault. Its lines match paths below that directory, and come after those of the directories above it and of the
 * files in it that were added before. Git adds the user's own file, .git/info/exclude and those of the tree. */
OSB_NODISCARD osb_status osb_ignores_add(osb_ignores *ignores, const char *directory,
                                         size_t directory_len, const char *file, size_t file_len);
/* Writes what the files decide for a path, which is relative to the top of the tree, as git does: OSB_OK. It takes
 * no memory. Files that are added meanwhile count or don't. */
OSB_NODISCARD osb_status osb_ignores_match(osb_ignores *ignores, const char *path, size_t len,
                                           bool is_dir, osb_decision *decision);
/* Frees ignore files, or nothing if the pointer is null. */
void osb_ignores_free(osb_ignores *ignores);

/* The maximum number of bytes of the word of a name with `len` bytes, in each shell; SIZE_MAX past that. */
size_t osb_shell_bound(size_t len);

/* Writes a name of Unix as a word that every POSIX shell reads as this name, and as nothing else:
 * OSB_OK, OSB_NO_ROOM, OSB_HAS_NUL, OSB_TOO_LONG. With OSB_HAS_NUL `*index` is the index of the first
 * NUL; `index` may be null. The word is for an argument: first on a line `if` or `time` is a reserved word,
 * which osb_shell_join quotes. The shell's locale may be C or of UTF-8, GBK, Big5, Shift-JIS, an EUC or a
 * charset of one byte. In GB18030 bash with the GNU C library misreads a quote after a byte from 81 (hex)
 * on and a digit that begin no character. Aliases, functions and options that a user has set may change
 * what a word means. The word is for scripts, eval and sh -c. It has the name's control characters, and a
 * terminal acts on these, in quotes too, so that a part of the name may run as a command: at a prompt paste only
 * words of osb_shell_quote_line. */
OSB_NODISCARD osb_status osb_shell_quote(const char *at, size_t len, char *out, size_t room,
                                         size_t *count, size_t *index);
/* Writes a name of Unix as a word on one line, for a terminal, of the shells that read $'..'
 * (POSIX.1-2024): bash, zsh, ksh93, mksh and busybox, in the same locales. OSB_OK, OSB_NO_ROOM,
 * OSB_HAS_NUL, OSB_TOO_LONG, as osb_shell_quote. It has no control character, and may be pasted at a
 * prompt. No backslash follows a byte from 80 (hex) on, with which GBK or Shift-JIS would read it as one
 * character. */
OSB_NODISCARD osb_status osb_shell_quote_line(const char *at, size_t len, char *out, size_t room,
                                              size_t *count, size_t *index);
/* Writes a name of Unix as a word of fish, in the same locales and in GB18030: OSB_OK, OSB_NO_ROOM,
 * OSB_HAS_NUL, OSB_TOO_LONG, as osb_shell_quote. */
OSB_NODISCARD osb_status osb_fish_quote(const char *at, size_t len, char *out, size_t room,
                                        size_t *count, size_t *index);
/* Writes text (UTF-8) as a single-quoted string of PowerShell: OSB_OK, OSB_NO_ROOM, OSB_HAS_NUL,
 * OSB_TOO_LONG, as osb_shell_quote, and OSB_FAULTY, with which `*index` is the index from which on the
 * bytes aren't UTF-8: a Windows string with a lone surrogate isn't. PowerShell before 7.3 drops quotation
 * marks of a string that it passes to another program. The text must reach PowerShell as UTF-16, as UTF-8
 * with a byte order mark, or by -EncodedCommand: 5.1 reads a script without the mark as Windows-1252, in which
 * letters such as U+0412 end the string. */
OSB_NODISCARD osb_status osb_powershell_quote(const char *at, size_t len, char *out, size_t room,
                                              size_t *count, size_t *index);

/* Writes the words of names (osb_shell_quote) with a space between them, a line that every POSIX shell reads
 * as these names. A first name that is a reserved word, or an alias that a shell begins with, is quoted, so that
 * it is run as a command: OSB_OK, OSB_NO_ROOM, OSB_HAS_NUL, OSB_TOO_LONG. The line isn't for a prompt if it has
 * control characters (osb_shell_quote). With OSB_HAS_NUL `*which` is the number of
 * the first name that has a NUL, and `*index` the index of its first one; both may be null. A sum past
 * SIZE_MAX is OSB_TOO_LONG, too. Without names the line is empty. A bound is that of each name, and one more
 * for each. */
OSB_NODISCARD osb_status osb_shell_join(const osb_view *names, size_t len, char *out, size_t room,
                                        size_t *count, size_t *which, size_t *index);

/* How a line is read. Options are added. */
enum {
    OSB_SPECIALS = 1,     /* special characters mean themselves, and are not rejected */
    OSB_DOLLAR_QUOTES = 2 /* $'..' is read, too */
};

typedef enum osb_line_fault_kind {
    OSB_LINE_SINGLE = 1,    /* a single quote that no other closes */
    OSB_LINE_DOUBLE = 2,    /* a double quote that no other closes */
    OSB_LINE_DOLLAR = 3,    /* $' that no single quote closes */
    OSB_LINE_BACKSLASH = 4, /* a backslash outside quotes, after which nothing comes */
    OSB_LINE_SPECIAL = 5,   /* a byte that some shell gives a meaning of its own */
    OSB_LINE_ESCAPE = 6     /* a backslash in $'..' that begins no escape */
} osb_line_fault_kind;

/* Why a line isn't words. */
typedef struct osb_line_fault {
    osb_line_fault_kind kind; /* what begins at the index; 0 a NUL */
    size_t index;
} osb_line_fault;

/* The maximum number of bytes of the words of a line with `len` bytes, with a 0 after each. It is also the
 * maximum number of units of the program's name and the arguments of a Windows line with `len` bytes. SIZE_MAX
 * past that. */
size_t osb_words_bound(size_t len);

/* Writes the words of a line as a POSIX shell reads it, where nothing is expanded, with a 0 byte after
 * each: OSB_OK, OSB_NO_ROOM, OSB_BAD_LINE, OSB_HAS_NUL, OSB_TOO_LONG, OSB_BAD_OPTION. `*count` counts
 * the 0 bytes, too: the words are the strings of C in the first `*count` bytes, one after the other. A byte
 * by which some POSIX shell in C or UTF-8 expands or does something else is rejected, unless OSB_SPECIALS is
 * given: | & ; < > ( ) $ * ? [ { } ~ ! ` and CR outside quotes, # = ^ first in a word, $ ! ` in double quotes.
 * Blanks beyond ASCII are part of a word, which yash takes for blanks. A line with control characters may be
 * read differently where it is typed at a prompt. `fault`
 * may be null; it is written with OSB_BAD_LINE and with OSB_HAS_NUL. */
OSB_NODISCARD osb_status osb_shell_words(uint32_t options, const char *line, size_t len, char *out,
                                         size_t room, size_t *count, osb_line_fault *fault);

/* A command line of Windows is 16-bit units, as CreateProcessW takes them, and the calls that write one
 * count units: `room` and `*count`, too. It is read as the C runtime of 2008 and later reads it.
 * CommandLineToArgvW reads each line that is written here the same. It reads other lines differently:
 * there two quotation marks within a quoted part end it, and a program's name that begins with a
 * quotation mark ends at the next one. What goes in are strings of Windows: OSB_FAULTY where they are
 * none. With OSB_HAS_NUL and OSB_HAS_QUOTE `*index` is the byte index of the first one. `index` and
 * `fault` may be null. */

/* The maximum number of units of the text of an argument or of a program's name with `len` bytes; SIZE_MAX
 * past that. */
size_t osb_windows_bound(size_t len);

/* Writes an argument so that it is read as this one, whatever blank or end comes after it: OSB_OK,
 * OSB_FAULTY, OSB_NO_ROOM, OSB_HAS_NUL, OSB_TOO_LONG. cmd.exe reads lines by other rules. A program that is
 * linked with setargv.obj expands * and ? in an argument without quotation marks, as *.txt. */
OSB_NODISCARD osb_status osb_windows_quote(const char *at, size_t len, uint16_t *out, size_t room,
                                           size_t *count, size_t *index, osb_fault *fault);
/* Writes a program's name, with which a line begins, in quotation marks; also OSB_HAS_QUOTE. A line is this,
 * and a space and the text of each argument. */
OSB_NODISCARD osb_status osb_windows_quote_name(const char *at, size_t len, uint16_t *out,
                                                size_t room, size_t *count, size_t *index,
                                                osb_fault *fault);
/* Writes the line of words. The first is the program's name and the others are arguments. `*which`
 * is the number of the word that `index` and `fault` are about, and may be null. With OSB_NO_ROOM
 * nothing is rejected, but for that a sum past SIZE_MAX is OSB_TOO_LONG. Without words the line is
 * empty. */
OSB_NODISCARD osb_status osb_windows_command_line(const osb_view *words, size_t len, uint16_t *out,
                                                  size_t room, size_t *count, size_t *which,
                                                  size_t *index, osb_fault *fault);

/* Writes the program's name and the arguments of a line, with a 0 unit after each: OSB_OK, OSB_FAULTY,
 * OSB_NO_ROOM, OSB_HAS_NUL, OSB_TOO_LONG. The line is a string (osb_from_wide makes one of units). The
 * name is always there, if only as the 0: Rust and the C runtime give the running program's for an empty
 * line. Whatever isn't closed ends with the line. */
OSB_NODISCARD osb_status osb_windows_arguments(const char *line, size_t len, uint16_t *out,
                                               size_t room, size_t *count, size_t *index,
                                               osb_fault *fault);

/* The options and operands of a command line, without the program's name. The fields are the library's, but
 * that `taken` words were taken so far may be read. It holds no memory, and a copy of it goes on by
 * itself. The words may be strings of any platform. */
typedef struct osb_options {
    const osb_view *words;
    size_t len;
    size_t taken;
    size_t at;
    uint32_t flags;
    uint32_t ended;
} osb_options;

enum {
    OSB_NUMBERS = 1 /* a word that begins with - or -. and a digit is an operand */
};

typedef enum osb_option_kind {
    OSB_LONG = 1,        /* --name, and --name=value: the name, which ends at the first = */
    OSB_LONG_BYTES = 2,  /* the same where the name isn't UTF-8 */
    OSB_SHORT = 3,       /* one character of -abc, in turn */
    OSB_SHORT_BYTES = 4, /* what is left of -abc where no character is first: all of it */
    OSB_OPERAND = 5      /* any other word, - and the empty one too, and each word after -- */
} osb_option_kind;

typedef struct osb_option {
    osb_option_kind kind;
    uint32_t value; /* OSB_SHORT: the character; else 0 */
    osb_view text;  /* without dashes, and without a value */
} osb_option;

/* Starts a reader of options and operands: OSB_OK, OSB_BAD_OPTION. `flags` is OSB_NUMBERS or 0. The
 * words and their array stay the caller's. */
OSB_NODISCARD osb_status osb_options_start(osb_options *options, const osb_view *words, size_t len,
                                           uint32_t flags);
/* Reads the next option or operand: OSB_OK, OSB_ENDED after the last. OSB_UNEXPECTED if =value is left of the
 * last option's word, since nothing took it: `text` is the value, the kind is 0, and the next call goes on
 * after it. Of a struct that isn't as a call left it, OSB_BAD_INDEX or OSB_BAD_OPTION. */
OSB_NODISCARD osb_status osb_options_next(osb_options *options, osb_option *option);
/* Takes the value of the option that was read last: the rest of its word without the = that it begins
 * with, or else the whole next word, whatever that is: OSB_OK, OSB_NONE if no word is left. */
OSB_NODISCARD osb_status osb_options_value(osb_options *options, osb_view *value);
/* Takes the value of the option that was read last, if it is in the option's own word: OSB_OK, or else
 * OSB_NONE, and the next word stays. */
OSB_NODISCARD osb_status osb_options_optional_value(osb_options *options, osb_view *value);
/* Whether an option is this character or has this name, which is ended by a 0: 1, 0. Without a
 * character it is 0, and without a name null. */
OSB_NODISCARD int osb_option_is(const osb_option *option, uint32_t character, const char *name);

#ifdef __cplusplus
}
#endif

#endif
