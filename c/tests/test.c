/* Tests each call of libosbytes.a, and that bad arguments are answered. Prints what differs. */
#include "osbytes.h"

#include <stdio.h>
#include <stdlib.h>
#include <string.h>

static int failed;
static int asked;

static void expect(bool holds, const char *what, int line) {
    asked++;
    if (!holds) {
        failed++;
        printf("test.c:%d: %s\n", line, what);
    }
}
#define EXPECT(holds) expect(holds, #holds, __LINE__)

/* How many blocks of memory there are, where the program is linked so that this is asked for each. A compiler takes it
 * that malloc changes nothing that a program sees. */
static volatile size_t blocks;

#ifdef OSB_WRAPPED
/* How many requests are answered before the others are refused. */
static volatile size_t left = SIZE_MAX;

void *__real_malloc(size_t len);
void *__real_realloc(void *at, size_t len);
void __real_free(void *at);

static bool is_refused(void) {
    if (left == 0) return true;
    if (left != SIZE_MAX) left--;
    return false;
}

void *__wrap_malloc(size_t len) {
    void *at = is_refused() ? NULL : __real_malloc(len);
    blocks += at != NULL;
    return at;
}

void *__wrap_realloc(void *old, size_t len) {
    void *at = is_refused() ? NULL : __real_realloc(old, len);
    blocks += at != NULL && old == NULL;
    return at;
}

void __wrap_free(void *at) {
    blocks -= at != NULL;
    __real_free(at);
}
#endif

/* A string literal, as a pointer and a length. */
#define TEXT(s) (s), sizeof(s) - 1

static bool is(osb_view view, const char *at, size_t len) {
    return view.len == len && memcmp(view.at, at, len) == 0;
}

static bool faulty(osb_platform platform, const char *at, size_t len, uint32_t kind, uint32_t value,
                   size_t index, size_t count, const char *text) {
    osb_fault fault = {9, 9, 9, 9};
    char out[OSB_FAULT_TEXT_ROOM];
    size_t text_len = 0;
    if (osb_check(platform, at, len, &fault) != OSB_FAULTY) return false;
    if (fault.kind != kind || fault.value != value) return false;
    if (fault.index != index || fault.count != count) return false;
    if (osb_check(platform, at, len, NULL) != OSB_FAULTY) return false;
    if (osb_fault_text(&fault, out, sizeof out, &text_len) != OSB_OK) return false;
    if (strcmp(out, text) != 0 || text_len != strlen(text)) {
        printf("  %s\n", out);
        return false;
    }
    /* exactly as much room as is needed, and one less */
    char *small = malloc(text_len + 1);
    size_t needed = 0;
    bool right = osb_fault_text(&fault, small, text_len + 1, &text_len) == OSB_OK &&
                 strcmp(small, text) == 0 &&
                 osb_fault_text(&fault, small, text_len, &needed) == OSB_NO_ROOM &&
                 needed == text_len && osb_fault_text(&fault, NULL, 0, &needed) == OSB_NO_ROOM &&
                 needed == text_len;
    free(small);
    return right;
}

#define NOT_REPRESENTABLE "byte sequence is not representable in the platform encoding; error at "

static void checks(void) {
    osb_fault fault = {9, 9, 9, 9};
    EXPECT(osb_check(OSB_UNIX, TEXT("\x80\xFF"), &fault) == OSB_OK);
    EXPECT(osb_check(OSB_WINDOWS, TEXT("a\xC3\xA9\xED\xA0\x80"), &fault) == OSB_OK);
    EXPECT(osb_check(OSB_WASM, TEXT("a\xC3\xA9\xF0\x9F\x98\x80"), &fault) == OSB_OK);
    EXPECT(osb_check(OSB_WINDOWS, "", 0, &fault) == OSB_OK);
    EXPECT(osb_check(3, TEXT("a"), &fault) == OSB_BAD_PLATFORM);
    EXPECT(osb_check(0xFFFFFFFF, TEXT("a"), &fault) == OSB_BAD_PLATFORM);
    EXPECT(fault.kind == 9 && fault.value == 9 && fault.index == 9 && fault.count == 9);
    EXPECT(faulty(OSB_WINDOWS, TEXT("a\xE2\x82" "A"), OSB_FAULT_BYTE, 0x41, 1, 2,
                  NOT_REPRESENTABLE "byte b'\\x41'"));
    EXPECT(faulty(OSB_WINDOWS, TEXT("\xED\xA0\x80\xED\xB0\x80"), OSB_FAULT_CODE_POINT, 0xDC00, 3, 3,
                  NOT_REPRESENTABLE "code point U+DC00"));
    EXPECT(faulty(OSB_WINDOWS, TEXT("\xF5\x80\x80\x80"), OSB_FAULT_CODE_POINT, 0x140000, 0, 4,
                  NOT_REPRESENTABLE "code point U+140000"));
    EXPECT(faulty(OSB_WINDOWS, TEXT("ab\xE2\x82"), OSB_FAULT_END, 0, 2, 2,
                  NOT_REPRESENTABLE "end of string"));
    EXPECT(faulty(OSB_WASM, TEXT("a\xE2\x82" "A"), OSB_FAULT_UTF8, 0, 1, 2,
                  "invalid utf-8 sequence of 2 bytes from index 1"));
    EXPECT(faulty(OSB_WASM, TEXT("a\xE2\x82"), OSB_FAULT_UTF8_END, 0, 1, 2,
                  "incomplete utf-8 byte sequence from index 1"));
    /* a long one, so that vectors are asked, with the fault at each index */
    for (size_t at = 0; at < 300; at++) {
        char *bytes = malloc(300);
        memset(bytes, 'a', 300);
        bytes[at] = '\xC0';
        fault = (osb_fault){0, 0, 0, 0};
        EXPECT(osb_check(OSB_WINDOWS, bytes, 300, &fault) == OSB_FAULTY && fault.index == at &&
               fault.value == 0xC0 && fault.count == 1);
        free(bytes);
    }
}

static void texts(void) {
    char out[OSB_FAULT_TEXT_ROOM];
    size_t count = 7;
    /* faults that there aren't */
    EXPECT(osb_fault_text(&(osb_fault){0, 0, 0, 0}, out, sizeof out, &count) == OSB_BAD_FAULT);
    EXPECT(osb_fault_text(&(osb_fault){6, 0, 0, 0}, out, sizeof out, &count) == OSB_BAD_FAULT);
    EXPECT(osb_fault_text(&(osb_fault){1, 256, 0, 0}, out, sizeof out, &count) == OSB_BAD_FAULT);
    EXPECT(osb_fault_text(&(osb_fault){4, 0, 0, 256}, out, sizeof out, &count) == OSB_BAD_FAULT);
    EXPECT(count == 7);
    /* the longest */
    EXPECT(osb_fault_text(&(osb_fault){2, 0xFFFFFFFF, 0, 0}, out, sizeof out, &count) == OSB_OK);
    EXPECT(strcmp(out, NOT_REPRESENTABLE "code point U+FFFFFFFF") == 0);
    EXPECT(osb_fault_text(&(osb_fault){4, 0, SIZE_MAX, 255}, out, sizeof out, &count) == OSB_OK);
    EXPECT(strcmp(out, "invalid utf-8 sequence of 255 bytes from index 18446744073709551615") == 0);
    EXPECT(osb_fault_text(NULL, out, sizeof out, &count) == OSB_BAD_POINTER);
    EXPECT(osb_fault_text(&(osb_fault){3, 0, 0, 0}, NULL, 5, &count) == OSB_BAD_POINTER);
    EXPECT(osb_fault_text(&(osb_fault){3, 0, 0, 0}, out, SIZE_MAX, &count) == OSB_BAD_POINTER);
    EXPECT(osb_fault_text(&(osb_fault){3, 0, 0, 0}, out, (size_t)PTRDIFF_MAX + 1, &count) == OSB_BAD_POINTER);
    /* one byte of the room is kept for the 0, which comes after a whole text alone */
    memset(out, 0x55, sizeof out);
    EXPECT(osb_fault_text(&(osb_fault){3, 0, 0, 0}, out, 6, &count) == OSB_NO_ROOM);
    EXPECT(memcmp(out, "byte \x55", 6) == 0);
}

static void wide(void) {
    static const char string[] = "a\xC3\xA9\xED\xA0\xBD\xF0\x9F\x98\x80";
    static const uint16_t units[] = {0x61, 0xE9, 0xD83D, 0xD83D, 0xDE00};
    size_t len = sizeof string - 1;
    size_t count = 0;
    osb_fault fault = {0, 0, 0, 0};
    EXPECT(osb_wide_bound(len) >= 5);
    EXPECT(osb_to_wide(string, len, NULL, 0, &count, &fault) == OSB_NO_ROOM && count == 5);
    /* from as many units on as there are bytes there is surely room */
    for (size_t room = 0; room < len + 3; room++) {
        uint16_t *out = malloc(room * sizeof *out + 1);
        memset(out, 0x55, room * sizeof *out);
        count = 0;
        osb_status status = osb_to_wide(string, len, out, room, &count, &fault);
        EXPECT(count == 5);
        EXPECT(status == (room < 5 ? OSB_NO_ROOM : OSB_OK));
        if (room >= 5) EXPECT(memcmp(out, units, sizeof units) == 0);
        for (size_t i = 5; i < room; i++) EXPECT(out[i] == 0x5555);
        free(out);
    }
    uint16_t out[8];
    count = 7;
    EXPECT(osb_to_wide(TEXT("ab\xED\xA0\x80\xED\xB0\x80"), out, 8, &count, &fault) == OSB_FAULTY);
    EXPECT(fault.kind == OSB_FAULT_CODE_POINT && fault.value == 0xDC00 && fault.index == 5);
    EXPECT(osb_to_wide(TEXT("\xC0"), out, 8, &count, NULL) == OSB_FAULTY && count == 7);
    EXPECT(osb_to_wide(TEXT("\xC0"), NULL, 0, &count, NULL) == OSB_FAULTY && count == 7);
    EXPECT(osb_to_wide(NULL, 0, out, 8, &count, NULL) == OSB_OK && count == 0);
    EXPECT(osb_to_wide(NULL, 0, NULL, 0, &count, NULL) == OSB_OK && count == 0);
    /* bad pointers */
    EXPECT(osb_to_wide(NULL, 1, out, 8, &count, NULL) == OSB_BAD_POINTER);
    EXPECT(osb_to_wide(TEXT("a"), NULL, 1, &count, NULL) == OSB_BAD_POINTER);
    EXPECT(osb_to_wide(TEXT("a"), out, 8, NULL, NULL) == OSB_BAD_POINTER);
    EXPECT(osb_to_wide(TEXT("a"), out, SIZE_MAX / 2, &count, NULL) == OSB_BAD_POINTER);
    EXPECT(osb_to_wide(TEXT("a"), out, SIZE_MAX / 2 + 2, &count, NULL) == OSB_BAD_POINTER);
    EXPECT(osb_to_wide("a", SIZE_MAX, out, 8, &count, NULL) == OSB_BAD_POINTER);
    void *odd = (char *)out + 1;
    EXPECT(osb_to_wide(TEXT("a"), odd, 2, &count, NULL) == OSB_BAD_POINTER);
    /* an overlap in the first half of the buffer, in the second, and input directly after it */
    EXPECT(osb_to_wide((char *)out + 3, 4, out, 4, &count, NULL) == OSB_BAD_POINTER);
    EXPECT(osb_to_wide((char *)out + 5, 2, out, 4, &count, NULL) == OSB_BAD_POINTER);
    EXPECT(osb_to_wide((char *)out + 7, 4, out, 4, &count, NULL) == OSB_BAD_POINTER);
    memcpy(out + 4, "abcd", 4);
    EXPECT(osb_to_wide((char *)(out + 4), 4, out, 4, &count, NULL) == OSB_OK && count == 4);
    EXPECT(out[0] == 'a' && out[3] == 'd');
}

/* The same of strings of any length, with each kind of character and a fault at their ends. */
static void long_wide(void) {
    static const char *const last[] = {"a", "\xC3\xA9", "\xE2\x82\xAC", "\xF0\x9F\x98\x80", "\xED\xA0\xBD"};
    static const uint16_t ends[][2] = {{0x61}, {0xE9}, {0x20AC}, {0xD83D, 0xDE00}, {0xD83D}};
    for (size_t len = 0; len < 90; len++)
        for (size_t kind = 0; kind < 5; kind++)
            for (size_t room = len < 2 ? 0 : len - 2; room < len + 6; room++) {
                char string[100], back[300];
                uint16_t units[100], *out = malloc(room * sizeof *out + 1);
                size_t bytes = len + strlen(last[kind]), all = len + (kind == 3 ? 2 : 1), count = 0;
                osb_fault fault = {0, 0, 0, 0};
                memset(string, 'x', len);
                strcpy(string + len, last[kind]);
                for (size_t i = 0; i < len; i++) units[i] = 'x';
                memcpy(units + len, ends[kind], sizeof ends[kind]);
                memset(out, 0x55, room * sizeof *out);
                osb_status status = osb_to_wide(string, bytes, out, room, &count, &fault);
                EXPECT(count == all && status == (room < all ? OSB_NO_ROOM : OSB_OK));
                EXPECT(memcmp(out, units, (room < all ? room : all) * sizeof *out) == 0);
                for (size_t i = all; i < room; i++) EXPECT(out[i] == 0x5555);
                free(out);
                memset(back, 0x55, sizeof back);
                status = osb_from_wide(units, all, back, room, &count);
                EXPECT(count == bytes && status == (room < bytes ? OSB_NO_ROOM : OSB_OK));
                EXPECT(memcmp(back, string, room < bytes ? room : bytes) == 0);
                for (size_t i = room < bytes ? room : bytes; i < 300; i++) EXPECT(back[i] == 0x55);
                string[len] = '\xFF';
                count = 7;
                EXPECT(osb_to_wide(string, len + 1, NULL, 0, &count, &fault) == OSB_FAULTY);
                EXPECT(count == 7 && fault.index == len);
            }
}

/* A text is a pattern where it's cut between characters, and no pattern where it's cut within one or
 * has a byte FF, at each index of each length about those that are read in different ways. */
static void patterns(void) {
    char text[150];
    for (size_t i = 0; i < sizeof text; i++) text[i] = "a\xC3\xA9\xE4\xB8\xAD\xF0\x9F\x98\x80"[i % 10];
    for (size_t from = 0; from < 10; from++)
        for (size_t len = 1; from + len < sizeof text; len++) {
            const char *at = text + from;
            bool whole = (at[0] & 0xC0) != 0x80 && (at[len] & 0xC0) != 0x80;
            EXPECT(osb_contains(at, len, at, len) == (whole ? 1 : -OSB_BAD_PATTERN));
            for (size_t i = 0; i < len && from == 0 && whole; i++) {
                char kept = text[i];
                text[i] = '\xFF';
                EXPECT(osb_ends_with(text, len, text, len) == -OSB_BAD_PATTERN);
                text[i] = kept;
            }
        }
    EXPECT(osb_find(TEXT("a"), TEXT("\x7F"), &(size_t){0}) == OSB_NONE);
    EXPECT(osb_find(TEXT("a"), TEXT("\x80"), &(size_t){0}) == OSB_BAD_PATTERN);
}

static void searches(void) {
    size_t index = 99;
    EXPECT(osb_find(TEXT("foobar"), TEXT("o"), &index) == OSB_OK && index == 1);
    EXPECT(osb_find(TEXT("foobar"), TEXT("bar"), &index) == OSB_OK && index == 3);
    EXPECT(osb_find(TEXT("\x80\xFF" "a"), TEXT("a"), &index) == OSB_OK && index == 2);
    EXPECT(osb_find(TEXT("foobar"), NULL, 0, &index) == OSB_OK && index == 0);
    EXPECT(osb_find(NULL, 0, NULL, 0, &index) == OSB_OK && index == 0);
    index = 99;
    EXPECT(osb_find(TEXT("foobar"), TEXT("of"), &index) == OSB_NONE && index == 99);
    EXPECT(osb_find(TEXT("foobar"), TEXT("\xFF"), &index) == OSB_BAD_PATTERN && index == 99);
    EXPECT(osb_find(TEXT("foobar"), NULL, 1, &index) == OSB_BAD_POINTER);
    EXPECT(osb_find(NULL, 1, TEXT("a"), &index) == OSB_BAD_POINTER);
    EXPECT(osb_find(TEXT("foobar"), TEXT("a"), NULL) == OSB_BAD_POINTER);
}

static void splits(void) {
    osb_split split;
    osb_view piece;
    EXPECT(osb_split_start(&split, TEXT("a, \xFF,, b"), TEXT(", ")) == OSB_OK);
    osb_split copy = split;
    EXPECT(osb_split_next(&split, &piece) == OSB_OK && is(piece, TEXT("a")));
    EXPECT(osb_split_next(&split, &piece) == OSB_OK && is(piece, TEXT("\xFF,")));
    EXPECT(osb_split_next(&split, &piece) == OSB_OK && is(piece, TEXT("b")));
    EXPECT(osb_split_next(&split, &piece) == OSB_ENDED);
    EXPECT(osb_split_next(&split, &piece) == OSB_ENDED);
    EXPECT(osb_split_next(&copy, &piece) == OSB_OK && is(piece, TEXT("a")));
    /* the empty string has one piece, and a pattern at the end an empty last one */
    EXPECT(osb_split_start(&split, NULL, 0, TEXT(",")) == OSB_OK);
    EXPECT(osb_split_next(&split, &piece) == OSB_OK && piece.len == 0);
    EXPECT(osb_split_next(&split, &piece) == OSB_ENDED);
    EXPECT(osb_split_start(&split, TEXT("a,"), TEXT(",")) == OSB_OK);
    EXPECT(osb_split_next(&split, &piece) == OSB_OK && is(piece, TEXT("a")));
    EXPECT(osb_split_next(&split, &piece) == OSB_OK && is(piece, TEXT("")));
    EXPECT(osb_split_next(&split, &piece) == OSB_ENDED);
    /* bad arguments, and fields that no call left so */
    EXPECT(osb_split_start(&split, TEXT("b,c"), TEXT(",")) == OSB_OK);
    EXPECT(osb_split_start(&split, TEXT("a"), TEXT("")) == OSB_BAD_PATTERN);
    EXPECT(osb_split_next(&split, &piece) == OSB_OK && is(piece, TEXT("b")));
    EXPECT(osb_split_start(&split, TEXT("a"), TEXT("\xFF")) == OSB_BAD_PATTERN);
    EXPECT(osb_split_start(&split, NULL, 1, TEXT(",")) == OSB_BAD_POINTER);
    EXPECT(osb_split_start(NULL, TEXT("a"), TEXT(",")) == OSB_BAD_POINTER);
    EXPECT(osb_split_next(NULL, &piece) == OSB_BAD_POINTER);
    split = (osb_split){{NULL, 0}, {NULL, 0}, 0, 0};
    EXPECT(osb_split_next(&split, &piece) == OSB_BAD_POINTER);
    EXPECT(osb_rsplit_next(&split, &piece) == OSB_BAD_POINTER);
    split = (osb_split){{NULL, 0}, {",", 1}, 0, 0};
    EXPECT(osb_split_next(&split, &piece) == OSB_BAD_POINTER);
    split = (osb_split){{"a", 1}, {NULL, 0}, 0, 0};
    EXPECT(osb_split_next(&split, &piece) == OSB_BAD_POINTER);
    split = (osb_split){{"a", 1}, {",", 1}, 2, 0};
    EXPECT(osb_split_next(&split, &piece) == OSB_BAD_INDEX);
    EXPECT(osb_rsplit_next(&split, &piece) == OSB_BAD_INDEX);
    split = (osb_split){{"a", 1}, {",", SIZE_MAX}, 0, 0};
    EXPECT(osb_split_next(&split, &piece) == OSB_BAD_POINTER);
    split = (osb_split){{"a", 1}, {"", 0}, 0, 0};
    EXPECT(osb_split_next(&split, &piece) == OSB_BAD_PATTERN);
    EXPECT(osb_rsplit_next(&split, &piece) == OSB_BAD_PATTERN);
}

static void rsplits(void) {
    osb_split split;
    osb_view piece;
    EXPECT(osb_rsplit_start(&split, TEXT("aaa"), TEXT("aa")) == OSB_OK);
    EXPECT(osb_rsplit_next(&split, &piece) == OSB_OK && is(piece, TEXT("")));
    EXPECT(osb_rsplit_next(&split, &piece) == OSB_OK && is(piece, TEXT("a")));
    EXPECT(osb_rsplit_next(&split, &piece) == OSB_ENDED);
    EXPECT(osb_rsplit_start(&split, TEXT("a, \xFF,, b"), TEXT(", ")) == OSB_OK);
    EXPECT(osb_rsplit_next(&split, &piece) == OSB_OK && is(piece, TEXT("b")));
    EXPECT(osb_rsplit_next(&split, &piece) == OSB_OK && is(piece, TEXT("\xFF,")));
    EXPECT(osb_rsplit_next(&split, &piece) == OSB_OK && is(piece, TEXT("a")));
    EXPECT(osb_rsplit_next(&split, &piece) == OSB_ENDED);
    EXPECT(osb_rsplit_next(&split, NULL) == OSB_BAD_POINTER);
    EXPECT(osb_rsplit_start(&split, TEXT("a"), TEXT("")) == OSB_BAD_PATTERN);
    EXPECT(osb_rsplit_start(&split, NULL, 0, TEXT(",")) == OSB_OK);
    EXPECT(osb_rsplit_next(&split, &piece) == OSB_OK && piece.len == 0);
    EXPECT(osb_rsplit_next(&split, &piece) == OSB_ENDED);
}

static void chunks(void) {
    osb_chunks chunks;
    osb_chunk chunk;
    EXPECT(osb_chunks_start(&chunks, TEXT("ab\xFF\xC3\xC3\xA9" "c\x80")) == OSB_OK);
    EXPECT(osb_chunks_next(&chunks, &chunk) == OSB_OK);
    EXPECT(chunk.part.len == 0 && is(chunk.text, TEXT("ab")));
    EXPECT(osb_chunks_next(&chunks, &chunk) == OSB_OK);
    EXPECT(is(chunk.part, TEXT("\xFF\xC3")) && is(chunk.text, TEXT("\xC3\xA9" "c")));
    EXPECT(osb_chunks_next(&chunks, &chunk) == OSB_OK);
    EXPECT(is(chunk.part, TEXT("\x80")) && chunk.text.len == 0);
    EXPECT(osb_chunks_next(&chunks, &chunk) == OSB_ENDED);
    EXPECT(osb_chunks_next(&chunks, &chunk) == OSB_ENDED);
    EXPECT(osb_chunks_start(&chunks, NULL, 0) == OSB_OK);
    EXPECT(osb_chunks_next(&chunks, &chunk) == OSB_ENDED);
    EXPECT(osb_chunks_start(&chunks, NULL, 1) == OSB_BAD_POINTER);
    chunks = (osb_chunks){{NULL, 0}, 0};
    EXPECT(osb_chunks_next(&chunks, &chunk) == OSB_BAD_POINTER);
    chunks = (osb_chunks){{"a", 1}, 2};
    EXPECT(osb_chunks_next(&chunks, &chunk) == OSB_BAD_INDEX);
}

static void checkers(void) {
    osb_checker checker;
    osb_fault fault = {9, 9, 9, 9};
    EXPECT(osb_checker_start(&checker) == OSB_OK);
    EXPECT(osb_checker_finish(&checker, &fault) == OSB_OK);
    EXPECT(osb_checker_feed(&checker, TEXT("a\xE2"), &fault) == OSB_OK);
    osb_checker copy = checker;
    EXPECT(osb_checker_finish(&checker, &fault) == OSB_FAULTY && fault.kind == OSB_FAULT_END);
    EXPECT(fault.value == 0 && fault.index == 0 && fault.count == 0);
    EXPECT(osb_checker_feed(&checker, TEXT("\x82\xAC"), NULL) == OSB_OK);
    EXPECT(osb_checker_feed(&checker, NULL, 0, NULL) == OSB_OK);
    EXPECT(osb_checker_finish(&checker, NULL) == OSB_OK);
    EXPECT(osb_checker_feed(&checker, TEXT("\xED\xA0\x80"), NULL) == OSB_OK);
    EXPECT(osb_checker_feed(&checker, TEXT("\xED"), NULL) == OSB_OK);
    EXPECT(osb_checker_feed(&checker, TEXT("\xB0\x80"), &fault) == OSB_FAULTY);
    EXPECT(fault.kind == OSB_FAULT_CODE_POINT && fault.value == 0xDC00);
    fault = (osb_fault){9, 9, 9, 9};
    EXPECT(osb_checker_feed(&checker, TEXT("a"), &fault) == OSB_FAULTY);
    EXPECT(fault.kind == OSB_FAULT_CODE_POINT && fault.value == 0xDC00 && fault.index == 0);
    fault = (osb_fault){9, 9, 9, 9};
    EXPECT(osb_checker_finish(&checker, &fault) == OSB_FAULTY);
    EXPECT(fault.kind == OSB_FAULT_CODE_POINT && fault.value == 0xDC00 && fault.count == 0);
    EXPECT(osb_checker_feed(&copy, TEXT("A"), &fault) == OSB_FAULTY);
    EXPECT(fault.kind == OSB_FAULT_BYTE && fault.value == 'A');
    checker = (osb_checker){16, 0, 0, 0};
    EXPECT(osb_checker_feed(&checker, TEXT("a"), NULL) == OSB_BAD_STATE);
    EXPECT(osb_checker_finish(&checker, NULL) == OSB_BAD_STATE);
    checker = (osb_checker){256, 0, 0, 0};
    EXPECT(osb_checker_feed(&checker, TEXT("a"), NULL) == OSB_BAD_STATE);
    EXPECT(osb_checker_start(NULL) == OSB_BAD_POINTER);
    EXPECT(osb_checker_feed(NULL, TEXT("a"), NULL) == OSB_BAD_POINTER);
    EXPECT(osb_checker_feed(&copy, NULL, 1, NULL) == OSB_BAD_POINTER);
    EXPECT(osb_checker_finish(NULL, NULL) == OSB_BAD_POINTER);
}

static void from_wide(void) {
    static const uint16_t units[] = {0x61, 0xE9, 0xD83D, 0xD83D, 0xDE00};
    static const char string[] = "a\xC3\xA9\xED\xA0\xBD\xF0\x9F\x98\x80";
    size_t count = 0;
    /* from three bytes a unit on there is surely room */
    for (size_t room = 0; room < 18; room++) {
        char *out = malloc(room + 1);
        memset(out, 0x55, room);
        count = 0;
        osb_status status = osb_from_wide(units, 5, out, room, &count);
        EXPECT(count == 10 && status == (room < 10 ? OSB_NO_ROOM : OSB_OK));
        EXPECT(memcmp(out, string, room < 10 ? room : 10) == 0);
        for (size_t i = 10; i < room; i++) EXPECT(out[i] == 0x55);
        free(out);
    }
    char out[8];
    EXPECT(osb_from_wide(NULL, 0, NULL, 0, &count) == OSB_OK && count == 0);
    EXPECT(osb_from_wide(NULL, 1, out, 8, &count) == OSB_BAD_POINTER);
    EXPECT(osb_from_wide(units, 1, NULL, 8, &count) == OSB_BAD_POINTER);
    EXPECT(osb_from_wide(units, 1, out, 8, NULL) == OSB_BAD_POINTER);
    EXPECT(osb_from_wide(units, SIZE_MAX / 2 + 2, out, 8, &count) == OSB_BAD_POINTER);
    uint16_t same[4] = {1, 2, 3, 4};
    void *odd = (char *)same + 1;
    EXPECT(osb_from_wide(odd, 1, out, 8, &count) == OSB_BAD_POINTER);
    EXPECT(osb_from_wide(same, 4, (char *)same + 7, 1, &count) == OSB_BAD_POINTER);
    EXPECT(osb_from_wide(units, 1, out, SIZE_MAX, &count) == OSB_BAD_POINTER);
    EXPECT(osb_from_wide(same, 1, (char *)(same + 1), 2, &count) == OSB_OK && count == 1);
    EXPECT(osb_from_wide(same + 2, 2, (char *)same, 4, &count) == OSB_OK && count == 2);
}

static bool lossy(osb_platform platform, const char *at, size_t len, const char *text, size_t text_len) {
    char out[64];
    size_t count = 0;
    if (osb_lossy_bound(len) < text_len) return false;
    if (osb_lossy(platform, at, len, NULL, 0, &count, NULL) != (text_len == 0 ? OSB_OK : OSB_NO_ROOM)) return false;
    if (count != text_len) return false;
    for (size_t room = 0; room < text_len + 2; room++) {
        memset(out, 0x55, sizeof out);
        osb_status status = osb_lossy(platform, at, len, out, room, &count, NULL);
        if (count != text_len || status != (room < text_len ? OSB_NO_ROOM : OSB_OK)) return false;
        if (memcmp(out, text, room < text_len ? room : text_len) != 0 || out[text_len] != 0x55) return false;
    }
    return true;
}

/* A call that writes a text of a string. */
typedef osb_status to_text(osb_platform, const char *, size_t, char *, size_t, size_t *, osb_fault *);

static osb_status units(osb_platform platform, const char *at, size_t len, char *out, size_t room,
                        size_t *count, osb_fault *fault) {
    uint16_t wide[64];
    (void)platform, (void)out;
    return osb_to_wide(at, len, wide, room, count, fault);
}

/* The call reports the fault that osb_check does, in any room, and writes nothing where it may not. */
static bool same_fault(to_text *call, osb_platform platform, const char *at, size_t len) {
    char out[64];
    for (size_t room = 0; room < 2 * len; room++) {
        osb_fault fault = {9, 9, 9, 9}, wanted = {7, 7, 7, 7};
        size_t count = 5;
        if (osb_check(platform, at, len, &wanted) != OSB_FAULTY) return false;
        if (call(platform, at, len, out, room, &count, &fault) != OSB_FAULTY) return false;
        if (memcmp(&fault, &wanted, sizeof fault) != 0 || count != 5) return false;
        if (call(platform, at, len, out, room, &count, NULL) != OSB_FAULTY || count != 5) return false;
    }
    osb_fault fault = {9, 9, 9, 9};
    size_t count = 5;
    return call(platform, "a", 1, out, 8, &count, &fault) == OSB_OK && fault.kind == 9 &&
           fault.value == 9 && fault.index == 9 && fault.count == 9;
}

static void faults(void) {
    to_text *const calls[] = {units, osb_lossy, osb_escape, osb_escape_line};
    for (size_t i = 0; i < sizeof calls / sizeof *calls; i++) {
        EXPECT(same_fault(calls[i], OSB_WINDOWS, TEXT("ab\xC0" "cd")));
        EXPECT(same_fault(calls[i], OSB_WINDOWS, TEXT("\xC3\xA9\xE2\x82" "A")));
        EXPECT(same_fault(calls[i], OSB_WINDOWS, TEXT("\xED\xA0\x80\xED\xB0\x80")));
        EXPECT(same_fault(calls[i], OSB_WINDOWS, TEXT("a\xF0\x9F\x98")));
        if (calls[i] == units) continue;
        EXPECT(same_fault(calls[i], OSB_WASM, TEXT("a\xE2\x82" "A")));
        EXPECT(same_fault(calls[i], OSB_WASM, TEXT("a\xED\xA0\x80")));
        EXPECT(same_fault(calls[i], OSB_WASM, TEXT("ab\xE2\x82")));
    }
}

/* What is read may be directly before the buffer, and directly after it. */
static void apart(to_text *call) {
    char out[8] = "abcdefgh";
    size_t count = 7;
    EXPECT(call(OSB_UNIX, out, 4, out + 4, 4, &count, NULL) == OSB_OK && count == 4);
    EXPECT(memcmp(out, "abcdabcd", 8) == 0);
    memcpy(out, "abcdefgh", 8);
    EXPECT(call(OSB_UNIX, out + 4, 4, out, 4, &count, NULL) == OSB_OK && count == 4);
    EXPECT(memcmp(out, "efghefgh", 8) == 0);
    EXPECT(call(OSB_UNIX, out, 4, out + 4, SIZE_MAX, &count, NULL) == OSB_BAD_POINTER);
}

/* On Unix nothing is read of a string that is too long, so one can be asked for that isn't there. */
static void too_long(to_text *call, size_t len) {
    osb_fault fault = {9, 9, 9, 9};
    size_t count = 7;
    EXPECT(call(OSB_UNIX, "a", len, NULL, 0, &count, &fault) == OSB_TOO_LONG);
    EXPECT(call(OSB_UNIX, "a", PTRDIFF_MAX, NULL, 0, &count, &fault) == OSB_TOO_LONG);
    EXPECT(count == 7 && fault.kind == 9 && fault.value == 9 && fault.index == 9 && fault.count == 9);
}

static void lossies(void) {
    char out[8];
    size_t count = 7;
    osb_fault fault = {9, 9, 9, 9};
    EXPECT(lossy(OSB_UNIX, TEXT("a\xE2\x82" "b\xFF"), TEXT("a\xEF\xBF\xBD" "b\xEF\xBF\xBD")));
    EXPECT(lossy(OSB_WINDOWS, TEXT("a\xED\xA0\x80" "b"), TEXT("a\xEF\xBF\xBD" "b")));
    EXPECT(lossy(OSB_WASM, TEXT("a\xC3\xA9"), TEXT("a\xC3\xA9")));
    EXPECT(lossy(OSB_UNIX, NULL, 0, TEXT("")));
    EXPECT(osb_lossy(OSB_WINDOWS, TEXT("ab\xC0"), out, 8, &count, &fault) == OSB_FAULTY);
    EXPECT(fault.kind == OSB_FAULT_BYTE && fault.value == 0xC0 && fault.index == 2 && count == 7);
    EXPECT(osb_lossy(OSB_WASM, TEXT("a\xC0"), out, 8, &count, &fault) == OSB_FAULTY);
    EXPECT(fault.kind == OSB_FAULT_UTF8 && fault.index == 1 && fault.count == 1);
    EXPECT(osb_lossy(3, TEXT("a"), out, 8, &count, NULL) == OSB_BAD_PLATFORM && count == 7);
    EXPECT(osb_lossy(OSB_UNIX, NULL, 1, out, 8, &count, NULL) == OSB_BAD_POINTER);
    EXPECT(osb_lossy(OSB_UNIX, TEXT("a"), NULL, 8, &count, NULL) == OSB_BAD_POINTER);
    EXPECT(osb_lossy(OSB_UNIX, TEXT("a"), out, 8, NULL, NULL) == OSB_BAD_POINTER);
    EXPECT(osb_lossy(OSB_UNIX, out, 4, out + 3, 4, &count, NULL) == OSB_BAD_POINTER);
    apart(osb_lossy);
    too_long(osb_lossy, SIZE_MAX / 3 + 1);
}

/* A call that tests a prefix or a suffix by units. */
typedef int with_units(osb_platform, const char *, size_t, const char *, size_t);

/* Either string may be none, also where the other is empty, or isn't one either. */
static void faulty_units(with_units *call) {
    static const struct {
        osb_platform platform;
        const char *at;
        size_t len;
    } bad[] = {
        {OSB_WINDOWS, TEXT("\xC0")},
        {OSB_WINDOWS, TEXT("a\xE2\x82" "a")},
        {OSB_WINDOWS, TEXT("\xED\xA0\x80\xED\xB0\x80")},
        {OSB_WASM, TEXT("\x80")},
        {OSB_WASM, TEXT("a\xC0" "a")},
        {OSB_WASM, TEXT("\xED\xA0\x80")},
    };
    for (size_t i = 0; i < sizeof bad / sizeof *bad; i++) {
        osb_platform platform = bad[i].platform;
        const char *at = bad[i].at;
        size_t len = bad[i].len;
        EXPECT(call(platform, at, len, TEXT("a")) == -OSB_FAULTY);
        EXPECT(call(platform, at, len, TEXT("b")) == -OSB_FAULTY);
        EXPECT(call(platform, at, len, TEXT("")) == -OSB_FAULTY);
        EXPECT(call(platform, at, len, NULL, 0) == -OSB_FAULTY);
        EXPECT(call(platform, TEXT("a"), at, len) == -OSB_FAULTY);
        EXPECT(call(platform, TEXT(""), at, len) == -OSB_FAULTY);
        EXPECT(call(platform, at, len, at, len) == -OSB_FAULTY);
        EXPECT(call(OSB_UNIX, at, len, at, len) == 1);
        EXPECT(call(platform, TEXT("a"), TEXT("")) == 1);
        EXPECT(call(platform, TEXT(""), TEXT("a")) == 0);
    }
}

static void edges(void) {
    static const char halves[] = "\xF0\x9F\x98\x80";
    size_t index = 99;
    int32_t order = 9;
    EXPECT(osb_version() == OSB_VERSION);
    EXPECT(osb_rfind(TEXT("foobar"), TEXT("o"), &index) == OSB_OK && index == 2);
    EXPECT(osb_rfind(TEXT("foobar"), TEXT(""), &index) == OSB_OK && index == 6);
    index = 99;
    EXPECT(osb_rfind(TEXT("foobar"), TEXT("of"), &index) == OSB_NONE && index == 99);
    EXPECT(osb_rfind(TEXT("foobar"), TEXT("\xFF"), &index) == OSB_BAD_PATTERN);
    EXPECT(osb_rfind(TEXT("foobar"), NULL, 1, &index) == OSB_BAD_POINTER);
    EXPECT(osb_rfind(NULL, 1, TEXT("a"), &index) == OSB_BAD_POINTER);
    EXPECT(osb_rfind(TEXT("foobar"), TEXT("a"), NULL) == OSB_BAD_POINTER);
    EXPECT(osb_contains(TEXT("foobar"), TEXT("oba")) == 1);
    EXPECT(osb_contains(TEXT("foobar"), TEXT("of")) == 0);
    EXPECT(osb_contains(TEXT("foobar"), TEXT("\xFF")) == -OSB_BAD_PATTERN);
    EXPECT(osb_contains(NULL, 1, TEXT("o")) == -OSB_BAD_POINTER);
    EXPECT(osb_contains(TEXT("o"), NULL, 1) == -OSB_BAD_POINTER);
    EXPECT(osb_contains(NULL, 0, NULL, 0) == 1);
    EXPECT(osb_starts_with(TEXT("foobar"), TEXT("foo")) == 1);
    EXPECT(osb_starts_with(TEXT("foobar"), TEXT("bar")) == 0);
    EXPECT(osb_starts_with(TEXT("foobar"), TEXT("\xFF")) == -OSB_BAD_PATTERN);
    EXPECT(osb_starts_with(NULL, 1, TEXT("o")) == -OSB_BAD_POINTER);
    EXPECT(osb_starts_with(TEXT("o"), NULL, 1) == -OSB_BAD_POINTER);
    EXPECT(osb_ends_with(TEXT("foobar"), TEXT("bar")) == 1);
    EXPECT(osb_ends_with(TEXT("foobar"), TEXT("foo")) == 0);
    EXPECT(osb_ends_with(TEXT("foobar"), TEXT("\xFF")) == -OSB_BAD_PATTERN);
    EXPECT(osb_ends_with(NULL, 1, TEXT("o")) == -OSB_BAD_POINTER);
    EXPECT(osb_ends_with(TEXT("o"), NULL, 1) == -OSB_BAD_POINTER);
    EXPECT(osb_starts_with_units(OSB_WINDOWS, halves, 4, TEXT("\xED\xA0\xBD")) == 1);
    EXPECT(osb_starts_with_units(OSB_UNIX, halves, 4, TEXT("\xED\xA0\xBD")) == 0);
    EXPECT(osb_starts_with_units(OSB_UNIX, halves, 4, TEXT("\xF0\x9F")) == 1);
    EXPECT(osb_starts_with_units(OSB_WINDOWS, halves, 4, TEXT("\xED\xB8\x80")) == 0);
    EXPECT(osb_starts_with_units(OSB_WINDOWS, halves, 4, TEXT("\xF0\x9F")) == -OSB_FAULTY);
    EXPECT(osb_starts_with_units(OSB_WINDOWS, halves, 3, TEXT("a")) == -OSB_FAULTY);
    EXPECT(osb_starts_with_units(OSB_WASM, halves, 4, TEXT("\xED\xA0\xBD")) == -OSB_FAULTY);
    EXPECT(osb_starts_with_units(3, halves, 4, TEXT("a")) == -OSB_BAD_PLATFORM);
    EXPECT(osb_starts_with_units(OSB_UNIX, NULL, 1, TEXT("a")) == -OSB_BAD_POINTER);
    EXPECT(osb_starts_with_units(OSB_UNIX, TEXT("a"), NULL, 1) == -OSB_BAD_POINTER);
    EXPECT(osb_ends_with_units(OSB_WINDOWS, halves, 4, TEXT("\xED\xB8\x80")) == 1);
    EXPECT(osb_ends_with_units(OSB_WINDOWS, halves, 4, TEXT("\xED\xA0\xBD")) == 0);
    EXPECT(osb_ends_with_units(OSB_UNIX, halves, 4, TEXT("\x98\x80")) == 1);
    EXPECT(osb_ends_with_units(OSB_WASM, halves, 4, TEXT("\x98\x80")) == -OSB_FAULTY);
    EXPECT(osb_ends_with_units(3, halves, 4, TEXT("a")) == -OSB_BAD_PLATFORM);
    EXPECT(osb_ends_with_units(OSB_UNIX, NULL, 1, TEXT("a")) == -OSB_BAD_POINTER);
    EXPECT(osb_ends_with_units(OSB_UNIX, TEXT("a"), NULL, 1) == -OSB_BAD_POINTER);
    faulty_units(osb_starts_with_units);
    faulty_units(osb_ends_with_units);
    for (size_t i = 0; i < 7; i++)
        EXPECT(osb_is_boundary(TEXT("\x80\xC3\xA9" "a\xFF"), i) == (i == 2 || i > 5 ? 0 : 1));
    EXPECT(osb_is_boundary(NULL, 0, 0) == 1 && osb_is_boundary(NULL, 1, 0) == -OSB_BAD_POINTER);
    EXPECT(osb_compare(TEXT("ab"), TEXT("b"), &order) == OSB_OK && order == -1);
    EXPECT(osb_compare(TEXT("ab"), TEXT("a"), &order) == OSB_OK && order == 1);
    EXPECT(osb_compare(TEXT("\xFF"), TEXT("a"), &order) == OSB_OK && order == 1);
    EXPECT(osb_compare(TEXT("ab"), TEXT("ab"), &order) == OSB_OK && order == 0);
    EXPECT(osb_compare(NULL, 0, NULL, 0, &order) == OSB_OK && order == 0);
    EXPECT(osb_compare(NULL, 1, TEXT("a"), &order) == OSB_BAD_POINTER);
    EXPECT(osb_compare(TEXT("a"), NULL, 1, &order) == OSB_BAD_POINTER);
    EXPECT(osb_compare(TEXT("a"), TEXT("a"), NULL) == OSB_BAD_POINTER);
    EXPECT(osb_check(OSB_UNIX, "a", SIZE_MAX, NULL) == OSB_BAD_POINTER);
    EXPECT(osb_check(OSB_UNIX, "a", (size_t)PTRDIFF_MAX + 1, NULL) == OSB_BAD_POINTER);
    EXPECT(osb_check(OSB_UNIX, NULL, 1, NULL) == OSB_BAD_POINTER);
    /* past the last address; on Unix nothing is read */
    EXPECT(osb_check(OSB_UNIX, (const char *)(UINTPTR_MAX - 7), 8, NULL) == OSB_BAD_POINTER);
    EXPECT(osb_check(OSB_UNIX, NULL, 0, NULL) == OSB_OK);
}

static bool next_is(osb_symbols *symbols, uint32_t kind, uint32_t value, const char *at,
                    size_t len) {
    osb_symbol symbol = {9, 9, {NULL, 9}};
    return osb_symbols_next(symbols, &symbol) == OSB_OK && symbol.kind == kind &&
           symbol.value == value && is(symbol.bytes, at, len);
}

static void symbols(void) {
    osb_symbols symbols;
    osb_symbol symbol = {9, 9, {NULL, 9}};
    osb_fault fault = {9, 9, 9, 9};
    EXPECT(osb_symbols_start(&symbols, OSB_UNIX, TEXT("a\xC3\xA9\xC3\xFF"), &fault) == OSB_OK);
    EXPECT(next_is(&symbols, OSB_CHARACTER, 'a', TEXT("a")));
    osb_symbols copy = symbols;
    EXPECT(next_is(&symbols, OSB_CHARACTER, 0xE9, TEXT("\xC3\xA9")));
    EXPECT(next_is(&symbols, OSB_UNIT, 0xC3, TEXT("\xC3")));
    EXPECT(next_is(&symbols, OSB_UNIT, 0xFF, TEXT("\xFF")));
    EXPECT(osb_symbols_next(&symbols, &symbol) == OSB_ENDED && symbol.kind == 9);
    EXPECT(osb_symbols_next(&symbols, &symbol) == OSB_ENDED && symbol.value == 9);
    EXPECT(next_is(&copy, OSB_CHARACTER, 0xE9, TEXT("\xC3\xA9")));
    EXPECT(osb_symbols_start(&symbols, OSB_WINDOWS, TEXT("\xED\xB0\x80\xED\xA0\xBD\xF0\x9F\x98\x80"),
                             NULL) == OSB_OK);
    EXPECT(next_is(&symbols, OSB_UNIT, 0xDC00, TEXT("\xED\xB0\x80")));
    EXPECT(next_is(&symbols, OSB_UNIT, 0xD83D, TEXT("\xED\xA0\xBD")));
    EXPECT(next_is(&symbols, OSB_CHARACTER, 0x1F600, TEXT("\xF0\x9F\x98\x80")));
    EXPECT(osb_symbols_next(&symbols, &symbol) == OSB_ENDED);
    EXPECT(osb_symbols_start(&symbols, OSB_WASM, NULL, 0, NULL) == OSB_OK);
    EXPECT(osb_symbols_next(&symbols, &symbol) == OSB_ENDED);
    /* bad arguments, and fields that no call left so */
    EXPECT(osb_symbols_start(&symbols, OSB_WINDOWS, TEXT("a\xC0"), &fault) == OSB_FAULTY);
    EXPECT(fault.kind == OSB_FAULT_BYTE && fault.value == 0xC0 && fault.index == 1);
    EXPECT(osb_symbols_next(&symbols, &symbol) == OSB_ENDED);
    EXPECT(osb_symbols_start(&symbols, 3, TEXT("a"), NULL) == OSB_BAD_PLATFORM);
    EXPECT(osb_symbols_start(&symbols, OSB_UNIX, NULL, 1, NULL) == OSB_BAD_POINTER);
    EXPECT(osb_symbols_start(NULL, OSB_UNIX, TEXT("a"), NULL) == OSB_BAD_POINTER);
    EXPECT(osb_symbols_next(NULL, &symbol) == OSB_BAD_POINTER);
    EXPECT(osb_symbols_next(&copy, NULL) == OSB_BAD_POINTER);
    EXPECT(next_is(&copy, OSB_UNIT, 0xC3, TEXT("\xC3")));
    symbols = (osb_symbols){{NULL, 0}, 0, OSB_UNIX};
    EXPECT(osb_symbols_next(&symbols, &symbol) == OSB_BAD_POINTER);
    symbols = (osb_symbols){{"a", SIZE_MAX}, 0, OSB_UNIX};
    EXPECT(osb_symbols_next(&symbols, &symbol) == OSB_BAD_POINTER);
    symbols = (osb_symbols){{"a", 1}, 2, OSB_UNIX};
    EXPECT(osb_symbols_next(&symbols, &symbol) == OSB_BAD_INDEX);
    symbols = (osb_symbols){{"a", 1}, 0, 3};
    EXPECT(osb_symbols_next(&symbols, &symbol) == OSB_BAD_PLATFORM);
    symbols = (osb_symbols){{"\xED\xA0", 2}, 0, OSB_WINDOWS};
    EXPECT(osb_symbols_next(&symbols, &symbol) == OSB_FAULTY);
    symbols = (osb_symbols){{"\x80", 1}, 0, OSB_WASM};
    EXPECT(osb_symbols_next(&symbols, &symbol) == OSB_FAULTY && symbol.kind == 9);
}

/* Each view is of the caller's string, the empty ones too, also of the empty string. */
static void views(void) {
    static const char text[] = ",a,,\xFF" "b\xC3\xA9\xFF,";
    for (size_t len = 0; len < sizeof text; len++) {
        osb_split split;
        osb_view piece;
        osb_chunks chunks;
        osb_chunk chunk;
        osb_symbols symbols;
        osb_symbol symbol;
        size_t at = 0;
        EXPECT(osb_split_start(&split, text, len, TEXT(",")) == OSB_OK);
        for (; osb_split_next(&split, &piece) == OSB_OK; at += piece.len + 1)
            EXPECT(piece.at == text + at);
        EXPECT(at == len + 1);
        EXPECT(osb_rsplit_start(&split, text, len, TEXT(",")) == OSB_OK);
        for (; osb_rsplit_next(&split, &piece) == OSB_OK; at -= piece.len + 1)
            EXPECT(piece.at + piece.len + 1 == text + at);
        EXPECT(at == 0);
        EXPECT(osb_chunks_start(&chunks, text, len) == OSB_OK);
        for (; osb_chunks_next(&chunks, &chunk) == OSB_OK; at += chunk.text.len) {
            EXPECT(chunk.part.at == text + at);
            at += chunk.part.len;
            EXPECT(chunk.text.at == text + at);
        }
        EXPECT(at == len);
        EXPECT(osb_symbols_start(&symbols, OSB_UNIX, text, len, NULL) == OSB_OK);
        for (at = 0; osb_symbols_next(&symbols, &symbol) == OSB_OK; at += symbol.bytes.len)
            EXPECT(symbol.bytes.at == text + at);
        EXPECT(at == len);
    }
    /* a string without a pointer is somewhere, too */
    osb_split split;
    osb_view piece = {NULL, 9};
    EXPECT(osb_split_start(&split, NULL, 0, TEXT(",")) == OSB_OK);
    EXPECT(osb_split_next(&split, &piece) == OSB_OK && piece.at != NULL && piece.len == 0);
    piece = (osb_view){NULL, 9};
    EXPECT(osb_rsplit_start(&split, NULL, 0, TEXT(",")) == OSB_OK);
    EXPECT(osb_rsplit_next(&split, &piece) == OSB_OK && piece.at != NULL && piece.len == 0);
}

/* The string's escape, in every room. */
static bool escaped(to_text *escape, osb_platform platform, const char *at, size_t len,
                    const char *text, size_t text_len) {
    char out[64];
    size_t count = 0;
    if (osb_escape_bound(len) < text_len) return false;
    for (size_t room = 0; room < text_len + 2; room++) {
        memset(out, 0x55, sizeof out);
        osb_status status = escape(platform, at, len, room == 0 ? NULL : out, room, &count, NULL);
        if (count != text_len || status != (room < text_len ? OSB_NO_ROOM : OSB_OK)) return false;
        if (text_len > 0 && memcmp(out, text, room < text_len ? room : text_len) != 0) return false;
        if (out[room < text_len ? room : text_len] != 0x55) return false;
    }
    return true;
}

static void bad_escapes(to_text *escape) {
    char out[64];
    size_t count = 7;
    osb_fault fault = {9, 9, 9, 9};
    EXPECT(escape(OSB_WINDOWS, TEXT("ab\xC0"), out, 8, &count, &fault) == OSB_FAULTY && count == 7);
    EXPECT(fault.kind == OSB_FAULT_BYTE && fault.value == 0xC0 && fault.index == 2);
    EXPECT(escape(3, TEXT("a"), out, 8, &count, NULL) == OSB_BAD_PLATFORM && count == 7);
    EXPECT(escape(OSB_UNIX, NULL, 1, out, 8, &count, NULL) == OSB_BAD_POINTER);
    EXPECT(escape(OSB_UNIX, TEXT("a"), NULL, 8, &count, NULL) == OSB_BAD_POINTER);
    EXPECT(escape(OSB_UNIX, TEXT("a"), out, 8, NULL, NULL) == OSB_BAD_POINTER);
    EXPECT(escape(OSB_UNIX, out + 7, 3, out, 8, &count, NULL) == OSB_BAD_POINTER);
}

static void escapes(void) {
    to_text *line = osb_escape_line;
    EXPECT(escaped(osb_escape, OSB_UNIX, TEXT("a\n\\\x80\xFF"), TEXT("a\n\\\\\\x80\\xFF")));
    EXPECT(escaped(osb_escape, OSB_WINDOWS, TEXT("a\xED\xA0\x80" "b"), TEXT("a\\uD800b")));
    EXPECT(escaped(osb_escape, OSB_WASM, TEXT("\\\xC3\xA9"), TEXT("\\\\\xC3\xA9")));
    EXPECT(escaped(osb_escape, OSB_UNIX, NULL, 0, NULL, 0));
    EXPECT(escaped(line, OSB_UNIX, TEXT("a\n\\\xFF"), TEXT("a\\u000A\\\\\\xFF")));
    EXPECT(escaped(line, OSB_WINDOWS, TEXT("\xED\xBF\xBF\xE2\x80\xA8"), TEXT("\\uDFFF\\u2028")));
    EXPECT(escaped(line, OSB_WASM, TEXT("\xF3\xA0\x81\x81z"), TEXT("\\u{E0041}z")));
    EXPECT(escaped(line, OSB_WASM, NULL, 0, NULL, 0));
    bad_escapes(osb_escape);
    bad_escapes(line);
    apart(osb_escape);
    apart(line);
    too_long(osb_escape, SIZE_MAX / 6 + 1);
    too_long(line, SIZE_MAX / 6 + 1);
}

/* The least bound is a number of items for each item, and SIZE_MAX where that is greater. */
static bool is_bound(size_t (*bound)(size_t), size_t each) {
    for (size_t parts = 1; parts <= each; parts++) {
        size_t len = SIZE_MAX / parts;
        if (bound(len) != (parts < each ? SIZE_MAX : each * len)) return false;
        if (bound(len - 1) != (parts < each ? SIZE_MAX : each * (len - 1))) return false;
        if (parts > 1 && bound(len + 1) != SIZE_MAX) return false;
    }
    return bound(0) == 0 && bound(1) == each && bound(5) == 5 * each;
}

static void bounds(void) {
    EXPECT(is_bound(osb_wide_bound, 1));
    EXPECT(is_bound(osb_bytes_bound, 3));
    EXPECT(is_bound(osb_lossy_bound, 3));
    EXPECT(is_bound(osb_escape_bound, 6));
    EXPECT(is_bound(osb_unescape_bound, 1));
}

/* A call that writes the string with an escape. */
typedef osb_status to_string(osb_platform, const char *, size_t, char *, size_t, size_t *, size_t *);

/* The string with an escape, in every room. */
static bool unescaped(to_string *unescape, osb_platform platform, const char *escape, size_t len,
                      const char *string, size_t string_len) {
    char out[64];
    size_t count = 0, index = 7;
    if (osb_unescape_bound(len) < string_len) return false;
    for (size_t room = 0; room < string_len + 2; room++) {
        size_t end = room < string_len ? room : string_len;
        memset(out, 0x55, sizeof out);
        osb_status status =
            unescape(platform, escape, len, room == 0 ? NULL : out, room, &count, &index);
        if (count != string_len || status != (end < string_len ? OSB_NO_ROOM : OSB_OK)) return false;
        if (index != 7 || out[end] != 0x55) return false;
        if (string_len > 0 && memcmp(out, string, end) != 0) return false;
    }
    return true;
}

/* An escape that isn't read: the index of the backslash, or 7 where each is in a token. */
static bool unread(to_string *unescape, osb_platform platform, const char *escape, size_t len,
                   osb_status wanted, size_t wanted_index) {
    char out[64];
    size_t count = 9, index = 7;
    osb_status status = unescape(platform, escape, len, out, sizeof out, &count, &index);
    if (status != wanted || count != 9 || index != wanted_index) return false;
    return unescape(platform, escape, len, out, sizeof out, &count, NULL) == wanted && count == 9;
}

static void bad_strings(to_string *unescape) {
    char out[64] = "abcdefgh";
    size_t count = 7, index = 7;
    EXPECT(unescape(3, TEXT("a"), out, 8, &count, &index) == OSB_BAD_PLATFORM && count == 7);
    EXPECT(unescape(OSB_UNIX, NULL, 1, out, 8, &count, &index) == OSB_BAD_POINTER);
    EXPECT(unescape(OSB_UNIX, TEXT("a"), NULL, 8, &count, &index) == OSB_BAD_POINTER);
    EXPECT(unescape(OSB_UNIX, "a", SIZE_MAX, out, 8, &count, &index) == OSB_BAD_POINTER);
    EXPECT(unescape(OSB_UNIX, TEXT("a"), out, SIZE_MAX, &count, &index) == OSB_BAD_POINTER);
    EXPECT(unescape(OSB_UNIX, TEXT("a"), out, 8, NULL, &index) == OSB_BAD_POINTER);
    EXPECT(unescape(OSB_UNIX, out + 7, 3, out, 8, &count, &index) == OSB_BAD_POINTER);
    EXPECT(unescape(OSB_UNIX, out, 3, out + 2, 8, &count, &index) == OSB_BAD_POINTER);
    EXPECT(unescape(OSB_UNIX, out, 3, out, 8, &count, &index) == OSB_BAD_POINTER);
    EXPECT(count == 7 && index == 7 && memcmp(out, "abcdefgh", 8) == 0);
    EXPECT(unescape(OSB_UNIX, out, 3, out + 3, 5, &count, &index) == OSB_OK && count == 3);
    EXPECT(memcmp(out, "abcabcgh", 8) == 0);
    EXPECT(unescape(OSB_UNIX, out + 5, 3, out, 5, &count, &index) == OSB_OK && count == 3);
    EXPECT(memcmp(out, "cghabcgh", 8) == 0);
    /* Without room it isn't known yet that no string has it. */
    EXPECT(unescape(OSB_UNIX, TEXT("\\x41"), out, 0, &count, &index) == OSB_NO_ROOM && count == 1);
    EXPECT(unescape(OSB_UNIX, TEXT("\\"), NULL, 0, &count, &index) == OSB_BAD_ESCAPE);
    EXPECT(count == 1 && index == 0);
}

/* One byte among others, at each index of each length about those that are read at once. */
static void byte_among_others(to_string *unescape) {
    char escape[82], out[82];
    for (size_t len = 1; len <= sizeof escape; len++)
        for (size_t at = 0; at < len; at++) {
            size_t count = 9, index = 99;
            memset(escape, 'a', len);
            escape[at] = '~';
            EXPECT(unescape(OSB_UNIX, escape, len, out, len, &count, &index) == OSB_OK);
            EXPECT(count == len && memcmp(out, escape, len) == 0);
            escape[at] = '\\';
            EXPECT(unescape(OSB_UNIX, escape, len, out, len, &count, &index) == OSB_BAD_ESCAPE);
            EXPECT(index == at);
            escape[at] = '\xFF';
            EXPECT(unescape(OSB_UNIX, escape, len, out, len, &count, &index) == OSB_BAD_PATTERN);
            EXPECT(unescape(OSB_UNIX, escape, len, NULL, 0, &count, &index) == OSB_BAD_PATTERN);
            EXPECT(count == len && index == at);
        }
}

static void unescapes(void) {
    to_string *plain = osb_unescape, *line = osb_unescape_line;
    byte_among_others(plain);
    byte_among_others(line);
    EXPECT(unread(plain, OSB_UNIX, TEXT("\\xFF\xC3\\x28"), OSB_BAD_PATTERN, 7));
    EXPECT(unread(line, OSB_WINDOWS, TEXT("\\uD83D\xF0\x9F\x98"), OSB_BAD_PATTERN, 7));
    EXPECT(unescaped(plain, OSB_UNIX, TEXT("a\n\\\\\\x80\\xFF"), TEXT("a\n\\\x80\xFF")));
    EXPECT(unescaped(plain, OSB_WINDOWS, TEXT("a\\uD800b"), TEXT("a\xED\xA0\x80" "b")));
    EXPECT(unescaped(plain, OSB_WASM, TEXT("\\\\\xC3\xA9"), TEXT("\\\xC3\xA9")));
    EXPECT(unescaped(plain, OSB_UNIX, TEXT("abc"), TEXT("abc")));
    EXPECT(unescaped(plain, OSB_UNIX, NULL, 0, NULL, 0));
    EXPECT(unescaped(line, OSB_UNIX, TEXT("a\\u000A\\\\\\xFF"), TEXT("a\n\\\xFF")));
    EXPECT(unescaped(line, OSB_WINDOWS, TEXT("\\uDFFF\\u2028"), TEXT("\xED\xBF\xBF\xE2\x80\xA8")));
    EXPECT(unescaped(line, OSB_WASM, TEXT("\\u{E0041}z"), TEXT("\xF3\xA0\x81\x81z")));
    EXPECT(unescaped(line, OSB_WASM, NULL, 0, NULL, 0));
    EXPECT(unread(plain, OSB_UNIX, TEXT("ab\\q\\x4"), OSB_BAD_ESCAPE, 2));
    EXPECT(unread(plain, OSB_UNIX, TEXT("\\u{E0041}z"), OSB_BAD_ESCAPE, 0));
    EXPECT(unread(line, OSB_UNIX, TEXT("a\\u{041}"), OSB_BAD_ESCAPE, 1));
    EXPECT(unread(plain, OSB_UNIX, TEXT("\\x41"), OSB_NO_STRING, 7));
    EXPECT(unread(plain, OSB_UNIX, TEXT("\\u000A"), OSB_NO_STRING, 7));
    EXPECT(unread(plain, OSB_UNIX, TEXT("\\xC3\\xA9"), OSB_NO_STRING, 7));
    EXPECT(unread(plain, OSB_WINDOWS, TEXT("\\x80"), OSB_NO_STRING, 7));
    EXPECT(unread(plain, OSB_WINDOWS, TEXT("\\uD83D\\uDE00"), OSB_NO_STRING, 7));
    EXPECT(unread(plain, OSB_WASM, TEXT("\\uD800"), OSB_NO_STRING, 7));
    EXPECT(unread(line, OSB_UNIX, TEXT("a\n"), OSB_NO_STRING, 7));
    EXPECT(unread(plain, OSB_UNIX, TEXT("a\xFF"), OSB_BAD_PATTERN, 7));
    EXPECT(unread(line, OSB_UNIX, TEXT("\xED\xA0\x80"), OSB_BAD_PATTERN, 7));
    bad_strings(plain);
    bad_strings(line);
}

/* Each status has a text of its own, and all that are none have one. */
static void status_texts(void) {
    static const osb_status all[] = {
        OSB_OK, OSB_FAULTY, OSB_NO_ROOM, OSB_NONE, OSB_ENDED, OSB_BAD_ESCAPE, OSB_NO_STRING,
        OSB_HAS_NUL, OSB_BAD_LINE, OSB_HAS_QUOTE, OSB_UNEXPECTED, OSB_NO_MEMORY, OSB_BAD_PATH, OSB_BAD_PLATFORM, OSB_BAD_PATTERN,
        OSB_BAD_INDEX, OSB_BAD_FAULT, OSB_BAD_STATE, OSB_TOO_LONG, OSB_BAD_OPTION, OSB_BAD_EXTENSION, OSB_EMPTY,
        OSB_BAD_POINTER, 15,
    };
    size_t count = sizeof all / sizeof *all;
    for (size_t i = 0; i < count; i++)
        for (size_t j = 0; j < count; j++)
            EXPECT((strcmp(osb_status_text(all[i]), osb_status_text(all[j])) == 0) == (i == j));
    for (size_t i = 0; i < count; i++) {
        const char *text = osb_status_text(all[i]);
        EXPECT(strstr(text, "  ") == NULL && text[0] >= 'a' && text[0] <= 'z' && strchr(" .", text[strlen(text) - 1]) == NULL);
    }
    EXPECT(strcmp(osb_status_text(0xFFFFFFFF), osb_status_text(15)) == 0);
    EXPECT(strcmp(osb_status_text(OSB_TOO_LONG), "the string is too long") == 0);
}

/* The components of a path as text, such as "2/0:1 5/1:4 ", in every room. */
static bool has_components(osb_platform platform, const char *at, size_t len, const char *wanted) {
    osb_component *out = malloc(40 * sizeof *out);
    char text[400] = "";
    size_t count = 0, used = 0;
    if (osb_path_components(platform, at, len, out, 40, &count) != OSB_OK || count > len + 1) return false;
    for (size_t i = 0; i < count; i++)
        used += (size_t)sprintf(text + used, "%u/%zu:%zu ", (unsigned)out[i].kind, out[i].start, out[i].end);
    bool right = strcmp(text, wanted) == 0;
    if (!right) printf("  %s\n", text);
    for (size_t room = 0; room < count + 2 && right; room++) {
        osb_component *some = malloc(room * sizeof *some + 1);
        size_t end = room < count ? room : count, own = 99;
        memset(some, 0x55, room * sizeof *some);
        osb_status status = osb_path_components(platform, at, len, room == 0 ? NULL : some, room, &own);
        right = own == count && status == (room < count ? OSB_NO_ROOM : OSB_OK);
        for (size_t i = 0; i < end; i++)
            right = right && some[i].kind == out[i].kind && some[i].start == out[i].start && some[i].end == out[i].end;
        for (size_t i = end; i < room; i++) right = right && some[i].start == (size_t)0x5555555555555555;
        free(some);
    }
    free(out);
    return right;
}

static void components(void) {
    EXPECT(has_components(OSB_UNIX, NULL, 0, ""));
    EXPECT(has_components(OSB_UNIX, TEXT("/"), "2/0:1 "));
    EXPECT(has_components(OSB_UNIX, TEXT("//usr/./lib/"), "2/0:1 5/2:5 5/8:11 "));
    EXPECT(has_components(OSB_UNIX, TEXT("./a//../.b"), "3/0:1 5/2:3 4/5:7 5/8:10 "));
    EXPECT(has_components(OSB_UNIX, TEXT("\xFF/a\0b"), "5/0:1 5/2:5 "));
    EXPECT(has_components(OSB_UNIX, TEXT("C:\\a"), "5/0:4 "));
    EXPECT(has_components(OSB_WASM, TEXT("C:\\a/b"), "5/0:4 5/5:6 "));
    EXPECT(has_components(OSB_WINDOWS, TEXT("C:\\a/.\\.."), "1/0:2 2/2:3 5/3:4 4/7:9 "));
    EXPECT(has_components(OSB_WINDOWS, TEXT("C:a"), "1/0:2 5/2:3 "));
    EXPECT(has_components(OSB_WINDOWS, TEXT("C:"), "1/0:2 "));
    EXPECT(has_components(OSB_WINDOWS, TEXT("\\\\server\\share"), "1/0:14 2/14:14 "));
    EXPECT(has_components(OSB_WINDOWS, TEXT("\\\\server\\share\\a"), "1/0:14 2/14:15 5/15:16 "));
    EXPECT(has_components(OSB_WINDOWS, TEXT("\\\\?\\C:\\.\\a/b"), "1/0:6 2/6:7 3/7:8 5/9:12 "));
    EXPECT(has_components(OSB_WINDOWS, TEXT(".\\a"), "3/0:1 5/2:3 "));
    osb_component out[4] = {{9, 9, 9}, {9, 9, 9}, {9, 9, 9}, {9, 9, 9}};
    size_t count = 7;
    EXPECT(osb_path_components(3, TEXT("a"), out, 4, &count) == OSB_BAD_PLATFORM);
    EXPECT(osb_path_components(OSB_UNIX, NULL, 1, out, 4, &count) == OSB_BAD_POINTER);
    EXPECT(osb_path_components(OSB_UNIX, "a", SIZE_MAX, out, 4, &count) == OSB_BAD_POINTER);
    EXPECT(osb_path_components(OSB_UNIX, TEXT("a"), NULL, 1, &count) == OSB_BAD_POINTER);
    EXPECT(osb_path_components(OSB_UNIX, TEXT("a"), out, 4, NULL) == OSB_BAD_POINTER);
    EXPECT(osb_path_components(OSB_UNIX, TEXT("a"), out, SIZE_MAX, &count) == OSB_BAD_POINTER);
    EXPECT(osb_path_components(OSB_UNIX, TEXT("a"), out, PTRDIFF_MAX / 24 + 1, &count) == OSB_BAD_POINTER);
    /* a room whose bytes, counted, wrap to few */
    EXPECT(osb_path_components(OSB_UNIX, TEXT("a"), out, SIZE_MAX / 24 + 2, &count) == OSB_BAD_POINTER);
    void *odd = (char *)out + 4;
    EXPECT(osb_path_components(OSB_UNIX, TEXT("a"), odd, 1, &count) == OSB_BAD_POINTER);
    /* overlaps in the first component and in the last, and a path directly after the array */
    EXPECT(osb_path_components(OSB_UNIX, (char *)out, 2, out, 4, &count) == OSB_BAD_POINTER);
    EXPECT(osb_path_components(OSB_UNIX, (char *)(out + 4) - 1, 1, out, 4, &count) == OSB_BAD_POINTER);
    EXPECT(count == 7 && out[0].kind == 9 && out[3].end == 9);
    memcpy(out + 3, "a/b", 3);
    EXPECT(osb_path_components(OSB_UNIX, (char *)(out + 3), 3, out, 3, &count) == OSB_OK && count == 2);
    EXPECT(out[1].kind == OSB_NAME && out[1].start == 2 && out[1].end == 3 && out[2].kind == 9);
}

/* A call that finds a part of a path. */
typedef osb_status to_part(osb_platform, const char *, size_t, osb_view *);

/* The part is there, at this index of the path itself. */
static bool part_is(to_part *call, osb_platform platform, const char *at, size_t len, size_t index,
                    const char *wanted) {
    osb_view part = {NULL, 99};
    if (call(platform, at, len, &part) != OSB_OK) return false;
    return is(part, wanted, strlen(wanted)) && (at == NULL || part.at == at + index);
}

static bool no_part(to_part *call, osb_platform platform, const char *at, size_t len) {
    osb_view part = {NULL, 99};
    return call(platform, at, len, &part) == OSB_NONE && part.at == NULL && part.len == 99;
}

static void bad_parts(to_part *call) {
    osb_view part = {NULL, 99};
    EXPECT(call(3, TEXT("C:\\a.b"), &part) == OSB_BAD_PLATFORM);
    EXPECT(call(0xFFFFFFFF, TEXT("C:\\a.b"), &part) == OSB_BAD_PLATFORM);
    EXPECT(call(OSB_WINDOWS, NULL, 1, &part) == OSB_BAD_POINTER);
    EXPECT(call(OSB_WINDOWS, "C:\\a.b", SIZE_MAX, &part) == OSB_BAD_POINTER);
    EXPECT(call(OSB_WINDOWS, TEXT("C:\\a.b"), NULL) == OSB_BAD_POINTER);
    EXPECT(part.at == NULL && part.len == 99);
    EXPECT(no_part(call, OSB_UNIX, NULL, 0));
}

static void path_parts(void) {
    to_part *const calls[] = {osb_path_parent, osb_path_prefix, osb_path_file_name, osb_path_file_stem,
                              osb_path_extension};
    for (size_t i = 0; i < sizeof calls / sizeof *calls; i++) bad_parts(calls[i]);
    EXPECT(part_is(osb_path_parent, OSB_UNIX, TEXT("/usr//lib/"), 0, "/usr"));
    EXPECT(part_is(osb_path_parent, OSB_UNIX, TEXT("a"), 0, ""));
    EXPECT(part_is(osb_path_parent, OSB_WINDOWS, TEXT("C:\\\\a/b"), 0, "C:\\\\a"));
    EXPECT(part_is(osb_path_parent, OSB_WASM, TEXT("a\\b/c"), 0, "a\\b"));
    EXPECT(no_part(osb_path_parent, OSB_UNIX, TEXT("/")));
    EXPECT(no_part(osb_path_parent, OSB_WINDOWS, TEXT("\\\\server\\share\\")));
    EXPECT(part_is(osb_path_prefix, OSB_WINDOWS, TEXT("c:a"), 0, "c:"));
    EXPECT(part_is(osb_path_prefix, OSB_WINDOWS, TEXT("\\\\server\\share\\a"), 0, "\\\\server\\share"));
    EXPECT(no_part(osb_path_prefix, OSB_WINDOWS, TEXT("\\\\server")));
    EXPECT(no_part(osb_path_prefix, OSB_UNIX, TEXT("c:a")));
    EXPECT(no_part(osb_path_prefix, OSB_WASM, TEXT("c:a")));
    EXPECT(part_is(osb_path_file_name, OSB_UNIX, TEXT("/usr/lib/."), 5, "lib"));
    EXPECT(part_is(osb_path_file_name, OSB_UNIX, TEXT("a/a//"), 2, "a"));
    EXPECT(part_is(osb_path_file_name, OSB_UNIX, TEXT("a/b.c/."), 2, "b.c"));
    EXPECT(part_is(osb_path_file_name, OSB_WINDOWS, TEXT("C:lib"), 2, "lib"));
    EXPECT(part_is(osb_path_file_name, OSB_WASM, TEXT("b\\c"), 0, "b\\c"));
    EXPECT(no_part(osb_path_file_name, OSB_UNIX, TEXT("/usr/..")));
    EXPECT(no_part(osb_path_file_name, OSB_UNIX, TEXT(".")));
    EXPECT(no_part(osb_path_file_name, OSB_WINDOWS, TEXT("C:\\")));
    EXPECT(part_is(osb_path_file_stem, OSB_UNIX, TEXT("b.c/a.tar.gz/"), 4, "a.tar"));
    EXPECT(part_is(osb_path_file_stem, OSB_UNIX, TEXT("/.profile"), 1, ".profile"));
    EXPECT(part_is(osb_path_file_stem, OSB_WINDOWS, TEXT("b\\a"), 2, "a"));
    EXPECT(no_part(osb_path_file_stem, OSB_UNIX, TEXT("a.b/..")));
    EXPECT(part_is(osb_path_extension, OSB_UNIX, TEXT("b.c/a.tar.gz/"), 10, "gz"));
    EXPECT(part_is(osb_path_extension, OSB_UNIX, TEXT("a."), 2, ""));
    EXPECT(part_is(osb_path_extension, OSB_WINDOWS, TEXT("b\\a.c"), 4, "c"));
    EXPECT(no_part(osb_path_extension, OSB_UNIX, TEXT("/.profile")));
    EXPECT(no_part(osb_path_extension, OSB_UNIX, TEXT("a.b/c")));
    EXPECT(no_part(osb_path_extension, OSB_UNIX, TEXT("a.b/..")));
}

static void path_tests(void) {
    EXPECT(osb_path_has_root(OSB_UNIX, TEXT("/a")) == 1);
    EXPECT(osb_path_has_root(OSB_UNIX, TEXT("\\a")) == 0);
    EXPECT(osb_path_has_root(OSB_WASM, TEXT("\\a")) == 0);
    EXPECT(osb_path_has_root(OSB_WINDOWS, TEXT("\\a")) == 1);
    EXPECT(osb_path_has_root(OSB_WINDOWS, TEXT("C:a")) == 0);
    EXPECT(osb_path_has_root(OSB_UNIX, NULL, 0) == 0);
    EXPECT(osb_path_has_root(3, TEXT("/a")) == -OSB_BAD_PLATFORM);
    EXPECT(osb_path_has_root(OSB_UNIX, NULL, 1) == -OSB_BAD_POINTER);
    EXPECT(osb_path_has_root(OSB_UNIX, "/a", SIZE_MAX) == -OSB_BAD_POINTER);
    EXPECT(osb_path_is_absolute(OSB_UNIX, TEXT("/a")) == 1);
    EXPECT(osb_path_is_absolute(OSB_WINDOWS, TEXT("\\a")) == 0);
    EXPECT(osb_path_is_absolute(OSB_WINDOWS, TEXT("C:\\a")) == 1);
    EXPECT(osb_path_is_absolute(OSB_WASM, TEXT("C:\\a")) == 0);
    EXPECT(osb_path_is_absolute(OSB_UNIX, NULL, 0) == 0);
    EXPECT(osb_path_is_absolute(3, TEXT("/a")) == -OSB_BAD_PLATFORM);
    EXPECT(osb_path_is_absolute(OSB_UNIX, NULL, 1) == -OSB_BAD_POINTER);
    EXPECT(osb_path_is_absolute(OSB_UNIX, "/a", SIZE_MAX) == -OSB_BAD_POINTER);
    EXPECT(osb_path_starts_with(OSB_UNIX, TEXT("/usr//lib"), TEXT("/usr/")) == 1);
    EXPECT(osb_path_starts_with(OSB_UNIX, TEXT("/usr/lib"), TEXT("/us")) == 0);
    EXPECT(osb_path_starts_with(OSB_UNIX, TEXT("/us"), TEXT("/us/lib")) == 0);
    EXPECT(osb_path_starts_with(OSB_WINDOWS, TEXT("C:\\a\\b"), TEXT("c:/a")) == 1);
    EXPECT(osb_path_starts_with(OSB_WASM, TEXT("C:\\a\\b"), TEXT("c:/a")) == 0);
    EXPECT(osb_path_starts_with(OSB_UNIX, TEXT("a"), NULL, 0) == 1);
    EXPECT(osb_path_starts_with(OSB_UNIX, NULL, 0, TEXT("a")) == 0);
    EXPECT(osb_path_starts_with(3, TEXT("a"), TEXT("a")) == -OSB_BAD_PLATFORM);
    EXPECT(osb_path_starts_with(OSB_UNIX, NULL, 1, TEXT("a")) == -OSB_BAD_POINTER);
    EXPECT(osb_path_starts_with(OSB_UNIX, TEXT("a"), NULL, 1) == -OSB_BAD_POINTER);
    EXPECT(osb_path_starts_with(OSB_UNIX, TEXT("a"), "a", SIZE_MAX) == -OSB_BAD_POINTER);
    EXPECT(osb_path_ends_with(OSB_UNIX, TEXT("/usr/lib/"), TEXT("lib")) == 1);
    EXPECT(osb_path_ends_with(OSB_UNIX, TEXT("/usr/lib"), TEXT("ib")) == 0);
    EXPECT(osb_path_ends_with(OSB_UNIX, TEXT("lib"), TEXT("usr/lib")) == 0);
    EXPECT(osb_path_ends_with(OSB_WINDOWS, TEXT("a\\b/c"), TEXT("b\\c")) == 1);
    EXPECT(osb_path_ends_with(OSB_WASM, TEXT("a\\b/c"), TEXT("b/c")) == 0);
    EXPECT(osb_path_ends_with(OSB_UNIX, TEXT("a"), NULL, 0) == 1);
    EXPECT(osb_path_ends_with(OSB_UNIX, NULL, 0, TEXT("a")) == 0);
    EXPECT(osb_path_ends_with(3, TEXT("a"), TEXT("a")) == -OSB_BAD_PLATFORM);
    EXPECT(osb_path_ends_with(OSB_UNIX, NULL, 1, TEXT("a")) == -OSB_BAD_POINTER);
    EXPECT(osb_path_ends_with(OSB_UNIX, TEXT("a"), NULL, 1) == -OSB_BAD_POINTER);
    EXPECT(osb_path_ends_with(OSB_UNIX, TEXT("a"), "a", SIZE_MAX) == -OSB_BAD_POINTER);
}

/* The rest of a path after a base, at this index of the path itself. */
static bool rest_is(osb_platform platform, const char *at, size_t len, const char *base, size_t base_len,
                    size_t index, const char *wanted) {
    osb_view rest = {NULL, 99};
    if (osb_path_strip_prefix(platform, at, len, base, base_len, &rest) != OSB_OK) return false;
    return is(rest, wanted, strlen(wanted)) && (at == NULL || rest.at == at + index);
}

static bool no_rest(osb_platform platform, const char *at, size_t len, const char *base, size_t base_len) {
    osb_view rest = {NULL, 99};
    return osb_path_strip_prefix(platform, at, len, base, base_len, &rest) == OSB_NONE && rest.at == NULL &&
           rest.len == 99;
}

static void path_rests(void) {
    EXPECT(rest_is(OSB_UNIX, TEXT("/usr//lib/a/."), TEXT("/usr/"), 6, "lib/a"));
    EXPECT(rest_is(OSB_UNIX, TEXT("a/a"), TEXT("a"), 2, "a"));
    EXPECT(rest_is(OSB_UNIX, TEXT("/usr/"), TEXT("/usr"), 5, ""));
    EXPECT(rest_is(OSB_UNIX, TEXT("/"), NULL, 0, 0, "/"));
    EXPECT(rest_is(OSB_UNIX, TEXT("./a/b//"), NULL, 0, 0, "./a/b"));
    EXPECT(rest_is(OSB_UNIX, NULL, 0, NULL, 0, 0, ""));
    EXPECT(rest_is(OSB_UNIX, TEXT("\xFF/\xFF"), TEXT("\xFF"), 2, "\xFF"));
    EXPECT(rest_is(OSB_WINDOWS, TEXT("C:\\a\\b"), TEXT("c:/a"), 5, "b"));
    EXPECT(rest_is(OSB_WINDOWS, TEXT("C:\\a"), TEXT("C:"), 2, "\\a"));
    EXPECT(rest_is(OSB_WINDOWS, TEXT("\\\\s\\h\\a"), TEXT("\\\\s\\h"), 6, "a"));
    EXPECT(rest_is(OSB_WASM, TEXT("C:\\a/b"), TEXT("C:\\a"), 5, "b"));
    EXPECT(no_rest(OSB_UNIX, TEXT("/usr/lib"), TEXT("/us")));
    EXPECT(no_rest(OSB_UNIX, TEXT("/usr"), TEXT("/usr/lib")));
    EXPECT(no_rest(OSB_UNIX, TEXT("/usr"), TEXT("usr")));
    EXPECT(no_rest(OSB_WASM, TEXT("C:\\a\\b"), TEXT("c:/a")));
    EXPECT(no_rest(OSB_UNIX, NULL, 0, TEXT("a")));
    osb_view rest = {NULL, 99};
    EXPECT(osb_path_strip_prefix(3, TEXT("a/b"), TEXT("a"), &rest) == OSB_BAD_PLATFORM);
    EXPECT(osb_path_strip_prefix(0xFFFFFFFF, TEXT("a/b"), TEXT("a"), &rest) == OSB_BAD_PLATFORM);
    EXPECT(osb_path_strip_prefix(OSB_UNIX, NULL, 1, TEXT("a"), &rest) == OSB_BAD_POINTER);
    EXPECT(osb_path_strip_prefix(OSB_UNIX, "a/b", SIZE_MAX, TEXT("a"), &rest) == OSB_BAD_POINTER);
    EXPECT(osb_path_strip_prefix(OSB_UNIX, TEXT("a/b"), NULL, 1, &rest) == OSB_BAD_POINTER);
    EXPECT(osb_path_strip_prefix(OSB_UNIX, TEXT("a/b"), "a", SIZE_MAX, &rest) == OSB_BAD_POINTER);
    EXPECT(osb_path_strip_prefix(OSB_UNIX, TEXT("a/b"), TEXT("a"), NULL) == OSB_BAD_POINTER);
    EXPECT(rest.at == NULL && rest.len == 99);
}

/* A call that builds a path of two. */
typedef osb_status to_path(osb_platform, const char *, size_t, const char *, size_t, char *, size_t, size_t *);

/* What is built, in every room, and that nothing is written where memory is refused, whichever request it is. */
static bool builds(to_path *call, osb_platform platform, const char *a, size_t a_len, const char *b,
                   size_t b_len, const char *wanted) {
    size_t all = strlen(wanted), count = 7;
    for (size_t room = 0; room < all + 3; room++) {
        char *out = malloc(room + 1);
        size_t end = room < all ? room : all, before = blocks;
        memset(out, 0x55, room + 1);
        osb_status status = call(platform, a, a_len, b, b_len, room == 0 ? NULL : out, room, &count);
        bool right = count == all && status == (room < all ? OSB_NO_ROOM : OSB_OK) &&
                     memcmp(out, wanted, end) == 0 && out[end] == 0x55 && blocks == before;
        if (!right) printf("  %.*s\n", (int)end, out);
        free(out);
        if (!right) return false;
    }
#ifdef OSB_WRAPPED
    char out[64];
    for (size_t given = 0;; given++) {
        size_t before = blocks;
        count = 7;
        left = given;
        osb_status status = call(platform, a, a_len, b, b_len, out, sizeof out, &count);
        left = SIZE_MAX;
        if (blocks != before) return false;
        if (status == OSB_OK) return count == all && (given != 0 || all == 0);
        if (status != OSB_NO_MEMORY || count != 7) return false;
    }
#endif
    return true;
}

/* What a call that builds answers to bad arguments. */
static void bad_paths(to_path *call) {
    char out[16] = "abcdefgh";
    size_t count = 7;
    EXPECT(call(3, TEXT("a"), TEXT("b"), out, 8, &count) == OSB_BAD_PLATFORM);
    EXPECT(call(0xFFFFFFFF, TEXT("a"), TEXT("b"), out, 8, &count) == OSB_BAD_PLATFORM);
    EXPECT(call(OSB_UNIX, NULL, 1, TEXT("b"), out, 8, &count) == OSB_BAD_POINTER);
    EXPECT(call(OSB_UNIX, "a", SIZE_MAX, TEXT("b"), out, 8, &count) == OSB_BAD_POINTER);
    EXPECT(call(OSB_UNIX, TEXT("a"), NULL, 1, out, 8, &count) == OSB_BAD_POINTER);
    EXPECT(call(OSB_UNIX, TEXT("a"), "b", (size_t)PTRDIFF_MAX + 1, out, 8, &count) == OSB_BAD_POINTER);
    EXPECT(call(OSB_UNIX, TEXT("a"), TEXT("b"), NULL, 8, &count) == OSB_BAD_POINTER);
    EXPECT(call(OSB_UNIX, TEXT("a"), TEXT("b"), out, SIZE_MAX, &count) == OSB_BAD_POINTER);
    EXPECT(call(OSB_UNIX, TEXT("a"), TEXT("b"), out, 8, NULL) == OSB_BAD_POINTER);
    EXPECT(call(OSB_UNIX, out, 3, TEXT("b"), out + 2, 8, &count) == OSB_BAD_POINTER);
    EXPECT(call(OSB_UNIX, TEXT("a"), out + 7, 1, out, 8, &count) == OSB_BAD_POINTER);
    EXPECT(count == 7 && memcmp(out, "abcdefgh", 8) == 0);
    /* what is read may be beside the buffer, and twice the same */
    EXPECT(call(OSB_UNIX, out + 5, 3, out + 5, 3, out, 5, &count) != OSB_BAD_POINTER);
    EXPECT(call(OSB_UNIX, out, 3, out, 3, out + 3, 5, &count) != OSB_BAD_POINTER);
    EXPECT(memcmp(out + 8, "\0\0\0\0\0\0\0", 8) == 0);
}

static void path_joins(void) {
    EXPECT(builds(osb_path_join, OSB_UNIX, TEXT("/usr"), TEXT("lib"), "/usr/lib"));
    EXPECT(builds(osb_path_join, OSB_UNIX, TEXT("/usr/"), TEXT("lib/"), "/usr/lib/"));
    EXPECT(builds(osb_path_join, OSB_UNIX, TEXT("/usr"), TEXT("/lib"), "/lib"));
    EXPECT(builds(osb_path_join, OSB_UNIX, NULL, 0, TEXT("a"), "a"));
    EXPECT(builds(osb_path_join, OSB_UNIX, TEXT("a"), NULL, 0, "a/"));
    EXPECT(builds(osb_path_join, OSB_UNIX, NULL, 0, NULL, 0, ""));
    EXPECT(builds(osb_path_join, OSB_UNIX, TEXT("\xFF"), TEXT("\xFE"), "\xFF/\xFE"));
    EXPECT(builds(osb_path_join, OSB_WINDOWS, TEXT("C:\\a"), TEXT("b/c"), "C:\\a\\b/c"));
    EXPECT(builds(osb_path_join, OSB_WINDOWS, TEXT("C:"), TEXT("a"), "C:a"));
    EXPECT(builds(osb_path_join, OSB_WINDOWS, TEXT("C:\\a"), TEXT("/b"), "C:/b"));
    EXPECT(builds(osb_path_join, OSB_WINDOWS, TEXT("C:\\a"), TEXT("D:b"), "D:b"));
    EXPECT(builds(osb_path_join, OSB_WINDOWS, TEXT("\\\\?\\C:\\a"), TEXT("..\\./b"), "\\\\?\\C:\\b"));
    EXPECT(builds(osb_path_join, OSB_WASM, TEXT("C:\\a"), TEXT("b"), "C:\\a/b"));
    bad_paths(osb_path_join);
}

static osb_join_fault why_not;

static osb_status checked(osb_platform platform, const char *base, size_t base_len, const char *at, size_t len,
                          char *out, size_t room, size_t *count) {
    return osb_path_join_checked(platform, base, base_len, at, len, out, room, count, &why_not);
}

/* What no call has written to. */
static const osb_join_fault unwritten = {99, (osb_join_reason)9};

static bool is_why(osb_join_reason reason, size_t index) {
    return why_not.reason == reason && why_not.index == index;
}

/* No path is below the base, for this reason, by the component or the byte with this index. */
static bool leaves(osb_platform platform, const char *base, const char *at, osb_join_reason why, size_t index) {
    char out[64] = "";
    size_t count = 7;
    why_not = unwritten;
    return osb_path_join_checked(platform, base, strlen(base), at, strlen(at), out, 64, &count, NULL) == OSB_BAD_PATH &&
           checked(platform, base, strlen(base), at, strlen(at), out, 64, &count) == OSB_BAD_PATH &&
           is_why(why, index) && count == 7;
}

/* The same of strings that have a NUL. */
static bool leaves_with_nul(osb_platform platform, const char *base, size_t base_len, const char *at, size_t len,
                            osb_join_reason why, size_t index) {
    char out[64] = "";
    size_t count = 7;
    why_not = unwritten;
    return checked(platform, base, base_len, at, len, out, 64, &count) == OSB_BAD_PATH && is_why(why, index) && count == 7;
}

static void path_joins_checked(void) {
    why_not = unwritten;
    EXPECT(builds(checked, OSB_UNIX, TEXT("/srv/files"), TEXT("./a/../b//c"), "/srv/files/b/c"));
    EXPECT(builds(checked, OSB_UNIX, NULL, 0, TEXT("a"), "a"));
    EXPECT(builds(checked, OSB_UNIX, TEXT("a"), NULL, 0, "a"));
    EXPECT(builds(checked, OSB_WINDOWS, TEXT("C:/a"), TEXT("b/c"), "C:\\a\\b\\c"));
    EXPECT(builds(checked, OSB_WASM, TEXT("a"), TEXT("nul:b\\c"), "a/nul:b\\c"));
    EXPECT(is_why(unwritten.reason, unwritten.index));
    EXPECT(leaves(OSB_WINDOWS, "C:\\a", "D:b", OSB_JOIN_PREFIX, 0));
    EXPECT(leaves(OSB_UNIX, "/srv", "/etc", OSB_JOIN_ROOT, 0));
    EXPECT(leaves(OSB_UNIX, "/srv", "a/../../etc", OSB_JOIN_LEAVES, 2));
    EXPECT(leaves(OSB_WASM, "/srv", "..", OSB_JOIN_LEAVES, 0));
    EXPECT(leaves(OSB_WINDOWS, "C:\\a", "b\\c:d", OSB_JOIN_STREAM, 1));
    EXPECT(leaves(OSB_WINDOWS, "C:\\a", "./b//a:b/nul/../../..", OSB_JOIN_STREAM, 2));
    EXPECT(leaves(OSB_WINDOWS, "C:\\a", "b\\NUL.txt", OSB_JOIN_RESERVED, 1));
    EXPECT(leaves(OSB_WINDOWS, "C:\\a", "b\\c\\d \\..", OSB_JOIN_RESERVED, 2));
    EXPECT(leaves(OSB_WINDOWS, "C:\\a", "x/y?z", OSB_JOIN_RESERVED, 1));
    EXPECT(builds(checked, OSB_WINDOWS, TEXT("\\\\?\\C:"), TEXT("b"), "\\\\?\\C:\\b"));
    EXPECT(leaves(OSB_WINDOWS, "\\\\?\\UNC\\server", "b", OSB_JOIN_BASE, 0));
    EXPECT(leaves(OSB_WINDOWS, "\\\\server", "share\\x", OSB_JOIN_BASE, 0));
    EXPECT(leaves(OSB_WINDOWS, "C:\\nul", "a/../..", OSB_JOIN_BASE, 0));
    EXPECT(leaves_with_nul(OSB_UNIX, TEXT("/srv/files"), TEXT("..\0x"), OSB_JOIN_NUL, 2));
    EXPECT(leaves_with_nul(OSB_WASM, TEXT("/srv/files"), TEXT("a\0"), OSB_JOIN_NUL, 1));
    EXPECT(leaves_with_nul(OSB_WINDOWS, TEXT("C:\\a\0b"), TEXT("/x\0"), OSB_JOIN_BASE_NUL, 4));
    bad_paths(checked);
}

static void path_ways(void) {
    EXPECT(builds(osb_path_relative, OSB_UNIX, TEXT("/usr/lib/a"), TEXT("/usr/bin"), "../lib/a"));
    EXPECT(builds(osb_path_relative, OSB_UNIX, TEXT("/usr/bin"), TEXT("/usr/lib/a"), "../../bin"));
    EXPECT(builds(osb_path_relative, OSB_UNIX, TEXT("a//b"), TEXT("a/b/."), ""));
    EXPECT(builds(osb_path_relative, OSB_UNIX, TEXT("/a"), TEXT("b"), "/a"));
    EXPECT(builds(osb_path_relative, OSB_WINDOWS, TEXT("C:\\a"), TEXT("c:\\b\\c"), "..\\..\\a"));
    EXPECT(builds(osb_path_relative, OSB_WASM, TEXT("a\\b"), TEXT("a\\c"), "../a\\b"));
    char out[8] = "";
    size_t count = 7;
    EXPECT(osb_path_relative(OSB_UNIX, TEXT("a"), TEXT("/usr"), out, 8, &count) == OSB_NONE && count == 7);
    EXPECT(osb_path_relative(OSB_UNIX, TEXT("a"), TEXT(".."), NULL, 0, &count) == OSB_NONE && count == 7);
    bad_paths(osb_path_relative);
}

/* Calls of one path, which take no other. */
static osb_status normal(osb_platform platform, const char *at, size_t len, const char *no, size_t none, char *out,
                         size_t room, size_t *count) {
    (void)no, (void)none;
    return osb_path_normalize(platform, at, len, out, room, count);
}

static osb_status clean(osb_platform platform, const char *at, size_t len, const char *no, size_t none, char *out,
                        size_t room, size_t *count) {
    (void)no, (void)none;
    return osb_path_clean(platform, at, len, out, room, count);
}

static osb_platform wanted = OSB_WINDOWS;

static osb_status converted(osb_platform platform, const char *at, size_t len, const char *no, size_t none, char *out,
                            size_t room, size_t *count) {
    (void)no, (void)none;
    return osb_path_convert(platform, wanted, at, len, out, room, count, NULL, NULL);
}

/* What each of these answers to bad arguments. */
static void bad_path(to_path *call) {
    char out[16] = "abcdefgh";
    size_t count = 7;
    EXPECT(call(3, TEXT("a"), NULL, 0, out, 8, &count) == OSB_BAD_PLATFORM);
    EXPECT(call(0xFFFFFFFF, TEXT("a"), NULL, 0, out, 8, &count) == OSB_BAD_PLATFORM);
    EXPECT(call(OSB_UNIX, NULL, 1, NULL, 0, out, 8, &count) == OSB_BAD_POINTER);
    EXPECT(call(OSB_UNIX, "a", SIZE_MAX, NULL, 0, out, 8, &count) == OSB_BAD_POINTER);
    EXPECT(call(OSB_UNIX, TEXT("a"), NULL, 0, NULL, 8, &count) == OSB_BAD_POINTER);
    EXPECT(call(OSB_UNIX, TEXT("a"), NULL, 0, out, (size_t)PTRDIFF_MAX + 1, &count) == OSB_BAD_POINTER);
    EXPECT(call(OSB_UNIX, TEXT("a"), NULL, 0, out, 8, NULL) == OSB_BAD_POINTER);
    EXPECT(call(OSB_UNIX, out, 3, NULL, 0, out + 2, 8, &count) == OSB_BAD_POINTER);
    EXPECT(call(OSB_UNIX, out + 7, 1, NULL, 0, out, 8, &count) == OSB_BAD_POINTER);
    EXPECT(count == 7 && memcmp(out, "abcdefgh", 8) == 0);
    EXPECT(call(OSB_UNIX, out + 5, 3, NULL, 0, out, 5, &count) == OSB_OK && count == 3);
    EXPECT(call(OSB_UNIX, out, 3, NULL, 0, out + 3, 5, &count) == OSB_OK && count == 3);
}

static void path_forms(void) {
    EXPECT(builds(normal, OSB_UNIX, TEXT("/usr//./lib/../bin/"), NULL, 0, "/usr/bin"));
    EXPECT(builds(normal, OSB_UNIX, TEXT("./a"), NULL, 0, "./a"));
    EXPECT(builds(normal, OSB_UNIX, NULL, 0, NULL, 0, ""));
    EXPECT(builds(normal, OSB_WINDOWS, TEXT("a\\..\\C:"), NULL, 0, ".\\C:"));
    EXPECT(builds(normal, OSB_WASM, TEXT("a\\b/../c"), NULL, 0, "c"));
    EXPECT(builds(normal, OSB_UNIX, TEXT("a/b/c/d/e/f/g/h/i/j/k/../l"), NULL, 0, "a/b/c/d/e/f/g/h/i/j/l"));
    char out[8] = "";
    size_t count = 7, index = 7;
    EXPECT(osb_path_normalize(OSB_UNIX, TEXT("a/../.."), out, 8, &count) == OSB_NONE && count == 7);
    EXPECT(osb_path_normalize(OSB_WINDOWS, TEXT("C:\\.."), NULL, 0, &count) == OSB_NONE && count == 7);
    bad_path(normal);
    EXPECT(builds(clean, OSB_UNIX, TEXT("./../a//b/.."), NULL, 0, "../a"));
    EXPECT(builds(clean, OSB_UNIX, TEXT("/.."), NULL, 0, "/"));
    EXPECT(builds(clean, OSB_UNIX, NULL, 0, NULL, 0, "."));
    EXPECT(builds(clean, OSB_WINDOWS, TEXT("C:/.."), NULL, 0, "C:\\"));
    EXPECT(builds(clean, OSB_WASM, TEXT("a/b\\..\\.."), NULL, 0, "a/b\\..\\.."));
    bad_path(clean);
    EXPECT(builds(converted, OSB_UNIX, TEXT("/usr//lib/.."), NULL, 0, "\\usr\\lib\\.."));
    EXPECT(builds(converted, OSB_WINDOWS, TEXT("C:/a//"), NULL, 0, "C:/a//"));
    EXPECT(builds(converted, OSB_WASM, NULL, 0, NULL, 0, ""));
    bad_path(converted);
    wanted = OSB_UNIX;
    EXPECT(builds(converted, OSB_WINDOWS, TEXT(".\\a\\\xED\xA0\x80"), NULL, 0, "./a/\xED\xA0\x80"));
    bad_path(converted);
    osb_fault fault = {9, 9, 9, 9};
    EXPECT(osb_path_convert(OSB_WINDOWS, OSB_UNIX, TEXT("C:\\a"), out, 8, &count, &index, &fault) == OSB_BAD_PATH);
    EXPECT(index == 0 && count == 7 && fault.kind == 9);
    EXPECT(osb_path_convert(OSB_UNIX, OSB_WINDOWS, TEXT("/a/b\\c"), out, 8, &count, &index, NULL) == OSB_BAD_PATH);
    EXPECT(index == 2 && count == 7);
    EXPECT(osb_path_convert(OSB_UNIX, OSB_WINDOWS, TEXT("C:"), NULL, 0, &count, NULL, NULL) == OSB_BAD_PATH);
    index = 7;
    EXPECT(osb_path_convert(OSB_UNIX, OSB_WINDOWS, TEXT("a/\xC0"), out, 8, &count, &index, &fault) == OSB_FAULTY);
    EXPECT(fault.kind == OSB_FAULT_BYTE && fault.value == 0xC0 && fault.index == 2 && fault.count == 1);
    EXPECT(osb_path_convert(OSB_WINDOWS, OSB_WASM, TEXT("\xED\xA0\x80"), out, 8, &count, NULL, &fault) == OSB_FAULTY);
    EXPECT(fault.kind == OSB_FAULT_UTF8 && fault.index == 0);
    EXPECT(osb_path_convert(OSB_UNIX, OSB_WASM, TEXT("\xFF"), out, 8, &count, NULL, NULL) == OSB_FAULTY);
    EXPECT(osb_path_convert(OSB_UNIX, 3, TEXT("a"), out, 8, &count, &index, &fault) == OSB_BAD_PLATFORM);
    EXPECT(index == 7 && count == 7);
}

static void path_names(void) {
    EXPECT(builds(osb_path_with_file_name, OSB_UNIX, TEXT("/tmp/a.txt"), TEXT("b"), "/tmp/b"));
    EXPECT(builds(osb_path_with_file_name, OSB_UNIX, TEXT("/"), TEXT("b"), "/b"));
    EXPECT(builds(osb_path_with_file_name, OSB_UNIX, TEXT("a/.."), TEXT("b"), "a/../b"));
    EXPECT(builds(osb_path_with_file_name, OSB_WINDOWS, TEXT("C:a"), TEXT("b"), "C:b"));
    EXPECT(builds(osb_path_with_file_name, OSB_WASM, TEXT("a\\b"), TEXT("c"), "c"));
    bad_paths(osb_path_with_file_name);
    EXPECT(builds(osb_path_with_extension, OSB_UNIX, TEXT("a/b.txt/"), TEXT("rs"), "a/b.rs"));
    EXPECT(builds(osb_path_with_extension, OSB_UNIX, TEXT("a/b.txt"), NULL, 0, "a/b"));
    EXPECT(builds(osb_path_with_extension, OSB_UNIX, TEXT("a/.."), TEXT("rs"), "a/.."));
    EXPECT(builds(osb_path_with_extension, OSB_WINDOWS, TEXT("a\\b.c"), TEXT("d.e"), "a\\b.d.e"));
    EXPECT(builds(osb_path_with_extension, OSB_WASM, TEXT("a.b"), TEXT("c\\d"), "a.c\\d"));
    bad_paths(osb_path_with_extension);
    EXPECT(builds(osb_path_with_added_extension, OSB_UNIX, TEXT("a/b.txt/"), TEXT("gz"), "a/b.txt.gz"));
    EXPECT(builds(osb_path_with_added_extension, OSB_UNIX, TEXT("a/b/"), NULL, 0, "a/b/"));
    EXPECT(builds(osb_path_with_added_extension, OSB_UNIX, TEXT("/"), TEXT("gz"), "/"));
    EXPECT(builds(osb_path_with_added_extension, OSB_WINDOWS, TEXT("a\\.b"), TEXT("c"), "a\\.b.c"));
    bad_paths(osb_path_with_added_extension);
    to_path *const calls[] = {osb_path_with_extension, osb_path_with_added_extension};
    char out[8] = "";
    size_t count = 7;
    for (size_t i = 0; i < 2; i++) {
        EXPECT(calls[i](OSB_UNIX, TEXT("a"), TEXT("b/c"), out, 8, &count) == OSB_BAD_EXTENSION);
        EXPECT(calls[i](OSB_WINDOWS, TEXT(".."), TEXT("b\\"), NULL, 0, &count) == OSB_BAD_EXTENSION);
        EXPECT(calls[i](OSB_WINDOWS, TEXT("a"), TEXT("/"), out, 8, &count) == OSB_BAD_EXTENSION && count == 7);
    }
}

/* A call that writes a word of a shell. */
typedef osb_status to_word(const char *, size_t, char *, size_t, size_t *, size_t *);

/* The word of a name, in every room. */
static bool has_word(to_word *quote, const char *at, size_t len, const char *wanted) {
    size_t all = strlen(wanted), count = 0, index = 7;
    if (osb_shell_bound(len) < all) return false;
    for (size_t room = 0; room < all + 3; room++) {
        char *out = malloc(room + 1);
        size_t end = room < all ? room : all;
        memset(out, 0x55, room + 1);
        osb_status status = quote(at, len, room == 0 ? NULL : out, room, &count, &index);
        bool right = count == all && status == (room < all ? OSB_NO_ROOM : OSB_OK) && index == 7 &&
                     memcmp(out, wanted, end) == 0 && out[end] == 0x55;
        free(out);
        if (!right) return false;
    }
    return true;
}

static void bad_words(to_word *quote) {
    char out[16] = "abcdefgh";
    size_t count = 7, index = 7;
    EXPECT(quote(TEXT("a\0\0"), out, 8, &count, NULL) == OSB_HAS_NUL && count == 7);
    EXPECT(quote(TEXT("a\0\0"), out, 8, &count, &index) == OSB_HAS_NUL && count == 7 && index == 1);
    EXPECT(quote(TEXT("ab\0"), NULL, 0, &count, &index) == OSB_HAS_NUL && count == 7 && index == 2);
    index = 7;
    EXPECT(quote("a", SIZE_MAX / 4 + 1, NULL, 0, &count, &index) == OSB_TOO_LONG);
    EXPECT(quote(NULL, 1, out, 8, &count, &index) == OSB_BAD_POINTER);
    EXPECT(quote("a", SIZE_MAX, out, 8, &count, &index) == OSB_BAD_POINTER);
    EXPECT(quote(TEXT("a"), NULL, 8, &count, &index) == OSB_BAD_POINTER);
    EXPECT(quote(TEXT("a"), out, SIZE_MAX, &count, &index) == OSB_BAD_POINTER);
    EXPECT(quote(TEXT("a"), out, 8, NULL, &index) == OSB_BAD_POINTER);
    EXPECT(quote(out, 3, out, 8, &count, &index) == OSB_BAD_POINTER);
    EXPECT(quote(out + 7, 1, out, 8, &count, &index) == OSB_BAD_POINTER);
    EXPECT(quote(out, 3, out + 2, 8, &count, &index) == OSB_BAD_POINTER);
    EXPECT(count == 7 && index == 7 && memcmp(out, "abcdefgh", 8) == 0);
    EXPECT(quote(out, 3, out + 3, 5, &count, &index) == OSB_OK && count == 3);
    EXPECT(quote(out + 5, 3, out, 5, &count, &index) == OSB_OK && count == 3);
    EXPECT(memcmp(out, "cghabcgh", 8) == 0 && index == 7);
}

static void words(void) {
    to_word *const all[] = {osb_shell_quote, osb_shell_quote_line, osb_fish_quote, osb_powershell_quote};
    for (size_t i = 0; i < 4; i++) {
        EXPECT(has_word(all[i], NULL, 0, "''"));
        EXPECT(has_word(all[i], TEXT("a b"), "'a b'"));
    }
    for (size_t i = 0; i < 3; i++) bad_words(all[i]);
    to_word *const calls[] = {osb_shell_quote, osb_shell_quote_line};
    for (size_t i = 0; i < 2; i++) {
        EXPECT(has_word(calls[i], TEXT("a/b-c.d"), "a/b-c.d"));
        EXPECT(has_word(calls[i], TEXT("it's"), "'it'\\''s'"));
        EXPECT(has_word(calls[i], TEXT("'''"), "''\\'''\\'''\\'''"));
        bad_words(calls[i]);
    }
    EXPECT(has_word(osb_shell_quote, TEXT("a\n\xFF"), "'a\n\xFF'"));
    EXPECT(has_word(osb_shell_quote_line, TEXT("a\n\xFF'"), "$'a\\n\\377\\''"));
    EXPECT(has_word(osb_shell_quote_line, TEXT("\xE2\x80\xAE"), "$'\\342\\200\\256'"));
    EXPECT(has_word(osb_fish_quote, TEXT("it's\\\xFF"), "'it\\'s\\\\\xFF'"));
    EXPECT(has_word(osb_fish_quote, TEXT("a/b-c.d"), "a/b-c.d"));
    EXPECT(has_word(osb_powershell_quote, TEXT("a/b"), "'a/b'"));
    EXPECT(has_word(osb_powershell_quote, TEXT("it's $x"), "'it''s $x'"));
    EXPECT(has_word(osb_powershell_quote, TEXT("\xE2\x80\x99"), "'\xE2\x80\x99\xE2\x80\x99'"));
    EXPECT(osb_shell_bound(0) == 3 && osb_shell_bound(5) == 23);
    EXPECT(osb_shell_bound(SIZE_MAX / 4) == SIZE_MAX && osb_shell_bound(SIZE_MAX / 4 - 1) == SIZE_MAX - 4);
    EXPECT(osb_shell_bound(SIZE_MAX / 4 + 1) == SIZE_MAX && osb_shell_bound(SIZE_MAX) == SIZE_MAX);
}

/* What isn't UTF-8 is no string of PowerShell. */
static void no_texts(void) {
    char out[16] = "abcdefgh";
    size_t count = 7, index = 7;
    EXPECT(osb_powershell_quote(TEXT("a\xED\xA0\x80"), out, 8, &count, NULL) == OSB_FAULTY && count == 7);
    EXPECT(osb_powershell_quote(TEXT("a\xED\xA0\x80"), out, 8, &count, &index) == OSB_FAULTY && index == 1);
    EXPECT(osb_powershell_quote(TEXT("\0\xFF"), out, 8, &count, &index) == OSB_FAULTY && index == 1);
    EXPECT(osb_powershell_quote(TEXT("ab\0\0"), out, 8, &count, &index) == OSB_HAS_NUL && index == 2);
    index = 7;
    EXPECT(osb_powershell_quote("a", SIZE_MAX / 4 + 1, NULL, 0, &count, &index) == OSB_TOO_LONG);
    EXPECT(osb_powershell_quote(NULL, 1, out, 8, &count, &index) == OSB_BAD_POINTER);
    EXPECT(osb_powershell_quote(TEXT("a"), NULL, 8, &count, &index) == OSB_BAD_POINTER);
    EXPECT(osb_powershell_quote(TEXT("a"), out, 8, NULL, &index) == OSB_BAD_POINTER);
    EXPECT(osb_powershell_quote(out, 3, out + 2, 8, &count, &index) == OSB_BAD_POINTER);
    EXPECT(count == 7 && index == 7 && memcmp(out, "abcdefgh", 8) == 0);
}

/* The line of some names, in every room. */
static bool has_names(const osb_view *names, size_t len, const char *wanted) {
    size_t all = strlen(wanted), count = 0, which = 7, index = 7;
    for (size_t room = 0; room < all + 3; room++) {
        char *out = malloc(room + 1);
        size_t end = room < all ? room : all;
        memset(out, 0x55, room + 1);
        osb_status status = osb_shell_join(names, len, room == 0 ? NULL : out, room, &count, &which, &index);
        bool right = count == all && status == (room < all ? OSB_NO_ROOM : OSB_OK) && which == 7 && index == 7 &&
                     memcmp(out, wanted, end) == 0 && out[end] == 0x55;
        free(out);
        if (!right) return false;
    }
    return true;
}

static void joins(void) {
    osb_view names[] = {{TEXT("cp")}, {TEXT("a b")}, {NULL, 0}, {TEXT("it's\xFF")}, {TEXT("-x")}};
    EXPECT(has_names(NULL, 0, ""));
    EXPECT(has_names(names, 1, "cp"));
    EXPECT(has_names(names + 2, 1, "''"));
    EXPECT(has_names(names, 5, "cp 'a b' '' 'it'\\''s\xFF' -x"));
    osb_view reserved[] = {{TEXT("time")}, {TEXT("time")}, {TEXT("if")}};
    EXPECT(has_names(reserved, 3, "'time' time if"));
    EXPECT(has_names(reserved + 2, 1, "'if'"));
    char out[8] = "abcdefg";
    size_t count = 7, which = 7, index = 7;
    osb_view bad[] = {{TEXT("a")}, {TEXT("b\0\0")}, {TEXT("\0")}};
    EXPECT(osb_shell_join(bad, 3, out, 8, &count, NULL, NULL) == OSB_HAS_NUL);
    EXPECT(osb_shell_join(bad, 3, NULL, 0, &count, &which, &index) == OSB_HAS_NUL);
    EXPECT(which == 1 && index == 1 && count == 7);
    bad[1] = (osb_view){"a", SIZE_MAX / 4 + 1};
    EXPECT(osb_shell_join(bad, 2, NULL, 0, &count, &which, &index) == OSB_TOO_LONG && which == 1);
    bad[0] = (osb_view){"a", SIZE_MAX / 4 + 1};
    EXPECT(osb_shell_join(bad, 2, NULL, 0, &count, &which, &index) == OSB_TOO_LONG && which == 0);
    which = index = 7;
    memcpy(out, "abcdefg", 8);
    EXPECT(osb_shell_join(NULL, 1, out, 8, &count, &which, &index) == OSB_BAD_POINTER);
    EXPECT(osb_shell_join(names, SIZE_MAX / 16 + 1, out, 8, &count, &which, &index) == OSB_BAD_POINTER);
    /* so many that their bytes, counted, wrap to few */
    EXPECT(osb_shell_join(names, SIZE_MAX / 16 + 2, out, 8, &count, &which, &index) == OSB_BAD_POINTER);
    EXPECT(osb_shell_join(names, 5, NULL, 1, &count, &which, &index) == OSB_BAD_POINTER);
    EXPECT(osb_shell_join(names, 5, out, SIZE_MAX, &count, &which, &index) == OSB_BAD_POINTER);
    EXPECT(osb_shell_join(names, 5, out, 8, NULL, &which, &index) == OSB_BAD_POINTER);
    void *odd = (char *)names + 4;
    EXPECT(osb_shell_join(odd, 1, out, 8, &count, &which, &index) == OSB_BAD_POINTER);
    /* a buffer over the views, and over a name at each end */
    EXPECT(osb_shell_join(names, 5, (char *)(names + 4), 8, &count, &which, &index) == OSB_BAD_POINTER);
    osb_view beside[] = {{TEXT("a")}, {out + 7, 1}};
    EXPECT(osb_shell_join(beside, 2, out, 8, &count, &which, &index) == OSB_BAD_POINTER);
    beside[1] = (osb_view){out, 1};
    EXPECT(osb_shell_join(beside, 2, out, 8, &count, &which, &index) == OSB_BAD_POINTER);
    beside[1] = (osb_view){NULL, 1};
    EXPECT(osb_shell_join(beside, 2, out, 8, &count, &which, &index) == OSB_BAD_POINTER);
    beside[1] = (osb_view){"a", SIZE_MAX};
    EXPECT(osb_shell_join(beside, 2, out, 8, &count, &which, &index) == OSB_BAD_POINTER);
    EXPECT(count == 7 && which == 7 && index == 7 && memcmp(out, "abcdefg", 8) == 0);
    beside[1] = (osb_view){out + 5, 2};
    EXPECT(osb_shell_join(beside, 2, out, 5, &count, &which, &index) == OSB_OK && count == 4);
    EXPECT(memcmp(out, "a fgefg", 8) == 0);
}

/* The words of a line, each with a 0 after it, in every room. */
static bool has_words(uint32_t options, const char *line, size_t len, const char *wanted, size_t all) {
    size_t count = 0;
    osb_line_fault fault = {9, 9};
    if (osb_words_bound(len) < all) return false;
    for (size_t room = 0; room < all + 3; room++) {
        char *out = malloc(room + 1);
        size_t end = room < all ? room : all;
        memset(out, 0x55, room + 1);
        osb_status status = osb_shell_words(options, line, len, room == 0 ? NULL : out, room, &count, &fault);
        bool right = count == all && status == (room < all ? OSB_NO_ROOM : OSB_OK) && fault.kind == 9 &&
                     fault.index == 9 && memcmp(out, wanted, end) == 0 && out[end] == 0x55;
        free(out);
        if (!right) return false;
    }
    return true;
}

static bool bad_line(uint32_t options, const char *line, size_t len, uint32_t kind, size_t index) {
    char out[64];
    size_t count = 7;
    osb_line_fault fault = {9, 9};
    osb_status status = osb_shell_words(options, line, len, out, sizeof out, &count, &fault);
    return status == OSB_BAD_LINE && count == 7 && fault.kind == kind && fault.index == index &&
           osb_shell_words(options, line, len, NULL, 0, &count, NULL) == OSB_BAD_LINE;
}

static void shell_lines(void) {
    EXPECT(has_words(0, NULL, 0, "", 0));
    EXPECT(has_words(0, TEXT(" \n\t"), "", 0));
    EXPECT(has_words(0, TEXT("cc -DNAME='a b' \"c d\"e ''"), TEXT("cc\0-DNAME=a b\0c de\0\0")));
    EXPECT(has_words(OSB_SPECIALS, TEXT("a\\ b $HOME|$'c'"), TEXT("a b\0$HOME|$c\0")));
    EXPECT(has_words(OSB_DOLLAR_QUOTES, TEXT("$'a\\n\\377' b"), TEXT("a\n\xFF\0b\0")));
    EXPECT(has_words(OSB_SPECIALS | OSB_DOLLAR_QUOTES, TEXT("*$'c'"), TEXT("*c\0")));
    EXPECT(bad_line(0, TEXT("a 'b"), OSB_LINE_SINGLE, 2));
    EXPECT(bad_line(0, TEXT("a b\"c"), OSB_LINE_DOUBLE, 3));
    EXPECT(bad_line(OSB_DOLLAR_QUOTES, TEXT("a $'b"), OSB_LINE_DOLLAR, 2));
    EXPECT(bad_line(0, TEXT("a \\"), OSB_LINE_BACKSLASH, 2));
    EXPECT(bad_line(0, TEXT("a b c*"), OSB_LINE_SPECIAL, 5));
    EXPECT(bad_line(OSB_DOLLAR_QUOTES, TEXT("$'a\\x41'"), OSB_LINE_ESCAPE, 3));
    EXPECT(bad_line(OSB_DOLLAR_QUOTES, TEXT("$'a' $b"), OSB_LINE_SPECIAL, 5));
    char out[16] = "abcdefgh";
    size_t count = 7;
    osb_line_fault fault = {9, 9};
    EXPECT(osb_shell_words(4, TEXT("a"), out, 8, &count, &fault) == OSB_BAD_OPTION);
    EXPECT(osb_shell_words(0xFFFFFFFF, TEXT("a"), out, 8, &count, &fault) == OSB_BAD_OPTION);
    EXPECT(osb_shell_words(0, "a", SIZE_MAX / 2 + 1, NULL, 0, &count, &fault) == OSB_BAD_POINTER);
    EXPECT(osb_shell_words(0, NULL, 1, out, 8, &count, &fault) == OSB_BAD_POINTER);
    EXPECT(osb_shell_words(0, "a", SIZE_MAX, out, 8, &count, &fault) == OSB_BAD_POINTER);
    EXPECT(osb_shell_words(0, TEXT("a"), NULL, 8, &count, &fault) == OSB_BAD_POINTER);
    EXPECT(osb_shell_words(0, TEXT("a"), out, SIZE_MAX, &count, &fault) == OSB_BAD_POINTER);
    EXPECT(osb_shell_words(0, TEXT("a"), out, 8, NULL, &fault) == OSB_BAD_POINTER);
    EXPECT(osb_shell_words(0, out, 3, out, 8, &count, &fault) == OSB_BAD_POINTER);
    EXPECT(osb_shell_words(0, out + 7, 1, out, 8, &count, &fault) == OSB_BAD_POINTER);
    EXPECT(osb_shell_words(0, out, 3, out + 2, 8, &count, &fault) == OSB_BAD_POINTER);
    EXPECT(count == 7 && fault.kind == 9 && fault.index == 9 && memcmp(out, "abcdefgh", 8) == 0);
    EXPECT(osb_shell_words(0, TEXT("'\0\0"), out, 8, &count, NULL) == OSB_HAS_NUL && count == 7);
    EXPECT(osb_shell_words(0, TEXT("'\0\0"), out, 8, &count, &fault) == OSB_HAS_NUL && count == 7);
    EXPECT(fault.kind == 0 && fault.index == 1);
    EXPECT(osb_shell_words(0, out, 3, out + 3, 5, &count, &fault) == OSB_OK && count == 4);
    EXPECT(memcmp(out + 3, "abc", 4) == 0);
    EXPECT(osb_words_bound(0) == 1 && osb_words_bound(5) == 11);
    EXPECT(osb_words_bound(SIZE_MAX / 2) == SIZE_MAX && osb_words_bound(SIZE_MAX / 2 - 1) == SIZE_MAX - 2);
    EXPECT(osb_words_bound(SIZE_MAX / 2 + 1) == SIZE_MAX && osb_words_bound(SIZE_MAX) == SIZE_MAX);
}

/* A call that writes units of a command line, or of what it is read as. */
typedef osb_status to_units(const char *, size_t, uint16_t *, size_t, size_t *, size_t *, osb_fault *);

/* The units, which are given as characters, in every room. */
static bool has_units(to_units *call, size_t (*bound)(size_t), const char *at, size_t len, const char *wanted,
                      size_t all) {
    size_t count = 0, index = 7;
    osb_fault fault = {9, 9, 9, 9};
    if (bound(len) < all) return false;
    for (size_t room = 0; room < all + 3; room++) {
        uint16_t *out = malloc((room + 1) * sizeof *out);
        size_t end = room < all ? room : all;
        memset(out, 0x55, (room + 1) * sizeof *out);
        osb_status status = call(at, len, room == 0 ? NULL : out, room, &count, &index, &fault);
        bool right = count == all && status == (room < all ? OSB_NO_ROOM : OSB_OK) && index == 7 &&
                     fault.kind == 9 && out[end] == 0x5555;
        for (size_t i = 0; i < end; i++) right = right && out[i] == (uint8_t)wanted[i];
        free(out);
        if (!right) return false;
    }
    return true;
}

static void bad_units(to_units *call, size_t (*bound)(size_t)) {
    uint16_t out[8];
    size_t count = 7, index = 7;
    osb_fault fault = {9, 9, 9, 9};
    memset(out, 0x61, sizeof out);
    EXPECT(call(NULL, 1, out, 8, &count, &index, &fault) == OSB_BAD_POINTER);
    EXPECT(call("a", SIZE_MAX, out, 8, &count, &index, &fault) == OSB_BAD_POINTER);
    EXPECT(call(TEXT("a"), NULL, 8, &count, &index, &fault) == OSB_BAD_POINTER);
    EXPECT(call(TEXT("a"), out, SIZE_MAX / 2, &count, &index, &fault) == OSB_BAD_POINTER);
    EXPECT(call(TEXT("a"), out, SIZE_MAX / 2 + 2, &count, &index, &fault) == OSB_BAD_POINTER);
    EXPECT(call(TEXT("a"), out, 8, NULL, &index, &fault) == OSB_BAD_POINTER);
    void *odd = (char *)out + 1;
    EXPECT(call(TEXT("a"), odd, 2, &count, &index, &fault) == OSB_BAD_POINTER);
    /* overlaps in both halves of the buffer, and input directly after it */
    EXPECT(call((char *)out + 3, 4, out, 4, &count, &index, &fault) == OSB_BAD_POINTER);
    EXPECT(call((char *)out + 7, 4, out, 4, &count, &index, &fault) == OSB_BAD_POINTER);
    EXPECT(call(TEXT("ab\xED\xA0\x80\xED\xB0\x80\0"), out, 8, &count, &index, NULL) == OSB_FAULTY);
    EXPECT(fault.kind == 9 && fault.index == 9);
    EXPECT(call(TEXT("ab\xED\xA0\x80\xED\xB0\x80\0"), out, 8, &count, &index, &fault) == OSB_FAULTY);
    EXPECT(fault.kind == OSB_FAULT_CODE_POINT && fault.value == 0xDC00 && fault.index == 5 && index == 7);
    fault = (osb_fault){9, 9, 9, 9};
    EXPECT(call(TEXT("\xC3\xA9\0\""), out, 8, &count, NULL, &fault) == OSB_HAS_NUL);
    EXPECT(index == 7);
    EXPECT(call(TEXT("\xC3\xA9\0\""), out, 8, &count, &index, &fault) == OSB_HAS_NUL);
    EXPECT(index == 2 && fault.kind == 9 && count == 7 && out[0] == 0x6161 && out[7] == 0x6161);
    EXPECT(call((char *)(out + 4), 4, out, 4, &count, &index, &fault) != OSB_BAD_POINTER && count >= 4);
    EXPECT(bound(SIZE_MAX) == SIZE_MAX && bound(SIZE_MAX / 2 + 1) == SIZE_MAX);
}

/* The line of some words, in every room. */
static bool has_line(const osb_view *words, size_t len, const char *wanted) {
    size_t all = strlen(wanted), count = 0, which = 7;
    for (size_t room = 0; room < all + 3; room++) {
        uint16_t *out = malloc((room + 1) * sizeof *out);
        size_t end = room < all ? room : all;
        memset(out, 0x55, (room + 1) * sizeof *out);
        osb_status status =
            osb_windows_command_line(words, len, room == 0 ? NULL : out, room, &count, &which, NULL, NULL);
        bool right = count == all && status == (room < all ? OSB_NO_ROOM : OSB_OK) && which == 7 &&
                     out[end] == 0x5555;
        for (size_t i = 0; i < end; i++) right = right && out[i] == (uint8_t)wanted[i];
        free(out);
        if (!right) return false;
    }
    return true;
}

static void windows_lines(void) {
    bad_units(osb_windows_quote, osb_windows_bound);
    bad_units(osb_windows_quote_name, osb_windows_bound);
    bad_units(osb_windows_arguments, osb_words_bound);
    EXPECT(has_units(osb_windows_quote, osb_windows_bound, NULL, 0, TEXT("\"\"")));
    EXPECT(has_units(osb_windows_quote, osb_windows_bound, TEXT("a\\b\\\\"), TEXT("a\\b\\\\")));
    EXPECT(has_units(osb_windows_quote, osb_windows_bound, TEXT("a b\\"), TEXT("\"a b\\\\\"")));
    EXPECT(has_units(osb_windows_quote, osb_windows_bound, TEXT("\t"), TEXT("\"\t\"")));
    EXPECT(has_units(osb_windows_quote, osb_windows_bound, TEXT("\\\"\""), TEXT("\\\\\\\"\\\"")));
    EXPECT(has_units(osb_windows_quote, osb_windows_bound, TEXT("\xC3\xA9"), TEXT("\xE9")));
    EXPECT(has_units(osb_windows_quote_name, osb_windows_bound, NULL, 0, TEXT("\"\"")));
    EXPECT(has_units(osb_windows_quote_name, osb_windows_bound, TEXT("C:\\a b\\"), TEXT("\"C:\\a b\\\"")));
    EXPECT(has_units(osb_windows_arguments, osb_words_bound, NULL, 0, TEXT("\0")));
    EXPECT(has_units(osb_windows_arguments, osb_words_bound, TEXT("E"), TEXT("E\0")));
    EXPECT(has_units(osb_windows_arguments, osb_words_bound, TEXT("\"my E\" a \"b c\"\t\"\" \\\"d "),
                     TEXT("my E\0a\0b c\0\0\"d\0")));
    uint16_t out[8];
    size_t count = 7, which = 7, index = 7;
    osb_fault fault = {9, 9, 9, 9};
    EXPECT(osb_windows_quote(TEXT("a\xED\xA0\xBD\xF0\x9F\x98\x80"), out, 8, &count, NULL, NULL) == OSB_OK);
    EXPECT(count == 4 && out[0] == 'a' && out[1] == 0xD83D && out[2] == 0xD83D && out[3] == 0xDE00);
    /* a mark between the halves of a pair goes, and the pair is there */
    EXPECT(osb_windows_arguments(TEXT("\xED\xA0\xBD\"\xED\xB8\x80"), out, 8, &count, NULL, NULL) == OSB_OK);
    EXPECT(count == 3 && out[0] == 0xD83D && out[1] == 0xDE00 && out[2] == 0);
    count = 7;
    EXPECT(osb_windows_quote_name(TEXT("a\"\""), out, 8, &count, NULL, NULL) == OSB_HAS_QUOTE);
    EXPECT(osb_windows_quote_name(TEXT("a\"\""), out, 8, &count, &index, NULL) == OSB_HAS_QUOTE && index == 1);
    EXPECT(osb_windows_quote_name(TEXT("\"\0"), out, 8, &count, &index, NULL) == OSB_HAS_NUL && index == 1);
    EXPECT(count == 7);
    EXPECT(osb_windows_bound(0) == 2 && osb_windows_bound(5) == 12);
    EXPECT(osb_windows_bound(SIZE_MAX / 2 - 1) == SIZE_MAX - 1 && osb_windows_bound(SIZE_MAX / 2) == SIZE_MAX);

    osb_view words[] = {{TEXT("E")}, {TEXT("a b")}, {NULL, 0}, {TEXT("-x")}, {TEXT("\"\\")}};
    EXPECT(has_line(NULL, 0, ""));
    EXPECT(has_line(words, 1, "\"E\""));
    EXPECT(has_line(words, 5, "\"E\" \"a b\" \"\" -x \\\"\\"));
    osb_view bad[] = {{TEXT("E")}, {TEXT("a")}, {TEXT("b\0")}};
    EXPECT(osb_windows_command_line(bad, 3, out, 8, &count, &which, &index, &fault) == OSB_HAS_NUL);
    EXPECT(which == 2 && index == 1 && count == 7 && fault.kind == 9);
    EXPECT(osb_windows_command_line(bad, 3, out, 8, &count, NULL, NULL, NULL) == OSB_HAS_NUL);
    bad[1] = (osb_view){TEXT("ab\xC3(")};
    EXPECT(osb_windows_command_line(bad, 3, NULL, 0, &count, &which, &index, &fault) == OSB_FAULTY);
    EXPECT(which == 1 && fault.kind == OSB_FAULT_BYTE && fault.value == '(' && fault.index == 2);
    bad[0] = (osb_view){TEXT("\"")};
    EXPECT(osb_windows_command_line(bad, 3, out, 8, &count, &which, &index, &fault) == OSB_HAS_QUOTE);
    EXPECT(which == 0 && index == 0 && count == 7);
    which = 7;
    EXPECT(osb_windows_command_line(NULL, 1, out, 8, &count, &which, &index, &fault) == OSB_BAD_POINTER);
    EXPECT(osb_windows_command_line(words, SIZE_MAX / 16 + 1, out, 8, &count, &which, &index, &fault) == OSB_BAD_POINTER);
    EXPECT(osb_windows_command_line(words, 5, NULL, 1, &count, &which, &index, &fault) == OSB_BAD_POINTER);
    EXPECT(osb_windows_command_line(words, 5, out, 8, NULL, &which, &index, &fault) == OSB_BAD_POINTER);
    EXPECT(osb_windows_command_line(words, 5, (uint16_t *)(words + 4), 8, &count, &which, &index, &fault) ==
           OSB_BAD_POINTER);
    void *odd = (char *)words + 4;
    EXPECT(osb_windows_command_line(odd, 1, out, 8, &count, &which, &index, &fault) == OSB_BAD_POINTER);
    odd = (char *)out + 1;
    EXPECT(osb_windows_command_line(words, 1, odd, 1, &count, &which, &index, &fault) == OSB_BAD_POINTER);
    osb_view beside[] = {{TEXT("E")}, {(char *)(out + 8) - 1, 1}};
    EXPECT(osb_windows_command_line(beside, 2, out, 8, &count, &which, &index, &fault) == OSB_BAD_POINTER);
    beside[1] = (osb_view){NULL, 1};
    EXPECT(osb_windows_command_line(beside, 2, out, 8, &count, &which, &index, &fault) == OSB_BAD_POINTER);
    EXPECT(count == 7 && which == 7);
}

/* Words as views, in memory of their own. */
static osb_view *views_of(const char *const *words, size_t *count) {
    osb_view *views = malloc(17 * sizeof *views);
    for (*count = 0; words[*count] != NULL; ++*count)
        views[*count] = (osb_view){words[*count], strlen(words[*count])};
    return views;
}

static char *add_text(char *to, const char *mark, osb_view text) {
    return to + sprintf(to, "%s%.*s", mark, (int)text.len, text.at);
}

/* What is read of words, as "L:name S:c O:operand ". `-o` and `--foo` take a value, `-p` one in its own word. */
static bool reads(const char *const *words, uint32_t flags, const char *wanted) {
    static const char *const marks[] = {"!", "L:", "LB:", "S:", "SB:", "O:"};
    size_t count;
    osb_view *views = views_of(words, &count), value;
    osb_options options;
    osb_option option;
    osb_status status = osb_options_start(&options, views, count, flags);
    char text[300], *to = text;
    while (status == OSB_OK || status == OSB_UNEXPECTED) {
        status = osb_options_next(&options, &option);
        if (status != OSB_OK && status != OSB_UNEXPECTED) break;
        if ((status == OSB_UNEXPECTED) != (option.kind == 0)) break;
        if ((option.value != 0) != (option.kind == OSB_SHORT)) break;
        to = add_text(to, marks[option.kind], option.text);
        if (osb_option_is(&option, 'o', "foo") == 1) {
            if (osb_options_value(&options, &value) == OSB_OK) to = add_text(to, "=", value);
            else to += sprintf(to, "=?");
        } else if (osb_option_is(&option, 'p', NULL) == 1)
            if (osb_options_optional_value(&options, &value) == OSB_OK) to = add_text(to, "[", value);
        to += sprintf(to, " ");
    }
    *to = 0;
    bool right = status == OSB_ENDED && strcmp(text, wanted) == 0 && options.taken == count &&
                 osb_options_next(&options, &option) == OSB_ENDED;
    if (!right) printf("  %s\n", text);
    free(views);
    return right;
}
#define WORDS(...) ((const char *const[]){__VA_ARGS__, NULL})

static void options(void) {
    EXPECT(reads(WORDS(NULL), 0, ""));
    EXPECT(reads(WORDS("a", "", "-", "a=b", "a--"), 0, "O:a O: O:- O:a=b O:a-- "));
    EXPECT(reads(WORDS("-abc", "-d", "e"), 0, "S:a S:b S:c S:d O:e "));
    EXPECT(reads(WORDS("-\xC3\xA9\xF0\x9F\x98\x80", "-="), 0, "S:\xC3\xA9 S:\xF0\x9F\x98\x80 S:= "));
    EXPECT(reads(WORDS("-a\xFF" "b=c", "-\xC3"), 0, "S:a SB:\xFF" "b=c SB:\xC3 "));
    EXPECT(reads(WORDS("--name", "--n\xFF=v", "---", "--="), 0, "L:name LB:n\xFF !v L:- L: ! "));
    EXPECT(reads(WORDS("--foo=bar", "--foo", "bar", "--foo="), 0, "L:foo=bar L:foo=bar L:foo= "));
    EXPECT(reads(WORDS("-obar", "-o=bar", "-vo", "bar", "-o==", "-oa=b"), 0,
                 "S:o=bar S:o=bar S:v S:o=bar S:o== S:o=a=b "));
    EXPECT(reads(WORDS("-o", "--", "-o", "-a", "--", "-b", "--", "--c"), 0, "S:o=-- S:o=-a O:-b O:-- O:--c "));
    EXPECT(reads(WORDS("--foo"), 0, "L:foo=? "));
    EXPECT(reads(WORDS("-pa", "-p=a", "-p", "a", "-p="), 0, "S:p[a S:p[a S:p O:a S:p[ "));
    EXPECT(reads(WORDS("-v=1", "a", "--bar=x=y", "-vw=2"), 0, "S:v !1 O:a L:bar !x=y S:v S:w !2 "));
    EXPECT(reads(WORDS("--", "--", "-a"), 0, "O:-- O:-a "));
    EXPECT(reads(WORDS("-5", "-.5", "-a5", "-x"), 0, "S:5 S:. S:5 S:a S:5 S:x "));
    EXPECT(reads(WORDS("-5", "-.5", "-.", "-a5"), OSB_NUMBERS, "O:-5 O:-.5 S:. S:a S:5 "));
}

static void bad_options(void) {
    osb_view words[] = {{TEXT("-ab")}, {NULL, 0}, {TEXT("-c")}};
    osb_options options = {words, 3, 1, 2, 0, 0}, same = options;
    osb_option option = {9, 9, {NULL, 99}};
    osb_view value = {NULL, 99};
    EXPECT(osb_options_start(&options, words, 3, 2) == OSB_BAD_OPTION);
    EXPECT(osb_options_start(&options, words, 3, 0xFFFFFFFF) == OSB_BAD_OPTION);
    EXPECT(osb_options_start(NULL, words, 3, 0) == OSB_BAD_POINTER);
    EXPECT(osb_options_start(&options, NULL, 1, 0) == OSB_BAD_POINTER);
    EXPECT(osb_options_start(&options, words, SIZE_MAX / 16 + 1, 0) == OSB_BAD_POINTER);
    EXPECT(osb_options_start(&options, words, SIZE_MAX / 16 + 2, 0) == OSB_BAD_POINTER);
    void *odd = (char *)words + 4;
    EXPECT(osb_options_start(&options, odd, 1, 0) == OSB_BAD_POINTER);
    osb_view bad[] = {{TEXT("a")}, {NULL, 1}};
    EXPECT(osb_options_start(&options, bad, 2, 0) == OSB_BAD_POINTER);
    bad[1] = (osb_view){"a", SIZE_MAX};
    EXPECT(osb_options_start(&options, bad, 2, 0) == OSB_BAD_POINTER);
    EXPECT(memcmp(&options, &same, sizeof same) == 0);
    EXPECT(osb_options_next(NULL, &option) == OSB_BAD_POINTER);
    EXPECT(osb_options_next(&options, NULL) == OSB_BAD_POINTER);
    EXPECT(osb_options_value(NULL, &value) == OSB_BAD_POINTER);
    EXPECT(osb_options_value(&options, NULL) == OSB_BAD_POINTER);
    EXPECT(osb_options_optional_value(NULL, &value) == OSB_BAD_POINTER);
    EXPECT(osb_options_optional_value(&options, NULL) == OSB_BAD_POINTER);
    EXPECT(memcmp(&options, &same, sizeof same) == 0);
    /* fields that no call left so */
    static const struct {
        size_t len, taken, at;
        uint32_t flags;
        osb_status next, value;
    } made[] = {
        {3, 4, 0, 0, OSB_BAD_INDEX, OSB_BAD_INDEX}, {3, SIZE_MAX, 0, 0, OSB_BAD_INDEX, OSB_BAD_INDEX},
        {3, 0, 1, 0, OSB_BAD_INDEX, OSB_BAD_INDEX}, {3, 5, 1, 0, OSB_BAD_INDEX, OSB_BAD_INDEX},
        {3, 1, 3, 0, OSB_BAD_INDEX, OSB_BAD_INDEX}, {3, 1, SIZE_MAX, 0, OSB_BAD_INDEX, OSB_BAD_INDEX},
        {3, 0, 0, 2, OSB_BAD_OPTION, OSB_OK},
    };
    for (size_t i = 0; i < sizeof made / sizeof *made; i++) {
        options = same = (osb_options){words, made[i].len, made[i].taken, made[i].at, made[i].flags, 0};
        EXPECT(osb_options_next(&options, &option) == made[i].next && option.kind == 9);
        EXPECT(memcmp(&options, &same, sizeof same) == 0);
        EXPECT(osb_options_value(&options, &value) == made[i].value);
    }
    value = (osb_view){NULL, 99};
    options = (osb_options){NULL, 1, 0, 0, 0, 0};
    EXPECT(osb_options_next(&options, &option) == OSB_BAD_POINTER);
    EXPECT(osb_options_value(&options, &value) == OSB_BAD_POINTER);
    options = (osb_options){bad, 2, 1, 0, 0, 0};
    EXPECT(osb_options_next(&options, &option) == OSB_BAD_POINTER);
    EXPECT(osb_options_value(&options, &value) == OSB_BAD_POINTER);
    options = (osb_options){bad, 2, 2, 1, 0, 0};
    EXPECT(osb_options_next(&options, &option) == OSB_BAD_POINTER);
    EXPECT(osb_options_optional_value(&options, &value) == OSB_BAD_POINTER);
    EXPECT(option.kind == 9 && option.text.len == 99 && value.at == NULL && value.len == 99);
    options = (osb_options){NULL, 0, 0, 0, 0, 0};
    EXPECT(osb_options_next(&options, &option) == OSB_ENDED && option.kind == 9);
    EXPECT(osb_options_value(&options, &value) == OSB_NONE && value.len == 99);
    /* each view is of the caller's word, the empty ones too, and a copy goes on by itself */
    EXPECT(osb_options_start(&options, words, 3, 0) == OSB_OK);
    EXPECT(osb_options_next(&options, &option) == OSB_OK && option.text.at == words[0].at + 1);
    same = options;
    EXPECT(osb_options_next(&options, &option) == OSB_OK && option.text.at == words[0].at + 2);
    EXPECT(osb_options_next(&options, &option) == OSB_OK && option.text.at != NULL && option.text.len == 0);
    EXPECT(osb_options_value(&same, &value) == OSB_OK && value.at == words[0].at + 2 && value.len == 1);
    EXPECT(osb_options_value(&same, &value) == OSB_OK && value.at != NULL && value.len == 0);
    EXPECT(osb_options_value(&same, &value) == OSB_OK && value.at == words[2].at && same.taken == 3);
    EXPECT(osb_options_value(&same, &value) == OSB_NONE && same.taken == 3);
    option = (osb_option){OSB_LONG, 0, {TEXT("foo")}};
    EXPECT(osb_option_is(&option, 0, "foo") == 1 && osb_option_is(&option, 'f', NULL) == 0);
    EXPECT(osb_option_is(&option, 0, "fo") == 0 && osb_option_is(&option, 0, "fooo") == 0);
    option.text = (osb_view){TEXT("f\0")};
    EXPECT(osb_option_is(&option, 0, "f") == 0);
    option.kind = OSB_LONG_BYTES;
    EXPECT(osb_option_is(&option, 0, "f") == 0);
    option = (osb_option){OSB_SHORT, 0, {TEXT("\0")}};
    EXPECT(osb_option_is(&option, 0, "f") == 0 && osb_option_is(NULL, 'f', "f") == -OSB_BAD_POINTER);
    option = (osb_option){OSB_LONG, 0, {NULL, 1}};
    EXPECT(osb_option_is(&option, 'f', "f") == -OSB_BAD_POINTER);
}

/* Filled arrays: the items are those of the calls that step, whatever room there is, and what is beyond
 * them stays. */
static bool same_view(osb_view a, osb_view b) { return a.at == b.at && a.len == b.len; }

/* A call that steps a split, and the one that fills an array from it. */
typedef osb_status to_start(osb_split *, const char *, size_t, const char *, size_t);
typedef osb_status to_step(osb_split *, osb_view *);
typedef osb_status to_fill(osb_split *, osb_view *, size_t, size_t *);

static void fill_pieces(to_start *start, to_step *step, to_fill *fill, const char *text, size_t len,
                        const char *pattern, size_t room) {
    osb_split stepped, filled;
    osb_view piece, pieces[9];
    size_t count = 99;
    EXPECT(start(&stepped, text, len, pattern, strlen(pattern)) == OSB_OK);
    filled = stepped;
    for (size_t i = 0; i < 9; i++) pieces[i] = (osb_view){"stays", 77};
    for (size_t turns = 0; turns < 40 && fill(&filled, pieces, room, &count) == OSB_OK; turns++) {
        EXPECT(count > 0 && count <= room);
        for (size_t i = 0; i < count; i++)
            EXPECT(step(&stepped, &piece) == OSB_OK && same_view(piece, pieces[i]));
        EXPECT(pieces[room].len == 77 && filled.ended == stepped.ended);
        EXPECT(filled.ended != 0 || (count == room && filled.next == stepped.next));
        count = 99;
    }
    EXPECT(count == 99 && fill(&filled, pieces, room, &count) == OSB_ENDED);
    EXPECT(step(&stepped, &piece) == OSB_ENDED);
}

static void fill_chunks(const char *text, size_t len, size_t room) {
    osb_chunks stepped, filled;
    osb_chunk chunk, out[9];
    size_t count = 99;
    EXPECT(osb_chunks_start(&stepped, text, len) == OSB_OK);
    filled = stepped;
    for (size_t i = 0; i < 9; i++) out[i].text.len = 77;
    for (size_t turns = 0; turns < 40 && osb_chunks_fill(&filled, out, room, &count) == OSB_OK; turns++) {
        EXPECT(count > 0 && count <= room && out[room].text.len == 77);
        for (size_t i = 0; i < count; i++)
            EXPECT(osb_chunks_next(&stepped, &chunk) == OSB_OK && same_view(chunk.part, out[i].part) &&
                   same_view(chunk.text, out[i].text));
        EXPECT(filled.next == stepped.next && (count == room || filled.next == len));
        count = 99;
    }
    EXPECT(count == 99 && filled.next == len && osb_chunks_next(&stepped, &chunk) == OSB_ENDED);
}

static void fill_symbols(osb_platform platform, const char *text, size_t len, size_t room) {
    osb_symbols stepped, filled;
    osb_symbol symbol, out[9];
    size_t count = 99;
    EXPECT(osb_symbols_start(&stepped, platform, text, len, NULL) == OSB_OK);
    filled = stepped;
    for (size_t i = 0; i < 9; i++) out[i].value = 77;
    for (size_t turns = 0; turns < 40 && osb_symbols_fill(&filled, out, room, &count) == OSB_OK; turns++) {
        EXPECT(count > 0 && count <= room && out[room].value == 77);
        for (size_t i = 0; i < count; i++) {
            EXPECT(osb_symbols_next(&stepped, &symbol) == OSB_OK && symbol.kind == out[i].kind);
            EXPECT(symbol.value == out[i].value && same_view(symbol.bytes, out[i].bytes));
        }
        EXPECT(filled.next == stepped.next && (count == room || filled.next == len));
        count = 99;
    }
    EXPECT(count == 99 && filled.next == len && osb_symbols_next(&stepped, &symbol) == OSB_ENDED);
}

static void filled_arrays(void) {
    static const char text[] = ",a,,\xFF" "b\xC3\xA9\xFF,\xF0\x9F\x98\x80,,c";
    static const char wide[] = "a\xED\xA0\xBD\xC3\xA9\xED\xB0\x80z";
    for (size_t room = 1; room < 9; room++) {
        for (size_t len = 0; len < sizeof text; len++) {
            fill_pieces(osb_split_start, osb_split_next, osb_split_fill, text, len, ",", room);
            fill_pieces(osb_split_start, osb_split_next, osb_split_fill, text, len, ",,", room);
            fill_pieces(osb_rsplit_start, osb_rsplit_next, osb_rsplit_fill, text, len, ",", room);
            fill_pieces(osb_rsplit_start, osb_rsplit_next, osb_rsplit_fill, text, len, ",,", room);
            fill_chunks(text, len, room);
            fill_symbols(OSB_UNIX, text, len, room);
        }
        fill_symbols(OSB_WINDOWS, wide, sizeof wide - 1, room);
        fill_symbols(OSB_WASM, TEXT("a\xC3\xA9"), room);
    }
    fill_pieces(osb_split_start, osb_split_next, osb_split_fill, NULL, 0, ",", 1);
    fill_pieces(osb_rsplit_start, osb_rsplit_next, osb_rsplit_fill, NULL, 0, ",", 1);
    fill_chunks(NULL, 0, 1);
    fill_symbols(OSB_WASM, NULL, 0, 1);
}

/* What is refused: nothing is written, and nothing is stepped. */
static void bad_piece_arrays(to_start *start, to_fill *fill) {
    union {
        char text[64];
        osb_view views[4];
    } both = {"a,b,c"};
    static const osb_view pattern[1];
    osb_view pieces[2] = {{NULL, 77}, {NULL, 77}};
    osb_split split;
    size_t count = 99;
    EXPECT(start(&split, both.text, 64, TEXT(",")) == OSB_OK);
    size_t start_next = split.next;
    EXPECT(fill(&split, pieces, 0, &count) == OSB_OK && count == 0);
    EXPECT(fill(&split, NULL, 0, &count) == OSB_OK && count == 0);
    count = 99;
    EXPECT(fill(&split, NULL, 1, &count) == OSB_BAD_POINTER);
    EXPECT(fill(&split, pieces, 2, NULL) == OSB_BAD_POINTER);
    EXPECT(fill(NULL, pieces, 2, &count) == OSB_BAD_POINTER);
    EXPECT(fill(&split, pieces, PTRDIFF_MAX / sizeof *pieces + 1, &count) == OSB_BAD_POINTER);
    EXPECT(fill(&split, (osb_view *)((char *)pieces + 1), 1, &count) == OSB_BAD_POINTER);
    EXPECT(fill(&split, both.views + 3, 1, &count) == OSB_BAD_POINTER);
    EXPECT(fill(&split, both.views + 3, 0, &count) == OSB_OK && count == 0);
    count = 99;
    EXPECT(split.next == start_next && split.ended == 0 && pieces[0].len == 77 && both.text[0] == 'a');
    split.pattern = (osb_view){(const char *)pattern, sizeof pattern};
    EXPECT(fill(&split, (osb_view *)(uintptr_t)pattern, 1, &count) == OSB_BAD_POINTER);
    split = (osb_split){{NULL, 0}, {NULL, 0}, 0, 0};
    EXPECT(fill(&split, pieces, 2, &count) == OSB_BAD_POINTER);
    split = (osb_split){{"a", 1}, {",", 1}, 2, 0};
    EXPECT(fill(&split, pieces, 2, &count) == OSB_BAD_INDEX && split.next == 2);
    split = (osb_split){{"a", 1}, {"\xFF", 1}, 0, 0};
    EXPECT(fill(&split, pieces, 2, &count) == OSB_BAD_PATTERN && split.ended == 0);
    split = (osb_split){{"a", 1}, {"", 0}, 0, 0};
    EXPECT(fill(&split, pieces, 2, &count) == OSB_BAD_PATTERN);
    EXPECT(count == 99 && pieces[0].len == 77);
}

static void bad_arrays(void) {
    union {
        char text[96];
        osb_chunk chunks[3];
        osb_symbol symbols[4];
    } both = {"a"};
    osb_chunks chunks;
    osb_chunk chunk[2];
    osb_symbols symbols;
    osb_symbol symbol[2];
    size_t count = 99;
    bad_piece_arrays(osb_split_start, osb_split_fill);
    bad_piece_arrays(osb_rsplit_start, osb_rsplit_fill);
    EXPECT(osb_chunks_start(&chunks, both.text, 96) == OSB_OK);
    EXPECT(osb_chunks_fill(&chunks, NULL, 1, &count) == OSB_BAD_POINTER);
    EXPECT(osb_chunks_fill(&chunks, chunk, 2, NULL) == OSB_BAD_POINTER);
    EXPECT(osb_chunks_fill(NULL, chunk, 2, &count) == OSB_BAD_POINTER);
    EXPECT(osb_chunks_fill(&chunks, (osb_chunk *)((char *)chunk + 1), 1, &count) == OSB_BAD_POINTER);
    EXPECT(osb_chunks_fill(&chunks, both.chunks + 2, 1, &count) == OSB_BAD_POINTER);
    EXPECT(osb_chunks_fill(&chunks, chunk, SIZE_MAX, &count) == OSB_BAD_POINTER);
    EXPECT(count == 99 && osb_chunks_fill(&chunks, NULL, 0, &count) == OSB_OK && count == 0);
    chunks = (osb_chunks){{NULL, 0}, 0};
    EXPECT(osb_chunks_fill(&chunks, chunk, 2, &count) == OSB_BAD_POINTER);
    chunks = (osb_chunks){{"a", SIZE_MAX}, 0};
    EXPECT(osb_chunks_fill(&chunks, chunk, 2, &count) == OSB_BAD_POINTER);
    chunks = (osb_chunks){{"a", 1}, 2};
    EXPECT(osb_chunks_fill(&chunks, chunk, 2, &count) == OSB_BAD_INDEX);
    EXPECT(osb_symbols_start(&symbols, OSB_UNIX, both.text, 96, NULL) == OSB_OK);
    count = 99;
    EXPECT(osb_symbols_fill(&symbols, NULL, 1, &count) == OSB_BAD_POINTER);
    EXPECT(osb_symbols_fill(&symbols, symbol, 2, NULL) == OSB_BAD_POINTER);
    EXPECT(osb_symbols_fill(NULL, symbol, 2, &count) == OSB_BAD_POINTER);
    EXPECT(osb_symbols_fill(&symbols, (osb_symbol *)((char *)symbol + 1), 1, &count) ==
           OSB_BAD_POINTER);
    EXPECT(osb_symbols_fill(&symbols, both.symbols + 3, 1, &count) == OSB_BAD_POINTER);
    EXPECT(osb_symbols_fill(&symbols, symbol, SIZE_MAX, &count) == OSB_BAD_POINTER);
    EXPECT(count == 99 && osb_symbols_fill(&symbols, NULL, 0, &count) == OSB_OK && count == 0);
    count = 99;
    symbols = (osb_symbols){{NULL, 0}, 0, OSB_UNIX};
    EXPECT(osb_symbols_fill(&symbols, symbol, 2, &count) == OSB_BAD_POINTER);
    symbols = (osb_symbols){{"a", SIZE_MAX}, 0, OSB_UNIX};
    EXPECT(osb_symbols_fill(&symbols, symbol, 2, &count) == OSB_BAD_POINTER);
    symbols = (osb_symbols){{"a", 1}, 2, OSB_UNIX};
    EXPECT(osb_symbols_fill(&symbols, symbol, 2, &count) == OSB_BAD_INDEX);
    symbols = (osb_symbols){{"a", 1}, 0, 3};
    EXPECT(osb_symbols_fill(&symbols, symbol, 2, &count) == OSB_BAD_PLATFORM);
    symbols = (osb_symbols){{"a\xED\xA0", 3}, 0, OSB_WINDOWS};
    EXPECT(osb_symbols_fill(&symbols, symbol, 2, &count) == OSB_FAULTY && symbols.next == 0);
    EXPECT(osb_symbols_fill(&symbols, symbol, 1, &count) == OSB_OK && count == 1);
}

/* A list: the views of the items of a text, each of which a 0 ends that the last may lack. That of an empty item is
 * null. */
typedef struct list {
    osb_view views[12];
    size_t len;
} list;

static list list_of(const char *text, size_t len) {
    list made = {.len = 0};
    while (len != 0) {
        const char *end = memchr(text, 0, len);
        size_t item = end == NULL ? len : (size_t)(end - text), taken = item + (end != NULL);
        made.views[made.len++] = (osb_view){item == 0 ? NULL : text, item};
        text += taken;
        len -= taken;
    }
    return made;
}

/* Whether each path of an array has its answer, and nothing after these was written. */
static bool are_told(const uint8_t *told, const char *wanted) {
    size_t all = strlen(wanted);
    for (size_t i = 0; i < all; i++)
        if (told[i] != wanted[i] - '0') return false;
    return told[all] == 77;
}

/* What patterns return for paths, as `wanted`; and with each request for memory refused. */
static bool tells(osb_platform platform, uint32_t options, list patterns, list paths, const char *wanted) {
    uint8_t told[20];
    osb_glob_fault fault;
    size_t before = blocks;
    memset(told, 77, sizeof told);
    if (osb_glob_matches(platform, options, patterns.views, patterns.len, paths.views, paths.len,
                         paths.len == 0 ? NULL : (bool *)told, &fault) != OSB_OK)
        return false;
    if (blocks != before || !are_told(told, wanted)) return false;
#ifdef OSB_WRAPPED
    for (size_t given = 0;; given++) {
        memset(told, 77, sizeof told);
        left = given;
        osb_status status = osb_glob_matches(platform, options, patterns.views, patterns.len, paths.views,
                                             paths.len, (bool *)told, NULL);
        left = SIZE_MAX;
        if (blocks != before) return false;
        if (status == OSB_OK) return are_told(told, wanted);
        if (status != OSB_NO_MEMORY || told[0] != 77) return false;
    }
#endif
    return true;
}

/* What a set that is kept returns for the same paths, for each and for all, and a set that shares its patterns when the
 * first is freed. No block of memory is left; with each request for memory refused nothing is kept. */
static bool keeps(osb_platform platform, uint32_t options, list patterns, list paths, const char *wanted) {
    size_t before = blocks;
    osb_globs *globs = NULL, *other = NULL, *const none = (osb_globs *)&before;
#ifdef OSB_WRAPPED
    for (size_t given = 0; globs == NULL; given++) {
        osb_globs *made = none;
        left = given;
        osb_status status = osb_globs_new(platform, options, patterns.views, patterns.len, &made, NULL);
        left = SIZE_MAX;
        if (status == OSB_OK) globs = made;
        else if (status != OSB_NO_MEMORY || made != none || blocks != before) return false;
    }
    other = none;
    left = 0;
    if (osb_globs_share(globs, &other) != OSB_NO_MEMORY || other != none) return false;
    left = SIZE_MAX;
#else
    (void)none;
    if (osb_globs_new(platform, options, patterns.views, patterns.len, &globs, NULL) != OSB_OK) return false;
#endif
    if (osb_globs_share(globs, &other) != OSB_OK || other == globs) return false;
    for (int turn = 0; turn < 2; turn++) {
        osb_globs *of = turn == 0 ? globs : other;
        uint8_t told[20];
        size_t kept = blocks;
        for (size_t i = 0; i < paths.len; i++)
            if (osb_globs_is_match(of, paths.views[i].at, paths.views[i].len) != wanted[i] - '0') return false;
        memset(told, 77, sizeof told);
        bool *out = paths.len == 0 ? NULL : (bool *)told;
        if (osb_globs_matches(of, paths.views, paths.len, out) != OSB_OK) return false;
        if (blocks != kept || !are_told(told, wanted)) return false;
#ifdef OSB_WRAPPED
        memset(told, 77, sizeof told);
        left = 0;
        osb_status status = osb_globs_matches(of, paths.views, paths.len, (bool *)told);
        left = SIZE_MAX;
        if (paths.len != 0 && (status != OSB_NO_MEMORY || blocks != kept || told[0] != 77)) return false;
#endif
        if (turn == 0) osb_globs_free(globs);
    }
    osb_globs_free(other);
    return blocks == before;
}

static void kept_globs(void) {
    const uint32_t usual = OSB_GLOB_SLASH | OSB_GLOB_ESCAPES;
    osb_glob_fault fault = {9, 9, 9};
    osb_globs *const none = (osb_globs *)&fault, *globs = none, *other = none;
    size_t before = blocks;
    list given;
#define NEW(platform, options, ...)                                                                \
    (given = list_of(__VA_ARGS__), osb_globs_new(platform, options, given.views, given.len, &globs, &fault))
    EXPECT(NEW(3, usual, TEXT("a")) == OSB_BAD_PLATFORM);
    EXPECT(NEW(OSB_UNIX, 64, TEXT("a")) == OSB_BAD_OPTION);
    EXPECT(NEW(OSB_UNIX, OSB_GLOB_BACKSLASH, TEXT("a")) == OSB_BAD_OPTION);
    EXPECT(NEW(OSB_WINDOWS, usual, TEXT("\xFF")) == OSB_FAULTY);
    EXPECT(NEW(OSB_WINDOWS, usual, TEXT("[\0\xFF")) == OSB_FAULTY);
    osb_view views[] = {{"a", 1}, {NULL, 1}};
    EXPECT(osb_globs_new(OSB_UNIX, usual, views, 2, &globs, &fault) == OSB_BAD_POINTER);
    EXPECT(osb_globs_new(OSB_UNIX, usual, NULL, 1, &globs, &fault) == OSB_BAD_POINTER);
    EXPECT(osb_globs_new(OSB_UNIX, usual, views, SIZE_MAX, &globs, &fault) == OSB_BAD_POINTER);
    EXPECT(osb_globs_new(OSB_UNIX, usual, (osb_view *)((char *)views + 4), 1, &globs, &fault) == OSB_BAD_POINTER);
    EXPECT(osb_globs_new(OSB_UNIX, usual, views, 1, NULL, &fault) == OSB_BAD_POINTER);
    EXPECT(fault.which == 9 && fault.index == 9 && fault.kind == 9);
    given = list_of(TEXT("a\0b[c"));
    EXPECT(osb_globs_new(OSB_UNIX, usual, given.views, given.len, &globs, NULL) == OSB_BAD_PATTERN);
    EXPECT(NEW(OSB_UNIX, usual, TEXT("a\0b[c")) == OSB_BAD_PATTERN);
    EXPECT(fault.which == 1 && fault.index == 1 && fault.kind == OSB_GLOB_UNCLOSED_CLASS);
    EXPECT(globs == none && blocks == before);
    EXPECT(NEW(OSB_WINDOWS, usual, TEXT("*.c")) == OSB_OK && globs != none);
    EXPECT(osb_globs_is_match(globs, TEXT("a.c")) == 1 && osb_globs_is_match(globs, TEXT("a.h")) == 0);
    EXPECT(osb_globs_is_match(globs, TEXT("\xFF")) == -OSB_FAULTY);
    EXPECT(osb_globs_is_match(globs, NULL, 0) == 0);
    EXPECT(osb_globs_is_match(globs, NULL, 1) == -OSB_BAD_POINTER);
    EXPECT(osb_globs_is_match(globs, "a.c", SIZE_MAX) == -OSB_BAD_POINTER);
    EXPECT(osb_globs_is_match(NULL, TEXT("a.c")) == -OSB_BAD_POINTER);
    uint8_t told[4] = {77, 77, 77, 77};
    bool *const out = (bool *)told;
    given = list_of(TEXT("a.c\0\xFF"));
    EXPECT(osb_globs_matches(globs, given.views, given.len, out) == OSB_FAULTY);
    EXPECT(osb_globs_matches(NULL, given.views, 1, out) == OSB_BAD_POINTER);
    EXPECT(osb_globs_matches(globs, views, 2, out) == OSB_BAD_POINTER);
    EXPECT(osb_globs_matches(globs, NULL, 1, out) == OSB_BAD_POINTER);
    EXPECT(osb_globs_matches(globs, given.views, 1, NULL) == OSB_BAD_POINTER);
    EXPECT(told[0] == 77);
    /* an array over the paths, or over their views */
    views[0] = (osb_view){(char *)told, 4};
    EXPECT(osb_globs_matches(globs, views, 1, out + 3) == OSB_BAD_POINTER && told[3] == 77);
    EXPECT(osb_globs_matches(globs, views, 1, (bool *)views + 15) == OSB_BAD_POINTER && views[0].len == 4);
    EXPECT(osb_globs_share(NULL, &other) == OSB_BAD_POINTER && osb_globs_share(globs, NULL) == OSB_BAD_POINTER);
    EXPECT(other == none);
    /* a path may have a 0, and the text that `find -print0` prints is cut into paths */
    views[0] = (osb_view){TEXT("\0.c")};
    EXPECT(osb_globs_matches(globs, views, 1, out) == OSB_OK && told[0] == 1 && told[1] == 77);
    static const char printed[] = "a.c\0b\0.c";
    osb_split split;
    size_t count = 9;
    EXPECT(osb_split_start(&split, printed, sizeof printed - 1, "\0", 1) == OSB_OK);
    EXPECT(osb_split_fill(&split, given.views, 12, &count) == OSB_OK && count == 3);
    EXPECT(osb_globs_matches(globs, given.views, count, out) == OSB_OK);
    EXPECT(told[0] == 1 && told[1] == 0 && told[2] == 1 && told[3] == 77);
    osb_globs_free(globs);
    osb_globs_free(NULL);
    EXPECT(blocks == before);
#undef NEW
}

#define LIST(s) list_of((s), sizeof(s) - 1)

static void globs(void) {
    const uint32_t usual = OSB_GLOB_SLASH | OSB_GLOB_ESCAPES;
#define TELLS(platform, options, ...)                                                              \
    (tells(platform, options, __VA_ARGS__) && keeps(platform, options, __VA_ARGS__))
    EXPECT(TELLS(OSB_UNIX, usual, LIST("*.c\0*.h"), LIST("a.c\0b/a.c\0b.h\0c"), "1010"));
    EXPECT(TELLS(OSB_UNIX, usual, LIST("*.c\0*.h\0"), LIST("a.c\0b/a.c\0b.h\0c\0"), "1010"));
    EXPECT(TELLS(OSB_UNIX, usual, LIST("**/*.c"), LIST("a.c\0b/a.c\0\0b.h"), "1100"));
    EXPECT(TELLS(OSB_UNIX, usual, list_of(NULL, 0), LIST("a\0"), "0"));
    EXPECT(TELLS(OSB_UNIX, usual, LIST("\0"), LIST("\0a"), "10"));
    EXPECT(TELLS(OSB_UNIX, usual, LIST("a"), list_of(NULL, 0), ""));
    EXPECT(TELLS(OSB_UNIX, usual, LIST("?\0\\*"), LIST("\xFF\0\xC3\xA9\0*\0ab"), "1110"));
    EXPECT(TELLS(OSB_UNIX, OSB_GLOB_ESCAPES, LIST("*.c"), LIST("b/a.c"), "1"));
    EXPECT(TELLS(OSB_UNIX, OSB_GLOB_SLASH, LIST("\\*"), LIST("*\0\\a"), "01"));
    EXPECT(TELLS(OSB_UNIX, usual, LIST("*"), LIST(".a"), "1"));
    EXPECT(TELLS(OSB_UNIX, usual | OSB_GLOB_LITERAL_DOT, LIST("*"), LIST(".a"), "0"));
    EXPECT(TELLS(OSB_UNIX, usual, LIST("[\\]]"), LIST("]\0\\]"), "01"));
    EXPECT(TELLS(OSB_UNIX, usual | OSB_GLOB_CLASS_ESCAPES, LIST("[\\]]"), LIST("]\0\\]"), "10"));
    EXPECT(TELLS(OSB_UNIX, usual, LIST("a"), LIST("A"), "0"));
    EXPECT(TELLS(OSB_UNIX, usual | OSB_GLOB_ANY_CASE, LIST("a"), LIST("A"), "1"));
    EXPECT(TELLS(OSB_WINDOWS, OSB_GLOB_SLASH | OSB_GLOB_BACKSLASH, LIST("a/?"),
                 LIST("a\\\xED\xA0\xBD\0a/b\0a"), "110"));
    EXPECT(TELLS(OSB_WASM, usual, LIST("[\xC3\xA9]"), LIST("\xC3\xA9"), "1"));
#undef TELLS
}

static void bad_globs(void) {
    const uint32_t usual = OSB_GLOB_SLASH | OSB_GLOB_ESCAPES;
    uint8_t told[4] = {77, 77, 77, 77};
    bool *const out = (bool *)told;
    osb_glob_fault fault = {9, 9, 9};
    list patterns, paths;
#define GLOB(platform, options, patterns_of, paths_of)                                             \
    (patterns = patterns_of, paths = paths_of,                                                     \
     osb_glob_matches(platform, options, patterns.views, patterns.len, paths.views, paths.len, out, &fault))
    EXPECT(GLOB(OSB_WINDOWS, usual, LIST("\xFF"), LIST("a")) == OSB_FAULTY);
    EXPECT(GLOB(OSB_WINDOWS, usual, LIST("a"), LIST("a\0\xFF")) == OSB_FAULTY);
    EXPECT(GLOB(OSB_WINDOWS, usual, LIST("\xFF\0["), LIST("a")) == OSB_FAULTY);
    EXPECT(GLOB(OSB_WINDOWS, usual, LIST("[\0\xFF"), LIST("a")) == OSB_FAULTY);
    EXPECT(GLOB(OSB_WASM, usual, LIST("a"), LIST("\xED\xA0\x80")) == OSB_FAULTY);
    EXPECT(GLOB(3, usual, LIST("a"), LIST("a")) == OSB_BAD_PLATFORM);
    EXPECT(GLOB(OSB_UNIX, OSB_GLOB_BACKSLASH, LIST("a"), LIST("a")) == OSB_BAD_OPTION);
    EXPECT(GLOB(OSB_UNIX, 64, LIST("a"), LIST("a")) == OSB_BAD_OPTION);
    osb_view views[] = {{"a", 1}, {NULL, 1}};
#define BAD(...) (osb_glob_matches(0, usual, __VA_ARGS__, &fault) == OSB_BAD_POINTER)
    EXPECT(BAD(NULL, 1, views, 1, out) && BAD(views, 2, views, 1, out));
    EXPECT(BAD(views, 1, NULL, 1, out) && BAD(views, 1, views, 2, out));
    EXPECT(BAD(views, 1, views, SIZE_MAX, out) && BAD(views, SIZE_MAX, views, 1, out));
    EXPECT(BAD(views, 1, views, 1, NULL));
    views[1] = (osb_view){(char *)told, 4};
    EXPECT(BAD(views + 1, 1, views, 1, out + 3) && BAD(views, 1, views + 1, 1, out + 3));
    EXPECT(BAD(views + 1, 1, &(osb_view){"a", 1}, 1, (bool *)&views[1].len));
    EXPECT(BAD(&(osb_view){"a", 1}, 1, views + 1, 1, (bool *)&views[1].len) && views[1].len == 4);
#undef BAD
    EXPECT(told[0] == 77 && told[3] == 77 && fault.which == 9 && fault.index == 9 && fault.kind == 9);
    static const struct {
        const char *patterns;
        size_t len, which, index, kind;
    } FAULTS[] = {
        {TEXT("a\0b[c"), 1, 1, OSB_GLOB_UNCLOSED_CLASS}, {TEXT("[z-a]\0["), 0, 1, OSB_GLOB_REVERSED_RANGE},
        {TEXT("[[:foo:]]"), 0, 1, OSB_GLOB_UNKNOWN_CLASS}, {TEXT("a\0b\0\\"), 2, 0, OSB_GLOB_DANGLING_ESCAPE},
        {TEXT("a{b"), 0, 1, OSB_GLOB_UNCLOSED_BRACE},       {TEXT("a}"), 0, 1, OSB_GLOB_UNOPENED_BRACE},
        {TEXT("{a,b}{a,b}{a,b}{a,b}{a,b}{a,b}{a,b}{a,b}{a,b}{a,b}{a,b}"), 0, 0, OSB_GLOB_TOO_MANY},
    };
    for (size_t i = 0; i < sizeof FAULTS / sizeof *FAULTS; i++) {
        EXPECT(GLOB(OSB_UNIX, usual, list_of(FAULTS[i].patterns, FAULTS[i].len), LIST("a")) == OSB_BAD_PATTERN);
        EXPECT(fault.which == FAULTS[i].which && fault.index == FAULTS[i].index && fault.kind == FAULTS[i].kind);
        EXPECT(osb_glob_matches(0, usual, patterns.views, patterns.len, paths.views, paths.len, out, NULL) ==
               OSB_BAD_PATTERN);
    }
    EXPECT(GLOB(OSB_WINDOWS, usual, LIST("["), LIST("\xFF")) == OSB_BAD_PATTERN);
    EXPECT(told[0] == 77);
#undef GLOB
}

/* The verdicts of a file on paths, of which the directories are flagged: a letter and the line of each. */
static bool ignores(const char *file, size_t file_len, list paths, const char *dirs, const char *wanted) {
    size_t before = blocks;
    bool flags[9] = {false};
    osb_verdict out[9];
    for (size_t i = 0; i < strlen(dirs); i++) flags[i] = dirs[i] == '1';
    const bool *given = *dirs == 0 ? NULL : flags;
#ifdef OSB_WRAPPED
    for (size_t requests = 0;; requests++) {
        out[0].line = 77;
        left = requests;
        osb_status status = osb_ignore_matches(file, file_len, paths.views, paths.len, given, out);
        left = SIZE_MAX;
        if (blocks != before) return false;
        if (status == OSB_OK) break;
        if (status != OSB_NO_MEMORY || out[0].line != 77) return false;
    }
#endif
    for (size_t i = 0; i < 9; i++) out[i].line = 77;
    if (osb_ignore_matches(file, file_len, paths.views, paths.len, given, paths.len == 0 ? NULL : out) != OSB_OK)
        return false;
    for (size_t i = 0; i < paths.len; i++)
        if (out[i].kind != (uint32_t)(wanted[2 * i] == '-' ? 0 : wanted[2 * i] == 'i' ? 1 : 2) ||
            out[i].line != (size_t)(wanted[2 * i + 1] - '0'))
            return false;
    return blocks == before && 2 * paths.len == strlen(wanted) && out[paths.len].line == 77;
}

static void ignore_files(void) {
    EXPECT(ignores(TEXT("*.log\ntarget/\n!keep.log\n"), LIST("a/b.log\0target\0target\0target/keep.log\0keep.log\0c"),
                   "001000", "i1-0i2i2w3-0"));
    EXPECT(ignores(TEXT("/build\n!build/out\ndoc/**\n!doc/*/"), LIST("build/out\0doc/a\0doc/a\0doc/a/b\0"), "0100",
                   "i1w4i3i3"));
    EXPECT(ignores(NULL, 0, LIST("a\0b"), "", "-0-0"));
    EXPECT(ignores(TEXT("a"), list_of(NULL, 0), "", ""));
    EXPECT(ignores(TEXT("\xFF*"), LIST("\xFF" "a\0\0a"), "", "i1-0-0"));
    union {
        char text[32];
        bool dirs[32];
        osb_verdict verdicts[2];
        osb_view views[2];
    } both = {"a"};
    osb_verdict out[2] = {{9, 77}, {9, 77}};
    const osb_view views[] = {{"a", 1}, {NULL, 1}}, over = {both.text, 32};
#define BAD(...) (osb_ignore_matches(__VA_ARGS__) == OSB_BAD_POINTER)
    EXPECT(BAD(NULL, 1, views, 1, NULL, out));
    EXPECT(BAD(TEXT("a"), NULL, 1, NULL, out) && BAD(TEXT("a"), views, 2, NULL, out));
    EXPECT(BAD(TEXT("a"), views, SIZE_MAX, NULL, out));
    EXPECT(BAD(TEXT("a"), views, 1, NULL, NULL));
    EXPECT(BAD(TEXT("a"), views, 1, NULL, (osb_verdict *)((char *)out + 4)));
    EXPECT(BAD(both.text, 32, views, 1, NULL, both.verdicts));
    EXPECT(BAD(TEXT("a"), &over, 1, NULL, both.verdicts));
    EXPECT(BAD(TEXT("a"), views, 1, both.dirs, both.verdicts));
    EXPECT(out[0].line == 77 && both.text[0] == 'a');
    both.views[1] = views[0];
    EXPECT(BAD(TEXT("a"), both.views + 1, 1, NULL, both.verdicts + 1) && both.views[1].len == 1);
#undef BAD
}

/* Ignore files of several directories that are kept, with each request for memory refused in turn. */
static void kept_ignores(void) {
    static const struct {
        const char *directory, *file;
    } files[] = {{"", "*.o\nbuild/\n"}, {"src", "!keep.o\n"}, {"src/deep", "keep.o\n\n"}};
    static const struct {
        const char *path;
        bool is_dir;
        osb_verdict_kind kind;
        size_t file, line;
    } wanted[] = {
        {"a.o", false, OSB_IGNORED, 0, 1},          {"keep.o", false, OSB_IGNORED, 0, 1},
        {"src/keep.o", false, OSB_TAKEN_IN, 1, 1},  {"src/a.o", false, OSB_IGNORED, 0, 1},
        {"src/deep/keep.o", false, OSB_IGNORED, 2, 1}, {"build", true, OSB_IGNORED, 0, 2},
        {"build", false, OSB_NEITHER, 0, 0},        {"build/x", false, OSB_IGNORED, 0, 2},
        {"", true, OSB_NEITHER, 0, 0},
    };
    size_t before = blocks;
    osb_decision decision = {OSB_TAKEN_IN, 7, 7};
    osb_ignores *const none = (osb_ignores *)&before, *ignores = none;
#ifdef OSB_WRAPPED
    left = 0;
    EXPECT(osb_ignores_new(&ignores) == OSB_NO_MEMORY && ignores == none);
    left = SIZE_MAX;
#endif
    EXPECT(osb_ignores_new(NULL) == OSB_BAD_POINTER);
    EXPECT(osb_ignores_new(&ignores) == OSB_OK && ignores != none);
    EXPECT(osb_ignores_match(ignores, TEXT("a.o"), false, &decision) == OSB_OK);
    EXPECT(decision.kind == OSB_NEITHER && decision.file == 0 && decision.line == 0);
    for (size_t i = 0; i < 3; i++) {
        const char *directory = files[i].directory, *file = files[i].file;
#ifdef OSB_WRAPPED
        for (size_t given = 0;; given++) {
            size_t kept = blocks;
            left = given;
            osb_status status = osb_ignores_add(ignores, directory, strlen(directory), file, strlen(file));
            left = SIZE_MAX;
            if (status == OSB_OK) break;
            /* a vector may have got room, and keeps it */
            EXPECT(status == OSB_NO_MEMORY && blocks <= kept + 1 && given < 100);
            EXPECT(osb_ignores_match(ignores, TEXT("src/deep/keep.o"), false, &decision) == OSB_OK);
            EXPECT(decision.kind == (i == 0 ? OSB_NEITHER : i == 1 ? OSB_IGNORED : OSB_TAKEN_IN));
        }
#else
        EXPECT(osb_ignores_add(ignores, directory, strlen(directory), file, strlen(file)) == OSB_OK);
#endif
    }
    size_t kept = blocks;
    for (size_t i = 0; i < sizeof wanted / sizeof *wanted; i++) {
        decision = (osb_decision){OSB_TAKEN_IN, 7, 7};
        EXPECT(osb_ignores_match(ignores, wanted[i].path, strlen(wanted[i].path), wanted[i].is_dir, &decision) == OSB_OK);
        EXPECT(decision.kind == wanted[i].kind && decision.file == wanted[i].file && decision.line == wanted[i].line);
    }
    EXPECT(blocks == kept);
    decision = (osb_decision){OSB_TAKEN_IN, 7, 7};
    EXPECT(osb_ignores_match(NULL, TEXT("a"), false, &decision) == OSB_BAD_POINTER);
    EXPECT(osb_ignores_match(ignores, NULL, 1, false, &decision) == OSB_BAD_POINTER);
    EXPECT(osb_ignores_match(ignores, TEXT("a"), false, NULL) == OSB_BAD_POINTER);
    EXPECT(osb_ignores_add(NULL, TEXT(""), TEXT("a")) == OSB_BAD_POINTER);
    EXPECT(osb_ignores_add(ignores, NULL, 1, TEXT("a")) == OSB_BAD_POINTER);
    EXPECT(osb_ignores_add(ignores, TEXT("a"), NULL, 1) == OSB_BAD_POINTER);
    EXPECT(decision.file == 7);
    osb_ignores_free(ignores);
    osb_ignores_free(NULL);
    EXPECT(blocks == before);
}

#ifdef OSB_INSIDE
bool osb_inside(void);
#endif

int main(void) {
#ifdef OSB_INSIDE
    const size_t before = blocks; /* MinGW's start-up code copies the arguments */
    EXPECT(osb_inside() && blocks == before);
    if (failed > 0) return 1; /* some wrong edges would wait for ever */
#endif
    checks();
    escapes();
    unescapes();
    symbols();
    filled_arrays();
    bad_arrays();
    globs();
    bad_globs();
    kept_globs();
    kept_ignores();
    ignore_files();
    views();
    bounds();
    status_texts();
    checkers();
    from_wide();
    faults();
    lossies();
    edges();
    rsplits();
    texts();
    wide();
    long_wide();
    searches();
    patterns();
    splits();
    chunks();
    components();
    path_parts();
    path_tests();
    path_rests();
    path_joins();
    path_joins_checked();
    path_ways();
    path_forms();
    path_names();
    words();
    no_texts();
    joins();
    shell_lines();
    windows_lines();
    options();
    bad_options();
    printf("asked: %d, failed: %d\n", asked, failed);
    return failed != 0;
}
