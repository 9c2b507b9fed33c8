/* The edge with what its tests reach only from inside: sums of lengths that no program has memory for, and the views
 * that the exports get. OSB_EDGE is the edge's file. */
#ifndef OSB_EDGE
#define OSB_EDGE "../src/osbytes.c"
#endif
#include OSB_EDGE

/* Whether the views of a list are the caller's, or a copy where one is null. */
static bool are_whole(void) {
    const osb_view views[] = {{"a", 1}, {NULL, 0}};
    osb_view *own = NULL;
    if (without_null(views, 1, &own) != views || own != NULL) return false;
    if (without_null(NULL, 0, &own) == NULL || own != NULL) return false;
    const osb_view *whole = without_null(views, 2, &own);
    bool right = whole != NULL && whole == own && whole[0].at == views[0].at && whole[0].len == 1 &&
                 whole[1].at != NULL && whole[1].len == 0;
    free(own);
    return right;
}

/* Whether a set and ignore files that are in no place are reported, and nothing is written or kept. */
static bool are_empty(void) {
    osb_globs globs = {{false, &globs.set}, NULL}, *other = NULL;
    osb_ignores ignores = {{false, &ignores.files}, {{NULL}}, 0};
    osb_decision decision = {OSB_TAKEN_IN, 7, 7};
    const osb_view path = {"a", 1};
    bool matched = true;
    if (osb_globs_is_match(&globs, "a", 1) != -(int)OSB_EMPTY) return false;
    if (osb_globs_matches(&globs, &path, 1, &matched) != OSB_EMPTY || !matched) return false;
    if (osb_globs_share(&globs, &other) != OSB_EMPTY || other != NULL) return false;
    if (osb_ignores_add(&ignores, NULL, 0, "a", 1) != OSB_EMPTY || ignores.users != 0) return false;
    if (osb_ignores_match(&ignores, "a", 1, false, &decision) != OSB_EMPTY) return false;
    return decision.kind == OSB_TAKEN_IN && decision.file == 7 && decision.line == 7 && ignores.users == 0;
}

/* Whether what the exports keep fills as many words as the edge has room for, and no more. */
static bool is_room_enough(void) {
    enum { WORDS = 16 };
    void *room[2][WORDS], *left = room;
    struct core_held globs = {false, room[0]}, ignores = {false, room[1]};
    osb_glob_fault fault;
    const osb_view pattern = {"*.c", 3};
    const size_t words[] = {sizeof((osb_globs *)NULL)->set / sizeof(void *),
                            sizeof(struct core_files) / sizeof(void *)};
    for (size_t i = 0; i < 2 * WORDS; i++) room[i / WORDS][i % WORDS] = left;
    bool right = CORE(globs_new)(OSB_UNIX, OSB_GLOB_SLASH, &pattern, 1, &globs, &fault) == OSB_OK &&
                 CORE(ignores_new)(&ignores) == OSB_OK &&
                 CORE(ignores_add)(&ignores, "b", 1, "*.o\n", 4) == OSB_OK;
    for (size_t i = 0; i < 2; i++)
        for (size_t j = 0; j < WORDS; j++) right = right && (room[i][j] != left) == (j < words[i]);
    CORE(globs_free)(&globs);
    CORE(ignores_free)(&ignores);
    return right;
}

/* Whether words are added to a line up to the greatest length that isn't SIZE_MAX, lists have no null view, an empty place
 * is reported, and what is kept has room. */
bool osb_inside(void);

bool osb_inside(void) {
    size_t count = SIZE_MAX - 6;
    if (add_word(OSB_OK, 5, &count) != OSB_OK || count != SIZE_MAX - 1) return false;
    if (add_word(OSB_OK, 0, &count) != OSB_OK || count != SIZE_MAX - 1) return false;
    if (add_word(OSB_OK, 1, &count) != OSB_TOO_LONG || count != SIZE_MAX - 1) return false;
    count = SIZE_MAX - 5;
    if (add_word(OSB_NO_ROOM, 5, &count) != OSB_TOO_LONG || count != SIZE_MAX - 5) return false;
    if (add_word(OSB_HAS_NUL, 5, &count) != OSB_HAS_NUL || count != SIZE_MAX - 5) return false;
    if (!are_empty() || !is_room_enough()) return false;
    return are_whole() && room_after(3, 3) == 0 && room_after(3, 4) == 0 && room_after(3, 1) == 2;
}
