/* Each pair of calls on one set, and on the same ignore files, in threads that run at once: what a call returns is what it
 * returns in one thread. Then threads with sets that share the patterns of one, which is freed meanwhile. */
#define _POSIX_C_SOURCE 200809L
#include "osbytes.h"

#include <pthread.h>
#include <stdio.h>
#include <string.h>
#include <time.h>

enum { THREADS = 4, TURNS = 2000, LEAST = 4, MILLISECONDS = 40, LONG = 1 << 14, ADDED = 300, PATHS = 200 };

/* Which call a thread makes in turn, on what, its number, how many files it has added, and how many results were wrong. */
struct work {
    void (*call)(struct work *work);
    osb_globs *globs;
    osb_ignores *ignores;
    size_t number;
    size_t added;
    size_t wrong;
};

static char long_path[LONG];
static osb_view paths[PATHS];
static pthread_barrier_t begun;

static void match_short(struct work *work) {
    work->wrong += osb_globs_is_match(work->globs, "src/lib.rs", 10) != 1;
    work->wrong += osb_globs_is_match(work->globs, "README", 6) != 0;
}

static void match_long(struct work *work) {
    work->wrong += osb_globs_is_match(work->globs, long_path, LONG) != 1;
}

static void match_many(struct work *work) {
    bool matched[PATHS];
    size_t right = 0;
    if (osb_globs_matches(work->globs, paths, PATHS, matched) != OSB_OK) work->wrong++;
    else
        for (size_t i = 0; i < PATHS; i++) right += matched[i] == (i % 2 == 1);
    work->wrong += right != PATHS;
}

static void share(struct work *work) {
    osb_globs *other = NULL;
    if (osb_globs_share(work->globs, &other) != OSB_OK) work->wrong++;
    else work->wrong += osb_globs_is_match(other, "src/lib.rs", 10) != 1;
    osb_globs_free(other);
}

/* Whether files decide as expected. */
static bool decide(osb_ignores *ignores, const char *path, size_t len, osb_verdict_kind kind, size_t file,
                   size_t line) {
    osb_decision decision = {OSB_TAKEN_IN, 99, 99};
    return osb_ignores_match(ignores, path, len, false, &decision) == OSB_OK && decision.kind == kind &&
           decision.file == file && decision.line == line;
}

static void decide_short(struct work *work) {
    work->wrong += !decide(work->ignores, "a/b.o", 5, OSB_IGNORED, 0, 2);
    work->wrong += !decide(work->ignores, "a/b.c", 5, OSB_NEITHER, 0, 0);
}

static void decide_long(struct work *work) {
    work->wrong += !decide(work->ignores, long_path, LONG / 16, OSB_NEITHER, 0, 0);
}

/* Adds a file that ignores *.log in a directory of its own. After the last there is nothing to do. */
static void add(struct work *work) {
    char place[32];
    if (work->added == ADDED) return;
    int len = snprintf(place, sizeof place, "%zu/%zu", work->number, work->added);
    work->wrong += osb_ignores_add(work->ignores, place, (size_t)len, "\n*.log\n", 7) != OSB_OK;
    work->added++;
}

/* How many of the files that a thread added decide nothing, or have a number below that of the file before. */
static size_t lost(struct work *work) {
    size_t wrong = 0, last = 0;
    char path[48];
    for (size_t i = 0; i < work->added; i++) {
        osb_decision decision = {OSB_NEITHER, 0, 0};
        int len = snprintf(path, sizeof path, "%zu/%zu/x.log", work->number, i);
        if (osb_ignores_match(work->ignores, path, (size_t)len, false, &decision) != OSB_OK) wrong++;
        wrong += decision.kind != OSB_IGNORED || decision.line != 2 || decision.file <= last;
        last = decision.file;
    }
    return wrong;
}

static double now(void) {
    struct timespec at;
    clock_gettime(CLOCK_MONOTONIC, &at);
    return 1e3 * (double)at.tv_sec + 1e-6 * (double)at.tv_nsec;
}

static void *run(void *at) {
    struct work *work = at;
    pthread_barrier_wait(&begun);
    double end = now() + MILLISECONDS;
    for (size_t turns = 0; turns < LEAST || now() < end; turns++) work->call(work);
    return NULL;
}

/* Runs two calls in two threads each. */
static bool are_right(struct work *first, struct work *second) {
    struct work works[THREADS] = {*first, *second, *first, *second};
    pthread_t threads[THREADS];
    size_t wrong = 0;
    if (pthread_barrier_init(&begun, NULL, THREADS) != 0) return false;
    for (size_t i = 0; i < THREADS; i++) {
        works[i].number = i;
        if (pthread_create(&threads[i], NULL, run, &works[i]) != 0) return false;
    }
    for (size_t i = 0; i < THREADS; i++)
        if (pthread_join(threads[i], NULL) != 0) return false;
    pthread_barrier_destroy(&begun);
    for (size_t i = 0; i < THREADS; i++) wrong += works[i].wrong + lost(&works[i]);
    return wrong == 0;
}

static bool sets_are_right(void) {
    void (*const calls[])(struct work *) = {match_short, match_long, match_many, share};
    const osb_view patterns[] = {{"**/*.rs", 7}, {"target/**", 9}, {"**/a?[b-z]*.{c,h}", 17}};
    osb_globs *globs;
    if (osb_globs_new(OSB_UNIX, OSB_GLOB_SLASH, patterns, 3, &globs, NULL) != OSB_OK) return false;
    bool right = true;
    for (size_t i = 0; i < sizeof calls / sizeof *calls; i++)
        for (size_t j = i; j < sizeof calls / sizeof *calls; j++) {
            struct work first = {calls[i], globs, NULL, 0, 0, 0}, second = {calls[j], globs, NULL, 0, 0, 0};
            bool are = are_right(&first, &second);
            if (!are) printf("threads: wrong: calls %zu and %zu on a set\n", i, j);
            right = right && are;
        }
    osb_globs_free(globs);
    return right;
}

static bool files_are_right(void) {
    void (*const calls[])(struct work *) = {decide_short, decide_long, add};
    bool right = true;
    for (size_t i = 0; i < sizeof calls / sizeof *calls; i++)
        for (size_t j = i; j < sizeof calls / sizeof *calls; j++) {
            osb_ignores *ignores;
            if (osb_ignores_new(&ignores) != OSB_OK) return false;
            right = osb_ignores_add(ignores, NULL, 0, "!*.rs\n*.o\n", 10) == OSB_OK && right;
            struct work first = {calls[i], NULL, ignores, 0, 0, 0}, second = {calls[j], NULL, ignores, 0, 0, 0};
            bool are = are_right(&first, &second);
            if (!are) printf("threads: wrong: calls %zu and %zu on ignore files\n", i, j);
            right = right && are;
            osb_ignores_free(ignores);
        }
    return right;
}

static void *match_own(void *at) {
    struct work work = {NULL, at, NULL, 0, 0, 0};
    for (int i = 0; i < TURNS; i++) match_short(&work);
    match_many(&work);
    osb_globs_free(at);
    return work.wrong == 0 ? NULL : at;
}

static bool shared_are_right(void) {
    osb_globs *globs, *own[THREADS];
    pthread_t threads[THREADS];
    const osb_view patterns[] = {{"**/*.rs", 7}, {"target/**", 9}};
    if (osb_globs_new(OSB_UNIX, OSB_GLOB_SLASH, patterns, 2, &globs, NULL) != OSB_OK) return false;
    for (int i = 0; i < THREADS; i++)
        if (osb_globs_share(globs, &own[i]) != OSB_OK) return false;
    for (int i = 0; i < THREADS; i++)
        if (pthread_create(&threads[i], NULL, match_own, own[i]) != 0) return false;
    osb_globs_free(globs);
    bool right = true;
    for (int i = 0; i < THREADS; i++) {
        void *wrong;
        right = pthread_join(threads[i], &wrong) == 0 && wrong == NULL && right;
    }
    return right;
}

int main(void) {
    for (size_t i = 0; i < LONG; i++) long_path[i] = "a/"[i % 2];
    memcpy(long_path + LONG - 4, "b.rs", 4);
    for (size_t i = 0; i < PATHS; i++) paths[i] = i % 2 == 0 ? (osb_view){"a/b", 3} : (osb_view){"a/b.rs", 6};
    bool right = sets_are_right();
    right = files_are_right() && right;
    right = shared_are_right() && right;
    puts(right ? "threads: right" : "threads: wrong");
    return right ? 0 : 1;
}
