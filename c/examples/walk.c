/* Prints the files of a git repository that no ignore file ignores, each on one line: walk ~/repository */
#define _XOPEN_SOURCE 700
#include <dirent.h>
#include <osbytes.h>
#include <stdio.h>
#include <stdlib.h>
#include <string.h>
#include <sys/stat.h>
#include <unistd.h>

enum { ROOM = 4096 };

static void fail(const char *why) {
    fprintf(stderr, "walk: %s\n", why);
    exit(2);
}

/* Adds a file, if it can be read, as the ignore file of the directory that is the first bytes of its path. */
static void add(osb_ignores *ignores, size_t directory_len, const char *path) {
    char *text = NULL;
    size_t len = 0, count = 0;
    FILE *file = fopen(path, "rb");
    if (file == NULL) return;
    do {
        len += count;
        if ((text = realloc(text, len + ROOM)) == NULL) fail("out of memory");
        count = fread(text + len, 1, ROOM, file);
    } while (count > 0);
    if (!ferror(file) && osb_ignores_add(ignores, path, directory_len, text, len) != OSB_OK)
        fail("out of memory");
    fclose(file);
    free(text);
}

/* Adds the file whose path a command prints, as that of the top. */
static void add_printed(osb_ignores *ignores, const char *command) {
    char path[ROOM];
    FILE *printed = popen(command, "r");
    size_t len = printed == NULL ? 0 : fread(path, 1, sizeof path, printed);
    if (len == 0 || len == sizeof path || pclose(printed) != 0) fail("git failed");
    path[len - 1] = 0; /* for the newline */
    add(ignores, 0, path);
}

static void print(const char *path) {
    static char text[6 * ROOM];
    size_t len;
    if (osb_escape_line(OSB_UNIX, path, strlen(path), text, sizeof text, &len, NULL) == OSB_OK)
        printf("%.*s\n", (int)len, text);
}

/* Walks the folder whose path has `len` bytes, and is empty at the top. Paths below it are written after it, in
 * the same ROOM bytes, so that a deep tree takes little of the stack. */
static void walk(osb_ignores *ignores, char *path, size_t len) {
    DIR *entries = opendir(len > 0 ? path : ".");
    size_t start = len > 0 ? len + 1 : 0;
    if (entries == NULL) fail("a folder can't be opened");
    if (len > 0) path[len] = '/';
    strcpy(path + start, ".gitignore");
    add(ignores, len, path);
    for (struct dirent *entry; (entry = readdir(entries)) != NULL;) {
        const char *name = entry->d_name;
        osb_decision decision;
        struct stat status;
        if (strcmp(name, ".") == 0 || strcmp(name, "..") == 0 || strcmp(name, ".git") == 0) continue;
        if (start + strlen(name) + sizeof "/.gitignore" > ROOM) fail("a path is too long");
        strcpy(path + start, name);
        if (lstat(path, &status) != 0) continue;
        bool is_dir = S_ISDIR(status.st_mode);
        if (osb_ignores_match(ignores, path, strlen(path), is_dir, &decision) != OSB_OK ||
            decision.kind == OSB_IGNORED)
            continue;
        if (is_dir) walk(ignores, path, strlen(path));
        else print(path);
    }
    closedir(entries);
}

int main(int count, char **words) {
    osb_ignores *ignores;
    if (chdir(count > 1 ? words[1] : ".") != 0) fail("no such folder");
    if (osb_ignores_new(&ignores) != OSB_OK) fail("out of memory");
    /* The order is git's: of two files that decide a path the later one wins. */
    add_printed(ignores, "git config --type=path --default \"${XDG_CONFIG_HOME:-~/.config}/git/ignore\""
                         " core.excludesFile");
    add_printed(ignores, "git rev-parse --git-path info/exclude");
    char path[ROOM] = "";
    walk(ignores, path, 0);
    osb_ignores_free(ignores);
    return fflush(stdout) != 0;
}
