/* Prints the paths of its input, each of which a 0 ends, that match a pattern: find . -print0 | matching '*.c' '*.h' */
#include <osbytes.h>
#include <stdio.h>
#include <stdlib.h>
#include <string.h>

static osb_view patterns[64], paths[256];
static bool matched[256];

int main(int argc, char **words) {
    size_t len = 0, room = 1 << 16, count = argc > 64 ? 64 : argc > 1 ? (size_t)argc - 1 : 0;
    for (size_t i = 0; i < count; i++) patterns[i] = (osb_view){words[i + 1], strlen(words[i + 1])};
    osb_globs *globs;
    osb_status status = osb_globs_new(OSB_UNIX, 0, patterns, count, &globs, NULL);
    if (status != OSB_OK) return fprintf(stderr, "%s\n", osb_status_text(status)), 2;

    char *text = malloc(room);
    for (size_t more = 1; text != NULL && more != 0; len += more) {
        if (len == room) text = realloc(text, room *= 2);
        more = text == NULL ? 0 : fread(text + len, 1, room - len, stdin);
    }
    if (text == NULL) return fprintf(stderr, "out of memory\n"), 1;

    /* without the last 0, after which there is no path */
    if (len != 0 && text[len - 1] == 0) len--;
    osb_split split;
    status = len == 0 ? OSB_ENDED : osb_split_start(&split, text, len, "\0", 1);
    while (status == OSB_OK && (status = osb_split_fill(&split, paths, 256, &count)) == OSB_OK) {
        status = osb_globs_matches(globs, paths, count, matched);
        for (size_t i = 0; status == OSB_OK && i < count; i++)
            if (matched[i]) printf("%.*s%c", (int)paths[i].len, paths[i].at, 0);
    }
    free(text);
    osb_globs_free(globs);
    return status == OSB_ENDED && fflush(stdout) == 0 ? 0 : 1;
}
