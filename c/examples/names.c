/* Prints the names in a folder that match a pattern, each on one line: names src '*.[ch]' */
#include <dirent.h>
#include <osbytes.h>
#include <stdio.h>
#include <string.h>

int main(int count, char **words) {
    const char *given = count > 2 ? words[2] : "*";
    const osb_view pattern = {given, strlen(given)};
    osb_globs *globs;
    osb_status status = osb_globs_new(OSB_UNIX, OSB_GLOB_SLASH, &pattern, 1, &globs, NULL);
    if (status != OSB_OK) return fprintf(stderr, "%s\n", osb_status_text(status)), 2;
    DIR *folder = opendir(count > 1 ? words[1] : ".");
    struct dirent *entry;
    while (folder != NULL && (entry = readdir(folder)) != NULL) {
        char text[6 * sizeof entry->d_name];
        const char *name = entry->d_name;
        size_t len;
        if (osb_globs_is_match(globs, name, strlen(name)) == 1 &&
            osb_escape_line(OSB_UNIX, name, strlen(name), text, sizeof text, &len, NULL) == OSB_OK)
            printf("%.*s\n", (int)len, text);
    }
    osb_globs_free(globs);
    return folder == NULL || closedir(folder) != 0;
}
