/* Prints each name from outside as a path below /srv/files, or why there is none. */
#include <osbytes.h>
#include <stdio.h>
#include <string.h>

int main(int count, char **words) {
    const char base[] = "/srv/files";
    for (int i = 1; i < count; i++) {
        char path[4096];
        size_t len;
        osb_status status = osb_path_join_checked(OSB_UNIX, base, strlen(base), words[i], strlen(words[i]),
                                                  path, sizeof path, &len, NULL);
        if (status == OSB_OK) printf("%.*s\n", (int)len, path);
        else printf("%s: %s\n", words[i], osb_status_text(status));
    }
    return 0;
}
