/* Prints what of each path follows a base, as words of a shell: below --base /usr /usr/lib '/usr/my file' */
#include <osbytes.h>
#include <stdio.h>
#include <stdlib.h>
#include <string.h>

static int fail(const char *why) {
    fprintf(stderr, "below: %s\nusage: below [--base BASE] PATH ..\n", why);
    return 2;
}

int main(int count, char **words) {
    size_t len = count > 1 ? (size_t)count - 1 : 0, found = 0, room = 0;
    osb_view *given = calloc(len + 1, sizeof *given), *rests = calloc(len + 1, sizeof *rests);
    if (given == NULL || rests == NULL) return fail("out of memory");
    for (size_t i = 0; i < len; i++) given[i] = (osb_view){words[i + 1], strlen(words[i + 1])};

    osb_options options;
    osb_option option;
    osb_view base = {"", 0};
    osb_status status = osb_options_start(&options, given, len, 0);
    while (status == OSB_OK && (status = osb_options_next(&options, &option)) == OSB_OK) {
        if (osb_option_is(&option, 'b', "base") == 1) {
            status = osb_options_value(&options, &base);
        } else if (option.kind != OSB_OPERAND) {
            return fail("unknown option");
        } else {
            osb_status is_below = osb_path_strip_prefix(OSB_UNIX, option.text.at, option.text.len,
                                                        base.at, base.len, &rests[found]);
            found += is_below == OSB_OK;
            if (is_below != OSB_OK && is_below != OSB_NONE) return fail(osb_status_text(is_below));
        }
    }
    if (status != OSB_ENDED) return fail(osb_status_text(status));

    /* With room 0 the call returns how much room the line takes. */
    status = osb_shell_join(rests, found, NULL, 0, &room, NULL, NULL);
    char *line = status == OSB_OK || status == OSB_NO_ROOM ? malloc(room + 1) : NULL;
    if (line == NULL) return fail("out of memory");
    status = osb_shell_join(rests, found, line, room, &len, NULL, NULL);
    if (status != OSB_OK) return fail(osb_status_text(status));
    line[len] = '\n';
    bool is_written = fwrite(line, 1, len + 1, stdout) == len + 1 && fflush(stdout) == 0;
    free(line);
    free(rests);
    free(given);
    return is_written ? 0 : 1;
}
