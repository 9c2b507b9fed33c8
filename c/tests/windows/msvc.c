/* The library from an object that is compiled for MSVC: no header of MinGW, and no C runtime but the calls that the static
 * library takes. AT_START has what MSVC's runtime does before main: it calls the functions of the sections .CRT$XC*. */
#include "osbytes.h"

#define IMPORTED __declspec(dllimport)
IMPORTED void *__stdcall GetStdHandle(unsigned long which);
IMPORTED int __stdcall WriteFile(void *file, const void *at, unsigned long len, unsigned long *written, void *overlapped);
IMPORTED void __stdcall ExitProcess(unsigned status);

static void say(const char *at, size_t len) {
    unsigned long written;
    WriteFile(GetStdHandle((unsigned long)-11), at, (unsigned long)len, &written, NULL);
}

#ifdef AT_START
typedef void function(void);
__attribute__((section(".CRT$XCA"), used)) static function *const first = NULL;
__attribute__((section(".CRT$XCZ"), used)) static function *const last = NULL;

static unsigned started(void) {
    unsigned count = 0;
    for (function *const volatile *at = &first + 1; at < (function *const volatile *)&last; at++)
        if (*at != NULL) (*at)(), count++;
    return count;
}
#endif

void start(void) {
    char out[200];
    size_t len;
    osb_globs *globs;
    osb_fault fault;
    const osb_view pattern = {"*.txt", 5};
#ifdef AT_START
    if (started() != 1) ExitProcess(6);
#endif
    if (osb_escape_line(OSB_WINDOWS, "a\xed\xa0\x80.txt", 8, out, sizeof out, &len, NULL) != OSB_OK) ExitProcess(2);
    out[len++] = '\n';
    say(out, len);
    if (osb_globs_new(OSB_WINDOWS, OSB_GLOB_SLASH, &pattern, 1, &globs, NULL) != OSB_OK) ExitProcess(3);
    if (osb_globs_is_match(globs, "b.txt", 5) != 1 || osb_globs_is_match(globs, "b.tx", 4) != 0) ExitProcess(4);
    osb_globs_free(globs);
    if (osb_check(OSB_WINDOWS, "ab\xff", 3, &fault) != OSB_FAULTY || fault.index != 2 || fault.count != 1) ExitProcess(5);
    ExitProcess(0);
}
