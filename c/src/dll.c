/* The entry of osbytes.dll, in place of a C runtime's start-up code: it calls the functions that levels.h leaves in the
 * section .CRT$XCL, as such code does. So the DLL imports what the library calls and nothing more. */
#include <windows.h>

typedef void function(void);

/* The linker sorts the sections by their names, so the functions are between these two. */
__attribute__((section(".CRT$XCA"), used)) static function *const first = NULL;
__attribute__((section(".CRT$XCZ"), used)) static function *const last = NULL;

BOOL WINAPI osb_dll_start(HINSTANCE dll, DWORD reason, LPVOID reserved) {
    (void)dll;
    (void)reserved;
    if (reason != DLL_PROCESS_ATTACH) return TRUE;
    for (function *const volatile *at = &first + 1; at < (function *const volatile *)&last; at++)
        if (*at != NULL) (*at)();
    return TRUE;
}
