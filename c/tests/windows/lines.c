/* Lines that osb_windows_command_line writes, read by Windows: by CommandLineToArgvW, by ucrtbase.dll, which is loaded anew
 * for each line, and by the start-up code of processes that are started with them. Each reads the arguments that the
 * line was written of.
 *
 * It prints what differs. It is started with an argument of 4,000 characters, which makes room for the lines that
 * ucrtbase.dll reads as its process's own. */
#define _WIN32_WINNT 0x0602
#include "osbytes.h"

#include <stdio.h>
#include <string.h>
#include <windows.h>
#include <winternl.h>

enum { LINES = 200000, LOADS = 3000, STARTS = 100, WORDS = 5, BYTES = 200, UNITS = 4000 };

static uint64_t state = 88172645463325252u;

static size_t made_up(size_t below) {
    state ^= state << 13;
    state ^= state >> 7;
    state ^= state << 17;
    return (size_t)(state % below);
}

static const char *const pieces[] = {
    "a", "b", " ", "\t", "\"", "\\", "\\\\", "\\\"", "\"\"", "\xed\xa0\x80", "\xed\xb0\x80", "\xf0\x90\x80\x80",
    "\xc3\xa9", "\n", "\v", "^", "%", "x y", "'", "*", "?", "-x", "/y", "=",
};

static char bytes[WORDS][BYTES];
static osb_view words[WORDS];
static uint16_t line[UNITS];
static size_t count, asked, wrong;

/* Makes arguments after a program's name that the process can have, and the line of them. */
static size_t make(const char *program) {
    size_t len = 1 + made_up(WORDS);
    words[0] = (osb_view){program, strlen(program)};
    for (size_t i = 1; i < len; i++) {
        size_t end = 0;
        for (size_t left = made_up(8); left > 0; left--) {
            const char *piece = pieces[made_up(sizeof pieces / sizeof *pieces)];
            memcpy(bytes[i] + end, piece, strlen(piece));
            end += strlen(piece);
        }
        /* two halves of a pair that meet are no string of Windows */
        if (osb_check(OSB_WINDOWS, bytes[i], end, NULL) != OSB_OK) end = 0;
        words[i] = (osb_view){bytes[i], end};
    }
    if (osb_windows_command_line(words, len, line, UNITS - 1, &count, NULL, NULL, NULL) != OSB_OK) return 0;
    line[count] = 0;
    return len;
}

/* Counts whether these arguments are those of the line. */
static void expect(const char *reader, size_t len, int read, wchar_t **arguments) {
    bool is_right = arguments != NULL && (size_t)read == len;
    for (size_t i = 0; is_right && i < len; i++) {
        static char again[UNITS];
        size_t made = 0;
        is_right = osb_from_wide((uint16_t *)arguments[i], wcslen(arguments[i]), again, sizeof again, &made) == OSB_OK &&
                   made == words[i].len && memcmp(again, words[i].at, made) == 0;
    }
    asked++;
    if (is_right || wrong++ > 5) return;
    printf("%s reads %d arguments, not %zu, or others:", reader, read, len);
    for (size_t i = 0; i < count; i++) printf(" %02x", line[i]);
    puts("");
}

/* The library with CommandLineToArgvW is loaded late, since Wine's has a runtime loaded, too. */
typedef wchar_t **WINAPI reader(const wchar_t *line, int *count);
static reader *shell;

static void read_by_shell(size_t len) {
    int read = 0;
    wchar_t **arguments = shell((wchar_t *)line, &read);
    expect("CommandLineToArgvW", len, read, arguments);
    LocalFree(arguments);
}

/* The runtime reads the line of its process when it is loaded. gcc 12 takes the address of a thread's block for an array. */
#pragma GCC diagnostic ignored "-Warray-bounds"
static void read_by_runtime(size_t len) {
    UNICODE_STRING *own = &NtCurrentTeb()->ProcessEnvironmentBlock->ProcessParameters->CommandLine;
    if (count * 2 + 2 > own->MaximumLength) return;
    memcpy(own->Buffer, line, count * 2 + 2);
    own->Length = (USHORT)(count * 2);
    HMODULE runtime = LoadLibraryA("ucrtbase.dll");
    int (*configure)(int) = (int (*)(int))(void *)GetProcAddress(runtime, "_configure_wide_argv");
    int *(*argc)(void) = (int *(*)(void))(void *)GetProcAddress(runtime, "__p___argc");
    wchar_t ***(*argv)(void) = (wchar_t ***(*)(void))(void *)GetProcAddress(runtime, "__p___wargv");
    configure(1);
    expect("ucrtbase", len, *argc(), *argv());
    FreeLibrary(runtime);
}

/* The arguments of this process, which it prints for the one that started it, with a 0 after each. */
int __wgetmainargs(int *argc, wchar_t ***argv, wchar_t ***environment, int expand, int *mode);

static int print_own(void) {
    int read, mode = 0;
    wchar_t **arguments, **environment;
    DWORD written;
    __wgetmainargs(&read, &arguments, &environment, 0, &mode);
    HANDLE out = GetStdHandle(STD_OUTPUT_HANDLE);
    for (int i = 0; i < read; i++)
        WriteFile(out, arguments[i], (DWORD)(2 * wcslen(arguments[i]) + 2), &written, NULL);
    return 0;
}

static void read_by_process(size_t len) {
    static wchar_t program[MAX_PATH], said[2 * UNITS], *arguments[2 * UNITS];
    SECURITY_ATTRIBUTES heir = {sizeof heir, NULL, TRUE};
    STARTUPINFOW start = {.cb = sizeof start, .dwFlags = STARTF_USESTDHANDLES};
    PROCESS_INFORMATION made;
    HANDLE from, to;
    DWORD got, all = 0;
    int read = 0;
    if (!CreatePipe(&from, &to, &heir, 0)) return;
    start.hStdOutput = start.hStdError = to;
    GetModuleFileNameW(NULL, program, MAX_PATH);
    if (!CreateProcessW(program, (wchar_t *)line, NULL, NULL, TRUE, 0, NULL, NULL, &start, &made)) {
        wrong++;
        printf("no process was started: %lu\n", GetLastError());
        return;
    }
    CloseHandle(to);
    while (all < sizeof said && ReadFile(from, (char *)said + all, (DWORD)sizeof said - all, &got, NULL) && got != 0) all += got;
    for (size_t at = 0; at < all / 2; at += wcslen(said + at) + 1) arguments[read++] = said + at;
    expect("a process", len, read, arguments);
    WaitForSingleObject(made.hProcess, INFINITE);
    CloseHandle(from);
    CloseHandle(made.hProcess);
    CloseHandle(made.hThread);
}

int main(void) {
    if (GetEnvironmentVariableA("OSB_OWN", NULL, 0) != 0) return print_own();
    SetEnvironmentVariableA("OSB_OWN", "1");
    size_t len;
    for (int turn = 0; turn < LOADS; turn++)
        if ((len = make("a program.exe")) != 0) read_by_runtime(len);
    if (GetModuleHandleA("ucrtbase.dll") != NULL) return 2;
    for (int turn = 0; turn < STARTS; turn++)
        if ((len = make("a program.exe")) != 0) read_by_process(len);
    shell = (reader *)(void *)GetProcAddress(LoadLibraryA("shell32.dll"), "CommandLineToArgvW");
    for (int turn = 0; turn < LINES; turn++)
        if ((len = make("a program.exe")) != 0) read_by_shell(len);
    printf("lines: %zu read, %zu of them as others\n", asked, wrong);
    return asked < LINES || wrong != 0;
}
