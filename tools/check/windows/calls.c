/* What calls of Windows return, one call per line.
 *
 * usage: calls.exe FILE
 *
 * A line of FILE is the word of a call and its strings, with a tabulator between. A string is UTF-16, four hexadecimal
 * digits per unit, or "-" if it is empty. For each line this program prints one: a string in such digits, or "!" and
 * an error.
 *
 *   cwd PATH             SetCurrentDirectoryW
 *   env NAME VALUE       SetEnvironmentVariableW
 *   opened PATH          RtlDosPathNameToNtPathName_U: the name that CreateFileW opens
 *   full PATH            GetFullPathNameW
 *   device PATH          RtlIsDosDeviceName_U: the part of the path that names a device
 *   folder PATH          CreateDirectoryW
 *   file PATH            CreateFileW of a new file: its final name. The file is removed.
 */
#define _WIN32_WINNT 0x0602
#include <windows.h>
#include <winternl.h>
#include <stdio.h>
#include <stdlib.h>
#include <string.h>

#define MOST_UNITS 32768

typedef BOOLEAN(WINAPI *NtPathName)(PCWSTR, UNICODE_STRING *, PWSTR *, void *);
typedef ULONG(WINAPI *DeviceName)(PCWSTR);

static char line[MOST_UNITS * 8 + 64];
static WCHAR first[MOST_UNITS], second[MOST_UNITS], made[MOST_UNITS];
static NtPathName nt_path_name;
static DeviceName device_name;

static void print_units(const WCHAR *at, size_t length) {
    if (length == 0)
        printf("-");
    for (size_t i = 0; i < length; i++)
        printf("%04x", at[i]);
    printf("\n");
}

static void print_error(unsigned long error) { printf("!%lu\n", error); }

static void print_outcome(BOOL is_done) {
    if (is_done)
        printf("1\n");
    else
        print_error(GetLastError());
}

static void read_units(const char *digits, WCHAR *to) {
    size_t length = strcmp(digits, "-") == 0 ? 0 : strlen(digits) / 4;
    for (size_t i = 0; i < length && i < MOST_UNITS - 1; i++) {
        char unit[5] = {digits[4 * i], digits[4 * i + 1], digits[4 * i + 2], digits[4 * i + 3], 0};
        to[i] = (WCHAR)strtoul(unit, NULL, 16);
    }
    to[length] = 0;
}

static void opened(const WCHAR *path) {
    UNICODE_STRING name = {0};
    if (nt_path_name(path, &name, NULL, NULL)) {
        print_units(name.Buffer, name.Length / sizeof(WCHAR));
        RtlFreeUnicodeString(&name);
    } else {
        print_error(0);
    }
}

static void full(const WCHAR *path) {
    DWORD length = GetFullPathNameW(path, MOST_UNITS, made, NULL);
    if (length > 0 && length < MOST_UNITS)
        print_units(made, length);
    else
        print_error(GetLastError());
}

/* RtlIsDosDeviceName_U returns the length of the name in its low half and the name's place in its high half, in bytes. */
static void device(const WCHAR *path) {
    ULONG found = device_name(path);
    if (found)
        print_units(path + (found >> 16) / sizeof(WCHAR), (found & 0xffff) / sizeof(WCHAR));
    else
        print_error(0);
}

static void file(const WCHAR *path) {
    HANDLE opened_file = CreateFileW(
        path, GENERIC_WRITE | DELETE, FILE_SHARE_DELETE, NULL, CREATE_NEW, FILE_FLAG_DELETE_ON_CLOSE, NULL);
    if (opened_file == INVALID_HANDLE_VALUE) {
        print_error(GetLastError());
        return;
    }
    if (GetFileType(opened_file) != FILE_TYPE_DISK) {
        printf("device\n");
    } else {
        DWORD length = GetFinalPathNameByHandleW(opened_file, made, MOST_UNITS, FILE_NAME_NORMALIZED | VOLUME_NAME_DOS);
        if (length > 0 && length < MOST_UNITS)
            print_units(made, length);
        else
            print_error(GetLastError());
    }
    CloseHandle(opened_file);
}

static void call(const char *word) {
    if (strcmp(word, "cwd") == 0)
        print_outcome(SetCurrentDirectoryW(first));
    else if (strcmp(word, "env") == 0)
        print_outcome(SetEnvironmentVariableW(first, second));
    else if (strcmp(word, "opened") == 0)
        opened(first);
    else if (strcmp(word, "full") == 0)
        full(first);
    else if (strcmp(word, "device") == 0)
        device(first);
    else if (strcmp(word, "folder") == 0)
        print_outcome(CreateDirectoryW(first, NULL));
    else if (strcmp(word, "file") == 0)
        file(first);
    else
        print_error(0);
}

int main(int argc, char **argv) {
    FILE *calls = argc == 2 ? fopen(argv[1], "rb") : NULL;
    HMODULE ntdll = GetModuleHandleA("ntdll.dll");
    nt_path_name = (NtPathName)(void *)GetProcAddress(ntdll, "RtlDosPathNameToNtPathName_U");
    device_name = (DeviceName)(void *)GetProcAddress(ntdll, "RtlIsDosDeviceName_U");
    if (!calls || !nt_path_name || !device_name)
        return 2;
    while (fgets(line, sizeof line, calls)) {
        line[strcspn(line, "\r\n")] = 0;
        char *strings[2] = {"-", "-"};
        char *left = strchr(line, '\t');
        for (int i = 0; left && i < 2; i++) {
            *left = 0;
            strings[i] = left + 1;
            left = strchr(strings[i], '\t');
        }
        read_units(strings[0], first);
        read_units(strings[1], second);
        call(line);
    }
    return 0;
}
