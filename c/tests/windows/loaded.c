/* What Windows makes of the library when it loads it, in this program and in the DLL that its argument names: the page of
 * the exports that are chosen is read-only, as it is once one is chosen, and a walk of the stack goes through a proved function. */
#include "osbytes.h"

#include <stdio.h>
#include <windows.h>

/* Whether a page of a module's writable data, and no more, is read-only. */
static bool has_page(char *module) {
    const IMAGE_NT_HEADERS *head = (void *)(module + ((IMAGE_DOS_HEADER *)module)->e_lfanew);
    const IMAGE_SECTION_HEADER *part = IMAGE_FIRST_SECTION(head);
    size_t found = 0;
    for (int i = 0; i < head->FileHeader.NumberOfSections; i++, part++) {
        MEMORY_BASIC_INFORMATION region;
        if ((part->Characteristics & IMAGE_SCN_MEM_WRITE) == 0) continue;
        char *end = module + part->VirtualAddress + part->Misc.VirtualSize;
        for (char *at = module + part->VirtualAddress; at < end; at += region.RegionSize) {
            if (VirtualQuery(at, &region, sizeof region) == 0) return false;
            size_t left = (size_t)(end - at);
            if (region.Protect == PAGE_READONLY) found += left < region.RegionSize ? left : region.RegionSize;
        }
    }
    return found == 4096;
}

int main(int count, char **words);

/* How many frames of the stack are between the next request for memory and main; negative if main isn't found. */
static int frames = -1;
static bool is_awaited;
void *__real_malloc(size_t len);

void *__wrap_malloc(size_t len) {
    void *at[64];
    int all = is_awaited ? CaptureStackBackTrace(0, 64, at, NULL) : 0;
    for (int i = 0; i < all; i++) {
        DWORD64 module;
        RUNTIME_FUNCTION *found = RtlLookupFunctionEntry((DWORD64)at[i], &module, NULL);
        if (found != NULL && (char *)module + found->BeginAddress == (char *)main) frames = i;
    }
    is_awaited = false;
    return __real_malloc(len);
}

static int said(const char *what, bool is_so) {
    printf("%s: %s\n", what, is_so ? "right" : "wrong");
    return is_so ? 0 : 1;
}

int main(int count, char **words) {
    char out[100];
    size_t len;
    HMODULE dll = LoadLibraryA(count > 1 ? words[1] : "");
    is_awaited = true;
    osb_status status = osb_path_join(OSB_WINDOWS, "C:\\a", 4, "b", 1, out, sizeof out, &len);
    int wrong = said("a walk of the stack", status == OSB_OK && frames > 0 && frames < 20);
    wrong += said("the program's table", has_page((char *)GetModuleHandleA(NULL)));
    wrong += said("the table of the DLL", dll != NULL && has_page((char *)dll));
    return wrong;
}
