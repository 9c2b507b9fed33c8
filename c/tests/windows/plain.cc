// The header and the library from C++, without its library: a set of patterns that is freed at the end of its scope.
#include "osbytes.h"

#include <stdio.h>

namespace {

class Patterns {
public:
    explicit Patterns(const char *pattern, size_t len) {
        const osb_view view = {pattern, len};
        if (osb_globs_new(OSB_WINDOWS, OSB_GLOB_SLASH | OSB_GLOB_BACKSLASH, &view, 1, &globs, nullptr) != OSB_OK) globs = nullptr;
    }
    Patterns(const Patterns &) = delete;
    ~Patterns() { osb_globs_free(globs); }
    bool match(const char *path, size_t len) const { return osb_globs_is_match(globs, path, len) == 1; }

private:
    osb_globs *globs;
};

}

int main() {
    const Patterns patterns("src/**/*.rs", 11);
    const bool is_right = patterns.match("src\\a\\b.rs", 10) && !patterns.match("src\\a\\b.c", 9);
    puts(is_right ? "C++: right" : "C++: wrong");
    return is_right ? 0 : 1;
}
