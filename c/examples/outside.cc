// Prints each name from outside as a path below /srv/files, or why there is none.
#include <osbytes.h>

#include <cstdio>
#include <string>
#include <string_view>

int main(int count, char **words) {
    const std::string_view base = "/srv/files";
    for (int i = 1; i < count; i++) {
        const std::string_view name = words[i];
        std::string path(4096, '\0');
        size_t len = 0;
        const osb_status status = osb_path_join_checked(OSB_UNIX, base.data(), base.size(), name.data(), name.size(),
                                                        &path[0], path.size(), &len, nullptr);
        path.resize(status == OSB_OK ? len : 0);
        if (status == OSB_OK) std::printf("%s\n", path.c_str());
        else std::printf("%s: %s\n", words[i], osb_status_text(status));
    }
}
