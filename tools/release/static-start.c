/* What a static program needs of glibc and musl lacks. It is linked into each program that the archive of the programs has.
 *
 * glibc gives a program's constructors its arguments, by which the kit keeps them, and musl doesn't. So they are kept by
 * main here, which calls the program's own, and rattle_arg and rattle_arg_count are here in place of the kit's. */
#include <cpuid.h>
#include <stddef.h>
#include <unistd.h>

static size_t count;
static char **words;

int __real_main(int argc, char **argv, char **environment);

int __wrap_main(int argc, char **argv, char **environment) {
    count = (size_t)argc;
    words = argv;
    return __real_main(argc, argv, environment);
}

size_t rattle_arg_count(void) {
    return count;
}

/* Writes an argument and returns its length, or -1 if there is none, or -2 if it doesn't fit. */
size_t rattle_arg(size_t index, unsigned char *out, size_t room) {
    if (index >= count || words[index] == NULL) return (size_t)-1;
    size_t len = 0;
    for (; words[index][len] != 0; len++) {
        if (len == room) return (size_t)-2;
        out[len] = (unsigned char)words[index][len];
    }
    return len;
}

ssize_t __write(int file, const void *bytes, size_t len) {
    return write(file, bytes, len);
}

/* What the processor has of a leaf of CPUID (EAX, EBX, ECX and EDX), and what of it can be used. */
struct leaf {
    unsigned has[4], active[4];
};

/* A program asks before its first work for the leaves 1 and 0x80000001, by the numbers 0 and 2, and ends if the processor
 * lacks what it was compiled for, x86-64-v2. Nothing of that needs the system, so what is there can be used. Of another
 * leaf nothing is said to be there. */
const struct leaf *__x86_get_cpuid_feature_leaf(unsigned number) {
    static struct leaf first, extended, none;
    struct leaf *leaf = number == 0 ? &first : number == 2 ? &extended : &none;
    unsigned *has = leaf->has;
    if (leaf != &none && __get_cpuid(number == 0 ? 1 : 0x80000001, &has[0], &has[1], &has[2], &has[3]))
        for (int i = 0; i < 4; i++) leaf->active[i] = has[i];
    return leaf;
}
