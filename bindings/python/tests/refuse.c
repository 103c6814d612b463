/* Refuses memory on purpose: loaded before a program, it refuses the n-th request from refuse_from(n, count) on, and
 * `count` of them. Of Python with PYTHONMALLOC=malloc these are all its requests, and those of the library. */
#define _GNU_SOURCE
#include <dlfcn.h>
#include <stddef.h>

static __thread long left, refused, most;

void refuse_from(long n, long count) { left = n, most = count, refused = 0; }
long refused_count(void) {
    const long found = refused;
    left = 0;
    return found;
}

static int is_refused(void) {
    if (left <= 0) return 0;
    if (left > 1) return left--, 0;
    if (refused == most) return left = 0, 0;
    return refused++, 1;
}

void *malloc(size_t size) {
    static void *(*of_libc)(size_t);
    if (!of_libc) of_libc = (void *(*)(size_t))dlsym(RTLD_NEXT, "malloc");
    return is_refused() ? NULL : of_libc(size);
}

void *realloc(void *at, size_t size) {
    static void *(*of_libc)(void *, size_t);
    if (!of_libc) of_libc = (void *(*)(void *, size_t))dlsym(RTLD_NEXT, "realloc");
    return is_refused() ? NULL : of_libc(at, size);
}

/* dlsym calls calloc before it can find calloc. */
void *calloc(size_t count, size_t size) {
    static char early[4096];
    static size_t used;
    static void *(*of_libc)(size_t, size_t);
    static int is_looking;
    if (!of_libc && is_looking) {
        used += (count * size + 15) & ~(size_t)15;
        return used <= sizeof early ? early + used - ((count * size + 15) & ~(size_t)15) : NULL;
    }
    if (!of_libc) {
        is_looking = 1;
        of_libc = (void *(*)(size_t, size_t))dlsym(RTLD_NEXT, "calloc");
        is_looking = 0;
    }
    return is_refused() ? NULL : of_libc(count, size);
}
