#include "memory.h"

#include <stdlib.h>

#ifdef __GLIBC__

extern void *__libc_malloc(size_t size);
extern void *__libc_realloc(void *at, size_t size);
extern void __libc_free(void *at);

static __thread long left, blocks;

static int is_refused(void) { return left > 0 && --left == 0; }

void *malloc(size_t size) {
    if (is_refused()) return NULL;
    blocks++;
    return __libc_malloc(size);
}

void *realloc(void *at, size_t size) {
    if (!at) return malloc(size);
    return is_refused() ? NULL : __libc_realloc(at, size);
}

void free(void *at) {
    blocks -= at != NULL;
    __libc_free(at);
}

int can_refuse(void) { return 1; }
void refuse(long request) { left = request; }
long waiting(void) { return left; }
long held(void) { return blocks; }

#else

int can_refuse(void) { return 0; }
void refuse(long request) { (void)request; }
long waiting(void) { return 0; }
long held(void) { return 0; }

#endif
