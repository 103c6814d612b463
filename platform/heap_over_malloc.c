/* The three functions that a Rattle static library calls for memory, over malloc: for targets for which the kit has no
 * code for them. They return what the kit's libc/src/heap.rt says of them; this is not proved. */
#include <stddef.h>
#include <stdlib.h>

struct tried { _Bool ok; void *p; }; /* libc::types::Tried */

static unsigned char nothing; /* what `p` points to if `ok` is false, since it may not be null */

static struct tried tried(void *p) { return (struct tried){p != NULL, p ? p : &nothing}; }

struct tried rattle_alloc(size_t n, size_t align) { return tried(malloc(n ? n : align)); }

struct tried rattle_realloc(void *p, size_t kept, size_t n, size_t align) {
    (void)kept;
    return tried(realloc(p, n ? n : align));
}

void rattle_dealloc(void *p) { free(p); }
