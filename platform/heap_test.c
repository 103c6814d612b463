/* What heap.test.mjs calls of heap_of_module.c besides its exports: rattle_alloc and rattle_realloc, whose results are
 * structs, and the memcpy and memset that the library would have. */
typedef unsigned long size_t;
typedef unsigned char byte;
struct tried { _Bool ok; void *p; };
struct tried rattle_alloc(size_t n, size_t align);
struct tried rattle_realloc(void *p, size_t kept, size_t n, size_t align);
void rattle_dealloc(void *p);

__asm__(".export_name try_alloc, try_alloc\n.export_name try_realloc, try_realloc\n.export_name dealloc, dealloc\n"
        ".export_name is_valid, is_valid");

/* Null if it was refused. The address of a refused request is not null either; is_valid says which it is. */
void *try_alloc(size_t n, size_t align) {
    const struct tried it = rattle_alloc(n, align);
    return it.ok ? it.p : 0;
}

void *try_realloc(void *p, size_t kept, size_t n, size_t align) {
    const struct tried it = rattle_realloc(p, kept, n, align);
    return it.ok ? it.p : 0;
}

void dealloc(void *p) { rattle_dealloc(p); }

int is_valid(size_t n) { return rattle_alloc(n, 1).p != 0; }
