/* Memory in a WebAssembly module: the three functions that a Rattle static library calls for it, and two by which
 * JavaScript gets blocks for its bytes. They return what the kit's libc/src/heap.rt says of the three. This is not proved;
 * platform/heap.test.mjs tests it.
 *
 * A block is a header of 16 bytes and then a power of two bytes, at least 16. A released block waits for the next request
 * of its size. So a request uses at most twice its size and 16 bytes more. The memory is the module's own, after
 * its stack and its data, and grows when needed; the module never gives it back.
 *
 * Compiled for 64-bit addresses; build_web.sh lowers one of its two modules to 32 bits, with this in it. */
typedef unsigned long size_t;
typedef unsigned char byte;

struct tried { _Bool ok; void *p; };               /* libc::types::Tried */
struct block { size_t size; struct block *next; }; /* the header; `next` of a block that waits */

_Static_assert(sizeof(size_t) == 8 && sizeof(void *) == 8 && sizeof(struct block) == 16, "64-bit addresses");

#define PAGE 65536ul
#define SMALLEST 4
#define LARGEST 31

extern byte __heap_base;
static byte *top;                          /* the first byte that no block has */
static struct block *waiting[LARGEST + 1]; /* released blocks of 2^i bytes */
static byte nothing;                       /* what `p` points to if `ok` is false, since it may not be null */

/* Whether the memory reaches up to an address; if not, it grows. The result of memory.grow is not read: what
 * binaryen 108 makes of it for 32 bits is not -1 if it fails. */
static _Bool reaches(size_t end) {
    const size_t have = __builtin_wasm_memory_size(0) * PAGE;
    if (end <= have) return 1;
    __builtin_wasm_memory_grow(0, (end - have + PAGE - 1) / PAGE);
    return end <= __builtin_wasm_memory_size(0) * PAGE;
}

static struct block *new_block(size_t size) {
    struct block *it;
    if (!top) top = (byte *)(((size_t)&__heap_base + 15) & ~15ul);
    it = (struct block *)top;
    if (!reaches((size_t)top + sizeof *it + size)) return 0;
    top += sizeof *it + size;
    it->size = size;
    return it;
}

/* Space for n bytes, aligned to 16, or null. */
void *allocate(size_t n) {
    const unsigned i = n <= 1ul << SMALLEST ? SMALLEST : 64 - (unsigned)__builtin_clzl(n - 1);
    struct block *it;
    if (i > LARGEST) return 0;
    it = waiting[i];
    if (it) waiting[i] = it->next;
    else it = new_block(1ul << i);
    return it ? it + 1 : 0;
}

/* Releases what `allocate` returned. */
void release(void *p) {
    struct block *it = (struct block *)p - 1;
    const unsigned i = (unsigned)__builtin_ctzl(it->size);
    it->next = waiting[i];
    waiting[i] = it;
}

/* Exported by the directive, since the attribute export_name has a table of functions made, of 64-bit indices, which
 * Node 20 and binaryen 108 refuse. */
__asm__(".export_name allocate, allocate\n.export_name release, release");

/* IMPORTS is defined if the library was compiled for wasm64: then it imports the three from `env`, by these names. */
#ifdef IMPORTS
#define NAMED(name) __asm__("import " #name " from env")
#else
#define NAMED(name)
#endif
struct tried rattle_alloc(size_t n, size_t align) NAMED(rattle_alloc);
struct tried rattle_realloc(void *p, size_t kept, size_t n, size_t align) NAMED(rattle_realloc);
void rattle_dealloc(void *p) NAMED(rattle_dealloc);

static struct tried tried(void *p) { return (struct tried){p != 0, p ? p : &nothing}; }

struct tried rattle_alloc(size_t n, size_t align) {
    (void)align;
    return tried(allocate(n));
}

/* The first `kept` bytes stay; if there is no space for n, the block is unchanged. */
struct tried rattle_realloc(void *p, size_t kept, size_t n, size_t align) {
    byte *to;
    (void)align;
    if (n <= ((struct block *)p - 1)->size) return tried(p);
    to = allocate(n);
    if (!to) return tried(0);
    __builtin_memcpy(to, p, kept);
    release(p);
    return tried(to);
}

void rattle_dealloc(void *p) { release(p); }
