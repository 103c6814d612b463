// Runs between a program and the C library: counts the requests for memory, refuses the one whose number is in
// REFUSED_REQUEST, or all from that in REFUSED_FROM on, and writes to the file COUNTS how many bytes were requested,
// and for each request its kind, its size, and a number for the calls that made it.
#define _GNU_SOURCE
#include <dlfcn.h>
#include <errno.h>
#include <fcntl.h>
#include <link.h>
#include <stdint.h>
#include <stdio.h>
#include <stdlib.h>
#include <unistd.h>

// NEAR: the number of words of the stack that are examined.
enum { LISTED = 1 << 16, NEAR = 64 };

static unsigned long requests, bytes, refused, refused_from;
static struct {
    char kind;
    size_t size;
    uint32_t calls;
} list[LISTED];
static const unsigned char *text, *text_end;

// The code of the program, which is the first that is listed.
static int find_text(struct dl_phdr_info *info, size_t size, void *unused) {
    (void)size, (void)unused;
    for (int i = 0; i < info->dlpi_phnum; i++) {
        if (info->dlpi_phdr[i].p_type != PT_LOAD || !(info->dlpi_phdr[i].p_flags & PF_X)) continue;
        text = (const unsigned char *)(info->dlpi_addr + info->dlpi_phdr[i].p_vaddr);
        text_end = text + info->dlpi_phdr[i].p_memsz;
    }
    return 1;
}

// Whether a call instruction of the program ends here: of a distance, a register or a word of memory.
static int follows_call(const unsigned char *at) {
    if (at < text + 6 || at >= text_end) return 0;
    return at[-5] == 0xe8 || (at[-2] == 0xff && (at[-1] & 0x38) == 0x10) || (at[-6] == 0xff && at[-5] == 0x15);
}

// The return addresses on the stack near its top. Those that an earlier call left there count too, so
// requests from one place may get different numbers.
static uint32_t calls(void) {
    const unsigned char *const *word = __builtin_frame_address(0);
    uint32_t number = 0;
    for (int i = 0; i < NEAR; i++) {
        if (follows_call(word[i])) number = number * 16777619u + (uint32_t)(word[i] - text);
    }
    return number;
}

__attribute__((constructor)) static void begin(void) {
    const char *word = getenv("REFUSED_REQUEST");
    refused = word ? strtoul(word, NULL, 10) : 0;
    word = getenv("REFUSED_FROM");
    refused_from = word ? strtoul(word, NULL, 10) : 0;
    requests = bytes = 0;
    dl_iterate_phdr(find_text, NULL);
}

static int is_refused(char kind, size_t size) {
    if (requests < LISTED) {
        list[requests].kind = kind;
        list[requests].size = size;
        list[requests].calls = calls();
    }
    requests += 1;
    bytes += size;
    if (requests != refused && (refused_from == 0 || requests < refused_from)) return 0;
    errno = ENOMEM;
    return 1;
}

#define NEXT(name) \
    static __typeof__(&name) next; \
    if (!next) next = (__typeof__(&name))dlsym(RTLD_NEXT, #name)

void *malloc(size_t size) {
    NEXT(malloc);
    return is_refused('m', size) ? NULL : next(size);
}

void *realloc(void *old, size_t size) {
    NEXT(realloc);
    return is_refused('r', size) ? NULL : next(old, size);
}

void *aligned_alloc(size_t align, size_t size) {
    NEXT(aligned_alloc);
    return is_refused('a', size) ? NULL : next(align, size);
}

int posix_memalign(void **to, size_t align, size_t size) {
    NEXT(posix_memalign);
    return is_refused('p', size) ? ENOMEM : next(to, align, size);
}

__attribute__((destructor)) static void end(void) {
    unsigned long counted = requests, size = bytes;
    int file = open(getenv("COUNTS"), O_WRONLY);
    if (file < 0 || counted > LISTED || dprintf(file, "%lu", size) < 0) _exit(99);
    for (unsigned long i = 0; i < counted; i++) {
        if (dprintf(file, " %c%zu/%x", list[i].kind, list[i].size, list[i].calls) < 0) _exit(99);
    }
}
