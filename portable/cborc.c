/* What the program asks of the system besides the C library's own functions: its arguments, the environment, errno, and the
 * calls whose flags or names differ between processors or C libraries. Linked with the program's assembly, which calls
 * them by these names. Its numbers are those of Linux on x86-64. Nothing proves this file; it is tested. */
#define _GNU_SOURCE
#include <errno.h>
#include <fcntl.h>
#include <signal.h>
#include <stdarg.h>
#include <stdint.h>
#include <stdio.h>
#include <stdlib.h>
#include <string.h>
#include <sys/syscall.h>
#include <unistd.h>

int cborc_main(int argc, char **argv);
extern const char cborc_made_from[];
extern char **environ;

static int count;
static char **words;

/* To --version it adds which sources and which kit the assembly was made from. */
int main(int argc, char **argv) {
    count = argc, words = argv;
    const int status = cborc_main(argc, argv);
    return argc == 2 && status == 0 && !strcmp(argv[1], "--version") && puts(cborc_made_from) < 0 ? 3 : status;
}

/* Copies a text without its zero byte, and returns its length: -1 where there is none, -2 where it does not fit. */
static int64_t text(const char *from, uint8_t *to, uint64_t capacity) {
    const size_t n = from ? strlen(from) : 0;
    if (!from) return -1;
    if (n > capacity) return -2;
    memcpy(to, from, n);
    return (int64_t)n;
}

int64_t cborc_rattle_arg(uint64_t i, uint8_t *to, uint64_t capacity) { return text(i < (uint64_t)count ? words[i] : NULL, to, capacity); }
int64_t cborc_rattle_env(const char *name, uint8_t *to, uint64_t capacity) { return text(getenv(name), to, capacity); }
int64_t cborc_rattle_env_at(uint64_t i, uint8_t *to, uint64_t capacity) {
    uint64_t n = 0;
    while (environ && environ[n]) n++;
    return text(i < n ? environ[i] : NULL, to, capacity);
}
int32_t cborc_rattle_errno(void) { return errno; }
void cborc_rattle_set_errno(int32_t number) { errno = number; }

/* The flags of x86-64 and those of this processor, the same bit by bit but for the last. One that is not known is refused. */
int cborc_open(const char *path, int flags, ...) {
    static const int known[][2] = {{1, O_WRONLY}, {2, O_RDWR}, {0100, O_CREAT}, {0200, O_EXCL}, {0400, O_NOCTTY}, {01000, O_TRUNC}, {02000, O_APPEND},
        {04000, O_NONBLOCK}, {0200000, O_DIRECTORY}, {0400000, O_NOFOLLOW}, {02000000, O_CLOEXEC}};
    int here = 0;
    unsigned mode = 0;
    va_list rest;
    for (size_t i = 0; i < sizeof known / sizeof *known; i++)
        if (flags & known[i][0]) flags &= ~known[i][0], here |= known[i][1];
    if (flags) return errno = EINVAL, -1;
    va_start(rest, flags);
    if (here & O_CREAT) mode = va_arg(rest, unsigned);
    va_end(rest);
    return open(path, here, mode);
}

/* musl has it since 1.2.5. */
int cborc_statx(int folder, const char *path, int flags, unsigned mask, void *found) {
    return (int)syscall(SYS_statx, folder, path, flags, mask, found);
}

/* signal as in System V, which musl's is not. */
void (*cborc_signal(int number, void (*handler)(int)))(int) {
    struct sigaction now = {.sa_flags = (int)(SA_RESETHAND | SA_NODEFER)}, before;
    now.sa_handler = handler;
    return sigaction(number, &now, &before) ? SIG_ERR : before.sa_handler;
}
