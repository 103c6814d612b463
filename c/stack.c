/* Measures the stack that each call needs, by painting it before the call, on items that nest to the depth that is passed
 * to the call. Prints the most in bytes, as Markdown, and fails if it is more than the header says. */
#include "options.h"

#include <naltvigo_checker.h>
#include <stdio.h>
#include <stdlib.h>
#include <string.h>

#ifdef __GNUC__
#define NOT_INLINE __attribute__((noinline))
#else
#define NOT_INLINE
#endif

/* The main thread has more on each system that this runs on; a call needs a sixteenth of this. */
enum { PAINTED = 1 << 20, PAINT = 0xa5, CALLS = 12 };

static uintptr_t lowest;

static const char *const names[CALLS] = {"canonicalise", "check_canonical", "check_valid", "next_canonical",
                                         "next_valid", "compare", "diagnostic", "index", "find", "explain",
                                         "machine_feed", "checker_feed"};
static uint8_t in[16384], out[65536];
static struct naltvigo_item items[16384];
static size_t length;
static uint32_t depth;
static int call;

/* All events of the item. The machine is not on the stack. */
static void events(void) {
    static struct naltvigo_machine machine;
    static struct naltvigo_event space[4];
    struct naltvigo_refusal why;
    size_t used, reported, at = 0;
    naltvigo_machine_start(LIMITS(depth, 1 << 20), &machine);
    while (naltvigo_machine_feed(&machine, in + at, length - at, &used, space, 4, &reported, &why) == NALTVIGO_EVENT) at += used;
}

/* All calls of a checker, which lies elsewhere too. */
static void check_parts(void) {
    static struct naltvigo_checker checker;
    struct naltvigo_refusal why;
    size_t used;
    if (naltvigo_checker_new(OPTIONS(0, depth, 1 << 20), &checker) != NALTVIGO_OK) exit(2);
    naltvigo_checker_feed(&checker, in, length / 2, &used, &why);
    naltvigo_checker_feed(&checker, in + length / 2, length - length / 2, &used, &why);
    naltvigo_checker_end(&checker, &why);
    naltvigo_checker_restart(1, &checker);
    naltvigo_checker_free(&checker);
}

/* The refusal of the item, or, if nothing is refused, its end. */
static void explain(void) {
    struct naltvigo_refusal why = {NALTVIGO_TRAILING, length, length};
    size_t needed;
    naltvigo_check_valid(in, length, LIMITS(depth, 1 << 20), &why);
    naltvigo_explain(in, length, LIMITS(depth, 1 << 20), &why, (char *)out, sizeof out, &needed);
}

static void work(void) {
    struct naltvigo_refusal why;
    size_t needed;
    uint64_t front;
    uint32_t side;
    switch (call) {
    case 0: naltvigo_canonicalise(in, length, OPTIONS(0, depth, 1 << 20), out, sizeof out, &needed, &why); break;
    case 1: naltvigo_check_canonical(in, length, OPTIONS(0, depth, 1 << 20), &why); break;
    case 2: naltvigo_check_valid(in, length, LIMITS(depth, 1 << 20), &why); break;
    case 3: naltvigo_next_canonical(in, length, OPTIONS(0, depth, 1 << 20), &front, &why); break;
    case 4: naltvigo_next_valid(in, length, LIMITS(depth, 1 << 20), &front, &why); break;
    case 5: naltvigo_compare(in, length, in, length, LIMITS(depth, 1 << 20), &side, &why); break;
    case 6: naltvigo_diagnostic(in, length, LIMITS(depth, 1 << 20), (char *)out, sizeof out, &needed, &why); break;
    case 7: naltvigo_index(in, length, OPTIONS(0, depth, 1 << 20), items, sizeof items / sizeof *items, &needed, &why); break;
    case 8: naltvigo_find(in, length, 0, (const uint8_t *)"\xf5", 1, &items[0]); break;
    case 9: explain(); break;
    case 10: events(); break;
    default: check_parts();
    }
}

static void nothing(void) {}

/* Paints the stack below its caller, and notes where the paint begins. */
static NOT_INLINE void paint(void) {
    volatile uint8_t area[PAINTED];
    for (size_t i = 0; i < PAINTED; i++) area[i] = PAINT;
    lowest = (uintptr_t)area;
}

/* The number of bytes of the paint that are left, from its lowest byte on. */
static NOT_INLINE size_t left(void) {
    const volatile uint8_t *area = (const volatile uint8_t *)lowest;
    size_t i = 0;
    while (i < PAINTED && area[i] == PAINT) i++;
    return i;
}

/* How many bytes of the stack a call of this function needs. */
static NOT_INLINE size_t written_by(void (*function)(void)) {
    paint();
    function();
    return PAINTED - left();
}

static void put(const char *bytes, size_t count, size_t times) {
    for (; times; times--, length += count) memcpy(in + length, bytes, count);
}

/* Makes an item of this shape and depth. Returns 0 if there is no such shape. */
static int make(int shape, size_t levels) {
    static const uint8_t zeros[2048];
    const size_t inner = levels ? levels - 1 : 0;
    length = 0;
    switch (shape) {
    case 0: put("\x81", 1, levels), put("\0", 1, 1); break;
    case 1: put("\xc1", 1, levels), put("\0", 1, 1); break;
    case 2: put("\xa1\0", 2, levels), put("\0", 1, 1); break;
    case 3: put("\xa1", 1, levels), put("\0", 1, levels + 1); break;
    case 4: put("\x9f", 1, levels), put("\0", 1, 1), put("\xff", 1, levels); break;
    case 5: put("\xbf\0", 2, levels), put("\0", 1, 1), put("\xff", 1, levels); break;
    case 6: put("\xbf", 1, levels), put("\0", 1, 1); for (size_t i = 0; i < levels; i++) put("\0\xff", 2, 1); break;
    case 7: put("\x81", 1, levels), put("\x79\x08\0", 3, 1), put((const char *)zeros, 2048, 1); break;
    case 8: put("\x81", 1, levels), put("\x7f\x79\x08\0", 4, 1), put((const char *)zeros, 2048, 1), put("\xff", 1, 1); break;
    case 9: put("\x81", 1, levels), put("\x59\x08\0", 3, 1), put((const char *)zeros, 2048, 1); break;
    case 10: put("\xa1", 1, levels), put("\xf9", 1, 1); break;
    case 11: put("\xa2\0", 2, levels), put("\0\0", 2, 1); break;
    /* A key of the outermost map is repeated after two deep values, and a break is deep in the third. */
    case 12:
        put("\xa3\0", 2, 1), put("\x81", 1, inner), put("\0\1", 2, 1), put("\x81", 1, inner);
        put("\0\0", 2, 1), put("\x81", 1, inner), put("\xff", 1, 1);
        break;
    default: return 0;
    }
    return 1;
}

int main(void) {
    int bad = 0;
    const size_t least = written_by(nothing);
    printf("| depth |");
    for (int i = 0; i < CALLS; i++) printf(" `%s` |", names[i]);
    printf("\n| ---: |");
    for (int i = 0; i < CALLS; i++) printf(" ---: |");
    puts("");
    static const uint32_t depths[] = {0, 16, 32, 64, 256, 1024};
    for (size_t k = 0; k < sizeof depths / sizeof *depths; k++) {
        size_t most[CALLS] = {0};
        depth = depths[k];
        for (int shape = 0; make(shape, depth); shape++)
            for (call = 0; call < CALLS; call++) {
                size_t written = written_by(work);
                written = written > least ? written - least : 0;
                if (written > most[call]) most[call] = written;
            }
        printf("| %u |", (unsigned)depth);
        for (int i = 0; i < CALLS; i++) {
            printf(" %zu |", most[i]);
            bad |= most[i] > NALTVIGO_STACK;
        }
        puts("");
    }
    if (bad) puts("WRONG: more than naltvigo.h says");
    return bad;
}
