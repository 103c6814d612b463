/* Measures what each call takes for 1 MiB that a sender chose, and for 1 KiB. Prints the most of each; the status is 0 where all
 * of this holds:
 *
 * - Chosen keys: at most five times what harmless keys take, either with the same bytes as values, or integers alone.
 * - Nesting and other shapes, without keys that matter: at most 20 times what harmless keys or small integers take. Nested
 *   arrays have a container in each byte, and nested maps in each two. A container takes the same work at any depth and in
 *   input of any length: in canonical bytes, 72 instructions an array and 188 a map of one pair, next to 20 a byte of harmless keys.
 * - Each of these: a MiB takes at most 2.5 times as long as four quarters of it, so nothing is quadratic.
 * - 1 KiB: at most a millisecond more than its check.
 *
 * Other processes may run as well. So a time is the processor time of this process, the least of some turns; and what is not
 * fair is measured again, next to what it is compared with. */
#include "options.h"

#include <naltvigo_checker.h>
#include <naltvigo_values.h>
#include <stdio.h>
#include <stdlib.h>
#include <string.h>
#include <time.h>

enum { MIB = 1 << 20, SPACE = 4 * MIB, CALLS = 12 };

static const char *const names[CALLS] = {"check_valid", "canonicalise", "compare",         "diagnostic",     "explain",
                                         "next_valid",  "machine_feed", "check_canonical", "next_canonical", "index", "find", "checker_feed"};
/* The first call that takes canonical bytes alone. */
enum { CHECK = 0, CANONICAL = 7 };
/* How many times as long as harmless bytes others may take. */
enum { BY_KEYS = 5, BY_SHAPE = 20 };

static uint8_t *in, *own, *out;
static size_t length, own_length;
static struct naltvigo_item *items;

#define ALL OPTIONS(0, 1024, SPACE)

/* ---- what a sender chose ---- */

static void put(const void *bytes, size_t count, size_t times) {
    for (; times; times--, length += count) memcpy(in + length, bytes, count);
}

static void put_head(uint32_t kind, uint64_t number) {
    size_t needed;
    naltvigo_put_head(kind, number, in + length, 9, &needed);
    length += needed;
}

/* A text of this many x and eight digits. */
static void put_text(size_t start, unsigned number) {
    char digits[9];
    snprintf(digits, sizeof digits, "%08u", number);
    put_head(NALTVIGO_TEXT, start + 8), put("x", 1, start), put(digits, 8, 1);
}

/* What a family has as keys. */
static void put_key(int family, unsigned number, unsigned count) {
    switch (family) {
    case 0: put_head(NALTVIGO_UNSIGNED, count - number); break;
    case 1: put_text(1000, number); break;
    case 2: put_text(60000, number); break;
    case 3: put("\xa1", 1, 200), put_head(NALTVIGO_UNSIGNED, number), put("\0", 1, 200); break;
    case 4: put("\x81", 1, 250), put_head(NALTVIGO_UNSIGNED, number); break;
    case 5: put("\x84\0\1\2", 4, 1), put_head(NALTVIGO_UNSIGNED, number); break;
    default: put("\x5f", 1, 1), put("\x41\0", 2, 10), put_head(NALTVIGO_BYTES, 4), put(&number, 4, 1), put("\xff", 1, 1);
    }
}

/* In harmless bytes it is the value, and the keys are spread over all integers. */
static void put_pair(int family, int is_harmless, unsigned number, unsigned count) {
    if (is_harmless) put_head(NALTVIGO_UNSIGNED, number * UINT64_C(0x9e3779b97f4a7c15));
    put_key(family, number, count);
    if (!is_harmless) put("\0", 1, 1);
}

static void make_map(int family, int is_harmless, size_t size) {
    length = 0, put_pair(family, is_harmless, 1, 1 << 20);
    const unsigned count = (unsigned)(size / length);
    length = 0, put_head(NALTVIGO_MAP, count);
    for (unsigned i = 0; i < count; i++) put_pair(family, is_harmless, i, count);
}

enum { MAPS = 7, FAMILIES = 12 };

/* The families after the maps have no keys that matter; the first of them is harmless. */
static void make(int family, int is_harmless, size_t size) {
    if (family < MAPS) {
        make_map(family, is_harmless, size);
        return;
    }
    length = 0;
    switch (family) {
    case MAPS: put_head(NALTVIGO_ARRAY, size), put("\0", 1, size); break;
    case 8:
        put_head(NALTVIGO_ARRAY, size / 251);
        for (size_t i = 0; i < size / 251; i++) put("\x81", 1, 250), put("\0", 1, 1);
        break;
    case 9:
        put("\x9f", 1, 1);
        for (size_t i = 0; i < size / 2001; i++) put("\xa1\0", 2, 1000), put("\0", 1, 1);
        put("\xff", 1, 1);
        break;
    case 10: put("\x7f", 1, 1), put("\x61x", 2, size / 2), put("\xff", 1, 1); break;
    default: put("\x9f", 1, 1), put("\xbf\0\xc1\xc1\0\xff", 6, size / 6), put("\xff", 1, 1);
    }
}

/* ---- the calls ---- */

/* Each item of a sequence: the input, which is one, or from its second byte on. */
static size_t in_turn(int is_canonical, const uint8_t *bytes, size_t count) {
    struct naltvigo_refusal why;
    uint64_t taken;
    size_t at = 0, found = 0;
    while (at < count && (is_canonical ? naltvigo_next_canonical(bytes + at, count - at, ALL, &taken, &why)
                                       : naltvigo_next_valid(bytes + at, count - at, ALL, &taken, &why)) == NALTVIGO_OK)
        at += (size_t)taken, found++;
    return found;
}

static void events(void) {
    static struct naltvigo_machine machine;
    struct naltvigo_event space[64];
    struct naltvigo_refusal why;
    size_t used, reported, at = 0;
    naltvigo_machine_start(ALL, &machine);
    while (naltvigo_machine_feed(&machine, in + at, length - at, &used, space, 64, &reported, &why) == NALTVIGO_EVENT) at += used;
}

/* In small parts, so that a call that copies what it keeps takes too long. */
static void check_parts(void) {
    struct naltvigo_checker checker;
    struct naltvigo_refusal why;
    size_t used, at;
    if (naltvigo_checker_new(ALL, &checker) != NALTVIGO_OK) exit(2);
    for (at = 0; at < own_length; at += used)
        if (naltvigo_checker_feed(&checker, own + at, own_length - at < 64 ? own_length - at : 64, &used, &why) != NALTVIGO_MORE) break;
    naltvigo_checker_free(&checker);
}

static void work(int call) {
    struct naltvigo_refusal why = {NALTVIGO_TRAILING, length, length};
    size_t needed;
    uint32_t side;
    switch (call) {
    case 0: naltvigo_check_valid(in, length, ALL, &why); break;
    case 1: naltvigo_canonicalise(in, length, ALL, out, SPACE, &needed, &why); break;
    case 2: naltvigo_compare(in, length, own, own_length, ALL, &side, &why); break;
    case 3: naltvigo_diagnostic(in, length, ALL, (char *)out, SPACE, &needed, &why); break;
    case 4: naltvigo_explain(in, length, ALL, &why, (char *)out, SPACE, &needed); break;
    case 5: in_turn(0, in, length); break;
    case 6: events(); break;
    case 7: naltvigo_check_canonical(own, own_length, ALL, &why); break;
    case 8: in_turn(1, own, own_length); break;
    case 9: naltvigo_index(own, own_length, ALL, items, SPACE, &needed, &why); break;
    case 10: naltvigo_find(own, own_length, 0, (const uint8_t *)"\xf7", 1, &items[0]); break;
    default: check_parts();
    }
}

/* The least processor time of some turns, in seconds. */
static double time_of(int call, int turns) {
    double least = 1e9;
    for (; turns; turns--) {
        const clock_t begin = clock();
        work(call);
        const double time = (double)(clock() - begin) / CLOCKS_PER_SEC;
        if (time < least) least = time;
    }
    return least;
}

static int is_made(int family, int is_harmless, size_t size) {
    struct naltvigo_refusal why;
    make(family, is_harmless, size);
    return naltvigo_canonicalise(in, length, ALL, own, SPACE, &own_length, &why) == NALTVIGO_OK;
}

/* ---- what is compared ---- */

/* The milliseconds for 1 MiB of each call, the least of some turns, measured with bytes of this size. */
static int costs_of(int family, int is_harmless, size_t size, int turns, double *costs) {
    if (!is_made(family, is_harmless, size)) return 0;
    for (int call = 0; call < CALLS; call++)
        costs[call] = 1e3 * time_of(call, turns) * MIB / (double)(call < CANONICAL ? length : own_length);
    return 1;
}

/* The greater of both costs of each call. */
static int dearer_of(int family, int is_harmless, int turns, double *costs) {
    double more[CALLS];
    if (!costs_of(family, is_harmless, MIB, turns, more)) return 0;
    for (int call = 0; call < CALLS; call++)
        if (more[call] > costs[call]) costs[call] = more[call];
    return 1;
}

struct costs {
    double chosen[CALLS], quarter[CALLS], harmless[CALLS];
};

static int measure(int family, int turns, struct costs *costs) {
    return costs_of(0, 1, MIB, turns, costs->harmless) && dearer_of(family < MAPS ? family : MAPS, family < MAPS, turns, costs->harmless) &&
           costs_of(family, 0, MIB, turns, costs->chosen) && costs_of(family, 0, MIB / 4, turns, costs->quarter);
}

/* What takes a tenth of harmless bytes is too short to be compared with its quarter. */
static int is_fair(const struct costs *costs, int family, int call) {
    const double chosen = costs->chosen[call], harmless = costs->harmless[call];
    return chosen <= (family < MAPS ? BY_KEYS : BY_SHAPE) * harmless && chosen <= 2.5 * costs->quarter[call] + harmless / 10;
}

static int is_family_fair(int family, struct costs *costs) {
    int faults = CALLS;
    for (int turns = 2; faults && turns < 20; turns *= 3) { /* again if other processes disturbed it */
        faults = 0;
        if (!measure(family, turns, costs)) return puts("WRONG: refused"), 0;
        for (int call = 0; call < CALLS; call++) faults += !is_fair(costs, family, call);
    }
    for (int call = 0; call < CALLS; call++)
        if (!is_fair(costs, family, call))
            printf("WRONG: %s of family %d: %.1f ms, a quarter for 1 MiB %.1f ms, harmless %.1f ms\n", names[call], family,
                   costs->chosen[call], costs->quarter[call], costs->harmless[call]);
    return !faults;
}

static int a_mebibyte(void) {
    static struct costs costs[FAMILIES];
    int is_well = 1;
    for (int family = 0; family < FAMILIES; family++) is_well &= is_family_fair(family, &costs[family]);
    for (int call = 0; call < CALLS; call++) {
        double most[2] = {0};
        for (int family = 0; family < FAMILIES; family++) {
            const double ratio = costs[family].chosen[call] / costs[family].harmless[call];
            if (ratio > most[family >= MAPS]) most[family >= MAPS] = ratio;
        }
        printf("%s: 1 MiB of chosen keys takes at most %.1f times as long as harmless ones, of another shape %.1f times\n", names[call], most[0], most[1]);
    }
    return is_well;
}

/* A millisecond; or on a slower processor, what takes one here: 100 checks of 1,000 arrays. */
static double millisecond(void) {
    struct naltvigo_refusal why;
    double least = 1e9;
    length = 0, put("\x81", 1, 1000), put("\0", 1, 1);
    for (int turn = 0; turn < 5; turn++) {
        const clock_t begin = clock();
        for (int i = 0; i < 100; i++) naltvigo_check_valid(in, length, ALL, &why);
        const double time = 1e3 * (double)(clock() - begin) / CLOCKS_PER_SEC;
        if (time < least) least = time;
    }
    return least > 1 ? least : 1;
}

static int a_kibibyte(void) {
    double most = 0;
    int is_well = 1;
    for (int family = 0; family < FAMILIES; family++) {
        if (family == 1 || family == 2) continue; /* one key alone is longer */
        const double allowed = millisecond();
        is_well &= is_made(family, 0, 1000);
        const double check = time_of(CHECK, 50);
        for (int call = 0; call < CALLS; call++) {
            const double beyond = 1e3 * (time_of(call, 50) - check);
            if (beyond > most) most = beyond;
            if (beyond <= allowed) continue;
            printf("WRONG: %s of family %d: 1 KiB takes %.2f ms more than its check\n", names[call], family, beyond);
            is_well = 0;
        }
    }
    printf("1 KiB: at most %.3f ms more than its check\n", most);
    return is_well;
}

int main(void) {
    in = malloc(SPACE), own = malloc(SPACE), out = malloc(SPACE), items = malloc(SPACE * sizeof *items);
    if (!in || !own || !out || !items) return puts("out of memory"), 1;
    return !(a_mebibyte() & a_kibibyte());
}
