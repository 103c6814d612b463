/* library FOLDER NAME..: times calls of naltvigo.h in process on FOLDER/NAME.cbor and its canonical bytes
 * FOLDER/NAME.bytewise, and compares with plain C (floor.c) and, if it is installed, libcbor; prints a row of Markdown
 * tables for each, in MB/s of processor time, the best of some calls; then the cost of a call on a small item, events, and the
 * check of canonical bytes in parts.
 * library --calls NAME ITEM MEMBERS TIMES: makes TIMES calls on a small item, or on an array of MEMBERS of it, for a
 * count of their instructions (small.py).
 * library --call NAME FOLDER DOCUMENT: makes one call on FOLDER/DOCUMENT, for a count of its instructions (parts.py). */
#define _POSIX_C_SOURCE 199309L
#include "../c/options.h"
#include "floor.h"
#include <naltvigo_checker.h>

#include <stdio.h>
#include <stdlib.h>
#include <string.h>
#include <time.h>
#ifdef HAS_LIBCBOR
#include <cbor.h>
#endif

struct bytes {
    uint8_t *at;
    size_t length;
};

static struct bytes slurp(const char *folder, const char *name, const char *ending) {
    char path[512];
    snprintf(path, sizeof path, "%s/%s.%s", folder, name, ending);
    FILE *file = fopen(path, "rb");
    if (!file) perror(path), exit(3);
    fseek(file, 0, SEEK_END);
    struct bytes it = {NULL, (size_t)ftell(file)};
    rewind(file);
    it.at = malloc(it.length + 1);
    if (!it.at || fread(it.at, 1, it.length, file) != it.length) exit(3);
    fclose(file);
    return it;
}

static double now(void) {
    struct timespec t;
    clock_gettime(CLOCK_PROCESS_CPUTIME_ID, &t);
    return (double)t.tv_sec + 1e-9 * (double)t.tv_nsec;
}

static struct bytes in, canonical, out;
static struct naltvigo_refusal why;

/* Reads FOLDER/NAME and its canonical bytes, and allocates space for a result. */
static void take_document(const char *folder, const char *name) {
    in = slurp(folder, name, "cbor");
    canonical = slurp(folder, name, "bytewise");
    out.length = 2 * in.length + 64;
    out.at = malloc(out.length);
    if (!out.at) exit(3);
}
static void give_up_document(void) { free(in.at), free(canonical.at), free(out.at); }

static int canonicalise(void) {
    size_t needed;
    uint32_t s = naltvigo_canonicalise(in.at, in.length, OPTIONS(0, 256, NALTVIGO_BYTES_MAX), out.at, out.length, &needed, &why);
    return s == NALTVIGO_OK && needed == canonical.length && memcmp(out.at, canonical.at, needed) == 0;
}
static int plain_canonicalise(void) {
    uint8_t *made;
    size_t length;
    if (!floor_canonicalise(in.at, in.length, &made, &length)) return 0;
    int same = length == canonical.length && memcmp(made, canonical.at, length) == 0;
    free(made);
    return same;
}
static int check_canonical(void) {
    return naltvigo_check_canonical(canonical.at, canonical.length, OPTIONS(0, 256, NALTVIGO_BYTES_MAX), &why) == NALTVIGO_OK;
}
static int plain_check_canonical(void) { return floor_strict(canonical.at, canonical.length); }
static int check_valid(void) { return naltvigo_check_valid(in.at, in.length, LIMITS(256, NALTVIGO_BYTES_MAX), &why) == NALTVIGO_OK; }
static int compare(void) {
    uint32_t side;
    return naltvigo_compare(in.at, in.length, canonical.at, canonical.length, LIMITS(256, NALTVIGO_BYTES_MAX), &side, &why) == NALTVIGO_OK;
}
static int diagnostic(void) {
    size_t needed;
    return naltvigo_diagnostic(in.at, in.length, LIMITS(256, NALTVIGO_BYTES_MAX), (char *)out.at, out.length, &needed, &why) == NALTVIGO_OK;
}
/* All events of the input, in parts of this size with space for this number of events in a call. */
static int events_by(size_t part, size_t space) {
    static struct naltvigo_machine machine;
    static struct naltvigo_event events[64];
    size_t used, reported, at = 0;
    uint32_t s;
    naltvigo_machine_start(LIMITS(256, NALTVIGO_BYTES_MAX), &machine);
    do {
        size_t offered = in.length - at < part ? in.length - at : part;
        s = naltvigo_machine_feed(&machine, in.at + at, offered, &used, events, space, &reported, &why);
        at += used;
    } while (s == NALTVIGO_EVENT || (s == NALTVIGO_MORE && at < in.length));
    return s == NALTVIGO_OK && at == in.length;
}
/* The check of the canonical bytes, in parts of this size. */
static int checked_by(size_t part) {
    struct naltvigo_checker checker;
    size_t used, at = 0;
    uint32_t s = naltvigo_checker_new(OPTIONS(0, 256, NALTVIGO_BYTES_MAX), &checker);
    while (s == NALTVIGO_OK || s == NALTVIGO_MORE) {
        size_t offered = canonical.length - at < part ? canonical.length - at : part;
        s = naltvigo_checker_feed(&checker, canonical.at + at, offered, &used, &why);
        at += used;
        if (s == NALTVIGO_OK || offered == 0) break;
    }
    naltvigo_checker_free(&checker);
    return s == NALTVIGO_OK && at == canonical.length;
}
static int checked_1400(void) { return checked_by(1400); }
static int checked_4096(void) { return checked_by(4096); }
static int checked_65536(void) { return checked_by(65536); }
static int events_64(void) { return events_by(4096, 64); }
static int events_1(void) { return events_by(4096, 1); }
#ifdef HAS_LIBCBOR
static int load(int again) {
    struct cbor_load_result result;
    cbor_item_t *item = cbor_load(in.at, in.length, &result);
    if (!item) return 0;
    unsigned char *made = NULL;
    size_t space, length = again ? cbor_serialize_alloc(item, &made, &space) : 1;
    free(made);
    cbor_decref(&item);
    return length > 0;
}
static int libcbor_load(void) { return load(0); }
static int libcbor_again(void) { return load(1); }
#endif

/* Prints the MB/s of a call on an input of this length, or that it returns something else than it should. */
static void print_speed(int (*call)(void), size_t length) {
    double best = 1e9, spent = 0;
    for (int turn = 0; turn < 5 || (spent < 0.1 && turn < 1000); turn++) {
        double from = now();
        if (!call()) {
            printf(" - |");
            return;
        }
        double took = now() - from;
        spent += took;
        if (took < best) best = took;
    }
    double speed = (double)length / best / 1e6;
    /* Nothing for a call that reads almost none of the bytes. */
    if (speed < 1e6) printf(" %.1f |", speed);
    else printf("  |");
    fflush(stdout);
}

/* Small items: the cost of a call itself. The claims are those of RFC 8392, appendix A.1. */
#define CLAIMS \
    "\x01\x75" "coap://as.example.com" "\x02\x65" "erikw" "\x03\x78\x18" "coap://light.example.com" \
    "\x04\x1a\x56\x12\xae\xb0\x05\x1a\x56\x10\xd9\xf0\x06\x1a\x56\x10\xd9\xf0"
#define LAST_CLAIM "\x07\x42\x0b\x71"
static const struct {
    const char *name;
    const char *bytes;
    size_t length;
    /* If these are not canonical, those that are. */
    const char *canonical;
    size_t canonical_length;
} small[] = {
    {"the integer 0", "\x00", 1, NULL, 0},
    {"a byte string of 23", "\x57" "01234567890123456789012", 24, NULL, 0},
    {"a map of a text and a number", "\xa1\x63" "Fun" "\x18\x2a", 7, NULL, 0},
    {"the claims of a token", "\xa7" CLAIMS LAST_CLAIM, 80, NULL, 0},
    {"the integer 0 in two bytes", "\x18\x00", 2, "\x00", 1},
    {"these claims, the last one first", "\xa7" LAST_CLAIM CLAIMS, 80, "\xa7" CLAIMS LAST_CLAIM, 80},
};

/* Prints how many nanoseconds a call takes, the best of some thousands. */
static void print_nanoseconds(int (*call)(void)) {
    enum { CALLS = 2000 };
    double best = 1e9;
    for (int turn = 0; turn < 200; turn++) {
        double from = now();
        for (int i = 0; i < CALLS; i++) {
            if (!call()) {
                printf(" - |");
                return;
            }
        }
        double took = (now() - from) / CALLS;
        if (took < best) best = took;
    }
    printf(" %.0f |", 1e9 * best);
}

enum { MEMBERS = 16, SPACE = 4096 };

/* The item, or an array of this many of it. */
static struct bytes members_of(const char *bytes, size_t length, size_t members, uint8_t *made) {
    if (members == 0) return (struct bytes){(uint8_t *)bytes, length};
    made[0] = (uint8_t)(0x80 + members);
    for (size_t i = 0; i < members; i++) memcpy(made + 1 + i * length, bytes, length);
    return (struct bytes){made, 1 + members * length};
}

static void take_small(size_t i, size_t members) {
    static uint8_t given[SPACE], meant[SPACE], space[SPACE];
    in = canonical = members_of(small[i].bytes, small[i].length, members, given);
    if (small[i].canonical) canonical = members_of(small[i].canonical, small[i].canonical_length, members, meant);
    out = (struct bytes){space, sizeof space};
}

/* Makes this number of calls on the input, and returns 0 if each returns what it should. */
static int repeat(const char *name, long times) {
    static const struct { const char *name; int (*call)(void); } calls[] = {
        {"canonicalise", canonicalise}, {"plain_canonicalise", plain_canonicalise},
        {"check_canonical", check_canonical}, {"plain_check_canonical", plain_check_canonical},
        {"check_valid", check_valid}, {"compare", compare}, {"diagnostic", diagnostic}, {"events", events_64},
        {"checked_4096", checked_4096},
    };
    for (size_t i = 0; i < sizeof calls / sizeof *calls; i++)
        if (strcmp(calls[i].name, name) == 0) {
            while (times-- > 0)
                if (!calls[i].call()) return 1;
            return 0;
        }
    return 2;
}

static void print_small(void) {
    puts("\n| small item, ns a call | bytes | `canonicalise` | plain C | `check_canonical` | plain C | `check_valid` | `compare` |");
    puts("| --- | ---: | ---: | ---: | ---: | ---: | ---: | ---: |");
    for (size_t i = 0; i < sizeof small / sizeof *small; i++) {
        take_small(i, 0);
        printf("| %s | %zu |", small[i].name, in.length);
        print_nanoseconds(canonicalise);
        print_nanoseconds(plain_canonicalise);
        print_nanoseconds(check_canonical);
        print_nanoseconds(plain_check_canonical);
        print_nanoseconds(check_valid);
        print_nanoseconds(compare);
        puts("");
    }
}

int main(int count, char **words) {
    if (count == 6 && strcmp(words[1], "--calls") == 0) {
        const size_t members = strtoul(words[4], NULL, 10);
        if (members > MEMBERS) return 2;
        take_small(strtoul(words[3], NULL, 10), members);
        return repeat(words[2], strtol(words[5], NULL, 10));
    }
    if (count == 5 && strcmp(words[1], "--call") == 0) {
        take_document(words[3], words[4]);
        return repeat(words[2], 1);
    }
    puts("| input | bytes | `canonicalise` | plain C | `check_canonical` | plain C | `check_valid` | `compare` |");
    puts("| --- | ---: | ---: | ---: | ---: | ---: | ---: | ---: |");
    for (int i = 2; i < count; i++) {
        take_document(words[1], words[i]);
        printf("| %s | %zu |", words[i], in.length);
        print_speed(canonicalise, in.length);
        print_speed(plain_canonicalise, in.length);
        print_speed(check_canonical, canonical.length);
        print_speed(plain_check_canonical, canonical.length);
        print_speed(check_valid, in.length);
        print_speed(compare, in.length);
        puts("");
        give_up_document();
    }
#ifdef HAS_LIBCBOR
    puts("\n| input | `canonicalise` | libcbor, load | libcbor, load and serialise |\n| --- | ---: | ---: | ---: |");
    for (int i = 2; i < count; i++) {
        take_document(words[1], words[i]);
        printf("| %s |", words[i]);
        print_speed(canonicalise, in.length);
        print_speed(libcbor_load, in.length);
        print_speed(libcbor_again, in.length);
        puts("");
        give_up_document();
    }
#endif
    print_small();
    puts("\n| canonical bytes checked, MB/s | bytes | `check_canonical` | in parts of 64 KiB | of 4 KiB | of 1,400 bytes |");
    puts("| --- | ---: | ---: | ---: | ---: | ---: |");
    for (int i = 2; i < count; i++) {
        take_document(words[1], words[i]);
        printf("| %s | %zu |", words[i], canonical.length);
        print_speed(check_canonical, canonical.length);
        print_speed(checked_65536, canonical.length);
        print_speed(checked_4096, canonical.length);
        print_speed(checked_1400, canonical.length);
        puts("");
        give_up_document();
    }
    puts("\n| events by `naltvigo_machine_feed`, MB/s | bytes | 64 events a call | 1 event a call |");
    puts("| --- | ---: | ---: | ---: |");
    for (int i = 2; i < count; i++) {
        in = slurp(words[1], words[i], "cbor");
        printf("| %s | %zu |", words[i], in.length);
        print_speed(events_64, in.length);
        print_speed(events_1, in.length);
        puts("");
        free(in.at);
    }
    return 0;
}
