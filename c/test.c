/* Calls each function of naltvigo.h as a C program does: every row of the conformance tables, every size of
 * buffer near the result's, numbers out of range, null pointers. Prints the number of checks; the
 * status is 0 if all hold. */
#include "options.h"
#include "checks.h"
#include "conformance.h"

#include <stdio.h>

#define LIMITS_OF_ROW(row) OF_ROW(row, 99)

/* The canonical bytes of a row's input in buffers with space for none, one too few, just enough and more. */
static void becomes(const struct row *row, uint32_t order, const uint8_t *in, size_t n) {
    size_t m, needed = 999;
    uint8_t *wanted = unhex(row->by_order[order].canonical, &m);
    struct naltvigo_refusal why = unset;
    uint32_t s = naltvigo_canonicalise(in, n, OF_ROW(row, order), NULL, 0, &needed, &why);
    check(s == NALTVIGO_TOO_SMALL && needed == m && are_equal(why, unset), "asked for the length", row->given);
    for (size_t space = m - 1; space <= m + 3; space += space == m + 1 ? 2 : 1) {
        uint8_t *out = room_for(space);
        memset(out, 0xaa, space);
        needed = 999;
        s = naltvigo_canonicalise(in, n, OF_ROW(row, order), out, space, &needed, &why);
        check(needed == m && are_equal(why, unset), "needed", row->given);
        if (space < m) {
            check(s == NALTVIGO_TOO_SMALL && all_are(out, space, 0xaa), "too small", row->given);
        } else {
            check(s == NALTVIGO_OK && memcmp(out, wanted, m) == 0, "canonical", row->given);
            check(all_are(out + m, space - m, 0xaa), "unchanged after", row->given);
        }
        free(out);
    }
    s = naltvigo_check_canonical(wanted, m, OF_ROW(row, order), &why);
    check(s == NALTVIGO_OK && are_equal(why, unset), "the result is canonical", row->given);
    uint32_t side = 9;
    s = naltvigo_compare(in, n, wanted, m, LIMITS_OF_ROW(row), &side, &why);
    check(s == NALTVIGO_OK && side == 9 && are_equal(why, unset), "the result has the same value", row->given);
    free(wanted);
}

static void is_refused(const struct row *row, uint32_t order, const uint8_t *in, size_t n) {
    struct naltvigo_refusal why = unset, wanted = row->by_order[order].refusal;
    size_t needed = 999;
    uint8_t out[600];
    memset(out, 0xaa, sizeof out);
    uint32_t s = naltvigo_canonicalise(in, n, OF_ROW(row, order), out, sizeof out, &needed, &why);
    check(s == NALTVIGO_REFUSED && are_equal(why, wanted) && needed == 0, "refused", row->given);
    check(all_are(out, sizeof out, 0xaa), "kept", row->given);
}

/* Whether this is the result of a call that reads the first item of an input: an item of n bytes, or this refusal. */
static int is_front(uint32_t s, uint64_t taken, struct naltvigo_refusal why, struct naltvigo_refusal wanted, size_t n) {
    if (wanted.reason) return s == NALTVIGO_REFUSED && taken == 0 && are_equal(why, wanted);
    return s == NALTVIGO_OK && taken == n;
}

static void is_valid_or_not(const struct row *row, const uint8_t *in, size_t n) {
    struct naltvigo_refusal why = unset, wanted = row->by_order[0].refusal;
    size_t needed;
    uint64_t taken;
    uint32_t s = naltvigo_check_valid(in, n, LIMITS_OF_ROW(row), &why);
    /* only canonicalise limits canonical bytes */
    if (row->by_order[0].canonical || wanted.reason == NALTVIGO_CANONICAL_TOO_LONG) {
        check(s == NALTVIGO_OK && are_equal(why, unset), "valid", row->given);
        s = naltvigo_diagnostic(in, n, LIMITS_OF_ROW(row), NULL, 0, &needed, &why);
        check(s == NALTVIGO_TOO_SMALL && needed > 0 && are_equal(why, unset), "text", row->given);
    } else {
        check(s == NALTVIGO_REFUSED && are_equal(why, wanted), "invalid", row->given);
        why = unset;
        s = naltvigo_diagnostic(in, n, LIMITS_OF_ROW(row), NULL, 0, &needed, &why);
        check(s == NALTVIGO_REFUSED && are_equal(why, wanted) && needed == 0, "no text", row->given);
    }
    if (wanted.reason == NALTVIGO_CANONICAL_TOO_LONG) wanted.reason = 0;
    s = naltvigo_next_valid(in, n, LIMITS_OF_ROW(row), &taken, &why);
    check(wanted.reason == NALTVIGO_TRAILING || is_front(s, taken, why, wanted, n), "front", row->given);
}

static void canonicalises_row(const struct row *row) {
    size_t n;
    uint8_t *in = unhex(row->given, &n);
    for (uint32_t order = 0; order < 2; order++) {
        if (row->by_order[order].canonical)
            becomes(row, order, in, n);
        else
            is_refused(row, order, in, n);
        struct naltvigo_refusal why = {0, 0, 0}, strict = row->by_order[order].strict;
        uint32_t s = naltvigo_check_canonical(in, n, OF_ROW(row, order), &why);
        check(s == (strict.reason ? NALTVIGO_REFUSED : NALTVIGO_OK) && are_equal(why, strict), "strict", row->given);
        uint64_t taken;
        s = naltvigo_next_canonical(in, n, OF_ROW(row, order), &taken, &why);
        check(strict.reason == NALTVIGO_TRAILING || is_front(s, taken, why, strict, n), "strict front", row->given);
    }
    is_valid_or_not(row, in, n);
    free(in);
}

static void compares(const struct pair *pair) {
    size_t n, m;
    uint8_t *left = unhex(pair->left, &n), *right = unhex(pair->right, &m);
    struct naltvigo_refusal why = {0, 0, 0};
    uint32_t side = 0;
    uint32_t s = naltvigo_compare(left, n, right, m, LIMITS(256, 1 << 20), &side, &why);
    check(s == pair->status && side == pair->side && are_equal(why, pair->refusal), "compare", pair->left);
    free(left);
    free(right);
}

/* Appendix A of RFC 8949 has the texts. */
static void reads(const char *given, const char *wanted) {
    size_t n, needed = 999, m = strlen(wanted);
    uint8_t *in = unhex(given, &n);
    struct naltvigo_refusal why = unset;
    for (size_t space = m - 1; space <= m + 1; space++) {
        char *out = room_for(space);
        memset(out, 7, space);
        uint32_t s = naltvigo_diagnostic(in, n, LIMITS(256, 1 << 20), out, space, &needed, &why);
        check(needed == m && are_equal(why, unset), "length of the text", given);
        if (space < m)
            check(s == NALTVIGO_TOO_SMALL && all_are((uint8_t *)out, space, 7), "text too small", given);
        else
            check(s == NALTVIGO_OK && memcmp(out, wanted, m) == 0, "text", given);
        free(out);
    }
    free(in);
}

static const struct { uint32_t order, keys, depth; uint64_t bytes; uint32_t status; } numbers[] = {
    {2, 0, 256, 1, NALTVIGO_BAD_ORDER},
    {UINT32_MAX, 0, 256, 1, NALTVIGO_BAD_ORDER},
    {2, 2, 1025, 1, NALTVIGO_BAD_ORDER},
    {0, 0, 1025, 1, NALTVIGO_BAD_LIMITS},
    {0, 0, 65536 + 1024, 1, NALTVIGO_BAD_LIMITS},
    {0, 1, UINT32_MAX, 1, NALTVIGO_BAD_LIMITS},
    {1, 0, 256, NALTVIGO_BYTES_MAX + 1, NALTVIGO_BAD_LIMITS},
    {1, 1, 256, UINT64_MAX, NALTVIGO_BAD_LIMITS},
    {0, 2, 256, 1, NALTVIGO_BAD_LIMITS},
    {1, UINT32_MAX, 256, 1, NALTVIGO_BAD_LIMITS},
    {1, 1, NALTVIGO_DEPTH_MAX, NALTVIGO_BYTES_MAX, NALTVIGO_OK},
    {0, 0, 0, 1, NALTVIGO_OK},
};

static void numbers_out_of_range(void) {
    const uint8_t one = 1;
    uint8_t out[32];
    size_t needed;
    struct naltvigo_refusal why = unset;
    for (size_t i = 0; i < sizeof numbers / sizeof *numbers; i++) {
        uint32_t keys = numbers[i].keys, depth = numbers[i].depth, wanted = numbers[i].status, side = 9;
        uint64_t bytes = numbers[i].bytes, taken = 9;
        const struct naltvigo_options *options = ALL_OPTIONS(numbers[i].order, keys, depth, bytes);
        const struct naltvigo_options *limits = ALL_OPTIONS(99, keys, depth, bytes);
        needed = 999;
        uint32_t s = naltvigo_canonicalise(&one, 1, options, out, sizeof out, &needed, &why);
        check(s == wanted && needed == (s == NALTVIGO_OK), "numbers", "canonicalise");
        check(naltvigo_check_canonical(&one, 1, options, &why) == wanted, "numbers", "canonical");
        s = naltvigo_next_canonical(&one, 1, options, &taken, &why);
        check(s == wanted && taken == (s == NALTVIGO_OK), "numbers", "next canonical");
        if (wanted == NALTVIGO_BAD_ORDER) continue;
        check(naltvigo_check_valid(&one, 1, limits, &why) == wanted, "numbers", "valid");
        check(naltvigo_compare(&one, 1, &one, 1, limits, &side, &why) == wanted, "numbers", "compare");
        s = naltvigo_diagnostic(&one, 1, limits, (char *)out, sizeof out, &needed, &why);
        check(s == wanted && side == 9, "numbers", "diagnostic");
        s = naltvigo_next_valid(&one, 1, limits, &taken, &why);
        check(s == wanted && taken == (s == NALTVIGO_OK), "numbers", "next valid");
    }
    check(are_equal(why, unset), "numbers", "refusal untouched");
}

static void nothing_at_all(void) {
    size_t needed = 999;
    uint32_t side = 9;
    struct naltvigo_refusal why = unset;
    const struct naltvigo_refusal truncated = {NALTVIGO_TRUNCATED, 0, 0};
    uint32_t s = naltvigo_canonicalise(NULL, 0, OPTIONS(0, 256, 100), NULL, 0, &needed, &why);
    check(s == NALTVIGO_REFUSED && are_equal(why, truncated) && needed == 0, "NULL", "canonicalise");
    why = unset;
    s = naltvigo_check_canonical(NULL, 0, OPTIONS(0, 256, 100), &why);
    check(s == NALTVIGO_REFUSED && are_equal(why, truncated), "NULL", "canonical");
    why = unset;
    s = naltvigo_check_valid(NULL, 0, LIMITS(256, 100), &why);
    check(s == NALTVIGO_REFUSED && are_equal(why, truncated), "NULL", "valid");
    why = unset;
    s = naltvigo_compare(NULL, 0, NULL, 0, LIMITS(256, 100), &side, &why);
    check(s == NALTVIGO_REFUSED && are_equal(why, truncated) && side == NALTVIGO_LEFT, "NULL", "compare");
    why = unset;
    s = naltvigo_diagnostic(NULL, 0, LIMITS(256, 100), NULL, 0, &needed, &why);
    check(s == NALTVIGO_REFUSED && are_equal(why, truncated), "NULL", "diagnostic");
}

static void names(void) {
    static const char *const wanted[] = {
        "Truncated", "TooLong",     "Reserved",    "NoIndefinite", "Float",            "BadSimple",   "StrayBreak",
        "BadChunk",  "TooDeep",     "InvalidText", "RepeatedKey",  "Trailing",         "CanonicalTooLong",
        "NotShortest", "Indefinite", "KeyOrder",   "Read",         "Write",            "Memory",      "KeyKind"};
    char name[NALTVIGO_NAME_MAX];
    for (uint32_t r = 1; r <= 20; r++) {
        size_t n = strlen(wanted[r - 1]);
        memset(name, 7, sizeof name);
        check(naltvigo_reason_name(r, name, sizeof name) == n && strcmp(name, wanted[r - 1]) == 0, "name", wanted[r - 1]);
        check(all_are((uint8_t *)name + n + 1, sizeof name - n - 1, 7), "unchanged after the name", wanted[r - 1]);
        memset(name, 7, sizeof name);
        check(naltvigo_reason_name(r, name, n) == n && all_are((uint8_t *)name, n, 7), "short name", wanted[r - 1]);
        check(naltvigo_reason_name(r, NULL, 0) == n, "name's length", wanted[r - 1]);
    }
    static const uint32_t none[] = {0, 21, UINT32_MAX};
    for (size_t i = 0; i < 3; i++) {
        memset(name, 7, sizeof name);
        check(naltvigo_reason_name(none[i], name, sizeof name) == 0 && name[0] == 0 && name[1] == 7, "no name", "");
    }
    check(strcmp(naltvigo_status_name(NALTVIGO_OK), "OK") == 0, "status", "OK");
    check(strcmp(naltvigo_status_name(NALTVIGO_BAD_MACHINE), "BAD_MACHINE") == 0, "status", "BAD_MACHINE");
    check(strcmp(naltvigo_status_name(NALTVIGO_NOT_FOUND), "NOT_FOUND") == 0, "status", "NOT_FOUND");
    check(strcmp(naltvigo_status_name(NALTVIGO_WRONG_KIND), "WRONG_KIND") == 0, "status", "WRONG_KIND");
    check(strcmp(naltvigo_status_name(NALTVIGO_BAD_HEAD), "BAD_HEAD") == 0, "status", "BAD_HEAD");
    check(strcmp(naltvigo_status_name(NALTVIGO_OUT_OF_RANGE), "OUT_OF_RANGE") == 0, "status", "OUT_OF_RANGE");
    check(strcmp(naltvigo_status_name(14), "") == 0, "status", "14");
    check(naltvigo_version() == NALTVIGO_VERSION_NUMBER, "version", NALTVIGO_VERSION);
}

/* Items one after another, and why no other item follows. */
static void sequences(void) {
    /* [_ 1], "a", {2: 0}, and a break */
    static const uint8_t in[] = {0x9f, 1, 0xff, 0x61, 0x61, 0xa1, 2, 0, 0xff};
    static const uint64_t sizes[] = {3, 2, 3};
    const struct naltvigo_refusal stray = {NALTVIGO_STRAY_BREAK, 0, 1}, indefinite = {NALTVIGO_INDEFINITE, 0, 1};
    const struct naltvigo_refusal truncated = {NALTVIGO_TRUNCATED, 0, 0}, too_long = {NALTVIGO_TOO_LONG, 2, 2};
    size_t at = 0;
    uint64_t taken = 9;
    struct naltvigo_refusal why = unset;
    for (size_t i = 0; i < 3; i++) {
        check(naltvigo_next_valid(in + at, sizeof in - at, NULL, &taken, &why) == NALTVIGO_OK, "next valid", "");
        check(taken == sizes[i] && are_equal(why, unset), "taken", "");
        uint32_t s = naltvigo_next_canonical(in + at, sizeof in - at, NULL, &taken, &why);
        check(s == (i ? NALTVIGO_OK : NALTVIGO_REFUSED) && taken == (i ? sizes[i] : 0), "next canonical", "");
        check(are_equal(why, i ? unset : indefinite), "next canonical's refusal", "");
        why = unset;
        at += sizes[i];
    }
    check(naltvigo_next_valid(in + at, 1, NULL, &taken, &why) == NALTVIGO_REFUSED, "no next", "");
    check(taken == 0 && are_equal(why, stray), "no next's refusal", "");
    check(naltvigo_next_valid(NULL, 0, NULL, &taken, &why) == NALTVIGO_REFUSED && are_equal(why, truncated), "NULL", "next");
    check(naltvigo_next_canonical(NULL, 0, NULL, &taken, &why) == NALTVIGO_REFUSED && are_equal(why, truncated), "NULL", "next");
    check(naltvigo_next_valid(in, 9, LIMITS(0, 9), &taken, &why) == NALTVIGO_REFUSED && why.reason == NALTVIGO_TOO_DEEP, "depth", "");
    check(naltvigo_next_valid(in, 9, LIMITS(1, 2), &taken, &why) == NALTVIGO_REFUSED && are_equal(why, too_long), "bytes", "");
    why = unset;
    taken = 9;
    check(naltvigo_next_valid(in, 9, LIMITS(1025, 2), &taken, &why) == NALTVIGO_BAD_LIMITS && taken == 0, "limits", "next");
    taken = 9;
    check(naltvigo_next_canonical(in, 9, OPTIONS(2, 1, 2), &taken, &why) == NALTVIGO_BAD_ORDER && taken == 0, "order", "next");
    check(naltvigo_next_canonical(in, 9, OPTIONS(1, 1, UINT64_MAX), &taken, &why) == NALTVIGO_BAD_LIMITS, "limits", "next");
    check(are_equal(why, unset), "untold", "next");
}

/* What a null pointer for the options means: bytewise, keys of any kind, 64 levels, 2^20 bytes. */
static void defaults(void) {
    const uint8_t keys[] = {0xa2, 0x20, 0, 0x18, 0x64, 0}; /* {-1: 0, 100: 0} */
    struct naltvigo_refusal why = unset;
    check(naltvigo_check_canonical(keys, sizeof keys, NULL, &why) == NALTVIGO_REFUSED && why.reason == NALTVIGO_KEY_ORDER, "defaults", "order");
    check(naltvigo_check_canonical(keys, sizeof keys, OPTIONS(1, 64, 100), &why) == NALTVIGO_OK, "defaults", "length first");
    check(naltvigo_check_canonical((const uint8_t *)"\xa1\x80", 3, NULL, &why) == NALTVIGO_OK, "defaults", "any keys"); /* {[]: 0} */
    uint8_t tower[66];
    memset(tower, 0x81, sizeof tower);
    tower[64] = 0x80;
    check(naltvigo_check_valid(tower, 65, NULL, &why) == NALTVIGO_REFUSED && why.offset == 64, "defaults", "65 levels");
    tower[63] = 0x80;
    check(naltvigo_check_valid(tower, 64, NULL, &why) == NALTVIGO_OK, "defaults", "64 levels");
    size_t most = (size_t)1 << 20;
    uint8_t *text = room_for(most + 1);
    memset(text, 'a', most + 1);
    memcpy(text, "\x7a\x00\x0f\xff\xfb", 5);
    check(naltvigo_check_valid(text, most, NULL, &why) == NALTVIGO_OK, "defaults", "2^20 bytes");
    text[4]++;
    check(naltvigo_check_valid(text, most + 1, NULL, &why) == NALTVIGO_REFUSED && why.reason == NALTVIGO_TOO_LONG, "defaults", "2^20 + 1 bytes");
    free(text);
}

/* Null for the refusal: with a break, which each call refuses, and with an input that it accepts. */
static void no_refusal_wanted(void) {
    const uint8_t stray = 0xff, one = 1;
    uint8_t out[8];
    size_t needed, used, reported;
    uint64_t taken;
    uint32_t side;
    struct naltvigo_machine machine;
    struct naltvigo_event event;
    for (int refused = 0; refused < 2; refused++) {
        const uint8_t *in = refused ? &stray : &one;
        const uint32_t wanted = refused ? NALTVIGO_REFUSED : NALTVIGO_OK;
        check(naltvigo_canonicalise(in, 1, NULL, out, sizeof out, &needed, NULL) == wanted, "no refusal", "canonicalise");
        check(naltvigo_check_canonical(in, 1, NULL, NULL) == wanted, "no refusal", "check_canonical");
        check(naltvigo_check_valid(in, 1, NULL, NULL) == wanted, "no refusal", "check_valid");
        check(naltvigo_next_valid(in, 1, NULL, &taken, NULL) == wanted, "no refusal", "next_valid");
        check(naltvigo_next_canonical(in, 1, NULL, &taken, NULL) == wanted, "no refusal", "next_canonical");
        check(naltvigo_compare(in, 1, in, 1, NULL, &side, NULL) == wanted, "no refusal", "compare");
        check(naltvigo_diagnostic(in, 1, NULL, (char *)out, sizeof out, &needed, NULL) == wanted, "no refusal", "diagnostic");
        naltvigo_machine_start(NULL, &machine);
        uint32_t s = naltvigo_machine_feed(&machine, in, 1, &used, &event, 1, &reported, NULL);
        check(s == (refused ? NALTVIGO_REFUSED : NALTVIGO_EVENT), "no refusal", "machine_feed");
        check(naltvigo_machine_step(&machine, NULL, 0, &used, &event, NULL) == wanted, "no refusal", "machine_step");
    }
}

int main(void) {
    for (size_t i = 0; i < sizeof rows / sizeof *rows; i++) canonicalises_row(&rows[i]);
    for (size_t i = 0; i < sizeof pairs / sizeof *pairs; i++) compares(&pairs[i]);
    reads("1bffffffffffffffff", "18446744073709551615");
    reads("3bffffffffffffffff", "-18446744073709551616");
    reads("f8ff", "simple(255)");
    reads("f7", "undefined");
    reads("4401020304", "h'01020304'");
    reads("62225c", "\"\\\"\\\\\"");
    reads("c11a514b67b0", "1(1363896240)");
    reads("8301820203820405", "[1, [2, 3], [4, 5]]");
    reads("a26161016162820203", "{\"a\": 1, \"b\": [2, 3]}");
    numbers_out_of_range();
    nothing_at_all();
    sequences();
    defaults();
    no_refusal_wanted();
    names();
    printf("%d checks, %d fail\n", checks, faults);
    return faults != 0;
}
