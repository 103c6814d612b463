/* Feeds a checker (naltvigo_checker.h) each row of the conformance tables, cut at every byte, byte by byte and in three parts, and
 * compares what it says after each part with naltvigo_next_canonical of all bytes so far, and at the end with the table; then long
 * keys, many levels and the handle itself. With a number N only each Nth row. Prints the number of checks; the status is 0 if all
 * hold. */
#include "options.h"
#include "checks.h"
#include "conformance.h"

#include <naltvigo_checker.h>
#include <stdio.h>

/* What is to be said of the first n bytes: `*length` becomes what the item has of them. */
static uint32_t wanted_of(const struct row *row, uint32_t order, const uint8_t *in, size_t n, size_t *length,
                          struct naltvigo_refusal *why) {
    uint64_t whole = 0;
    uint32_t status;
    *why = unset;
    status = naltvigo_next_canonical(in, n, OF_ROW(row, order), &whole, why);
    *length = status == NALTVIGO_OK ? (size_t)whole : (size_t)why->consumed;
    if (status == NALTVIGO_REFUSED && why->reason == NALTVIGO_TRUNCATED) {
        *why = unset;
        return NALTVIGO_MORE;
    }
    return status;
}

/* Passes the bytes from..to to the checker, and compares. Returns whether the item needs more bytes. */
static int takes(struct naltvigo_checker *checker, const struct row *row, uint32_t order, const uint8_t *in, size_t from, size_t to) {
    struct naltvigo_refusal why = unset, wanted;
    size_t used = 999, length;
    const uint32_t status = wanted_of(row, order, in, to, &length, &wanted);
    /* a block of exactly these bytes, so that a tool sees any access outside it */
    uint8_t *part = (uint8_t *)room_for(to - from);
    if (to > from) memcpy(part, in + from, to - from);
    check(naltvigo_checker_feed(checker, to > from ? part : NULL, to - from, &used, &why) == status, "status", row->given);
    free(part);
    check(are_equal(why, wanted), "refusal", row->given);
    check(from + used == (length > from ? length : from), "used", row->given);
    if (status != NALTVIGO_MORE) return 0;
    /* an end here is Truncated, and more bytes may follow */
    check(naltvigo_checker_end(checker, &why) == NALTVIGO_REFUSED, "end amid", row->given);
    wanted.reason = NALTVIGO_TRUNCATED, wanted.offset = wanted.consumed = to;
    check(are_equal(why, wanted), "truncated amid", row->given);
    return 1;
}

/* What is said where the bytes end, by the table, and of further bytes. */
static void ends(struct naltvigo_checker *checker, const struct row *row, uint32_t order) {
    const struct naltvigo_refusal none = {0, 0, 0};
    struct naltvigo_refusal why = none, again = none, wanted = row->by_order[order].strict;
    size_t used = 999;
    uint32_t status;
    /* the table judges the whole input, and a checker the item at its start */
    if (wanted.reason == NALTVIGO_TRAILING) wanted = none;
    status = wanted.reason ? NALTVIGO_REFUSED : NALTVIGO_OK;
    check(naltvigo_checker_end(checker, &why) == status && are_equal(why, wanted), "end", row->given);
    if (wanted.reason == NALTVIGO_TRUNCATED) return;
    check(naltvigo_checker_feed(checker, (const uint8_t *)"\xff", 1, &used, &again) == status && used == 0, "again", row->given);
    check(are_equal(again, wanted), "the same refusal", row->given);
}

/* The row in the parts that end at these offsets. */
static void in_parts(struct naltvigo_checker *checker, const struct row *row, uint32_t order, const uint8_t *in,
                     const size_t *cuts, size_t count) {
    size_t from = 0, i;
    check(naltvigo_checker_restart(order, checker) == NALTVIGO_OK, "restart", row->given);
    for (i = 0; i < count; i++) {
        if (!takes(checker, row, order, in, from, cuts[i])) break;
        from = cuts[i];
    }
    ends(checker, row, order);
}

static void checks_row(const struct row *row, uint32_t order) {
    struct naltvigo_checker checker;
    size_t n, at, next, cuts[3], *bytes;
    uint8_t *in = unhex(row->given, &n);
    /* the order of the first item is another than that of those after a restart */
    check(naltvigo_checker_new(OF_ROW(row, 1 - order), &checker) == NALTVIGO_OK, "new", row->given);
    cuts[2] = n;
    for (at = 0; at <= n; at++) {
        cuts[0] = cuts[1] = at;
        in_parts(&checker, row, order, in, cuts, 3);
        for (next = at; n <= 12 && next <= n; next++) {
            cuts[1] = next;
            in_parts(&checker, row, order, in, cuts, 3);
        }
    }
    bytes = (size_t *)room_for((n + 1) * sizeof *bytes);
    for (at = 0; at <= n; at++) bytes[at] = at;
    in_parts(&checker, row, order, in, bytes, n + 1);
    free(bytes);
    naltvigo_checker_free(&checker);
    free(in);
}

/* {"aaa..": 0, "aaa..b": 0} with keys of 2^20 bytes, and the same with the second key too small at its last byte, in parts of
 * some sizes. */
static void long_keys(size_t part) {
    const size_t key = (size_t)1 << 20, n = 1 + 2 * (5 + key + 1);
    uint8_t *in = (uint8_t *)room_for(n);
    size_t last, at, used;
    memset(in, 'a', n);
    in[0] = 0xa2;
    for (at = 1; at < n; at += 5 + key + 1) {
        memcpy(in + at, "\x7a\x00\x10\x00\x00", 5);
        in[at + 5 + key] = 0;
    }
    last = n - 2;
    for (int is_less = 0; is_less < 2; is_less++) {
        struct naltvigo_checker checker;
        struct naltvigo_refusal why = unset;
        uint32_t status = NALTVIGO_MORE;
        in[last] = is_less ? 'a' : 'b';
        check(naltvigo_checker_new(OPTIONS(0, 4, 1 << 24), &checker) == NALTVIGO_OK, "new", "long keys");
        for (at = 0; at < n && status == NALTVIGO_MORE; at += used)
            status = naltvigo_checker_feed(&checker, in + at, n - at < part ? n - at : part, &used, &why);
        if (is_less)
            check(status == NALTVIGO_REFUSED && why.reason == NALTVIGO_KEY_ORDER && why.offset == 1 + 5 + key + 1
                      && why.consumed == last + 1 && at == last + 1, "refused", "long keys");
        else
            check(status == NALTVIGO_OK && at == n, "accepted", "long keys");
        naltvigo_checker_free(&checker);
    }
    free(in);
}

/* 1,024 levels of {0: {0: .. }} and of keys of maps, byte by byte, and one level more. */
static void deep(uint8_t first, uint8_t second, size_t levels, uint32_t wanted) {
    struct naltvigo_checker checker;
    struct naltvigo_refusal why = unset;
    uint32_t status = NALTVIGO_MORE;
    size_t used, i;
    check(naltvigo_checker_new(OPTIONS(0, 1024, 1 << 20), &checker) == NALTVIGO_OK, "new", "deep");
    for (i = 0; i < levels && status == NALTVIGO_MORE; i++) {
        status = naltvigo_checker_feed(&checker, &first, 1, &used, &why);
        if (second != 0xff && status == NALTVIGO_MORE) status = naltvigo_checker_feed(&checker, &second, 1, &used, &why);
    }
    /* a leaf, and as many values as keys are open */
    for (i = 0; i < (second == 0xff ? levels + 1 : 1) && status == NALTVIGO_MORE; i++)
        status = naltvigo_checker_feed(&checker, (const uint8_t *)"", 1, &used, &why);
    check(status == wanted && (wanted == NALTVIGO_OK || why.reason == NALTVIGO_TOO_DEEP), "deep", "1,024 levels");
    naltvigo_checker_free(&checker);
}

/* Numbers out of range, handles without a machine, and null pointers. */
static void handles(void) {
    struct naltvigo_checker checker;
    struct naltvigo_refusal why = unset;
    size_t used = 999;
    /* what the memory of a handle holds before is not read */
    checker.memory = &used;
    check(naltvigo_checker_new(OPTIONS(2, 4, 8), &checker) == NALTVIGO_BAD_ORDER && !checker.memory, "order", "2");
    check(naltvigo_checker_new(OPTIONS(0, 1025, 8), &checker) == NALTVIGO_BAD_LIMITS && !checker.memory, "depth", "1025");
    check(naltvigo_checker_new(ALL_OPTIONS(0, 2, 4, 8), &checker) == NALTVIGO_BAD_LIMITS && !checker.memory, "keys", "2");
    check(naltvigo_checker_feed(&checker, NULL, 0, &used, &why) == NALTVIGO_BAD_MACHINE && used == 0, "feed", "no machine");
    check(naltvigo_checker_end(&checker, &why) == NALTVIGO_BAD_MACHINE, "end", "no machine");
    check(naltvigo_checker_restart(0, &checker) == NALTVIGO_BAD_MACHINE && are_equal(why, unset), "restart", "no machine");
    naltvigo_checker_free(&checker);
    check(naltvigo_checker_new(NULL, &checker) == NALTVIGO_OK && checker.memory, "new", "defaults");
    check(naltvigo_checker_restart(2, &checker) == NALTVIGO_BAD_ORDER, "restart", "order 2");
    check(naltvigo_checker_feed(&checker, (const uint8_t *)"\xf9", 1, &used, NULL) == NALTVIGO_REFUSED && used == 1, "null", "feed");
    check(naltvigo_checker_end(&checker, NULL) == NALTVIGO_REFUSED, "null", "end");
    check(naltvigo_checker_restart(1, &checker) == NALTVIGO_OK, "restart", "after a refusal");
    check(naltvigo_checker_feed(&checker, (const uint8_t *)"", 1, &used, NULL) == NALTVIGO_OK && used == 1, "taken", "00");
    naltvigo_checker_free(&checker);
    check(!checker.memory, "free", "no machine is left");
    naltvigo_checker_free(&checker);
}

int main(int argc, char **argv) {
    const size_t step = argc > 1 ? strtoul(argv[1], NULL, 10) : 1;
    for (size_t i = 0; i < sizeof rows / sizeof *rows; i += step)
        for (uint32_t order = 0; order < 2; order++) checks_row(&rows[i], order);
    long_keys(1 << 22), long_keys(4096), long_keys(64);
    /* {0: {0: ..}}, maps as keys of maps, arrays */
    deep(0xa1, 0, 1024, NALTVIGO_OK), deep(0xa1, 0, 1025, NALTVIGO_REFUSED);
    deep(0xa1, 0xff, 1024, NALTVIGO_OK), deep(0xa1, 0xff, 1025, NALTVIGO_REFUSED);
    deep(0x81, 0xff, 1025, NALTVIGO_REFUSED);
    handles();
    printf("%d checks of a checker, %d fail\n", checks, faults);
    return faults != 0;
}
