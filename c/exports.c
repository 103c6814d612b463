/* Calls each export of naltvigo.h directly, without the inline functions: the results, what is left unchanged, and numbers out of
 * range. Prints the number of checks; the status is 0 if all hold. */
#include <naltvigo.h>
#include <string.h>

#include "checks.h"

static const struct naltvigo_refusal none = {0, 0, 0};

/* [_ 1], and its canonical bytes. */
static const uint8_t streamed[] = {0x9f, 1, 0xff}, array[] = {0x81, 1};

static int are(struct naltvigo_refusal why, uint32_t reason, uint64_t offset, uint64_t consumed) {
    return why.reason == reason && why.offset == offset && why.consumed == consumed;
}

static int holds(const uint8_t *out, const char *wanted, size_t length) { return memcmp(out, wanted, length) == 0; }

static uint32_t canonicalise(const uint8_t *in, size_t n, uint32_t order, uint32_t depth, uint64_t bytes, uint8_t *out, size_t space,
                             size_t *needed, struct naltvigo_refusal *why) {
    return naltvigo_canonicalise_raw(in, n, order, 0, depth, bytes, out, space, needed, why);
}

static void canonical_bytes(void) {
    uint8_t out[4] = {7, 7, 7, 7};
    size_t needed = 9;
    struct naltvigo_refusal why = none;
    uint32_t s = canonicalise(streamed, 3, 0, 256, 100, out, 4, &needed, &why);
    check(s == NALTVIGO_OK && needed == 2 && holds(out, "\x81\x01\x07\x07", 4), "canonicalise", "[_ 1]");
    s = canonicalise(streamed, 3, 0, 256, 100, out, 1, &needed, &why);
    check(s == NALTVIGO_TOO_SMALL && needed == 2, "canonicalise", "too small");
    s = canonicalise(streamed, 3, 2, 256, 100, out, 4, &needed, &why);
    check(s == NALTVIGO_BAD_ORDER && needed == 0, "canonicalise", "order 2");
    s = canonicalise(streamed, 3, 0, 1025, 100, out, 4, &needed, &why);
    check(s == NALTVIGO_BAD_LIMITS && needed == 0 && are(why, 0, 0, 0), "canonicalise", "depth 1025");
    s = canonicalise(streamed, 3, 0, 256, 2, out, 4, &needed, &why);
    check(s == NALTVIGO_REFUSED && needed == 0 && are(why, NALTVIGO_TOO_LONG, 2, 2), "canonicalise", "2 bytes");
}

/* {100: 0, -1: 0} in the two orders. */
static void the_two_orders(void) {
    static const uint8_t bytewise[] = {0xa2, 0x18, 0x64, 0, 0x20, 0}, length_first[] = {0xa2, 0x20, 0, 0x18, 0x64, 0};
    uint8_t out[6] = {0};
    size_t needed;
    struct naltvigo_refusal why = none;
    uint32_t s = canonicalise(length_first, 6, 0, 256, 100, out, 6, &needed, &why);
    check(s == NALTVIGO_OK && memcmp(out, bytewise, 6) == 0, "canonicalise", "bytewise");
    s = canonicalise(bytewise, 6, 1, 256, 100, out, 6, &needed, &why);
    check(s == NALTVIGO_OK && memcmp(out, length_first, 6) == 0, "canonicalise", "length first");
}

static void one_item_or_not(void) {
    static const uint8_t two[] = {0, 0};
    struct naltvigo_refusal why = none;
    check(naltvigo_check_canonical_raw(array, 2, 1, 0, 256, 100, &why) == NALTVIGO_OK, "check_canonical", "[1]");
    check(naltvigo_check_valid_raw(streamed, 3, 0, 256, 100, &why) == NALTVIGO_OK, "check_valid", "[_ 1]");
    uint32_t s = naltvigo_check_canonical_raw(streamed, 3, 1, 0, 256, 100, &why);
    check(s == NALTVIGO_REFUSED && are(why, NALTVIGO_INDEFINITE, 0, 1), "check_canonical", "[_ 1]");
    s = naltvigo_check_canonical_raw(two, 2, 0, 0, 256, 100, &why);
    check(s == NALTVIGO_REFUSED && are(why, NALTVIGO_TRAILING, 1, 1), "check_canonical", "0 and 0");
    why = none;
    s = naltvigo_check_valid_raw(two, 2, 0, 256, 100, &why);
    check(s == NALTVIGO_REFUSED && are(why, NALTVIGO_TRAILING, 1, 1), "check_valid", "0 and 0");
}

static void same_or_different(void) {
    static const uint8_t empty = 0x80, cut = 0x81;
    struct naltvigo_refusal why = none;
    uint32_t side = 9;
    check(naltvigo_compare_raw(streamed, 3, array, 2, 0, 256, 100, &side, &why) == NALTVIGO_OK, "compare", "same");
    uint32_t s = naltvigo_compare_raw(streamed, 3, &empty, 1, 0, 256, 100, &side, &why);
    check(s == NALTVIGO_DIFFERENT && side == 9, "compare", "different");
    s = naltvigo_compare_raw(streamed, 3, &cut, 1, 0, 256, 100, &side, &why);
    check(s == NALTVIGO_REFUSED && side == NALTVIGO_RIGHT && are(why, NALTVIGO_TRUNCATED, 1, 1), "compare", "right");
    s = naltvigo_compare_raw(&cut, 0, &cut, 1, 0, 256, 100, &side, &why);
    check(s == NALTVIGO_REFUSED && side == NALTVIGO_LEFT && are(why, NALTVIGO_TRUNCATED, 0, 0), "compare", "left");
}

static void text(void) {
    uint8_t out[5] = {0};
    size_t needed = 0;
    struct naltvigo_refusal why = none;
    uint32_t s = naltvigo_diagnostic_raw(streamed, 3, 0, 256, 100, out, 5, &needed, &why);
    check(s == NALTVIGO_OK && needed == 3 && holds(out, "[1]\0\0", 5), "diagnostic", "[_ 1]");
    s = naltvigo_diagnostic_raw(streamed, 3, 0, 256, 100, out, 2, &needed, &why);
    check(s == NALTVIGO_TOO_SMALL && needed == 3, "diagnostic", "too small");
}

static void names(void) {
    uint8_t out[10];
    memset(out, 7, sizeof out);
    check(naltvigo_reason_name_raw(12, out, 10) == 8 && holds(out, "Trailing\0\7", 10), "name", "12");
    check(naltvigo_reason_name_raw(12, out, 8) == 8, "name", "12, without space");
    check(naltvigo_reason_name_raw(20, out, 10) == 7 && holds(out, "KeyKind\0\0\7", 10), "name", "20");
    check(naltvigo_reason_name_raw(21, out, 10) == 0 && out[0] == 0, "name", "21");
    check(naltvigo_version_raw() == NALTVIGO_VERSION_NUMBER, "version", NALTVIGO_VERSION);
}

/* [_ 1] and 0, as a sequence. */
static void items_of_a_sequence(void) {
    static const uint8_t items[] = {0x9f, 1, 0xff, 0};
    uint64_t taken = 9;
    struct naltvigo_refusal why = none;
    check(naltvigo_next_valid_raw(items, 4, 0, 256, 100, &taken, &why) == NALTVIGO_OK && taken == 3, "next_valid", "[_ 1]");
    uint32_t s = naltvigo_next_canonical_raw(items + 3, 1, 0, 0, 256, 100, &taken, &why);
    check(s == NALTVIGO_OK && taken == 1, "next_canonical", "0");
    s = naltvigo_next_canonical_raw(items, 4, 0, 0, 256, 100, &taken, &why);
    check(s == NALTVIGO_REFUSED && taken == 0 && are(why, NALTVIGO_INDEFINITE, 0, 1), "next_canonical", "[_ 1]");
}

static void heads(void) {
    static const struct { uint32_t kind; uint64_t number; } no_heads[] = {{7, 24}, {7, 256}, {8, 0}};
    uint8_t out[4] = {7, 7, 7, 7};
    size_t needed = 9;
    uint32_t s = naltvigo_put_head_raw(4, 23, out, 4, &needed);
    check(s == NALTVIGO_OK && needed == 1 && holds(out, "\x97\7\7\7", 4), "put_head", "an array of 23");
    s = naltvigo_put_head_raw(2, 256, out, 4, &needed);
    check(s == NALTVIGO_OK && needed == 3 && holds(out, "\x59\1\0\7", 4), "put_head", "256 bytes");
    s = naltvigo_put_head_raw(0, 65536, out, 4, &needed);
    check(s == NALTVIGO_TOO_SMALL && needed == 5 && holds(out, "\x59\1\0\7", 4), "put_head", "65536");
    for (size_t i = 0; i < 3; i++) {
        s = naltvigo_put_head_raw(no_heads[i].kind, no_heads[i].number, out, 4, &needed);
        check(s == NALTVIGO_BAD_HEAD && needed == 0, "put_head", "no head");
    }
}

/* [100, {0: true}] */
static const uint8_t nested[] = {0x82, 0x18, 0x64, 0xa1, 0, 0xf5};

static int is(const struct naltvigo_item *item, uint32_t kind, uint64_t number, uint64_t offset, uint64_t content, uint64_t end,
              uint32_t entries) {
    return item->kind == kind && item->number == number && item->offset == offset && item->content == content && item->end == end &&
           item->entries == entries;
}

static void items_at_offsets(void) {
    static const struct naltvigo_item no_item = {0, 0, 0, 0, 0, 9};
    static const uint8_t key[] = {0, 1};
    struct naltvigo_item item = no_item;
    check(naltvigo_item_at_raw(nested, 6, 3, &item) == NALTVIGO_OK && is(&item, 5, 1, 3, 4, 6, 0), "item_at", "the map");
    check(naltvigo_find_raw(nested, 6, 3, key, 1, &item) == NALTVIGO_OK && is(&item, 7, 21, 5, 6, 6, 0), "find", "0");
    item = no_item;
    check(naltvigo_item_at_raw(nested, 6, 6, &item) == NALTVIGO_NOT_FOUND, "item_at", "the end");
    check(naltvigo_find_raw(nested, 6, 3, key + 1, 1, &item) == NALTVIGO_NOT_FOUND, "find", "1");
    check(naltvigo_find_raw(nested, 6, 0, key, 1, &item) == NALTVIGO_WRONG_KIND, "find", "in the array");
    check(is(&item, 0, 0, 0, 0, 0, 9), "item_at", "unchanged");
}

/* [_ -500, "ab", then what has no space; and numbers that no call returns. */
static void parts_of_items(void) {
    uint8_t out[8] = {7, 7, 7, 7, 7, 7, 7, 7};
    size_t needed = 0;
    uint32_t s = naltvigo_writer_open_raw(4, out, 8, &needed, NALTVIGO_OK);
    s = naltvigo_writer_int_raw(-500, out, 8, &needed, s);
    s = naltvigo_writer_string_raw(3, (const uint8_t *)"ab", 2, out, 8, &needed, s);
    check(s == NALTVIGO_OK && needed == 7 && holds(out, "\x9f\x39\x01\xf3\x62\x61\x62\x07", 8), "writer", "parts");
    s = naltvigo_writer_string_raw(2, out, 1, out + 7, 0, &needed, s);
    check(s == NALTVIGO_TOO_SMALL && needed == 9, "writer", "a string without space");
    s = naltvigo_writer_head_raw(6, 256, out, 8, &needed, s);
    s = naltvigo_writer_end_raw(out, 8, &needed, s);
    check(s == NALTVIGO_TOO_SMALL && needed == 13 && holds(out, "\x9f\x39\x01\xf3\x62\x61\x62\x07", 8), "writer", "no space");
    s = naltvigo_writer_encoded_raw(array, 1, out, 8, &needed, s);
    check(s == NALTVIGO_NOT_FOUND && needed == 13, "writer", "no item");
    check(naltvigo_writer_head_raw(7, 24, out, 8, &needed, s) == NALTVIGO_NOT_FOUND && needed == 13, "writer", "the first failure");
    needed = 6;
    check(naltvigo_writer_encoded_raw(array, 2, out, 8, &needed, NALTVIGO_OK) == NALTVIGO_OK && needed == 8 && holds(out + 6, "\x81\x01", 2), "writer", "an item");
    needed = 0;
    check(naltvigo_writer_head_raw(8, 0, out, 8, &needed, NALTVIGO_OK) == NALTVIGO_BAD_HEAD && needed == 0, "writer", "a head of kind 8");
    check(naltvigo_writer_string_raw(4, array, 2, out, 8, &needed, NALTVIGO_OK) == NALTVIGO_BAD_HEAD && needed == 0, "writer", "a string of kind 4");
    check(naltvigo_writer_open_raw(6, out, 8, &needed, NALTVIGO_OK) == NALTVIGO_BAD_HEAD && needed == 0, "writer", "an opening of kind 6");
    needed = SIZE_MAX;
    check(naltvigo_writer_int_raw(0, out, 8, &needed, 77) == 77 && needed == SIZE_MAX, "writer", "numbers of no writer");
}

/* -5, a text and true; a failure before, and why there is no item. */
static void values_of_items(void) {
    const struct naltvigo_item negative = {4, 0, 1, 1, 1, 0}, text_item = {2, 3, 4, 6, 3, 0}, yes = {21, 6, 7, 7, 7, 0};
    uint64_t number = 9;
    int64_t z = 9;
    uint32_t is_true = 9;
    size_t length = 9;
    check(naltvigo_get_int_raw(&negative, 0, &z, 0) == NALTVIGO_OK && z == -5, "get_int", "-5");
    check(naltvigo_get_int_raw(&yes, 0, &z, 0) == NALTVIGO_WRONG_KIND && z == 0, "get_int", "true");
    check(naltvigo_get_number_raw(&negative, 0, 1, &number, 0) == NALTVIGO_OK && number == 4, "get_number", "-5");
    check(naltvigo_get_number_raw(&negative, 0, 0, &number, 0) == NALTVIGO_OUT_OF_RANGE && number == 0, "get_number", "of the other sign");
    check(naltvigo_get_bool_raw(&yes, 0, &is_true, 0) == NALTVIGO_OK && is_true == 1, "get_bool", "true");
    check(naltvigo_get_string_raw(&text_item, 0, 3, &number, &length, 0) == NALTVIGO_OK && number == 4 && length == 2, "get_string", "a text");
    check(naltvigo_get_string_raw(&text_item, 0, 2, &number, &length, 0) == NALTVIGO_WRONG_KIND && number == 0 && length == 0, "get_string", "of bytes");
    check(naltvigo_get_encoded_raw(&text_item, 0, &number, &length, 0) == NALTVIGO_OK && number == 3 && length == 3, "get_encoded", "a text");
    check(naltvigo_get_count_raw(&text_item, 0, &number, 0) == NALTVIGO_WRONG_KIND && number == 0, "get_count", "a text");
    check(naltvigo_get_int_raw(&negative, NALTVIGO_NOT_FOUND, &z, 0) == NALTVIGO_NOT_FOUND && z == 0, "get_int", "no item");
    check(naltvigo_get_int_raw(&negative, NALTVIGO_NOT_FOUND, &z, NALTVIGO_WRONG_KIND) == NALTVIGO_WRONG_KIND && z == 0, "get_int", "a failure before");
}

static void all_items_in_a_table(void) {
    struct naltvigo_item items[6];
    size_t needed = 9;
    struct naltvigo_refusal why = none;
    memset(items, 0, sizeof items);
    items[5].entries = 9;
    uint32_t s = naltvigo_index_raw(nested, 6, 0, 0, 64, 100, items, 6, &needed, &why);
    check(s == NALTVIGO_OK && needed == 5, "index", "status");
    check(is(items, 4, 2, 0, 1, 6, 5) && is(items + 1, 0, 100, 1, 3, 3, 1) && is(items + 2, 5, 1, 3, 4, 6, 3), "index", "first entries");
    check(is(items + 3, 0, 0, 4, 5, 5, 1) && is(items + 4, 7, 21, 5, 6, 6, 1) && items[5].entries == 9, "index", "last entries");
    s = naltvigo_index_raw(nested, 6, 0, 0, 64, 100, items, 4, &needed, &why);
    check(s == NALTVIGO_TOO_SMALL && needed == 5, "index", "too small");
    s = naltvigo_index_raw(streamed, 3, 0, 0, 64, 100, items, 6, &needed, &why);
    check(s == NALTVIGO_REFUSED && needed == 0 && are(why, NALTVIGO_INDEFINITE, 0, 1), "index", "refused");
}

/* [1], its first byte alone, and [_ 1, byte by byte. */
static void an_item_in_parts(void) {
    struct naltvigo_checker checker = {NULL};
    size_t used = 9;
    struct naltvigo_refusal why = none;
    check(naltvigo_checker_new_raw(2, 0, 64, 100, &checker) == NALTVIGO_BAD_ORDER && !checker.memory, "checker", "order 2");
    check(naltvigo_checker_new_raw(0, 0, 64, 100, &checker) == NALTVIGO_OK && checker.memory, "checker", "new");
    check(naltvigo_checker_feed_raw(&checker, array, 1, &used, &why) == NALTVIGO_MORE && used == 1, "checker", "the head");
    check(naltvigo_checker_end_raw(&checker, &why) == NALTVIGO_REFUSED && are(why, NALTVIGO_TRUNCATED, 1, 1), "checker", "the end");
    why = none;
    check(naltvigo_checker_feed_raw(&checker, array + 1, 1, &used, &why) == NALTVIGO_OK && used == 1, "checker", "the member");
    check(naltvigo_checker_feed_raw(&checker, array, 2, &used, &why) == NALTVIGO_OK && used == 0, "checker", "after the item");
    check(naltvigo_checker_end_raw(&checker, &why) == NALTVIGO_OK && are(why, 0, 0, 0), "checker", "the end of the item");
    check(naltvigo_checker_restart_raw(2, &checker) == NALTVIGO_BAD_ORDER, "checker", "restart in order 2");
    check(naltvigo_checker_restart_raw(1, &checker) == NALTVIGO_OK, "checker", "restart");
    check(naltvigo_checker_feed_raw(&checker, streamed, 0, &used, &why) == NALTVIGO_MORE && used == 0, "checker", "no byte");
    check(naltvigo_checker_feed_raw(&checker, streamed, 2, &used, &why) == NALTVIGO_REFUSED && used == 1 && are(why, NALTVIGO_INDEFINITE, 0, 1), "checker", "[_");
    check(naltvigo_checker_free_raw(&checker) == NALTVIGO_OK && !checker.memory, "checker", "free");
}

/* Maps with limits on depth and bytes, and why each is refused if keys must be integers and texts: by the kind of a key at its
 * first byte, unless that byte is not well-formed. */
static const struct { const char *in; size_t length; uint32_t depth; uint64_t bytes; struct naltvigo_refusal why; } keys[] = {
    /* an array, false, a byte string, a tag; an array in a map in a map */
    {"\xa1\x80\x00", 3, 256, 100, {NALTVIGO_KEY_KIND, 1, 2}},
    {"\xa1\xf4\x00", 3, 256, 100, {NALTVIGO_KEY_KIND, 1, 2}},
    {"\xa1\x41\x00\x00", 4, 256, 100, {NALTVIGO_KEY_KIND, 1, 2}},
    {"\xa1\xc1\x00\x00", 4, 256, 100, {NALTVIGO_KEY_KIND, 1, 2}},
    {"\xa1\x00\xa1\x80\x00", 5, 256, 100, {NALTVIGO_KEY_KIND, 3, 4}},
    /* a simple value without its number, cut by the input's end and by the limit, and with a bad number */
    {"\xa1\xf8", 2, 256, 100, {NALTVIGO_KEY_KIND, 1, 2}},
    {"\xa1\xf8", 2, 256, 2, {NALTVIGO_KEY_KIND, 1, 2}},
    {"\xa1\xf8\x1f\x00", 4, 256, 100, {NALTVIGO_KEY_KIND, 1, 2}},
    {"\xa1\xf9\x7c\x00\x00", 5, 256, 100, {NALTVIGO_FLOAT, 1, 2}},
    {"\xa1\x80\x00", 3, 1, 100, {NALTVIGO_TOO_DEEP, 1, 2}},
};

/* The number of calls with kinds of keys; comparing counts as two of them, one for each side. */
enum { CALLS = 9, COMPARED_WITH_0 = 5 };

/* What a checker says of an input in parts of one byte. */
static uint32_t byte_by_byte(const uint8_t *in, size_t n, uint32_t kinds, uint32_t depth, uint64_t bytes, struct naltvigo_refusal *why) {
    struct naltvigo_checker checker;
    size_t used, at;
    uint32_t s = naltvigo_checker_new_raw(0, kinds, depth, bytes, &checker);
    if (s != NALTVIGO_OK) return s;
    for (s = NALTVIGO_MORE, at = 0; at < n && s == NALTVIGO_MORE; at++) s = naltvigo_checker_feed_raw(&checker, in + at, 1, &used, why);
    if (s == NALTVIGO_MORE) s = naltvigo_checker_end_raw(&checker, why);
    naltvigo_checker_free_raw(&checker);
    return s;
}

static uint32_t call(int which, const void *in, size_t n, uint32_t kinds, uint32_t depth, uint64_t bytes, struct naltvigo_refusal *why) {
    static const uint8_t zero = 0;
    uint8_t out[16];
    size_t needed;
    uint64_t taken;
    uint32_t side;
    *why = none;
    switch (which) {
    case 0: return naltvigo_canonicalise_raw(in, n, 0, kinds, depth, bytes, out, sizeof out, &needed, why);
    case 1: return naltvigo_diagnostic_raw(in, n, kinds, depth, bytes, out, sizeof out, &needed, why);
    case 2: return naltvigo_check_valid_raw(in, n, kinds, depth, bytes, why);
    case 3: return naltvigo_check_canonical_raw(in, n, 0, kinds, depth, bytes, why);
    case 4: return naltvigo_compare_raw(in, n, in, n, kinds, depth, bytes, &side, why);
    case COMPARED_WITH_0: return naltvigo_compare_raw(&zero, 1, in, n, kinds, depth, bytes, &side, why);
    case 6: return naltvigo_next_valid_raw(in, n, kinds, depth, bytes, &taken, why);
    case 7: return naltvigo_next_canonical_raw(in, n, 0, kinds, depth, bytes, &taken, why);
    default: return byte_by_byte((const uint8_t *)in, n, kinds, depth, bytes, why);
    }
}

static void kinds_of_keys(void) {
    static const char basic[] = "\xa2\x01\x00\x60\x00"; /* {1: 0, "": 0} */
    struct naltvigo_refusal why;
    for (size_t i = 0; i < sizeof keys / sizeof *keys; i++)
        for (int which = 0; which < CALLS; which++) {
            uint32_t s = call(which, keys[i].in, keys[i].length, 1, keys[i].depth, keys[i].bytes, &why);
            const struct naltvigo_refusal wanted = keys[i].why;
            check(s == NALTVIGO_REFUSED && are(why, wanted.reason, wanted.offset, wanted.consumed), "keys", "refused");
        }
    for (int which = 0; which < CALLS; which++) {
        const uint32_t wanted = which == COMPARED_WITH_0 ? NALTVIGO_DIFFERENT : NALTVIGO_OK;
        for (uint32_t kinds = 0; kinds < 2; kinds++)
            check(call(which, basic, 5, kinds, 256, 100, &why) == wanted && are(why, 0, 0, 0), "keys", "integers and texts");
        check(call(which, keys[0].in, 3, 0, 256, 100, &why) == wanted && are(why, 0, 0, 0), "keys", "any");
        check(call(which, basic, 5, 2, 256, 100, &why) == NALTVIGO_BAD_LIMITS && are(why, 0, 0, 0), "keys", "2");
        check(call(which, basic, 5, UINT32_MAX, 256, 100, &why) == NALTVIGO_BAD_LIMITS && are(why, 0, 0, 0), "keys", "2^32 - 1");
    }
}

/* {(_ ): 0} and {[_ ]: 0}. */
static void keys_without_a_length(void) {
    static const uint8_t of_text[] = {0xa1, 0x7f, 0xff, 0}, of_array[] = {0xa1, 0x9f, 0xff, 0};
    uint8_t out[4] = {7, 7, 7, 7};
    size_t needed = 0;
    struct naltvigo_refusal why = none;
    uint32_t s = naltvigo_canonicalise_raw(of_text, 4, 0, 1, 256, 100, out, 4, &needed, &why);
    check(s == NALTVIGO_OK && needed == 3 && holds(out, "\xa1\x60\x00\x07", 4), "keys", "a text of indefinite length");
    s = naltvigo_check_canonical_raw(of_array, 4, 0, 1, 256, 100, &why);
    check(s == NALTVIGO_REFUSED && are(why, NALTVIGO_KEY_KIND, 1, 2), "keys", "an array of indefinite length");
    s = naltvigo_check_canonical_raw(of_array, 4, 0, 0, 256, 100, &why);
    check(s == NALTVIGO_REFUSED && are(why, NALTVIGO_INDEFINITE, 1, 2), "keys", "any, of indefinite length");
}

int main(void) {
    canonical_bytes();
    the_two_orders();
    one_item_or_not();
    same_or_different();
    text();
    names();
    items_of_a_sequence();
    an_item_in_parts();
    heads();
    parts_of_items();
    values_of_items();
    items_at_offsets();
    all_items_in_a_table();
    kinds_of_keys();
    keys_without_a_length();
    printf("%d checks of the exports, %d fail\n", checks, faults);
    return faults != 0;
}
