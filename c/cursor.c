/* Finds and reads values with a cursor (naltvigo_cursor.h) in items that were worked out by hand. Prints the number of checks;
 * the status is 0 if all hold. */
#include <naltvigo_values.h>

#include "checks.h"
#include "hex.h"

/* A cursor at the item that has these hex digits; the bytes stay until the next call. */
static struct naltvigo_cursor open_hex(const char *hex) {
    static uint8_t *in;
    size_t n;
    struct naltvigo_cursor root;
    free(in);
    in = unhex(hex, &n);
    root = naltvigo_open(in, n, NULL, NULL);
    check(root.status == NALTVIGO_OK && root.item.offset == 0 && root.item.end == n, "open", hex);
    return root;
}

/* ---- Each getter on each kind */

enum { GETTERS = 10 };

/* The status of each getter on an item, in a row of letters: o OK, k WRONG_KIND, r OUT_OF_RANGE, t NOT_FOUND, d DIFFERENT.
 * If it is not OK, the result is 0 or empty. */
static void get_all(struct naltvigo_cursor at, uint32_t before, char *row) {
    uint32_t s[GETTERS];
    size_t length[3], i;
    uint64_t numbers[7];
    const uint8_t *bytes, *encoded;
    const char *text;
    for (i = 0; i < GETTERS; i++) s[i] = before;
    numbers[0] = naltvigo_get_uint(at, &s[0]);
    numbers[1] = naltvigo_get_negative(at, &s[1]);
    numbers[2] = (uint64_t)naltvigo_get_int(at, &s[2]);
    numbers[3] = naltvigo_get_count(at, &s[3]);
    numbers[4] = naltvigo_get_tag(at, &s[4]);
    numbers[5] = naltvigo_get_simple(at, &s[5]);
    numbers[6] = (uint64_t)naltvigo_get_bool(at, &s[6]);
    bytes = naltvigo_get_bytes(at, &length[0], &s[7]);
    text = naltvigo_get_text(at, &length[1], &s[8]);
    encoded = naltvigo_get_encoded(at, &length[2], &s[9]);
    for (i = 0; i < GETTERS; i++)
        row[i] = s[i] == NALTVIGO_OK ? 'o' : s[i] == NALTVIGO_WRONG_KIND ? 'k' : s[i] == NALTVIGO_OUT_OF_RANGE ? 'r' : s[i] == NALTVIGO_NOT_FOUND ? 't' : 'd';
    row[GETTERS] = 0;
    for (i = 0; i < 7; i++) check(s[i] == NALTVIGO_OK || numbers[i] == 0, "no number", row);
    for (i = 0; i < 3; i++) check(s[7 + i] == NALTVIGO_OK || length[i] == 0, "no length", row);
    check(bytes && text && encoded && (s[8] == NALTVIGO_OK || *text == 0), "never null", row);
}

static void each_getter_on_each_kind(void) {
    static const struct {
        const char *hex, *row;
    } kinds[] = {
        {"01", "orokkkkkko"},         {"20", "rookkkkkko"},       {"1b8000000000000000", "orrkkkkkko"},
        {"3b8000000000000000", "rorkkkkkko"}, {"4101", "kkkkkkkoko"}, {"6161", "kkkkkkkkoo"},
        {"8101", "kkkokkkkko"},       {"a10101", "kkkokkkkko"},   {"c101", "kkkkokkkko"},
        {"f4", "kkkkkookko"},         {"f5", "kkkkkookko"},       {"f6", "kkkkkokkko"},
        {"f0", "kkkkkokkko"},         {"f820", "kkkkkokkko"},
    };
    char row[GETTERS + 1];
    for (size_t i = 0; i < sizeof kinds / sizeof *kinds; i++) {
        const struct naltvigo_cursor at = open_hex(kinds[i].hex);
        get_all(at, NALTVIGO_OK, row);
        check(strcmp(row, kinds[i].row) == 0, "getters", kinds[i].hex);
        get_all(at, NALTVIGO_DIFFERENT, row); /* an earlier failure stays */
        check(strcmp(row, "dddddddddd") == 0, "sticky", kinds[i].hex);
    }
    get_all(naltvigo_next(open_hex("01")), NALTVIGO_OK, row);
    check(strcmp(row, "tttttttttt") == 0, "getters", "no item");
}

static void values_of_getters(void) {
    uint32_t status = NALTVIGO_OK;
    size_t length;
    const uint8_t *bytes = naltvigo_get_bytes(open_hex("4401020304"), &length, &status);
    check(length == 4 && memcmp(bytes, "\1\2\3\4", 4) == 0, "value", "bytes");
    check(memcmp(naltvigo_get_text(open_hex("63610062"), &length, &status), "a\0b", 3) == 0 && length == 3, "value", "text");
    check(memcmp(naltvigo_get_encoded(open_hex("d81840"), &length, &status), "\xd8\x18\x40", 3) == 0 && length == 3, "value", "encoded");
    check(naltvigo_get_count(open_hex("83010203"), &status) == 3, "value", "members");
    check(naltvigo_get_count(open_hex("a201020304"), &status) == 2, "value", "pairs");
    check(naltvigo_get_tag(open_hex("d9010000"), &status) == 256, "value", "tag");
    check(naltvigo_get_simple(open_hex("f8ff"), &status) == 255, "value", "simple");
    check(naltvigo_get_bool(open_hex("f5"), &status) == 1 && naltvigo_get_bool(open_hex("f4"), &status) == 0, "value", "bool");
    check(naltvigo_is_null(open_hex("f6")) && !naltvigo_is_null(open_hex("f7")) && !naltvigo_is_null(open_hex("16")), "value", "null");
    check(naltvigo_kind(open_hex("16")) == NALTVIGO_UNSIGNED && naltvigo_kind(naltvigo_next(open_hex("00"))) == NALTVIGO_NONE, "value", "kind");
    check(status == NALTVIGO_OK, "value", "status");
}

/* ---- Ways through arrays, maps and tags */

/* {1: "a", 10: [2, 3], -1: h'', "b": {}, [0]: 7(null), false: true} */
static const char mixed[] = "a60161610a820203204061" "62a08100c7f6f4f5";

/* The call returned the item at this offset, or no item and this status. */
static void leads_to(struct naltvigo_cursor at, uint64_t offset, const char *what) {
    check(at.status == NALTVIGO_OK && at.item.offset == offset, "leads to", what);
}
static void leads_nowhere(struct naltvigo_cursor at, uint32_t status, const char *what) {
    check(at.status == status && naltvigo_kind(at) == NALTVIGO_NONE, "leads nowhere", what);
}

static void look_ups(void) {
    const struct naltvigo_cursor map = open_hex(mixed);
    leads_to(naltvigo_at_int(map, 1), 2, "1");
    leads_to(naltvigo_at_uint(map, 10), 5, "10");
    leads_to(naltvigo_at_int(map, -1), 9, "-1");
    leads_to(naltvigo_at_text(map, "b"), 12, "b");
    leads_to(naltvigo_at_text_n(map, "bcd", 1), 12, "b of bcd");
    leads_to(naltvigo_at_encoded(map, (const uint8_t *)"\x81", 2), 15, "[0]");
    leads_to(naltvigo_at_encoded(map, (const uint8_t *)"\xf4", 1), 18, "false");
    leads_nowhere(naltvigo_at_int(map, 0), NALTVIGO_NOT_FOUND, "0");
    leads_nowhere(naltvigo_at_int(map, 2), NALTVIGO_NOT_FOUND, "2, which is in a value");
    leads_nowhere(naltvigo_at_int(map, INT64_MIN), NALTVIGO_NOT_FOUND, "INT64_MIN");
    leads_nowhere(naltvigo_at_uint(map, UINT64_MAX), NALTVIGO_NOT_FOUND, "UINT64_MAX");
    leads_nowhere(naltvigo_at_text(map, "a"), NALTVIGO_NOT_FOUND, "a, which is a value");
    leads_nowhere(naltvigo_at_text(map, ""), NALTVIGO_NOT_FOUND, "the empty text");
    leads_nowhere(naltvigo_at_text(map, "bb"), NALTVIGO_NOT_FOUND, "bb");
    leads_nowhere(naltvigo_at_encoded(map, (const uint8_t *)"\xf5", 1), NALTVIGO_NOT_FOUND, "true, which is a value");
    leads_nowhere(naltvigo_at_encoded(map, (const uint8_t *)"\x81", 1), NALTVIGO_NOT_FOUND, "a part of a key");
    leads_nowhere(naltvigo_at_encoded(map, NULL, 0), NALTVIGO_NOT_FOUND, "no bytes");
    leads_nowhere(naltvigo_at_int(naltvigo_at_int(map, 10), 2), NALTVIGO_WRONG_KIND, "a key of an array");
    leads_nowhere(naltvigo_at_text(naltvigo_at_int(map, 2), "b"), NALTVIGO_NOT_FOUND, "after what is missing");
    leads_nowhere(naltvigo_at_text(naltvigo_at_text(map, "b"), "b"), NALTVIGO_NOT_FOUND, "in an empty map");
}

/* {1: {2: 3}, 4: [5, 6]}: nothing leads out of an inner map or array. */
static void inner_ones(void) {
    const struct naltvigo_cursor map = open_hex("a201a102030482" "0506");
    const struct naltvigo_cursor value = naltvigo_at_int(naltvigo_at_int(map, 1), 2);
    leads_to(value, 4, "a value within a value");
    leads_nowhere(naltvigo_next(value), NALTVIGO_NOT_FOUND, "after the inner map");
    leads_nowhere(naltvigo_at_int(naltvigo_at_int(map, 1), 4), NALTVIGO_NOT_FOUND, "a key of the outer map");
    leads_nowhere(naltvigo_next(naltvigo_at_index(naltvigo_at_int(map, 4), 1)), NALTVIGO_NOT_FOUND, "after the inner array");
    leads_to(naltvigo_next(naltvigo_at_int(map, 1)), 5, "the next key");
    leads_nowhere(naltvigo_next(naltvigo_at_int(map, 4)), NALTVIGO_NOT_FOUND, "after the last pair");
}

static void members(void) {
    const struct naltvigo_cursor map = open_hex(mixed), array = naltvigo_at_int(map, 10);
    leads_to(naltvigo_first(array), 6, "first");
    leads_to(naltvigo_next(naltvigo_first(array)), 7, "next");
    leads_nowhere(naltvigo_next(naltvigo_next(naltvigo_first(array))), NALTVIGO_NOT_FOUND, "after the last member");
    leads_to(naltvigo_at_index(array, 0), 6, "0");
    leads_to(naltvigo_at_index(array, 1), 7, "1");
    leads_nowhere(naltvigo_at_index(array, 2), NALTVIGO_NOT_FOUND, "2");
    leads_nowhere(naltvigo_at_index(array, UINT64_MAX), NALTVIGO_NOT_FOUND, "UINT64_MAX");
    leads_nowhere(naltvigo_at_index(map, 0), NALTVIGO_WRONG_KIND, "an index of a map");
    leads_nowhere(naltvigo_at_index(naltvigo_at_int(map, 3), 0), NALTVIGO_NOT_FOUND, "an index of nothing");
    leads_nowhere(naltvigo_first(naltvigo_at_int(map, 1)), NALTVIGO_WRONG_KIND, "the first of a text");
    leads_nowhere(naltvigo_first(naltvigo_at_text(map, "b")), NALTVIGO_NOT_FOUND, "the first of an empty map");
    leads_nowhere(naltvigo_first(naltvigo_at_int(map, 3)), NALTVIGO_NOT_FOUND, "the first of nothing");
    leads_nowhere(naltvigo_next(map), NALTVIGO_NOT_FOUND, "after the whole item");
    leads_nowhere(naltvigo_first(open_hex("80")), NALTVIGO_NOT_FOUND, "the first of an empty array");
    leads_nowhere(naltvigo_at_index(open_hex("80"), 0), NALTVIGO_NOT_FOUND, "an index of an empty array");
}

/* Keys and values in turn, from the first and from a value that was looked up. */
static void pairs(void) {
    static const uint64_t places[] = {1, 2, 4, 5, 8, 9, 10, 12, 13, 15, 17, 18};
    const struct naltvigo_cursor map = open_hex(mixed);
    struct naltvigo_cursor at = naltvigo_first(map);
    size_t i;
    for (i = 0; i < 12; i++, at = naltvigo_next(at)) leads_to(at, places[i], "pairs");
    leads_nowhere(at, NALTVIGO_NOT_FOUND, "after the last pair");
    at = naltvigo_at_int(map, -1);
    for (i = 5; i < 12; i++, at = naltvigo_next(at)) leads_to(at, places[i], "pairs from one on");
    leads_nowhere(at, NALTVIGO_NOT_FOUND, "after the last pair");
}

static void tags(void) {
    const struct naltvigo_cursor tag = naltvigo_at_encoded(open_hex(mixed), (const uint8_t *)"\x81", 2);
    leads_to(naltvigo_at_tag(tag, 7), 16, "the content");
    leads_to(naltvigo_first(tag), 16, "the content");
    leads_nowhere(naltvigo_next(naltvigo_first(tag)), NALTVIGO_NOT_FOUND, "after the content");
    leads_nowhere(naltvigo_at_tag(tag, 6), NALTVIGO_WRONG_KIND, "another number");
    leads_nowhere(naltvigo_at_tag(naltvigo_at_tag(tag, 7), 7), NALTVIGO_WRONG_KIND, "no tag");
    leads_nowhere(naltvigo_at_tag(naltvigo_at_int(tag, 1), 7), NALTVIGO_WRONG_KIND, "a key of a tag");
}

/* Keys with lengths around that up to which a key is built on the stack; they differ in one byte. A byte string and
 * a value have the same bytes as keys that the map does not have. */
static void long_texts(void) {
    enum { FROM = 55, TO = 90 };
    static uint8_t items[8192], out[8192];
    char key[TO + 1];
    size_t i, needed = 0;
    uint32_t status = NALTVIGO_OK;
    struct naltvigo_cursor map;
    struct naltvigo_writer w = naltvigo_writer_to(items, sizeof items);
    memset(key, 'k', sizeof key);
    naltvigo_put_map(&w);
    for (i = FROM; i < TO; i += 2) {
        naltvigo_put_text_n(&w, key, i), naltvigo_put_uint(&w, i);
        naltvigo_put_bytes(&w, key, i + 1), naltvigo_put_text_n(&w, key, i + 1);
    }
    naltvigo_put_end(&w);
    check(naltvigo_finish(&w, NULL, out, sizeof out, &needed, NULL) == NALTVIGO_OK, "finish", "long texts");
    map = naltvigo_open(out, needed, NULL, NULL);
    for (i = FROM; i < TO; i += 2) {
        check(naltvigo_get_uint(naltvigo_at_text_n(map, key, i), &status) == i && status == NALTVIGO_OK, "long", "there");
        leads_nowhere(naltvigo_at_text_n(map, key, i + 1), NALTVIGO_NOT_FOUND, "a byte string, and a value");
        key[i - 1] = 'l';
        leads_nowhere(naltvigo_at_text_n(map, key, i), NALTVIGO_NOT_FOUND, "another last byte");
        key[i - 1] = 'k';
        leads_nowhere(naltvigo_at_text_n(naltvigo_first(map), key, i), NALTVIGO_WRONG_KIND, "a key of a string");
        leads_nowhere(naltvigo_at_text_n(naltvigo_next(map), key, i), NALTVIGO_NOT_FOUND, "a key of nothing");
    }
}

/* A long text is sought in maps alone, also where an array has it before a value. */
static void long_text_in_an_array(void) {
    static uint8_t items[256], out[256];
    char key[65];
    size_t needed = 0;
    struct naltvigo_cursor array;
    struct naltvigo_writer w = naltvigo_writer_to(items, sizeof items);
    memset(key, 'k', sizeof key);
    naltvigo_put_array_n(&w, 2), naltvigo_put_text_n(&w, key, sizeof key), naltvigo_put_int(&w, 1);
    check(naltvigo_finish(&w, NULL, out, sizeof out, &needed, NULL) == NALTVIGO_OK, "finish", "a long text");
    array = naltvigo_open(out, needed, NULL, NULL);
    leads_nowhere(naltvigo_at_text_n(array, key, sizeof key), NALTVIGO_WRONG_KIND, "a long key of an array");
}

/* ---- Opening, and one status for all */

static void opening(void) {
    struct naltvigo_refusal why = {77, 78, 79};
    struct naltvigo_options options = naltvigo_defaults();
    static const uint8_t keys[] = {0xa2, 0x20, 0, 0x18, 0x64, 0}; /* {-1: 0, 100: 0}, the shorter key first */
    leads_nowhere(naltvigo_open((const uint8_t *)"\x18", 2, NULL, &why), NALTVIGO_REFUSED, "a longer head");
    check(why.reason == NALTVIGO_NOT_SHORTEST && why.offset == 0 && why.consumed == 2, "why", "a longer head");
    leads_nowhere(naltvigo_open(NULL, 0, NULL, &why), NALTVIGO_REFUSED, "no bytes");
    check(why.reason == NALTVIGO_TRUNCATED, "why", "no bytes");
    leads_nowhere(naltvigo_open((const uint8_t *)"\0", 2, NULL, &why), NALTVIGO_REFUSED, "two items");
    check(why.reason == NALTVIGO_TRAILING && why.offset == 1, "why", "two items");
    leads_nowhere(naltvigo_open(keys, sizeof keys, NULL, NULL), NALTVIGO_REFUSED, "another order");
    options.order = NALTVIGO_LENGTH_FIRST;
    leads_to(naltvigo_at_int(naltvigo_open(keys, sizeof keys, &options, NULL), 100), 5, "100, length first");
    leads_to(naltvigo_at_int(naltvigo_open(keys, sizeof keys, &options, NULL), -1), 2, "-1, length first");
    options.order = 2;
    leads_nowhere(naltvigo_open(keys, sizeof keys, &options, NULL), NALTVIGO_BAD_ORDER, "no order");
    options.order = 0, options.depth = NALTVIGO_DEPTH_MAX + 1;
    leads_nowhere(naltvigo_open(keys, sizeof keys, &options, NULL), NALTVIGO_BAD_LIMITS, "no limits");
}

/* Each call on a cursor without an item returns a cursor with the same status. */
static void each_call_on_each_status(void) {
    const struct naltvigo_cursor map = open_hex(mixed), without[] = {
        naltvigo_open((const uint8_t *)"\x18", 2, NULL, NULL), naltvigo_at_index(map, 0), naltvigo_at_int(map, 3),
    };
    static const uint32_t wanted[] = {NALTVIGO_REFUSED, NALTVIGO_WRONG_KIND, NALTVIGO_NOT_FOUND};
    char key[65];
    memset(key, 'k', sizeof key);
    for (size_t i = 0; i < 3; i++) {
        const struct naltvigo_cursor at = without[i];
        leads_nowhere(at, wanted[i], "status");
        leads_nowhere(naltvigo_first(at), wanted[i], "first");
        leads_nowhere(naltvigo_next(at), wanted[i], "next");
        leads_nowhere(naltvigo_at_index(at, 1), wanted[i], "at_index");
        leads_nowhere(naltvigo_at_encoded(at, (const uint8_t *)"\1", 1), wanted[i], "at_encoded");
        leads_nowhere(naltvigo_at_uint(at, 1), wanted[i], "at_uint");
        leads_nowhere(naltvigo_at_int(at, 1), wanted[i], "at_int");
        leads_nowhere(naltvigo_at_text(at, "b"), wanted[i], "at_text");
        leads_nowhere(naltvigo_at_text_n(at, key, sizeof key), wanted[i], "at_text_n, a long key");
        leads_nowhere(naltvigo_at_tag(at, 7), wanted[i], "at_tag");
    }
}

/* The status is that of the first failure of several getters, and the getters after it return 0. */
static void one_status(void) {
    const struct naltvigo_cursor map = open_hex(mixed);
    uint32_t status = NALTVIGO_OK;
    size_t length;
    check(*naltvigo_get_text(naltvigo_at_int(map, 1), &length, &status) == 'a' && status == NALTVIGO_OK, "one status", "OK");
    check(naltvigo_get_bool(naltvigo_at_int(map, -1), &status) == 0 && status == NALTVIGO_WRONG_KIND, "one status", "the first failure");
    check(naltvigo_get_int(naltvigo_at_int(map, 3), &status) == 0 && status == NALTVIGO_WRONG_KIND, "one status", "a second one");
    check(naltvigo_get_count(naltvigo_at_int(map, 10), &status) == 0, "one status", "after it");
    status = NALTVIGO_OK;
    check(naltvigo_get_int(naltvigo_open((const uint8_t *)"\x18", 2, NULL, NULL), &status) == 0 && status == NALTVIGO_REFUSED, "one status", "of opening");
}

int main(void) {
    each_getter_on_each_kind();
    values_of_getters();
    look_ups();
    inner_ones();
    members();
    pairs();
    tags();
    long_texts();
    long_text_in_an_array();
    opening();
    each_call_on_each_status();
    one_status();
    printf("%d checks of a cursor, %d fail\n", checks, faults);
    return faults != 0;
}
