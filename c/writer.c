/* Puts values with a writer (naltvigo_writer.h), and reads integers back. The bytes are those of RFC 8949, appendix A and
 * section 4.2.1, or worked out by hand. Prints the number of checks; the status is 0 if all hold. */
#include <naltvigo_values.h>

#include "checks.h"
#include "hex.h"

static const struct naltvigo_refusal unset = {77, 78, 79};

/* The canonical bytes of what was put are these. */
static void becomes_by(const struct naltvigo_options *options, const struct naltvigo_writer *writer, const char *hex) {
    size_t m, needed = 999;
    uint8_t *wanted = unhex(hex, &m), *out = room_for(m);
    struct naltvigo_refusal why = unset;
    check(naltvigo_finish(writer, options, NULL, 0, &needed, &why) == NALTVIGO_TOO_SMALL && needed == m, "length", hex);
    needed = 999;
    check(naltvigo_finish(writer, options, out, m, &needed, &why) == NALTVIGO_OK && needed == m, "finish", hex);
    check(memcmp(out, wanted, m) == 0 && why.reason == unset.reason, "canonical bytes", hex);
    free(wanted), free(out);
}

static void becomes(const struct naltvigo_writer *writer, const char *hex) { becomes_by(NULL, writer, hex); }

/* ---- Integers: the boundaries of the heads, and those of the types of C */

static const struct {
    uint64_t number;
    const char *hex;
} integers[] = {
    {0, "00"},
    {1, "01"},
    {10, "0a"},
    {23, "17"},
    {24, "1818"},
    {99, "1863"},
    {100, "1864"},
    {255, "18ff"},
    {256, "190100"},
    {999, "1903e7"},
    {1000, "1903e8"},
    {65535, "19ffff"},
    {65536, "1a00010000"},
    {1000000, "1a000f4240"},
    {4294967295u, "1affffffff"},
    {UINT64_C(4294967296), "1b0000000100000000"},
    {UINT64_C(1000000000000), "1b000000e8d4a51000"},
    {INT64_MAX, "1b7fffffffffffffff"},
    {UINT64_C(1) << 63, "1b8000000000000000"},
    {UINT64_MAX, "1bffffffffffffffff"},
};

/* Puts an integer: unsigned, or -1 minus the number; with its own call, or as int64_t if it is in range. */
static void puts_integer(uint64_t number, int is_negative, int by_int, const char *hex) {
    uint8_t items[9];
    struct naltvigo_writer writer = naltvigo_writer_to(items, sizeof items);
    if (by_int) naltvigo_put_int(&writer, is_negative ? -1 - (int64_t)number : (int64_t)number);
    else if (is_negative) naltvigo_put_negative(&writer, number);
    else naltvigo_put_uint(&writer, number);
    check(writer.status == NALTVIGO_OK, "put an integer", hex);
    becomes(&writer, hex);
}

static void reads_integer(uint64_t number, int is_negative, const char *hex) {
    size_t n;
    uint8_t *in = unhex(hex, &n);
    const struct naltvigo_cursor at = naltvigo_open(in, n, NULL, NULL);
    const int64_t as_int = number > INT64_MAX ? 0 : is_negative ? -1 - (int64_t)number : (int64_t)number;
    uint32_t status = NALTVIGO_OK;
    check(naltvigo_get_int(at, &status) == as_int, "int", hex);
    check(status == (number > INT64_MAX ? NALTVIGO_OUT_OF_RANGE : NALTVIGO_OK), "int's range", hex);
    status = NALTVIGO_OK;
    check(naltvigo_get_uint(at, &status) == (is_negative ? 0 : number), "uint", hex);
    check(status == (is_negative ? NALTVIGO_OUT_OF_RANGE : NALTVIGO_OK), "uint's range", hex);
    status = NALTVIGO_OK;
    check(naltvigo_get_negative(at, &status) == (is_negative ? number : 0), "negative", hex);
    check(status == (is_negative ? NALTVIGO_OK : NALTVIGO_OUT_OF_RANGE), "negative's range", hex);
    free(in);
}

static void integers_both_ways(void) {
    for (size_t i = 0; i < sizeof integers / sizeof *integers; i++) {
        for (int is_negative = 0; is_negative < 2; is_negative++) {
            char hex[19];
            strcpy(hex, integers[i].hex);
            hex[0] = (char)(hex[0] + 2 * is_negative); /* major type 1 */
            puts_integer(integers[i].number, is_negative, 0, hex);
            if (integers[i].number <= INT64_MAX) puts_integer(integers[i].number, is_negative, 1, hex);
            reads_integer(integers[i].number, is_negative, hex);
        }
    }
}

/* ---- Other items, with all calls that put them */

static void put_24_tags(struct naltvigo_writer *w) {
    naltvigo_put_tag(w, 24);
    naltvigo_put_bytes(w, "dIETF", 5);
}

static void put_numbers_to_25(struct naltvigo_writer *w) {
    for (int i = 1; i <= 25; i++) naltvigo_put_int(w, i);
}

/* The keys of section 4.2.1, the last one first. */
static void put_keys_in_no_order(struct naltvigo_writer *w) {
    naltvigo_put_map_n(w, 8);
    naltvigo_put_bool(w, 0), naltvigo_put_int(w, 8);
    naltvigo_put_array_n(w, 1), naltvigo_put_int(w, -1), naltvigo_put_int(w, 7);
    naltvigo_put_array(w), naltvigo_put_int(w, 100), naltvigo_put_end(w), naltvigo_put_int(w, 6);
    naltvigo_put_text(w, "z"), naltvigo_put_int(w, 5);
    naltvigo_put_int(w, -1), naltvigo_put_int(w, 4);
    naltvigo_put_int(w, 100), naltvigo_put_int(w, 3);
    naltvigo_put_int(w, 10), naltvigo_put_int(w, 2);
    naltvigo_put_text(w, "aa"), naltvigo_put_int(w, 1);
}

/* Puts a row's items, and returns their canonical bytes; null after the last row. */
static const char *put_scalar(int row, struct naltvigo_writer *w) {
    switch (row) {
    case 0: return naltvigo_put_bool(w, 0), "f4";
    case 1: return naltvigo_put_bool(w, 1), "f5";
    case 2: return naltvigo_put_bool(w, -256), "f5";
    case 3: return naltvigo_put_null(w), "f6";
    case 4: return naltvigo_put_undefined(w), "f7";
    case 5: return naltvigo_put_simple(w, 16), "f0";
    case 6: return naltvigo_put_simple(w, 32), "f820";
    case 7: return naltvigo_put_simple(w, 255), "f8ff";
    case 8: return naltvigo_put_tag(w, 1), naltvigo_put_uint(w, 1363896240), "c11a514b67b0";
    case 9: return naltvigo_put_tag(w, 23), naltvigo_put_bytes(w, "\1\2\3\4", 4), "d74401020304";
    case 10: return put_24_tags(w), "d818456449455446";
    case 11: return naltvigo_put_tag(w, 32), naltvigo_put_text(w, "http://www.example.com"), "d82076687474703a2f2f7777772e6578616d706c652e636f6d";
    case 12: return naltvigo_put_bytes(w, NULL, 0), "40";
    case 13: return naltvigo_put_bytes(w, "\1\2\3\4", 4), "4401020304";
    case 14: return naltvigo_put_text(w, ""), "60";
    case 15: return naltvigo_put_text_n(w, NULL, 0), "60";
    case 16: return naltvigo_put_text(w, "IETF"), "6449455446";
    case 17: return naltvigo_put_text(w, "\"\\"), "62225c";
    case 18: return naltvigo_put_text(w, "\xc3\xbc"), "62c3bc";
    case 19: return naltvigo_put_text(w, "\xf0\x90\x85\x91"), "64f0908591";
    case 20: return naltvigo_put_text_n(w, "a\0b", 3), "63610062";
    default: return NULL;
    }
}

static const char *put_container(int row, struct naltvigo_writer *w) {
    static const char to_25[] = "98190102030405060708090a0b0c0d0e0f101112131415161718181819";
    switch (row) {
    case 0: return naltvigo_put_array_n(w, 0), "80";
    case 1: return naltvigo_put_array(w), naltvigo_put_end(w), "80";
    case 2: return naltvigo_put_map_n(w, 0), "a0";
    case 3: return naltvigo_put_map(w), naltvigo_put_end(w), "a0";
    case 4: /* [1, [2, 3], [4, 5]] */
        naltvigo_put_array_n(w, 3), naltvigo_put_int(w, 1);
        naltvigo_put_array(w), naltvigo_put_int(w, 2), naltvigo_put_int(w, 3), naltvigo_put_end(w);
        naltvigo_put_encoded(w, (const uint8_t *)"\x82\4\5", 3);
        return "8301820203820405";
    case 5: return naltvigo_put_array(w), put_numbers_to_25(w), naltvigo_put_end(w), to_25;
    case 6: return naltvigo_put_array_n(w, 25), put_numbers_to_25(w), to_25;
    case 7: /* {"Fun": true, "Amt": -2}, out of order */
        naltvigo_put_map(w), naltvigo_put_text(w, "Fun"), naltvigo_put_bool(w, 1);
        naltvigo_put_text(w, "Amt"), naltvigo_put_int(w, -2), naltvigo_put_end(w);
        return "a263416d74216346756ef5";
    case 8: return put_keys_in_no_order(w), "a80a021864032004617a056261610181186406812007f408";
    default: return NULL;
    }
}

/* Puts a row into buffers with space for nothing and up to a byte more than needed. */
static int puts_row(const char *(*put)(int, struct naltvigo_writer *), int row) {
    struct naltvigo_writer counted = naltvigo_writer_to(NULL, 0);
    const char *hex = put(row, &counted);
    if (!hex) return 0;
    check(counted.status == NALTVIGO_TOO_SMALL, "counted", hex);
    for (size_t space = 0; space <= counted.needed + 1; space++) {
        uint8_t *items = room_for(space);
        size_t needed = 999;
        struct naltvigo_writer writer = naltvigo_writer_to(items, space);
        put(row, &writer);
        check(writer.needed == counted.needed, "needed", hex);
        check(writer.status == (space < counted.needed ? NALTVIGO_TOO_SMALL : NALTVIGO_OK), "space", hex);
        if (writer.status == NALTVIGO_OK) becomes(&writer, hex);
        else check(naltvigo_finish(&writer, NULL, items, 0, &needed, NULL) == NALTVIGO_TOO_SMALL && needed == counted.needed, "finish without space", hex);
        free(items);
    }
    return 1;
}

/* Strings and encoded items of each width of the head, and counts that need eight bytes. The heads are of section 3. */
static void long_ones(void) {
    static const struct {
        size_t length;
        const char *head;
    } strings[] = {{24, "5818"}, {255, "58ff"}, {256, "590100"}, {300, "59012c"}, {65535, "59ffff"}, {65536, "5a00010000"}, {70000, "5a00011170"}};
    static uint8_t from[70000], items[70005], again[70005];
    memset(from, 'a', sizeof from);
    for (size_t i = 0; i < sizeof strings / sizeof *strings; i++) {
        const size_t length = strings[i].length;
        for (int is_text = 0; is_text < 2; is_text++) {
            struct naltvigo_writer w = naltvigo_writer_to(items, sizeof items), once = naltvigo_writer_to(again, sizeof again);
            size_t n;
            uint8_t *head = unhex(strings[i].head, &n);
            head[0] = (uint8_t)(head[0] + 32 * is_text); /* major type 3 */
            if (is_text) naltvigo_put_text_n(&w, (const char *)from, length);
            else naltvigo_put_bytes(&w, from, length);
            check(w.status == NALTVIGO_OK && w.needed == n + length, "a long string", strings[i].head);
            check(memcmp(items, head, n) == 0 && memcmp(items + n, from, length) == 0, "its bytes", strings[i].head);
            naltvigo_put_encoded(&once, items, w.needed);
            check(once.status == NALTVIGO_OK && once.needed == w.needed && memcmp(items, again, w.needed) == 0, "encoded", strings[i].head);
            free(head);
        }
    }
    for (int is_map = 0; is_map < 2; is_map++) {
        struct naltvigo_writer w = naltvigo_writer_to(items, sizeof items);
        if (is_map) naltvigo_put_map_n(&w, UINT64_C(1) << 32);
        else naltvigo_put_array_n(&w, UINT64_C(1) << 32);
        check(w.needed == 9 && memcmp(items, is_map ? "\xbb\0\0\0\1\0\0\0\0" : "\x9b\0\0\0\1\0\0\0\0", 9) == 0, "a long count", is_map ? "map" : "array");
    }
}

/* ---- What goes wrong in writing */

/* There are no simple values from 24 to 31, and more space does not fix that. */
static void simple_values_that_do_not_exist(void) {
    for (int number = 0; number < 256; number++) {
        uint8_t items[4];
        size_t needed = 999;
        struct naltvigo_writer writer = naltvigo_writer_to(items, number % 2 ? 0 : sizeof items);
        const uint32_t space = number % 2 ? NALTVIGO_TOO_SMALL : NALTVIGO_OK, bad = number / 8 == 3;
        naltvigo_put_null(&writer);
        naltvigo_put_simple(&writer, (uint8_t)number);
        naltvigo_put_null(&writer);
        check(writer.status == (bad ? NALTVIGO_BAD_HEAD : space), "simple", "status");
        if (bad) check(naltvigo_finish(&writer, NULL, NULL, 0, &needed, NULL) == NALTVIGO_BAD_HEAD && needed == 0, "simple", "finish");
    }
}

/* Bytes that would end the array around them, or include the next item, are not put. */
static void only_whole_items_are_put(void) {
    static const char *const others[] = {"", "0101", "01ff", "ff", "81", "4201", "18", "1c", "a100", "c1", "8201", "9f01ff", "5f4101ff"};
    static const char *const whole[] = {"00", "420102", "82018102", "a10002", "c100", "1800", "f6"};
    uint8_t items[32], *bytes;
    size_t n, needed = 999;
    for (size_t i = 0; i < sizeof others / sizeof *others; i++) {
        struct naltvigo_writer writer = naltvigo_writer_to(items, i % 2 ? sizeof items : 0);
        bytes = unhex(others[i], &n);
        naltvigo_put_encoded(&writer, bytes, n);
        check(writer.status == NALTVIGO_NOT_FOUND && writer.needed == 0, "no item", others[i]);
        naltvigo_put_int(&writer, 1);
        check(naltvigo_finish(&writer, NULL, items, sizeof items, &needed, NULL) == NALTVIGO_NOT_FOUND && needed == 0, "no item, finish", others[i]);
        free(bytes);
    }
    for (size_t i = 0; i < sizeof whole / sizeof *whole; i++) {
        struct naltvigo_writer writer = naltvigo_writer_to(items, sizeof items);
        bytes = unhex(whole[i], &n);
        naltvigo_put_encoded(&writer, bytes, n);
        check(writer.status == NALTVIGO_OK && writer.needed == n && memcmp(items, bytes, n) == 0, "an item", whole[i]);
        free(bytes);
    }
}

static void is_refused(const struct naltvigo_writer *writer, uint32_t reason, uint64_t offset, const char *what) {
    uint8_t out[64];
    size_t needed = 999;
    struct naltvigo_refusal why = unset;
    check(naltvigo_finish(writer, NULL, out, sizeof out, &needed, &why) == NALTVIGO_REFUSED && needed == 0, "refused", what);
    check(why.reason == reason && why.offset == offset, "why", what);
}

static void mistakes_are_refused(void) {
    uint8_t items[64];
    struct naltvigo_writer w = naltvigo_writer_to(items, sizeof items), one_of_two;
    is_refused(&w, NALTVIGO_TRUNCATED, 0, "nothing was put");
    naltvigo_put_array_n(&w, 2), naltvigo_put_int(&w, 1);
    is_refused(&w, NALTVIGO_TRUNCATED, 2, "one of two members");
    one_of_two = w;
    naltvigo_put_int(&w, 2), naltvigo_put_int(&w, 3);
    is_refused(&w, NALTVIGO_TRAILING, 3, "three of two members");
    w = one_of_two; /* back to there */
    naltvigo_put_end(&w);
    is_refused(&w, NALTVIGO_STRAY_BREAK, 2, "an end after a count");
    w = naltvigo_writer_to(items, sizeof items);
    naltvigo_put_map(&w), naltvigo_put_int(&w, 1), naltvigo_put_end(&w);
    is_refused(&w, NALTVIGO_STRAY_BREAK, 2, "a key without a value");
    w = naltvigo_writer_to(items, sizeof items);
    naltvigo_put_map(&w), naltvigo_put_int(&w, 1), naltvigo_put_null(&w), naltvigo_put_int(&w, 1), naltvigo_put_null(&w);
    is_refused(&w, NALTVIGO_REPEATED_KEY, 3, "equal keys");
    w = naltvigo_writer_to(items, sizeof items);
    naltvigo_put_text_n(&w, "a\xff", 2);
    is_refused(&w, NALTVIGO_INVALID_TEXT, 2, "no UTF-8");
}

/* The options of naltvigo_finish are those of naltvigo_canonicalise. */
static void finishes_by_options(void) {
    uint8_t items[64];
    size_t needed = 999;
    struct naltvigo_options options = naltvigo_defaults();
    struct naltvigo_writer writer = naltvigo_writer_to(items, sizeof items);
    put_keys_in_no_order(&writer);
    options.order = NALTVIGO_LENGTH_FIRST;
    becomes_by(&options, &writer, "a80a022004f408186403617a058120076261610181186406");
    options.order = 2;
    check(naltvigo_finish(&writer, &options, NULL, 0, &needed, NULL) == NALTVIGO_BAD_ORDER && needed == 0, "options", "order");
    options = naltvigo_defaults();
    options.depth = 1;
    check(naltvigo_finish(&writer, &options, NULL, 0, &needed, NULL) == NALTVIGO_REFUSED && needed == 0, "options", "depth");
}

/* A count that does not fit is the maximum. */
static void counts_without_wrapping(void) {
    struct naltvigo_writer writer = naltvigo_writer_to(NULL, 0);
    writer.needed = SIZE_MAX - 1; /* as if this number of bytes had been put */
    naltvigo_put_int(&writer, 1000);
    check(writer.needed == SIZE_MAX && writer.status == NALTVIGO_TOO_SMALL, "count", "greatest");
    writer = naltvigo_writer_to(NULL, 100); /* nothing is written to a null buffer, whatever its length */
    naltvigo_put_text(&writer, "abc");
    check(writer.needed == 4 && writer.status == NALTVIGO_TOO_SMALL, "count", "no buffer");
}

int main(void) {
    int row;
    integers_both_ways();
    for (row = 0; puts_row(put_scalar, row); row++) continue;
    check(row == 21, "rows", "of scalars");
    for (row = 0; puts_row(put_container, row); row++) continue;
    check(row == 9, "rows", "of containers");
    long_ones();
    simple_values_that_do_not_exist();
    only_whole_items_are_put();
    mistakes_are_refused();
    finishes_by_options();
    counts_without_wrapping();
    printf("%d checks of a writer, %d fail\n", checks, faults);
    return faults != 0;
}
