/* Reads bytes that changed under a cursor (naltvigo_cursor.h), which no caller should allow: no call may read outside the
 * input, each must return, and a walk over all items must end. In canonical items each byte is changed to each other value,
 * and the item is cut at each offset; random items are changed at several offsets at once.
 *
 *     damaged [SEED [COUNT]]
 *
 * Each input is a block of exactly its length: a sanitizer or valgrind sees what is read outside it. Prints the number of
 * inputs; the status is 0 if nothing was wrong. */
#include <naltvigo_values.h>

#include "checks.h"
#include "hex.h"
#include "samples.h"

/* An input, the number of items in the walk over it, and the number of inputs. */
static const uint8_t *in;
static size_t in_length, visited;
static unsigned long inputs, still_canonical, between_neighbours;

static void lies_within(const void *from, size_t length, uint32_t status, const char *what) {
    const uint8_t *bytes = from;
    if (status == NALTVIGO_OK) check(bytes >= in && length <= in_length && bytes <= in + in_length - length, "within", what);
    else check(length == 0, "empty", what);
}

static void is_within(struct naltvigo_cursor at, const char *what) {
    if (at.status == NALTVIGO_OK)
        check(at.item.offset < at.item.content && at.item.content <= at.item.end && at.item.end <= at.length && at.length <= in_length, "within", what);
    else check(naltvigo_kind(at) == NALTVIGO_NONE, "no item", what);
}

static void get_all(struct naltvigo_cursor at) {
    uint32_t s[10] = {0};
    size_t length = 0;
    const void *bytes = naltvigo_get_bytes(at, &length, &s[0]);
    lies_within(bytes, length, s[0], "bytes");
    bytes = naltvigo_get_text(at, &length, &s[1]);
    lies_within(bytes, length, s[1], "text");
    bytes = naltvigo_get_encoded(at, &length, &s[2]);
    lies_within(bytes, length, s[2], "encoded");
    naltvigo_get_uint(at, &s[3]), naltvigo_get_int(at, &s[4]), naltvigo_get_negative(at, &s[5]);
    naltvigo_get_count(at, &s[6]), naltvigo_get_tag(at, &s[7]), naltvigo_get_simple(at, &s[8]), naltvigo_get_bool(at, &s[9]);
}

static void look_up(struct naltvigo_cursor at) {
    static char long_key[100];
    memset(long_key, '1', sizeof long_key);
    is_within(naltvigo_at_int(at, 1), "at_int");
    is_within(naltvigo_at_int(at, -1), "at_int");
    is_within(naltvigo_at_uint(at, UINT64_MAX), "at_uint");
    is_within(naltvigo_at_text(at, "a"), "at_text");
    is_within(naltvigo_at_text_n(at, long_key, sizeof long_key), "at_text_n");
    is_within(naltvigo_at_encoded(at, (const uint8_t *)"\x81", 2), "at_encoded");
    is_within(naltvigo_at_encoded(at, NULL, 0), "at_encoded");
    is_within(naltvigo_at_index(at, 1), "at_index");
    is_within(naltvigo_at_index(at, UINT64_MAX - 1), "at_index");
    is_within(naltvigo_at_tag(at, at.item.number), "at_tag");
}

/* Each item begins after the one before it, so a walk that ends has at most as many items as there are bytes. */
static void walk(struct naltvigo_cursor at) {
    struct naltvigo_cursor member;
    check(++visited <= in_length, "walk", "ends");
    if (visited > in_length) exit(1);
    is_within(at, "item");
    get_all(at);
    look_up(at);
    for (member = naltvigo_first(at); member.status == NALTVIGO_OK; member = naltvigo_next(member)) {
        check(member.item.offset >= at.item.content && member.item.end <= at.item.end, "walk", "in its container");
        walk(member);
    }
    is_within(naltvigo_next(at), "next");
}

/* If bytes that naltvigo_put_encoded put between two members can be finished, they are one member. */
static void keeps_its_neighbours(const uint8_t *bytes, size_t length) {
    static uint8_t items[8192], out[8192];
    size_t needed = 0;
    uint32_t status = NALTVIGO_OK;
    struct naltvigo_cursor array;
    struct naltvigo_writer writer = naltvigo_writer_to(items, sizeof items);
    naltvigo_put_array(&writer), naltvigo_put_uint(&writer, 1111);
    naltvigo_put_encoded(&writer, bytes, length);
    naltvigo_put_uint(&writer, 2222), naltvigo_put_end(&writer);
    if (naltvigo_finish(&writer, NULL, out, sizeof out, &needed, NULL) != NALTVIGO_OK) return;
    array = naltvigo_open(out, needed, NULL, NULL);
    check(naltvigo_get_count(array, &status) == 3 && status == NALTVIGO_OK, "put_encoded", "one member");
    check(naltvigo_get_uint(naltvigo_at_index(array, 2), &status) == 2222 && status == NALTVIGO_OK, "put_encoded", "its neighbour");
    between_neighbours++;
}

/* Visits the items of an input from its first item as it is now, and from what a cursor found before the change. */
static void try_input(const uint8_t *bytes, size_t length, const struct naltvigo_cursor *before) {
    const struct naltvigo_cursor now = naltvigo_cursor_at(bytes, length, 0);
    struct naltvigo_writer writer = naltvigo_writer_to(NULL, 0);
    in = bytes, in_length = length, inputs++;
    still_canonical += naltvigo_open(bytes, length, NULL, NULL).status == NALTVIGO_OK;
    visited = 0;
    if (now.status == NALTVIGO_OK) walk(now);
    visited = 0;
    if (before) walk(*before);
    naltvigo_put_encoded(&writer, bytes, length);
    check((writer.needed == length) == (now.status == NALTVIGO_OK && now.item.end == length), "put_encoded", "whole items alone");
    if (writer.needed) keeps_its_neighbours(bytes, length);
}

static void change_each_byte(const uint8_t *item, size_t n) {
    uint8_t *bytes = room_for(n);
    struct naltvigo_cursor before;
    memcpy(bytes, item, n);
    before = naltvigo_open(bytes, n, NULL, NULL);
    check(before.status == NALTVIGO_OK, "open", "canonical bytes");
    for (size_t i = 0; i < n; i++) {
        for (unsigned change = 1; change < 256; change++) {
            bytes[i] = (uint8_t)(item[i] ^ change);
            try_input(bytes, n, &before);
        }
        bytes[i] = item[i];
    }
    free(bytes);
}

static void cut_at_each_place(const uint8_t *item, size_t n) {
    for (size_t length = 1; length < n; length++) {
        uint8_t *bytes = room_for(length);
        memcpy(bytes, item, length);
        try_input(bytes, length, NULL);
        check(naltvigo_cursor_at(bytes, length, 0).status == NALTVIGO_NOT_FOUND, "cut", "no item");
        free(bytes);
    }
}

static void change_at_random(void) {
    uint8_t items[4096], out[4096], *bytes;
    size_t length = 0, n;
    struct naltvigo_writer w = naltvigo_writer_to(items, sizeof items);
    struct naltvigo_cursor before;
    put_sample(&w, 4);
    if (naltvigo_finish(&w, NULL, out, sizeof out, &length, NULL) != NALTVIGO_OK) return;
    n = (size_t)(below(3) ? length : 1 + below(length));
    bytes = room_for(n);
    memcpy(bytes, out, n);
    before = naltvigo_open(bytes, n, NULL, NULL);
    for (uint64_t changes = 1 + below(4); changes; changes--) bytes[below(n)] = (uint8_t)(below(2) ? draw() : below(8) << 5 | (24 + below(8)));
    try_input(bytes, n, before.status == NALTVIGO_OK ? &before : NULL);
    free(bytes);
}

/* Each kind, and each width of a head, around the others. */
static const char *const canonical_items[] = {
    "00", "1864", "1903e8", "1a000f4240", "1b000000e8d4a51000", "3bffffffffffffffff", "4401020304", "63e6b0b4", "f4", "f8ff",
    "80", "83010203", "8301820203820405", "a0", "a201020304", "a26161016162820203", "826161a161626163", "c11a514b67b0",
    "d818456449455446", "d90100d9d9f7c0f6", "a56161614161626142616361436164614461656145",
    "a80a021864032004617a056261610181186406812007f408", "581e000102030405060708090a0b0c0d0e0f101112131415161718191a1b1c1d",
    "98190102030405060708090a0b0c0d0e0f101112131415161718181819", "a101a101a101a101a101a10180", "818181818181818181a10000",
};

int main(int count, char **words) {
    const unsigned long times = count > 2 ? strtoul(words[2], NULL, 10) : 100000;
    if (count > 1) seed = strtoul(words[1], NULL, 10) | 1;
    for (size_t i = 0; i < sizeof canonical_items / sizeof *canonical_items; i++) {
        size_t n;
        uint8_t *item = unhex(canonical_items[i], &n);
        change_each_byte(item, n);
        cut_at_each_place(item, n);
        free(item);
    }
    for (unsigned long i = 0; i < times; i++) change_at_random();
    check(between_neighbours >= still_canonical, "put_encoded", "canonical ones");
    printf("%lu damaged inputs, %lu of them canonical again; %d checks, %d fail\n", inputs, still_canonical, checks, faults);
    return faults != 0;
}
