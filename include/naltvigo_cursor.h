/* naltvigo_cursor.h: reads values of C from canonical CBOR. naltvigo_values.h has an overview and an example. */
#ifndef NALTVIGO_CURSOR_H
#define NALTVIGO_CURSOR_H

#include "naltvigo_writer.h"

#ifdef __cplusplus
extern "C" {
#endif

/* A cursor: an item in canonical bytes, or the status that says why there is none. */
struct naltvigo_cursor {
    const uint8_t *in;         /* the input; the offsets of the item count from its first byte */
    size_t length;             /* the end of the array, map or tag around the item, or the length of the input */
    struct naltvigo_item item; /* of kind NALTVIGO_NONE if there is none */
    uint32_t status;           /* OK, or why there is no item */
};

/* Internal: a cursor without an item. */
static inline struct naltvigo_cursor naltvigo_cursor_none(uint32_t status) {
    static const uint8_t nothing = 0;
    struct naltvigo_cursor none;
    none.in = &nothing;
    none.length = 0;
    none.item.number = none.item.offset = none.item.content = none.item.end = 0;
    none.item.kind = NALTVIGO_NONE;
    none.item.entries = 0;
    none.status = status;
    return none;
}

/* Internal: the item at an offset, within the first `length` bytes. */
static inline struct naltvigo_cursor naltvigo_cursor_at(const uint8_t *in, uint64_t length, uint64_t offset) {
    struct naltvigo_cursor found;
    found.in = in;
    found.length = NALTVIGO_CAST(size_t, length);
    found.status = naltvigo_item_at(in, found.length, offset, &found.item);
    return found.status == NALTVIGO_OK ? found : naltvigo_cursor_none(found.status);
}

/*
 * naltvigo_open: a cursor at the one item that the whole input must be, in canonical bytes.
 *
 * Its status is what naltvigo_check_canonical returns: OK, REFUSED, BAD_ORDER, BAD_LIMITS. Canonicalise input in another
 * encoding first. In a sequence, naltvigo_next_canonical returns the length of the first item.
 */
static inline struct naltvigo_cursor naltvigo_open(const uint8_t *in, size_t in_length,
                                                   const struct naltvigo_options *options,
                                                   struct naltvigo_refusal *refusal) {
    const uint32_t status = naltvigo_check_canonical(in, in_length, options, refusal);
    return status == NALTVIGO_OK ? naltvigo_cursor_at(in, in_length, 0) : naltvigo_cursor_none(status);
}

/*
 * The calls below return a cursor at another item. For a cursor without an item they return a cursor with the same status.
 * So it is enough to check the status at the end of a chain of calls. WRONG_KIND: the item is not of the kind that the call
 * needs. NOT_FOUND: there is no such member, or no pair with that key. A call reads the whole item that it returns. A look-up
 * also reads the members or pairs before this item.
 */

/* The first member of an array, the first key of a map, the content of a tag. */
static inline struct naltvigo_cursor naltvigo_first(struct naltvigo_cursor at) {
    if (at.status != NALTVIGO_OK) return at;
    if (at.item.kind < NALTVIGO_ARRAY || at.item.kind > NALTVIGO_TAG) return naltvigo_cursor_none(NALTVIGO_WRONG_KIND);
    return naltvigo_cursor_at(at.in, at.item.end, at.item.content);
}

/* The next member of the array or map around the item. In a map the next member after a key is its value, and the next
 * after a value is the next key, so a pair takes two calls. NOT_FOUND after the last one. */
static inline struct naltvigo_cursor naltvigo_next(struct naltvigo_cursor at) {
    return at.status == NALTVIGO_OK ? naltvigo_cursor_at(at.in, at.length, at.item.end) : at;
}

/* The member of an array at an index, from 0. It reads all members before it: to visit all, use naltvigo_next. */
static inline struct naltvigo_cursor naltvigo_at_index(struct naltvigo_cursor array, uint64_t index) {
    struct naltvigo_cursor member;
    if (array.status != NALTVIGO_OK) return array;
    if (array.item.kind != NALTVIGO_ARRAY) return naltvigo_cursor_none(NALTVIGO_WRONG_KIND);
    for (member = naltvigo_first(array); index && member.status == NALTVIGO_OK; index--) member = naltvigo_next(member);
    return member;
}

/* The value of the key with these canonical bytes. */
static inline struct naltvigo_cursor naltvigo_at_encoded(struct naltvigo_cursor map, const uint8_t *key,
                                                         size_t length) {
    struct naltvigo_cursor value = map;
    if (map.status != NALTVIGO_OK) return map;
    value.length = NALTVIGO_CAST(size_t, map.item.end);
    value.status = naltvigo_find(map.in, value.length, map.item.offset, key, length, &value.item);
    return value.status == NALTVIGO_OK ? value : naltvigo_cursor_none(value.status);
}

/* The value of an integer key from 0 to 2^64 - 1. */
static inline struct naltvigo_cursor naltvigo_at_uint(struct naltvigo_cursor map, uint64_t key) {
    uint8_t bytes[9];
    struct naltvigo_writer writer = naltvigo_writer_to(bytes, sizeof bytes);
    naltvigo_put_uint(&writer, key);
    return naltvigo_at_encoded(map, bytes, writer.needed);
}

/* The value of an integer key from -2^63 to 2^63 - 1. */
static inline struct naltvigo_cursor naltvigo_at_int(struct naltvigo_cursor map, int64_t key) {
    uint8_t bytes[9];
    struct naltvigo_writer writer = naltvigo_writer_to(bytes, sizeof bytes);
    naltvigo_put_int(&writer, key);
    return naltvigo_at_encoded(map, bytes, writer.needed);
}

/* Internal: the value of a long text key, found by a search of the pairs, so that no memory is needed for the key. */
static inline struct naltvigo_cursor naltvigo_at_long_text(struct naltvigo_cursor map, const char *key, size_t length) {
    struct naltvigo_cursor it;
    if (map.status == NALTVIGO_OK && map.item.kind != NALTVIGO_MAP) return naltvigo_cursor_none(NALTVIGO_WRONG_KIND);
    for (it = naltvigo_first(map); it.status == NALTVIGO_OK; it = naltvigo_next(naltvigo_next(it))) {
        if (it.item.kind == NALTVIGO_TEXT && it.item.end - it.item.content == length &&
            memcmp(it.in + it.item.content, key, length) == 0)
            return naltvigo_next(it);
    }
    return it;
}

/* The value of a text key of `length` bytes. */
static inline struct naltvigo_cursor naltvigo_at_text_n(struct naltvigo_cursor map, const char *key, size_t length) {
    uint8_t bytes[64 + 9];
    struct naltvigo_writer writer = naltvigo_writer_to(bytes, sizeof bytes);
    if (length > 64) return naltvigo_at_long_text(map, key, length);
    naltvigo_put_text_n(&writer, key, length);
    return naltvigo_at_encoded(map, bytes, writer.needed);
}

/* The value of a text key that ends at a zero byte. */
static inline struct naltvigo_cursor naltvigo_at_text(struct naltvigo_cursor map, const char *key) {
    return naltvigo_at_text_n(map, key, strlen(key));
}

/* The content of a tag with this number. WRONG_KIND if the item is not a tag, or a tag with another number. */
static inline struct naltvigo_cursor naltvigo_at_tag(struct naltvigo_cursor tag, uint64_t number) {
    if (tag.status != NALTVIGO_OK) return tag;
    if (tag.item.kind != NALTVIGO_TAG || tag.item.number != number) return naltvigo_cursor_none(NALTVIGO_WRONG_KIND);
    return naltvigo_first(tag);
}

/* ---- Reading an item ---- */

/*
 * A getter returns the value. If there is none, it returns 0 or an empty string, and sets `*status` to the status of the
 * cursor, WRONG_KIND or OUT_OF_RANGE. If `*status` is not OK before the call, it stays unchanged, and the getter returns 0.
 * So several getters share one status: set it to NALTVIGO_OK before the first, and check it after the last.
 */

/* Internal: the number of an item of this kind. */
static inline uint64_t naltvigo_cursor_number(struct naltvigo_cursor at, uint32_t kind, uint32_t *status) {
    uint64_t number;
    *status = naltvigo_get_number_raw(&at.item, at.status, kind, &number, *status);
    return number;
}

/* Internal: the bytes of a string of this kind. */
static inline const void *naltvigo_cursor_string(struct naltvigo_cursor at, uint32_t kind, size_t *length,
                                                 uint32_t *status) {
    uint64_t start;
    *status = naltvigo_get_string_raw(&at.item, at.status, kind, &start, length, *status);
    return at.in + start;
}

/* The kind of the item: the major type, or NALTVIGO_NONE. */
static inline uint32_t naltvigo_kind(struct naltvigo_cursor at) { return at.item.kind; }

/* Whether the item is null. */
static inline int naltvigo_is_null(struct naltvigo_cursor at) {
    return at.item.kind == NALTVIGO_SIMPLE && at.item.number == NALTVIGO_NULL;
}

/* An integer from 0 to 2^64 - 1; OUT_OF_RANGE if it is negative. */
static inline uint64_t naltvigo_get_uint(struct naltvigo_cursor at, uint32_t *status) {
    return naltvigo_cursor_number(at, NALTVIGO_UNSIGNED, status);
}

/* The n of a negative integer -1 - n, from -2^64 to -1; OUT_OF_RANGE if the integer is 0 or greater. */
static inline uint64_t naltvigo_get_negative(struct naltvigo_cursor at, uint32_t *status) {
    return naltvigo_cursor_number(at, NALTVIGO_NEGATIVE, status);
}

/* An integer from -2^63 to 2^63 - 1; OUT_OF_RANGE if it is any other integer. */
static inline int64_t naltvigo_get_int(struct naltvigo_cursor at, uint32_t *status) {
    int64_t number;
    *status = naltvigo_get_int_raw(&at.item, at.status, &number, *status);
    return number;
}

/* The bytes of a byte string: a pointer into the input. */
static inline const uint8_t *naltvigo_get_bytes(struct naltvigo_cursor at, size_t *length, uint32_t *status) {
    return NALTVIGO_CAST(const uint8_t *, naltvigo_cursor_string(at, NALTVIGO_BYTES, length, status));
}

/* The UTF-8 of a text string: a pointer into the input. No zero byte ends it, and it may contain zero bytes. */
static inline const char *naltvigo_get_text(struct naltvigo_cursor at, size_t *length, uint32_t *status) {
    const void *const text = naltvigo_cursor_string(at, NALTVIGO_TEXT, length, status);
    return *status == NALTVIGO_OK ? NALTVIGO_CAST(const char *, text) : "";
}

/* The number of members of an array, or of pairs of a map. */
static inline uint64_t naltvigo_get_count(struct naltvigo_cursor at, uint32_t *status) {
    uint64_t count;
    *status = naltvigo_get_count_raw(&at.item, at.status, &count, *status);
    return count;
}

/* The number of a tag. naltvigo_first returns its content. */
static inline uint64_t naltvigo_get_tag(struct naltvigo_cursor at, uint32_t *status) {
    return naltvigo_cursor_number(at, NALTVIGO_TAG, status);
}

/* The number of a simple value: NALTVIGO_FALSE, NALTVIGO_TRUE, NALTVIGO_NULL, NALTVIGO_UNDEFINED or another. */
static inline uint8_t naltvigo_get_simple(struct naltvigo_cursor at, uint32_t *status) {
    return NALTVIGO_CAST(uint8_t, naltvigo_cursor_number(at, NALTVIGO_SIMPLE, status));
}

/* 1 for true, 0 for false; WRONG_KIND for anything else. */
static inline int naltvigo_get_bool(struct naltvigo_cursor at, uint32_t *status) {
    uint32_t is_true;
    *status = naltvigo_get_bool_raw(&at.item, at.status, &is_true, *status);
    return NALTVIGO_CAST(int, is_true);
}

/* The canonical bytes of the item, of any kind: a pointer into the input. For hashing, signing, naltvigo_put_encoded. */
static inline const uint8_t *naltvigo_get_encoded(struct naltvigo_cursor at, size_t *length, uint32_t *status) {
    uint64_t start;
    *status = naltvigo_get_encoded_raw(&at.item, at.status, &start, length, *status);
    return at.in + start;
}

#ifdef __cplusplus
}
#endif

#endif
