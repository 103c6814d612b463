/* naltvigo_writer.h: makes CBOR items from values of C. naltvigo_values.h has an overview and an example. */
#ifndef NALTVIGO_WRITER_H
#define NALTVIGO_WRITER_H

#include <string.h>

#include "naltvigo.h"

#ifdef __cplusplus
extern "C" {
#endif

/* The kinds of items: the major types (RFC 8949, section 3.1), and NALTVIGO_NONE for no item. */
enum {
    NALTVIGO_UNSIGNED = 0, /* an integer from 0 to 2^64 - 1 */
    NALTVIGO_NEGATIVE = 1, /* an integer from -2^64 to -1 */
    NALTVIGO_BYTES = 2,
    NALTVIGO_TEXT = 3,
    NALTVIGO_ARRAY = 4,
    NALTVIGO_MAP = 5,
    NALTVIGO_TAG = 6,
    NALTVIGO_SIMPLE = 7,
    NALTVIGO_NONE = 11 /* no item; 8 to 10 are kinds of events */
};

/* The simple values with names (section 3.3). */
enum { NALTVIGO_FALSE = 20, NALTVIGO_TRUE = 21, NALTVIGO_NULL = 22, NALTVIGO_UNDEFINED = 23 };

/* A writer. It appends to `out`. Callers may read `needed` and `status`, and nothing else. */
struct naltvigo_writer {
    uint8_t *out;
    size_t out_length;
    size_t needed;   /* the number of bytes put, with those that `out` has no space for */
    uint32_t status; /* OK; TOO_SMALL if `needed` is more than `out_length`; or the first other failure of a put call */
};

/*
 * naltvigo_writer_to: a writer that appends to `out`.
 *
 * Each put call appends an item, or part of one, and returns nothing. Check `status` after all of them. TOO_SMALL means that
 * `out` is too small: start again with `needed` bytes. Any other failure (BAD_HEAD, NOT_FOUND) is an error in what was put.
 * `status` has the first of these, even if TOO_SMALL came before it. `out` may be null: then nothing is written, and `needed`
 * counts the bytes of all items. A copy of a writer continues from where it was copied.
 */
static inline struct naltvigo_writer naltvigo_writer_to(uint8_t *out, size_t out_length) {
    static uint8_t none;
    struct naltvigo_writer writer;
    writer.out = out ? out : &none;
    writer.out_length = out ? out_length : 0;
    writer.needed = 0;
    writer.status = NALTVIGO_OK;
    return writer;
}

/* Internal: puts the shortest head. */
static inline void naltvigo_writer_head(struct naltvigo_writer *writer, uint32_t kind, uint64_t number) {
    writer->status = naltvigo_writer_head_raw(kind, number, writer->out, writer->out_length, &writer->needed, writer->status);
}

/* Internal: puts a string. */
static inline void naltvigo_writer_string(struct naltvigo_writer *writer, uint32_t kind, const void *bytes, size_t length) {
    const void *const from = length ? bytes : "";
    writer->status = naltvigo_writer_string_raw(kind, NALTVIGO_CAST(const uint8_t *, from), length, writer->out,
                                                writer->out_length, &writer->needed, writer->status);
}

/* Internal: puts the beginning of an array or a map without a count. */
static inline void naltvigo_writer_open(struct naltvigo_writer *writer, uint32_t kind) {
    writer->status = naltvigo_writer_open_raw(kind, writer->out, writer->out_length, &writer->needed, writer->status);
}

/* An integer from 0 to 2^64 - 1. */
static inline void naltvigo_put_uint(struct naltvigo_writer *writer, uint64_t number) {
    naltvigo_writer_head(writer, NALTVIGO_UNSIGNED, number);
}

/* The integer -1 - number, from -2^64 to -1. */
static inline void naltvigo_put_negative(struct naltvigo_writer *writer, uint64_t number) {
    naltvigo_writer_head(writer, NALTVIGO_NEGATIVE, number);
}

/* An integer from -2^63 to 2^63 - 1. */
static inline void naltvigo_put_int(struct naltvigo_writer *writer, int64_t number) {
    writer->status = naltvigo_writer_int_raw(number, writer->out, writer->out_length, &writer->needed, writer->status);
}

/* A byte string. */
static inline void naltvigo_put_bytes(struct naltvigo_writer *writer, const void *bytes, size_t length) {
    naltvigo_writer_string(writer, NALTVIGO_BYTES, bytes, length);
}

/* A text string: `length` bytes of UTF-8. naltvigo_finish refuses bytes that are not UTF-8. */
static inline void naltvigo_put_text_n(struct naltvigo_writer *writer, const char *text, size_t length) {
    naltvigo_writer_string(writer, NALTVIGO_TEXT, text, length);
}

/* A text string that ends at a zero byte. */
static inline void naltvigo_put_text(struct naltvigo_writer *writer, const char *text) {
    naltvigo_put_text_n(writer, text, strlen(text));
}

/* A simple value, 0 to 23 or 32 to 255. The numbers 24 to 31 do not exist: the writer fails with BAD_HEAD. */
static inline void naltvigo_put_simple(struct naltvigo_writer *writer, uint8_t number) {
    naltvigo_writer_head(writer, NALTVIGO_SIMPLE, number);
}

/* False if `is_true` is 0, else true. */
static inline void naltvigo_put_bool(struct naltvigo_writer *writer, int is_true) {
    naltvigo_put_simple(writer, is_true ? NALTVIGO_TRUE : NALTVIGO_FALSE);
}

static inline void naltvigo_put_null(struct naltvigo_writer *writer) { naltvigo_put_simple(writer, NALTVIGO_NULL); }

static inline void naltvigo_put_undefined(struct naltvigo_writer *writer) {
    naltvigo_put_simple(writer, NALTVIGO_UNDEFINED);
}

/* A tag. Its content is the item that is put next. */
static inline void naltvigo_put_tag(struct naltvigo_writer *writer, uint64_t number) {
    naltvigo_writer_head(writer, NALTVIGO_TAG, number);
}

/* The beginning of an array or a map. Its members are put next, and naltvigo_put_end ends it. For each pair of a map put the key
 * and then the value. The pairs may come in any order. */
static inline void naltvigo_put_array(struct naltvigo_writer *writer) { naltvigo_writer_open(writer, NALTVIGO_ARRAY); }
static inline void naltvigo_put_map(struct naltvigo_writer *writer) { naltvigo_writer_open(writer, NALTVIGO_MAP); }
static inline void naltvigo_put_end(struct naltvigo_writer *writer) {
    writer->status = naltvigo_writer_end_raw(writer->out, writer->out_length, &writer->needed, writer->status);
}

/* An array of `count` items, or a map of `pairs` pairs, which are put next. No naltvigo_put_end follows them. */
static inline void naltvigo_put_array_n(struct naltvigo_writer *writer, uint64_t count) {
    naltvigo_writer_head(writer, NALTVIGO_ARRAY, count);
}
static inline void naltvigo_put_map_n(struct naltvigo_writer *writer, uint64_t pairs) {
    naltvigo_writer_head(writer, NALTVIGO_MAP, pairs);
}

/* An item in canonical bytes, from naltvigo_finish or naltvigo_get_encoded. If the bytes are not exactly one item, they would
 * change the meaning of the items after them: so the writer fails with NOT_FOUND, and nothing is put. */
static inline void naltvigo_put_encoded(struct naltvigo_writer *writer, const uint8_t *bytes, size_t length) {
    const uint8_t none = 0;
    writer->status = naltvigo_writer_encoded_raw(length ? bytes : &none, length, writer->out, writer->out_length,
                                                 &writer->needed, writer->status);
}

/*
 * naltvigo_finish: the canonical bytes of the one item that was put.
 *
 * They are written to `out`, which must not overlap the buffer of the writer. `*needed` is their number. TOO_SMALL means that
 * one of the two buffers was too small. If it was the writer's (its own status is then TOO_SMALL), `*needed` is what the
 * writer needs, which is nearly always enough for `out` as well (naltvigo_canonicalise says when not). Any other failure of
 * the writer is returned, with `*needed` 0. REFUSED means that what was put is not one valid item: a wrong count, a missing or
 * surplus end, equal keys, a text that is not UTF-8. The offset of the refusal is an offset in the bytes that the writer put,
 * before they are sorted, and not in `out`.
 *
 * Returns OK, TOO_SMALL, REFUSED (reasons 1 to 13, 20), NO_MEMORY, BAD_ORDER, BAD_LIMITS, BAD_HEAD, NOT_FOUND.
 */
static inline uint32_t naltvigo_finish(const struct naltvigo_writer *writer, const struct naltvigo_options *options,
                                       uint8_t *out, size_t out_length, size_t *needed,
                                       struct naltvigo_refusal *refusal) {
    if (writer->status == NALTVIGO_OK)
        return naltvigo_canonicalise(writer->out, writer->needed, options, out, out_length, needed, refusal);
    *needed = writer->status == NALTVIGO_TOO_SMALL ? writer->needed : 0;
    return writer->status;
}

#ifdef __cplusplus
}
#endif

#endif
