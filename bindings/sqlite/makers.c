/* makers.c: items from values of SQL. */
#include "calls.h"

/* The canonical bytes of an item as the result, or its refusal. */
static void result(sqlite3_context *context, const struct bytes *item) {
    const struct naltvigo_options options = limits();
    size_t length;
    uint8_t *out = canonical_bytes(context, item, &options, &length);
    if (!out) return;
    sqlite3_result_blob64(context, out, length, sqlite3_free);
    sqlite3_result_subtype(context, CBOR_SUBTYPE);
}

void make_item(sqlite3_context *context, int count, sqlite3_value **values) {
    struct bytes item;
    if (has_all(count, values) && take_item(context, values[0], &item)) result(context, &item);
}

/* ---- arguments to bytes */

/* Returns 0 after an error. */
typedef int put_call(sqlite3_context *context, uint32_t kind, int count, sqlite3_value **values, struct naltvigo_writer *writer);

/* A blob might be an item, or the bytes of a byte string. Its subtype says that it is an item. It is lost where SQLite stores
 * the value, and then this is an error, never the wrong item. */
static void put_blob(sqlite3_context *context, sqlite3_value *value, struct naltvigo_writer *writer) {
    struct bytes item;
    if (sqlite3_value_subtype(value) != CBOR_SUBTYPE) {
        fail(context, "cbor: give a blob as cbor_item(item) or as cbor_byte_string(bytes)");
    } else if (take_blob(context, value, &item, "cbor: an item is a blob")) {
        naltvigo_put_encoded(writer, item.at, item.length);
        if (writer->status == NALTVIGO_NOT_FOUND) fail(context, "cbor: this blob is not an item");
    }
}

static void put_text(sqlite3_context *context, sqlite3_value *value, struct naltvigo_writer *writer) {
    const char *text = (const char *)sqlite3_value_text(value);
    if (text)
        naltvigo_put_text_n(writer, text, (size_t)sqlite3_value_bytes(value));
    else
        sqlite3_result_error_nomem(context);
}

/* Returns 0 after an error. */
static int put(sqlite3_context *context, sqlite3_value *value, struct naltvigo_writer *writer) {
    const size_t before = writer->needed;
    switch (sqlite3_value_type(value)) {
    case SQLITE_INTEGER: naltvigo_put_int(writer, sqlite3_value_int64(value)); break;
    case SQLITE_NULL: naltvigo_put_null(writer); break;
    case SQLITE_TEXT: put_text(context, value, writer); break;
    case SQLITE_BLOB: put_blob(context, value, writer); break;
    default: fail(context, "cbor: no item is a floating-point number"); break;
    }
    return writer->needed != before;
}

static int put_all(sqlite3_context *context, uint32_t kind, int count, sqlite3_value **values, struct naltvigo_writer *writer) {
    int i;
    if (kind == NALTVIGO_MAP)
        naltvigo_put_map_n(writer, (uint64_t)count / 2);
    else
        naltvigo_put_array_n(writer, (uint64_t)count);
    for (i = 0; i < count; i++)
        if (!put(context, values[i], writer)) return 0;
    return 1;
}

/* The item that `put` puts, in two turns: to count its bytes, and to write them. */
static void make(sqlite3_context *context, put_call *put, uint32_t kind, int count, sqlite3_value **values) {
    struct naltvigo_writer writer = naltvigo_writer_to(NULL, 0);
    struct bytes item;
    uint8_t *space;
    if (!put(context, kind, count, values, &writer)) return;
    space = sqlite3_malloc64(writer.needed);
    if (!space) {
        sqlite3_result_error_nomem(context);
        return;
    }
    writer = naltvigo_writer_to(space, writer.needed);
    if (put(context, kind, count, values, &writer)) {
        item.at = space;
        item.length = writer.needed;
        result(context, &item);
    }
    sqlite3_free(space);
}

void make_array(sqlite3_context *context, int count, sqlite3_value **values) {
    make(context, put_all, NALTVIGO_ARRAY, count, values);
}

void make_map(sqlite3_context *context, int count, sqlite3_value **values) {
    int i;
    if (count % 2) {
        fail(context, "cbor: cbor_map takes keys and values in turn");
        return;
    }
    for (i = 0; i < count; i += 2) {
        if (sqlite3_value_type(values[i]) == SQLITE_NULL) {
            fail(context, "cbor: a key is not NULL");
            return;
        }
    }
    make(context, put_all, NALTVIGO_MAP, count, values);
}

static int put_bytes(sqlite3_context *context, uint32_t kind, int count, sqlite3_value **values, struct naltvigo_writer *writer) {
    struct bytes bytes;
    (void)kind, (void)count;
    if (!take_blob(context, values[0], &bytes, "cbor: a byte string is made of a blob")) return 0;
    naltvigo_put_bytes(writer, bytes.at, bytes.length);
    return 1;
}

void make_byte_string(sqlite3_context *context, int count, sqlite3_value **values) {
    if (has_all(count, values)) make(context, put_bytes, NALTVIGO_BYTES, count, values);
}
