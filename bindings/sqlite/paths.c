/* paths.c: the item at a path, as an item or as a value of SQL. */
#include "calls.h"

/* What a path leads to. The cursor has no item if the path leads nowhere. */
struct found {
    uint8_t *made; /* canonical bytes in SQLite's memory, if the argument had others */
    struct naltvigo_cursor at;
};

/* Returns 0 after an error. */
static int are_steps(sqlite3_context *context, int count, sqlite3_value **values) {
    int i;
    for (i = 0; i < count; i++) {
        const int type = sqlite3_value_type(values[i]);
        if (type != SQLITE_INTEGER && type != SQLITE_TEXT) {
            fail(context, "cbor: a step of a path is an integer or a text");
            return 0;
        }
    }
    return 1;
}

/* Returns 0 after an error. */
static int follow(sqlite3_context *context, int count, sqlite3_value **steps, struct naltvigo_cursor *at) {
    int i;
    for (i = 0; i < count && at->status == NALTVIGO_OK; i++) {
        if (sqlite3_value_type(steps[i]) == SQLITE_INTEGER) {
            *at = step_by_integer(*at, sqlite3_value_int64(steps[i]));
        } else {
            const char *text = (const char *)sqlite3_value_text(steps[i]);
            if (!text) {
                sqlite3_result_error_nomem(context);
                return 0;
            }
            *at = naltvigo_at_text_n(*at, text, (size_t)sqlite3_value_bytes(steps[i]));
        }
    }
    return 1;
}

/* Returns 0 if the result is set: NULL, or an error. Else `found->made` is to be freed. */
static int find(sqlite3_context *context, int count, sqlite3_value **values, struct found *found) {
    const struct naltvigo_options options = limits();
    struct naltvigo_refusal why;
    struct bytes item;
    size_t length;
    found->made = NULL;
    if (!has_all(count, values) || !take_item(context, values[0], &item)) return 0;
    if (!are_steps(context, count - 1, values + 1)) return 0;
    found->at = naltvigo_open(item.at, item.length, &options, &why);
    if (found->at.status != NALTVIGO_OK) {
        /* another encoding, or no item at all */
        found->made = canonical_bytes(context, &item, &options, &length);
        if (!found->made) return 0;
        found->at = naltvigo_cursor_at(found->made, length, 0);
    }
    if (follow(context, count - 1, values + 1, &found->at) && found->at.status == NALTVIGO_OK) return 1;
    sqlite3_free(found->made);
    return 0;
}

/* Returns 0, after an error, if an argument that each look-up needs is missing. */
static int has_item(sqlite3_context *context, int count, int least) {
    if (count >= least) return 1;
    fail(context, least == 1 ? "cbor: the first argument is an item" : "cbor: cbor_get takes an item and one step or more");
    return 0;
}

void get(sqlite3_context *context, int count, sqlite3_value **values) {
    struct found found;
    uint32_t status = NALTVIGO_OK;
    const uint8_t *bytes;
    size_t length;
    if (!has_item(context, count, 2) || !find(context, count, values, &found)) return;
    bytes = naltvigo_get_encoded(found.at, &length, &status);
    sqlite3_result_blob64(context, bytes, length, SQLITE_TRANSIENT);
    sqlite3_result_subtype(context, CBOR_SUBTYPE);
    sqlite3_free(found.made);
}

/* The calls below leave NULL as the result if the kind is another one, or SQL has no such value. */

void get_int(sqlite3_context *context, int count, sqlite3_value **values) {
    struct found found;
    uint32_t status = NALTVIGO_OK;
    sqlite3_int64 number;
    if (!has_item(context, count, 1) || !find(context, count, values, &found)) return;
    number = naltvigo_get_int(found.at, &status);
    if (status == NALTVIGO_OK) sqlite3_result_int64(context, number);
    sqlite3_free(found.made);
}

void get_text(sqlite3_context *context, int count, sqlite3_value **values) {
    struct found found;
    const char *text;
    size_t length;
    if (!has_item(context, count, 1) || !find(context, count, values, &found)) return;
    text = text_for_sql(found.at, &length);
    if (text) sqlite3_result_text64(context, text, length, SQLITE_TRANSIENT, SQLITE_UTF8);
    sqlite3_free(found.made);
}

void get_bytes(sqlite3_context *context, int count, sqlite3_value **values) {
    struct found found;
    uint32_t status = NALTVIGO_OK;
    const uint8_t *bytes;
    size_t length;
    if (!has_item(context, count, 1) || !find(context, count, values, &found)) return;
    bytes = naltvigo_get_bytes(found.at, &length, &status);
    if (status == NALTVIGO_OK) sqlite3_result_blob64(context, bytes, length, SQLITE_TRANSIENT);
    sqlite3_free(found.made);
}

void get_bool(sqlite3_context *context, int count, sqlite3_value **values) {
    struct found found;
    uint32_t status = NALTVIGO_OK;
    int is_true;
    if (!has_item(context, count, 1) || !find(context, count, values, &found)) return;
    is_true = naltvigo_get_bool(found.at, &status);
    if (status == NALTVIGO_OK) sqlite3_result_int(context, is_true);
    sqlite3_free(found.made);
}
