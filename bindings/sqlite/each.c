/* each.c: cbor_each(item), a table with a row for each member of an array, or pair of a map: its ordinal from 0, the key (NULL in
 * an array) and the value, both in canonical bytes. No row for any other item, and for NULL. */
#include "calls.h"

enum { ORDINAL, KEY, VALUE, ITEM };

struct each_cursor {
    sqlite3_vtab_cursor base;
    uint8_t *bytes; /* the canonical bytes of the item, in SQLite's memory */
    struct rows rows;
};

static int connect(sqlite3 *db, void *data, int count, const char *const *words, sqlite3_vtab **table, char **error) {
    int status;
    (void)data, (void)count, (void)words, (void)error;
    status = sqlite3_declare_vtab(db, "CREATE TABLE each (ordinal INTEGER, key BLOB, value BLOB, item BLOB HIDDEN)");
    if (status != SQLITE_OK) return status;
    *table = sqlite3_malloc64(sizeof **table);
    if (!*table) return SQLITE_NOMEM;
    memset(*table, 0, sizeof **table);
    return sqlite3_vtab_config(db, SQLITE_VTAB_INNOCUOUS);
}

static int disconnect(sqlite3_vtab *table) {
    sqlite3_free(table);
    return SQLITE_OK;
}

/* The only plan: the item is given. */
static int best_index(sqlite3_vtab *table, sqlite3_index_info *info) {
    int i, is_unusable = 0;
    (void)table;
    for (i = 0; i < info->nConstraint; i++) {
        if (info->aConstraint[i].iColumn != ITEM || info->aConstraint[i].op != SQLITE_INDEX_CONSTRAINT_EQ) continue;
        if (info->aConstraint[i].usable) {
            info->aConstraintUsage[i].argvIndex = 1;
            info->aConstraintUsage[i].omit = 1;
            info->estimatedCost = 100;
            info->estimatedRows = 100;
            return SQLITE_OK;
        }
        is_unusable = 1;
    }
    /* it is a column of a table that comes later: another order of the tables makes it usable */
    return is_unusable ? SQLITE_CONSTRAINT : SQLITE_OK;
}

static int open_cursor(sqlite3_vtab *table, sqlite3_vtab_cursor **cursor) {
    struct each_cursor *made = sqlite3_malloc64(sizeof *made);
    (void)table;
    if (!made) return SQLITE_NOMEM;
    memset(made, 0, sizeof *made);
    *cursor = &made->base;
    return SQLITE_OK;
}

static int close_cursor(sqlite3_vtab_cursor *cursor) {
    sqlite3_free(((struct each_cursor *)cursor)->bytes);
    sqlite3_free(cursor);
    return SQLITE_OK;
}

/* An error of cbor_each. */
static int refuse(sqlite3_vtab_cursor *cursor, char *sentence) {
    sqlite3_free(cursor->pVtab->zErrMsg);
    cursor->pVtab->zErrMsg = sentence;
    return sentence ? SQLITE_ERROR : SQLITE_NOMEM;
}

static int filter(sqlite3_vtab_cursor *cursor, int number, const char *name, int count, sqlite3_value **values) {
    struct each_cursor *each = (struct each_cursor *)cursor;
    const struct naltvigo_options options = limits();
    struct bytes item;
    size_t length;
    char *sentence;
    (void)number, (void)name;
    each->rows.left = 0;
    sqlite3_free(each->bytes);
    each->bytes = NULL;
    if (count == 0) return refuse(cursor, sqlite3_mprintf("cbor: cbor_each takes an item"));
    if (sqlite3_value_type(values[0]) == SQLITE_NULL) return SQLITE_OK;
    if (sqlite3_value_type(values[0]) != SQLITE_BLOB) return refuse(cursor, sqlite3_mprintf("cbor: an item is a blob"));
    item.at = sqlite3_value_blob(values[0]);
    item.length = (size_t)sqlite3_value_bytes(values[0]);
    if (!item.at && item.length) return SQLITE_NOMEM;
    each->bytes = canonical_copy(&item, &options, &length, &sentence);
    if (!each->bytes) return refuse(cursor, sentence);
    each->rows = rows_of(each->bytes, length);
    return SQLITE_OK;
}

static int next(sqlite3_vtab_cursor *cursor) {
    next_row(&((struct each_cursor *)cursor)->rows);
    return SQLITE_OK;
}

static int is_over(sqlite3_vtab_cursor *cursor) { return ((struct each_cursor *)cursor)->rows.left == 0; }

static int column(sqlite3_vtab_cursor *cursor, sqlite3_context *context, int number) {
    const struct rows *row = &((const struct each_cursor *)cursor)->rows;
    const struct naltvigo_cursor at = number == KEY ? row->key : row->value;
    uint32_t status = NALTVIGO_OK;
    const uint8_t *bytes;
    size_t length;
    if (number == ORDINAL) {
        sqlite3_result_int64(context, row->ordinal);
    } else if (number == VALUE || (number == KEY && row->is_map)) {
        bytes = naltvigo_get_encoded(at, &length, &status);
        sqlite3_result_blob64(context, bytes, length, SQLITE_TRANSIENT);
        sqlite3_result_subtype(context, CBOR_SUBTYPE);
    }
    return SQLITE_OK;
}

static int row_id(sqlite3_vtab_cursor *cursor, sqlite3_int64 *id) {
    *id = ((struct each_cursor *)cursor)->rows.ordinal;
    return SQLITE_OK;
}

const sqlite3_module each_module = {
    .iVersion = 0,
    .xConnect = connect,
    .xBestIndex = best_index,
    .xDisconnect = disconnect,
    .xOpen = open_cursor,
    .xClose = close_cursor,
    .xFilter = filter,
    .xNext = next,
    .xEof = is_over,
    .xColumn = column,
    .xRowid = row_id,
};
