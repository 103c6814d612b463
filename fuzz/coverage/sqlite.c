/* sqlite.c: what libFuzzer runs on the extension for SQLite (scripts/fuzz_bindings.sh).
 *
 * The first byte selects a statement, the second the size of the second blob; the rest are the blobs, an integer and a text.
 * Each statement returns 1 if what it compares is as it should be, NULL if an argument is refused, or an error of the
 * extension's own.
 */
#include <sqlite3.h>
#include <stdint.h>
#include <stdio.h>
#include <stdlib.h>
#include <string.h>

int sqlite3_naltvigosqlite_init(sqlite3 *db, char **error, const struct sqlite3_api_routines *api);

/* ?1 and ?2 are blobs, ?3 an integer, ?4 a text. */
static const char *const statements[] = {
    "SELECT (cbor_refusal(?1) IS NULL) = cbor_is_valid(?1)",
    "SELECT cbor_is_canonical(cbor_canonical(?1)) AND cbor_is_canonical(cbor_canonical(?1, 'length'), 'length')",
    "SELECT cbor_canonical(?1) = cbor_canonical(cbor_canonical(?1, 'length')) AND cbor_same(?1, cbor_canonical(?1))",
    "SELECT cbor_same(?1, ?2) = (cbor_canonical(?1) = cbor_canonical(?2))",
    "SELECT (cbor_diagnostic(?1) = cbor_diagnostic(?2)) >= cbor_same(?1, ?2)",
    "SELECT cbor_get(?1, ?3) IS cbor_get(cbor_canonical(?1), ?3) AND cbor_get(?1, ?4) IS cbor_get(cbor_canonical(?1, 'length'), ?4)",
    "SELECT cbor_get(?1, ?3, ?4) IS cbor_get(cbor_get(?1, ?3), ?4)",
    "SELECT cbor_int(?1, ?3) IS cbor_int(cbor_get(?1, ?3)) AND cbor_text(?1, ?4) IS cbor_text(cbor_get(?1, ?4)) "
    "AND cbor_bytes(?1, ?3) IS cbor_bytes(cbor_get(?1, ?3)) AND cbor_bool(?1, ?4) IS cbor_bool(cbor_get(?1, ?4))",
    "SELECT (cbor_int(?1) IS NOT NULL) + (cbor_text(?1) IS NOT NULL) + (cbor_bytes(?1) IS NOT NULL) + (cbor_bool(?1) IS NOT NULL) < 2",
    "SELECT sum(length(value) + coalesce(length(key), 0)) < length(cbor_canonical(?1)) FROM cbor_each(?1)",
    "SELECT min(value = cbor_get(?1, ordinal)) FROM cbor_each(?1) WHERE key IS NULL",
    "SELECT min(value = cbor_get(?1, coalesce(cbor_int(key), cbor_text(key)))) FROM cbor_each(?1) WHERE coalesce(cbor_int(key), cbor_text(key)) IS NOT NULL",
    "SELECT cbor_array(cbor_item(?1), ?3, ?4, NULL) = cbor_canonical(cbor_array(cbor_item(?1), ?3, ?4, NULL))",
    "SELECT cbor_get(cbor_map(?3, cbor_item(?1), ?4, cbor_byte_string(?2)), ?3) = cbor_canonical(?1)",
    "SELECT cbor_bytes(cbor_map(?3, cbor_item(?1), ?4, cbor_byte_string(?2)), ?4) = ?2",
    "SELECT count(*) >= 0 FROM cbor_each(?1) a, cbor_each(a.value) b, cbor_each(b.value) c",
};
enum { STATEMENTS = sizeof statements / sizeof *statements };

static sqlite3_stmt *prepared[STATEMENTS];
static sqlite3 *db;

static void begin(void) {
    int i;
    sqlite3_auto_extension((void (*)(void))sqlite3_naltvigosqlite_init);
    if (sqlite3_open(":memory:", &db) != SQLITE_OK) abort();
    for (i = 0; i < STATEMENTS; i++) {
        if (sqlite3_prepare_v2(db, statements[i], -1, &prepared[i], NULL) != SQLITE_OK) {
            fprintf(stderr, "%s: %s\n", statements[i], sqlite3_errmsg(db));
            abort();
        }
    }
}

int LLVMFuzzerTestOneInput(const uint8_t *data, size_t size) {
    sqlite3_stmt *statement;
    size_t second;
    int status;
    if (!db) begin();
    if (size < 12) return 0;
    statement = prepared[data[0] % STATEMENTS];
    second = data[1] < size - 12 ? data[1] : size - 12;
    sqlite3_bind_int64(statement, 3, (int8_t)data[2]);
    sqlite3_bind_text(statement, 4, (const char *)data + 3, data[2] % 9, SQLITE_STATIC);
    sqlite3_bind_blob(statement, 1, data + 12 + second, (int)(size - 12 - second), SQLITE_STATIC);
    sqlite3_bind_blob(statement, 2, data + 12, (int)second, SQLITE_STATIC);
    status = sqlite3_step(statement);
    if (status == SQLITE_ROW ? sqlite3_column_type(statement, 0) != SQLITE_NULL && sqlite3_column_int(statement, 0) != 1
                             : strncmp(sqlite3_errmsg(db), "cbor: ", 6) != 0) {
        fprintf(stderr, "%s: %s\n", sqlite3_sql(statement), status == SQLITE_ROW ? "not 1" : sqlite3_errmsg(db));
        abort();
    }
    sqlite3_reset(statement);
    sqlite3_clear_bindings(statement);
    return 0;
}
