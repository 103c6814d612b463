/* calls.h: what the files of this extension share. */
#ifndef NALTVIGO_SQLITE_CALLS_H
#define NALTVIGO_SQLITE_CALLS_H

#include <sqlite3ext.h>
SQLITE_EXTENSION_INIT3

static inline void *allocate(sqlite3_uint64 size) { return sqlite3_malloc64(size); }
static inline void release(void *memory) { sqlite3_free(memory); }

#include "../sql/rules.h"

struct bytes {
    const uint8_t *at;
    size_t length;
};

void fail(sqlite3_context *context, const char *sentence);

/* Returns 0 if an argument is NULL: the result is then NULL. */
int has_all(int count, sqlite3_value **values);

/* The bytes of an argument; the sentence is the error if it is not a blob. Returns 0 after an error. */
int take_blob(sqlite3_context *context, sqlite3_value *value, struct bytes *bytes, const char *sentence);
int take_item(sqlite3_context *context, sqlite3_value *value, struct bytes *item);

/* The canonical bytes of an item, in SQLite's memory; NULL after an error, with what it says, or NULL if memory was refused. */
uint8_t *canonical_copy(const struct bytes *item, const struct naltvigo_options *options, size_t *length, char **sentence);

/* The same. The error is the result. */
uint8_t *canonical_bytes(sqlite3_context *context, const struct bytes *item, const struct naltvigo_options *options, size_t *length);

/* ---- items among SQL values */

/* The subtype of a blob that is an item in canonical bytes: results of cbor, cbor_get, cbor_array and so on. */
enum { CBOR_SUBTYPE = 'C' };

/* Versions of SQLite that do not know a flag ignore it. */
#ifndef SQLITE_RESULT_SUBTYPE
#define SQLITE_RESULT_SUBTYPE 0x001000000
#endif

/* ---- the functions of the other files */

void get(sqlite3_context *context, int count, sqlite3_value **values);
void get_int(sqlite3_context *context, int count, sqlite3_value **values);
void get_text(sqlite3_context *context, int count, sqlite3_value **values);
void get_bytes(sqlite3_context *context, int count, sqlite3_value **values);
void get_bool(sqlite3_context *context, int count, sqlite3_value **values);
void make_item(sqlite3_context *context, int count, sqlite3_value **values);
void make_byte_string(sqlite3_context *context, int count, sqlite3_value **values);
void make_array(sqlite3_context *context, int count, sqlite3_value **values);
void make_map(sqlite3_context *context, int count, sqlite3_value **values);
extern const sqlite3_module each_module;

#endif
