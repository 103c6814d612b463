/* naltvigo_sqlite.c: deterministic CBOR in SQLite: the calls on whole items, and the list of all functions. README.md describes
 * them.
 *
 * NULL is returned for NULL. An item is a blob: SQLite would cast a text or a number to the bytes of its text. A function
 * that needs a valid item and gets another one fails with its refusal.
 */
#include "calls.h"
SQLITE_EXTENSION_INIT1

void fail(sqlite3_context *context, const char *sentence) { sqlite3_result_error(context, sentence, -1); }

/* ---- refusals */

/* What an error says, in SQLite's memory; NULL if memory was refused. */
static char *sentence_of(uint32_t status, const struct naltvigo_refusal *why, const struct bytes *item, const char *side) {
    char refusal[REFUSAL_MAX], *lines, *sentence;
    struct explanation found;
    if (status == NALTVIGO_NO_MEMORY) return NULL;
    if (status != NALTVIGO_REFUSED) return sqlite3_mprintf("cbor: naltvigo returned %s", naltvigo_status_name(status));
    lines = explanation_lines(item->at, item->length, why);
    if (!lines) return NULL;
    found = split(lines);
    write_refusal(refusal, why);
    sentence = sqlite3_mprintf("cbor: %s%s (%s): %s", side, refusal, found.path, found.sentence);
    sqlite3_free(lines);
    return sentence;
}

/* Takes the sentence. */
static void fail_with(sqlite3_context *context, char *sentence) {
    if (sentence)
        sqlite3_result_error(context, sentence, -1);
    else
        sqlite3_result_error_nomem(context);
    sqlite3_free(sentence);
}

/* ---- arguments */

int has_all(int count, sqlite3_value **values) {
    int i;
    for (i = 0; i < count; i++)
        if (sqlite3_value_type(values[i]) == SQLITE_NULL) return 0;
    return 1;
}

int take_blob(sqlite3_context *context, sqlite3_value *value, struct bytes *bytes, const char *sentence) {
    if (sqlite3_value_type(value) != SQLITE_BLOB) {
        fail(context, sentence);
        return 0;
    }
    bytes->at = sqlite3_value_blob(value); /* before the length, as SQLite requires */
    bytes->length = (size_t)sqlite3_value_bytes(value);
    /* The bytes of a zeroblob() are allocated here, which may fail. An empty blob is NULL as well. */
    if (bytes->at || !bytes->length) return 1;
    sqlite3_result_error_nomem(context);
    return 0;
}

int take_item(sqlite3_context *context, sqlite3_value *value, struct bytes *item) {
    return take_blob(context, value, item, "cbor: an item is a blob");
}

/* The limits, with the order if it is given. Returns 0 after an error. */
static int take_order(sqlite3_context *context, int count, sqlite3_value **values, struct naltvigo_options *options) {
    const char *order;
    *options = limits();
    if (count < 2) return 1;
    order = (const char *)sqlite3_value_text(values[1]);
    if (order && set_order(options, order, strlen(order))) return 1;
    fail(context, "cbor: the order of keys is 'bytewise' or 'length'");
    return 0;
}

/* ---- results of any length */

/* What a call writes, `*length` bytes in SQLite's memory; NULL after an error, with what it says. `guess` is a first length. */
static uint8_t *written(write_call *write, const struct bytes *item, const struct naltvigo_options *options, size_t guess,
                        size_t *length, char **sentence) {
    struct written out = {0, guess, NULL};
    struct naltvigo_refusal why;
    const uint32_t status = write_all(write, item->at, item->length, options, &out, &why);
    *sentence = status == NALTVIGO_OK ? NULL : sentence_of(status, &why, item, "");
    *length = out.length;
    return out.memory;
}

uint8_t *canonical_copy(const struct bytes *item, const struct naltvigo_options *options, size_t *length, char **sentence) {
    return written(naltvigo_canonicalise, item, options, within_limit(item->length), length, sentence);
}

uint8_t *canonical_bytes(sqlite3_context *context, const struct bytes *item, const struct naltvigo_options *options, size_t *length) {
    char *sentence;
    uint8_t *out = canonical_copy(item, options, length, &sentence);
    if (!out) fail_with(context, sentence);
    return out;
}

/* ---- the functions */

static void canonical(sqlite3_context *context, int count, sqlite3_value **values) {
    struct naltvigo_options options;
    struct bytes item;
    size_t length;
    uint8_t *out;
    if (!has_all(count, values) || !take_item(context, values[0], &item)) return;
    if (!take_order(context, count, values, &options)) return;
    out = canonical_bytes(context, &item, &options, &length);
    if (out) sqlite3_result_blob64(context, out, length, sqlite3_free);
}

static void is_canonical(sqlite3_context *context, int count, sqlite3_value **values) {
    struct naltvigo_options options;
    struct naltvigo_refusal why;
    struct bytes item;
    if (!has_all(count, values) || !take_item(context, values[0], &item)) return;
    if (!take_order(context, count, values, &options)) return;
    sqlite3_result_int(context, naltvigo_check_canonical(item.at, item.length, &options, &why) == NALTVIGO_OK);
}

/* Whether an argument is one valid item: OK or REFUSED. After any other status the result is set. */
static uint32_t validity(sqlite3_context *context, sqlite3_value **values, struct bytes *item, struct naltvigo_refusal *why) {
    const struct naltvigo_options options = limits();
    uint32_t status;
    if (!has_all(1, values) || !take_item(context, values[0], item)) return NALTVIGO_NO_MEMORY;
    status = naltvigo_check_valid(item->at, item->length, &options, why);
    if (status != NALTVIGO_OK && status != NALTVIGO_REFUSED) fail_with(context, sentence_of(status, why, item, ""));
    return status;
}

static void is_valid(sqlite3_context *context, int count, sqlite3_value **values) {
    struct naltvigo_refusal why;
    struct bytes item;
    const uint32_t status = validity(context, values, &item, &why);
    (void)count;
    if (status == NALTVIGO_OK || status == NALTVIGO_REFUSED) sqlite3_result_int(context, status == NALTVIGO_OK);
}

static void refusal(sqlite3_context *context, int count, sqlite3_value **values) {
    struct naltvigo_refusal why;
    struct bytes item;
    char text[REFUSAL_MAX];
    (void)count;
    if (validity(context, values, &item, &why) != NALTVIGO_REFUSED) return;
    write_refusal(text, &why);
    sqlite3_result_text(context, text, -1, SQLITE_TRANSIENT);
}

static void explain(sqlite3_context *context, int count, sqlite3_value **values) {
    struct naltvigo_refusal why;
    struct bytes item;
    char *lines;
    (void)count;
    if (validity(context, values, &item, &why) != NALTVIGO_REFUSED) return;
    lines = explanation_lines(item.at, item.length, &why);
    if (lines)
        sqlite3_result_text(context, lines, -1, sqlite3_free);
    else
        sqlite3_result_error_nomem(context);
}

static void same(sqlite3_context *context, int count, sqlite3_value **values) {
    const struct naltvigo_options options = limits();
    struct naltvigo_refusal why;
    struct bytes left, right;
    uint32_t side = NALTVIGO_LEFT, status;
    if (!has_all(count, values)) return;
    if (!take_item(context, values[0], &left) || !take_item(context, values[1], &right)) return;
    status = naltvigo_compare(left.at, left.length, right.at, right.length, &options, &side, &why);
    if (status == NALTVIGO_OK || status == NALTVIGO_DIFFERENT)
        sqlite3_result_int(context, status == NALTVIGO_OK);
    else
        fail_with(context, side == NALTVIGO_LEFT ? sentence_of(status, &why, &left, "left: ") : sentence_of(status, &why, &right, "right: "));
}

static void diagnostic(sqlite3_context *context, int count, sqlite3_value **values) {
    const struct naltvigo_options options = limits();
    struct bytes item;
    size_t length;
    char *sentence;
    uint8_t *out;
    if (!has_all(count, values) || !take_item(context, values[0], &item)) return;
    out = written(write_diagnostic, &item, &options, 2 * within_limit(item.length), &length, &sentence);
    if (out)
        sqlite3_result_text64(context, (char *)out, length, sqlite3_free, SQLITE_UTF8);
    else
        fail_with(context, sentence);
}

/* ---- the extension: SQLite looks for a function named after the file */

static const struct {
    const char *name;
    int count;
    void (*call)(sqlite3_context *, int, sqlite3_value **);
    int flags;
} functions[] = {
    {"cbor_canonical", 1, canonical, 0},
    {"cbor_canonical", 2, canonical, 0},
    {"cbor_is_canonical", 1, is_canonical, 0},
    {"cbor_is_canonical", 2, is_canonical, 0},
    {"cbor_is_valid", 1, is_valid, 0},
    {"cbor_refusal", 1, refusal, 0},
    {"cbor_explain", 1, explain, 0},
    {"cbor_same", 2, same, 0},
    {"cbor_diagnostic", 1, diagnostic, 0},
    {"cbor_get", -1, get, SQLITE_RESULT_SUBTYPE},
    {"cbor_int", -1, get_int, 0},
    {"cbor_text", -1, get_text, 0},
    {"cbor_bytes", -1, get_bytes, 0},
    {"cbor_bool", -1, get_bool, 0},
    {"cbor_item", 1, make_item, SQLITE_RESULT_SUBTYPE},
    {"cbor_byte_string", 1, make_byte_string, SQLITE_RESULT_SUBTYPE},
    {"cbor_array", -1, make_array, SQLITE_SUBTYPE | SQLITE_RESULT_SUBTYPE},
    {"cbor_map", -1, make_map, SQLITE_SUBTYPE | SQLITE_RESULT_SUBTYPE},
};

#ifdef _WIN32
__declspec(dllexport)
#else
__attribute__((visibility("default")))
#endif
int sqlite3_naltvigosqlite_init(sqlite3 *db, char **error, const sqlite3_api_routines *api) {
    const int flags = SQLITE_UTF8 | SQLITE_DETERMINISTIC | SQLITE_INNOCUOUS;
    int status = SQLITE_OK;
    size_t i;
    SQLITE_EXTENSION_INIT2(api);
    if (naltvigo_version() >> 16 != NALTVIGO_VERSION_MAJOR) {
        *error = sqlite3_mprintf("naltvigo_sqlite: the library is not of version %s", NALTVIGO_VERSION);
        return SQLITE_ERROR;
    }
    for (i = 0; i < sizeof functions / sizeof *functions && status == SQLITE_OK; i++)
        status = sqlite3_create_function_v2(db, functions[i].name, functions[i].count, flags | functions[i].flags, NULL,
                                            functions[i].call, NULL, NULL, NULL);
    return status == SQLITE_OK ? sqlite3_create_module_v2(db, "cbor_each", &each_module, NULL, NULL) : status;
}
