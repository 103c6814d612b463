/* rules.h: what the extensions for SQLite and PostgreSQL do alike.
 *
 * Before it, each defines `allocate` and `release` for the database's memory. `allocate` returns NULL, or does not return, if
 * memory was refused.
 */
#ifndef NALTVIGO_SQL_RULES_H
#define NALTVIGO_SQL_RULES_H

#include <naltvigo_values.h>
#include <stdio.h>
#include <string.h>

/* These limits hold for every call and never change. With others, or with limits of the database, a function would return
 * something else than when an index or a generated column was written, and so not be deterministic. They also bound the
 * memory of a call: see the README of each extension. */
enum { CBOR_DEPTH = 256, CBOR_BYTES = 1 << 25 };

static inline struct naltvigo_options limits(void) {
    struct naltvigo_options options = naltvigo_defaults();
    options.depth = CBOR_DEPTH;
    options.bytes = CBOR_BYTES;
    return options;
}

/* The length of an item that is not refused. */
static inline size_t within_limit(size_t length) { return length < CBOR_BYTES ? length : CBOR_BYTES; }

/* Sets the order of keys that has this name. Returns 0 if none has. */
static inline int set_order(struct naltvigo_options *options, const char *name, size_t length) {
    const int is_length = length == strlen("length") && memcmp(name, "length", length) == 0;
    if (is_length) options->order = NALTVIGO_LENGTH_FIRST;
    return is_length || (length == strlen("bytewise") && memcmp(name, "bytewise", length) == 0);
}

/* ---- results of any length */

/* naltvigo_canonicalise, or one of the two calls below. */
typedef uint32_t write_call(const uint8_t *item, size_t item_length, const struct naltvigo_options *options, uint8_t *out,
                            size_t space, size_t *needed, struct naltvigo_refusal *why);

static inline uint32_t write_diagnostic(const uint8_t *item, size_t item_length, const struct naltvigo_options *options,
                                        uint8_t *out, size_t space, size_t *needed, struct naltvigo_refusal *why) {
    return naltvigo_diagnostic(item, item_length, options, (char *)out, space, needed, why);
}

static inline uint32_t write_explanation(const uint8_t *item, size_t item_length, const struct naltvigo_options *options,
                                         uint8_t *out, size_t space, size_t *needed, struct naltvigo_refusal *why) {
    return naltvigo_explain(item, item_length, options, why, (char *)out, space, needed);
}

/* What a call wrote, with a zero at its end, in memory that has `before` more bytes at its start. */
struct written {
    size_t before;
    size_t length; /* until then a guess */
    uint8_t *memory;
};

/* Calls until there is enough space. The memory is NULL unless OK is returned. */
static inline uint32_t write_all(write_call *call, const uint8_t *item, size_t item_length,
                                 const struct naltvigo_options *options, struct written *out, struct naltvigo_refusal *why) {
    uint32_t status;
    do {
        const size_t space = out->length;
        out->memory = allocate(out->before + space + 1);
        if (!out->memory) return NALTVIGO_NO_MEMORY;
        status = call(item, item_length, options, out->memory + out->before, space, &out->length, why);
        if (status == NALTVIGO_OK) {
            out->memory[out->before + out->length] = 0;
            return status;
        }
        release(out->memory);
        out->memory = NULL;
    } while (status == NALTVIGO_TOO_SMALL);
    return status;
}

/* ---- refusals */

enum { REFUSAL_MAX = 64, EXPLANATION = 512 };

static inline void write_refusal(char text[REFUSAL_MAX], const struct naltvigo_refusal *why) {
    char name[NALTVIGO_NAME_MAX];
    naltvigo_reason_name(why->reason, name, sizeof name);
    snprintf(text, REFUSAL_MAX, "refused %u %s at %llu", (unsigned)why->reason, name, (unsigned long long)why->offset);
}

/* The sentence, the advice and the path of a refusal of this item, a line each. NULL if memory was refused. */
static inline char *explanation_lines(const uint8_t *item, size_t item_length, const struct naltvigo_refusal *why) {
    const struct naltvigo_options options = limits();
    struct naltvigo_refusal refusal = *why;
    struct written lines = {0, EXPLANATION, NULL};
    write_all(write_explanation, item, item_length, &options, &lines, &refusal);
    return (char *)lines.memory;
}

/* The same lines, each a string of its own. */
struct explanation {
    const char *sentence, *advice, *path;
};

static inline struct explanation split(char *lines) {
    struct explanation found = {lines, "", "$"};
    char *const advice = strchr(lines, '\n'), *const path = advice ? strchr(advice + 1, '\n') : NULL;
    if (path) {
        *advice = *path = 0;
        found.advice = advice + 1;
        found.path = path + 1;
    }
    return found;
}

/* ---- paths */

/* The value of a key of a map, the member of an array at an index from 0, or the content of a tag with this number. */
static inline struct naltvigo_cursor step_by_integer(struct naltvigo_cursor at, int64_t step) {
    if (naltvigo_kind(at) == NALTVIGO_MAP) return naltvigo_at_int(at, step);
    if (step < 0) return naltvigo_cursor_none(NALTVIGO_NOT_FOUND);
    if (naltvigo_kind(at) == NALTVIGO_TAG) return naltvigo_at_tag(at, (uint64_t)step);
    return naltvigo_at_index(at, (uint64_t)step);
}

/* A text. NULL if the item is not a text, or if the text has a zero character: SQL has no such text. */
static inline const char *text_for_sql(struct naltvigo_cursor at, size_t *length) {
    uint32_t status = NALTVIGO_OK;
    const char *text = naltvigo_get_text(at, length, &status);
    return status == NALTVIGO_OK && !memchr(text, 0, *length) ? text : NULL;
}

/* ---- rows of cbor_each */

/* A row for each member of an array, or pair of a map; none for any other item. */
struct rows {
    int64_t ordinal; /* that of this row, from 0 */
    uint64_t left;   /* the number of rows that are left, including this one */
    int is_map;
    struct naltvigo_cursor key, value; /* of this row; the key only in a map */
};

/* Moves to the row that begins at this item. */
static inline void go_to(struct rows *rows, struct naltvigo_cursor at) {
    rows->key = at;
    rows->value = rows->is_map ? naltvigo_next(at) : at;
}

/* The rows of an item in canonical bytes, which must stay until the last one. */
static inline struct rows rows_of(const uint8_t *item, size_t length) {
    const struct naltvigo_cursor at = naltvigo_cursor_at(item, length, 0);
    uint32_t status = NALTVIGO_OK;
    struct rows rows = {0};
    rows.is_map = naltvigo_kind(at) == NALTVIGO_MAP;
    rows.left = naltvigo_get_count(at, &status);
    if (rows.left) go_to(&rows, naltvigo_first(at));
    return rows;
}

static inline void next_row(struct rows *rows) {
    rows->ordinal++;
    if (--rows->left) go_to(rows, naltvigo_next(rows->value));
}

#endif
