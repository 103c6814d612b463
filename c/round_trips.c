/* Round trips of items (naltvigo_values.h). Random values are put, finished, found again and compared. Each item of
 * canonical bytes, random or of the conformance tables, is read with a cursor: put once more it becomes the same bytes, its
 * diagnostic text is the library's, and the items in it are the entries of naltvigo_index.
 *
 *     round_trips [SEED [COUNT]]
 *
 * Prints the number of checks; the status is 0 if all hold. */
#include <naltvigo_values.h>

#include "options.h"
#include "checks.h"
#include "conformance.h"
#include "samples.h"

/* The diagnostic text of an item while it is written; what has no space is left out. */
static char text[1 << 16];
static size_t text_length;

static void write_chars(const char *bytes, size_t length) {
    for (size_t i = 0; i < length && text_length < sizeof text; i++) text[text_length++] = bytes[i];
}
static void write_word(const char *word) { write_chars(word, strlen(word)); }
static void write_number(const char *before, uint64_t number) {
    char digits[32];
    write_word(before);
    write_chars(digits, (size_t)snprintf(digits, sizeof digits, "%llu", (unsigned long long)number));
}
static void write_byte(const char *before, uint8_t byte) {
    char digits[8];
    write_word(before);
    write_chars(digits, (size_t)snprintf(digits, sizeof digits, "%02x", (unsigned)byte));
}

static void write_quoted(const char *it, size_t length) {
    write_word("\"");
    for (size_t i = 0; i < length; i++) {
        const uint8_t byte = (uint8_t)it[i];
        if (byte < 32 || byte == 127) write_byte("\\u00", byte);
        else if (byte == '"' || byte == '\\') write_word("\\"), write_chars(it + i, 1);
        else write_chars(it + i, 1);
    }
    write_word("\"");
}

static void write_simple(uint8_t number) {
    static const char *const names[] = {"false", "true", "null", "undefined"};
    if (number / 4 == 5) write_word(names[number - 20]);
    else write_number("simple(", number), write_word(")");
}

/* The table of the item, and the number of entries that a cursor has reached. */
static struct naltvigo_item table[1 << 16];
static size_t table_length, entry;

/* Checks that the next entry of the table is this item; `entries` is compared with what is passed until the item ends. */
static const struct naltvigo_item *pass_entry(const struct naltvigo_item *item) {
    const struct naltvigo_item *of_table = &table[entry < table_length ? entry++ : 0];
    check(of_table->offset == item->offset && of_table->content == item->content && of_table->end == item->end, "table", "places");
    check(of_table->kind == item->kind && of_table->number == item->number && item->entries == 0, "table", "head");
    return of_table;
}

/* Puts an integer, a string or a simple value, and writes its text. */
static void copy_scalar(struct naltvigo_cursor at, struct naltvigo_writer *w, uint32_t *status) {
    size_t length = 0, i;
    uint64_t number;
    const uint8_t *bytes;
    const char *chars;
    switch (naltvigo_kind(at)) {
    case NALTVIGO_UNSIGNED:
        number = naltvigo_get_uint(at, status), naltvigo_put_uint(w, number);
        write_number("", number);
        break;
    case NALTVIGO_NEGATIVE:
        number = naltvigo_get_negative(at, status), naltvigo_put_negative(w, number);
        if (number == UINT64_MAX) write_word("-18446744073709551616");
        else write_number("-", number + 1);
        break;
    case NALTVIGO_BYTES:
        bytes = naltvigo_get_bytes(at, &length, status), naltvigo_put_bytes(w, bytes, length);
        write_word("h'");
        for (i = 0; i < length; i++) write_byte("", bytes[i]);
        write_word("'");
        break;
    case NALTVIGO_TEXT:
        chars = naltvigo_get_text(at, &length, status), naltvigo_put_text_n(w, chars, length);
        write_quoted(chars, length);
        break;
    default:
        number = naltvigo_get_simple(at, status), naltvigo_put_simple(w, (uint8_t)number);
        write_simple((uint8_t)number);
    }
}

static void copy(struct naltvigo_cursor at, struct naltvigo_writer *w);

/* Puts an array by its end, or a map by its count, and writes its text. */
static void copy_members(struct naltvigo_cursor at, struct naltvigo_writer *w, uint32_t *status) {
    const int is_map = naltvigo_kind(at) == NALTVIGO_MAP;
    const uint64_t count = naltvigo_get_count(at, status), members = is_map ? 2 * count : count;
    struct naltvigo_cursor member;
    uint64_t i = 0;
    if (is_map) naltvigo_put_map_n(w, count), write_word("{");
    else naltvigo_put_array(w), write_word("[");
    for (member = naltvigo_first(at); member.status == NALTVIGO_OK; member = naltvigo_next(member), i++) {
        if (i) write_word(is_map && i % 2 ? ": " : ", ");
        copy(member, w);
    }
    check(member.status == NALTVIGO_NOT_FOUND && i == members, "copy", "members");
    if (!is_map) naltvigo_put_end(w);
    write_word(is_map ? "}" : "]");
}

/* Puts the item at the cursor with calls other than naltvigo_put_encoded, and writes its text (RFC 8949, section 8). */
static void copy(struct naltvigo_cursor at, struct naltvigo_writer *w) {
    const struct naltvigo_item *of_table = pass_entry(&at.item);
    const uint32_t kind = naltvigo_kind(at);
    uint32_t status = NALTVIGO_OK;
    if (kind == NALTVIGO_ARRAY || kind == NALTVIGO_MAP) {
        copy_members(at, w, &status);
    } else if (kind == NALTVIGO_TAG) {
        const uint64_t number = naltvigo_get_tag(at, &status);
        naltvigo_put_tag(w, number);
        write_number("", number), write_word("("), copy(naltvigo_first(at), w), write_word(")");
    } else {
        copy_scalar(at, w, &status);
    }
    check(status == NALTVIGO_OK, "copy", "status");
    check(of_table + of_table->entries == table + entry, "table", "entries");
}

/* Canonical bytes, read and put once more, are themselves, and their text is the library's. */
static void is_copied(const uint8_t *in, size_t n, const struct naltvigo_options *options, const char *what) {
    const size_t space = 2 * n + 64; /* the ends of arrays need more */
    uint8_t *items = room_for(space), *out = room_for(n);
    char *diagnostic = room_for(8 * n + 64);
    size_t needed = 0, length;
    uint32_t status = NALTVIGO_OK;
    struct naltvigo_writer w = naltvigo_writer_to(items, space), once = naltvigo_writer_to(out, n);
    const struct naltvigo_cursor root = naltvigo_open(in, n, options, NULL);
    check(root.status == NALTVIGO_OK, "open", what);
    check(naltvigo_index(in, n, options, table, sizeof table / sizeof *table, &table_length, NULL) == NALTVIGO_OK, "table", what);
    text_length = entry = 0;
    copy(root, &w);
    check(entry == table_length, "table", "whole");
    check(naltvigo_finish(&w, options, out, n, &needed, NULL) == NALTVIGO_OK && needed == n && memcmp(in, out, n) == 0, "copied", what);
    check(naltvigo_diagnostic(in, n, options, diagnostic, 8 * n + 64, &needed, NULL) == NALTVIGO_OK, "diagnostic", what);
    check(needed == text_length && memcmp(diagnostic, text, needed) == 0, "text", what);
    in = naltvigo_get_encoded(root, &length, &status);
    naltvigo_put_encoded(&once, in, length);
    check(status == NALTVIGO_OK && once.status == NALTVIGO_OK && once.needed == n && memcmp(in, out, n) == 0, "encoded", what);
    free(items), free(out), free(diagnostic);
}

/* Counts, writes, finishes, reads. Returns the number of items. */
static uint64_t random_round_trip(void) {
    const uint64_t from = seed;
    struct naltvigo_writer counted = naltvigo_writer_to(NULL, 0), w;
    uint8_t *items, *out;
    size_t length = 0;
    uint64_t read, drawn;
    put_sample(&counted, 5);
    drawn = seed;
    items = room_for(counted.needed), out = room_for(counted.needed);
    w = naltvigo_writer_to(items, counted.needed);
    seed = from;
    put_sample(&w, 5);
    check(w.status == NALTVIGO_OK && w.needed == counted.needed, "random", "counted");
    check(naltvigo_finish(&w, NULL, out, w.needed, &length, NULL) == NALTVIGO_OK && length <= w.needed, "random", "finish");
    seed = from;
    read = read_sample(naltvigo_open(out, length, NULL, NULL), 5);
    check(seed == drawn, "random", "drawn");
    is_copied(out, length, NULL, "random");
    free(items), free(out);
    return read;
}

int main(int count, char **words) {
    const unsigned long times = count > 2 ? strtoul(words[2], NULL, 10) : 20000;
    uint64_t items = 0;
    size_t rows_read = 0;
    if (count > 1) seed = strtoul(words[1], NULL, 10) | 1;
    for (size_t i = 0; i < sizeof rows / sizeof *rows; i++)
        for (uint32_t order = 0; order < 2; order++) {
            size_t n;
            uint8_t *in;
            if (!rows[i].by_order[order].canonical) continue;
            in = unhex(rows[i].by_order[order].canonical, &n);
            is_copied(in, n, OF_ROW(&rows[i], order), rows[i].given);
            free(in);
            rows_read++;
        }
    check(rows_read > 100, "rows", "of the tables");
    for (unsigned long i = 0; i < times; i++) items += random_round_trip();
    printf("%lu random items, %llu with those within, and %lu rows; %d checks, %d fail\n", times, (unsigned long long)items, (unsigned long)rows_read, checks, faults);
    return faults != 0;
}
