/* values: reads lines of hex digits, each an item. Puts each value that it read again, and writes its canonical bytes to a
 * line, in hex digits, or `refused 5 Float at 1`: values [bytewise|length [MAX_BYTES]] < LINES. */
#include <naltvigo_values.h>
#include <stdio.h>
#include <stdlib.h>

static void put_value(struct naltvigo_writer *writer, struct naltvigo_cursor at, uint32_t *status);

static void put_members(struct naltvigo_writer *writer, struct naltvigo_cursor member, uint32_t *status) {
    for (; member.status == NALTVIGO_OK; member = naltvigo_next(member)) put_value(writer, member, status);
    naltvigo_put_end(writer);
}

/* Puts what the cursor is at, part by part: not naltvigo_get_encoded. */
static void put_value(struct naltvigo_writer *writer, struct naltvigo_cursor at, uint32_t *status) {
    size_t length = 0;
    const void *bytes;
    switch (naltvigo_kind(at)) {
    case NALTVIGO_UNSIGNED: naltvigo_put_uint(writer, naltvigo_get_uint(at, status)); break;
    case NALTVIGO_NEGATIVE: naltvigo_put_negative(writer, naltvigo_get_negative(at, status)); break;
    case NALTVIGO_BYTES:
        bytes = naltvigo_get_bytes(at, &length, status);
        naltvigo_put_bytes(writer, bytes, length);
        break;
    case NALTVIGO_TEXT:
        bytes = naltvigo_get_text(at, &length, status);
        naltvigo_put_text_n(writer, (const char *)bytes, length);
        break;
    case NALTVIGO_ARRAY: naltvigo_put_array(writer); put_members(writer, naltvigo_first(at), status); break;
    case NALTVIGO_MAP: naltvigo_put_map(writer); put_members(writer, naltvigo_first(at), status); break;
    case NALTVIGO_TAG:
        naltvigo_put_tag(writer, naltvigo_get_tag(at, status));
        put_value(writer, naltvigo_first(at), status);
        break;
    default: naltvigo_put_simple(writer, naltvigo_get_simple(at, status));
    }
}

static void *room_for(size_t length) {
    void *space = malloc(length ? length : 1);
    if (!space) exit(3);
    return space;
}

/* Writes the line of an item: its canonical bytes are read, put and finished. */
static void write_line(const uint8_t *in, size_t length, const struct naltvigo_options *options) {
    struct naltvigo_refusal why = {0, 0, 0};
    size_t needed = 0, i;
    uint8_t *canonical = room_for(2 * length + 16), *items, *out;
    uint32_t status = naltvigo_canonicalise(in, length, options, canonical, 2 * length + 16, &needed, &why);
    if (status == NALTVIGO_REFUSED) {
        char name[NALTVIGO_NAME_MAX];
        naltvigo_reason_name(why.reason, name, sizeof name);
        printf("refused %d %s at %llu\n", (int)why.reason, name, (unsigned long long)why.offset);
    } else {
        const struct naltvigo_cursor root = naltvigo_open(canonical, needed, options, NULL);
        struct naltvigo_writer writer = naltvigo_writer_to(NULL, 0);
        put_value(&writer, root, &status); /* counts */
        items = room_for(writer.needed);
        out = room_for(needed);
        writer = naltvigo_writer_to(items, writer.needed);
        put_value(&writer, root, &status);
        if (status == NALTVIGO_OK) status = naltvigo_finish(&writer, options, out, needed, &needed, &why);
        if (status == NALTVIGO_OK)
            for (i = 0; i < needed; i++) printf("%02x", out[i]);
        else printf("%s", naltvigo_status_name(status));
        printf("\n");
        free(items);
        free(out);
    }
    free(canonical);
}

static int digit(int character) {
    if (character >= '0' && character <= '9') return character - '0';
    return character >= 'a' && character <= 'f' ? character - 'a' + 10 : -1;
}

int main(int count, char **words) {
    struct naltvigo_options options = naltvigo_defaults();
    size_t length = 0, space = 1 << 16;
    uint8_t *in = room_for(space);
    int high;
    options.depth = NALTVIGO_DEPTH_MAX;
    options.bytes = 1 << 30;
    if (count > 1) options.order = strcmp(words[1], "length") == 0 ? NALTVIGO_LENGTH_FIRST : NALTVIGO_BYTEWISE;
    if (count > 2) options.bytes = strtoull(words[2], NULL, 10);
    while ((high = getchar()) != EOF) {
        if (high == '\n') {
            write_line(in, length, &options);
            length = 0;
            continue;
        }
        const int low = getchar();
        if (digit(high) < 0 || digit(low) < 0) return fprintf(stderr, "values: no pair of hex digits\n"), 2;
        if (length == space && !(in = realloc(in, space *= 2))) return 3;
        in[length++] = (uint8_t)(16 * digit(high) + digit(low));
    }
    free(in);
    return 0;
}
