/* Random items: put_sample puts one, and read_sample, from the same seed, checks that a cursor reads the same values.
 * Both draw the same numbers in the same order, so no tree of values is stored. */
#include <naltvigo_values.h>

static uint64_t seed = 1; /* never 0 */

static uint64_t draw(void) {
    seed ^= seed << 13;
    seed ^= seed >> 7;
    seed ^= seed << 17;
    return seed;
}

static uint64_t below(uint64_t n) { return draw() % n; }

/* The boundaries of heads and of C's types, or a number of any length. */
static uint64_t draw_number(void) {
    static const uint64_t edges[] = {0, 1, 23, 24, 255, 256, 65535, 65536, UINT32_MAX, UINT64_C(1) << 32, INT64_MAX, UINT64_C(1) << 63, UINT64_MAX};
    const uint64_t number = draw();
    return below(3) ? edges[number % (sizeof edges / sizeof *edges)] : number >> below(64);
}

/* A string of random length; the bytes are ASCII, and those after the first few depend on their offset. */
struct string {
    char bytes[300];
    size_t length;
};

static struct string draw_string(void) {
    struct string it;
    it.length = (size_t)(below(8) ? below(30) : below(sizeof it.bytes));
    for (size_t i = 0; i < it.length; i++) it.bytes[i] = (char)(' ' + (i < 4 ? below(90) : i % 90));
    return it;
}

static inline int is_string(const struct string *it, const void *bytes, size_t length) {
    return length == it->length && memcmp(bytes, it->bytes, length) == 0;
}

/* A key that differs from those of the other pairs in its map. */
struct key {
    uint64_t kind, number;
    struct string text;
};

static struct key draw_key(uint64_t pair) {
    struct key it;
    it.kind = below(6);
    it.number = pair * 1000 + below(1000);
    it.text = draw_string();
    it.text.bytes[0] = (char)('0' + pair);
    if (it.text.length == 0) it.text.length = 1;
    return it;
}

static void put_key(struct naltvigo_writer *w, const struct key *it) {
    switch (it->kind) {
    case 0: naltvigo_put_uint(w, it->number); break;
    case 1: naltvigo_put_int(w, -1 - (int64_t)it->number); break;
    case 2: naltvigo_put_text_n(w, it->text.bytes, it->text.length); break;
    case 3: naltvigo_put_bytes(w, it->text.bytes, it->text.length); break;
    case 4: naltvigo_put_uint(w, UINT64_MAX - it->number); break;
    default:
        naltvigo_put_array(w);
        naltvigo_put_uint(w, it->number);
        naltvigo_put_end(w);
    }
}

/* By the call for its kind, or by its canonical bytes, which another writer makes. */
static inline struct naltvigo_cursor at_key(struct naltvigo_cursor map, const struct key *it, int by_bytes) {
    uint8_t items[400], bytes[400];
    size_t length = 0;
    struct naltvigo_writer w = naltvigo_writer_to(items, sizeof items);
    if (!by_bytes) switch (it->kind) {
    case 0: return naltvigo_at_uint(map, it->number);
    case 1: return naltvigo_at_int(map, -1 - (int64_t)it->number);
    case 2: return naltvigo_at_text_n(map, it->text.bytes, it->text.length);
    case 4: return naltvigo_at_uint(map, UINT64_MAX - it->number);
    default: break;
    }
    put_key(&w, it);
    check(naltvigo_finish(&w, NULL, bytes, sizeof bytes, &length, NULL) == NALTVIGO_OK, "sample", "key");
    return naltvigo_at_encoded(map, bytes, length);
}

/* Kinds of scalars come first, then a tag, a map and two of arrays. */
enum { SCALARS = 7, KINDS = 11, MEMBERS = 6 };

static void put_scalar(struct naltvigo_writer *w, uint64_t kind) {
    struct string string;
    uint64_t number;
    switch (kind) {
    case 0: naltvigo_put_uint(w, draw_number()); break;
    case 1: naltvigo_put_negative(w, draw_number()); break;
    case 2: number = draw_number(), naltvigo_put_int(w, number > INT64_MAX ? -1 - (int64_t)~number : (int64_t)number); break;
    case 3: string = draw_string(), naltvigo_put_bytes(w, string.bytes, string.length); break;
    case 4: string = draw_string(), naltvigo_put_text_n(w, string.bytes, string.length); break;
    case 5: naltvigo_put_bool(w, (int)below(2)); break;
    default: naltvigo_put_simple(w, (uint8_t)(below(2) ? below(24) : 32 + below(224)));
    }
}

static void put_sample(struct naltvigo_writer *w, int depth) {
    const uint64_t kind = depth && below(2) ? SCALARS + below(KINDS - SCALARS) : below(SCALARS);
    uint64_t count, counted, i;
    if (kind < SCALARS) {
        put_scalar(w, kind);
    } else if (kind == SCALARS) {
        naltvigo_put_tag(w, draw_number());
        put_sample(w, depth - 1);
    } else {
        const int is_map = kind == SCALARS + 1;
        count = below(MEMBERS), counted = below(2);
        if (is_map && counted) naltvigo_put_map_n(w, count);
        else if (is_map) naltvigo_put_map(w);
        else if (counted) naltvigo_put_array_n(w, count);
        else naltvigo_put_array(w);
        for (i = 0; i < count; i++) {
            if (is_map) {
                const struct key key = draw_key(i);
                put_key(w, &key);
            }
            put_sample(w, depth - 1);
        }
        if (!counted) naltvigo_put_end(w);
    }
}

static inline void read_scalar(struct naltvigo_cursor at, uint64_t kind) {
    struct string string;
    uint64_t number;
    size_t length;
    uint32_t status = NALTVIGO_OK;
    const void *bytes;
    switch (kind) {
    case 0: check(naltvigo_get_uint(at, &status) == draw_number(), "sample", "unsigned"); break;
    case 1: check(naltvigo_get_negative(at, &status) == draw_number(), "sample", "negative"); break;
    case 2:
        number = draw_number();
        check(naltvigo_get_int(at, &status) == (number > INT64_MAX ? -1 - (int64_t)~number : (int64_t)number), "sample", "int");
        break;
    case 3:
        string = draw_string(), bytes = naltvigo_get_bytes(at, &length, &status);
        check(is_string(&string, bytes, length), "sample", "bytes");
        break;
    case 4:
        string = draw_string(), bytes = naltvigo_get_text(at, &length, &status);
        check(is_string(&string, bytes, length), "sample", "text");
        break;
    case 5: check((uint64_t)naltvigo_get_bool(at, &status) == below(2), "sample", "bool"); break;
    default: check(naltvigo_get_simple(at, &status) == (below(2) ? below(24) : 32 + below(224)), "sample", "simple");
    }
    check(status == NALTVIGO_OK, "sample", "status");
}

/* Returns the number of items, with those inside. */
static inline uint64_t read_sample(struct naltvigo_cursor at, int depth) {
    const uint64_t kind = depth && below(2) ? SCALARS + below(KINDS - SCALARS) : below(SCALARS);
    uint64_t count, i, items = 1;
    uint32_t status = NALTVIGO_OK;
    if (kind < SCALARS) {
        read_scalar(at, kind);
    } else if (kind == SCALARS) {
        count = draw_number();
        check(naltvigo_get_tag(at, &status) == count && status == NALTVIGO_OK, "sample", "tag");
        items += read_sample(count % 2 ? naltvigo_first(at) : naltvigo_at_tag(at, count), depth - 1);
    } else {
        const int is_map = kind == SCALARS + 1;
        count = below(MEMBERS), below(2);
        check(naltvigo_get_count(at, &status) == count && status == NALTVIGO_OK, "sample", "count");
        check(naltvigo_kind(at) == (is_map ? NALTVIGO_MAP : NALTVIGO_ARRAY), "sample", "kind");
        for (i = 0; i < count; i++) {
            if (is_map) {
                const struct key key = draw_key(i);
                const struct naltvigo_cursor value = at_key(at, &key, 0), again = at_key(at, &key, 1);
                check(value.status == NALTVIGO_OK && value.item.offset == again.item.offset, "sample", "look-ups");
                items += (key.kind == 5 ? 2 : 1) + read_sample(value, depth - 1);
            } else {
                items += read_sample(naltvigo_at_index(at, i), depth - 1);
            }
        }
    }
    return items;
}
