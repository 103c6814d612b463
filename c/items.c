/* Calls naltvigo_put_head, naltvigo_item_at, naltvigo_find and naltvigo_index as a C program does: each width of a
 * head, each first byte, and each canonical item of the conformance tables, which a reader in this file, written
 * after RFC 8949, appendix C, reads too; and these items cut and damaged. Prints the number of checks;
 * the status is 0 if all hold. */
#include "options.h"
#include "checks.h"
#include "conformance.h"

#include <stdio.h>

/* ---- heads ---- */

/* Numbers at which the width of a head changes, and their heads as unsigned integers (section 3). */
static const struct { uint64_t number; const char *head; } heads[] = {
    {0, "00"}, {23, "17"}, {24, "1818"}, {255, "18ff"}, {256, "190100"}, {65535, "19ffff"}, {65536, "1a00010000"},
    {4294967295, "1affffffff"}, {4294967296, "1b0000000100000000"}, {UINT64_MAX, "1bffffffffffffffff"},
};

/* A head in buffers with space for none, for one byte too few, for it, and for more. */
static void puts_head(uint32_t kind, uint64_t number, const uint8_t *wanted, size_t length) {
    size_t needed;
    for (size_t space = 0; space <= length + 3; space++) {
        uint8_t *out = room_for(space);
        memset(out, 0xaa, space);
        needed = 999;
        uint32_t s = naltvigo_put_head(kind, number, space ? out : NULL, space, &needed);
        check(s == (space < length ? NALTVIGO_TOO_SMALL : NALTVIGO_OK) && needed == length, "head", "status");
        if (s == NALTVIGO_OK) check(memcmp(out, wanted, length) == 0, "head", "bytes");
        const size_t put = s == NALTVIGO_OK ? length : 0;
        check(all_are(out + put, space - put, 0xaa), "head", "kept");
        free(out);
    }
}

static void has_no_head(uint32_t kind, uint64_t number) {
    uint8_t out[16];
    size_t needed = 999;
    memset(out, 0xaa, sizeof out);
    check(naltvigo_put_head(kind, number, out, sizeof out, &needed) == NALTVIGO_BAD_HEAD, "no head", "status");
    check(needed == 0 && all_are(out, sizeof out, 0xaa), "no head", "kept");
}

static void all_heads(void) {
    for (size_t i = 0; i < sizeof heads / sizeof *heads; i++) {
        size_t length;
        uint8_t *head = unhex(heads[i].head, &length);
        for (uint32_t kind = 0; kind < 7; kind++) {
            puts_head(kind, heads[i].number, head, length);
            head[0] = (uint8_t)(head[0] + 0x20);
        }
        has_no_head(8, heads[i].number);
        has_no_head(UINT32_MAX, heads[i].number);
        free(head);
    }
    /* Simple values: 0 to 23 in one byte, 32 to 255 in two (section 3.3). */
    for (uint64_t n = 0; n < 600; n++) {
        const uint8_t one = (uint8_t)(0xe0 + n % 32), two[2] = {0xf8, (uint8_t)n};
        if (n < 24) puts_head(7, n, &one, 1);
        else if (n < 32 || n > 255) has_no_head(7, n);
        else puts_head(7, n, two, 2);
    }
    has_no_head(7, UINT64_MAX);
}

/* ---- one item ---- */

static const struct naltvigo_item unset_item = {71, 72, 73, 74, 75, 76};

static int same_item(const struct naltvigo_item *a, const struct naltvigo_item *b) {
    return a->number == b->number && a->offset == b->offset && a->content == b->content && a->end == b->end && a->kind == b->kind;
}

/* For any bytes: offsets in order, or nothing is written. */
static uint32_t item_of_any(const uint8_t *in, size_t n, uint64_t offset, struct naltvigo_item *item) {
    *item = unset_item;
    uint32_t s = naltvigo_item_at(in, n, offset, item);
    if (s == NALTVIGO_OK)
        check(item->offset == offset && offset < item->content && item->content <= item->end && item->end <= n && item->kind < 8 && item->entries == 0, "item", "offsets");
    else
        check(s == NALTVIGO_NOT_FOUND && same_item(item, &unset_item) && item->entries == unset_item.entries, "no item", "kept");
    return s;
}

/* Each first byte with the least argument of its width, followed by zeros: for an array they are its members. */
static void first_bytes(void) {
    static const uint64_t least[] = {24, 256, 65536, UINT64_C(4294967296)};
    for (unsigned first = 0; first < 256; first++) {
        const unsigned kind = first / 32, low = first % 32, size = low < 24 || low > 27 ? 0 : 1u << (low - 24);
        const uint64_t number = size ? least[low - 24] : low;
        for (size_t zeros = 0; zeros <= 65536 + 1; zeros = zeros < 32 ? zeros + 1 : 8 * zeros) {
            const size_t n = 1 + size + zeros, content = 1 + size;
            uint8_t *in = room_for(n);
            memset(in, 0, n);
            in[0] = (uint8_t)first;
            for (unsigned i = 0; i < size; i++) in[1 + i] = (uint8_t)(number >> 8 * (size - 1 - i));
            const uint64_t more = kind == 6 ? 1 : kind >= 2 && kind <= 4 ? number : 0;
            const struct naltvigo_item wanted = {number, 0, content, content + more, kind, 0};
            struct naltvigo_item item;
            uint32_t s = item_of_any(in, n, 0, &item);
            if (low > 27) check(s == NALTVIGO_NOT_FOUND, "first byte", "none");
            else if (kind != 5 && !(kind == 7 && size)) /* repeated keys, floats and the like are not canonical */
                check(more > zeros ? s == NALTVIGO_NOT_FOUND : s == NALTVIGO_OK && same_item(&item, &wanted), "first byte", "item");
            free(in);
        }
    }
}

/* ---- the items of canonical bytes, as RFC 8949 defines them ---- */

static uint64_t argument_of(const uint8_t *in, size_t *at) {
    const unsigned low = in[(*at)++] % 32;
    uint64_t number = 0;
    if (low < 24) return low;
    for (unsigned size = 1u << (low - 24); size; size--) number = number << 8 | in[(*at)++];
    return number;
}

/* The entries of the item at an offset, and their number. */
static size_t entries_of(const uint8_t *in, size_t at, struct naltvigo_item *entries) {
    struct naltvigo_item *own = entries;
    size_t next = at, count = 1;
    own->kind = in[at] / 32;
    own->offset = at;
    own->number = argument_of(in, &next);
    own->content = next;
    uint64_t within = own->kind == 4 ? own->number : own->kind == 5 ? 2 * own->number : own->kind == 6;
    if (own->kind == 2 || own->kind == 3) next += (size_t)own->number;
    for (; within; within--) {
        const size_t first = count;
        count += entries_of(in, next, entries + first);
        next = (size_t)entries[first].end;
    }
    own->end = next;
    own->entries = (uint32_t)count;
    return count;
}

static int same_key(const uint8_t *in, const struct naltvigo_item *a, const struct naltvigo_item *b) {
    const size_t n = (size_t)(a->end - a->offset);
    return n == b->end - b->offset && memcmp(in + a->offset, in + b->offset, n) == 0;
}

/* Each item, as a key, in the item as a map; and its bytes with one byte less or more, which are not those of an item. */
static void finds(const uint8_t *in, size_t n, const struct naltvigo_item *entries, size_t count, size_t map) {
    for (size_t k = 0; k < count; k++) {
        const struct naltvigo_item *key = &entries[k], *value = NULL;
        size_t pair = map + 1;
        for (uint64_t i = 0; entries[map].kind == 5 && i < entries[map].number; i++) {
            const size_t of_value = pair + entries[pair].entries;
            if (same_key(in, &entries[pair], key)) value = &entries[of_value];
            pair = of_value + entries[of_value].entries;
        }
        const uint32_t none = entries[map].kind == 5 ? NALTVIGO_NOT_FOUND : NALTVIGO_WRONG_KIND;
        const size_t length = (size_t)(key->end - key->offset);
        struct naltvigo_item found = unset_item;
        uint32_t s = naltvigo_find(in, n, entries[map].offset, in + key->offset, length - 1, &found);
        check(s == none && same_item(&found, &unset_item), "find", "a byte less");
        if (key->end < n) s = naltvigo_find(in, n, entries[map].offset, in + key->offset, length + 1, &found);
        check(s == none && same_item(&found, &unset_item), "find", "a byte more");
        s = naltvigo_find(in, n, entries[map].offset, in + key->offset, length, &found);
        if (value) check(s == NALTVIGO_OK && same_item(&found, value) && found.entries == 0, "find", "value");
        else check(s == none && same_item(&found, &unset_item), "find", "none");
    }
}

static void indexes(const uint8_t *in, size_t n, const struct naltvigo_options *options, const struct naltvigo_item *wanted, size_t count) {
    for (size_t space = 0; space <= count + 2; space += space == 0 && count > 2 ? count - 1 : 1) {
        struct naltvigo_refusal why = unset;
        struct naltvigo_item *items = room_for(space * sizeof *items);
        for (size_t i = 0; i < space; i++) items[i] = unset_item;
        size_t needed = 999;
        uint32_t s = naltvigo_index(in, n, options, space ? items : NULL, space, &needed, &why);
        check(s == (space < count ? NALTVIGO_TOO_SMALL : NALTVIGO_OK) && needed == count && are_equal(why, unset), "index", "status");
        for (size_t i = 0; s == NALTVIGO_OK && i < space; i++)
            check(i < count ? same_item(&items[i], &wanted[i]) && items[i].entries == wanted[i].entries : same_item(&items[i], &unset_item), "index", "entry");
        free(items);
    }
}

/* Cut, and with each byte changed in three ways. */
static void damaged(const uint8_t *in, size_t n, const uint8_t *key, size_t key_length) {
    static const uint8_t changes[] = {0, 1, 0x20, 0xff};
    for (size_t cut = 0; cut <= n; cut++) {
        uint8_t *bytes = room_for(cut);
        struct naltvigo_item item;
        if (cut) memcpy(bytes, in, cut);
        if (cut < n) check(item_of_any(bytes, cut, 0, &item) == NALTVIGO_NOT_FOUND, "cut", "none");
        for (size_t c = 0; cut == n && n < 300 && c < n * sizeof changes; c++) {
            bytes[c / sizeof changes] ^= changes[c % sizeof changes];
            for (size_t offset = 0; offset < n + 2; offset++) {
                item_of_any(bytes, n, offset, &item);
                item = unset_item;
                uint32_t s = naltvigo_find(bytes, n, offset, key, key_length, &item);
                if (s == NALTVIGO_OK) check(item.offset < item.content && item.content <= item.end && item.end <= n, "damaged", "find");
                else check((s == NALTVIGO_NOT_FOUND || s == NALTVIGO_WRONG_KIND) && same_item(&item, &unset_item), "damaged", "kept");
            }
            bytes[c / sizeof changes] ^= changes[c % sizeof changes];
        }
        free(bytes);
    }
}

static void items_of(const struct row *row, uint32_t order) {
    size_t n;
    uint8_t *in = unhex(row->by_order[order].canonical, &n);
    struct naltvigo_item *entries = room_for(n * sizeof *entries);
    const size_t count = entries_of(in, 0, entries);
    check(entries[0].end == n && entries[0].entries == count, "reader", row->given);
    indexes(in, n, OF_ROW(row, order), entries, count);
    for (size_t i = 0; i < count; i++) {
        struct naltvigo_item item;
        check(item_of_any(in, n, entries[i].offset, &item) == NALTVIGO_OK && same_item(&item, &entries[i]), "item", row->given);
        if (count < 100) finds(in, n, entries, count, i);
    }
    const struct naltvigo_item *key = &entries[count > 1];
    damaged(in, n, in + key->offset, (size_t)(key->end - key->offset));
    free(entries);
    free(in);
}

/* The index refuses what naltvigo_check_canonical does, as the tables say. */
static void is_indexed_or_refused(const struct row *row, uint32_t order) {
    size_t n, needed = 999;
    uint8_t *in = unhex(row->given, &n);
    const struct naltvigo_refusal strict = row->by_order[order].strict;
    struct naltvigo_refusal why = {0, 0, 0};
    struct naltvigo_item item = unset_item;
    uint32_t s = naltvigo_index(in, n, OF_ROW(row, order), &item, 1, &needed, &why);
    check(are_equal(why, strict), "index", row->given);
    if (strict.reason) check(s == NALTVIGO_REFUSED && needed == 0 && same_item(&item, &unset_item), "index refuses", row->given);
    else check(s == (needed == 1 ? NALTVIGO_OK : NALTVIGO_TOO_SMALL) && needed > 0, "index accepts", row->given);
    free(in);
}

/* The example of naltvigo.h, numbers out of range, and null pointers. */
static void by_hand(void) {
    static const uint8_t in[] = {0x82, 0x18, 0x64, 0xa1, 0x00, 0xf5}; /* [100, {0: true}] */
    static const struct naltvigo_item wanted[] = {
        {2, 0, 1, 6, 4, 5}, {100, 1, 3, 3, 0, 1}, {1, 3, 4, 6, 5, 3}, {0, 4, 5, 5, 0, 1}, {21, 5, 6, 6, 7, 1}};
    struct naltvigo_item item;
    size_t needed = 999;
    indexes(in, sizeof in, NULL, wanted, 5);
    check(naltvigo_find(in, sizeof in, 3, in + 4, 1, &item) == NALTVIGO_OK && same_item(&item, &wanted[4]), "find", "0");
    check(naltvigo_find(in, sizeof in, 3, in + 5, 1, &item) == NALTVIGO_NOT_FOUND, "find", "true");
    check(naltvigo_find(in, sizeof in, 3, NULL, 0, &item) == NALTVIGO_NOT_FOUND, "find", "no key");
    check(naltvigo_find(in, sizeof in, 6, in + 4, 1, &item) == NALTVIGO_NOT_FOUND, "find", "after the end");
    check(naltvigo_find(in, sizeof in, UINT64_MAX, in + 4, 1, &item) == NALTVIGO_NOT_FOUND, "find", "far after the end");
    check(naltvigo_find(NULL, 0, 0, NULL, 0, &item) == NALTVIGO_NOT_FOUND, "find", "NULL");
    check(item_of_any(NULL, 0, 0, &item) == NALTVIGO_NOT_FOUND, "item", "NULL");
    check(item_of_any(in, sizeof in, 6, &item) == NALTVIGO_NOT_FOUND, "item", "after the end");
    check(item_of_any(in, sizeof in, UINT64_MAX, &item) == NALTVIGO_NOT_FOUND, "item", "far after the end");
    check(naltvigo_index(NULL, 0, NULL, NULL, 0, &needed, NULL) == NALTVIGO_REFUSED && needed == 0, "index", "NULL");
    needed = 999;
    check(naltvigo_index(in, 6, OPTIONS(2, 64, 100), &item, 1, &needed, NULL) == NALTVIGO_BAD_ORDER && needed == 0, "index", "order");
    needed = 999;
    check(naltvigo_index(in, 6, OPTIONS(0, 1025, 100), &item, 1, &needed, NULL) == NALTVIGO_BAD_LIMITS && needed == 0, "index", "limits");
}

int main(void) {
    all_heads();
    first_bytes();
    by_hand();
    for (size_t i = 0; i < sizeof rows / sizeof *rows; i++)
        for (uint32_t order = 0; order < 2; order++) {
            is_indexed_or_refused(&rows[i], order);
            if (rows[i].by_order[order].canonical) items_of(&rows[i], order);
        }
    printf("%d checks, %d fail\n", checks, faults);
    return faults != 0;
}
