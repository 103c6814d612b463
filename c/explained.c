/* Calls naltvigo_explain as a C program does: after a refusal, with every size of buffer near the text's, for each reason, without an
 * input, and with numbers out of range. Prints the number of checks; the status is 0 if all hold. */
#include "options.h"
#include "checks.h"
#include "hex.h"

#include <stdio.h>

/* An input, the refusal that check_canonical or check_valid returns, and the text. */
static const struct {
    const char *in;
    int strict;
    uint32_t reason;
    uint64_t offset;
    const char *text;
} rows[] = {
    /* {"a": [0, 0.0]} */
    {"a161618200f90000", 0, NALTVIGO_FLOAT, 5,
     "A floating-point number begins here; floats are not accepted.\n"
     "Encode it as an integer, as a text, or as a tag that contains integers.\n"
     "$.\"a\"[1]"},
    /* [0, {1: 0, 1: 0}] */
    {"8200a201000100", 0, NALTVIGO_REPEATED_KEY, 5,
     "This key equals an earlier key of its map.\n"
     "Remove one of the two pairs.\n"
     "$[1], key 2 of the map at 2"},
    /* {1: 2, 1: 3}, which sorting does not help */
    {"a201020103", 1, NALTVIGO_KEY_ORDER, 3,
     "This key does not sort after the key before it.\n"
     "If the item is valid, canonicalising it sorts its keys. Or choose the other order.\n"
     "$, key 2 of the map at 0"},
    /* [24 in three bytes] */
    {"81190018", 1, NALTVIGO_NOT_SHORTEST, 1,
     "A number or a length is encoded in more bytes than necessary.\n"
     "If the item is valid, canonicalise it.\n"
     "$[0]"},
    /* 99([0, and a break */
    {"d8638200ff", 0, NALTVIGO_STRAY_BREAK, 4,
     "There is a break (ff) where an item must begin.\n"
     "Check whether a length is wrong, or the value of a key is missing.\n"
     "$(99)[1]"},
    /* {{1: 0, 1: 0}: 0} */
    {"a1a20100010000", 0, NALTVIGO_REPEATED_KEY, 4,
     "This key equals an earlier key of its map.\n"
     "Remove one of the two pairs.\n"
     "$, key 1 of the map at 0, key 2 of the map at 1"},
    /* {a text with a quote, a line feed and e with an acute accent: and no value */
    {"a164220ac3a9", 0, NALTVIGO_TRUNCATED, 6,
     "The input ends within the item.\n"
     "Check whether the input was cut off, or a length is too large.\n"
     "$.\"\\\"\\u000a\xc3\xa9\""},
    /* {U+202E: 0.0} */
    {"a163e280aef90000", 0, NALTVIGO_FLOAT, 5,
     "A floating-point number begins here; floats are not accepted.\n"
     "Encode it as an integer, as a text, or as a tag that contains integers.\n"
     "$.(the key at 1)"},
    /* 0 and a byte */
    {"0000", 0, NALTVIGO_TRAILING, 1,
     "The item is complete, and a byte follows it.\n"
     "Read several items as a sequence; decode hex text first.\n"
     "$"},
};

static int all_are(const char *bytes, size_t n, char byte) {
    for (size_t i = 0; i < n; i++)
        if (bytes[i] != byte) return 0;
    return 1;
}

static void explains(const char *hex, int strict, uint32_t reason, uint64_t offset, const char *text) {
    const size_t length = strlen(text);
    size_t n, needed;
    uint8_t *in = unhex(hex, &n);
    struct naltvigo_refusal why = {0, 0, 0};
    const struct naltvigo_options *options = OPTIONS(NALTVIGO_BYTEWISE, 64, 1 << 20);
    uint32_t s = strict ? naltvigo_check_canonical(in, n, options, &why) : naltvigo_check_valid(in, n, options, &why);
    check(s == NALTVIGO_REFUSED && why.reason == reason && why.offset == offset, "the refusal", hex);
    for (size_t space = length - 1; space <= length + 2; space++) {
        char *out = room_for(space);
        memset(out, 7, space);
        needed = 999;
        s = naltvigo_explain(in, n, options, &why, out, space, &needed);
        check(needed == length, "length", hex);
        if (space < length) {
            check(s == NALTVIGO_TOO_SMALL && all_are(out, space, 7), "too small", hex);
        } else {
            const int is_text = s == NALTVIGO_OK && memcmp(out, text, length) == 0;
            check(is_text, "text", hex);
            if (!is_text) fprintf(stderr, "found %.*s\nexpected %s\n", (int)length, out, text);
            check(all_are(out + length, space - length, 7), "after the text", hex);
        }
        free(out);
    }
    check(naltvigo_explain(in, n, NULL, &why, NULL, 0, &needed) == NALTVIGO_TOO_SMALL && needed == length, "no space", hex);
    free(in);
}

/* Each reason has a sentence and a piece of advice; without an input the path is that of the item. */
static void each_reason(void) {
    char out[256];
    size_t needed;
    for (uint32_t reason = 0; reason < 23; reason++) {
        const struct naltvigo_refusal why = {reason, 9, 9};
        memset(out, 7, sizeof out);
        check(naltvigo_explain(NULL, 0, NULL, &why, out, sizeof out, &needed) == NALTVIGO_OK, "each reason", "status");
        if (reason == 0 || reason > 20) {
            check(needed == 0 && all_are(out, sizeof out, 7), "each reason", "none");
            continue;
        }
        const char *first = memchr(out, '\n', needed);
        const char *second = first ? memchr(first + 1, '\n', (size_t)(out + needed - first - 1)) : NULL;
        check(first && first > out && second && second > first + 1, "each reason", "three lines");
        check(second && out + needed == second + 2 && second[1] == '$', "each reason", "the path");
    }
}

static void numbers_out_of_range(void) {
    static const uint8_t in[] = {0x81, 0xff};
    const struct naltvigo_refusal why = {NALTVIGO_STRAY_BREAK, 1, 2};
    const struct naltvigo_refusal far = {NALTVIGO_STRAY_BREAK, UINT64_MAX, UINT64_MAX};
    char out[256];
    size_t needed = 9;
    memset(out, 7, sizeof out);
    check(naltvigo_explain(in, 2, LIMITS(1025, 9), &why, out, sizeof out, &needed) == NALTVIGO_BAD_LIMITS && needed == 0, "numbers", "depth");
    needed = 9;
    uint32_t s = naltvigo_explain(in, 2, LIMITS(9, NALTVIGO_BYTES_MAX + 1), &why, out, sizeof out, &needed);
    check(s == NALTVIGO_BAD_LIMITS && needed == 0 && all_are(out, sizeof out, 7), "numbers", "bytes");
    check(naltvigo_explain(in, 2, NULL, &far, out, sizeof out, &needed) == NALTVIGO_OK && needed > 0, "numbers", "offset");
}

/* 1,024 maps, each in the value of a key of 64 bytes: the longest path. Each key has 62 characters that are written in 6. */
static void the_longest_path(void) {
    enum { LEVELS = 1024, KEY = 64, WRITTEN = 3 + 6 * 62 };
    const struct naltvigo_refusal why = {NALTVIGO_FLOAT, LEVELS * (KEY + 1), LEVELS * (KEY + 1) + 1};
    const size_t n = LEVELS * (KEY + 1) + 1;
    uint8_t *in = room_for(n);
    for (size_t i = 0; i < LEVELS; i++) {
        uint8_t *map = in + i * (KEY + 1);
        map[0] = 0xa1, map[1] = 0x78, map[2] = 62;
        memset(map + 3, 1, 62);
    }
    in[n - 1] = 0xf9;
    size_t needed = 0, again = 0;
    check(naltvigo_explain(in, n, OPTIONS(0, 1024, 1 << 20), &why, NULL, 0, &needed) == NALTVIGO_TOO_SMALL, "the longest path", "needed");
    char *out = room_for(needed);
    check(naltvigo_explain(in, n, OPTIONS(0, 1024, 1 << 20), &why, out, needed, &again) == NALTVIGO_OK && again == needed, "the longest path", "written");
    size_t path = 1 + (size_t)LEVELS * WRITTEN;
    check(needed > path && out[needed - path] == '$' && out[needed - path - 1] == '\n', "the longest path", "length");
    free(out);
    free(in);
}

int main(void) {
    for (size_t i = 0; i < sizeof rows / sizeof *rows; i++) explains(rows[i].in, rows[i].strict, rows[i].reason, rows[i].offset, rows[i].text);
    each_reason();
    numbers_out_of_range();
    the_longest_path();
    printf("%d checks of explanations, %d fail\n", checks, faults);
    return faults != 0;
}
