/* Refuses the Nth malloc or realloc of each call for each N, and counts what is freed. Linked with
 * --wrap=malloc,realloc,free. */
#include "options.h"

#include <naltvigo_checker.h>
#include <naltvigo_values.h>
#include <stdio.h>
#include <string.h>

void *__real_malloc(size_t n);
void *__real_realloc(void *p, size_t n);
void __real_free(void *p);

static long left = -1, taken, live;

static int is_refused(void) { return left == 0 || (left > 0 && --left == 0); }

void *__wrap_malloc(size_t n) {
    if (is_refused()) return NULL;
    taken++, live++;
    return __real_malloc(n);
}

void *__wrap_realloc(void *p, size_t n) {
    if (is_refused()) return NULL;
    taken++;
    live += p == NULL;
    return __real_realloc(p, n);
}

void __wrap_free(void *p) {
    live -= p != NULL;
    __real_free(p);
}

/* {_ "Fun": [_ 1, h'0102', {3: 4, 2: 5}], "Amt": -2, "b": (_ "st", "ream")}, and a key that is not a scalar */
static const uint8_t in[] = {0xbf, 0x63, 'F',  'u', 'n', 0x9f, 0x01, 0x42, 1,   2,    0xa2, 3,    4,    2,    5,   0xff, 0x63, 'A', 'm',
                             't',  0x21, 0x61, 'b', 0x7f, 0x62, 's',  't',  0x64, 'r', 'e',  'a',  'm',  0xff, 0xa1, 2,   3,    4,   0xff};
static uint8_t out[512];
static size_t needed;
static uint64_t front;
static uint32_t side;
static struct naltvigo_refusal why;

static uint32_t canonicalise(void) { return naltvigo_canonicalise(in, sizeof in, OPTIONS(0, 256, 1000), out, sizeof out, &needed, &why); }
static uint32_t length_first(void) { return naltvigo_canonicalise(in, sizeof in, OPTIONS(1, 256, 1000), out, sizeof out, &needed, &why); }
static uint32_t check_valid(void) { return naltvigo_check_valid(in, sizeof in, LIMITS(256, 1000), &why); }
static uint32_t compare(void) { return naltvigo_compare(in, sizeof in, in, sizeof in, LIMITS(256, 1000), &side, &why); }
static uint32_t diagnostic(void) { return naltvigo_diagnostic(in, sizeof in, LIMITS(256, 1000), (char *)out, sizeof out, &needed, &why); }
static uint32_t explain(void) {
    /* a float as the value of the key {"a": 1}: the path contains this key, which needs memory */
    static const uint8_t item[] = {0x81, 0xa1, 0xa1, 0x61, 'a', 1, 0xf9, 0, 0};
    const struct naltvigo_refusal at = {NALTVIGO_FLOAT, 6, 7};
    uint32_t status = naltvigo_explain(item, sizeof item, LIMITS(256, 1000), &at, (char *)out, sizeof out, &needed);
    /* as the other calls report it */
    if (status == NALTVIGO_NO_MEMORY) why.reason = NALTVIGO_MEMORY;
    return status;
}
static uint32_t check_canonical(void) { return naltvigo_check_canonical(in, sizeof in, OPTIONS(0, 256, 1000), &why); }

/* The length of the item at the front is where other calls have the length of a result. */
static uint32_t next_valid(void) {
    uint32_t status = naltvigo_next_valid(in, sizeof in, LIMITS(256, 1000), &front, &why);
    return needed = (size_t)front, status;
}
static uint32_t next_canonical(void) {
    uint32_t status = naltvigo_next_canonical(in, sizeof in, OPTIONS(0, 256, 1000), &front, &why);
    return needed = (size_t)front, status;
}

/* What a writer put: [_ {"Fun": h'0102', "Amt": -2}, {2: 5, 1: 4}], out of order */
static uint32_t finish(void) {
    static uint8_t items[64];
    struct naltvigo_writer w = naltvigo_writer_to(items, sizeof items);
    naltvigo_put_array(&w), naltvigo_put_map(&w);
    naltvigo_put_text(&w, "Fun"), naltvigo_put_bytes(&w, "\1\2", 2);
    naltvigo_put_text(&w, "Amt"), naltvigo_put_int(&w, -2);
    naltvigo_put_end(&w), naltvigo_put_map_n(&w, 2);
    naltvigo_put_int(&w, 2), naltvigo_put_int(&w, 5), naltvigo_put_int(&w, 1), naltvigo_put_int(&w, 4);
    naltvigo_put_end(&w);
    return naltvigo_finish(&w, NULL, out, sizeof out, &needed, &why);
}

/* {"Amt": -2, "Fun": [1, 2]}, with all calls of a cursor; and a writer that is not finished */
static uint32_t look_up(void) {
    static const uint8_t item[] = {0xa2, 0x63, 'A', 'm', 't', 0x21, 0x63, 'F', 'u', 'n', 0x82, 1, 2};
    uint8_t items[8];
    uint32_t status = NALTVIGO_OK;
    struct naltvigo_writer w = naltvigo_writer_to(items, sizeof items);
    const struct naltvigo_cursor map = naltvigo_open(item, sizeof item, NULL, &why);
    const struct naltvigo_cursor array = naltvigo_at_text(map, "Fun");
    char long_key[100] = {0};
    naltvigo_put_encoded(&w, item + 10, 3), naltvigo_put_int(&w, naltvigo_get_int(naltvigo_at_text(map, "Amt"), &status));
    naltvigo_get_int(naltvigo_next(naltvigo_first(array)), &status), naltvigo_get_int(naltvigo_at_index(array, 1), &status);
    naltvigo_at_int(map, 1), naltvigo_at_text_n(map, long_key, sizeof long_key);
    return w.status == NALTVIGO_OK ? status : w.status;
}

static int refuse_each(const char *name, uint32_t (*call)(void), uint32_t status) {
    uint8_t before[sizeof out], result[sizeof out];
    const struct naltvigo_refusal unset = {0, 0, 0};
    taken = live = 0, left = -1;
    memset(out, 0xaa, sizeof out);
    memcpy(before, out, sizeof out);
    needed = 0;
    int bad = call() != status || live != 0;
    size_t length = needed;
    memcpy(result, out, sizeof out);
    long whole = taken, refusals = 0;
    for (long n = 1; n <= whole + 1; n++) {
        memset(out, 0xaa, sizeof out);
        why = unset, needed = 0, left = n;
        uint32_t s = call();
        left = -1;
        bad |= live != 0;
        if (n > whole) {
            bad |= s != status || needed != length || memcmp(out, result, sizeof out) != 0;
        } else {
            refusals++;
            bad |= s != NALTVIGO_NO_MEMORY || why.reason != NALTVIGO_MEMORY || why.offset != why.consumed;
            /* At offset 0; or at the end of the input, if there was no memory for the text alone. */
            bad |= why.consumed != 0 && (call != diagnostic || why.consumed != sizeof in);
            bad |= memcmp(out, before, sizeof out) != 0 || needed != 0;
        }
    }
    printf("%-16s %3ld requests, each refused in turn: %s\n", name, refusals, bad ? "WRONG" : "as said, nothing is lost");
    return bad;
}

/* {"aa..": {"bb..": 0, "cc..": 0}, "dd..": 0}, with keys of 200 bytes */
static size_t nested(uint8_t *item) {
    static const uint8_t heads[] = {0xa2, 'a', 0xa2, 'b', 0, 'c', 0, 'd', 0};
    size_t length = 0, i;
    for (i = 0; i < sizeof heads; i++) {
        if (heads[i] < 'a' || heads[i] > 'd') {
            item[length++] = heads[i];
            continue;
        }
        item[length++] = 0x78, item[length++] = 200;
        memset(item + length, heads[i], 200), length += 200;
    }
    return length;
}

/* The item in parts of this many bytes: the last status, and in `*used` all bytes that were used. */
static uint32_t take_parts(struct naltvigo_checker *checker, const uint8_t *item, size_t length, size_t part, size_t *used) {
    uint32_t status = NALTVIGO_MORE;
    size_t now;
    for (*used = 0; *used < length && status == NALTVIGO_MORE; *used += now)
        status = naltvigo_checker_feed(checker, item + *used, length - *used < part ? length - *used : part, &now, &why);
    return status;
}

/* Whether a checker that had no memory for a byte returns NO_MEMORY again, and works after a restart. */
static int goes_on(struct naltvigo_checker *checker, const uint8_t *item, size_t length, size_t part, size_t used) {
    const struct naltvigo_refusal first = why;
    size_t now = 9;
    int bad = first.reason != NALTVIGO_MEMORY || first.offset != first.consumed || first.consumed != used || used == 0;
    bad |= naltvigo_checker_feed(checker, item, length, &now, &why) != NALTVIGO_NO_MEMORY || now != 0;
    bad |= naltvigo_checker_end(checker, &why) != NALTVIGO_NO_MEMORY || memcmp(&why, &first, sizeof why) != 0;
    bad |= naltvigo_checker_restart(1, checker) != NALTVIGO_OK;
    return bad | (take_parts(checker, item, length, part, &now) != NALTVIGO_OK || now != length);
}

/* A checker's own memory and that for its keys. It stores no key of an item that one part has whole. */
static int refuse_checker(const char *name, size_t part) {
    static uint8_t item[1024];
    const size_t length = nested(item);
    int bad = 0, is_whole = 0;
    long n, of_keys = 0;
    taken = live = 0;
    for (n = 1; !is_whole; n++) {
        struct naltvigo_checker checker;
        size_t used = 0;
        uint32_t status;
        memset(&why, 0, sizeof why);
        left = n;
        status = naltvigo_checker_new(OPTIONS(0, 256, 1000), &checker);
        if (status == NALTVIGO_OK) status = take_parts(&checker, item, length, part, &used);
        left = -1;
        is_whole = status == NALTVIGO_OK && used == length;
        bad |= !is_whole && status != NALTVIGO_NO_MEMORY;
        if (checker.memory && !is_whole) of_keys++, bad |= goes_on(&checker, item, length, part, used);
        naltvigo_checker_free(&checker);
        bad |= live != 0 || checker.memory;
    }
    bad |= (of_keys == 0) != (part >= length) || of_keys > 40;
    printf("%-16s %3ld requests, each refused in turn: %s\n", name, n - 2, bad ? "WRONG" : "as said, nothing is lost");
    return bad;
}

int main(void) {
    int bad = refuse_each("canonicalise", canonicalise, NALTVIGO_OK);
    bad |= refuse_each("length first", length_first, NALTVIGO_OK);
    bad |= refuse_each("check_valid", check_valid, NALTVIGO_OK);
    bad |= refuse_each("next_valid", next_valid, NALTVIGO_OK);
    bad |= refuse_each("compare", compare, NALTVIGO_OK);
    bad |= refuse_each("diagnostic", diagnostic, NALTVIGO_OK);
    bad |= refuse_each("explain", explain, NALTVIGO_OK);
    bad |= refuse_each("finish", finish, NALTVIGO_OK);
    bad |= refuse_checker("checker", 1000) | refuse_checker("checker by parts", 16) | refuse_checker("checker by bytes", 1);
    bad |= refuse_each("open and get", look_up, NALTVIGO_OK) || taken != 0;
    bad |= refuse_each("check_canonical", check_canonical, NALTVIGO_REFUSED) || taken != 0;
    bad |= refuse_each("next_canonical", next_canonical, NALTVIGO_REFUSED) || taken != 0;
    return bad;
}
