/* Calls the functions that docs/C.md shows alone. The status is 0 if they return what it says. */
#include <naltvigo_values.h>

#include "checks.h"
#include "hex.h"

#include <stdio.h>

uint8_t *encode_readings(const int64_t *readings, size_t count, size_t *length);
int64_t greatest_reading(const uint8_t *in, size_t in_length, uint64_t *scale, uint32_t *status);
uint64_t count_payload(const uint8_t *in, size_t in_length, uint32_t *status);
uint32_t find_amount(const uint8_t *in, size_t in_length, struct naltvigo_item *value);
uint32_t check_message(const uint8_t *in, size_t in_length);
uint32_t check_stream(FILE *in, struct naltvigo_refusal *why);
void explain_refusal(const uint8_t *in, size_t in_length, const struct naltvigo_refusal *why, char *text, size_t space);

/* {1: h'0102', 2: [h'', h'030405']}, and 1,001 items. */
static void counts_payload(void) {
    static const uint8_t nested[] = {0xa2, 1, 0x42, 1, 2, 2, 0x82, 0x40, 0x43, 3, 4, 5};
    static uint8_t many[1003] = {0x99, 0x03, 0xe8};
    uint32_t status = 99;
    check(count_payload(nested, sizeof nested, &status) == 5 && status == NALTVIGO_OK, "count_payload", "nested");
    check(count_payload(many, sizeof many, &status) == 0 && status == NALTVIGO_TOO_SMALL, "count_payload", "many");
    check(count_payload(many, 1, &status) == 0 && status == NALTVIGO_REFUSED, "count_payload", "cut off");
}

/* {"Amt": -2, "Fun": true}, a map without the key, and no map. */
static void finds_amount(void) {
    static const uint8_t map[] = {0xa2, 0x63, 'A', 'm', 't', 0x21, 0x63, 'F', 'u', 'n', 0xf5};
    struct naltvigo_item value = {0, 0, 0, 0, 0, 0};
    check(find_amount(map, sizeof map, &value) == NALTVIGO_OK, "find_amount", "status");
    check(value.kind == 1 && value.number == 1 && value.offset == 5 && value.end == 6, "find_amount", "value");
    check(find_amount((const uint8_t *)"\xa0", 1, &value) == NALTVIGO_NOT_FOUND, "find_amount", "no such key");
    check(find_amount((const uint8_t *)"\x80", 1, &value) == NALTVIGO_WRONG_KIND, "find_amount", "no map");
    check(find_amount(map, 5, &value) == NALTVIGO_REFUSED, "find_amount", "cut off");
}

/* {"unit": "mV", "readings": [-5, 1000]}, the same with a scale, and with a text instead of the readings. */
static const char encoded[] = "a264756e6974626d56687265" "6164696e6773" "82241903e8";
static const char scaled[] = "a2657363616c6502687265" "6164696e6773" "8103";
static const char wrong[] = "a1687265" "6164696e6773" "6161";

static void reads(const char *hex, int64_t wanted, uint64_t wanted_scale, uint32_t wanted_status) {
    size_t n;
    uint8_t *in = unhex(hex, &n);
    uint64_t scale = 9;
    uint32_t status = 99;
    const int64_t greatest = greatest_reading(in, n, &scale, &status);
    check(status == wanted_status && scale == wanted_scale, "status and scale", hex);
    check(status != NALTVIGO_OK || greatest == wanted, "greatest", hex);
    free(in);
}

/* {"a": [0, 0.0]}, with space for the text, for one byte too few, and for none. */
static void explains(void) {
    static const uint8_t in[] = {0xa1, 0x61, 'a', 0x82, 0, 0xf9, 0, 0};
    static const char wanted[] = "A floating-point number begins here; floats are not accepted.\n"
                                 "Encode it as an integer, as a text, or as a tag that contains integers.\n"
                                 "$.\"a\"[1]";
    const struct naltvigo_refusal why = {NALTVIGO_FLOAT, 5, 6};
    char text[sizeof wanted];
    explain_refusal(in, sizeof in, &why, text, sizeof text);
    check(strcmp(text, wanted) == 0, "explain_refusal", text);
    explain_refusal(in, sizeof in, &why, text, sizeof text - 1);
    check(text[0] == 0, "explain_refusal", "a byte too few");
    explain_refusal(in, sizeof in, &why, text, 1);
    check(text[0] == 0, "explain_refusal", "no space");
}

/* 10,000 zeros in an array, and the same with another byte, cut off, or followed by a byte. */
static void checks_stream(size_t length, size_t broken, uint32_t status, uint32_t reason, uint64_t at) {
    static uint8_t bytes[10004];
    struct naltvigo_refusal why = {0, 0, 0};
    FILE *file = tmpfile();
    memset(bytes, 0, sizeof bytes), memcpy(bytes, "\x99\x27\x10", 3);
    if (broken) bytes[broken] = 0xff;
    check(file && fwrite(bytes, 1, length, file) == length, "check_stream", "a file");
    if (!file) return;
    rewind(file);
    check(check_stream(file, &why) == status && why.reason == reason && why.offset == at, "check_stream", "zeros");
    fclose(file);
}

int main(void) {
    checks_stream(10003, 0, NALTVIGO_OK, 0, 0), checks_stream(10004, 0, NALTVIGO_OK, 0, 0);
    checks_stream(10002, 0, NALTVIGO_REFUSED, NALTVIGO_TRUNCATED, 10002);
    checks_stream(10003, 9000, NALTVIGO_REFUSED, NALTVIGO_STRAY_BREAK, 9000);
    explains();
    static const int64_t readings[] = {-5, 1000};
    size_t n, length = 0;
    uint8_t *wanted = unhex(encoded, &n), *bytes = encode_readings(readings, 2, &length);
    check(bytes && length == n && memcmp(bytes, wanted, n) == 0, "encode_readings", encoded);
    free(wanted), free(bytes);
    counts_payload();
    finds_amount();
    reads(encoded, 1000, 1, NALTVIGO_OK);
    reads(scaled, 3, 2, NALTVIGO_OK);
    reads(wrong, 0, 1, NALTVIGO_WRONG_KIND);
    reads("a0", 0, 1, NALTVIGO_NOT_FOUND);
    reads("1800", 0, 0, NALTVIGO_REFUSED);
    check(check_message((const uint8_t *)"\xa2\x20\0\x18\x64", 6) == NALTVIGO_OK, "check_message", "length first");
    check(check_message((const uint8_t *)"\xa1\x40", 3) == NALTVIGO_REFUSED, "check_message", "a byte string as key");
    printf("%d checks of docs/C.md's functions, %d fail\n", checks, faults);
    return faults != 0;
}
