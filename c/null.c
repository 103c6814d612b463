/* Calls each inline function of naltvigo.h with null pointers where it accepts them: no options, no refusal, no input, no
 * space. What a call returns is the same with a refusal and without. Prints the number of checks; the status is 0
 * if all hold. */
#include <naltvigo.h>
#include <stddef.h>

#include "checks.h"

enum { CALLS = 11 };

static uint8_t out[256];
static struct naltvigo_machine machine;

/* A call on an input, and its results besides the status. */
static uint32_t call(int which, const uint8_t *in, size_t length, struct naltvigo_refusal *why, uint64_t *said) {
    size_t needed = 0, used = 0;
    uint32_t side = 9, status;
    struct naltvigo_event events[4];
    struct naltvigo_item items[8];
    *said = 0;
    switch (which) {
    case 0: status = naltvigo_canonicalise(in, length, NULL, out, sizeof out, &needed, why); break;
    case 1: status = naltvigo_canonicalise(in, length, NULL, NULL, 0, &needed, why); break;
    case 2: status = naltvigo_check_canonical(in, length, NULL, why); break;
    case 3: status = naltvigo_check_valid(in, length, NULL, why); break;
    case 4: return naltvigo_next_valid(in, length, NULL, said, why);
    case 5: return naltvigo_next_canonical(in, length, NULL, said, why);
    case 6: status = naltvigo_compare(in, length, in, length, NULL, &side, why); break;
    case 7: status = naltvigo_diagnostic(in, length, NULL, NULL, 0, &needed, why); break;
    case 8: status = naltvigo_index(in, length, NULL, items, 8, &needed, why); break;
    case 9: status = naltvigo_index(in, length, NULL, NULL, 0, &needed, why); break;
    default:
        naltvigo_machine_start(NULL, &machine);
        status = naltvigo_machine_feed(&machine, in, length, &used, events, 4, &needed, why);
    }
    *said = needed + 1000 * used + 1000000 * side;
    return status;
}

/* {"a": [1, true]} in another encoding and in canonical bytes, a float, a break, a cut item, and nothing. */
static const struct {
    const char *bytes;
    size_t length;
} inputs[] = {
    {"\xbf\x61\x61\x9f\x18\x01\xf5\xff\xff", 9}, {"\xa1\x61\x61\x82\x01\xf5", 6}, {"\xf9\0\0", 3}, {"\xff", 1}, {"\x82\x01", 2}, {NULL, 0},
};

int main(void) {
    uint64_t with, without;
    struct naltvigo_refusal why;
    struct naltvigo_event event;
    struct naltvigo_item item;
    size_t used, i;
    int which, refused = 0;
    for (i = 0; i < sizeof inputs / sizeof *inputs; i++)
        for (which = 0; which < CALLS; which++) {
            const void *in = inputs[i].bytes;
            const uint32_t status = call(which, in, inputs[i].length, &why, &with);
            check(call(which, in, inputs[i].length, NULL, &without) == status && with == without, "null", "the same result");
            refused += status == NALTVIGO_REFUSED;
        }
    check(refused > 25, "null", "refusals are among them");
    check(naltvigo_item_at(NULL, 0, 0, &item) == NALTVIGO_NOT_FOUND, "null", "item_at");
    check(naltvigo_find(NULL, 0, 0, NULL, 0, &item) == NALTVIGO_NOT_FOUND, "null", "find in nothing");
    out[0] = 0xa0; /* {} */
    check(naltvigo_find(out, 1, 0, NULL, 0, &item) == NALTVIGO_NOT_FOUND, "null", "find no key");
    check(naltvigo_put_head(4, 24, NULL, 0, &used) == NALTVIGO_TOO_SMALL && used == 2, "null", "put_head");
    naltvigo_machine_start(NULL, &machine);
    check(naltvigo_machine_step(&machine, (const uint8_t *)"\xff", 1, &used, &event, NULL) == NALTVIGO_REFUSED, "null", "step");
    check(naltvigo_reason_name(1, NULL, 0) == 9, "null", "name");
    printf("%d checks of null pointers, %d fail\n", checks, faults);
    return faults != 0;
}
