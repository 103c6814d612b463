/* Feeds a machine of naltvigo.h each row of the events' tables, byte by byte and in larger parts, copied
 * between two steps as a program that stores it does, and compares the events. Prints the number of
 * checks; the status is 0 if all hold. */
#include "options.h"
#include "checks.h"

#include <stdio.h>
#include <stdlib.h>
#include <string.h>

struct events_row {
    const char *given;
    uint32_t status;
    struct naltvigo_refusal refusal;
    uint32_t depth;
    uint64_t bytes;
    size_t count;
    struct naltvigo_event events[64];
};
#include "events.h"

static const struct naltvigo_event unset = {77, 78, 79, 80};

static int are_equal(struct naltvigo_event a, struct naltvigo_event b) {
    return a.offset == b.offset && a.number == b.number && a.kind == b.kind && a.width == b.width;
}

/* What a machine reported about an item; adjacent pieces are joined. */
struct reported {
    struct naltvigo_event events[64];
    size_t count;
};

static void join(struct reported *reported, struct naltvigo_event event) {
    if (event.kind == NALTVIGO_PIECE && reported->count && reported->events[reported->count - 1].kind == NALTVIGO_PIECE)
        reported->events[reported->count - 1].number += event.number;
    else if (reported->count < 64)
        reported->events[reported->count++] = event;
}

/* Checks that the events, the last status and the refusal are those of the row. */
static void compare(const struct events_row *row, const struct reported *reported, uint32_t status, struct naltvigo_refusal why) {
    check(status == row->status, "status", row->given);
    check(reported->count == row->count, "count of events", row->given);
    for (size_t i = 0; i < reported->count && i < row->count; i++)
        check(are_equal(reported->events[i], row->events[i]), "event", row->given);
    if (status == NALTVIGO_REFUSED)
        check(why.reason == row->refusal.reason && why.offset == row->refusal.offset && why.consumed == row->refusal.consumed,
              "refusal", row->given);
    else
        check(why.reason == 77 && why.offset == 78 && why.consumed == 79, "no refusal", row->given);
}

/* The events of the row, with its bytes in parts of this size. */
static void feed(const struct events_row *row, const uint8_t *in, size_t n, size_t part) {
    struct naltvigo_machine machine, copy;
    struct reported reported = {.count = 0};
    struct naltvigo_refusal why = {77, 78, 79};
    size_t at = 0, used;
    uint32_t status;
    memset(&machine, 0xaa, sizeof machine);
    check(naltvigo_machine_start(LIMITS(row->depth, row->bytes), &machine) == NALTVIGO_OK, "start", row->given);
    do {
        struct naltvigo_event event = unset;
        size_t offered = n - at < part ? n - at : part;
        copy = machine;
        memset(&machine, 0xaa, sizeof machine);
        used = 999;
        status = naltvigo_machine_step(&copy, offered ? in + at : NULL, offered, &used, &event, &why);
        machine = copy;
        check(used <= offered, "used", row->given);
        at += used;
        check((status == NALTVIGO_EVENT) == !are_equal(event, unset), "reported", row->given);
        if (status == NALTVIGO_EVENT) join(&reported, event);
    } while (status == NALTVIGO_EVENT || (status == NALTVIGO_MORE && at < n));
    check(machine.consumed == at, "taken", row->given);
    compare(row, &reported, status, why);
    if (status == NALTVIGO_MORE) return;
    struct naltvigo_event event = unset;
    check(naltvigo_machine_step(&machine, (const uint8_t *)"", 1, &used, &event, &why) == status && used == 0,
          "the same again", row->given);
}

/* The same events, up to this number in a call. */
static void take(const struct events_row *row, const uint8_t *in, size_t n, size_t part, size_t space) {
    struct naltvigo_machine machine;
    struct reported reported = {.count = 0};
    struct naltvigo_refusal why = {77, 78, 79};
    size_t at = 0;
    uint32_t status;
    check(naltvigo_machine_start(LIMITS(row->depth, row->bytes), &machine) == NALTVIGO_OK, "start", row->given);
    do {
        struct naltvigo_event events[65];
        size_t offered = n - at < part ? n - at : part, used = 999, many = 999;
        for (size_t i = 0; i < 65; i++) events[i] = unset;
        status = naltvigo_machine_feed(&machine, in + at, offered, &used, events, space, &many, &why);
        check(used <= offered && many <= space, "used and reported", row->given);
        check(status != NALTVIGO_MORE || used == offered, "the whole part", row->given);
        check(status != NALTVIGO_EVENT || many == space, "a full array", row->given);
        for (size_t i = many; i < 65; i++) check(are_equal(events[i], unset), "not reported", row->given);
        at += used;
        for (size_t i = 0; i < many && i < 65; i++) join(&reported, events[i]);
    } while (status == NALTVIGO_EVENT || (status == NALTVIGO_MORE && at < n));
    check(machine.consumed == at, "taken", row->given);
    compare(row, &reported, status, why);
}

/* A start sets every byte, those between two fields too, so that a machine may be written to a file. */
static void starts_anew(void) {
    struct naltvigo_machine machine, zeros;
    memset(&machine, 0xaa, sizeof machine);
    memset(&zeros, 0, sizeof zeros);
    check(naltvigo_machine_start(LIMITS(0, 0), &machine) == NALTVIGO_OK && memcmp(&machine, &zeros, sizeof zeros) == 0,
          "start", "every byte");
}

/* Without space for an event nothing is used. */
static void without_room(void) {
    struct naltvigo_machine machine;
    struct naltvigo_refusal why;
    size_t used = 999, reported = 999;
    naltvigo_machine_start(LIMITS(2, 8), &machine);
    check(naltvigo_machine_feed(&machine, (const uint8_t *)"", 1, &used, NULL, 0, &reported, &why) == NALTVIGO_EVENT
              && used == 0 && reported == 0 && machine.consumed == 0,
          "no space", "00");
}

/* Numbers that are not a machine are refused, and stay unchanged. */
static void refuses_other_numbers(void) {
    struct naltvigo_machine machine, broken;
    struct naltvigo_event event = unset;
    struct naltvigo_refusal why = {77, 78, 79};
    size_t used;
    check(naltvigo_machine_start(LIMITS(1025, 8), &machine) == NALTVIGO_BAD_LIMITS, "depth", "1025");
    check(naltvigo_machine_start(LIMITS(2, NALTVIGO_BYTES_MAX + 1), &machine) == NALTVIGO_BAD_LIMITS, "bytes", "too many");
    /* a machine ignores the kinds of keys */
    check(naltvigo_machine_start(ALL_OPTIONS(99, 99, 2, 8), &machine) == NALTVIGO_OK, "start", "2 8");
    for (int i = 0; i < 4; i++) {
        broken = machine;
        if (i == 0) broken.open = 3;
        if (i == 1) broken.consumed = broken.reported = 9;
        if (i == 2) broken.depth = 1025;
        if (i == 3) broken.reported = 1;
        used = 999;
        check(naltvigo_machine_step(&broken, (const uint8_t *)"", 1, &used, &event, &why) == NALTVIGO_BAD_MACHINE,
              "broken", "numbers");
        check(used == 0 && are_equal(event, unset) && why.reason == 77, "kept", "numbers");
    }
    /* whatever the bytes are, a step returns and uses no more than it is given */
    srand(1);
    for (int i = 0; i < 20000; i++) {
        uint8_t noise[64];
        for (size_t k = 0; k < sizeof noise; k++) noise[k] = (uint8_t)(rand() >> 5);
        broken = machine;
        memcpy(i % 2 ? (uint8_t *)&broken : (uint8_t *)&broken.number, noise, i % 2 ? 64 : 24);
        if (i % 3) broken.depth %= 1025, broken.open = (uint16_t)(broken.open % (broken.depth + 1));
        used = 999;
        naltvigo_machine_step(&broken, noise, sizeof noise, &used, &event, &why);
        check(used <= sizeof noise, "noise", "used");
    }
}

int main(void) {
    for (size_t i = 0; i < sizeof events_rows / sizeof *events_rows; i++) {
        const struct events_row *row = &events_rows[i];
        uint8_t in[4096];
        size_t n = strlen(row->given) / 2;
        for (size_t k = 0; k < n; k++) {
            char two[3] = {row->given[2 * k], row->given[2 * k + 1], 0};
            in[k] = (uint8_t)strtoul(two, NULL, 16);
        }
        for (size_t part = 1; part < 4; part++) feed(row, in, n, part);
        feed(row, in, n, n + 1);
        for (size_t space = 1; space < 4; space++) take(row, in, n, space + 1, space);
        take(row, in, n, n + 1, 64);
    }
    starts_anew();
    without_room();
    refuses_other_numbers();
    printf("%d checks of a machine, %d fail\n", checks, faults);
    return faults != 0;
}
