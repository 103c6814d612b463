/* The rows of the conformance tables, and functions that compare with them. */
#include <naltvigo.h>

#include "hex.h"

struct result {
    const char *canonical; /* in hex, or none */
    struct naltvigo_refusal refusal, strict;
};
struct row {
    const char *given;
    uint32_t keys, depth;
    uint64_t bytes;
    struct result by_order[2];
};
struct pair {
    const char *left, *right;
    uint32_t status, side;
    struct naltvigo_refusal refusal;
};
#include "rows.h"

#define OF_ROW(row, order) ALL_OPTIONS(order, (row)->keys, (row)->depth, (row)->bytes)

static const struct naltvigo_refusal unset = {77, 78, 79};

static inline int are_equal(struct naltvigo_refusal a, struct naltvigo_refusal b) {
    return a.reason == b.reason && a.offset == b.offset && a.consumed == b.consumed;
}

static inline int all_are(const uint8_t *bytes, size_t n, uint8_t byte) {
    for (size_t i = 0; i < n; i++)
        if (bytes[i] != byte) return 0;
    return 1;
}
