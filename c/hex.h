/* Bytes from hex digits, in a block of exactly their number, so that a tool sees any access outside it. */
#include <stdint.h>
#include <stdlib.h>
#include <string.h>

static void *room_for(size_t n) {
    void *p = malloc(n ? n : 1);
    if (!p) abort();
    return p;
}

static uint8_t *unhex(const char *hex, size_t *length) {
    size_t n = *length = strlen(hex) / 2;
    uint8_t *bytes = n ? (uint8_t *)room_for(n) : NULL;
    for (size_t i = 0; i < n; i++) {
        char two[3] = {hex[2 * i], hex[2 * i + 1], 0};
        bytes[i] = (uint8_t)strtoul(two, NULL, 16);
    }
    return bytes;
}
