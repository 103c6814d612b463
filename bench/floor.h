/* The same work in plain C, for comparison: 1 if the item is accepted. */
#ifndef FLOOR_H
#define FLOOR_H
#include <stddef.h>
#include <stdint.h>
int floor_strict(const uint8_t *in, size_t length);
/* `*out` comes from malloc. */
int floor_canonicalise(const uint8_t *in, size_t length, uint8_t **out, size_t *out_length);
#endif
