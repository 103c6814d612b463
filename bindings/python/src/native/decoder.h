/* Bytes on their way to a value.
 *
 * The library checks that the bytes are canonical and indexes their items (naltvigo_index_raw, proved). Input that is
 * not canonical is canonicalised first. So the decoder reads no byte but payloads. Open containers are in an array
 * and not on the stack.
 */
#ifndef NATIVE_DECODER_H
#define NATIVE_DECODER_H

#include "native.h"

/* ---- collisions.c ---- */

/* How often the keys of a map would collide in the table of a dict; null for a small map. */
struct collisions;

/* A map of more than this number of pairs has one. */
#define MANY_PAIRS 64
struct collisions *new_collisions(void);
void free_collisions(struct collisions *collisions);
/* -1 with an exception if the keys so far collide too often. */
int add_key(struct collisions *collisions, PyObject *key);

/* ---- key_texts.c ---- */

/* Texts that were keys, and their bytes in the input: records have the same keys again and again. */
#define KEY_TEXTS 256
struct key_text {
    const uint8_t *bytes;
    size_t length;
    PyObject *text;
};
/* The text of a key; a new reference, or null with an exception. `texts` may be null. */
PyObject *key_text(struct key_text *texts, const uint8_t *bytes, size_t length);
void free_key_texts(struct key_text *texts);

/* ---- decode.c ---- */

/* An open container. */
struct level {
    PyObject *into, *key; /* a list, a dict or the content of a tag; and of a dict the key whose value is due */
    uint64_t left, at;    /* how many members or pairs follow, and how many are complete; of a tag its number in `at` */
    struct collisions *collisions;
    const struct naltvigo_item *item; /* its entry in the index */
    uint32_t kind;
    int is_in_key;
};

struct decoder {
    const struct state *state;
    const struct options *options;
    const uint8_t *bytes;
    const struct naltvigo_item *next, *end;
    PyObject *key_bytes;   /* a copy of the bytes of the current key, if it is a container; else null */
    const char *key_start; /* its first byte */
    uint64_t key_offset;   /* the offset of the key */
    int is_collecting;     /* whether Python's collector of cycles runs */
    struct key_text *key_texts;
    struct level *levels;
    uint32_t open, space;
    const struct naltvigo_item *fault; /* the container that an exception is about */
    struct level first_levels[12];
};

/* The value of canonical bytes and the index of their items; null with an exception. */
PyObject *decode(const struct state *state, const struct options *options, const uint8_t *bytes, size_t length,
                 const struct naltvigo_item *items, size_t count);

#endif
