/* Keys that were chosen so that they collide.
 *
 * The hashes of integers, and of tuples of them, are known to everybody. So whoever makes the input can choose keys
 * that all lead to the same slots of a dict's table: then each new key collides with all earlier ones, and a megabyte takes
 * a minute. Here the table is simulated without its contents, one bit for each slot, with CPython's own steps
 * (Objects/dictobject.c, the same from 3.7 on). If there are more than MOST_MEETINGS collisions for each key on average, loads
 * refuses the map. Keys that nobody chose collide with one or two others, and keys with a plain pattern, such as multiples of
 * a power of two, with about ten.
 */
#include "decoder.h"

#include <string.h>

#define MOST_MEETINGS 32
#define FIRST_TABLE 128 /* the table of a dict with MANY_PAIRS keys */

struct collisions {
    uint64_t *hashes;
    uint8_t *places;    /* a bit for each slot of the table: whether it is used */
    size_t table, used; /* how many slots there are, and how many are used */
    uint64_t meetings;  /* how many collisions there were in this table */
};

static size_t most_keys(size_t table) { return table * 2 / 3; }

struct collisions *new_collisions(void) {
    struct collisions *collisions = PyMem_Calloc(1, sizeof *collisions);
    if (!collisions) return (void *)PyErr_NoMemory();
    collisions->table = FIRST_TABLE;
    collisions->hashes = PyMem_Malloc(most_keys(FIRST_TABLE) * sizeof *collisions->hashes);
    collisions->places = PyMem_Calloc(FIRST_TABLE / 8, 1);
    if (collisions->hashes && collisions->places) return collisions;
    free_collisions(collisions);
    return (void *)PyErr_NoMemory();
}

void free_collisions(struct collisions *collisions) {
    if (!collisions) return;
    PyMem_Free(collisions->hashes);
    PyMem_Free(collisions->places);
    PyMem_Free(collisions);
}

static void take_place(struct collisions *collisions, uint64_t hash) {
    const uint64_t mask = collisions->table - 1;
    uint64_t perturb = hash, i = hash & mask;
    while (collisions->places[i / 8] >> i % 8 & 1) {
        collisions->meetings++;
        perturb >>= 5;
        i = (i * 5 + perturb + 1) & mask;
    }
    collisions->places[i / 8] |= (uint8_t)(1 << i % 8);
}

/* Doubles the number of slots, and inserts all keys again, as a dict does. */
static int grow(struct collisions *collisions) {
    const size_t table = 2 * collisions->table;
    uint64_t *hashes = PyMem_Realloc(collisions->hashes, most_keys(table) * sizeof *hashes);
    if (hashes) collisions->hashes = hashes;
    uint8_t *places = hashes ? PyMem_Calloc(table / 8, 1) : NULL;
    if (!places) return PyErr_NoMemory(), -1;
    PyMem_Free(collisions->places);
    collisions->places = places, collisions->table = table, collisions->meetings = 0;
    for (size_t i = 0; i < collisions->used; i++) take_place(collisions, collisions->hashes[i]);
    return 0;
}

int add_key(struct collisions *collisions, PyObject *key) {
    const Py_hash_t hash = PyObject_Hash(key);
    if (hash == -1) return -1;
    if (collisions->used == most_keys(collisions->table) && grow(collisions)) return -1;
    collisions->hashes[collisions->used++] = (uint64_t)hash;
    take_place(collisions, (uint64_t)hash);
    if (collisions->meetings <= MOST_MEETINGS * (uint64_t)collisions->used) return 0;
    PyErr_SetString(PyExc_ValueError, "the keys of a map collide: a dict of them would take very long");
    return -1;
}
