/* naltvigo._native: the calls of naltvigo.h for Python, and values to bytes and back.
 *
 * Each call has its operands by position or by name, and options by name (options.c), reads a buffer (input.c), and
 * calls an export of the library, which is proved. A status other than OK becomes an exception (errors.c). The
 * interpreter's lock is held for short inputs and not for long ones.
 */
#ifndef NATIVE_H
#define NATIVE_H

#ifndef Py_LIMITED_API
#define Py_LIMITED_API 0x030B0000
#endif
#define PY_SSIZE_T_CLEAN
#include <Python.h>

#ifdef Py_GIL_DISABLED
#error "naltvigo needs the interpreter's lock: a Python without it (free-threaded) is not supported"
#endif

#include <naltvigo.h>

/* The major types. */
enum { UNSIGNED, NEGATIVE, BYTES, TEXT, ARRAY, MAP, TAG, SIMPLE };

/* The options that calls take: see options.c. */
enum option { ORDER, KEYS, DEPTH, MAX_BYTES, CANONICAL, OFFSETS, DEFAULT, TAG_HOOK, MAP_HOOK, OPTION_COUNT };

/* What the module keeps. */
struct state {
    PyTypeObject *tag, *simple, *frozen_list, *frozen_dict, *items, *machine, *checker;
    PyObject *encoded, *undefined, *refused, *array;
    PyObject *simples[256]; /* the simple values, except the four that Python has, and 24 to 31 */
    PyObject *option_names[OPTION_COUNT];
};

/* ---- options.c ---- */

struct options {
    uint64_t bytes;
    uint32_t order, keys, depth;
    int canonical, offsets; /* 0 or 1 */
    PyObject *fallback;     /* `default` of dumps, borrowed, or null */
    PyObject *tag_hook, *map_hook; /* of loads, likewise */
};

/* The parameters of a call: its operands, and a bit for each option. */
struct signature {
    const char *call, *operands[2];
    unsigned takes;
};

#define LIMITS (1u << DEPTH | 1u << MAX_BYTES)
#define LIMITS_AND_KEYS (LIMITS | 1u << KEYS)
#define LIMITS_KEYS_AND_ORDER (LIMITS_AND_KEYS | 1u << ORDER)

/* The operands (borrowed) and the options of a call; -1 with an exception if they are wrong. */
int read_arguments(const struct state *state, const struct signature *signature, PyObject *const *arguments,
                   Py_ssize_t count, PyObject *names, PyObject **operands, struct options *options);

/* The same of a type, which is called with a tuple and a dict (or null), and has no operands. */
int read_named_arguments(const struct state *state, const struct signature *signature, PyObject *arguments,
                         PyObject *named, struct options *options);

/* ---- input.c ---- */

/* Bytes to read. They stay where they are, and as they are, until close_input. */
struct input {
    const uint8_t *bytes; /* never null */
    size_t length;
    PyObject *owner; /* a bytes object */
    Py_buffer view;  /* or a buffer, where its obj is not null */
};

/* What an input is: one item, or a sequence. Memory that may change is copied, of an item at most one byte more than
 * the limit. Bytes and views of bytes are read where they are, a sequence also in a file that is mapped read-only. */
enum reading { ITEM, SEQUENCE };

/* -1 with an exception if the object is not a buffer. */
int open_input(struct input *input, PyObject *object, enum reading reading, const struct options *options);
void close_input(struct input *input);

/* Inputs of fewer bytes are read with the interpreter's lock held: to release it costs more than they do. */
#define LONG_INPUT 16384

/* Releases the lock for a long input. Null if it is still held. */
PyThreadState *release_lock(size_t length);
void take_lock(PyThreadState *released);

/* A call over one buffer: its arguments, until close_call. */
struct call {
    const struct state *state;
    struct options options;
    struct input input;
};

/* -1 with an exception if the arguments are wrong, or the operand is not a buffer. */
int open_call(struct call *call, const struct signature *signature, enum reading reading, PyObject *module,
              PyObject *const *arguments, Py_ssize_t count, PyObject *names);
void close_call(struct call *call);

/* ---- errors.c ---- */

/* What is refused: bytes that begin with the item, and the limits. */
struct refused {
    const uint8_t *bytes;
    size_t length;
    const struct options *options;
    const char *side;     /* of two inputs 'left' or 'right'; else null */
    uint64_t item, start; /* of a sequence the number of the item, from 1, and its offset; else 0 */
};

/* What is refused of an item whose bytes came in parts and are gone: its exception has no path. */
extern const struct refused forgotten_bytes;

/* The exception Refused, with sentence, advice and path. */
PyObject *new_refused(const struct state *state, const struct naltvigo_refusal *refusal, const struct refused *of);

/* Sets the exception for a status other than OK. It returns null. */
void *raise_status(const struct state *state, uint32_t status, const struct naltvigo_refusal *refusal,
                   const struct refused *of);

/* Adds a note to the exception that is set; any error of its own is dropped. */
void add_note(const char *format, void *about);

/* Gives the exception that is set the `path` to an offset of these bytes, and a note with it; any error of its own is dropped. */
void set_path(const struct state *state, const uint8_t *bytes, size_t length, const struct options *options, uint64_t offset);

/* The input of the call, as what is refused. */
static inline struct refused refused_by(const struct call *call) {
    return (struct refused){.bytes = call->input.bytes, .length = call->input.length, .options = &call->options};
}

/* ---- calls.c ---- */

static inline size_t least(uint64_t left, uint64_t right) { return (size_t)(left < right ? left : right); }

/* The canonical bytes of one item as a bytes object; `space` is how many bytes to begin with. */
PyObject *canonical_bytes(const struct state *state, const uint8_t *bytes, size_t length, const struct options *options,
                          size_t space);

/* ---- encode.c ---- */

/* The canonical bytes of a value within the greatest limits, or null with an exception. */
PyObject *bytes_of_value(const struct state *state, PyObject *value, uint32_t order);

/* ---- held.c ---- */

/* The canonical bytes of a container within a key: a part of a bytes object. If the owner is null they are not known. */
struct held {
    PyObject *owner;
    const char *bytes;
    size_t length;
    uint32_t order; /* of the keys in them */
};

/* Whether two values have the same canonical bytes: 1, 0, NO_BYTES if one is not a value for dumps, or -1. */
#define NO_BYTES 2
int have_same_bytes(const struct state *state, PyObject *left, const struct held *left_held, PyObject *right,
                    const struct held *right_held);

/* ---- The types of values ---- */

static inline uint64_t mix(uint64_t hash, uint64_t more) {
    hash = (hash ^ more) * UINT64_C(0x9E3779B97F4A7C15);
    return hash ^ hash >> 32;
}

/* -1 is not a hash. */
static inline Py_hash_t hash_of(uint64_t mixed) { return (Py_hash_t)mixed == -1 ? -2 : (Py_hash_t)mixed; }

extern PyType_Spec tag_spec, simple_spec, frozen_list_spec, frozen_dict_spec;

/* tag.c */
struct tag {
    PyObject_HEAD
    unsigned long long number;
    PyObject *content;
    struct held held;
};
PyObject *new_tag(PyTypeObject *type, uint64_t number, PyObject *content, const struct held *held);

/* simple.c */
PyObject *new_simple(PyTypeObject *type, unsigned number);
unsigned number_of_simple(PyObject *simple);
static inline int is_no_simple(unsigned number) { return number >= 20 && number < 32; }

/* frozen.c: a FrozenList with a tuple, or a FrozenDict with a dict */
struct frozen {
    PyObject_HEAD
    PyObject *members;
    Py_hash_t hash; /* -1 before it is computed */
    struct held held;
};
/* One of these members, with its hash. It steals the reference, which may be null. */
PyObject *freeze(const struct state *state, PyObject *members, const struct held *held);

/* ---- sequence.c, machine.c, checker.c ---- */

extern PyType_Spec items_spec, machine_spec, checker_spec;

/* ---- The functions of the module ---- */

#define FUNCTION(name) \
    PyObject *call_##name(PyObject *module, PyObject *const *arguments, Py_ssize_t count, PyObject *names)

FUNCTION(canonicalise);
FUNCTION(check);
FUNCTION(check_canonical);
FUNCTION(is_canonical);
FUNCTION(same);
FUNCTION(diagnostic);
FUNCTION(items);
FUNCTION(item_ends);
FUNCTION(canonicalise_items);
FUNCTION(dumps);
FUNCTION(loads);
FUNCTION(start_machine);
FUNCTION(refusal);

/* documentation.c */
extern const char canonicalise_doc[], check_doc[], check_canonical_doc[], is_canonical_doc[], same_doc[],
    diagnostic_doc[], items_doc[], item_ends_doc[], canonicalise_items_doc[], dumps_doc[], loads_doc[],
    start_machine_doc[], refusal_doc[], checker_doc[], tag_doc[], simple_doc[], frozen_list_doc[], frozen_dict_doc[];

#endif
