/* The value of an index of items. */
#include "decoder.h"

#include <string.h>

/* For inputs of this number of bytes or more the texts of keys are cached, and the collector of cycles is paused: for
 * shorter ones that is not worth its cost. */
#define LONG_ENOUGH 512

/* The index is not of an item: a bug of the library, or of this code. */
static void *impossible(void) {
    PyErr_SetString(PyExc_SystemError, "naltvigo: the index is not that of an item");
    return NULL;
}

static PyObject *negative(uint64_t number) {
    if (number <= INT64_MAX) return PyLong_FromLongLong(-1 - (int64_t)number);
    PyObject *argument = PyLong_FromUnsignedLongLong(number);
    PyObject *value = argument ? PyNumber_Invert(argument) : NULL;
    Py_XDECREF(argument);
    return value;
}

static PyObject *simple(const struct state *state, uint64_t number) {
    switch (number) {
    case 20: return Py_NewRef(Py_False);
    case 21: return Py_NewRef(Py_True);
    case 22: return Py_NewRef(Py_None);
    case 23: return Py_NewRef(state->undefined);
    default: return number < 256 && state->simples[number] ? Py_NewRef(state->simples[number]) : impossible();
    }
}

/* Whether the innermost container is a key, or within one. */
static int is_within_key(const struct decoder *decoder) {
    return decoder->open && decoder->levels[decoder->open - 1].is_in_key;
}

/* Whether an item that begins now is a key, or within one. */
static int is_in_key(const struct decoder *decoder) {
    const struct level *top = decoder->open ? &decoder->levels[decoder->open - 1] : NULL;
    return top && (top->is_in_key || (top->kind == MAP && !top->key));
}

static int more_levels(struct decoder *decoder) {
    const int is_first = decoder->levels == decoder->first_levels;
    const uint32_t space = 4 * decoder->space;
    struct level *levels = PyMem_Realloc(is_first ? NULL : decoder->levels, space * sizeof *levels);
    if (!levels) return PyErr_NoMemory(), -1;
    if (is_first) memcpy(levels, decoder->first_levels, sizeof decoder->first_levels);
    decoder->levels = levels, decoder->space = space;
    return 0;
}

/* The bytes of a key that is a container, for all containers in it. */
static int copy_key(struct decoder *decoder, const struct naltvigo_item *item) {
    decoder->key_offset = item->offset;
    decoder->key_bytes = PyBytes_FromStringAndSize((const char *)decoder->bytes + item->offset,
                                                   (Py_ssize_t)(item->end - item->offset));
    if (!decoder->key_bytes) return -1;
    decoder->key_start = PyBytes_AsString(decoder->key_bytes);
    return 0;
}

static struct held held_of(const struct decoder *decoder, const struct naltvigo_item *item) {
    if (!decoder->key_bytes) return (struct held){.owner = NULL};
    return (struct held){decoder->key_bytes, decoder->key_start + (item->offset - decoder->key_offset),
                         (size_t)(item->end - item->offset), decoder->options->order};
}

static int open_level(struct decoder *decoder, const struct naltvigo_item *item) {
    struct level level = {.kind = item->kind, .left = item->number, .is_in_key = is_in_key(decoder), .item = item};
    if (decoder->open == decoder->space && more_levels(decoder)) return -1;
    if (level.is_in_key && !decoder->key_bytes && copy_key(decoder, item)) return -1;
    if (item->kind == ARRAY) {
        level.into = level.is_in_key ? PyTuple_New((Py_ssize_t)item->number) : PyList_New((Py_ssize_t)item->number);
        if (!level.into) return -1;
        PyObject_GC_UnTrack(level.into); /* no one else sees it before it is full */
    } else if (item->kind == MAP) {
        if (!(level.into = PyDict_New())) return -1;
        if (item->number > MANY_PAIRS && !(level.collisions = new_collisions())) return Py_DECREF(level.into), -1;
    } else {
        level.left = 1, level.at = item->number;
    }
    decoder->levels[decoder->open++] = level;
    return 0;
}

static void raise_equal_keys(void) {
    PyErr_SetString(PyExc_ValueError, "two keys of a map are equal in Python, as 1 and True are, and 0 and False");
}

/* The collector of cycles is paused while a value is made: it would visit the new lists and dicts again and again, and
 * none of them can be garbage. It runs in hooks of the user. */
static void rest_collector(struct decoder *decoder) { decoder->is_collecting = PyGC_Disable(); }

static void wake_collector(const struct decoder *decoder) {
    if (decoder->is_collecting) PyGC_Enable();
}

/* The result of a hook of the user's for a value. It steals the reference to `value`. `hook` and `value` may be null. */
static PyObject *hooked(struct decoder *decoder, PyObject *hook, PyObject *value) {
    if (!hook || !value) return value;
    const int was_collecting = decoder->is_collecting;
    wake_collector(decoder);
    PyObject *made = PyObject_CallFunctionObjArgs(hook, value, NULL);
    if (was_collecting) rest_collector(decoder);
    Py_DECREF(value);
    return made;
}

/* The container that has these members. It steals the references to them. */
static PyObject *container(struct decoder *decoder, const struct level *level) {
    const struct held held = held_of(decoder, level->item);
    if (level->kind == TAG) {
        PyObject *tag = new_tag(decoder->state->tag, level->at, level->into, &held);
        Py_DECREF(level->into);
        return hooked(decoder, decoder->options->tag_hook, tag);
    }
    if (level->is_in_key) return freeze(decoder->state, level->into, &held);
    return level->kind == MAP ? hooked(decoder, decoder->options->map_hook, level->into) : level->into;
}

/* Closes the innermost container: the value that it is. */
static PyObject *close_level(struct decoder *decoder) {
    const struct level top = decoder->levels[--decoder->open];
    decoder->fault = top.item;
    free_collisions(top.collisions);
    if (top.kind == ARRAY) PyObject_GC_Track(top.into);
    if (top.kind == MAP && (uint64_t)PyDict_Size(top.into) != top.at) {
        raise_equal_keys();
        Py_DECREF(top.into);
        return NULL;
    }
    PyObject *value = container(decoder, &top);
    if (top.is_in_key && !is_within_key(decoder)) Py_CLEAR(decoder->key_bytes);
    return value;
}

/* An array or a map without members. */
static PyObject *empty(struct decoder *decoder, const struct naltvigo_item *item) {
    const struct held held = held_of(decoder, item);
    if (is_in_key(decoder)) return freeze(decoder->state, item->kind == ARRAY ? PyTuple_New(0) : PyDict_New(), &held);
    return item->kind == ARRAY ? PyList_New(0) : hooked(decoder, decoder->options->map_hook, PyDict_New());
}

/* The value of an item without members. */
static inline PyObject *leaf(struct decoder *decoder, const struct naltvigo_item *item) {
    const char *payload = (const char *)decoder->bytes + item->content;
    switch (item->kind) {
    case UNSIGNED: return PyLong_FromUnsignedLongLong(item->number);
    case NEGATIVE: return negative(item->number);
    case BYTES: return PyBytes_FromStringAndSize(payload, (Py_ssize_t)item->number);
    case TEXT: return PyUnicode_DecodeUTF8(payload, (Py_ssize_t)item->number, NULL);
    case ARRAY:
    case MAP: return empty(decoder, item);
    default: return simple(decoder->state, item->number);
    }
}

static PyObject *key_leaf(struct decoder *decoder, const struct naltvigo_item *item) {
    if (item->kind != TEXT) return leaf(decoder, item);
    return key_text(decoder->key_texts, decoder->bytes + item->content, (size_t)item->number);
}

/* Stores the next key. It steals the reference. */
static int take_key(struct decoder *decoder, struct level *level, PyObject *key) {
    level->key = key;
    if (!key) return -1;
    if (!level->collisions) return 0;
    decoder->fault = level->item;
    return add_key(level->collisions, key);
}

/* Stores the value of the current key. It steals the reference. */
static int take_value(struct level *level, PyObject *value) {
    if (!value) return -1;
    const int status = PyDict_SetItem(level->into, level->key, value);
    Py_DECREF(value);
    if (status) return -1;
    Py_CLEAR(level->key);
    level->left--, level->at++;
    return 0;
}

static int take_member(struct level *level, PyObject *value) {
    if (!value) return -1;
    level->left--;
    return level->is_in_key ? PyTuple_SetItem(level->into, (Py_ssize_t)level->at++, value)
                            : PyList_SetItem(level->into, (Py_ssize_t)level->at++, value);
}

/* Puts a value into a container. It steals the reference. */
static int put_into(struct decoder *decoder, struct level *level, PyObject *value) {
    if (level->kind == MAP) return level->key ? take_value(level, value) : take_key(decoder, level, value);
    if (level->kind == ARRAY) return take_member(level, value);
    level->into = value, level->left = 0;
    return value ? 0 : -1;
}

/* Reads items without members into a container, up to its end, or to an item that has some. */
static int read_leaves(struct decoder *decoder, struct level *level) {
    const struct naltvigo_item *next = decoder->next, *const end = decoder->end;
    int status = 0;
    while (status == 0 && level->left && next < end && next->entries == 1) {
        if (level->kind != MAP)
            status = put_into(decoder, level, leaf(decoder, next++));
        else if (!level->key)
            status = take_key(decoder, level, key_leaf(decoder, next++));
        else
            status = take_value(level, leaf(decoder, next++));
    }
    decoder->next = next;
    return status;
}

static PyObject *decode_items(struct decoder *decoder) {
    if (decoder->next < decoder->end && decoder->next->entries == 1) return leaf(decoder, decoder->next);
    while (decoder->next < decoder->end) {
        if (open_level(decoder, decoder->next++)) return NULL;
        struct level *top = &decoder->levels[decoder->open - 1];
        if (read_leaves(decoder, top)) return NULL;
        while (!top->left) {
            PyObject *value = close_level(decoder);
            if (!decoder->open) return value;
            top = &decoder->levels[decoder->open - 1];
            if (put_into(decoder, top, value) || read_leaves(decoder, top)) return NULL;
        }
    }
    return impossible();
}

static void close_all(struct decoder *decoder) {
    while (decoder->open) {
        const struct level *top = &decoder->levels[--decoder->open];
        free_collisions(top->collisions);
        Py_XDECREF(top->into);
        Py_XDECREF(top->key);
    }
    Py_CLEAR(decoder->key_bytes);
    if (decoder->levels != decoder->first_levels) PyMem_Free(decoder->levels);
    free_key_texts(decoder->key_texts);
}

PyObject *decode(const struct state *state, const struct options *options, const uint8_t *bytes, size_t length,
                 const struct naltvigo_item *items, size_t count) {
    struct decoder decoder;
    struct key_text key_texts[KEY_TEXTS];
    decoder.state = state, decoder.bytes = bytes, decoder.next = decoder.fault = items, decoder.end = items + count;
    decoder.options = options, decoder.key_bytes = NULL, decoder.is_collecting = 0;
    decoder.levels = decoder.first_levels, decoder.open = 0;
    decoder.space = sizeof decoder.first_levels / sizeof *decoder.first_levels;
    decoder.key_texts = length < LONG_ENOUGH ? NULL : memset(key_texts, 0, sizeof key_texts);
    if (length >= LONG_ENOUGH) rest_collector(&decoder);
    PyObject *value = decode_items(&decoder);
    wake_collector(&decoder);
    if (!value) set_path(state, bytes, length, options, decoder.fault->offset);
    close_all(&decoder);
    return value;
}
