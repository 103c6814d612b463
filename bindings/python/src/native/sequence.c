/* Sequences of items (RFC 8742): an iterator over them, and calls over all of them at once. */
#include "native.h"

#include <stdlib.h>
#include <string.h>

/* Where a sequence is read. */
struct cursor {
    struct input input;
    struct options options;
    uint64_t at, count; /* where the next item begins, and how many were read */
};

struct items {
    PyObject_HEAD
    struct cursor cursor;
    int is_reading; /* since a call may release the lock */
};

static uint32_t next_within(const struct cursor *cursor, uint64_t limit, uint64_t *taken,
                            struct naltvigo_refusal *refusal) {
    const struct options *with = &cursor->options;
    const uint8_t *at = cursor->input.bytes + cursor->at;
    const size_t left = cursor->input.length - (size_t)cursor->at;
    if (with->canonical)
        return naltvigo_next_canonical_raw(at, left, with->order, with->keys, with->depth, limit, taken, refusal);
    return naltvigo_next_valid_raw(at, left, with->keys, with->depth, limit, taken, refusal);
}

/* The next item, whose length is unknown: with the lock held up to LONG_INPUT bytes, and then without it. */
static uint32_t next_item(struct items *self, uint64_t *taken, struct naltvigo_refusal *refusal) {
    const uint64_t limit = self->cursor.options.bytes;
    uint32_t status = next_within(&self->cursor, limit < LONG_INPUT ? limit : LONG_INPUT, taken, refusal);
    if (status != NALTVIGO_REFUSED || refusal->reason != NALTVIGO_TOO_LONG || limit <= LONG_INPUT) return status;
    self->is_reading = 1;
    PyThreadState *released = PyEval_SaveThread();
    status = next_within(&self->cursor, limit, taken, refusal);
    PyEval_RestoreThread(released);
    self->is_reading = 0;
    return status;
}

/* Sets the exception for the current item. */
static void raise_at(const struct state *state, const struct cursor *cursor, uint32_t status,
                     const struct naltvigo_refusal *refusal) {
    const struct refused of = {cursor->input.bytes + cursor->at, cursor->input.length - (size_t)cursor->at,
                               &cursor->options, NULL, cursor->count, cursor->at};
    raise_status(state, status, refusal, &of);
}

/* Such an iterator ends with its first refusal. */
static void finish(struct cursor *cursor) {
    close_input(&cursor->input);
    cursor->input.length = 0, cursor->at = 0;
}

static PyObject *items_next(PyObject *object) {
    struct items *self = (struct items *)object;
    struct cursor *cursor = &self->cursor;
    struct naltvigo_refusal refusal;
    uint64_t taken;
    if (self->is_reading) {
        PyErr_SetString(PyExc_ValueError, "another thread is in this iterator");
        return NULL;
    }
    if (cursor->at >= cursor->input.length) return finish(cursor), NULL;
    const uint32_t status = next_item(self, &taken, &refusal);
    const uint64_t start = cursor->at;
    cursor->count++;
    if (status != NALTVIGO_OK) {
        raise_at(PyType_GetModuleState(Py_TYPE(object)), cursor, status, &refusal);
        finish(cursor);
        return NULL;
    }
    cursor->at = start + taken;
    if (cursor->options.offsets)
        return Py_BuildValue("(KK)", (unsigned long long)start, (unsigned long long)cursor->at);
    return PyBytes_FromStringAndSize((const char *)cursor->input.bytes + start, (Py_ssize_t)taken);
}

static int items_traverse(PyObject *self, visitproc visit, void *arg) {
    Py_VISIT(Py_TYPE(self));
    Py_VISIT(((struct items *)self)->cursor.input.view.obj);
    return 0;
}

static int items_clear(PyObject *self) {
    finish(&((struct items *)self)->cursor);
    return 0;
}

static void items_dealloc(PyObject *self) {
    PyTypeObject *type = Py_TYPE(self);
    PyObject_GC_UnTrack(self);
    finish(&((struct items *)self)->cursor);
    ((freefunc)PyType_GetSlot(type, Py_tp_free))(self);
    Py_DECREF(type);
}

static PyType_Slot slots[] = {{Py_tp_dealloc, items_dealloc}, {Py_tp_traverse, items_traverse},
                              {Py_tp_clear, items_clear},     {Py_tp_iter, PyObject_SelfIter},
                              {Py_tp_iternext, items_next},   {0, NULL}};
PyType_Spec items_spec = {"naltvigo._native.Items", sizeof(struct items), 0,
                          Py_TPFLAGS_DEFAULT | Py_TPFLAGS_HAVE_GC | Py_TPFLAGS_DISALLOW_INSTANTIATION, slots};

FUNCTION(items) {
    static const struct signature signature = {
        "items", {"data"}, LIMITS_KEYS_AND_ORDER | 1u << CANONICAL | 1u << OFFSETS};
    struct call call;
    if (open_call(&call, &signature, SEQUENCE, module, arguments, count, names)) return NULL;
    struct items *self = (struct items *)PyType_GenericAlloc(call.state->items, 0);
    if (!self) return close_call(&call), NULL;
    self->cursor = (struct cursor){call.input, call.options, 0, 0}; /* which closes the input */
    return (PyObject *)self;
}

/* ---- All items at once ---- */

/* Bytes that grow. They are from malloc, since they grow without the lock. */
struct growing {
    uint8_t *bytes;
    size_t length, space;
};

static uint32_t make_room(struct growing *out, size_t more) {
    if (out->space - out->length >= more) return NALTVIGO_OK;
    const size_t least = out->length + more, space = 2 * out->space > least ? 2 * out->space : least;
    uint8_t *bytes = realloc(out->bytes, space);
    if (!bytes) return NALTVIGO_NO_MEMORY;
    out->bytes = bytes, out->space = space;
    return NALTVIGO_OK;
}

static uint32_t add_end(struct growing *ends, uint64_t end) {
    if (make_room(ends, sizeof end)) return NALTVIGO_NO_MEMORY;
    memcpy(ends->bytes + ends->length, &end, sizeof end);
    ends->length += sizeof end;
    return NALTVIGO_OK;
}

/* Appends the canonical bytes of the current item, which is valid. */
static uint32_t add_canonical(const struct cursor *cursor, size_t taken, struct growing *out,
                              struct naltvigo_refusal *refusal) {
    const struct options *with = &cursor->options;
    const uint8_t *at = cursor->input.bytes + cursor->at;
    size_t needed = taken;
    uint32_t status = NALTVIGO_TOO_SMALL;
    while (status == NALTVIGO_TOO_SMALL) {
        if (make_room(out, needed)) return NALTVIGO_NO_MEMORY;
        status = naltvigo_canonicalise_raw(at, taken, with->order, with->keys, with->depth, with->bytes,
                                           out->bytes + out->length, out->space - out->length, &needed, refusal);
    }
    if (status == NALTVIGO_OK) out->length += needed;
    return status;
}

/* Where each item ends, and, where `out` is not null, its canonical bytes with their ends instead. */
static uint32_t read_all(struct cursor *cursor, struct growing *ends, struct growing *out,
                         struct naltvigo_refusal *refusal) {
    uint32_t status = NALTVIGO_OK;
    uint64_t taken;
    while (status == NALTVIGO_OK && cursor->at < cursor->input.length) {
        cursor->count++;
        status = next_within(cursor, cursor->options.bytes, &taken, refusal);
        if (status == NALTVIGO_OK && out) status = add_canonical(cursor, (size_t)taken, out, refusal);
        if (status != NALTVIGO_OK) return status;
        cursor->at += taken;
        status = add_end(ends, out ? out->length : cursor->at);
    }
    return status;
}

/* array.array('Q', ..) of the ends. */
static PyObject *array_of(const struct state *state, const struct growing *ends) {
    return PyObject_CallFunction(state->array, "sy#", "Q", ends->length ? (char *)ends->bytes : "",
                                 (Py_ssize_t)ends->length);
}

/* The result of a call over all items, which it closes. */
static PyObject *read_sequence(struct call *call, int is_canonicalising) {
    struct naltvigo_refusal refusal;
    struct cursor cursor = {call->input, call->options, 0, 0};
    struct growing ends = {NULL, 0, 0}, out = {NULL, 0, 0};
    PyObject *result = NULL;
    PyThreadState *released = release_lock(cursor.input.length);
    const uint32_t status = read_all(&cursor, &ends, is_canonicalising ? &out : NULL, &refusal);
    take_lock(released);
    if (status != NALTVIGO_OK)
        raise_at(call->state, &cursor, status, &refusal);
    else if (is_canonicalising)
        result = Py_BuildValue("y#N", out.length ? (char *)out.bytes : "", (Py_ssize_t)out.length,
                               array_of(call->state, &ends));
    else
        result = array_of(call->state, &ends);
    close_call(call);
    free(ends.bytes);
    free(out.bytes);
    return result;
}

FUNCTION(item_ends) {
    static const struct signature signature = {"item_ends", {"data"}, LIMITS_KEYS_AND_ORDER | 1u << CANONICAL};
    struct call call;
    if (open_call(&call, &signature, SEQUENCE, module, arguments, count, names)) return NULL;
    return read_sequence(&call, 0);
}

FUNCTION(canonicalise_items) {
    static const struct signature signature = {"canonicalise_items", {"data"}, LIMITS_KEYS_AND_ORDER};
    struct call call;
    if (open_call(&call, &signature, SEQUENCE, module, arguments, count, names)) return NULL;
    return read_sequence(&call, 1);
}
