/* loads: the value of an item in bytes. */
#include "decoder.h"

/* This number of items is indexed on the stack. */
#define FEW_ITEMS 64

/* The items of some canonical bytes. */
struct index {
    struct naltvigo_item *items;
    size_t count, space;
    struct naltvigo_item few[FEW_ITEMS];
};

static void start_index(struct index *index) { index->items = index->few, index->count = 0, index->space = FEW_ITEMS; }

static void end_index(struct index *index) {
    if (index->items != index->few) PyMem_Free(index->items);
}

static int make_room(struct index *index, size_t space) {
    end_index(index);
    index->items = space <= PY_SSIZE_T_MAX / sizeof *index->items ? PyMem_Malloc(space * sizeof *index->items) : NULL;
    index->space = space;
    if (index->items) return 0;
    start_index(index);
    return -1;
}

/* Most items have four bytes or more. If they have fewer, the library returns their number, and is called again. */
static uint32_t fill_index(struct index *index, const uint8_t *bytes, size_t length, const struct options *with,
                           struct naltvigo_refusal *refusal) {
    const size_t likely = least(length, with->bytes) / 4;
    if (likely > index->space) (void)make_room(index, likely);
    for (;;) {
        PyThreadState *released = release_lock(length);
        const uint32_t status = naltvigo_index_raw(bytes, length, with->order, with->keys, with->depth, with->bytes,
                                                   index->items, index->space, &index->count, refusal);
        take_lock(released);
        if (status != NALTVIGO_TOO_SMALL) return status;
        /* 2**32 items or more have no index, whatever the space */
        if (index->count <= index->space || make_room(index, index->count)) return NALTVIGO_NO_MEMORY;
    }
}

static PyObject *decode_canonical(const struct state *state, const uint8_t *bytes, size_t length,
                                  const struct options *options, int *is_refused) {
    struct naltvigo_refusal refusal;
    struct index index;
    PyObject *value = NULL;
    start_index(&index);
    const uint32_t status = fill_index(&index, bytes, length, options, &refusal);
    *is_refused = status == NALTVIGO_REFUSED && !options->canonical;
    if (status == NALTVIGO_OK)
        value = decode(state, options, bytes, length, index.items, index.count);
    else if (!*is_refused)
        raise_status(state, status, &refusal, &(struct refused){.bytes = bytes, .length = length, .options = options});
    end_index(&index);
    return value;
}

static PyObject *decode_any(const struct call *call) {
    const struct input *input = &call->input;
    const struct options *options = &call->options;
    int is_refused;
    PyObject *value = decode_canonical(call->state, input->bytes, input->length, options, &is_refused);
    if (value || !is_refused) return value;
    PyObject *copy = canonical_bytes(call->state, input->bytes, input->length, options, least(input->length, options->bytes));
    if (!copy) return NULL;
    value = decode_canonical(call->state, (const uint8_t *)PyBytes_AsString(copy), (size_t)PyBytes_Size(copy), options,
                             &is_refused);
    Py_DECREF(copy);
    if (!value && is_refused) PyErr_SetString(PyExc_SystemError, "naltvigo: canonical bytes are refused");
    return value;
}

FUNCTION(loads) {
    static const struct signature signature = {"loads", {"data"}, LIMITS_KEYS_AND_ORDER | 1u << CANONICAL | 1u << TAG_HOOK | 1u << MAP_HOOK};
    struct call call;
    if (open_call(&call, &signature, ITEM, module, arguments, count, names)) return NULL;
    PyObject *value = decode_any(&call);
    close_call(&call);
    return value;
}
