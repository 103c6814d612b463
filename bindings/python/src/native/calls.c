/* The calls on whole items in bytes. */
#include "native.h"

/* Results of at most this number of bytes are made on the stack first. */
#define SMALL_RESULT 1024

static uint32_t canonicalise_into(const uint8_t *bytes, size_t length, const struct options *options, uint8_t *out,
                                  size_t space, size_t *needed, struct naltvigo_refusal *refusal) {
    PyThreadState *released = release_lock(length);
    const uint32_t status = naltvigo_canonicalise_raw(bytes, length, options->order, options->keys, options->depth,
                                                      options->bytes, out, space, needed, refusal);
    take_lock(released);
    return status;
}

/* The same into a new bytes object of `space` bytes, or of the bytes that are needed. */
static PyObject *canonicalise_long(const struct state *state, const uint8_t *bytes, size_t length,
                                   const struct options *options, size_t space) {
    struct naltvigo_refusal refusal;
    size_t needed;
    uint32_t status;
    do {
        PyObject *result = PyBytes_FromStringAndSize(NULL, (Py_ssize_t)space);
        if (!result) return NULL;
        uint8_t *out = (uint8_t *)PyBytes_AsString(result);
        status = canonicalise_into(bytes, length, options, out, space, &needed, &refusal);
        if (status == NALTVIGO_OK && needed == space) return result;
        PyObject *part = status == NALTVIGO_OK ? PyBytes_FromStringAndSize((char *)out, (Py_ssize_t)needed) : NULL;
        Py_DECREF(result);
        if (status == NALTVIGO_OK) return part;
        space = needed;
    } while (status == NALTVIGO_TOO_SMALL);
    const struct refused of = {.bytes = bytes, .length = length, .options = options};
    return raise_status(state, status, &refusal, &of);
}

PyObject *canonical_bytes(const struct state *state, const uint8_t *bytes, size_t length, const struct options *options,
                          size_t space) {
    uint8_t small[SMALL_RESULT];
    struct naltvigo_refusal refusal;
    size_t needed;
    if (space > sizeof small) return canonicalise_long(state, bytes, length, options, space);
    const uint32_t status = canonicalise_into(bytes, length, options, small, sizeof small, &needed, &refusal);
    if (status == NALTVIGO_OK) return PyBytes_FromStringAndSize((char *)small, (Py_ssize_t)needed);
    if (status == NALTVIGO_TOO_SMALL) return canonicalise_long(state, bytes, length, options, needed);
    const struct refused of = {.bytes = bytes, .length = length, .options = options};
    return raise_status(state, status, &refusal, &of);
}

FUNCTION(canonicalise) {
    static const struct signature signature = {"canonicalise", {"data"}, LIMITS_KEYS_AND_ORDER};
    struct call call;
    if (open_call(&call, &signature, ITEM, module, arguments, count, names)) return NULL;
    /* canonical bytes are within the limit, however long the input is */
    const size_t space = least(call.input.length, call.options.bytes);
    PyObject *result = canonical_bytes(call.state, call.input.bytes, call.input.length, &call.options, space);
    close_call(&call);
    return result;
}

/* Closes a call that returns this object if the status is OK. */
static PyObject *close_with(struct call *call, uint32_t status, const struct naltvigo_refusal *refusal,
                            PyObject *result) {
    const struct refused of = refused_by(call);
    if (status != NALTVIGO_OK) raise_status(call->state, status, refusal, &of);
    close_call(call);
    return status == NALTVIGO_OK ? Py_NewRef(result) : NULL;
}

FUNCTION(check) {
    static const struct signature signature = {"check", {"data"}, LIMITS_AND_KEYS};
    struct naltvigo_refusal refusal;
    struct call call;
    if (open_call(&call, &signature, ITEM, module, arguments, count, names)) return NULL;
    const struct options *options = &call.options;
    PyThreadState *released = release_lock(call.input.length);
    const uint32_t status = naltvigo_check_valid_raw(call.input.bytes, call.input.length, options->keys, options->depth,
                                                     options->bytes, &refusal);
    take_lock(released);
    return close_with(&call, status, &refusal, Py_None);
}

static uint32_t check_strictly(struct call *call, struct naltvigo_refusal *refusal) {
    const struct options *options = &call->options;
    PyThreadState *released = release_lock(call->input.length);
    const uint32_t status = naltvigo_check_canonical_raw(call->input.bytes, call->input.length, options->order,
                                                         options->keys, options->depth, options->bytes, refusal);
    take_lock(released);
    return status;
}

FUNCTION(check_canonical) {
    static const struct signature signature = {"check_canonical", {"data"}, LIMITS_KEYS_AND_ORDER};
    struct naltvigo_refusal refusal;
    struct call call;
    if (open_call(&call, &signature, ITEM, module, arguments, count, names)) return NULL;
    return close_with(&call, check_strictly(&call, &refusal), &refusal, Py_None);
}

FUNCTION(is_canonical) {
    static const struct signature signature = {"is_canonical", {"data"}, LIMITS_KEYS_AND_ORDER};
    struct naltvigo_refusal refusal;
    struct call call;
    if (open_call(&call, &signature, ITEM, module, arguments, count, names)) return NULL;
    const uint32_t status = check_strictly(&call, &refusal);
    if (status == NALTVIGO_REFUSED) return close_with(&call, NALTVIGO_OK, NULL, Py_False);
    return close_with(&call, status, &refusal, Py_True);
}

FUNCTION(same) {
    static const struct signature signature = {"same", {"left", "right"}, LIMITS_AND_KEYS};
    const struct state *state = PyModule_GetState(module);
    struct naltvigo_refusal refusal;
    struct options options;
    struct input left, right;
    PyObject *operands[2];
    uint32_t side = NALTVIGO_LEFT;
    if (read_arguments(state, &signature, arguments, count, names, operands, &options)) return NULL;
    if (open_input(&left, operands[0], ITEM, &options)) return NULL;
    if (open_input(&right, operands[1], ITEM, &options)) return close_input(&left), NULL;
    PyThreadState *released = release_lock(left.length + right.length);
    const uint32_t status = naltvigo_compare_raw(left.bytes, left.length, right.bytes, right.length, options.keys,
                                                 options.depth, options.bytes, &side, &refusal);
    take_lock(released);
    const struct input *input = side == NALTVIGO_LEFT ? &left : &right;
    const struct refused of = {
        input->bytes, input->length, &options, side == NALTVIGO_LEFT ? "left" : "right", .item = 0};
    const int has_result = status == NALTVIGO_OK || status == NALTVIGO_DIFFERENT;
    if (!has_result) raise_status(state, status, &refusal, &of);
    close_input(&left);
    close_input(&right);
    return has_result ? PyBool_FromLong(status == NALTVIGO_OK) : NULL;
}

/* The text of an item, in a buffer of `space` bytes, or of the bytes that are needed. */
static PyObject *text_of(const struct call *call, size_t space) {
    const struct options *options = &call->options;
    const struct input *input = &call->input;
    struct naltvigo_refusal refusal;
    size_t needed;
    uint32_t status;
    do {
        uint8_t *out = PyMem_Malloc(space);
        if (!out) return PyErr_NoMemory();
        PyThreadState *released = release_lock(input->length);
        status = naltvigo_diagnostic_raw(input->bytes, input->length, options->keys, options->depth, options->bytes,
                                         out, space, &needed, &refusal);
        take_lock(released);
        PyObject *text = status == NALTVIGO_OK ? PyUnicode_DecodeUTF8((char *)out, (Py_ssize_t)needed, NULL) : NULL;
        PyMem_Free(out);
        if (status == NALTVIGO_OK) return text;
        space = needed;
    } while (status == NALTVIGO_TOO_SMALL);
    const struct refused of = refused_by(call);
    return raise_status(call->state, status, &refusal, &of);
}

FUNCTION(diagnostic) {
    static const struct signature signature = {"diagnostic", {"data"}, LIMITS_AND_KEYS};
    struct call call;
    if (open_call(&call, &signature, ITEM, module, arguments, count, names)) return NULL;
    /* most texts have at most four characters a byte */
    PyObject *text = text_of(&call, 64 + 4 * least(call.input.length, call.options.bytes));
    close_call(&call);
    return text;
}
