/* dumps: the canonical bytes of a value. */
#include "encoder.h"

static int put(struct encoder *encoder, PyObject *value);

static int refuse_type(PyObject *value) {
    if (PyFloat_Check(value))
        PyErr_SetString(PyExc_TypeError,
                        "naltvigo has no floats: write an integer (milliseconds, cents), a text, or a tag that "
                        "contains integers, as Tag(4, [-2, 314]) for 3.14");
    else
        PyErr_Format(PyExc_TypeError,
                     "naltvigo has no %R: a value is an int, bytes, str, list, tuple, dict, bool, None, "
                     "undefined, Tag, Simple or Encoded; pass default= to convert other types",
                     Py_TYPE(value));
    return -1;
}

/* What is not a value: `default` makes one of it, once. */
static int put_by_default(struct encoder *encoder, PyObject *object) {
    if (!encoder->options->fallback || encoder->is_in_default) return refuse_type(object);
    PyObject *value = PyObject_CallFunctionObjArgs(encoder->options->fallback, object, NULL);
    if (!value) add_note("default was called with %R", Py_TYPE(object));
    encoder->is_in_default = 1;
    const int status = value ? put(encoder, value) : -1;
    encoder->is_in_default = 0;
    Py_XDECREF(value);
    return status;
}

static int put_view(struct encoder *encoder, PyObject *view) {
    PyObject *bytes = PyBytes_FromObject(view);
    const int status = bytes ? put_string(encoder, BYTES, PyBytes_AsString(bytes), PyBytes_Size(bytes)) : -1;
    Py_XDECREF(bytes);
    return status;
}

static int open_dict(struct encoder *encoder, PyObject *dict) {
    return open_frame(encoder, Py_NewRef(dict), A_DICT, MAP, (uint64_t)PyDict_Size(dict));
}

static int open_list(struct encoder *encoder, PyObject *list) {
    return open_frame(encoder, Py_NewRef(list), A_LIST, ARRAY, (uint64_t)PyList_Size(list));
}

static int open_tuple(struct encoder *encoder, PyObject *tuple) {
    return open_frame(encoder, Py_NewRef(tuple), A_TUPLE, ARRAY, (uint64_t)PyTuple_Size(tuple));
}

/* A value that is not of one of the types that `put` knows. */
static int put_other(struct encoder *encoder, PyObject *value) {
    const struct state *state = encoder->state;
    if (Py_TYPE(value) == state->tag)
        return open_frame(encoder, Py_NewRef(value), CONTENT, TAG, ((struct tag *)value)->number);
    if (PyTuple_Check(value)) return open_tuple(encoder, value);
    if (PyLong_Check(value)) return put_integer(encoder, value);
    if (PyUnicode_Check(value)) return put_text(encoder, value);
    if (PyBytes_Check(value)) {
        if (PyType_IsSubtype(Py_TYPE(value), (PyTypeObject *)state->encoded)) return put_encoded(encoder, value);
        return put_string(encoder, BYTES, PyBytes_AsString(value), PyBytes_Size(value));
    }
    if (PyByteArray_Check(value))
        return put_string(encoder, BYTES, PyByteArray_AsString(value), PyByteArray_Size(value));
    if (PyMemoryView_Check(value)) return put_view(encoder, value);
    if (PyDict_Check(value)) return open_dict(encoder, value);
    if (PyList_Check(value)) return open_list(encoder, value);
    if (value == state->undefined) return put_head(encoder, SIMPLE, 23);
    if (Py_TYPE(value) == state->simple) return put_head(encoder, SIMPLE, number_of_simple(value));
    if (Py_TYPE(value) == state->frozen_list) return open_tuple(encoder, ((struct frozen *)value)->members);
    if (Py_TYPE(value) == state->frozen_dict) return open_dict(encoder, ((struct frozen *)value)->members);
    return put_by_default(encoder, value);
}

static int put(struct encoder *encoder, PyObject *value) {
    const PyTypeObject *type = Py_TYPE(value);
    if (encoder->length > encoder->options->bytes) {
        encoder->is_stopped = 1;
        return 0;
    }
    if (type == &PyUnicode_Type) return put_text(encoder, value);
    if (type == &PyLong_Type) return put_integer(encoder, value);
    if (type == &PyDict_Type) return open_dict(encoder, value);
    if (type == &PyList_Type) return open_list(encoder, value);
    if (type == &PyBytes_Type) return put_string(encoder, BYTES, PyBytes_AsString(value), PyBytes_Size(value));
    if (value == Py_False) return put_head(encoder, SIMPLE, 20);
    if (value == Py_True) return put_head(encoder, SIMPLE, 21);
    if (value == Py_None) return put_head(encoder, SIMPLE, 22);
    return put_other(encoder, value);
}

void start_encoder(struct encoder *encoder, const struct state *state, const struct options *options) {
    encoder->state = state, encoder->options = options;
    encoder->bytes = encoder->first_bytes, encoder->length = 0, encoder->space = sizeof encoder->first_bytes;
    encoder->frames = encoder->first_frames, encoder->open = 0;
    encoder->frame_room = sizeof encoder->first_frames / sizeof *encoder->first_frames;
    encoder->is_stopped = encoder->is_in_default = 0;
}

/* It may stop early. */
int encode_value(struct encoder *encoder, PyObject *value) {
    PyObject *member;
    if (put(encoder, value)) return -1;
    while (encoder->open && !encoder->is_stopped) {
        const int found = next_member(&encoder->frames[encoder->open - 1], &member);
        if (found < 0 || (found && put(encoder, member))) return -1;
        if (!found) close_frame(encoder);
    }
    return 0;
}

void end_encoder(struct encoder *encoder) {
    while (encoder->open) close_frame(encoder);
    if (encoder->frames != encoder->first_frames) PyMem_Free(encoder->frames);
    if (encoder->bytes != encoder->first_bytes) PyMem_Free(encoder->bytes);
}

PyObject *bytes_of_value(const struct state *state, PyObject *value, uint32_t order) {
    const struct options widest = {.bytes = NALTVIGO_BYTES_MAX, .depth = NALTVIGO_DEPTH_MAX, .order = order,
                                   .keys = NALTVIGO_ANY_KEYS};
    struct encoder encoder;
    start_encoder(&encoder, state, &widest);
    PyObject *bytes = NULL;
    if (encode_value(&encoder, value) == 0)
        bytes = canonical_bytes(state, encoder.bytes, encoder.length, &widest, encoder.length);
    end_encoder(&encoder);
    return bytes;
}

FUNCTION(dumps) {
    static const struct signature signature = {"dumps", {"value"}, LIMITS_KEYS_AND_ORDER | 1u << DEFAULT};
    const struct state *state = PyModule_GetState(module);
    struct options options;
    struct encoder encoder;
    PyObject *value, *result = NULL;
    if (read_arguments(state, &signature, arguments, count, names, &value, &options)) return NULL;
    start_encoder(&encoder, state, &options);
    if (encode_value(&encoder, value)) {
        set_path(state, encoder.bytes, encoder.length, &options, encoder.length);
    } else {
        result = canonical_bytes(state, encoder.bytes, encoder.length, &options, encoder.length);
    }
    if (result && encoder.is_stopped) {
        Py_CLEAR(result);
        PyErr_SetString(PyExc_SystemError, "naltvigo: the library accepts what dumps took for too long or too deep");
    }
    end_encoder(&encoder);
    return result;
}
