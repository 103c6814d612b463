/* What the library returns other than OK, as exceptions. */
#include "native.h"

/* Most explanations fit. */
#define SMALL_TEXT 512

/* Whether the status is REFUSED; else the exception for it is set. */
static int is_refused(uint32_t status) {
    if (status == NALTVIGO_REFUSED) return 1;
    if (status == NALTVIGO_NO_MEMORY)
        PyErr_SetString(PyExc_MemoryError, "naltvigo: out of memory");
    else
        PyErr_Format(PyExc_SystemError, "naltvigo: the library returns the status %u", (unsigned)status);
    return 0;
}

/* The lines of an explanation: sentence, advice and path. */
static PyObject *lines_of(const struct refused *of, const struct naltvigo_refusal *refusal) {
    const struct options *with = of->options;
    uint8_t small[SMALL_TEXT], *text = small;
    size_t space = sizeof small, needed;
    uint32_t status;
    while ((status = naltvigo_explain_raw(of->bytes, of->length, with->depth, with->bytes, refusal->reason,
                                          refusal->offset, text, space, &needed)) == NALTVIGO_TOO_SMALL) {
        if (text != small) PyMem_Free(text);
        if (!(text = PyMem_Malloc(space = needed))) return PyErr_NoMemory();
    }
    PyObject *lines = NULL;
    PyObject *whole = status == NALTVIGO_OK ? PyUnicode_DecodeUTF8((char *)text, (Py_ssize_t)needed, NULL) : NULL;
    PyObject *feed = whole ? PyUnicode_FromString("\n") : NULL;
    if (feed)
        lines = PyUnicode_Split(whole, feed, 2);
    else if (!PyErr_Occurred())
        (void)is_refused(status);
    Py_XDECREF(feed);
    Py_XDECREF(whole);
    if (text != small) PyMem_Free(text);
    if (lines && PyList_Size(lines) != 3) {
        PyErr_SetString(PyExc_SystemError, "naltvigo: an explanation has three lines");
        Py_CLEAR(lines);
    }
    return lines;
}

static const struct options widest = {.bytes = NALTVIGO_BYTES_MAX};
const struct refused forgotten_bytes = {.bytes = (const uint8_t *)"", .options = &widest};

PyObject *new_refused(const struct state *state, const struct naltvigo_refusal *refusal, const struct refused *of) {
    uint8_t name[NALTVIGO_NAME_MAX];
    const size_t length = naltvigo_reason_name_raw(refusal->reason, name, sizeof name);
    PyObject *lines = lines_of(of, refusal);
    if (!lines) return NULL;
    PyObject *side = of->side ? PyUnicode_FromString(of->side) : Py_NewRef(Py_None);
    PyObject *item = of->item ? PyLong_FromUnsignedLongLong(of->item) : Py_NewRef(Py_None);
    PyObject *start = of->item ? PyLong_FromUnsignedLongLong(of->start) : Py_NewRef(Py_None);
    PyObject *error = NULL;
    if (side && item && start)
        error = PyObject_CallFunction(state->refused, "IKKs#OOOOOO", (unsigned)refusal->reason,
                                      (unsigned long long)refusal->offset, (unsigned long long)refusal->consumed,
                                      (char *)name, (Py_ssize_t)length, PyList_GetItem(lines, 0),
                                      PyList_GetItem(lines, 1), PyList_GetItem(lines, 2), side, item, start);
    Py_XDECREF(side);
    Py_XDECREF(item);
    Py_XDECREF(start);
    Py_DECREF(lines);
    return error;
}

FUNCTION(refusal) {
    static const struct signature signature = {"refusal", {"reason", "offset"}, 0};
    const struct state *state = PyModule_GetState(module);
    struct options options;
    PyObject *operands[2];
    if (read_arguments(state, &signature, arguments, count, names, operands, &options)) return NULL;
    const unsigned long reason = PyLong_AsUnsignedLong(operands[0]);
    const uint64_t offset = PyErr_Occurred() ? 0 : PyLong_AsUnsignedLongLong(operands[1]);
    const struct naltvigo_refusal refusal = {(uint32_t)reason, offset, offset};
    return PyErr_Occurred() ? NULL : new_refused(state, &refusal, &forgotten_bytes);
}

void *raise_status(const struct state *state, uint32_t status, const struct naltvigo_refusal *refusal,
                   const struct refused *of) {
    PyObject *error = is_refused(status) ? new_refused(state, refusal, of) : NULL;
    if (error) PyErr_SetObject(state->refused, error);
    Py_XDECREF(error);
    return NULL;
}

/* The path of the exception, if it has one: that of an item in bytes, within the value in which it is put. */
static PyObject *join_paths(PyObject *outer, PyObject *error) {
    PyObject *inner = PyObject_GetAttrString(error, "path");
    if (!inner) PyErr_Clear();
    PyObject *rest = inner && PyUnicode_Check(inner) ? PyUnicode_Substring(inner, 1, PyUnicode_GetLength(inner)) : NULL;
    PyObject *joined = rest ? PyUnicode_Concat(outer, rest) : Py_NewRef(outer);
    Py_XDECREF(inner);
    Py_XDECREF(rest);
    return joined;
}

void add_note(const char *format, void *about) {
    PyObject *type, *error, *trace;
    PyErr_Fetch(&type, &error, &trace);
    PyErr_NormalizeException(&type, &error, &trace);
    PyObject *note = error ? PyUnicode_FromFormat(format, about) : NULL;
    PyObject *none = note ? PyObject_CallMethod(error, "add_note", "O", note) : NULL;
    if (!none) PyErr_Clear();
    Py_XDECREF(none);
    Py_XDECREF(note);
    PyErr_Restore(type, error, trace);
}

void set_path(const struct state *state, const uint8_t *bytes, size_t length, const struct options *options, uint64_t offset) {
    PyObject *type, *error, *trace;
    const struct refused of = {.bytes = bytes, .length = length, .options = options};
    const struct naltvigo_refusal here = {NALTVIGO_TRUNCATED, offset, offset};
    PyErr_Fetch(&type, &error, &trace);
    PyErr_NormalizeException(&type, &error, &trace);
    PyObject *lines = error ? lines_of(&of, &here) : NULL;
    PyObject *path = lines ? join_paths(PyList_GetItem(lines, 2), error) : NULL;
    if (!path || PyObject_SetAttrString(error, "path", path)) PyErr_Clear();
    /* the text of Refused has the path */
    const int is_noted = path && PyUnicode_GetLength(path) > 1 && !PyErr_GivenExceptionMatches(error, state->refused);
    PyErr_Restore(type, error, trace);
    if (is_noted) add_note("at %U", path);
    Py_XDECREF(path);
    Py_XDECREF(lines);
}
