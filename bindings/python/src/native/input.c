/* The bytes of an argument, and calls on one such argument. */
#include "native.h"

#include <string.h>

/* What the pointer to no bytes points to. */
static const uint8_t nothing;

/* The bytes of a buffer that is not contiguous, up to the end of the row in which the last one wanted is. */
static PyObject *copy_rows(const Py_buffer *view, size_t most) {
    Py_ssize_t shape[PyBUF_MAX_NDIM];
    Py_buffer cut = *view;
    const size_t row = (size_t)(view->len / view->shape[0]);
    memcpy(shape, view->shape, (size_t)view->ndim * sizeof *shape);
    if (most / row < (size_t)shape[0]) shape[0] = (Py_ssize_t)(most / row + 1);
    cut.shape = shape, cut.len = shape[0] * (Py_ssize_t)row;
    PyObject *bytes = PyBytes_FromStringAndSize(NULL, cut.len);
    if (bytes && PyBuffer_ToContiguous(PyBytes_AsString(bytes), &cut, cut.len, 'C')) Py_CLEAR(bytes);
    return bytes;
}

static int copy_view(struct input *input, const Py_buffer *view, size_t most) {
    const size_t length = least((uint64_t)view->len, most);
    input->owner = !length || PyBuffer_IsContiguous(view, 'C')
                       ? PyBytes_FromStringAndSize(view->buf, (Py_ssize_t)length)
                       : copy_rows(view, most);
    if (!input->owner) return -1;
    input->bytes = (const uint8_t *)PyBytes_AsString(input->owner);
    input->length = (size_t)PyBytes_Size(input->owner);
    return 0;
}

/* Whether an object is a file that is mapped for reading only: 1, 0 or -1. */
static int is_read_only_map(PyObject *object) {
    Py_buffer whole;
    PyObject *name = PyUnicode_FromString("mmap");
    PyObject *module = name ? PyImport_GetModule(name) : NULL; /* null where nobody has imported it */
    Py_XDECREF(name);
    if (!module) return PyErr_Occurred() ? -1 : 0;
    PyObject *type = PyObject_GetAttrString(module, "mmap");
    int found = type ? PyObject_IsInstance(object, type) : -1;
    Py_XDECREF(type);
    Py_DECREF(module);
    if (found <= 0) return found;
    if (PyObject_GetBuffer(object, &whole, PyBUF_SIMPLE)) return -1;
    found = whole.readonly;
    PyBuffer_Release(&whole);
    return found;
}

/* Whether the bytes of a view stay unchanged: 1, 0 or -1. Others may write to the memory of a read-only view. */
static int is_unchanging(const Py_buffer *view, enum reading reading) {
    const int is_view = view->obj && PyMemoryView_Check(view->obj);
    PyObject *exporter = is_view ? PyObject_GetAttrString(view->obj, "obj") : Py_XNewRef(view->obj);
    if (!exporter) return PyErr_Occurred() ? -1 : 0;
    const int found = PyBytes_Check(exporter) ? 1 : reading == SEQUENCE ? is_read_only_map(exporter) : 0;
    Py_DECREF(exporter);
    return found;
}

int open_input(struct input *input, PyObject *object, enum reading reading, const struct options *options) {
    Py_buffer view;
    input->owner = NULL, input->view.obj = NULL;
    if (PyBytes_CheckExact(object)) {
        input->owner = Py_NewRef(object);
        input->bytes = (const uint8_t *)PyBytes_AsString(object);
        input->length = (size_t)PyBytes_Size(object);
        return 0;
    }
    if (PyObject_GetBuffer(object, &view, PyBUF_FULL_RO)) return -1;
    int status = PyBuffer_IsContiguous(&view, 'C') ? is_unchanging(&view, reading) : 0;
    if (status == 1) {
        input->view = view;
        input->bytes = view.len ? view.buf : &nothing;
        input->length = (size_t)view.len;
        return 0;
    }
    /* one byte past the limit is enough to refuse an item */
    if (status == 0) status = copy_view(input, &view, reading == ITEM ? (size_t)options->bytes + 1 : SIZE_MAX);
    PyBuffer_Release(&view);
    return status;
}

void close_input(struct input *input) {
    if (input->view.obj) PyBuffer_Release(&input->view);
    Py_CLEAR(input->owner);
}

PyThreadState *release_lock(size_t length) { return length < LONG_INPUT ? NULL : PyEval_SaveThread(); }

void take_lock(PyThreadState *released) {
    if (released) PyEval_RestoreThread(released);
}

int open_call(struct call *call, const struct signature *signature, enum reading reading, PyObject *module,
              PyObject *const *arguments, Py_ssize_t count, PyObject *names) {
    PyObject *data;
    call->state = PyModule_GetState(module);
    if (read_arguments(call->state, signature, arguments, count, names, &data, &call->options)) return -1;
    return open_input(&call->input, data, reading, &call->options);
}

void close_call(struct call *call) { close_input(&call->input); }
