/* Checker: the strict check of one item whose bytes come in parts. */
#include "native.h"

#include <structmember.h>

struct checker {
    PyObject_HEAD
    struct naltvigo_checker checker; /* without memory only while it is made */
    struct options options;
    unsigned long long consumed, used; /* of the item, and of the last part */
    char is_complete;
    int is_busy; /* since a call may release the lock, or run code of a buffer's class */
};

static PyObject *checker_new(PyTypeObject *type, PyObject *arguments, PyObject *named) {
    static const struct signature signature = {"Checker", {NULL}, LIMITS_KEYS_AND_ORDER};
    const struct state *state = PyType_GetModuleState(type);
    struct options options;
    if (read_named_arguments(state, &signature, arguments, named, &options)) return NULL;
    struct checker *self = (struct checker *)PyType_GenericAlloc(type, 0);
    if (!self) return NULL;
    self->options = options;
    const uint32_t status =
        naltvigo_checker_new_raw(options.order, options.keys, options.depth, options.bytes, &self->checker);
    if (status == NALTVIGO_OK) return (PyObject *)self;
    Py_DECREF(self);
    return raise_status(state, status, NULL, NULL);
}

static void checker_dealloc(PyObject *object) {
    struct checker *self = (struct checker *)object;
    PyTypeObject *type = Py_TYPE(object);
    if (self->checker.memory) naltvigo_checker_free_raw(&self->checker);
    ((freefunc)PyType_GetSlot(type, Py_tp_free))(object);
    Py_DECREF(type);
}

/* Whether no other call is in this checker; else an exception is set. */
static int is_free(const struct checker *self) {
    if (!self->is_busy) return 1;
    PyErr_SetString(PyExc_ValueError, "another call is in this checker");
    return 0;
}

/* Passes the bytes to the library. If the status is neither OK nor MORE, an exception is set. */
static uint32_t take(struct checker *self, const struct input *input) {
    struct naltvigo_refusal refusal;
    size_t used = 0;
    PyThreadState *released = release_lock(input->length);
    const uint32_t status = naltvigo_checker_feed_raw(&self->checker, input->bytes, input->length, &used, &refusal);
    take_lock(released);
    self->used = used;
    self->consumed += used;
    self->is_complete = status == NALTVIGO_OK;
    if (status != NALTVIGO_OK && status != NALTVIGO_MORE)
        raise_status(PyType_GetModuleState(Py_TYPE((PyObject *)self)), status, &refusal, &forgotten_bytes);
    return status;
}

static PyObject *checker_feed(PyObject *object, PyObject *part) {
    struct checker *self = (struct checker *)object;
    struct options rest = self->options;
    struct input input;
    PyObject *result = NULL;
    if (!is_free(self)) return NULL;
    rest.bytes -= self->consumed; /* so that no more is copied than the item may still have */
    self->is_busy = 1;
    if (!open_input(&input, part, ITEM, &rest)) {
        const uint32_t status = take(self, &input);
        if (status == NALTVIGO_OK || status == NALTVIGO_MORE) result = PyBool_FromLong(status == NALTVIGO_OK);
        close_input(&input);
    }
    self->is_busy = 0;
    return result;
}

static PyObject *checker_end(PyObject *object, PyObject *nothing) {
    struct checker *self = (struct checker *)object;
    struct naltvigo_refusal refusal;
    (void)nothing;
    if (!is_free(self)) return NULL;
    const uint32_t status = naltvigo_checker_end_raw(&self->checker, &refusal);
    if (status == NALTVIGO_OK) return PyLong_FromUnsignedLongLong(self->consumed);
    return raise_status(PyType_GetModuleState(Py_TYPE(object)), status, &refusal, &forgotten_bytes);
}

static PyObject *checker_restart(PyObject *object, PyObject *nothing) {
    struct checker *self = (struct checker *)object;
    (void)nothing;
    if (!is_free(self)) return NULL;
    naltvigo_checker_restart_raw(self->options.order, &self->checker);
    self->consumed = self->used = 0;
    self->is_complete = 0;
    return Py_NewRef(Py_None);
}

static PyObject *checker_reduce(PyObject *object, PyObject *nothing) {
    (void)object, (void)nothing;
    PyErr_SetString(PyExc_TypeError, "a Checker cannot be copied or pickled");
    return NULL;
}

static PyMemberDef members[] = {
    {"complete", T_BOOL, offsetof(struct checker, is_complete), READONLY, "whether the item is complete, and canonical"},
    {"consumed", T_ULONGLONG, offsetof(struct checker, consumed), READONLY, "the number of bytes of the item so far"},
    {"used", T_ULONGLONG, offsetof(struct checker, used), READONLY,
     "the number of bytes of the last part that belong to the item"},
    {NULL, 0, 0, 0, NULL}};
static PyMethodDef methods[] = {
    {"feed", checker_feed, METH_O,
     "feed($self, part, /)\n--\n\nChecks the next bytes, and returns whether the item is complete. Raises Refused as soon as "
     "it is wrong."},
    {"end", checker_end, METH_NOARGS,
     "end($self, /)\n--\n\nReturns the number of bytes of the item if it is complete. Raises Refused otherwise: "
     "Truncated, after which more bytes may follow, or the refusal that `feed` raised."},
    {"restart", checker_restart, METH_NOARGS, "restart($self, /)\n--\n\nGoes on with another item, with the same options."},
    {"__reduce__", checker_reduce, METH_NOARGS, NULL},
    {NULL, NULL, 0, NULL}};
static PyType_Slot slots[] = {{Py_tp_new, checker_new},         {Py_tp_dealloc, checker_dealloc},
                              {Py_tp_members, members},         {Py_tp_methods, methods},
                              {Py_tp_doc, (void *)checker_doc}, {0, NULL}};
PyType_Spec checker_spec = {"naltvigo.Checker", sizeof(struct checker), 0, Py_TPFLAGS_DEFAULT, slots};
