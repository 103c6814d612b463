/* Machine: reads the bytes of one item in parts, and returns their events. `events` of _streams.py uses it. */
#include "native.h"

#include <structmember.h>

/* The most events that a call of the library returns. */
#define EVENTS 64

struct machine {
    PyObject_HEAD
    struct naltvigo_machine machine;
};

static void machine_dealloc(PyObject *self) {
    PyTypeObject *type = Py_TYPE(self);
    ((freefunc)PyType_GetSlot(type, Py_tp_free))(self);
    Py_DECREF(type);
}

/* (offset, kind, number, width, data); the data of a piece is in the part, whose first byte has the offset `begins`. */
static PyObject *tuple_of(const struct naltvigo_event *event, const uint8_t *part, uint64_t begins) {
    const unsigned long long offset = event->offset, number = event->number;
    const int is_piece = event->kind == NALTVIGO_PIECE;
    const char *data = is_piece ? (const char *)part + (offset - begins) : "";
    if (event->width == NALTVIGO_NO_ARGUMENT)
        return Py_BuildValue("(KIOOy#)", offset, event->kind, Py_None, Py_None, data, (Py_ssize_t)0);
    return Py_BuildValue("(KIKIy#)", offset, event->kind, number, event->width, data, is_piece ? (Py_ssize_t)number : 0);
}

static PyObject *list_of(const struct naltvigo_event *events, size_t count, const uint8_t *part, uint64_t begins) {
    PyObject *list = PyList_New((Py_ssize_t)count);
    for (size_t i = 0; list && i < count; i++) {
        PyObject *event = tuple_of(&events[i], part, begins);
        if (!event || PyList_SetItem(list, (Py_ssize_t)i, event)) Py_CLEAR(list);
    }
    return list;
}

static PyObject *machine_feed(PyObject *object, PyObject *arguments) {
    struct machine *self = (struct machine *)object;
    struct naltvigo_event events[EVENTS];
    struct naltvigo_refusal refusal;
    const char *part;
    Py_ssize_t length, at;
    size_t used, count;
    if (!PyArg_ParseTuple(arguments, "y#n:take", &part, &length, &at)) return NULL;
    if (at < 0 || at > length) {
        PyErr_SetString(PyExc_ValueError, "an offset that the part does not have");
        return NULL;
    }
    const uint64_t begins = self->machine.consumed - (uint64_t)at;
    const uint32_t status = naltvigo_machine_feed_raw(&self->machine, (const uint8_t *)part + at, (size_t)(length - at),
                                                      &used, events, EVENTS, &count, &refusal);
    PyObject *list = list_of(events, count, (const uint8_t *)part, begins);
    if (!list) return NULL;
    if (status != NALTVIGO_REFUSED) return Py_BuildValue("(InNO)", status, (Py_ssize_t)used, list, Py_None);
    return Py_BuildValue("(InNN)", status, (Py_ssize_t)used, list,
                         new_refused(PyType_GetModuleState(Py_TYPE(object)), &refusal, &forgotten_bytes));
}

static PyMemberDef members[] = {{"consumed", T_ULONGLONG,
                                 offsetof(struct machine, machine) + offsetof(struct naltvigo_machine, consumed), READONLY,
                                 "the number of bytes of the item that were read"},
                                {NULL, 0, 0, 0, NULL}};
static PyMethodDef methods[] = {{"take", machine_feed, METH_VARARGS,
                                 "take(part, at): reads the bytes of this part from an offset on. Returns the status of the "
                                 "library, the number of\n"
                                 "bytes read, the events as tuples, and None or a Refused."},
                                {NULL, NULL, 0, NULL}};
static PyType_Slot slots[] = {
    {Py_tp_dealloc, machine_dealloc}, {Py_tp_members, members}, {Py_tp_methods, methods}, {0, NULL}};
PyType_Spec machine_spec = {"naltvigo._native.Machine", sizeof(struct machine), 0,
                            Py_TPFLAGS_DEFAULT | Py_TPFLAGS_DISALLOW_INSTANTIATION, slots};

FUNCTION(start_machine) {
    static const struct signature signature = {"events", {NULL}, LIMITS};
    const struct state *state = PyModule_GetState(module);
    struct options options;
    if (read_arguments(state, &signature, arguments, count, names, NULL, &options)) return NULL;
    struct machine *self = (struct machine *)PyType_GenericAlloc(state->machine, 0);
    if (self) naltvigo_machine_start_raw(options.depth, options.bytes, &self->machine);
    return (PyObject *)self;
}
