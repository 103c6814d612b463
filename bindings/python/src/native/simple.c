/* Simple: a simple value that Python has no other name for. It does not change. */
#include "native.h"

#include <structmember.h>

struct simple {
    PyObject_HEAD
    unsigned number;
};

unsigned number_of_simple(PyObject *simple) { return ((struct simple *)simple)->number; }

PyObject *new_simple(PyTypeObject *type, unsigned number) {
    struct simple *simple = (struct simple *)PyType_GenericAlloc(type, 0);
    if (simple) simple->number = number;
    return (PyObject *)simple;
}

static PyObject *simple_new(PyTypeObject *type, PyObject *arguments, PyObject *names) {
    static const char *const others[] = {"False", "True", "None", "undefined"};
    static char *known[] = {"number", NULL};
    PyObject *number;
    int overflow;
    if (!PyArg_ParseTupleAndKeywords(arguments, names, "O:Simple", known, &number)) return NULL;
    if (!PyLong_Check(number) || PyBool_Check(number)) {
        PyErr_SetString(PyExc_TypeError, "the number of a simple value is an int");
        return NULL;
    }
    const long n = PyLong_AsLongAndOverflow(number, &overflow);
    if (n == -1 && PyErr_Occurred()) return NULL;
    if (n >= 20 && n <= 23) return PyErr_Format(PyExc_ValueError, "simple value %ld is %s", n, others[n - 20]);
    if (n >= 0 && n <= 255 && !is_no_simple((unsigned)n)) return new_simple(type, (unsigned)n);
    PyErr_SetString(PyExc_ValueError, "the number of a simple value is 0 to 19, or 32 to 255");
    return NULL;
}

static void simple_dealloc(PyObject *self) {
    PyTypeObject *type = Py_TYPE(self);
    ((freefunc)PyType_GetSlot(type, Py_tp_free))(self);
    Py_DECREF(type);
}

static Py_hash_t simple_hash(PyObject *self) { return hash_of(mix(SIMPLE, number_of_simple(self))); }

static PyObject *simple_compare(PyObject *self, PyObject *other, int operation) {
    if ((operation != Py_EQ && operation != Py_NE) || Py_TYPE(other) != Py_TYPE(self))
        return Py_NewRef(Py_NotImplemented);
    return PyBool_FromLong((number_of_simple(self) == number_of_simple(other)) == (operation == Py_EQ));
}

static PyObject *simple_repr(PyObject *self) { return PyUnicode_FromFormat("Simple(%u)", number_of_simple(self)); }

static PyObject *simple_reduce(PyObject *self, PyObject *nothing) {
    (void)nothing;
    return Py_BuildValue("O(I)", Py_TYPE(self), number_of_simple(self));
}

static PyMemberDef members[] = {{"number", T_UINT, offsetof(struct simple, number), READONLY, "0 to 19, or 32 to 255"},
                                {NULL, 0, 0, 0, NULL}};
static PyMethodDef methods[] = {{"__reduce__", simple_reduce, METH_NOARGS, NULL}, {NULL, NULL, 0, NULL}};
static PyType_Slot slots[] = {{Py_tp_new, simple_new},
                              {Py_tp_dealloc, simple_dealloc},
                              {Py_tp_hash, simple_hash},
                              {Py_tp_richcompare, simple_compare},
                              {Py_tp_repr, simple_repr},
                              {Py_tp_members, members},
                              {Py_tp_methods, methods},
                              {Py_tp_doc, (void *)simple_doc},
                              {0, NULL}};
PyType_Spec simple_spec = {"naltvigo.Simple", sizeof(struct simple), 0, Py_TPFLAGS_DEFAULT, slots};
