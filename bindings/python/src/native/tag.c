/* Tag: a number and the content that it tags. It does not change. */
#include "native.h"

#include <structmember.h>

PyObject *new_tag(PyTypeObject *type, uint64_t number, PyObject *content, const struct held *held) {
    struct tag *tag = (struct tag *)PyType_GenericAlloc(type, 0);
    if (!tag) return NULL;
    tag->number = number, tag->content = Py_NewRef(content), tag->held = *held;
    Py_XINCREF(held->owner);
    return (PyObject *)tag;
}

static PyObject *tag_new(PyTypeObject *type, PyObject *arguments, PyObject *names) {
    static char *known[] = {"number", "content", NULL};
    static const struct held unknown;
    PyObject *number, *content;
    if (!PyArg_ParseTupleAndKeywords(arguments, names, "OO:Tag", known, &number, &content)) return NULL;
    if (!PyLong_Check(number) || PyBool_Check(number)) {
        PyErr_SetString(PyExc_TypeError, "a tag's number is an integer");
        return NULL;
    }
    const unsigned long long n = PyLong_AsUnsignedLongLong(number);
    if (n == (unsigned long long)-1 && PyErr_Occurred()) {
        if (!PyErr_ExceptionMatches(PyExc_OverflowError)) return NULL;
        PyErr_Clear();
        PyErr_SetString(PyExc_OverflowError, "a tag's number is 0 to 2**64 - 1");
        return NULL;
    }
    return new_tag(type, n, content, &unknown);
}

static int tag_traverse(PyObject *self, visitproc visit, void *arg) {
    Py_VISIT(Py_TYPE(self));
    Py_VISIT(((struct tag *)self)->content);
    return 0;
}

static int tag_clear(PyObject *self) {
    Py_CLEAR(((struct tag *)self)->content);
    return 0;
}

/* Nested tags are freed in a loop, since a chain of them may have any length. */
static void tag_dealloc(PyObject *self) {
    PyTypeObject *type = Py_TYPE(self);
    PyObject *content = ((struct tag *)self)->content;
    PyObject_GC_UnTrack(self);
    ((struct tag *)self)->content = NULL;
    while (content && Py_TYPE(content) == type && Py_REFCNT(content) == 1) {
        PyObject *within = ((struct tag *)content)->content;
        ((struct tag *)content)->content = NULL;
        Py_DECREF(content);
        content = within;
    }
    Py_XDECREF(content);
    Py_CLEAR(((struct tag *)self)->held.owner);
    ((freefunc)PyType_GetSlot(type, Py_tp_free))(self);
    Py_DECREF(type);
}

/* Of nested tags it reads the numbers in a loop, as tag_dealloc does. */
static Py_hash_t tag_hash(PyObject *self) {
    const struct tag *tag = (struct tag *)self;
    uint64_t hash = mix(TAG, tag->number);
    while (Py_TYPE(tag->content) == Py_TYPE(self)) {
        tag = (struct tag *)tag->content;
        hash = mix(hash, tag->number);
    }
    const Py_hash_t inner = PyObject_Hash(tag->content);
    if (inner == -1) return -1;
    return hash_of(mix(hash, (uint64_t)inner));
}

static int are_equal_parts(const struct tag *left, const struct tag *right) {
    if (left->number != right->number) return 0;
    if (Py_EnterRecursiveCall(" in a comparison of tags")) return -1;
    const int equal = PyObject_RichCompareBool(left->content, right->content, Py_EQ);
    Py_LeaveRecursiveCall();
    return equal;
}

/* By their canonical bytes where either is of a key, and else by their parts. */
static PyObject *tag_compare(PyObject *self, PyObject *other, int operation) {
    const struct tag *left = (struct tag *)self, *right = (struct tag *)other;
    if ((operation != Py_EQ && operation != Py_NE) || Py_TYPE(other) != Py_TYPE(self))
        return Py_NewRef(Py_NotImplemented);
    int equal = NO_BYTES;
    if (left->held.owner || right->held.owner)
        equal = have_same_bytes(PyType_GetModuleState(Py_TYPE(self)), self, &left->held, other, &right->held);
    if (equal == NO_BYTES) equal = are_equal_parts(left, right);
    return equal < 0 ? NULL : PyBool_FromLong(equal == (operation == Py_EQ));
}

static PyObject *tag_repr(PyObject *self) {
    const int within = Py_ReprEnter(self);
    if (within) return within < 0 ? NULL : PyUnicode_FromString("Tag(...)");
    PyObject *text = PyUnicode_FromFormat("Tag(%llu, %R)", ((struct tag *)self)->number, ((struct tag *)self)->content);
    Py_ReprLeave(self);
    return text;
}

static PyObject *tag_reduce(PyObject *self, PyObject *nothing) {
    (void)nothing;
    return Py_BuildValue("O(KO)", Py_TYPE(self), ((struct tag *)self)->number, ((struct tag *)self)->content);
}

static PyMemberDef members[] = {{"number", T_ULONGLONG, offsetof(struct tag, number), READONLY, "0 to 2**64 - 1"},
                                {"content", T_OBJECT_EX, offsetof(struct tag, content), READONLY, "a value"},
                                {NULL, 0, 0, 0, NULL}};
static PyMethodDef methods[] = {{"__reduce__", tag_reduce, METH_NOARGS, NULL}, {NULL, NULL, 0, NULL}};
static PyType_Slot slots[] = {{Py_tp_new, tag_new},
                              {Py_tp_dealloc, tag_dealloc},
                              {Py_tp_traverse, tag_traverse},
                              {Py_tp_clear, tag_clear},
                              {Py_tp_hash, tag_hash},
                              {Py_tp_richcompare, tag_compare},
                              {Py_tp_repr, tag_repr},
                              {Py_tp_members, members},
                              {Py_tp_methods, methods},
                              {Py_tp_doc, (void *)tag_doc},
                              {0, NULL}};
PyType_Spec tag_spec = {"naltvigo.Tag", sizeof(struct tag), 0, Py_TPFLAGS_DEFAULT | Py_TPFLAGS_HAVE_GC, slots};
