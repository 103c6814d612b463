/* FrozenList and FrozenDict: the arrays and maps within keys, and dicts with a hash that users make.
 *
 * A FrozenList is made by loads alone. It has the hash of the tuple of its members and equals it, so a look-up takes
 * the tuple. Neither type changes: each keeps its tuple or dict to itself.
 */
#include "native.h"

static PyObject *new_frozen(PyTypeObject *type, PyObject *members) {
    struct frozen *frozen = (struct frozen *)PyType_GenericAlloc(type, 0);
    if (frozen)
        frozen->members = members, frozen->hash = -1;
    else
        Py_DECREF(members);
    return (PyObject *)frozen;
}

PyObject *freeze(const struct state *state, PyObject *members, const struct held *held) {
    PyObject *frozen = members ? new_frozen(PyTuple_Check(members) ? state->frozen_list : state->frozen_dict, members)
                               : NULL;
    if (!frozen) return NULL;
    if (held->owner) {
        ((struct frozen *)frozen)->held = *held;
        Py_INCREF(held->owner);
    }
    /* at once, so that no hash needs those of many levels */
    if (PyObject_Hash(frozen) == -1) Py_CLEAR(frozen);
    return frozen;
}

static PyObject *members_of(PyObject *frozen) { return ((struct frozen *)frozen)->members; }

/* ---- What both have ---- */

static int frozen_traverse(PyObject *self, visitproc visit, void *arg) {
    Py_VISIT(Py_TYPE(self));
    Py_VISIT(((struct frozen *)self)->members);
    return 0;
}

static int frozen_clear(PyObject *self) {
    Py_CLEAR(((struct frozen *)self)->members);
    return 0;
}

/* The members are a tuple or a dict, which CPython frees without recursion, however deep they nest. */
static void frozen_dealloc(PyObject *self) {
    PyTypeObject *type = Py_TYPE(self);
    PyObject_GC_UnTrack(self);
    Py_CLEAR(((struct frozen *)self)->members);
    Py_CLEAR(((struct frozen *)self)->held.owner);
    ((freefunc)PyType_GetSlot(type, Py_tp_free))(self);
    Py_DECREF(type);
}

static Py_ssize_t frozen_length(PyObject *self) { return PyObject_Size(members_of(self)); }

static PyObject *frozen_at(PyObject *self, PyObject *key) { return PyObject_GetItem(members_of(self), key); }

static int frozen_contains(PyObject *self, PyObject *value) { return PySequence_Contains(members_of(self), value); }

static PyObject *frozen_iterator(PyObject *self) { return PyObject_GetIter(members_of(self)); }

static PyObject *call_members(PyObject *self, const char *name, PyObject *arguments) {
    PyObject *method = PyObject_GetAttrString(members_of(self), name);
    PyObject *found = method ? PyObject_Call(method, arguments, NULL) : NULL;
    Py_XDECREF(method);
    return found;
}

#define OF_MEMBERS(name) \
    static PyObject *frozen_##name(PyObject *self, PyObject *arguments) { return call_members(self, #name, arguments); }
OF_MEMBERS(count)
OF_MEMBERS(index)
OF_MEMBERS(keys)
OF_MEMBERS(values)
OF_MEMBERS(items)
#undef OF_MEMBERS

static PyObject *dict_get(PyObject *self, PyObject *arguments) { return call_members(self, "get", arguments); }

static PyObject *dict_reversed(PyObject *self, PyObject *arguments) {
    return call_members(self, "__reversed__", arguments);
}

/* 1, 0 or -1; NO_BYTES for values that dumps refuses. `other` is of the same type, or such a tuple or dict. */
static int are_equal(PyObject *self, PyObject *other) {
    const int is_frozen = Py_TYPE(other) == Py_TYPE(self);
    return have_same_bytes(PyType_GetModuleState(Py_TYPE(self)), self, &((struct frozen *)self)->held, other,
                           is_frozen ? &((struct frozen *)other)->held : NULL);
}

static PyObject *compare(PyObject *self, PyObject *other, int operation) {
    if (operation == Py_EQ || operation == Py_NE) {
        const int equal = are_equal(self, other);
        if (equal < 0) return NULL;
        if (equal != NO_BYTES) return PyBool_FromLong(equal == (operation == Py_EQ));
    }
    if (Py_TYPE(other) == Py_TYPE(self)) other = members_of(other);
    return PyObject_RichCompare(members_of(self), other, operation);
}

/* ---- FrozenList ---- */

static PyObject *list_item(PyObject *self, Py_ssize_t i) { return PySequence_GetItem(members_of(self), i); }

static Py_hash_t list_hash(PyObject *self) {
    struct frozen *list = (struct frozen *)self;
    if (list->hash == -1) list->hash = PyObject_Hash(list->members);
    return list->hash;
}

static PyObject *list_compare(PyObject *self, PyObject *other, int operation) {
    if (Py_TYPE(other) != Py_TYPE(self) && !PyTuple_Check(other)) return Py_NewRef(Py_NotImplemented);
    return compare(self, other, operation);
}

static PyObject *list_repr(PyObject *self) { return PyObject_Repr(members_of(self)); }

static PyObject *list_reduce(PyObject *self, PyObject *nothing) {
    (void)nothing;
    return Py_BuildValue("O(O)", &PyTuple_Type, members_of(self));
}

static PyMethodDef list_methods[] = {{"count", frozen_count, METH_VARARGS, NULL},
                                     {"index", frozen_index, METH_VARARGS, NULL},
                                     {"__reduce__", list_reduce, METH_NOARGS, NULL},
                                     {NULL, NULL, 0, NULL}};
static PyType_Slot list_slots[] = {{Py_tp_dealloc, frozen_dealloc},
                                   {Py_tp_traverse, frozen_traverse},
                                   {Py_tp_clear, frozen_clear},
                                   {Py_tp_hash, list_hash},
                                   {Py_tp_richcompare, list_compare},
                                   {Py_tp_repr, list_repr},
                                   {Py_tp_iter, frozen_iterator},
                                   {Py_mp_length, frozen_length},
                                   {Py_mp_subscript, frozen_at},
                                   {Py_sq_length, frozen_length},
                                   {Py_sq_item, list_item},
                                   {Py_sq_contains, frozen_contains},
                                   {Py_tp_methods, list_methods},
                                   {Py_tp_doc, (void *)frozen_list_doc},
                                   {0, NULL}};
PyType_Spec frozen_list_spec = {"naltvigo.FrozenList", sizeof(struct frozen), 0,
                                Py_TPFLAGS_DEFAULT | Py_TPFLAGS_HAVE_GC | Py_TPFLAGS_DISALLOW_INSTANTIATION,
                                list_slots};

/* ---- FrozenDict ---- */

static PyObject *dict_new(PyTypeObject *type, PyObject *arguments, PyObject *names) {
    PyObject *dict = PyObject_Call((PyObject *)&PyDict_Type, arguments, names);
    return dict ? new_frozen(type, dict) : NULL;
}

/* The sum over its pairs, so that their order does not count. */
static Py_hash_t hash_pairs(PyObject *dict) {
    PyObject *key, *value;
    Py_ssize_t position = 0;
    uint64_t sum = 0;
    while (PyDict_Next(dict, &position, &key, &value)) {
        const Py_hash_t of_key = PyObject_Hash(key), of_value = of_key == -1 ? -1 : PyObject_Hash(value);
        if (of_value == -1) return -1;
        sum += mix(mix(MAP, (uint64_t)of_key), (uint64_t)of_value);
    }
    return hash_of(mix(sum, (uint64_t)PyDict_Size(dict)));
}

static Py_hash_t dict_hash(PyObject *self) {
    struct frozen *dict = (struct frozen *)self;
    if (dict->hash != -1) return dict->hash;
    if (Py_EnterRecursiveCall(" in the hash of a FrozenDict")) return -1;
    dict->hash = hash_pairs(dict->members);
    Py_LeaveRecursiveCall();
    return dict->hash;
}

static PyObject *dict_compare(PyObject *self, PyObject *other, int operation) {
    const int is_known = Py_TYPE(other) == Py_TYPE(self) || PyDict_Check(other);
    if ((operation != Py_EQ && operation != Py_NE) || !is_known) return Py_NewRef(Py_NotImplemented);
    return compare(self, other, operation);
}

static PyObject *dict_repr(PyObject *self) {
    const int within = Py_ReprEnter(self);
    if (within) return within < 0 ? NULL : PyUnicode_FromString("FrozenDict(...)");
    PyObject *text = PyUnicode_FromFormat("FrozenDict(%R)", members_of(self));
    Py_ReprLeave(self);
    return text;
}

static PyObject *dict_reduce(PyObject *self, PyObject *nothing) {
    (void)nothing;
    return Py_BuildValue("O(N)", Py_TYPE(self), PyDict_Copy(members_of(self)));
}

static PyMethodDef dict_methods[] = {{"keys", frozen_keys, METH_VARARGS, NULL},
                                     {"values", frozen_values, METH_VARARGS, NULL},
                                     {"items", frozen_items, METH_VARARGS, NULL},
                                     {"get", dict_get, METH_VARARGS, NULL},
                                     {"__reversed__", dict_reversed, METH_VARARGS, NULL},
                                     {"__reduce__", dict_reduce, METH_NOARGS, NULL},
                                     {"__class_getitem__", Py_GenericAlias, METH_O | METH_CLASS, NULL},
                                     {NULL, NULL, 0, NULL}};
static PyType_Slot dict_slots[] = {{Py_tp_new, dict_new},
                                   {Py_tp_dealloc, frozen_dealloc},
                                   {Py_tp_traverse, frozen_traverse},
                                   {Py_tp_clear, frozen_clear},
                                   {Py_tp_hash, dict_hash},
                                   {Py_tp_richcompare, dict_compare},
                                   {Py_tp_repr, dict_repr},
                                   {Py_tp_iter, frozen_iterator},
                                   {Py_mp_length, frozen_length},
                                   {Py_mp_subscript, frozen_at},
                                   {Py_sq_contains, frozen_contains},
                                   {Py_tp_methods, dict_methods},
                                   {Py_tp_doc, (void *)frozen_dict_doc},
                                   {0, NULL}};
PyType_Spec frozen_dict_spec = {"naltvigo.FrozenDict", sizeof(struct frozen), 0,
                                Py_TPFLAGS_DEFAULT | Py_TPFLAGS_HAVE_GC, dict_slots};
