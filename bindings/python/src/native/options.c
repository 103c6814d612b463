/* The arguments of a call: up to two operands, by position or by name, and options by name. */
#include "native.h"

#include <string.h>

static int is_text(PyObject *value, const char *text) {
    return PyUnicode_Check(value) && PyUnicode_CompareWithASCIIString(value, text) == 0;
}

/* Which of two words a value is: 0 or 1; -1 with an exception. */
static int read_word(const char *option, const char *const words[2], PyObject *value) {
    for (int i = 0; i < 2; i++)
        if (is_text(value, words[i])) return i;
    PyErr_Format(PyExc_ValueError, "%s is '%s' or '%s', and not %R", option, words[0], words[1], value);
    return -1;
}

static int wrong_type(const char *option, PyObject *value) {
    PyObject *type = PyObject_GetAttrString((PyObject *)Py_TYPE(value), "__name__");
    if (type) PyErr_Format(PyExc_TypeError, "%s is an integer, and not %U", option, type);
    Py_XDECREF(type);
    return -1;
}

static int read_limit(const char *option, uint64_t most, PyObject *value, uint64_t *limit) {
    int overflow;
    long long number;
    if (!PyLong_Check(value) || PyBool_Check(value)) return wrong_type(option, value);
    number = PyLong_AsLongLongAndOverflow(value, &overflow);
    if (number == -1 && PyErr_Occurred()) return -1;
    if (overflow || number < 0 || (uint64_t)number > most) {
        PyErr_Format(PyExc_ValueError, "%s is 0 to %llu, and not %R", option, (unsigned long long)most, value);
        return -1;
    }
    *limit = (uint64_t)number;
    return 0;
}

static int read_option(struct options *options, enum option option, PyObject *value) {
    static const char *const orders[2] = {"bytewise", "length"}, *const kinds[2] = {"any", "basic"};
    static const uint32_t order_numbers[2] = {NALTVIGO_BYTEWISE, NALTVIGO_LENGTH_FIRST};
    static const uint32_t kind_numbers[2] = {NALTVIGO_ANY_KEYS, NALTVIGO_INTEGERS_AND_TEXTS};
    uint64_t depth;
    int which;
    switch (option) {
    case ORDER:
        if ((which = read_word("order", orders, value)) < 0) return -1;
        options->order = order_numbers[which];
        return 0;
    case KEYS:
        if ((which = read_word("keys", kinds, value)) < 0) return -1;
        options->keys = kind_numbers[which];
        return 0;
    case DEPTH:
        if (read_limit("depth", NALTVIGO_DEPTH_MAX, value, &depth)) return -1;
        options->depth = (uint32_t)depth;
        return 0;
    case MAX_BYTES: return read_limit("max_bytes", NALTVIGO_BYTES_MAX, value, &options->bytes);
    case CANONICAL: return (options->canonical = PyObject_IsTrue(value)) < 0 ? -1 : 0;
    case OFFSETS: return (options->offsets = PyObject_IsTrue(value)) < 0 ? -1 : 0;
    case DEFAULT: options->fallback = value == Py_None ? NULL : value; return 0;
    case TAG_HOOK: options->tag_hook = value == Py_None ? NULL : value; return 0;
    default: options->map_hook = value == Py_None ? NULL : value; return 0;
    }
}

/* The option that a name is, or OPTION_COUNT. Names in a program's text are the very objects that the module keeps. */
static unsigned option_named(const struct state *state, unsigned takes, PyObject *name) {
    unsigned i;
    for (i = 0; i < OPTION_COUNT; i++)
        if (name == state->option_names[i]) break;
    for (unsigned j = 0; i == OPTION_COUNT && j < OPTION_COUNT; j++)
        if (PyUnicode_Compare(name, state->option_names[j]) == 0) i = j;
    return i < OPTION_COUNT && takes >> i & 1 ? i : OPTION_COUNT;
}

static int read_name(const struct state *state, const struct signature *signature, PyObject *name, PyObject *value,
                     PyObject **operands, struct options *options) {
    const unsigned option = option_named(state, signature->takes, name);
    if (option < OPTION_COUNT) return read_option(options, (enum option)option, value);
    for (int i = 0; i < 2 && signature->operands[i]; i++) {
        if (!is_text(name, signature->operands[i])) continue;
        if (!operands[i]) return operands[i] = value, 0;
        PyErr_Format(PyExc_TypeError, "%s() got two values for '%U'", signature->call, name);
        return -1;
    }
    PyErr_Format(PyExc_TypeError, "%s() takes no argument '%U'", signature->call, name);
    return -1;
}

int read_arguments(const struct state *state, const struct signature *signature, PyObject *const *arguments,
                   Py_ssize_t count, PyObject *names, PyObject **operands, struct options *options) {
    const struct naltvigo_options defaults = naltvigo_defaults();
    const Py_ssize_t most = !signature->operands[0] ? 0 : signature->operands[1] ? 2 : 1;
    const Py_ssize_t named = names ? PyTuple_Size(names) : 0;
    *options = (struct options){
        .bytes = defaults.bytes, .depth = defaults.depth, .order = defaults.order, .keys = defaults.keys};
    if (count > most) {
        PyErr_Format(PyExc_TypeError, "%s() takes %zd positional arguments, and got %zd", signature->call, most, count);
        return -1;
    }
    for (Py_ssize_t i = 0; i < most; i++) operands[i] = i < count ? arguments[i] : NULL;
    for (Py_ssize_t i = 0; i < named; i++)
        if (read_name(state, signature, PyTuple_GetItem(names, i), arguments[count + i], operands, options)) return -1;
    for (Py_ssize_t i = 0; i < most; i++) {
        if (operands[i]) continue;
        PyErr_Format(PyExc_TypeError, "%s() needs the argument '%s'", signature->call, signature->operands[i]);
        return -1;
    }
    return 0;
}

int read_named_arguments(const struct state *state, const struct signature *signature, PyObject *arguments,
                         PyObject *named, struct options *options) {
    PyObject *name, *value;
    Py_ssize_t position = 0;
    if (read_arguments(state, signature, NULL, PyTuple_Size(arguments), NULL, NULL, options)) return -1;
    if (named && !PyArg_ValidateKeywordArguments(named)) return -1;
    while (named && PyDict_Next(named, &position, &name, &value))
        if (read_name(state, signature, name, value, NULL, options)) return -1;
    return 0;
}
