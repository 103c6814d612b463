/* Equality by canonical bytes: of the arrays, maps and tags that loads makes within keys.
 *
 * An input can hold keys of any size whose hashes are equal, in keys of any size, and so on: the hashes of integers
 * and tuples are known to everybody. To compare such keys member by member can take time that doubles with each level.
 * So loads keeps their canonical bytes, and they are equal exactly if these are. All containers of one key share one
 * copy of its bytes.
 */
#include "native.h"

#include <string.h>

/* The canonical bytes of a value, in an object of their own or in that of a key. */
static int find_bytes(const struct state *state, PyObject *value, const struct held *held, uint32_t order,
                      struct held *found) {
    if (held && held->owner && held->order == order) {
        *found = *held;
        Py_INCREF(found->owner);
        return 0;
    }
    if (!(found->owner = bytes_of_value(state, value, order))) return -1;
    found->bytes = PyBytes_AsString(found->owner);
    found->length = (size_t)PyBytes_Size(found->owner);
    return 0;
}

static int are_same(const struct held *left, const struct held *right) {
    return left->length == right->length && memcmp(left->bytes, right->bytes, left->length) == 0;
}

/* After an exception: NO_BYTES if the value is one that dumps does not accept. */
static int no_bytes(void) {
    if (!PyErr_ExceptionMatches(PyExc_TypeError) && !PyErr_ExceptionMatches(PyExc_ValueError) &&
        !PyErr_ExceptionMatches(PyExc_OverflowError))
        return -1;
    PyErr_Clear();
    return NO_BYTES;
}

int have_same_bytes(const struct state *state, PyObject *left, const struct held *left_held, PyObject *right,
                    const struct held *right_held) {
    struct held one, other;
    const uint32_t order = left_held && left_held->owner     ? left_held->order
                           : right_held && right_held->owner ? right_held->order
                                                             : NALTVIGO_BYTEWISE;
    if (left == right) return 1;
    if (find_bytes(state, left, left_held, order, &one)) return no_bytes();
    if (find_bytes(state, right, right_held, order, &other)) return Py_DECREF(one.owner), no_bytes();
    const int equal = are_same(&one, &other);
    Py_DECREF(one.owner);
    Py_DECREF(other.owner);
    return equal;
}
