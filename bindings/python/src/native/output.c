/* Heads and payloads, appended to the bytes of an encoder. */
#include "encoder.h"

#include <string.h>

#define LONGEST_HEAD 9

static int make_room(struct encoder *encoder, size_t more) {
    const size_t least = encoder->length + more, space = 2 * encoder->space > least ? 2 * encoder->space : least;
    const int is_first = encoder->bytes == encoder->first_bytes;
    uint8_t *bytes = PyMem_Realloc(is_first ? NULL : encoder->bytes, space);
    if (!bytes) return PyErr_NoMemory(), -1;
    if (is_first) memcpy(bytes, encoder->first_bytes, encoder->length);
    encoder->bytes = bytes, encoder->space = space;
    return 0;
}

int put_head(struct encoder *encoder, uint32_t kind, uint64_t number) {
    size_t size;
    if (encoder->space - encoder->length < LONGEST_HEAD && make_room(encoder, LONGEST_HEAD)) return -1;
    if (naltvigo_put_head_raw(kind, number, encoder->bytes + encoder->length, LONGEST_HEAD, &size) != NALTVIGO_OK) {
        PyErr_Format(PyExc_ValueError, "there is no simple value %llu", (unsigned long long)number);
        return -1;
    }
    encoder->length += size;
    return 0;
}

/* Past the byte limit one byte is written and no more: the library refuses it. */
static int put_raw(struct encoder *encoder, const char *bytes, Py_ssize_t count) {
    const uint64_t limit = encoder->options->bytes;
    size_t fits = (size_t)count;
    if (encoder->length > limit) return 0;
    if (fits > limit - encoder->length) fits = (size_t)(limit - encoder->length) + 1;
    if (encoder->space - encoder->length < fits && make_room(encoder, fits)) return -1;
    memcpy(encoder->bytes + encoder->length, bytes, fits);
    encoder->length += fits;
    return 0;
}

int put_string(struct encoder *encoder, uint32_t kind, const char *bytes, Py_ssize_t count) {
    return !bytes || put_head(encoder, kind, (uint64_t)count) ? -1 : put_raw(encoder, bytes, count);
}

int put_text(struct encoder *encoder, PyObject *text) {
    Py_ssize_t count = 0;
    const char *bytes = PyUnicode_AsUTF8AndSize(text, &count); /* a lone surrogate is a UnicodeEncodeError */
    return put_string(encoder, TEXT, bytes, count);
}

/* One that is not within 64 bits and a sign of its own. */
static int put_wide(struct encoder *encoder, PyObject *number, int is_negative) {
    PyObject *argument = is_negative ? PyObject_CallMethod((PyObject *)&PyLong_Type, "__invert__", "O", number)
                                     : Py_NewRef(number);
    if (!argument) return -1;
    const unsigned long long n = PyLong_AsUnsignedLongLong(argument);
    Py_DECREF(argument);
    if (n != (unsigned long long)-1 || !PyErr_Occurred())
        return put_head(encoder, is_negative ? NEGATIVE : UNSIGNED, n);
    if (!PyErr_ExceptionMatches(PyExc_OverflowError)) return -1;
    PyErr_Clear();
    PyErr_SetString(PyExc_OverflowError,
                    "an integer is -2**64 to 2**64 - 1; write a greater one n as Tag(2, bytes of n), a "
                    "lesser one as Tag(3, bytes of -1 - n)");
    return -1;
}

int put_integer(struct encoder *encoder, PyObject *number) {
    int overflow;
    const long long n = PyLong_AsLongLongAndOverflow(number, &overflow);
    if (overflow) return put_wide(encoder, number, overflow < 0);
    if (n == -1 && PyErr_Occurred()) return -1;
    return n < 0 ? put_head(encoder, NEGATIVE, ~(uint64_t)n) : put_head(encoder, UNSIGNED, (uint64_t)n);
}

/* It is checked alone, since several items, or none, would shift what follows them. */
int put_encoded(struct encoder *encoder, PyObject *bytes) {
    const struct options *with = encoder->options;
    struct naltvigo_refusal refusal;
    const char *at = PyBytes_AsString(bytes);
    const struct refused of = {.bytes = (const uint8_t *)at, .length = (size_t)PyBytes_Size(bytes), .options = with};
    const uint32_t status = naltvigo_check_valid_raw(of.bytes, of.length, with->keys, with->depth, with->bytes, &refusal);
    if (status == NALTVIGO_OK) return put_raw(encoder, at, PyBytes_Size(bytes));
    raise_status(encoder->state, status, &refusal, &of);
    return -1;
}
