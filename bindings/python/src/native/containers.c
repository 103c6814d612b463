/* The open containers of an encoder. */
#include "encoder.h"

#include <string.h>

static int more_frames(struct encoder *encoder) {
    const int is_first = encoder->frames == encoder->first_frames;
    const uint32_t space = 4 * encoder->frame_room;
    struct frame *frames = PyMem_Realloc(is_first ? NULL : encoder->frames, space * sizeof *frames);
    if (!frames) return PyErr_NoMemory(), -1;
    if (is_first) memcpy(frames, encoder->first_frames, sizeof encoder->first_frames);
    encoder->frames = frames, encoder->frame_room = space;
    return 0;
}

int open_frame(struct encoder *encoder, PyObject *of, enum container kind, uint32_t major, uint64_t number) {
    const Py_ssize_t count = kind == CONTENT ? 1 : (Py_ssize_t)number;
    int status = put_head(encoder, major, number);
    if (status == 0 && encoder->open == encoder->options->depth) {
        encoder->is_stopped = 1; /* the library refuses it: TooDeep */
        Py_DECREF(of);
        return 0;
    }
    if (status == 0 && encoder->open == encoder->frame_room) status = more_frames(encoder);
    if (status == 0)
        encoder->frames[encoder->open++] = (struct frame){.of = of, .kind = kind, .count = count};
    else
        Py_DECREF(of);
    return status;
}

void close_frame(struct encoder *encoder) {
    const struct frame frame = encoder->frames[--encoder->open];
    Py_XDECREF(frame.key);
    Py_XDECREF(frame.value);
    Py_DECREF(frame.of);
}

static int has_changed(void) {
    PyErr_SetString(PyExc_RuntimeError, "a container changed its size while it was written");
    return -1;
}

static int next_in_dict(struct frame *frame, PyObject **member) {
    PyObject *key, *value;
    const int is_there = PyDict_Next(frame->of, &frame->position, &key, &value);
    if (is_there == (frame->at == frame->count)) return has_changed();
    if (!is_there) return 0;
    frame->at++;
    frame->key = Py_NewRef(key), frame->value = Py_NewRef(value);
    frame->is_value_due = 1;
    *member = frame->key;
    return 1;
}

static int next_in_array(struct frame *frame, PyObject **member) {
    if (frame->kind == A_LIST && PyList_Size(frame->of) != frame->count) return has_changed();
    if (frame->at == frame->count) return 0;
    PyObject *next = frame->kind == A_LIST ? PyList_GetItem(frame->of, frame->at)
                                           : PyTuple_GetItem(frame->of, frame->at);
    if (!next) return -1;
    frame->at++;
    *member = frame->value = Py_NewRef(next);
    return 1;
}

int next_member(struct frame *frame, PyObject **member) {
    if (frame->is_value_due) {
        frame->is_value_due = 0;
        *member = frame->value;
        return 1;
    }
    Py_CLEAR(frame->key);
    Py_CLEAR(frame->value);
    switch (frame->kind) {
    case A_DICT: return next_in_dict(frame, member);
    case CONTENT:
        if (frame->at++) return 0;
        *member = frame->value = Py_XNewRef(((struct tag *)frame->of)->content);
        return *member ? 1 : 0;
    default: return next_in_array(frame, member);
    }
}
