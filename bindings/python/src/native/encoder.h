/* A value on its way to bytes.
 *
 * The encoder appends shortest heads, which the library makes (naltvigo_put_head_raw, proved), and payloads. Open
 * containers are in an array and not on the stack. The encoder checks no limit: it only stops if the library is
 * sure to refuse the value, and leaves the refusal to naltvigo_canonicalise.
 */
#ifndef NATIVE_ENCODER_H
#define NATIVE_ENCODER_H

#include "native.h"

enum container { A_LIST, A_TUPLE, A_DICT, CONTENT };

/* An open container. It holds a reference to its current member, since a callback may change the container. */
struct frame {
    PyObject *of, *key, *value; /* a key only of dicts */
    Py_ssize_t at, count;       /* how many members or pairs were begun, and how many the head says */
    Py_ssize_t position;        /* of PyDict_Next */
    enum container kind;
    int is_value_due; /* the current key is written, and its value is not */
};

struct encoder {
    const struct state *state;
    const struct options *options;
    uint8_t *bytes;
    size_t length, space;
    struct frame *frames;
    uint32_t open, frame_room;
    int is_stopped, is_in_default;
    uint8_t first_bytes[1024];
    struct frame first_frames[12];
};

/* The functions below return 0, or -1 with an exception. */

/* ---- output.c ---- */

int put_head(struct encoder *encoder, uint32_t kind, uint64_t number);
int put_integer(struct encoder *encoder, PyObject *number);
int put_text(struct encoder *encoder, PyObject *text);
int put_string(struct encoder *encoder, uint32_t kind, const char *bytes, Py_ssize_t count);
int put_encoded(struct encoder *encoder, PyObject *bytes); /* an item; it is checked */

/* ---- containers.c ---- */

/* Writes the head of a container and opens it. It steals the reference. */
int open_frame(struct encoder *encoder, PyObject *of, enum container kind, uint32_t major, uint64_t number);

/* The next member, key or value of the innermost container, borrowed from its frame: 1, 0 at its end, or -1. */
int next_member(struct frame *frame, PyObject **member);
void close_frame(struct encoder *encoder);

/* ---- encode.c ---- */

void start_encoder(struct encoder *encoder, const struct state *state, const struct options *options);
int encode_value(struct encoder *encoder, PyObject *value);
void end_encoder(struct encoder *encoder);

#endif
