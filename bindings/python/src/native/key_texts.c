/* The texts of keys: one that was made before is used again. */
#include "decoder.h"

#include <string.h>

#define LONGEST_KEPT 32

PyObject *key_text(struct key_text *texts, const uint8_t *bytes, size_t length) {
    struct key_text *kept = NULL;
    if (texts && length && length <= LONGEST_KEPT) {
        kept = &texts[(length * 7 + bytes[0] * 3u + bytes[length / 2] * 5u + bytes[length - 1]) % KEY_TEXTS];
        if (kept->length == length && memcmp(kept->bytes, bytes, length) == 0) return Py_NewRef(kept->text);
    }
    PyObject *text = PyUnicode_DecodeUTF8((const char *)bytes, (Py_ssize_t)length, NULL);
    if (kept && text) {
        Py_XDECREF(kept->text);
        *kept = (struct key_text){bytes, length, Py_NewRef(text)};
    }
    return text;
}

void free_key_texts(struct key_text *texts) {
    for (int i = 0; texts && i < KEY_TEXTS; i++) Py_XDECREF(texts[i].text);
}
