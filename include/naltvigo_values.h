/*
 * naltvigo_values.h: CBOR items from values of C, and values of C from CBOR items.
 *
 * A writer appends items to a buffer, and naltvigo_finish makes their canonical bytes. A cursor points at an item in
 * canonical bytes and reads it.
 *
 *     uint8_t items[64], bytes[64];
 *     size_t length;
 *     struct naltvigo_writer writer = naltvigo_writer_to(items, sizeof items);
 *     naltvigo_put_map(&writer);                              // the keys in any order, no count
 *     naltvigo_put_text(&writer, "Fun"); naltvigo_put_bool(&writer, 1);
 *     naltvigo_put_int(&writer, 4); naltvigo_put_int(&writer, -2);
 *     naltvigo_put_end(&writer);
 *     uint32_t status = naltvigo_finish(&writer, NULL, bytes, sizeof bytes, &length, NULL);
 *     if (status != NALTVIGO_OK) return status;               // checked once, for all put calls
 *
 *     struct naltvigo_cursor root = naltvigo_open(bytes, length, NULL, NULL);
 *     int is_fun = naltvigo_get_bool(naltvigo_at_text(root, "Fun"), &status);
 *     int64_t four = naltvigo_get_int(naltvigo_at_int(root, 4), &status);
 *     if (status != NALTVIGO_OK) return status;               // checked once, for all getters
 *
 * What is left out
 *  - Floating-point numbers: the library refuses them. Use an integer in a unit that both sides know, or a text. Dates, big
 *    numbers and other meanings of tags are left to the caller.
 *
 * What is proved
 *  - The exports are proved: naltvigo_writer_*_raw put the parts of items, naltvigo_item_at_raw and naltvigo_find_raw find the
 *    items, naltvigo_get_*_raw read their values, naltvigo_canonicalise_raw and naltvigo_check_canonical_raw decide what is
 *    accepted. The functions here are inline C around them, and they are tested.
 *
 * Memory and threads
 *  - Only naltvigo_finish allocates, as naltvigo_canonicalise does. Writers and cursors hold only pointers to the caller's
 *    bytes. There is nothing to free, and both may be copied.
 *
 * What the caller must ensure
 *  - As in naltvigo.h. The input of a cursor must stay in place and unchanged. If it changes, no call reads outside it, and
 *    every call returns, but the results mean nothing.
 */
#ifndef NALTVIGO_VALUES_H
#define NALTVIGO_VALUES_H

#include "naltvigo_cursor.h"
#include "naltvigo_writer.h"

#endif
