/*
 * naltvigo_checker.h: the strict check of an item that arrives in parts (RFC 8949, section 4.2), for C99 and C++.
 *
 * After each part a checker returns what naltvigo_next_canonical returns for all bytes so far, except that it returns MORE where
 * that call reports TRUNCATED. It does not matter where the item is cut into parts. So a receiver can hash or store an item as it
 * arrives, and refuses it at the first wrong byte.
 *
 * The memory of a checker is 10.3 KiB at any depth, 24 bytes for each open map, the last key of each open map, and all bytes of a
 * key that is not complete. It is allocated for 16, 32, 64, .. open maps, so that 1,024 levels of maps need 24 KiB. The space for
 * keys is doubled when it is full.
 *
 *     struct naltvigo_checker checker;
 *     struct naltvigo_refusal why;
 *     size_t used;
 *     uint32_t status = naltvigo_checker_new(NULL, &checker);
 *     while (status == NALTVIGO_OK || status == NALTVIGO_MORE) {
 *         size_t n = receive(part, sizeof part);
 *         if (n == 0) { status = naltvigo_checker_end(&checker, &why); break; }
 *         status = naltvigo_checker_feed(&checker, part, n, &used, &why);
 *         if (status == NALTVIGO_OK) break;   // the item ends in this part, after `used` bytes
 *     }
 *     naltvigo_checker_free(&checker);
 *
 * The exports that these inline functions call are proved. The inline functions are C: they are tested, not proved.
 */
#ifndef NALTVIGO_CHECKER_H
#define NALTVIGO_CHECKER_H

#include "naltvigo.h"

#include <string.h>

#ifdef __cplusplus
extern "C" {
#endif

/*
 * naltvigo_checker_new: sets `*checker` to a checker before the first byte of an item. Free it with naltvigo_checker_free.
 *
 * If the status is not OK, every call with `*checker` returns BAD_MACHINE, and `*checker` need not be freed.
 *
 * Returns OK, NO_MEMORY, BAD_ORDER, BAD_LIMITS.
 */
static inline uint32_t naltvigo_checker_new(const struct naltvigo_options *options,
                                            struct naltvigo_checker *checker) {
    const struct naltvigo_options with = options ? *options : naltvigo_defaults();
    memset(checker, 0, sizeof *checker);
    return naltvigo_checker_new_raw(with.order, with.keys, with.depth, with.bytes, checker);
}

/*
 * naltvigo_checker_restart: begins another item, with this order and the same limits. The item before it may be complete, refused
 * or not complete.
 *
 * Returns OK, BAD_ORDER, BAD_MACHINE.
 */
static inline uint32_t naltvigo_checker_restart(uint32_t order, struct naltvigo_checker *checker) {
    if (!checker->memory) return NALTVIGO_BAD_MACHINE;
    return naltvigo_checker_restart_raw(order, checker);
}

/*
 * naltvigo_checker_feed: checks the next part of the item. `*used` becomes the number of its bytes that belong to the item.
 *
 * OK: the item is complete and canonical, and ends after `*used` bytes. MORE: all bytes were used, and nothing is wrong so far.
 * REFUSED: `*refusal` is what naltvigo_next_canonical reports for all bytes so far. Offsets count from the item's first byte.
 * NO_MEMORY: there was no memory for a key. Both `offset` and `consumed` are the number of bytes consumed so far.
 * After OK, REFUSED or NO_MEMORY, further calls consume nothing and return the same, until naltvigo_checker_restart. A part of no
 * bytes is allowed. It does not mean that the item ends.
 *
 * Returns OK, MORE, REFUSED (reasons 2 to 10, 14 to 16, 20), NO_MEMORY, BAD_MACHINE.
 */
static inline uint32_t naltvigo_checker_feed(struct naltvigo_checker *checker, const uint8_t *in,
                                             size_t in_length, size_t *used,
                                             struct naltvigo_refusal *refusal) {
    struct naltvigo_refusal ignored;
    const uint8_t none = 0;
    *used = 0;
    if (!checker->memory) return NALTVIGO_BAD_MACHINE;
    return naltvigo_checker_feed_raw(checker, in_length ? in : &none, in_length, used,
                                     refusal ? refusal : &ignored);
}

/*
 * naltvigo_checker_end: call it if no more bytes follow. If the item is not complete, it is REFUSED with TRUNCATED. The offset is
 * then the number of bytes consumed. After TRUNCATED, more bytes may follow: naltvigo_checker_feed continues with them. Any other
 * refusal stays until naltvigo_checker_restart.
 *
 * Returns OK, REFUSED (reasons 1 to 10, 14 to 16, 20), NO_MEMORY, BAD_MACHINE.
 */
static inline uint32_t naltvigo_checker_end(struct naltvigo_checker *checker, struct naltvigo_refusal *refusal) {
    struct naltvigo_refusal ignored;
    if (!checker->memory) return NALTVIGO_BAD_MACHINE;
    return naltvigo_checker_end_raw(checker, refusal ? refusal : &ignored);
}

/* naltvigo_checker_free: frees the memory of a checker. If the checker has no memory, it does nothing. */
static inline void naltvigo_checker_free(struct naltvigo_checker *checker) {
    if (checker->memory) naltvigo_checker_free_raw(checker);
}

#ifdef __cplusplus
}
#endif

#endif
