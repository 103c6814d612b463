/*
 * naltvigo.h: deterministic CBOR (RFC 8949, without floating point) for C99 and C++.
 *
 * This header declares the calls that make canonical bytes, check, compare and print CBOR items, and that find the
 * items in canonical bytes. naltvigo_values.h adds inline functions that make items from values of C and read values
 * from them.
 *
 * Each exported function is proved: for every input it is safe, it returns, and its result is what its contract says
 * (crates/naltvigo/src). This file says the same in words. The gate compares the numbers and signatures with that crate. The
 * sections on memory, the stack and threads are tested, not proved. So are the inline functions, which are C. Nothing checks
 * that the caller does what "What the caller must ensure" says.
 *
 *     uint8_t out[512];
 *     size_t needed;
 *     struct naltvigo_refusal why;
 *     switch (naltvigo_canonicalise(in, n, NULL, out, sizeof out, &needed, &why)) {
 *     case NALTVIGO_OK:        // the canonical bytes are out[0 .. needed)
 *     case NALTVIGO_TOO_SMALL: // call again with space for `needed` bytes
 *     case NALTVIGO_REFUSED:   // why.reason, at the offset why.offset
 *     default:                 // out of memory, or options out of range: no verdict on the input
 *     }
 *
 * Changed since 1.0 (which was never released)
 *  - The order and the limits are one `const struct naltvigo_options *`. Null means the defaults. Each call of 1.0 is
 *    still exported under its name with the suffix `_raw`. A caller of 1.0 compiles after this rename if it passes the
 *    number for `keys` before `depth`. A `_raw` function accepts no null pointer, and writes diagnostic text as uint8_t.
 *  - New: `keys`, the kinds of keys that maps may have, and the reason NALTVIGO_KEY_KIND.
 *  - NALTVIGO_DEPTH_MAX is 1024.
 *  - naltvigo_reason_name writes a zero byte after the name, and NALTVIGO_NAME_MAX counts it.
 *  - New: naltvigo_next_valid, naltvigo_next_canonical, naltvigo_machine_feed (many events in a call),
 *    naltvigo_status_name, naltvigo_version.
 *  - New: naltvigo_index, naltvigo_item_at, naltvigo_find and naltvigo_put_head, which read and write the items of
 *    canonical bytes, with the statuses 10 to 13.
 *  - New: naltvigo_writer_*_raw, which put the parts of items, and naltvigo_get_*_raw, which read the values of items.
 *  - New: naltvigo_explain, the sentences and the path of a refusal as text.
 *  - New: naltvigo_checker_*_raw, the strict check of an item that arrives in parts.
 *  - `refusal` may be null in the inline functions, except in naltvigo_explain.
 *  - The fields of a refusal, an event and an item are named `offset`, `consumed` and `entries`.
 *
 * What the caller must ensure
 *  - `in` has `in_length` readable bytes, and `out` has `out_length` writable bytes. Each length is at most PTRDIFF_MAX.
 *  - Every other pointer is valid and not null. In the inline functions below, `refusal` may be null (except in
 *    naltvigo_explain), and an input or a buffer may be null if its length is 0. In the exported functions, whose names end
 *    in `_raw`, no pointer may be null.
 *  - `out`, `*needed`, `*side`, `*refusal` and the other outputs overlap neither an input nor each other. During the call
 *    nobody else reads or writes them, and nobody writes an input. Outputs need not be initialised.
 *  - No call is made from a signal handler, or in the child of a fork of a process with threads, because malloc may not be
 *    called there. (The calls that allocate no memory may be made there. They are listed below.)
 *
 * Ownership
 *  - The library keeps no pointer of the caller's after a call. A checker (naltvigo_checker.h) has memory of the library. Free
 *    it with naltvigo_checker_free. Nothing else has to be freed.
 *
 * Memory
 *  - Memory comes from the program's malloc, realloc and free. A call frees all of it before it returns, except for what a
 *    checker keeps. It allocates at most an amount in proportion to the bytes of its input: a length in a head allocates
 *    nothing. docs/PERFORMANCE.md has figures.
 *  - naltvigo_check_canonical, naltvigo_next_canonical, naltvigo_index, naltvigo_item_at, naltvigo_find,
 *    naltvigo_put_head, naltvigo_reason_name, naltvigo_writer_*_raw, naltvigo_get_*_raw and the calls of a machine allocate
 *    no memory. Their signatures in Rattle show this: no parameter is an allocator.
 *  - If malloc returns NULL, the call returns NALTVIGO_NO_MEMORY and leaves `out` unchanged. It may be tried again. malloc
 *    and realloc must align to 16 bytes, as C libraries for 64 bits do.
 *
 * Stack
 *  - A call needs at most NALTVIGO_STACK bytes (64 KiB), at any depth, whether the input is accepted or refused. This is
 *    measured in the gate (c/stack.c), not proved.
 *
 * Threads
 *  - The library has no state. (The assembly of portable/ for x86-64 has one atomic byte: what the processor can run.)
 *    Any number of threads may call it at the same time, each with its own outputs. Inputs may be shared.
 *
 * Options
 *  - Null, or a struct that begins as naltvigo_defaults(). It has the order of keys, and three limits: `depth`, how deep
 *    arrays, maps and tags may nest, 0 to NALTVIGO_DEPTH_MAX; `bytes`, how many bytes an item may have, 0 to
 *    NALTVIGO_BYTES_MAX; and `keys`, the kinds of keys that its maps may have. A call ignores options that it does not need
 *    (for example, a machine ignores the order and the kinds of keys).
 *
 * Differences that canonical bytes do not remove
 *  - Values are compared as CBOR items. A bignum (tag 2 or 3 with a byte string) equals no integer, and c24101 and c2420001
 *    differ. The content of a tag has no meaning here, and the item inside tag 24 is a byte string. Texts are not
 *    normalised (Unicode). Floats are refused. Sign or hash `out` only if the status is NALTVIGO_OK. docs/SIGNING.md has
 *    examples.
 *
 * All sizes and offsets are in bytes.
 */
#ifndef NALTVIGO_H
#define NALTVIGO_H

#include <stddef.h>
#include <stdint.h>

/* A conversion that C++ compilers accept without -Wold-style-cast. */
#ifdef __cplusplus
#define NALTVIGO_CAST(type, value) static_cast<type>(value)
#else
#define NALTVIGO_CAST(type, value) ((type)(value))
#endif

#ifdef __cplusplus
extern "C" {
#endif

/* The version of this header. The shared object's name changes with the first number. */
#define NALTVIGO_VERSION_MAJOR 2
#define NALTVIGO_VERSION_MINOR 0
#define NALTVIGO_VERSION_PATCH 0
#define NALTVIGO_VERSION "2.0.0"

/* The same as one number, one byte for each of the three. A newer version has a greater number. */
#define NALTVIGO_VERSION_NUMBER \
    (UINT32_C(65536) * NALTVIGO_VERSION_MAJOR + UINT32_C(256) * NALTVIGO_VERSION_MINOR + NALTVIGO_VERSION_PATCH)

/* What a call returns. Later versions may add numbers: treat any other number as a failure. */
enum {
    NALTVIGO_OK = 0,         /* the result is in `out`; the input is accepted; the two inputs have the same value */
    NALTVIGO_REFUSED = 1,    /* an input is refused; `*refusal` says why and where */
    NALTVIGO_TOO_SMALL = 2,  /* `out` is too small: the result has `*needed` bytes; `out` is unchanged */
    NALTVIGO_NO_MEMORY = 3,  /* out of memory; the offset in `*refusal` is 0 (but see naltvigo_diagnostic and
                              * naltvigo_checker_feed) */
    NALTVIGO_BAD_ORDER = 4,  /* `order` is neither of the two orders */
    NALTVIGO_BAD_LIMITS = 5, /* `depth` or `bytes` is out of range, or `keys` is neither of the two kinds */
    NALTVIGO_DIFFERENT = 6,  /* the two inputs have different values */
    NALTVIGO_EVENT = 7,      /* `events` is full; naltvigo_machine_step: `*event` is the next event */
    NALTVIGO_MORE = 8,       /* the whole input was used, and the item is not complete */
    NALTVIGO_BAD_MACHINE = 9, /* `*machine` is not a machine */
    NALTVIGO_NOT_FOUND = 10,  /* there is no such item, member or key */
    NALTVIGO_WRONG_KIND = 11, /* the item is of another kind */
    NALTVIGO_BAD_HEAD = 12,   /* no head has this kind with this number */
    NALTVIGO_OUT_OF_RANGE = 13 /* the number does not fit the type (naltvigo_values.h) */
};

/* The order of the keys of a map, by their canonical bytes. */
enum {
    NALTVIGO_BYTEWISE = 0,    /* lexicographic (RFC 8949, section 4.2.1) */
    NALTVIGO_LENGTH_FIRST = 1 /* the shorter key first, then lexicographic (section 4.2.3) */
};

/* The kinds of keys that maps may have, at every depth. A key of another kind is refused at its first byte. */
enum {
    NALTVIGO_ANY_KEYS = 0,          /* any item (RFC 8949, section 3.1) */
    NALTVIGO_INTEGERS_AND_TEXTS = 1 /* integers and text strings, of definite or indefinite length */
};

/* The largest limits. */
#define NALTVIGO_DEPTH_MAX UINT32_C(1024)
#define NALTVIGO_BYTES_MAX (UINT64_C(1) << 62)

/* The order of keys, and the limits on an item. */
struct naltvigo_options {
    uint64_t bytes; /* how many bytes the item, and its canonical bytes, may have; default 2^20 */
    uint32_t depth; /* how deep its arrays, maps and tags may nest; default 64 */
    uint32_t order; /* default NALTVIGO_BYTEWISE */
    uint32_t keys;  /* default NALTVIGO_ANY_KEYS */
};

/* The default options, which a null pointer means. Change a copy of them: later versions may add members. */
static inline struct naltvigo_options naltvigo_defaults(void) {
    struct naltvigo_options options = {UINT64_C(1) << 20, 64, NALTVIGO_BYTEWISE, NALTVIGO_ANY_KEYS};
    return options;
}

/* Which of two inputs `*refusal` is about. */
enum { NALTVIGO_LEFT = 0, NALTVIGO_RIGHT = 1 };

/* Why an input is refused: the numbers of `reason`. */
enum {
    NALTVIGO_TRUNCATED = 1,           /* the input ends within the item */
    NALTVIGO_TOO_LONG = 2,            /* the byte limit is reached within the item */
    NALTVIGO_RESERVED = 3,            /* additional information 28 to 30 where an item may begin */
    NALTVIGO_NO_INDEFINITE = 4,       /* additional information 31 with an integer or a tag */
    NALTVIGO_FLOAT = 5,               /* a floating-point number */
    NALTVIGO_BAD_SIMPLE = 6,          /* a simple value below 32 in two bytes */
    NALTVIGO_STRAY_BREAK = 7,         /* a break where an item must begin */
    NALTVIGO_BAD_CHUNK = 8,           /* neither a chunk of the string nor a break */
    NALTVIGO_TOO_DEEP = 9,            /* an array, map or tag nested deeper than the depth limit */
    NALTVIGO_INVALID_TEXT = 10,       /* a text string, or a chunk of one, that is not UTF-8 */
    NALTVIGO_REPEATED_KEY = 11,       /* a key that equals an earlier key of its map */
    NALTVIGO_TRAILING = 12,           /* a byte follows the item */
    NALTVIGO_CANONICAL_TOO_LONG = 13, /* there are more canonical bytes than the byte limit */
    NALTVIGO_NOT_SHORTEST = 14,       /* a head longer than necessary (check_canonical) */
    NALTVIGO_INDEFINITE = 15,         /* an item of indefinite length (check_canonical) */
    NALTVIGO_KEY_ORDER = 16,          /* a key that does not sort after the previous key (check_canonical) */
    NALTVIGO_READ = 17,               /* never returned by this library */
    NALTVIGO_WRITE = 18,              /* never returned by this library */
    NALTVIGO_MEMORY = 19,             /* out of memory; the status is NALTVIGO_NO_MEMORY */
    NALTVIGO_KEY_KIND = 20            /* a key of a kind that the limits do not allow */
};

/* A refusal. A call writes it if the status is REFUSED or NO_MEMORY, and otherwise leaves it unchanged. */
struct naltvigo_refusal {
    uint32_t reason;   /* one of the numbers above */
    uint64_t offset;   /* of the byte at which the item is wrong; at most `consumed` */
    uint64_t consumed; /* the number of bytes read; at most the length of the input and the byte limit */
};

/* A machine: it reads one item that arrives in parts of any length, and reports its events. The caller owns its 9.1 KiB.
 * It contains no pointer, so it may be copied, moved and stored. A caller may read the fields, but only the calls of a machine
 * may write them. If the caller writes other numbers, naltvigo_machine_feed is still safe and stays within the limits, but it
 * returns NALTVIGO_BAD_MACHINE, or events that describe no item. */
struct naltvigo_machine {
    uint64_t bytes;    /* the byte limit */
    uint64_t consumed; /* the number of bytes consumed */
    uint64_t reported; /* how many of these bytes belong to events that were reported */
    uint64_t number;   /* within a head: its argument so far; within a payload: how many bytes follow the next byte */
    uint64_t offset;   /* the offset of what was refused */
    uint16_t depth;    /* the depth limit */
    uint16_t open;     /* the number of open arrays, maps and tags */
    uint8_t position;  /* 0: before an item; 1: within a head; 2: before the number of a simple value; 3: within a
                        * payload; 4: before a chunk; 5: after the item */
    uint8_t kind;      /* the major type of the head, payload or string */
    uint8_t width;     /* within a head: 1, 2, 3, 4 for an argument of 1, 2, 4, 8 bytes */
    uint8_t left;      /* how many bytes of the argument follow the next one */
    uint8_t chunk;     /* 1 if the head or payload belongs to a chunk, else 0 */
    uint8_t reason;    /* the reason why the item was refused, or 0 */
    /* An element for each open array, map or tag, the outermost first. `remaining`: how many members or pairs follow the one
     * that is expected now. `kinds`: 0 an array, 1 an array of indefinite length, 2 a map before a key, 3 a map before a value,
     * 4 and 5 the same for a map of indefinite length, 6 a tag. The rest of both arrays is unused. */
    uint64_t remaining[NALTVIGO_DEPTH_MAX];
    uint8_t kinds[NALTVIGO_DEPTH_MAX];
};

/* The kinds of an event: the major type, 0 to 7, and these. */
enum {
    NALTVIGO_CHUNK = 8, /* the head of a chunk of a string of indefinite length */
    NALTVIGO_PIECE = 9, /* some bytes of a payload, which begin at the offset of the event */
    NALTVIGO_BREAK = 10 /* the break, which ends an item of indefinite length */
};

/* The width of an event without an argument: an indefinite length, or a break. */
enum { NALTVIGO_NO_ARGUMENT = 255 };

/* An event. Elements of the array to which a call writes no event are unchanged. */
struct naltvigo_event {
    uint64_t offset; /* the offset of its first byte, from the item's first byte */
    uint64_t number; /* the argument (for kind 1 the integer is -1 - number; for a map it is the number of pairs); for a
                      * piece the number of its bytes; 0 if there is no argument */
    uint32_t kind;   /* the major type, or one of the numbers above */
    uint32_t width;  /* the number of bytes of the argument: 0, 1, 2, 4, 8, or NALTVIGO_NO_ARGUMENT */
};

/* An item of canonical bytes. Offsets count from the input's first byte. */
struct naltvigo_item {
    uint64_t number;  /* the argument of its head: of an integer (for kind 1 the integer is -1 - number), a tag or a simple
                       * value; or the number of bytes, members or pairs of the item */
    uint64_t offset;  /* the offset of its first byte */
    uint64_t content; /* the offset after its head: of the bytes of a string, the first member, the first key, the content
                       * of a tag */
    uint64_t end;     /* the offset after the item */
    uint32_t kind;    /* the major type, 0 to 7 */
    uint32_t entries; /* in a table of naltvigo_index: the number of entries for this item and all items in it; else 0 */
};

/* The checker of an item that arrives in parts: a handle of the library's memory. naltvigo_checker_new_raw sets it, and it is
 * valid until naltvigo_checker_free_raw. Only the calls of a checker may read or write it. Do not pass a copy of it to them. */
struct naltvigo_checker {
    void *memory;
};

/* The bytes of stack that a call needs at most. */
#define NALTVIGO_STACK 65536

/* The exports. No pointer may be null, even if its length is 0. */
uint32_t naltvigo_canonicalise_raw(const uint8_t *in, size_t in_length, uint32_t order, uint32_t keys,
                                   uint32_t depth, uint64_t bytes, uint8_t *out, size_t out_length,
                                   size_t *needed, struct naltvigo_refusal *refusal);
uint32_t naltvigo_check_canonical_raw(const uint8_t *in, size_t in_length, uint32_t order, uint32_t keys,
                                      uint32_t depth, uint64_t bytes, struct naltvigo_refusal *refusal);
uint32_t naltvigo_check_valid_raw(const uint8_t *in, size_t in_length, uint32_t keys, uint32_t depth,
                                  uint64_t bytes, struct naltvigo_refusal *refusal);
uint32_t naltvigo_compare_raw(const uint8_t *left, size_t left_length, const uint8_t *right,
                              size_t right_length, uint32_t keys, uint32_t depth, uint64_t bytes,
                              uint32_t *side, struct naltvigo_refusal *refusal);
uint32_t naltvigo_diagnostic_raw(const uint8_t *in, size_t in_length, uint32_t keys, uint32_t depth,
                                 uint64_t bytes, uint8_t *out, size_t out_length, size_t *needed,
                                 struct naltvigo_refusal *refusal);
uint32_t naltvigo_explain_raw(const uint8_t *in, size_t in_length, uint32_t depth, uint64_t bytes,
                              uint32_t reason, uint64_t offset, uint8_t *out, size_t out_length,
                              size_t *needed);
uint32_t naltvigo_next_valid_raw(const uint8_t *in, size_t in_length, uint32_t keys, uint32_t depth,
                                 uint64_t bytes, uint64_t *length, struct naltvigo_refusal *refusal);
uint32_t naltvigo_next_canonical_raw(const uint8_t *in, size_t in_length, uint32_t order, uint32_t keys,
                                     uint32_t depth, uint64_t bytes, uint64_t *length,
                                     struct naltvigo_refusal *refusal);
uint32_t naltvigo_version_raw(void);
size_t naltvigo_reason_name_raw(uint32_t reason, uint8_t *out, size_t out_length);
uint32_t naltvigo_machine_start_raw(uint32_t depth, uint64_t bytes, struct naltvigo_machine *machine);
uint32_t naltvigo_machine_feed_raw(struct naltvigo_machine *machine, const uint8_t *in, size_t in_length,
                                   size_t *used, struct naltvigo_event *events, size_t events_length,
                                   size_t *reported, struct naltvigo_refusal *refusal);
uint32_t naltvigo_index_raw(const uint8_t *in, size_t in_length, uint32_t order, uint32_t keys,
                            uint32_t depth, uint64_t bytes, struct naltvigo_item *items, size_t items_length,
                            size_t *needed, struct naltvigo_refusal *refusal);
uint32_t naltvigo_item_at_raw(const uint8_t *in, size_t in_length, uint64_t offset,
                              struct naltvigo_item *item);
uint32_t naltvigo_find_raw(const uint8_t *in, size_t in_length, uint64_t map, const uint8_t *key,
                           size_t key_length, struct naltvigo_item *value);
uint32_t naltvigo_put_head_raw(uint32_t kind, uint64_t number, uint8_t *out, size_t out_length,
                               size_t *needed);

/*
 * The exports of the writer and of the getters, for languages other than C: naltvigo_writer.h and naltvigo_cursor.h call them, and
 * say what they do.
 *
 * A writer is two numbers: `*needed`, the number of bytes put so far, and a status. Begin with 0 and NALTVIGO_OK. Each call
 * takes the status, puts a part after the first `*needed` bytes of `out`, adds to `*needed`, and returns the new status. If
 * there is no space for the whole part, nothing is written. Any numbers are safe.
 *
 * A getter reads `*item`. `status` is the status of the getter before it, or NALTVIGO_OK, and `found` is the status of the call
 * that found the item. The getter returns `status` if it is not OK, else `found` if it is not OK, else its own status. If that
 * is not OK, the value is 0.
 */
uint32_t naltvigo_writer_head_raw(uint32_t kind, uint64_t number, uint8_t *out, size_t out_length,
                                  size_t *needed, uint32_t status);
uint32_t naltvigo_writer_int_raw(int64_t number, uint8_t *out, size_t out_length, size_t *needed,
                                 uint32_t status);
uint32_t naltvigo_writer_string_raw(uint32_t kind, const uint8_t *bytes, size_t length, uint8_t *out,
                                    size_t out_length, size_t *needed, uint32_t status);
uint32_t naltvigo_writer_open_raw(uint32_t kind, uint8_t *out, size_t out_length, size_t *needed,
                                  uint32_t status);
uint32_t naltvigo_writer_end_raw(uint8_t *out, size_t out_length, size_t *needed, uint32_t status);
uint32_t naltvigo_writer_encoded_raw(const uint8_t *item, size_t length, uint8_t *out, size_t out_length,
                                     size_t *needed, uint32_t status);
uint32_t naltvigo_get_number_raw(const struct naltvigo_item *item, uint32_t found, uint32_t kind,
                                 uint64_t *number, uint32_t status);
uint32_t naltvigo_get_int_raw(const struct naltvigo_item *item, uint32_t found, int64_t *number,
                              uint32_t status);
uint32_t naltvigo_get_count_raw(const struct naltvigo_item *item, uint32_t found, uint64_t *count,
                                uint32_t status);
uint32_t naltvigo_get_bool_raw(const struct naltvigo_item *item, uint32_t found, uint32_t *is_true,
                               uint32_t status);
uint32_t naltvigo_get_string_raw(const struct naltvigo_item *item, uint32_t found, uint32_t kind,
                                 uint64_t *start, size_t *length, uint32_t status);
uint32_t naltvigo_get_encoded_raw(const struct naltvigo_item *item, uint32_t found, uint64_t *start,
                                  size_t *length, uint32_t status);

/*
 * The exports of the checker of an item that arrives in parts: naltvigo_checker.h calls them, and says what they do.
 *
 * All except the first require a handle that naltvigo_checker_new_raw has set and that was not freed.
 */
uint32_t naltvigo_checker_new_raw(uint32_t order, uint32_t keys, uint32_t depth, uint64_t bytes,
                                  struct naltvigo_checker *checker);
uint32_t naltvigo_checker_restart_raw(uint32_t order, struct naltvigo_checker *checker);
uint32_t naltvigo_checker_feed_raw(struct naltvigo_checker *checker, const uint8_t *in, size_t in_length,
                                   size_t *used, struct naltvigo_refusal *refusal);
uint32_t naltvigo_checker_end_raw(struct naltvigo_checker *checker, struct naltvigo_refusal *refusal);
uint32_t naltvigo_checker_free_raw(struct naltvigo_checker *checker);

/*
 * naltvigo_canonicalise: the canonical bytes of an item (RFC 8949, section 4.2).
 *
 * The whole input must be one well-formed, valid item. Writes its canonical bytes, in the given order of keys, to the start
 * of `out`. `*needed` is their number if the status is OK or TOO_SMALL, else 0. To get only the number, pass `out_length` 0: this
 * takes as long as a whole call. The result is hardly ever longer than the input: only arrays and maps of indefinite length with
 * 256 members or pairs or more grow, each by at most 7 bytes. Bytes of `out` after the result are unchanged. If the status is
 * not OK, all of `out` is unchanged.
 *
 * In one order of keys, two accepted inputs have equal results if and only if their values are the same, whatever the
 * limits. If a result is canonicalised again within the same limits, it does not change. Input that is already canonical is
 * copied to `out`, and the call allocates no memory.
 *
 * Returns OK, TOO_SMALL, REFUSED (reasons 1 to 13, 20), NO_MEMORY, BAD_ORDER, BAD_LIMITS.
 */
static inline uint32_t naltvigo_canonicalise(const uint8_t *in, size_t in_length,
                                             const struct naltvigo_options *options, uint8_t *out,
                                             size_t out_length, size_t *needed,
                                             struct naltvigo_refusal *refusal) {
    struct naltvigo_refusal ignored;
    const struct naltvigo_options with = options ? *options : naltvigo_defaults();
    uint8_t none[2] = {0, 0};
    return naltvigo_canonicalise_raw(in_length ? in : none, in_length, with.order, with.keys, with.depth,
                                     with.bytes, out_length ? out : none + 1, out_length, needed,
                                     refusal ? refusal : &ignored);
}

/*
 * naltvigo_check_canonical: whether the input is canonical.
 *
 * OK if and only if the whole input is one valid item in its canonical bytes, in the given order of keys. Then
 * naltvigo_canonicalise would return the input itself. It allocates no memory.
 *
 * Returns OK, REFUSED (reasons 1 to 10, 12, 14 to 16, 20), BAD_ORDER, BAD_LIMITS.
 */
static inline uint32_t naltvigo_check_canonical(const uint8_t *in, size_t in_length,
                                                const struct naltvigo_options *options,
                                                struct naltvigo_refusal *refusal) {
    struct naltvigo_refusal ignored;
    const struct naltvigo_options with = options ? *options : naltvigo_defaults();
    const uint8_t none = 0;
    return naltvigo_check_canonical_raw(in_length ? in : &none, in_length, with.order, with.keys, with.depth,
                                        with.bytes, refusal ? refusal : &ignored);
}

/*
 * naltvigo_check_valid: whether the whole input is one well-formed, valid item, in any encoding. For input that is canonical
 * in the bytewise order it allocates no memory.
 *
 * Returns OK, REFUSED (reasons 1 to 12, 20), NO_MEMORY, BAD_LIMITS.
 */
static inline uint32_t naltvigo_check_valid(const uint8_t *in, size_t in_length,
                                            const struct naltvigo_options *options,
                                            struct naltvigo_refusal *refusal) {
    struct naltvigo_refusal ignored;
    const struct naltvigo_options with = options ? *options : naltvigo_defaults();
    const uint8_t none = 0;
    return naltvigo_check_valid_raw(in_length ? in : &none, in_length, with.keys, with.depth, with.bytes,
                                    refusal ? refusal : &ignored);
}

/*
 * naltvigo_next_valid: the item at the start of the input, as in a sequence of items (RFC 8742).
 *
 * OK if the input begins with a well-formed, valid item, in any encoding. `*length` is then the number of its bytes, at
 * least 1; the bytes after it are not read. If the status is not OK, `*length` is 0. To read a sequence, call again after
 * each item until no byte is left; pass each item to naltvigo_canonicalise or another call. An empty input is REFUSED,
 * with TRUNCATED at 0. For an item that is canonical in the bytewise order the call allocates no memory.
 *
 * Returns OK, REFUSED (reasons 1 to 11, 20), NO_MEMORY, BAD_LIMITS.
 */
static inline uint32_t naltvigo_next_valid(const uint8_t *in, size_t in_length,
                                           const struct naltvigo_options *options, uint64_t *length,
                                           struct naltvigo_refusal *refusal) {
    struct naltvigo_refusal ignored;
    const struct naltvigo_options with = options ? *options : naltvigo_defaults();
    const uint8_t none = 0;
    return naltvigo_next_valid_raw(in_length ? in : &none, in_length, with.keys, with.depth, with.bytes,
                                   length, refusal ? refusal : &ignored);
}

/*
 * naltvigo_next_canonical: as naltvigo_next_valid, for an item in its canonical bytes, in the given order of keys.
 *
 * It allocates no memory.
 *
 * Returns OK, REFUSED (reasons 1 to 10, 14 to 16, 20), BAD_ORDER, BAD_LIMITS.
 */
static inline uint32_t naltvigo_next_canonical(const uint8_t *in, size_t in_length,
                                               const struct naltvigo_options *options, uint64_t *length,
                                               struct naltvigo_refusal *refusal) {
    struct naltvigo_refusal ignored;
    const struct naltvigo_options with = options ? *options : naltvigo_defaults();
    const uint8_t none = 0;
    return naltvigo_next_canonical_raw(in_length ? in : &none, in_length, with.order, with.keys, with.depth,
                                       with.bytes, length, refusal ? refusal : &ignored);
}

/*
 * naltvigo_compare: whether two inputs have the same value.
 *
 * Each input must be one well-formed, valid item. OK if the two values are the same, DIFFERENT if they are not: kinds,
 * numbers and bytes must be equal, the members of arrays the same in the same order, the pairs of maps the same in any order
 * (RFC 8949, section 5.6.1). So, apart from the byte limit, OK is returned if and only if
 * naltvigo_canonicalise, in either order, returns equal bytes. The limits apply to each input separately.
 *
 * The left input is checked first. `*side` says which input was refused. It is written if the status is REFUSED or NO_MEMORY.
 * For an input that is canonical in the bytewise order the call allocates no memory.
 *
 * Returns OK, DIFFERENT, REFUSED (reasons 1 to 12, 20), NO_MEMORY, BAD_LIMITS.
 */
static inline uint32_t naltvigo_compare(const uint8_t *left, size_t left_length, const uint8_t *right,
                                        size_t right_length, const struct naltvigo_options *options,
                                        uint32_t *side, struct naltvigo_refusal *refusal) {
    struct naltvigo_refusal ignored;
    const struct naltvigo_options with = options ? *options : naltvigo_defaults();
    const uint8_t none = 0;
    return naltvigo_compare_raw(left_length ? left : &none, left_length, right_length ? right : &none,
                                right_length, with.keys, with.depth, with.bytes, side,
                                refusal ? refusal : &ignored);
}

/*
 * naltvigo_diagnostic: an item in diagnostic notation (RFC 8949, section 8).
 *
 * The whole input must be one well-formed, valid item. Writes its text to the start of `out`, on one line, in UTF-8, without
 * a zero byte at its end. The pairs of a map keep their order. `*needed`, `out` and TOO_SMALL are as with
 * naltvigo_canonicalise. For NO_MEMORY the offset is 0, or the end of the input if there was no memory for the text. In
 * the second case the input is valid.
 *
 * Returns OK, TOO_SMALL, REFUSED (reasons 1 to 12, 20), NO_MEMORY, BAD_LIMITS.
 */
static inline uint32_t naltvigo_diagnostic(const uint8_t *in, size_t in_length,
                                           const struct naltvigo_options *options, char *out,
                                           size_t out_length, size_t *needed,
                                           struct naltvigo_refusal *refusal) {
    struct naltvigo_refusal ignored;
    const struct naltvigo_options with = options ? *options : naltvigo_defaults();
    uint8_t none[2] = {0, 0};
    void *const text = out;
    return naltvigo_diagnostic_raw(in_length ? in : none, in_length, with.keys, with.depth, with.bytes,
                                   out_length ? NALTVIGO_CAST(uint8_t *, text) : none + 1, out_length, needed,
                                   refusal ? refusal : &ignored);
}

/*
 * naltvigo_explain: what a refusal means, what to do about it, and the path to its offset.
 *
 * Writes three lines, joined by line feeds, to the start of `out`: a sentence, a piece of advice, and the path. The text is
 * UTF-8 without a zero byte or a line feed at its end. No other line feed is in it, and no line is empty. `*needed`, `out`
 * and TOO_SMALL are as with naltvigo_canonicalise.
 *
 * `in` begins with the item that was refused, and the options are those with which it was refused (only the limits on depth
 * and bytes matter). Of the refusal, `reason` and `offset` are read. The path leads through the bytes before the offset: `$`
 * is the item, `[2]` a member of an array, counted from 0, `."a"` the value of a key, `(24)` the content of a tag, and
 * `, key 2 of the map at 9` a key of the map whose head is at offset 9. A key is written in diagnostic notation. If it has more
 * than 64 bytes, or a character that a terminal does not show, its offset is written instead: `.(the key at 17)`. Without an
 * input (`in_length` 0) the path is `$`. If `reason` is not the number of a reason, the status is OK and `*needed` is 0.
 *
 * It allocates memory in proportion to the depth of the offset, and for the text.
 *
 *     {"a": [0, 0.0]}, refused with the reason 5 at offset 5:
 *         A floating-point number begins here; floats are not accepted.
 *         Encode it as an integer, as a text, or as a tag that contains integers.
 *         $."a"[1]
 *
 * Returns OK, TOO_SMALL, NO_MEMORY, BAD_LIMITS. For the last two `*needed` is 0.
 */
static inline uint32_t naltvigo_explain(const uint8_t *in, size_t in_length,
                                        const struct naltvigo_options *options,
                                        const struct naltvigo_refusal *refusal, char *out, size_t out_length,
                                        size_t *needed) {
    const struct naltvigo_options with = options ? *options : naltvigo_defaults();
    uint8_t none[2] = {0, 0};
    void *const text = out;
    return naltvigo_explain_raw(in_length ? in : none, in_length, with.depth, with.bytes, refusal->reason,
                                refusal->offset, out_length ? NALTVIGO_CAST(uint8_t *, text) : none + 1,
                                out_length, needed);
}

/*
 * naltvigo_machine_start: sets `*machine` to a machine before the first byte of an item, with these limits.
 *
 * Returns OK, BAD_LIMITS. It allocates no memory.
 */
static inline uint32_t naltvigo_machine_start(const struct naltvigo_options *options,
                                              struct naltvigo_machine *machine) {
    const struct naltvigo_options with = options ? *options : naltvigo_defaults();
    return naltvigo_machine_start_raw(with.depth, with.bytes, machine);
}

/*
 * naltvigo_machine_feed: reads the next part of an item and reports its events.
 *
 * EVENT if `events` is full. MORE if the whole part was used and the item is not complete. OK if the item is complete and
 * all its events were reported. REFUSED if the input is not a well-formed item within the limits (reasons 2 to 9; offsets
 * count from the first byte of the item). `*used` is the number of bytes of this part that were consumed: pass the others,
 * and then the next part, to the next call. `*reported` is the number of events written to the start of `events`, for every
 * status. A payload is reported in pieces, as its bytes arrive. After OK or REFUSED a call consumes nothing and returns the same
 * status. With `events_length` 0 it consumes nothing and returns EVENT. If the caller has no more bytes and the status is MORE,
 * the item is truncated.
 *
 * UTF-8, repeated keys and kinds of keys are not checked. A call fills 9 KiB of stack, so it costs less to take many events in
 * one call than one event in each.
 *
 * Returns OK, EVENT, MORE, REFUSED, BAD_MACHINE. It allocates no memory.
 */
static inline uint32_t naltvigo_machine_feed(struct naltvigo_machine *machine, const uint8_t *in,
                                             size_t in_length, size_t *used, struct naltvigo_event *events,
                                             size_t events_length, size_t *reported,
                                             struct naltvigo_refusal *refusal) {
    struct naltvigo_refusal ignored;
    const uint8_t none = 0;
    struct naltvigo_event no_event;
    return naltvigo_machine_feed_raw(machine, in_length ? in : &none, in_length, used,
                                     events_length ? events : &no_event, events_length, reported,
                                     refusal ? refusal : &ignored);
}

/*
 * naltvigo_machine_step: as naltvigo_machine_feed, for at most one event: EVENT if it was written to `*event`.
 */
static inline uint32_t naltvigo_machine_step(struct naltvigo_machine *machine, const uint8_t *in,
                                             size_t in_length, size_t *used, struct naltvigo_event *event,
                                             struct naltvigo_refusal *refusal) {
    size_t reported;
    return naltvigo_machine_feed(machine, in, in_length, used, event, 1, &reported, refusal);
}

/*
 * naltvigo_index: a table of all items in canonical bytes.
 *
 * REFUSED if and only if naltvigo_check_canonical refuses. If the status is OK, items[0 .. *needed) are the whole input as an
 * item, and all items in it, in the order of their first bytes. The first item inside items[i] is items[i + 1]; the next item
 * after items[i] is items[i + items[i].entries]. The items of a map are a key, its value, the next key, and so on. `*needed`
 * is the number of entries if the status is OK or TOO_SMALL, else 0. An input of n bytes has at most n entries. To get only the
 * number, pass `items_length` 0: this takes as long as a whole call.
 *
 * If the status is TOO_SMALL, ignore what was written to `items`. For 2^32 or more entries the status is always TOO_SMALL. It
 * allocates no memory.
 *
 *     [100, {0: true}] is 82 18 64 a1 00 f5, with five entries:
 *         kind 4, number 2,   offset 0, content 1, end 6, entries 5   the array
 *         kind 0, number 100, offset 1, content 3, end 3, entries 1   100
 *         kind 5, number 1,   offset 3, content 4, end 6, entries 3   the map
 *         kind 0, number 0,   offset 4, content 5, end 5, entries 1   the key
 *         kind 7, number 21,  offset 5, content 6, end 6, entries 1   true
 *
 * Returns OK, TOO_SMALL, REFUSED (reasons 1 to 10, 12, 14 to 16, 20), BAD_ORDER, BAD_LIMITS.
 */
static inline uint32_t naltvigo_index(const uint8_t *in, size_t in_length,
                                      const struct naltvigo_options *options, struct naltvigo_item *items,
                                      size_t items_length, size_t *needed, struct naltvigo_refusal *refusal) {
    struct naltvigo_refusal ignored;
    const struct naltvigo_options with = options ? *options : naltvigo_defaults();
    const uint8_t none = 0;
    struct naltvigo_item no_item;
    return naltvigo_index_raw(in_length ? in : &none, in_length, with.order, with.keys, with.depth, with.bytes,
                              items_length ? items : &no_item, items_length, needed,
                              refusal ? refusal : &ignored);
}

/*
 * naltvigo_item_at: the item at an offset.
 *
 * Any bytes and any offset are safe. The status is OK if and only if a well-formed item without indefinite lengths begins
 * at the offset and ends within the input; then offset < content <= end <= `in_length`. Nothing else is checked: heads may be
 * longer than necessary, texts need not be UTF-8, keys may be repeated, and a float is an item of kind 7. If an item in its
 * canonical bytes begins at the offset, `*item` is that item. So call naltvigo_check_canonical first. naltvigo_item_at reads
 * the item once, to find its end. It allocates no memory.
 *
 * Returns OK, NOT_FOUND. If the status is not OK, `*item` is unchanged.
 */
static inline uint32_t naltvigo_item_at(const uint8_t *in, size_t in_length, uint64_t offset,
                                        struct naltvigo_item *item) {
    const uint8_t none = 0;
    return naltvigo_item_at_raw(in_length ? in : &none, in_length, offset, item);
}

/*
 * naltvigo_find: the value of a key in the map at an offset.
 *
 * `key` is the canonical bytes of the key. Any bytes and any offset are safe, as with naltvigo_item_at. If a map in its
 * canonical bytes, in either order of keys, begins at the offset, the status is OK if and only if the map has the key. The
 * call reads the pairs once, up to the key or to one that sorts after it. It allocates no memory.
 *
 * Returns OK, NOT_FOUND (also if no item begins at the offset), WRONG_KIND (the item is not a map). If the status is not
 * OK, `*value` is unchanged.
 */
static inline uint32_t naltvigo_find(const uint8_t *in, size_t in_length, uint64_t map, const uint8_t *key,
                                     size_t key_length, struct naltvigo_item *value) {
    const uint8_t none = 0;
    return naltvigo_find_raw(in_length ? in : &none, in_length, map, key_length ? key : &none, key_length,
                             value);
}

/*
 * naltvigo_put_head: the shortest head for a kind and a number (RFC 8949, section 3).
 *
 * Writes it to the start of `out`. `*needed` is 1, 2, 3, 5 or 9 if the status is OK or TOO_SMALL, else 0. After the head
 * the caller writes the bytes of the string, the members of the array, the pairs of the map in the order of their keys, or
 * the content of the tag, each in its canonical bytes. All of it is then the canonical bytes of the item. It allocates no memory.
 *
 * Returns OK, TOO_SMALL, BAD_HEAD: a kind above 7, or a simple value (kind 7) of 24 to 31 or above 255.
 */
static inline uint32_t naltvigo_put_head(uint32_t kind, uint64_t number, uint8_t *out, size_t out_length,
                                         size_t *needed) {
    uint8_t none = 0;
    return naltvigo_put_head_raw(kind, number, out_length ? out : &none, out_length, needed);
}

/* The bytes that the longest name of a reason needs, with the zero byte at its end. */
#define NALTVIGO_NAME_MAX 17

/*
 * naltvigo_reason_name: the name of a reason, for example "TooDeep", in ASCII and with a zero byte at its end.
 *
 * Returns its length without the zero byte. Writes both if `out` has space for both. The name of a number that is not
 * a reason is empty.
 */
static inline size_t naltvigo_reason_name(uint32_t reason, char *out, size_t out_length) {
    uint8_t none = 0;
    void *const name = out;
    return naltvigo_reason_name_raw(reason, out_length ? NALTVIGO_CAST(uint8_t *, name) : &none, out_length);
}

/* naltvigo_status_name: the name of a status, for example "TOO_SMALL", in static memory; "" for any other number. */
static inline const char *naltvigo_status_name(uint32_t status) {
    switch (status) {
    case NALTVIGO_OK: return "OK";
    case NALTVIGO_REFUSED: return "REFUSED";
    case NALTVIGO_TOO_SMALL: return "TOO_SMALL";
    case NALTVIGO_NO_MEMORY: return "NO_MEMORY";
    case NALTVIGO_BAD_ORDER: return "BAD_ORDER";
    case NALTVIGO_BAD_LIMITS: return "BAD_LIMITS";
    case NALTVIGO_DIFFERENT: return "DIFFERENT";
    case NALTVIGO_EVENT: return "EVENT";
    case NALTVIGO_MORE: return "MORE";
    case NALTVIGO_BAD_MACHINE: return "BAD_MACHINE";
    case NALTVIGO_NOT_FOUND: return "NOT_FOUND";
    case NALTVIGO_WRONG_KIND: return "WRONG_KIND";
    case NALTVIGO_BAD_HEAD: return "BAD_HEAD";
    case NALTVIGO_OUT_OF_RANGE: return "OUT_OF_RANGE";
    default: return "";
    }
}

/* naltvigo_version: the version of the linked library. NALTVIGO_VERSION_NUMBER is the version of this header. */
static inline uint32_t naltvigo_version(void) { return naltvigo_version_raw(); }

#ifdef __cplusplus
}
#endif

#endif
