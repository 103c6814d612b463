/* Options of naltvigo.h in a line. */
#include <naltvigo.h>

#define ALL_OPTIONS(order, keys, depth, bytes) (&(const struct naltvigo_options){bytes, depth, order, keys})

/* For keys of any kind; and limits for calls that do not use the order: it is not the number of an order, so that no call may
 * read it. */
#define OPTIONS(order, depth, bytes) ALL_OPTIONS(order, NALTVIGO_ANY_KEYS, depth, bytes)
#define LIMITS(depth, bytes) OPTIONS(99, depth, bytes)
