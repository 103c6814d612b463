/* calls.h: what the files of this extension share. */
#ifndef NALTVIGO_CALLS_H
#define NALTVIGO_CALLS_H

#include "postgres.h"

#include "fmgr.h"

static inline void *
allocate(size_t size)
{
	return palloc(size);
}

static inline void
release(void *memory)
{
	pfree(memory);
}

#include "../sql/rules.h"

/* The bytes of a bytea, and how many they are. */
#define ITEM(item) ((const uint8_t *) VARDATA_ANY(item)), ((size_t) VARSIZE_ANY_EXHDR(item))

/* An argument, of which no more is read than the limit and one byte: these decide why a longer one is refused. */
#define GETARG_ITEM(n) item_of_datum(PG_GETARG_DATUM(n))
extern bytea *item_of_datum(Datum datum);

/* The canonical bytes of an item, as a bytea in palloc'd memory. An error if it is refused. */
extern bytea *canonical_bytes(const bytea *item, const struct naltvigo_options *options);

/* The item if it is canonical, else its canonical bytes. */
extern bytea *canonical_item(bytea *item);

/* A bytea with these bytes. */
extern bytea *bytea_of(const uint8_t *bytes, size_t length);

/* A text, given in UTF-8, in the encoding of the database. */
extern text *text_of(const char *utf8, size_t length);

/* The item under the cursor. */
extern bytea *bytea_of_item(struct naltvigo_cursor at);

#endif
