/*
 * naltvigo.c: deterministic CBOR in PostgreSQL: the calls on whole items. naltvigo--1.0.sql lists all functions.
 *
 * The library calls nothing of PostgreSQL, and frees its memory before it returns. So no error (a longjmp) passes through it,
 * and all that an error leaves allocated is palloc'd. A call cannot be cancelled before it ends.
 */
#include "calls.h"

#include "access/detoast.h"
#include "common/string.h"
#include "mb/pg_wchar.h"
#include "utils/builtins.h"

PG_MODULE_MAGIC;

void		_PG_init(void);

void
_PG_init(void)
{
	if (naltvigo_version() >> 16 != NALTVIGO_VERSION_MAJOR)
		elog(ERROR, "the library is not naltvigo of version %s", NALTVIGO_VERSION);
}

static struct naltvigo_options
limits_with_order(const text *order)
{
	struct naltvigo_options options = limits();

	if (!set_order(&options, VARDATA_ANY(order), VARSIZE_ANY_EXHDR(order)))
		ereport(ERROR,
				(errcode(ERRCODE_INVALID_PARAMETER_VALUE),
				 errmsg("the order of keys is 'bytewise' or 'length'")));
	return options;
}

/* ---- refusals */

/* The path is left out if the database's encoding may lack one of its characters. NULL if memory was refused. */
static char *
explanation_of(const bytea *item, const struct naltvigo_refusal *why)
{
	char	   *lines = explanation_lines(ITEM(item), why);

	if (lines == NULL || GetDatabaseEncoding() == PG_UTF8 || pg_is_ascii(lines))
		return lines;
	return explanation_lines((const uint8_t *) VARDATA_ANY(item), 0, why);
}

static char *
refusal_text(const struct naltvigo_refusal *why)
{
	char	   *text = palloc(REFUSAL_MAX);

	write_refusal(text, why);
	return text;
}

/* Any status but OK as an error; side says which item, or is empty. */
static void pg_attribute_noreturn()
fail(uint32_t status, const struct naltvigo_refusal *why, const bytea *item, const char *side)
{
	if (status == NALTVIGO_REFUSED)
	{
		char	   *lines = explanation_of(item, why);
		const struct explanation found = split(lines ? lines : pstrdup(""));

		ereport(ERROR,
				(errcode(ERRCODE_INVALID_BINARY_REPRESENTATION),
				 errmsg("invalid CBOR item"),
				 errdetail("%s%s (%s): %s", side, refusal_text(why), found.path, found.sentence),
				 found.advice[0] ? errhint("%s", found.advice) : 0));
	}
	if (status == NALTVIGO_NO_MEMORY)
		ereport(ERROR,
				(errcode(ERRCODE_OUT_OF_MEMORY),
				 errmsg("out of memory")));
	elog(ERROR, "naltvigo returned %s", naltvigo_status_name(status));
}

/* ---- items */

bytea *
item_of_datum(Datum datum)
{
	if (toast_raw_datum_size(datum) - VARHDRSZ <= CBOR_BYTES)
		return DatumGetByteaPP(datum);
	return DatumGetByteaPSlice(datum, 0, CBOR_BYTES + 1);
}

bytea *
bytea_of(const uint8_t *bytes, size_t length)
{
	bytea	   *out = palloc(VARHDRSZ + length);

	memcpy(VARDATA(out), bytes, length);
	SET_VARSIZE(out, VARHDRSZ + length);
	return out;
}

text *
text_of(const char *utf8, size_t length)
{
	const char *converted = pg_any_to_server(utf8, length, PG_UTF8);

	return cstring_to_text_with_len(converted, converted == utf8 ? length : strlen(converted));
}

bytea *
bytea_of_item(struct naltvigo_cursor at)
{
	uint32_t	status = NALTVIGO_OK;
	size_t		length;
	const uint8_t *bytes = naltvigo_get_encoded(at, &length, &status);

	if (status != NALTVIGO_OK)
		elog(ERROR, "no item is here: %s", naltvigo_status_name(status));
	return bytea_of(bytes, length);
}

bytea *
canonical_item(bytea *item)
{
	const struct naltvigo_options options = limits();
	struct naltvigo_refusal why;

	if (naltvigo_check_canonical(ITEM(item), &options, &why) == NALTVIGO_OK)
		return item;
	/* another encoding, or no item at all */
	return canonical_bytes(item, &options);
}

/* ---- results of any length */

bytea *
canonical_bytes(const bytea *item, const struct naltvigo_options *options)
{
	struct written out = {VARHDRSZ, within_limit(VARSIZE_ANY_EXHDR(item)), NULL};
	struct naltvigo_refusal why;
	const uint32_t status = write_all(naltvigo_canonicalise, ITEM(item), options, &out, &why);

	if (status != NALTVIGO_OK)
		fail(status, &why, item, "");
	SET_VARSIZE(out.memory, VARHDRSZ + out.length);
	return (bytea *) out.memory;
}

/* The text of an item, which is UTF-8, in the encoding of the database. */
static text *
diagnostic_text(const bytea *item)
{
	const struct naltvigo_options options = limits();
	struct written out = {0, 2 * within_limit(VARSIZE_ANY_EXHDR(item)) + 64, NULL};
	struct naltvigo_refusal why;
	const uint32_t status = write_all(write_diagnostic, ITEM(item), &options, &out, &why);

	if (status != NALTVIGO_OK)
		fail(status, &why, item, "");
	return text_of((const char *) out.memory, out.length);
}

/* ---- the functions */

PG_FUNCTION_INFO_V1(cbor_canonical);
Datum
cbor_canonical(PG_FUNCTION_ARGS)
{
	const struct naltvigo_options options = limits_with_order(PG_GETARG_TEXT_PP(1));

	PG_RETURN_BYTEA_P(canonical_bytes(GETARG_ITEM(0), &options));
}

PG_FUNCTION_INFO_V1(cbor_is_canonical);
Datum
cbor_is_canonical(PG_FUNCTION_ARGS)
{
	bytea	   *item = GETARG_ITEM(0);
	const struct naltvigo_options options = limits_with_order(PG_GETARG_TEXT_PP(1));
	struct naltvigo_refusal why;
	const uint32_t status = naltvigo_check_canonical(ITEM(item), &options, &why);

	PG_FREE_IF_COPY(item, 0);
	PG_RETURN_BOOL(status == NALTVIGO_OK);
}

/* Whether this is one valid item, and else why not. */
static bool
is_valid(const bytea *item, struct naltvigo_refusal *why)
{
	const struct naltvigo_options options = limits();
	const uint32_t status = naltvigo_check_valid(ITEM(item), &options, why);

	if (status != NALTVIGO_OK && status != NALTVIGO_REFUSED)
		fail(status, why, item, "");
	return status == NALTVIGO_OK;
}

PG_FUNCTION_INFO_V1(cbor_is_valid);
Datum
cbor_is_valid(PG_FUNCTION_ARGS)
{
	struct naltvigo_refusal why;
	bytea	   *item = GETARG_ITEM(0);
	const bool	found = is_valid(item, &why);

	PG_FREE_IF_COPY(item, 0);
	PG_RETURN_BOOL(found);
}

PG_FUNCTION_INFO_V1(cbor_refusal);
Datum
cbor_refusal(PG_FUNCTION_ARGS)
{
	struct naltvigo_refusal why;

	if (is_valid(GETARG_ITEM(0), &why))
		PG_RETURN_NULL();
	PG_RETURN_TEXT_P(cstring_to_text(refusal_text(&why)));
}

PG_FUNCTION_INFO_V1(cbor_explain);
Datum
cbor_explain(PG_FUNCTION_ARGS)
{
	bytea	   *item = GETARG_ITEM(0);
	struct naltvigo_refusal why;
	char	   *lines;

	if (is_valid(item, &why))
		PG_RETURN_NULL();
	lines = explanation_of(item, &why);
	if (lines == NULL)
		fail(NALTVIGO_NO_MEMORY, &why, item, "");
	PG_RETURN_TEXT_P(cstring_to_text(lines));
}

PG_FUNCTION_INFO_V1(cbor_same);
Datum
cbor_same(PG_FUNCTION_ARGS)
{
	bytea	   *left = GETARG_ITEM(0);
	bytea	   *right = GETARG_ITEM(1);
	const struct naltvigo_options options = limits();
	struct naltvigo_refusal why;
	uint32_t	side = NALTVIGO_LEFT;
	const uint32_t status = naltvigo_compare(ITEM(left), ITEM(right), &options, &side, &why);

	if (status != NALTVIGO_OK && status != NALTVIGO_DIFFERENT)
		fail(status, &why, side == NALTVIGO_LEFT ? left : right, side == NALTVIGO_LEFT ? "left: " : "right: ");
	PG_FREE_IF_COPY(left, 0);
	PG_FREE_IF_COPY(right, 1);
	PG_RETURN_BOOL(status == NALTVIGO_OK);
}

PG_FUNCTION_INFO_V1(cbor_diagnostic);
Datum
cbor_diagnostic(PG_FUNCTION_ARGS)
{
	PG_RETURN_TEXT_P(diagnostic_text(GETARG_ITEM(0)));
}
