/* paths.c: the item at a path, as an item or as a value of SQL. */
#include "calls.h"

#include "catalog/pg_type.h"
#include "funcapi.h"
#include "mb/pg_wchar.h"
#include "utils/builtins.h"

/* The value of a text key of a map. The key is made UTF-8, whatever the database's encoding is. */
static struct naltvigo_cursor
step_by_text(struct naltvigo_cursor at, const text *step)
{
	const size_t given = VARSIZE_ANY_EXHDR(step);
	const char *utf8 = pg_server_to_any(VARDATA_ANY(step), given, PG_UTF8);

	return naltvigo_at_text_n(at, utf8, utf8 == VARDATA_ANY(step) ? given : strlen(utf8));
}

static struct naltvigo_cursor
step(struct naltvigo_cursor at, Datum datum, Oid type)
{
	switch (type)
	{
		case INT2OID:
			return step_by_integer(at, DatumGetInt16(datum));
		case INT4OID:
			return step_by_integer(at, DatumGetInt32(datum));
		case INT8OID:
			return step_by_integer(at, DatumGetInt64(datum));
		case TEXTOID:
		case VARCHAROID:
			return step_by_text(at, DatumGetTextPP(datum));
		default:
			ereport(ERROR,
					(errcode(ERRCODE_DATATYPE_MISMATCH),
					 errmsg("a step of a path is an integer or a text, not %s", format_type_be(type))));
	}
}

/* The item at the path that the arguments are. Without an item if the path leads nowhere, or has a NULL. */
static struct naltvigo_cursor
find(FunctionCallInfo fcinfo)
{
	bytea	   *item = canonical_item(GETARG_ITEM(0));
	struct naltvigo_cursor at = naltvigo_cursor_at(ITEM(item), 0);
	Datum	   *steps = NULL;
	Oid		   *types;
	bool	   *nulls;
	int			count = PG_NARGS() > 1 ? extract_variadic_args(fcinfo, 1, true, &steps, &types, &nulls) : 0;

	if (count < 0)
		return naltvigo_cursor_none(NALTVIGO_NOT_FOUND);
	for (int i = 0; i < count; i++)
	{
		if (nulls[i])
			return naltvigo_cursor_none(NALTVIGO_NOT_FOUND);
		/* a step of another type is an error also if the path has ended */
		at = step(at, steps[i], types[i]);
	}
	return at;
}

PG_FUNCTION_INFO_V1(cbor_get);
Datum
cbor_get(PG_FUNCTION_ARGS)
{
	const struct naltvigo_cursor at = find(fcinfo);

	if (at.status != NALTVIGO_OK)
		PG_RETURN_NULL();
	PG_RETURN_BYTEA_P(bytea_of_item(at));
}

/* The calls below return NULL if the kind is another one, or SQL has no such value. */

PG_FUNCTION_INFO_V1(cbor_int);
Datum
cbor_int(PG_FUNCTION_ARGS)
{
	uint32_t	status = NALTVIGO_OK;
	const int64 number = naltvigo_get_int(find(fcinfo), &status);

	if (status != NALTVIGO_OK)
		PG_RETURN_NULL();
	PG_RETURN_INT64(number);
}

PG_FUNCTION_INFO_V1(cbor_text);
Datum
cbor_text(PG_FUNCTION_ARGS)
{
	size_t		length;
	const char *utf8 = text_for_sql(find(fcinfo), &length);

	if (utf8 == NULL)
		PG_RETURN_NULL();
	PG_RETURN_TEXT_P(text_of(utf8, length));
}

PG_FUNCTION_INFO_V1(cbor_bytes);
Datum
cbor_bytes(PG_FUNCTION_ARGS)
{
	uint32_t	status = NALTVIGO_OK;
	size_t		length;
	const uint8_t *bytes = naltvigo_get_bytes(find(fcinfo), &length, &status);

	if (status != NALTVIGO_OK)
		PG_RETURN_NULL();
	PG_RETURN_BYTEA_P(bytea_of(bytes, length));
}

PG_FUNCTION_INFO_V1(cbor_bool);
Datum
cbor_bool(PG_FUNCTION_ARGS)
{
	uint32_t	status = NALTVIGO_OK;
	const int	is_true = naltvigo_get_bool(find(fcinfo), &status);

	if (status != NALTVIGO_OK)
		PG_RETURN_NULL();
	PG_RETURN_BOOL(is_true != 0);
}
