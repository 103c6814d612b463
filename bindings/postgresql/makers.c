/* makers.c: items from values of SQL. */
#include "calls.h"

#include "access/htup_details.h"
#include "catalog/pg_type.h"
#include "funcapi.h"
#include "lib/stringinfo.h"
#include "mb/pg_wchar.h"
#include "utils/builtins.h"
#include "utils/lsyscache.h"
#include "utils/syscache.h"

/* The domain cbor, which is in the schema of the function that is called. */
static Oid
item_type(FunctionCallInfo fcinfo)
{
	FmgrInfo   *call = fcinfo->flinfo;

	if (call->fn_extra == NULL)
	{
		Oid		   *type = MemoryContextAlloc(call->fn_mcxt, sizeof(Oid));

		*type = GetSysCacheOid2(TYPENAMENSP, Anum_pg_type_oid, CStringGetDatum("cbor"),
								ObjectIdGetDatum(get_func_namespace(call->fn_oid)));
		call->fn_extra = type;
	}
	return *(Oid *) call->fn_extra;
}

/* A writer of `length` more bytes at the end. */
static struct naltvigo_writer
writer_at_end(StringInfo out, size_t length)
{
	enlargeStringInfo(out, (int) length);
	return naltvigo_writer_to((uint8_t *) out->data + out->len, length);
}

enum
{
	HEAD_MAX = 9
};

static void
put_number(StringInfo out, uint32_t kind, int64 number)
{
	struct naltvigo_writer writer = writer_at_end(out, HEAD_MAX);

	if (kind == NALTVIGO_ARRAY)
		naltvigo_put_array_n(&writer, number);
	else if (kind == NALTVIGO_MAP)
		naltvigo_put_map_n(&writer, number);
	else
		naltvigo_put_int(&writer, number);
	out->len += writer.needed;
}

static void
put_simple(StringInfo out, uint8_t number)
{
	struct naltvigo_writer writer = writer_at_end(out, HEAD_MAX);

	naltvigo_put_simple(&writer, number);
	out->len += writer.needed;
}

static void
put_text(StringInfo out, const text *given)
{
	const size_t given_length = VARSIZE_ANY_EXHDR(given);
	const char *utf8 = pg_server_to_any(VARDATA_ANY(given), given_length, PG_UTF8);
	const size_t length = utf8 == VARDATA_ANY(given) ? given_length : strlen(utf8);
	/* one byte more than the limit is refused for the same reason as the whole text */
	const size_t enough = Min(length, CBOR_BYTES + 1);
	struct naltvigo_writer writer = writer_at_end(out, HEAD_MAX + enough);

	naltvigo_put_text_n(&writer, utf8, enough);
	out->len += writer.needed;
}

static void
put_item(StringInfo out, const bytea *item)
{
	struct naltvigo_writer writer = writer_at_end(out, VARSIZE_ANY_EXHDR(item));

	naltvigo_put_encoded(&writer, ITEM(item));
	if (writer.status != NALTVIGO_OK)
		elog(ERROR, "a value of the domain cbor is not an item");
	out->len += writer.needed;
}

static void
put(FunctionCallInfo fcinfo, StringInfo out, Datum datum, Oid type)
{
	switch (type)
	{
		case INT2OID:
			put_number(out, NALTVIGO_UNSIGNED, DatumGetInt16(datum));
			break;
		case INT4OID:
			put_number(out, NALTVIGO_UNSIGNED, DatumGetInt32(datum));
			break;
		case INT8OID:
			put_number(out, NALTVIGO_UNSIGNED, DatumGetInt64(datum));
			break;
		case TEXTOID:
		case VARCHAROID:
			put_text(out, DatumGetTextPP(datum));
			break;
		case BOOLOID:
			put_simple(out, DatumGetBool(datum) ? NALTVIGO_TRUE : NALTVIGO_FALSE);
			break;
		default:
			if (type == item_type(fcinfo))
				put_item(out, item_of_datum(datum));
			else
				ereport(ERROR,
						(errcode(ERRCODE_DATATYPE_MISMATCH),
						 errmsg("no item is made of a value of type %s", format_type_be(type)),
						 type == BYTEAOID ? errhint("Pass it as cbor_item(item) or as cbor_byte_string(bytes).")
						 : errhint("Cast it to bigint, text or boolean.")));
	}
}

static Datum
make(FunctionCallInfo fcinfo, uint32_t kind)
{
	const struct naltvigo_options options = limits();
	StringInfoData out;
	Datum	   *datums = NULL;
	Oid		   *types;
	bool	   *nulls;
	int			count = PG_NARGS() > 0 ? extract_variadic_args(fcinfo, 0, true, &datums, &types, &nulls) : 0;

	if (count < 0)
		PG_RETURN_NULL();
	if (kind == NALTVIGO_MAP && count % 2 != 0)
		ereport(ERROR,
				(errcode(ERRCODE_INVALID_PARAMETER_VALUE),
				 errmsg("cbor_map takes keys and values in turn")));
	initStringInfo(&out);
	/* in front of what becomes a bytea */
	appendStringInfoSpaces(&out, VARHDRSZ);
	put_number(&out, kind, kind == NALTVIGO_MAP ? count / 2 : count);
	/* what follows the limit does not matter */
	for (int i = 0; i < count && out.len <= VARHDRSZ + CBOR_BYTES; i++)
	{
		if (nulls[i] && kind == NALTVIGO_MAP && i % 2 == 0)
			ereport(ERROR,
					(errcode(ERRCODE_NULL_VALUE_NOT_ALLOWED),
					 errmsg("a key is not NULL")));
		if (nulls[i])
			put_simple(&out, NALTVIGO_NULL);
		else
			put(fcinfo, &out, datums[i], types[i]);
	}
	SET_VARSIZE(out.data, out.len);
	PG_RETURN_BYTEA_P(canonical_bytes((bytea *) out.data, &options));
}

PG_FUNCTION_INFO_V1(cbor_array);
Datum
cbor_array(PG_FUNCTION_ARGS)
{
	return make(fcinfo, NALTVIGO_ARRAY);
}

PG_FUNCTION_INFO_V1(cbor_map);
Datum
cbor_map(PG_FUNCTION_ARGS)
{
	return make(fcinfo, NALTVIGO_MAP);
}

PG_FUNCTION_INFO_V1(cbor_item);
Datum
cbor_item(PG_FUNCTION_ARGS)
{
	PG_RETURN_BYTEA_P(canonical_item(GETARG_ITEM(0)));
}

PG_FUNCTION_INFO_V1(cbor_byte_string);
Datum
cbor_byte_string(PG_FUNCTION_ARGS)
{
	const struct naltvigo_options options = limits();
	bytea	   *bytes = GETARG_ITEM(0);
	const size_t length = VARSIZE_ANY_EXHDR(bytes);
	bytea	   *item = palloc(VARHDRSZ + HEAD_MAX + length);
	struct naltvigo_writer writer = naltvigo_writer_to((uint8_t *) VARDATA(item), HEAD_MAX + length);

	naltvigo_put_bytes(&writer, ITEM(bytes));
	SET_VARSIZE(item, VARHDRSZ + writer.needed);
	/* refused if it is longer than an item may be */
	PG_RETURN_BYTEA_P(canonical_bytes(item, &options));
}
