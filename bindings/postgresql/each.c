/* each.c: cbor_each, a row for each member of an array, or pair of a map. */
#include "calls.h"

#include "access/htup_details.h"
#include "funcapi.h"

enum
{
	ORDINAL,
	KEY,
	VALUE,
	COLUMNS
};

static void
begin(FunctionCallInfo fcinfo, FuncCallContext *call)
{
	const MemoryContext before = MemoryContextSwitchTo(call->multi_call_memory_ctx);
	struct rows *rows = palloc(sizeof(struct rows));
	/* a copy, since the argument may be freed before the last row */
	const bytea *item = bytea_of(ITEM(canonical_item(GETARG_ITEM(0))));
	TupleDesc	columns;

	if (get_call_result_type(fcinfo, NULL, &columns) != TYPEFUNC_COMPOSITE)
		elog(ERROR, "cbor_each returns rows");
	call->tuple_desc = BlessTupleDesc(columns);
	*rows = rows_of(ITEM(item));
	call->user_fctx = rows;
	MemoryContextSwitchTo(before);
}

PG_FUNCTION_INFO_V1(cbor_each);
Datum
cbor_each(PG_FUNCTION_ARGS)
{
	FuncCallContext *call;
	struct rows *rows;
	Datum		values[COLUMNS];
	bool		nulls[COLUMNS] = {false, false, false};

	if (SRF_IS_FIRSTCALL())
		begin(fcinfo, SRF_FIRSTCALL_INIT());
	call = SRF_PERCALL_SETUP();
	rows = call->user_fctx;
	if (rows->left == 0)
		SRF_RETURN_DONE(call);
	values[ORDINAL] = Int64GetDatum(rows->ordinal);
	nulls[KEY] = !rows->is_map;
	values[KEY] = rows->is_map ? PointerGetDatum(bytea_of_item(rows->key)) : 0;
	values[VALUE] = PointerGetDatum(bytea_of_item(rows->value));
	next_row(rows);
	SRF_RETURN_NEXT(call, HeapTupleGetDatum(heap_form_tuple(call->tuple_desc, values, nulls)));
}
