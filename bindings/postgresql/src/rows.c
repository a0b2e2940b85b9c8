/* All matches in a text, and the pieces between them, as rows. Each row is made when it is fetched,
 * so that a query with a LIMIT makes no more than it needs. */
#include "batches.h"

#include "access/htup_details.h"
#include "catalog/pg_type_d.h"
#include "funcapi.h"
#include "utils/array.h"

PG_FUNCTION_INFO_V1(sql_regex_lite_matches);
PG_FUNCTION_INFO_V1(sql_regex_lite_split);

/* The rows of a call, and the end of the last one. */
typedef struct Rows {
    Batches *batches;
    Place place;
    int32 number; /* of the last row */
} Rows;

/* The columns of a row. A row of a match has one more than that of a piece: the groups. */
enum { NUMBER, START, END, TEXT, GROUPS, COLUMNS };

/* Begins the rows of a call, in what the server keeps until the last of them is returned. */
static void begin_rows(FunctionCallInfo fcinfo, Fetch fetch) {
    FuncCallContext *calls = SRF_FIRSTCALL_INIT();
    MemoryContext before = MemoryContextSwitchTo(calls->multi_call_memory_ctx);
    TupleDesc columns;
    if (get_call_result_type(fcinfo, NULL, &columns) != TYPEFUNC_COMPOSITE)
        elog(ERROR, "the function has to return rows");
    calls->tuple_desc = BlessTupleDesc(columns);
    Rows *rows = palloc(sizeof *rows);
    Bytes searched = bytes_of(PG_GETARG_TEXT_P_COPY(0));
    Bytes pattern = bytes_of(PG_GETARG_TEXT_PP(1));
    *rows = (Rows){begin_batches(calls->multi_call_memory_ctx, searched, pattern, fetch),
                   FIRST_PLACE, 0};
    calls->user_fctx = rows;
    MemoryContextSwitchTo(before);
}

/* The texts of the groups of a match, from the first on; null for a group that took no part. */
static Datum groups_of(const Batches *batches, const regex_lite_span *item) {
    int count = (int)batches->groups - 1, least = 1;
    if (count == 0)
        return PointerGetDatum(construct_empty_array(TEXTOID));
    Datum *texts = palloc(count * sizeof *texts);
    bool *nulls = palloc(count * sizeof *nulls);
    for (int i = 0; i < count; i++) {
        regex_lite_span group = item[i + 1];
        nulls[i] = !group.is_there;
        texts[i] = nulls[i] ? (Datum)0
                            : PointerGetDatum(text_of(
                                  part_of(batches->searched, group.start, group.end)));
    }
    return PointerGetDatum(construct_md_array(texts, nulls, 1, &count, &least, TEXTOID, -1, false,
                                              TYPALIGN_INT));
}

/* The row of a match or of a piece. */
static Datum row_of(FuncCallContext *calls, const regex_lite_span *item) {
    Rows *rows = calls->user_fctx;
    Bytes searched = rows->batches->searched;
    Datum values[COLUMNS];
    bool nulls[COLUMNS] = {false};
    values[NUMBER] = Int32GetDatum(++rows->number);
    move_to(&rows->place, searched, item->start);
    values[START] = Int32GetDatum(rows->place.character);
    move_to(&rows->place, searched, item->end);
    values[END] = Int32GetDatum(rows->place.character);
    values[TEXT] = PointerGetDatum(text_of(part_of(searched, item->start, item->end)));
    if (calls->tuple_desc->natts == COLUMNS)
        values[GROUPS] = groups_of(rows->batches, item);
    return HeapTupleGetDatum(heap_form_tuple(calls->tuple_desc, values, nulls));
}

static Datum next_row(FunctionCallInfo fcinfo) {
    FuncCallContext *calls = SRF_PERCALL_SETUP();
    Rows *rows = calls->user_fctx;
    const regex_lite_span *item = next_item(rows->batches);
    if (item == NULL)
        SRF_RETURN_DONE(calls);
    SRF_RETURN_NEXT(calls, row_of(calls, item));
}

Datum sql_regex_lite_matches(PG_FUNCTION_ARGS) {
    if (SRF_IS_FIRSTCALL())
        begin_rows(fcinfo, fetch_matches);
    return next_row(fcinfo);
}

Datum sql_regex_lite_split(PG_FUNCTION_ARGS) {
    if (SRF_IS_FIRSTCALL())
        begin_rows(fcinfo, fetch_pieces);
    return next_row(fcinfo);
}
