/* Searches for one match: whether there is one, its text, and the text of one of its groups. */
#include "patterns.h"

PG_FUNCTION_INFO_V1(sql_regex_lite_is_match);
PG_FUNCTION_INFO_V1(sql_regex_lite_is_no_match);
PG_FUNCTION_INFO_V1(sql_regex_lite_find);
PG_FUNCTION_INFO_V1(sql_regex_lite_find_from);
PG_FUNCTION_INFO_V1(sql_regex_lite_capture_index);
PG_FUNCTION_INFO_V1(sql_regex_lite_capture_name);

/* Every function here has a text and a pattern as its first arguments. */
static Bytes argument(FunctionCallInfo fcinfo, int number) {
    return bytes_of(PG_GETARG_TEXT_PP(number));
}

static bool is_match(FunctionCallInfo fcinfo) {
    Bytes searched = argument(fcinfo, 0);
    regex_lite *regex = regex_for(fcinfo, argument(fcinfo, 1));
    return is_yes(regex_lite_is_match(regex, searched.at, searched.len, 0));
}

Datum sql_regex_lite_is_match(PG_FUNCTION_ARGS) {
    PG_RETURN_BOOL(is_match(fcinfo));
}

Datum sql_regex_lite_is_no_match(PG_FUNCTION_ARGS) {
    PG_RETURN_BOOL(!is_match(fcinfo));
}

/* The first match from an offset on, or null. */
static Datum find_from(FunctionCallInfo fcinfo, regex_lite *regex, Bytes searched, size_t start) {
    regex_lite_span span;
    if (!is_yes(regex_lite_find(regex, searched.at, searched.len, start, &span)))
        PG_RETURN_NULL();
    PG_RETURN_TEXT_P(text_of(part_of(searched, span.start, span.end)));
}

Datum sql_regex_lite_find(PG_FUNCTION_ARGS) {
    regex_lite *regex = regex_for(fcinfo, argument(fcinfo, 1));
    return find_from(fcinfo, regex, argument(fcinfo, 0), 0);
}

Datum sql_regex_lite_find_from(PG_FUNCTION_ARGS) {
    Bytes searched = argument(fcinfo, 0);
    int32 start = PG_GETARG_INT32(2);
    size_t offset;
    regex_lite *regex = regex_for(fcinfo, argument(fcinfo, 1));
    if (start < 1)
        ereport(ERROR, (errcode(ERRCODE_INVALID_PARAMETER_VALUE),
                        errmsg("a start has to be at least 1, and is %d", start)));
    if (!offset_of(searched, start, &offset))
        PG_RETURN_NULL();
    return find_from(fcinfo, regex, searched, offset);
}

/* The text of a group in the first match; null if there is no match or the group took no part in
 * it. */
static Datum capture(FunctionCallInfo fcinfo, regex_lite *regex, size_t group) {
    Bytes searched = argument(fcinfo, 0);
    size_t room = regex_lite_groups(regex), count;
    regex_lite_span *spans = palloc(room * sizeof *spans);
    if (!is_yes(regex_lite_captures(regex, searched.at, searched.len, 0, spans, room, &count)) ||
        !spans[group].is_there)
        PG_RETURN_NULL();
    PG_RETURN_TEXT_P(text_of(part_of(searched, spans[group].start, spans[group].end)));
}

Datum sql_regex_lite_capture_index(PG_FUNCTION_ARGS) {
    int32 group = PG_GETARG_INT32(2);
    regex_lite *regex = regex_for(fcinfo, argument(fcinfo, 1));
    if (group == 0)
        return find_from(fcinfo, regex, argument(fcinfo, 0), 0);
    if (group < 0 || (size_t)group >= regex_lite_groups(regex))
        ereport(ERROR, (errcode(ERRCODE_INVALID_PARAMETER_VALUE),
                        errmsg("the pattern has no group %d", group),
                        errdetail("Its last group is %zu.", regex_lite_groups(regex) - 1)));
    return capture(fcinfo, regex, (size_t)group);
}

Datum sql_regex_lite_capture_name(PG_FUNCTION_ARGS) {
    Bytes name = argument(fcinfo, 2);
    size_t group;
    regex_lite *regex = regex_for(fcinfo, argument(fcinfo, 1));
    if (!is_yes(regex_lite_group_index(regex, name.at, name.len, &group)))
        ereport(ERROR, (errcode(ERRCODE_INVALID_PARAMETER_VALUE),
                        errmsg("the pattern has no group with the name \"%.*s\"", (int)name.len,
                               (const char *)name.at)));
    return capture(fcinfo, regex, group);
}
