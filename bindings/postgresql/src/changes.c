/* Texts with their matches replaced, and patterns that match a text. */
#include "batches.h"

#include "utils/memutils.h"

PG_FUNCTION_INFO_V1(sql_regex_lite_replace);
PG_FUNCTION_INFO_V1(sql_regex_lite_replace_some);
PG_FUNCTION_INFO_V1(sql_regex_lite_escape);

#define MOST_LEN (MaxAllocSize - VARHDRSZ) /* of a text */

static void require_fit(size_t len) {
    if (len > MOST_LEN)
        ereport(ERROR, (errcode(ERRCODE_PROGRAM_LIMIT_EXCEEDED),
                        errmsg("the new text would be too long"),
                        errdetail("It would have up to %zu bytes, and at most %zu are possible.",
                                  len, (size_t)MOST_LEN)));
}

/* The arguments of a replacement. */
typedef struct Change {
    Bytes searched, pattern, replacement;
    size_t limit;   /* the greatest number of matches; 0 means all */
    size_t dollars; /* the number of references in the replacement */
} Change;

static size_t dollars_in(Bytes replacement) {
    size_t count = 0;
    for (size_t i = 0; i < replacement.len; i++)
        count += replacement.at[i] == '$';
    return count;
}

/* The greatest length of the new text, if so many matches have so many bytes together. It is exact
 * if the replacement has no $. For each $ there may be a group, which lies within its match. */
static size_t most_len(const Change *change, size_t matches, size_t matched) {
    return change->searched.len + matches * change->replacement.len + change->dollars * matched -
           (change->dollars == 0 ? matched : 0);
}

/* The greatest length of the new text, computed from the matches, which it searches for. */
static size_t counted_len(const Change *change) {
    MemoryContext context =
        AllocSetContextCreate(CurrentMemoryContext, "regex_lite matches", ALLOCSET_DEFAULT_SIZES);
    Batches *batches = begin_batches(context, change->searched, change->pattern, fetch_matches);
    size_t matches = 0, matched = 0;
    const regex_lite_span *item;
    while ((change->limit == 0 || matches < change->limit) &&
           (item = next_item(batches)) != NULL) {
        matches++;
        matched += item->end - item->start;
    }
    MemoryContextDelete(context);
    return most_len(change, matches, matched);
}

/* Raises an error where the new text may not fit into one of the server's. The library would make
 * it first, in memory that the server doesn't limit. Except for large texts, a bound that needs no
 * search is enough. */
static void require_room(const Change *change) {
    size_t most = change->searched.len + 1; // an empty match before each character and at the end
    if (change->limit != 0)
        most = Min(most, change->limit);
    if (most_len(change, most, change->dollars == 0 ? 0 : change->searched.len) > MOST_LEN)
        require_fit(counted_len(change));
}

/* Replaces into a new text that has this much room, which may turn out to be too little. */
static text *replace_into(regex_lite *regex, const Change *change, regex_lite_replacing *replacing,
                          size_t room) {
    text *result = palloc(VARHDRSZ + room);
    regex_lite_answer answer = regex_lite_replace(
        regex, change->searched.at, change->searched.len, change->replacement.at,
        change->replacement.len, replacing, (uint8 *)VARDATA(result), room);
    if (answer == REGEX_LITE_NO_ROOM) {
        pfree(result);
        return NULL;
    }
    if (answer != REGEX_LITE_YES)
        refuse(answer);
    SET_VARSIZE(result, VARHDRSZ + replacing->len);
    return result;
}

/* Replaces at most this many matches, or all if that is 0. */
static Datum replace(FunctionCallInfo fcinfo, int32 limit) {
    text *given = PG_GETARG_TEXT_PP(0);
    Change change = {bytes_of(given), bytes_of(PG_GETARG_TEXT_PP(1)),
                     bytes_of(PG_GETARG_TEXT_PP(2)), (size_t)limit, 0};
    change.dollars = dollars_in(change.replacement);
    regex_lite *regex = regex_for(fcinfo, change.pattern);
    require_room(&change);
    regex_lite_replacing replacing = {change.limit, change.dollars == 0, 0, 0};
    // As a rule a text grows little, and then one pass is enough.
    size_t room = Min(change.searched.len + change.searched.len / 4 + 64, MOST_LEN);
    text *result = replace_into(regex, &change, &replacing, room);
    if (result == NULL) {
        require_fit(replacing.len);
        result = replace_into(regex, &change, &replacing, replacing.len);
    }
    if (result == NULL)
        refuse(REGEX_LITE_NO_ROOM);
    PG_RETURN_TEXT_P(replacing.count == 0 ? given : result);
}

Datum sql_regex_lite_replace(PG_FUNCTION_ARGS) {
    return replace(fcinfo, 0);
}

Datum sql_regex_lite_replace_some(PG_FUNCTION_ARGS) {
    int32 limit = PG_GETARG_INT32(3);
    if (limit < 0)
        ereport(ERROR, (errcode(ERRCODE_INVALID_PARAMETER_VALUE),
                        errmsg("a limit has to be at least 0, and is %d", limit)));
    return replace(fcinfo, limit);
}

Datum sql_regex_lite_escape(PG_FUNCTION_ARGS) {
    Bytes given = bytes_of(PG_GETARG_TEXT_PP(0));
    uint8 none[1];
    size_t len = 0;
    require_utf8();
    regex_lite_answer answer = regex_lite_escape(given.at, given.len, none, 0, &len);
    if (answer != REGEX_LITE_NO_ROOM && answer != REGEX_LITE_YES)
        refuse(answer);
    require_fit(len);
    text *result = palloc(VARHDRSZ + len);
    is_yes(regex_lite_escape(given.at, given.len, (uint8 *)VARDATA(result), len, &len));
    SET_VARSIZE(result, VARHDRSZ + len);
    PG_RETURN_TEXT_P(result);
}
