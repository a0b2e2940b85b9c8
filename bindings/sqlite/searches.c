/* Searches for one match: whether there is one, its text, and the text of one of its groups. */
#include "functions.h"

bool has_null(int count, sqlite3_value **arguments) {
    for (int i = 0; i < count; i++)
        if (sqlite3_value_type(arguments[i]) == SQLITE_NULL) return true;
    return false;
}

bool text_argument(sqlite3_context *context, sqlite3_value *argument, Bytes *text) {
    bool is_read = read_bytes(argument, text);
    if (!is_read) return_refusal(context, NO_MEMORY);
    return is_read;
}

bool number_argument(sqlite3_context *context, sqlite3_value *argument, const char *what,
                     sqlite3_int64 least, sqlite3_int64 *number) {
    if (sqlite3_value_numeric_type(argument) == SQLITE_INTEGER) {
        *number = sqlite3_value_int64(argument);
        if (*number >= least) return true;
    }
    return_refusal(context, refused("regex_lite: the %s has to be a whole number from %lld on",
                                    what, least));
    return false;
}

/* Whether a search has found something. If it failed, the error becomes the result. */
static bool is_found(sqlite3_context *context, regex_lite_answer answer, Bytes text) {
    if (answer == REGEX_LITE_YES) return true;
    if (answer != REGEX_LITE_NO) return_refusal(context, refused_search(answer, text));
    return false;
}

/* Whether there is a match; the pattern is the argument with this index, of two. */
static void is_match(sqlite3_context *context, sqlite3_value **arguments, int index) {
    Bytes text;
    if (has_null(2, arguments)) return;
    Pattern *pattern = pattern_argument(context, arguments, index);
    if (pattern == NULL || !text_argument(context, arguments[1 - index], &text)) return;
    regex_lite_answer answer = regex_lite_is_match(regex_of(pattern), text.at, text.len, 0);
    if (answer == REGEX_LITE_NO)
        sqlite3_result_int(context, 0);
    else if (is_found(context, answer, text))
        sqlite3_result_int(context, 1);
}

void sql_regexp(sqlite3_context *context, int count, sqlite3_value **arguments) {
    (void)count;
    is_match(context, arguments, 0);
}

void sql_is_match(sqlite3_context *context, int count, sqlite3_value **arguments) {
    (void)count;
    is_match(context, arguments, 1);
}

/* Returns the text of the first match from an offset on, or null. */
static void find_from(sqlite3_context *context, Pattern *pattern, Bytes text, size_t start) {
    regex_lite_span span;
    regex_lite_answer answer =
        regex_lite_find(regex_of(pattern), text.at, text.len, start, &span);
    if (is_found(context, answer, text))
        return_text(context, part_of(text, span.start, span.end));
}

void sql_find(sqlite3_context *context, int count, sqlite3_value **arguments) {
    Bytes text;
    sqlite3_int64 start = 1;
    size_t offset;
    if (has_null(count, arguments)) return;
    Pattern *pattern = pattern_argument(context, arguments, 1);
    if (pattern == NULL || !text_argument(context, arguments[0], &text)) return;
    if (count == 3 && !number_argument(context, arguments[2], "start", 1, &start)) return;
    // In bytes that are not UTF-8 no character can be counted; the search reports them.
    if (start > 1 && !regex_lite_is_text(text.at, text.len)) start = 1;
    if (offset_of(text, start, &offset)) find_from(context, pattern, text, offset);
}

/* Reads the number of a group. Returns false if there is no such group, and makes the error the
 * result. */
static bool group_by_number(sqlite3_context *context, sqlite3_value *argument, Pattern *pattern,
                            size_t *group) {
    sqlite3_int64 number;
    if (!number_argument(context, argument, "group", 0, &number)) return false;
    *group = (size_t)number;
    if (*group < groups_of(pattern)) return true;
    return_refusal(context, refused("regex_lite: the pattern has no group %lld; its last is %llu",
                                    number, (sqlite3_uint64)groups_of(pattern) - 1));
    return false;
}

/* Reads the name of a group. Returns false if there is no such group, and makes the error the
 * result. */
static bool group_by_name(sqlite3_context *context, sqlite3_value *argument, Pattern *pattern,
                          size_t *group) {
    Bytes name;
    if (!text_argument(context, argument, &name)) return false;
    regex_lite_answer answer = regex_lite_group_index(regex_of(pattern), name.at, name.len, group);
    // Names of groups are UTF-8, so other bytes aren't a name.
    if (answer == REGEX_LITE_NO)
        return_refusal(context, refused("regex_lite: the pattern has no group of this name"));
    return is_found(context, answer, name);
}

static bool group_argument(sqlite3_context *context, sqlite3_value *argument, Pattern *pattern,
                           size_t *group) {
    int type = sqlite3_value_numeric_type(argument);
    bool is_number = type == SQLITE_INTEGER || type == SQLITE_FLOAT;
    return is_number ? group_by_number(context, argument, pattern, group)
                     : group_by_name(context, argument, pattern, group);
}

/* Returns the text of a group in the first match; null if there is no match or the group took no
 * part in it. */
static void capture(sqlite3_context *context, Pattern *pattern, Bytes text, size_t group) {
    size_t room = groups_of(pattern), count;
    regex_lite_span *spans = sqlite3_malloc64(room * sizeof *spans);
    if (spans == NULL) {
        return_refusal(context, NO_MEMORY);
        return;
    }
    regex_lite_answer answer =
        regex_lite_captures(regex_of(pattern), text.at, text.len, 0, spans, room, &count);
    if (is_found(context, answer, text) && spans[group].is_there)
        return_text(context, part_of(text, spans[group].start, spans[group].end));
    sqlite3_free(spans);
}

void sql_capture(sqlite3_context *context, int count, sqlite3_value **arguments) {
    Bytes text;
    size_t group;
    if (has_null(count, arguments)) return;
    Pattern *pattern = pattern_argument(context, arguments, 1);
    if (pattern == NULL || !text_argument(context, arguments[0], &text) ||
        !group_argument(context, arguments[2], pattern, &group))
        return;
    if (group == 0)
        find_from(context, pattern, text, 0);
    else
        capture(context, pattern, text, group);
}
