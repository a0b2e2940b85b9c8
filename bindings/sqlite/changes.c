/* New texts: a text with its matches replaced, and the pattern that matches a text. */
#include "batches.h"
#include "functions.h"

/* The greatest length of a new text while it is made, if SQLite's own limit is lower. */
#define LEAST_ROOM ((sqlite3_uint64)64 << 20)

typedef struct Replacement {
    Pattern *pattern;
    Bytes text, template;
    regex_lite_replacing how;
} Replacement;

static bool is_interrupted(sqlite3_context *context) {
#if SQLITE_VERSION_NUMBER >= 3041000
    if (sqlite3_libversion_number() >= 3041000)
        return sqlite3_is_interrupted(sqlite3_context_db_handle(context)) != 0;
#endif
    (void)context;
    return false;
}

/* The greatest length of the new text, in bytes. */
static sqlite3_uint64 most_len(sqlite3_context *context) {
    int limit = sqlite3_limit(sqlite3_context_db_handle(context), SQLITE_LIMIT_LENGTH, -1);
    return (sqlite3_uint64)limit < LEAST_ROOM ? LEAST_ROOM : (sqlite3_uint64)limit;
}

/* The greatest number of references to groups in a template. */
static sqlite3_uint64 dollars_in(Bytes template) {
    sqlite3_uint64 count = 0;
    for (size_t i = 0; i < template.len; i++) count += template.at[i] == '$';
    return count;
}

/* Whether the new text has at most this many bytes even if each $ stands for the whole match. The
 * library makes the whole text before it returns its length, and a short template can make a very
 * long text out of a long one, so this is checked before. */
static bool is_bounded(const Replacement *replacement, sqlite3_uint64 most, Refusal *refusal) {
    sqlite3_uint64 dollars = dollars_in(replacement->template), len = replacement->text.len;
    sqlite3_uint64 matches = 0;
    const regex_lite_span *match;
    Batches batches;
    if (len + (len + 1) * replacement->template.len + dollars * len <= most) return true;
    begin_batches(&batches, replacement->pattern, replacement->text, fetch_matches);
    while (len <= most && (match = next_item(&batches, refusal)) != NULL) {
        len += replacement->template.len + dollars * (match->end - match->start);
        if (++matches == replacement->how.limit) break;
    }
    end_batches(&batches);
    return len <= most;
}

/* Replaces into new memory with this much room. Returns NULL on an error, or if there is too little
 * room, which is not an error. */
static uint8_t *replace_into(Replacement *replacement, size_t room, Refusal *refusal) {
    Bytes text = replacement->text, template = replacement->template;
    uint8_t *new = sqlite3_malloc64(room + 1);
    if (new == NULL) {
        *refusal = NO_MEMORY;
        return NULL;
    }
    regex_lite_answer answer =
        regex_lite_replace(regex_of(replacement->pattern), text.at, text.len, template.at,
                           template.len, &replacement->how, new, room);
    if (answer == REGEX_LITE_YES) return new;
    sqlite3_free(new);
    if (answer == REGEX_LITE_NOT_TEXT && valid_len(text) == text.len)
        *refusal = refused_bytes("replacement", template);
    else if (answer != REGEX_LITE_NO_ROOM)
        *refusal = refused_search(answer, text);
    return NULL;
}

/* Returns the new text of a replacement. */
static void replace(sqlite3_context *context, Replacement *replacement) {
    Refusal refusal = NOT_REFUSED;
    if (!is_bounded(replacement, most_len(context), &refusal)) {
        sqlite3_result_error_toobig(context);
        return;
    }
    size_t len = replacement->text.len;
    // As a rule a text grows little, and then one pass is enough.
    uint8_t *new = NULL;
    if (refusal.code == SQLITE_OK) new = replace_into(replacement, len + len / 4 + 64, &refusal);
    if (new == NULL && refusal.code == SQLITE_OK && is_interrupted(context)) {
        sqlite3_result_error_code(context, SQLITE_INTERRUPT);
        return;
    }
    if (new == NULL && refusal.code == SQLITE_OK)
        new = replace_into(replacement, replacement->how.len, &refusal);
    if (new == NULL)
        return_refusal(context, refusal);
    else
        sqlite3_result_text64(context, (char *)new, replacement->how.len, sqlite3_free,
                              SQLITE_UTF8);
}

void sql_replace(sqlite3_context *context, int count, sqlite3_value **arguments) {
    Replacement replacement = {.how = REGEX_LITE_ALL};
    sqlite3_int64 limit = 0;
    if (has_null(count, arguments)) return;
    replacement.pattern = pattern_argument(context, arguments, 1);
    if (replacement.pattern == NULL || !text_argument(context, arguments[0], &replacement.text) ||
        !text_argument(context, arguments[2], &replacement.template))
        return;
    if (count == 4 && !number_argument(context, arguments[3], "limit", 0, &limit)) return;
    replacement.how.limit = (size_t)limit;
    replace(context, &replacement);
}

void sql_escape(sqlite3_context *context, int count, sqlite3_value **arguments) {
    Bytes text;
    size_t len = 0;
    if (has_null(count, arguments) || !text_argument(context, arguments[0], &text)) return;
    // A character becomes at most two, each of one byte.
    size_t room = 2 * text.len + 1;
    uint8_t *pattern = sqlite3_malloc64(room);
    if (pattern == NULL) {
        return_refusal(context, NO_MEMORY);
        return;
    }
    regex_lite_answer answer = regex_lite_escape(text.at, text.len, pattern, room, &len);
    if (answer == REGEX_LITE_YES) {
        sqlite3_result_text64(context, (char *)pattern, len, sqlite3_free, SQLITE_UTF8);
        return;
    }
    sqlite3_free(pattern);
    return_refusal(context, refused_search(answer, text));
}
