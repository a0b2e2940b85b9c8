#include "refusals.h"

#include <stdarg.h>

#define MOST_MESSAGE 100 /* bytes, as the library says */

Refusal refused(const char *format, ...) {
    va_list arguments;
    va_start(arguments, format);
    char *text = sqlite3_vmprintf(format, arguments);
    va_end(arguments);
    return text == NULL ? NO_MEMORY : (Refusal){SQLITE_ERROR, text};
}

Refusal refused_bytes(const char *what, Bytes bytes) {
    return refused("regex_lite: the %s is not UTF-8 from byte %llu on", what,
                   (sqlite3_uint64)valid_len(bytes) + 1);
}

/* The refusal of a pattern with a fault at this place. */
static Refusal refused_syntax(Bytes message, Bytes pattern, const regex_lite_fault *fault) {
    Place place = FIRST_PLACE;
    move_to(&place, pattern, fault->start);
    sqlite3_int64 first = place.character;
    move_to(&place, pattern, fault->end);
    const char *said = (const char *)message.at;
    if (fault->is_cut_short)
        return refused("regex_lite: invalid pattern: %.*s; it ends within what begins at "
                       "character %lld", (int)message.len, said, first);
    return refused("regex_lite: invalid pattern: %.*s; see its characters %lld to %lld",
                   (int)message.len, said, first, place.character - 1);
}

Refusal refused_pattern(regex_lite_answer answer, Bytes message, Bytes pattern) {
    regex_lite_options options = REGEX_LITE_DEFAULTS;
    regex_lite_fault fault;
    if (answer == REGEX_LITE_OUT_OF_MEMORY) return NO_MEMORY;
    if (answer == REGEX_LITE_NOT_TEXT) return refused_bytes("pattern", pattern);
    if (answer == REGEX_LITE_SYNTAX) {
        regex_lite_answer has = regex_lite_fault_at(pattern.at, pattern.len, &options, &fault);
        if (has == REGEX_LITE_OUT_OF_MEMORY) return NO_MEMORY;
        if (has == REGEX_LITE_YES) return refused_syntax(message, pattern, &fault);
    }
    return refused("regex_lite: invalid pattern: %.*s", (int)message.len,
                   (const char *)message.at);
}

Refusal refused_search(regex_lite_answer answer, Bytes text) {
    uint8_t said[MOST_MESSAGE];
    size_t len = 0;
    if (answer == REGEX_LITE_OUT_OF_MEMORY) return NO_MEMORY;
    if (answer == REGEX_LITE_NOT_TEXT) return refused_bytes("text", text);
    if (regex_lite_strerror(answer, said, sizeof said, &len) != REGEX_LITE_YES) len = 0;
    return refused("regex_lite: %.*s", (int)len, (const char *)said);
}

void return_refusal(sqlite3_context *context, Refusal refusal) {
    if (refusal.text == NULL) {
        sqlite3_result_error_nomem(context);
        return;
    }
    sqlite3_result_error(context, refusal.text, -1);
    sqlite3_free(refusal.text);
}
