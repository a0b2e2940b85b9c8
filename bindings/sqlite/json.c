#include "json.h"

static bool is_plain(uint8_t byte) {
    return byte >= ' ' && byte != '"' && byte != '\\';
}

/* Writes some text as a string of JSON. Its plain parts are written at once. */
static void append_string(sqlite3_str *written, Bytes text) {
    size_t done = 0;
    sqlite3_str_appendchar(written, 1, '"');
    for (size_t at = 0; at <= text.len; at++) {
        if (at < text.len && is_plain(text.at[at])) continue;
        sqlite3_str_append(written, (const char *)text.at + done, (int)(at - done));
        if (at < text.len) sqlite3_str_appendf(written, "\\u%04x", text.at[at]);
        done = at + 1;
    }
    sqlite3_str_appendchar(written, 1, '"');
}

void return_json(sqlite3_context *context, Bytes text, const regex_lite_span *spans, size_t count) {
    sqlite3_str *written = sqlite3_str_new(sqlite3_context_db_handle(context));
    for (size_t i = 0; i < count; i++) {
        sqlite3_str_appendchar(written, 1, i == 0 ? '[' : ',');
        if (spans[i].is_there)
            append_string(written, part_of(text, spans[i].start, spans[i].end));
        else
            sqlite3_str_appendall(written, "null");
    }
    sqlite3_str_appendchar(written, 1, ']');
    int code = sqlite3_str_errcode(written);
    int len = sqlite3_str_length(written);
    char *json = sqlite3_str_finish(written);
    if (code != SQLITE_OK)
        sqlite3_result_error_code(context, code);
    else
        sqlite3_result_text(context, json, len, sqlite3_free);
}
