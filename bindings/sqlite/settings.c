/* The version of the library, and how large patterns may become. */
#include "functions.h"

#define MOST_VERSION 50 /* bytes; ten more than the version of the header are enough */

void sql_version(sqlite3_context *context, int count, sqlite3_value **arguments) {
    uint8_t version[MOST_VERSION];
    size_t len = 0;
    (void)count, (void)arguments;
    if (regex_lite_version(version, sizeof version, &len) == REGEX_LITE_YES)
        return_text(context, (Bytes){version, len});
}

void sql_size_limit(sqlite3_context *context, int count, sqlite3_value **arguments) {
    Patterns *patterns = sqlite3_user_data(context);
    sqlite3_int64 limit;
    if (has_null(count, arguments)) return;
    if (count == 1) {
        if (!number_argument(context, arguments[0], "size limit", 0, &limit)) return;
        set_size_limit(patterns, (size_t)limit);
    }
    sqlite3_result_int64(context, (sqlite3_int64)size_limit(patterns));
}
