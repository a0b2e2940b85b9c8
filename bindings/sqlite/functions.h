/* The functions of SQL. The user data of each are the patterns of its connection. */
#ifndef FUNCTIONS_H
#define FUNCTIONS_H

#include "patterns.h"

/* Whether one of the arguments is null. Then a function returns, since its result is null. */
bool has_null(int count, sqlite3_value **arguments);

/* Reads an argument as text. Returns false if memory ran out, which is then the result. */
bool text_argument(sqlite3_context *context, sqlite3_value *argument, Bytes *text);

/* Reads an argument as a whole number that is at least this. Returns false if it isn't one, and
 * makes an error the result, whose text has the name of the number, such as "start". */
bool number_argument(sqlite3_context *context, sqlite3_value *argument, const char *what,
                     sqlite3_int64 least, sqlite3_int64 *number);

/* regexp(pattern, text), as which SQLite calls text REGEXP pattern. */
void sql_regexp(sqlite3_context *context, int count, sqlite3_value **arguments);

/* regex_lite_is_match(text, pattern) */
void sql_is_match(sqlite3_context *context, int count, sqlite3_value **arguments);

/* regex_lite_find(text, pattern [, start]) */
void sql_find(sqlite3_context *context, int count, sqlite3_value **arguments);

/* regex_lite_capture(text, pattern, group) */
void sql_capture(sqlite3_context *context, int count, sqlite3_value **arguments);

/* regex_lite_replace(text, pattern, replacement [, limit]) */
void sql_replace(sqlite3_context *context, int count, sqlite3_value **arguments);

/* regex_lite_escape(text) */
void sql_escape(sqlite3_context *context, int count, sqlite3_value **arguments);

/* regex_lite_version() */
void sql_version(sqlite3_context *context, int count, sqlite3_value **arguments);

/* regex_lite_size_limit([limit]) */
void sql_size_limit(sqlite3_context *context, int count, sqlite3_value **arguments);

#endif
