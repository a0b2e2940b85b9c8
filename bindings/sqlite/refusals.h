/* Failures, as errors of SQL. */
#ifndef REFUSALS_H
#define REFUSALS_H

#include "texts.h"

/* Why a call failed: a code of SQLite, and a text, which sqlite3_free frees. The text is null if
 * memory ran out. */
typedef struct Refusal {
    int code;
    char *text;
} Refusal;

#define NOT_REFUSED ((Refusal){SQLITE_OK, NULL})
#define NO_MEMORY ((Refusal){SQLITE_NOMEM, NULL})

/* A refusal with a text, in the format of sqlite3_mprintf. */
Refusal refused(const char *format, ...);

/* The refusal of bytes that are not UTF-8; its text says what they are, such as "text". */
Refusal refused_bytes(const char *what, Bytes bytes);

/* The refusal of a pattern for which regex_lite_new has returned this answer and this message. */
Refusal refused_pattern(regex_lite_answer answer, Bytes message, Bytes pattern);

/* The refusal of a search in a text, for which a call has returned this answer, neither
 * REGEX_LITE_YES nor REGEX_LITE_NO. */
Refusal refused_search(regex_lite_answer answer, Bytes text);

/* Makes a refusal the result of a function or of a column. */
void return_refusal(sqlite3_context *context, Refusal refusal);

#endif
