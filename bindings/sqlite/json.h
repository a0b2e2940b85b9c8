/* Texts as an array of JSON. */
#ifndef JSON_H
#define JSON_H

#include "texts.h"

/* Makes the texts of these spans the result of a column, as an array of JSON: a string for each
 * that exists, otherwise null. */
void return_json(sqlite3_context *context, Bytes text, const regex_lite_span *spans, size_t count);

#endif
