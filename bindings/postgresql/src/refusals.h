/* Failures of the library, as errors of SQL. */
#ifndef REFUSALS_H
#define REFUSALS_H

#include "texts.h"

#include <regex_lite.h>

/* Raises an error unless the encoding of the database is UTF-8, which the library reads. */
extern void require_utf8(void);

/* Raises the error of a pattern for which regex_lite_new has returned this answer and message. */
extern void refuse_pattern(regex_lite_answer answer, Bytes message, Bytes pattern)
    pg_attribute_noreturn();

/* Whether a search has found something. Raises an error if its answer is neither yes nor no. */
extern bool is_yes(regex_lite_answer answer);

/* Raises the error of an answer of a call that failed. */
extern void refuse(regex_lite_answer answer) pg_attribute_noreturn();

#endif
