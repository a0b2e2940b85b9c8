/* The table-valued functions. The client data of each module are the patterns of its connection. */
#ifndef ROWS_H
#define ROWS_H

#include "host.h"

/* regex_lite_matches(text, pattern): all matches of a text. */
extern const sqlite3_module matches_module;

/* regex_lite_split(text, pattern): the pieces before, between and after the matches. */
extern const sqlite3_module split_module;

#endif
