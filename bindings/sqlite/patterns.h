/* The patterns of a connection, which are built once and kept.
 *
 * The library's calls may not use one handle at the same time. SQLite lets one thread at a time
 * into a connection, and no call here runs within another, so that patterns need no lock of their
 * own. */
#ifndef PATTERNS_H
#define PATTERNS_H

#include "refusals.h"

/* A pattern that has been built. */
typedef struct Pattern Pattern;

/* The cache of patterns of a connection. */
typedef struct Patterns Patterns;

/* An empty cache, with one owner; NULL if memory ran out. */
Patterns *new_patterns(void);

/* Gives the patterns one more owner. */
Patterns *share_patterns(Patterns *patterns);

/* Takes an owner from patterns, which are freed when they have none. */
void leave_patterns(void *patterns);

/* How large a pattern may become when compiled. */
size_t size_limit(const Patterns *patterns);

/* Sets how large a pattern may become, and clears the cache. */
void set_size_limit(Patterns *patterns, size_t limit);

/* The pattern with these bytes, which is built if it isn't cached; NULL with the reason if it is
 * rejected. It lives until another is requested, or as long as it is held. */
Pattern *pattern_with(Patterns *patterns, Bytes bytes, Refusal *refusal);

/* Holds a pattern, until it is let go. */
Pattern *hold(Pattern *pattern);
void let_go(void *pattern);

/* The pattern in an argument of a function, whose user data are Patterns. One that is the same for
 * all rows is kept by the statement. Returns NULL if it is rejected, and makes the error the
 * result. */
Pattern *pattern_argument(sqlite3_context *context, sqlite3_value **arguments, int index);

/* The regex of a pattern, the number of its groups, and its bytes. */
regex_lite *regex_of(Pattern *pattern);
size_t groups_of(const Pattern *pattern);
Bytes bytes_of(const Pattern *pattern);

#endif
