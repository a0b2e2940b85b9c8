/* The patterns that a backend has built and keeps.
 *
 * The memory of a regex is the library's, outside the server's contexts, so only the cache here
 * owns it. An error that leaves a function early therefore loses none. The cache holds a bounded
 * number of patterns, and evicts the least recently used one. */
#ifndef PATTERNS_H
#define PATTERNS_H

#include "refusals.h"

#include "fmgr.h"

/* A pattern of the cache. */
typedef struct Pattern Pattern;

/* The regex of a pattern, built unless it is cached. It lives until the next call of this function
 * or of pin_pattern. What the last call of the same expression has used is found without a look-up.
 * Raises an error if the pattern is rejected, and lets a query be cancelled. */
extern regex_lite *regex_for(FunctionCallInfo fcinfo, Bytes pattern);

/* The pattern, which the cache keeps until it is unpinned as often. Raises the same errors. */
extern Pattern *pin_pattern(Bytes pattern);
extern void unpin_pattern(Pattern *pattern);

/* The regex of a pattern that is pinned. */
extern regex_lite *regex_of(Pattern *pattern);

#endif
