/* The matches or the pieces of a text, in batches: the library writes many at a time. */
#ifndef BATCHES_H
#define BATCHES_H

#include "patterns.h"

typedef struct Batches Batches;

/* Fetches the next items, as many as there is room for. */
typedef regex_lite_answer (*Fetch)(Batches *batches);

/* All matches, each with its groups, and all pieces, each of one span. */
extern regex_lite_answer fetch_matches(Batches *batches);
extern regex_lite_answer fetch_pieces(Batches *batches);

struct Batches {
    MemoryContext context;          /* of these batches, and of their spans */
    MemoryContextCallback callback; /* unpins the pattern when the context is reset */
    Pattern *pattern;               /* pinned, or NULL */
    Fetch fetch;
    Bytes searched;
    regex_lite_cut cut; /* the position in the text */
    regex_lite_span *spans;
    size_t room;   /* the capacity in spans */
    size_t groups; /* the number of spans of an item */
    size_t count;  /* the number of items that are fetched */
    size_t next;   /* the next of these */
};

/* The start of these items in a text, which has to last as long as the context. They are in the
 * context, and are over when it is reset. Raises an error if the pattern is rejected. */
extern Batches *begin_batches(MemoryContext context, Bytes searched, Bytes pattern, Fetch fetch);

/* The spans of the next item, which are lent until the next call; NULL if none is left. */
extern const regex_lite_span *next_item(Batches *batches);

#endif
