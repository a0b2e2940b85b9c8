/* All matches in a text, or the pieces between them, which are fetched in batches. */
#ifndef BATCHES_H
#define BATCHES_H

#include "patterns.h"

typedef struct Batches Batches;

/* Writes the next items of a text to the spans, and their number to the count. */
typedef regex_lite_answer (*Fetch)(Batches *batches);

/* The source of the items of a text. An item has one span, or as many as a match has groups. */
struct Batches {
    Pattern *pattern; /* held */
    Bytes text;       /* the caller's */
    Fetch fetch;
    regex_lite_cut cut;
    regex_lite_span *spans;
    size_t room;  /* in spans */
    size_t width; /* the number of spans of an item */
    size_t count, next;
};

/* No items. */
#define NO_BATCHES ((Batches){.width = 1})

regex_lite_answer fetch_matches(Batches *batches);
regex_lite_answer fetch_groups(Batches *batches);
regex_lite_answer fetch_pieces(Batches *batches);

/* Begins with the items of a text, which has to live as long as they are fetched. */
void begin_batches(Batches *batches, Pattern *pattern, Bytes text, Fetch fetch);

/* Frees the memory of the items. */
void end_batches(Batches *batches);

/* The spans of the next item. NULL if none is left, or on an error, which the refusal then has. */
const regex_lite_span *next_item(Batches *batches, Refusal *refusal);

#endif
