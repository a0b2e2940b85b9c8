/* Texts as bytes, and positions in them: SQL counts characters, the library bytes. */
#ifndef TEXTS_H
#define TEXTS_H

#include "postgres.h"

typedef struct Bytes {
    const uint8 *at;
    size_t len;
} Bytes;

/* A position in a text that only moves forward, so that all steps together take linear time. */
typedef struct Place {
    size_t offset;   /* in bytes */
    int32 character; /* the number of the character there, from 1 on */
} Place;

/* The start of a text. */
#define FIRST_PLACE ((Place){0, 1})

/* The bytes of a text, which aren't copied. */
extern Bytes bytes_of(const text *value);

/* A new text of these bytes. */
extern text *text_of(Bytes bytes);

/* The bytes from an offset to another. */
extern Bytes part_of(Bytes bytes, size_t start, size_t end);

/* The number of characters of these bytes. */
extern int32 characters_in(Bytes bytes);

/* Moves a position to an offset that isn't before it. */
extern void move_to(Place *place, Bytes bytes, size_t offset);

/* Writes the offset at which a character begins, counted from 1 on, or would begin directly behind
 * the last. Returns false if there are fewer. */
extern bool offset_of(Bytes bytes, int32 character, size_t *offset);

#endif
