/* Texts as bytes, and positions in them: SQL counts characters, the library bytes. */
#ifndef TEXTS_H
#define TEXTS_H

#include "host.h"

#include <regex_lite.h>

typedef struct Bytes {
    const uint8_t *at;
    size_t len;
} Bytes;

/* A position in a text that only moves forward, so that all steps together take linear time. */
typedef struct Place {
    size_t offset;           /* in bytes */
    sqlite3_int64 character; /* the number of the character there, from 1 on */
} Place;

/* The start of a text. */
#define FIRST_PLACE ((Place){0, 1})

/* Writes the bytes of a value that isn't null: a blob as it is, all else as text. They live as long
 * as the value isn't changed. Returns false if memory ran out. */
bool read_bytes(sqlite3_value *value, Bytes *bytes);

/* The bytes from an offset to another. */
Bytes part_of(Bytes bytes, size_t start, size_t end);

/* The number of characters of these bytes. */
sqlite3_int64 characters_in(Bytes bytes);

/* The number of bytes before the first that isn't part of a whole character of UTF-8. */
size_t valid_len(Bytes bytes);

/* Moves a position to an offset that isn't before it. */
void move_to(Place *place, Bytes bytes, size_t offset);

/* Writes the offset at which a character begins, counted from 1 on, or would begin directly behind
 * the last. Returns false if there are fewer. */
bool offset_of(Bytes bytes, sqlite3_int64 character, size_t *offset);

/* Makes some bytes the result of a function or of a column, as text. */
void return_text(sqlite3_context *context, Bytes bytes);

#endif
