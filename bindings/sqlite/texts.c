#include "texts.h"

bool read_bytes(sqlite3_value *value, Bytes *bytes) {
    bool is_blob = sqlite3_value_type(value) == SQLITE_BLOB;
    const void *at = is_blob ? sqlite3_value_blob(value) : sqlite3_value_text(value);
    bytes->len = (size_t)sqlite3_value_bytes(value);
    // An empty blob has no address, and the library takes none that is null.
    bytes->at = at == NULL ? (const uint8_t *)"" : at;
    return at != NULL || (is_blob && bytes->len == 0);
}

Bytes part_of(Bytes bytes, size_t start, size_t end) {
    return (Bytes){bytes.at + start, end - start};
}

static bool begins_character(uint8_t byte) {
    return (byte & 0xC0) != 0x80;
}

sqlite3_int64 characters_in(Bytes bytes) {
    sqlite3_int64 count = 0;
    for (size_t i = 0; i < bytes.len; i++) count += begins_character(bytes.at[i]);
    return count;
}

/* The length of the character that begins with this byte, if one does. */
static size_t width_by(uint8_t first) {
    if (first < 0xC0) return 1;
    if (first < 0xE0) return 2;
    return first < 0xF0 ? 3 : 4;
}

size_t valid_len(Bytes bytes) {
    size_t at = 0;
    while (at < bytes.len) {
        size_t width = width_by(bytes.at[at]);
        if (width > bytes.len - at || !regex_lite_is_text(bytes.at + at, width)) break;
        at += width;
    }
    return at;
}

void move_to(Place *place, Bytes bytes, size_t offset) {
    place->character += characters_in(part_of(bytes, place->offset, offset));
    place->offset = offset;
}

bool offset_of(Bytes bytes, sqlite3_int64 character, size_t *offset) {
    size_t at = 0;
    for (sqlite3_int64 left = character - 1; left > 0; left--) {
        if (at == bytes.len) return false;
        do
            at++;
        while (at < bytes.len && !begins_character(bytes.at[at]));
    }
    *offset = at;
    return true;
}

void return_text(sqlite3_context *context, Bytes bytes) {
    sqlite3_result_text64(context, (const char *)bytes.at, bytes.len, SQLITE_TRANSIENT,
                          SQLITE_UTF8);
}
