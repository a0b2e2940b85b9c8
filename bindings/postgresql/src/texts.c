#include "texts.h"

#include "utils/builtins.h"

Bytes bytes_of(const text *value) {
    return (Bytes){(const uint8 *)VARDATA_ANY(value), VARSIZE_ANY_EXHDR(value)};
}

text *text_of(Bytes bytes) {
    return cstring_to_text_with_len((const char *)bytes.at, (int)bytes.len);
}

Bytes part_of(Bytes bytes, size_t start, size_t end) {
    return (Bytes){bytes.at + start, end - start};
}

static bool begins_character(uint8 byte) {
    return (byte & 0xC0) != 0x80;
}

int32 characters_in(Bytes bytes) {
    int32 count = 0;
    for (size_t i = 0; i < bytes.len; i++)
        count += begins_character(bytes.at[i]);
    return count;
}

void move_to(Place *place, Bytes bytes, size_t offset) {
    place->character += characters_in(part_of(bytes, place->offset, offset));
    place->offset = offset;
}

bool offset_of(Bytes bytes, int32 character, size_t *offset) {
    size_t at = 0;
    for (int32 left = character - 1; left > 0; left--) {
        if (at == bytes.len)
            return false;
        do
            at++;
        while (at < bytes.len && !begins_character(bytes.at[at]));
    }
    *offset = at;
    return true;
}
