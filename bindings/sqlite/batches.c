#include "batches.h"

#define FIRST_ROOM 64 /* spans, which a short text may never fill */
#define GROWTH 4
/* Each batch reads the whole text once. To make that at most some 16 times for each span of an
 * item, a batch has room for a 16th of the bytes of a text, or for this many. */
#define LARGE_ROOM 4096
#define BYTES_FOR_SPAN 16

regex_lite_answer fetch_matches(Batches *batches) {
    return regex_lite_find_all(regex_of(batches->pattern), batches->text.at, batches->text.len,
                               &batches->cut.walk, batches->spans, batches->room,
                               &batches->count);
}

regex_lite_answer fetch_groups(Batches *batches) {
    return regex_lite_captures_all(regex_of(batches->pattern), batches->text.at,
                                   batches->text.len, &batches->cut.walk, batches->spans,
                                   batches->room, &batches->count);
}

regex_lite_answer fetch_pieces(Batches *batches) {
    return regex_lite_split(regex_of(batches->pattern), batches->text.at, batches->text.len,
                            &batches->cut, batches->spans, batches->room, &batches->count);
}

void begin_batches(Batches *batches, Pattern *pattern, Bytes text, Fetch fetch) {
    *batches = (Batches){.pattern = hold(pattern),
                         .text = text,
                         .fetch = fetch,
                         .cut = REGEX_LITE_UNCUT,
                         .width = fetch == fetch_groups ? groups_of(pattern) : 1};
}

void end_batches(Batches *batches) {
    if (batches->pattern != NULL) let_go(batches->pattern);
    sqlite3_free(batches->spans);
    *batches = NO_BATCHES;
}

static size_t least(size_t one, size_t other) {
    return one < other ? one : other;
}

static size_t most(size_t one, size_t other) {
    return one < other ? other : one;
}

/* Makes room for the next batch, which is larger than the last. Returns false without memory. */
static bool make_room(Batches *batches) {
    size_t large = most(LARGE_ROOM, batches->text.len / BYTES_FOR_SPAN);
    size_t room = batches->room == 0 ? FIRST_ROOM : least(batches->room * GROWTH, large);
    room = most(room, batches->width);
    if (room == batches->room) return true;
    sqlite3_free(batches->spans);
    batches->spans = sqlite3_malloc64(room * sizeof *batches->spans);
    batches->room = batches->spans == NULL ? 0 : room;
    return batches->spans != NULL;
}

const regex_lite_span *next_item(Batches *batches, Refusal *refusal) {
    if (batches->next == batches->count) {
        batches->next = batches->count = 0;
        if (!make_room(batches)) {
            *refusal = NO_MEMORY;
            return NULL;
        }
        regex_lite_answer answer = batches->fetch(batches);
        if (answer == REGEX_LITE_NO) return NULL;
        // If memory runs out, the matches before that have been written, if there are any.
        if (answer != REGEX_LITE_YES) {
            *refusal = refused_search(answer, batches->text);
            return NULL;
        }
    }
    return &batches->spans[batches->width * batches->next++];
}
