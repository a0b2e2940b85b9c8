#include "batches.h"

#include "miscadmin.h"
#include "utils/memutils.h"

#define FIRST_ROOM 64 /* spans, which a short text may never fill */
#define GROWTH 4
/* Each batch reads the whole text once. To make that at most some 16 times for each span of an
 * item, a batch has room for a 16th of the bytes of a text, or for this many. */
#define LARGE_ROOM 4096
#define BYTES_FOR_SPAN 16

regex_lite_answer fetch_matches(Batches *batches) {
    regex_lite *regex = regex_of(batches->pattern);
    Bytes searched = batches->searched;
    // A search for matches without their groups is the faster one.
    if (batches->groups == 1)
        return regex_lite_find_all(regex, searched.at, searched.len, &batches->cut.walk,
                                   batches->spans, batches->room, &batches->count);
    return regex_lite_captures_all(regex, searched.at, searched.len, &batches->cut.walk,
                                   batches->spans, batches->room, &batches->count);
}

regex_lite_answer fetch_pieces(Batches *batches) {
    return regex_lite_split(regex_of(batches->pattern), batches->searched.at,
                            batches->searched.len, &batches->cut, batches->spans, batches->room,
                            &batches->count);
}

static void end_batches(void *argument) {
    Batches *batches = argument;
    if (batches->pattern != NULL)
        unpin_pattern(batches->pattern);
}

Batches *begin_batches(MemoryContext context, Bytes searched, Bytes pattern, Fetch fetch) {
    Batches *batches = MemoryContextAlloc(context, sizeof *batches);
    *batches = (Batches){.context = context,
                         .callback = {.func = end_batches, .arg = batches},
                         .fetch = fetch,
                         .searched = searched,
                         .cut = REGEX_LITE_UNCUT};
    // It is registered before the pattern is pinned, so that no error in between leaves a pin.
    MemoryContextRegisterResetCallback(context, &batches->callback);
    batches->pattern = pin_pattern(pattern);
    batches->groups =
        fetch == fetch_matches ? regex_lite_groups(regex_of(batches->pattern)) : 1;
    return batches;
}

/* Makes room for the next batch, which is larger than the last. */
static void make_room(Batches *batches) {
    size_t most = Max(LARGE_ROOM, batches->searched.len / BYTES_FOR_SPAN);
    size_t room = batches->room == 0 ? FIRST_ROOM : Min(batches->room * GROWTH, most);
    room = Max(room, batches->groups);
    if (room == batches->room)
        return;
    if (batches->spans != NULL)
        pfree(batches->spans);
    batches->spans = NULL;
    batches->spans = MemoryContextAllocHuge(batches->context, room * sizeof *batches->spans);
    batches->room = room;
}

const regex_lite_span *next_item(Batches *batches) {
    CHECK_FOR_INTERRUPTS();
    if (batches->next == batches->count) {
        make_room(batches);
        batches->next = batches->count = 0;
        if (!is_yes(batches->fetch(batches)))
            return NULL;
    }
    return &batches->spans[batches->groups * batches->next++];
}
