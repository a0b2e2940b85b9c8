#include "patterns.h"
#include "settings.h"

#include "common/hashfn.h"
#include "lib/ilist.h"
#include "miscadmin.h"
#include "utils/memutils.h"

#define BUCKETS 1024 /* a power of two */
#define MOST_MESSAGE 100
/* The greatest sizes of the cache, besides what is pinned and the pattern that was used last. */
#define MOST_PATTERNS 1000
#define MOST_BYTES ((size_t)1 << 20)
#define MOST_PLACES 500000 /* at some 32 bytes each */

struct Pattern {
    dlist_node bucket; /* among those whose hashes have the same last bits */
    dlist_node age;    /* among those that nothing pins, the most recently used first */
    uint32 hash;
    uint32 pins;
    int size_limit; /* the size limit under which it was built */
    regex_lite regex;
    size_t places;
    size_t len;
    uint8 bytes[FLEXIBLE_ARRAY_MEMBER];
};

/* The memo of an expression: the pattern that it has used last. */
typedef struct Memo {
    Pattern *pattern; /* is gone if the number of dropped patterns has changed since */
    uint64 dropped;
} Memo;

typedef struct Cache {
    MemoryContext context; /* NULL until a pattern is built */
    dlist_head buckets[BUCKETS];
    dlist_head ages;
    size_t count, bytes, places; /* of all patterns */
    uint64 dropped;              /* the number of dropped patterns */
} Cache;

static Cache cache;

/* Whether these bytes, built now, would give this pattern. */
static bool is_same(const Pattern *pattern, Bytes bytes) {
    return pattern->len == bytes.len && pattern->size_limit == size_limit &&
           memcmp(pattern->bytes, bytes.at, bytes.len) == 0;
}

static Pattern *find(uint32 hash, Bytes bytes) {
    dlist_iter at;
    if (cache.context == NULL)
        return NULL;
    dlist_foreach(at, &cache.buckets[hash % BUCKETS]) {
        Pattern *pattern = dlist_container(Pattern, bucket, at.cur);
        if (pattern->hash == hash && is_same(pattern, bytes))
            return pattern;
    }
    return NULL;
}

/* Makes the context of the cache. The lists of a cache without a context are not there yet. */
static void make_cache(void) {
    if (cache.context != NULL)
        return;
    for (size_t i = 0; i < BUCKETS; i++)
        dlist_init(&cache.buckets[i]);
    dlist_init(&cache.ages);
    cache.context =
        AllocSetContextCreate(TopMemoryContext, "regex_lite patterns", ALLOCSET_DEFAULT_SIZES);
}

static void drop(Pattern *pattern) {
    dlist_delete(&pattern->bucket);
    dlist_delete(&pattern->age);
    cache.count--;
    cache.bytes -= pattern->len;
    cache.places -= pattern->places;
    cache.dropped++;
    regex_lite_free(&pattern->regex);
    pfree(pattern);
}

/* Drops the least recently used patterns until the cache is within its bounds. The most recently
 * used one stays, since it is in use. */
static void shrink(void) {
    while (cache.count > MOST_PATTERNS || cache.bytes > MOST_BYTES || cache.places > MOST_PLACES) {
        if (dlist_is_empty(&cache.ages) || !dlist_has_next(&cache.ages, cache.ages.head.next))
            return;
        drop(dlist_tail_element(Pattern, age, &cache.ages));
    }
}

/* A pattern that isn't in the cache yet. The server's memory is requested first: an error there
 * loses nothing of the library's, and after regex_lite_new the only error is its own, with which
 * the handle holds nothing. */
static Pattern *build(uint32 hash, Bytes bytes) {
    Pattern *made =
        MemoryContextAllocHuge(cache.context, sizeof(Pattern) + bytes.len);
    regex_lite_options options = REGEX_LITE_DEFAULTS;
    uint8 message[MOST_MESSAGE];
    size_t message_len = 0;
    options.size_limit = (size_t)size_limit;
    *made = (Pattern){.hash = hash, .size_limit = size_limit, .regex = REGEX_LITE_NOTHING,
                      .len = bytes.len};
    memcpy(made->bytes, bytes.at, bytes.len);
    regex_lite_answer answer = regex_lite_new(&made->regex, bytes.at, bytes.len, &options, message,
                                              sizeof message, &message_len);
    if (answer != REGEX_LITE_YES) {
        pfree(made);
        refuse_pattern(answer, (Bytes){message, message_len}, bytes);
    }
    made->places = regex_lite_places(&made->regex);
    return made;
}

static void keep(Pattern *made) {
    dlist_push_head(&cache.buckets[made->hash % BUCKETS], &made->bucket);
    dlist_push_head(&cache.ages, &made->age);
    cache.count++;
    cache.bytes += made->len;
    cache.places += made->places;
    shrink();
}

/* Records that a pattern is used now. */
static void touch(Pattern *pattern) {
    if (pattern->pins == 0)
        dlist_move_head(&cache.ages, &pattern->age);
}

static Pattern *pattern_for(Bytes bytes) {
    uint32 hash = hash_bytes(bytes.at, (int)bytes.len);
    Pattern *found = find(hash, bytes);
    if (found != NULL) {
        touch(found);
        return found;
    }
    make_cache();
    Pattern *made = build(hash, bytes);
    keep(made);
    return made;
}

/* The memo of an expression, which lives as long as that. */
static Memo *memo_of(FunctionCallInfo fcinfo) {
    FmgrInfo *called = fcinfo->flinfo;
    if (called->fn_extra == NULL)
        called->fn_extra = MemoryContextAllocZero(called->fn_mcxt, sizeof(Memo));
    return called->fn_extra;
}

regex_lite *regex_for(FunctionCallInfo fcinfo, Bytes bytes) {
    CHECK_FOR_INTERRUPTS();
    Memo *memo = memo_of(fcinfo);
    bool is_kept = memo->pattern != NULL && memo->dropped == cache.dropped;
    if (is_kept && is_same(memo->pattern, bytes)) {
        touch(memo->pattern);
        return &memo->pattern->regex;
    }
    require_utf8();
    memo->pattern = pattern_for(bytes);
    memo->dropped = cache.dropped;
    return &memo->pattern->regex;
}

Pattern *pin_pattern(Bytes bytes) {
    CHECK_FOR_INTERRUPTS();
    require_utf8();
    Pattern *pattern = pattern_for(bytes);
    if (pattern->pins++ == 0)
        dlist_delete(&pattern->age);
    return pattern;
}

void unpin_pattern(Pattern *pattern) {
    if (--pattern->pins > 0)
        return;
    dlist_push_head(&cache.ages, &pattern->age);
    shrink();
}

regex_lite *regex_of(Pattern *pattern) {
    return &pattern->regex;
}
