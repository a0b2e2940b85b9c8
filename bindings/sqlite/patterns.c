#include "patterns.h"

#include <string.h>

#define BUCKETS 1024 /* a power of two */
#define MOST_MESSAGE 100
/* The greatest sizes of a connection's cache, besides the pattern that was used last. */
#define MOST_PATTERNS 1000
#define MOST_BYTES ((size_t)1 << 20)
#define MOST_PLACES 500000 /* at some 32 bytes each */

struct Pattern {
    Pattern *next;          /* in its bucket */
    Pattern *newer, *older; /* by their last use */
    uint64_t hash;
    size_t holders; /* the connection's patterns are one, while it is among them */
    regex_lite regex;
    size_t places, groups;
    size_t len;
    uint8_t bytes[];
};

struct Patterns {
    size_t owners;
    size_t size_limit;
    Pattern *buckets[BUCKETS];
    Pattern *newest, *oldest;
    size_t count, bytes, places; /* of all patterns */
};

Patterns *new_patterns(void) {
    const regex_lite_options defaults = REGEX_LITE_DEFAULTS;
    Patterns *made = sqlite3_malloc64(sizeof *made);
    if (made == NULL) return NULL;
    memset(made, 0, sizeof *made);
    made->owners = 1;
    made->size_limit = defaults.size_limit;
    return made;
}

Patterns *share_patterns(Patterns *patterns) {
    patterns->owners++;
    return patterns;
}

Pattern *hold(Pattern *pattern) {
    pattern->holders++;
    return pattern;
}

void let_go(void *held) {
    Pattern *pattern = held;
    if (--pattern->holders > 0) return;
    regex_lite_free(&pattern->regex);
    sqlite3_free(pattern);
}

/* Takes a pattern out of the order of use. */
static void unlink_age(Patterns *patterns, Pattern *pattern) {
    *(pattern->newer == NULL ? &patterns->newest : &pattern->newer->older) = pattern->older;
    *(pattern->older == NULL ? &patterns->oldest : &pattern->older->newer) = pattern->newer;
}

/* Makes a pattern the one that was used last. */
static void link_age(Patterns *patterns, Pattern *pattern) {
    pattern->newer = NULL;
    pattern->older = patterns->newest;
    *(patterns->newest == NULL ? &patterns->oldest : &patterns->newest->newer) = pattern;
    patterns->newest = pattern;
}

/* Evicts the least recently used pattern. */
static void drop_oldest(Patterns *patterns) {
    Pattern *pattern = patterns->oldest;
    Pattern **link = &patterns->buckets[pattern->hash % BUCKETS];
    while (*link != pattern) link = &(*link)->next;
    *link = pattern->next;
    unlink_age(patterns, pattern);
    patterns->count--;
    patterns->bytes -= pattern->len;
    patterns->places -= pattern->places;
    let_go(pattern);
}

static void drop_all(Patterns *patterns) {
    while (patterns->oldest != NULL) drop_oldest(patterns);
}

void leave_patterns(void *owned) {
    Patterns *patterns = owned;
    if (--patterns->owners > 0) return;
    drop_all(patterns);
    sqlite3_free(patterns);
}

size_t size_limit(const Patterns *patterns) {
    return patterns->size_limit;
}

void set_size_limit(Patterns *patterns, size_t limit) {
    drop_all(patterns);
    patterns->size_limit = limit;
}

static uint64_t hash_of(Bytes bytes) {
    uint64_t hash = 14695981039346656037u; /* FNV-1a */
    for (size_t i = 0; i < bytes.len; i++) hash = (hash ^ bytes.at[i]) * 1099511628211u;
    return hash;
}

static Pattern *find(const Patterns *patterns, uint64_t hash, Bytes bytes) {
    Pattern *at = patterns->buckets[hash % BUCKETS];
    while (at != NULL && (at->hash != hash || at->len != bytes.len ||
                          memcmp(at->bytes, bytes.at, bytes.len) != 0))
        at = at->next;
    return at;
}

/* A pattern that isn't among the connection's yet, with one holder. */
static Pattern *build(const Patterns *patterns, Bytes bytes, Refusal *refusal) {
    regex_lite_options options = REGEX_LITE_DEFAULTS;
    uint8_t message[MOST_MESSAGE];
    size_t len = 0;
    Pattern *made = sqlite3_malloc64(sizeof *made + bytes.len);
    if (made == NULL) {
        *refusal = NO_MEMORY;
        return NULL;
    }
    memset(made, 0, sizeof *made);
    made->holders = 1;
    made->len = bytes.len;
    memcpy(made->bytes, bytes.at, bytes.len);
    options.size_limit = patterns->size_limit;
    regex_lite_answer answer = regex_lite_new(&made->regex, bytes.at, bytes.len, &options, message,
                                              sizeof message, &len);
    if (answer != REGEX_LITE_YES) {
        let_go(made);
        *refusal = refused_pattern(answer, (Bytes){message, len}, bytes);
        return NULL;
    }
    made->places = regex_lite_places(&made->regex);
    made->groups = regex_lite_groups(&made->regex);
    return made;
}

/* Puts a pattern among those of the connection, and evicts the least recently used ones that are
 * too many. */
static void keep(Patterns *patterns, Pattern *made) {
    Pattern **bucket = &patterns->buckets[made->hash % BUCKETS];
    made->next = *bucket;
    *bucket = made;
    link_age(patterns, made);
    patterns->count++;
    patterns->bytes += made->len;
    patterns->places += made->places;
    while (patterns->oldest != made &&
           (patterns->count > MOST_PATTERNS || patterns->bytes > MOST_BYTES ||
            patterns->places > MOST_PLACES))
        drop_oldest(patterns);
}

Pattern *pattern_with(Patterns *patterns, Bytes bytes, Refusal *refusal) {
    uint64_t hash = hash_of(bytes);
    Pattern *pattern = find(patterns, hash, bytes);
    if (pattern != NULL) {
        unlink_age(patterns, pattern);
        link_age(patterns, pattern);
        return pattern;
    }
    pattern = build(patterns, bytes, refusal);
    if (pattern == NULL) return NULL;
    pattern->hash = hash;
    keep(patterns, pattern);
    return pattern;
}

Pattern *pattern_argument(sqlite3_context *context, sqlite3_value **arguments, int index) {
    Pattern *pattern = sqlite3_get_auxdata(context, index);
    Refusal refusal = NO_MEMORY;
    Bytes bytes;
    if (pattern != NULL) return pattern;
    if (read_bytes(arguments[index], &bytes))
        pattern = pattern_with(sqlite3_user_data(context), bytes, &refusal);
    if (pattern == NULL)
        return_refusal(context, refusal);
    else
        sqlite3_set_auxdata(context, index, hold(pattern), let_go);
    return pattern;
}

regex_lite *regex_of(Pattern *pattern) {
    return &pattern->regex;
}

size_t groups_of(const Pattern *pattern) {
    return pattern->groups;
}

Bytes bytes_of(const Pattern *pattern) {
    return (Bytes){pattern->bytes, pattern->len};
}
