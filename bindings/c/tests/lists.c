/* Calls each function for several patterns, with what it takes and what it refuses. The values that
 * are expected come from the documents of the library and from the Rust crate. */
#include "want.h"

#define MOST 8

/* Builds the list of these patterns, at most this many, each under the same options. */
static regex_lite_answer build_with(regex_lite_list *list, const char *const *patterns,
                                    size_t count, const regex_lite_options *options,
                                    regex_lite_list_refusal *refusal) {
    uint8_t bytes[200], message[100];
    regex_lite_list_pattern each[MOST];
    size_t len = 0, i;
    for (i = 0; i < count; i++) {
        each[i].len = strlen(patterns[i]);
        each[i].options = *options;
        memcpy(bytes + len, patterns[i], each[i].len);
        len += each[i].len;
    }
    return regex_lite_list_new(list, bytes, len, each, count, message, sizeof message, refusal);
}

static regex_lite_answer build(regex_lite_list *list, const char *const *patterns, size_t count) {
    regex_lite_list_refusal refusal;
    return build_with(list, patterns, count, &defaults, &refusal);
}

static void test_building(void) {
    static const char *const words[] = {"samwise", "sam"};
    static const char *const bad[] = {"a", "b(c", "d)"};
    static const char *const deep[] = {"a", "((b))", "((c))"};
    regex_lite_list list = REGEX_LITE_NOTHING;
    regex_lite_list_refusal refusal = {7, 7};
    regex_lite_options options = REGEX_LITE_DEFAULTS;
    WANT(regex_lite_list_len(&list) == 0);
    WANT(build_with(&list, words, 2, &defaults, &refusal) == REGEX_LITE_YES);
    WANT(refusal.number == 2 && refusal.message_len == 0);
    WANT(regex_lite_list_len(&list) == 2);
    /* The first that is refused is reported, and nothing leaks. */
    WANT(build_with(&list, bad, 3, &defaults, &refusal) == REGEX_LITE_SYNTAX);
    WANT(refusal.number == 1);
    WANT(refusal.message_len == strlen("found open group without closing ')'"));
    WANT(list.place == NULL && regex_lite_list_len(&list) == 0);
    options.nest_limit = 1;
    WANT(build_with(&list, deep, 3, &options, &refusal) == REGEX_LITE_NESTING);
    WANT(refusal.number == 1);
    options = defaults;
    options.size_limit = 143;
    WANT(build_with(&list, words, 2, &options, &refusal) == REGEX_LITE_SIZE);
    WANT(refusal.number == 0);
    /* A list may be empty. */
    WANT(build(&list, words, 0) == REGEX_LITE_YES && regex_lite_list_len(&list) == 0);
    WANT(list.place != NULL);
    WANT(regex_lite_list_is_match(&list, TEXT("sam"), 0) == REGEX_LITE_NO);
    regex_lite_list_free(&list);
    WANT(list.place == NULL);
    regex_lite_list_free(&list);
}

/* Lengths that don't fit, and bytes that are no text. */
static void test_bad_patterns(void) {
    regex_lite_list list = REGEX_LITE_NOTHING;
    regex_lite_list_refusal refusal = {7, 7};
    regex_lite_list_pattern each[2] = {{2, REGEX_LITE_DEFAULTS}, {1, REGEX_LITE_DEFAULTS}};
    uint8_t message[40] = "as it was";
    WANT(regex_lite_list_new(&list, TEXT("abcd"), each, 2, message, 40, &refusal) ==
         REGEX_LITE_BAD_OFFSET);
    WANT(refusal.number == 2 && refusal.message_len == 0 && list.place == NULL);
    WANT(regex_lite_list_new(&list, TEXT("ab"), each, 2, message, 40, &refusal) ==
         REGEX_LITE_BAD_OFFSET);
    WANT(regex_lite_list_new(&list, TEXT("abc"), each, 2, message, 40, &refusal) ==
         REGEX_LITE_YES);
    each[1].len = SIZE_MAX;
    WANT(regex_lite_list_new(&list, TEXT("abc"), each, 2, message, 40, &refusal) ==
         REGEX_LITE_BAD_OFFSET);
    WANT(list.place == NULL);
    /* One character of three bytes is cut after two of them. */
    each[0].len = 3;
    each[1].len = 2;
    WANT(regex_lite_list_new(&list, TEXT("a\xe2\x82\xac" "b"), each, 2, message, 40, &refusal) ==
         REGEX_LITE_NOT_TEXT);
    WANT(refusal.number == 0);
    each[0].len = 4;
    each[1].len = 1;
    WANT(regex_lite_list_new(&list, TEXT("a\xe2\x82\xac" "\xff"), each, 2, message, 40,
                             &refusal) == REGEX_LITE_NOT_TEXT);
    WANT(refusal.number == 1 && refusal.message_len == 0);
    /* A message without room isn't written, but its length is. */
    WANT(memcmp(message, "as it was", 9) == 0);
    WANT(regex_lite_list_new(&list, TEXT("a\xe2\x82\xac" "("), each, 2, message, 9, &refusal) ==
         REGEX_LITE_SYNTAX);
    WANT(refusal.number == 1);
    WANT(refusal.message_len == strlen("found open group without closing ')'"));
    WANT(memcmp(message, "as it was", 9) == 0 && list.place == NULL);
}

/* Each pattern has its own options. */
static void test_options(void) {
    regex_lite_list list = REGEX_LITE_NOTHING;
    regex_lite_list_refusal refusal;
    regex_lite_list_pattern each[2] = {{5, REGEX_LITE_DEFAULTS}, {3, REGEX_LITE_DEFAULTS}};
    uint8_t message[100];
    each[0].options.case_insensitive = true;
    WANT(regex_lite_list_new(&list, TEXT("frodosam"), each, 2, message, 100, &refusal) ==
         REGEX_LITE_YES);
    WANT(regex_lite_list_is_match(&list, TEXT("FRODO"), 0) == REGEX_LITE_YES);
    WANT(regex_lite_list_is_match(&list, TEXT("SAM"), 0) == REGEX_LITE_NO);
    WANT(regex_lite_list_is_match(&list, TEXT("sam"), 0) == REGEX_LITE_YES);
    regex_lite_list_free(&list);
}

static void test_searches(void) {
    static const char *const words[] = {"if", "[a-z]+", "[0-9]+"};
    regex_lite_list list = REGEX_LITE_NOTHING;
    regex_lite_list_span span = {7, 7, 7};
    const uint8_t *wide = (const uint8_t *)"\xe2\x82\xac"; /* one character of three bytes */
    WANT(regex_lite_list_is_match(&list, TEXT("if"), 0) == REGEX_LITE_NOTHING_HELD);
    WANT(regex_lite_list_find(&list, TEXT("if"), 0, &span) == REGEX_LITE_NOTHING_HELD);
    WANT(build(&list, words, 3) == REGEX_LITE_YES);
    WANT(regex_lite_list_find(&list, TEXT("()"), 0, &span) == REGEX_LITE_NO);
    WANT(span.number == 7 && span.start == 7 && span.end == 7);
    WANT(regex_lite_list_find(&list, TEXT("(iffy)"), 0, &span) == REGEX_LITE_YES);
    WANT(span.number == 0 && span.start == 1 && span.end == 3);
    WANT(regex_lite_list_find(&list, TEXT("(iffy)"), 2, &span) == REGEX_LITE_YES);
    WANT(span.number == 1 && span.start == 2 && span.end == 5);
    WANT(regex_lite_list_find(&list, TEXT("52 if"), 0, &span) == REGEX_LITE_YES);
    WANT(span.number == 2 && span.start == 0 && span.end == 2);
    WANT(regex_lite_list_is_match(&list, TEXT("52"), 2) == REGEX_LITE_NO);
    WANT(regex_lite_list_is_match(&list, wide, 2, 0) == REGEX_LITE_NOT_TEXT);
    WANT(regex_lite_list_is_match(&list, wide, 3, 1) == REGEX_LITE_BAD_OFFSET);
    WANT(regex_lite_list_is_match(&list, wide, 3, 3) == REGEX_LITE_NO);
    WANT(regex_lite_list_find(&list, wide, 3, 4, &span) == REGEX_LITE_BAD_OFFSET);
    WANT(regex_lite_list_find(&list, wide, 1, 0, &span) == REGEX_LITE_NOT_TEXT);
    regex_lite_list_free(&list);
}

static void test_captures(void) {
    static const char *const lines[] = {"(?<key>[a-z]+)=([0-9]+)?", "#(?<note>.*)"};
    regex_lite_list list = REGEX_LITE_NOTHING;
    regex_lite_span spans[4] = {{true, 9, 9}, {true, 9, 9}, {true, 9, 9}, {true, 9, 9}};
    regex_lite_list_groups told = {7, 7};
    WANT(regex_lite_list_captures(&list, TEXT("#width"), 0, spans, 4, &told) ==
         REGEX_LITE_NOTHING_HELD);
    WANT(build(&list, lines, 2) == REGEX_LITE_YES);
    WANT(regex_lite_list_captures(&list, TEXT("width"), 0, spans, 4, &told) == REGEX_LITE_NO);
    WANT(told.number == 7 && told.count == 7 && spans[0].start == 9);
    WANT(regex_lite_list_captures(&list, TEXT("#width"), 0, spans, 1, &told) ==
         REGEX_LITE_NO_ROOM);
    WANT(told.number == 1 && told.count == 2 && spans[0].start == 9);
    WANT(regex_lite_list_captures(&list, TEXT("#width"), 0, spans, 4, &told) == REGEX_LITE_YES);
    WANT(told.number == 1 && told.count == 2);
    WANT(spans[0].is_there && spans[0].start == 0 && spans[0].end == 6);
    WANT(spans[1].is_there && spans[1].start == 1 && spans[1].end == 6);
    WANT(spans[2].is_there && spans[2].start == 9);
    WANT(regex_lite_list_captures(&list, TEXT("width=,"), 0, spans, 4, &told) == REGEX_LITE_YES);
    WANT(told.number == 0 && told.count == 3);
    WANT(spans[0].end == 6 && spans[1].end == 5 && !spans[2].is_there && spans[3].start == 9);
    WANT(regex_lite_list_captures(&list, (const uint8_t *)"\xff", 1, 0, spans, 4, &told) ==
         REGEX_LITE_NOT_TEXT);
    WANT(regex_lite_list_captures(&list, TEXT("a"), 2, spans, 4, &told) == REGEX_LITE_BAD_OFFSET);
    regex_lite_list_free(&list);
}

/* Walks over the text with room for this many matches at a time: if, x and 1 in "if x1". */
static void walk_with(regex_lite_list *list, size_t room) {
    static const regex_lite_list_span wanted[] = {{0, 0, 2}, {1, 3, 4}, {2, 4, 5}};
    regex_lite_walk walk = REGEX_LITE_START;
    regex_lite_list_span spans[5];
    size_t seen = 0, count = 7, i;
    while (regex_lite_list_find_all(list, TEXT("if x1"), &walk, spans, room, &count) ==
           REGEX_LITE_YES) {
        WANT(0 < count && count <= room);
        for (i = 0; i < count && seen < 3; i++, seen++)
            WANT(spans[i].number == wanted[seen].number && spans[i].start == wanted[seen].start &&
                 spans[i].end == wanted[seen].end);
        WANT(i == count);
    }
    WANT(seen == 3 && count == 0);
}

static void test_walks(void) {
    static const char *const words[] = {"if", "[a-z]+", "[0-9]+"}, *const empty[] = {"a*", "b"};
    regex_lite_list list = REGEX_LITE_NOTHING;
    regex_lite_walk walk = REGEX_LITE_START, inside = {true, 1};
    regex_lite_list_span spans[5] = {{9, 9, 9}, {9, 9, 9}, {9, 9, 9}, {9, 9, 9}, {9, 9, 9}};
    size_t count = 7, room;
    WANT(regex_lite_list_find_all(&list, TEXT("a"), &walk, spans, 5, &count) ==
         REGEX_LITE_NOTHING_HELD);
    WANT(count == 0);
    WANT(build(&list, words, 3) == REGEX_LITE_YES);
    for (room = 1; room <= 5; room++) walk_with(&list, room);
    WANT(regex_lite_list_find_all(&list, TEXT("if"), &walk, spans, 0, &count) ==
         REGEX_LITE_NO_ROOM);
    WANT(regex_lite_list_find_all(&list, TEXT("\xc3\xbc"), &inside, spans, 5, &count) ==
         REGEX_LITE_BAD_OFFSET);
    WANT(count == 0 && !walk.is_begun && spans[0].number == 9);
    /* An empty match comes first at 0, and then not at 1 again, where a* would be empty. */
    WANT(build(&list, empty, 2) == REGEX_LITE_YES);
    WANT(regex_lite_list_find_all(&list, TEXT("baac"), &walk, spans, 5, &count) == REGEX_LITE_YES);
    WANT(count == 3 && walk.is_begun && walk.end == 4);
    WANT(spans[0].number == 0 && spans[0].start == 0 && spans[0].end == 0);
    WANT(spans[1].number == 0 && spans[1].start == 1 && spans[1].end == 3);
    WANT(spans[2].number == 0 && spans[2].start == 4 && spans[2].end == 4);
    WANT(spans[3].number == 9);
    regex_lite_list_free(&list);
}

/* Walks over the groups in "a=1 #x b=" with room for this many matches and groups at a time. */
static void walk_over_groups(regex_lite_list *list, size_t matches, size_t room) {
    static const regex_lite_list_groups wanted[] = {{0, 3}, {1, 2}, {0, 3}};
    static const size_t starts[] = {0, 0, 2, 4, 5, 7, 7, 0};
    regex_lite_walk walk = REGEX_LITE_START;
    regex_lite_list_groups told[4];
    regex_lite_span spans[9];
    size_t seen = 0, at = 0, count = 7, i, k, used;
    while (regex_lite_list_captures_all(list, TEXT("a=1 #x b="), &walk, told, matches, spans, room,
                                        &count) == REGEX_LITE_YES) {
        WANT(0 < count && count <= matches);
        for (i = 0, used = 0; i < count && seen < 3; i++, seen++) {
            WANT(told[i].number == wanted[seen].number && told[i].count == wanted[seen].count);
            for (k = 0; k < told[i].count; k++, used++, at++)
                WANT(spans[used].start == starts[at] && spans[used].is_there == (at < 7));
        }
        WANT(i == count && used <= room);
    }
    WANT(seen == 3 && at == 8 && count == 0);
}

static void test_walks_over_groups(void) {
    static const char *const lines[] = {"([a-z])=([0-9])?", "#(.)"};
    regex_lite_list list = REGEX_LITE_NOTHING;
    regex_lite_walk walk = REGEX_LITE_START, inside = {true, 1};
    regex_lite_list_groups told[2] = {{9, 9}, {9, 9}};
    regex_lite_span spans[4] = {{true, 9, 9}, {true, 9, 9}, {true, 9, 9}, {true, 9, 9}};
    size_t count = 7, matches, room;
    WANT(regex_lite_list_captures_all(&list, TEXT("#a"), &walk, told, 2, spans, 4, &count) ==
         REGEX_LITE_NOTHING_HELD);
    WANT(count == 0);
    WANT(build(&list, lines, 2) == REGEX_LITE_YES);
    for (matches = 1; matches <= 4; matches++)
        for (room = 3; room <= 9; room++) walk_over_groups(&list, matches, room);
    /* Too little room: for its groups, or for a match. How many groups it has is written. */
    WANT(regex_lite_list_captures_all(&list, TEXT("#a b="), &walk, told, 2, spans, 1, &count) ==
         REGEX_LITE_NO_ROOM);
    WANT(count == 2);
    WANT(regex_lite_list_captures_all(&list, TEXT("b="), &walk, told, 0, spans, 4, &count) ==
         REGEX_LITE_NO_ROOM);
    WANT(count == 3);
    WANT(regex_lite_list_captures_all(&list, TEXT("..."), &walk, told, 0, spans, 0, &count) ==
         REGEX_LITE_NO);
    WANT(regex_lite_list_captures_all(&list, TEXT("\xc3\xbc"), &inside, told, 2, spans, 4,
                                      &count) == REGEX_LITE_BAD_OFFSET);
    WANT(regex_lite_list_captures_all(&list, TEXT("\xff"), &walk, told, 2, spans, 4, &count) ==
         REGEX_LITE_NOT_TEXT);
    WANT(count == 0 && !walk.is_begun && told[0].number == 9 && spans[0].start == 9);
    /* What isn't needed stays as it was. */
    WANT(regex_lite_list_captures_all(&list, TEXT("..#a."), &walk, told, 2, spans, 4, &count) ==
         REGEX_LITE_YES);
    WANT(count == 1 && walk.is_begun && walk.end == 4);
    WANT(told[0].number == 1 && told[0].count == 2 && told[1].number == 9);
    WANT(spans[0].start == 2 && spans[0].end == 4 && spans[1].start == 3 && spans[2].start == 9);
    regex_lite_list_free(&list);
}

static void test_properties(void) {
    static const char *const words[] = {"if", "a|b"};
    regex_lite_list list = REGEX_LITE_NOTHING;
    regex_lite_list_span span = {7, 7, 7};
    regex_lite_cost cost = {7, 7, 7};
    uint8_t room[4] = "...";
    size_t len = 7;
    WANT(regex_lite_list_pattern_at(&list, 0, room, 4, &len) == REGEX_LITE_NOTHING_HELD);
    WANT(regex_lite_list_places(&list) == 0 && regex_lite_list_arrows(&list) == 0);
    WANT(regex_lite_list_find_counted(&list, TEXT("if"), 0, &span, &cost) ==
         REGEX_LITE_NOTHING_HELD);
    WANT(build(&list, words, 2) == REGEX_LITE_YES);
    WANT(regex_lite_list_pattern_at(&list, 2, room, 4, &len) == REGEX_LITE_NO && len == 7);
    WANT(regex_lite_list_pattern_at(&list, 1, room, 2, &len) == REGEX_LITE_NO_ROOM && len == 3);
    WANT(memcmp(room, "...", 3) == 0);
    WANT(regex_lite_list_pattern_at(&list, 1, room, 3, &len) == REGEX_LITE_YES && len == 3);
    WANT(memcmp(room, "a|b", 3) == 0);
    /* Each pattern has two places and arrows of the whole match, and a place where it is complete.
     * A choice has a place before and one after its branches, and an arrow to each and after them.
     */
    WANT(regex_lite_list_places(&list) == 5 + 7 && regex_lite_list_arrows(&list) == 4 + 7);
    WANT(regex_lite_list_find_counted(&list, TEXT("-if"), 0, &span, &cost) == REGEX_LITE_YES);
    WANT(span.number == 0 && span.start == 1 && span.end == 3);
    WANT(0 < cost.entered && cost.entered <= cost.tried && cost.tried <= (11 + 2) * (3 + 1));
    WANT(regex_lite_list_find_counted(&list, TEXT("-"), 0, &span, &cost) == REGEX_LITE_NO);
    WANT(cost.tried <= (11 + 2) * (1 + 1) && span.number == 0);
    cost.tried = 7;
    WANT(regex_lite_list_find_counted(&list, TEXT("-"), 2, &span, &cost) == REGEX_LITE_BAD_OFFSET);
    WANT(cost.tried == 7);
    regex_lite_list_free(&list);
}

static void test_which(void) {
    static const char *const words[] = {"[0-9]+", "[a-z]+", "sam"};
    regex_lite_list list = REGEX_LITE_NOTHING;
    uint8_t matched[4] = {9, 9, 9, 9};
    size_t count = 7;
    WANT(regex_lite_list_matches(&list, TEXT("7"), 0, matched, 4, &count) ==
         REGEX_LITE_NOTHING_HELD);
    WANT(build(&list, words, 3) == REGEX_LITE_YES);
    WANT(regex_lite_list_matches(&list, TEXT("frodo 7"), 0, matched, 2, &count) ==
         REGEX_LITE_NO_ROOM);
    WANT(count == 3 && matched[0] == 9);
    WANT(regex_lite_list_matches(&list, TEXT("frodo 7"), 0, matched, 4, &count) ==
         REGEX_LITE_YES);
    WANT(count == 3 && matched[0] == 1 && matched[1] == 1 && matched[2] == 0 && matched[3] == 9);
    WANT(regex_lite_list_matches(&list, TEXT("frodo 7"), 7, matched, 3, &count) ==
         REGEX_LITE_YES);
    WANT(matched[0] == 0 && matched[1] == 0 && matched[2] == 0);
    WANT(regex_lite_list_matches(&list, TEXT("7"), 2, matched, 3, &count) ==
         REGEX_LITE_BAD_OFFSET);
    regex_lite_list_free(&list);
}

int main(void) {
    test_building();
    test_bad_patterns();
    test_options();
    test_searches();
    test_captures();
    test_walks();
    test_walks_over_groups();
    test_properties();
    test_which();
    if (failed == 0) puts("lists: all is so");
    return failed != 0;
}
