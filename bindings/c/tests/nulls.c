/* Gives each call null for a text, or for a room, that has a length of 0: it returns and writes
 * what it does with a place in its stead. What is expected follows from the header: an empty text
 * has one match of a*, which is empty, and a room of 0 is too little for anything but nothing. */
#include "built.h"

/* A place for each type of arrays, or null. */
typedef struct none {
    const uint8_t *text;
    uint8_t *room;
    const size_t *lens;
    regex_lite_span *spans;
    const regex_lite_list_pattern *patterns;
    regex_lite_list_span *list_spans;
    regex_lite_list_groups *groups;
} none;

static bool is_empty(regex_lite_span span) {
    return span.is_there && span.start == 0 && span.end == 0;
}

/* What calls without a regex return. */
static void test_texts(const none *none) {
    static const char text[] = "a.b";
    regex_lite_fault fault;
    size_t len = 9;
    WANT(regex_lite_version(none->room, 0, &len) == REGEX_LITE_NO_ROOM);
    WANT(len >= strlen(REGEX_LITE_VERSION));
    WANT(regex_lite_strerror(REGEX_LITE_NO, none->room, 0, &len) == REGEX_LITE_NO_ROOM && len > 0);
    WANT(regex_lite_is_text(none->text, 0));
    WANT(regex_lite_fault_at(none->text, 0, &defaults, &fault) == REGEX_LITE_NO);
    WANT(regex_lite_escape(none->text, 0, none->room, 0, &len) == REGEX_LITE_YES && len == 0);
    WANT(regex_lite_escape(TEXT(text), none->room, 0, &len) == REGEX_LITE_NO_ROOM && len == 4);
}

/* The empty pattern, a refused one, and names of groups. */
static void test_building(const none *none) {
    regex_lite regex = REGEX_LITE_NOTHING;
    size_t len = 9;
    WANT(regex_lite_new(&regex, none->text, 0, &defaults, none->room, 0, &len) == REGEX_LITE_YES);
    WANT(len == 0 && regex_lite_is_full_match(&regex, none->text, 0) == REGEX_LITE_YES);
    len = 9;
    WANT(regex_lite_pattern(&regex, none->room, 0, &len) == REGEX_LITE_YES && len == 0);
    WANT(regex_lite_new(&regex, TEXT("a("), &defaults, none->room, 0, &len) == REGEX_LITE_SYNTAX);
    WANT(0 < len && len <= 100);
    WANT(build(&regex, "(?<year>a)") == REGEX_LITE_YES);
    WANT(regex_lite_pattern(&regex, none->room, 0, &len) == REGEX_LITE_NO_ROOM && len == 10);
    WANT(regex_lite_group_name(&regex, 1, none->room, 0, &len) == REGEX_LITE_NO_ROOM && len == 4);
    WANT(regex_lite_group_index(&regex, none->text, 0, &len) == REGEX_LITE_NO);
    regex_lite_free(&regex);
}

/* Searches for the pattern (a)* in no text. */
static void test_searches(const none *none, regex_lite *regex) {
    regex_lite_span span = {false, 9, 9}, spans[2];
    regex_lite_cost cost;
    size_t end = 9, count = 9;
    WANT(regex_lite_is_match(regex, none->text, 0, 0) == REGEX_LITE_YES);
    WANT(regex_lite_is_match(regex, none->text, 0, 1) == REGEX_LITE_BAD_OFFSET);
    WANT(regex_lite_is_match_anchored(regex, none->text, 0, 0) == REGEX_LITE_YES);
    WANT(regex_lite_is_full_match(regex, none->text, 0) == REGEX_LITE_YES);
    WANT(regex_lite_find(regex, none->text, 0, 0, &span) == REGEX_LITE_YES && is_empty(span));
    span.end = 9;
    WANT(regex_lite_find_anchored(regex, none->text, 0, 0, &span) == REGEX_LITE_YES);
    WANT(is_empty(span));
    span.end = 9;
    WANT(regex_lite_full_match(regex, none->text, 0, &span) == REGEX_LITE_YES && is_empty(span));
    span.end = 9;
    WANT(regex_lite_find_counted(regex, none->text, 0, 0, &span, &cost) == REGEX_LITE_YES);
    WANT(is_empty(span) && cost.tried > 0);
    WANT(regex_lite_shortest(regex, none->text, 0, 0, &end) == REGEX_LITE_YES && end == 0);
    WANT(regex_lite_captures(regex, none->text, 0, 0, none->spans, 0, &count) ==
         REGEX_LITE_NO_ROOM);
    WANT(count == 2);
    WANT(regex_lite_captures(regex, none->text, 0, 0, spans, 2, &count) == REGEX_LITE_YES);
    WANT(is_empty(spans[0]) && !spans[1].is_there);
    WANT(regex_lite_captures_anchored(regex, none->text, 0, 0, none->spans, 0, &count) ==
         REGEX_LITE_NO_ROOM);
    WANT(regex_lite_full_captures(regex, none->text, 0, none->spans, 0, &count) ==
         REGEX_LITE_NO_ROOM);
    WANT(count == 2);
}

/* All matches of (a)* in no text, all pieces of it, the text anew, and no texts at all. */
static void test_walks(const none *none, regex_lite *regex) {
    regex_lite_walk walk = REGEX_LITE_START, group_walk = REGEX_LITE_START;
    regex_lite_cut cut = REGEX_LITE_UNCUT;
    regex_lite_replacing all = REGEX_LITE_ALL;
    regex_lite_span spans[2], each = {false, 9, 9};
    static const size_t no_len = 0;
    size_t count = 9;
    WANT(regex_lite_find_all(regex, none->text, 0, &walk, none->spans, 0, &count) ==
         REGEX_LITE_NO_ROOM);
    WANT(count == 0 && !walk.is_begun);
    WANT(regex_lite_find_all(regex, none->text, 0, &walk, spans, 2, &count) == REGEX_LITE_YES);
    WANT(count == 1 && is_empty(spans[0]));
    WANT(regex_lite_captures_all(regex, none->text, 0, &group_walk, none->spans, 0, &count) ==
         REGEX_LITE_NO_ROOM);
    WANT(regex_lite_captures_all(regex, none->text, 0, &group_walk, spans, 2, &count) ==
         REGEX_LITE_YES);
    WANT(count == 1 && is_empty(spans[0]) && !spans[1].is_there);
    WANT(regex_lite_split(regex, none->text, 0, &cut, none->spans, 0, &count) ==
         REGEX_LITE_NO_ROOM);
    WANT(regex_lite_split(regex, none->text, 0, &cut, spans, 2, &count) == REGEX_LITE_YES);
    WANT(count == 2 && is_empty(spans[0]) && is_empty(spans[1]) && cut.is_over);
    WANT(regex_lite_replace(regex, none->text, 0, none->text, 0, &all, none->room, 0) ==
         REGEX_LITE_YES);
    WANT(all.len == 0 && all.count == 1);
    WANT(regex_lite_replace(regex, none->text, 0, TEXT("xy"), &all, none->room, 0) ==
         REGEX_LITE_NO_ROOM);
    WANT(all.len == 2 && all.count == 1);
    WANT(regex_lite_find_each(regex, none->text, 0, none->lens, 0, none->spans, 0) ==
         REGEX_LITE_YES);
    WANT(regex_lite_find_each(regex, none->text, 0, &no_len, 1, &each, 1) == REGEX_LITE_YES);
    WANT(is_empty(each));
}

/* A list of no pattern, and one of the empty pattern. */
static void test_list_building(const none *none) {
    regex_lite_list list = REGEX_LITE_NOTHING;
    regex_lite_list_pattern each = {0, REGEX_LITE_DEFAULTS};
    regex_lite_list_refusal refusal = {9, 9};
    size_t count = 9;
    WANT(regex_lite_list_new(&list, none->text, 0, none->patterns, 0, none->room, 0, &refusal) ==
         REGEX_LITE_YES);
    WANT(list.place != NULL && regex_lite_list_len(&list) == 0);
    WANT(regex_lite_list_is_match(&list, none->text, 0, 0) == REGEX_LITE_NO);
    WANT(regex_lite_list_matches(&list, none->text, 0, 0, none->room, 0, &count) ==
         REGEX_LITE_YES);
    WANT(count == 0);
    WANT(regex_lite_list_new(&list, none->text, 0, &each, 1, none->room, 0, &refusal) ==
         REGEX_LITE_YES);
    WANT(regex_lite_list_len(&list) == 1);
    WANT(regex_lite_list_pattern_at(&list, 0, none->room, 0, &count) == REGEX_LITE_YES);
    WANT(count == 0);
    regex_lite_list_free(&list);
}

static bool is_first(regex_lite_list_span span) {
    return span.number == 0 && span.start == 0 && span.end == 0;
}

/* Searches for the patterns a* and b in no text. */
static void test_list_searches(const none *none, regex_lite_list *list) {
    regex_lite_list_span span = {9, 9, 9};
    regex_lite_cost cost;
    regex_lite_list_groups groups = {9, 9};
    WANT(regex_lite_list_is_match(list, none->text, 0, 0) == REGEX_LITE_YES);
    WANT(regex_lite_list_is_match_anchored(list, none->text, 0, 0) == REGEX_LITE_YES);
    WANT(regex_lite_list_is_full_match(list, none->text, 0) == REGEX_LITE_YES);
    WANT(regex_lite_list_find(list, none->text, 0, 0, &span) == REGEX_LITE_YES && is_first(span));
    span.number = 9;
    WANT(regex_lite_list_find_anchored(list, none->text, 0, 0, &span) == REGEX_LITE_YES);
    WANT(is_first(span));
    span.number = 9;
    WANT(regex_lite_list_full_match(list, none->text, 0, &span) == REGEX_LITE_YES);
    WANT(is_first(span));
    span.number = 9;
    WANT(regex_lite_list_find_counted(list, none->text, 0, 0, &span, &cost) == REGEX_LITE_YES);
    WANT(is_first(span) && cost.tried > 0);
    WANT(regex_lite_list_captures(list, none->text, 0, 0, none->spans, 0, &groups) ==
         REGEX_LITE_NO_ROOM);
    WANT(groups.number == 0 && groups.count == 1);
    WANT(regex_lite_list_captures_anchored(list, none->text, 0, 0, none->spans, 0, &groups) ==
         REGEX_LITE_NO_ROOM);
    WANT(regex_lite_list_full_captures(list, none->text, 0, none->spans, 0, &groups) ==
         REGEX_LITE_NO_ROOM);
    WANT(groups.number == 0 && groups.count == 1);
}

/* All matches of a* and b in no text, and what each of the two patterns finds there. */
static void test_list_walks(const none *none, regex_lite_list *list) {
    regex_lite_walk walk = REGEX_LITE_START;
    regex_lite_span spans[1];
    uint8_t matched[2] = {9, 9};
    size_t count = 9;
    WANT(regex_lite_list_pattern_at(list, 0, none->room, 0, &count) == REGEX_LITE_NO_ROOM);
    WANT(count == 2);
    WANT(regex_lite_list_find_all(list, none->text, 0, &walk, none->list_spans, 0, &count) ==
         REGEX_LITE_NO_ROOM);
    WANT(count == 0);
    WANT(regex_lite_list_captures_all(list, none->text, 0, &walk, none->groups, 0, none->spans, 0,
                                      &count) == REGEX_LITE_NO_ROOM);
    WANT(count == 1 && !walk.is_begun);
    WANT(regex_lite_list_matches(list, none->text, 0, 0, none->room, 0, &count) ==
         REGEX_LITE_NO_ROOM);
    WANT(count == 2);
    WANT(regex_lite_list_matches(list, none->text, 0, 0, matched, 2, &count) == REGEX_LITE_YES);
    WANT(matched[0] == 1 && matched[1] == 0);
    WANT(regex_lite_list_is_match_of(list, 1, none->text, 0, 0) == REGEX_LITE_NO);
    WANT(regex_lite_list_find_of(list, 0, none->text, 0, 0, spans) == REGEX_LITE_YES);
    WANT(is_empty(spans[0]));
    WANT(regex_lite_list_captures_of(list, 0, none->text, 0, 0, none->spans, 0, &count) ==
         REGEX_LITE_NO_ROOM);
    WANT(count == 1);
}

static void test_all(const none *none) {
    regex_lite regex = REGEX_LITE_NOTHING;
    regex_lite_list list = REGEX_LITE_NOTHING;
    test_texts(none);
    test_building(none);
    WANT(build(&regex, "(a)*") == REGEX_LITE_YES);
    test_searches(none, &regex);
    test_walks(none, &regex);
    regex_lite_free(&regex);
    test_list_building(none);
    WANT(build_two(&list, "a*", "b") == REGEX_LITE_YES);
    test_list_searches(none, &list);
    test_list_walks(none, &list);
    regex_lite_list_free(&list);
}

int main(void) {
    static const none nulls = {NULL, NULL, NULL, NULL, NULL, NULL, NULL};
    uint8_t room[1];
    size_t lens[1] = {9};
    regex_lite_span spans[1];
    regex_lite_list_pattern patterns[1] = {{9, REGEX_LITE_DEFAULTS}};
    regex_lite_list_span list_spans[1];
    regex_lite_list_groups groups[1];
    none places;
    places.text = (const uint8_t *)"";
    places.room = room;
    places.lens = lens;
    places.spans = spans;
    places.patterns = patterns;
    places.list_spans = list_spans;
    places.groups = groups;
    test_all(&places);
    test_all(&nulls);
    if (failed == 0) puts("nulls: all is so");
    return failed != 0;
}
