/* Calls each function of the library, with what it takes and what it refuses. The values that are
 * expected come from the documents of the library and from the Rust crate. */
#include "want.h"

static regex_lite_answer build(regex_lite *regex, const char *pattern,
                               const regex_lite_options *options) {
    uint8_t message[100];
    size_t len;
    return regex_lite_new(regex, TEXT(pattern), options, message, sizeof message, &len);
}

/* Whether the bytes that were written are this text. */
static bool is(const uint8_t *room, size_t len, const char *text) {
    return len == strlen(text) && memcmp(room, text, len) == 0;
}

static void test_building(void) {
    regex_lite regex = REGEX_LITE_NOTHING;
    regex_lite_options options = REGEX_LITE_DEFAULTS;
    uint8_t message[100], small[4] = "abc";
    size_t len = 7;
    WANT(build(&regex, "a+", &defaults) == REGEX_LITE_YES);
    WANT(regex.place != NULL);
    /* A refused pattern leaks nothing. */
    WANT(regex_lite_new(&regex, TEXT("a(b"), &defaults, message, sizeof message, &len) ==
         REGEX_LITE_SYNTAX);
    WANT(is(message, len, "found open group without closing ')'"));
    WANT(regex.place == NULL);
    /* A message without room isn't written, but its length is. */
    WANT(regex_lite_new(&regex, TEXT("a(b"), &defaults, small, sizeof small, &len) ==
         REGEX_LITE_SYNTAX);
    WANT(len == strlen("found open group without closing ')'") && memcmp(small, "abc", 4) == 0);
    WANT(regex_lite_new(&regex, (const uint8_t *)"\xff", 1, &defaults, message, 100, &len) ==
         REGEX_LITE_NOT_TEXT);
    WANT(len == 0);
    options.nest_limit = 1;
    WANT(build(&regex, "((a))", &options) == REGEX_LITE_NESTING);
    options = defaults;
    options.size_limit = 143;
    WANT(build(&regex, "a", &options) == REGEX_LITE_SIZE);
    options.size_limit = 144;
    WANT(build(&regex, "a", &options) == REGEX_LITE_YES);
    regex_lite_free(&regex);
    WANT(regex.place == NULL);
    regex_lite_free(&regex);
}

/* Whether the first fault of a pattern is from this offset to that. */
static bool is_at(const char *pattern, const regex_lite_options *options, size_t start,
                  size_t end) {
    regex_lite_fault fault = {SIZE_MAX, SIZE_MAX, true};
    return regex_lite_fault_at(TEXT(pattern), options, &fault) == REGEX_LITE_YES &&
           fault.start == start && fault.end == end && !fault.is_cut_short;
}

/* Whether it starts at this offset, and the pattern ends too soon. */
static bool is_cut_short(const char *pattern, const regex_lite_options *options, size_t start) {
    regex_lite_fault fault = {SIZE_MAX, SIZE_MAX, false};
    return regex_lite_fault_at(TEXT(pattern), options, &fault) == REGEX_LITE_YES &&
           fault.start == start && fault.end == strlen(pattern) && fault.is_cut_short;
}

/* Whether a pattern has none. What is to be written then stays as it was. */
static bool is_faultless(const char *pattern, const regex_lite_options *options) {
    regex_lite_fault fault = {7, 8, true};
    return regex_lite_fault_at(TEXT(pattern), options, &fault) == REGEX_LITE_NO &&
           fault.start == 7 && fault.end == 8 && fault.is_cut_short;
}

static void test_faults(void) {
    regex_lite_options options = REGEX_LITE_DEFAULTS;
    regex_lite_fault fault = {7, 8, true};
    WANT(is_at("*", &defaults, 0, 1));
    WANT(is_at("a*{x}", &defaults, 2, 4));
    WANT(is_at("sam(?:wise|[a-)", &defaults, 11, 15));
    WANT(is_at("a\\qb", &defaults, 1, 3));
    WANT(is_at("(?P<a>y)(?P<a>z)", &defaults, 8, 14));
    WANT(is_at("\xe2\x98\x83[b-a]", &defaults, 3, 7));
    WANT(is_cut_short("a(b", &defaults, 1));
    WANT(is_cut_short("(?:a(?:b", &defaults, 4));
    WANT(is_cut_short("\xe2\x98\x83[b-", &defaults, 3));
    WANT(is_cut_short("a{2,", &defaults, 1));
    WANT(is_faultless("", &defaults));
    WANT(is_faultless("(?<a>b)(?i:c){2}", &defaults));
    WANT(is_at(" a # )", &defaults, 5, 6));
    options.ignore_whitespace = true;
    WANT(is_faultless(" a # )", &options));
    WANT(is_at("a # )\n )", &options, 7, 8));
    WANT(is_cut_short("(a # )", &options, 0));
    /* The limits don't count. */
    options.nest_limit = 0;
    options.size_limit = 0;
    WANT(is_faultless("((a{100}))", &options));
    WANT(is_cut_short("((a{100})", &options, 0));
    WANT(regex_lite_fault_at((const uint8_t *)"(\xff", 2, &defaults, &fault) ==
         REGEX_LITE_NOT_TEXT);
    WANT(fault.start == 7 && fault.end == 8 && fault.is_cut_short);
}

/* Whether a pattern matches a text under these options. */
static regex_lite_answer matches(const char *pattern, const regex_lite_options *options,
                                 const char *text) {
    regex_lite regex = REGEX_LITE_NOTHING;
    regex_lite_answer answer = build(&regex, pattern, options);
    WANT(answer == REGEX_LITE_YES);
    answer = regex_lite_is_match(&regex, TEXT(text), 0);
    regex_lite_free(&regex);
    return answer;
}

static void test_flags(void) {
    regex_lite_options on = defaults;
    WANT(matches("SAM", &on, "sam") == REGEX_LITE_NO);
    on.case_insensitive = true;
    WANT(matches("SAM", &on, "sam") == REGEX_LITE_YES);
    on = defaults;
    WANT(matches("^b$", &on, "a\nb") == REGEX_LITE_NO);
    on.multi_line = true;
    WANT(matches("^b$", &on, "a\nb") == REGEX_LITE_YES);
    WANT(matches("^b$", &on, "a\rb") == REGEX_LITE_NO);
    on.crlf = true;
    WANT(matches("^b$", &on, "a\rb") == REGEX_LITE_YES);
    on = defaults;
    WANT(matches("a.b", &on, "a\nb") == REGEX_LITE_NO);
    on.dot_matches_new_line = true;
    WANT(matches("a.b", &on, "a\nb") == REGEX_LITE_YES);
    on = defaults;
    WANT(matches("a b # c", &on, "ab") == REGEX_LITE_NO);
    on.ignore_whitespace = true;
    WANT(matches("a b # c", &on, "ab") == REGEX_LITE_YES);
}

static void test_swapped_greed(void) {
    regex_lite regex = REGEX_LITE_NOTHING;
    regex_lite_options on = defaults;
    regex_lite_span span;
    on.swap_greed = true;
    WANT(build(&regex, "a+", &on) == REGEX_LITE_YES);
    WANT(regex_lite_find(&regex, TEXT("aaa"), 0, &span) == REGEX_LITE_YES);
    WANT(span.start == 0 && span.end == 1);
    regex_lite_free(&regex);
}

static void test_properties(void) {
    regex_lite regex = REGEX_LITE_NOTHING;
    uint8_t room[20];
    size_t len = 7, index = 7;
    WANT(build(&regex, "(a)(?<x>b)?", &defaults) == REGEX_LITE_YES);
    WANT(regex_lite_pattern(&regex, room, 20, &len) == REGEX_LITE_YES);
    WANT(is(room, len, "(a)(?<x>b)?"));
    memset(room, '.', sizeof room);
    WANT(regex_lite_pattern(&regex, room, 10, &len) == REGEX_LITE_NO_ROOM);
    WANT(len == 11 && room[0] == '.');
    WANT(regex_lite_groups(&regex) == 3);
    WANT(regex_lite_static_groups(&regex) == 0);
    WANT(regex_lite_may_be_empty(&regex) == REGEX_LITE_NO);
    WANT(regex_lite_group_name(&regex, 2, room, 20, &len) == REGEX_LITE_YES);
    WANT(is(room, len, "x"));
    WANT(regex_lite_group_name(&regex, 2, room, 0, &len) == REGEX_LITE_NO_ROOM && len == 1);
    WANT(regex_lite_group_name(&regex, 0, room, 20, &len) == REGEX_LITE_NO);
    WANT(regex_lite_group_name(&regex, 1, room, 20, &len) == REGEX_LITE_NO);
    WANT(regex_lite_group_name(&regex, 3, room, 20, &len) == REGEX_LITE_NO_GROUP);
    WANT(regex_lite_group_name(&regex, SIZE_MAX, room, 20, &len) == REGEX_LITE_NO_GROUP);
    WANT(regex_lite_group_index(&regex, TEXT("x"), &index) == REGEX_LITE_YES && index == 2);
    WANT(regex_lite_group_index(&regex, TEXT("y"), &index) == REGEX_LITE_NO && index == 2);
    WANT(build(&regex, "(a)(b)", &defaults) == REGEX_LITE_YES);
    WANT(regex_lite_static_groups(&regex) == 3);
    WANT(regex_lite_places(&regex) > 0 && regex_lite_arrows(&regex) > 0);
    WANT(build(&regex, "a*\\b", &defaults) == REGEX_LITE_YES);
    WANT(regex_lite_may_be_empty(&regex) == REGEX_LITE_YES);
    regex_lite_free(&regex);
}

static void test_searches(void) {
    regex_lite regex = REGEX_LITE_NOTHING;
    regex_lite_span span = {false, 7, 7};
    regex_lite_cost cost;
    size_t end = 7;
    WANT(build(&regex, "sam|samwise", &defaults) == REGEX_LITE_YES);
    WANT(regex_lite_find(&regex, TEXT("frodo"), 0, &span) == REGEX_LITE_NO);
    WANT(!span.is_there && span.start == 7 && span.end == 7);
    WANT(regex_lite_find(&regex, TEXT("mr samwise"), 0, &span) == REGEX_LITE_YES);
    WANT(span.is_there && span.start == 3 && span.end == 6);
    WANT(regex_lite_find(&regex, TEXT("mr samwise"), 4, &span) == REGEX_LITE_NO);
    WANT(regex_lite_find_counted(&regex, TEXT("mr samwise"), 0, &span, &cost) == REGEX_LITE_YES);
    WANT(span.start == 3 && span.end == 6);
    WANT(cost.entered > 0 && cost.entered <= cost.tried);
    WANT(cost.tried <= (regex_lite_arrows(&regex) + 1) * (strlen("mr samwise") + 1));
    WANT(build(&regex, "a+", &defaults) == REGEX_LITE_YES);
    WANT(regex_lite_shortest(&regex, TEXT("baaa"), 0, &end) == REGEX_LITE_YES && end == 2);
    WANT(regex_lite_shortest(&regex, TEXT("bbb"), 0, &end) == REGEX_LITE_NO && end == 2);
    regex_lite_free(&regex);
}

static void test_captures(void) {
    regex_lite regex = REGEX_LITE_NOTHING;
    regex_lite_span spans[4] = {{true, 9, 9}, {true, 9, 9}, {true, 9, 9}, {true, 9, 9}};
    size_t count = 7;
    WANT(build(&regex, "([a-z]+)(=[0-9]+)?", &defaults) == REGEX_LITE_YES);
    WANT(regex_lite_captures(&regex, TEXT("#72"), 0, spans, 4, &count) == REGEX_LITE_NO);
    WANT(count == 7 && spans[0].start == 9);
    WANT(regex_lite_captures(&regex, TEXT("#width"), 0, spans, 2, &count) == REGEX_LITE_NO_ROOM);
    WANT(count == 3 && spans[0].start == 9);
    WANT(regex_lite_captures(&regex, TEXT("#width"), 0, spans, 4, &count) == REGEX_LITE_YES);
    WANT(count == 3);
    WANT(spans[0].is_there && spans[0].start == 1 && spans[0].end == 6);
    WANT(spans[1].is_there && spans[1].start == 1 && spans[1].end == 6);
    WANT(!spans[2].is_there && spans[2].start == 0 && spans[2].end == 0);
    WANT(spans[3].is_there && spans[3].start == 9);
    regex_lite_free(&regex);
}

/* Walks over the text with room for this many matches at a time, and tests that they are a* in
 * "baac": an empty one at 0, one from 1 to 3, and an empty one at 4. */
static void walk_with(regex_lite *regex, size_t room) {
    static const regex_lite_span wanted[] = {{true, 0, 0}, {true, 1, 3}, {true, 4, 4}};
    regex_lite_walk walk = REGEX_LITE_START;
    regex_lite_span spans[5];
    size_t seen = 0, count = 7, i;
    while (regex_lite_find_all(regex, TEXT("baac"), &walk, spans, room, &count) == REGEX_LITE_YES) {
        WANT(0 < count && count <= room);
        for (i = 0; i < count && seen < 3; i++, seen++)
            WANT(spans[i].is_there && spans[i].start == wanted[seen].start &&
                 spans[i].end == wanted[seen].end);
        WANT(i == count);
    }
    WANT(seen == 3 && count == 0);
    WANT(regex_lite_find_all(regex, TEXT("baac"), &walk, spans, room, &count) == REGEX_LITE_NO);
}

static void test_walks(void) {
    regex_lite regex = REGEX_LITE_NOTHING;
    regex_lite_walk walk = REGEX_LITE_START, inside = {true, 1};
    regex_lite_span spans[5] = {
        {true, 9, 9}, {true, 9, 9}, {true, 9, 9}, {true, 9, 9}, {true, 9, 9}};
    size_t count = 7, room;
    WANT(build(&regex, "a*", &defaults) == REGEX_LITE_YES);
    for (room = 1; room <= 5; room++) walk_with(&regex, room);
    WANT(regex_lite_find_all(&regex, TEXT("aab"), &walk, spans, 0, &count) == REGEX_LITE_NO_ROOM);
    WANT(count == 0 && !walk.is_begun);
    WANT(regex_lite_find_all(&regex, TEXT("\xc3\xbc"), &inside, spans, 5, &count) ==
         REGEX_LITE_BAD_OFFSET);
    WANT(build(&regex, "[0-9]", &defaults) == REGEX_LITE_YES);
    WANT(regex_lite_find_all(&regex, TEXT("b52"), &walk, spans, 5, &count) == REGEX_LITE_YES);
    WANT(count == 2 && spans[2].start == 9 && walk.is_begun && walk.end == 3);
    regex_lite_free(&regex);
}

/* Walks over the groups of ([a-z])([0-9])? in "a1 b" with room for this many spans. */
static void walk_groups_with(regex_lite *regex, size_t room) {
    static const regex_lite_span wanted[] = {{true, 0, 2}, {true, 0, 1}, {true, 1, 2},
                                             {true, 3, 4}, {true, 3, 4}, {false, 0, 0}};
    regex_lite_walk walk = REGEX_LITE_START;
    regex_lite_span spans[8];
    size_t seen = 0, count = 7, i;
    while (regex_lite_captures_all(regex, TEXT("a1 b"), &walk, spans, room, &count) ==
           REGEX_LITE_YES) {
        WANT(0 < count && 3 * count <= room);
        for (i = 0; i < 3 * count && seen < 6; i++, seen++)
            WANT(spans[i].is_there == wanted[seen].is_there &&
                 spans[i].start == wanted[seen].start && spans[i].end == wanted[seen].end);
        WANT(i == 3 * count);
    }
    WANT(seen == 6 && count == 0);
}

static void test_walks_over_groups(void) {
    regex_lite regex = REGEX_LITE_NOTHING;
    regex_lite_walk walk = REGEX_LITE_START, again = REGEX_LITE_START;
    regex_lite_span spans[8];
    size_t count = 7, room;
    WANT(build(&regex, "([a-z])([0-9])?", &defaults) == REGEX_LITE_YES);
    for (room = 3; room <= 8; room++) walk_groups_with(&regex, room);
    WANT(regex_lite_captures_all(&regex, TEXT("a1"), &walk, spans, 8, &count) == REGEX_LITE_YES);
    WANT(count == 1 && walk.is_begun && walk.end == 2);
    WANT(regex_lite_captures_all(&regex, TEXT("a1 b"), &again, spans, 8, &count) ==
         REGEX_LITE_YES);
    WANT(count == 2 && again.end == 4);
    WANT(regex_lite_captures_all(&regex, TEXT("a1 b"), &walk, spans, 2, &count) ==
         REGEX_LITE_NO_ROOM);
    WANT(count == 0 && walk.end == 2);
    WANT(regex_lite_captures_all(&regex, (const uint8_t *)"\xff", 1, &walk, spans, 8, &count) ==
         REGEX_LITE_NOT_TEXT);
    regex_lite_free(&regex);
    WANT(regex_lite_captures_all(&regex, TEXT("a1"), &walk, spans, 8, &count) ==
         REGEX_LITE_NOTHING_HELD);
}

static void test_replacing(void) {
    regex_lite regex = REGEX_LITE_NOTHING;
    regex_lite_replacing all = REGEX_LITE_ALL, one = {1, false, 0, 0}, literal = {0, true, 0, 0};
    uint8_t room[40];
    size_t len = 7;
    WANT(build(&regex, "(?<first>[a-z]+) (?<last>[a-z]+)", &defaults) == REGEX_LITE_YES);
    WANT(regex_lite_replace(&regex, TEXT("ada lovelace"), TEXT("$last, $1"), &all, room, 40) ==
         REGEX_LITE_YES);
    WANT(is(room, all.len, "lovelace, ada") && all.count == 1);
    all.count = 9;
    memset(room, '.', sizeof room);
    WANT(regex_lite_replace(&regex, TEXT("ada lovelace"), TEXT("$last, $1"), &all, room, 12) ==
         REGEX_LITE_NO_ROOM);
    WANT(all.len == 13 && all.count == 1 && room[0] == '.');
    WANT(regex_lite_replace(&regex, TEXT("ada lovelace"), TEXT("$1"), &literal, room, 40) ==
         REGEX_LITE_YES);
    WANT(is(room, literal.len, "$1") && literal.count == 1);
    WANT(build(&regex, " +", &defaults) == REGEX_LITE_YES);
    WANT(regex_lite_replace(&regex, TEXT("a  b c"), TEXT("_"), &one, room, 40) == REGEX_LITE_YES);
    WANT(is(room, one.len, "a_b c") && one.limit == 1 && one.count == 1);
    WANT(regex_lite_replace(&regex, TEXT("a  b c"), TEXT("_"), &all, room, 40) == REGEX_LITE_YES);
    WANT(is(room, all.len, "a_b_c") && all.count == 2);
    WANT(regex_lite_replace(&regex, TEXT("a"), (const uint8_t *)"\xff", 1, &all, room, 40) ==
         REGEX_LITE_NOT_TEXT);
    WANT(all.len == 5 && all.count == 2);
    WANT(regex_lite_replace(&regex, TEXT("abc"), TEXT("_"), &all, room, 40) == REGEX_LITE_YES);
    WANT(is(room, all.len, "abc") && all.count == 0);
    regex_lite_free(&regex);
    WANT(regex_lite_escape(TEXT("3.5 (or so)"), room, 40, &len) == REGEX_LITE_YES);
    WANT(is(room, len, "3\\.5 \\(or so\\)"));
    WANT(regex_lite_escape(TEXT("3.5"), room, 3, &len) == REGEX_LITE_NO_ROOM && len == 4);
    WANT(regex_lite_escape((const uint8_t *)"\xff", 1, room, 40, &len) == REGEX_LITE_NOT_TEXT);
}

/* What every search refuses. */
static void test_bad_input(void) {
    regex_lite regex = REGEX_LITE_NOTHING;
    regex_lite_replacing all = REGEX_LITE_ALL;
    regex_lite_walk walk = REGEX_LITE_START;
    regex_lite_span span;
    uint8_t room[4];
    size_t n;
    const uint8_t *wide = (const uint8_t *)"\xe2\x82\xac"; /* one character of three bytes */
    WANT(regex_lite_is_text(wide, 3) && !regex_lite_is_text(wide, 2));
    WANT(build(&regex, ".", &defaults) == REGEX_LITE_YES);
    WANT(regex_lite_is_match(&regex, wide, 2, 0) == REGEX_LITE_NOT_TEXT);
    WANT(regex_lite_is_match(&regex, wide, 3, 0) == REGEX_LITE_YES);
    WANT(regex_lite_is_match(&regex, wide, 3, 1) == REGEX_LITE_BAD_OFFSET);
    WANT(regex_lite_is_match(&regex, wide, 3, 3) == REGEX_LITE_NO);
    WANT(regex_lite_is_match(&regex, wide, 3, 4) == REGEX_LITE_BAD_OFFSET);
    WANT(regex_lite_find(&regex, wide, 3, 2, &span) == REGEX_LITE_BAD_OFFSET);
    WANT(regex_lite_shortest(&regex, wide, 3, SIZE_MAX, &n) == REGEX_LITE_BAD_OFFSET);
    WANT(regex_lite_captures(&regex, wide, 1, 0, &span, 1, &n) == REGEX_LITE_NOT_TEXT);
    regex_lite_free(&regex);
    WANT(regex_lite_is_match(&regex, wide, 3, 0) == REGEX_LITE_NOTHING_HELD);
    WANT(regex_lite_find(&regex, wide, 3, 0, &span) == REGEX_LITE_NOTHING_HELD);
    WANT(regex_lite_shortest(&regex, wide, 3, 0, &n) == REGEX_LITE_NOTHING_HELD);
    WANT(regex_lite_captures(&regex, wide, 3, 0, &span, 1, &n) == REGEX_LITE_NOTHING_HELD);
    WANT(regex_lite_find_all(&regex, wide, 3, &walk, &span, 1, &n) == REGEX_LITE_NOTHING_HELD);
    WANT(regex_lite_replace(&regex, wide, 3, wide, 3, &all, room, 4) == REGEX_LITE_NOTHING_HELD);
    WANT(regex_lite_pattern(&regex, room, 4, &n) == REGEX_LITE_NOTHING_HELD);
    WANT(regex_lite_may_be_empty(&regex) == REGEX_LITE_NOTHING_HELD);
    WANT(regex_lite_group_name(&regex, 0, room, 4, &n) == REGEX_LITE_NOTHING_HELD);
    WANT(regex_lite_group_index(&regex, wide, 3, &n) == REGEX_LITE_NOTHING_HELD);
    WANT(regex_lite_groups(&regex) == 0 && regex_lite_static_groups(&regex) == 0);
    WANT(regex_lite_places(&regex) == 0 && regex_lite_arrows(&regex) == 0);
}

int main(void) {
    test_building();
    test_faults();
    test_flags();
    test_swapped_greed();
    test_properties();
    test_searches();
    test_captures();
    test_walks();
    test_walks_over_groups();
    test_replacing();
    test_bad_input();
    if (failed == 0) puts("calls: all is so");
    return failed != 0;
}
