/* Calls each anchored search, with what it takes and what it refuses. The values that are expected
 * are those that the Rust crate finds of the pattern as \A(?:..) in the text from the start on, and
 * where looks see what stands before, those that the documents say. */
#include "built.h"

/* Whether the three calls find the match from this start up to this end. */
static bool ends_at(const char *pattern, const char *text, size_t start, size_t end) {
    regex_lite regex = REGEX_LITE_NOTHING;
    regex_lite_span span = {false, 9, 9}, groups[4];
    size_t count = 7;
    bool is_so = build(&regex, pattern) == REGEX_LITE_YES &&
                 regex_lite_is_match_anchored(&regex, TEXT(text), start) == REGEX_LITE_YES &&
                 regex_lite_find_anchored(&regex, TEXT(text), start, &span) == REGEX_LITE_YES &&
                 regex_lite_captures_anchored(&regex, TEXT(text), start, groups, 4, &count) ==
                     REGEX_LITE_YES;
    regex_lite_free(&regex);
    return is_so && span.is_there && span.start == start && span.end == end &&
           groups[0].is_there && groups[0].start == start && groups[0].end == end && count >= 1;
}

/* Whether they find none, and write nothing. */
static bool is_none(const char *pattern, const char *text, size_t start) {
    regex_lite regex = REGEX_LITE_NOTHING;
    regex_lite_span span = {false, 9, 8}, groups[1] = {{false, 9, 8}};
    size_t count = 7;
    bool is_so = build(&regex, pattern) == REGEX_LITE_YES &&
                 regex_lite_is_match_anchored(&regex, TEXT(text), start) == REGEX_LITE_NO &&
                 regex_lite_find_anchored(&regex, TEXT(text), start, &span) == REGEX_LITE_NO &&
                 regex_lite_captures_anchored(&regex, TEXT(text), start, groups, 1, &count) ==
                     REGEX_LITE_NO;
    regex_lite_free(&regex);
    return is_so && !span.is_there && span.start == 9 && span.end == 8 && !groups[0].is_there &&
           groups[0].start == 9 && groups[0].end == 8 && count == 7;
}

static void test_matches(void) {
    WANT(ends_at("[0-9]+", "width=72", 6, 8));
    WANT(is_none("[0-9]+", "width=72", 5)); /* though a match starts later */
    WANT(is_none("[0-9]+", "width=72", 0));
    WANT(ends_at("sam|samwise", "mr samwise", 3, 6)); /* the one that is preferred */
    WANT(ends_at("samwise|sam", "mr samwise", 3, 10));
    WANT(ends_at("a*", "baa", 0, 0));
    WANT(ends_at("a*", "baa", 3, 3));
    WANT(is_none("a", "baa", 3));
    WANT(ends_at("(a)|(b)", "ab", 1, 2));
}

/* Looks see what stands before the start and after the match. */
static void test_looks(void) {
    WANT(is_none("^b", "ab", 1));
    WANT(ends_at("(?m)^b", "a\nb", 2, 3));
    WANT(is_none("\\bb", "ab", 1));
    WANT(ends_at("\\bb", "a b", 2, 3));
    WANT(is_none("a$", "ab", 0));
    WANT(ends_at("(?m)a$", "a\nb", 0, 1));
}

static void test_groups(void) {
    regex_lite regex = REGEX_LITE_NOTHING;
    regex_lite_span spans[4] = {{true, 9, 9}, {true, 9, 9}, {true, 9, 9}, {true, 9, 9}};
    size_t count = 7;
    WANT(build(&regex, "(?<key>[a-z]+)=([0-9]+)?") == REGEX_LITE_YES);
    WANT(regex_lite_captures_anchored(&regex, TEXT("#width=,"), 1, spans, 2, &count) ==
         REGEX_LITE_NO_ROOM);
    WANT(count == 3 && spans[0].start == 9 && spans[1].start == 9);
    WANT(regex_lite_captures_anchored(&regex, TEXT("#width=,"), 1, spans, 4, &count) ==
         REGEX_LITE_YES);
    WANT(count == 3 && spans[0].start == 1 && spans[0].end == 7);
    WANT(spans[1].is_there && spans[1].start == 1 && spans[1].end == 6);
    WANT(!spans[2].is_there && spans[2].start == 0 && spans[2].end == 0 && spans[3].start == 9);
    regex_lite_free(&regex);
}

static void test_refused(void) {
    regex_lite regex = REGEX_LITE_NOTHING;
    regex_lite_span span = {false, 9, 9};
    const uint8_t *wide = (const uint8_t *)"\xe2\x82\xac"; /* one character of three bytes */
    size_t count = 7;
    WANT(regex_lite_is_match_anchored(&regex, TEXT("a"), 0) == REGEX_LITE_NOTHING_HELD);
    WANT(regex_lite_find_anchored(&regex, TEXT("a"), 0, &span) == REGEX_LITE_NOTHING_HELD);
    WANT(regex_lite_captures_anchored(&regex, TEXT("a"), 0, &span, 1, &count) ==
         REGEX_LITE_NOTHING_HELD);
    WANT(build(&regex, "") == REGEX_LITE_YES);
    WANT(regex_lite_is_match_anchored(&regex, wide, 2, 0) == REGEX_LITE_NOT_TEXT);
    WANT(regex_lite_find_anchored(&regex, wide, 3, 1, &span) == REGEX_LITE_BAD_OFFSET);
    WANT(regex_lite_captures_anchored(&regex, wide, 3, 4, &span, 1, &count) ==
         REGEX_LITE_BAD_OFFSET);
    WANT(span.start == 9 && count == 7);
    WANT(regex_lite_find_anchored(&regex, wide, 3, 3, &span) == REGEX_LITE_YES);
    WANT(span.start == 3 && span.end == 3);
    regex_lite_free(&regex);
}

/* Cuts a text into tokens, each of which starts where the one before it ends. */
static void test_tokens(void) {
    static const regex_lite_list_span wanted[] = {{1, 0, 1}, {0, 1, 2}, {1, 2, 3}, {0, 3, 5}};
    regex_lite_list list = REGEX_LITE_NOTHING;
    regex_lite_list_span span = {7, 7, 7};
    size_t at = 0, i = 0;
    WANT(build_two(&list, "[0-9]+", "[a-z+]") == REGEX_LITE_YES);
    while (regex_lite_list_find_anchored(&list, TEXT("x1+42?"), at, &span) == REGEX_LITE_YES) {
        WANT(i < 4 && span.number == wanted[i].number && span.start == wanted[i].start &&
             span.end == wanted[i].end);
        at = span.end;
        i++;
    }
    WANT(i == 4 && at == 5 && span.end == 5);
    WANT(regex_lite_list_is_match_anchored(&list, TEXT("x1+42?"), 5) == REGEX_LITE_NO);
    WANT(regex_lite_list_is_match_anchored(&list, TEXT("x1+42?"), 4) == REGEX_LITE_YES);
    regex_lite_list_free(&list);
}

/* Of the patterns that match at the start the one with the lowest number is found, though another
 * one starts earlier, or is longer. */
static void test_lists(void) {
    regex_lite_list list = REGEX_LITE_NOTHING;
    regex_lite_list_span span = {7, 7, 7};
    regex_lite_list_groups told = {7, 7};
    regex_lite_span spans[3] = {{true, 9, 9}, {true, 9, 9}, {true, 9, 9}};
    const uint8_t *wide = (const uint8_t *)"\xe2\x82\xac"; /* one character of three bytes */
    WANT(regex_lite_list_is_match_anchored(&list, TEXT("a"), 0) == REGEX_LITE_NOTHING_HELD);
    WANT(regex_lite_list_find_anchored(&list, TEXT("a"), 0, &span) == REGEX_LITE_NOTHING_HELD);
    WANT(regex_lite_list_captures_anchored(&list, TEXT("a"), 0, spans, 3, &told) ==
         REGEX_LITE_NOTHING_HELD);
    WANT(build_two(&list, "b(c)?", "a?(b)(c)(d)?") == REGEX_LITE_YES);
    WANT(regex_lite_list_find_anchored(&list, TEXT("abcd"), 1, &span) == REGEX_LITE_YES);
    WANT(span.number == 0 && span.start == 1 && span.end == 3);
    WANT(regex_lite_list_find_anchored(&list, TEXT("abcd"), 0, &span) == REGEX_LITE_YES);
    WANT(span.number == 1 && span.start == 0 && span.end == 4);
    WANT(regex_lite_list_find_anchored(&list, TEXT("abcd"), 2, &span) == REGEX_LITE_NO);
    WANT(span.number == 1 && span.end == 4);
    WANT(regex_lite_list_captures_anchored(&list, TEXT("abcd"), 2, spans, 3, &told) ==
         REGEX_LITE_NO);
    WANT(regex_lite_list_captures_anchored(&list, TEXT("abcd"), 0, spans, 3, &told) ==
         REGEX_LITE_NO_ROOM);
    WANT(told.number == 1 && told.count == 4 && spans[0].start == 9);
    WANT(regex_lite_list_captures_anchored(&list, TEXT("abcd"), 1, spans, 3, &told) ==
         REGEX_LITE_YES);
    WANT(told.number == 0 && told.count == 2 && spans[0].start == 1 && spans[0].end == 3);
    WANT(spans[1].is_there && spans[1].start == 2 && spans[1].end == 3 && spans[2].start == 9);
    WANT(regex_lite_list_is_match_anchored(&list, wide, 2, 0) == REGEX_LITE_NOT_TEXT);
    WANT(regex_lite_list_find_anchored(&list, wide, 3, 1, &span) == REGEX_LITE_BAD_OFFSET);
    WANT(regex_lite_list_captures_anchored(&list, wide, 3, 4, spans, 3, &told) ==
         REGEX_LITE_BAD_OFFSET);
    regex_lite_list_free(&list);
}

int main(void) {
    test_matches();
    test_looks();
    test_groups();
    test_refused();
    test_tokens();
    test_lists();
    if (failed == 0) puts("anchored: all is so");
    return failed != 0;
}
