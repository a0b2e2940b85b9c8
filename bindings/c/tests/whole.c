/* Calls each search for a whole match, with what it takes and what it refuses. The values that are
 * expected are those that the Rust crate finds of the pattern as \A(?:..)\z. */
#include "built.h"

/* Whether the three calls find the whole text. */
static bool is_whole(const char *pattern, const char *text) {
    regex_lite regex = REGEX_LITE_NOTHING;
    regex_lite_span span = {false, 9, 9}, groups[4];
    size_t count = 7;
    bool is_so =
        build(&regex, pattern) == REGEX_LITE_YES &&
        regex_lite_is_full_match(&regex, TEXT(text)) == REGEX_LITE_YES &&
        regex_lite_full_match(&regex, TEXT(text), &span) == REGEX_LITE_YES &&
        regex_lite_full_captures(&regex, TEXT(text), groups, 4, &count) == REGEX_LITE_YES;
    regex_lite_free(&regex);
    return is_so && span.is_there && span.start == 0 && span.end == strlen(text) &&
           groups[0].is_there && groups[0].start == 0 && groups[0].end == strlen(text) &&
           count >= 1;
}

/* Whether they find none, and write nothing. */
static bool is_none(const char *pattern, const char *text) {
    regex_lite regex = REGEX_LITE_NOTHING;
    regex_lite_span span = {false, 9, 8}, groups[1] = {{false, 9, 8}};
    size_t count = 7;
    bool is_so = build(&regex, pattern) == REGEX_LITE_YES &&
                 regex_lite_is_full_match(&regex, TEXT(text)) == REGEX_LITE_NO &&
                 regex_lite_full_match(&regex, TEXT(text), &span) == REGEX_LITE_NO &&
                 regex_lite_full_captures(&regex, TEXT(text), groups, 1, &count) == REGEX_LITE_NO;
    regex_lite_free(&regex);
    return is_so && !span.is_there && span.start == 9 && span.end == 8 && !groups[0].is_there &&
           groups[0].start == 9 && groups[0].end == 8 && count == 7;
}

static void test_matches(void) {
    WANT(is_whole("[0-9]+", "72"));
    WANT(is_none("[0-9]+", "72px")); /* though a match starts there */
    WANT(is_none("[0-9]+", " 72"));
    WANT(is_whole("sam|samwise", "samwise")); /* though it prefers a shorter match */
    WANT(is_whole("a*?", "aaa"));
    WANT(is_whole("", ""));
    WANT(is_none("", "a"));
    WANT(is_none("a", ""));
    WANT(is_whole("\xe2\x82\xac+", "\xe2\x82\xac\xe2\x82\xac"));
    WANT(is_whole("^a$", "a"));
    WANT(is_none("(?m)a$", "a\nb"));
    WANT(is_none("a\\B", "a"));
}

/* The groups are those of the way that is preferred of those that match the whole text. */
static void test_groups(void) {
    regex_lite regex = REGEX_LITE_NOTHING;
    regex_lite_span spans[4] = {{true, 9, 9}, {true, 9, 9}, {true, 9, 9}, {true, 9, 9}};
    size_t count = 7;
    WANT(build(&regex, "(a|ab)(c|bcd)?") == REGEX_LITE_YES);
    WANT(regex_lite_full_captures(&regex, TEXT("abc"), spans, 2, &count) == REGEX_LITE_NO_ROOM);
    WANT(count == 3 && spans[0].start == 9 && spans[1].start == 9);
    WANT(regex_lite_full_captures(&regex, TEXT("abc"), spans, 4, &count) == REGEX_LITE_YES);
    WANT(count == 3 && spans[0].start == 0 && spans[0].end == 3 && spans[1].end == 2);
    WANT(spans[2].is_there && spans[2].start == 2 && spans[2].end == 3 && spans[3].start == 9);
    WANT(regex_lite_full_captures(&regex, TEXT("abcd"), spans, 4, &count) == REGEX_LITE_YES);
    WANT(spans[1].end == 1 && spans[2].start == 1 && spans[2].end == 4);
    WANT(regex_lite_full_captures(&regex, TEXT("ab"), spans, 4, &count) == REGEX_LITE_YES);
    WANT(spans[1].end == 2 && !spans[2].is_there);
    regex_lite_free(&regex);
}

static void test_refused(void) {
    regex_lite regex = REGEX_LITE_NOTHING;
    regex_lite_span span = {false, 9, 9};
    const uint8_t *wide = (const uint8_t *)"\xe2\x82\xac"; /* one character of three bytes */
    size_t count = 7;
    WANT(regex_lite_is_full_match(&regex, TEXT("a")) == REGEX_LITE_NOTHING_HELD);
    WANT(regex_lite_full_match(&regex, TEXT("a"), &span) == REGEX_LITE_NOTHING_HELD);
    WANT(regex_lite_full_captures(&regex, TEXT("a"), &span, 1, &count) == REGEX_LITE_NOTHING_HELD);
    WANT(build(&regex, ".") == REGEX_LITE_YES);
    WANT(regex_lite_is_full_match(&regex, wide, 2) == REGEX_LITE_NOT_TEXT);
    WANT(regex_lite_full_match(&regex, wide, 1, &span) == REGEX_LITE_NOT_TEXT);
    WANT(regex_lite_full_captures(&regex, wide, 2, &span, 1, &count) == REGEX_LITE_NOT_TEXT);
    WANT(span.start == 9 && count == 7);
    WANT(regex_lite_full_match(&regex, wide, 3, &span) == REGEX_LITE_YES);
    WANT(span.start == 0 && span.end == 3);
    regex_lite_free(&regex);
}

/* Of the patterns that match the whole text the one with the lowest number is found, though a lower
 * one matches a part of it. */
static void test_lists(void) {
    regex_lite_list list = REGEX_LITE_NOTHING;
    regex_lite_list_span span = {7, 7, 7};
    regex_lite_list_groups told = {7, 7};
    regex_lite_span spans[3] = {{true, 9, 9}, {true, 9, 9}, {true, 9, 9}};
    const uint8_t *wide = (const uint8_t *)"\xe2\x82\xac"; /* one character of three bytes */
    WANT(regex_lite_list_is_full_match(&list, TEXT("a")) == REGEX_LITE_NOTHING_HELD);
    WANT(regex_lite_list_full_match(&list, TEXT("a"), &span) == REGEX_LITE_NOTHING_HELD);
    WANT(regex_lite_list_full_captures(&list, TEXT("a"), spans, 3, &told) ==
         REGEX_LITE_NOTHING_HELD);
    WANT(build_two(&list, "b(c)?", "[a-z](b)?(c)?(d)?") == REGEX_LITE_YES);
    WANT(regex_lite_list_is_full_match(&list, TEXT("bc")) == REGEX_LITE_YES);
    WANT(regex_lite_list_full_match(&list, TEXT("bc"), &span) == REGEX_LITE_YES);
    WANT(span.number == 0 && span.start == 0 && span.end == 2);
    WANT(regex_lite_list_full_match(&list, TEXT("bcd"), &span) == REGEX_LITE_YES);
    WANT(span.number == 1 && span.start == 0 && span.end == 3);
    WANT(regex_lite_list_is_full_match(&list, TEXT("bc ")) == REGEX_LITE_NO);
    WANT(regex_lite_list_full_match(&list, TEXT("bc "), &span) == REGEX_LITE_NO);
    WANT(span.number == 1 && span.end == 3);
    WANT(regex_lite_list_full_captures(&list, TEXT("bc "), spans, 3, &told) == REGEX_LITE_NO);
    WANT(regex_lite_list_full_captures(&list, TEXT("abcd"), spans, 3, &told) ==
         REGEX_LITE_NO_ROOM);
    WANT(told.number == 1 && told.count == 4 && spans[0].start == 9);
    WANT(regex_lite_list_full_captures(&list, TEXT("bc"), spans, 3, &told) == REGEX_LITE_YES);
    WANT(told.number == 0 && told.count == 2 && spans[0].start == 0 && spans[0].end == 2);
    WANT(spans[1].is_there && spans[1].start == 1 && spans[1].end == 2 && spans[2].start == 9);
    WANT(regex_lite_list_is_full_match(&list, wide, 2) == REGEX_LITE_NOT_TEXT);
    WANT(regex_lite_list_full_match(&list, wide, 2, &span) == REGEX_LITE_NOT_TEXT);
    WANT(regex_lite_list_full_captures(&list, wide, 2, spans, 3, &told) == REGEX_LITE_NOT_TEXT);
    regex_lite_list_free(&list);
}

int main(void) {
    test_matches();
    test_groups();
    test_refused();
    test_lists();
    if (failed == 0) puts("whole: all is so");
    return failed != 0;
}
