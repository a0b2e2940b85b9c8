/* Calls each search for one pattern of a list, with what it takes and what it refuses. The values
 * that are expected are those that the Rust crate finds of the pattern by itself. */
#include "want.h"

/* Builds the list of a name for b and c, of a or d, and of a text that may be empty. */
static regex_lite_answer build(regex_lite_list *list) {
    regex_lite_list_pattern each[3] = {
        {11, REGEX_LITE_DEFAULTS}, {6, REGEX_LITE_DEFAULTS}, {4, REGEX_LITE_DEFAULTS}};
    regex_lite_list_refusal refusal;
    uint8_t message[100];
    return regex_lite_list_new(list, TEXT("(?<x>b)(c)?^a|(d)x*\\b"), each, 3, message,
                               sizeof message, &refusal);
}

/* Whether the calls for this pattern find the match with this span from the start on. */
static bool is_at(regex_lite_list *list, size_t number, const char *text, size_t from, size_t start,
                  size_t end) {
    regex_lite_span span = {false, 9, 9}, groups[3];
    size_t count = 7;
    return regex_lite_list_is_match_of(list, number, TEXT(text), from) == REGEX_LITE_YES &&
           regex_lite_list_find_of(list, number, TEXT(text), from, &span) == REGEX_LITE_YES &&
           regex_lite_list_captures_of(list, number, TEXT(text), from, groups, 3, &count) ==
               REGEX_LITE_YES &&
           span.is_there && span.start == start && span.end == end && groups[0].is_there &&
           groups[0].start == start && groups[0].end == end && count == 3 - number;
}

/* Whether they give this answer, and write nothing. */
static bool is_refused(regex_lite_list *list, size_t number, const uint8_t *text, size_t len,
                       size_t from, regex_lite_answer answer) {
    regex_lite_span span = {false, 9, 8}, groups[3] = {{false, 9, 8}, {false, 9, 8}, {false, 9, 8}};
    size_t count = 7;
    return regex_lite_list_is_match_of(list, number, text, len, from) == answer &&
           regex_lite_list_find_of(list, number, text, len, from, &span) == answer &&
           regex_lite_list_captures_of(list, number, text, len, from, groups, 3, &count) ==
               answer &&
           !span.is_there && span.start == 9 && span.end == 8 && !groups[0].is_there &&
           groups[0].start == 9 && count == 7;
}

static void test_searches(void) {
    regex_lite_list list = REGEX_LITE_NOTHING;
    WANT(is_refused(&list, 0, TEXT("b"), 0, REGEX_LITE_NOTHING_HELD));
    WANT(build(&list) == REGEX_LITE_YES);
    WANT(is_at(&list, 0, "abcb", 0, 1, 3)); /* another pattern matches further to the left */
    WANT(is_at(&list, 0, "abcb", 2, 3, 4));
    WANT(is_at(&list, 1, "abd", 0, 0, 1));
    WANT(is_at(&list, 1, "abd", 1, 2, 3)); /* looks see what stands before the start */
    WANT(is_at(&list, 2, "abd", 0, 0, 0));
    WANT(is_at(&list, 2, "abd", 1, 3, 3));
    WANT(is_refused(&list, 0, TEXT("abcb"), 4, REGEX_LITE_NO));
    WANT(is_refused(&list, 1, TEXT("ba"), 0, REGEX_LITE_NO));
    regex_lite_list_free(&list);
}

static void test_groups(void) {
    regex_lite_list list = REGEX_LITE_NOTHING;
    regex_lite_span spans[4] = {{true, 9, 9}, {true, 9, 9}, {true, 9, 9}, {true, 9, 9}};
    size_t count = 7;
    WANT(build(&list) == REGEX_LITE_YES);
    WANT(regex_lite_list_captures_of(&list, 0, TEXT("ab"), 0, spans, 2, &count) ==
         REGEX_LITE_NO_ROOM);
    WANT(count == 3 && spans[0].start == 9);
    WANT(regex_lite_list_captures_of(&list, 0, TEXT("ab"), 0, spans, 4, &count) == REGEX_LITE_YES);
    WANT(count == 3 && spans[0].start == 1 && spans[0].end == 2);
    WANT(spans[1].is_there && spans[1].start == 1 && spans[1].end == 2);
    WANT(!spans[2].is_there && spans[2].start == 0 && spans[2].end == 0 && spans[3].start == 9);
    regex_lite_list_free(&list);
}

static void test_refused(void) {
    regex_lite_list list = REGEX_LITE_NOTHING;
    const uint8_t *wide = (const uint8_t *)"\xe2\x82\xac"; /* one character of three bytes */
    WANT(build(&list) == REGEX_LITE_YES);
    WANT(is_refused(&list, 3, TEXT("b"), 0, REGEX_LITE_NO_PATTERN));
    WANT(is_refused(&list, SIZE_MAX, TEXT("b"), 0, REGEX_LITE_NO_PATTERN));
    WANT(is_refused(&list, 3, wide, 2, 9, REGEX_LITE_NO_PATTERN));
    WANT(is_refused(&list, 0, wide, 2, 0, REGEX_LITE_NOT_TEXT));
    WANT(is_refused(&list, 0, wide, 3, 1, REGEX_LITE_BAD_OFFSET));
    WANT(is_refused(&list, 0, wide, 3, 4, REGEX_LITE_BAD_OFFSET));
    regex_lite_list_free(&list);
}

/* Whether each pattern may be empty, with its looks taken to hold. */
static void test_emptiness(void) {
    regex_lite_list list = REGEX_LITE_NOTHING;
    WANT(regex_lite_list_may_be_empty(&list, 0) == REGEX_LITE_NOTHING_HELD);
    WANT(build(&list) == REGEX_LITE_YES);
    WANT(regex_lite_list_may_be_empty(&list, 0) == REGEX_LITE_NO);
    WANT(regex_lite_list_may_be_empty(&list, 1) == REGEX_LITE_NO);
    WANT(regex_lite_list_may_be_empty(&list, 2) == REGEX_LITE_YES);
    WANT(regex_lite_list_may_be_empty(&list, 3) == REGEX_LITE_NO_PATTERN);
    WANT(regex_lite_list_may_be_empty(&list, SIZE_MAX) == REGEX_LITE_NO_PATTERN);
    regex_lite_list_free(&list);
}

int main(void) {
    test_searches();
    test_groups();
    test_refused();
    test_emptiness();
    if (failed == 0) puts("listed: all is so");
    return failed != 0;
}
