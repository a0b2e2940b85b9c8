/* Calls each search of a searcher, with what it takes and what it refuses. The values that are
 * expected are those that the Rust crate finds, and for what the Rust crate has not, those that the
 * documents say. */
#include "built.h"

/* One character of three bytes. */
#define WIDE "\xe2\x82\xac"

/* Makes a searcher for this pattern, and has it read this text. */
static regex_lite_answer make(regex_lite_searcher *searcher, const char *pattern,
                              const char *text) {
    regex_lite regex = REGEX_LITE_NOTHING;
    regex_lite_answer answer = build(&regex, pattern);
    if (answer == REGEX_LITE_YES) answer = regex_lite_searcher_new(searcher, &regex);
    if (answer == REGEX_LITE_YES) answer = regex_lite_searcher_read(searcher, TEXT(text));
    return answer;
}

static void test_making(void) {
    regex_lite regex = REGEX_LITE_NOTHING, other = REGEX_LITE_NOTHING;
    regex_lite_searcher searcher = REGEX_LITE_NOTHING;
    regex_lite_span span = {false, 9, 9};
    WANT(regex_lite_searcher_new(&searcher, &regex) == REGEX_LITE_NOTHING_HELD);
    WANT(build(&regex, "b|^$") == REGEX_LITE_YES);
    WANT(regex_lite_searcher_new(&searcher, &regex) == REGEX_LITE_YES);
    /* The regex has gone to the searcher, and its handle can be used again. */
    WANT(regex_lite_is_match(&regex, TEXT("b"), 0) == REGEX_LITE_NOTHING_HELD);
    WANT(build(&regex, "c") == REGEX_LITE_YES);
    /* The text is empty at first. */
    WANT(regex_lite_searcher_find(&searcher, 0, &span) == REGEX_LITE_YES);
    WANT(span.is_there && span.start == 0 && span.end == 0);
    WANT(regex_lite_searcher_find(&searcher, 1, &span) == REGEX_LITE_BAD_OFFSET);
    WANT(regex_lite_searcher_read(&searcher, TEXT("ab")) == REGEX_LITE_YES);
    WANT(regex_lite_searcher_is_match(&searcher) == REGEX_LITE_YES);
    /* A searcher that is made again has the other regex, and an empty text. */
    WANT(regex_lite_searcher_new(&searcher, &regex) == REGEX_LITE_YES);
    WANT(regex_lite_searcher_is_match(&searcher) == REGEX_LITE_NO);
    WANT(regex_lite_searcher_read(&searcher, TEXT("abc")) == REGEX_LITE_YES);
    WANT(regex_lite_searcher_find(&searcher, 0, &span) == REGEX_LITE_YES && span.start == 2);
    /* Where there is no regex, what was held before is freed. */
    WANT(regex_lite_searcher_new(&searcher, &other) == REGEX_LITE_NOTHING_HELD);
    WANT(regex_lite_searcher_is_match(&searcher) == REGEX_LITE_NOTHING_HELD);
    regex_lite_searcher_free(&searcher);
    regex_lite_searcher_free(&searcher);
    regex_lite_free(&regex);
}

/* Each text takes the place of the one before, and one that is refused leaves it. */
static void test_texts(void) {
    static const char *const texts[] = {"a long line with 17 letters", "7", "", "none", "in 1984"};
    static const size_t starts[] = {17, 0, 9, 9, 3};
    regex_lite_searcher searcher = REGEX_LITE_NOTHING;
    regex_lite_span span;
    char text[40];
    size_t i;
    WANT(make(&searcher, "[0-9]+", "") == REGEX_LITE_YES);
    for (i = 0; i < 5; i++) {
        regex_lite_answer wanted = starts[i] == 9 ? REGEX_LITE_NO : REGEX_LITE_YES;
        strcpy(text, texts[i]);
        WANT(regex_lite_searcher_read(&searcher, TEXT(text)) == REGEX_LITE_YES);
        memset(text, '5', sizeof text); /* the searcher has a copy */
        span.start = 9;
        WANT(regex_lite_searcher_is_match(&searcher) == wanted);
        WANT(regex_lite_searcher_find(&searcher, 0, &span) == wanted && span.start == starts[i]);
    }
    WANT(regex_lite_searcher_read(&searcher, (const uint8_t *)"5\xff", 2) == REGEX_LITE_NOT_TEXT);
    WANT(regex_lite_searcher_find(&searcher, 0, &span) == REGEX_LITE_YES);
    WANT(span.start == 3 && span.end == 7);
    regex_lite_searcher_free(&searcher);
}

/* A loop from the end of each match finds all of them. */
static void test_loop(void) {
    static const size_t wanted[][2] = {{7, 14}, {19, 22}};
    regex_lite_searcher searcher = REGEX_LITE_NOTHING;
    regex_lite_span span = {false, 0, 0};
    size_t i = 0;
    WANT(make(&searcher, "\\b[Ss]am\\w*", "Mister Samwise, or Sam") == REGEX_LITE_YES);
    while (regex_lite_searcher_find(&searcher, span.end, &span) == REGEX_LITE_YES) {
        WANT(i < 2 && span.start == wanted[i][0] && span.end == wanted[i][1]);
        i++;
    }
    WANT(i == 2 && span.end == 22);
    /* Looks see the whole text. */
    WANT(regex_lite_searcher_find(&searcher, 8, &span) == REGEX_LITE_YES && span.start == 19);
    regex_lite_searcher_free(&searcher);
}

static void test_groups(void) {
    regex_lite_searcher searcher = REGEX_LITE_NOTHING;
    regex_lite_span spans[4] = {{true, 9, 9}, {true, 9, 9}, {true, 9, 9}, {true, 9, 9}};
    size_t count = 7;
    WANT(make(&searcher, "(?<key>[a-z]+)=([0-9]+)?", "#width=, height=72") == REGEX_LITE_YES);
    WANT(regex_lite_searcher_captures(&searcher, 0, spans, 2, &count) == REGEX_LITE_NO_ROOM);
    WANT(count == 3 && spans[0].start == 9 && spans[1].start == 9);
    WANT(regex_lite_searcher_captures(&searcher, 7, spans, 4, &count) == REGEX_LITE_YES);
    WANT(count == 3 && spans[0].start == 9 && spans[0].end == 18);
    WANT(spans[1].start == 9 && spans[1].end == 15 && spans[2].start == 16 && spans[2].end == 18);
    /* No group of an earlier match is left. */
    WANT(regex_lite_searcher_captures(&searcher, 0, spans, 4, &count) == REGEX_LITE_YES);
    WANT(spans[0].start == 1 && spans[0].end == 7 && spans[1].end == 6);
    WANT(!spans[2].is_there && spans[2].start == 0 && spans[2].end == 0 && spans[3].start == 9);
    WANT(regex_lite_searcher_captures_anchored(&searcher, 1, spans, 4, &count) == REGEX_LITE_YES);
    WANT(count == 3 && spans[0].start == 1 && spans[0].end == 7 && !spans[2].is_there);
    count = 7;
    spans[0].start = 8;
    WANT(regex_lite_searcher_captures_anchored(&searcher, 0, spans, 4, &count) == REGEX_LITE_NO);
    WANT(regex_lite_searcher_captures(&searcher, 18, spans, 4, &count) == REGEX_LITE_NO);
    WANT(count == 7 && spans[0].start == 8);
    WANT(regex_lite_searcher_captures_anchored(&searcher, 9, spans, 2, &count) ==
         REGEX_LITE_NO_ROOM);
    WANT(count == 3 && spans[0].start == 8);
    /* A pattern without groups has the whole match alone. */
    WANT(make(&searcher, "[0-9]", "a7") == REGEX_LITE_YES);
    WANT(regex_lite_searcher_captures(&searcher, 0, spans, 1, &count) == REGEX_LITE_YES);
    WANT(count == 1 && spans[0].start == 1 && spans[0].end == 2);
    regex_lite_searcher_free(&searcher);
}

static void test_anchored(void) {
    regex_lite_searcher searcher = REGEX_LITE_NOTHING;
    regex_lite_span span = {false, 9, 8};
    WANT(make(&searcher, "^w|\\b[0-9]+|sam|samwise", "w=72 samwise") == REGEX_LITE_YES);
    WANT(regex_lite_searcher_is_match_anchored(&searcher, 1) == REGEX_LITE_NO);
    WANT(regex_lite_searcher_find_anchored(&searcher, 1, &span) == REGEX_LITE_NO);
    WANT(!span.is_there && span.start == 9 && span.end == 8);
    WANT(regex_lite_searcher_is_match_anchored(&searcher, 0) == REGEX_LITE_YES);
    WANT(regex_lite_searcher_find_anchored(&searcher, 0, &span) == REGEX_LITE_YES);
    WANT(span.is_there && span.start == 0 && span.end == 1);
    WANT(regex_lite_searcher_find_anchored(&searcher, 2, &span) == REGEX_LITE_YES);
    WANT(span.start == 2 && span.end == 4);
    WANT(regex_lite_searcher_find_anchored(&searcher, 3, &span) == REGEX_LITE_NO);
    WANT(regex_lite_searcher_find_anchored(&searcher, 5, &span) == REGEX_LITE_YES);
    WANT(span.start == 5 && span.end == 8); /* the one that is preferred */
    regex_lite_searcher_free(&searcher);
}

static void test_whole(void) {
    regex_lite_searcher searcher = REGEX_LITE_NOTHING;
    regex_lite_span span = {false, 9, 8};
    WANT(make(&searcher, "sam|samwise", "samwise") == REGEX_LITE_YES);
    WANT(regex_lite_searcher_is_full_match(&searcher) == REGEX_LITE_YES);
    WANT(regex_lite_searcher_full_match(&searcher, &span) == REGEX_LITE_YES);
    WANT(span.is_there && span.start == 0 && span.end == 7);
    span.start = 9;
    WANT(regex_lite_searcher_read(&searcher, TEXT("samwise ")) == REGEX_LITE_YES);
    WANT(regex_lite_searcher_is_match(&searcher) == REGEX_LITE_YES);
    WANT(regex_lite_searcher_is_full_match(&searcher) == REGEX_LITE_NO);
    WANT(regex_lite_searcher_full_match(&searcher, &span) == REGEX_LITE_NO && span.start == 9);
    regex_lite_searcher_free(&searcher);
}

/* Whether each call with an offset returns this answer, and writes nothing. */
static bool all_return(regex_lite_searcher *searcher, size_t start, regex_lite_answer answer) {
    regex_lite_span span = {true, 9, 9};
    size_t count = 7;
    return regex_lite_searcher_find(searcher, start, &span) == answer &&
           regex_lite_searcher_captures(searcher, start, &span, 1, &count) == answer &&
           regex_lite_searcher_is_match_anchored(searcher, start) == answer &&
           regex_lite_searcher_find_anchored(searcher, start, &span) == answer &&
           regex_lite_searcher_captures_anchored(searcher, start, &span, 1, &count) == answer &&
           span.is_there && span.start == 9 && span.end == 9 && count == 7;
}

static void test_refused(void) {
    regex_lite_searcher searcher = REGEX_LITE_NOTHING;
    regex_lite_span span = {true, 9, 9};
    WANT(all_return(&searcher, 0, REGEX_LITE_NOTHING_HELD));
    WANT(regex_lite_searcher_read(&searcher, TEXT("a")) == REGEX_LITE_NOTHING_HELD);
    WANT(regex_lite_searcher_is_match(&searcher) == REGEX_LITE_NOTHING_HELD);
    WANT(regex_lite_searcher_is_full_match(&searcher) == REGEX_LITE_NOTHING_HELD);
    WANT(regex_lite_searcher_full_match(&searcher, &span) == REGEX_LITE_NOTHING_HELD);
    WANT(make(&searcher, "", WIDE) == REGEX_LITE_YES);
    WANT(all_return(&searcher, 1, REGEX_LITE_BAD_OFFSET));
    WANT(all_return(&searcher, 4, REGEX_LITE_BAD_OFFSET));
    WANT(all_return(&searcher, SIZE_MAX, REGEX_LITE_BAD_OFFSET));
    WANT(regex_lite_searcher_find(&searcher, 3, &span) == REGEX_LITE_YES);
    WANT(span.start == 3 && span.end == 3);
    regex_lite_searcher_free(&searcher);
}

int main(void) {
    test_making();
    test_texts();
    test_loop();
    test_groups();
    test_anchored();
    test_whole();
    test_refused();
    if (failed == 0) puts("searchers: all is so");
    return failed != 0;
}
