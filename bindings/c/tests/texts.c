/* Searches many texts by one call. The values that are expected are those of the Rust crate, text
 * by text. */
#include "want.h"

static regex_lite_answer build(regex_lite *regex, const char *pattern) {
    uint8_t message[100];
    size_t len;
    return regex_lite_new(regex, TEXT(pattern), &defaults, message, sizeof message, &len);
}

static void test_texts(void) {
    regex_lite regex = REGEX_LITE_NOTHING;
    /* The texts are "warn 1", "", "ok", "\xc3\xbc warn" and "error": no match crosses an end. */
    static const char texts[] = "warn 1ok\xc3\xbc warnerror";
    static const size_t lens[] = {6, 0, 2, 7, 5};
    regex_lite_span spans[6] = {{true, 9, 9}, {true, 9, 9}, {true, 9, 9},
                                {true, 9, 9}, {true, 9, 9}, {true, 9, 9}};
    WANT(build(&regex, "^(warn|error)|n$") == REGEX_LITE_YES);
    WANT(regex_lite_find_each(&regex, TEXT(texts), lens, 5, spans, 6) == REGEX_LITE_YES);
    WANT(spans[0].is_there && spans[0].start == 0 && spans[0].end == 4);
    WANT(!spans[1].is_there && spans[1].start == 0 && spans[1].end == 0);
    WANT(!spans[2].is_there);
    WANT(spans[3].is_there && spans[3].start == 6 && spans[3].end == 7);
    WANT(spans[4].is_there && spans[4].start == 0 && spans[4].end == 5);
    WANT(spans[5].is_there && spans[5].start == 9);
    WANT(regex_lite_find_each(&regex, TEXT(""), lens, 0, spans, 0) == REGEX_LITE_YES);
    regex_lite_free(&regex);
}

static void test_refusals(void) {
    regex_lite regex = REGEX_LITE_NOTHING;
    static const size_t two[] = {1, 2}, inside[] = {2, 1}, huge[] = {1, SIZE_MAX};
    regex_lite_span spans[2] = {{true, 9, 9}, {true, 9, 9}};
    WANT(regex_lite_find_each(&regex, TEXT("abc"), two, 2, spans, 2) == REGEX_LITE_NOTHING_HELD);
    WANT(build(&regex, "b") == REGEX_LITE_YES);
    WANT(regex_lite_find_each(&regex, TEXT("abc"), two, 2, spans, 1) == REGEX_LITE_NO_ROOM);
    WANT(regex_lite_find_each(&regex, TEXT("abcd"), two, 2, spans, 2) == REGEX_LITE_BAD_OFFSET);
    WANT(regex_lite_find_each(&regex, TEXT("ab"), two, 2, spans, 2) == REGEX_LITE_BAD_OFFSET);
    WANT(regex_lite_find_each(&regex, TEXT("abc"), huge, 2, spans, 2) == REGEX_LITE_BAD_OFFSET);
    WANT(regex_lite_find_each(&regex, TEXT("a\xc3\xbc"), inside, 2, spans, 2) ==
         REGEX_LITE_BAD_OFFSET);
    WANT(regex_lite_find_each(&regex, TEXT("a\xc3" "b"), inside, 2, spans, 2) ==
         REGEX_LITE_NOT_TEXT);
    WANT(spans[0].start == 9 && spans[1].start == 9);
    WANT(regex_lite_find_each(&regex, TEXT("abc"), two, 2, spans, 2) == REGEX_LITE_YES);
    WANT(!spans[0].is_there && spans[1].is_there && spans[1].start == 0 && spans[1].end == 1);
    regex_lite_free(&regex);
}

int main(void) {
    test_texts();
    test_refusals();
    if (failed == 0) puts("texts: all is so");
    return failed != 0;
}
