/* Splits texts at the matches of a pattern. The values that are expected are those of the Rust
 * crate. */
#include "want.h"

static regex_lite_answer build(regex_lite *regex, const char *pattern) {
    uint8_t message[100];
    size_t len;
    return regex_lite_new(regex, TEXT(pattern), &defaults, message, sizeof message, &len);
}

/* Splits the text with room for this many pieces at a time, and tests that these are the pieces. */
static void split_with(regex_lite *regex, const char *text, const char *const *wanted,
                       size_t many, size_t room) {
    regex_lite_cut cut = REGEX_LITE_UNCUT;
    regex_lite_span pieces[8];
    size_t seen = 0, count = 7, i;
    while (regex_lite_split(regex, TEXT(text), &cut, pieces, room, &count) == REGEX_LITE_YES) {
        WANT(0 < count && count <= room);
        for (i = 0; i < count && seen < many; i++, seen++) {
            size_t len = pieces[i].end - pieces[i].start;
            WANT(pieces[i].is_there && len == strlen(wanted[seen]));
            WANT(memcmp(text + pieces[i].start, wanted[seen], len) == 0);
        }
        WANT(i == count);
    }
    WANT(seen == many && count == 0 && cut.is_over);
    WANT(regex_lite_split(regex, TEXT(text), &cut, pieces, room, &count) == REGEX_LITE_NO);
}

/* Tests the pieces with each room. */
static void test_pieces(const char *pattern, const char *text, const char *const *wanted,
                        size_t many) {
    regex_lite regex = REGEX_LITE_NOTHING;
    size_t room;
    WANT(build(&regex, pattern) == REGEX_LITE_YES);
    for (room = 1; room <= 8; room++) split_with(&regex, text, wanted, many, room);
    regex_lite_free(&regex);
}

static void test_splits(void) {
    static const char *const words[] = {"a", "b", "c", "d", "e"}, *const empty[] = {""};
    static const char *const ends[] = {"", "a", "b", ""}, *const whole[] = {"abc"};
    static const char *const between[] = {"", "b", "c", ""};
    test_pieces("[ \t]+", "a b \t  c\td    e", words, 5);
    test_pieces("X", "XaXbX", ends, 4);
    test_pieces("X", "abc", whole, 1);
    test_pieces("X", "", empty, 1);
    test_pieces("a*", "baac", between, 4);
}

static void test_refusals(void) {
    regex_lite regex = REGEX_LITE_NOTHING;
    regex_lite_cut cut = REGEX_LITE_UNCUT, inside = {{true, 1}, false};
    regex_lite_span pieces[3] = {{true, 9, 9}, {true, 9, 9}, {true, 9, 9}};
    size_t count = 7;
    WANT(regex_lite_split(&regex, TEXT("a"), &cut, pieces, 3, &count) == REGEX_LITE_NOTHING_HELD);
    WANT(count == 0);
    WANT(build(&regex, ",") == REGEX_LITE_YES);
    WANT(regex_lite_split(&regex, TEXT("a"), &cut, pieces, 0, &count) == REGEX_LITE_NO_ROOM);
    WANT(regex_lite_split(&regex, TEXT("\xc3\xbc"), &inside, pieces, 3, &count) ==
         REGEX_LITE_BAD_OFFSET);
    WANT(regex_lite_split(&regex, (const uint8_t *)"\xff", 1, &cut, pieces, 3, &count) ==
         REGEX_LITE_NOT_TEXT);
    WANT(count == 0 && !cut.is_over && !cut.walk.is_begun && pieces[0].start == 9);
    WANT(regex_lite_split(&regex, TEXT("a,b"), &cut, pieces, 3, &count) == REGEX_LITE_YES);
    WANT(count == 2 && pieces[1].start == 2 && pieces[1].end == 3 && pieces[2].start == 9);
    WANT(cut.is_over);
    regex_lite_free(&regex);
}

int main(void) {
    test_splits();
    test_refusals();
    if (failed == 0) puts("pieces: all is so");
    return failed != 0;
}
