/* Gives each call that fills a room one that is just full, one that is a place short, and one that
 * has a place more. The matches that are expected are counted off the text by hand. */
#include "want.h"

/* What a place holds that no call has written to. */
static const regex_lite_span blank = {true, 99, 98};

static void blank_all(regex_lite_span *spans, size_t count) {
    while (count > 0) spans[--count] = blank;
}

static bool is_span(regex_lite_span span, size_t start, size_t end) {
    return span.is_there && span.start == start && span.end == end;
}

static bool is_nothing(regex_lite_span span) {
    return !span.is_there && span.start == 0 && span.end == 0;
}

static bool is_blank(regex_lite_span span) { return is_span(span, 99, 98); }

static void build(regex_lite *regex, const char *pattern) {
    uint8_t message[100];
    size_t len;
    WANT(regex_lite_new(regex, TEXT(pattern), &defaults, message, sizeof message, &len) ==
         REGEX_LITE_YES);
}

/* The pattern a in aXaXa matches at 0, 2 and 4. */
static void test_find_all(void) {
    regex_lite regex = REGEX_LITE_NOTHING;
    size_t room, count, i;
    build(&regex, "a");
    for (room = 0; room <= 4; room++) {
        regex_lite_walk walk = REGEX_LITE_START;
        regex_lite_span spans[5];
        size_t fit = room < 3 ? room : 3;
        regex_lite_answer answer;
        blank_all(spans, 5);
        answer = regex_lite_find_all(&regex, TEXT("aXaXa"), &walk, spans, room, &count);
        WANT(answer == (room == 0 ? REGEX_LITE_NO_ROOM : REGEX_LITE_YES) && count == fit);
        for (i = 0; i < 5; i++)
            WANT(i < fit ? is_span(spans[i], 2 * i, 2 * i + 1) : is_blank(spans[i]));
        WANT(walk.is_begun == (fit > 0) && walk.end == (fit > 0 ? 2 * fit - 1 : 0));
        if (room >= 3) {
            answer = regex_lite_find_all(&regex, TEXT("aXaXa"), &walk, spans, room, &count);
            WANT(answer == REGEX_LITE_NO && count == 0 && walk.end == 5);
        }
    }
    regex_lite_free(&regex);
}

/* The pattern (a)|b in abba: at 0 and 3 group 1 takes part, at 1 and 2 it doesn't. Each match has
 * two groups. */
static void test_captures_all(void) {
    regex_lite regex = REGEX_LITE_NOTHING;
    size_t room, count, i;
    build(&regex, "(a)|b");
    for (room = 0; room <= 10; room++) {
        regex_lite_walk walk = REGEX_LITE_START;
        regex_lite_span spans[10];
        size_t fit = room / 2 < 4 ? room / 2 : 4;
        regex_lite_answer answer;
        blank_all(spans, 10);
        answer = regex_lite_captures_all(&regex, TEXT("abba"), &walk, spans, room, &count);
        WANT(answer == (room < 2 ? REGEX_LITE_NO_ROOM : REGEX_LITE_YES) && count == fit);
        for (i = 0; i < fit; i++) {
            WANT(is_span(spans[2 * i], i, i + 1));
            WANT(i == 0 || i == 3 ? is_span(spans[2 * i + 1], i, i + 1)
                                  : is_nothing(spans[2 * i + 1]));
        }
        for (i = 2 * fit; i < 10; i++) WANT(is_blank(spans[i]));
        WANT(walk.is_begun == (fit > 0) && walk.end == fit);
        if (room >= 8) {
            answer = regex_lite_captures_all(&regex, TEXT("abba"), &walk, spans, room, &count);
            WANT(answer == REGEX_LITE_NO && count == 0);
        }
    }
    regex_lite_free(&regex);
}

/* At X the text aXbXc has the pieces 0..1, 2..3 and 4..5. */
static void test_split(void) {
    regex_lite regex = REGEX_LITE_NOTHING;
    size_t room, count, i;
    build(&regex, "X");
    for (room = 0; room <= 4; room++) {
        regex_lite_cut cut = REGEX_LITE_UNCUT;
        regex_lite_span pieces[5];
        size_t fit = room < 3 ? room : 3;
        regex_lite_answer answer;
        blank_all(pieces, 5);
        answer = regex_lite_split(&regex, TEXT("aXbXc"), &cut, pieces, room, &count);
        WANT(answer == (room == 0 ? REGEX_LITE_NO_ROOM : REGEX_LITE_YES) && count == fit);
        for (i = 0; i < 5; i++)
            WANT(i < fit ? is_span(pieces[i], 2 * i, 2 * i + 1) : is_blank(pieces[i]));
        WANT(cut.is_over == (room >= 3));
        if (room == 2) {
            answer = regex_lite_split(&regex, TEXT("aXbXc"), &cut, pieces, room, &count);
            WANT(answer == REGEX_LITE_YES && count == 1 && is_span(pieces[0], 4, 5));
        }
        if (room >= 2) {
            answer = regex_lite_split(&regex, TEXT("aXbXc"), &cut, pieces, room, &count);
            WANT(answer == REGEX_LITE_NO && count == 0);
        }
    }
    regex_lite_free(&regex);
}

/* Of the texts xa, x and aa the first has a match at 1, the second none, the third one at 0. */
static void test_find_each(void) {
    static const size_t lens[] = {2, 1, 2};
    regex_lite regex = REGEX_LITE_NOTHING;
    size_t room, i;
    build(&regex, "a");
    for (room = 0; room <= 4; room++) {
        regex_lite_span spans[5];
        regex_lite_answer answer;
        blank_all(spans, 5);
        answer = regex_lite_find_each(&regex, TEXT("xaxaa"), lens, 3, spans, room);
        if (room < 3) {
            WANT(answer == REGEX_LITE_NO_ROOM);
            for (i = 0; i < 5; i++) WANT(is_blank(spans[i]));
        } else {
            WANT(answer == REGEX_LITE_YES);
            WANT(is_span(spans[0], 1, 2) && is_nothing(spans[1]) && is_span(spans[2], 0, 1));
            WANT(is_blank(spans[3]) && is_blank(spans[4]));
        }
    }
    regex_lite_free(&regex);
}

/* A list of the patterns a, with one group, and (b)(c)?, with three. */
static void build_list(regex_lite_list *list) {
    regex_lite_list_pattern each[2] = {{1, REGEX_LITE_DEFAULTS}, {7, REGEX_LITE_DEFAULTS}};
    regex_lite_list_refusal refusal;
    uint8_t message[100];
    WANT(regex_lite_list_new(list, TEXT("a(b)(c)?"), each, 2, message, sizeof message,
                             &refusal) == REGEX_LITE_YES);
}

/* In abaa they match at 0, 1, 2 and 3, and the second of these is of pattern 1. */
static void test_list_find_all(void) {
    regex_lite_list list = REGEX_LITE_NOTHING;
    size_t room, count, i;
    build_list(&list);
    for (room = 0; room <= 5; room++) {
        regex_lite_walk walk = REGEX_LITE_START;
        regex_lite_list_span spans[6];
        size_t fit = room < 4 ? room : 4;
        regex_lite_answer answer;
        for (i = 0; i < 6; i++) spans[i].number = spans[i].start = spans[i].end = 99;
        answer = regex_lite_list_find_all(&list, TEXT("abaa"), &walk, spans, room, &count);
        WANT(answer == (room == 0 ? REGEX_LITE_NO_ROOM : REGEX_LITE_YES) && count == fit);
        for (i = 0; i < 6; i++) {
            size_t number = i == 1 ? 1 : 0;
            WANT(i < fit ? spans[i].number == number && spans[i].start == i &&
                               spans[i].end == i + 1
                         : spans[i].number == 99 && spans[i].start == 99 && spans[i].end == 99);
        }
        WANT(walk.is_begun == (fit > 0) && walk.end == fit);
    }
    regex_lite_list_free(&list);
}

/* How many of the matches of abaa fit into room for this many matches and this many spans. Their
 * groups are 1, 3, 1 and 1, so together they need 1, 4, 5 and 6 spans. */
static size_t fitting(size_t matches, size_t room) {
    static const size_t needs[] = {1, 4, 5, 6};
    size_t fit = 0;
    while (fit < 4 && fit < matches && needs[fit] <= room) fit++;
    return fit;
}

/* Tests what was written of the first matches, which are this many. */
static void test_list_groups(const regex_lite_list_groups *groups, const regex_lite_span *spans,
                             size_t fit) {
    static const size_t firsts[] = {0, 1, 4, 5}, ends[] = {0, 1, 4, 5, 6};
    size_t i;
    for (i = 0; i < fit; i++) {
        WANT(groups[i].number == (i == 1 ? 1 : 0) && groups[i].count == (i == 1 ? 3 : 1));
        WANT(is_span(spans[firsts[i]], i, i + 1));
    }
    if (fit > 1) WANT(is_span(spans[2], 1, 2) && is_nothing(spans[3]));
    for (i = fit; i < 5; i++) WANT(groups[i].number == 99 && groups[i].count == 99);
    for (i = ends[fit]; i < 8; i++) WANT(is_blank(spans[i]));
}

static void test_list_captures_all(void) {
    regex_lite_list list = REGEX_LITE_NOTHING;
    size_t matches, room, count, i;
    build_list(&list);
    for (matches = 0; matches <= 5; matches++)
        for (room = 0; room <= 7; room++) {
            regex_lite_walk walk = REGEX_LITE_START;
            regex_lite_list_groups groups[5];
            regex_lite_span spans[8];
            size_t fit = fitting(matches, room);
            regex_lite_answer answer;
            for (i = 0; i < 5; i++) groups[i].number = groups[i].count = 99;
            blank_all(spans, 8);
            answer = regex_lite_list_captures_all(&list, TEXT("abaa"), &walk, groups, matches,
                                                  spans, room, &count);
            WANT(answer == (fit == 0 ? REGEX_LITE_NO_ROOM : REGEX_LITE_YES));
            /* With no room for the first match, the number of its groups is written. */
            WANT(count == (fit == 0 ? 1 : fit));
            test_list_groups(groups, spans, fit);
            WANT(walk.is_begun == (fit > 0) && walk.end == fit);
        }
    regex_lite_list_free(&list);
}

/* In bc pattern 1 matches and pattern 0 doesn't. */
static void test_list_matches(void) {
    regex_lite_list list = REGEX_LITE_NOTHING;
    size_t room, count, i;
    build_list(&list);
    for (room = 0; room <= 3; room++) {
        uint8_t matched[4] = {9, 9, 9, 9};
        regex_lite_answer answer =
            regex_lite_list_matches(&list, TEXT("bc"), 0, matched, room, &count);
        WANT(answer == (room < 2 ? REGEX_LITE_NO_ROOM : REGEX_LITE_YES) && count == 2);
        for (i = 0; i < 4; i++) WANT(matched[i] == (room < 2 || i > 1 ? 9 : i));
    }
    regex_lite_list_free(&list);
}

int main(void) {
    test_find_all();
    test_captures_all();
    test_split();
    test_find_each();
    test_list_find_all();
    test_list_captures_all();
    test_list_matches();
    if (failed == 0) puts("rooms: all is so");
    return failed != 0;
}
