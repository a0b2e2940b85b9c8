/* Refuses each request for memory in turn, the first, then the second and so on: each call then
 * returns what it returns with memory, or that it ran out of it, and nothing leaks.
 *
 * It is linked with --wrap for malloc, realloc and free. */
#include <regex_lite.h>
#include <stdio.h>
#include <stdlib.h>
#include <string.h>

#define TEXT(text) (const uint8_t *)(text), strlen(text)

void *__real_malloc(size_t size);
void *__real_realloc(void *old, size_t size);
void __real_free(void *place);

static long allowed; /* how many requests are still granted; below 0 all are */
static long blocks;  /* how many blocks are in use */
static long refused;
static long parts; /* how often groups were written before memory ran out */
static long kept_regexes, kept_texts; /* how often a searcher was refused its regex, or a text */

static bool is_granted(void) {
    if (allowed == 0) {
        refused++;
        return false;
    }
    if (allowed > 0) allowed--;
    return true;
}

void *__wrap_malloc(size_t size) {
    void *place = is_granted() ? __real_malloc(size) : NULL;
    if (place != NULL) blocks++;
    return place;
}

void *__wrap_realloc(void *old, size_t size) {
    return is_granted() ? __real_realloc(old, size) : NULL;
}

void __wrap_free(void *place) {
    if (place != NULL) blocks--;
    __real_free(place);
}

/* Asks for the place of a fault, and returns how many answers are what they shouldn't be. */
static int call_fault_at(void) {
    regex_lite_options options = REGEX_LITE_DEFAULTS;
    regex_lite_fault fault = {7, 7, false};
    regex_lite_answer answer = regex_lite_fault_at(TEXT("(?:(?<a>b)(c[b-a]"), &options, &fault);
    bool is_found = fault.start == 12 && fault.end == 16, is_same = fault.start == 7;
    if (answer == REGEX_LITE_YES ? is_found : answer == REGEX_LITE_OUT_OF_MEMORY && is_same)
        return 0;
    printf("the place of a fault: %u, %lu\n", (unsigned)answer, (unsigned long)fault.start);
    return 1;
}

/* Asks for the parts of a pattern, and returns how many answers are what they shouldn't be. */
static int call_outline(void) {
    regex_lite_options options = REGEX_LITE_DEFAULTS;
    regex_lite_part written[6];
    regex_lite_outlined told = {7, 7};
    uint8_t message[100];
    regex_lite_answer answer = regex_lite_outline(TEXT("(?<a>b)[a-c]*"), &options, written, 6,
                                                  message, sizeof message, &told);
    if (answer == REGEX_LITE_YES ? told.count == 6 && written[5].last == 'c'
                                 : answer == REGEX_LITE_OUT_OF_MEMORY && told.count == 0 &&
                                       told.message_len == strlen("out of memory"))
        return 0;
    printf("the parts of a pattern: %u, %lu\n", (unsigned)answer, (unsigned long)told.count);
    return 1;
}

/* Builds a pattern that is refused, and returns how many answers are what they shouldn't be. The
 * text of a refusal takes no memory, so it is always written. */
static int call_refused(void) {
    regex_lite regex = REGEX_LITE_NOTHING;
    regex_lite_list list = REGEX_LITE_NOTHING;
    regex_lite_options options = REGEX_LITE_DEFAULTS;
    regex_lite_list_pattern each = {3, REGEX_LITE_DEFAULTS};
    regex_lite_list_refusal refusal;
    static const char *const texts[] = {"found open group without closing ')'", "out of memory"};
    uint8_t message[100], list_message[100];
    size_t n;
    regex_lite_answer answer =
        regex_lite_new(&regex, TEXT("a(b"), &options, message, sizeof message, &n);
    regex_lite_answer of_list = regex_lite_list_new(&list, TEXT("a(b"), &each, 1, list_message,
                                                    sizeof list_message, &refusal);
    const char *text = texts[answer == REGEX_LITE_SYNTAX ? 0 : 1];
    const char *list_text = texts[of_list == REGEX_LITE_SYNTAX ? 0 : 1];
    if ((answer == REGEX_LITE_SYNTAX || answer == REGEX_LITE_OUT_OF_MEMORY) &&
        n == strlen(text) && memcmp(message, text, n) == 0 &&
        (of_list == REGEX_LITE_SYNTAX || of_list == REGEX_LITE_OUT_OF_MEMORY) &&
        refusal.message_len == strlen(list_text) &&
        memcmp(list_message, list_text, refusal.message_len) == 0)
        return 0;
    printf("the text of a refusal: %u, %.*s\n", (unsigned)answer, (int)n, (char *)message);
    return 1;
}

/* Whether this is what is written of the groups of two matches, or of one where memory ran out. */
static bool is_part(regex_lite_answer answer, const regex_lite_walk *walk,
                    const regex_lite_span *spans, size_t count) {
    if (answer == REGEX_LITE_YES) return count == 2 && walk->end == 5;
    if (answer != REGEX_LITE_OUT_OF_MEMORY) return false;
    parts += count;
    return count == 0 ? !walk->is_begun && spans[0].start == 9
                      : count == 1 && walk->end == 2 && spans[1].end == 1 && spans[2].start == 9;
}

/* Writes the groups of two matches, and returns how many answers are what they shouldn't be. */
static int call_parts(void) {
    regex_lite regex = REGEX_LITE_NOTHING;
    regex_lite_list list = REGEX_LITE_NOTHING;
    regex_lite_options options = REGEX_LITE_DEFAULTS;
    regex_lite_list_pattern each = {4, REGEX_LITE_DEFAULTS};
    regex_lite_list_refusal refusal;
    regex_lite_list_groups groups[2];
    regex_lite_walk walk = REGEX_LITE_START, list_walk = REGEX_LITE_START;
    regex_lite_span spans[4], list_spans[4];
    uint8_t message[100];
    size_t n, count, list_count;
    regex_lite_answer answer, of_list;
    bool is_so = true;
    for (n = 0; n < 4; n++) spans[n].start = spans[n].end = list_spans[n].start = 9;
    if (regex_lite_new(&regex, TEXT("(a)b"), &options, message, sizeof message, &n) ==
        REGEX_LITE_YES) {
        answer = regex_lite_captures_all(&regex, TEXT("ab_ab"), &walk, spans, 4, &count);
        is_so = is_part(answer, &walk, spans, count);
    }
    if (regex_lite_list_new(&list, TEXT("(a)b"), &each, 1, message, sizeof message, &refusal) ==
        REGEX_LITE_YES) {
        of_list = regex_lite_list_captures_all(&list, TEXT("ab_ab"), &list_walk, groups, 2,
                                               list_spans, 4, &list_count);
        is_so = is_so && is_part(of_list, &list_walk, list_spans, list_count);
    }
    regex_lite_free(&regex);
    regex_lite_list_free(&list);
    if (!is_so) printf("the groups of some matches are wrong\n");
    return !is_so;
}

/* Makes all calls that take memory, and returns how many returned what they shouldn't. */
static int call_all(void) {
    static const char text[] = "Mister Samwise, Sam";
    regex_lite regex = REGEX_LITE_NOTHING;
    regex_lite_options options = REGEX_LITE_DEFAULTS;
    regex_lite_replacing all = REGEX_LITE_ALL;
    regex_lite_walk walk = REGEX_LITE_START;
    regex_lite_span spans[3];
    regex_lite_cost cost;
    uint8_t message[100], room[99];
    regex_lite_cut cut = REGEX_LITE_UNCUT;
    const size_t lens[2] = {7, 12};
    regex_lite_answer answers[17], others;
    size_t n;
    int wrong = 0;
    answers[0] = regex_lite_new(&regex, TEXT("\\b(?<name>[Ss]am)(wise)?\\b"), &options, message,
                                sizeof message, &n);
    if (answers[0] != REGEX_LITE_YES && (n != 13 || memcmp(message, "out of memory", 13) != 0))
        wrong++;
    others = answers[0] == REGEX_LITE_YES ? REGEX_LITE_OUT_OF_MEMORY : REGEX_LITE_NOTHING_HELD;
    answers[1] = regex_lite_is_match(&regex, TEXT(text), 0);
    answers[2] = regex_lite_find(&regex, TEXT(text), 0, spans);
    answers[3] = regex_lite_shortest(&regex, TEXT(text), 0, &n);
    answers[4] = regex_lite_find_counted(&regex, TEXT(text), 0, spans, &cost);
    answers[5] = regex_lite_captures(&regex, TEXT(text), 0, spans, 3, &n);
    answers[6] = regex_lite_find_all(&regex, TEXT(text), &walk, spans, 3, &n);
    answers[7] = regex_lite_replace(&regex, TEXT(text), TEXT("<$name>"), &all, room, sizeof room);
    walk.is_begun = false;
    answers[8] = regex_lite_captures_all(&regex, TEXT(text), &walk, spans, 3, &n);
    answers[9] = regex_lite_split(&regex, TEXT(text), &cut, spans, 3, &n);
    answers[10] = regex_lite_find_each(&regex, TEXT(text), lens, 2, spans, 2);
    answers[11] = regex_lite_is_match_anchored(&regex, TEXT(text), 7);
    answers[12] = regex_lite_find_anchored(&regex, TEXT(text), 7, spans);
    answers[13] = regex_lite_captures_anchored(&regex, TEXT(text), 7, spans, 3, &n);
    answers[14] = regex_lite_is_full_match(&regex, TEXT("Samwise"));
    answers[15] = regex_lite_full_match(&regex, TEXT("Samwise"), spans);
    answers[16] = regex_lite_full_captures(&regex, TEXT("Samwise"), spans, 3, &n);
    for (int i = 0; i < 17; i++)
        if (answers[i] != REGEX_LITE_YES &&
            answers[i] != (i == 0 ? REGEX_LITE_OUT_OF_MEMORY : others)) {
            printf("call %d: %u\n", i, (unsigned)answers[i]);
            wrong++;
        }
    n = regex_lite_escape(TEXT("a.b"), room, sizeof room, &n);
    if (n != REGEX_LITE_YES && n != REGEX_LITE_OUT_OF_MEMORY) wrong++;
    regex_lite_free(&regex);
    return wrong + call_fault_at() + call_outline() + call_refused() + call_parts();
}

/* Makes all calls for several patterns, and returns how many returned what they shouldn't. */
static int call_lists(void) {
    static const char text[] = "width=72 #note", patterns[] = "(?<key>[a-z]+)=([0-9]+)#(.*)";
    regex_lite_list list = REGEX_LITE_NOTHING;
    regex_lite_list_pattern each[2] = {{23, REGEX_LITE_DEFAULTS}, {5, REGEX_LITE_DEFAULTS}};
    regex_lite_list_refusal refusal;
    regex_lite_list_span span;
    regex_lite_list_groups groups;
    regex_lite_walk walk = REGEX_LITE_START, group_walk = REGEX_LITE_START;
    regex_lite_span spans[3];
    regex_lite_cost cost;
    uint8_t message[100], matched[2];
    regex_lite_answer answers[17], others;
    size_t n;
    int wrong = 0;
    answers[0] = regex_lite_list_new(&list, TEXT(patterns), each, 2, message, sizeof message,
                                     &refusal);
    others = answers[0] == REGEX_LITE_YES ? REGEX_LITE_OUT_OF_MEMORY : REGEX_LITE_NOTHING_HELD;
    answers[1] = regex_lite_list_is_match(&list, TEXT(text), 0);
    answers[2] = regex_lite_list_find(&list, TEXT(text), 0, &span);
    answers[3] = regex_lite_list_captures(&list, TEXT(text), 0, spans, 3, &groups);
    answers[4] = regex_lite_list_find_all(&list, TEXT(text), &walk, &span, 1, &n);
    answers[5] = regex_lite_list_matches(&list, TEXT(text), 0, matched, 2, &n);
    answers[6] = regex_lite_list_find_counted(&list, TEXT(text), 0, &span, &cost);
    answers[7] = regex_lite_list_captures_all(&list, TEXT(text), &group_walk, &groups, 1, spans, 3,
                                              &n);
    answers[8] = regex_lite_list_is_match_anchored(&list, TEXT(text), 9);
    answers[9] = regex_lite_list_find_anchored(&list, TEXT(text), 9, &span);
    answers[10] = regex_lite_list_captures_anchored(&list, TEXT(text), 9, spans, 3, &groups);
    answers[11] = regex_lite_list_is_match_of(&list, 1, TEXT(text), 0);
    answers[12] = regex_lite_list_find_of(&list, 1, TEXT(text), 0, spans);
    answers[13] = regex_lite_list_captures_of(&list, 1, TEXT(text), 0, spans, 3, &n);
    answers[14] = regex_lite_list_is_full_match(&list, TEXT("#note"));
    answers[15] = regex_lite_list_full_match(&list, TEXT("#note"), &span);
    answers[16] = regex_lite_list_full_captures(&list, TEXT("#note"), spans, 3, &groups);
    for (int i = 0; i < 17; i++)
        if (answers[i] != REGEX_LITE_YES &&
            answers[i] != (i == 0 ? REGEX_LITE_OUT_OF_MEMORY : others)) {
            printf("call %d of a list: %u\n", i, (unsigned)answers[i]);
            wrong++;
        }
    if (refusal.number != 2) wrong++;
    regex_lite_list_free(&list);
    /* A pattern that is refused is reported, or that memory ran out. */
    each[0].len = 1;
    each[1].len = 2;
    answers[0] = regex_lite_list_new(&list, TEXT("ab("), each, 2, message, sizeof message,
                                     &refusal);
    if (!(answers[0] == REGEX_LITE_SYNTAX && refusal.number == 1) &&
        !(answers[0] == REGEX_LITE_OUT_OF_MEMORY && refusal.number == 2)) {
        printf("a bad pattern of a list: %u\n", (unsigned)answers[0]);
        wrong++;
    }
    return wrong;
}

/* Whether the searcher has read these two texts, or the answers say that memory ran out. The first
 * match is that of the text that was read last; the searcher's text is empty at first. */
static bool is_read(regex_lite_searcher *searcher) {
    regex_lite_answer first = regex_lite_searcher_read(searcher, TEXT("Sam"));
    regex_lite_answer second = regex_lite_searcher_read(searcher, TEXT("Mister Samwise, Sam"));
    size_t start = second == REGEX_LITE_YES ? 16 : 0, count = 7;
    bool is_empty = first != REGEX_LITE_YES && second != REGEX_LITE_YES;
    regex_lite_answer wanted = is_empty ? REGEX_LITE_NO : REGEX_LITE_YES;
    regex_lite_span spans[2];
    if (second != REGEX_LITE_YES) kept_texts++;
    return (first == REGEX_LITE_YES || first == REGEX_LITE_OUT_OF_MEMORY) &&
           (second == REGEX_LITE_YES || second == REGEX_LITE_OUT_OF_MEMORY) &&
           regex_lite_searcher_is_match(searcher) == wanted &&
           regex_lite_searcher_captures(searcher, 0, spans, 2, &count) == wanted &&
           (is_empty || (count == 2 && spans[1].start == start && spans[1].end == start + 3));
}

/* Makes a searcher and has it read, and returns how many answers are what they shouldn't be. Where
 * memory runs out, the regex stays in its handle. */
static int call_searcher(void) {
    regex_lite regex = REGEX_LITE_NOTHING;
    regex_lite_searcher searcher = REGEX_LITE_NOTHING;
    regex_lite_options options = REGEX_LITE_DEFAULTS;
    uint8_t message[100];
    size_t n;
    regex_lite_answer answer = regex_lite_new(&regex, TEXT("\\b([Ss]am)\\b"), &options, message,
                                              sizeof message, &n);
    bool is_so = answer == REGEX_LITE_YES || answer == REGEX_LITE_OUT_OF_MEMORY;
    if (answer == REGEX_LITE_YES) {
        answer = regex_lite_searcher_new(&searcher, &regex);
        if (answer == REGEX_LITE_YES) {
            is_so = regex_lite_groups(&regex) == 0 && is_read(&searcher);
        } else {
            is_so = answer == REGEX_LITE_OUT_OF_MEMORY && regex_lite_groups(&regex) == 2 &&
                    regex_lite_searcher_is_match(&searcher) == REGEX_LITE_NOTHING_HELD;
            kept_regexes++;
        }
    }
    regex_lite_searcher_free(&searcher);
    regex_lite_free(&regex);
    if (!is_so) printf("a searcher: %u\n", (unsigned)answer);
    return !is_so;
}

int main(void) {
    long before = blocks, at;
    for (at = 0;; at++) {
        int wrong;
        bool is_done;
        refused = 0;
        allowed = at;
        wrong = call_all() + call_lists() + call_searcher();
        is_done = refused == 0;
        allowed = -1;
        if (wrong != 0 || blocks != before) {
            printf("request %ld: %d wrong, %ld blocks left\n", at, wrong, blocks - before);
            return 1;
        }
        if (is_done) break;
    }
    printf("refusals: each of %ld requests was refused, and nothing leaked\n", at);
    return at < 10 || parts == 0 || kept_regexes == 0 || kept_texts == 0;
}
