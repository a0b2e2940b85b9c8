/* Patterns part by part: the values that are wanted follow from docs/SYNTAX.md by hand. */
#include "want.h"

#define ROOM 40

static regex_lite_part parts[ROOM];
static regex_lite_outlined told;
static uint8_t message[100];

/* Asks for the parts of a pattern under these options, with this much room. */
static regex_lite_answer outline(const char *pattern, const regex_lite_options *options,
                                 size_t room) {
    memset(parts, 0x55, sizeof parts);
    memset(&told, 0x55, sizeof told);
    return regex_lite_outline(TEXT(pattern), options, parts, room, message, sizeof message, &told);
}

/* A part of this kind, of which nothing else is told. */
static regex_lite_part part(size_t depth, regex_lite_part_kind kind) {
    regex_lite_part made = {0, REGEX_LITE_PART_EMPTY, 0, 0, REGEX_LITE_LOOK_NONE, 0, 0, 0, false,
                            false};
    made.depth = depth;
    made.kind = kind;
    return made;
}

static regex_lite_part span(size_t depth, regex_lite_part_kind kind, uint32_t first,
                            uint32_t last) {
    regex_lite_part made = part(depth, kind);
    made.first = first;
    made.last = last;
    return made;
}

static bool are_same(const regex_lite_part *a, const regex_lite_part *b) {
    return a->depth == b->depth && a->kind == b->kind && a->first == b->first &&
           a->last == b->last && a->look == b->look && a->index == b->index &&
           a->least == b->least && a->most == b->most && a->has_most == b->has_most &&
           a->greedy == b->greedy;
}

/* Whether the pattern has these parts. */
static bool has(const char *pattern, const regex_lite_part *wanted, size_t count) {
    size_t k;
    if (outline(pattern, &defaults, ROOM) != REGEX_LITE_YES || told.count != count) return false;
    if (told.message_len != 0) return false;
    for (k = 0; k < count; k++)
        if (!are_same(&parts[k], &wanted[k])) return false;
    return true;
}

/* A part of each kind. */
static void test_kinds(void) {
    regex_lite_part wanted[10];
    wanted[0] = part(0, REGEX_LITE_PART_ALTERNATION);
    wanted[1] = part(1, REGEX_LITE_PART_CAPTURE);
    wanted[1].index = 1;
    wanted[2] = part(2, REGEX_LITE_PART_REPETITION);
    wanted[2].least = 2;
    wanted[2].most = 5;
    wanted[2].has_most = true;
    wanted[3] = part(3, REGEX_LITE_PART_CLASS);
    wanted[4] = span(4, REGEX_LITE_PART_RANGE, '0', '9');
    wanted[5] = span(4, REGEX_LITE_PART_RANGE, 0x1F600, 0x1F602);
    wanted[6] = part(1, REGEX_LITE_PART_CONCAT);
    wanted[7] = part(2, REGEX_LITE_PART_LOOK);
    wanted[7].look = REGEX_LITE_LOOK_START;
    wanted[8] = span(2, REGEX_LITE_PART_CHAR, 0xFC, 0xFC);
    wanted[9] = part(1, REGEX_LITE_PART_EMPTY);
    WANT(has("([\\x{1F600}-\\x{1F602}0-9]{2,5}?)|^\xC3\xBC|", wanted, 10));
    wanted[0] = part(0, REGEX_LITE_PART_REPETITION);
    wanted[0].least = 1;
    wanted[0].greedy = true;
    wanted[1] = span(1, REGEX_LITE_PART_CHAR, 'a', 'a');
    WANT(has("(?:a)+", wanted, 2));
    wanted[0] = part(0, REGEX_LITE_PART_EMPTY);
    WANT(has("", wanted, 1));
    wanted[0] = part(0, REGEX_LITE_PART_CLASS);
    WANT(has("[^\\s\\S]", wanted, 1));
}

/* The looks, by how they are written. */
static void test_looks(void) {
    static const struct {
        const char *pattern;
        regex_lite_look look;
    } rows[] = {{"^", REGEX_LITE_LOOK_START},
                {"\\z", REGEX_LITE_LOOK_END},
                {"(?m)^", REGEX_LITE_LOOK_START_LF},
                {"(?m)$", REGEX_LITE_LOOK_END_LF},
                {"(?mR)^", REGEX_LITE_LOOK_START_CRLF},
                {"(?mR)$", REGEX_LITE_LOOK_END_CRLF},
                {"\\b", REGEX_LITE_LOOK_WORD},
                {"\\B", REGEX_LITE_LOOK_WORD_NEGATE},
                {"\\<", REGEX_LITE_LOOK_WORD_START},
                {"\\>", REGEX_LITE_LOOK_WORD_END},
                {"\\b{start-half}", REGEX_LITE_LOOK_WORD_START_HALF},
                {"\\b{end-half}", REGEX_LITE_LOOK_WORD_END_HALF}};
    size_t k;
    for (k = 0; k < sizeof rows / sizeof rows[0]; k++) {
        regex_lite_part wanted = part(0, REGEX_LITE_PART_LOOK);
        wanted.look = rows[k].look;
        WANT(has(rows[k].pattern, &wanted, 1));
    }
}

/* With too little room no part is written, and nothing is written after the last. */
static void test_rooms(void) {
    regex_lite_part untouched;
    size_t room;
    memset(&untouched, 0x55, sizeof untouched);
    for (room = 0; room <= 4; room++) {
        regex_lite_answer answer = outline("ab", &defaults, room);
        WANT(answer == (room < 3 ? REGEX_LITE_NO_ROOM : REGEX_LITE_YES));
        WANT(told.count == 3 && told.message_len == 0);
        WANT(memcmp(&parts[3], &untouched, sizeof untouched) == 0);
        WANT(room >= 3 || memcmp(&parts[0], &untouched, sizeof untouched) == 0);
    }
}

/* The options count, but for the size limit. */
static void test_options(void) {
    regex_lite_options options = REGEX_LITE_DEFAULTS;
    options.case_insensitive = true;
    WANT(outline("a", &options, ROOM) == REGEX_LITE_YES && told.count == 3);
    WANT(parts[1].first == 'A' && parts[2].last == 'a');
    options.size_limit = 0;
    WANT(outline("a{4294967295}", &options, ROOM) == REGEX_LITE_YES && told.count == 4);
    options.nest_limit = 0;
    WANT(outline("1*", &options, ROOM) == REGEX_LITE_NESTING);
}

/* A refusal is that of regex_lite_new, with its message. */
static void test_refusals(void) {
    static const char *const refused[] = {"(", "a**{", "[b-a]", "\\q"};
    regex_lite_part untouched;
    size_t k;
    memset(&untouched, 0x55, sizeof untouched);
    for (k = 0; k < sizeof refused / sizeof refused[0]; k++) {
        regex_lite regex = REGEX_LITE_NOTHING;
        uint8_t own[100];
        size_t len;
        WANT(outline(refused[k], &defaults, ROOM) == REGEX_LITE_SYNTAX && told.count == 0);
        WANT(regex_lite_new(&regex, TEXT(refused[k]), &defaults, own, sizeof own, &len) ==
             REGEX_LITE_SYNTAX);
        WANT(told.message_len == len && memcmp(message, own, len) == 0);
        WANT(memcmp(&parts[0], &untouched, sizeof untouched) == 0);
    }
    WANT(outline("a\xFF", &defaults, ROOM) == REGEX_LITE_NOT_TEXT);
    WANT(told.count == 0 && told.message_len == 0);
}

int main(void) {
    test_kinds();
    test_looks();
    test_rooms();
    test_options();
    test_refusals();
    return failed != 0;
}
