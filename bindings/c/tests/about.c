/* Asks the library for its version, and for what its answers mean. */
#include "want.h"

/* Whether the text of this answer is this one. */
static bool is_text(uint32_t answer, const char *text) {
    uint8_t room[100];
    size_t len = 0;
    return regex_lite_strerror(answer, room, sizeof room, &len) == REGEX_LITE_YES &&
           len == strlen(text) && memcmp(room, text, len) == 0;
}

static void test_texts(void) {
    static const char *const texts[] = {
        "no match, or nothing is left",
        "success",
        "the handle holds nothing",
        "the bytes are not valid UTF-8",
        "an offset is out of range or inside a character",
        "the room is too small",
        "out of memory",
        "there is no group with this index",
        "there is no pattern with this number",
        NULL,
        "the pattern has a syntax error",
        "the pattern exceeds the limit on nesting",
        "the pattern has too many groups",
        "the pattern exceeds the size limit",
        "the pattern has too many places",
        "the pattern has too many ends of groups",
    };
    uint32_t answer;
    for (answer = REGEX_LITE_NO; answer <= REGEX_LITE_SLOTS; answer++)
        WANT(is_text(answer, texts[answer] == NULL ? "unknown answer" : texts[answer]));
    WANT(is_text(16, "unknown answer") && is_text(1000, "unknown answer"));
    WANT(is_text(UINT32_MAX, "unknown answer"));
}

/* A text has 7 bytes: it is written whole or not at all, and its length always is. */
static void test_rooms(void) {
    size_t room, len;
    for (room = 0; room <= 8; room++) {
        uint8_t text[9] = "........";
        uint32_t answer = regex_lite_strerror(REGEX_LITE_YES, text, room, &len);
        WANT(answer == (room < 7 ? REGEX_LITE_NO_ROOM : REGEX_LITE_YES) && len == 7);
        WANT(memcmp(text, room < 7 ? "........" : "success.", 8) == 0);
    }
}

/* A library that was built without a proof says so after its version. */
static void test_version(void) {
    static const char proved[] = REGEX_LITE_VERSION, unproved[] = REGEX_LITE_VERSION "+unproved";
    uint8_t room[sizeof unproved], small[1] = {7};
    char numbers[40];
    size_t len = 0;
    sprintf(numbers, "%d.%d.%d", REGEX_LITE_VERSION_MAJOR, REGEX_LITE_VERSION_MINOR,
            REGEX_LITE_VERSION_PATCH);
    WANT(strcmp(numbers, REGEX_LITE_VERSION) == 0);
    WANT(regex_lite_version(room, sizeof room, &len) == REGEX_LITE_YES);
    WANT((len == strlen(proved) && memcmp(room, proved, len) == 0) ||
         (len == strlen(unproved) && memcmp(room, unproved, len) == 0));
    WANT(regex_lite_version(small, 1, &len) == REGEX_LITE_NO_ROOM);
    WANT(small[0] == 7 && len >= strlen(proved));
}

int main(void) {
    test_texts();
    test_rooms();
    test_version();
    if (failed == 0) puts("about: all is so");
    return failed != 0;
}
