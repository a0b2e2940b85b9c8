/* main PATTERN CALL ROUNDS: reads a text, and prints how many nanoseconds a round takes, of
 * is_match or of going over all matches, and how many were found. */
#include <regex_lite.h>
#include <stdio.h>
#include <stdlib.h>
#include <string.h>
#include <time.h>

#define MOST_TEXT (1 << 24)
#define ROOM 4096

static uint8_t text[MOST_TEXT];
static regex_lite_span spans[ROOM];

static size_t count(regex_lite *regex, size_t len) {
    regex_lite_walk walk = REGEX_LITE_START;
    size_t found = 0;
    size_t part = 0;
    while (regex_lite_find_all(regex, text, len, &walk, spans, ROOM, &part) == REGEX_LITE_YES) {
        found += part;
    }
    return found;
}

int main(int argc, char **argv) {
    if (argc != 4) {
        return 2;
    }
    regex_lite regex = REGEX_LITE_NOTHING;
    regex_lite_options options = REGEX_LITE_DEFAULTS;
    uint8_t message[100];
    size_t message_len;
    size_t len = fread(text, 1, MOST_TEXT, stdin);
    const uint8_t *pattern = (const uint8_t *)argv[1];
    if (regex_lite_new(&regex, pattern, strlen(argv[1]), &options, message, sizeof message,
                       &message_len) != REGEX_LITE_YES) {
        return 2;
    }
    long rounds = atol(argv[3]);
    size_t found = 0;
    struct timespec begun;
    struct timespec ended;
    clock_gettime(CLOCK_MONOTONIC, &begun);
    for (long i = 0; i < rounds; i++) {
        if (strcmp(argv[2], "is_match") == 0) {
            found = regex_lite_is_match(&regex, text, len, 0) == REGEX_LITE_YES;
        } else {
            found = count(&regex, len);
        }
    }
    clock_gettime(CLOCK_MONOTONIC, &ended);
    regex_lite_free(&regex);
    double nanoseconds = (double)(ended.tv_sec - begun.tv_sec) * 1e9
        + (double)(ended.tv_nsec - begun.tv_nsec);
    printf("%f %zu\n", nanoseconds / (double)rounds, found);
    return 0;
}
