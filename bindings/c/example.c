/* Prints the words of its first argument that begin with sam, and their offsets. */
#include <regex_lite.h>
#include <stdio.h>
#include <string.h>

static const char pattern[] = "(?i)\\bsam(?<rest>\\w*)";

int main(int argc, char **argv) {
    const uint8_t *text = (const uint8_t *)(argc > 1 ? argv[1] : "Mister Samwise, or Sam");
    size_t len = strlen((const char *)text), count, message_len;
    regex_lite regex = REGEX_LITE_NOTHING;
    regex_lite_options options = REGEX_LITE_DEFAULTS;
    regex_lite_walk walk = REGEX_LITE_START;
    regex_lite_span spans[64];
    uint8_t message[100];
    regex_lite_answer answer =
        regex_lite_new(&regex, (const uint8_t *)pattern, strlen(pattern), &options, message,
                       sizeof message, &message_len);
    if (answer != REGEX_LITE_YES) {
        fprintf(stderr, "%u: %.*s\n", (unsigned)answer, (int)message_len, (char *)message);
        return 2;
    }
    while (regex_lite_find_all(&regex, text, len, &walk, spans, 64, &count) == REGEX_LITE_YES) {
        for (size_t i = 0; i < count; i++) {
            size_t start = spans[i].start, end = spans[i].end;
            printf("%zu..%zu %.*s\n", start, end, (int)(end - start), (const char *)text + start);
        }
    }
    regex_lite_free(&regex);
    return 0;
}
