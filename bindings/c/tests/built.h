/* Builds a regex, or a list of two patterns, for the tests that do so with many of them. */
#ifndef BUILT_H
#define BUILT_H

#include "want.h"

static inline regex_lite_answer build(regex_lite *regex, const char *pattern) {
    uint8_t message[100];
    size_t len;
    return regex_lite_new(regex, TEXT(pattern), &defaults, message, sizeof message, &len);
}

/* Builds the list of two patterns. */
static inline regex_lite_answer build_two(regex_lite_list *list, const char *first,
                                          const char *second) {
    regex_lite_list_pattern each[2] = {{0, REGEX_LITE_DEFAULTS}, {0, REGEX_LITE_DEFAULTS}};
    regex_lite_list_refusal refusal;
    uint8_t bytes[100], message[100];
    each[0].len = strlen(first);
    each[1].len = strlen(second);
    memcpy(bytes, first, each[0].len);
    memcpy(bytes + each[0].len, second, each[1].len);
    return regex_lite_list_new(list, bytes, each[0].len + each[1].len, each, 2, message,
                               sizeof message, &refusal);
}

#endif
