/* What the tests share: conditions that they count, and texts as arguments of calls. */
#ifndef WANT_H
#define WANT_H

#include <regex_lite.h>
#include <stdio.h>
#include <string.h>

static int failed;

#define WANT(condition) \
    ((condition) ? (void)0 \
                 : (void)(failed++, printf("line %d: not so: %s\n", __LINE__, #condition)))

/* A text of C, as the two arguments that a call takes. */
#define TEXT(text) (const uint8_t *)(text), strlen(text)

static const regex_lite_options defaults = REGEX_LITE_DEFAULTS;

#endif
