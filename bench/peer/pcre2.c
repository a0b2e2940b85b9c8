/* The program of main.rt.txt over PCRE2 with its compiler, Debian's package libpcre2-dev. It has no
   sets: each pattern is asked by itself. */

#define PCRE2_CODE_UNIT_WIDTH 8
#include <pcre2.h>
#include <stdbool.h>
#include <stdint.h>
#include <stdio.h>
#include <stdlib.h>
#include <string.h>

/* What the calls have returned. */
static uint64_t found, sum;

static void add(uint64_t number) { sum = sum * 31 + number; }

static void add_length(size_t length) {
    found += 1;
    add(length);
}

struct regex {
    pcre2_code *code;
    pcre2_match_data *data;
    uint32_t groups;
};

static struct regex built(const char *pattern) {
    int fault;
    PCRE2_SIZE at;
    struct regex made;
    made.code = pcre2_compile((PCRE2_SPTR)pattern, PCRE2_ZERO_TERMINATED,
                              PCRE2_UTF | PCRE2_DOLLAR_ENDONLY, &fault, &at, NULL);
    if (made.code == NULL) {
        fprintf(stderr, "refused: %d at %zu\n", fault, (size_t)at);
        exit(1);
    }
    pcre2_jit_compile(made.code, PCRE2_JIT_COMPLETE);
    made.data = pcre2_match_data_create_from_pattern(made.code, NULL);
    pcre2_pattern_info(made.code, PCRE2_INFO_CAPTURECOUNT, &made.groups);
    return made;
}

static void drop(struct regex *regex) {
    pcre2_match_data_free(regex->data);
    pcre2_code_free(regex->code);
}

/* The text is UTF-8, and is not tested again. */
static bool find(const struct regex *regex, const char *text, size_t length, size_t start) {
    int told = pcre2_match(regex->code, (PCRE2_SPTR)text, length, start, PCRE2_NO_UTF_CHECK,
                           regex->data, NULL);
    if (told < PCRE2_ERROR_NOMATCH) {
        fprintf(stderr, "failed: %d\n", told);
        exit(1);
    }
    return told > 0;
}

static void add_groups(const struct regex *regex, uint32_t most) {
    PCRE2_SIZE *offsets = pcre2_get_ovector_pointer(regex->data);
    for (uint32_t i = 0; i <= most; i++) {
        if (offsets[2 * i] != PCRE2_UNSET) {
            found += 1;
            add(offsets[2 * i]);
            add(offsets[2 * i + 1]);
        }
    }
}

static void replace(const struct regex *regex, const char *text, size_t length) {
    static PCRE2_UCHAR *room;
    static size_t size;
    PCRE2_SIZE written = size;
    for (;;) {
        int told = pcre2_substitute(regex->code, (PCRE2_SPTR)text, length, 0,
                                    PCRE2_SUBSTITUTE_GLOBAL | PCRE2_NO_UTF_CHECK, regex->data, NULL,
                                    (PCRE2_SPTR) "<>", 2, room, &written);
        if (told >= 0) break;
        size = 2 * (size + length + 16);
        written = size;
        room = realloc(room, size);
    }
    add_length(written);
}

/* No match is empty. */
static void make_call(const char *call, const struct regex *regex, const char *text,
                      size_t length) {
    PCRE2_SIZE *offsets = pcre2_get_ovector_pointer(regex->data);
    size_t start = 0;
    if (strcmp(call, "all") == 0 || strcmp(call, "groups") == 0) {
        while (find(regex, text, length, start)) {
            add_groups(regex, call[0] == 'a' ? 0 : regex->groups);
            start = offsets[1];
        }
    } else if (strcmp(call, "split") == 0) {
        while (find(regex, text, length, start)) {
            add_length(offsets[0] - start);
            start = offsets[1];
        }
        add_length(length - start);
    } else if (strcmp(call, "replace") == 0) {
        replace(regex, text, length);
    } else if (strcmp(call, "is-match") == 0) {
        found += find(regex, text, length, 0);
    } else if (find(regex, text, length, 0)) {
        add_groups(regex, strcmp(call, "kept-groups") == 0 ? regex->groups : 0);
    }
}

static char *read_all(size_t *length) {
    size_t size = 1 << 20;
    char *text = malloc(size);
    *length = 0;
    for (size_t got; (got = fread(text + *length, 1, size - *length, stdin)) > 0;) {
        *length += got;
        if (*length == size) text = realloc(text, size *= 2);
    }
    return text;
}

/* All branches, each in a group that isn't numbered. */
static char *joined(char **patterns, int count) {
    size_t size = 1;
    for (int k = 0; k < count; k++) size += strlen(patterns[k]) + 5;
    char *any = malloc(size);
    *any = 0;
    for (int k = 0; k < count; k++) {
        strcat(strcat(strcat(any, k ? "|(?:" : "(?:"), patterns[k]), ")");
    }
    return any;
}

static void ask_each(char **patterns, int count, const char *text, size_t length, bool by_line,
                     long rounds, const char *call) {
    struct regex *regexes = malloc((count + 1) * sizeof *regexes);
    bool which = strcmp(call, "which") == 0;
    for (int k = 0; k < count; k++) regexes[k] = built(patterns[k]);
    for (long round = 0; round < rounds; round++) {
        for (size_t at = 0, end; at < length; at = end + 1) {
            const char *feed = by_line ? memchr(text + at, '\n', length - at) : NULL;
            end = feed ? (size_t)(feed - text) : length;
            for (int k = 0; k < count; k++) {
                if (!which) {
                    make_call(call, &regexes[k], text + at, end - at);
                } else if (find(&regexes[k], text + at, end - at, 0)) {
                    add_length(k);
                }
            }
        }
    }
    for (int k = 0; k < count; k++) drop(&regexes[k]);
    free(regexes);
}

int main(int count, char **words) {
    if (count < 5) {
        fprintf(stderr, "usage: peer CALL text|lines ROUNDS PATTERN..\n");
        return 1;
    }
    const char *call = words[1];
    bool by_line = strcmp(words[2], "lines") == 0;
    long rounds = atol(words[3]);
    size_t length;
    char *text = read_all(&length);
    if (strcmp(call, "compile") == 0) {
        for (long round = 0; round < rounds; round++) {
            for (int k = 4; k < count; k++) {
                struct regex regex = built(words[k]);
                add_length(regex.groups + 1);
                drop(&regex);
            }
        }
    } else if (strcmp(call, "which") == 0) {
        ask_each(words + 4, count - 4, text, length, by_line, rounds, call);
    } else if (strcmp(call, "tokens") == 0) {
        char *any = joined(words + 4, count - 4);
        ask_each(&any, 1, text, length, by_line, rounds, "all");
        free(any);
    } else {
        ask_each(words + 4, 1, text, length, by_line, rounds, call);
    }
    printf("%llu %llu\n", (unsigned long long)found, (unsigned long long)sum);
}
