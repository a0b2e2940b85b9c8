"""Code of C, over bindings/c."""

from __future__ import annotations

from string import Template
from typing import Sequence

from page.code.quoting import c_definition, c_literal
from page.code.settings import cut_note, settings_of
from page.code.templates import Groups
from page.questions import Question

LEAST_ROOM = 64  # spans
_SHOW = '''
/* Prints a group of a match, if it took part. */
static void show(size_t group, regex_lite_span span) {
    if (span.is_there) {
        printf("%zu: %zu..%zu ", group, span.start, span.end);
        fwrite(text + span.start, 1, span.end - span.start, stdout);
        putchar('\\n');
    }
}
'''
_ONE = Template('''\
#include <regex_lite.h>
#include <stdio.h>
#include <stdlib.h>

/* For how many spans there is room: a match has no more groups. */
enum { ROOM = $room };

$pattern
${cut}$text
$replacement
$show
/* Prints the text with its matches replaced. */
static void replace(regex_lite *regex) {
    regex_lite_replacing how = REGEX_LITE_ALL;
    uint8_t none;
    regex_lite_replace(regex, (const uint8_t *)text, sizeof text - 1,
                       (const uint8_t *)replacement, sizeof replacement - 1, &how, &none, 0);
    uint8_t *room = (uint8_t *)malloc(how.len + 1);
    if (room != NULL
        && regex_lite_replace(regex, (const uint8_t *)text, sizeof text - 1,
                              (const uint8_t *)replacement, sizeof replacement - 1, &how, room,
                              how.len) == REGEX_LITE_YES) {
        fwrite(room, 1, how.len, stdout);
        putchar('\\n');
    }
    free(room);
}

int main(void) {
    regex_lite regex = REGEX_LITE_NOTHING;
    regex_lite_options options = REGEX_LITE_DEFAULTS;
    regex_lite_walk walk = REGEX_LITE_START;
    static regex_lite_span spans[ROOM];
    uint8_t message[100];
    size_t len, groups, count;
$settings    if (regex_lite_new(&regex, (const uint8_t *)pattern, sizeof pattern - 1, &options,
                       message, sizeof message, &len) != REGEX_LITE_YES) {
        fprintf(stderr, "%.*s\\n", (int)len, (const char *)message);
        return 1;
    }
    groups = regex_lite_groups(&regex);
    while (regex_lite_captures_all(&regex, (const uint8_t *)text, sizeof text - 1, &walk, spans,
                                   ROOM, &count) == REGEX_LITE_YES) {
        for (size_t i = 0; i < count * groups; i++) {
            show(i % groups, spans[i]);
        }
    }
    replace(&regex);
    regex_lite_free(&regex);
    return 0;
}
''')
_SEVERAL = Template('''\
#include <regex_lite.h>
#include <stdio.h>

/* How many patterns there are, and for how many spans there is room: a match has no more groups. */
enum { COUNT = $count, ROOM = $room };

/* The patterns, one after another, and how many bytes each has. */
static const char patterns[] =
    $patterns;
static const size_t lens[COUNT] = {$lens};
${cut}$text
$show
int main(void) {
    regex_lite_list list = REGEX_LITE_NOTHING;
    regex_lite_list_pattern each[COUNT];
    regex_lite_options options = REGEX_LITE_DEFAULTS;
    regex_lite_list_refusal refusal;
    regex_lite_walk walk = REGEX_LITE_START;
    static regex_lite_list_groups groups[ROOM];
    static regex_lite_span spans[ROOM];
    uint8_t message[100];
    size_t count;
$settings    for (size_t i = 0; i < COUNT; i++) {
        each[i].len = lens[i];
        each[i].options = options;
    }
    if (regex_lite_list_new(&list, (const uint8_t *)patterns, sizeof patterns - 1, each, COUNT,
                            message, sizeof message, &refusal) != REGEX_LITE_YES) {
        fprintf(stderr, "%.*s\\n", (int)refusal.message_len, (const char *)message);
        return 1;
    }
    while (regex_lite_list_captures_all(&list, (const uint8_t *)text, sizeof text - 1, &walk,
                                        groups, ROOM, spans, ROOM, &count) == REGEX_LITE_YES) {
        const regex_lite_span *span = spans;
        for (size_t i = 0; i < count; i++) {
            printf("pattern %zu\\n", groups[i].number);
            for (size_t group = 0; group < groups[i].count; group++) {
                show(group, *span++);
            }
        }
    }
    regex_lite_list_free(&list);
    return 0;
}
''')


def code_for(question: Question, _: Groups, is_cut: bool) -> str:
    """Code that prints the matches, by offsets in bytes, and the replaced text."""
    patterns = question['patterns']
    settings = ''.join(f'    options.{name} = {value};\n'
                       for name, value in settings_of(question).items())
    shared = {'room': str(_room(patterns)), 'settings': settings, 'show': _SHOW,
              'cut': cut_note('//', is_cut), 'text': c_definition('text', question['text'])}
    if len(patterns) > 1:
        return _SEVERAL.substitute(
            shared, count=len(patterns), lens=', '.join(str(len(own.encode())) for own in patterns),
            patterns='\n    '.join(map(c_literal, patterns)))
    return _ONE.substitute(shared, pattern=c_definition('pattern', patterns[0]),
                           replacement=c_definition('replacement', question['replacement']))


def _room(patterns: Sequence[str]) -> int:
    """The number of spans for which there is room. Each group except the match itself has a
    parenthesis."""
    return max(LEAST_ROOM, *(own.count('(') + 1 for own in patterns))
