"""What the page says of patterns in words."""

import time
import unittest
from typing import List

from page.explanations import MOST_ROWS, explained
from page.questions import NEST_LIMIT, SIZE_LIMIT
from page.tests.browser import InBrowser
from page.tests.running import WithServer, question
from regex_lite._library import Options, Regex
from regex_lite._parts import Outline

OPTIONS = Options(False, False, False, False, False, False, NEST_LIMIT, SIZE_LIMIT)
ROWS = (
    (r'(?<year>\d{4})-(?<month>\d\d)', [
        'group 1 ‘year’',
        '  a digit 0–9, exactly 4 times',
        '‘-’',
        'group 2 ‘month’',
        '  a digit 0–9',
        '  a digit 0–9',
    ]),
    ('', ['the empty text']),
    ('sam(?:wise)?', ['‘sam’', '‘wise’, once or not at all']),
    ('sam|frodo|(a)', ['either ‘sam’', 'or ‘frodo’', 'or group 1', '  ‘a’']),
    ('(?:a|b.)*?c+', [
        'any number of times, as few as possible:',
        '  either ‘a’',
        '  or',
        '    ‘b’',
        '    any character but a line feed',
        '‘c’, at least once',
    ]),
    ('(?:a|(?:b|c))', ['either ‘a’', 'or', '  either ‘b’', '  or ‘c’']),
    (r'(?m)^\b\w{2,}$', [
        'the start of a line',
        'the start or the end of a word',
        'a word character, at least 2 times',
        'the end of a line',
    ]),
    ('[a-zA-Z]{0,3}[^0-9a][[:punct:]]', [
        'a letter A–Z, a–z, at most 3 times',
        'any character but 0–9, ‘a’',
        'one of !–/, :–@, [–`, {–~',
    ]),
    ('(?i)a[^x]', ['‘a’ in either case', 'any character but ‘x’ in either case']),
    (r'[^\s\S]|[\s\S]|\S|\W', [
        'either no character, so no match',
        'or any character',
        'or any character but white space',
        'or any character but a word character',
    ]),
    ('[acegikmoqsuw]', [
        'one of ‘a’, ‘c’, ‘e’, ‘g’, ‘i’, ‘k’, ‘m’, ‘o’ and 4 more ranges']),
    ('a**', ['any number of times:', '  ‘a’, any number of times']),
    ('\t|\x00\n\u202e| |é', [
        'either a tab', r'or ‘\u{0}\u{A}\u{202E}’', 'or a space', 'or ‘é’']),
    ('(?:a{0}|b{1,2}?){3}', [
        'exactly 3 times:', '  either the empty text', '  or ‘b’, 1 to 2 times, as few as possible']),
)


def rows_of(*patterns: str) -> List[str]:
    """The rows of an explanation, indented."""
    regexes = [Regex(pattern, OPTIONS) for pattern in patterns]
    told = explained([Outline(pattern, OPTIONS) for pattern in patterns],
                     lambda number, index: regexes[number].name(index))
    assert told.left == 0
    return ['  ' * row.depth + row.words for row in told.rows]


class Explanations(unittest.TestCase):
    """Rows of explanations."""

    def test_rows(self) -> None:
        for pattern, wanted in ROWS:
            with self.subTest(pattern):
                self.assertEqual(rows_of(pattern), wanted)

    def test_several_patterns(self) -> None:
        self.assertEqual(rows_of('a|b', '(?<n>c)'), [
            'Pattern 0', '  either ‘a’', '  or ‘b’', 'Pattern 1', '  group 1 ‘n’', '    ‘c’'])

    def test_many_parts(self) -> None:
        """Of a long or deep pattern the first rows are there, and soon."""
        for pattern, count in (('a|' * 500_000, 500_002), ('(?:a?b)*' * 20_000, 100_001),
                               ('a*' * 100_000, 200_001), ('[acegikm]' * 50_000, 400_001)):
            begun = time.process_time()
            outline = Outline(pattern, OPTIONS)
            told = explained([outline], lambda number, index: None)
            self.assertEqual((len(outline), len(told.rows)), (count, MOST_ROWS))
            self.assertTrue(0 < told.left < count)
            self.assertLess(time.process_time() - begun, 2)

    def test_deep_patterns(self) -> None:
        deep = Options(False, False, False, False, False, False, 5_000, SIZE_LIMIT)
        for before, after in (('(', ')'), ('', '*'), ('(?:x|', ')')):
            told = explained([Outline(before * 2_000 + 'a' + after * 2_000, deep)],
                             lambda number, index: None)
            self.assertEqual(len(told.rows), MOST_ROWS)

    def test_long_texts(self) -> None:
        self.assertEqual(rows_of('a' * 1_500), [f'‘{"a" * 100}…’ and 1,400 more characters'])


class Answers(WithServer):
    """What the server sends."""

    def test_answers(self) -> None:
        shown = self.answer(question('(?<n>a)', text='a', flags='i'))
        self.assertEqual(shown['explained'], [[0, 'group 1 ‘n’'], [1, '‘a’ in either case']])
        self.assertEqual(shown['unexplained'], 0)
        self.assertEqual(self.answer(question('a{2}' * 300))['unexplained'], 200)
        self.assertNotIn('explained', self.answer(question('(')))


# The rows, each below those that it belongs to.
NESTED = """(function rows(list) {
    return [...(list?.children ?? [])].map((item) => [
        item.firstChild.data, rows(item.querySelector(':scope > ul'))]);
})(document.querySelector('#explained > ul'))"""


class InWords(InBrowser):
    """What the page shows in words."""

    def test_rows(self) -> None:
        self.has(NESTED, [
            ['group 1 ‘year’', [['a digit 0–9, exactly 4 times', []]]], ['‘-’', []],
            ['group 2 ‘month’', [['a digit 0–9', []], ['a digit 0–9', []]]]])
        self.browser.write('pattern', '(?:(a)|<b>)*')
        self.has(NESTED, [['any number of times:', [
            ['either group 1', [['‘a’', []]]], ['or ‘<b>’', []]]]])
        self.browser.write('pattern', '(')
        self.has(NESTED, [])

    def test_notes(self) -> None:
        self.shows('explained-note', '')
        self.browser.write('pattern', 'a{2}' * 300)
        self.shows('explained-note', '200 more parts are left out.')


if __name__ == '__main__':
    unittest.main()
