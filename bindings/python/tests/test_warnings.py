"""`compile` warns of syntax that `re` accepts too, and reads in another way."""

import re
import sys
import time
import unittest
import warnings
from typing import Dict, List, Tuple

import regex_lite
from regex_lite import DepartureWarning
from regex_lite._departures import MEANINGS, departures_in, warn_of_departures

X = re.VERBOSE
LIMIT = 1 << 24  # A pattern with a limit of its own is compiled anew.
# Patterns of each kind, with the position of which the warning speaks.
WARNED: Dict[str, List[Tuple[str, int, int]]] = {
    'possessive': [('a++', 0, 1), ('a*+a', 0, 1), ('[+]?+', 0, 3), ('a{1,2}+', 0, 1),
                   (r'\+|(?:b)++', 0, 8), ('(?x: a # b++\n)b++', 0, 15), ('a #\n++', X, 4),
                   ('[]a]++', 0, 4), (r'[\]]++', 0, 4), ('(?-x:#)b++', X, 8), ('a#++', 0, 2)],
    'word': [(r'\<a', 0, 0), (r'a\\\>', 0, 3)],
    'boundary': [(r'\b{start}', 0, 0), (r'a\b{end-half}', 0, 1)],
    'counted': [('a{ 2}', 0, 1), ('a{2, 3}', 0, 1), ('a{ 2 }', X, 1)],
    'zero': [('(a){0}', 0, 3), ('((a)b){0,0}?', 0, 6), ('(?P<x>a){00}', 0, 8)],
    'named_class': [('[[:alpha:]]', 0, 1), ('[^a[:^digit:]b]', 0, 3)],
    'dashes': [('[--a]', 0, 1), ('[^----a]', 0, 2)],
    'bracket': [('[]-a]', 0, 1), ('[^]-a]', 0, 2)],
    'class_gap': [('[a b]', X, 2), ('(?x)[a#\n]', 0, 6), ('(?x:[ ]a])', 0, 5)],
    'white_space': [('a\xa0', X, 1), ('(?x)\u2003', 0, 4)],
    'unicode': [('(?u)a', 0, 0), ('a(?iu:a)', 0, 1)],
    'line_feed': [('#\\\n', X, 0), ('a # \\\\\\\n', X, 2)],
}
QUIET = [('a+', 0), ('a+?', 0), (r'\++', 0), (r'\\+', 0), ('[+]+', 0), ('[*+]', 0), ('[]a++]', 0),
         (r'[\]*+]', 0), ('(?x)a # b++ [a b]\n', 0), ('a # b++ \\\\\n', X), ('a+ +', X),
         (r'a\ b', X), (r'\\<', 0), (r'\b', 0), ('<a>', 0), ('a{2}', 0),
         ('a{2,3}?', 0), ('a {2}', X), ('(a){0}(b)', 0), ('(?:a){0}', 0), ('(a)b{0}', 0),
         ('[:alpha:]', 0), (r'[\[:alpha:]', 0), ('[-a]', 0), ('[---a]', 0), ('[a-]', 0),
         ('[--]', 0), ('[]-]', 0), ('[a b]', 0), (r'[a\ b]', X), ('(?-x:[a b]#)', X),
         ('(?x:a)[a b]', 0),
         ('a\xa0', 0), ('(?i)a', 0), ('(?i)(?s)a', 0), ('(?i:a)', 0),
         ('a$', 0), (r'\w', 0), ('', 0), ('ü', 0)]


def warnings_of(pattern: str, flags: int = 0) -> List[warnings.WarningMessage]:
    """The warnings that `compile` gives for a pattern that it hasn't met."""
    with warnings.catch_warnings(record=True) as caught:
        warnings.simplefilter('always')
        regex_lite.compile(pattern, flags, size_limit=LIMIT)
    return caught


class Warned(unittest.TestCase):
    """What is warned of, and what isn't."""

    def test_each_kind(self) -> None:
        self.assertEqual(set(WARNED), set(MEANINGS) - {'directive'})
        for kind, cases in WARNED.items():
            for pattern, flags, pos in cases:
                warned, = warnings_of(pattern, flags)
                self.assertIs(warned.category, DepartureWarning)
                self.assertIn(f'at position {pos} {MEANINGS[kind]}', str(warned.message), pattern)

    def test_re_accepts_each(self) -> None:
        for kind, cases in WARNED.items():
            if kind != 'possessive' or sys.version_info >= (3, 11):
                for pattern, flags, _ in cases:
                    with warnings.catch_warnings():
                        warnings.simplefilter('ignore', FutureWarning)
                        re.compile(pattern, flags)

    def test_nothing_else(self) -> None:
        for pattern, flags in QUIET:
            self.assertEqual(warnings_of(pattern, flags), [], (pattern, flags))

    def test_each_kind_once(self) -> None:
        texts = [str(warned.message)[:6] for warned in warnings_of(r'a++b++\<\>')]
        self.assertEqual(texts, ["'++' a", "'\\\\<' "])

    def test_flag(self) -> None:
        for pattern, number in (('a', 1), ('(?u)a', 1), ('a++', 2)):
            said = [str(warned.message) for warned in warnings_of(pattern, re.UNICODE)]
            self.assertEqual(len(said), number)
            self.assertIn(f'the flag UNICODE {MEANINGS["unicode"]}', said)
        self.assertEqual(warnings_of('a', re.ASCII), [])

    def test_directives(self) -> None:
        found = [each.kind for each in departures_in('a(?i)b', 0)]
        self.assertEqual(found, [] if sys.version_info >= (3, 11) else ['directive'])

    def test_place(self) -> None:
        warned, = warnings_of('a++')
        self.assertEqual(warned.filename, __file__)

    def test_stack_level(self) -> None:
        with warnings.catch_warnings(record=True) as caught:
            warnings.simplefilter('always')
            warn_of_departures('a++', 0, 1)
        self.assertEqual(caught[0].filename, __file__)

    def test_category(self) -> None:
        self.assertTrue(issubclass(DepartureWarning, FutureWarning))
        with warnings.catch_warnings():
            warnings.simplefilter('error', DepartureWarning)
            self.assertRaises(DepartureWarning, regex_lite.compile, 'a++', size_limit=LIMIT)
            regex_lite.compile('a+', size_limit=LIMIT)

    def test_time_is_linear(self) -> None:
        for begin, part in (('', 'a++'), ('', '['), ('', '[a'), ('', '('), ('', '(?x'), ('', '{1'),
                            ('', '\\'), ('', '#'), ('', '[[:alpha:]'), ('', '(?<'), ('', '-'),
                            ('[-', '# '), ('[-', ' '), ('a{ ', '# '), ('', '\\['), ('[ ', '-')):
            for flags in (0, X):
                few, many = (seconds(begin + part * count, flags) for count in (1000, 10000))
                self.assertLess(many, 40 * few + 0.01, (begin, part))


def seconds(pattern: str, flags: int) -> float:
    """How long it takes to look for departures, at best."""
    times = []
    for _ in range(2):
        begin = time.process_time()
        departures_in(pattern, flags)
        times.append(time.process_time() - begin)
    return min(times)


if __name__ == '__main__':
    unittest.main()
