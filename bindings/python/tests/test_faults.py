"""Where both refuse a pattern for the same part of it, the text and the place are those of `re`."""

import random
import re
import time
import unittest
import unittest.mock
import warnings
from typing import Any, Optional, Tuple

import regex_lite
from generators import PARTS, Generator
from readings import FAULTS
from regex_lite import _faults
from regex_lite._flags import options_of
from regex_lite._library import Regex

LONGEST_WAIT = 2  # seconds of processor time
# Patterns that both refuse for the same part.
SAME = ('(', 'a(b', '((a|b)', '(a|b))', 'a)', '*', '(?:+)', 'a|*', '[', '[^', '[a', '[a-', '[b-a]',
        r'[\w-b]', r'[a-\w]', 'a{2,1}', '(?P<a>b)(?P<a>c)', '(?P<1>a)', '(?P<>a)', '(?P<', '(?P<a',
        '(?z)', '(?iz)', '(?i', '(?', '\\', r'\q', r'[\q]', r'\x1', r'\xg', r'\u12', 'ü\n€(', '(?-')
LIBRARY_TEXT = 'look-around is not supported'


def fault(module: Any, pattern: str, flags: int = 0) -> Optional[Tuple[object, ...]]:
    """What an error tells, if the pattern is refused by one."""
    try:
        module.compile(pattern, flags)
    except module.error as error:
        return error.msg, error.pos, error.lineno, error.colno, str(error)
    except FAULTS:
        pass
    return None


class Faults(unittest.TestCase):
    """Texts and places of errors."""

    def setUp(self) -> None:
        caught = warnings.catch_warnings()
        caught.__enter__()
        self.addCleanup(caught.__exit__, None, None, None)
        warnings.simplefilter('ignore')

    def test_same_part(self) -> None:
        for pattern in SAME:
            self.assertEqual(fault(regex_lite, pattern), fault(re, pattern), pattern)
            with self.assertRaises(regex_lite.error) as caught:
                regex_lite.RegexList(['a', pattern])
            self.assertEqual(str(caught.exception), fault(re, pattern)[-1])

    def test_other_part(self) -> None:
        for pattern, pos in (('(?=a)(', 0), ('(?=a)', 0), ('a(?<x>b)(', 8)):
            with self.assertRaises(regex_lite.error) as caught:
                regex_lite.compile(pattern)
            self.assertEqual(caught.exception.pos, pos)
        self.assertEqual(fault(regex_lite, '(?=a)(')[0], LIBRARY_TEXT)

    def test_random_patterns(self) -> None:
        order, generator, same, other = random.Random(20261204), Generator(20261204), 0, 0
        for _ in range(4000):
            pattern, flags = ''.join(order.choices(PARTS, k=order.randint(1, 6))), generator.flags()
            theirs = fault(re, pattern, flags)
            if theirs is None:
                continue
            try:
                Regex(pattern, options_of(flags, 50, 1 << 20))
            except regex_lite.error as library:
                end = len(pattern) if library.end is None else library.end
                if library.pos <= theirs[1] <= end:
                    self.assertEqual(fault(regex_lite, pattern, flags), theirs, pattern)
                    same += 1
                else:
                    self.assertEqual(fault(regex_lite, pattern, flags)[:2],
                                     (library.msg, library.pos), pattern)
                    other += 1
        self.assertGreater(same, 2 * other)
        self.assertGreater(other, 0)

    def test_ends_and_numbers_are_those_of_the_library(self) -> None:
        for pattern in SAME:
            with self.assertRaises(regex_lite.error) as caught:
                regex_lite.compile(pattern)
            with self.assertRaises(regex_lite.error) as library:
                Regex(pattern, options_of(0, 50, 1 << 20))
            self.assertEqual((caught.exception.end, caught.exception.number),
                             (library.exception.end, library.exception.number))

    def test_without_the_parser(self) -> None:
        with unittest.mock.patch.object(_faults, '_PARSER', None):
            with self.assertRaises(regex_lite.error) as caught:
                regex_lite.compile('a[b-a]')
        self.assertEqual((caught.exception.msg, caught.exception.pos),
                         ('invalid range in character class', 1))

    def test_long_patterns_are_not_read(self) -> None:
        with unittest.mock.patch.object(_faults, '_PARSER') as parser:
            self.assertRaises(regex_lite.error, regex_lite.compile, 'a' * 9999 + '(')
            parser.parse.assert_called_once()
            self.assertRaises(regex_lite.error, regex_lite.compile, 'a' * 10000 + '(')
            parser.parse.assert_called_once()

    def test_time(self) -> None:
        """Patterns that `re` takes long to compile, or can't read."""
        for pattern in ('(?i)' + '[\x01-\U0010ffff]' * 400 + '(', '(' * 9000, 'a' * 1000000 + '(',
                        '(?:' * 3000 + '(', '(?<=' * 2000 + '('):
            begun = time.process_time()
            self.assertRaises(regex_lite.error, regex_lite.compile, pattern)
            self.assertLess(time.process_time() - begun, LONGEST_WAIT, pattern[:9])


if __name__ == '__main__':
    unittest.main()
