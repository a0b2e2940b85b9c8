"""Strings beyond ASCII: offsets in them, their parts, and what both cost. The values that are
expected are those of `re`."""

import random
import re
import time
import unittest

import regex_lite
from regex_lite import _foreign

MOST_SECONDS = 0.1  # of processor time, of which a hundredth is taken
# Characters of one to four bytes, also at the borders of blocks of offsets.
STRINGS = ('a' * 5000 + 'é' + 'a1' * 900, 'é' + 'a' * 3000, 'a' * 3000 + 'é', '€' * 4000 + 'a',
           'a€' * 2000, '😀' * 2500 + '1', 'ab😀é€1' * 800, 'a' * 1023 + '😀' * 3 + 'a' * 1021 + '€a',
           'é', 'é1', '1é', '')
PATTERNS = ('[a-z]', '[^a-z]+', '1', 'é|a', '(a)|(.)', '€*a', '.{700}')


class Agreement(unittest.TestCase):
    """What is found in such strings."""

    def test_spans(self):
        for string in STRINGS:
            for pattern in PATTERNS:
                ours, theirs = ([[found.span(group) for group in range(found.re.groups + 1)]
                                 for found in module.finditer(pattern, string)]
                                for module in (regex_lite, re))
                self.assertEqual(ours, theirs)

    def test_any_order(self):
        order = random.Random(20261128)
        for string in STRINGS:
            for pattern in PATTERNS:
                ours = list(regex_lite.finditer(pattern, string))
                theirs = list(re.finditer(pattern, string))
                self.assertEqual(len(ours), len(theirs))
                for i in order.sample(range(len(ours)), len(ours)):
                    self.assertEqual(ours[i].span(), theirs[i].span())
                    self.assertEqual(ours[i].groups(), theirs[i].groups())

    def test_starts(self):
        order = random.Random(20261128)
        for string in STRINGS:
            for pattern in PATTERNS:
                ours, theirs = regex_lite.compile(pattern), re.compile(pattern)
                for start in (-1, 0, 1, len(string), len(string) + 1,
                              *(order.randrange(len(string) + 1) for _ in range(9))):
                    found, wanted = ours.search(string, start), theirs.search(string, start)
                    self.assertEqual(found and found.span(), wanted and wanted.span())
                    found, wanted = ours.match(string, start), theirs.match(string, start)
                    self.assertEqual(found and found.span(), wanted and wanted.span())

    def test_parts(self):
        for string in STRINGS:
            for pattern in PATTERNS:
                self.assertEqual(regex_lite.findall(pattern, string), re.findall(pattern, string))
                self.assertEqual(regex_lite.split(pattern, string), re.split(pattern, string))
                self.assertEqual(regex_lite.sub(pattern, r'[\g<0>]', string),
                                 re.sub(pattern, r'[\g<0>]', string))
                self.assertEqual(regex_lite.subn(pattern, lambda found: found[0] * 2, string),
                                 re.subn(pattern, lambda found: found[0] * 2, string))

    def test_many_strings(self):
        for pattern in PATTERNS:
            wanted = [found and found.span() for found in (re.search(pattern, s) for s in STRINGS)]
            self.assertEqual(regex_lite.compile(pattern).search_each(STRINGS), wanted)

    def test_lists(self):
        for string in STRINGS:
            words = regex_lite.RegexList(['[a-z]', '1', '(?:(é)|€)+'])
            theirs = [(found.lastindex - 1, found.span())
                      for found in re.finditer('([a-z])|(1)|((?:é|€)+)', string)]
            self.assertEqual(list(words.spans(string)), theirs)
            self.assertEqual([(i, found.span()) for i, found in words.finditer(string)], theirs)
            found = words.search(string, 1)
            wanted = [span for span in theirs if span[1][0] >= 1]
            if found is not None and string[:1] not in ('é', '€'):
                self.assertEqual((found[0], found[1].span()), wanted[0])

    def test_lone_surrogates(self):
        for string in ('\ud800', 'a' * 20000 + '\ud800', 'é' * 20000 + '\udfff'):
            self.assertRaises(UnicodeEncodeError, regex_lite.search, 'a', string)

    def test_other_interpreters(self):
        string = 'é' * 20000
        kept = _foreign._kept_utf8
        self.addCleanup(setattr, _foreign, '_kept_utf8', kept)
        self.assertIsNotNone(kept)
        self.assertEqual(_foreign.encoded(string), string.encode())
        _foreign._kept_utf8 = None
        self.assertEqual(_foreign.encoded(string), string.encode())


class Costs(unittest.TestCase):
    """What grows with what is passed over, and not with the string for each offset."""

    STRING = 'é'.join(['word 2026-11 ' * 40000] * 2)

    def assert_cheap(self, call):
        """The least of three times is below what a table of the string takes."""
        seconds = []
        for _ in range(3):
            begun = time.process_time()
            call()
            seconds.append(time.process_time() - begun)
        self.assertLess(min(seconds), MOST_SECONDS)

    def test_search_at_the_start(self):
        pattern = regex_lite.compile('[a-z]')
        self.assert_cheap(lambda: pattern.search(self.STRING).span())

    def test_search_at_the_end(self):
        pattern = regex_lite.compile('-11 $')
        self.assert_cheap(lambda: pattern.search(self.STRING, len(self.STRING) - 9).span())

    def test_first_matches(self):
        words = regex_lite.RegexList(['[a-z]+'])
        self.assert_cheap(lambda: next(regex_lite.finditer('[a-z]+', self.STRING)).span())
        self.assert_cheap(lambda: next(words.spans(self.STRING)))
        self.assert_cheap(lambda: next(words.finditer(self.STRING))[1].span())
        self.assert_cheap(lambda: words.search(self.STRING)[1].span())

    def test_both_ends_in_turn(self):
        first, *_, last = regex_lite.finditer('d 2', self.STRING)
        self.assert_cheap(lambda: [(first.span(), last.span()) for _ in range(2000)])


if __name__ == '__main__':
    unittest.main()
