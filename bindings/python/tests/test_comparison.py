"""Answers and refusals are those of `re`, unless a row in README.md explains the difference."""

import sys
import unittest
from collections import Counter
from typing import Sequence

from generators import EVERY, Generator
from readings import BY_TEXT, REFUSED_HERE, REFUSED_THERE, WARNED, Pair, found_by, started, walked
from regex_lite._departures import Reader, departures_in

SOUPS, TREES = 10000, 1500  # how many random patterns of each kind
ROWS = {'test_empty_matches', *BY_TEXT, *WARNED.values(), *REFUSED_HERE.values(),
        *REFUSED_THERE.values()}
# Rows of other versions of Python.
if sys.version_info >= (3, 11):
    ROWS.discard('test_directives')
else:
    ROWS.discard('test_possessive')
if sys.version_info >= (3, 14):
    ROWS.discard('test_empty_text')


class Comparison(unittest.TestCase):
    """Each difference has a row, and each row shows."""

    def setUp(self) -> None:
        self.seen: Counter[str] = Counter()

    def compare(self, pair: Pair, texts: Sequence[str]) -> None:
        """Compares what both say of a pattern, and for these texts."""
        if pair.theirs is None or pair.ours is None:
            if pair.theirs is not None or pair.ours is not None:
                row = pair.refusal()
                self.assertIsNotNone(row, (pair.pattern, pair.flags, pair.fault))
                self.seen[row or ''] += 1
            return
        read = [each.kind for each in Reader(pair.pattern, pair.flags).read()]
        found = [each.kind for each in departures_in(pair.pattern, pair.flags)]
        self.assertEqual(found, read, pair.pattern)
        is_possessive = any('POSSESSIVE' in str(node.code) for node in pair.nodes)
        self.assertEqual('test_possessive' in pair.warned, is_possessive, pair.pattern)
        for text in texts:
            self.compare_answers(pair, text)

    def compare_answers(self, pair: Pair, text: str) -> None:
        """Compares what both find in a text."""
        assert pair.theirs is not None and pair.ours is not None
        rows = pair.explained(text)
        try:
            theirs = found_by(pair.theirs, text)
        except SystemError:  # a fault of `re` with groups in possessive repetitions
            self.assertIn('test_possessive', rows)
            return
        ours = found_by(pair.ours, text)
        if ours != theirs:
            self.assertTrue(rows, (pair.pattern, pair.flags, text, theirs, ours))
            self.seen.update(rows if len(rows) == 1 else [])
        self.seen['same'] += ours == theirs and any(ours)
        self.compare_starts(pair, text, rows)
        matches = [(match.span(), match.groups()) for match in pair.ours.finditer(text)]
        self.assertEqual(matches, walked(ours), (pair.pattern, text))
        others = [(match.span(), match.groups()) for match in pair.theirs.finditer(text)]
        if not rows and matches != others:
            self.assertTrue(any(start == end for (start, end), _ in others))
            self.seen['test_empty_matches'] += 1

    def compare_starts(self, pair: Pair, text: str, rows: Sequence[str]) -> None:
        """Compares what both find at each position alone, and as the whole text, where no row
        explains a difference."""
        if rows:
            return
        theirs, ours = started(pair.theirs, text), started(pair.ours, text)
        self.assertEqual(ours, theirs, (pair.pattern, pair.flags, text))

    def test_each_difference_has_a_row_and_each_row_shows(self) -> None:
        for every in EVERY:
            for pattern in every.patterns():
                self.compare(Pair(pattern, every.flags), every.texts)
        generator = Generator(20261125)
        for number in range(SOUPS):
            pair = Pair(generator.soup(), generator.flags(), number % 2 == 1)
            self.compare(pair, [pair.pattern[:2], generator.text(), generator.text()])
        for number in range(TREES):
            pair = Pair(generator.pattern(), generator.flags(), number % 2 == 1)
            self.compare(pair, [generator.text() for _ in range(3)])
        self.assertGreater(self.seen.pop('same'), TREES)
        self.assertEqual(sorted(self.seen), sorted(ROWS))


if __name__ == '__main__':
    unittest.main()
