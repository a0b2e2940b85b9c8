"""The answers beside those of Python's re, in random texts of characters of one to four bytes."""

import json
import random
import re
import sqlite3
import unittest

from database import connect, rows, value

SEED = 20261201
TEXTS = 150
CHARACTERS = 'aaabbé漢😀12 -\n'
# Patterns that both read alike, and that match no empty text, of which re finds more.
PATTERNS = ('a', 'é+', '[aé漢]+', r'(漢|😀)(\d)?', 'b|漢a', r'\d+', '.', '[^a]{2}', '(?i)B+',
            '(a)|(é)|(b)', r'\b[ab]+\b', '(?s)a.b?', '(?P<x>[ab])(?P<y>漢)?', '^.', '(?m)^[^a]',
            '😀', '(a|b|é)*?1', '-| ')


def spans(pattern: str, text: str) -> 'list[re.Match[str]]':
    """All matches that re finds."""
    return list(re.finditer(pattern, text, re.ASCII))


class Comparison(unittest.TestCase):
    """Random texts."""

    connection: sqlite3.Connection

    def setUp(self) -> None:
        self.connection = connect()
        dice = random.Random(SEED)
        texts = (''.join(dice.choices(CHARACTERS, k=dice.randrange(25))) for _ in range(TEXTS))
        self.cases = [(pattern, text) for text in texts for pattern in PATTERNS]

    def tearDown(self) -> None:
        self.connection.close()

    def test_matches(self) -> None:
        """All matches with their groups."""
        for pattern, text in self.cases:
            wanted = [(n, m.start() + 1, m.end() + 1, m[0], [m[0], *m.groups()])
                      for n, m in enumerate(spans(pattern, text), 1)]
            found = [(*row, json.loads(groups)) for *row, groups in rows(
                self.connection, 'SELECT * FROM regex_lite_matches(?, ?)', text, pattern)]
            self.assertEqual(found, wanted, (pattern, text))

    def test_offsets(self) -> None:
        """What substr cuts out by the offsets is the match, and the piece."""
        for function in ('regex_lite_matches', 'regex_lite_split'):
            for pattern, text in self.cases:
                found = rows(self.connection, 'SELECT text, substr(?1, start, "end" - start)'
                             f' FROM {function}(?1, ?2)', text, pattern)
                self.assertEqual([own for own, _ in found], [cut for _, cut in found])

    def test_split(self) -> None:
        """The pieces between the matches."""
        for pattern, text in self.cases:
            ends = [end for m in spans(pattern, text) for end in m.span()]
            bounds = [0, *ends, len(text)]
            wanted = [(n, start + 1, end + 1, text[start:end]) for n, (start, end)
                      in enumerate(zip(bounds[::2], bounds[1::2]), 1)]
            found = rows(self.connection, 'SELECT * FROM regex_lite_split(?, ?)', text, pattern)
            self.assertEqual(found, wanted, (pattern, text))

    def test_find(self) -> None:
        """The first match from each character on."""
        for pattern, text in self.cases[::3]:
            for start in range(len(text) + 1):
                match = re.compile(pattern, re.ASCII).search(text, start)
                found = value(self.connection, 'regex_lite_find(?, ?, ?)', text, pattern,
                              start + 1)
                self.assertEqual(found, None if match is None else match[0])

    def test_captures(self) -> None:
        """The groups of the first match, and whether there is one."""
        for pattern, text in self.cases:
            match = re.search(pattern, text, re.ASCII)
            for group in range(re.compile(pattern).groups + 1):
                found = value(self.connection, 'regex_lite_capture(?, ?, ?)', text, pattern, group)
                self.assertEqual(found, None if match is None else match[group])
            self.assertEqual(value(self.connection, '? REGEXP ?', text, pattern), match is not None)

    def test_replace(self) -> None:
        """All matches replaced, or some."""
        for pattern, text in self.cases:
            for limit in (0, 1, 2):
                wanted = re.sub(pattern, r'<\g<0>漢>', text, count=limit, flags=re.ASCII)
                found = value(self.connection, "regex_lite_replace(?, ?, '<$0漢>', ?)", text,
                              pattern, limit)
                self.assertEqual(found, wanted, (pattern, text))

    def test_escape(self) -> None:
        """The pattern of a text matches this text as a whole."""
        for _, text in self.cases[::len(PATTERNS)]:
            whole = "?1 REGEXP '^' || regex_lite_escape(?1) || '$'"
            self.assertEqual(value(self.connection, whole, text), 1)


if __name__ == '__main__':
    unittest.main()
