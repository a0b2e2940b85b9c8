"""A pattern that means one text is searched for as a text, and the library finds the same."""

import random
import re
import unittest
from typing import Iterator, List, Optional, Tuple

import regex_lite
from regex_lite._literals import literal_of

ORDER = random.Random(20261129)
ALPHABETS = ('ab', 'a ,', 'aé', 'ab.*', '\\.-#', '☃💩a', 'a\n\r', '[]{}()^$|+?~&')
TEXTS = 400  # of each alphabet
CONTROLS = {r'\a': '\a', r'\f': '\f', r'\n': '\n', r'\r': '\r', r'\t': '\t', r'\v': '\v'}


def by_library(pattern: str) -> regex_lite.Pattern[str]:
    """The pattern, which the library searches for in any case."""
    made: regex_lite.Pattern[str] = regex_lite.Pattern(pattern)
    made._literal = None
    return made


def text(letters: str, most: int) -> str:
    """A text of some of these characters."""
    return ''.join(ORDER.choices(letters, k=ORDER.randrange(most + 1)))


def literals() -> Iterator[Tuple[str, str, List[str]]]:
    """Patterns, each with the text that it means and with some strings."""
    for letters in ALPHABETS:
        for _ in range(TEXTS):
            wanted = text(letters, 4) or letters[0]
            strings = [text(letters, most) for most in (4, 40)]
            strings.append(wanted.join(text(letters, 2) for _ in range(5)))
            yield regex_lite.escape(wanted), wanted, strings


class Literals(unittest.TestCase):
    """What a pattern finds that means one text."""

    def test_escaped_texts(self) -> None:
        for pattern, wanted, _ in literals():
            self.assertEqual(literal_of(pattern, 0), wanted)
            self.assertEqual(regex_lite.compile(pattern).search(wanted).span(), (0, len(wanted)))

    def test_characters(self) -> None:
        """One that means itself does so for the library too."""
        for character in map(chr, [*range(128), 0x85, 0xE9, 0x2028, 0x1F4A9]):
            for pattern in (character, '\\' + character, f'[{character}]'):
                found = literal_of(pattern, 0)
                if found is not None:
                    self.assertEqual(found, CONTROLS.get(pattern, character))
                    string = f'a{found * 3}b'
                    self.assertEqual(by_library(f'(?:{pattern}){{3}}').search(string).group(),
                                     found * 3)
        for pattern, character in CONTROLS.items():
            self.assertEqual(literal_of(f'a{pattern}b', 0), f'a{character}b')
        for separator in ' ,;:\t\n-/=&#_':
            self.assertEqual(literal_of(separator, 0), separator)
        for character in ' .+,':
            self.assertEqual(literal_of(f'a[{character}]', 0), f'a{character}')

    def test_others(self) -> None:
        for pattern in ('', 'a*', 'a|b', '.', '[ab]', '(a)', '^a', 'a$', r'\d', r'\x0a', r'\b',
                        'a{2}', '(?i)a', r'\\\d', 'a.', r'\<'):
            self.assertIsNone(literal_of(pattern, 0), pattern)
        self.assertIsNone(literal_of('a b', regex_lite.X))
        self.assertIsNone(literal_of('a', regex_lite.I))
        self.assertEqual(literal_of('a', regex_lite.M | regex_lite.S), 'a')

    def test_search(self) -> None:
        for pattern, _, strings in literals():
            ours, library = regex_lite.compile(pattern), by_library(pattern)
            for string in strings:
                for pos in (-1, 0, 1, len(string) // 2, len(string), len(string) + 1):
                    self.compare(ours.search(string, pos), library.search(string, pos))
                    self.compare(ours.match(string, pos), library.match(string, pos))
                self.compare(ours.fullmatch(string), library.fullmatch(string))

    def compare(self, found: Optional[regex_lite.Match[str]],
                wanted: Optional[regex_lite.Match[str]]) -> None:
        """Both are the same match, or there is none."""
        self.assertEqual(found is None, wanted is None)
        if found is not None and wanted is not None:
            self.assertEqual((found.span(), found.group(), found.groups()),
                             (wanted.span(), wanted.group(), wanted.groups()))

    def test_split(self) -> None:
        for pattern, _, strings in literals():
            ours, library, theirs = (regex_lite.compile(pattern), by_library(pattern),
                                     re.compile(pattern))
            for string in strings:
                for most in (-1, 0, 1, 2, 3, len(string) + 1):
                    pieces = ours.split(string, most)
                    self.assertEqual(pieces, library.split(string, most))
                    self.assertEqual(pieces, theirs.split(string, most))
                    if most == 0:
                        self.assertEqual(len(pieces), 1 + len(library.findall(string)))

    def test_refused_strings(self) -> None:
        pattern = regex_lite.compile('a')
        for call in (pattern.search, pattern.match, pattern.fullmatch, pattern.split):
            self.assertRaises(UnicodeEncodeError, call, 'a\ud800')
            self.assertRaises(TypeError, call, b'a')
            self.assertRaises(TypeError, call, None)


if __name__ == '__main__':
    unittest.main()
