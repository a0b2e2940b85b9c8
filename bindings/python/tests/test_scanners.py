"""Texts that are cut into tokens. What is expected is what `re.Scanner` returns."""

import re
import time
import unittest
from typing import Any, List, Tuple

import regex_lite

MODULES: Tuple[Any, ...] = (re, regex_lite)
MOST_SECONDS = 10  # of processor time, of which a hundredth is taken
LEXICON: List[Tuple[str, Any]] = [
    (r'[a-zA-Z_]\w*', lambda scanner, text: text), (r'\d+\.\d*', lambda scanner, text: float(text)),
    (r'\d+', lambda scanner, text: (int(text), scanner.match.span())), ('=|[-+*/]', 'operator'),
    (r'\s+', None)]


class Scanners(unittest.TestCase):
    """What a scanner returns."""

    def test_tokens(self) -> None:
        for text in ('sum = 3*foo + 312.50 + bar', 'a?b', '', '?', ' ', '1.5.', 'é', 'a  é', '12a'):
            theirs, ours = (module.Scanner(LEXICON).scan(text) for module in MODULES)
            self.assertEqual(ours, theirs, text)

    def test_order_counts(self) -> None:
        for lexicon in ([('a', 1), ('ab', 2)], [('ab', 2), ('a', 1)], [('a|ab', 1), ('b', 2)]):
            for text in ('ab', 'aab', 'aba', 'b'):
                theirs, ours = (module.Scanner(lexicon).scan(text) for module in MODULES)
                self.assertEqual(ours, theirs, (lexicon, text))

    def test_empty_matches_end_it(self) -> None:
        for lexicon in ([('a*', 1)], [('a', 1), ('x*', 2)], [('', 1), ('a', 2)]):
            for text in ('aab', 'b', 'axa', ''):
                theirs, ours = (module.Scanner(lexicon).scan(text) for module in MODULES)
                self.assertEqual(ours, theirs, (lexicon, text))

    def test_flags(self) -> None:
        theirs, ours = (module.Scanner([('a', 1), ('b c', 2)], re.I | re.X).scan('ABCbc')
                        for module in MODULES)
        self.assertEqual(ours, theirs)

    def test_lexicon(self) -> None:
        for module in MODULES:
            self.assertIs(module.Scanner(LEXICON).lexicon, LEXICON)
            self.assertRaises(module.error, module.Scanner, [('a', 1), ('(b', 2)])

    def test_groups_of_a_pattern(self) -> None:
        scanner = regex_lite.Scanner([('&', None), (
            '(?P<key>[a-z]+)=([0-9]+)', lambda scanner, _: scanner.match.groupdict())])
        self.assertEqual(scanner.scan('a=1&b=2'), ([{'key': 'a'}, {'key': 'b'}], ''))

    def test_time_is_linear(self) -> None:
        text, begun = 'word 12 ' * 20000, time.process_time()
        self.assertEqual(len(regex_lite.Scanner(LEXICON).scan(text)[0]), 40000)
        self.assertLess(time.process_time() - begun, MOST_SECONDS)


if __name__ == '__main__':
    unittest.main()
