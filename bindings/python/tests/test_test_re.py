"""The statements of CPython's own tests, test/test_re.py, where they are installed.

statements.py says what a statement is. What is right is what passes with `re` on this machine. The
statements that don't pass with this module stand in test_re.tsv, by their tests and their numbers,
each with a reason, and no others do. The list is for the file of one version of CPython: with
another one, whose statements have other numbers, the tests are skipped and say so."""

import hashlib
import re
import unittest
from importlib.util import find_spec
from pathlib import Path
from typing import Dict, Iterator, Optional

import regex_lite
from statements import Name, Run

HERE = Path(__file__).resolve().parent
FILE = HERE / 'test_re.tsv'
README = HERE.parent / 'README.md'
VERSION = '3.11.7'
DIGEST = '9be409343610e901008fc37236669d0288b2ff2c2a3d2c83928463c155f04b62'  # of its test_re.py
LEAST = 700  # statements that pass
# The reasons, with the rows of the tables in README.md that tell of them, where one does.
REASONS: Dict[str, Optional[str]] = {
    'bytes': 'test_strings', 'surrogate': 'test_strings', 'look-around': 'test_left_out',
    'reference': 'test_left_out', 'atomic group': 'test_left_out', 'octal escape': 'test_left_out',
    '(?a)': 'test_left_out', 'Unicode': 'test_ascii', 'possessive': 'test_possessive',
    'class operation': 'test_classes', 'escape': 'test_escapes', 'braces': 'test_braces',
    'empty match': 'test_empty_matches', 'empty pass': 'test_empty_passes', '$': 'test_end',
    r'\z': 'test_end', 'empty text': 'test_empty_text', 'directive': 'test_flags',
    'repeated operator': 'test_repeats', 'name of a group': 'test_names',
    'verbose space': 'test_verbose_space', 'large number': 'test_large_numbers',
    'template number': 'test_template_numbers', 'flags of a pattern': 'test_unicode_flag',
    'DEBUG': 'test_other_flags', 'TEMPLATE': 'test_other_flags', 'repr': 'test_repr',
    're_tests': None,  # cases of test/re_tests.py, of which re_tests.tsv tells
    'inside of re': None,  # what `re` has for itself
    'time': None,  # too short for a busy machine: it may pass or not
}


def path_of_tests() -> Optional[Path]:
    """The file, if it is installed."""
    try:
        spec = find_spec('test.test_re')
    except ImportError:
        spec = None
    return None if spec is None or spec.origin is None else Path(spec.origin)


def listed() -> Dict[Name, str]:
    """The statements of the list, with their reasons."""
    reasons: Dict[Name, str] = {}
    for line in FILE.read_text(encoding='utf-8').splitlines():
        test, numbers, reason = line.split('\t')
        reasons.update(((test, number), reason) for number in _numbers(numbers))
    return reasons


def _numbers(text: str) -> Iterator[int]:
    """The numbers that a text such as `1-3,7` stands for."""
    for part in text.split(','):
        first, _, last = part.partition('-')
        yield from range(int(first), int(last or first) + 1)


PATH = path_of_tests()
IS_KNOWN = PATH is not None and hashlib.sha256(PATH.read_bytes()).hexdigest() == DIGEST


class Statements(unittest.TestCase):
    """The list, and what passes."""

    @unittest.skipUnless(IS_KNOWN, f'there is no test.test_re of CPython {VERSION}')
    def test_each_statement_passes_or_is_listed(self) -> None:
        assert PATH is not None
        theirs, ours = (Run(PATH, module).passed for module in (re, regex_lite))
        reasons = listed()
        wanted = {name for name, is_passed in theirs.items()
                  if is_passed and reasons.get(name) != 'time'}
        passed = {name for name in wanted if ours.get(name, False)}
        self.assertEqual(wanted - passed - set(reasons), set(), 'not listed')
        self.assertEqual(passed & set(reasons), set(), 'listed, and pass')
        self.assertGreaterEqual(len(passed), LEAST)
        self.assert_numbers_are_shown(len(passed), len(wanted))

    def assert_numbers_are_shown(self, passed: int, wanted: int) -> None:
        """README.md says how many pass, of how many. There may be more on a machine with the
        locales that some of them ask for; those are of bytes."""
        found = re.search(r'([0-9,]+) of the ([0-9,]+) statements', ' '.join(
            README.read_text(encoding='utf-8').split()))
        assert found is not None
        shown = [int(number.replace(',', '')) for number in found.groups()]
        self.assertEqual(passed, shown[0])
        self.assertGreaterEqual(wanted, shown[1])

    def test_reasons(self) -> None:
        self.assertEqual(set(listed().values()), set(REASONS))
        page = README.read_text(encoding='utf-8')
        for row in filter(None, REASONS.values()):
            self.assertIn(f'| `{row}` |', page)


if __name__ == '__main__':
    unittest.main()
