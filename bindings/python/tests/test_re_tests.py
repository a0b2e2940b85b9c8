"""The cases of CPython's own list, test/re_tests.py, where it is installed.

What is right is what `re` returns. Cases with another answer stand in re_tests.tsv with a reason,
and no others do. The list is the same from Python 3.9 to 3.13; if a later version adds a case that
has another answer here, the test says so and passes.
"""

import ast
import re
import sys
import unittest
import warnings
from importlib import import_module
from pathlib import Path
from typing import Any, Dict, List, Optional, Tuple

import regex_lite

CASES: Any
try:
    CASES = import_module('test.re_tests').tests
except ImportError:
    CASES = None

FILE = Path(__file__).with_name('re_tests.tsv')
LAST = (3, 13)  # version whose list is known
LEAST = 352  # cases that pass
REASONS = ('octal escape', 'reference', 'look-around', 'comment', r'[\b]', r'\Z',
           'repeated operator', 'repeated look', 'Unicode')
Case = Tuple[str, str]  # a pattern and a text


def outcome(module: Any, pattern: str, text: str, expression: Optional[str]) -> object:
    """What a module makes of a case: that it refuses the pattern, that it finds nothing, or the
    value of the expression, in which the case names groups."""
    try:
        found = module.compile(pattern).search(text)
    except module.error:
        return 'refused'
    if found is None or expression is None:
        return found is not None
    names: Dict[str, object] = {'found': found.group(0), 'groups': found.group()}
    for i in range(1, 100):
        try:
            names[f'g{i}'] = 'None' if found.group(i) is None else found.group(i)
        except IndexError:
            names[f'g{i}'] = 'Error'
    for name in found.re.groupindex:
        names[name] = 'None' if found.group(name) is None else found.group(name)
    return 'value', eval(expression, names)


def listed() -> Dict[Case, str]:
    """The cases of the file, with their reasons."""
    lines = [line.split('\t') for line in FILE.read_text(encoding='utf-8').splitlines()]
    return {(ast.literal_eval(pattern), ast.literal_eval(text)): reason
            for pattern, text, reason in lines}


@unittest.skipIf(CASES is None, 'there is no test.re_tests')
class ReTests(unittest.TestCase):
    """The list and the file."""

    def setUp(self) -> None:
        caught = warnings.catch_warnings()
        caught.__enter__()
        self.addCleanup(caught.__exit__, None, None, None)
        warnings.simplefilter('ignore')

    def differing(self) -> List[Case]:
        """The cases of the list that have another answer here."""
        found = []
        for pattern, text, _, *value in CASES:
            outcomes = [repr(outcome(module, pattern, text, value[0] if value else None))
                        for module in (re, regex_lite)]
            if outcomes[0] != outcomes[1]:
                found.append((pattern, text))
        return found

    def test_each_case_passes_or_is_listed(self) -> None:
        reasons, differing = listed(), self.differing()
        new = sorted(set(differing) - set(reasons))
        self.assertGreaterEqual(len(CASES) - len(differing), LEAST)
        if new and sys.version_info[:2] > LAST:
            self.skipTest(f'cases of this version with another answer here: {new}')
        self.assertEqual(new, [])

    def test_each_listed_case_differs(self) -> None:
        cases = {case[:2] for case in CASES}
        differing = set(self.differing())
        for case in listed():
            if case in cases or sys.version_info[:2] <= LAST:
                self.assertIn(case, differing)

    def test_reasons(self) -> None:
        self.assertEqual(set(listed().values()), set(REASONS))


if __name__ == '__main__':
    unittest.main()
