"""Templates for new texts, and what is raised where they are wrong. What is expected is what `re`
does."""

import random
import re
import sys
import unittest
import warnings
from typing import Any, Tuple

import regex_lite

MODULES: Tuple[Any, ...] = (re, regex_lite)
TEMPLATES = (r'\1', r'\2', r'\3', r'\g<0>', r'\g<1>', r'\g<02>', r'\g<x>', r'\g<y>', r'\g<xy>',
             r'\g<3>', r'\g<999999999999>', r'\g<>', r'\g<', r'\g<x', r'\g', r'\gx>', r'\g<-1>',
             r'\g<1a>', r'\g<a-b>', r'\g<x.y>', r'\g<é>', r'\0', r'\00', r'\01', r'\07', r'\08',
             r'\012', r'\0123', r'\100', r'\1000', r'\377', r'\400', r'\777', r'\18', r'\99', r'\8',
             r'\q', r'\Q', r'\é', r'\.', r'\$', r'\-', r'\ ', '\\\n', '\\', 'a\\', r'\\', r'\\1',
             r'\n\t\r\a\b\f\v', 'é\n\\q', '\n\\3', r'$1', r'${1}', r'$$\1$', '{0}', '')
PIECES = ('\\', '\\', 'g', '<', '>', '1', '2', '0', '4', 'x', 'n', 'q', '.', 'é', '$', '\n')


def outcome(call: Any, *arguments: object) -> object:
    """What a call returns, or all that is told by what it raises."""
    try:
        return call(*arguments)
    except (re.error, regex_lite.error) as fault:
        return 'error', fault.msg, fault.pattern, fault.pos, fault.lineno, fault.colno, str(fault)
    except IndexError as fault:
        return 'IndexError', str(fault)


class Templates(unittest.TestCase):
    """What comes of a template."""

    def compare(self, template: str) -> None:
        """Compares what both make of a template."""
        for pattern, text in (('(?P<x>a)(b)?', 'abca'), ('(?P<x>a)(é)?', 'aéb'),
                              ('(?P<x>a)(b)', 'no')):
            theirs, ours = (module.compile(pattern) for module in MODULES)
            for call in ('sub', 'subn'):
                for count in (0, 1):
                    self.assertEqual(outcome(getattr(ours, call), template, text, count),
                                     outcome(getattr(theirs, call), template, text, count))
            if theirs.search(text):
                self.assertEqual(outcome(ours.search(text).expand, template),
                                 outcome(theirs.search(text).expand, template))

    def test_listed(self) -> None:
        for template in TEMPLATES:
            self.compare(template)

    def test_random(self) -> None:
        """One with two faults may be refused for the other one."""
        order = random.Random(20261203)
        with warnings.catch_warnings():
            warnings.simplefilter('error')
            for _ in range(3000):
                template = ''.join(order.choices(PIECES, k=order.randint(1, 5)))
                if len(re.findall(r'\\.?', template, re.DOTALL)) < 2:
                    self.compare(template)

    def test_many_groups(self) -> None:
        for template in (r'\11', r'\119', r'\110', r'\g<110>', r'\g<111>', r'\10\9'):
            for count in (9, 10, 11, 110):
                pattern = '(.)' * count
                self.assertEqual(outcome(regex_lite.sub, pattern, template, 'abcdefghijkl' * 10),
                                 outcome(re.sub, pattern, template, 'abcdefghijkl' * 10))

    def test_names_that_are_accepted_here_alone(self) -> None:
        self.assertEqual(regex_lite.sub('(?P<x.y>a)', r'<\g<x.y>>', 'a'), '<a>')

    def test_errors(self) -> None:
        with self.assertRaises(regex_lite.error) as caught:
            regex_lite.sub('a', r'\1', 'a')
        self.assertEqual((caught.exception.end, caught.exception.number), (None, None))

    def test_many_digits(self) -> None:
        for digits in ('9' * 5000, '0' * 5000 + '3'):
            self.assertRaises(regex_lite.error, regex_lite.sub, 'a', f'\\g<{digits}>', 'a')
        self.assertEqual(regex_lite.sub('(a)', f'<\\g<{"0" * 5000}1>>', 'a'), '<a>')

    @unittest.skipIf(sys.version_info >= (3, 12), '`re` refuses them too')
    def test_numbers_that_python_reads(self) -> None:
        for template in (r'\g<+1>', r'\g<1_0>', r'\g< 1 >'):
            self.assertRaises(regex_lite.error, regex_lite.sub, '(a)' * 10, template, 'a' * 10)


if __name__ == '__main__':
    unittest.main()
