"""The patterns that the module remembers."""

import pickle
import re
import subprocess
import sys
import unittest
import unittest.mock
import warnings
from pathlib import Path

import regex_lite
from regex_lite import _calls, _lists, _templates


class Remembered(unittest.TestCase):
    """Which patterns are remembered."""

    def test_same_pattern(self):
        pattern = regex_lite.compile('remembered', regex_lite.I)
        self.assertIs(regex_lite.compile('remembered', regex_lite.I), pattern)
        self.assertIs(regex_lite.compile('remembered', int(regex_lite.I)), pattern)
        self.assertIsNot(regex_lite.compile('remembered'), pattern)
        self.assertIs(regex_lite.search('remembered', 'Remembered', regex_lite.I).re, pattern)

    def test_last_512(self):
        oldest = regex_lite.compile('oldest')
        for i in range(511):
            regex_lite.compile(f'newer{i}')
        self.assertIs(regex_lite.compile('oldest'), oldest)
        regex_lite.compile('newest')
        self.assertIsNot(regex_lite.compile('oldest'), oldest)
        self.assertLessEqual(len(_calls._cache), 512)

    def test_large_patterns(self):
        for large in ('[a-z]{9999}', 'a' * 9999, '(?x) # ' + 'a' * 9999):
            self.assertIsNot(regex_lite.compile(large), regex_lite.compile(large))

    def test_purge(self):
        pattern = regex_lite.compile('purged')
        regex_lite.sub('a', r'-\g<0>', 'a')
        self.assertGreater(_templates._read.cache_info().currsize, 0)
        regex_lite.purge()
        self.assertEqual((_templates._read.cache_info().currsize, len(_calls._cache)), (0, 0))
        self.assertIsNot(regex_lite.compile('purged'), pattern)
        self.assertEqual(regex_lite.compile('purged'), pattern)

    def test_pickled(self):
        pattern = regex_lite.compile('pickled', regex_lite.I)
        self.assertIs(pickle.loads(pickle.dumps(pattern)), pattern)
        regex_lite.purge()
        again = pickle.loads(pickle.dumps(pattern))
        self.assertIs(regex_lite.compile('pickled', regex_lite.I), again)
        self.assertIsNot(again, pattern)

    def test_limits(self):
        pattern = regex_lite.compile('((a))')
        self.assertIsNot(regex_lite.compile('((a))', nest_limit=9), pattern)
        self.assertRaises(regex_lite.error, regex_lite.compile, '((a))', nest_limit=1)

    def test_refusals(self):
        for _ in range(2):
            self.assertRaises(regex_lite.error, regex_lite.compile, '(a')
            self.assertRaises(ValueError, regex_lite.compile, 'a', re.LOCALE)

    def test_types_are_not_compared(self):
        lines = ('import regex_lite\nregex_lite.compile("a")\n'
                 'try: regex_lite.compile(b"a")\nexcept TypeError: pass')
        self.assert_silent(lines)

    def test_end_of_the_interpreter(self):
        self.assert_silent('import regex_lite\nregex_lite.search("a", "a")\n'
                           'words = regex_lite.RegexList(["a"])\nwords.search("a")')

    def assert_silent(self, lines):
        """Runs lines of Python, which print nothing."""
        done = subprocess.run([sys.executable, '-bb', '-c', lines], check=False, encoding='utf-8',
                              stdout=subprocess.PIPE, stderr=subprocess.STDOUT)
        self.assertEqual((done.returncode, done.stdout), (0, ''))


class Warnings(unittest.TestCase):
    """Patterns of which a caller may be warned."""

    def setUp(self):
        self.asked = []

        def warn(pattern, flags, stacklevel):
            self.asked.append((pattern, int(flags)))
            warnings.warn(pattern, UserWarning, stacklevel + 1)
        for module in (_calls, _lists):
            patched = unittest.mock.patch.object(module, 'warn_of_departures', warn)
            patched.start()
            self.addCleanup(patched.stop)

    def assert_asked(self, call, *wanted):
        """Makes a call, of which these patterns and flags are asked, and each at this place."""
        self.asked.clear()
        with warnings.catch_warnings(record=True) as caught:
            warnings.simplefilter('always')
            call()
        self.assertEqual(self.asked, list(wanted))
        self.assertEqual([Path(warning.filename) for warning in caught],
                         [Path(__file__)] * len(wanted))

    def test_each_pattern_once(self):
        calls = (('compile', ()), ('search', ('a',)), ('match', ('a',)), ('fullmatch', ('a',)),
                 ('findall', ('a',)), ('finditer', ('a',)), ('split', ('a',)), ('sub', ('b', 'a')),
                 ('subn', ('b', 'a')))
        for name, arguments in calls:
            pattern, call = f'asked of {name}', getattr(regex_lite, name)
            self.assert_asked(lambda: call(pattern, *arguments), (pattern, 0))
            self.assert_asked(lambda: call(pattern, *arguments))
            self.assert_asked(lambda: call(pattern, *arguments, flags=regex_lite.I), (pattern, 2))

    def test_limits(self):
        for _ in range(2):
            self.assert_asked(lambda: regex_lite.compile('a', 8, nest_limit=9), ('a', 8))

    def test_lists(self):
        self.assert_asked(lambda: regex_lite.RegexList(['a', 'b'], 2), ('a', 2), ('b', 2))

    def test_refusals(self):
        self.assert_asked(lambda: self.assertRaises(regex_lite.error, regex_lite.compile, '(a'))

    def test_raised_warnings(self):
        with warnings.catch_warnings():
            warnings.simplefilter('error')
            for _ in range(2):
                self.assertRaises(UserWarning, regex_lite.compile, 'asked again')


if __name__ == '__main__':
    unittest.main()
