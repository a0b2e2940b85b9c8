"""Arguments that are refused, or that mean something else than they seem to. What `re` does with
the same ones is tested beside it, where it has them."""

import concurrent.futures
import copy
import multiprocessing
import pickle
import re
import sys
import unittest
from pathlib import Path

import regex_lite

PROJECT = Path(__file__).resolve().parent.parent / 'pyproject.toml'
LONGEST_WAIT = 60  # seconds, for another process
CALLS = (('compile', ()), ('search', ('a',)), ('match', ('a',)), ('fullmatch', ('a',)),
         ('findall', ('a',)), ('finditer', ('a',)), ('split', ('a',)), ('sub', ('b', 'a')),
         ('subn', ('b', 'a')))


class Index:
    """What can be taken for a number."""

    def __index__(self):
        return 1


class Compiled(unittest.TestCase):
    """A pattern that is compiled already."""

    def test_flags(self):
        for module in (re, regex_lite):
            compiled = module.compile('a')
            for name, arguments in CALLS:
                with self.assertRaisesRegex(ValueError, 'flags argument with a compiled pattern'):
                    getattr(module, name)(compiled, *arguments, flags=module.I)

    def test_no_flags(self):
        compiled = regex_lite.compile('a', regex_lite.I)
        self.assertIs(regex_lite.compile(compiled, 0), compiled)
        self.assertEqual(regex_lite.findall(compiled, 'aA'), ['a', 'A'])

    def test_limits(self):
        compiled = regex_lite.compile('a')
        for limit in ({'nest_limit': 50}, {'size_limit': 10485760}):
            self.assertRaises(ValueError, regex_lite.compile, compiled, **limit)

    def test_other_types(self):
        for module in (re, regex_lite):
            for pattern in (None, 3, ['a']):
                self.assertRaises(TypeError, module.compile, pattern)
                self.assertRaises(TypeError, module.search, pattern, 'a')
            self.assertRaises(TypeError, module.compile, 'a', 'i')


class Replacements(unittest.TestCase):
    """What matches are replaced by."""

    def test_neither_text_nor_function(self):
        for new in (None, 3, b'b', ['b']):
            for module in (re, regex_lite):
                pattern = module.compile('a')
                self.assertRaises(TypeError, pattern.sub, new, 'aa')
                self.assertRaises(TypeError, pattern.subn, new, 'aa')
                self.assertRaises(TypeError, module.sub, 'a', new, 'aa')
                self.assertRaises(TypeError, module.subn, 'a', new, 'aa')
            self.assertRaises(TypeError, regex_lite.sub, 'a', new, 'without a match')
            self.assertRaises(TypeError, regex_lite.sub, 'a', new, 'aa', -1)

    def test_what_a_function_returns(self):
        for module in (re, regex_lite):
            for new in (3, b'b', ['b']):
                self.assertRaises(TypeError, module.sub, 'a', lambda _, new=new: new, 'aa')
                self.assertRaises(TypeError, module.subn, 'a', lambda _, new=new: new, 'aa')
        with self.assertRaisesRegex(TypeError, 'the function returned NoneType'):
            regex_lite.sub('a', lambda _: None, 'aa')

    def test_what_a_function_raises(self):
        self.assertRaises(ZeroDivisionError, regex_lite.sub, 'a', lambda _: 1 / 0, 'aa')


class Counts(unittest.TestCase):
    """How many matches are replaced, or split a string."""

    PATTERNS = ('a', '(a)', 'é', 'x', 'a*?b')

    def both(self, call):
        """Compares what a call returns with what it returns of `re`."""
        self.assertEqual(call(regex_lite), call(re))

    def test_replaced(self):
        for pattern in self.PATTERNS:
            for new in ('-', r'<\g<0>>', lambda found: found.group().upper(), r'\n$'):
                for count in (-2, -1, 0, 1, 2, 9, True, Index(), sys.maxsize, -sys.maxsize):
                    for name in ('sub', 'subn'):
                        self.both(lambda module: getattr(module.compile(pattern), name)(
                            new, 'abéaaéb', count))
                        self.both(lambda module: getattr(module, name)(
                            pattern, new, 'abéaaéb', count=count))

    def test_split(self):
        for pattern in self.PATTERNS:
            for most in (-2, -1, 0, 1, 2, 9, True, Index(), sys.maxsize, -sys.maxsize):
                self.both(lambda module: module.compile(pattern).split('abéaaéb', most))
                self.both(lambda module: module.split(pattern, 'abéaaéb', maxsplit=most))

    def test_no_number(self):
        for module in (re, regex_lite):
            for count, wanted in ((1.0, TypeError), ('1', TypeError), (None, TypeError),
                                  (1 << 70, OverflowError), (-1 << 70, OverflowError)):
                pattern = module.compile('a')
                self.assertRaises(wanted, pattern.sub, 'b', 'aa', count)
                self.assertRaises(wanted, pattern.subn, 'b', 'aa', count)
                self.assertRaises(wanted, pattern.split, 'aa', count)


class Limits(unittest.TestCase):
    """Limits that the library can't take."""

    def test_negative(self):
        for make in (regex_lite.compile, regex_lite.Pattern, lambda pattern, **limits:
                     regex_lite.RegexList([pattern], **limits)):
            for name in ('nest_limit', 'size_limit'):
                with self.assertRaisesRegex(ValueError, f'{name} is negative: -1'):
                    make('a', **{name: -1})

    def test_too_large(self):
        for make in (regex_lite.compile, regex_lite.Pattern, lambda pattern, **limits:
                     regex_lite.RegexList([pattern], **limits)):
            for limit in ({'nest_limit': 1 << 32}, {'nest_limit': 1 << 40},
                          {'size_limit': 1 << 64}):
                self.assertRaises(OverflowError, make, 'a', **limit)

    def test_largest(self):
        largest = {'nest_limit': (1 << 32) - 1, 'size_limit': 2 * sys.maxsize + 1}
        self.assertTrue(regex_lite.compile('((a))', **largest).search('a'))
        self.assertRaises(regex_lite.error, regex_lite.compile, 'a', nest_limit=1, size_limit=0)

    def test_no_number(self):
        for limit in (1.5, '9'):
            self.assertRaises(TypeError, regex_lite.compile, 'a', nest_limit=limit)
            self.assertRaises(TypeError, regex_lite.compile, 'a', size_limit=limit)


class Errors(unittest.TestCase):
    """An error that is copied, or that comes from another process."""

    REFUSED = ('a(b', 'ü\n[b-a]', 'a{2,x}', 'x' * 100000)  # the last one is too large

    def refused(self, pattern):
        """The error by which a pattern is refused."""
        with self.assertRaises(regex_lite.error) as caught:
            regex_lite.compile(pattern, size_limit=1 << 16)
        return caught.exception

    def assert_same(self, ours, theirs):
        """Compares all that an error tells."""
        self.assertIs(type(ours), regex_lite.error)
        self.assertIsNot(ours, theirs)
        self.assertEqual((ours.args, ours.__dict__), (theirs.args, theirs.__dict__))
        self.assertEqual(str(ours), str(theirs))

    def test_copies(self):
        for pattern in self.REFUSED:
            fault = self.refused(pattern)
            self.assert_same(copy.copy(fault), fault)
            self.assert_same(copy.deepcopy(fault), fault)
            for protocol in range(pickle.HIGHEST_PROTOCOL + 1):
                self.assert_same(pickle.loads(pickle.dumps(fault, protocol)), fault)

    def test_attributes_of_a_caller(self):
        fault = self.refused('a(b')
        fault.line = 7
        self.assertEqual(pickle.loads(pickle.dumps(fault)).line, 7)

    def test_pool(self):
        with multiprocessing.get_context('spawn').Pool(1) as pool:
            for pattern in ('a(b', 'ü\n[b-a]'):
                asked = pool.apply_async(regex_lite.compile, (pattern,))
                with self.assertRaises(regex_lite.error) as caught:
                    asked.get(LONGEST_WAIT)
                self.assertEqual(caught.exception.__dict__, self.refused(pattern).__dict__)
            self.assertEqual(pool.apply_async(regex_lite.escape, ('.',)).get(LONGEST_WAIT), r'\.')

    def test_executor(self):
        context = multiprocessing.get_context('spawn')
        with concurrent.futures.ProcessPoolExecutor(1, context) as pool:
            with self.assertRaises(regex_lite.error) as caught:
                pool.submit(regex_lite.compile, 'a(b').result(LONGEST_WAIT)
            self.assertEqual(caught.exception.__dict__, self.refused('a(b').__dict__)
            self.assertEqual(pool.submit(regex_lite.escape, '.').result(LONGEST_WAIT), r'\.')


class Version(unittest.TestCase):
    """The version of the package."""

    def test_version(self):
        project = PROJECT.read_text(encoding='utf-8')
        self.assertIn(f'\nversion = "{regex_lite.__version__}"\n', project)


if __name__ == '__main__':
    unittest.main()
