"""What departs from `re`: each row of the tables in README.md."""

import contextlib
import io
import re
import sys
import unittest
import warnings
from collections.abc import Sequence
from pathlib import Path
from typing import Any, Optional

import regex_lite

README = Path(__file__).resolve().parent.parent / 'README.md'
Texts = Sequence[Optional[str]]  # of a match and its groups
ROW = re.compile(r'^\| .* \| `(test_\w+)` \|$', re.MULTILINE)


class Rows(unittest.TestCase):
    """The rows of the tables, with what `re` and this module return."""

    def setUp(self) -> None:
        caught = warnings.catch_warnings()
        caught.__enter__()
        self.addCleanup(caught.__exit__, None, None, None)
        warnings.simplefilter('ignore')

    def differ(self, pattern: str, text: str, theirs: Optional[Texts],
               ours: Optional[Texts], flags: int = 0) -> None:
        """The texts of the first match and of its groups are these in `re`, and these here."""
        for module, wanted in ((re, theirs), (regex_lite, ours)):
            found = module.search(pattern, text, flags)
            texts = None if found is None else [found.group(), *found.groups()]
            self.assertEqual(texts, None if wanted is None else list(wanted), (module, pattern))

    def only(self, module: Any, *patterns: str, flags: int = 0) -> None:
        """Only this one of the two modules accepts these patterns."""
        other = re if module is regex_lite else regex_lite
        for pattern in patterns:
            module.compile(pattern, flags)
            self.assertRaises(other.error, other.compile, pattern, flags)

    def test_possessive(self) -> None:
        if sys.version_info < (3, 11):
            self.only(regex_lite, 'a++', 'a*+', 'a?+', 'a{1,2}+')
            return
        self.differ('a++a', 'aaa', None, ['aaa'])
        self.differ('a*+a', 'aaa', None, ['aaa'])
        self.differ('a?+a', 'a', None, ['a'])
        self.differ('a{1,2}+a', 'aa', None, ['aa'])
        self.differ('a{1,2}+', 'aaa', ['aa'], ['aaa'])

    def test_word_looks(self) -> None:
        self.differ(r'\<a', 'b<a a', ['<a'], ['a'])
        self.differ(r'a\>', 'ab a> a', ['a>'], ['a'])
        self.differ(r'\b{start}a', 'ba a', None, ['a'])
        self.differ(r'\b{start}a', 'b{start}a', ['{start}a'], ['a'])

    def test_counted(self) -> None:
        self.differ('a{ 2 }', 'aa', None, ['aa'])
        self.differ('a{2, 3}', 'aaa a{2, 3}', ['a{2, 3}'], ['aaa'])

    def test_zero(self) -> None:
        self.differ('(a){0}', 'a', ['', None], [''])
        self.differ('(a){0}(b)', 'b', ['b', None, 'b'], ['b', None, 'b'])

    def test_named_classes(self) -> None:
        self.differ('[[:alpha:]]', 'c', None, ['c'])
        self.differ('[[:alpha:]]', ':]', [':]'], None)

    def test_ranges(self) -> None:
        self.differ('[--a]', 'Z', ['Z'], None)
        self.differ('[]-a]', '_', ['_'], None)
        self.differ('[]-a]', '-', None, ['-'])

    def test_verbose_classes(self) -> None:
        self.differ('[a b]', ' ', [' '], None, re.VERBOSE)
        self.differ('[a#b\n]', '#', ['#'], None, re.VERBOSE)

    def test_verbose_space(self) -> None:
        for char in '\x85\xa0\u2003\u3000':
            self.differ(f'a{char}b', f'ab a{char}b', [f'a{char}b'], ['ab'], re.VERBOSE)

    def test_verbose_comments(self) -> None:
        self.differ('a # b \\\nc', 'ac', ['a'], ['ac'], re.VERBOSE)
        self.differ('a # b \\\\\nc', 'ac', ['ac'], ['ac'], re.VERBOSE)
        self.only(regex_lite, 'a # b \\', flags=re.VERBOSE)

    def test_directives(self) -> None:
        if sys.version_info >= (3, 11):
            self.only(regex_lite, 'a(?i)b')
        else:
            self.differ('a(?i)b', 'AB ab', ['AB'], ['ab'])
        self.assertEqual(regex_lite.findall('a(?i)b', 'AB ab aB'), ['ab', 'aB'])

    def test_empty_matches(self) -> None:
        self.assertEqual(re.findall('a*', 'baac'), ['', 'aa', '', ''])
        self.assertEqual(regex_lite.findall('a*', 'baac'), ['', 'aa', ''])
        self.assertEqual(re.sub('a*', '-', 'baac'), '-b--c-')
        self.assertEqual(regex_lite.sub('a*', '-', 'baac'), '-b-c-')
        self.assertEqual(re.split('a*', 'baac'), ['', 'b', '', 'c', ''])
        self.assertEqual(regex_lite.split('a*', 'baac'), ['', 'b', 'c', ''])

    def test_empty_passes(self) -> None:
        self.differ('(a*)*', 'a', ['a', ''], ['a', 'a'])
        self.differ('(a|b*)*', 'aab', ['aab', ''], ['aab', 'b'])
        self.differ('(?:a*|b)*', 'ab', ['a'], ['ab'])

    def test_end(self) -> None:
        self.differ('a$', 'a\n', ['a'], None)
        self.differ('a$', 'a\nb', None, None)
        self.differ('a$', 'a\nb', ['a'], ['a'], re.MULTILINE)
        self.assertTrue(regex_lite.search(r'a\z', 'a'))
        self.assertIsNone(regex_lite.search(r'a\z', 'a\n'))

    def test_ascii(self) -> None:
        for pattern, text in ((r'\w', 'ü'), (r'\d', '٣'), (r'\s', '\u2003'), (r'\s', '\x1c')):
            self.differ(pattern, text, [text], None)
            self.differ(pattern.upper(), text, None, [text])
        self.differ(r'\bb', 'üb', None, ['b'])
        self.differ(r'(?u)\w', 'ü', ['ü'], None)
        self.differ(r'\w', 'ü', ['ü'], None, re.UNICODE)
        for pattern, text in (('Ü', 'ü'), ('k', '\u212a'), ('s', '\u017f'), ('[j-l]', '\u212a')):
            self.differ(pattern, text, [text], None, re.IGNORECASE)

    def test_empty_text(self) -> None:
        self.differ(r'\B', '', None if sys.version_info < (3, 14) else [''], [''])

    def test_left_out(self) -> None:
        self.only(re, r'(a)\1', '(?P<x>a)(?P=x)', r'\07', r'[\07]', r'\123', '(?=a)', '(?!a)',
                  '(?<=a)', '(?<!a)', '(?#a)', '(a)?(?(1)b)', '(?a)b', '(?a:b)')
        self.assertRaises(regex_lite.error, regex_lite.compile, '(?L)a')
        self.assertRaises(regex_lite.error, regex_lite.compile, '(?>a)')
        if sys.version_info >= (3, 11):
            self.only(re, '(?>a)')

    def test_escapes(self) -> None:
        self.only(re, r'[\b]', r'\N{DIGIT ONE}', r'a\Z', r'\ud800', '\\ü', '[\\ü]')
        self.differ(r'[\x08]', '\b', ['\b'], ['\b'])

    def test_classes(self) -> None:
        self.only(re, '[a&&b]', '[!--]', '[a~~b]', '[[a]', '[a[b]')
        for written in (r'[a\&&b]', r'[!\--]', r'[a\~~b]', r'[\[a]'):
            text = written[written.index('\\') + 1]
            self.differ(written, text, [text], [text])

    def test_braces(self) -> None:
        self.only(re, 'a{', 'a{x}', '{', 'a{,2}', 'a{,}', r'\b{', r'\b{a}')
        self.differ(r'a\{', 'a{', ['a{'], ['a{'])
        self.assertTrue(re.fullmatch('a{,2}', 'aa'))
        self.differ('a{0,2}', 'aaa', ['aa'], ['aa'])

    def test_flags(self) -> None:
        self.only(re, '(?ii)a')
        self.only(regex_lite, '(?-i)a', '(?R)a', '(?U)a', '(?-u:a)')
        self.assertEqual(regex_lite.findall('(a(?i)b)c', 'aBc abC'), ['aB'])
        if sys.version_info >= (3, 11):
            self.only(regex_lite, 'a(?i)b', '(a(?i)b)c', 'a|(?i)b')

    def test_strings(self) -> None:
        self.assertTrue(re.search(b'a', b'a'))
        calls: Sequence[Any] = (regex_lite.Pattern, regex_lite.compile, regex_lite.escape,
                                regex_lite.compile('a').search, regex_lite.compile('(a)').findall)
        for call in calls:
            for data in (b'a', bytearray(b'a'), memoryview(b'a')):
                with self.assertRaisesRegex(TypeError, 'characters, not bytes, so decode them'):
                    call(data)
        self.assertTrue(re.search('.', '\ud800'))
        self.assertRaises(UnicodeEncodeError, regex_lite.search, '.', '\ud800')
        self.assertRaises(UnicodeEncodeError, regex_lite.compile, '\ud800')

    def test_none(self) -> None:
        nothing: Any = lambda _: None
        self.assertEqual(re.sub('a', nothing, 'ab'), 'b')
        self.assertRaises(TypeError, regex_lite.sub, 'a', nothing, 'ab')

    def test_limits(self) -> None:
        self.only(re, 'a{1000000}', '(?:' * 60 + ')' * 60)

    def test_repeats(self) -> None:
        self.only(regex_lite, 'a**', 'a+*', 'a{2}{3}', 'a+?*', '^*', r'\b+', '$?')
        self.differ('(?:a{2}){3}', 'a' * 7, ['a' * 6], ['a' * 6])
        self.assertEqual(regex_lite.findall('a{2}{3}', 'a' * 7), ['a' * 6])

    def test_names(self) -> None:
        self.only(regex_lite, '(?<x>a)', '(?P<x.y>a)', '(?P<x[0]>a)')
        self.assertEqual(regex_lite.compile('(?<x>a)').groupindex, {'x': 1})
        self.differ('(?P<ü>a)', 'a', ['a', 'a'], ['a', 'a'])

    def test_braced_numbers(self) -> None:
        self.only(regex_lite, r'\x{61}', r'\u{61}', r'\U{61}')
        self.assertTrue(regex_lite.search(r'\x{61}', 'a'))

    def test_bounds(self) -> None:
        theirs, ours = re.compile('').match('bab', 2, 1), regex_lite.compile('').match('bab', 2, 1)
        self.assertEqual(theirs and theirs.span(), (2, 2))
        self.assertIsNone(ours)
        for module in (re, regex_lite):
            self.assertIsNone(module.compile('').search('bab', 2, 1))
            self.assertIsNone(module.compile('').fullmatch('bab', 2, 1))

    def test_lastindex(self) -> None:
        pattern, text = '(?:(x?)y|a(z?))*', 'ay'
        self.differ(pattern, text, ['ay', '', ''], ['ay', '', ''])
        theirs, ours = re.search(pattern, text), regex_lite.search(pattern, text)
        self.assertEqual((theirs and theirs.lastindex, ours and ours.lastindex), (1, 2))

    def test_unicode_flag(self) -> None:
        self.assertEqual(re.compile('(?i)a').flags, re.I | re.U)
        self.assertEqual(regex_lite.compile('(?i)a').flags, re.I)
        for module in (re, regex_lite):
            self.assertEqual(module.compile('(?i)a', re.A).flags, re.I | re.A)
            self.assertEqual(module.compile('a', re.U).flags, re.U)

    def test_scanners(self) -> None:
        for module, groups in ((re, 2), (regex_lite, 0)):
            scanner = module.Scanner([('a', lambda it, _: it.match.re.groups), ('b', None)])
            self.assertEqual(scanner.scan('ab'), ([groups], ''))

    def test_template_numbers(self) -> None:
        self.assertRaises(regex_lite.error, regex_lite.sub, '(a)', r'\g<+1>', 'a')
        if sys.version_info < (3, 12):
            self.assertEqual(re.sub('(a)', r'\g<+1>', 'a'), 'a')
        else:
            self.assertRaises(re.error, re.sub, '(a)', r'\g<+1>', 'a')

    def test_faults(self) -> None:
        for pattern, theirs, ours in (('(?<x>a)(', 1, 7), ('a**(', 2, 3), ('(?=a)(', 5, 0)):
            for module, pos in ((re, theirs), (regex_lite, ours)):
                with self.assertRaises(module.error) as caught:
                    module.compile(pattern)
                self.assertEqual(caught.exception.pos, pos, pattern)

    def test_other_flags(self) -> None:
        with contextlib.redirect_stdout(io.StringIO()):
            re.compile('a', re.DEBUG)
            template = getattr(re, 'TEMPLATE', None)
            if template is not None:
                re.compile('a', template)
                self.assertRaises(ValueError, regex_lite.compile, 'a', template)
        self.assertRaises(ValueError, regex_lite.compile, 'a', re.DEBUG)
        for name in ('DEBUG', 'TEMPLATE', 'template'):
            self.assertFalse(hasattr(regex_lite, name))

    def test_large_numbers(self) -> None:
        self.assertRaises(OverflowError, re.compile, 'a{99999999999}')
        self.assertRaises(regex_lite.error, regex_lite.compile, 'a{99999999999}')

    def test_repr(self) -> None:
        self.assertEqual(repr(re.compile('a', re.I)), "re.compile('a', re.IGNORECASE)")
        self.assertEqual(repr(regex_lite.compile('a', re.I)),
                         "regex_lite.compile('a', regex_lite.IGNORECASE)")


class Tables(unittest.TestCase):
    """The tables themselves."""

    def test_each_row_is_tested(self) -> None:
        rows = ROW.findall(README.read_text(encoding='utf-8'))
        self.assertEqual(sorted(set(rows)), [name for name in dir(Rows) if name[:5] == 'test_'])


if __name__ == '__main__':
    unittest.main()
