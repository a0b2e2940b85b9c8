"""The calls of the module. The values that are expected are those of `re`, or of its documents."""

import re
import unittest

import regex_lite


def refused(module, pattern, flags=0):
    """The error by which a module refuses a pattern."""
    try:
        module.compile(pattern, flags)
    except module.error as error:
        return error
    raise AssertionError(f'{pattern!r} is not refused')


class Searches(unittest.TestCase):
    """What a search returns."""

    def test_groups(self):
        found = regex_lite.search(r'(?P<key>[a-z]+)=(\d+)?', 'width=')
        self.assertEqual(found.group(), 'width=')
        self.assertEqual(found.group('key'), 'width')
        self.assertEqual(found.group(0, 1, 2), ('width=', 'width', None))
        self.assertEqual(found.groups(), ('width', None))
        self.assertEqual(found.groups(''), ('width', ''))
        self.assertEqual(found.groupdict(), {'key': 'width'})
        self.assertEqual(found['key'], found[1])
        self.assertEqual((found.span('key'), found.start(2), found.end(2)), ((0, 5), -1, -1))
        self.assertEqual(found.string, 'width=')
        self.assertEqual(found.expand(r'\g<key>: \1'), 'width: width')
        for wrong in (3, -1, 'value'):
            self.assertRaises(IndexError, found.group, wrong)

    def test_offsets_count_characters(self):
        for text in ('b52', 'üb52ü', '€€b52', '😀b52😀'):
            found = regex_lite.search(r'\d+', text)
            self.assertEqual(found.span(), re.search(r'\d+', text).span())
            self.assertEqual(found.group(), '52')

    def test_start(self):
        pattern = regex_lite.compile('a')
        self.assertEqual(pattern.search('üaba', 2).span(), (3, 4))
        self.assertIsNone(pattern.search('aba', 3))
        self.assertIsNone(regex_lite.compile('^b').search('ab', 1))

    def test_match(self):
        for pattern, string in (('b', 'ab'), ('a|ab', 'ab'), ('ab|a', 'ab'), ('[0-9]+', 'a72'),
                                ('^b', 'ab'), (r'\bb', 'ab'), ('a*', 'baa'), ('(a)|(b)', 'üab'),
                                ('(?m)^b', 'a\nb'), ('', ''), ('b', 'üb')):
            ours, theirs = regex_lite.compile(pattern), re.compile(pattern)
            for pos in range(-1, len(string) + 2):
                found, wanted = ours.match(string, pos), theirs.match(string, pos)
                self.assertEqual(found and (found.span(), found.groups()),
                                 wanted and (wanted.span(), wanted.groups()),
                                 (pattern, string, pos))
        self.assertEqual(regex_lite.match('(?P<x>a)b', 'ab')['x'], 'a')
        self.assertIsNone(regex_lite.match('b', 'ab'))
        self.assertTrue(regex_lite.match('A', 'ab', regex_lite.I))

    def test_fullmatch(self):
        for pattern in ('a|ab', '(a|ab)(c|bcd)?', 'a*?', '^a$', '(?m)a$', r'a\b', '(ü)+|b', '',
                        '(?:(a)|(b))*'):
            ours, theirs = regex_lite.compile(pattern), re.compile(pattern)
            for string in ('', 'a', 'ab', 'abc', 'abcd', 'a\n', 'a\nb', 'aaa', 'üü', 'bab'):
                found, wanted = ours.fullmatch(string), theirs.fullmatch(string)
                self.assertEqual(found and (found.span(), found.groups()),
                                 wanted and (wanted.span(), wanted.groups()), (pattern, string))
        self.assertEqual(regex_lite.fullmatch('(?P<x>a)b', 'ab')['x'], 'a')
        self.assertIsNone(regex_lite.fullmatch('a', 'ab'))
        self.assertTrue(regex_lite.fullmatch('A', 'a', regex_lite.I))

    def test_emptiness(self):
        for pattern, may_be_empty in (('a*', True), ('a+$', False), (r'\b\B', True), ('', True),
                                      ('(?:|a)b', False), ('ab', False)):
            self.assertIs(regex_lite.compile(pattern).may_be_empty, may_be_empty)

    def test_many_strings(self):
        strings = ['b52', '', 'ü7', '€', 'no', '12'] * 50
        wanted = [found and found.span() for found in (re.search(r'\d+', s) for s in strings)]
        self.assertEqual(regex_lite.compile(r'\d+').search_each(strings), wanted)
        self.assertEqual(regex_lite.compile('a').search_each([]), [])

    def test_hostile_patterns(self):
        for pattern in ('(a*)*b', '(a|a)*b', '(a|aa)+b', '(?:a?){30}a{30}b'):
            self.assertIsNone(regex_lite.search(pattern, 'a' * 1000))

    def test_none(self):
        self.assertIsNone(regex_lite.search('x', 'abc'))

    def test_pattern(self):
        pattern = regex_lite.compile('(a)(?P<x>b)', regex_lite.I | regex_lite.M)
        self.assertEqual((pattern.groups, pattern.groupindex), (2, {'x': 2}))
        self.assertEqual(pattern.flags, regex_lite.IGNORECASE | regex_lite.MULTILINE)
        self.assertEqual(pattern.pattern, '(a)(?P<x>b)')
        self.assertIs(regex_lite.compile(pattern), pattern)
        self.assertEqual(repr(regex_lite.compile('a')), "regex_lite.compile('a')")
        self.assertEqual(repr(regex_lite.search('a', 'ba')),
                         "<regex_lite.Match object; span=(1, 2), match='a'>")

    def test_flags(self):
        self.assertTrue(regex_lite.search('A', 'a', regex_lite.IGNORECASE))
        self.assertTrue(regex_lite.search('^b', 'a\nb', regex_lite.MULTILINE))
        self.assertTrue(regex_lite.search('a.b', 'a\nb', regex_lite.DOTALL))
        self.assertTrue(regex_lite.search('a b', 'ab', regex_lite.VERBOSE))
        for name in ('ASCII', 'IGNORECASE', 'LOCALE', 'MULTILINE', 'DOTALL', 'UNICODE', 'VERBOSE',
                     *'AILMSUX'):
            self.assertIs(getattr(regex_lite, name), getattr(re, name))
        self.assertEqual(regex_lite.NOFLAG, 0)
        self.assertIs(regex_lite.RegexFlag, re.RegexFlag)
        for flag in (re.LOCALE, re.DEBUG, 1 << 20, re.ASCII | re.UNICODE):
            self.assertRaises(ValueError, regex_lite.compile, 'a', flag)


class Refusals(unittest.TestCase):
    """What is refused, and how."""

    def test_pattern(self):
        with self.assertRaises(regex_lite.error) as caught:
            regex_lite.compile('a(b')
        self.assertEqual(caught.exception.msg, refused(re, 'a(b').msg)
        self.assertEqual(caught.exception.pattern, 'a(b')

    def test_places(self):
        for pattern, flags in (('a(b', 0), ('a(?:b(c', 0), ('ab)', 0), ('*', 0), (r'a\y', 0),
                               ('a[b', 0), ('ü€😀[b', 0), ('a\n(?:b)\n ü)', 0), ('(\n', 0),
                               ('a # ü )\n\n  )', re.VERBOSE)):
            ours, theirs = refused(regex_lite, pattern, flags), refused(re, pattern, flags)
            self.assertIsNotNone(ours.pos)
            self.assertEqual((ours.pos, ours.lineno, ours.colno),
                             (theirs.pos, theirs.lineno, theirs.colno), pattern)

    def test_ends(self):
        for pattern, flags, end in (('ab)', 0, 3), ('*', 0, 1), (r'a\yb', 0, 3), ('a{2,x}', 0, 5),
                                    ('ü€😀[b-a]', 0, 7), ('(?P<n>a)(?P<n>b)', 0, 14),
                                    ('a # ü )\n\n  )', re.VERBOSE, 12)):
            self.assertEqual(refused(regex_lite, pattern, flags).end, end, pattern)
        for pattern, flags in (('a(b', 0), ('a[b', 0), ('ü€😀[b-', 0), ('a{2,', 0), ('a\\', 0),
                               ('(?P<n', 0), ('(a # )', re.VERBOSE)):
            self.assertIsNone(refused(regex_lite, pattern, flags).end, pattern)

    def test_place_in_text(self):
        for pattern in ('a(b', 'a\n(b'):
            self.assertEqual(str(refused(regex_lite, pattern)), str(refused(re, pattern)))

    def test_no_place(self):
        for pattern, limit in (('((a))', {'nest_limit': 1}), ('a', {'size_limit': 143})):
            with self.assertRaises(regex_lite.error) as caught:
                regex_lite.compile(pattern, **limit)
            fault = caught.exception
            self.assertEqual((fault.pos, fault.end, fault.lineno, fault.colno), (None,) * 4)
            self.assertEqual(str(fault), fault.msg)

    def test_limits(self):
        self.assertRaises(regex_lite.error, regex_lite.compile, '((a))', nest_limit=1)
        self.assertRaises(regex_lite.error, regex_lite.compile, 'a', size_limit=143)
        self.assertTrue(regex_lite.compile('a', size_limit=144).search('a'))

    def test_types(self):
        self.assertRaises(TypeError, regex_lite.search, 'a', b'a')
        self.assertRaises(TypeError, regex_lite.compile, b'a')
        self.assertRaises(UnicodeEncodeError, regex_lite.search, 'a', '\ud800')


class Lists(unittest.TestCase):
    """All matches, and what is made of them. Each is compared with `re`."""

    CASES = [(r'\d+', 'b52 and b53'), (r'(\d)(\d)?', '1 23 4'), ('(a)|b', 'abba'),
             ('(?P<x>[a-z])=', 'ü=a=b='), ('€', 'a€b€c'), ('x', ''), (', *', 'a,b,  c')]

    def test_findall(self):
        for pattern, text in self.CASES:
            self.assertEqual(regex_lite.findall(pattern, text), re.findall(pattern, text))

    def test_finditer(self):
        for pattern, text in self.CASES:
            ours = [(m.span(), m.groups()) for m in regex_lite.finditer(pattern, text)]
            theirs = [(m.span(), m.groups()) for m in re.finditer(pattern, text)]
            self.assertEqual(ours, theirs)

    def test_many_matches(self):
        text = 'ab12' * 30000
        self.assertEqual(regex_lite.findall('[0-9]', text), ['1', '2'] * 30000)
        self.assertEqual(sum(1 for _ in regex_lite.finditer('([a-z])', text)), 60000)

    def test_split(self):
        for pattern, text in self.CASES:
            for most in (0, 1, 2):
                self.assertEqual(regex_lite.split(pattern, text, most),
                                 re.split(pattern, text, maxsplit=most))

    def test_split_into_many_pieces(self):
        """More of them than there is room for in one call."""
        for text in ('ab12' * 30000, 'é-3' * 30000, '1' * 9000):
            for pattern in ('[0-9]', '[0-9]+', '[a-z]*[0-9]', '(?m)^|[0-9]$'):
                pieces = re.split(pattern, text)
                self.assertEqual(regex_lite.split(pattern, text), pieces)
                room = 16 + len(text.encode()) // 64  # of the first call
                for most in (1, room - 1, room, room + 1, 5 * room, len(pieces) - 1, len(pieces)):
                    self.assertEqual(regex_lite.split(pattern, text, most),
                                     re.split(pattern, text, maxsplit=most))

    def test_split_of_control_characters(self):
        for text in ('\0a\0b', '\0\1\2\3a\3\2\1\0', 'é\3a\2a\1a\0', 'aaa'):
            for pattern in ('a', '(a)', '(a)|(b)', '\0', '\3|é', r'\x01'):
                for most in (-1, 0, 1, 2, 9):
                    self.assertEqual(regex_lite.split(pattern, text, most),
                                     re.split(pattern, text, maxsplit=most))

    def test_templates(self):
        pattern, text = '(?P<x>[a-z])(é)?', 'aéb-c'
        for new in (r'$\1', r'\1$2', r'${1}\1', r'\g<x>$$\g<2>', r'\g<0>\g<0>', r'\1\n\2', '$1', '$',
                    r'\\1', r'\\\1', r'\n$1', 'é\\1', r'\2' * 50, r'\g<0>' * 50, '\n',
                    '\\n' * 99):
            for count in (-1, 0, 1, 2):
                self.assertEqual(regex_lite.sub(pattern, new, text, count),
                                 re.sub(pattern, new, text, count=count))
                self.assertEqual(regex_lite.subn(pattern, new, text, count),
                                 re.subn(pattern, new, text, count=count))
            self.assertEqual(regex_lite.search(pattern, text).expand(new),
                             re.search(pattern, text).expand(new))

    def test_many_groups(self):
        pattern = '(a)' * 60 + '(b)?'
        text = ('a' * 60 + 'b-' + 'a' * 60 + 'é') * 40
        self.assertEqual(regex_lite.findall(pattern, text), re.findall(pattern, text))
        self.assertEqual(regex_lite.split(pattern, text), re.split(pattern, text))
        self.assertEqual([found.groups() for found in regex_lite.finditer(pattern, text)],
                         [found.groups() for found in re.finditer(pattern, text)])

    def test_sub(self):
        for pattern, text in self.CASES:
            for new in ('-', '', '$1', r'<\g<0>>', r'\n\\'):
                for count in (0, 1):
                    self.assertEqual(regex_lite.sub(pattern, new, text, count),
                                     re.sub(pattern, new, text, count=count))
                    self.assertEqual(regex_lite.subn(pattern, new, text, count),
                                     re.subn(pattern, new, text, count=count))

    def test_sub_by_function(self):
        self.assertEqual(regex_lite.sub(r'\w+', lambda m: m.group().upper(), 'to be'), 'TO BE')
        self.assertEqual(regex_lite.sub('(a)(b)?', r'\2\1', 'ab a'), 'ba a')

    def test_escape(self):
        for text in ('3.5 (or so)', 'a\\b', 'ü$', ''):
            found = regex_lite.search(regex_lite.escape(text), f'x{text}x')
            self.assertEqual(found.group(), text)


if __name__ == '__main__':
    unittest.main()
