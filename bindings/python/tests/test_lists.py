"""Several patterns at once. The values that are expected are those of `re`, of the library's
documents, or of the Rust crate."""

import itertools
import re
import unittest

import regex_lite


class Lists(unittest.TestCase):
    """What a list of patterns returns."""

    def test_search(self):
        words = regex_lite.RegexList(['if', '[a-z]+', '[0-9]+'])
        self.assertEqual(len(words), 3)
        number, found = words.search('(iffy)')
        self.assertEqual((number, found.span(), found.group()), (0, (1, 3), 'if'))
        number, found = words.search('(iffy)', 2)
        self.assertEqual((number, found.span()), (1, (2, 5)))
        self.assertIsNone(words.search('()'))

    def test_match(self):
        words = regex_lite.RegexList(['if', '[a-z]+', '[0-9]+(é)?'])
        text, at, found = 'iffy42éx', 0, []
        while (token := words.match(text, at)) is not None:
            number, match = token
            self.assertEqual(match.start(), at)
            found.append((number, match.group(), match.groups()))
            at = match.end()
        self.assertEqual(found, [(0, 'if', ()), (1, 'fy', ()), (2, '42é', ('é',)), (1, 'x', ())])
        self.assertEqual(at, len(text))
        self.assertIsNone(words.match('?if'))
        self.assertIsNone(regex_lite.RegexList(['^b', 'c']).match('ab', 1))

    def test_fullmatch(self):
        kinds = regex_lite.RegexList(['b(c)?', '[a-z](b)?(c)?(é)?'])
        found = [kinds.fullmatch(string) for string in ('bc', 'bcé', 'bc ', 'abcé')]
        self.assertEqual([it and (it[0], it[1].span(), it[1].groups()) for it in found],
                         [(0, (0, 2), ('c',)), (1, (0, 3), (None, 'c', 'é')), None,
                          (1, (0, 4), ('b', 'c', 'é'))])
        deepest = regex_lite.RegexList(['(?:' * 50 + 'a|ab' + ')' * 50])
        self.assertEqual(deepest.fullmatch('-ab-', 1, 3)[1].span(), (1, 3))

    def test_search_of(self):
        rules = regex_lite.RegexList(['id=(?P<id>[0-9]+)', '([a-z]+)=([0-9]+)'])
        self.assertEqual(rules.search_of(0, 'x=1&id=72')['id'], '72')
        self.assertEqual(rules.search_of(1, 'x=1&id=72').groups(), ('x', '1'))
        self.assertEqual(rules.search_of(1, 'é x=1', 1).span(), (2, 5))
        self.assertEqual(rules.search_of(-1, 'x=1').re.pattern, '([a-z]+)=([0-9]+)')
        self.assertIsNone(rules.search_of(0, 'x=1'))
        for number in (2, -3):
            self.assertRaises(IndexError, rules.search_of, number, 'x=1')

    def test_emptiness(self):
        words = regex_lite.RegexList(['a*', 'a+$', '^'])
        self.assertEqual([words.may_be_empty(number) for number in range(3)], [True, False, True])
        self.assertTrue(words.may_be_empty(-1))
        for number in (3, -4):
            self.assertRaises(IndexError, words.may_be_empty, number)

    def test_groups(self):
        lines = regex_lite.RegexList(['(?<key>[a-z]+)=([0-9]+)', '#(?<note>.*)'])
        number, found = lines.search('ü#width')
        self.assertEqual((number, found.groupdict()), (1, {'note': 'width'}))
        self.assertEqual((found.span('note'), found.re.pattern), ((2, 7), '#(?<note>.*)'))
        number, found = lines.search('#a\nwidth=72', 3)
        self.assertEqual((number, found.groups()), (0, ('width', '72')))
        many = regex_lite.RegexList(['(a)(b)(c)(d)(e)?'])
        self.assertEqual(many.search('abcd')[1].groups(), ('a', 'b', 'c', 'd', None))

    def test_spans(self):
        words = regex_lite.RegexList(['if', '[a-z]+', '[0-9]+'])
        self.assertEqual(list(words.spans('if x1')), [(0, (0, 2)), (1, (3, 4)), (2, (4, 5))])
        self.assertEqual(list(words.spans('€ if')), [(0, (2, 4))])
        text = 'ab12' * 20000
        ours = [span for _, span in regex_lite.RegexList(['[a-z]', '[0-9]']).spans(text)]
        self.assertEqual(ours, [found.span() for found in re.finditer('[a-z]|[0-9]', text)])

    def test_finditer(self):
        lines = regex_lite.RegexList(['(?P<key>[a-z]+)=([0-9]+)?', '#(?P<note>.*)'])
        found = [(number, match.group(), match.groupdict())
                 for number, match in lines.finditer('width=72 ü=\nb= #wide')]
        self.assertEqual(found, [(0, 'width=72', {'key': 'width'}), (0, 'b=', {'key': 'b'}),
                                 (1, '#wide', {'note': 'wide'})])
        self.assertEqual([match.groups() for _, match in lines.finditer('a= b=1')],
                         [('a', None), ('b', '1')])
        many = regex_lite.RegexList(['(a)(b)(c)(d)(e)(f)', '[a-z]'])
        text = 'abcdefg' * 5000
        ours = [match.span(6) if number == 0 else match.span()
                for number, match in many.finditer(text)]
        theirs = [match.span(6) if match.group(1) else match.span()
                  for match in re.finditer('(a)(b)(c)(d)(e)(f)|[a-z]', text)]
        self.assertEqual(ours, theirs)

    def test_many_groups(self):
        words = regex_lite.RegexList(['[0-9]', '(a)' * 60 + '(b)?'])
        text = '1' * 7 + ('a' * 60 + '22é' + 'a' * 60 + 'b') * 40
        theirs = [found.groups() for found in re.finditer('(a)' * 60 + '(b)?|[0-9]', text)]
        ours = [found.groups() for _, found in words.finditer(text)]
        self.assertEqual(ours, [groups if groups[0] else () for groups in theirs])
        self.assertEqual(words.search(text, 7)[1].groups(), theirs[7])

    def test_matches(self):
        words = regex_lite.RegexList(['[0-9]+', '[a-z]+', 'sam'])
        self.assertEqual(words.matches('frodo 7'), [0, 1])
        self.assertEqual(words.matches('...'), [])
        self.assertEqual(words.matches('sam'), [1, 2])

    def test_none(self):
        nothing = regex_lite.RegexList([])
        self.assertEqual((len(nothing), nothing.matches('a')), (0, []))
        self.assertIsNone(nothing.search('a'))
        self.assertIsNone(nothing.match('a'))
        self.assertIsNone(nothing.fullmatch(''))
        self.assertEqual(list(nothing.finditer('a')), [])
        self.assertEqual(list(nothing.spans('a')), [])

    def test_flags(self):
        names = regex_lite.RegexList(['frodo', 'sam'], regex_lite.I)
        number, found = names.search('Mr SAM')
        self.assertEqual((number, found.group(), found.re.flags), (1, 'SAM', regex_lite.I))
        self.assertRaises(ValueError, regex_lite.RegexList, ['a'], re.LOCALE)
        self.assertRaises(ValueError, regex_lite.RegexList, ['a', '(?u)b'], re.ASCII)

    def test_offsets(self):
        """The first of the patterns that match in `re` is what is found."""
        sources = ('ab', '[a-z]+?', r'\b1', '1+$', 'é|éb', '^b')
        theirs = [re.compile(source, re.ASCII) for source in sources]
        ours, every = regex_lite.RegexList(sources), re.compile(
            '|'.join(f'({source})' for source in sources), re.ASCII)
        for text in ('ab1é', 'éb11', '', 'b1ab', 'éabéb1b'):
            for pos, endpos in itertools.product((-1, 0, 1, 2, 3, 9), repeat=2):
                for name in ('search', 'match', 'fullmatch'):
                    each = [getattr(pattern, name)(text, pos, endpos) for pattern in theirs]
                    first = min(((found.start(), number) for number, found in enumerate(each)
                                 if found is not None), default=(0, None))[1]
                    wanted = None if first is None else (
                        first, each[first].span(), each[first].pos, each[first].endpos)
                    found = getattr(ours, name)(text, pos, endpos)
                    self.assertEqual(found and (found[0], found[1].span(), found[1].pos,
                                                found[1].endpos), wanted, (text, pos, endpos, name))
                wanted = [(found.lastindex - 1, found.span())
                          for found in every.finditer(text, pos, endpos)]
                self.assertEqual(list(ours.spans(text, pos, endpos)), wanted)
                self.assertEqual([(number, found.span()) for number, found
                                  in ours.finditer(text, pos, endpos)], wanted)
                matching = [number for number, pattern in enumerate(theirs)
                            if pattern.search(text, pos, endpos)]
                self.assertEqual(ours.matches(text, pos, endpos), matching)
                for number, pattern in enumerate(theirs):
                    found = ours.search_of(number, text, pos, endpos)
                    self.assertEqual(found is None, number not in matching)

    def test_refusals(self):
        with self.assertRaises(regex_lite.error) as caught:
            regex_lite.RegexList(['a', 'b(c', 'd)'])
        with self.assertRaises(re.error) as theirs:
            re.compile('b(c')
        self.assertEqual(caught.exception.msg, theirs.exception.msg)
        self.assertEqual((caught.exception.pattern, caught.exception.pos), ('b(c', 1))
        self.assertRaises(regex_lite.error, regex_lite.RegexList, ['a', '((b))'], nest_limit=1)
        self.assertRaises(TypeError, regex_lite.RegexList, ['a', b'b'])


if __name__ == '__main__':
    unittest.main()
