"""Matches as objects, and the offsets between which a search is made. What is expected is what `re`
does."""

import copy
import pickle
import random
import re
import sys
import unittest
from typing import Any, Iterator, List, Optional, Tuple

import regex_lite
from generators import Generator
from readings import Pair

MODULES: Tuple[Any, ...] = (re, regex_lite)
OFFSETS = (-3, 0, 1, 2, 4, 6, sys.maxsize)
PATTERNS = ('b', '[a-z]+', 'a*', '^', r'\b', '$', 'b$', r'\Ba', '(b)|(a)', 'a|ab', '(?m)^b', '',
            'bé', '(?P<x>a)(b)?', '(a|ab)(c|bcd)*', '(?i)B', '(?x)a # end', 'a$|ab|b')
PARTS = ('(', '(', ')', ')', 'a', 'b', '|', '*', '?', '+', '()', 'x?', '(a?)', '(b*)', '(?:')
TEXTS = ('', 'ab', 'abab', 'éabé', 'b\nb', 'abcd', 'xbéb', '€ab€b')


class Text(str):
    """A type of texts of a caller, whose parts are of this type too."""

    def __getitem__(self, index: Any) -> 'Text':
        return Text(super().__getitem__(index))


def told(match: Any) -> Optional[Tuple[object, ...]]:
    """All that a match tells."""
    if match is None:
        return None
    return (match.span(), match.group(), match.groups(), match.groupdict(), match.regs, match.pos,
            match.endpos, match.string, match.lastindex, match.lastgroup, match.re.pattern)


class Attributes(unittest.TestCase):
    """What a match tells of itself."""

    def test_all(self) -> None:
        for pattern in PATTERNS:
            for text in TEXTS:
                for name in ('search', 'match', 'fullmatch'):
                    theirs, ours = (getattr(module, name)(pattern, text, re.ASCII)
                                    for module in MODULES)
                    if pattern != 'a*' or text != '':
                        self.assertEqual(told(ours), told(theirs), (pattern, text))

    def test_groups_that_closed_last(self) -> None:
        """Nested, empty, repeated and absent ones."""
        for pattern, text in (('((a))', 'a'), ('(a)()', 'a'), ('(a())', 'a'), ('(()a)', 'a'),
                              ('(a)(b)?b', 'ab'), ('(a)?a', 'a'), ('((a)|(b))*', 'ab'),
                              ('(?:(a)|(b))*', 'ba'), ('(?:(x?)y|a(c))*', 'acy'), ('((()))', ''),
                              ('(?P<a>a(b))', 'ab'), ('(?P<a>a)(?P<b>b)?b', 'ab'), ('(a)|b', 'b'),
                              ('((a)(b(c)))d', 'abcd'), ('(a(?:(b)|c))+', 'abac'), ('a', 'a')):
            theirs, ours = (module.match(pattern, text) for module in MODULES)
            self.assertEqual((ours.lastindex, ours.lastgroup, ours.regs),
                             (theirs.lastindex, theirs.lastgroup, theirs.regs), (pattern, text))

    def test_random_groups(self) -> None:
        order, seen = random.Random(20261201), set()
        for _ in range(8000):
            pattern = ''.join(order.choices(PARTS, k=order.randint(3, 14)))
            text = ''.join(order.choices('abx', k=order.randint(0, 6)))
            pair = Pair(pattern)
            if pair.ours is None or pair.theirs is None or pair.explained(text):
                continue
            theirs, ours = (each.search(text) for each in (pair.theirs, pair.ours))
            self.assertEqual(told(ours), told(theirs), (pattern, text))
            seen.add(ours and ours.lastindex)
        self.assertLess({None, 1, 2, 3, 4}, seen)

    def test_cannot_be_set(self) -> None:
        for module in MODULES:
            match = module.search('(?P<x>a)', 'ba')
            for name in ('re', 'string', 'pos', 'endpos', 'regs', 'lastindex', 'lastgroup',
                         'other'):
                with self.assertRaises(AttributeError):
                    setattr(match, name, 0)
            with self.assertRaises(TypeError):
                match[0] = 'b'

    def test_copies(self) -> None:
        for module in MODULES:
            match = module.search('a', 'ba')
            self.assertIs(copy.copy(match), match)
            self.assertIs(copy.deepcopy([match])[0], match)
            for protocol in range(2, pickle.HIGHEST_PROTOCOL + 1):
                self.assertRaises(TypeError, pickle.dumps, match, protocol)

    def test_groups_that_are_not_there(self) -> None:
        class Index:
            """What can be taken for a number."""

            def __init__(self, value: int) -> None:
                self.value = value

            def __index__(self) -> int:
                return self.value
        for module in MODULES:
            match = module.match('(a)(?P<x>b)', 'ab')
            for call in (match.group, match.start, match.end, match.span, match.__getitem__):
                for wrong in (3, -1, 1 << 1000, 'y', b'x', 1.5, None, (0, 1), Index(3),
                              Index(1 << 1000)):
                    self.assertRaisesRegex(IndexError, 'no such group', call, wrong)
                self.assertRaises(TypeError, call, [])
                self.assertEqual(call(Index(2)), call('x'))
                self.assertEqual(call(True), call(1))
            self.assertRaises(IndexError, match.group, 0, 3)
            self.assertRaises(TypeError, len, match)

    def test_texts_of_other_types(self) -> None:
        for pattern in ('b', '(b)', '[ab]', ', '):
            for text in (Text('abab'), Text('éb, b')):
                found: List[List[Any]] = []
                for module in MODULES:
                    matches = [module.search(pattern, text), *module.finditer(pattern, text)]
                    found.append([*module.findall(pattern, text), *module.split(pattern, text),
                                  module.sub(pattern, '-', text), module.subn('x', 'y', text)[0],
                                  module.sub(pattern, lambda match: match[0], text)])
                    for match in filter(None, matches):
                        self.assertIs(match.string, text)
                        found[-1] += [match.group(), *match.groups(), match.span()]
                self.assertEqual(found[1], found[0])
                self.assertEqual([*map(type, found[1])], [*map(type, found[0])])


class Bounds(unittest.TestCase):
    """Searches from one offset up to another one."""

    def calls(self, pattern: Any, text: str, *bounds: int) -> Iterator[Tuple[str, object]]:
        """What each call returns that takes such offsets."""
        for name in ('search', 'match', 'fullmatch'):
            yield name, told(getattr(pattern, name)(text, *bounds))
        yield 'findall', pattern.findall(text, *bounds)
        yield 'finditer', [told(match) for match in pattern.finditer(text, *bounds)]
        scanner = pattern.scanner(text, *bounds)
        yield 'scanner', [told(match) for match in iter(scanner.search, None)]

    def test_all_offsets(self) -> None:
        for source in PATTERNS:
            theirs, ours = (module.compile(source, re.ASCII) for module in MODULES)
            for text in TEXTS:
                for pos in OFFSETS:
                    for endpos in OFFSETS:
                        self.compare(theirs, ours, text, pos, endpos)

    def compare(self, theirs: Any, ours: Any, text: str, pos: int, endpos: int) -> None:
        """Compares what both patterns find, unless a row in README.md explains the difference."""
        end = min(max(endpos, 0), len(text))
        if theirs.pattern in ('$', 'b$', 'a$|ab|b') and '\n' in text[end - 1:end]:
            return
        skipped = ['match'] if pos > end else []
        if theirs.fullmatch('') and theirs.pattern not in ('^', r'\b', '$', ''):
            skipped += ['findall', 'finditer', 'scanner']
        for (name, wanted), (_, found) in zip(self.calls(theirs, text, pos, endpos),
                                              self.calls(ours, text, pos, endpos)):
            if name not in skipped:
                self.assertEqual(found, wanted, (theirs.pattern, text, pos, endpos, name))

    def test_random_patterns(self) -> None:
        generator, order = Generator(20261202), random.Random(20261202)
        for _ in range(1500):
            pair, text = Pair(generator.pattern(), generator.flags()), generator.text()
            if pair.ours is None or pair.theirs is None or pair.explained(text):
                continue
            pos, endpos = (order.randrange(len(text) + 1) for _ in range(2))
            if pos <= endpos and not pair.explained(text[:endpos]):
                for name in ('search', 'match', 'fullmatch'):
                    theirs, ours = (told(getattr(each, name)(text, pos, endpos))
                                    for each in (pair.theirs, pair.ours))
                    self.assertEqual(ours, theirs, (pair.pattern, text, pos, endpos, name))

    def test_many_matches(self) -> None:
        """More of them than there is room for in one call."""
        for text in ('ab1' * 20000, 'aé1' * 20000):
            for source in ('[a-z]', '([a-z])|1', '1'):
                theirs, ours = (module.compile(source) for module in MODULES)
                for bounds in ((1,), (5, len(text) - 4), (len(text) - 2,), (30000, 30100)):
                    self.assertEqual(ours.findall(text, *bounds), theirs.findall(text, *bounds))
                    spans = [[match.span() for match in each.finditer(text, *bounds)]
                             for each in (theirs, ours)]
                    self.assertEqual(spans[1], spans[0])

    def test_names_of_arguments(self) -> None:
        for module in MODULES:
            pattern = module.compile('b(?P<x>b)?')
            for name in ('search', 'match', 'fullmatch'):
                match = getattr(pattern, name)(string='abba', endpos=3, pos=1)
                self.assertEqual(match.span('x'), (2, 3))
            self.assertEqual(pattern.findall(string='abba', endpos=3, pos=1), ['b'])
            self.assertEqual(len([*pattern.finditer(string='abba', endpos=3, pos=1)]), 1)
            scanner = pattern.scanner(string='abba', endpos=2, pos=1)
            self.assertEqual(scanner.search().span(), (1, 2))

    def test_no_offsets(self) -> None:
        for module in MODULES:
            pattern = module.compile('[a-z]')
            for name in ('search', 'match', 'fullmatch', 'findall', 'finditer', 'scanner'):
                for wrong in ((1.5,), ('1',), (None,), (0, 1.5), (0, None)):
                    self.assertRaises(TypeError, getattr(pattern, name), 'ab', *wrong)
                self.assertRaises(TypeError, getattr(pattern, name), b'ab', 1)

    def test_what_comes_after_the_end_is_not_read(self) -> None:
        for source in ('a', '[a-z]'):
            theirs, ours = (module.compile(source) for module in MODULES)
            for text in ('a\ud800', 'éa\ud800', 'b\ud800'):
                end = text.index('\ud800')
                self.assertEqual(told(ours.search(text, 0, end)), told(theirs.search(text, 0, end)))
                self.assertRaises(UnicodeEncodeError, ours.search, text, 0, end + 1)

    def test_whole_match_up_to_a_comment(self) -> None:
        for source, flags in (('a|ab # c', re.X), ('(?x)a|ab # c', 0), ('a|(?x:ab # c\n)', 0),
                              ('a|ab #', 0), ('(?:' * 50 + 'a|ab' + ')' * 50, 0)):
            theirs, ours = (module.compile(source, flags) for module in MODULES)
            for text in ('-ab', '-ab #', '-a'):
                self.assertEqual(told(ours.fullmatch(text, 1)), told(theirs.fullmatch(text, 1)))

    def test_limits_of_a_whole_match(self) -> None:
        """The pattern is let through where a longer one would not be."""
        size = next(size for size in range(100, 10000) if self.accepts(size))
        pattern = regex_lite.compile('a|ab', size_limit=size)
        self.assertEqual(pattern.fullmatch('-ab', 1).span(), (1, 3))

    def accepts(self, size: int) -> bool:
        """Whether a pattern is let through under this limit."""
        try:
            regex_lite.compile('a|ab', size_limit=size)
        except regex_lite.error:
            return False
        return True


class Scanners(unittest.TestCase):
    """Walks by `Pattern.scanner`."""

    def test_match(self) -> None:
        for source in ('a|b', '[a-z]', 'é'):
            for text in ('ab-a', 'ééa', '', '-a'):
                walks = []
                for module in MODULES:
                    scanner = module.compile(source).scanner(text)
                    self.assertEqual(scanner.pattern.pattern, source)
                    walks.append([told(scanner.match()) for _ in range(len(text) + 2)])
                self.assertEqual(walks[1], walks[0])

    def test_both_in_turn(self) -> None:
        for names in (('search', 'match', 'match', 'search'),
                      ('match', 'search', 'match', 'match')):
            walks = []
            for module in MODULES:
                scanner = module.compile('[a-z]').scanner('a-bc-d')
                walks.append([told(getattr(scanner, name)()) for name in names])
            self.assertEqual(walks[1], walks[0])

    def test_time_is_linear(self) -> None:
        text = 'ab' * 200000
        scanner = regex_lite.compile('[a-z]').scanner(text)
        self.assertEqual(sum(1 for _ in iter(scanner.match, None)), len(text))


if __name__ == '__main__':
    unittest.main()
