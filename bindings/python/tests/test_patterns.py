"""Patterns as objects: flags, equality, copies and what can't be set. What is expected is what
`re` does."""

import copy
import gc
import pickle
import re
import unittest
import warnings
import weakref
from typing import Any, Iterator, List, Tuple

import regex_lite

MODULES: Tuple[Any, ...] = (re, regex_lite)
I, M, S, X, A = (int(flag) for flag in (re.I, re.M, re.S, re.X, re.A))
# Patterns, the flags that they are compiled under, and the flags that they have.
FLAGS: List[Tuple[str, int, int]] = [
    ('a', 0, 0), ('a', I | M, I | M), ('(?i)a', 0, I), ('(?i)a', S, I | S),
    ('(?im)(?s)a', 0, I | M | S), ('(?x) # note\n (?i) a', 0, I | X), (' (?i)a', X, I | X),
    ('(?i:a)', 0, 0), ('(?m)', 0, M),
    ('[(?i)]', 0, 0), (r'\(?i', 0, 0), ('a', A, A), ('(?i)a', A, A | I), ('(?i)(?i)a', 0, I)]


class Flags(unittest.TestCase):
    """The flags of a pattern."""

    def test_flags(self) -> None:
        for pattern, flags, wanted in FLAGS:
            ours = regex_lite.compile(pattern, flags)
            self.assertEqual(ours.flags, wanted, pattern)
            self.assertEqual(re.compile(pattern, flags).flags & ~re.U, wanted, pattern)
            self.assertEqual(regex_lite.compile(pattern, ours.flags).flags, wanted, pattern)

    def test_later_directives(self) -> None:
        for pattern, flags, wanted in (('a(?i)b', 0, 0), ('(?-i)a', I, 0), (' (?i)a', 0, 0),
                                       ('(?s-i)a', I | M, S | M), ('(?R)(?i)(?U)a', 0, I)):
            with warnings.catch_warnings():
                warnings.simplefilter('ignore', regex_lite.DepartureWarning)
                self.assertEqual(regex_lite.compile(pattern, flags).flags, wanted, pattern)

    def test_unicode(self) -> None:
        with warnings.catch_warnings():
            warnings.simplefilter('ignore', regex_lite.DepartureWarning)
            self.assertEqual(regex_lite.compile('a', re.U).flags, re.U)
            self.assertEqual(regex_lite.compile('(?u)a').flags, re.U)
            for module in MODULES:
                self.assertRaises(ValueError, module.compile, '(?u)a', re.A)
                self.assertRaises(ValueError, module.compile, 'a', re.A | re.U)

    def test_repr(self) -> None:
        for pattern, flags in (('a', 0), ('a', I), ("it's, re.a", I | S), ('(?i)a', X),
                               ('é"\n', 0)):
            ours = repr(regex_lite.compile(pattern, flags))
            self.assertEqual(ours.replace('regex_lite.', 're.'),
                             repr(re.compile(pattern, flags)).replace('regex_lite.', 're.'))
            self.assertEqual(eval(ours), regex_lite.compile(pattern, flags))
        theirs, ours = (repr(module.compile('long ' * 999, re.I)) for module in MODULES)
        self.assertEqual(ours.replace('regex_lite.', 're.'), theirs)


class Values(unittest.TestCase):
    """Patterns that are compared, copied and changed."""

    def pairs(self) -> Iterator[Tuple[Any, Any]]:
        """Patterns of each module: one, and one that may be equal."""
        sources = (('a', 0), ('a', I), ('(?i)a', 0), ('(?i)a', I), ('b', 0), ('a', A))
        for module in MODULES:
            made = []
            for pattern, flags in sources:
                module.purge()
                made.append(module.compile(pattern, flags))
            yield made, [module.compile(*source) for source in sources]

    def test_equality(self) -> None:
        theirs, ours = [[[a == b for b in others] for a in made] for made, others in self.pairs()]
        self.assertEqual(ours, theirs)
        for made, others in self.pairs():
            self.assertEqual([hash(pattern) for pattern in made], [hash(other) for other in others])
            self.assertEqual(len({*made, *others}), len(set(made)))
            self.assertNotEqual(made[0], 'a')
            self.assertRaises(TypeError, lambda: made[0] < made[1])
        self.assertNotEqual(regex_lite.compile('a'), re.compile('a', re.A))

    def test_limits_do_not_count(self) -> None:
        self.assertEqual(regex_lite.compile('a'), regex_lite.compile('a', nest_limit=9))

    def test_copies(self) -> None:
        for module in MODULES:
            pattern = module.compile('a')
            self.assertIs(copy.copy(pattern), pattern)
            self.assertIs(copy.deepcopy([pattern])[0], pattern)

    def test_pickles(self) -> None:
        for module in MODULES:
            for source in (('(?P<x>a)|(é)', 0), ('(?i)a # b', X), ('a', A)):
                pattern = module.compile(*source)
                for protocol in range(pickle.HIGHEST_PROTOCOL + 1):
                    data = pickle.dumps(pattern, protocol)
                    module.purge()
                    again = pickle.loads(data)
                    self.assertEqual(again, pattern)
                    self.assertEqual((again.pattern, again.flags, again.groupindex),
                                     (pattern.pattern, pattern.flags, pattern.groupindex))

    def test_pickled_limits(self) -> None:
        deep = '(' * 60 + 'a' + ')' * 60
        pattern = regex_lite.compile(deep, nest_limit=60)
        again = pickle.loads(pickle.dumps(pattern))
        self.assertEqual(again.search('a').span(60), (0, 1))
        self.assertRaises(regex_lite.error, regex_lite.compile, deep)

    def test_pickles_do_not_warn(self) -> None:
        with warnings.catch_warnings():
            warnings.simplefilter('ignore')
            data = pickle.dumps(regex_lite.compile('a++'))
            warnings.simplefilter('error')
            regex_lite.purge()
            self.assertEqual(pickle.loads(data).pattern, 'a++')

    def test_attributes_cannot_be_set(self) -> None:
        for module in MODULES:
            pattern = module.compile('(?P<x>a)')
            for name in ('pattern', 'flags', 'groups', 'groupindex', 'other'):
                with self.assertRaises(AttributeError):
                    setattr(pattern, name, 0)
            with self.assertRaises(TypeError):
                pattern.groupindex['x'] = 2
            self.assertEqual(pattern.groupindex, {'x': 1})

    def test_weak_references(self) -> None:
        for module in MODULES:
            pattern = module.compile('weak')
            reference = weakref.ref(pattern)
            self.assertIs(reference(), pattern)
            del pattern
            module.purge()
            gc.collect()
            self.assertIsNone(reference())

    def test_types_with_parameters(self) -> None:
        for name in ('Pattern', 'Match'):
            self.assertIs(getattr(regex_lite, name)[str].__origin__, getattr(regex_lite, name))
            self.assertEqual(getattr(regex_lite, name).__module__, 'regex_lite')

    def test_escape(self) -> None:
        for character in map(chr, [*range(128), 0x85, 0xA0, 0xE9, 0x2028, 0x1F4A9]):
            self.assertEqual(regex_lite.escape(character), re.escape(character))
            for flags in (0, X):
                if character not in '\x85\xa0\u2028' or not flags:
                    pattern = regex_lite.compile(regex_lite.escape(character * 2), flags)
                    self.assertTrue(pattern.fullmatch(character * 2), (character, flags))


if __name__ == '__main__':
    unittest.main()
