"""Patterns part by part: what is wanted follows from docs/SYNTAX.md by hand."""

import time
import unittest

import regex_lite
from regex_lite import Look, Part, PartKind, outline


class ByHand(unittest.TestCase):
    """What single patterns consist of."""

    def test_parts(self) -> None:
        self.assertEqual(outline(r'(?P<year>[0-9]{4})|\bx*?'), [
            Part(0, PartKind.ALTERNATION),
            Part(1, PartKind.CAPTURE, group=1),
            Part(2, PartKind.REPETITION, least=4, most=4, is_greedy=True),
            Part(3, PartKind.CLASS),
            Part(4, PartKind.RANGE, first='0', last='9'),
            Part(1, PartKind.CONCAT),
            Part(2, PartKind.LOOK, look=Look.WORD),
            Part(2, PartKind.REPETITION, least=0, most=None, is_greedy=False),
            Part(3, PartKind.CHAR, first='x', last='x'),
        ])
        self.assertEqual(outline(''), [Part(0, PartKind.EMPTY)])
        self.assertEqual(outline(r'[^\s\S]'), [Part(0, PartKind.CLASS)])

    def test_flags(self) -> None:
        self.assertEqual(outline('^', regex_lite.M), [Part(0, PartKind.LOOK, look=Look.START_LF)])
        compiled = regex_lite.compile('a # b', regex_lite.I | regex_lite.X)
        self.assertEqual(outline(compiled), [
            Part(0, PartKind.CLASS), Part(1, PartKind.RANGE, first='A', last='A'),
            Part(1, PartKind.RANGE, first='a', last='a')])
        with self.assertRaises(ValueError):
            outline(compiled, regex_lite.I)

    def test_refusals(self) -> None:
        for pattern, pos in (('a(', 1), ('a**{', 3), ('[b-a]', 1)):
            with self.assertRaises(regex_lite.error) as of_parts:
                outline(pattern)
            with self.assertRaises(regex_lite.error) as of_pattern:
                regex_lite.compile(pattern)
            self.assertEqual(of_parts.exception.pos, pos)
            self.assertEqual(str(of_parts.exception), str(of_pattern.exception))
        with self.assertRaises(TypeError):
            outline(b'a')  # type: ignore[arg-type]

    def test_limits(self) -> None:
        with self.assertRaises(regex_lite.error):
            outline('((a))', nest_limit=1)
        self.assertEqual(len(outline('((a))', nest_limit=2)), 3)
        with self.assertRaises(regex_lite.error):
            regex_lite.compile('(?:a{9999}){9999}')
        self.assertEqual(len(outline('(?:a{9999}){9999}')), 3)

    def test_many_parts(self) -> None:
        """There are more parts than bytes, so that they don't fit at first."""
        begin = time.process_time()
        self.assertEqual(len(outline('(?R)' + '.' * 50_000)), 1 + 4 * 50_000)
        self.assertLess(time.process_time() - begin, 10)


if __name__ == '__main__':
    unittest.main()
