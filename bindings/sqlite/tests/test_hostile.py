"""Patterns and texts that are made to take long, of which tests/hostile.tsv has the shapes."""

import sqlite3
import time
import unittest
from typing import Any

from database import connect, rows, value

MOST_SECONDS = 20  # far more than any takes, and far less than what grows faster
LEN = 200000


class Hostile(unittest.TestCase):
    """Each call takes time that grows with the text, and is over soon."""

    connection: sqlite3.Connection
    start: float

    def setUp(self) -> None:
        self.connection = connect()
        self.start = time.process_time()

    def tearDown(self) -> None:
        self.assertLess(time.process_time() - self.start, MOST_SECONDS)
        self.connection.close()

    def want(self, wanted: Any, expression: str, *values: Any) -> None:
        """Tests the value of an expression."""
        self.assertEqual(value(self.connection, expression, *values), wanted, expression)

    def test_backtracking(self) -> None:
        """Patterns for which a search that goes back takes exponential time, or the square."""
        for pattern in ('(a*)*b', '(a+)+b', '(a|a)*b', '(a|aa)+b', '(.*)*x', 'a*a*a*a*b',
                        '(?:a?){30}b', r'(\w+\s?)*!', '.*.*=.*'):
            self.want(0, '? REGEXP ?', 'a' * LEN, pattern)
            self.want(None, 'regex_lite_capture(?, ?, 0)', 'a' * LEN, pattern)

    def test_refused(self) -> None:
        """Patterns that are too large or too deep are refused at once, of whatever length."""
        for pattern in ('(' * LEN, '(?:' * LEN, '[' * LEN, 'a{1000}{1000}{1000}', 'a' + '{9}' * 40,
                        'a' + '+' * LEN, '()' * 95000, '\\' * (LEN + 1), 'a|*' * LEN):
            with self.assertRaises(sqlite3.OperationalError):
                value(self.connection, "'a' REGEXP ?", pattern)

    def test_many_patterns(self) -> None:
        """Many patterns, each new: a connection keeps some, and builds the others."""
        found = rows(self.connection, "WITH RECURSIVE n(i) AS (VALUES (0) UNION ALL"
                     " SELECT i + 1 FROM n WHERE i < 49999)"
                     " SELECT sum('x77y' REGEXP '^x' || i || 'y$') FROM n")
        self.assertEqual(found, [(1,)])

    def test_many_matches(self) -> None:
        """A match at each character, with offsets, in a text of characters of two bytes."""
        text = 'é' * LEN
        found = rows(self.connection, 'SELECT count(*), max(start), max("end"), sum(number)'
                     " FROM regex_lite_matches(?, 'é')", text)
        self.assertEqual(found, [(LEN, LEN, LEN + 1, LEN * (LEN + 1) // 2)])
        found = rows(self.connection, "SELECT count(*), max(start) FROM regex_lite_split(?, 'é')",
                     text)
        self.assertEqual(found, [(LEN + 1, LEN + 1)])
        self.want('x' * LEN, "regex_lite_replace(?, 'é', 'x')", text)

    def test_many_groups(self) -> None:
        """A thousand groups, of which the last is asked for at each match."""
        text = 'ab' * 500
        found = rows(self.connection, 'SELECT count(*), min(groups ->> 1000)'
                     ' FROM regex_lite_matches(?, ?)', text, '()' * 999 + '(a)')
        self.assertEqual(found, [(500, 'a')])

    def test_late_matches(self) -> None:
        """Texts in which each start might begin a match whose end never comes."""
        text = 'a' * LEN
        self.want(None, "regex_lite_find(?, '[a-z]+!')", text)
        self.want(text, "regex_lite_replace(?, 'a[^!]*!', '')", text)
        found = rows(self.connection, "SELECT count(*) FROM regex_lite_matches(?, 'a+$|aa')", text)
        self.assertEqual(found, [(1,)])

    def test_long_patterns(self) -> None:
        """A pattern of many letters, as a value of each row."""
        found = rows(self.connection, "WITH RECURSIVE n(i) AS (VALUES (0) UNION ALL"
                     " SELECT i + 1 FROM n WHERE i < 199) SELECT sum(? REGEXP ?) FROM n",
                     'a' * 20000, 'a' * 20000)
        self.assertEqual(found, [(200,)])

    def test_size_limit(self) -> None:
        """A lower size limit bounds what a pattern can cost: this one is the costliest within."""
        self.want(20000, 'regex_lite_size_limit(20000)')
        self.want(0, "? REGEXP '(?:a{15}){12}b'", 'a' * LEN)
        with self.assertRaisesRegex(sqlite3.OperationalError, 'exceeded size limit'):
            value(self.connection, "'a' REGEXP '(?:a{1000}){100}'")


if __name__ == '__main__':
    unittest.main()
