"""What is refused, with its place, as errors of SQL."""

import re
import sqlite3
import unittest
from typing import Any

from database import SIZE_LIMIT, connect, rows, value

PREFIX = 'regex_lite: '


class Refusals(unittest.TestCase):
    """Errors of SQL, after which the connection goes on."""

    connection: sqlite3.Connection

    def setUp(self) -> None:
        self.connection = connect()

    def tearDown(self) -> None:
        self.assertEqual(value(self.connection, "'ab' REGEXP 'b$'"), 1)
        self.connection.close()

    def want(self, said: str, statement: str, *values: Any) -> None:
        """Tests what is said where a statement is refused."""
        with self.assertRaises(sqlite3.OperationalError) as caught:
            rows(self.connection, statement, *values)
        self.assertEqual(str(caught.exception), PREFIX + said, (statement, values))

    def test_syntax(self) -> None:
        """A fault of the syntax has its first and its last character."""
        for pattern, said, first, last in (
                ('é[z-a]', 'invalid range in character class', 2, 5),
                ('漢😀a)', "found closing ')' without matching '('", 4, 4),
                (r'\q', 'unrecognized escape sequence', 1, 2),
                ('a(?=b)', 'look-around is not supported', 2, 4),
                ('(?<n>é)(?<n>b)', 'duplicate capture group name', 8, 12)):
            for statement in ("SELECT 'a' REGEXP ?", "SELECT regex_lite_find('', ?)",
                              "SELECT regex_lite_replace('', ?, '')",
                              "SELECT * FROM regex_lite_matches('', ?)",
                              "SELECT * FROM regex_lite_split('a', ?)"):
                self.want(f'invalid pattern: {said}; see its characters {first} to {last}',
                          statement, pattern)

    def test_cut_short(self) -> None:
        """Of a pattern that is cut short it is said what isn't over."""
        for pattern, said, first in (('é(b', "found open group without closing ')'", 2),
                                     ('ab[c', 'found unclosed character class', 3)):
            with self.assertRaises(sqlite3.OperationalError) as caught:
                rows(self.connection, "SELECT '' REGEXP ?", pattern)
            self.assertIn(f'; it ends within what begins at character {first}',
                          str(caught.exception))
            if first == 2:
                self.assertIn(said, str(caught.exception))

    def test_limits(self) -> None:
        """A pattern that is too deep or too large has no place of its own."""
        self.want('invalid pattern: pattern has too much nesting', 'SELECT 1 REGEXP ?',
                  '(' * 51 + 'a' + ')' * 51)
        self.want('invalid pattern: compiled regex exceeded size limit', 'SELECT 1 REGEXP ?',
                  'a{99999999}')

    def test_not_text(self) -> None:
        """Bytes that are not UTF-8 are refused from the first that is wrong, as Python finds it."""
        for wrong in (b'\xff', b'ab\xc3', b'a\xc3(', 'é'.encode() + b'\xe2\x82', b'\xc0\x80',
                      b'\xed\xa0\x80', b'a\xf4\x90\x80\x80', b'\xf0\x80\x80\x80', b'\x80',
                      b'\xe2\x82\xac\xe2(\xa1', '漢😀'.encode() + b'\xf8\x88\x80\x80\x80'):
            with self.assertRaises(UnicodeDecodeError) as caught:
                wrong.decode()
            place = f'is not UTF-8 from byte {caught.exception.start + 1} on'
            for statement, what in (
                    ("SELECT ? REGEXP 'a'", 'text'), ("SELECT 'a' REGEXP ?", 'pattern'),
                    ("SELECT CAST(? AS TEXT) REGEXP 'a'", 'text'),
                    ("SELECT regex_lite_find(?, 'a', 9)", 'text'),
                    ("SELECT regex_lite_find(?, 'a')", 'text'),
                    ("SELECT regex_lite_capture(?, '(a)', 1)", 'text'),
                    ("SELECT regex_lite_replace(?, 'a', 'b')", 'text'),
                    ("SELECT regex_lite_replace('a', 'a', ?)", 'replacement'),
                    ('SELECT regex_lite_escape(?)', 'text'),
                    ("SELECT * FROM regex_lite_matches(?, 'a')", 'text'),
                    ("SELECT * FROM regex_lite_matches('a', ?)", 'pattern'),
                    ("SELECT * FROM regex_lite_split(?, 'a')", 'text')):
                self.want(f'the {what} {place}', statement, wrong)

    def test_numbers(self) -> None:
        """A start, a limit and a size limit are whole numbers from the least on."""
        for statement, what, least in (("SELECT regex_lite_find('a', 'a', ?)", 'start', 1),
                                       ("SELECT regex_lite_replace('a', 'a', 'b', ?)", 'limit', 0),
                                       ('SELECT regex_lite_size_limit(?)', 'size limit', 0)):
            for wrong in (least - 1, -2 ** 63, 1.5, 'x', '', b'1'):
                self.want(f'the {what} has to be a whole number from {least} on', statement, wrong)

    def test_groups(self) -> None:
        """A group that the pattern hasn't is refused, also where nothing matches."""
        for text in ('a', 'x'):
            self.want('the pattern has no group 2; its last is 1',
                      "SELECT regex_lite_capture(?, '(a)', 2)", text)
            self.want('the pattern has no group of this name',
                      "SELECT regex_lite_capture(?, '(?<n>a)', 'm')", text)
        self.want('the pattern has no group of this name',
                  "SELECT regex_lite_capture('a', '(?<n>a)', x'ff')")
        self.want('the group has to be a whole number from 0 on',
                  "SELECT regex_lite_capture('a', '(a)', -1)")

    def test_too_big(self) -> None:
        """A new text above SQLite's limit is refused before it is made, however much it would
        be."""
        for text, pattern, template in (('a' * 100000, 'a', 'b' * 100000),
                                        ('a' * 1000000, 'a+', '$0' * 500000)):
            with self.assertRaisesRegex(sqlite3.DataError, 'string or blob too big'):
                value(self.connection, 'regex_lite_replace(?, ?, ?)', text, pattern, template)

    def test_arguments(self) -> None:
        """A wrong number of arguments is refused as for any function."""
        for call in ("regex_lite_find('a')", "regex_lite_capture('a', 'a')",
                     "regex_lite_replace('a', 'a')", 'regex_lite_escape()'):
            with self.assertRaisesRegex(sqlite3.OperationalError, 'wrong number of arguments'):
                value(self.connection, call)

    def test_some_rows(self) -> None:
        """The rows before one that is refused are there."""
        found = self.connection.execute(
            "SELECT column1 REGEXP 'a' FROM (VALUES ('a'), ('b'), (x'ff'))")
        self.assertEqual(next(found), (1,))
        with self.assertRaises(sqlite3.OperationalError):
            next(found)


class SizeLimit(unittest.TestCase):
    """How large a pattern may become."""

    def test_default(self) -> None:
        """It is that of the library."""
        connection = connect()
        self.assertEqual(value(connection, 'regex_lite_size_limit()'), SIZE_LIMIT)
        connection.close()

    def test_limit(self) -> None:
        """A lower limit refuses patterns that were accepted, and is that of one connection."""
        connection, other = connect(), connect()
        self.assertEqual(value(connection, "'a' REGEXP 'a{100}'"), 0)
        self.assertEqual(value(connection, 'regex_lite_size_limit(1000)'), 1000)
        self.assertEqual(value(connection, 'regex_lite_size_limit()'), 1000)
        with self.assertRaisesRegex(sqlite3.OperationalError, 'exceeded size limit'):
            value(connection, "'a' REGEXP 'a{100}'")
        self.assertEqual(value(connection, "'a' REGEXP 'a{5}'"), 0)
        self.assertEqual(value(other, "'a' REGEXP 'a{100}'"), 0)
        self.assertEqual(value(connection, 'regex_lite_size_limit(?)', SIZE_LIMIT), SIZE_LIMIT)
        self.assertEqual(value(connection, "'a' REGEXP 'a{100}'"), 0)
        connection.close()
        other.close()

    def test_direct_only(self) -> None:
        """What a database holds can't change it."""
        connection = connect()
        connection.execute('CREATE VIEW v AS SELECT regex_lite_size_limit(99999999999)')
        with self.assertRaisesRegex(sqlite3.OperationalError, 'unsafe use'):
            rows(connection, 'SELECT * FROM v')
        connection.close()

    def test_authorizer(self) -> None:
        """A program can forbid it where it runs others' statements."""
        connection = connect()
        value(connection, 'regex_lite_size_limit(1000)')

        def authorize(action: int, _: Any, name: Any, *__: Any) -> int:
            is_setting = (action == sqlite3.SQLITE_FUNCTION
                          and re.fullmatch('regex_lite_size_limit', name or '', re.IGNORECASE))
            return sqlite3.SQLITE_DENY if is_setting else sqlite3.SQLITE_OK

        connection.set_authorizer(authorize)
        with self.assertRaisesRegex(sqlite3.DatabaseError, 'not authorized'):
            value(connection, 'REGEX_lite_size_limit(2000)')
        self.assertEqual(value(connection, "'ab' REGEXP 'b'"), 1)
        connection.close()


if __name__ == '__main__':
    unittest.main()
