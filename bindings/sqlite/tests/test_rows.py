"""The table-valued functions."""

import json
import sqlite3
import unittest

from database import connect, rows


class RowsTest(unittest.TestCase):
    """A test with a connection."""

    connection: sqlite3.Connection

    def setUp(self) -> None:
        self.connection = connect()

    def tearDown(self) -> None:
        self.connection.close()


class Matches(RowsTest):
    """All matches of a text."""

    def test_columns(self) -> None:
        """Numbers and offsets count from 1 on, and the end is behind the last character."""
        found = rows(self.connection, r"SELECT * FROM regex_lite_matches('é12 b3', '(\w)(\d)?')")
        self.assertEqual(found, [(1, 2, 4, '12', '["12","1","2"]'),
                                 (2, 5, 7, 'b3', '["b3","b","3"]')])

    def test_substr(self) -> None:
        """The offsets are those of substr."""
        found = rows(self.connection, "SELECT text, substr(?1, start, \"end\" - start)"
                     " FROM regex_lite_matches(?1, '[^ ]+')", 'äö 漢字 😀😀 x')
        self.assertEqual(found, [(word, word) for word in ('äö', '漢字', '😀😀', 'x')])

    def test_empty_matches(self) -> None:
        """Empty matches are there, but not directly behind another match."""
        found = rows(self.connection, "SELECT start, \"end\" FROM regex_lite_matches('baac', 'a*')")
        self.assertEqual(found, [(1, 1), (2, 4), (5, 5)])
        found = rows(self.connection, "SELECT start, \"end\" FROM regex_lite_matches('', '')")
        self.assertEqual(found, [(1, 1)])

    def test_groups(self) -> None:
        """The groups are an array, in which each has its number."""
        found = rows(self.connection,
                     "SELECT groups ->> 1, groups ->> 2, json_array_length(groups), groups"
                     " FROM regex_lite_matches('ab', '(a)|(b)')")
        self.assertEqual(found, [('a', None, 3, '["a","a",null]'),
                                 (None, 'b', 3, '["b",null,"b"]')])

    def test_json(self) -> None:
        """Any text stands in JSON, which is read back as it was."""
        text = ''.join(map(chr, range(0x100))) + '\u2028漢😀"\\'
        (groups,), = rows(self.connection, 'SELECT groups FROM regex_lite_matches(?, ?)', text,
                          '(?s)(.)(.*)')
        self.assertEqual(json.loads(groups), [text, text[0], text[1:]])
        self.assertEqual(rows(self.connection, 'SELECT json_valid(?)', groups), [(1,)])

    def test_null(self) -> None:
        """Where an argument is null there is no row."""
        for arguments in ((None, 'a'), ('a', None), (None, '(')):
            found = rows(self.connection, 'SELECT * FROM regex_lite_matches(?, ?)', *arguments)
            self.assertEqual(found, [])

    def test_many(self) -> None:
        """The rows of many batches go on where the last batch ended."""
        text = 'é1,' * 30000
        found = rows(self.connection, r"SELECT number, start, groups ->> 1"
                     r" FROM regex_lite_matches(?, 'é(\d)')", text)
        self.assertEqual(found, [(n + 1, 3 * n + 1, '1')
                                 for n in range(30000)])


class Split(RowsTest):
    """The pieces between the matches."""

    def test_pieces(self) -> None:
        """There is one piece more than matches."""
        found = rows(self.connection, "SELECT * FROM regex_lite_split('é, b,,c', ', *')")
        self.assertEqual(found, [(1, 1, 2, 'é'), (2, 4, 5, 'b'), (3, 6, 6, ''), (4, 7, 8, 'c')])

    def test_without_match(self) -> None:
        """A text without a match is one piece, be it empty."""
        for text in ('abc', ''):
            found = rows(self.connection, "SELECT text FROM regex_lite_split(?, ',')", text)
            self.assertEqual(found, [(text,)])

    def test_null(self) -> None:
        """Where an argument is null there is no row."""
        self.assertEqual(rows(self.connection, "SELECT * FROM regex_lite_split(NULL, 'a')"), [])


class Plans(RowsTest):
    """How the functions stand in statements."""

    def test_join(self) -> None:
        """Arguments come from other tables, in any order of the FROM."""
        self.connection.executescript(r"""
            CREATE TABLE log(line); INSERT INTO log VALUES ('a1 b2'), ('c3'), (NULL);
            CREATE TABLE rule(pattern); INSERT INTO rule VALUES ('\d'), ('[ab]'), (NULL);
        """)
        for tables in ('log, rule, regex_lite_matches(line, pattern) AS found',
                       'regex_lite_matches(line, pattern) AS found, rule, log'):
            found = rows(self.connection, f'SELECT line, pattern, group_concat(text)'
                         f' FROM {tables} GROUP BY 1, 2 ORDER BY 1, 2')
            self.assertEqual(found, [('a1 b2', '[ab]', 'a,b'), ('a1 b2', r'\d', '1,2'),
                                     ('c3', r'\d', '3')])

    def test_hidden_columns(self) -> None:
        """The arguments are hidden columns, by which they can also be given."""
        found = rows(self.connection, "SELECT in_text, by_pattern, text FROM regex_lite_matches"
                     " WHERE by_pattern = 'b' AND in_text = 'ab'")
        self.assertEqual(found, [('ab', 'b', 'b')])
        found = rows(self.connection, "SELECT by_pattern, text FROM regex_lite_split"
                     " WHERE by_pattern IN ('a', 'b') AND in_text = 'abc' ORDER BY 1, number")
        self.assertEqual(found, [('a', ''), ('a', 'bc'), ('b', 'a'), ('b', 'c')])

    def test_alternatives(self) -> None:
        """Each alternative of a condition may give its own arguments."""
        found = rows(self.connection, "SELECT text FROM regex_lite_matches"
                     " WHERE in_text = 'ab' AND by_pattern = 'a'"
                     " OR by_pattern = 'c' AND in_text = 'cd' ORDER BY 1")
        self.assertEqual(found, [('a',), ('c',)])
        found = rows(self.connection, "SELECT number FROM regex_lite_matches"
                     " WHERE in_text = 'aba' AND by_pattern = 'a' AND number = 1"
                     " OR in_text = 'aba' AND by_pattern = 'a' AND start < 9 ORDER BY 1")
        self.assertEqual(found, [(1,), (2,)])

    def test_outer_join(self) -> None:
        """A row without a match stays in an outer join."""
        found = rows(self.connection, "SELECT column1, text FROM (VALUES ('a1'), ('b'))"
                     r" LEFT JOIN regex_lite_matches(column1, '\d')")
        self.assertEqual(found, [('a1', '1'), ('b', None)])

    def test_missing_arguments(self) -> None:
        """A plan without both arguments is refused."""
        for table in ('regex_lite_matches', "regex_lite_matches('a')", "regex_lite_split('a')",
                      "regex_lite_split WHERE by_pattern = 'a'",
                      "regex_lite_matches WHERE in_text > 'a' AND by_pattern = 'a'"):
            with self.assertRaisesRegex(sqlite3.OperationalError, 'a text and a pattern have to'):
                rows(self.connection, f'SELECT * FROM {table}')

    def test_two_at_once(self) -> None:
        """Two walks of one pattern go on side by side."""
        found = rows(self.connection, "SELECT a.text || b.text"
                     " FROM regex_lite_matches('ab', '.') a,"
                     " regex_lite_matches('cd', '.') b ORDER BY 1")
        self.assertEqual(found, [('ac',), ('ad',), ('bc',), ('bd',)])

    def test_rows_outlive_their_pattern(self) -> None:
        """A walk goes on while its pattern is forgotten, as others come."""
        walk = self.connection.execute("SELECT text FROM regex_lite_matches('abc', '[a-c]')")
        self.assertEqual(next(walk), ('a',))
        rows(self.connection, "WITH RECURSIVE n(i) AS (VALUES (0) UNION ALL SELECT i + 1 FROM n"
             " LIMIT 2000) SELECT count(*) FROM n WHERE 'x' REGEXP 'y' || i")
        self.connection.execute('SELECT regex_lite_size_limit(1000)').fetchall()
        self.assertEqual(list(walk), [('b',), ('c',)])

    def test_read_only(self) -> None:
        """Nothing can be written."""
        with self.assertRaises(sqlite3.OperationalError):
            rows(self.connection, 'DELETE FROM regex_lite_matches')
        with self.assertRaises(sqlite3.OperationalError):
            rows(self.connection, 'CREATE VIRTUAL TABLE t USING regex_lite_matches')


if __name__ == '__main__':
    unittest.main()
