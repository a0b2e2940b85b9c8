"""The functions in what a database holds: indexes, constraints, columns, views and triggers."""

import sqlite3
import tempfile
import unittest
from pathlib import Path

from database import connect, rows


class Schema(unittest.TestCase):
    """A database whose schema isn't trusted, as SQLite advises for one from strangers."""

    connection: sqlite3.Connection

    def setUp(self) -> None:
        self.connection = connect()
        self.connection.execute('PRAGMA trusted_schema = OFF')

    def tearDown(self) -> None:
        self.connection.close()

    def test_index(self) -> None:
        """An index on what a function returns is used."""
        self.connection.executescript(r"""
            CREATE TABLE log(line);
            CREATE INDEX by_status ON log(regex_lite_capture(line, ' (\d{3}) ', 1));
            INSERT INTO log VALUES ('GET 200 a'), ('GET 404 b'), ('PUT 200 c'), ('no status');
        """)
        query = r"SELECT line FROM log WHERE regex_lite_capture(line, ' (\d{3}) ', 1) = '404'"
        (*_, plan), = rows(self.connection, f'EXPLAIN QUERY PLAN {query}')
        self.assertIn('by_status', plan)
        self.assertEqual(rows(self.connection, query), [('GET 404 b',)])
        self.assertEqual(rows(self.connection, 'PRAGMA integrity_check'), [('ok',)])

    def test_partial_index(self) -> None:
        """The condition of an index may be a match."""
        self.connection.executescript("""
            CREATE TABLE log(id INTEGER PRIMARY KEY, line);
            CREATE INDEX errors ON log(id) WHERE line REGEXP 'ERROR';
            INSERT INTO log(line) VALUES ('ERROR a'), ('fine'), ('ERROR b');
        """)
        query = "SELECT count(*) FROM log INDEXED BY errors WHERE line REGEXP 'ERROR'"
        self.assertEqual(rows(self.connection, query), [(2,)])

    def test_check(self) -> None:
        """A constraint refuses what doesn't match."""
        self.connection.execute(r"CREATE TABLE t(mail TEXT CHECK (mail REGEXP '^\w+@\w+\.\w+$'))")
        self.connection.execute("INSERT INTO t VALUES ('sam@shire.org'), (NULL)")
        with self.assertRaises(sqlite3.IntegrityError):
            self.connection.execute("INSERT INTO t VALUES ('sam')")
        self.assertEqual(rows(self.connection, 'SELECT count(*) FROM t'), [(2,)])

    def test_generated_columns(self) -> None:
        """A column may be made by a function, kept or not."""
        self.connection.executescript(r"""
            CREATE TABLE t(
                line TEXT,
                year INT AS (regex_lite_capture(line, '(?<y>\d{4})-', 'y')) STORED,
                plain TEXT AS (regex_lite_replace(line, '\d', '#')) VIRTUAL
            );
            INSERT INTO t VALUES ('due 2026-12');
        """)
        self.assertEqual(rows(self.connection, 'SELECT year, plain FROM t'),
                         [(2026, 'due ####-##')])

    def test_views_and_triggers(self) -> None:
        """Views and triggers may call all functions, also those of rows."""
        self.connection.executescript(r"""
            CREATE TABLE log(line); CREATE TABLE word(text);
            CREATE VIEW pieces AS SELECT found.text FROM log, regex_lite_split(line, ' +') AS found;
            CREATE TRIGGER words AFTER INSERT ON log BEGIN
                INSERT INTO word SELECT text FROM regex_lite_matches(new.line, '\w+');
            END;
            INSERT INTO log VALUES ('one two,three');
        """)
        self.assertEqual(rows(self.connection, 'SELECT * FROM pieces'), [('one',), ('two,three',)])
        self.assertEqual(rows(self.connection, 'SELECT * FROM word'),
                         [('one',), ('two',), ('three',)])

    def test_kept_databases(self) -> None:
        """An index that was made by one connection serves the next."""
        with tempfile.TemporaryDirectory() as folder:
            path = Path(folder) / 'log.db'
            first = connect(path)
            first.executescript("CREATE TABLE t(x); CREATE INDEX i ON t(regex_lite_find(x, 'b+'));"
                                "INSERT INTO t VALUES ('abbc');")
            first.close()
            second = connect(path)
            query = "SELECT x FROM t INDEXED BY i WHERE regex_lite_find(x, 'b+') = 'bb'"
            self.assertEqual(rows(second, query), [('abbc',)])
            self.assertEqual(rows(second, 'PRAGMA integrity_check'), [('ok',)])
            second.close()


if __name__ == '__main__':
    unittest.main()
