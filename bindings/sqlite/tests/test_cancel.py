"""Statements that are interrupted."""

import sqlite3
import threading
import time
import unittest

from database import connect, rows, value

MOST_SECONDS = 20  # after which an interrupted statement has to be over
ENDLESS = 'WITH RECURSIVE n(i) AS (VALUES (0) UNION ALL SELECT i + 1 FROM n) '


class Cancel(unittest.TestCase):
    """A statement is over soon after another thread has interrupted it, and the connection goes
    on."""

    connection: sqlite3.Connection

    def setUp(self) -> None:
        self.connection = connect()

    def tearDown(self) -> None:
        self.assertEqual(value(self.connection, "'ab' REGEXP 'b$'"), 1)
        self.connection.close()

    def interrupted(self, statement: str, *values: object) -> None:
        """Tests that a statement can be interrupted."""
        timer = threading.Timer(0.2, self.connection.interrupt)
        timer.start()
        start = time.monotonic()
        with self.assertRaisesRegex(sqlite3.OperationalError, 'interrupted'):
            rows(self.connection, statement, *values)
        timer.join()
        self.assertLess(time.monotonic() - start, MOST_SECONDS)

    def test_filter(self) -> None:
        """Between the rows of a filter."""
        self.interrupted(ENDLESS + "SELECT count(*) FROM n WHERE i REGEXP '7$'")

    def test_long_texts(self) -> None:
        """Between the rows of a filter over texts of a megabyte."""
        self.interrupted(ENDLESS + "SELECT count(*) FROM n WHERE ? || i REGEXP '(a*)*b'",
                         'a' * 1000000)

    def test_matches(self) -> None:
        """Between the matches of a text."""
        self.interrupted("SELECT count(*) FROM regex_lite_matches(?1, 'a') x,"
                         " regex_lite_matches(?1, 'a') y", 'a' * 100000)

    def test_replace(self) -> None:
        """Between replacements."""
        self.interrupted(ENDLESS + "SELECT sum(length(regex_lite_replace(?, 'a', 'bb'))) FROM n",
                         'a' * 10000)

    def test_progress_handler(self) -> None:
        """A program can also count, and end a statement itself."""
        self.connection.set_progress_handler(lambda: 1, 100000)
        with self.assertRaisesRegex(sqlite3.OperationalError, 'interrupted'):
            rows(self.connection, ENDLESS + "SELECT count(*) FROM n WHERE i REGEXP '7$'")
        self.connection.set_progress_handler(None, 0)


if __name__ == '__main__':
    unittest.main()
