"""A log of a million lines, filtered by 12 rules."""

import re
import sqlite3
import tempfile
import unittest
from itertools import cycle, islice
from pathlib import Path

from database import connect, rows

LINES = 1000000
# Patterns that both read alike in lines of ASCII.
RULES = ('ERROR.*timeout', '(?i)warn', r'\b10\.255\.\d+\.\d+\b', '^2026-0[1-3]',
         r'refused for \w+@', r'DELETE /users/\d+', r'in \d{3} ms', '(GET|POST) /orders',
         r'\[(\d)\d*9\]', r'[a-z]+@[a-z]+\.org', 'samwise', 'T2[0-3]:')
PERIOD = 1300  # lines, after which they come again
WORDS = (('ERROR', 'WARN', 'INFO', 'INFO', 'INFO', 'warning', 'INFO'), ('GET', 'POST', 'DELETE'),
         ('users', 'orders', 'search', 'login', 'carts'),
         ('done in 97 ms', 'timeout', 'done in 312 ms', 'refused for samwise@shire.org', 'refused'))


def line(number: int) -> str:
    """A line of the log."""
    level, method, path, end = (words[number % len(words)] for words in WORDS)
    return (f'2026-{1 + number % 12:02}-{1 + number % 28:02}T{number % 24:02}:{number % 60:02} '
            f'{level} [{number * 7919 % 100000}] 10.{number % 257}.{number % 31}.{number % 17} '
            f'{method} /{path}/{number * 13 % 10007} {end}')


class Log(unittest.TestCase):
    """The log in a table, and the rules in another."""

    connection: sqlite3.Connection
    folder: 'tempfile.TemporaryDirectory[str]'
    counts: dict[str, int]

    @classmethod
    def setUpClass(cls) -> None:
        cls.folder = tempfile.TemporaryDirectory()
        cls.connection = connect(Path(cls.folder.name) / 'log.db')
        cls.connection.executescript('PRAGMA synchronous = OFF; BEGIN; CREATE TABLE log(line TEXT);'
                                     'CREATE TABLE rule(pattern TEXT);')
        lines = [line(number) for number in range(PERIOD)]
        cls.connection.executemany('INSERT INTO log VALUES (?)',
                                   ((one,) for one in islice(cycle(lines), LINES)))
        cls.connection.executemany('INSERT INTO rule VALUES (?)', ((rule,) for rule in RULES))
        cls.connection.execute('COMMIT')
        whole, rest = divmod(LINES, PERIOD)
        cls.counts = {}
        for rule in RULES:
            found = [re.search(rule, one) is not None for one in lines]
            cls.counts[rule] = whole * sum(found) + sum(found[:rest])

    @classmethod
    def tearDownClass(cls) -> None:
        cls.connection.close()
        cls.folder.cleanup()

    def test_counts(self) -> None:
        """Each rule matches some lines, and not all."""
        for rule, count in self.counts.items():
            self.assertTrue(0 < count < LINES, rule)

    def test_constants(self) -> None:
        """The rules in a statement: each is kept by the statement."""
        sums = ', '.join(f"sum(line REGEXP '{rule}')" for rule in RULES)
        self.assertEqual(rows(self.connection, f'SELECT {sums} FROM log'),
                         [tuple(self.counts.values())])

    def test_rules_of_a_table(self) -> None:
        """The rules in a table, of which each line is tried by all: the connection keeps them."""
        found = rows(self.connection, 'SELECT pattern, count(*) FROM log CROSS JOIN rule'
                     ' WHERE line REGEXP pattern GROUP BY pattern')
        self.assertEqual({pattern: count for pattern, count in found}, self.counts)


if __name__ == '__main__':
    unittest.main()
