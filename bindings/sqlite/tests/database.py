"""Connections that have the extension, which the variable REGEX_LITE_SQLITE names."""

import os
import sqlite3
from pathlib import Path
from typing import Any, Optional

EXTENSION = os.environ['REGEX_LITE_SQLITE']
SIZE_LIMIT = 10485760  # by default, as the library has it


def add_extension(connection: sqlite3.Connection) -> sqlite3.Connection:
    """A connection with the extension."""
    connection.enable_load_extension(True)
    connection.load_extension(EXTENSION)
    connection.enable_load_extension(False)
    return connection


def connect(path: Optional[Path] = None) -> sqlite3.Connection:
    """A new connection with the extension, by default to an empty database in memory. Any thread
    may use it."""
    where = ':memory:' if path is None else str(path)
    return add_extension(sqlite3.connect(where, check_same_thread=False, isolation_level=None))


def rows(connection: sqlite3.Connection, statement: str, *values: Any) -> list[tuple[Any, ...]]:
    """All rows of a statement."""
    return connection.execute(statement, values).fetchall()


def value(connection: sqlite3.Connection, expression: str, *values: Any) -> Any:
    """The value of an expression."""
    (found,), = rows(connection, f'SELECT {expression}', *values)
    return found
