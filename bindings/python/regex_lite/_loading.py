"""Finding and loading the shared object of the library."""

from __future__ import annotations

import ctypes
import os
from pathlib import Path
from typing import NamedTuple

NAME = 'libregex_lite.so'
_HINT = (f'build it by `bin/library FOLDER`, and let REGEX_LITE_LIBRARY name FOLDER/{NAME}, or let '
         'REGEX_LITE_FOLDER name FOLDER while pip installs this package')


class Library(NamedTuple):
    """The shared object, whose calls keep the interpreter's lock or release it."""

    keeping: ctypes.PyDLL
    letting_go: ctypes.CDLL


def load() -> Library:
    """The shared object that REGEX_LITE_LIBRARY names, or the one next to this file. Raises
    ImportError if there is none, or if it can't be loaded."""
    beside = Path(__file__).with_name(NAME)
    name = os.environ.get('REGEX_LITE_LIBRARY') or str(beside)
    try:
        return Library(ctypes.PyDLL(name), ctypes.CDLL(name))
    except OSError as error:
        raise ImportError(f'regex_lite has no library that can be loaded ({error}): {_HINT}',
                          name=__name__, path=name) from None
