"""Texts as literals of the languages in which the page shows code. What can't be printed, and what
a compiler may reject or read differently, is written as an escape."""

from __future__ import annotations

import re

MOST_HASHES = 255  # around a raw string of Rust
_LINE = re.compile('[^\n]*\n|[^\n]+')
_ESCAPES = {'\\': '\\\\', '"': '\\"', '\n': '\\n', '\r': '\\r', '\t': '\\t'}


def python_literal(text: str) -> str:
    """A string of Python: a raw one where the text has a backslash and there can be one."""
    if '\\' in text and text.isprintable() and not text.endswith('\\'):
        for quote in ("'", '"'):
            if quote not in text:
                return f'r{quote}{text}{quote}'
    return repr(text)


def rust_literal(text: str) -> str:
    """A string of Rust, or of Rattle: a raw one where the text has a backslash or a quote."""
    if text.isprintable() and ('\\' in text or '"' in text):
        hashes = next(('#' * count for count in range(MOST_HASHES)
                       if '"' + '#' * count not in text), None)
        if hashes is not None:
            return f'r{hashes}"{text}"{hashes}'
    return '"' + ''.join(_rust_character(character) for character in text) + '"'


def _rust_character(character: str) -> str:
    if character in _ESCAPES or character.isprintable():
        return _ESCAPES.get(character, character)
    return f'\\u{{{ord(character):x}}}'


def c_literal(text: str) -> str:
    """A string of C, of which NULs may be a part, or several that make one: each line of the text
    then has a line of its own, which is indented."""
    lines = _LINE.findall(text)
    if len(lines) < 2:
        return f'"{_c_characters(text)}"'
    return '\n'.join(f'    "{_c_characters(line)}"' for line in lines).lstrip()


def c_definition(name: str, text: str) -> str:
    """The definition of this text in C."""
    literal = c_literal(text)
    return f'static const char {name}[] =' + ('\n    ' if '\n' in literal else ' ') + f'{literal};'


def _c_characters(text: str) -> str:
    """The text between quotes. Two question marks may begin a trigraph, so the second is escaped.
    An octal escape has three digits, so that none that follows belongs to it."""
    return ''.join('\\?' if text[max(i - 1, 0):i + 1] == '??' else _c_character(character)
                   for i, character in enumerate(text))


def _c_character(character: str) -> str:
    if character in _ESCAPES or character.isprintable():
        return _ESCAPES.get(character, character)
    return ''.join(f'\\{byte:03o}' for byte in character.encode())
