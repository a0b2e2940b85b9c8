r"""The lists as data: how a field is written, a line of answers, and what was picked by hand.

Each line of a list is a case, with its fields separated by tabs. In the first three lists these are
the pattern, the haystack, the exit status, and for status 2 the text of the refusal. Status 0
is a match, 1 is no match, 2 is a refusal. In a field a backslash begins an escape: `\t`, `\n`, `\r`
and `\\` are a tab, a line feed, a carriage return and a backslash, and `\u{H}` is the character
with the hexadecimal number H. Characters of the Unicode categories C, M and Z, other than the
space, are written that way. All others are written directly, in UTF-8.

No two cases of a list are the same, and a generated pattern that is refused has one case. Some
patterns of `whole-grammar.tsv` and of `runs.tsv` exceed the limit on nesting, and one of `runs.tsv`
upstream's limit on size; no others do. None has a NUL, since an argument can't hold one.
"""

import re
import unicodedata
from collections.abc import Sequence
from pathlib import Path

ANSWERS = Path(__file__).resolve().parent.parent
PICKED = ANSWERS / 'picked'

ESCAPE = re.compile(r'\\(?:([tnr\\])|u\{([0-9a-fA-F]{1,6})\})')
RUN = re.compile(r'([^\\0-9])\1{63,}')
NAMED = {'t': '\t', 'n': '\n', 'r': '\r', '\\': '\\'}

# Patterns by where they may stand: `anywhere`, `last` or `alone`.
Places = dict[str, list[str]]


def unescaped(field: str) -> str:
    """The text that a field stands for."""
    return ESCAPE.sub(lambda found: NAMED.get(found[1]) or chr(int(found[2], 16)), field)


def escaped(text: str) -> str:
    """The text as a field of a line."""
    named = {'\t': '\\t', '\n': '\\n', '\r': '\\r', '\\': '\\\\'}
    out = []
    for character in text:
        if character in named:
            out.append(named[character])
        elif character != ' ' and unicodedata.category(character)[0] in 'CMZ':
            out.append(f'\\u{{{ord(character):x}}}')
        else:
            out.append(character)
    return ''.join(out)


def packed(line: str) -> str:
    """The line with `«c×N»` for each long run of a character c."""
    return RUN.sub(lambda run: f'«{run[1]}×{len(run[0])}»', line)


def expanded(text: str) -> str:
    """The text with each quoted part of it as often as it says."""
    return re.sub('«([^«»]*)×([0-9]+)»', lambda part: part[1] * int(part[2]), text)


def bytes_of(text: str) -> bytes:
    """The bytes of a text. In it the characters from U+DC80 to U+DCFF stand for the bytes from 80
    to FF that belong to no character."""
    return text.encode('utf-8', 'surrogateescape')


def text_of(written: bytes) -> str:
    """The text of these bytes, the other way round."""
    return written.decode('utf-8', 'surrogateescape')


def line_of(case: Sequence[str], status: int, text: str) -> str:
    """A case and its answer as a line of a list."""
    fields = [escaped(field) for field in case] + [str(status)]
    if text:
        fields.append(text)
    return '\t'.join(fields) + '\n'


def rows_of(name: str) -> list[list[str]]:
    """The rows of a file of what was picked by hand, without its titles."""
    with open(PICKED / f'{name}.tsv', encoding='utf-8', newline='\n') as lines:
        return [
            [unescaped(field) for field in line.rstrip('\n').split('\t')]
            for line in lines if not line.startswith('# ')
        ]


def cases_of(name: str) -> list[tuple[str, str]]:
    """The pairs of a pattern and a haystack in such a file."""
    return [(pattern, haystack) for pattern, *haystacks in rows_of(name) for haystack in haystacks]


def faults_of(name: str) -> dict[str, Places]:
    """The faults in such a file, by their texts: patterns that may stand as an item in any other
    pattern, patterns that may stand at the end of another, and patterns that stand alone."""
    faults: dict[str, Places] = {}
    for text, place, pattern in rows_of(name):
        faults.setdefault(text, {'anywhere': [], 'last': [], 'alone': []})[place].append(pattern)
    return faults
