"""What a backslash begins."""

from typing import Union

from .characters import LETTERS
from .cursor import Cursor, Refused
from .trees import Look, Read

CHARACTERS = {'a': '\a', 'f': '\f', 't': '\t', 'n': '\n', 'r': '\r', 'v': '\v'}
LOOKS = {'A': 'start', 'z': 'end', 'b': 'word', 'B': 'no word', '<': 'word start', '>': 'word end'}
BOUNDARIES = {'start': 'word start', 'end': 'word end', 'start-half': 'half start',
              'end-half': 'half end'}
LENGTHS = {'x': 2, 'u': 4, 'U': 8}
HEXADECIMAL = '0123456789abcdefABCDEF'


def escape(reader: Cursor) -> Union[str, Read, Look]:
    """A character, a set or a look, after its backslash."""
    letter = reader.next()
    if letter in CHARACTERS:
        return CHARACTERS[letter]
    if letter in LENGTHS:
        return by_number(reader, LENGTHS[letter])
    if letter in LETTERS:
        return Read(LETTERS[letter])
    if letter == 'b' and reader.stands('{'):
        return Look(boundary(reader))
    if letter in LOOKS:
        return Look(LOOKS[letter])
    if not letter.isascii() or letter.isalnum():
        raise Refused('no escape')
    return letter


def by_number(reader: Cursor, length: int) -> str:
    """A character by its number, which has this many digits if it has no braces."""
    reader.gap()
    if reader.take('{'):
        reader.gap()
        digits = reader.digits(HEXADECIMAL)
        reader.expect('}')
    else:
        digits = reader.digits(HEXADECIMAL, length)
        if len(digits) < length:
            raise Refused('too few digits')
    number = int(digits, 16) if digits else -1
    if not (0 <= number <= 0xD7FF or 0xE000 <= number <= 0x10FFFF):
        raise Refused('no number of a character')
    return chr(number)


def boundary(reader: Cursor) -> str:
    """The look of a `\\b` before a brace, which is a name in the braces or stands before a counted
    operator."""
    brace = reader.at
    reader.expect('{')
    reader.gap()
    if reader.is_over():
        raise Refused('the pattern ends too early')
    if not (reader.ahead == '-' or reader.ahead.isascii() and reader.ahead.isalpha()):
        reader.at = brace
        return 'word'
    name = ''
    while not reader.take('}'):
        name += reader.next()
        reader.gap()
    if name not in BOUNDARIES:
        raise Refused('no boundary')
    return BOUNDARIES[name]
