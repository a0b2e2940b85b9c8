"""Bracketed classes."""

import re
from typing import Union

from .characters import NAMED, Members, among, between, in_either_case, union, without
from .cursor import Cursor, Refused
from .escapes import escape
from .trees import Look, Read

OF_NAME = re.compile(r'\[:(\^?)([a-z]+):\]')


def bracketed(reader: Cursor) -> Members:
    """The set of a class, after its opening bracket."""
    reader.gap()
    is_negated = reader.take('^')
    sets = openers(reader)
    while not reader.take(']'):
        sets.append(item(reader))
        reader.gap()
    members = union(sets)
    if 'i' in reader.flags:
        members = in_either_case(members)
    return without(members) if is_negated else members


def openers(reader: Cursor) -> list[Members]:
    """The dashes, or else the bracket, that stand first and for themselves."""
    sets: list[Members] = []
    reader.gap()
    while reader.take('-'):
        sets.append(among('-'))
        reader.gap()
    if not sets and reader.take(']'):
        sets.append(among(']'))
        reader.gap()
    return sets


def item(reader: Cursor) -> Members:
    """The set of one item."""
    if any(reader.stands(pair) for pair in ('&&', '--', '~~')):
        raise Refused('an operation on sets')
    if reader.stands('['):
        return named(reader)
    first = end_or_set(reader)
    reader.gap()
    if not begins_range(reader):
        return among(first) if isinstance(first, str) else first
    reader.expect('-')
    reader.gap()
    last = end_or_set(reader)
    if not isinstance(first, str) or not isinstance(last, str) or first > last:
        raise Refused('no range')
    return between(ord(first), ord(last))


def named(reader: Cursor) -> Members:
    """A set by its name in brackets and colons."""
    found = OF_NAME.match(reader.pattern, reader.at)
    if not found or found[2] not in NAMED:
        raise Refused('a class in a class')
    reader.at = found.end()
    return without(NAMED[found[2]]) if found[1] else NAMED[found[2]]


def end_or_set(reader: Cursor) -> Union[str, Members]:
    """One character, or the set of an escape."""
    if not reader.take('\\'):
        return reader.next()
    meant = escape(reader)
    if isinstance(meant, Look):
        raise Refused('a look in a class')
    return meant.members if isinstance(meant, Read) else meant


def begins_range(reader: Cursor) -> bool:
    """Whether a dash comes next that stands between two ends."""
    place = reader.at
    is_between = False
    if reader.take('-'):
        reader.gap()
        is_between = reader.ahead not in ('', ']', '-')
    reader.at = place
    return is_between
