"""Warnings about syntax that `re` accepts too, but understands differently."""

from __future__ import annotations

import re
import sys
import warnings
from typing import Dict, List, NamedTuple, Optional, Pattern

# What a warning says about a part of a pattern, after the part itself and its position.
MEANINGS = {
    'possessive': 'repeats a repetition here, and is possessive in re',
    'word': 'is the start or the end of a word here, and a character in re',
    'boundary': 'is one look here, and in re a word boundary and the text after it',
    'counted': 'begins a counted operator here, and text in re',
    'zero': 'takes the last groups out of the pattern here, and in re they are there',
    'named_class': 'is a named class here, and stands for its characters in re',
    'dashes': 'are characters of the class here, and in re the second dash makes a range',
    'bracket': 'are characters of the class here, and a range in re',
    'class_gap': 'is left out of the class in verbose mode here, and belongs to it in re',
    'white_space': 'is left out in verbose mode here, and is a character in re',
    'line_feed': 'is a comment up to the line feed here, and in re up to a later one',
    'unicode': 'changes nothing here, and in re has classes and case go beyond ASCII',
    'directive': 'holds from there on here, and in the whole pattern in re',
}
# Kinds of parts that may stand between an item and its operator.
_BETWEEN = ('gap', 'white_space', 'comment')

_OPERATOR = r'(?:[*+?]|\{[0-9]+(?:,[0-9]*)?\})'
# White space in verbose mode to this library, but not to `re`.
_FOREIGN = '[\x85\xa0\u1680\u2000-\u200a\u2028\u2029\u202f\u205f\u3000]'
# A comment has a single end, so that no search for what follows a gap tries others.
_COMMENT = r'\#[^\n]*(?:\n|\Z)'
GAP = rf'(?:[ \t\n\r\v\f]|{_FOREIGN}|{_COMMENT})'

# The parts of a pattern outside classes, by their kinds, and those of verbose mode.
_PARTS = rf'''
    (?P<word>\\[<>])
  | (?P<boundary>\\b\{{\s*[a-z-]+\s*\}}?)
  | (?P<escape>\\.)
  | (?P<possessive>{_OPERATOR}\+)
  | (?P<operator>{_OPERATOR}\??)
  | (?P<counted>\{{)
  | (?P<klass>\[)
  | (?P<switch>\(\?(?P<letters>[a-zA-Z-]+)\))
  | (?P<plain>\(\?(?P<flags>[a-zA-Z-]*:))
  | (?P<open>\((?:\?P?<[^>(]*>)?)
  | (?P<close>\))
  | (?P<text>[^\\*+?{{\[()#\s]+|.)
'''
_GAPS = rf'''
    (?P<gap>[ \t\n\r\v\f]+)
  | (?P<comment>{_COMMENT})
  | (?P<white_space>{_FOREIGN})
  | {_PARTS}
'''


def _compiled(plain: str, verbose: str) -> Dict[bool, Pattern[str]]:
    """What reads a part outside verbose mode, and in it."""
    return {False: re.compile(plain, re.VERBOSE | re.DOTALL),
            True: re.compile(verbose, re.VERBOSE | re.DOTALL)}


_PART = _compiled(_PARTS, _GAPS)
# The beginning of a class, after its bracket, and then one part of it.
_HEAD = _compiled(r'\^?(?:(?P<dashes>-+)|(?P<bracket>\]))?',
                  rf'{GAP}*\^?{GAP}*(?:(?P<dashes>-(?:{GAP}*-)*)|(?P<bracket>\]))?')
_NAMED = r'(?P<end>\]) | (?P<named_class>\[:\^?[a-z]+:\])'
_ITEM = _compiled(rf'{_NAMED} | (?:\\.|[^\\])(?:-(?:\\.|[^\\\]-]))?',
                  rf'{_NAMED} | (?P<class_gap>{GAP})'
                  r' | (?:\\.|[^\\])(?:-(?:\\.|[^\\\]\s\#-]))?')
# An accepted pattern without any of these has none of these differences. Searching for them takes a
# small part of the time for building the pattern; reading the whole pattern may take more.
_SIGN = re.compile(r'[*+?}]\+|\\[<>]|\\b\{|\{0|\{[0-9,]*[\s#]|\[:|\[\^?--|\[\^?\]-'
                   r'|\(\?[a-zA-Z]*u')
# The signs for verbose mode, and for a pattern that may turn it on.
_VERBOSE_SIGN = re.compile(rf'''{_FOREIGN} | \\\n | \\\\\[ | -\[''', re.VERBOSE)
_CLASS_WITH_GAP = re.compile(r'''\[(?<!\\\[)(?:\^?\])?
    (?:\\.|[^\]\[\\\s\#])*[\s\#]''', re.VERBOSE | re.DOTALL)
_VERBOSE_FLAG = re.compile(r'\(\?[a-zA-Z]*x')
_DIRECTIVE = re.compile(r'\(\?[a-zA-Z]+\)')
_ZERO = re.compile(r'\{0+(?:,0+)?\}')
_VERBOSE, _UNICODE = int(re.VERBOSE), int(re.UNICODE)
# From this version on `re` rejects a directive that isn't at the start.
_AT_START_ALONE = sys.version_info >= (3, 11)


class DepartureWarning(FutureWarning):
    """A pattern has syntax that `re` accepts too, but understands differently.

    It is a FutureWarning, like those that `re` itself gives about ambiguous syntax: it is meant for
    the users of a program too, so Python shows it unless a filter says otherwise."""


class Departure:
    """A part of a pattern, its position, and the key of its text in MEANINGS."""

    def __init__(self, kind: str, pos: int, text: str) -> None:
        self.kind = kind
        self.pos = pos
        self.text = text

    def __str__(self) -> str:
        return f'{self.text!r} at position {self.pos} {MEANINGS[self.kind]}'


class _Open(NamedTuple):
    """A group that is open."""

    verbose: bool  # verbose mode outside the group
    left: int  # the greatest index of a group before it that is left in the pattern
    group: int  # its index, or 0 if it has none


class Reader:
    """Reads an accepted pattern from left to right, as the library does.

    `innermost` has for each group, by its index, the greatest index of a group in it, or its
    own."""

    def __init__(self, pattern: str, flags: int) -> None:
        self.pattern = pattern
        self.found: List[Departure] = []
        self.innermost = [0]
        self.verbose = bool(int(flags) & _VERBOSE)  # as it is where the reader stands
        self._open: List[_Open] = []
        self._at_start = True
        # The number of groups, and the greatest index of a group that `{0}` hasn't removed: now,
        # and before the last item.
        self._groups = self._left = self._left_before = 0
        self._zero: Optional[re.Match[str]] = None

    def read(self) -> List[Departure]:
        """The departures in the pattern."""
        pos = 0
        while pos < len(self.pattern):
            part = _PART[self.verbose].match(self.pattern, pos)
            if part is None:
                break  # a backslash at the end, which is refused
            pos = part.end()
            if part.lastgroup == 'klass':
                pos = self._class(pos)
            else:
                self._part(part, part.lastgroup or '')
        if self._zero is not None and self._left < self._groups:
            self._add('zero', self._zero.start(), self._zero.group())
        return self.found

    def _part(self, part: re.Match[str], kind: str) -> None:
        """Records a part outside classes, if `re` understands it differently."""
        if kind in MEANINGS:
            self._add(kind, part.start(), part.group())
        if 'u' in (part['letters'] or part['flags'] or '').partition('-')[0]:
            self._add('unicode', part.start(), part.group())
        if kind == 'comment':
            self._comment(part)
        elif kind == 'switch':
            self._switch(part)
        elif kind == 'operator':
            self._operator(part)
        elif kind == 'close':
            self._close()
        elif kind not in _BETWEEN:
            self._item(part)

    def _comment(self, part: re.Match[str]) -> None:
        """Records a comment whose line feed is escaped."""
        line = part.group().rpartition('\n')[0]
        if (len(line) - len(line.rstrip('\\'))) % 2 == 1:
            self._add('line_feed', part.start(), part.group())

    def _switch(self, part: re.Match[str]) -> None:
        """Continues under other flags."""
        self.verbose = self._with(part['letters'])
        if not (self._at_start or _AT_START_ALONE):
            self._add('directive', part.start(), part.group())

    def _operator(self, part: re.Match[str]) -> None:
        """Removes the groups of the last item if it is repeated 0 times."""
        self._at_start = False
        if _ZERO.match(part.group()):
            self._left, self._zero = self._left_before, part

    def _close(self) -> None:
        """Leaves a group, which is then the last item."""
        if self._open:
            self.verbose, self._left_before, group = self._open.pop()
            if group:
                self.innermost[group] = self._groups

    def _item(self, part: re.Match[str]) -> None:
        """Skips a part without groups, or enters a group."""
        self._at_start = False
        self._left_before = self._left
        if part['flags']:
            self._open.append(_Open(self.verbose, self._left, 0))
            self.verbose = self._with(part['flags'])
        elif part['open']:
            self._groups += 1
            self._open.append(_Open(self.verbose, self._left, self._groups))
            self._left = self._groups
            self.innermost.append(self._groups)

    def _with(self, flags: str) -> bool:
        """Whether verbose mode is on under the flags of a group or a directive."""
        on, _, off = flags.partition('-')
        return 'x' in on or 'x' not in off and self.verbose

    def _class(self, start: int) -> int:
        """Reads a class, after its bracket, and returns its end."""
        self._at_start = False
        self._left_before = self._left
        head = _HEAD[self.verbose].match(self.pattern, start)
        assert head is not None  # it may be empty
        self._head(head)
        pos = head.end()
        while pos < len(self.pattern):
            item = _ITEM[self.verbose].match(self.pattern, pos)
            if item is None:
                break  # a backslash at the end, which is refused
            pos = item.end()
            if item.lastgroup == 'end':
                return pos
            if item.lastgroup:
                self._add(item.lastgroup, item.start(), item.group())
        return len(self.pattern)

    def _head(self, head: re.Match[str]) -> None:
        """Records differences in the beginning of a class."""
        gap = re.search(r'[^\]^-]+', head.group())
        if gap is not None:
            self._add('class_gap', head.start() + gap.start(), gap.group())
        after = self.pattern[head.end():head.end() + 2]
        dashes = head['dashes'] or ''
        if dashes and len(dashes) % 2 == 0 and after[:1] != ']':
            self._add('dashes', head.start('dashes'), dashes + after[:1])
        elif head['bracket'] and after[:1] == '-' and after[1:] not in ('', '-', ']'):
            self._add('bracket', head.start('bracket'), ']' + after)

    def _add(self, kind: str, pos: int, text: str) -> None:
        self.found.append(Departure(kind, pos, text))


def _may_depart(pattern: str, flags: int) -> bool:
    """Whether there is a sign of a difference."""
    if _SIGN.search(pattern):
        return True
    if int(flags) & _VERBOSE or _VERBOSE_FLAG.search(pattern):
        if _VERBOSE_SIGN.search(pattern) or _CLASS_WITH_GAP.search(pattern):
            return True
    return not _AT_START_ALONE and _DIRECTIVE.search(pattern, 1) is not None


def departures_in(pattern: str, flags: int) -> List[Departure]:
    """The parts of an accepted pattern that `re` understands differently."""
    return Reader(pattern, flags).read() if _may_depart(pattern, flags) else []


def warn_of_departures(pattern: str, flags: int, stacklevel: int) -> None:
    """Warns about each way in which `re` would understand an accepted pattern differently, once for
    each.

    `stacklevel` means what it would mean in a call of `warnings.warn` by the caller."""
    kinds: Dict[str, str] = {}
    for departure in departures_in(pattern, flags):
        kinds.setdefault(departure.kind, str(departure))
    if int(flags) & _UNICODE:
        kinds['unicode'] = f'the flag UNICODE {MEANINGS["unicode"]}'
    for said in kinds.values():
        warnings.warn(said, DepartureWarning, stacklevel + 1)
