"""How `re` and this module read a pattern, and which rows of the tables in README.md explain
what differs. A row is named by its test in test_departures.py."""

import re
import sys
import warnings
from importlib import import_module
from itertools import chain
from typing import Any, Callable, Dict, Iterator, List, NamedTuple, Optional, Tuple, Type

import regex_lite
from regex_lite._departures import departures_in

codes: Any
parser: Any
try:
    codes, parser = import_module('re._constants'), import_module('re._parser')
except ImportError:  # before Python 3.11
    codes, parser = import_module('sre_constants'), import_module('sre_parse')

# What `re` raises for a pattern; before Python 3.11 also what its parser is to catch itself.
FAULTS: Tuple[Type[Exception], ...] = (
    re.error, OverflowError, ValueError, getattr(parser, 'Verbose', re.error))
Found = List[Optional[Tuple[Tuple[int, int], Tuple[Optional[str], ...]]]]

# The row for each kind of syntax with two readings, of which `compile` warns. The flag `u` isn't
# here: what it changes depends on the rest of the pattern and on the text.
WARNED = {
    'possessive': 'test_possessive', 'word': 'test_word_looks', 'boundary': 'test_word_looks',
    'counted': 'test_counted', 'zero': 'test_zero', 'named_class': 'test_named_classes',
    'dashes': 'test_ranges', 'bracket': 'test_ranges', 'class_gap': 'test_verbose_classes',
    'white_space': 'test_verbose_space', 'line_feed': 'test_verbose_comments',
    'directive': 'test_directives',
}

# The row for each fault that this module finds in a pattern that `re` accepts.
REFUSED_HERE = {
    'backreferences are not supported': 'test_left_out',
    'look-around is not supported': 'test_left_out',
    'unrecognized inline flag': 'test_left_out',
    'duplicate inline flag is not allowed': 'test_flags',
    'unrecognized escape sequence': 'test_escapes',
    'invalid escape sequence in character class': 'test_escapes',
    'character class ranges must start and end with a single character': 'test_escapes',
    'got invalid fixed length hexadecimal number': 'test_escapes',
    'character class intersection is not supported': 'test_classes',
    'character class difference is not supported': 'test_classes',
    'character class symmetric difference is not supported': 'test_classes',
    'nested character classes are not supported': 'test_classes',
    'expected decimal number, but found no digits': 'test_braces',
    'expected closing brace for counted repetition, but got something else': 'test_braces',
    'counted repetition operator must be applied to a sub-expression': 'test_braces',
    'found unclosed counted repetition operator': 'test_braces',
    'found incomplete and unclosed counted repetition operator': 'test_braces',
    'found counted repetition operator with a comma that is unclosed': 'test_braces',
    'found counted repetition with min and max that is unclosed': 'test_braces',
    'found start of special word boundary or repetition without an end': 'test_braces',
    'special word boundary assertion is unclosed or has an invalid character': 'test_braces',
    'special word boundary assertion is unrecognized': 'test_braces',
}

# The row for each fault that `re` finds in a pattern that this module accepts, by its beginning.
REFUSED_THERE = {
    'multiple repeat': 'test_repeats',
    'nothing to repeat': 'test_repeats',
    'global flags not at the start': 'test_flags',
    'missing :': 'test_flags',
    'unknown flag': 'test_flags',
    'unknown extension ?U': 'test_flags',
    'unknown extension ?R': 'test_flags',
    'bad inline flags: cannot turn off': 'test_flags',
    'unknown extension ?<': 'test_names',
    'bad character in group name': 'test_names',
    'incomplete escape \\x': 'test_braced_numbers',
    'incomplete escape \\u': 'test_braced_numbers',
    'incomplete escape \\U': 'test_braced_numbers',
    'bad escape \\z': 'test_end',
    'bad escape (end of pattern)': 'test_verbose_comments',
}


_UNICODE = re.compile(r'\(\?[a-z]*u')


class Node(NamedTuple):
    """A part of a pattern as `re` reads it, and the flags under which it stands."""

    code: Any
    value: Any
    flags: int


def nodes_of(tree: Any, flags: int) -> Iterator[Node]:
    """All parts of what the parser of `re` returns."""
    for code, value in tree:
        yield Node(code, value, flags)
        if code is codes.IN:
            yield from (Node(part[0], part[1], flags) for part in value)
        inside = flags
        if code is codes.SUBPATTERN:
            on, off = value[1:3]
            kept = flags & ~(re.A | re.L | re.U) if on & (re.A | re.L | re.U) else flags
            inside = (kept | on) & ~off
        yield from _nodes_in(value, inside)


def _nodes_in(value: Any, flags: int) -> Iterator[Node]:
    if isinstance(value, parser.SubPattern):
        yield from nodes_of(value, flags)
    elif isinstance(value, (tuple, list)):
        for part in value:
            yield from _nodes_in(part, flags)


class Pair:
    """A pattern under some flags, as both read it. `re` has ASCII on, unless `is_unicode` is true
    or the pattern sets the flag `u`."""

    def __init__(self, pattern: str, flags: int = 0, is_unicode: bool = False) -> None:
        self.pattern = pattern
        self.flags = flags
        self.theirs: Optional[re.Pattern[str]] = None
        self.ours: Optional[regex_lite.Pattern[str]] = None
        self.fault = ''
        is_unicode = is_unicode or _UNICODE.search(pattern) is not None
        full = flags if is_unicode else flags | re.ASCII
        with warnings.catch_warnings():
            warnings.simplefilter('ignore')
            try:
                self.theirs = re.compile(pattern, full)
            except FAULTS as error:
                self.fault = str(error)
            try:
                self.ours = regex_lite.compile(pattern, flags)
            except regex_lite.error as error:
                self.fault = error.msg
            self.nodes: List[Node] = []
            if self.theirs is not None and self.ours is not None:
                self.nodes += nodes_of(parser.parse(pattern, full), self.theirs.flags)
        self.warned = [WARNED[each.kind] for each in departures_in(pattern, flags)
                       if each.kind in WARNED]

    def refusal(self) -> Optional[str]:
        """The row that explains why one of the two alone accepts the pattern, if there is one."""
        if self.ours is None:
            rows = [REFUSED_HERE[self.fault]] if self.fault in REFUSED_HERE else []
        else:
            rows = [row for text, row in REFUSED_THERE.items() if self.fault.startswith(text)]
        return (rows + self.warned + [None])[0]

    def explained(self, text: str) -> List[str]:
        """The rows that explain other answers for this text."""
        return self.warned + [row for row, holds in BY_TEXT.items() if holds(self, text)]

    def has(self, code: Any, *values: Any) -> bool:
        """Whether `re` reads such a part in the pattern."""
        return any(node.code is code and (not values or node.value in values)
                   for node in self.nodes)


def matches_before_last_line_feed(pair: Pair, text: str) -> bool:
    """Whether a `$` stands outside multi-line mode, and the text ends in a line feed."""
    return text.endswith('\n') and any(
        node.code is codes.AT and node.value is codes.AT_END and not node.flags & re.MULTILINE
        for node in pair.nodes)


def sees_unicode(pair: Pair, text: str) -> bool:
    """Whether a class, a boundary or case goes beyond ASCII, and the text or the pattern too."""
    if all(char < '\x80' and not '\x1c' <= char <= '\x1f' for char in text + pair.pattern):
        return False
    return any(not node.flags & re.ASCII and (
        node.flags & re.IGNORECASE or node.code is codes.CATEGORY or node.code is codes.AT
        and node.value in (codes.AT_BOUNDARY, codes.AT_NON_BOUNDARY)) for node in pair.nodes)


def has_empty_passes(pair: Pair, text: str) -> bool:
    """Whether a repetition has more than one pass, which may take nothing."""
    return any(node.code in (codes.MAX_REPEAT, codes.MIN_REPEAT) and node.value[1] > 1
               and node.value[2].getwidth()[0] == 0 for node in pair.nodes)


def has_no_boundary_in_nothing(pair: Pair, text: str) -> bool:
    """Whether a `\\B` is tried in the empty text, where it matches in `re` from 3.14 on alone."""
    return text == '' and sys.version_info < (3, 14) and pair.has(codes.AT, codes.AT_NON_BOUNDARY)


BY_TEXT: Dict[str, Callable[[Pair, str], bool]] = {
    'test_end': matches_before_last_line_feed,
    'test_ascii': sees_unicode,
    'test_empty_passes': has_empty_passes,
    'test_empty_text': has_no_boundary_in_nothing,
}


def found_by(pattern: Any, text: str) -> Found:
    """The first match from each position on, with its groups."""
    return _told(pattern.search(text, pos) for pos in range(len(text) + 1))


def started(pattern: Any, text: str) -> Found:
    """The match that starts at each position, and that of the whole text, with their groups."""
    starts = (pattern.match(text, pos) for pos in range(len(text) + 1))
    return _told(chain(starts, [pattern.fullmatch(text)]))


def _told(found: Iterator[Any]) -> Found:
    return [None if match is None else (match.span(), match.groups()) for match in found]


def walked(found: Found) -> Found:
    """The matches of a text by the rule of the row test_empty_matches: no empty match follows
    another match at once."""
    matches: Found = []
    pos, end = 0, -1
    while pos < len(found):
        match = found[pos]
        if match is None:
            break
        if match[0] == (end, end):
            pos = end + 1
            end = -1
        else:
            matches.append(match)
            pos = end = match[0][1]
    return matches
