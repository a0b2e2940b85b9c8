"""Explanations of patterns in words: a row for each part, indented below the part around it."""

from __future__ import annotations

from functools import partial
from itertools import islice
from typing import Callable, Iterator, List, NamedTuple, Optional, Sequence, Tuple

from page.words_of_parts import LOOKS, character, class_of, text_of, times_of
from regex_lite import Part, PartKind
from regex_lite._parts import Outline

MOST_ROWS = 200  # of all patterns together
MOST_PARTS = 2_000  # of a pattern that are read for these rows, the ranges of classes among them


class Row(NamedTuple):
    """A row of an explanation."""

    depth: int
    words: str


class _Open(NamedTuple):
    """A part whose own parts are being read: how deep it is, how deep the rows of its parts are,
    and whether they are alternatives, or come one after another."""

    depth: int
    level: int
    kind: Optional[PartKind]


class Explanation:
    """The rows of one pattern, from its first parts in order."""

    def __init__(self, parts: Sequence[Part], name_of: Callable[[int], Optional[str]]) -> None:
        self._parts = parts
        self._name_of = name_of
        self._open: List[_Open] = []
        self.at = 0  # how many parts were read

    def rows(self) -> Iterator[Row]:
        """A row for each part that is shown as one."""
        while self.at < len(self._parts):
            yield from self._next()

    def _next(self) -> Iterator[Row]:
        """The row of the next part, if it has one, without those of its own parts."""
        part = self._parts[self.at]
        while self._open and self._open[-1].depth >= part.depth:
            self._open.pop()
        level, kind = (self._open[-1].level, self._open[-1].kind) if self._open else (0, None)
        before = ''
        if kind is PartKind.ALTERNATION:
            before = 'either ' if self._parts[self.at - 1].depth < part.depth else 'or '
        leaf = self._leaf(joins=kind is PartKind.CONCAT)
        if leaf is not None:
            yield Row(level, before + leaf)
            return
        self.at += 1
        words = (before + self._head(part)).rstrip()
        if words:
            yield Row(level, words)
            level += 1
        self._open.append(_Open(part.depth, level, part.kind))

    def _head(self, part: Part) -> str:
        """The words for a part that has others: none for a concatenation or for alternatives, whose
        rows say so."""
        if part.kind is PartKind.REPETITION:
            return f'{times_of(part)}:'
        if part.kind is PartKind.CAPTURE and part.group is not None:
            name = self._name_of(part.group)
            return f'group {part.group:,}' + ('' if name is None else f' ‘{name}’')
        return ''

    def _leaf(self, joins: bool) -> Optional[str]:
        """Reads a part for which one row is enough, and says what it is: a plain one, or one that
        is repeated. Where characters join, those that follow belong to the same row."""
        begin, part = self.at, self._parts[self.at]
        if part.kind is not PartKind.REPETITION:
            return self._plain(joins)
        self.at += 1
        body = self._plain(joins=False) if self.at < len(self._parts) else None
        if body is None:
            self.at = begin
            return None
        return f'{body}, {times_of(part)}'

    def _plain(self, joins: bool) -> Optional[str]:
        """Reads characters in a row, a class, a look or the empty text, and says what it is."""
        part = self._parts[self.at]
        if part.kind is PartKind.CONCAT:
            return self._word(part.depth)
        if part.kind is PartKind.CHAR:
            return self._text(part.depth, None if joins else 1)
        if part.kind is PartKind.CLASS:
            return self._class()
        if part.kind not in (PartKind.LOOK, PartKind.EMPTY):
            return None
        self.at += 1
        return 'the empty text' if part.look is None else LOOKS[part.look]

    def _word(self, depth: int) -> Optional[str]:
        """Reads a concatenation of characters alone."""
        begin = self.at
        self.at += 1
        text = self._text(depth + 1, None)
        if self.at == begin + 1 or self.at < len(self._parts) and self._depth() > depth:
            self.at = begin
            return None
        return text

    def _text(self, depth: int, most: Optional[int]) -> str:
        """Reads the characters that follow one another at this depth, at most so many."""
        texts: List[str] = []
        while self.at < len(self._parts) and self._depth() == depth and len(texts) != most:
            first = self._parts[self.at].first
            if first is None:
                break
            texts.append(first)
            self.at += 1
        return character(texts[0]) if len(texts) == 1 else text_of(''.join(texts))

    def _class(self) -> str:
        """Reads a class with its ranges."""
        runs: List[Tuple[str, str]] = []
        self.at += 1
        while self.at < len(self._parts) and self._parts[self.at].kind is PartKind.RANGE:
            part = self._parts[self.at]
            runs.append((part.first or '', part.last or ''))
            self.at += 1
        return class_of(runs)

    def _depth(self) -> int:
        return self._parts[self.at].depth


class Explained(NamedTuple):
    """The first rows of the explanation of some patterns, and the number of parts without a row."""

    rows: List[Row]
    left: int


def explained(outlines: Sequence[Outline],
              name_of: Callable[[int, int], Optional[str]]) -> Explained:
    """The explanation of patterns. `name_of` returns the name of a group, by the number of its
    pattern and its index."""
    rows: List[Row] = []
    left = 0
    for number, outline in enumerate(outlines):
        explanation = Explanation(list(islice(outline, MOST_PARTS)), partial(name_of, number))
        if len(outlines) > 1 and len(rows) < MOST_ROWS:
            rows.append(Row(0, f'Pattern {number}'))
        for row in islice(explanation.rows(), MOST_ROWS - len(rows)):
            rows.append(Row(row.depth + (len(outlines) > 1), row.words))
        left += len(outline) - explanation.at
    return Explained(rows, left)
