"""Reads the items of a source."""

import textwrap
from collections.abc import Iterator
from typing import NamedTuple, Optional

from .items import (Function, Ghost, Impl, Import, Item, Members, Other, Part, Source, Submodule,
                    Trait, Type)
from .tokens import (CLOSING, Unreadable, after_group, first_of, first_of_type, is_sign, outside,
                     tokens)

QUALIFIERS = ('const', 'unsafe', 'async', 'extern', 'default', 'final')
CLAUSES = ('requires', 'ensures')
NAMED = ('const', 'static', 'type', 'union')


class Start(NamedTuple):
    """What stands before an item's first word: its documentation, what it derives and its
    visibility. The head begins with the visibility, and its first word is at an index."""

    doc: str
    derived: list[str]
    visibility: str
    head: int
    word: int


def stripped(lines: list[str]) -> str:
    """The text of documentation, without the signs and the one space that begin its lines."""
    return '\n'.join(line[3:].removeprefix(' ').rstrip() for line in lines).strip('\n')


class Reader:
    """Reads one source."""

    def __init__(self, file: str, text: str) -> None:
        self.file, self.text, self.tokens = file, text, tokens(text)
        self.ghosts: dict[str, str] = {}

    def line(self, at: int) -> int:
        """The line of a token."""
        return self.text.count('\n', 0, self.tokens[at].start) + 1

    def is_at(self, at: int, *texts: str) -> bool:
        """Whether one of these signs or words stands there."""
        return any(is_sign(self.tokens[at], text) for text in texts)

    def written(self, first: int, after: int) -> str:
        """The text from one token to before another as it is written, moved to the left."""
        start = self.tokens[first].start
        margin = self.text[self.text.rfind('\n', 0, start) + 1:start]
        margin = margin if margin.isspace() else ''
        return textwrap.dedent(margin + self.text[start:self.tokens[after - 1].end])

    def joined(self, first: int, after: int) -> str:
        """The same on one line, without comments."""
        text, end = '', 0
        for token in self.tokens[first:after]:
            if token.kind == 'doc':
                continue
            text += f' {token.text}' if text and token.start > end else token.text
            end = token.end
        return text

    def source(self) -> Source:
        """The file's documentation and items."""
        lines = [token.text for token in self.tokens if token.kind == 'inner']
        items = list(self.items(0, len(self.tokens) - 1))
        return Source(self.file, stripped(lines), items, self.ghosts)

    def items(self, at: int, end: int) -> Iterator[Item]:
        """The items from one index to another."""
        while at < end:
            if self.tokens[at].kind == 'inner':
                at += 1
            elif self.is_at(at, '#') and self.is_at(at + 1, '!'):
                at = after_group(self.tokens, at + 2)
            else:
                start = self.start(at)
                found, at = self.placed(start)
                yield from found

    def placed(self, start: Start) -> tuple[list[Item], int]:
        """The same as `item`. What can't be read is refused with the line of the innermost item."""
        try:
            return self.item(start)
        except Unreadable as reason:
            said = str(reason)
            place = '' if said.startswith(self.file) else f'{self.file}:{self.line(start.word)}: '
            raise Unreadable(f'{place}{said}') from None

    def start(self, at: int) -> Start:
        """What stands before the first word of the item there."""
        lines, derived = [], []
        while self.tokens[at].kind == 'doc' or self.is_at(at, '#'):
            if self.tokens[at].kind == 'doc':
                lines.append(self.tokens[at].text)
                at += 1
                continue
            after = after_group(self.tokens, at + 1)
            if self.is_at(at + 2, 'derive'):
                derived += self.joined(at + 4, after - 2).replace(',', ' ').split()
            at = after
        head, visibility = at, ''
        if self.is_at(at, 'pub'):
            at = after_group(self.tokens, at + 1) if self.is_at(at + 1, '(') else at + 1
            visibility = self.joined(head, at)
        return Start(stripped(lines), derived, visibility, head, at)

    def item(self, start: Start) -> tuple[list[Item], int]:
        """The items that begin there, of which a `use` may have several, and the index after."""
        at = start.word
        if self.is_at(at, 'ghost'):
            return self.ghost(start)
        if self.is_at(at, 'use'):
            end = first_of(self.tokens, at, ';')
            return list(self.imports(start, at + 1, end, [])), end + 1
        if self.is_at(at, 'mod'):
            return self.submodule(start)
        if self.is_at(at, 'struct', 'enum'):
            return self.type(start)
        if self.is_at(at, 'trait'):
            return self.trait(start)
        word = self.after_qualifiers(at)
        if self.is_at(word, 'fn'):
            return self.function(start, word + 1)
        if self.is_at(word, 'impl'):
            return self.impl(start, word)
        if self.is_at(at, *NAMED):
            end = first_of(self.tokens, at, ';')
            other = Other(self.tokens[at].text, self.tokens[at + 1].text, start.visibility,
                          self.line(at), self.joined(start.head, end))
            return [other], end + 1
        if self.is_at(at + 1, '!'):
            return [], after_group(self.tokens, first_of(self.tokens, at, *CLOSING))
        raise Unreadable(f'no item begins with {self.tokens[at].text!r}')

    def after_qualifiers(self, at: int) -> int:
        """The index of the word after `unsafe`, `extern "C"` and the like."""
        while self.is_at(at, *QUALIFIERS) or self.tokens[at].kind == 'string':
            at += 1
        return at

    def ghost(self, start: Start) -> tuple[list[Item], int]:
        """A ghost member, or nothing for an import into clauses."""
        end = first_of(self.tokens, start.word, ';')
        if self.is_at(start.word + 1, 'use'):
            module, _, names = self.joined(start.word + 2, end).partition('.{')
            self.ghosts.update((name.strip(), module) for name in names.strip('}').split(','))
            return [], end + 1
        name = self.tokens[start.word + 1].text
        return [Ghost(name, start.doc, self.written(start.head, end + 1))], end + 1

    def submodule(self, start: Start) -> tuple[list[Item], int]:
        """A module in another file. One that has its items here is left out if it is private."""
        at, name = start.word, self.tokens[start.word + 1].text
        if self.is_at(at + 2, ';'):
            return [Submodule(name, start.visibility, self.line(at))], at + 3
        if start.visibility == 'pub':
            raise Unreadable(f'the module {name} has no file of its own')
        return [], after_group(self.tokens, at + 2)

    def imports(self, start: Start, at: int, end: int, path: list[str]) -> Iterator[Import]:
        """The names that a part of a `use` brings, below this path."""
        while at < end:
            after = next((it for it in outside(self.tokens, at)
                          if it >= end or self.is_at(it, ',')), end)
            yield from self.imported(start, at, min(after, end), path)
            at = after + 1

    def imported(self, start: Start, at: int, end: int, path: list[str]) -> Iterator[Import]:
        """The names that one path brings, or the paths in braces at its end."""
        words = list(path)
        while at < end and not self.is_at(at, '{', 'as'):
            if not self.is_at(at, '::'):
                words.append(self.tokens[at].text)
            at += 1
        if at < end and self.is_at(at, '{'):
            yield from self.imports(start, at + 1, after_group(self.tokens, at) - 1, words)
            return
        if words[-1] == 'self':
            words.pop()
        name = self.tokens[at + 1].text if at < end else words[-1]
        yield Import(name, start.visibility, self.line(start.word), words)

    def function(self, start: Start, name: int) -> tuple[list[Item], int]:
        """A function, whose name is at this index."""
        opening = first_of_type(self.tokens, name + 1, '(')
        closing = after_group(self.tokens, opening)
        stop = first_of_type(self.tokens, closing, *CLAUSES, '{', ';')
        body = first_of(self.tokens, stop, ';') if self.is_at(stop, ';') else self.body(stop)
        bounds = first_of_type(self.tokens, closing, 'where', *CLAUSES, '{', ';')
        has_body = self.is_at(body, '{')
        found = Function(
            self.tokens[name].text, start.visibility, start.doc, self.line(name),
            head=self.written(start.head, stop), parameters=self.joined(opening + 1, closing - 1),
            result=self.joined(closing + 1, bounds),
            clauses=self.written(stop, body) if stop < body else '', has_body=has_body)
        return [found], after_group(self.tokens, body) if has_body else body + 1

    def body(self, at: int) -> int:
        """The index of the body, or of the `;` in its place, after the clauses that begin there."""
        while self.is_at(at, *CLAUSES):
            at = after_group(self.tokens, first_of(self.tokens, at, '{'))
        if not self.is_at(at, '{', ';'):
            raise Unreadable(f'{self.tokens[at].text!r} follows the clauses of a function')
        return at

    def type(self, start: Start) -> tuple[list[Item], int]:
        """A struct or an enum."""
        at = start.word
        opening = first_of_type(self.tokens, at + 2, '(', '{', ';', 'where')
        if self.is_at(opening, 'where'):
            opening = first_of_type(self.tokens, opening, '{', ';')
        sign = self.tokens[opening].text
        after = opening + 1 if sign == ';' else after_group(self.tokens, opening)
        parts = [] if sign == ';' else list(self.parts(opening + 1, after - 1, sign))
        end = first_of(self.tokens, after, ';') if sign == '(' else after
        found = Type(self.tokens[at].text, self.tokens[at + 1].text, start.visibility, start.doc,
                     self.line(at), self.written(start.head, opening),
                     self.joined(after, end) if sign == '(' else '', sign, start.derived, parts)
        return [found], end + 1 if sign == '(' else after

    def parts(self, at: int, end: int, opening: str) -> Iterator[Part]:
        """The fields or variants between these indices."""
        number = 0
        while at < end:
            start = self.start(at)
            after = self.part_end(start.word, end)
            is_ghost = self.is_at(start.word, 'ghost')
            name = str(number) if opening == '(' else self.tokens[start.word + is_ghost].text
            inner = list(self.parts(start.word + 2, after - 1, '{')) if self.is_at(
                start.word + 1, '{') else []
            yield Part(name, start.visibility, start.doc, self.line(start.word),
                       self.joined(start.head, after), is_ghost, inner)
            at, number = after + 1, number + 1

    def part_end(self, at: int, end: int) -> int:
        """The index of the comma after a field or a variant, or that of the end."""
        try:
            return min(end, first_of_type(self.tokens, at, ','))
        except Unreadable:
            return end

    def members(self, at: int, end: int) -> Members:
        """What stands between these indices of a trait or an implementation."""
        found = list(self.items(at, end))
        return Members([it for it in found if isinstance(it, Function)],
                       [it for it in found if isinstance(it, Ghost)],
                       [it for it in found if isinstance(it, Other)])

    def trait(self, start: Start) -> tuple[list[Item], int]:
        """A trait."""
        opening = first_of_type(self.tokens, start.word, '{')
        after = after_group(self.tokens, opening)
        return [Trait(self.tokens[start.word + 1].text, start.visibility, start.doc,
                      self.line(start.word), self.written(start.head, opening),
                      self.members(opening + 1, after - 1))], after

    def impl(self, start: Start, word: int) -> tuple[list[Item], int]:
        """An implementation, whose first word is at this index."""
        opening = first_of_type(self.tokens, word, '{')
        after = after_group(self.tokens, opening)
        bounds = first_of_type(self.tokens, word, 'where', '{')
        first = word + 1
        if self.is_at(first, '<'):
            first = self.after_angles(first)
        middle = self.of_trait(first, bounds)
        trait = '' if middle is None else self.joined(first, middle)
        owner = self.joined(first if middle is None else middle + 1, bounds)
        return [Impl(start.doc, self.line(word), self.joined(start.head, opening), trait, owner,
                     self.members(opening + 1, after - 1))], after

    def after_angles(self, at: int) -> int:
        """The index after the angle brackets that open there."""
        depth = 0
        for it in outside(self.tokens, at):
            if self.tokens[it].kind == 'sign':
                depth += {'<': 1, '>': -1}.get(self.tokens[it].text, 0)
            if depth == 0:
                return it + 1
        raise Unreadable('no > ends the generics')

    def of_trait(self, at: int, end: int) -> Optional[int]:
        """The index of the `for` between a trait and its type. One of a bound is before `<`."""
        try:
            found = first_of_type(self.tokens, at, 'for', 'where', '{')
        except Unreadable:
            return None
        return found if found < end and self.is_at(found, 'for') else None


def read(file: str, text: str) -> Source:
    """What the source of this name has."""
    return Reader(file, text).source()
