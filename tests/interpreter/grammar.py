"""The grammar: which tree a pattern has under some flags. docs/SYNTAX.md describes it in words."""

import unicodedata
from collections.abc import Collection
from typing import Optional

from . import classes, escapes
from .characters import Members, among, everything, in_either_case, is_letter, without
from .cursor import Cursor, Refused
from .trees import Alternation, Concat, Empty, Group, Look, Read, Repeat, Tree, depth

NEST_LIMIT = 50
GREATEST = 2**32 - 1
FLAGS = 'imsRUx'
COUNTS = {'?': (0, 1), '*': (0, None), '+': (1, None)}  # the least and the most passes


class Nested(Exception):
    """The pattern has a tree, and its groups or the tree are nested too deeply."""


class Undecided(Exception):
    """Whether the pattern has a tree can't be decided here."""


def parsed(pattern: str, flags: Collection[str]) -> Tree:
    """The tree of the pattern under these flags of the builder."""
    reader = Grammar(pattern, flags)
    tree = reader.alternatives()
    if not reader.is_over():
        raise Refused('a group is closed that was not opened')
    if reader.deepest > NEST_LIMIT or depth(tree) > NEST_LIMIT:
        raise Nested
    return tree


class Grammar(Cursor):
    """Reads a pattern from left to right."""

    def __init__(self, pattern: str, flags: Collection[str]) -> None:
        super().__init__(pattern, flags)
        self.count = 0
        self.names: set[str] = set()
        self.level = self.deepest = 0

    def alternatives(self) -> Tree:
        """Branches up to the end of the pattern, or to the `)` of the group."""
        branches = [self.branch()]
        while self.take('|'):
            branches.append(self.branch())
        return branches[0] if len(branches) == 1 else Alternation(tuple(branches))

    def branch(self) -> Tree:
        """Items, operators and directives."""
        parts: list[Tree] = []
        self.gap()
        while not self.is_over() and self.ahead not in '|)':
            if self.ahead in '?*+{':
                if not parts:
                    raise Refused('an operator without an item')
                parts[-1] = self.repetition(parts[-1])
            elif self.take('('):
                item = self.after_parenthesis()
                parts += [] if item is None else [item]
            else:
                parts.append(self.leaf())
            self.gap()
        if len(parts) < 2:
            return parts[0] if parts else Empty()
        return Concat(tuple(parts))

    def leaf(self) -> Tree:
        """An item of which no item is a part."""
        if self.take('['):
            return Read(classes.bracketed(self))
        if self.take('.'):
            return Read(self.dot())
        if self.take('^'):
            return Look(self.line('start'))
        if self.take('$'):
            return Look(self.line('end'))
        if self.take('\\'):
            meant = escapes.escape(self)
            return self.character(meant) if isinstance(meant, str) else meant
        return self.character(self.next())

    def character(self, character: str) -> Read:
        """A character outside of classes."""
        members = among(character)
        is_either = 'i' in self.flags and is_letter(ord(character))
        return Read(in_either_case(members) if is_either else members)

    def dot(self) -> Members:
        """What a dot stands for."""
        if 's' in self.flags:
            return everything
        return without(among('\r\n' if 'R' in self.flags else '\n'))

    def line(self, side: str) -> str:
        """The look of `^` or `$`."""
        if 'm' not in self.flags:
            return side
        return f'{"CRLF" if "R" in self.flags else "line"} {side}'

    def after_parenthesis(self) -> Optional[Tree]:
        """The group after its opening parenthesis, or None for a directive."""
        outside = self.flags
        number = name = None
        self.gap()
        if not self.take('?'):
            self.count = number = self.count + 1
        elif self.take('P<') or self.names_group():
            self.count = number = self.count + 1
            name = self.name()
        else:
            self.flags, is_directive = self.changed_flags()
            if is_directive:
                return None
        self.level += 1
        self.deepest = max(self.deepest, self.level)
        body = self.alternatives()
        if self.is_over():
            raise Refused('a group is not closed')
        self.flags = outside
        self.expect(')')
        self.level -= 1
        return body if number is None else Group(number, name, body)

    def names_group(self) -> bool:
        """Takes the `<` before a name."""
        if any(self.stands(head) for head in ('=', '!', '<=', '<!')):
            raise Refused('look-around')
        return self.take('<')

    def name(self) -> str:
        """The name of a group, up to its `>`."""
        name = self.until('>')
        if not name or not is_name(name) or name in self.names:
            raise Refused('no name, or one that is given twice')
        self.names.add(name)
        return name

    def changed_flags(self) -> tuple[frozenset[str], bool]:
        """The flags after `(?`, and whether they are a directive."""
        letters = ''
        while not self.is_over() and self.ahead not in ':)':
            letters += self.next()
        end = self.next()
        plain = letters.replace('-', '')
        is_right = (set(plain) <= set(FLAGS + 'u') and len(set(letters)) == len(letters)
                    and not letters.endswith('-'))
        if not is_right or end == ')' and not letters:
            raise Refused('no flags')
        on, _, off = letters.partition('-')
        return frozenset(self.flags - set(off) | set(on)) - {'u'}, end == ')'

    def repetition(self, body: Tree) -> Tree:
        """The operator that stands here, on this body."""
        if self.take('{'):
            least, most = self.counts()
            self.gap()
        else:
            least, most = COUNTS[self.next()]
        is_lazy = self.take('?')
        if most == 0:
            return Empty()
        if least == most == 1:
            return body
        return Repeat(least, most, is_lazy == ('U' in self.flags), body)

    def counts(self) -> tuple[int, Optional[int]]:
        """The numbers of a counted operator after its brace."""
        least = self.number()
        most: Optional[int] = least
        if self.take(','):
            self.gap()
            most = None if self.stands('}') else self.number()
        self.expect('}')
        if most is not None and least > most:
            raise Refused('a range of counts in the wrong order')
        return least, most

    def number(self) -> int:
        """A number with white space on both sides."""
        self.white_space()
        digits = self.digits('0123456789')
        if not digits or int(digits) > GREATEST:
            raise Refused('no number, or too large a one')
        self.white_space()
        return int(digits)


def is_name(name: str) -> bool:
    """Whether the text can be the name of a group."""
    return can_begin(name[0]) and all(
        can_begin(c) or c in '.[]' or unicodedata.category(c) in ('Nd', 'Nl', 'No')
        for c in name[1:])


def can_begin(character: str) -> bool:
    """Whether a name can begin with the character. Python knows letters, but not all
    characters that are alphabetic."""
    category = unicodedata.category(character)
    if category in ('Mn', 'Mc', 'So', 'Cn'):
        raise Undecided
    return character == '_' or category[0] == 'L' or category == 'Nl'
