"""A source of Rattle as tokens, and walks over them."""

import re
from collections.abc import Iterator, Sequence
from typing import NamedTuple

# The text of a clause is a language of its own, in which a name may end in `'`. So a `'` that
# begins no character and no lifetime is a sign.
TOKEN = re.compile(r'''
    (?P<space>\s+)
  | (?P<doc>///(?!/)[^\n]*)
  | (?P<inner>//![^\n]*)
  | (?P<comment>//[^\n]*|/\*.*?\*/)
  | (?P<string>b?r(?P<hashes>\#*)".*?"(?P=hashes)|b?"(?:\\.|[^"\\])*")
  | (?P<char>b?'(?:\\(?:u\{[^}]*\}|x..|.)|[^\\'\n])')
  | (?P<lifetime>'\w+)
  | (?P<word>\w+)
  | (?P<sign>->|=>|::|.)
''', re.VERBOSE | re.DOTALL)
LEFT_OUT = ('space', 'comment')
CLOSING = {'(': ')', '[': ']', '{': '}'}


class Unreadable(Exception):
    """What stands in a source in a form that isn't read here, or that the pages can't show."""


class Token(NamedTuple):
    """A token: its kind, by the names in TOKEN, its text, and where it begins."""

    kind: str
    text: str
    start: int

    @property
    def end(self) -> int:
        """Where it ends."""
        return self.start + len(self.text)


def tokens(text: str) -> list[Token]:
    """The tokens of a source, without comments. The last one ends it, and is empty."""
    found = [Token(match.lastgroup or '', match[0], match.start())
             for match in TOKEN.finditer(text) if match.lastgroup not in LEFT_OUT]
    return [*found, Token('end', '', len(text))]


def is_sign(token: Token, text: str) -> bool:
    """Whether the token is this sign, or this word, and no text in quotes."""
    return token.text == text and token.kind in ('sign', 'word')


def after_group(listed: Sequence[Token], first: int) -> int:
    """The index after the group that this bracket opens. In braces only braces count."""
    opening = listed[first].text
    opens = '{' if opening == '{' else ''.join(CLOSING)
    closes = [CLOSING[it] for it in opens]
    depth = 0
    for at in range(first, len(listed)):
        token = listed[at]
        if token.kind != 'sign':
            continue
        if token.text in opens:
            depth += 1
        elif token.text in closes:
            depth -= 1
            if depth == 0:
                return at + 1
    raise Unreadable(f'no {CLOSING[opening]} ends a group')


def outside(listed: Sequence[Token], first: int) -> Iterator[int]:
    """The indices from this one on of the tokens that stand in no brackets. A bracket that opens a
    group is one of them."""
    at = first
    while listed[at].kind != 'end':
        yield at
        opens = listed[at].kind == 'sign' and listed[at].text in CLOSING
        at = after_group(listed, at) if opens else at + 1


def first_of(listed: Sequence[Token], first: int, *wanted: str) -> int:
    """The index of the first of these signs or words, from this index on, that stands in no
    brackets."""
    for at in outside(listed, first):
        if any(is_sign(listed[at], it) for it in wanted):
            return at
    raise Unreadable(f'none of {" ".join(wanted)} follows')


def first_of_type(listed: Sequence[Token], first: int, *wanted: str) -> int:
    """The same where types stand: angle brackets are brackets too."""
    depth = 0
    for at in outside(listed, first):
        if depth == 0 and any(is_sign(listed[at], it) for it in wanted):
            return at
        if listed[at].kind == 'sign':
            depth += {'<': 1, '>': -1}.get(listed[at].text, 0)
    raise Unreadable(f'none of {" ".join(wanted)} follows')
