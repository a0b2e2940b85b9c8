"""Templates for replacements, as `re` has them: `\\1`, `\\g<1>`, `\\g<name>` and escapes."""

from __future__ import annotations

import re
from functools import lru_cache
from typing import TYPE_CHECKING, Any, List, NamedTuple, Optional, Tuple, Union

from ._errors import error

if TYPE_CHECKING:
    from ._matches import Match
    from ._patterns import Pattern

MOST_READ = 512  # cached templates
MOST_DIGITS = 9  # of an index that some pattern may have
# A text, or the index of a group.
Part = Union[str, int]

_ESCAPES = {'n': '\n', 't': '\t', 'r': '\r', 'a': '\a', 'b': '\b', 'f': '\f', 'v': '\v',
            '\\': '\\'}
_BACKSLASH = re.compile(r'''\\(?:
    g<(?P<name>[^>]+)>
  | (?P<octal>0[0-7]{0,2}|[1-7][0-7]{2})
  | (?P<index>[1-9][0-9]?)
  | (?P<escape>.?))''', re.DOTALL | re.VERBOSE)


class Reference(NamedTuple):
    """The index of a group, as it is written and as a number, or its name, and its offset in the
    template."""

    name: str
    number: Optional[int]
    pos: int


def parts_of(template: str, pattern: Pattern[Any]) -> List[Part]:
    """The texts and the groups of a template, in order. Raises `error` if the template is wrong or
    has an index that no group has, and IndexError for a name that no group has."""
    return [part if isinstance(part, str) else _index(part, template, pattern)
            for part in _read(template)]


def expanded(parts: List[Part], found: Match[Any]) -> str:
    """The parts with the texts of the groups of a match."""
    return ''.join(part if isinstance(part, str) else found[part] or '' for part in parts)


def as_library_has_it(parts: List[Part]) -> str:
    """The parts as a template of the library, where `${1}` is a group and `$$` is a `$`."""
    return ''.join(part.replace('$', '$$') if isinstance(part, str) else f'${{{part}}}'
                   for part in parts)


def forget_templates() -> None:
    """Clears the cache of templates."""
    _read.cache_clear()


@lru_cache(MOST_READ)
def _read(template: str) -> Tuple[Union[str, Reference], ...]:
    """The texts and the references of a template, in order. Neighbouring texts are one."""
    parts: List[Union[str, Reference]] = []
    texts: List[str] = []
    end = 0
    for found in _BACKSLASH.finditer(template):
        texts.append(template[end:found.start()])
        end = found.end()
        kind = found.lastgroup or ''
        if kind in ('name', 'index'):
            parts += [''.join(texts),
                      Reference(found[kind], _number(found[kind]), found.start(kind))]
            texts = []
        else:
            texts.append(_escaped(found, template))
    return (*parts, ''.join([*texts, template[end:]]))


def _escaped(found: re.Match[str], template: str) -> str:
    """The text of an escape."""
    octal, escape, start = found['octal'], found['escape'], found.start()
    if octal is not None:
        if int(octal, 8) > 0o377:
            raise error(f'octal escape value \\{octal} outside of range 0-0o377', template, start)
        return chr(int(octal, 8))
    if escape == 'g':
        raise _unfinished(template, found.end())
    if escape == '':
        raise error('bad escape (end of pattern)', template, start)
    if escape not in _ESCAPES and escape.isascii() and escape.isalpha():
        raise error(f'bad escape \\{escape}', template, start)
    return _ESCAPES.get(escape, found.group())


def _unfinished(template: str, pos: int) -> error:
    """The error for a `\\g` without a name, which ends there."""
    if template[pos:pos + 1] != '<':
        return error('missing <', template, pos)
    if template[pos + 1:pos + 2] in ('', '>'):
        return error('missing group name', template, pos + 1)
    return error('missing >, unterminated name', template, pos + 1)


def _number(name: str) -> Optional[int]:
    """The index that these digits are, if they are one; all numbers that are too large are the
    same."""
    if not (name.isdecimal() and name.isascii()):
        return None
    digits = name.lstrip('0')[:MOST_DIGITS + 1]
    return int(digits or '0')


def _index(reference: Reference, template: str, pattern: Pattern[Any]) -> int:
    """The index of a group."""
    name, number, pos = reference
    if number is not None:
        if number < pattern._regex.groups:
            return number
        raise error(f'invalid group reference {name.lstrip("0")}', template, pos)
    index = pattern.groupindex.get(name)
    if index is not None:
        return index
    if name.isidentifier():
        raise IndexError(f'unknown group name {name!r}')
    raise error(f'bad character in group name {name!r}', template, pos)
