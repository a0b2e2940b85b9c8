"""Templates for replacements, as the calls of Python take them."""

from __future__ import annotations

import re
from typing import List, NamedTuple, Optional

from regex_lite._library import Regex

# A dollar, or a reference to a group.
_DOLLAR = re.compile(r'\$(?:(?P<dollar>\$)|(?P<word>[0-9A-Za-z_]+)|\{(?P<braced>[^}]*)\})')
_INDEX = re.compile('0*([0-9]{1,9})')


class Groups(NamedTuple):
    """The names of the groups of a pattern, by their indices."""

    names: List[Optional[str]]

    def reference(self, name: str) -> str:
        """The reference to the group with this name or index in a template of Python: empty if
        there is no such group."""
        index = _INDEX.fullmatch(name)
        if index:
            return f'\\g<{int(index[1])}>' if int(index[1]) < len(self.names) else ''
        return f'\\g<{name}>' if name and name in self.names else ''


def groups_of(regex: Regex) -> Groups:
    """The groups of a pattern."""
    return Groups([regex.name(i) for i in range(regex.groups)])


def python_template(template: str, groups: Groups) -> str:
    """The template of Python with the same expansion as this one of the library."""
    parts = []
    end = 0
    for found in _DOLLAR.finditer(template):
        parts.append(template[end:found.start()].replace('\\', '\\\\'))
        end = found.end()
        parts.append('$' if found['dollar'] else groups.reference(found['word'] or found['braced']))
    return ''.join([*parts, template[end:].replace('\\', '\\\\')])
