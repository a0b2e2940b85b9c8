"""The results of the calls that are made from the answers of searches, in the form of the lists."""

import re
from typing import Optional

from .answers import Found, Search

GREATEST = 2**64 - 1
REFERENCE = re.compile(r'\$(?:(\$)|\{([^}]*)\}|([0-9A-Za-z_]+))')


class Calls:
    """The calls of a regex on one haystack, by a search there."""

    def __init__(self, search: Search) -> None:
        self.search = search
        self.regex = search.regex
        self.text = search.haystack.text
        self.listed: Optional[list[Found]] = None

    def matches(self) -> list[Found]:
        """All matches."""
        if self.listed is None:
            self.listed = self.search.matches()
        return self.listed

    def spans(self, match: Found) -> str:
        """The offsets of all groups of a match."""
        offsets = self.search.haystack.offsets
        return ' '.join('-' if span is None else f'{offsets[span[0]]}..{offsets[span[1]]}'
                        for span in match.spans)

    def captures_iter(self, limit: int, template: str) -> str:
        """The groups of each match."""
        return ''.join(f'{self.spans(match)}\n' for match in self.matches())

    def split(self, limit: int, template: str) -> str:
        """What stands before, between and after the matches."""
        return self.pieces(self.matches())

    def splitn(self, limit: int, template: str) -> str:
        """The same, as at most this many pieces, of which the last is not cut."""
        return self.pieces(self.matches()[:limit - 1]) if limit > 0 else ''

    def pieces(self, matches: list[Found]) -> str:
        """The haystack, cut at these matches."""
        starts = [0, *(match.end for match in matches)]
        ends = [*(match.start for match in matches), len(self.text)]
        return ''.join(f'[{self.text[start:end]}]\n' for start, end in zip(starts, ends))

    def replacen(self, limit: int, template: str) -> str:
        """The haystack with the first matches, or all of them, replaced."""
        replaced = self.matches()[:limit] if limit else self.matches()
        text, at = '', 0
        for match in replaced:
            text += self.text[at:match.start] + self.filled(match, template)
            at = match.end
        return text + self.text[at:]

    def expand(self, limit: int, template: str) -> str:
        """The template with the groups of the first match, if there is one."""
        match = self.search.from_position(0)
        return '' if match is None else self.filled(match, template)

    def filled(self, match: Found, template: str) -> str:
        """The template with the groups of a match."""
        return REFERENCE.sub(lambda found: self.referred(match, *found.groups()), template)

    def referred(self, match: Found, dollar: str, braced: Optional[str], bare: str) -> str:
        """The text of a reference."""
        if dollar:
            return dollar
        name = bare if braced is None else braced
        is_number = name.isascii() and name.isdigit() and int(name) <= GREATEST
        number = int(name) if is_number else self.regex.names.get(name)
        span = match.spans[number] if number is not None and number < len(match.spans) else None
        return '' if span is None else self.text[span[0]:span[1]]
