"""Documentation as Markdown: its links, its headings, its examples and its first sentence."""

import re
from collections.abc import Iterable, Iterator, Mapping
from typing import NamedTuple, Optional

from .crates import Crates, Place
from .tokens import Unreadable

WIDTH = 100  # columns
FROM_PAGES = '../../crates/'  # the folder of the crates, from that of the pages
FENCE = re.compile(r'\s*(```+|~~~+)\s*(.*)')
RUST = 'rust'
# Words after the fence of an example that say how it is tested, and not in which language it is.
TESTED = {'', 'rust', 'ignore', 'no_run', 'should_panic', 'compile_fail'}
HIDDEN = re.compile(r'\s*#(?: |$)')  # a line of an example that only its test needs
HEADING = re.compile(r'^#+ +(.+)$', re.MULTILINE)
CONDITION = re.compile(r'^(Conditions?:)', re.MULTILINE)
# A link whose text is code, code that is none, and a link with another text.
INLINE = re.compile(r'''
    \[`(?P<code>[^`]+)`\](?:\((?P<path>[^\s()]+)(?:\(\))?\))?
  | (?P<ticks>`+)(?!`).+?(?<!`)(?P=ticks)(?!`)
  | \[(?P<text>[^\[\]`]+)\]\((?P<target>[^\s()]+)\)
''', re.VERBOSE | re.DOTALL)
PATH = re.compile(r'(?:\w+@)?((?:\w+::)*\w+)(?:\(\)|!)?')
OUTSIDE = re.compile(r'\w+:(?!:)|#|.*[./]')  # a target that is no path of an item
SENTENCE = re.compile(r'(?:`[^`]*`|[^`])*?[.!?](?=\s|$)', re.DOTALL)
# What would begin a list, a heading or a quotation at the start of a line.
MARK = re.compile(r'(?:[-+*#>|=]+|\d+[.)])$')
WORD = re.compile(r'(?:`[^`]*`|[^\s`])+')


class Piece(NamedTuple):
    """A run of lines of documentation: an example, or prose."""

    is_code: bool
    lines: list[str]


class Scope(NamedTuple):
    """What stands around a text: its file, and the type that `Self` is in its links."""

    file: str
    owner: str


class Writer:
    """Writes the texts of one page, and notes to which names it links and of which specifications
    the contracts on it are."""

    def __init__(self, targets: Mapping[str, str], crates: Crates) -> None:
        self.targets, self.crates = targets, crates
        self.used: dict[str, str] = {}
        self.cited: dict[str, set[str]] = {}

    def link(self, name: str, label: Optional[str] = None) -> str:
        """A link to what has this name, whose text is the label as code, by default the name."""
        key = f'`{name}`'
        self.used[key] = self.targets[name]
        return f'[{key}]' if label in (None, name) else f'[`{label}`][{key}]'

    def cite(self, place: Place, contract: str) -> None:
        """Notes of which specifications a contract in this module is."""
        known = self.crates.specifications(place)
        for name in re.findall(r'\w+', contract):
            if name in known:
                self.cited.setdefault(known[name], set()).add(name)

    def contract(self, text: str) -> list[str]:
        """The lines of a contract, which are folded away, or none if there is none."""
        return folded('Contract', fenced(text, 'text')) if text else []

    def specifications(self) -> list[str]:
        """The lines that say where the names in the contracts of the page are defined."""
        lines = []
        for file, names in sorted(self.cited.items()):
            self.used[f'`{file}`'] = FROM_PAGES + file
            listed = ', '.join(f'`{it}`' for it in sorted(names))
            lines += wrapped(f'- [`{file}`][]: {listed}', '  ')
        return lines

    def definitions(self) -> list[str]:
        """The lines that say where the links lead."""
        keys: dict[str, str] = {}
        for key, target in self.used.items():
            if keys.setdefault(key.casefold(), target) != target:
                raise Unreadable(f'two links on one page differ only in case: {key}')
        lines = [f'[{key}]: {target}' for key, target in sorted(self.used.items())]
        return [it if len(it) <= WIDTH else it.replace(']: ', ']:\n  ') for it in lines]

    def named(self, path: str, scope: Scope) -> str:
        """The public name of what a link leads to."""
        found = PATH.fullmatch(path)
        words = found[1].split('::') if found else [path]
        while words[:1] and words[0] in ('crate', 'self', 'super'):
            words.pop(0)
        if words[:1] == ['Self']:
            words[0] = scope.owner
        name = '::'.join(words)
        if name not in self.targets:
            raise Unreadable(f'{scope.file}: a link leads to {path}, which is not public')
        return name

    def prose(self, text: str, scope: Scope) -> str:
        """A text with its links to items made links of the page."""
        def linked(match: re.Match[str]) -> str:
            """What stands in the place of a link, or of code."""
            if match['code'] and not (match['path'] and OUTSIDE.match(match['path'])):
                link = self.link(self.named(match['path'] or match['code'], scope), match['code'])
                # Without this, a link before a colon could be read as a definition.
                is_bare = link.count('[') == 1 and text[match.end():].startswith(':')
                return f'{link}[]' if is_bare else link
            if match['target'] and not OUTSIDE.match(match['target']):
                name = self.named(match['target'], scope)
                self.link(name)
                return f'[{match["text"]}][`{name}`]'
            return match[0]
        return INLINE.sub(linked, text)

    def text(self, doc: str, scope: Scope) -> list[str]:
        """The lines of a documentation."""
        lines: list[str] = []
        for piece in pieces(doc):
            if piece.is_code:
                lines += piece.lines
                continue
            text = HEADING.sub(r'**\1**', '\n'.join(piece.lines))
            lines += self.prose(CONDITION.sub(r'**\1**', text), scope).split('\n')
        return lines

    def item(self, begin: str, doc: str, scope: Scope) -> list[str]:
        """An item of a list with a documentation, which follows how it begins."""
        lines: list[str] = []
        for piece in pieces(doc):
            if piece.is_code:
                lines += ['', *(f'  {line}'.rstrip() for line in piece.lines)]
                continue
            for part in re.split(r'\n\s*\n', '\n'.join(piece.lines).strip('\n')):
                text = self.prose(HEADING.sub(r'**\1**', part), scope)
                lines += ['', *wrapped(text, '  ')] if lines else wrapped(f'{begin}{text}', '  ')
        return lines or wrapped(begin, '  ')

    def first_sentence(self, doc: str, scope: Scope) -> str:
        """The first sentence of a documentation."""
        first = re.split(r'\n\s*\n', doc.strip(), maxsplit=1)[0]
        found = SENTENCE.match(first)
        return self.prose(' '.join((found[0] if found else first).split()), scope)


def pieces(doc: str) -> Iterator[Piece]:
    """The prose and the examples of a documentation. The fence of an example says that it is
    Rust where it says nothing else, and lines that only a test needs are left out."""
    lines: list[str] = []
    fence = ''
    for line in doc.split('\n') if doc else []:
        found = FENCE.fullmatch(line)
        if fence:
            if found and found[1].startswith(fence) and not found[2]:
                yield Piece(True, [*lines, fence])
                lines, fence = [], ''
            elif not (lines[0] == fence + RUST and HIDDEN.match(line)):
                lines.append(line)
        elif found:
            yield Piece(False, lines)
            fence = found[1]
            lines = [fence + language(found[2])]
        else:
            lines.append(line)
    if fence:
        raise Unreadable(f'an example has no end: {lines[0]}')
    if lines:
        yield Piece(False, lines)


def language(info: str) -> str:
    """The language of an example by what follows its fence."""
    words = [word for word in re.split(r'[\s,]+', info) if word not in TESTED]
    return words[0] if words else RUST


def wrapped(text: str, indent: str) -> list[str]:
    """A text in lines that are no longer than they may be; all but the first are indented. Code
    isn't cut, and no line begins with what would be a mark there."""
    units: list[str] = []
    for word in WORD.findall(text):
        if units and MARK.match(word):
            units[-1] += f' {word}'
        else:
            units.append(word)
    lines = units[:1]
    for unit in units[1:]:
        if len(lines[-1]) + 1 + len(unit) <= WIDTH:
            lines[-1] += f' {unit}'
        else:
            lines.append(indent + unit)
    return lines


def fenced(text: str, kind: str) -> list[str]:
    """A text as code of this kind."""
    return [f'```{kind}', *text.split('\n'), '```']


def folded(title: str, lines: Iterable[str]) -> list[str]:
    """Lines that are shown once the title is clicked."""
    return [f'<details><summary>{title}</summary>', '', *lines, '', '</details>']
