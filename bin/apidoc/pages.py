"""The pages: which sections each has, where the links of all lead, and their texts."""

import re
from collections.abc import Iterable, Iterator, Mapping, Sequence
from functools import partial
from pathlib import Path, PurePath
from typing import NamedTuple

from .crates import Crates
from .sections import (Section, call_section, entry_sections, is_iterator, module_sections,
                       paragraphs, subjects_of)
from .surface import Call, Entry, Module, Surface, surface
from .items import Trait
from .texts import Scope, Writer, wrapped
from .tokens import Unreadable

CRATE = 'regex_lite'
INDEX = 'README'
ITERATORS = 'iterators'
LONGEST = 800  # lines of a page; a type that has more is split by subject
MADE = '<!-- bin/api makes this page from the sources: change their comments, and run it again. -->'
NAMES = '## Names in contracts'
INTRODUCTION = '''
These pages have all public types, traits and functions of the crate. `bin/api` makes them from the
sources. A call with a condition is checked where it is called: the proof of the caller fails unless
the condition holds there. What is proved of a call is folded away below it, as its contract. The
end of each page says where the names in its contracts are defined; the others are the kit's.
docs/WORDS.md defines the words, docs/GUIDE.md has whole programs, and docs/PROVING.md says how one
is proved.
'''


class Page(NamedTuple):
    """A page: its name, without the ending, and its sections."""

    name: str
    sections: list[Section]

    @property
    def file(self) -> str:
        """The name of its file."""
        return f'{self.name}.md'

    def anchors(self) -> list[str]:
        """The anchors of its sections: what a forge makes of their headings."""
        found: list[str] = []
        for section in self.sections:
            anchor = slug(section.title)
            count = sum(slug(it.title) == anchor for it in self.sections[:len(found)])
            found.append(f'{anchor}-{count}' if count else anchor)
        return found


def slug(title: str) -> str:
    """The anchor of a heading, before a number that tells it from others."""
    return re.sub(r'[^\w\- ]', '', title.lower()).strip().replace(' ', '-')


def snake(name: str) -> str:
    """The name of a type as that of a file."""
    return re.sub(r'(?<=[a-z0-9])(?=[A-Z])', '_', name).lower()


def targets(pages: Iterable[Page]) -> dict[str, tuple[str, str]]:
    """The page and the anchor to which each name leads. The first section of a page needs none."""
    found: dict[str, tuple[str, str]] = {}
    for page in pages:
        for number, (section, anchor) in enumerate(zip(page.sections, page.anchors())):
            for name in section.names:
                found[name] = (page.file, anchor if number else '')
    return found


def targets_from(page: Page, found: Mapping[str, tuple[str, str]]) -> dict[str, str]:
    """Where each name leads from a page."""
    own = {name: f'#{anchor or page.anchors()[0]}' for name, (file, anchor) in found.items()
           if file == page.file}
    others = {name: f'{file}#{anchor}' if anchor else file
              for name, (file, anchor) in found.items()}
    return {**others, **own}


def written(page: Page, found: Mapping[str, tuple[str, str]], crates: Crates) -> str:
    """The text of a page."""
    writer = Writer(targets_from(page, found), crates)
    parts: list[list[str]] = [[MADE]]
    for section in page.sections:
        parts += [[f'{"#" * section.level} {section.title}'], section.body(writer)]
    names = writer.specifications()
    if names:
        parts += [[NAMES], names]
    return '\n'.join([*paragraphs([*parts, writer.definitions()]), ''])


def texts(listed: Sequence[Page], crates: Crates) -> dict[str, str]:
    """The texts of the pages, by the names of their files."""
    found = targets(listed)
    made = {page.file: written(page, found, crates) for page in listed}
    if len(made) < len(listed):
        raise Unreadable(f'two pages have one name: {" ".join(sorted(it.name for it in listed))}')
    return made


def groups(made: Surface) -> dict[str, list[Entry]]:
    """The types and traits of each page: the iterators have one, and so have those that one file
    defines. It has the name of its only type, or else of the file."""
    by_file: dict[str, list[Entry]] = {}
    for entry in sorted(made.entries.values(), key=lambda it: it.name):
        key = ITERATORS if is_iterator(entry) else entry.place.file
        by_file.setdefault(key, []).append(entry)
    found: dict[str, list[Entry]] = {}
    for key, entries in by_file.items():
        stem = PurePath(key).stem
        name = stem if len(entries) > 1 or key == ITERATORS else snake(entries[0].name)
        if key != ITERATORS:
            entries.sort(key=lambda it: (snake(it.name) != stem, it.item.line))
        found[name] = entries
    return found


def joined(words: Sequence[str]) -> str:
    """A list in words."""
    return ' and '.join(filter(None, [', '.join(words[:-1]), words[-1]]))


def group_pages(made: Surface, name: str, entries: list[Entry], is_split: bool) -> Iterator[Page]:
    """The pages of the types and traits that belong together."""
    if len(entries) > 1 or name == ITERATORS:
        title = 'Iterators' if name == ITERATORS else joined([f'`{it.name}`' for it in entries])
        yield Page(name, [Section(1, title, [], lambda _: []),
                          *(section for it in entries for section in entry_sections(made, it, 2))])
    elif not is_split:
        yield Page(name, entry_sections(made, entries[0], 1))
    else:
        yield Page(name, entry_sections(made, entries[0], 1, ''))
        parts = dict.fromkeys(it.part for it, _ in subjects_of(made, entries[0]) if it.part)
        for part in parts:
            yield part_page(made, entries[0], part)


def part_page(made: Surface, entry: Entry, part: str) -> Page:
    """The page of a part of a type's calls."""
    first = Section(1, f'`{entry.name}`: {part}', [], lambda writer: [
        f'{writer.link(entry.name)} has a page of its own, with a list of all its calls.'])
    return Page(f'{snake(entry.name)}_{part}', [first, *entry_sections(made, entry, 1, part)])


def laid_out(made: Surface, split: Iterable[str]) -> list[Page]:
    """All pages, of which these are split by subject."""
    names = set(split)
    pages = [page for name, entries in groups(made).items()
             for page in group_pages(made, name, entries, f'{name}.md' in names)]
    pages += [Page(name, [call_section(call, '', 1)]) for name, call in made.functions.items()]
    pages += [Page(name, module_sections(module)) for name, module in made.modules.items()]
    return [Page(INDEX, index_sections(made)), *pages]


def index_sections(made: Surface) -> list[Section]:
    """The sections of the index."""
    entries = sorted(made.entries.values(), key=lambda it: it.name)
    iterators = [it for it in entries if is_iterator(it)]
    traits = [it for it in entries if isinstance(it.item, Trait)]
    types = [it for it in entries if it not in iterators and it not in traits]
    first = Section(1, f'The crate `{made.place.crate}`', [], lambda writer: paragraphs([
        writer.text(made.doc, Scope(made.place.file, '')), INTRODUCTION.strip().split('\n')]))
    listed = [('Types', types), ('Iterators', iterators), ('Traits', traits)]
    return [first,
            *(Section(2, title, [], partial(entry_list, own)) for title, own in listed if own),
            Section(2, 'Functions', [], partial(function_list, '', list(made.functions.values()))),
            *(Section(2, f'Functions of `{it.name}`', [], partial(module_list, it))
              for it in made.modules.values())]


def list_item(writer: Writer, name: str, doc: str, file: str) -> list[str]:
    """The item of a list for a name, with the first sentence of its documentation."""
    sentence = writer.first_sentence(doc, Scope(file, name))
    return wrapped(f'- {writer.link(name)}[]: {sentence}', '  ')


def entry_list(entries: Sequence[Entry], writer: Writer) -> list[str]:
    """A list of types or traits."""
    return [line for it in entries
            for line in list_item(writer, it.name, it.item.doc, it.place.file)]


def function_list(above: str, calls: Sequence[Call], writer: Writer) -> list[str]:
    """A list of functions, whose names have this before them."""
    return [line for it in calls for line in list_item(writer, above + it.function.name,
                                                       it.function.doc, it.place.file)]


def module_list(module: Module, writer: Writer) -> list[str]:
    """What a module is for, and a list of its functions."""
    sentence = writer.first_sentence(module.doc, Scope(module.place.file, module.name))
    return paragraphs([wrapped(f'{writer.link(module.name)}[]: {sentence}', ''),
                       function_list(f'{module.name}::', module.calls, writer)])


def made_from(files: Mapping[str, str], crate: str) -> dict[str, str]:
    """The texts of the pages of a crate, by the names of their files, from the sources and the
    specifications of the crates, by their paths in the folder of these."""
    crates = Crates(files)
    made = surface(crates, crate)
    long = [name for name, text in texts(laid_out(made, []), crates).items()
            if text.count('\n') > LONGEST]
    return texts(laid_out(made, long), crates)


def sources(top: Path) -> dict[str, str]:
    """The sources and the specifications of all crates of a repository, by their paths in the
    folder of the crates."""
    folder = top / 'crates'
    return {str(file.relative_to(folder)): file.read_text(encoding='utf-8')
            for kind in ('src/**/*.rt', 'specs/**/*.antt') for file in folder.glob(f'*/{kind}')}


def pages(top: Path) -> dict[str, str]:
    """The texts of all pages of a repository, by the names of their files."""
    return made_from(sources(top), CRATE)
