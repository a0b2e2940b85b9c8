"""The sections of the pages: those of a type or a trait, of its calls and its implementations, of a
function and of a module."""

from collections.abc import Callable, Sequence
from typing import NamedTuple, Optional

from .declarations import (contract, contract_of_impl, contract_of_impls, declaration,
                           listed_parts)
from .items import Trait, Type
from .subjects import SECTIONED, Subject, by_subject, in_order
from .surface import Call, Entry, Implementation, Module, Surface, last_word
from .texts import Scope, Writer, fenced, wrapped


class Section(NamedTuple):
    """A section: the level and the text of its heading, the names that links to it have, and what
    writes its lines."""

    level: int
    title: str
    names: list[str]
    body: Callable[[Writer], list[str]]


def nothing(_: Writer) -> list[str]:
    """The lines of a section that has others alone."""
    return []


def paragraphs(parts: Sequence[Sequence[str]]) -> list[str]:
    """The lines of these parts, with an empty one between two."""
    lines: list[str] = []
    for part in parts:
        if part:
            lines += ['', *part] if lines else part
    return lines


def call_lines(call: Call, owner: str, writer: Writer) -> list[str]:
    """The lines of a call: how it is declared, its documentation and its contract."""
    function = call.function
    scope = Scope(f'{call.place.file}:{function.line}', owner)
    writer.cite(call.place, function.clauses)
    asking = [f'It stands in `{call.asking}`.'] if call.asking else []
    return paragraphs([fenced(function.head, 'rust'), asking, writer.text(function.doc, scope),
                       writer.contract(function.clauses)])


def call_section(call: Call, owner: str, level: int) -> Section:
    """The section of a call of this type or module."""
    name = call.function.name
    return Section(level, f'`{name}`', [f'{owner}::{name}' if owner else name],
                   lambda writer: call_lines(call, owner, writer))


def impl_lines(found: Implementation, owner: str, writer: Writer) -> list[str]:
    """The item of a list for an implementation of a trait."""
    impl = found.impl
    types = ''.join(f', `{it}`' for it in impl.members.types)
    doc = '\n\n'.join(filter(None, [impl.doc, *(it.doc for it in impl.members.functions)]))
    begin = f'- `{impl.head}`{types}'
    return writer.item(f'{begin}: ' if doc else begin, doc,
                       Scope(f'{found.place.file}:{impl.line}', owner))


def impls_lines(entry: Entry, writer: Writer) -> list[str]:
    """The implementations of a type: those of its own, those that are derived, and their
    contracts."""
    lines = [line for it in entry.impls for line in impl_lines(it, entry.name, writer)]
    if isinstance(entry.item, Type) and entry.item.derived:
        derived = ', '.join(f'`{it}`' for it in entry.item.derived)
        lines += wrapped(f'- Derived: {derived}', '  ')
    return paragraphs([lines, impls_contract(entry, writer)])


def impls_contract(entry: Entry, writer: Writer) -> list[str]:
    """The lines of the contracts of a type's implementations. A trait's stand at the types."""
    if isinstance(entry.item, Trait):
        return []
    for it in entry.impls:
        writer.cite(it.place, contract_of_impl(it.impl))
    return writer.contract(contract_of_impls(entry.impls))


def impls_section(entry: Entry, level: int) -> Optional[Section]:
    """The section of a type's implementations, or of a trait's, if there is one."""
    derived = isinstance(entry.item, Type) and entry.item.derived
    if not entry.impls and not derived:
        return None
    title = 'Implementations' if isinstance(entry.item, Trait) else 'Trait implementations'
    return Section(level, title, [], lambda writer: impls_lines(entry, writer))


def entry_lines(entry: Entry, writer: Writer, contents: Sequence[str]) -> list[str]:
    """The lines of a type or a trait: how it is declared, its documentation, what its fields or
    variants are, which calls it has, and what contracts take it for."""
    scope = Scope(f'{entry.place.file}:{entry.item.line}', entry.name)
    parts = part_lines(entry.item, scope, writer) if isinstance(entry.item, Type) else []
    for place in {entry.place, *(it.place for it in entry.models)}:
        writer.cite(place, contract(entry))
    return paragraphs([fenced(declaration(entry), 'rust'), writer.text(entry.item.doc, scope),
                       parts, contents, writer.contract(contract(entry))])


def part_lines(item: Type, scope: Scope, writer: Writer) -> list[str]:
    """A list of the public fields of a type, or of its variants, each with its own fields."""
    lines = []
    for it in listed_parts(item):
        lines += writer.item(f'- `{it.name}`: ', it.doc, scope)
        for inner in it.parts:
            own = writer.item(f'- `{inner.name}`: ', inner.doc, scope) if inner.doc else []
            lines += [f'  {line}'.rstrip() for line in own]
    return lines


def entry_names(entry: Entry) -> list[str]:
    """The names that links to a type have: its own, and those of its fields and variants."""
    parts = listed_parts(entry.item) if isinstance(entry.item, Type) else []
    return [entry.name, *(f'{entry.name}::{it.name}' for it in parts)]


def trait_calls(entry: Entry) -> list[Call]:
    """The calls of a trait: those that an implementation has to have, and then the others."""
    if not isinstance(entry.item, Trait):
        return []
    functions = sorted(entry.item.members.functions, key=lambda it: it.has_body)
    return [Call(entry.place, it) for it in functions]


def subjects_of(surface: Surface, entry: Entry) -> list[tuple[Subject, list[Call]]]:
    """The calls of a type by their subjects, if it has many."""
    return by_subject(surface, entry) if len(entry.calls) > SECTIONED else []


def contents_lines(surface: Surface, entry: Entry, writer: Writer) -> list[str]:
    """A list of the calls by their subjects."""
    lines = []
    for subject, calls in subjects_of(surface, entry):
        names = ', '.join(f'[`{it.function.name}`]({writer.targets[name_of(entry, it)]})'
                          for it in calls)
        lines += wrapped(f'- **{subject.title}**: {names}', '  ')
    return lines


def name_of(entry: Entry, call: Call) -> str:
    """The name that links to a call have."""
    return f'{entry.name}::{call.function.name}'


def main_section(surface: Surface, entry: Entry, level: int) -> Section:
    """The section of a type or a trait itself."""
    return Section(level, f'`{entry.name}`', entry_names(entry), lambda writer: entry_lines(
        entry, writer, contents_lines(surface, entry, writer)))


def subject_sections(entry: Entry, subject: Subject, calls: Sequence[Call],
                     level: int) -> list[Section]:
    """The sections of a subject and its calls."""
    return [Section(level, subject.title, [], nothing),
            *(call_section(it, entry.name, level + 1) for it in calls)]


def entry_sections(surface: Surface, entry: Entry, level: int, part: Optional[str] = None
                   ) -> list[Section]:
    """The sections of a type or a trait; of one whose calls stand on several pages, the sections of
    this part of them. The first part has no name, and has the type itself."""
    sections = [] if part else [main_section(surface, entry, level)]
    subjects = subjects_of(surface, entry)
    for subject, calls in subjects:
        if part in (None, subject.part):
            sections += subject_sections(entry, subject, calls, level + 1)
    if not subjects:
        calls = in_order(entry) + trait_calls(entry)
        sections += [call_section(it, entry.name, level + 1) for it in calls]
    last = None if part else impls_section(entry, level + 1)
    return [*sections, last] if last else sections


def module_lines(module: Module, writer: Writer) -> list[str]:
    """The lines of a module: its documentation."""
    return writer.text(module.doc, Scope(module.place.file, module.name))


def module_sections(module: Module) -> list[Section]:
    """The sections of a module and its functions."""
    own = Section(1, f'The module `{module.name}`', [module.name],
                  lambda writer: module_lines(module, writer))
    return [own, *(call_section(it, module.name, 2) for it in module.calls)]


def is_iterator(entry: Entry) -> bool:
    """Whether the type is an iterator."""
    return any(last_word(it.impl.trait) == 'Iterator' for it in entry.impls)
