"""The public surface of a crate: what its root passes on, with the calls and the implementations
that all of its files have for it."""

import re
from collections.abc import Iterable, Iterator, Sequence
from dataclasses import dataclass, field
from typing import NamedTuple, Optional, Union

from .crates import Crates, Definition, Place
from .items import Function, Impl, Import, Other, Part, Submodule, Trait, Type
from .tokens import Unreadable

GLOB = '*'
# What an implementation says of a type in contracts, and not to callers.
MODEL = 'Model'
OWN_WORD = re.compile(r"(?<!')\b[A-Za-z_]\w*(?:::[A-Za-z_]\w*)*")


class Call(NamedTuple):
    """A public function, the module that has it, and the head of its implementation where that asks
    more of the type's parameters than the type does."""

    place: Place
    function: Function
    asking: str = ''


class Implementation(NamedTuple):
    """An implementation of a trait, and the module that has it."""

    place: Place
    impl: Impl


@dataclass
class Entry:
    """A public type or trait, under the name that callers use."""

    name: str
    place: Place
    item: Union[Type, Trait]
    calls: list[Call] = field(default_factory=list)
    impls: list[Implementation] = field(default_factory=list)
    models: list[Implementation] = field(default_factory=list)

    def implements(self, trait: str) -> bool:
        """Whether the type has this trait, by an implementation of its own."""
        return any(last_word(it.impl.trait) == trait for it in self.impls)


@dataclass
class Module:
    """A public module, with its functions."""

    name: str
    place: Place
    doc: str
    calls: list[Call]


@dataclass
class Surface:
    """All that is public."""

    doc: str
    place: Place
    entries: dict[str, Entry] = field(default_factory=dict)
    functions: dict[str, Call] = field(default_factory=dict)
    modules: dict[str, Module] = field(default_factory=dict)

    def entry_of(self, found: Optional[Union[Definition, Place]]) -> Optional[Entry]:
        """The public type or trait that this is."""
        if not isinstance(found, Definition):
            return None
        return next((it for it in self.entries.values()
                     if it.place == found.place and it.item.name == found.item.name), None)


def last_word(path: str) -> str:
    """The name at the end of a path, without what is in angle brackets."""
    return path.partition('<')[0].rpartition('::')[2].strip()


def owner_path(owner: str) -> list[str]:
    """The path of the type of an implementation, also where it is borrowed."""
    found = OWN_WORD.search(re.sub(r"\b(?:mut|const|dyn)\b|'\w+", '', owner))
    return found[0].split('::') if found else []


def surface(crates: Crates, crate: str) -> Surface:
    """The public surface of this crate."""
    root = Place(crate, ())
    source = crates.module(root)
    made = Surface(source.doc, root)
    for item in source.items:
        if isinstance(item, Impl) or getattr(item, 'visibility', '') != 'pub':
            continue
        if isinstance(item, Import):
            add_import(crates, made, item)
        elif isinstance(item, Submodule):
            add_module(crates, made, item)
        elif isinstance(item, (Function, Type, Trait, Other)):
            add(made, item.name, Definition(root, item))
    add_implementations(crates, made)
    complain(undocumented(made))
    return made


def add_import(crates: Crates, made: Surface, item: Import) -> None:
    """Adds what a `pub use` of the root passes on."""
    found = None if item.name == GLOB else crates.found(made.place, item.path)
    if not isinstance(found, Definition):
        raise Unreadable(f'{made.place.file}:{item.line}: {"::".join(item.path)} names no item')
    add(made, item.name, found)


def add_module(crates: Crates, made: Surface, item: Submodule) -> None:
    """Adds a public module, which may have functions alone."""
    place = made.place.below(item.name)
    source = crates.module(place)
    calls = []
    for it in source.items:
        if isinstance(it, Function) and it.visibility == 'pub':
            calls.append(Call(place, it))
        elif getattr(it, 'visibility', '') == 'pub':
            raise Unreadable(f'{place.file}: a public module can have functions alone here')
    made.modules[item.name] = Module(item.name, place, source.doc, calls)


def add(made: Surface, name: str, found: Definition) -> None:
    """Adds an item under its public name."""
    item = found.item
    if isinstance(item, Function):
        made.functions[name] = Call(found.place, item)
    elif isinstance(item, (Type, Trait)):
        made.entries[name] = Entry(name, found.place, item)
    else:
        raise Unreadable(f'{found.where}: {name} is a {item.keyword}, which has no page')


def add_implementations(crates: Crates, made: Surface) -> None:
    """Adds the calls and the implementations of the public types, from all files of their
    crates."""
    names = {it.place.crate for it in made.entries.values()}
    for crate in [made.place.crate, *sorted(names - {made.place.crate})]:
        for place, source in crates.all_in(Place(crate, ())):
            for item in source.items:
                if isinstance(item, Impl):
                    add_implementation(crates, made, place, item)


def add_implementation(crates: Crates, made: Surface, place: Place, item: Impl) -> None:
    """Adds an implementation to the types that it is about, unless it names what isn't public."""
    owner = owner_of(crates, made, place, item.owner)
    if not item.trait:
        if owner:
            asking = item.head if asks_more(item, owner.item) else ''
            owner.calls += [Call(place, it, asking) for it in item.members.functions
                            if it.visibility == 'pub']
            complain(f'{place.file}:{it.line}: {it.name} is a {it.keyword}, which has no page'
                     for it in item.members.others if it.visibility == 'pub')
        return
    if owner and last_word(item.trait) == MODEL:
        owner.models.append(Implementation(place, item))
        return
    about = named_in(crates, made, place, item)
    for entry in about or []:
        entry.impls.append(Implementation(place, item))


def asks_more(item: Impl, owner: Union[Type, Trait]) -> bool:
    """Whether an implementation bounds the parameters of its type in another way than the type."""
    bounds = item.head.removeprefix('impl').partition(item.owner)[0].strip()
    is_bound = ':' in bounds or ' where ' in item.head
    return is_bound and bounds not in ' '.join(owner.head.split())


def owner_of(crates: Crates, made: Surface, place: Place, owner: str) -> Optional[Entry]:
    """The public type of an implementation."""
    path = owner_path(owner)
    return made.entry_of(crates.found(place, path)) if path else None


def named_in(crates: Crates, made: Surface, place: Place, item: Impl) -> Optional[list[Entry]]:
    """The public types and traits that the trait and the type of an implementation name, or
    nothing if they name an item of ours that isn't public."""
    entries = []
    for name in dict.fromkeys(OWN_WORD.findall(f'{item.trait} {item.owner}')):
        found = crates.found(place, name.split('::'))
        if found is None:
            continue
        entry = made.entry_of(found)
        if entry is None:
            return None
        entries.append(entry)
    return entries


def complain(lines: Iterable[str]) -> None:
    """Refuses the surface if there is something to complain of."""
    found = list(lines)
    if found:
        raise Unreadable('\n'.join(found))


def undocumented(made: Surface) -> Iterator[str]:
    """What is public and has no documentation."""
    if not made.doc:
        yield f'{made.place.file}: the crate has no documentation'
    for module in made.modules.values():
        if not module.doc:
            yield f'{module.place.file}: the module has no documentation'
        yield from undocumented_in(module.place, module.name, [it.function for it in module.calls])
    for call in made.functions.values():
        yield from undocumented_in(call.place, '', [call.function])
    for entry in made.entries.values():
        yield from undocumented_in(entry.place, '', [entry.item])
        yield from undocumented_in(entry.place, entry.name, members(entry.item))
        for call in entry.calls:
            yield from undocumented_in(call.place, entry.name, [call.function])


def members(item: Union[Type, Trait]) -> Sequence[Union[Function, Part]]:
    """The parts of a type, or the calls of a trait, that need documentation: not a field without a
    name, which that of the struct is about, and not a ghost field, which is a part of the
    contract."""
    if isinstance(item, Trait):
        return item.members.functions
    if item.keyword == 'enum':
        return [part for it in item.parts for part in (it, *unnamed(it.doc, it.parts))]
    return unnamed(item.doc, [it for it in item.parts if it.visibility == 'pub'
                              and not it.is_ghost and not it.name.isdigit()])


def unnamed(doc: str, fields: Sequence[Part]) -> list[Part]:
    """The fields that the documentation of their type or variant doesn't name, as code."""
    return [it for it in fields if f'`{it.name}`' not in doc]


def undocumented_in(place: Place, owner: str,
                    items: Sequence[Union[Function, Type, Trait, Part]]) -> Iterator[str]:
    """Those of these items of a type or a module that have no documentation."""
    for item in items:
        if not item.doc:
            name = f'{owner}::{item.name}' if owner else item.name
            yield f'{place.file}:{item.line}: {name} is public and has no `///`'
