"""The modules of our crates, and what the names in them stand for."""

from collections.abc import Iterator, Mapping, Sequence
from functools import cached_property
from typing import NamedTuple, Optional, Union

from .items import Function, Import, Other, Source, Submodule, Trait, Type
from .reader import read
from .tokens import Unreadable

Named = Union[Function, Type, Trait, Other]


class Place(NamedTuple):
    """A module: its crate, and its path there."""

    crate: str
    path: tuple[str, ...]

    def below(self, name: str) -> 'Place':
        """Its module of this name."""
        return Place(self.crate, (*self.path, name))

    @property
    def file(self) -> str:
        """Its file, in the folder of the crates."""
        return f'{self.crate}/src/{"/".join(self.path or ("lib",))}.rt'


class Definition(NamedTuple):
    """An item, and the module that defines it."""

    place: Place
    item: Named

    @property
    def where(self) -> str:
        """The file and the line."""
        return f'{self.place.file}:{self.item.line}'


class Crates:
    """Crates by the texts of their files, which go by their paths."""

    def __init__(self, texts: Mapping[str, str]) -> None:
        self.texts = texts
        self.modules: dict[Place, Source] = {}

    @cached_property
    def names(self) -> set[str]:
        """The names of the crates."""
        return {file.partition('/')[0] for file in self.texts}

    def module(self, place: Place) -> Source:
        """What the file of a module has."""
        if place not in self.modules:
            if place.file not in self.texts:
                raise Unreadable(f'{place.file} is missing')
            self.modules[place] = read(place.file, self.texts[place.file])
        return self.modules[place]

    def all_in(self, place: Place) -> Iterator[tuple[Place, Source]]:
        """The module and those below it."""
        source = self.module(place)
        yield place, source
        for item in source.items:
            if isinstance(item, Submodule):
                yield from self.all_in(place.below(item.name))

    def specifications(self, place: Place) -> dict[str, str]:
        """The file of ours that specifies each name in the clauses of a module."""
        found = {}
        for name, module in self.module(place).ghosts.items():
            file = '/'.join(module.split('.')[1:]) + '.antt'
            if file in self.texts:
                found[name] = file
        return found

    def has_module(self, place: Place, name: str) -> bool:
        """Whether the module has one of this name."""
        return any(isinstance(item, Submodule) and item.name == name
                   for item in self.module(place).items)

    def imported(self, place: Place, name: str) -> Optional[Import]:
        """What brings this name into the module."""
        return next((item for item in self.module(place).items
                     if isinstance(item, Import) and item.name == name), None)

    def found(self, place: Place, path: Sequence[str]) -> Optional[Union[Definition, Place]]:
        """What a path in this module names: an item, or a module. Nothing for what isn't ours."""
        first, *rest = path
        at: Optional[Union[Definition, Place]] = self.first(place, first)
        for name in rest:
            if not isinstance(at, Place):
                return None
            at = self.below(at, name)
        return at

    def first(self, place: Place, name: str) -> Optional[Union[Definition, Place]]:
        """What the first name of a path in this module stands for."""
        if name == 'crate':
            return Place(place.crate, ())
        if name == 'self':
            return place
        if name == 'super':
            return Place(place.crate, place.path[:-1])
        known = self.below(place, name)
        return Place(name, ()) if known is None and name in self.names else known

    def below(self, place: Place, name: str) -> Optional[Union[Definition, Place]]:
        """What a name in this module stands for, by its own items, its modules and its imports."""
        item = self.module(place).named(name)
        if item is not None:
            return Definition(place, item)
        if self.has_module(place, name):
            return place.below(name)
        brought = self.imported(place, name)
        if brought is None or (brought.path == [name] and name not in self.names):
            return None
        return self.found(place, brought.path)
