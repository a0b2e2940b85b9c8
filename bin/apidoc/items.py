"""What the items of a source are: what their heads, their documentation and their clauses say."""

from typing import NamedTuple, Optional, Union


class Function(NamedTuple):
    """A function: its head as Rust has it, and its clauses, both as they are written."""

    name: str
    visibility: str
    doc: str
    line: int
    head: str
    parameters: str
    result: str
    clauses: str
    has_body: bool

    @property
    def is_method(self) -> bool:
        """Whether it is called on a value."""
        first = self.parameters.partition(',')[0]
        return 'self' in first.partition(':')[0].replace('&', ' ').split()


class Ghost(NamedTuple):
    """A ghost member of a trait or an implementation, as it is written."""

    name: str
    doc: str
    text: str


class Part(NamedTuple):
    """A field of a struct, or a variant of an enum with its fields that have names. A field without
    a name has its number."""

    name: str
    visibility: str
    doc: str
    line: int
    text: str
    is_ghost: bool
    parts: list['Part']


class Type(NamedTuple):
    """A struct or an enum: its head ends before its parts."""

    keyword: str
    name: str
    visibility: str
    doc: str
    line: int
    head: str
    bounds: str  # the `where` after the parts in parentheses
    opening: str  # what opens the parts: `{`, `(` or `;`
    derived: list[str]
    parts: list[Part]


class Other(NamedTuple):
    """A constant, a static or an alias of a type, as it is written."""

    keyword: str
    name: str
    visibility: str
    line: int
    text: str


class Members(NamedTuple):
    """What a trait or an implementation has."""

    functions: list[Function]
    ghosts: list[Ghost]
    others: list[Other]

    @property
    def types(self) -> list[str]:
        """The associated types, without the `;` after each."""
        return [it.text for it in self.others if it.keyword == 'type']


class Trait(NamedTuple):
    """A trait."""

    name: str
    visibility: str
    doc: str
    line: int
    head: str
    members: Members


class Impl(NamedTuple):
    """An implementation: the trait, which is empty for a type's own calls, and the type."""

    doc: str
    line: int
    head: str
    trait: str
    owner: str
    members: Members


class Import(NamedTuple):
    """A name that a `use` brings into a module, with the path to what it names."""

    name: str
    visibility: str
    line: int
    path: list[str]


class Submodule(NamedTuple):
    """A module that has a file of its own."""

    name: str
    visibility: str
    line: int


Item = Union[Function, Type, Trait, Impl, Import, Submodule, Other, Ghost]


class Source(NamedTuple):
    """A file: the documentation of its module, its items, and from which module each name comes
    that is brought into its clauses."""

    file: str
    doc: str
    items: list[Item]
    ghosts: dict[str, str]

    def named(self, name: str) -> Optional[Union[Function, Type, Trait, Other]]:
        """The item that the file defines under this name."""
        for item in self.items:
            if isinstance(item, (Function, Type, Trait, Other)) and item.name == name:
                return item
        return None
