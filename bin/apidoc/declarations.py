"""How types and traits are declared, as a reader needs it: without what is private."""

import textwrap
from collections.abc import Sequence

from .items import Function, Ghost, Impl, Part, Trait, Type
from .surface import Entry, Implementation

PRIVATE = '/* private fields */'
PROVIDED = '{ /* provided */ }'
LONGEST = 90  # columns of a variant on one line
# The ghost member of a model that says what contracts take a value of the type for. The others say
# how that follows from private fields.
VALUE = 'Value'
# A ghost member that has a proof, and says nothing.
PROOF = 'laws'


def shown_parts(item: Type) -> list[str]:
    """The fields that are public, or the variants, and a word for private fields."""
    if item.keyword == 'enum':
        return [of_variant(it) for it in item.parts]
    real = [it for it in item.parts if not it.is_ghost]
    shown = [it.text for it in real if it.visibility == 'pub']
    return shown if len(shown) == len(real) else [*shown, PRIVATE]


def of_variant(variant: Part) -> str:
    """A variant in the declaration of its enum."""
    if not variant.parts:
        return variant.text
    fields = [it.text for it in variant.parts]
    line = f'{variant.name} {{ {", ".join(fields)} }}'
    if len(line) <= LONGEST:
        return line
    return '\n'.join([f'{variant.name} {{', *(f'    {it},' for it in fields), '}'])


def of_type(item: Type) -> str:
    """The declaration of a struct or an enum."""
    parts = shown_parts(item)
    if item.opening == ';':
        return f'{item.head};'
    if item.opening == '(':
        bounds = f' {item.bounds}' if item.bounds else ''
        return f'{item.head}({", ".join(parts)}){bounds};'
    if not parts or parts == [PRIVATE]:
        return f'{item.head} {{ {" ".join(parts)} }}'.replace('{  }', '{}')
    lines = [textwrap.indent(it if it == PRIVATE else f'{it},', '    ') for it in parts]
    return '\n'.join([f'{item.head} {{', *lines, '}'])


def of_function(function: Function) -> str:
    """A call in the declaration of its trait."""
    if not function.has_body:
        return f'{function.head};'
    return function.head + ('\n' if '\n' in function.head else ' ') + PROVIDED


def of_trait(item: Trait) -> str:
    """The declaration of a trait: what implementations have to have, and then what they may."""
    functions = sorted(item.members.functions, key=lambda it: it.has_body)
    members = [*(f'{it};' for it in item.members.types), *map(of_function, functions)]
    if not members:
        return f'{item.head} {{}}'
    return '\n'.join([f'{item.head} {{', *(textwrap.indent(it, '    ') for it in members), '}'])


def declaration(entry: Entry) -> str:
    """The declaration of a type or a trait."""
    return of_trait(entry.item) if isinstance(entry.item, Trait) else of_type(entry.item)


def documented(ghost: Ghost) -> str:
    """A ghost member with its documentation, as it is written."""
    lines = [f'/// {line}'.rstrip() for line in ghost.doc.split('\n')] if ghost.doc else []
    return '\n'.join([*lines, ghost.text])


def contract(entry: Entry) -> str:
    """What contracts take a value of the type for, or the ghost members of a trait."""
    if isinstance(entry.item, Trait):
        return '\n\n'.join(documented(it) for it in entry.item.members.ghosts)
    fields = [f'{it.text},' for it in entry.item.parts if it.is_ghost and it.visibility == 'pub']
    values = [ghost.text for it in entry.models for ghost in it.impl.members.ghosts
              if ghost.name == VALUE]
    return '\n'.join([*fields, *values])


def contract_of_impl(impl: Impl) -> str:
    """The ghost members of an implementation, and the clauses of its calls."""
    parts = [it.text for it in impl.members.ghosts if it.name != PROOF]
    parts += [f'{it.head}\n{textwrap.indent(it.clauses, "    ")}'
              for it in impl.members.functions if it.clauses]
    if not parts:
        return ''
    return '\n'.join([f'{impl.head} {{', *(textwrap.indent(it, '    ') for it in parts), '}'])


def contract_of_impls(found: Sequence[Implementation]) -> str:
    """The contracts of all of these."""
    return '\n\n'.join(filter(None, (contract_of_impl(it.impl) for it in found)))


def listed_parts(item: Type) -> list[Part]:
    """The variants, or the public fields, that have documentation."""
    return [it for it in item.parts if it.doc and not it.is_ghost
            and (item.keyword == 'enum' or it.visibility == 'pub')]
