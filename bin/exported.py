"""The functions that a crate exports to C, and a program that calls each of them.

`rt try` compiles programs alone, and of their libraries what `main` reaches. So the crate becomes a
program, in a copy: its `main` calls each exported function once, with values that follow from the
types of the parameters. The program is only compiled, and never run.
"""

import re
from collections.abc import Iterable, Mapping
from typing import NamedTuple, Optional

ROOT = 'lib'  # the file of the crate's root, without its ending
MARK = 'no_mangle'  # stands above each exported function
EXPORTED = re.compile(r'pub extern "C" fn (\w+)\((.*?)\)', re.DOTALL)
STRUCT = re.compile(r'^pub struct (\w+) \{\n(.*?)^\}', re.DOTALL | re.MULTILINE)
FIELD = re.compile(r'^    (?:pub(?:\(crate\))? )?(\w+): (.+),$', re.MULTILINE)
COMMENT = re.compile(r'//[^\n]*')
REFERENCE = re.compile(r"&(?:'\w+ )?(mut )?(.+)", re.DOTALL)
SLICE = re.compile(r'\[([^;]+)\]')
PRIVATE_MODULE = re.compile(r'^mod ', re.MULTILINE)
INTEGERS = ('u8', 'u16', 'u32', 'u64', 'u128', 'usize', 'i8', 'i16', 'i32', 'i64', 'i128', 'isize')


class Unreadable(Exception):
    """What is exported in a form that isn't read here, or takes what there is no value for."""


class Function(NamedTuple):
    """An exported function: its module, its name and the types of its parameters."""

    module: str
    name: str
    parameters: list[str]

    @property
    def path(self) -> str:
        """Its path from the root of the crate."""
        return f'{self.module}::{self.name}' if self.module else self.name


class Struct(NamedTuple):
    """A struct: its module, its name and its fields, each with its type."""

    module: str
    name: str
    fields: list[tuple[str, str]]

    @property
    def maker(self) -> str:
        """The name of the function that makes one, which is added to its module."""
        return f'blank_{self.name.lower()}'


def module_of(file: str) -> str:
    """The module whose file this is, by its path in `src` without its ending."""
    return '' if file == ROOT else file.replace('/', '::')


def functions(sources: Mapping[str, str]) -> list[Function]:
    """The exported functions of the files, which go by their paths in `src` without endings."""
    found = []
    for file, text in sorted(sources.items()):
        code = COMMENT.sub('', text)
        exported = EXPORTED.findall(code)
        if len(exported) != code.count(MARK):
            raise Unreadable(f'{file}.rt exports something that bin/exported.py cannot read')
        for name, listed in exported:
            parameters = [it.partition(':')[2].strip() for it in listed.split(',') if it.strip()]
            found.append(Function(module_of(file), name, parameters))
    return found


def structs(sources: Mapping[str, str]) -> dict[str, Struct]:
    """The structs of the files, by their names."""
    return {name: Struct(module_of(file), name, FIELD.findall(body))
            for file, text in sources.items()
            for name, body in STRUCT.findall(COMMENT.sub('', text))}


def value(kind: str, known: Mapping[str, Struct]) -> str:
    """An expression that has this type: zero, false, null, or a struct of these."""
    if kind in INTEGERS:
        return f'0{kind}'
    if kind == 'bool':
        return 'false'
    if kind.startswith('*'):
        return 'std::ptr::null_mut()' if kind.startswith('*mut ') else 'std::ptr::null()'
    if kind in known:
        return f'crate::{known[kind].module}::{known[kind].maker}()'
    raise Unreadable(kind)


def maker(struct: Struct, known: Mapping[str, Struct]) -> str:
    """The function that makes such a struct."""
    fields = ', '.join(f'{name}: {value(kind, known)}' for name, kind in struct.fields)
    return (f'\npub(crate) fn {struct.maker}() -> {struct.name} {{\n'
            f'    {struct.name} {{ {fields} }}\n}}\n')


def place(kind: str, known: Mapping[str, Struct]) -> str:
    """An expression for what a reference points to. A slice has one element."""
    found = SLICE.fullmatch(kind)
    return f'[{value(found[1], known)}]' if found else value(kind, known)


def call(function: Function, known: Mapping[str, Struct]) -> str:
    """The block of `main` that calls the function."""
    lines, arguments = [], []
    for number, kind in enumerate(function.parameters):
        reference = REFERENCE.fullmatch(kind)
        try:
            if kind == 'Global':
                arguments.append('rt.alloc()')
            elif reference:
                mutable = reference[1] or ''
                lines.append(f'let {mutable}value{number} = {place(reference[2], known)};')
                arguments.append(f'&{mutable}value{number}')
            else:
                arguments.append(value(kind, known))
        except Unreadable as unknown:
            raise Unreadable(f'{function.name} has a parameter of type {kind}, and bin/exported.py '
                             f'knows no value of type {unknown}') from None
    lines.append(f'let _ = {function.path}({", ".join(arguments)});')
    return '\n'.join(['    {', *(f'        {line}' for line in lines), '    }'])


def needed(called: Iterable[Function], known: Mapping[str, Struct]) -> set[str]:
    """The names of the structs of which values are needed: those of the parameters, and those of
    their fields."""
    todo = [kind for function in called for kind in function.parameters]
    found: set[str] = set()
    while todo:
        for name in re.findall(r'\w+', todo.pop()):
            if name in known and name not in found:
                found.add(name)
                todo += [kind for _, kind in known[name].fields]
    return found


def program(sources: Mapping[str, str]) -> dict[str, str]:
    """The files of the crate as those of a program, by their paths in `src` without endings."""
    called, known = functions(sources), structs(sources)
    made = {file: PRIVATE_MODULE.sub('pub(crate) mod ', text) for file, text in sources.items()}
    for name in sorted(needed(called, known)):
        file = known[name].module.replace('::', '/') or ROOT
        made[file] += maker(known[name], known)
    calls = '\n'.join(call(function, known) for function in called)
    made['main'] = f'{made.pop(ROOT)}\nfn main(rt: HostRuntime) {{\n{calls}\n}}\n'
    return made
