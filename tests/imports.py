"""Imports of specifications and of lemmas, as proofs and pages write them."""

import re
from functools import cache
from typing import Optional

from scratch import TOP

IMPORT = re.compile(r'((?:\w+\.)+)\{([^{}]+)\}')  # the module, and the names
CALLERS = 'Rattle.regex_lite.specs.'  # what an import that is cut short is below
TYPE = r'\b(?:struct|enum) {}\b|\bpub use [^;]*\b{}\b'
DEFINED = r'(?m)^ *(?:abbrev |unfoldable )?pub (?:record |data )?{}(?=[ :])'
DATA = re.compile(r'(?m)^ *pub data (?:.+\n)+')


@cache
def text_of(path: str) -> Optional[str]:
    """What is in the file at this path below our crates, if it is there."""
    file = TOP / 'crates' / path
    return file.read_text(encoding='utf-8') if file.is_file() else None


def parts_of(imported: str) -> tuple[list[str], list[str]]:
    """The parts of the module's path after `Rattle`, and the names."""
    found = IMPORT.fullmatch(imported)
    assert found, imported
    module = found[1] if found[1].startswith('Rattle.') else CALLERS + found[1]
    return module.split('.')[1:-1], [name.strip() for name in found[2].split(',')]


def is_of_ours(imported: str) -> bool:
    """Whether it imports from one of our crates."""
    module, _ = parts_of(imported)
    return (TOP / 'crates' / module[0]).is_dir()


def module_text(crate: str, part: str, module: list[str]) -> Optional[str]:
    """What is in the file of a module, which may be one that the crate passes on."""
    own = text_of('/'.join([crate, part, *module]) + '.antt')
    if own is not None or not module:
        return own
    library = text_of(f'{crate}/{part}/Lib.antt') or ''
    passed = re.search(rf'(?m)^pub use Rattle\.(\w+)\.{part}\.((?:\w+\.)*{module[0]})$', library)
    return module_text(passed[1], part, passed[2].split('.') + module[1:]) if passed else None


def is_declared(crate: str, module: list[str], name: str) -> bool:
    """Whether a source of the crate defines the type, or passes it on. Its module is that of the
    source, and then the type's own."""
    source = text_of('/'.join([crate, 'src', *(module[:-1] or ['lib'])]) + '.rt')
    return module[-1:] == [name] and bool(re.search(TYPE.format(name, name), source or ''))


def is_defined(text: str, name: str) -> bool:
    """Whether a specification or a file of lemmas defines the name for others: by itself, or as a
    case of a type."""
    return bool(re.search(DEFINED.format(re.escape(name)), text)) or any(
        re.search(rf'(?m)^ +{re.escape(name)} :', data) for data in DATA.findall(text))


def is_import(imported: str) -> bool:
    """Whether the module is there, and defines each of the names."""
    (crate, part, *module), names = parts_of(imported)
    if module[:1] == ['declared']:
        return all(is_declared(crate, module[1:], name) for name in names)
    text = module_text(crate, part, module)
    return text is not None and all(is_defined(text, name) for name in names)
