"""Tests of what lets a pointer be null if its length is 0: the functions of regex_lite_null.h, by
which a program in C or C++ makes calls. Such a program is linked with functions that write down
what they are given, in place of the library, and makes each call that takes arrays, with arrays
that are null and that aren't, of no elements and of some. The calls are those that the header
declares, so the test fails for one that regex_lite_null.h lacks."""

import re
from collections.abc import Iterable, Sequence
from pathlib import Path
from typing import NamedTuple

from c_library import Tests, Word
from manuals import COMMENT, PROTOTYPE

TOP = Path(__file__).resolve().parent.parent
FOLDER = TOP / 'bindings' / 'c'
HANDLE = re.compile(r'^typedef struct (\w+) \{\n    void \*place;\n\} \1;$', re.MULTILINE)
PARAMETER = re.compile(r'(.*\W)(\w+)', re.DOTALL)  # its type and its name
STRICT = ('-Wall', '-Wextra', '-Wpedantic', '-Wconversion', '-Wshadow', '-Wcast-qual', '-Werror')
# Each compiler, with the language that it takes the program for, and the standards of that.
COMPILERS = (('gcc', 'c', ('c99', 'c11', 'c17', 'c2x')),
             ('clang', 'c', ('c99', 'c11', 'c17', 'c2x')),
             ('g++', 'c++', ('c++17', 'c++20')), ('clang++', 'c++', ('c++17', 'c++20')))
VALUES = {'void': '', 'bool': 'false', 'size_t': '0', 'regex_lite_answer': 'REGEX_LITE_NO'}


class Parameter(NamedTuple):
    """A parameter of a call. Its kind is 'a' for a pointer to an array, 'n' for the length of that,
    which comes next, and 'v' for any other value."""

    type: str
    name: str
    kind: str


class Call(NamedTuple):
    """A call as the header declares it."""

    returned: str
    name: str
    parameters: Sequence[Parameter]

    @property
    def kinds(self) -> str:
        """The kinds of its parameters."""
        return ''.join(it.kind for it in self.parameters)


def parameters(declared: str, handles: Iterable[str]) -> list[Parameter]:
    """The parameters that are declared so. A pointer before a number of type size_t has this as its
    length, unless it is one to a handle."""
    found: list[Parameter] = []
    for words in declared.split(','):
        parts = PARAMETER.fullmatch(words.strip())
        assert parts is not None, words
        type_, name = parts[1].strip(), parts[2]
        last = found[-1] if found else None
        kind = 'v'
        if (type_ == 'size_t' and last is not None and last.type.endswith('*')
                and last.type.removesuffix(' *') not in handles):
            found[-1] = last._replace(kind='a')
            kind = 'n'
        found.append(Parameter(type_, name, kind))
    return found


def calls(header: str) -> list[Call]:
    """The calls of the header that take arrays."""
    code = COMMENT.sub('', header)
    handles = set(HANDLE.findall(code))
    found = [Call(returned, name, parameters(declared, handles))
             for returned, name, declared in PROTOTYPE.findall(code)]
    return [call for call in found if 'a' in call.kinds]


def stand_in(call: Call) -> str:
    """The function in place of the library's, which writes down what it is given."""
    declared = ', '.join(f'{it.type} {it.name}' for it in call.parameters)
    lines = [f'#undef {call.name}', f'{call.returned} {call.name}({declared}) {{',
             *(f'    passed[{number}] = (uintptr_t){it.name};'
               for number, it in enumerate(call.parameters)),
             f'    return {VALUES[call.returned]};', '}']
    return '\n'.join(lines)


def maker(call: Call) -> str:
    """The function that makes the call."""
    arguments = ', '.join(f'({it.type})argument({number})'
                          for number, it in enumerate(call.parameters))
    return f'static void call_{call.name}(void) {{ (void){call.name}({arguments}); }}'


def write_sources(scratch: Path, found: Sequence[Call]) -> Path:
    """Writes what the program consists of beside passed.c. Returns the file of the stand-ins."""
    rows = [f'    {{"{call.name}", call_{call.name}, "{call.kinds}"}},' for call in found]
    (scratch / 'rows.h').write_text('\n'.join(
        [*map(maker, found), 'static const row rows[] = {', *rows, '};', '']), encoding='utf-8')
    source = scratch / 'passed_to.c'
    source.write_text('\n'.join(['#include <regex_lite.h>', 'extern uintptr_t passed[];',
                                 *map(stand_in, found), '']), encoding='utf-8')
    return source


def run_all(tests: Tests) -> None:
    """Builds the program by each compiler, under each standard, and runs it."""
    found = calls((FOLDER / 'regex_lite.h').read_text(encoding='utf-8'))
    source = write_sources(tests.scratch, found)
    most = max(len(call.parameters) for call in found)
    for compiler, language, standards in COMPILERS:
        if not tests.has(compiler, 'what the calls pass on in programs by it'):
            continue
        for standard in standards:
            program = tests.scratch / f'passed-{compiler}-{standard}'
            line: list[Word] = [compiler, f'-std={standard}', *STRICT, f'-DMOST={most}', '-I',
                                FOLDER, '-I', tests.scratch, '-x', language,
                                FOLDER / 'tests' / 'passed.c', source, '-o', program]
            if tests.run(f'what the calls pass on, by {compiler} -std={standard}', line):
                tests.run(f'{program.name} runs', [program])
