"""Tests of the header for C++: its tests by each compiler, under two standards, with sanitizers and
under valgrind, and the program of its page."""

import os
import re
import subprocess
from collections.abc import Sequence
from concurrent.futures import ThreadPoolExecutor
from pathlib import Path
from typing import NamedTuple

from c_library import TOP, Tests, Word, has_header
from shown import examples, wanted

FOLDER = TOP / 'bindings' / 'cpp'
STRICT = ('-Wall', '-Wextra', '-Wpedantic', '-Wconversion', '-Wshadow', '-Werror')
WRAPPED = '-Wl,--wrap=malloc,--wrap=realloc,--wrap=free'
CHECKED = ('valgrind', '-q', '--leak-check=full', '--error-exitcode=9')
# The tests that are programs of their own, with how each is compiled and linked. All others are one
# program, `all`.
ALONE = {'memory': ((), (WRAPPED,)), 'long_texts': ((), ()), 'threads': ((), ('-pthread',)),
         'without_exceptions': (('-fno-exceptions',), ())}
BARE = ('all', *ALONE)
CHECKING = ('-fsanitize=address,undefined', '-fno-sanitize-recover=undefined')


class Variant(NamedTuple):
    """How some programs of tests are compiled, and which."""

    compiler: str
    standard: str
    options: tuple[str, ...]
    programs: tuple[str, ...]

    def __str__(self) -> str:
        return ' '.join((self.compiler, *self.options, self.standard))


# One of them is optimised, by the compiler that warns of more then. To optimise all would take
# minutes.
VARIANTS = (Variant('g++', '-std=c++20', ('-O2',), BARE),
            Variant('g++', '-std=c++17', CHECKING, ('all', 'memory')),
            Variant('g++', '-std=c++17', ('-fsanitize=thread',), ('threads',)),
            Variant('clang++', '-std=c++20', CHECKING, ('all', 'memory')),
            Variant('clang++', '-std=c++17', (), BARE))


class Program(NamedTuple):
    """A program of tests, by one way to compile it."""

    name: str
    variant: Variant
    sources: tuple[Path, ...]
    compiled: tuple[str, ...]
    linked: tuple[str, ...]


def programs(variant: Variant) -> list[Program]:
    """The programs of a variant."""
    folder = FOLDER / 'tests'
    together = tuple(path for path in sorted(folder.glob('*.cpp')) if path.stem not in ALONE)
    return [Program(name, variant, (folder / f'{name}.cpp',), *ALONE[name])
            if name in ALONE else Program(name, variant, together, (), ())
            for name in variant.programs]


def has_sanitizers(tests: Tests, variant: Variant) -> bool:
    """Whether the compiler has the sanitizers of a variant, if that has some. Reports what is left
    out where it hasn't."""
    source, program = tests.scratch / 'nothing.c', tests.scratch / 'nothing'
    source.write_text('int main(void) { return 0; }\n', encoding='utf-8')
    built = subprocess.run([variant.compiler, *variant.options, source, '-o', program],
                           check=False, capture_output=True)
    if built.returncode == 0 and subprocess.run([program], check=False).returncode == 0:
        return True
    print(f'left out, as they can\'t be built or run: tests by {variant}')
    return False


def compile_all(tests: Tests, commands: Sequence[tuple[str, Sequence[Word]]]) -> bool:
    """Runs compilers, as many at once as there are processors. Returns whether all succeed."""

    def run(command: Sequence[Word]) -> 'subprocess.CompletedProcess[str]':
        return subprocess.run(command, check=False, stdout=subprocess.PIPE,
                              stderr=subprocess.STDOUT, encoding='utf-8')

    with ThreadPoolExecutor(os.cpu_count()) as pool:
        done = list(pool.map(run, [command for _, command in commands]))
    for (name, _), result in zip(commands, done):
        tests.note(name, result.returncode == 0, result.stdout)
    return all(result.returncode == 0 for result in done)


def built(tests: Tests, program: Program) -> Path:
    """The path of a program."""
    number = VARIANTS.index(program.variant)
    return tests.scratch / f'{program.name}-{program.variant.compiler}-{number}'


def build_and_run(tests: Tests, all_programs: Sequence[Program]) -> None:
    """Compiles the sources of all programs, links the programs and runs them."""
    commands: list[tuple[str, Sequence[Word]]] = []
    objects: dict[Program, list[Path]] = {}
    for program in all_programs:
        compiler, standard, options, _ = program.variant
        for source in program.sources:
            made = built(tests, program).with_suffix(f'.{source.stem}.o')
            objects.setdefault(program, []).append(made)
            line: list[Word] = [compiler, standard, *options, *STRICT, *program.compiled, '-I',
                                tests.built, '-c', source, '-o', made]
            commands.append((f'{source.name} by {program.variant}', line))
    if not compile_all(tests, commands):
        return
    for program in all_programs:
        own = built(tests, program)
        linked = tests.run(f'{own.name} is linked',
                           [program.variant.compiler, *program.variant.options,
                            *objects[program], *program.linked,
                            tests.built / 'libregex_lite.a', '-o', own])
        if linked:
            tests.run(f'{own.name} runs', [own])


def page(tests: Tests) -> None:
    """The program of the page, built as the page says."""
    text = (FOLDER / 'README.md').read_text(encoding='utf-8')
    source, = examples(text, 'cpp')
    lines, = examples(text, 'sh')
    (tests.scratch / 'grep.cpp').write_text(source, encoding='utf-8')
    folder = str(tests.built)
    tests.run('the program of the page on C++', ['sh', '-euc', lines], wanted(text),
              cwd=tests.scratch, env={**os.environ, 'FOLDER': folder})
    if tests.has('pkg-config', 'the library for C++ as it finds it'):
        line, = re.findall(r'`(c\+\+ .* -o \w+)`', text)
        run = lines.splitlines()[-1]
        tests.run('the program of the page over the shared object',
                  ['sh', '-euc', f'{line}\n{run}'], wanted(text), cwd=tests.scratch,
                  env={**os.environ, 'PKG_CONFIG_PATH': folder, 'LD_LIBRARY_PATH': folder})


def run_all(tests: Tests) -> None:
    """Runs all of these tests."""
    if not has_header(tests, FOLDER / 'regex_lite.hpp'):
        return
    found: list[Program] = []
    for variant in VARIANTS:
        if (tests.has(variant.compiler, 'tests of C++ by it')
                and has_sanitizers(tests, variant)):
            found += programs(variant)
    build_and_run(tests, found)
    bare = [program for program in found
            if program.name == 'all' and program.variant.programs == BARE]
    if bare and tests.has('valgrind', 'the tests of C++ under it'):
        tests.run('the tests of C++ under valgrind', [*CHECKED, built(tests, bare[0])])
    if tests.has('c++', 'the program of the page on C++'):
        page(tests)
