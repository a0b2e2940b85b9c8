"""Tests of the files that bin/library makes: what they export, that parts of them can be left out,
and that programs find them where they are, where they have been moved to and where they are
installed."""

import os
import re
import shutil
import subprocess
from collections.abc import Sequence
from pathlib import Path
from typing import Optional, Protocol, Union

Word = Union[str, Path]  # of a command
TOP = Path(__file__).resolve().parent.parent
DECLARED = re.compile(r'\b(regex_lite_\w+)\(')
NEEDED = re.compile(r'\(NEEDED\) .*\[(libregex_lite\.so\S*)\]')
SIZE = re.compile(r'^\s*(\d+)', re.MULTILINE)
SONAME = 'libregex_lite.so.0'
TEXT = 'Mister Samwise, or Sam'
FOUND = '7..14 Samwise\n19..22 Sam\n'
LITTLE = '''#include <regex_lite.h>

int main(void) {
    return regex_lite_is_text((const uint8_t *)"a", 1) ? 0 : 1;
}
'''
VERSION = '''#include <regex_lite.h>
#include <stdio.h>

int main(void) {
    uint8_t room[100];
    size_t len = 0;
    if (regex_lite_version(room, sizeof room, &len) != REGEX_LITE_YES)
        return 1;
    printf("%.*s\\n", (int)len, (const char *)room);
    return 0;
}
'''
# Two copies of the library in one program, of which one has other names.
TWO = '''#include <regex_lite.h>

bool other_is_text(const uint8_t *bytes, size_t len);

int main(void) {
    const uint8_t *bytes = (const uint8_t *)"a";
    return regex_lite_is_text(bytes, 1) && other_is_text(bytes, 1) ? 0 : 1;
}
'''


class Tests(Protocol):
    """Who counts the tests, with the folder of the library and one for what they make."""

    built: Path
    scratch: Path

    def note(self, name: str, is_so: bool, said: str = '') -> None:
        """Counts a test, and reports one that failed."""

    def run(self, name: str, command: Sequence[Word], wanted: Optional[str] = None,
            cwd: Optional[Path] = None, env: Optional[dict[str, str]] = None) -> bool:
        """Runs a command, which is to end with 0, and with this output if any is wanted."""

    def has(self, program: str, what: str) -> bool:
        """Whether there is such a program."""


def output(*command: Word) -> str:
    """What a command prints, which has to end with 0."""
    return subprocess.run(command, check=True, stdout=subprocess.PIPE, encoding='utf-8').stdout


def exported(file: Path, *options: str) -> set[str]:
    """All names that an archive or a shared object defines for others."""
    lines = [line.split() for line in output('nm', *options, '--defined-only', file).splitlines()]
    return {words[2] for words in lines if len(words) == 3}


def has_header(tests: Tests, source: Path) -> bool:
    """Whether the library's folder has this header, as it is in the source."""
    copy = tests.built / source.name
    is_so = copy.is_file() and copy.read_bytes() == source.read_bytes()
    tests.note(f'{source.name} beside the library', is_so, 'build the library anew by bin/library')
    return is_so


def exports(tests: Tests) -> None:
    """The archive and the shared object export what the header declares, and nothing else."""
    header = (tests.built / 'regex_lite.h').read_text(encoding='utf-8')
    declared = set(DECLARED.findall(re.sub(r'/\*.*?\*/', '', header, flags=re.DOTALL)))
    for file, option in (('libregex_lite.a', '-g'), ('libregex_lite.so', '-D')):
        found = exported(tests.built / file, option)
        tests.note(f'the names of {file}', declared == found, ' '.join(sorted(declared ^ found)))


def parts(tests: Tests) -> None:
    """A program of one call can be linked without the other calls."""
    source = tests.scratch / 'little.c'
    source.write_text(LITTLE, encoding='utf-8')
    line: list[Word] = ['cc', '-I', tests.built, source, tests.built / 'libregex_lite.a']
    whole, part = tests.scratch / 'whole', tests.scratch / 'part'
    if (tests.run('a little program', [*line, '-o', whole])
            and tests.run('a part of the library', [*line, '-Wl,--gc-sections', '-o', part])):
        sizes = [int(SIZE.findall(output('size', program))[0]) for program in (whole, part)]
        tests.note('what is left out', sizes[1] * 10 < sizes[0], str(sizes))
        tests.run('the little program runs', [part])


def two(tests: Tests) -> None:
    """Two such libraries go into one program, where no two calls have one name."""
    source, other = tests.scratch / 'two.c', tests.scratch / 'other.a'
    source.write_text(TWO, encoding='utf-8')
    names = exported(tests.built / 'libregex_lite.a', '-g')
    renamed = [f'--redefine-sym={name}={name.replace("regex_lite", "other")}' for name in names]
    program = tests.scratch / 'two'
    # All of both is linked, so that a name that both define would be refused.
    if (tests.run('other names', ['objcopy', *renamed, tests.built / 'libregex_lite.a', other])
            and tests.run('two libraries in one program',
                          ['cc', '-I', tests.built, source, '-Wl,--whole-archive',
                           tests.built / 'libregex_lite.a', other, '-Wl,--no-whole-archive',
                           '-o', program])):
        tests.run('the program with two libraries runs', [program])


def versions(tests: Tests) -> None:
    """The library for C and the packages over it have one version, and the library says so. A
    library without a proof says that too."""
    described = (tests.built / 'regex_lite.pc').read_text(encoding='utf-8')
    header = (tests.built / 'regex_lite.h').read_text(encoding='utf-8')
    found = re.findall(r'^Version: (.+)$', described, re.MULTILINE)
    found += re.findall(r'^#define REGEX_LITE_VERSION "(.+)"$', header, re.MULTILINE)
    for file in ('rust/Cargo.toml', 'python/pyproject.toml'):
        text = (TOP / 'bindings' / file).read_text(encoding='utf-8')
        found += re.findall(r'^version = "(.+)"$', text, re.MULTILINE)
    tests.note('one version', len(found) == 4 and len(set(found)) == 1, ' '.join(found))
    source, program = tests.scratch / 'version.c', tests.scratch / 'version'
    source.write_text(VERSION, encoding='utf-8')
    ending = '+unproved' if 'without a proof' in described else ''
    if tests.run('a program that asks for the version',
                 ['cc', '-I', tests.built, source, tests.built / 'libregex_lite.a', '-o', program]):
        tests.run('the version of the library', [program], f'{found[0]}{ending}\n')
    name = (tests.built / 'libregex_lite.so').resolve().name
    tests.note('the version of the shared object', name == f'libregex_lite.so.{found[0]}', name)


def by_pkg_config(tests: Tests, name: str, folder: Path, lib: Path) -> None:
    """Builds the example of C as the file for pkg-config in this folder says, and runs it by the
    shared object in the other, which it looks for by its SONAME."""
    env = {**os.environ, 'PKG_CONFIG_PATH': str(folder), 'LD_LIBRARY_PATH': str(lib)}
    program = tests.scratch / f'example-{name}'
    line = (f'cc -std=c11 $(pkg-config --cflags regex_lite) "{TOP}/bindings/c/example.c" '
            f'$(pkg-config --libs regex_lite) -o "{program}"')
    if tests.run(f'the example over {name}', ['sh', '-euc', line], env=env):
        needed = NEEDED.findall(output('readelf', '-d', program))
        tests.note(f'what the example over {name} needs', needed == [SONAME], str(needed))
        tests.run(f'the example over {name} runs', [program, TEXT], FOUND, env=env)


def found(tests: Tests) -> None:
    """A program is built over the library where it is, moved and installed."""
    if not tests.has('pkg-config', 'the library as it finds it'):
        return
    by_pkg_config(tests, 'built', tests.built, tests.built)
    moved = tests.scratch / 'moved'
    shutil.copytree(tests.built, moved, symlinks=True)
    by_pkg_config(tests, 'moved', moved, moved)
    root = tests.scratch / 'root'
    env = {**os.environ, 'DESTDIR': str(root), 'PREFIX': '/usr', 'LIBDIR': 'lib64'}
    if tests.run('an installation', [TOP / 'bin' / 'library', '--install', tests.built], env=env):
        shutil.rmtree(moved)
        lib = root / 'usr' / 'lib64'
        by_pkg_config(tests, 'installed', lib / 'pkgconfig', lib)


def run_all(tests: Tests) -> None:
    """Runs all of these tests."""
    for name in ('regex_lite.h', 'regex_lite_null.h'):
        has_header(tests, TOP / 'bindings' / 'c' / name)
    exports(tests)
    parts(tests)
    two(tests)
    versions(tests)
    found(tests)
