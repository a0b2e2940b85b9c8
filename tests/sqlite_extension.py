"""Tests of the extension for SQLite: what its file exports, the script of its page, its tests in
Python and those in C, over Debian's sqlite3."""

import os
import shutil
import subprocess
import sys
from collections.abc import Sequence
from pathlib import Path
from typing import Optional

from c_library import TOP, Tests, Word, exported
from shown import examples, wanted

FOLDER = TOP / 'bindings' / 'sqlite'
NAME = 'regex_lite_sqlite.so'
ENTRY_POINT = 'sqlite3_regexlitesqlite_init'
STRICT = ('-std=c11', '-Wall', '-Wextra', '-Wpedantic', '-Wconversion', '-Wshadow', '-Werror',
          '-O2')
WRAPPED = '-Wl,--wrap=malloc,--wrap=realloc,--wrap=free,--wrap=regex_lite_new'
CHECKED = ('valgrind', '-q', '--leak-check=full', '--error-exitcode=9')
# The tests in C, with the arguments by which they take less long under valgrind.
IN_C: dict[str, Sequence[str]] = {'memory': ('1000',), 'refusals': ()}
CAN_LOAD = 'import sqlite3; sqlite3.connect(":memory:").enable_load_extension(True)'


def has_header(tests: Tests) -> bool:
    """Whether extensions can be built here. Reports what is left out where they can't."""
    source = tests.scratch / 'header.c'
    source.write_text('#include <sqlite3ext.h>\n', encoding='utf-8')
    done = subprocess.run(['cc', '-fsyntax-only', source], check=False, capture_output=True)
    if done.returncode != 0:
        print('left out, as there is no sqlite3ext.h (libsqlite3-dev): the extension for SQLite')
    return done.returncode == 0


def page(tests: Tests, folder: Path) -> bool:
    """Builds the extension and runs the script of the page, as the page says. Returns whether the
    extension is there."""
    text = (FOLDER / 'README.md').read_text(encoding='utf-8')
    script, = examples(text, 'sql')
    lines, = examples(text, 'sh')
    (folder / 'rules.sql').write_text(script, encoding='utf-8')
    env = {**os.environ, 'FOLDER': str(tests.built)}
    if tests.has('sqlite3', 'the script of the page on SQLite'):
        tests.run('the script of the page on SQLite', ['sh', '-euc', lines], wanted(text),
                  cwd=folder, env=env)
    else:
        *build, _ = lines.splitlines()
        tests.run('the extension for SQLite', ['sh', '-euc', '\n'.join(build)], cwd=folder, env=env)
    return (folder / NAME).is_file()


def exports(tests: Tests, folder: Path) -> None:
    """The extension exports its entry point, and nothing else."""
    found = exported(folder / NAME, '-D')
    tests.note(f'the names of {NAME}', found == {ENTRY_POINT}, ' '.join(sorted(found)))


def loading_python() -> Optional[str]:
    """A Python whose sqlite3 loads extensions: this one, or that of the system."""
    for python in (sys.executable, '/usr/bin/python3'):
        if Path(python).exists() and subprocess.run([python, '-c', CAN_LOAD], check=False,
                                                    capture_output=True).returncode == 0:
            return python
    return None


def in_python(tests: Tests, folder: Path) -> None:
    """The tests in Python."""
    python = loading_python()
    if python is None:
        print('left out, as there is no Python that loads extensions: the tests of SQLite in it')
        return
    env = {**os.environ, 'REGEX_LITE_SQLITE': str(folder / NAME), 'PYTHONDONTWRITEBYTECODE': '1'}
    tests.run('the tests of SQLite', [python, '-m', 'unittest', 'discover', '-s',
                                      FOLDER / 'tests'], cwd=folder, env=env)


def archive(tests: Tests) -> Optional[Path]:
    """The archive of SQLite, which a program brings along. Reports where there is none."""
    done = subprocess.run(['cc', '-print-file-name=libsqlite3.a'], check=True,
                          stdout=subprocess.PIPE, encoding='utf-8')
    path = Path(done.stdout.strip())
    if path.is_absolute() and path.is_file():
        return path
    print('left out, as there is no libsqlite3.a: the tests of the memory of the extension')
    return None


def in_c(tests: Tests) -> None:
    """The tests in C, with the extension and SQLite in one program, by each compiler."""
    library = archive(tests)
    sources = sorted(FOLDER.glob('*.c'))
    for compiler in ('gcc', 'clang'):
        if library is None or not tests.has(compiler, 'the tests of SQLite in C by it'):
            continue
        for name, fewer in IN_C.items():
            program = tests.scratch / f'sqlite-{name}-{compiler}'
            line: list[Word] = [compiler, *STRICT, '-DSQLITE_CORE', '-I', FOLDER, '-I', tests.built,
                                *sources, FOLDER / 'tests' / f'{name}.c',
                                tests.built / 'libregex_lite.a', library, WRAPPED, '-lm',
                                '-lpthread', '-ldl', '-o', program]
            if (tests.run(f'{name} of SQLite by {compiler}', line) and compiler == 'gcc'
                    and tests.run(f'{name} of SQLite runs', [program])
                    and tests.has('valgrind', f'{name} of SQLite under it')):
                tests.run(f'{name} of SQLite under valgrind', [*CHECKED, program, *fewer])


def run_all(tests: Tests) -> None:
    """Runs all of these tests."""
    if not has_header(tests):
        return
    folder = tests.scratch / 'sqlite'
    shutil.copytree(FOLDER, folder, ignore=shutil.ignore_patterns('tests'))
    if page(tests, folder):
        exports(tests, folder)
        in_python(tests, folder)
    in_c(tests)
