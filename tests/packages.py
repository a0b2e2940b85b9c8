"""Tests of the packages that bin/package makes: that the same commit gives the same bytes, that
each package can be installed and works there, and that one without a proof says so. They are made
in clones of the working tree, of the library and the program that have been built already."""

import gzip
import io
import os
import shutil
import subprocess
import sys
import tarfile
from collections.abc import Sequence
from pathlib import Path
from typing import Optional, Protocol, Union

import c_library
import manuals
from clones import TIME, Clone
from scratch import TOP

sys.path.insert(0, str(TOP / 'bindings' / 'python' / 'tests'))
from test_installed import OFFLINE, PIP, SEARCH, builder, run

Word = Union[str, Path]  # of a command
# How else the second packages are made.
ELSEWHERE = {'TZ': 'Pacific/Chatham', 'LC_ALL': 'C', 'XZ_DEFAULTS': '--threads=3'}
VERSION = c_library.output('sed', '-n', 's/^#define REGEX_LITE_VERSION "\\(.*\\)"$/\\1/p',
                           manuals.HEADER).strip()
LIB = 'usr/lib/x86_64-linux-gnu'
# What the packages for Debian install, beside documents.
INSTALLED = {
    'libregex-lite0': {f'{LIB}/libregex_lite.so.0', f'{LIB}/libregex_lite.so.{VERSION}'},
    'libregex-lite-dev': {f'{LIB}/libregex_lite.so', f'{LIB}/libregex_lite.a',
                          f'{LIB}/pkgconfig/regex_lite.pc', 'usr/include/regex_lite.h',
                          'usr/include/regex_lite_null.h', 'usr/include/regex_lite.hpp',
                          'usr/share/man/man3/regex_lite.3.gz',
                          'usr/share/man/man3/regex_lite_list.3.gz',
                          'usr/share/man/man3/regex_lite_searcher.3.gz'},
    'rxl': {'usr/bin/rxl', 'usr/share/man/man1/rxl.1.gz'},
}
DOCUMENTS = ('copyright', 'changelog.gz', 'changelog.Debian.gz')  # of each of them
# What the environment may name, and what packages say then.
NAMED = {'SOURCE_DATE_EPOCH': '1000000000', 'DEBFULLNAME': 'B. Uilder',
         'DEBEMAIL': 'builder@example.org'}
NAMED_TIME, NAMED_MAINTAINER = ' 2001-09-0', 'B. Uilder <builder@example.org>'
# What dpkg is told of the machine: the version of its C library.
STATUS = '''Package: libc6
Status: install ok installed
Maintainer: A Packer <packer@example.org>
Architecture: amd64
Multi-Arch: same
Version: {version}
Description: C library
'''


class Tests(c_library.Tests, Protocol):
    """Who counts the tests, with the program that has been built too."""

    program: Optional[Path]  # there is one where these tests run


def content(archive: tarfile.TarFile, member: tarfile.TarInfo) -> bytes:
    """What a file in an archive has."""
    file = archive.extractfile(member)
    assert file is not None
    return file.read()


def tarball(tests: Tests, clone: Clone, file: Path) -> None:
    """The tarball has the files of the commit and no others, each as it is there."""
    top = f'regex_lite-{VERSION}'
    with tarfile.open(file) as archive:
        found = {member.name: (content(archive, member), member.mode)
                 for member in archive if member.isfile()}
        times = {member.mtime for member in archive}
        owners = {(member.uid, member.gid) for member in archive}
    wanted = {}
    for name in clone.git('ls-files').splitlines():
        path = clone.top / name
        mode = 0o755 if os.access(path, os.X_OK) else 0o644
        wanted[f'{top}/{name}'] = (path.read_bytes(), mode)
    differ = sorted(name for name in {*found, *wanted} if found.get(name) != wanted.get(name))
    tests.note('the files of the tarball', bool(found) and not differ, '\n'.join(differ))
    tests.note('the times and owners of the tarball', (times, owners) == ({TIME}, {(0, 0)}))


def contents(tests: Tests, package: Path) -> None:
    """A package for Debian has the files that it is to have, of root and with the commit's time.
    What is compressed has neither a name nor a time."""
    name = package.name.partition('_')[0]
    data = subprocess.run(['dpkg-deb', '--fsys-tarfile', package], check=True,
                          stdout=subprocess.PIPE).stdout
    with tarfile.open(fileobj=io.BytesIO(data)) as archive:
        members = {member.name.removeprefix('./'): member for member in archive}
        heads = {path: content(archive, member)[:8]
                 for path, member in members.items() if path.endswith('.gz')}
    found = {path for path, member in members.items() if not member.isdir()}
    places = {path for path in found if not path.startswith('usr/share/doc/')}
    tests.note(f'the files of {name}', places == INSTALLED[name], str(sorted(places)))
    missing = {f'usr/share/doc/{name}/{it}' for it in DOCUMENTS} - found
    tests.note(f'the documents of {name}', not missing, str(missing))
    kinds = {(it.uid, it.gid, it.mtime, it.mode) for it in members.values() if not it.issym()}
    tests.note(f'times, owners and modes of {name}',
               kinds <= {(0, 0, TIME, mode) for mode in (0o644, 0o755)}, str(kinds))
    tests.note(f'what is compressed in {name}',
               all(head == b'\x1f\x8b\x08\0\0\0\0\0' for head in heads.values()), str(heads))


def dpkg(root: Path, *words: Word) -> list[Word]:
    """A command of dpkg for what is installed in a folder, by whoever runs it."""
    return ['dpkg', f'--root={root}', f'--log={root}/log', '--force-not-root', '--path-include=*',
            *words]


def prepare(root: Path) -> dict[str, str]:
    """Makes the folder one for dpkg, and returns the environment that it needs."""
    admin = root / 'var' / 'lib' / 'dpkg'
    for name in ('info', 'updates', 'triggers'):
        (admin / name).mkdir(parents=True)
    version = (os.confstr('CS_GNU_LIBC_VERSION') or 'glibc 0').split()[1]
    (admin / 'status').write_text(STATUS.format(version=version), encoding='utf-8')
    (admin / 'info' / 'libc6:amd64.list').touch()
    return {**os.environ, 'PATH': f'{os.environ["PATH"]}:/usr/sbin:/sbin'}


def installed(tests: Tests, packages: Sequence[Path]) -> None:
    """The packages for Debian can be installed, do their work there, and leave nothing."""
    root = tests.scratch / 'debian'
    env = prepare(root)
    if not tests.run('dpkg -i', dpkg(root, '-i', *packages), env=env):
        return
    tests.run('dpkg --verify', dpkg(root, '--verify'), '', env=env)
    program_runs(tests, root / 'usr' / 'bin' / 'rxl')
    lib = root / LIB
    if tests.has('pkg-config', 'the package of the library as it finds it'):
        c_library.by_pkg_config(tests, 'packaged', lib / 'pkgconfig', lib)
    for page in manuals.MANUALS:
        file = root / 'usr/share/man' / f'man{page.suffix[1:]}' / f'{page.name}.gz'
        tests.note(f'{page.name} as it is installed',
                   gzip.decompress(file.read_bytes()) == page.read_bytes())
    done = subprocess.run(dpkg(root, '-r', 'libregex-lite0'), check=False, env=env,
                          capture_output=True)
    tests.note('the library is needed by what programs are built with', done.returncode != 0)
    tests.run('dpkg -P', dpkg(root, '-P', *INSTALLED), env=env)
    left = [str(path) for path in root.glob('usr/**/*') if not path.is_dir()]
    tests.note('what dpkg -P leaves', not left, ' '.join(left))


def program_runs(tests: Tests, program: Path) -> None:
    """The examples of the manual page of rxl print what it says."""
    folder = tests.scratch / 'path'
    folder.mkdir()
    (folder / 'rxl').symlink_to(program)
    env = {**os.environ, 'PATH': f'{folder}{os.pathsep}{os.environ["PATH"]}'}
    for command, printed in manuals.runs(manuals.PROGRAM):
        tests.run(f'an example of rxl(1): {command}', ['sh', '-euc', command], printed,
                  cwd=tests.scratch, env=env)


def wheel(tests: Tests, package: Path, version: str) -> None:
    """The wheel can be installed, and the module there searches and has this version."""
    python = builder()
    assert python is not None
    target = tests.scratch / 'wheel'
    done = run([python, *PIP, 'install', *OFFLINE, '--target', target, package])
    tests.note(f'pip install {package.name}', done.returncode == 0, done.stdout)
    done = run([python, '-c', f'{SEARCH}print(regex_lite.__version__)'], tests.scratch,
               {'PYTHONPATH': str(target)})
    tests.note(f'{package.name} searches', done.stdout ==
               f'{target}/regex_lite/__init__.py 52\n{version}\n', done.stdout)
    shutil.rmtree(target, ignore_errors=True)


def unproved(tests: Tests, clone: Clone, made: Path) -> None:
    """Packages without a proof say so, and one with a proof is an upgrade of them. These have the
    time and the maintainer that the environment names."""
    done = clone.package('--try', made, env=NAMED)
    tests.note('bin/package --try', done.returncode == 0
               and clone.has_noted('library --try', 'build --try'), done.stdout)
    for package in made.glob('*unproved*.deb'):
        version, text, who = (c_library.output('dpkg-deb', '-f', package, name).strip()
                              for name in ('Version', 'Description', 'Maintainer'))
        listed = c_library.output('dpkg-deb', '-c', package).splitlines()
        tests.note(f'time and maintainer of {package.name}', who == NAMED_MAINTAINER
                   and all(NAMED_TIME in line for line in listed), who)
        tests.note(f'{package.name} says that it is unproved',
                   '~unproved' in package.name and '(unproved)\n' in text
                   and 'built without a proof' in text and 'is proved' not in text, text)
        tests.run(f'{version} is below {VERSION}', ['dpkg', '--compare-versions', version, 'lt',
                                                    f'{VERSION}-1'])
    for package in made.glob('*unproved*.whl'):
        wheel(tests, package, f'{VERSION}.dev0+unproved')


def refusals(tests: Tests, clone: Clone) -> None:
    """What can't be packed is refused, with the reason."""
    for words in ((), ('--try',), ('a', 'b'), ('--fast', 'a'), ('--take', '--try', 'a')):
        done = clone.package(*words)
        tests.note(f'bin/package {" ".join(words)}', done.returncode == 2
                   and done.stdout.startswith('package: usage: '), done.stdout)
    made = clone.top / 'made'
    (clone.top / 'crates.txt').write_text('', encoding='utf-8')
    (clone.top / 'new').touch()
    done = clone.package(made)
    tests.note('changed files', done.returncode == 2 and ' M crates.txt\n?? new\n' in done.stdout
               and not made.exists(), done.stdout)
    shutil.rmtree(clone.top / '.git')
    done = clone.package(made)
    tests.note('no commit', done.returncode == 2 and 'no checkout of git' in done.stdout,
               done.stdout)


def made_once(tests: Tests, clone: Clone, made: Path) -> None:
    """Packages of the clone have what they are to have, can be installed, and work."""
    done = clone.package(made)
    tests.note('bin/package', done.returncode == 0 and clone.has_noted('library ', 'build '),
               done.stdout)
    for line in done.stdout.splitlines():
        if 'left out' in line:
            print(line)
    tarball(tests, clone, made / f'regex_lite-{VERSION}-sources.tar.gz')
    debs = sorted(made.glob('*.deb'))
    for package in debs:
        contents(tests, package)
    if debs:
        installed(tests, debs)
    elif tests.program is not None:
        program_runs(tests, tests.program)
    for package in made.glob('*.whl'):
        wheel(tests, package, VERSION)


def made_again(tests: Tests, clone: Clone, made: Path) -> None:
    """The packages are the same, byte by byte, in another place and with other settings."""
    again = tests.scratch / 'again'
    done = clone.package('--take', again, env=ELSEWHERE, umask='077')
    tests.note('bin/package --take', done.returncode == 0
               and clone.has_noted('library --take', 'build --take'), done.stdout)
    for name in sorted({path.name for folder in (made, again) for path in folder.iterdir()}):
        pair = [folder / name for folder in (made, again)]
        tests.note(f'{name} is the same again', all(it.is_file() for it in pair)
                   and pair[0].read_bytes() == pair[1].read_bytes())


def run_all(tests: Tests) -> None:
    """Runs all of these tests."""
    clone, other = (Clone(tests.scratch / name, tests.built, tests.program, tests.scratch / 'noted')
                    for name in ('clone', 'another/place'))
    clone.lay_out()
    clone.git('clone', '-q', '.', other.top)
    made = clone.top / 'made'  # not a part of the commit
    made_once(tests, clone, made)
    made_again(tests, other, made)
    unproved(tests, clone, made)
    refusals(tests, other)
