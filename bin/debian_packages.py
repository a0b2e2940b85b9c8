"""The packages for Debian: the shared object, what programs over it are built with, and rxl."""

import hashlib
import os
import re
import shutil
import subprocess
from collections.abc import Iterable, Iterator
from datetime import datetime, timezone
from email.utils import format_datetime
from pathlib import Path
from typing import NamedTuple, Union

TOP = Path(__file__).resolve().parent.parent
SOURCE = 'regex-lite'
ARCHITECTURE = 'amd64'  # the kit compiles for no other
LIBRARIES = 'lib/x86_64-linux-gnu'  # below /usr
SHARED, DEVELOPMENT, PROGRAM = 'libregex-lite0', 'libregex-lite-dev', 'rxl'
DOCUMENTS = 'usr/share/doc'
LICENCE = 'LICENSE-MIT'
GLIBC = re.compile(r'\bGLIBC_([\d.]+)')
STRIP = ('strip', '--enable-deterministic-archives')
PROVED = 'What it returns is proved.'
UNPROVED = 'It was built without a proof, for trying it out, and promises nothing.'


class Commit(NamedTuple):
    """The commit that is packed: its name, the time for the files, and who maintains packages."""

    name: str
    time: int
    maintainer: str


class Build(NamedTuple):
    """What is packed, and the folder for the packages."""

    folder: Path
    library: Path
    program: Path
    version: str
    is_proved: bool
    commit: Commit

    @property
    def debian_version(self) -> str:
        """The version for Debian. One without a proof is lower than one with a proof."""
        return f'{self.version}{"" if self.is_proved else "~unproved"}'


class Package(NamedTuple):
    """A package for Debian: which files of the installation are its own, and what it says."""

    name: str
    files: tuple[str, ...]
    documents: tuple[str, ...]
    fields: str
    summary: str
    description: str


PACKAGES = (
    Package(SHARED, (f'usr/{LIBRARIES}/libregex_lite.so.*',), (), 'Section: libs\nMulti-Arch: same',
            'regular expressions for untrusted patterns and texts', '''
 A library for C that searches texts for regular expressions. The time of a
 search grows linearly with the text, whatever the pattern, so that both may
 come from strangers.
 .
 {said}
 It needs a processor of the level x86-64-v2.
'''),
    Package(DEVELOPMENT, ('usr/include/*', f'usr/{LIBRARIES}/*', 'usr/share/man/man3/*'),
            ('docs/SYNTAX.md', 'bindings/c/example.c'),
            f'Section: libdevel\nMulti-Arch: same\nDepends: {SHARED} (= {{version}})\n'
            f'Suggests: {PROGRAM}',
            'regular expressions for untrusted texts - development files', '''
 The headers for C and C++, the archive, the file for pkg-config and the manual
 pages of a library that searches texts for regular expressions in linear time.
 .
 {said}
'''),
    Package(PROGRAM, ('usr/bin/*', 'usr/share/man/man1/*'), ('docs/SYNTAX.md', 'docs/GUIDE.md'),
            'Section: utils\nMulti-Arch: foreign',
            'search standard input for a regular expression', '''
 A program that finds the matches of a regular expression in its input, their
 groups or what stands between them, and replaces them. The time of a search
 grows linearly with the input, whatever the pattern.
 .
 {said}
 It needs a processor of the level x86-64-v2.
'''),
)
COPYRIGHT = '''Format: https://www.debian.org/doc/packaging-manuals/copyright-format/1.0/
Upstream-Name: regex_lite
Comment: The library is a port of the Rust crate regex-lite 0.1.9.

Files: *
Copyright: {holder}
License: Expat or Apache-2.0

License: Expat
{expat}

License: Apache-2.0
 On Debian systems, the text of the Apache License, version 2.0, is in
 /usr/share/common-licenses/Apache-2.0.
'''


def gzipped(data: bytes) -> bytes:
    """The data compressed, without a name or a time."""
    return subprocess.run(['gzip', '-9nc'], check=True, input=data, stdout=subprocess.PIPE).stdout


def write(file: Path, content: Union[str, bytes]) -> None:
    """Writes a file, and makes its folder."""
    file.parent.mkdir(parents=True, exist_ok=True)
    file.write_bytes(content.encode() if isinstance(content, str) else content)


def install(build: Build, root: Path) -> None:
    """Installs the library and the program below the folder."""
    subprocess.run([TOP / 'bin' / 'library', '--install', build.library], check=True,
                   env={**os.environ, 'DESTDIR': str(root), 'PREFIX': '/usr', 'LIBDIR': LIBRARIES},
                   stderr=subprocess.DEVNULL)
    write(root / 'usr/bin/rxl', build.program.read_bytes())
    write(root / 'usr/share/man/man1/rxl.1', (TOP / 'man' / 'rxl.1').read_bytes())
    for page in root.glob('usr/share/man/*/*'):
        write(page.with_name(f'{page.name}.gz'), gzipped(page.read_bytes()))
        page.unlink()


def strip(root: Path) -> None:
    """Drops what no program needs from what is installed, as packages for Debian do."""
    library = root / 'usr' / LIBRARIES
    for options, files in ((('--strip-debug',), library.glob('*.a')),
                           (('--strip-unneeded', '-R', '.comment', '-R', '.note'),
                            (*library.glob('*.so.*.*'), *root.glob('usr/bin/*')))):
        for file in files:
            subprocess.run([*STRIP, *options, file], check=True)


def entries(stage: Path) -> Iterator[Path]:
    """All that a package has but what tells of the package itself, in order."""
    return (path for path in sorted(stage.rglob('*')) if 'DEBIAN' not in path.parts)


def plain_files(stage: Path) -> list[Path]:
    """The files among that, without links."""
    return [path for path in entries(stage) if path.is_file() and not path.is_symlink()]


def needed_of_c(files: Iterable[Path]) -> str:
    """The field for the least version of the C library that these files need, if any does."""
    versions = [found for file in files if '.so.' in file.name or file.parent.name == 'bin'
                for found in GLIBC.findall(subprocess.run(
                    ['objdump', '-p', file], check=True, stdout=subprocess.PIPE,
                    encoding='utf-8').stdout)]
    most = max(versions, key=lambda it: [int(part) for part in it.split('.')], default=None)
    return f'Depends: libc6 (>= {most})\n' if most else ''


def copyright_text() -> str:
    """What holds for copies, with the licence that Debian doesn't have as a file."""
    holder, _, text = (TOP / LICENCE).read_text(encoding='utf-8').partition('\n')
    lines = text.strip().splitlines()
    return COPYRIGHT.format(holder=re.sub(r'^Copyright (\(c\) )?', '', holder),
                            expat='\n'.join(f' {line or "."}' for line in lines))


def changes(build: Build) -> str:
    """The changelog of the packages."""
    date = format_datetime(datetime.fromtimestamp(build.commit.time, timezone.utc))
    return (f'{SOURCE} ({build.debian_version}-1) unstable; urgency=medium\n\n'
            f'  * Package of the commit\n    {build.commit.name}.\n\n'
            f' -- {build.commit.maintainer}  {date}\n')


def add_documents(build: Build, package: Package, stage: Path) -> None:
    """Adds what a package for Debian has in its folder of documents."""
    folder = stage / DOCUMENTS / package.name
    write(folder / 'copyright', copyright_text())
    write(folder / 'changelog.Debian.gz', gzipped(changes(build).encode()))
    write(folder / 'changelog.gz', gzipped((TOP / 'CHANGELOG.md').read_bytes()))
    for path in map(Path, package.documents):
        if path.suffix == '.md':
            write(folder / f'{path.name}.gz', gzipped((TOP / path).read_bytes()))
        else:
            write(folder / 'examples' / path.name, (TOP / path).read_bytes())


def add_control(build: Build, package: Package, stage: Path) -> None:
    """Adds what tells of the package itself."""
    control, files = stage / 'DEBIAN', plain_files(stage)
    version = f'{build.debian_version}-1'
    # As dpkg-gencontrol counts: KiB for each file, and one for anything else.
    size = sum((path.stat().st_size + 1023) // 1024 if path in files else 1
               for path in entries(stage))
    text = package.description.format(said=PROVED if build.is_proved else UNPROVED)
    summary = package.summary if build.is_proved else f'{package.summary} (unproved)'
    write(control / 'control', f'''Package: {package.name}
Source: {SOURCE}
Version: {version}
Architecture: {ARCHITECTURE}
Maintainer: {build.commit.maintainer}
Installed-Size: {size}
{needed_of_c(files)}{package.fields.format(version=version)}
Priority: optional
Description: {summary}{text}''')
    write(control / 'md5sums', ''.join(
        f'{hashlib.md5(path.read_bytes()).hexdigest()}  {path.relative_to(stage)}\n'
        for path in files))
    if package.name == SHARED:
        write(control / 'shlibs', f'libregex_lite 0 {SHARED} (>= {build.debian_version})\n')
        write(control / 'triggers', 'activate-noawait ldconfig\n')


def settle(stage: Path, time: int) -> None:
    """Gives all files the modes that they have in packages, and this time."""
    for path in (stage, *stage.rglob('*')):
        if not path.is_symlink():
            path.chmod(0o755 if path.is_dir() or path.parent.name == 'bin' else 0o644)
        os.utime(path, (time, time), follow_symlinks=False)


def make_packages(build: Build, work: Path) -> None:
    """Makes the packages."""
    root = work / 'root'
    install(build, root)
    strip(root)
    env = {**os.environ, 'SOURCE_DATE_EPOCH': str(build.commit.time),
           'DPKG_DEB_THREADS_MAX': '1'}  # what xz writes depends on the number
    for package in PACKAGES:
        stage = work / package.name
        for pattern in package.files:
            for file in sorted(root.glob(pattern)):
                place = stage / file.relative_to(root)
                place.parent.mkdir(parents=True, exist_ok=True)
                shutil.move(file, place)
        add_documents(build, package, stage)
        add_control(build, package, stage)
        settle(stage, build.commit.time)
        name = f'{package.name}_{build.debian_version}-1_{ARCHITECTURE}.deb'
        subprocess.run(['dpkg-deb', '--root-owner-group', '-Zxz', '--build', stage,
                        build.folder / name], check=True, env=env, stdout=subprocess.DEVNULL)
