"""A clone of the working tree as a commit, in which bin/package packs what has been built already:
the two scripts that build are stand-ins, which copy it."""

import os
import shutil
import subprocess
from pathlib import Path
from typing import Optional, Union

from scratch import TOP, files, write_script

Word = Union[str, Path]  # of a command
# The stand-ins copy what has been built, and note how they were called.
LIBRARY = '''#!/bin/sh
set -eu
[ "$1" != --install ] || exec "${0%/*}/installs" "$@"
echo "library ${2:+$1}" >>"$NOTED"
while [ $# -gt 1 ]; do shift; done
cp -a "$BUILT" "$1"
'''
BUILD = '''#!/bin/sh
set -eu
echo "build ${1-}" >>"$NOTED"
echo "$PROGRAM"
'''
OF_PACKAGES = ('SOURCE_DATE_EPOCH', 'DEBFULLNAME', 'DEBEMAIL')  # what the environment may name
TIME = 1796109026  # of the commit
WHO = {name: value for who in ('AUTHOR', 'COMMITTER') for name, value in (
    (f'GIT_{who}_NAME', 'A Packer'), (f'GIT_{who}_EMAIL', 'packer@example.org'),
    (f'GIT_{who}_DATE', f'{TIME} +0900'))}


class Clone:
    """A clone of the working tree as a commit, with the stand-ins."""

    def __init__(self, top: Path, built: Path, program: Optional[Path], noted: Path) -> None:
        self.top = top
        self.noted = noted
        own = {name: value for name, value in os.environ.items() if name not in OF_PACKAGES}
        self.env = {**own, **WHO, 'BUILT': str(built), 'PROGRAM': str(program),
                    'NOTED': str(noted)}

    def git(self, *words: Word) -> str:
        """What git prints."""
        return subprocess.run(['git', *words], check=True, cwd=self.top, env=self.env,
                              stdout=subprocess.PIPE, encoding='utf-8').stdout

    def lay_out(self) -> None:
        """Writes the files, and makes the commit."""
        for file in files():
            target = self.top / file.relative_to(TOP)
            target.parent.mkdir(parents=True, exist_ok=True)
            shutil.copy2(file, target)
        scripts = self.top / 'bin'
        (scripts / 'library').rename(scripts / 'installs')
        write_script(scripts / 'library', LIBRARY)
        write_script(scripts / 'build', BUILD)
        self.git('init', '-q', '-b', 'main')
        self.git('add', '-A')
        self.git('commit', '-q', '-m', 'Pack')

    def package(self, *words: Word, env: Optional[dict[str, str]] = None,
                umask: str = '022') -> 'subprocess.CompletedProcess[str]':
        """Makes packages."""
        return subprocess.run(['sh', '-c', f'umask {umask}; exec "$@"', 'sh',
                               self.top / 'bin' / 'package', *words], check=False,
                              env={**self.env, **(env or {})}, stdout=subprocess.PIPE,
                              stderr=subprocess.STDOUT, encoding='utf-8')

    def has_noted(self, *calls: str) -> bool:
        """Whether the builds have been called like this since this was last asked, and no more."""
        noted = self.noted.read_text(encoding='utf-8').splitlines()
        self.noted.unlink()
        return noted == list(calls)
