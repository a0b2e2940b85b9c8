"""A copy of the repository, in which a test runs the scripts of bin/, and a fake kit. Its `rt`
notes how it is called, prints what the real one does, and writes a program or an archive of its
own."""

import os
import shutil
import subprocess
import tempfile
import unittest
from pathlib import Path
from typing import Optional

from scratch import TOP, write_script

CRATES = TOP / 'crates'
PROGRAM = '#!/bin/sh\necho "found $*"\n'
RT = '''#!/bin/sh
set -eu
here=$(dirname "$(dirname "$(readlink -f "$0")")")
echo "$1" >>"$here/calls"
case $1 in
version) cat "$here/version" ;;
doc) echo "$here/START-HERE.md" ;;
run | lib)
    sh "$here/meanwhile"
    [ ! -e "$here/refuses" ] || { echo 'error: no proof'; exit 1; }
    for crate in regex_lite_syntax regex_lite "$(basename "$PWD")"; do
        echo "rt: chose --jobs 1 for $crate"
        echo 'so far: 30 functions checked, and more to come'
        echo 'logic=proved sum'
    done
    mkdir -p out
    if [ "$1" = run ]; then
        cp "$here/program" out/rxl
    else
        cp "$here/made.a" "out/lib$(basename "$PWD").a"
    fi
    ;;
esac
'''
# Writes the archive that it is to build.
RATTLE = '''#!/bin/sh
set -eu
here=$(dirname "$(dirname "$(readlink -f "$0")")")
echo "rattle $*" >>"$here/calls"
while [ "$1" != -o ]; do shift; done
cp "$here/made.a" "$2"
echo 'logic=proved sum'
'''


class Built(unittest.TestCase):
    """A copy of the repository, without most files of the crates, with such a kit."""

    def setUp(self) -> None:
        temporary = tempfile.TemporaryDirectory()
        self.addCleanup(temporary.cleanup)
        self.folder = Path(temporary.name)
        self.top = self.folder / 'repository'
        self.kit = self.folder / 'kit'
        for crate in CRATES.iterdir():
            for root in (*crate.glob('src/*.rt'), *crate.glob('*/Lib.antt')):
                to = self.top / root.relative_to(TOP)
                to.parent.mkdir(parents=True, exist_ok=True)
                shutil.copy2(root, to)
        shutil.copytree(TOP / 'bin', self.top / 'bin')
        for binding in ('c', 'cpp'):
            shutil.copytree(TOP / 'bindings' / binding, self.top / 'bindings' / binding)
        shutil.copytree(TOP / 'man', self.top / 'man')
        shutil.copy2(TOP / 'crates.txt', self.top)
        (self.top / 'tests').mkdir()
        shutil.copy2(TOP / 'tests' / 'scratch.py', self.top / 'tests')
        (self.kit / 'bin').mkdir(parents=True)
        self.path = f'{self.kit / "bin"}{os.pathsep}{os.environ["PATH"]}'
        write_script(self.kit / 'bin' / 'rt', RT)
        write_script(self.kit / 'bin' / 'rattle', RATTLE)
        write_script(self.kit / 'program', PROGRAM)
        (self.kit / 'version').write_text('kit 1\n', encoding='utf-8')
        (self.kit / 'meanwhile').write_text('', encoding='utf-8')

    def run_script(self, name: str, *arguments: str, wanted: int = 0,
                   env: Optional[dict[str, str]] = None) -> 'subprocess.CompletedProcess[str]':
        """Runs a script of bin/, which is to end with this status."""
        done = subprocess.run([self.top / 'bin' / name, *arguments], check=False,
                              stdin=subprocess.DEVNULL, stdout=subprocess.PIPE,
                              stderr=subprocess.PIPE, encoding='utf-8',
                              env={**os.environ, 'PATH': self.path, **(env or {})})
        self.assertEqual(done.returncode, wanted, done.stderr)
        return done

    def calls(self) -> list[str]:
        """How `rt` has been called since this was last asked."""
        noted = self.kit / 'calls'
        found = noted.read_text(encoding='utf-8').split() if noted.exists() else []
        noted.unlink(missing_ok=True)
        return found
