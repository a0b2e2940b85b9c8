"""The wheel, in a fresh virtual environment, and the source distribution.

REGEX_LITE_FOLDER names the folder with the library. Nothing is fetched: the wheel is built by a
Python on the path that has setuptools and what makes wheels."""

import os
import shutil
import subprocess
import sys
import sysconfig
import tarfile
import tempfile
import unittest
import zipfile
from pathlib import Path
from typing import Dict, List, Optional, Union

PROJECT = Path(__file__).resolve().parent.parent
FOLDER = os.environ.get('REGEX_LITE_FOLDER', '')
LICENCES = ('LICENSE-APACHE', 'LICENSE-MIT')
CAN_BUILD = '''
import setuptools, pip
try:
    import setuptools.command.bdist_wheel
except ImportError:
    import wheel
'''
SDIST = 'import setuptools.build_meta, sys; setuptools.build_meta.build_sdist(sys.argv[1])'
SEARCH = '''
import regex_lite
print(regex_lite.__file__, regex_lite.search(r'(?P<n>\\d+)', 'b52')['n'])
'''
PIP = ('-m', 'pip', '--disable-pip-version-check')
OFFLINE = ('--no-index', '--no-deps')


def run(command: List[Union[str, Path]], cwd: Path = PROJECT,
        variables: Optional[Dict[str, str]] = None) -> 'subprocess.CompletedProcess[str]':
    """Runs a command with these variables, and without those that lead to the checkout."""
    env = {name: value for name, value in os.environ.items()
           if name not in ('PYTHONPATH', 'REGEX_LITE_FOLDER', 'REGEX_LITE_LIBRARY')}
    return subprocess.run(command, check=False, cwd=cwd, stdout=subprocess.PIPE,
                          stderr=subprocess.STDOUT, encoding='utf-8',
                          env={**env, 'PYTHONDONTWRITEBYTECODE': '1', **(variables or {})})


def builder() -> Optional[str]:
    """A Python that can build wheels."""
    folders = os.environ.get('PATH', '').split(os.pathsep)
    found = [sys.executable, *(shutil.which('python3', path=folder) for folder in folders)]
    return next((python for python in found
                 if python and run([python, '-c', CAN_BUILD]).returncode == 0), None)


@unittest.skipUnless(FOLDER, 'REGEX_LITE_FOLDER names no library for a wheel')
class Installed(unittest.TestCase):
    """What pip builds and installs."""

    python: str
    wheel: Path
    scratch: Path
    files: List[Path]

    @classmethod
    def setUpClass(cls) -> None:
        python = builder()
        if python is None:
            raise unittest.SkipTest('no Python has pip, setuptools and wheel: the tests of a wheel')
        cls.python = python
        folder = tempfile.TemporaryDirectory()
        cls.addClassCleanup(folder.cleanup)
        cls.scratch = Path(folder.name)
        cls.files = sorted(PROJECT.rglob('*'))
        built = cls.build(REGEX_LITE_FOLDER=FOLDER)
        if built.returncode != 0:
            raise AssertionError(built.stdout)
        cls.wheel, = (cls.scratch / 'wheels').iterdir()

    @classmethod
    def build(cls, **variables: str) -> 'subprocess.CompletedProcess[str]':
        """Builds the wheel."""
        return run([cls.python, *PIP, 'wheel', *OFFLINE, '--no-build-isolation', '-w',
                    cls.scratch / 'wheels', PROJECT], variables=variables)

    def test_tag(self) -> None:
        platform = sysconfig.get_platform().replace('-', '_').replace('.', '_')
        self.assertRegex(self.wheel.name, rf'^regex_lite-[\d.]+-py3-none-{platform}\.whl$')
        with zipfile.ZipFile(self.wheel) as file:
            name, = (name for name in file.namelist() if name.endswith('.dist-info/WHEEL'))
            lines = file.read(name).decode().splitlines()
        self.assertIn(f'Tag: py3-none-{platform}', lines)
        self.assertIn('Root-Is-Purelib: false', lines)

    def test_files(self) -> None:
        with zipfile.ZipFile(self.wheel) as file:
            files = {name: file.read(name) for name in file.namelist()}
        for source in (PROJECT / 'regex_lite').glob('*.*'):
            self.assertEqual(files[f'regex_lite/{source.name}'], source.read_bytes())
        library = Path(FOLDER, 'libregex_lite.so')
        self.assertEqual(files['regex_lite/libregex_lite.so'], library.read_bytes())
        for name in LICENCES:
            licence, = (files[path] for path in files if path.endswith(f'/{name}'))
            self.assertEqual(licence, (PROJECT / name).read_bytes())

    def test_licences(self) -> None:
        for name in LICENCES:
            top = PROJECT.parent.parent / name
            if top.is_file():  # as in a checkout
                self.assertEqual((PROJECT / name).read_bytes(), top.read_bytes())

    def test_search(self) -> None:
        place = self.scratch / 'environment'
        made = run([sys.executable, '-m', 'venv', place])
        if made.returncode != 0:
            self.skipTest('no virtual environment can be made: the installed wheel')
        python = place / 'bin' / 'python'
        installed = run([python, *PIP, 'install', *OFFLINE, self.wheel])
        self.assertEqual(installed.returncode, 0, installed.stdout)
        done = run([python, '-c', SEARCH], self.scratch)
        file, _, found = done.stdout.partition(' ')
        self.assertEqual((done.returncode, found), (0, '52\n'), done.stdout)
        self.assertIn(place, Path(file).parents)

    def test_without_a_library(self) -> None:
        built = self.build(REGEX_LITE_FOLDER=str(self.scratch))
        self.assertNotEqual(built.returncode, 0)
        self.assertIn('Build it by `bin/library FOLDER`', built.stdout)

    def test_source_distribution(self) -> None:
        made = run([self.python, '-c', SDIST, self.scratch])
        self.assertEqual(made.returncode, 0, made.stdout)
        file, = self.scratch.glob('*.tar.gz')
        with tarfile.open(file) as archive:
            archive.extractall(self.scratch)
        source = self.scratch / file.name[:-len('.tar.gz')]
        for own in [*PROJECT.glob('tests/*.*'), *(PROJECT / name for name in LICENCES)]:
            self.assertEqual((source / own.relative_to(PROJECT)).read_bytes(), own.read_bytes())
        # The comparison isn't run again, nor is this test.
        done = run([sys.executable, '-m', 'unittest', 'discover', '-s', 'tests', '-p',
                    'test_*s.py'], source,
                   {'REGEX_LITE_LIBRARY': str(Path(FOLDER, 'libregex_lite.so'))})
        self.assertEqual(done.returncode, 0, done.stdout)
        self.assertNotIn('Ran 0 tests', done.stdout)

    def tearDown(self) -> None:
        self.assertEqual(sorted(PROJECT.rglob('*')), self.files)


if __name__ == '__main__':
    unittest.main()
