"""What type checkers read of the package, where mypy is installed: of usual code it says what it
says of the same code over `re`."""

import os
import re
import shutil
import subprocess
import tempfile
import types
import unittest
from pathlib import Path
from typing import Any, List, Tuple

import regex_lite

PACKAGE = Path(__file__).resolve().parent.parent
USUAL = Path(__file__).with_name('usual.py')
WRONG = '''
import regex_lite
regex_lite.search(b'a', 'a')
regex_lite.search('a', b'a')
regex_lite.compile('a').sub(lambda found: 3, 'a')
regex_lite.compile('a').flags = 2
regex_lite.compile('a').fullmatch('a', '1')
found: regex_lite.Match[bytes]
'''


def over_regex_lite(source: str) -> str:
    """The same code over this module."""
    return source.replace('import re\n', 'import regex_lite as re\n').replace(
        'from re import', 'from regex_lite import')


def said_of(source: str) -> List[Tuple[str, str]]:
    """The lines of which mypy complains in its strict mode, and the kinds of what it says."""
    with tempfile.TemporaryDirectory() as folder:
        path = Path(folder, 'usual.py')
        path.write_text(source, encoding='utf-8')
        done = subprocess.run(
            ['mypy', '--strict', '--no-error-summary', '--cache-dir', os.devnull, str(path)],
            check=False, cwd=folder, env={**os.environ, 'MYPYPATH': str(PACKAGE)},
            stdout=subprocess.PIPE, stderr=subprocess.STDOUT, encoding='utf-8')
    said = [re.fullmatch(r'usual\.py:(\d+): error: .*\[([\w-]+)\]', line.replace(folder + '/', ''))
            for line in done.stdout.splitlines() if ': note: ' not in line]
    if None in said:
        raise AssertionError(done.stdout)
    return [(found[1], found[2]) for found in said if found]


class Types(unittest.TestCase):
    """What mypy says."""

    @unittest.skipIf(shutil.which('mypy') is None, 'there is no mypy')
    def test_usual_code(self) -> None:
        source = USUAL.read_text(encoding='utf-8')
        theirs, ours = said_of(source), said_of(over_regex_lite(source))
        self.assertEqual(ours, theirs)
        self.assertEqual([kind for _, kind in theirs], ['union-attr'])

    @unittest.skipIf(shutil.which('mypy') is None, 'there is no mypy')
    def test_mistakes(self) -> None:
        lines = {line for line, _ in said_of(WRONG)}
        self.assertEqual(lines, {str(number) for number in range(3, WRONG.count('\n') + 1)})


class Results(unittest.TestCase):
    """What usual code returns."""

    def results(self, source: str) -> Any:
        """What the functions of a source return."""
        module = types.ModuleType('usual')
        exec(compile(source, str(USUAL), 'exec'), module.__dict__)
        return module.__dict__['results']()

    def test_usual_code(self) -> None:
        source = USUAL.read_text(encoding='utf-8')
        self.assertEqual(self.results(over_regex_lite(source)), self.results(source))

    def test_names_of_the_module(self) -> None:
        """All that `re` has are there, but for `template`."""
        self.assertEqual(set(re.__all__) - set(regex_lite.__all__) - {'template', 'PatternError'},
                         set())
        self.assertEqual(sorted(regex_lite.__all__), sorted(
            name for name in dir(regex_lite) if name[0] != '_'
            and not isinstance(getattr(regex_lite, name), types.ModuleType)))
        self.assertIs(regex_lite.PatternError, regex_lite.error)

    def test_names_of_objects(self) -> None:
        modules: Tuple[Any, ...] = (re, regex_lite)
        theirs_and_ours = [(module.compile('a'), module.search('a', 'a'),
                            module.compile('a').scanner('a')) for module in modules]
        for theirs, ours in zip(*theirs_and_ours):
            names = {name for name in dir(theirs) if name[0] != '_'}
            self.assertLessEqual(names, set(dir(ours)))


if __name__ == '__main__':
    unittest.main()
