"""`import` without a library says what to do."""

import os
import subprocess
import sys
import unittest
from pathlib import Path

PACKAGE = Path(__file__).resolve().parent.parent


def imported(library: str) -> 'subprocess.CompletedProcess[str]':
    """An import of the package where the variable names this library."""
    env = {**os.environ, 'PYTHONPATH': str(PACKAGE), 'REGEX_LITE_LIBRARY': library}
    return subprocess.run([sys.executable, '-B', '-c', 'import regex_lite'], check=False,
                          stderr=subprocess.PIPE, encoding='utf-8', env=env)


class Loading(unittest.TestCase):
    """What an import says."""

    def test_says_what_to_do(self) -> None:
        for library in ('/nowhere/libregex_lite.so', __file__):
            done = imported(library)
            self.assertEqual(done.returncode, 1)
            last = done.stderr.splitlines()[-1]
            self.assertTrue(last.startswith('ImportError: '), last)
            for word in (library, 'bin/library', 'REGEX_LITE_LIBRARY', 'REGEX_LITE_FOLDER'):
                self.assertIn(word, last)

    @unittest.skipIf((PACKAGE / 'regex_lite' / 'libregex_lite.so').exists(), 'there is a library')
    def test_looks_beside_itself(self) -> None:
        last = imported('').stderr.splitlines()[-1]
        self.assertTrue(last.startswith('ImportError: '), last)
        self.assertIn(str(PACKAGE / 'regex_lite' / 'libregex_lite.so'), last)


if __name__ == '__main__':
    unittest.main()
