"""The code of Rattle that the page shows, built and run by the kit without a proof."""

import shutil
import subprocess
import tempfile
import unittest
from pathlib import Path

from page.answers import answer_to
from page.tests.code_cases import CASES
from page.tests.running import TOP
from page.tests.test_code import in_code, lines_by_bytes

LIBRARIES = ('regex_lite_syntax', 'regex_lite_engine', 'regex_lite_meta', 'regex_lite')
ATTRIBUTE = '#![tactic(auto)]\n'  # of a crate, not of a module
# What calls `show` in the code of each case, which is a module.
MAIN = '''//! Prints what each case prints.
{attribute}
{modules}
fn main(rt: HostRuntime) {{
{calls}}}
'''
CALL = '''    if let Err(error) = shown{i}::show(&rt) {{
        let _ = println!(rt; "{{error}}");
    }}
'''


@unittest.skipIf(shutil.which('rt') is None, 'there is no kit, with rt on the path')
class Rattle(unittest.TestCase):
    """All cases in one program, since building the libraries takes most of the time."""

    def lay_out(self, top: Path) -> Path:
        """Writes a repository with our libraries and the program, and returns its folder."""
        for name in LIBRARIES:
            for part in ('src', 'specs', 'proofs'):
                shutil.copytree(TOP / 'crates' / name / part, top / 'crates' / name / part)
        lines = (TOP / 'crates.txt').read_text(encoding='utf-8').splitlines(keepends=True)
        own = [line for line in lines if line.partition(':')[0] in LIBRARIES]
        (top / 'crates.txt').write_text(''.join([*own, 'shown: regex_lite\n']), encoding='utf-8')
        (top / 'HANDLES').write_text('Handles allowed: none.\n', encoding='utf-8')
        source = top / 'crates' / 'shown' / 'src'
        source.mkdir(parents=True)
        numbers = range(len(CASES))
        main = MAIN.format(attribute=ATTRIBUTE, modules=''.join(f'mod shown{i};\n' for i in numbers),
                           calls=''.join(CALL.format(i=i) for i in numbers))
        (source / 'main.rt').write_text(main, encoding='utf-8')
        for i, asked in enumerate(CASES):
            code = answer_to(asked)['code']['rattle'].replace(ATTRIBUTE, '', 1)
            module = code[:code.index('fn main(')].replace('fn show(', 'pub fn show(', 1)
            (source / f'shown{i}.rt').write_text(module, encoding='utf-8', newline='\n')
        return source.parent

    def test_cases(self) -> None:
        with tempfile.TemporaryDirectory() as folder:
            done = subprocess.run(['rt', 'try', '--steps', '1'], cwd=self.lay_out(Path(folder)),
                                  check=False, capture_output=True)
        self.assertEqual(done.stdout.decode(errors='replace'),
                         ''.join(lines_by_bytes(in_code(asked)) for asked in CASES),
                         done.stderr.decode(errors='replace')[-2000:])
