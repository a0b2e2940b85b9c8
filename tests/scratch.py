"""A temporary repository with copies of our libraries, in which a test builds or runs a program
that uses them, and the program with which cases are replayed."""

import re
import shlex
import shutil
import subprocess
import sys
import tempfile
from collections.abc import Iterable, Iterator, Mapping, Sequence
from pathlib import Path
from typing import NamedTuple, Union

# The path of a file, what stands once in it, and what is to stand there.
Change = tuple[str, str, str]

TOP = Path(__file__).resolve().parent.parent
LIBRARIES = ('regex_lite_syntax', 'regex_lite_engine', 'regex_lite_meta', 'regex_lite')
PARTS = ('src', 'specs', 'proofs')
CALLER = 'caller'
ENDING = '.txt'  # the gate refuses files of the language outside the crates
SCRIPTS = ('rt', 'rtlib.py')
PROVER = 'rattle'
NO_PROVER = '#!/bin/sh\nexit 2\n'
MOST = 48 << 20  # bytes of cases at a time, since the kit passes on no more than 64 MiB
# The kit's own interpreter would take hours, so only the compiled program runs to its end.
ONCE = ('--steps', '1')
ENDED = re.compile(r'(\d+) passed, (\d+) failed\n\Z')  # the last line of the caller
OPTIMISING = '''#!/bin/sh
set -eu
left=$#
while [ "$left" -gt 0 ]; do
    word=$1
    shift
    [ "$word" != -O0 ] || word=-O2
    set -- "$@" "$word"
    left=$((left - 1))
done
exec {clang} "$@"
'''
# Compiles once more, optimised and without the checks of memory accesses, to a file that is kept.
KEEPING = '''#!/bin/sh
set -eu
{clang} "$@"
left=$#
while [ "$left" -gt 0 ]; do
    word=$1
    shift
    case $word in
    -fsanitize=address) ;;
    -O0) set -- "$@" -O2 ;;
    *) set -- "$@" "$word" ;;
    esac
    left=$((left - 1))
done
exec {clang} "$@" -o {kept}
'''


class Answer(NamedTuple):
    """How a run ends, and what it has written."""

    status: int
    out: bytes
    err: bytes

    def __str__(self) -> str:
        words = [f'status {self.status}']
        if self.out:
            words.append(f'output {self.out[:200]!r}')
        if self.err:
            words.append(f'error {self.err[:200]!r}')
        return ' and '.join(words)


def files() -> list[Path]:
    """The files of the repository, by their paths."""
    listed = subprocess.run(['git', 'ls-files', '--cached', '--others', '--exclude-standard'],
                            cwd=TOP, check=True, stdout=subprocess.PIPE, encoding='utf-8')
    return [TOP / line for line in listed.stdout.splitlines() if (TOP / line).is_file()]


def program_files(program: str) -> dict[str, str]:
    """The files of a program of these tests, by their paths in the repository, and the file that
    lists its crates."""
    crates = [line for line in (TOP / 'crates.txt').read_text(encoding='utf-8').splitlines()
              if line.partition(':')[0] in LIBRARIES]
    found = {'crates.txt': '\n'.join([*crates, f'{program}: regex_lite', ''])}
    folder = TOP / 'tests' / program
    for file in folder.glob(f'**/*.rt{ENDING}'):
        name = str(file.relative_to(folder))[:-len(ENDING)]
        found[f'crates/{program}/src/{name}'] = file.read_text(encoding='utf-8')
    for file in folder.glob(f'proofs/**/*.antt{ENDING}'):
        name = str(file.relative_to(folder))[:-len(ENDING)]
        found[f'crates/{program}/{name}'] = file.read_text(encoding='utf-8')
    return found


def lay_out(repository: Path, files: Mapping[str, str]) -> None:
    """Writes the files, by their paths, beside copies of our libraries."""
    for name in LIBRARIES:
        for part in PARTS:
            shutil.copytree(TOP / 'crates' / name / part, repository / 'crates' / name / part)
    for path, text in files.items():
        file = repository / path
        file.parent.mkdir(parents=True, exist_ok=True)
        file.write_text(text, encoding='utf-8')


def kit() -> Path:
    """The folder of the kit."""
    page = subprocess.run(['rt', 'doc'], check=True, stdout=subprocess.PIPE, encoding='utf-8')
    return Path(page.stdout.strip()).parent


def link_all(source: Path, target: Path, but: Sequence[str] = ()) -> None:
    """Links the contents of one folder into the other, except these."""
    target.mkdir(parents=True)
    for path in source.iterdir():
        if path.name not in but:
            (target / path.name).symlink_to(path)


def write_script(file: Path, text: str) -> None:
    """Writes a file that can be run."""
    file.write_text(text, encoding='utf-8')
    file.chmod(0o755)


def lay_out_kit(target: Path, compiler: str) -> Path:
    """Makes the folder a kit whose `rt try` compiles with this script, and returns its `rt`. The
    rest of the kit is linked, except the scripts that take the folder above them for the kit, and
    the prover: beside each program `rt try` has it look for names that a check would refuse, for
    half a minute, and in our crates the gate finds those too."""
    source = kit()
    link_all(source, target, ('bin', 'toolchain'))
    link_all(source / 'toolchain', target / 'toolchain', ('bin',))
    link_all(source / 'toolchain' / 'bin', target / 'toolchain' / 'bin', ('clang',))
    link_all(source / 'bin', target / 'bin', (*SCRIPTS, PROVER))
    for name in SCRIPTS:
        shutil.copy2(source / 'bin' / name, target / 'bin' / name)
    write_script(target / 'bin' / PROVER, NO_PROVER)
    write_script(target / 'toolchain' / 'bin' / 'clang', compiler)
    return target / 'bin' / 'rt'


def kit_clang() -> str:
    """The path of the kit's compiler, as a word of a script."""
    return shlex.quote(str(kit() / 'toolchain' / 'bin' / 'clang'))


def lay_out_optimising_kit(target: Path) -> Path:
    """Makes the folder a kit whose `rt try` optimises its programs, and returns its `rt`. By
    default the kit has clang build them with `-O0`, and then they take about fifty times as long.
    All checks that it inserts, of indices, of sums and of memory accesses, remain."""
    return lay_out_kit(target, OPTIMISING.format(clang=kit_clang()))


def build(repository: Path, program: str, target: Path) -> None:
    """Builds a program of the repository without a proof, to be run directly. The checks that `rt
    try` inserts remain, except those of memory accesses, since these bring their own allocator."""
    with tempfile.TemporaryDirectory() as folder:
        kept = Path(folder) / f'{program}.o'
        script = KEEPING.format(clang=kit_clang(), kept=shlex.quote(str(kept)))
        rt = lay_out_kit(Path(folder) / 'kit', script)
        done = run(repository, program, ONCE, rt=rt)
        if not kept.is_file():
            sys.exit(f'{program} was not built:\n{done.stdout[-4000:]}{done.stderr[-4000:]}')
        code = kit() / 'c'
        subprocess.run([kit() / 'bin' / 'rattle-link', '--target', 'x86_64-unknown-linux-gnu',
                        '--toolchain', kit() / 'toolchain', '-o', target, kept,
                        code / 'libos_c.a', code / 'liblibc_c.a'],
                       check=True, stdout=subprocess.DEVNULL)


def run(repository: Path, program: str, options: Sequence[str] = (), given: str = '',
        rt: Union[str, Path] = 'rt') -> subprocess.CompletedProcess[str]:
    """Builds and runs a program of the repository by `rt try`, which proves nothing, with this
    standard input. Its status is the program's own where the program ends."""
    return subprocess.run([rt, 'try', *options], cwd=repository / 'crates' / program, check=False,
                          input=given, stdout=subprocess.PIPE, stderr=subprocess.PIPE,
                          encoding='utf-8')


def parts(cases: str) -> Iterator[list[str]]:
    """The lines of the cases, in lists of at most MOST bytes."""
    part: list[str] = []
    size = 0
    for line in cases.split('\n')[:-1]:
        length = len(line.encode()) + 1
        if part and size + length > MOST:
            yield part
            part, size = [], 0
        part.append(line)
        size += length
    yield part


def changed(repository: Path, change: Change) -> str:
    """The text of a file of the repository with this change, for which it has to have one place."""
    path, old, new = change
    text, count = re.subn(old, new, (repository / path).read_text(encoding='utf-8'),
                          flags=re.DOTALL)
    if count != 1:
        sys.exit(f'{path} has {count} places like {old}, and not one')
    return text


def make_changes(repository: Path, changes: Iterable[Change]) -> None:
    """Makes each change in a file of the repository, once."""
    for change in changes:
        text = changed(repository, change)
        (repository / change[0]).write_text(text, encoding='utf-8')


def check_places(changes: Iterable[Change]) -> None:
    """Ends the program unless each change has its place in our libraries."""
    for change in changes:
        changed(TOP, change)


def replay(cases: str, seconds: int = 600, changes: Sequence[Change] = ()) -> int:
    """Runs the caller on these lines, each time for at most this many seconds, passes on the
    failures that it prints, and prints how many cases passed and failed in all. The libraries are
    changed before. The status is 0 if there is a case and none failed."""
    options = (*ONCE, '--seconds', str(seconds))
    passed = failed = 0
    with tempfile.TemporaryDirectory() as folder:
        repository = Path(folder) / 'repository'
        lay_out(repository, program_files(CALLER))
        make_changes(repository, changes)
        rt = lay_out_optimising_kit(Path(folder) / 'kit')
        for part in parts(cases):
            done = run(repository, CALLER, options, ''.join(f'{line}\n' for line in part), rt)
            ended = ENDED.search(done.stdout)
            if done.returncode not in (0, 1) or not ended:
                sys.exit(f'the caller ended with {done.returncode}:\n{done.stderr[-4000:]}')
            print(done.stdout[:ended.start()], end='')
            passed, failed = passed + int(ended[1]), failed + int(ended[2])
    print(f'{passed} passed, {failed} failed')
    lines = cases.count('\n')
    if passed + failed != lines:
        sys.exit(f'the caller did not read all of {lines} cases')
    return 0 if passed > 0 and failed == 0 else 1
