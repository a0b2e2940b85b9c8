"""The cost of a run: instructions, peak memory, requests for memory, and time."""

import os
import re
import subprocess
import sys
import tempfile
import time
from collections.abc import Sequence

TIME_LIMIT = 1200  # seconds a run
NAME = os.path.basename(sys.argv[0])
ENVIRONMENT = {'PATH': os.environ.get('PATH', os.defpath), 'LC_ALL': 'C'}


def run(command: Sequence[str], text: str) -> tuple[int, str, str]:
    """The status of a command, its standard output and its standard error."""
    try:
        done = subprocess.run(command, input=text.encode(), env=ENVIRONMENT, timeout=TIME_LIMIT,
                              stdout=subprocess.PIPE, stderr=subprocess.PIPE, check=False)
    except subprocess.TimeoutExpired:
        sys.exit(f'{NAME}: over {TIME_LIMIT} seconds: {" ".join(command)[:120]}')
    return done.returncode, done.stdout.decode(), done.stderr.decode(errors='replace')


def account(tool: str, options: Sequence[str], command: Sequence[str], text: str) -> list[str]:
    """The contents of the files that a tool of valgrind writes about a run of the command."""
    with tempfile.TemporaryDirectory() as folder:
        file = os.path.join(folder, 'account')
        _, _, fault = run(['valgrind', f'--tool={tool}', f'--{tool}-out-file={file}', *options,
                           *command], text)
        # What is written at the end of the run has no number.
        names = sorted(os.listdir(folder), key=lambda name: (name == 'account', name))
        written = []
        for name in names:
            with open(os.path.join(folder, name)) as part:
                written.append(part.read())
    if not written:
        sys.exit(f'{NAME}: {tool} counted nothing: {" ".join(command)[:120]}\n{fault[-500:]}')
    return written


def instructions(command: Sequence[str], text: str) -> int:
    """The instructions of a run."""
    return sum(parts(command, text, []))


def instructions_until(function: str, command: Sequence[str], text: str) -> tuple[int, int]:
    """The instructions of a run up to the first call of a function, and those of the whole run."""
    counted = parts(command, text, [f'--dump-before={function}'])
    if len(counted) < 2:
        sys.exit(f'{NAME}: no call of {function}: {" ".join(command)[:120]}')
    return counted[0], sum(counted)


def parts(command: Sequence[str], text: str, options: Sequence[str]) -> list[int]:
    """The instructions of the parts of a run that callgrind separates."""
    written = account('callgrind', options, command, text)
    return [number_in(r'(?m)^totals: (\d+)', part) for part in written]


def number_in(pattern: str, account: str) -> int:
    """The number in what valgrind writes, which is group 1 of the pattern."""
    found = re.search(pattern, account)
    if not found:
        sys.exit(f'{NAME}: valgrind wrote no number: {account[-500:]}')
    return int(found[1].replace(',', ''))


def peak(command: Sequence[str], text: str) -> int:
    """The most bytes of the heap that are in use at once, including those that the C library
    adds."""
    written, = account('massif', ['--peak-inaccuracy=0.0'], command, text)
    sizes = re.findall(r'mem_heap_B=(\d+)\nmem_heap_extra_B=(\d+)', written)
    return max(int(bytes_asked) + int(extra) for bytes_asked, extra in sizes)


def requests(command: Sequence[str], text: str) -> int:
    """How often a run asks for memory."""
    _, _, written = run(['valgrind', '--tool=memcheck', '--leak-check=no',
                         '--undef-value-errors=no', *command], text)
    return number_in(r'total heap usage: ([\d,]+) allocs', written)


def seconds(command: Sequence[str], text: str, tries: int) -> float:
    """The least time that a run takes, of this many runs."""
    times = []
    for _ in range(tries):
        start = time.perf_counter()
        run(command, text)
        times.append(time.perf_counter() - start)
    return min(times)
