r"""The list of runs of the program: all its commands, with what they write and how they end.

`runs.tsv` has 888 runs of the program. A line has four fields and one for each argument:

1. the exit status
2. the standard input
3. what is written to standard output
4. what is written to standard error
5. the arguments, without the program's name

In these fields `\u{dc80}` to `\u{dcff}` stand for the bytes 80 to FF that belong to no character.
So an argument and the input may be invalid UTF-8.

714 runs end with 0, 37 with 1 and 137 with 2: their arguments are wrong or not UTF-8, the pattern
is refused, or the input is not UTF-8. `tests/replay` repeats each of the 579 runs that write to
standard output, with a standard output that nobody reads. Then nothing is written there, a line on
standard error says that it cannot be, and the status is 2.

202 of the runs were picked by hand: one of each command, wrong arguments, arguments that are not
UTF-8, refused patterns and inputs that are not UTF-8 with each command, escapes, and texts with
other words of the program, line ends and NULs. The others run all commands with a
pattern on those patterns that were picked for `lists.tsv` and need no flags, each with its template
and its first haystack.
"""

import subprocess
from collections.abc import Iterable

from .data import bytes_of, escaped, rows_of, text_of

COMMANDS = ('is-match', 'find', 'captures', 'split')


def asked() -> Iterable[tuple[str, ...]]:
    """The runs, each as its standard input and its arguments: those picked by hand, and each
    pattern that was picked for the list of lists and needs no flags, with its first haystack and
    all commands."""
    runs: list[tuple[str, ...]] = [(given, *arguments) for given, *arguments in rows_of('runs')]
    for flags, pattern, replacement, haystack, *_ in rows_of('lists'):
        if flags == '-':
            runs += [(haystack, command, pattern) for command in COMMANDS]
            runs.append((haystack, 'replace', pattern, replacement))
    return dict.fromkeys(runs)


def line_of(judge: str, given: str, *arguments: str) -> str:
    """A run and what the judge does as a line of the list."""
    done = subprocess.run([judge, *map(bytes_of, arguments)], input=bytes_of(given), check=False,
                          stdout=subprocess.PIPE, stderr=subprocess.PIPE)
    texts = [given, text_of(done.stdout), text_of(done.stderr), *arguments]
    return '\t'.join([str(done.returncode), *map(escaped, texts)]) + '\n'


def lines(judge: str) -> list[str]:
    """The lines of the list."""
    return [line_of(judge, *run) for run in asked()]
