"""python3 -B -m answers.make JUDGE, in the folder tests/: rewrites the lists of answers, and the
cases in the tests of regex_lite_engine.

Each list has the cases picked by hand, from the files in picked/, and after them generated cases,
by the quotas in choice.py, or in searches.py, lists.py, pattern_lists.py and list_matches.py for
the lists that these make. The list of runs has no generated cases.

The other four options write new cases to standard output and change no file: `--fresh SEED NUMBER`
writes NUMBER cases of the whole grammar, from the given seed, in the form of the lists. About half
of them are matches. It serves to compare a program with upstream on more cases than the lists have.
`--fresh-searches SEED NUMBER` does the same for searches, `--fresh-lists` for lists, pieces and
replacements, and `--fresh-pattern-lists` for searches for several patterns. `tests/calls` takes
what these three write.

JUDGE is a program over the Rust crate regex-lite 0.1.9 with some changes. The head of judge.py says
which, and what it is asked and answers.
"""

import argparse
import sys
from collections.abc import Callable, Iterator, Sequence
from typing import Optional

from . import (escapes, flags, hostile, hostile_lists, list_matches, lists, long, pattern_lists,
               plain, runs, searches, settings, walks, whole)
from .choice import PATTERNS, STRUCTURE, Row, chosen_rows, kept_lines, quotas_of
from .data import ANSWERS, cases_of, faults_of, line_of
from .dice import Dice
from .judge import ask

SEED = 1

# What makes the patterns of each list, and the files with what was picked by hand, in the order in
# which they stand in the list.
LISTS: dict[str, tuple[Callable[[Dice], Iterator[Row]], Sequence[str]]] = {
    'plain-grammar': (plain.generated, ('plain-grammar',)),
    'flags-and-classes': (flags.generated, ('flags-and-classes', 'flags-and-classes-faults')),
    'whole-grammar': (
        whole.generated, ('whole-grammar', 'whole-grammar-faults', 'whole-grammar-rows'),
    ),
}

CRATES = ANSWERS / '../../crates'
WALKS = CRATES / 'regex_lite_engine/tests/search/tests/cases.rt.txt'


def picked_cases(files: Sequence[str]) -> list[tuple[tuple[str, str], Optional[str]]]:
    """The cases picked by hand, each with the text of its refusal, or None if only the judge
    knows."""
    cases: list[tuple[tuple[str, str], Optional[str]]] = []
    for name in files:
        if name.endswith('-faults'):
            for text, places in faults_of(name).items():
                patterns = [pattern for some in places.values() for pattern in some]
                cases += [((pattern, ''), text) for pattern in patterns]
        else:
            cases += [(case, None) for case in cases_of(name)]
    return cases


def picked_lines(judge: str, picked: list[tuple[tuple[str, str], Optional[str]]]) -> list[str]:
    """The lines of the cases picked by hand."""
    cases = [case for case, _ in picked]
    if len(set(cases)) < len(cases):
        raise SystemExit('two picked cases are the same')
    found = []
    for (case, wanted), (status, text) in zip(picked, ask(judge, cases)):
        if wanted is not None and text != wanted:
            raise SystemExit(f'wrong among the picked cases: {case!r}: {text}')
        found.append(line_of(case, status, text))
    return found


def lines_of(judge: str, name: str) -> list[str]:
    """The lines of a list."""
    generated, files = LISTS[name]
    picked = picked_cases(files)
    seen: set[object] = {pattern for (pattern, _), _ in picked}
    rows = chosen_rows(judge, generated(Dice(SEED)), PATTERNS[name], STRUCTURE[name])
    return picked_lines(judge, picked) + kept_lines(judge, rows, quotas_of(name), seen)


def fresh_lines(judge: str, seed: int, count: int) -> list[str]:
    """As many lines of generated cases from another seed, without any choice among their kinds."""
    rows = chosen_rows(judge, whole.generated(Dice(seed)), count, STRUCTURE['whole-grammar'])
    cases = [(pattern, haystack) for _, pattern, *texts in rows for haystack in texts]
    cases = list(dict.fromkeys(cases))[:count]
    return [line_of(case, *answer) for case, answer in zip(cases, ask(judge, cases))]


# What makes new cases, and what these are, by the option that asks for them.
FRESH: dict[str, tuple[Callable[[str, int, int], list[str]], str]] = {
    '--fresh': (fresh_lines, 'cases of the whole grammar'),
    '--fresh-searches': (searches.fresh, 'searches'),
    '--fresh-lists': (lists.fresh, 'cases with all matches'),
    '--fresh-pattern-lists': (pattern_lists.fresh_lines, 'searches for several patterns'),
}


def main() -> None:
    """Writes the lists, or new cases."""
    parser = argparse.ArgumentParser(prog='answers.make',
                                     description='Writes the lists and data of tests.')
    parser.add_argument('judge', help='a program over the Rust crate, as the head comment says')
    for option, (_, what) in FRESH.items():
        parser.add_argument(option, dest=option, nargs=2, type=int, metavar=('SEED', 'NUMBER'),
                            help=f'write NUMBER new {what} to standard output, and no file')
    arguments = vars(parser.parse_args())
    judge = arguments['judge']
    asked = {option: arguments[option] for option in FRESH if arguments[option]}
    if asked:
        fresh = [line for option, given in asked.items()
                 for line in FRESH[option][0](judge, *given)]
        sys.stdout.buffer.write(''.join(fresh).encode())
        return
    written = {ANSWERS / f'{name}.tsv': lines_of(judge, name) for name in LISTS}
    written[ANSWERS / 'searches.tsv'] = searched = searches.lines(judge)
    written[WALKS] = walks.lines(searched)
    written[ANSWERS / 'lists.tsv'] = lists.lines(judge)
    written[ANSWERS / 'escapes.tsv'] = escapes.lines(judge)
    written[ANSWERS / 'runs.tsv'] = runs.lines(judge)
    written[ANSWERS / 'settings.tsv'] = settings.lines(judge)
    written[ANSWERS / 'long.tsv'] = long.lines(judge)
    written[ANSWERS / 'pattern-lists.tsv'] = pattern_lists.lines(judge)
    written[ANSWERS / 'list-matches.tsv'] = list_matches.lines(judge)
    written[hostile.PATH] = hostile.lines(judge)
    written[hostile_lists.PATH] = hostile_lists.made(judge)
    for path, lines in written.items():
        with open(path, 'w', encoding='utf-8', newline='\n') as out:
            out.writelines(lines)


if __name__ == '__main__':
    main()
