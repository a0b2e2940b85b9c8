r"""The judge, which says what the Rust crate returns.

The judge is a page of Rust over a copy of the crate regex-lite 0.1.9, with its default features and
these four changes:

- In `src/hir/mod.rs`, `Class::ascii_case_fold` adds the other case of each ASCII letter that is in
  one of the class's ranges.
- In `src/hir/parse.rs`, `parse_class_item` reads its item without the flag i, and restores the flag
  afterwards.
- In the same file, `peek_space` skips comments up to their line feeds.
- In `src/interpolate.rs`, a reference is a number only if it consists of digits.

The judge is started as `JUDGE batch` and answers each line of its standard input with one line of
standard output, in the same order, until the input ends. A line has four fields, separated by tabs:
the word `is-match`, a `-`, the pattern, the haystack. The last two are escaped as in a list. The
`-` stands for the default settings: the judge calls `Regex::new(pattern)`. If that is refused it
writes `err:` and the error's `Display` text. Otherwise it calls `is_match(haystack)` and writes
`ok:true` or `ok:false`.

For the settings a line has three fields: the word `build`, `limit:` and a size limit in one, or
`nest:` and a nest limit in one; flags; the pattern. The flags are `-`, or letters of `imsRUx` for
those that the judge's `RegexBuilder` turns on. The judge writes `ok:` if the builder accepts the
pattern within that limit, and `err:` with the text as above if it doesn't.

For the searches a line has four fields: a word, flags, the pattern, the haystack. The words are
`captures-at:`, `find-at:`, `is-match-at:` and `shortest-at:`, each with a start after the colon,
and `static-len` and `names`. After `ok:` the judge writes what the call of its crate returns: the
spans of the groups as in the list, the span of the match, `true` or `false`, the end, `Some(1)` or
`None`, and the names as in the list; and nothing if there is no match. The first four have to
agree on whether there is a match, and the first two on its span.

For the lists a line has the words `captures`, `find`, `split`, `splitn:` with a limit, `replacen:`
with a limit or `expand`, then flags, the pattern, the haystack, and a template, which only
`replacen:` and `expand` read. The judge writes `ok:` and the answer as in the list. For `find` it
writes the spans of the whole matches, which have to agree with those of all groups. For an escape a
line has the word `escape`, a `-` and the text.

For the runs the judge is started with the arguments of each run, as `JUDGE find PATTERN`, and does
what the program should do.

All answers of `plain-grammar.tsv` and of `escapes.tsv` are those of unchanged upstream. So are
those of the other lists, except 214 cases of `flags-and-classes.tsv`, 35 of `whole-grammar.tsv`, 34
of `searches.tsv`, 73 of `lists.tsv`, 98 of `pattern-lists.tsv`, 17 of `list-matches.tsv`, 16 of
`settings.tsv` and one of `runs.tsv`. To get these, upstream was fixed in four ways. The 214 cases
have a class under the flag i, and are of the first two kinds. Of the 35 cases 19 are of the second
kind and 16 of the third. Of the 34 cases 10 are of the first kind and 24 of the second, and of the
73 cases 27 are of the first kind, 32 of the second and 14 of the fourth, as the one run is. The 16
cases have 12 patterns of the first three kinds, and in the 98 and the 17 cases some pattern is of
one of these kinds:

- **Both cases of each letter.** Upstream looks at each run of characters in a class. If the run has
  lower-case letters, it adds the upper-case forms of these, and only if it has none does it add the
  lower-case forms of its upper-case letters. So `(?i)[Y-b]` has A and B, but neither y nor z, and
  `(?i)[^Y-b]` matches `y`. Here a class under i has both cases of each letter, and only then is it
  negated.
- **Escaped letters.** Under i, upstream reads an escaped letter in a class as the set of its two
  cases, which can't be an end of a range. So `(?i)[\x61-z]` is refused as a range that doesn't
  start and end with a single character. Here an escaped character in a class is that character:
  that range matches `q` and `Q`, and `(?i)[z-\x61]` is refused for its order.
- **A comment after a dash.** Under x, upstream skips white space after a `-` in a class when it
  checks whether a range follows, but takes a comment for what follows. So in `(?x)[a- # b` with a
  line feed and `]` after it, it finds a range to `]` and refuses it for its order. Here the comment
  is skipped like white space, and the class has `-` and `a`.
- **A sign before a number.** In a template upstream reads `${+1}` as group 1. Here it is the name
  `+1`, which no group has, so it gives the empty text.
"""

import re
import subprocess
from collections.abc import Sequence
from typing import NamedTuple, Optional

from .data import escaped, unescaped

# The judge's words for the calls that search from a start, and for those that ask of a pattern.
SEARCHES = ('captures-at', 'find-at', 'is-match-at', 'shortest-at')
PROPERTIES = ('static-len', 'names')

SearchCase = tuple[str, str, str, int]  # flags, a pattern, a haystack and a start


class Case(NamedTuple):
    """A call, and what it is given. None stands where it takes no limit or no template."""

    call: str
    limit: Optional[int]
    flags: str
    pattern: str
    haystack: str
    template: Optional[str]


def answers(judge: str, questions: Sequence[str]) -> list[str]:
    """The judge's answers to these lines, one for each."""
    done = subprocess.run(
        [judge, 'batch'], input=''.join(questions).encode(), stdout=subprocess.PIPE, check=True
    )
    lines = done.stdout.decode().split('\n')[:-1]
    if len(lines) != len(questions):
        raise SystemExit(f'{len(questions)} questions, but {len(lines)} answers')
    return lines


def ask(judge: str, cases: Sequence[tuple[str, str]]) -> list[tuple[int, str]]:
    """The judge's answers to pairs of pattern and haystack, as pairs: the exit status with
    which a program has to end, and the text of a refusal or an empty text."""
    questions = [
        f'is-match\t-\t{escaped(pattern)}\t{escaped(haystack)}\n' for pattern, haystack in cases
    ]
    return [meaning(case, answer) for case, answer in zip(cases, answers(judge, questions))]


def meaning(case: tuple[str, str], answer: str) -> tuple[int, str]:
    if answer == 'ok:true':
        return 0, ''
    if answer == 'ok:false':
        return 1, ''
    word, _, text = answer.partition(':')
    if word == 'err' and text:
        return 2, text
    raise SystemExit(f'unexpected answer to {case!r}: {answer}')


class Found(NamedTuple):
    """What a search finds: the spans of all groups as they stand in the list and the end of the
    shortest match, or None for each, and with these the pattern's static number and names."""

    groups: Optional[str]
    shortest: Optional[int]
    static: Optional[int]
    names: str

    @property
    def end(self) -> Optional[int]:
        """Where the preferred match ends."""
        if self.groups is None:
            return None
        return int(self.groups.partition(' ')[0].partition('..')[2])


def found(judge: str, cases: Sequence[SearchCase]) -> list[Found]:
    """What the judge finds in these cases."""
    questions: list[str] = []
    for flags, pattern, text, start in cases:
        rest = f'{flags}\t{escaped(pattern)}\t{escaped(text)}\n'
        questions += [f'{call}:{start}\t{rest}' for call in SEARCHES]
        questions += [f'{call}\t{rest}' for call in PROPERTIES]
    given = answers(judge, questions)
    count = len(SEARCHES) + len(PROPERTIES)
    return [meant(case, given[count * at:count * (at + 1)]) for at, case in enumerate(cases)]


def meant(case: SearchCase, given: list[str]) -> Found:
    """What these answers mean. All searches of the judge have to agree."""
    if not all(answer.startswith('ok:') for answer in given):
        raise SystemExit(f'unexpected answers to {case!r}: {given}')
    groups, whole, is_match, shortest, static, names = (answer[3:] for answer in given)
    agree = groups.partition(' ')[0] == whole and is_match == ('true' if groups else 'false')
    if not agree or bool(shortest) != bool(groups):
        raise SystemExit(f'answers to {case!r} that disagree: {given}')
    number = static.removeprefix('Some(').removesuffix(')')
    return Found(groups or None, int(shortest) if shortest else None,
                 None if number == 'None' else int(number), unescaped(names))


def list_answers(judge: str, cases: Sequence[Case]) -> list[str]:
    """The judge's answers to these cases of the list of lists."""
    words = {'captures_iter': 'captures'}
    texts = []
    for case, answer in zip(cases, answers(judge, [
        question(words.get(case.call, case.call), case) for case in cases
    ])):
        if not answer.startswith('ok:'):
            raise SystemExit(f'unexpected answer to {case!r}: {answer}')
        texts.append(unescaped(answer[3:]))
    check_spans(judge, [(case, text) for case, text in zip(cases, texts)
                        if case.call == 'captures_iter'])
    return texts


def check_spans(judge: str, listed: list[tuple[Case, str]]) -> None:
    """Ends the program unless the judge finds exactly the matches whose groups it returned."""
    found_there = answers(judge, [question('find', case) for case, _ in listed])
    for (case, groups), spans in zip(listed, found_there):
        whole = [line.partition(' ')[0] for line in groups.splitlines()]
        if spans != 'ok:' + ''.join(f'{span}\\n' for span in whole):
            raise SystemExit(f'answers to {case!r} that disagree: {groups!r} and {spans}')


def question(word: str, case: Case) -> str:
    """A line that asks the judge by this word for such a case."""
    head = word if case.limit is None else f'{word}:{case.limit}'
    rest = (case.flags, case.pattern, case.haystack, case.template or '')
    return '\t'.join([head, *map(escaped, rest)]) + '\n'
