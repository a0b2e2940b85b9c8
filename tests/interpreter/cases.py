"""Small new cases with their answers by the definitions, as lines that the caller reads."""

import itertools
from collections.abc import Iterable, Iterator
from functools import partial
from typing import NamedTuple

from answers.make import lists, pattern_lists, searches, whole
from answers.make.data import escaped
from answers.make.dice import Dice
from answers.make.judge import Case, Found
from drawing import classes, long_text, shuffled

from .answers import Differ, Regex, Search
from .calls import Calls
from .cursor import Refused
from .grammar import NEST_LIMIT, Nested, Undecided
from .ways import TooLarge

LONGEST = 400  # characters of a pattern, since the interpreter recurses on nested patterns

WIDENED = 0.3  # calls over all matches of haystacks with more of them
TEXT = 60  # characters of these
LIMITS = 21  # the limits of calls on these are below this

MANY = 0.02  # lists of more patterns than fill a word of bits, or two
NUMBERS = (63, 64, 65, 127, 128, 129)

LONG = 4_200  # characters: in a haystack of so many bytes iterators cache their transitions


class Drawn(NamedTuple):
    """A pattern, and what makes the lines of its cases."""

    pattern: str
    lines: 'partial[list[str]]'


def found(search: Search, start: int) -> Found:
    """What a search finds from the offset, as the list of searches has it."""
    regex, haystack, match, least = search.regex, search.haystack, None, None
    if start <= haystack.offsets[-1]:
        s = haystack.offsets.index(start)
        match, least = search.from_position(s), search.least_end(s)
    groups = None if match is None else Calls(search).spans(match)
    shortest = None if least is None else haystack.offsets[least]
    return Found(groups, shortest, regex.static_length(), regex.name_list())


def flags_of(letters: str) -> frozenset[str]:
    """The flags of a field."""
    return frozenset(letters) - {'-'}


def search_lines(dice: Dice) -> Iterator[Drawn]:
    """The lines of a pattern and its haystacks, each from some starts."""
    for _, letters, pattern, asked in searches.generated(dice):
        yield Drawn(pattern, partial(searched, letters, pattern, dict.fromkeys(asked)))


def searched(letters: str, pattern: str, asked: Iterable[tuple[str, int]]) -> list[str]:
    """The lines of searches in haystacks, each from a start."""
    regex = Regex(pattern, flags_of(letters))
    made = {text: Search(regex, text) for text, _ in asked}
    return [searches.line_of((letters, pattern, text, start), found(made[text], start))
            for text, start in asked]


def list_lines(dice: Dice) -> Iterator[Drawn]:
    """The lines of all calls over all matches, on one haystack."""
    for cases in lists.generated(dice):
        if dice.chance(WIDENED):
            cases = widened(dice, cases)
        first = cases[0]
        template = next(case.template for case in cases if case.template is not None)
        expand = first._replace(call='expand', limit=None, template=template)
        yield Drawn(first.pattern, partial(listed, first.flags, first.pattern, [*cases, expand]))


def widened(dice: Dice, cases: list[Case]) -> list[Case]:
    """The calls on a haystack in which the old one is repeated, with higher limits."""
    haystack = (cases[0].haystack * TEXT)[:TEXT]
    return [case._replace(haystack=haystack,
                          limit=None if case.limit is None else dice.below(LIMITS))
            for case in cases]


def listed(letters: str, pattern: str, cases: list[Case]) -> list[str]:
    """The lines of these calls on one haystack."""
    calls = Calls(Search(Regex(pattern, flags_of(letters)), cases[0].haystack))
    return [lists.line_of(case, getattr(calls, case.call)(case.limit or 0, case.template or ''))
            for case in cases]


def whole_lines(dice: Dice) -> Iterator[Drawn]:
    """The lines of a pattern that may have no tree, with its haystacks."""
    for _, pattern, near, far, _ in whole.generated(dice):
        yield Drawn(pattern, partial(accepted, '-', pattern, dict.fromkeys((near, far))))


def accepted(letters: str, pattern: str, texts: Iterable[str]) -> list[str]:
    """Whether the pattern is accepted and, if so, where it matches."""
    try:
        return searched(letters, pattern, [(text, 0) for text in texts])
    except Refused:
        outcome = 'Syntax|Nesting' if pattern.count('(') > NEST_LIMIT else 'Syntax'
    except Nested:
        outcome = 'Nesting'
    return ['\t'.join([outcome, letters, '-', escaped(pattern), '']) + '\n']


def several_lines(dice: Dice) -> Iterator[Drawn]:
    """The line of a search for several patterns."""
    cases = pattern_lists.generated(dice)
    for patterns, text, start in cases:
        if dice.chance(MANY):
            wanted = dice.pick(NUMBERS)
            while len(patterns) < wanted:
                patterns += next(cases)[0]
            patterns = patterns[:wanted]
        yield Drawn(max(patterns, key=len), partial(of_several, patterns, text, start))


def of_several(patterns: tuple[str, ...], text: str, start: int) -> list[str]:
    """The line of a search for these patterns."""
    answers = [found(Search(Regex(pattern, ()), text), start) for pattern in patterns]
    return [pattern_lists.line_of((patterns, text, start), pattern_lists.first_of(answers))]


def class_lines(dice: Dice) -> Iterator[Drawn]:
    """The lines of classes of several ranges, in haystacks of the characters at the ends of these
    and beside them."""
    for pattern, near in classes(dice):
        texts = [shuffled(dice, near, count) for count in (4, 24)]
        yield Drawn(pattern, partial(searched, '-', pattern,
                                     [(text, start) for text in texts
                                      for start in searches.starts(dice, text)]))


def long_lines(dice: Dice) -> Iterator[Drawn]:
    """The line of all matches of a pattern with looks in a long haystack."""
    for family, letters, pattern, asked in searches.generated(dice):
        if family == 'looks':
            text = long_text(dice, [text for text, _ in asked], LONG)
            case = Case('captures_iter', None, letters, pattern, text, None)
            yield Drawn(pattern, partial(listed, letters, pattern, [case]))


def lines(seed: int, number: int) -> tuple[list[str], int]:
    """The lines of as many patterns from the seed, and how many were skipped as too large."""
    makers = [make(Dice(f'interpret {make.__name__} {seed}'))
              for make in (search_lines, list_lines, whole_lines, several_lines, class_lines)] * 20
    makers.append(long_lines(Dice(f'interpret {long_lines.__name__} {seed}')))
    made: list[str] = []
    skipped = 0
    for maker in itertools.islice(itertools.cycle(makers), number):
        drawn = next(maker)
        try:
            if len(drawn.pattern) > LONGEST:
                raise TooLarge
            made += drawn.lines()
        except (TooLarge, Undecided):
            skipped += 1
        except Differ as trouble:
            raise SystemExit(f'{drawn.lines.args!r}: {trouble}') from trouble
    return made, skipped
