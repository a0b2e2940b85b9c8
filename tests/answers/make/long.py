"""The list of long haystacks, many groups and many matches. Its lines are those of searches and of
lists, with runs of one character written by their length.

`long.tsv` has 441 cases, 135 with the fields of `searches.tsv` and 306 with those of `lists.tsv`.
Runs of a character are written as in `settings.tsv`. All were picked by hand: haystacks of 5,000,
70,000 and 200,000 characters with spans and groups near their ends, exactly as many pairs of a
place and a position as are searched depth first, half of that and one more of each, 8 and 40 groups
with names, up to 12 pieces with the limits 2, 5 and 9, replacements with the limits 0, 4 and 9,
matches after 300 empty ones, and groups with looks that see the character after a match, or that
hold only if the haystack ends after it.
"""

from . import lists, searches
from .data import expanded, packed, rows_of
from .judge import Case, found, list_answers

LIMITS = {'splitn': (2, 5, 9), 'replacen': (0, 4, 9)}
FAR = 4097  # which of its characters a haystack is searched from besides its first
NEAR = (1, 9)  # and how many characters before its end


def picked() -> list[tuple[str, str, str, str]]:
    """Flags, a pattern, a template and a haystack of each row."""
    return [(flags, pattern, template, expanded(haystack))
            for flags, pattern, template, *haystacks in rows_of('long') for haystack in haystacks]


def starts(haystack: str) -> list[int]:
    """Where a haystack is searched from: its start, near its end, and far from both."""
    offsets = searches.bounds(haystack)
    last = len(offsets) - 1
    places = [min(FAR, last), *(last - back for back in NEAR if back <= last)]
    return sorted({0, *(offsets[place] for place in places)})


def lines(judge: str) -> list[str]:
    """The lines of the list."""
    rows = picked()
    asked = [(flags, pattern, haystack, start) for flags, pattern, _, haystack in rows
             for start in starts(haystack)]
    made = [searches.line_of(case, answer) for case, answer in zip(asked, found(judge, asked))]
    cases = [case for flags, pattern, template, haystack in rows for case in (
        *lists.asked(flags, pattern, haystack, LIMITS, template),
        Case('expand', None, flags, pattern, haystack, template))]
    made += [lists.line_of(case, answer) for case, answer in zip(cases, list_answers(judge, cases))]
    return [packed(line) for line in made]
