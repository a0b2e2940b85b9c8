"""What the page shows for patterns and a text, from the library's calls."""

from __future__ import annotations

import json
from itertools import accumulate
from typing import Dict, List, NamedTuple, Optional, Sequence, Tuple, TypedDict

from page.code import code_for, is_short
from page.code.templates import groups_of
from page.explanations import Row, explained
from page.questions import FLAGS, Question, question_of
from page.replies import Reply, refusal
from page.searches import OneSearch, Search, search_for
from regex_lite import error
from regex_lite._library import Options, Regex, Span, encoded, spans_of
from regex_lite._parts import Outline

MOST_MATCHES = 1000  # that are shown
MOST_GROUPS = 100  # of a match that are shown, besides the match itself
MOST_CELLS = 5_000  # groups of all matches that are shown
MOST_SPANS = 200_000  # groups of all matches that are asked for
MOST_REPLACED = 50_000  # characters of the replaced text that are shown
LONGEST_REPLACED = 16 << 20  # the greatest length of the replaced text in bytes


class Answer(TypedDict, total=False):
    """What is shown: the error of a pattern, its number, and the place of its fault, or all the
    rest. A place in a pattern, and the spans of the groups of each match, are given in bytes, and
    in units of UTF-16, as strings of the page have them. The fault of an incomplete pattern has no
    end. `numbers` has the number of the pattern of each match, `groups` the greatest number of
    groups of a match, and `names` the names of the groups of each pattern of which a match is
    shown. `count` is the number of all matches, `counts` has the number for each pattern, and
    `matched` the patterns that match somewhere. `names`, `numbers`, `spans` and `matches` have only
    the first ones if there are too many. Nothing is replaced for several patterns, and there is no
    code if it would be too long."""

    refusal: str
    number: int
    fault: Tuple[int, int]
    fault_end: Tuple[int, int]
    groups: int
    names: List[List[Optional[str]]]
    numbers: List[int]
    spans: List[List[Span]]
    matches: List[List[Span]]
    count: int
    counts: List[int]
    matched: List[int]
    replaced: Optional[str]
    is_cut: bool
    tried: int
    bound: int
    places: int
    arrows: int
    code: Dict[str, str]
    explained: List[Row]
    unexplained: int


def reply_to(sent: bytes) -> Reply:
    """The reply to what the page has sent."""
    try:
        try:
            question = question_of(json.loads(sent.decode()))
        except (ValueError, RecursionError) as fault:
            return refusal(400, str(fault))
        return Reply(200, json.dumps(answer_to(question)).encode())
    except MemoryError:
        return refusal(200, 'out of memory')


def answer_to(question: Question) -> Answer:
    """The answer to a question."""
    options = Options(*(flag in question['flags'] for flag in FLAGS), question['nest_limit'],
                      question['size_limit'])
    try:
        text, template = encoded(question['text']), encoded(question['replacement'])
        search = search_for(question['patterns'], options)
    except error as fault:
        return _refused(fault, question['patterns'])
    except UnicodeEncodeError:
        return Answer(refusal='half of a character (a lone surrogate) stands in a field')
    answer = _found(search, text, len(question['patterns']))
    explanation = explained([Outline(pattern, options) for pattern in question['patterns']],
                            lambda number, index: search.regex_of(number).name(index))
    answer['explained'], answer['unexplained'] = explanation
    if isinstance(search, OneSearch):
        answer.update(_replaced(search.regex, text, template, answer['count']))
    if is_short(question):
        answer['code'] = code_for(question, groups_of(search.regex_of(0)))
    return answer


def _refused(fault: error, patterns: Sequence[str]) -> Answer:
    """The error of a pattern, and the place of its fault, if it has one."""
    answer = Answer(refusal=fault.msg)
    if fault.pattern in patterns:  # It isn't if the patterns are too large together.
        answer['number'] = patterns.index(fault.pattern)
    if fault.pos is not None:
        answer['fault'] = _place(fault.pattern[:fault.pos])
    if fault.end is not None:
        answer['fault_end'] = _place(fault.pattern[:fault.end])
    return answer


def _place(before: str) -> Tuple[int, int]:
    """The place after this part of the pattern."""
    raw = before.encode()
    return len(raw), _units_before(raw)[-1]


class _Shown(NamedTuple):
    """The matches that are shown: the number of the pattern of each, and the spans of its
    groups."""

    numbers: List[int]
    matches: List[List[Span]]


def _shown(search: Search, text: bytes) -> _Shown:
    numbers: List[int] = []
    matches: List[List[Span]] = []
    cells = asked = 0
    for number, row in search.rows(text):
        spans = spans_of(row[:3 * (MOST_GROUPS + 1)])
        cells += len(spans)
        asked += len(row) // 3
        if matches and (cells > MOST_CELLS or asked > MOST_SPANS):
            break
        numbers.append(number)
        matches.append(spans)
        if len(matches) == MOST_MATCHES:
            break
    return _Shown(numbers, matches)


def _found(search: Search, text: bytes, patterns: int) -> Answer:
    """What a search for so many patterns finds in a text."""
    shown = _shown(search, text)
    regexes = {number: search.regex_of(number)
               for number in (shown.numbers if patterns > 1 else [0])}
    counts = search.counts(text)
    at = _units_before(text)
    length = len(text.decode())
    return Answer(
        groups=max((regex.groups - 1 for regex in regexes.values()), default=0),
        names=[_names(regexes[number]) if number in regexes else [] for number in range(patterns)],
        numbers=shown.numbers,
        spans=shown.matches,
        matches=[[span and (at[span[0]], at[span[1]]) for span in spans]
                 for spans in shown.matches],
        count=sum(counts),
        counts=counts,
        matched=search.matched(text),
        tried=search.tried(text),
        bound=(search.arrows + patterns) * (length + 1),
        places=search.places,
        arrows=search.arrows)


def _names(regex: Regex) -> List[Optional[str]]:
    """The names of the groups that are shown."""
    return [regex.name(i) for i in range(min(regex.groups, MOST_GROUPS + 1))]


def _replaced(regex: Regex, text: bytes, template: bytes, count: int) -> Answer:
    """The text with all its matches replaced, unless it may be too long."""
    longest = len(text) * (1 + template.count(b'$')) + count * len(template)
    if longest > LONGEST_REPLACED:
        return Answer(replaced=None, is_cut=False)
    replaced = regex.replaced(text, template, 0, is_literal=False)[0]
    return Answer(replaced=replaced[:MOST_REPLACED], is_cut=len(replaced) > MOST_REPLACED)


def _units_before(text: bytes) -> Sequence[int]:
    """The number of units of UTF-16 before each offset in bytes. A character above U+FFFF, which
    begins with a byte from 0xF0 on, has two."""
    if text.isascii():
        return range(len(text) + 1)
    return [0, *accumulate((byte & 0xC0 != 0x80) + (byte >= 0xF0) for byte in text)]
