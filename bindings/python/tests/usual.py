"""Usual code over `re`. test_types.py has its types checked and runs it, as it stands and with
regex_lite in the place of `re`. One function has a mistake, which a type checker is to find."""

import re
from re import Match, Pattern
from typing import Any, Callable, Dict, Iterator, List, Optional, Tuple, Union

DATE: Pattern[str] = re.compile(r'(?P<year>\d{4})-(?P<month>\d\d)', re.ASCII)
FLAGS: re.RegexFlag = re.IGNORECASE | re.MULTILINE
TOKEN = re.compile('|'.join(['(?P<word>[a-z]+)', '(?P<number>[0-9]+)']), re.I)


def year(text: str) -> Optional[int]:
    """The year of the first date."""
    found = DATE.search(text)
    return int(found['year']) if found else None


def month(text: str) -> str:
    """The month of the first date, where there has to be one."""
    found: Optional[Match[str]] = DATE.search(text, 0, len(text))
    if found is None:
        raise ValueError(text)
    return found.group('month').lstrip('0') + found.group(2)[:1] + found.group()


def careless(text: str) -> str:
    """The first date, where there may be none."""
    return DATE.search(text).group()


def both(text: str) -> Tuple[str, str]:
    """The parts of a date."""
    found = DATE.fullmatch(text)
    assert found
    first, second = found.groups()
    whole: str = found[0]
    assert whole == '-'.join(found.group('year', 'month'))
    return first, second


def names(text: str) -> Dict[str, str]:
    """The groups with names."""
    found = DATE.match(text, pos=0)
    return found.groupdict() if found else {}


def kinds(text: str) -> Iterator[Tuple[str, Tuple[int, int]]]:
    """The kind and the span of each token."""
    for found in TOKEN.finditer(text):
        kind = found.lastgroup
        if kind is not None and found.lastindex:
            yield kind, (found.start(kind), found.end())


def swapped(text: str, by: Union[str, Callable[[Match[str]], str]] = r'\g<month>/\1') -> str:
    """The dates in another form."""
    return DATE.sub(by, text, count=2)


def shout(found: 're.Match[str]') -> str:
    """A match in capitals."""
    return found.expand(r'<\g<0>>') + found.string[found.pos:found.endpos][:1].upper()


def words(text: str) -> List[str]:
    """The words, each once."""
    parts: List[str] = re.split(r'[\s,]+', text.strip())
    found: List[str] = re.findall('[a-z]+', text, flags=re.I)
    return sorted({*parts, *found}, key=str.lower)


def refusal(pattern: str) -> str:
    """Why a pattern is refused."""
    try:
        re.compile(pattern)
    except re.error as fault:
        return f'{fault.msg} at {fault.pos}, line {fault.lineno}'
    return ''


def chosen(pattern: Union[str, Pattern[str]], text: str) -> Tuple[str, int]:
    """The text without the matches, and how many there were."""
    compiled = re.compile(pattern)
    assert isinstance(compiled, re.Pattern) and isinstance(compiled.flags, int)
    known: Dict[Pattern[str], Tuple[int, str]] = {compiled: (compiled.groups, compiled.pattern)}
    indices: List[Tuple[str, int]] = sorted(compiled.groupindex.items())
    return re.subn(compiled, '', text)[0], len(indices) + len(known)


def results() -> List[Any]:
    """What all of this returns."""
    text = 'due 2026-11, then 2027-02'
    return [year(text), year('none'), month(text), both('2026-11'), names('2026-11'), names('x'),
            list(kinds('ab 12 C3')), swapped(text), swapped(text, shout), words('b, a  c'),
            careless(text), refusal('a('), refusal('a'), chosen('(?P<x>[0-9])-', text), chosen(DATE, text),
            repr(FLAGS), re.escape('a.b c')]
