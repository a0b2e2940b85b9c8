"""Questions: the requests of the page."""

from __future__ import annotations

from typing import List, TypedDict

FLAGS = 'imsRUx'
MOST_PATTERNS = 100
NEST_LIMIT, SIZE_LIMIT = 50, 10485760  # the default limits
MOST_NEST = (1 << 32) - 1
MOST_SIZE = (1 << 53) - 1  # the greatest number up to which the page tells all numbers apart


class Question(TypedDict):
    """What stands in the fields of the page. Flags and limits are those of each pattern."""

    patterns: List[str]
    flags: str
    nest_limit: int
    size_limit: int
    text: str
    replacement: str


def question_of(value: object) -> Question:
    """The question that a page has sent. Raises ValueError if it is malformed."""
    if not isinstance(value, dict) or value.keys() != Question.__annotations__.keys():
        raise ValueError('the request has other fields than those of the page')
    patterns, flags = value['patterns'], value['flags']
    if not isinstance(patterns, list) or not 1 <= len(patterns) <= MOST_PATTERNS:
        raise ValueError(f'the request has no list of 1 to {MOST_PATTERNS} patterns')
    texts = (*patterns, flags, value['text'], value['replacement'])
    if not all(isinstance(field, str) for field in texts):
        raise ValueError('a field of the request is not a text')
    if not set(flags) <= set(FLAGS):
        raise ValueError(f'a flag of the request is none of {FLAGS}')
    return Question(patterns=patterns, flags=flags,
                    nest_limit=_limit(value['nest_limit'], MOST_NEST),
                    size_limit=_limit(value['size_limit'], MOST_SIZE),
                    text=value['text'], replacement=value['replacement'])


def _limit(value: object, most: int) -> int:
    """The limit, which is a whole number from 0 to this one."""
    if not isinstance(value, int) or isinstance(value, bool) or not 0 <= value <= most:
        raise ValueError(f'a limit of the request is no whole number from 0 to {most}')
    return value
