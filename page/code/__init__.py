"""Code that does what the page shows, in each language that the library is for."""

from __future__ import annotations

from typing import Callable, Dict, Tuple

from page.code import c, python, rattle, rust
from page.code.templates import Groups
from page.questions import Question

MOST_BYTES = 4_000  # of a text in code, of a replacement, and of all patterns
LANGUAGES: Tuple[Tuple[str, Callable[[Question, Groups, bool], str]], ...] = (
    ('rattle', rattle.code_for), ('c', c.code_for), ('rust', rust.code_for),
    ('python', python.code_for))


def is_short(question: Question) -> bool:
    """Whether the patterns and the replacement are short enough for code."""
    patterns = ''.join(question['patterns'])
    return max(len(field.encode()) for field in (patterns, question['replacement'])) <= MOST_BYTES


def code_for(question: Question, groups: Groups) -> Dict[str, str]:
    """The code in each language. A text that is too long for it is truncated, and the code says so.
    `groups` are those of the first pattern."""
    text = question['text'].encode()
    cut = question.copy()
    cut['text'] = text[:MOST_BYTES].decode(errors='ignore')
    is_cut = len(text) > MOST_BYTES
    return {language: code(cut, groups, is_cut) for language, code in LANGUAGES}
