"""Code of Python, over bindings/python."""

from __future__ import annotations

from typing import List

from page.code.quoting import python_literal
from page.code.settings import cut_note
from page.code.templates import Groups, python_template
from page.questions import NEST_LIMIT, SIZE_LIMIT, Question

FLAGS = 'imsx'  # for which there are constants; any others are written in the pattern
_HEAD = 'import regex_lite\n\n'


def code_for(question: Question, groups: Groups, is_cut: bool) -> str:
    """Code that prints the matches, by offsets in characters, and the replaced text."""
    settings = ''.join(f', {setting}' for setting in _settings(question))
    text = f"{cut_note('#', is_cut)}text = {python_literal(question['text'])}\n"
    patterns = [python_literal(_written(pattern, question)) for pattern in question['patterns']]
    if len(patterns) > 1:
        listed = ''.join(f'    {pattern},\n' for pattern in patterns)
        return (f'{_HEAD}patterns = regex_lite.RegexList([\n{listed}]{settings})\n{text}'
                'for number, match in patterns.finditer(text):\n'
                '    print(number, match.span(), match[0], match.groups())\n')
    template = python_literal(python_template(question['replacement'], groups))
    return (f'{_HEAD}pattern = regex_lite.compile({patterns[0]}{settings})\n{text}'
            'for match in pattern.finditer(text):\n'
            '    print(match.span(), match[0], match.groups())\n'
            f'print(pattern.sub({template}, text))\n')


def _written(pattern: str, question: Question) -> str:
    """The pattern with the flags in it that have no constant."""
    flags = ''.join(flag for flag in question['flags'] if flag not in FLAGS)
    return f'(?{flags}){pattern}' if flags else pattern


def _settings(question: Question) -> List[str]:
    """The arguments after the pattern."""
    flags = [f'regex_lite.{flag.upper()}' for flag in FLAGS if flag in question['flags']]
    settings = [' | '.join(flags)] if flags else []
    if question['nest_limit'] != NEST_LIMIT:
        settings.append(f"nest_limit={question['nest_limit']}")
    if question['size_limit'] != SIZE_LIMIT:
        settings.append(f"size_limit={question['size_limit']}")
    return settings
