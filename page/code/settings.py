"""The flags and the limits of a question, by the names that they have in Rust, Rattle and C."""

from __future__ import annotations

from typing import Dict

from page.questions import NEST_LIMIT, SIZE_LIMIT, Question

FLAGS = {'i': 'case_insensitive', 'm': 'multi_line', 's': 'dot_matches_new_line', 'R': 'crlf',
         'U': 'swap_greed', 'x': 'ignore_whitespace'}


def settings_of(question: Question) -> Dict[str, str]:
    """The settings that differ from the default, each with its value."""
    settings = {name: 'true' for flag, name in FLAGS.items() if flag in question['flags']}
    if question['nest_limit'] != NEST_LIMIT:
        settings['nest_limit'] = str(question['nest_limit'])
    if question['size_limit'] != SIZE_LIMIT:
        settings['size_limit'] = str(question['size_limit'])
    return settings


def cut_note(mark: str, is_cut: bool, indent: str = '') -> str:
    """The comment line that says that the text is truncated, if it is."""
    return f'{indent}{mark} The beginning of the text, which is too long for code.\n' \
        if is_cut else ''
