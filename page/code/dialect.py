"""What Rust code and Rattle code have in common, and their differences."""

from __future__ import annotations

from typing import NamedTuple

from page.code.quoting import rust_literal
from page.code.settings import cut_note, settings_of
from page.questions import Question

_SHOW = '''\
        for (i, group) in caps.iter().enumerate() {
            if let Some(found) = group {
                %s"{i}: {}..{} {}", found.start(), found.end(), found.as_str());
            }
        }
    }
'''


class Dialect(NamedTuple):
    """Rust or Rattle: how it starts to print, what it passes before a pattern to allocate memory,
    and what follows a call that makes a builder."""

    printing: str
    memory: str
    made: str

    def show(self) -> str:
        """The lines that print the groups of a match, up to the end of the loop over matches."""
        return _SHOW % self.printing

    def built(self, question: Question) -> str:
        """The expression that builds the only pattern of a question."""
        arguments = self.memory + rust_literal(question['patterns'][0])
        settings = settings_of(question)
        if not settings:
            return f'Regex::new({arguments})'
        setters = ''.join(f'        .{name}({value})\n' for name, value in settings.items())
        return f'RegexBuilder::new({arguments}){self.made}\n{setters}        .build()'


def named_text(question: Question, is_cut: bool) -> str:
    """The line that defines the text, after a note if the text is truncated."""
    note = cut_note('//', is_cut, '    ')
    return f"{note}    let text = {rust_literal(question['text'])};\n"
