"""Code of Rattle, over crates/regex_lite."""

from __future__ import annotations

from page.code.dialect import Dialect, named_text
from page.code.quoting import rust_literal
from page.code.settings import settings_of
from page.code.templates import Groups
from page.questions import Question

_RATTLE = Dialect('let _ = println!(rt; ', 'rt.alloc(), ', '?')
_FORM = '''\
//! Prints the matches in a text.
#![tactic(auto)]

use regex_lite::{{Error, {name}}};

fn show(rt: &HostRuntime) -> Result<(), Error> {{
{body}    Ok(())
}}

fn main(rt: HostRuntime) {{
    if let Err(error) = show(&rt) {{
        let _ = println!(rt; "{{error}}");
    }}
}}
'''


def code_for(question: Question, _: Groups, is_cut: bool) -> str:
    """Code that prints the matches, by offsets in bytes, and the replaced text."""
    text = named_text(question, is_cut)
    if len(question['patterns']) > 1:
        return _code_for_list(question, text)
    new = rust_literal(question['replacement'])
    built = _RATTLE.built(question)
    body = (f'    let regex = {built}?;\n{text}    for item in regex.captures_iter(text)? {{\n'
            f'        let caps = item?;\n{_RATTLE.show()}'
            f'    let new = regex.replace_all(text, {new})?;\n'
            '    let _ = println!(rt; "{new}");\n')
    return _FORM.format(name=built.partition('::')[0], body=body)


def _code_for_list(question: Question, text: str) -> str:
    """Code for several patterns."""
    settings = settings_of(question)
    literals = [rust_literal(pattern) for pattern in question['patterns']]
    if settings:
        setters = ''.join(f'.{name}({value})' for name, value in settings.items())
        pushes = ''.join(f'    builder.push({literal})?;\n' for literal in literals)
        built = ('    let mut builder = RegexListBuilder::new(rt.alloc());\n'
                 f'    builder{setters};\n{pushes}    let list = builder.build()?;\n')
    else:
        listed = ''.join(f'        {literal},\n' for literal in literals)
        built = f'    let list = RegexList::new(rt.alloc(), &[\n{listed}    ])?;\n'
    body = (f'{built}{text}    for item in list.captures_iter(text)? {{\n'
            '        let (number, caps) = item?;\n'
            f'        let _ = println!(rt; "pattern {{number}}");\n{_RATTLE.show()}')
    return _FORM.format(name='RegexListBuilder' if settings else 'RegexList', body=body)
