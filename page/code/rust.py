"""Code of Rust, over bindings/rust."""

from __future__ import annotations

from page.code.dialect import Dialect, named_text
from page.code.quoting import rust_literal
from page.code.settings import settings_of
from page.code.templates import Groups
from page.questions import Question

_RUST = Dialect('println!(', '', '')
_MAIN = 'fn main() -> Result<(), Box<dyn std::error::Error>> {\n'
_END = '    Ok(())\n}\n'


def code_for(question: Question, _: Groups, is_cut: bool) -> str:
    """Code that prints the matches, by offsets in bytes, and the replaced text."""
    text = named_text(question, is_cut)
    if len(question['patterns']) > 1:
        return _code_for_list(question, text)
    new = rust_literal(question['replacement'])
    built = _RUST.built(question)
    return (f"use regex_lite_proved::{built.partition('::')[0]};\n\n{_MAIN}"
            f'    let regex = {built}?;\n{text}'
            f'    for caps in regex.captures_iter(text) {{\n{_RUST.show()}'
            f'    println!("{{}}", regex.replace_all(text, {new}));\n{_END}')


def _code_for_list(question: Question, text: str) -> str:
    """Code for several patterns."""
    settings = settings_of(question)
    names = '{Options, RegexList}' if settings else 'RegexList'
    build = 'with_options' if settings else 'new'
    options = ''.join(f'        {name}: {value},\n' for name, value in settings.items())
    if settings:
        options = f'    let options = Options {{\n{options}        ..Options::default()\n    }};\n'
    listed = ''.join(f'        ({literal}, options),\n' if settings else f'        {literal},\n'
                     for literal in map(rust_literal, question['patterns']))
    return (f'use regex_lite_proved::{names};\n\n{_MAIN}{options}'
            f'    let list = RegexList::{build}([\n{listed}    ])?;\n{text}'
            '    for (number, caps) in list.captures_iter(text) {\n'
            f'        println!("pattern {{number}}");\n{_RUST.show()}{_END}')
