"""The code that the page shows, which prints what the page shows."""

import ast
import os
import random
import re
import shutil
import subprocess
import sys
import tempfile
import unittest
from pathlib import Path
from typing import List, Sequence

from page.answers import Answer, answer_to
from page.code import MOST_BYTES, quoting
from page.questions import Question
from page.tests.code_cases import AWKWARD, CASES
from page.tests.running import TOP, question

STRICT = ('-Wall', '-Wextra', '-Wpedantic', '-Werror')
COMPILERS = (('gcc', '-std=c11'), ('clang', '-std=c11'), ('g++', '-std=c++17', '-x', 'c++'))
FOLDER = Path(os.environ.get('REGEX_LITE_LIBRARY', '')).parent
HEXADECIMALS_OF_C = '''#include <stdio.h>
static const struct {{ const char *bytes; unsigned len; }} texts[] = {{
{texts}}};
int main(void) {{
    for (unsigned i = 0; i < sizeof texts / sizeof texts[0]; i++) {{
        for (unsigned at = 0; at < texts[i].len; at++) {{
            printf("%02x", (unsigned char)texts[i].bytes[at]);
        }}
        putchar('\\n');
    }}
    return 0;
}}
'''
# The code of each case is a module, which is run by its number, since one program is built soon.
RUST = '''const TEXTS: &[&str] = &[
{texts}];
{modules}
fn main() -> Result<(), Box<dyn std::error::Error>> {{
    match std::env::args().nth(1).as_deref() {{
{arms}        _ => {{
            for text in TEXTS {{
                for byte in text.bytes() {{
                    print!("{{byte:02x}}");
                }}
                println!();
            }}
            Ok(())
        }}
    }}
}}
'''


def in_code(asked: Question) -> Question:
    """The question about the part of the text that stands in code."""
    text = asked['text'].encode()[:MOST_BYTES].decode(errors='ignore')
    return Question(patterns=asked['patterns'], flags=asked['flags'], text=text,
                    nest_limit=asked['nest_limit'], size_limit=asked['size_limit'],
                    replacement=asked['replacement'])


def shown(asked: Question) -> Answer:
    """What the page shows of a question, all of it."""
    answer = answer_to(in_code(asked))
    assert answer['count'] == len(answer['matches']) and not answer.get('is_cut')
    return answer


def lines_by_bytes(asked: Question) -> str:
    """What code prints whose offsets count bytes."""
    answer = shown(asked)
    text = asked['text'].encode()
    lines = []
    for number, spans in zip(answer['numbers'], answer['spans']):
        lines += [f'pattern {number}'] if len(asked['patterns']) > 1 else []
        lines += [f'{i}: {span[0]}..{span[1]} {text[span[0]:span[1]].decode()}'
                  for i, span in enumerate(spans) if span]
    return ''.join(f'{line}\n' for line in [*lines, *replaced(answer)])


def lines_by_characters(asked: Question) -> str:
    """What code prints whose offsets count characters."""
    answer = shown(asked)
    text = asked['text'].encode()
    lines = []
    for number, spans in zip(answer['numbers'], answer['spans']):
        whole, *groups = [span and text[span[0]:span[1]].decode() for span in spans]
        assert spans[0] is not None
        start, end = (len(text[:at].decode()) for at in spans[0])
        own = f'{number} ' if len(asked['patterns']) > 1 else ''
        lines.append(f'{own}{(start, end)} {whole} {tuple(groups)}')
    return ''.join(f'{line}\n' for line in [*lines, *replaced(answer)])


def replaced(answer: Answer) -> List[str]:
    """The replaced text, where there is one."""
    return [] if answer.get('replaced') is None else [str(answer['replaced'])]


def texts_of_all_kinds() -> List[str]:
    """Short texts of awkward characters."""
    dice = random.Random(5)
    return [*AWKWARD, *(''.join(dice.choices(AWKWARD, k=dice.randrange(9))) for _ in range(1500))]


class Code(unittest.TestCase):
    """Code in each language, and how texts are written in it."""

    def setUp(self) -> None:
        folder = tempfile.TemporaryDirectory()
        self.addCleanup(folder.cleanup)
        self.folder = Path(folder.name)

    def run_it(self, command: Sequence[object], **env: str) -> str:
        """What a command prints that ends well."""
        done = subprocess.run([str(word) for word in command], capture_output=True, check=False,
                              env={**os.environ, 'PYTHONIOENCODING': 'utf-8', **env})
        self.assertEqual(done.returncode, 0, done.stderr.decode())
        return done.stdout.decode()

    def need(self, program: str) -> None:
        """Leaves a test out where there is no such program."""
        if shutil.which(program) is None:
            self.skipTest(f'there is no {program}')

    def built_c(self, source: str, compiler: Sequence[str]) -> Path:
        """A program of C."""
        file, program = self.folder / 'shown.c', self.folder / 'shown'
        file.write_text(source, encoding='utf-8', newline='\n')
        self.run_it([*compiler, *STRICT, '-I', FOLDER, file, '-x', 'none',
                     FOLDER / 'libregex_lite.a', '-o', program])
        return program

    def built_rust(self) -> Path:
        """The program of Rust that does what the code of a case does, or prints the texts."""
        folder = self.folder / 'src'
        folder.mkdir()
        for i, asked in enumerate(CASES):
            code = answer_to(asked)['code']['rust'].replace('fn main()', 'pub fn main()', 1)
            (folder / f'shown{i}.rs').write_text(code, encoding='utf-8', newline='\n')
        texts = (f'    {quoting.rust_literal(text)},\n' for text in texts_of_all_kinds())
        (folder / 'main.rs').write_text(RUST.format(
            texts=''.join(texts), modules=''.join(f'mod shown{i};\n' for i in range(len(CASES))),
            arms=''.join(f'        Some("{i}") => shown{i}::main(),\n' for i in range(len(CASES)))
        ), encoding='utf-8', newline='\n')
        (self.folder / 'Cargo.toml').write_text(
            '[package]\nname = "shown"\nversion = "0.1.0"\nedition = "2021"\n[dependencies]\n'
            f'regex_lite_proved = {{ path = "{TOP}/bindings/rust" }}\n', encoding='utf-8')
        self.run_it(['cargo', 'build', '--quiet', '--offline', '--manifest-path',
                     self.folder / 'Cargo.toml', '--target-dir', self.folder / 'target'],
                    REGEX_LITE_FOLDER=str(FOLDER))
        return self.folder / 'target' / 'debug' / 'shown'

    def test_python(self) -> None:
        for i, asked in enumerate(CASES):
            with self.subTest(i):
                code = answer_to(asked)['code']['python']
                self.assertEqual(self.run_it([sys.executable, '-c', code]),
                                 lines_by_characters(in_code(asked)))

    def test_c(self) -> None:
        for compiler in COMPILERS:
            cases = CASES if compiler == COMPILERS[0] else CASES[::7] + CASES[-7::2]
            for asked in cases:
                with self.subTest(CASES.index(asked), compiler=compiler[0]):
                    self.need(compiler[0])
                    program = self.built_c(answer_to(asked)['code']['c'], compiler)
                    self.assertEqual(self.run_it([program]), lines_by_bytes(in_code(asked)))

    def test_rust(self) -> None:
        self.need('cargo')
        program = self.built_rust()
        for i, asked in enumerate(CASES):
            with self.subTest(i):
                self.assertEqual(self.run_it([program, i]), lines_by_bytes(in_code(asked)))
        self.assertEqual(self.run_it([program]).split('\n'),
                         [*(text.encode().hex() for text in texts_of_all_kinds()), ''])
        self.assertEqual(quoting.rust_literal(r'"\d'), r'r#""\d"#')

    def test_literals_of_python(self) -> None:
        for text in texts_of_all_kinds():
            self.assertEqual(ast.literal_eval(quoting.python_literal(text)), text)
        self.assertEqual(quoting.python_literal(r'\d'), r"r'\d'")

    def test_literals_of_c(self) -> None:
        texts = texts_of_all_kinds()
        source = HEXADECIMALS_OF_C.format(texts=''.join(
            f'    {{{quoting.c_literal(text)}, {len(text.encode())}}},\n' for text in texts))
        for compiler in COMPILERS:
            with self.subTest(compiler[0]):
                self.need(compiler[0])
                self.assertEqual(self.run_it([self.built_c(source, compiler)]).split('\n'),
                                 [*(text.encode().hex() for text in texts), ''])


class Forms(unittest.TestCase):
    """What code there is, and what it looks like."""

    def test_rattle(self) -> None:
        # Literals and calls are those of Rust, but for an allocator and a `?` at each call.
        guide = (TOP / 'docs' / 'GUIDE.md').read_text(encoding='utf-8')
        end = guide[guide.index('fn main(rt: HostRuntime) {'):]
        end = end[:end.index('```')]
        for asked in CASES:
            code = answer_to(asked)['code']
            self.assertIn('#![tactic(auto)]\n\nuse regex_lite::{Error, ', code['rattle'])
            self.assertIn('fn show(rt: &HostRuntime) -> Result<(), Error> {\n', code['rattle'])
            main = code['rattle'][code['rattle'].index('fn main('):]
            self.assertEqual(re.sub(r'show\(&rt.*?\)', 'show(&rt)', end), main)
            for text in (*asked['patterns'], in_code(asked)['text']):
                self.assertIn(quoting.rust_literal(text), code['rattle'])

    def test_long_texts(self) -> None:
        note = 'The beginning of the text, which is too long for code.'
        for text, is_cut in (('é' * 2000, False), ('a' + 'é' * 2000, True), ('a' * 4001, True)):
            for code in answer_to(question('a', text=text))['code'].values():
                self.assertEqual(note in code, is_cut)

    def test_long_patterns(self) -> None:
        self.assertIn('code', answer_to(question('é' * 2000)))
        for asked in (question('é' * 2000 + 'a'), question('a', replacement='a' * 4001),
                      question('a' * 2000, 'b' * 2001)):
            self.assertNotIn('code', answer_to(asked))

    def test_sizes(self) -> None:
        asked = question('\x01' * 4000, text='\x02' * (1 << 20), replacement='\x01' * 4000)
        for code in answer_to(asked)['code'].values():
            self.assertLess(len(code), 100_000)
