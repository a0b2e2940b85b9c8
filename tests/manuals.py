"""What the manual pages in man/ say of the library and the program, and the examples that they
show."""

import re
import shutil
import subprocess
from collections.abc import Iterable, Iterator
from pathlib import Path

from scratch import TOP

MANUALS = sorted((TOP / 'man').glob('*.[1-9]'))
HEADER = TOP / 'bindings' / 'c' / 'regex_lite.h'
PROGRAM = TOP / 'man' / 'rxl.1'
COMMENT = re.compile(r'/\*.*?\*/', re.DOTALL)
PROTOTYPE = re.compile(r'^(\w+) (regex_lite_\w+)\((.*?)\);', re.DOTALL | re.MULTILINE)
OWN_NAME = re.compile(r'\b(?:REGEX_LITE|regex_lite)_\w+')
GUARD = 'REGEX_LITE_H'
STRUCT = re.compile(r'^typedef struct (\w+) \{\n(.*?)^\} \1;$', re.DOTALL | re.MULTILINE)
FUNCTION = re.compile(r'^\.Ft (\w+)\n\.Fo (\w+)\n((?:\.Fa .*\n)*)\.Fc$', re.MULTILINE)
ARGUMENT = re.compile(r'"([^"]*)"')
EXAMPLES = re.compile(r'^\.Sh EXAMPLES\n(.*?)(?=^\.Sh )', re.DOTALL | re.MULTILINE)
DISPLAY = re.compile(r'^\.Bd -literal[^\n]*\n(.*?)^\.Ed$', re.DOTALL | re.MULTILINE)
COMMAND = re.compile(r'^ *\["([\w-]+)"(?:, (.*))?\] =>', re.MULTILINE)  # an arm of a match
FAULT = re.compile(r'write_line\(\s*out,\s*"([^"]*)"')
REFERENCE = re.compile(r'^\.Xr (\w+) (\d)', re.MULTILINE)
# How roff writes characters that it would else print as others, or take for its own.
ESCAPES = {r'\e': '\\', r'\-': '-', r'\(aq': "'", r'\(ha': '^', r'\(ti': '~', r'\&': ''}
ESCAPE = re.compile('|'.join(map(re.escape, ESCAPES)))
# What mandoc says of pages that aren't installed, which ours may be or not.
OF_INSTALLED = 'referenced manual not found'


def plain(text: str) -> str:
    """The text of a display as it is printed."""
    return ESCAPE.sub(lambda found: ESCAPES[found[0]], text)


def displays(page: Path) -> list[str]:
    """What the examples of a page show."""
    shown, = EXAMPLES.findall(page.read_text(encoding='utf-8'))
    return [plain(text) for text in DISPLAY.findall(shown)]


def runs(page: Path) -> list[tuple[str, str]]:
    """The command lines among the examples of a page, each with what it prints."""
    found: list[tuple[str, str]] = []
    for line in ''.join(displays(page)).splitlines():
        if line.startswith('$ '):
            found.append((line[2:], ''))
        else:
            command, printed = found.pop()
            found.append((command, f'{printed}{line}\n'))
    return found


def prototype(kind: str, name: str, arguments: Iterable[str]) -> str:
    """A function on one line, as C declares it."""
    return f'{kind} {name}({", ".join(" ".join(it.split()) for it in arguments)})'


def code_of_header() -> str:
    """The header without its comments."""
    return COMMENT.sub('', HEADER.read_text(encoding='utf-8'))


def functions() -> Iterator[tuple[str, bool]]:
    """Each function that the header or a page declares, with whether both do alike."""
    declared = {prototype(kind, name, words.split(','))
                for kind, name, words in PROTOTYPE.findall(code_of_header())}
    shown = [prototype(kind, name, ARGUMENT.findall(words)) for page in MANUALS
             for kind, name, words in FUNCTION.findall(page.read_text(encoding='utf-8'))]
    for function in sorted(declared.union(shown)):
        yield (f'{function} is not declared both in {HEADER.name} and, once, in a manual page',
               function in declared and shown.count(function) == 1)


def structs() -> Iterator[tuple[str, bool]]:
    """Each struct that a page shows, with whether the header declares it like that."""
    declared = {name: body.split() for name, body in STRUCT.findall(code_of_header())}
    for page in MANUALS:
        shown = STRUCT.findall(COMMENT.sub('', page.read_text(encoding='utf-8')))
        for name, body in shown:
            yield f'{page.name} shows another {name}', declared.get(name) == body.split()


def names() -> Iterator[tuple[str, bool]]:
    """Each name of the header, with whether a page has it; and those that a page has."""
    declared = {name for name in OWN_NAME.findall(code_of_header()) if name != GUARD}
    shown = {name for page in MANUALS
             for name in OWN_NAME.findall(page.read_text(encoding='utf-8'))}
    titles = {title for page in MANUALS for title in (page.stem, page.stem.upper())}
    for name in sorted(declared):
        yield f'no manual page has {name}', name in shown
    for name in sorted(shown - titles):
        yield f'a manual page has {name}, and {HEADER.name} has not', name in declared


def title_has_functions() -> Iterator[tuple[str, bool]]:
    """Each page by which a function is to be found has its name."""
    for page in MANUALS:
        text = page.read_text(encoding='utf-8')
        for _, name, _ in FUNCTION.findall(text):
            yield f'{page.name} is not named after {name}', bool(
                re.search(rf'^\.Nm {name}(?: ,)?$', text, re.MULTILINE))


def program() -> Iterator[tuple[str, bool]]:
    """Each command and each fault of rxl, with whether its page has it; no command takes more than
    the page says."""
    source = TOP / 'crates' / 'rxl' / 'src'
    text = PROGRAM.read_text(encoding='utf-8')
    synopsis = text.partition('.Sh SYNOPSIS\n')[2].partition('.Sh ')[0]
    commands = COMMAND.findall((source / 'command.rt').read_text(encoding='utf-8'))
    for name, arguments in commands:
        item = re.search(rf'^\.It Cm {name}(?: Ar (.*))?$', text, re.MULTILINE)
        yield (f'{PROGRAM.name} does not say what {name} does with its arguments',
               item is not None and len((item[1] or '').split()) == len(arguments.split()))
        yield (f'the synopsis of {PROGRAM.name} has no {name}',
               re.search(rf'^\.Cm .*\b{name}\b', synopsis, re.MULTILINE) is not None)
    faults = FAULT.findall((source / 'fault.rt').read_text(encoding='utf-8'))
    for fault in faults:
        yield f'{PROGRAM.name} lacks the line: {fault}', f'.It "{fault}"\n' in text
    yield 'no command or no fault of rxl is found in its sources', bool(commands and faults)


def references() -> Iterator[tuple[str, bool]]:
    """Each page of ours that a page refers to, with whether it is there."""
    ours = {(page.stem, page.suffix[1:]) for page in MANUALS}
    stems = {stem for stem, _ in ours} | {'regex_lite', 'rxl'}
    for page in MANUALS:
        for reference in REFERENCE.findall(page.read_text(encoding='utf-8')):
            if reference[0] in stems or OWN_NAME.fullmatch(reference[0]):
                yield f'{page.name} refers to a page that is not there', reference in ours


def complaints() -> Iterator[tuple[str, bool]]:
    """Each page, with whether mandoc finds nothing wrong with it."""
    if shutil.which('mandoc') is None:
        print('left out, as there is no mandoc: what it says of the manual pages')
        return
    for page in MANUALS:
        done = subprocess.run(['mandoc', '-Tlint', page], check=False, stdout=subprocess.PIPE,
                              stderr=subprocess.DEVNULL, encoding='utf-8')
        said = [line for line in done.stdout.splitlines() if OF_INSTALLED not in line]
        yield '\n'.join(said), not said


def checks() -> Iterator[tuple[str, bool]]:
    """All that is to hold of the pages: what is wrong where it doesn't, and whether it does."""
    yield from functions()
    yield from structs()
    yield from names()
    yield from title_has_functions()
    yield from program()
    yield from references()
    yield from complaints()
