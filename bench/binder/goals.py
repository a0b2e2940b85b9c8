"""Calls of the Python module beside those of `re`, which run in turn in one process. Printed is a
line for each: the call, both least processor times in nanoseconds, and the goal, which is a time
of `re`, or a time in milliseconds."""

import re
import time
from typing import Any, Callable, NamedTuple

import regex_lite
from english import ENGLISH

MEGABYTE = 1 << 20
TEXT = ENGLISH(MEGABYTE)
ACCENTED = f'{TEXT[:MEGABYTE // 2]}é{TEXT[MEGABYTE // 2 + 1:]}'  # beyond ASCII by one character
CYRILLIC = ('слово, 2026-11 ' * MEGABYTE)[:MEGABYTE]
SEPARATORS = (' ', '[ ]', ',', r'\s+', ', *', '[,;]', r'\W+', r'\n')
LINE = '2026-11-28 GET /index.html 200 512 bytes in 93 ms'
RUNS = 9
LEAST_SECONDS = 0.02  # of a run


class Goal(NamedTuple):
    """What is called, a function that calls it of a module, and what our call is to take at most:
    so many times what `re` takes, or milliseconds; none where no goal was set."""
    name: str
    call: Callable[[Any], object]
    most: str


def exhaust(module: Any, pattern: str, text: str) -> int:
    """Goes over all matches."""
    return sum(1 for _ in module.compile(pattern, flags_of(module)).finditer(text))


def spans(module: Any, pattern: str, text: str) -> list[tuple[int, int]]:
    """The spans of all matches."""
    return [found.span() for found in module.compile(pattern, flags_of(module)).finditer(text)]


def splitting(pattern: str, text: str) -> Callable[[Any], object]:
    """A call that splits the text at the pattern."""
    return lambda module: module.split(pattern, text, 0, flags_of(module))


def flags_of(module: Any) -> int:
    """The flags under which `re` reads a pattern as ours does."""
    return int(re.ASCII) if module is re else 0


GOALS = (
    Goal(r'`findall(r"\w+")`',
         lambda module: module.findall(r'\w+', TEXT, flags_of(module)), '2'),
    Goal(r'`findall(r"(\w+)")`',
         lambda module: module.findall(r'(\w+)', TEXT, flags_of(module)), ''),
    Goal(r'`finditer(r"\w+")`', lambda module: exhaust(module, r'\w+', TEXT), '3'),
    Goal(r'`finditer(r"(\w+)")`', lambda module: exhaust(module, r'(\w+)', TEXT), ''),
    Goal(r'`finditer(r"\w+")`, each `span`', lambda module: spans(module, r'\w+', TEXT), '3'),
    Goal(r'`finditer(r"\w+")`, each `span`, one `é`',
         lambda module: spans(module, r'\w+', ACCENTED), ''),
    Goal(r'`finditer("[0-9]+")`, each `span`, Cyrillic',
         lambda module: spans(module, '[0-9]+', CYRILLIC), ''),
    *(Goal(f'`split(r"{pattern}")`{of}', splitting(pattern, text), most)
      for text, of, most in ((TEXT, '', '2'), (ACCENTED, ', one `é`', '2'),
                             (CYRILLIC, ', Cyrillic', '')) for pattern in SEPARATORS),
    Goal(r'`sub(r"(\w+)", r"<\1>")`',
         lambda module: module.sub(r'(\w+)', r'<\1>', TEXT, 0, flags_of(module)), '2'),
    Goal(r'`sub(r"(\w+)", function)`',
         lambda module: module.sub(r'(\w+)', lambda found: found[1], TEXT, 0, flags_of(module)),
         ''),
    Goal(r'`search(r"\d+ ms")` in a line', lambda module: module.search(r'\d+ ms', LINE), '3'),
    Goal('`search("bytes")` in a line', lambda module: module.search('bytes', LINE), '3'),
    Goal(r'`match(r"\d+-\d+")` in a line', lambda module: module.match(r'\d+-\d+', LINE), ''),
    Goal(r'`match(r"\d+ ms")` in a line', lambda module: module.match(r'\d+ ms', LINE), ''),
    Goal(r'`fullmatch(r"\d+-.* ms")` of the line',
         lambda module: module.fullmatch(r'\d+-.* ms', LINE), ''),
    Goal(r'`fullmatch(r"\d+-\d+")` of the line',
         lambda module: module.fullmatch(r'\d+-\d+', LINE), ''),
    Goal('`search("[a-z]")`, one `é`', lambda module: module.search('[a-z]', ACCENTED), '5 ms'),
)


def seconds(goal: Goal, module: Any, rounds: int) -> float:
    """The processor time of a call."""
    begun = time.process_time()
    for _ in range(rounds):
        goal.call(module)
    return (time.process_time() - begun) / rounds


def main() -> None:
    """Prints a line for each goal."""
    for goal in GOALS:
        rounds = [max(1, round(LEAST_SECONDS / seconds(goal, module, 1)))
                  for module in (regex_lite, re)]
        least = [float('inf')] * 2
        for _ in range(RUNS):
            for i, module in enumerate((regex_lite, re)):
                least[i] = min(least[i], seconds(goal, module, rounds[i]))
        print(goal.name, *(f'{1e9 * least[i]:.0f}' for i in range(2)), goal.most, sep='\t',
              flush=True)


main()
