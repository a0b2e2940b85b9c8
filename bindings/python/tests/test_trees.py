"""Random patterns part by part, beside their trees: the interpreter in the folder tests at the top
computes these from the grammar alone."""

import random
import sys
import unittest
import warnings
from pathlib import Path
from typing import Any, Callable, Iterator, List, NamedTuple, Tuple

import regex_lite
from generators import Generator
from regex_lite import Look, Part, PartKind, outline

sys.path.append(str(Path(__file__).resolve().parents[3] / 'tests'))
try:
    from interpreter import grammar, trees
    from interpreter.cursor import Refused
    HAS_INTERPRETER = True
except ImportError:
    HAS_INTERPRETER = False  # as in a source distribution

COUNT = 4000  # random patterns
FLAGS = {'i': 2, 'm': 8, 's': 16, 'x': 64}
DIRECTIVES = ('', '', '', '(?R)', '(?mR)', '(?U)', '(?mRsUi)')
LOOKS = {
    Look.START: 'start', Look.END: 'end', Look.START_LF: 'line start', Look.END_LF: 'line end',
    Look.START_CRLF: 'CRLF start', Look.END_CRLF: 'CRLF end', Look.WORD: 'word',
    Look.WORD_NEGATE: 'no word', Look.WORD_START: 'word start', Look.WORD_END: 'word end',
    Look.WORD_START_HALF: 'half start', Look.WORD_END_HALF: 'half end',
}
ALWAYS = (*range(0x180), 0x212A, 0xD7FF, 0xE000, 0x10FFFF)  # characters that are always tried
Runs = Tuple[Tuple[int, int], ...]
Members = Callable[[int], bool]


class Node(NamedTuple):
    """A node of a tree: how deep it is, what it is, and what there is to say of it."""

    depth: int
    kind: str
    said: Any = None


def nodes_of(tree: Any, depth: int = 0) -> Iterator[Node]:
    """The nodes of a tree, each before those below it."""
    if isinstance(tree, trees.Read):
        yield Node(depth, 'read', tree.members)
    elif isinstance(tree, trees.Look):
        yield Node(depth, 'look', tree.name)
    elif isinstance(tree, trees.Repeat):
        yield Node(depth, 'repeat', (tree.least, tree.most, tree.is_greedy))
    elif isinstance(tree, trees.Group):
        yield Node(depth, 'group', tree.number)
    else:
        yield Node(depth, type(tree).__name__.lower())
    for child in trees.children(tree):
        yield from nodes_of(child, depth + 1)


def nodes_told(parts: List[Part]) -> Iterator[Node]:
    """The same from the parts. A class takes in its ranges."""
    for i, part in enumerate(parts):
        if part.kind is PartKind.CHAR:
            yield Node(part.depth, 'read', (run_of(part),))
        elif part.kind is PartKind.CLASS:
            end = next((k for k in range(i + 1, len(parts))
                        if parts[k].kind is not PartKind.RANGE), len(parts))
            assert all(run.depth == part.depth + 1 for run in parts[i + 1:end])
            yield Node(part.depth, 'read', tuple(map(run_of, parts[i + 1:end])))
        elif part.kind is PartKind.LOOK:
            assert part.look is not None
            yield Node(part.depth, 'look', LOOKS[part.look])
        elif part.kind is PartKind.REPETITION:
            yield Node(part.depth, 'repeat', (part.least, part.most, part.is_greedy))
        elif part.kind is PartKind.CAPTURE:
            yield Node(part.depth, 'group', part.group)
        elif part.kind is not PartKind.RANGE:
            yield Node(part.depth, part.kind.name.lower())


def run_of(part: Part) -> Tuple[int, int]:
    """The characters from the first to the last, as numbers."""
    assert part.first is not None and part.last is not None
    return ord(part.first), ord(part.last)


def are_runs_of(runs: Runs, members: Members, pattern: str) -> bool:
    """Whether these are the maximal runs of a set, in order, as far as some characters tell: those
    on both sides of each end, and of each character of the pattern."""
    ends = [end for run in runs for end in run]
    in_order = all(a <= b for a, b in runs) and all(
        b + 1 < c and (b, c) != (0xD7FF, 0xE000) for b, c in zip(ends[1::2], ends[2::2]))
    tried = {*ALWAYS, *(n + k for n in (*ends, *map(ord, pattern)) for k in (-1, 0, 1))}
    return in_order and all(
        members(n) == any(a <= n <= b for a, b in runs)
        for n in tried if 0 <= n <= 0x10FFFF and not 0xD800 <= n < 0xE000)


def are_same(told: Node, wanted: Node, pattern: str) -> bool:
    """Whether a node is what it is to be."""
    if told.kind == wanted.kind == 'read':
        return told.depth == wanted.depth and are_runs_of(told.said, wanted.said, pattern)
    return told == wanted


@unittest.skipUnless(HAS_INTERPRETER, 'there is no interpreter')
class Random(unittest.TestCase):
    """What random patterns consist of."""

    def setUp(self) -> None:
        caught = warnings.catch_warnings()
        caught.__enter__()
        self.addCleanup(caught.__exit__, None, None, None)
        warnings.simplefilter('ignore')  # `re`, which is asked about faults, warns of some classes

    def test_trees(self) -> None:
        seed = random.randrange(1 << 32)
        generator, accepted = Generator(seed), 0
        for k in range(COUNT):
            body = generator.soup() if k % 4 == 0 else generator.pattern()
            pattern, flags = generator.random.choice(DIRECTIVES) + body, generator.flags()
            letters = {letter for letter, bit in FLAGS.items() if flags & bit}
            with self.subTest(seed=seed, pattern=pattern, flags=letters):
                try:
                    wanted = list(nodes_of(grammar.parsed(pattern, letters)))
                except grammar.Undecided:
                    continue
                except (Refused, grammar.Nested):
                    self.assertRaises(regex_lite.error, outline, pattern, flags)
                    continue
                accepted += 1
                told = list(nodes_told(outline(pattern, flags)))
                self.assertEqual([node[:2] for node in told], [node[:2] for node in wanted])
                for is_, should_be in zip(told, wanted):
                    self.assertTrue(are_same(is_, should_be, pattern), (is_, should_be))
        self.assertGreater(accepted, COUNT // 2)


if __name__ == '__main__':
    unittest.main()
