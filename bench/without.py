"""Texts in which a pattern isn't found, and a match that can be put into them."""

import re
from collections.abc import Callable
from typing import NamedTuple

from workloads import CYRILLIC, EIGHT, KB, LOG, PROSE, RARE, Dice, Text, word


class Workload(NamedTuple):
    """A pattern, texts of each size without a match, and a text that it matches."""
    name: str
    pattern: str
    text: Text
    match: str


def cut(text: str, size: int) -> str:
    """The characters that fit into this number of bytes."""
    return text.encode()[:size].decode(errors='ignore')


def less(source: Text, *endings: str) -> Text:
    """The texts with another ending in place of these."""
    def text(size: int) -> str:
        full = source(size + 4 * KB)
        for ending in endings:
            full = re.sub(ending, 'dogalu', full, flags=re.IGNORECASE)
        return cut(full, size)
    return text


def over_and_over(part: str) -> Text:
    """The part as often as it takes."""
    return lambda size: cut(part * (size // len(part) + 1), size)


def of_pieces(piece: Callable[[Dice], str], seed: int) -> Text:
    """Pieces in a row."""
    def text(size: int) -> str:
        dice = Dice(seed)
        pieces = []
        left = size
        while left > 0:
            pieces.append(piece(dice))
            left -= len(pieces[-1].encode())
        return cut(''.join(pieces), size)
    return text


def log_without(lacking: str, instead: str) -> Text:
    """Lines of a log, with another text for each match of this."""
    return lambda size: cut(re.sub(lacking, instead, LOG(2 * size + 8 * KB)), size)


WORKLOADS = [
    Workload('literal', 'zyxwvut', PROSE, 'zyxwvut'),
    Workload('rare literal', RARE, less(PROSE, RARE), RARE),
    Workload('eight words', '|'.join(EIGHT), less(PROSE, *EIGHT), EIGHT[0]),
    Workload('quoted text', '"[^"]*"', PROSE, '"quoted"'),
    Workload('either case', '(?i)error|panic', PROSE, 'Error'),
    Workload('whole words', r'\w+', of_pieces(lambda dice: dice.one_of('.,;:!?- -()'), 6), 'word'),
    Workload('words in -ing', r'\b\w+ing\b', less(PROSE, 'ing'), ' ring '),
    Workload('words in -shing', '[a-z]+shing', less(PROSE, 'shing'), ' washing '),
    Workload('8 to 13 letters', '[a-zA-Z]{8,13}',
             of_pieces(lambda dice: word(dice)[:5] + dice.one_of([' ', ' ', ', ', '. ']), 5),
             ' lettered '),
    Workload('mail address', r'\S+@\S+\.\w+', PROSE, ' me@here.org '),
    Workload('date', r'\d{4}-\d\d-\d\d', log_without(r'\d{4}-\d\d-\d\d', '10:11:12'),
             '2024-05-06'),
    Workload('lines with two words', '(?m)^.*ERROR.*timeout.*$', log_without('ERROR', 'WARN'),
             '\n10:11 ERROR [net] timeout while waiting\n'),
    Workload('loop of a or aa, then b', '(?:a|aa)+b', over_and_over('a'), 'ab'),
    Workload('30 times a?, 30 times a', '(?:a?){30}a{30}', over_and_over('a' * 29 + 'b'),
             'a' * 30),
    Workload('30 times a?, 30 times a, then b', '(?:a?){30}a{30}b', over_and_over('a'),
             'a' * 30 + 'b'),
    Workload('no turn comes twice', '(?:a|b)*a(?:a|b){14}c',
             of_pieces(lambda dice: dice.one_of('ab'), 77), 'a' * 16 + 'c'),
    Workload('Cyrillic words', '[а-яё]{4,}',
             of_pieces(lambda dice: word(dice, CYRILLIC)[:3] + ' ', 5), ' привет '),
]


def with_match(text: str, match: str, at: int) -> str:
    """The text with this match from about this offset on, in place of as many bytes."""
    head = cut(text, at)
    tail = text.encode()[at + len(match.encode()):].decode(errors='ignore')
    return head + match + tail
