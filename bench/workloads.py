"""The texts that are searched, and the searches that bench/search measures, with their goals.

All texts are generated here, from a fixed sequence of pseudorandom numbers, so each run of the
measurement has the same ones.
"""

from collections.abc import Callable, Sequence
from typing import NamedTuple, TypeVar

KB = 1024
SIZES = (16 * KB, 32 * KB, 64 * KB)  # bytes of a text
SHORT = 20  # bytes of a short text

T = TypeVar('T')
Text = Callable[[int], str]  # a text of each size


class Dice:
    """Pseudorandom numbers, which are the same each time."""

    def __init__(self, seed: int) -> None:
        self.state = seed

    def roll(self, sides: int) -> int:
        """A number below this one."""
        self.state = (self.state * 6364136223846793005 + 1442695040888963407) % 2 ** 64
        return (self.state >> 33) % sides

    def one_of(self, things: Sequence[T]) -> T:
        """One of these."""
        return things[self.roll(len(things))]


# First sounds, vowels and last sounds.
LATIN = ('bdfghklmnprstvw', 'aeiou', 'lnrst')
CYRILLIC = ('бвгджзклмнпрст', 'аеиоуыюя', 'лнрст')


def word(dice: Dice, letters: tuple[str, str, str] = LATIN) -> str:
    """A word of one to four syllables, made of first sounds, vowels and last sounds."""
    first, vowels, last = letters
    syllables = [dice.one_of(first) + dice.one_of(vowels) for _ in range(1 + dice.roll(4))]
    return ''.join(syllables) + (dice.one_of(last) if dice.roll(2) else '')


# Some begin with a letter that no other word has, some with a common letter.
RARE = 'fugaxotal'
EIGHT = ['jubzato', 'xeroman', 'cyqunel', 'zimarot', 'mavutho', 'wekzidor', 'ghanilo', 'pqoren']


def sentence(dice: Dice) -> str:
    """Some words with a capital letter and a full stop; a few sentences have a special word."""
    words = [word(dice) for _ in range(5 + dice.roll(12))]
    at = dice.roll(len(words))
    kind = dice.roll(24)
    if kind < 4:
        words[at] += 'shing'
    elif kind < 7:
        words[at] = str(dice.roll(100_000))
    elif kind < 8:
        words[at] = dice.one_of(EIGHT)
    elif kind < 9:
        words[at] = RARE
    return ' '.join(words).capitalize() + dice.one_of(['. ', '. ', '! ', '.\n'])


def cyrillic_sentence(dice: Dice) -> str:
    """Some words in Cyrillic letters, with a capital one and a full stop."""
    return ' '.join(word(dice, CYRILLIC) for _ in range(5 + dice.roll(12))).capitalize() + '. '


def address(dice: Dice) -> str:
    """An IPv4 address and a port."""
    return '10.{}.{}.{}:{}'.format(*(dice.roll(256) for _ in range(3)), 1024 + dice.roll(60_000))


MESSAGES: list[Callable[[Dice], str]] = [
    lambda dice: f'connection from {address(dice)} closed after {dice.roll(900)} ms',
    lambda dice: f'GET /api/v{1 + dice.roll(3)}/{word(dice)}/{dice.roll(9000)} '
                 f'{dice.one_of([200, 200, 200, 204, 404, 503])} took {dice.roll(2500)} ms',
    lambda dice: f'user {word(dice)} logged in from {address(dice)}',
    lambda dice: f'no entry for key {word(dice)}:{dice.roll(10_000)}',
    lambda dice: f'disk {word(dice)} is {dice.roll(100)}% full',
    lambda dice: f'timeout while waiting for {address(dice)}',
    lambda dice: f'{word(dice)} was refused by {word(dice)}',
]
PLACES = ['net', 'store', 'http', 'auth']


def date(dice: Dice) -> str:
    """A day of one of five years."""
    return f'{2020 + dice.roll(5)}-{1 + dice.roll(12):02}-{1 + dice.roll(28):02}'


def log_line(dice: Dice) -> str:
    """A line of a log: when, how bad, where, what."""
    stamp = f'{date(dice)}T{dice.roll(24):02}:{dice.roll(60):02}'
    level = dice.one_of(['INFO'] * 12 + ['DEBUG'] * 5 + ['WARN'] * 2 + ['ERROR'])
    place = dice.one_of(PLACES)
    return f'{stamp} {level} [{place}] {dice.one_of(MESSAGES)(dice)}\n'


def record(dice: Dice) -> str:
    """A line of 20 to 100 bytes with five fields; about one in eight is a remark instead."""
    size = SHORT + dice.roll(81)
    last = ' '.join(word(dice) for _ in range(size // 2))
    first = f'{word(dice)[:4]} {dice.roll(100)}.{dice.roll(10)} [{dice.one_of(PLACES)}] '
    return ((first if dice.roll(8) else '# ') + last)[:size] + '\n'


def dated_line(dice: Dice) -> str:
    """A line of some words; in about three of four, one of the words is a date."""
    words = [word(dice) for _ in range(5 + dice.roll(10))]
    if dice.roll(4):
        words[dice.roll(len(words))] = date(dice)
    return ' '.join(words) + '\n'


def short_line(dice: Dice) -> str:
    """A line of a short text; about every second has a name with a number."""
    mark = dice.one_of('- ')
    text = f'{word(dice)} {word(dice)}{mark}{dice.roll(1000)} {word(dice)} {word(dice)}'
    return text[:SHORT].ljust(SHORT, '.') + '\n'


def of_parts(part: Callable[[Dice], str], seed: int) -> Text:
    """Texts that are made of such parts, as many as fit into a size."""
    def text(size: int) -> str:
        dice = Dice(seed)
        parts = []
        room = size
        while room >= 0:
            parts.append(part(dice))
            room -= len(parts[-1].encode())
        return ''.join(parts[:-1])
    return text


PROSE = of_parts(sentence, 1)
CYRILLIC_PROSE = of_parts(cyrillic_sentence, 2)
LOG = of_parts(log_line, 3)
SHORT_TEXTS = of_parts(short_line, 4)
LETTERS = of_parts(word, 5)
ONLY_A = of_parts(lambda dice: 'a', 6)
RECORDS = of_parts(record, 7)
DATED = of_parts(dated_line, 8)

FILTERS = [
    'ERROR',
    r'\bWARN\b',
    'timeout',
    '(?i)failed|refused|denied',
    r'\b5\d\d\b',
    r'took \d{4,} ms',
    r'from 10\.\d+\.\d+\.\d+:\d+',
    'user [a-z]+ logged',
    r'^\S+ ERROR \[net\]',
    r'key [a-z]+:\d+$',
    r'(?:GET|POST|PUT) /api/v\d/\S+',
    'panicked at',
]

# Patterns with groups that match each line of a log.
GROUPED = [
    r'^(\S+) ([A-Z]+) \[(\w+)\]',
    r'\b([A-Z]+) \[(\w+)\]',
    r'([A-Z]+) \[(\w+)\] (\w+) (\S+)',
    r'(\d{4})-(\d\d)-(\d\d)T(\d\d):(\d\d) ([A-Z]+) \[(\w+)\]',
    r'^(\d{4})-(\d\d)-(\d\d)T(\d\d):(\d\d) ([A-Z]+) \[(\w+)\] (\w+) (\S+) (.*)$',
]


def one_in_ten(log: str) -> str:
    """The log, of which those patterns match one line in ten."""
    return ''.join(line.replace('[', '(') if n % 10 else line
                   for n, line in enumerate(log.splitlines(keepends=True)))



class Workload(NamedTuple):
    """Patterns that are searched for in texts of one shape."""
    name: str
    goal: float  # of the ratio to upstream
    call: str  # find or captures
    unit: str  # the text, or its lines
    patterns: list[str]
    text: Text


WORKLOADS = [
    Workload('literal that is not there', .03, 'find', 'text', ['zyxwvut'], PROSE),
    Workload('rare literal', .03, 'find', 'text', [RARE], PROSE),
    Workload('eight words', .12, 'find', 'text', ['|'.join(EIGHT)], PROSE),
    Workload('12 patterns on log lines', .12, 'find', 'lines', FILTERS, LOG),
    Workload('date, 5 groups', .42, 'captures', 'text',
             [r'(\d{4})-(\d\d)-(\d\d)T(\d\d):(\d\d)'], LOG),
    Workload('date in a line', .42, 'captures', 'lines', [r'(\d{4})-(\d\d)-(\d\d)'], DATED),
    Workload('anchored line, 5 groups', .20, 'captures', 'lines',
             [r'^(\S+)T(\S+) ([A-Z]+) \[(\w+)\] (.*)$'], LOG),
    Workload('short lines, 5 groups', .20, 'captures', 'lines',
             [r'^([a-z]+) (\d+)\.(\d) \[(\w+)\] (.*)$'], RECORDS),
    Workload('whole words', .50, 'find', 'text', [r'\b\w+\b'], PROSE),
    Workload('words with one ending', .50, 'find', 'text', ['[a-z]+shing'], PROSE),
    Workload('lines with two words', .50, 'find', 'text', ['(?m)^.*ERROR.*timeout.*$'], LOG),
    Workload('8 to 13 letters', .50, 'find', 'text', ['[a-zA-Z]{8,13}'], PROSE),
    Workload('loop of a or aa, then b', .50, 'find', 'text', ['(?:a|aa)+b'], ONLY_A),
    Workload('30 times a?, 30 times a', .50, 'find', 'text', ['(?:a?){30}a{30}'], ONLY_A),
    Workload('Cyrillic words', .50, 'find', 'text', ['[а-яё]{4,}'], CYRILLIC_PROSE),
    Workload('short texts', .40, 'find', 'lines', [r'[a-z]+-\d+'], SHORT_TEXTS),
]


class Family(NamedTuple):
    """Searches of one shape in three sizes, each twice the one before."""
    name: str
    call: str
    sizes: tuple[int, int, int]
    pattern: Callable[[int], str]  # for each size
    text: Text


def nest(depth: int) -> str:
    """As many nested loops, and then a letter that isn't there."""
    pattern = 'a'
    for _ in range(depth):
        pattern = f'(?:{pattern}|b)*'
    return pattern + 'c'


def by_two(least: int) -> tuple[int, int, int]:
    """Three sizes, each twice the one before."""
    return least, 2 * least, 4 * least


FAMILIES = [
    Family('bytes, rare literal', 'find', by_two(256 * KB), lambda size: RARE, PROSE),
    Family('bytes, a match at each', 'find', by_two(16 * KB), lambda size: 'a', ONLY_A),
    Family('groups', 'captures', by_two(8), lambda size: '([a-z])' * size,
           lambda size: LETTERS(16 * KB)),
    Family('loops in a loop', 'find', by_two(6), nest, lambda size: ONLY_A(16 * KB)),
    Family('[a-z] in a row', 'find', by_two(25), lambda size: f'[a-z]{{{size}}}0',
           lambda size: LETTERS(16 * KB)),
]
