"""The patterns that bench/compile measures."""

from collections.abc import Callable, Iterable

OCTET = r'(?:25[0-5]|2[0-4]\d|1\d\d|[1-9]?\d)'

SMALL = [
    ('literal word', 'samwise'),
    ('lower-case run', '[a-z]+'),
    ('three words', 'frodo|samwise|pippin'),
    ('any, lazy', '^.*?$'),
]

TYPICAL = [
    ('date', r'\b\d\d\d\d-(?:0[1-9]|1[0-2])-(?:0[1-9]|[12]\d|3[01])\b'),
    ('IPv4 address', r'\b' + r'\.'.join([OCTET] * 4) + r'\b'),
    ('mail address', r'(?i)\b[a-z0-9._%+-]+@[a-z0-9-]+(?:\.[a-z0-9-]+)*\.[a-z][a-z]+\b'),
    ('key=value', r'(?m)^\s*[\w.-]+\s*=\s*(?:"[^"]*"|[^\s#]*)\s*(?:#.*)?$'),
    ('log line', r'^\d\d:\d\d:\d\d(?:\.\d+)?\s+(?:TRACE|DEBUG|INFO|WARN|ERROR)\s+\[[^\]]+\]'
                 r'\s+[\w:]+(?:\(\d+\))?:\s.*$'),
    ('URL', r'(?i)\bhttps?://(?:[\w-]+\.)+[a-z]+(?::\d+)?(?:/[^\s?#]*)?(?:\?[^\s#]*)?(?:#\S*)?'),
    ('number', r'[+-]?(?:\d+(?:\.\d*)?|\.\d+)(?:[eE][+-]?\d+)?'),
    ('named groups', r'(?<year>\d\d\d\d)-(?<month>\d\d)-(?<day>\d\d)'),
]


def word(number: int) -> str:
    """A word of 6 letters, different for each number below 26 to the 4th."""
    letters = [chr(ord('a') + number * 7919 // 26 ** place % 26) for place in range(4)]
    return 'w' + ''.join(letters) + 'n'


def words(count: int) -> str:
    """An alternation of this many words."""
    return '|'.join(word(number) for number in range(count))


def ranges(order: Iterable[int]) -> str:
    """A class with a range of two characters for each number, and a gap after each."""
    base = 0x3400
    return '[' + ''.join(f'{chr(base + 4 * n)}-{chr(base + 4 * n + 1)}' for n in order) + ']'


def ranges_in_order(count: int) -> str:
    """A class whose ranges rise."""
    return ranges(range(count))


def ranges_mixed(count: int) -> str:
    """A class with the same ranges in a mixed order."""
    return ranges(n * 1237 % count for n in range(count))


def row(count: int) -> str:
    """A row of 4 items, three with an operator, written this many times."""
    return r'x[0-9a-f]+\s*(?:y|z)?' * count


LARGE = [
    ('800 words', words(800)),
    ('800 words, (?i)', '(?i)' + words(800)),
    ('5000 ranges', ranges_in_order(5000)),
    ('5000 ranges, mixed', ranges_mixed(5000)),
    ('[^...] of 5000', '[^' + ranges_in_order(5000)[1:]),
    ('row of 2000 items', row(500)),
]

COUNTED = [
    ('a{1000}', 'a{1000}'),
    ('word{1000}', r'\w{1000}'),
    ('[a-z]{3,200}', '[a-z]{3,200}'),
    ('3 branches{100}', '(?:a|b|cd){100}'),
    ('4 numbers', r'(?:\d{1,3}\.){3}\d{1,3}'),
    ('IPv4 address, counted', rf'\b(?:{OCTET}\.){{3}}{OCTET}\b'),
    ('(?:x?){200}x{200}', '(?:x?){200}x{200}'),
    ('UUID', '(?i)[0-9a-f]{8}-(?:[0-9a-f]{4}-){3}[0-9a-f]{12}'),
    ('mail address, counted', r'(?i)[a-z0-9._%+-]{1,64}@(?:[a-z0-9-]{1,63}\.){1,8}[a-z]{2,63}'),
    ('nested counts', '(?:(?:a{10}b){10}c){10}'),
    ('(a){500}', '(a){500}'),
    ('no word{20,}', r'\W{20,}'),
    ('40 ranges{100}', ranges_in_order(40) + '{100}'),
    ('1000 ranges{100}', ranges_in_order(1000) + '{100}'),
]


def named_groups(count: int) -> str:
    """This many groups in a row, each with a name of its own."""
    return ''.join(f'(?<n{number}>a)' for number in range(count))


def by_four(least: int) -> tuple[int, int, int]:
    """Three sizes, each 4 times the one before."""
    return least, 4 * least, 16 * least


# From small sizes to roughly the largest that the default size limit and an argument admit.
BY_TEN = (100, 1_000, 10_000)

# The families: a name, the shape of its members and their sizes.
FAMILIES: list[tuple[str, Callable[[int], str], tuple[int, int, int]]] = [
    ('words', words, by_four(100)),
    ('ranges in order', ranges_in_order, by_four(300)),
    ('ranges mixed', ranges_mixed, by_four(300)),
    ('rows of 4 items', row, by_four(50)),
    ('a{n}', lambda count: f'a{{{count}}}', by_four(1000)),
    ('word{n}', lambda count: rf'\w{{{count}}}', by_four(1000)),
    ('[a-z]{3,n}', lambda count: f'[a-z]{{3,{count}}}', by_four(500)),
    ('3 branches{n}', lambda count: f'(?:a|b|cd){{{count}}}', by_four(200)),
    ('40 ranges{n}', lambda count: ranges_in_order(40) + f'{{{count}}}', by_four(400)),
    ('named groups', named_groups, BY_TEN),
    ('. in a row', lambda count: '.' * count, BY_TEN),
    ('(?i)[a-z] in a row', lambda count: '(?i)' + '[a-z]' * count, BY_TEN),
    ('[^a] in a row', lambda count: '[^a]' * count, BY_TEN),
    ('word in a row', lambda count: r'\w' * count, BY_TEN),
    ('operators nested', lambda count: '(?:[a-z]' * count + ')+' * count, by_four(1)),
]
