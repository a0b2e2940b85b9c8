"""Threads that share patterns, and the interpreter's lock in long searches."""

import re
import sys
import threading
import time
import unittest
from typing import Any, Callable, List, Set, Tuple

import regex_lite
from regex_lite import _foreign

THREADS = 8
LONG_ENOUGH = 0.3  # seconds that a search takes in which other threads have time to run


class Threads(unittest.TestCase):
    """Threads that use the same pattern at once."""

    def setUp(self) -> None:
        interval = sys.getswitchinterval()
        self.addCleanup(sys.setswitchinterval, interval)
        sys.setswitchinterval(1e-6)

    def in_threads(self, work: Callable[[int], object]) -> List[BaseException]:
        """Calls a function with the number of each thread, in all of them at once, and returns what
        was raised."""
        raised: List[BaseException] = []
        start = threading.Barrier(THREADS)

        def run(number: int) -> None:
            try:
                start.wait()
                work(number)
            except BaseException as fault:  # pylint: disable=broad-except
                raised.append(fault)
        threads = [threading.Thread(target=run, args=(number,)) for number in range(THREADS)]
        for thread in threads:
            thread.start()
        for thread in threads:
            thread.join()
        return raised

    def test_one_pattern(self) -> None:
        pattern = regex_lite.compile(r'(é+)(\d)?')

        def work(number: int) -> None:
            string = '-' * number + 'é' * (number + 1) + str(number)
            for _ in range(300):
                self.assertEqual(pattern.search(string).span(), (number, 2 * number + 2))
                self.assertEqual(pattern.findall(string), [('é' * (number + 1), str(number))])
        self.assertEqual(self.in_threads(work), [])

    def test_one_match(self) -> None:
        string = 'é' * 5000 + 'a' * 5000
        matches = list(regex_lite.finditer('é|a', string))

        def work(number: int) -> None:
            for i in range(number, len(matches), THREADS // 2):
                self.assertEqual(matches[-i - 1].span(), (len(string) - i - 1, len(string) - i))
        self.assertEqual(self.in_threads(work), [])

    def test_module_calls(self) -> None:
        def work(number: int) -> None:
            for i in range(300):
                word = f'thread{number % 2}{i}'
                self.assertEqual(regex_lite.search(word, f'-{word}-').span(), (1, len(word) + 1))
        self.assertEqual(self.in_threads(work), [])

    def test_lists(self) -> None:
        words = regex_lite.RegexList(['é+', '([0-9])'])

        def work(number: int) -> None:
            string = '-' * number + 'é' * (number + 1) + str(number)
            for _ in range(100):
                found = [(i, match.span()) for i, match in words.finditer(string)]
                self.assertEqual(found, [(0, (number, 2 * number + 1)),
                                         (1, (2 * number + 1, 2 * number + 2))])
        self.assertEqual(self.in_threads(work), [])

    def test_all_calls_without_the_lock(self) -> None:
        """Every search counts as a long one here."""
        ours, theirs = regex_lite.compile('(é+)([0-9])?'), re.compile('(é+)([0-9])?')
        words = regex_lite.RegexList([ours.pattern])
        ours._regex._long = words._list._long = 0

        def work(number: int) -> None:
            string = ('-' * number + 'é' * (number + 1) + str(number)) * 9
            found = [match.span() for match in theirs.finditer(string)]
            for _ in range(30):
                self.assertEqual(ours.search(string).span(2), theirs.search(string).span(2))
                self.assertIsNone(ours.fullmatch(string))
                self.assertEqual([match.span() for match in ours.finditer(string)], found)
                self.assertEqual(ours.split(string), theirs.split(string))
                self.assertEqual(ours.sub(r'\2', string), theirs.sub(r'\2', string))
                self.assertEqual(ours.search_each([string] * 9), found[:1] * 9)
                self.assertEqual([span for _, span in words.spans(string)], found)
                self.assertEqual(words.search(string)[1].groups(), theirs.search(string).groups())
                self.assertEqual(words.matches(string), [0])
        self.assertEqual(self.in_threads(work), [])

    def test_no_two_calls_use_one_handle(self) -> None:
        inside: List[int] = []
        seen: Set[int] = set()
        shared: List[int] = []

        def call(here: Any, *_: object) -> int:
            handle = id(here._obj)
            shared.extend(handle for other in inside if other == handle)
            inside.append(handle)
            time.sleep(1e-2)
            inside.remove(handle)
            seen.add(handle)
            return _foreign.NO
        pattern, words = regex_lite.compile('(a)'), regex_lite.RegexList(['a'])
        regexes = (pattern._regex, words._list)
        for ask in (lambda _: regexes[0].captures(b'a', 0, ((call, call), (call, call))),
                    lambda _: regexes[0]._ask((call, call), b'a'),
                    lambda _: regexes[1]._ask((call, call), b'a')):
            seen.clear()
            self.assertEqual((self.in_threads(ask), shared), ([], []))
            self.assertIn(len(seen), range(2, THREADS + 1))


class Lock(unittest.TestCase):
    """The lock of the interpreter in a long search."""

    PATTERN = '([a-z]+)[0-9]'

    def times(self, work: Callable[[], object]) -> Tuple[float, float]:
        """When the work begins and ends."""
        begin = time.perf_counter()
        work()
        return begin, time.perf_counter()

    def string(self) -> str:
        """A string in which a search takes long enough."""
        length = 1 << 20
        pattern = regex_lite.compile(self.PATTERN)
        while True:
            string = 'a' * length
            begin, end = self.times(lambda: pattern.search(string))
            if end - begin > LONG_ENOUGH:
                return string
            length *= 2

    def test_other_threads_run_meanwhile(self) -> None:
        string, pattern, spans = self.string(), regex_lite.compile(self.PATTERN), []
        search = threading.Thread(
            target=lambda: spans.append(self.times(lambda: pattern.search(string))))
        search.start()
        ticks = []
        while search.is_alive():
            ticks.append(time.perf_counter())
            time.sleep(1e-3)
        (begin, end), = spans
        quarter = (end - begin) / 4
        middle = [tick for tick in ticks if begin + quarter < tick < end - quarter]
        self.assertTrue(middle, 'no other thread has run in the middle of the search')

    def test_short_searches_keep_it(self) -> None:
        called = []
        short, long = (lambda *_, name=name: called.append(name) or _foreign.NO
                       for name in ('short', 'long'))
        regex = regex_lite.compile('(a)')._regex
        for length in (1, regex._long - 1, regex._long, 1 << 20):
            regex.captures(b'a' * length, 0, ((short, long), (short, long)))
        self.assertEqual(called, ['short', 'short', 'long', 'long'])
        many = regex_lite.compile('[a-z]{1000}')._regex
        self.assertLess(many._long, regex._long)


if __name__ == '__main__':
    unittest.main()
