"""How questions share the workers, and that a search that nobody waits for is ended."""

import time
import unittest
from contextlib import suppress
from threading import Event, Thread
from typing import List

from page.tests.running import GOOD, HOSTILE, WithServer, below, searching, slowness

HOSTILE_REQUESTS = 100
SECONDS = 10  # in which a good question is answered meanwhile, on a machine for itself


class Queue(WithServer):
    """Good questions among hostile ones."""

    def time_of_good(self) -> float:
        """How long a good question takes to be answered."""
        begun = time.monotonic()
        self.assertEqual(self.ask('(a)(b)?', 'ab a')['count'], 2)
        return time.monotonic() - begun

    def test_one_hostile(self) -> None:
        self.asked(HOSTILE)
        time.sleep(0.5)
        self.assertLess(self.time_of_good(), 4)

    def test_good_after_hostile(self) -> None:
        for _ in range(HOSTILE_REQUESTS):
            self.asked(HOSTILE)
        for _ in range(5):
            self.assertLess(self.time_of_good(), SECONDS * slowness())

    def test_good_amidst_hostile(self) -> None:
        for _ in range(HOSTILE_REQUESTS // 2):
            self.asked(HOSTILE)
        begun = time.monotonic()
        good = self.asked(GOOD)
        for _ in range(HOSTILE_REQUESTS // 2):
            self.asked(HOSTILE)
        self.assertTrue(good.recv(100).startswith(b'HTTP/1.1 200'))
        taken = time.monotonic() - begun
        self.assertLess(taken, SECONDS * slowness())

    def test_hostile_again_and_again(self) -> None:
        over = Event()

        def be_hostile() -> None:
            with suppress(OSError):  # The server ends with the test.
                while not over.is_set():
                    self.send('POST', '/search', HOSTILE)

        threads = [Thread(target=be_hostile, daemon=True) for _ in range(HOSTILE_REQUESTS)]
        for thread in threads:
            thread.start()
        for _ in range(5):
            time.sleep(1)
            self.assertLess(self.time_of_good(), SECONDS * slowness())
        over.set()

    def test_askers_that_go(self) -> None:
        askers = [self.asked(HOSTILE) for _ in range(2)]
        self.wait(lambda: len(self.searching()) == 2, SECONDS, 'no search began')
        for left, asker in enumerate(reversed(askers)):
            asker.close()
            self.wait(lambda: len(self.searching()) <= 1 - left, 5, 'a search was not ended')

    def searching(self) -> List[int]:
        """The processes that search."""
        return searching(below(self.server.pid))
