"""The scheduler of searches: which waiting question is next, and for how long its search may run.

A search may run up to the full limit if no other waits and fewer than LONG others run so long.
Otherwise it gets a short time slice first, the newest and the oldest waiting question in
alternation. If it isn't done by then, it starts again as soon as there is a place for a long
search, the newest first. So a harmless question is answered soon, however many hostile ones come
before and after it. A search is ended at once when its client closes the connection, or will send
nothing more over it.
"""

from __future__ import annotations

import socket
from collections import deque
from concurrent.futures import Future
from functools import partial
from multiprocessing.connection import Connection
from queue import Empty, SimpleQueue
from selectors import EVENT_READ, DefaultSelector
from threading import Thread
from time import monotonic
from typing import Deque, List, Optional

from page.replies import Reply, refusal
from page.workers import Workers

SHORT = 4  # searches that run for a time slice, at once
LONG = 2  # further searches that may take more
TURN = 0.03  # seconds of CPU time in a first time slice
MOST_SECONDS = 5  # that a search may take
MOST_WAITING = 60  # seconds that a question may wait

TOO_LONG = refusal(200, f'the search takes more than {MOST_SECONDS} seconds')
ENDED = refusal(200, 'the search was ended by the system')
TOO_MANY = refusal(503, 'too many searches are waiting')


class Gone(Exception):
    """The client has closed its connection."""


class Search:
    """A question, and the state of its search."""

    def __init__(self, question: bytes, asker: socket.socket) -> None:
        self.question = question
        self.asker = asker
        self.reply: 'Future[Reply]' = Future()
        self.asked = monotonic()
        self.begun = self.asked
        self.worker: Optional[Connection] = None
        self.is_long = False


class Pool:
    """All searches. A thread of its own accepts, starts and ends them, and nothing else does."""

    def __init__(self) -> None:
        self._workers = Workers()
        self._selector = DefaultSelector()
        self._asked: 'SimpleQueue[Search]' = SimpleQueue()
        self._woken, self._waker = socket.socketpair()
        self._first: Deque[Search] = deque()  # These wait for their first turn,
        self._is_last_next = False
        self._again: List[Search] = []  # and these for a long one.
        self._running: List[Search] = []
        self._selector.register(self._woken, EVENT_READ, self._take)
        Thread(target=self._run, daemon=True).start()

    def answer(self, question: bytes, asker: socket.socket) -> Reply:
        """The reply to a question that came over this connection. Raises `Gone` if the connection
        is closed first."""
        search = Search(question, asker)
        self._asked.put(search)
        self._waker.send(b'.')
        return search.reply.result()

    def _run(self) -> None:
        while True:
            for key, _ in self._selector.select(self._seconds_left()):
                key.data()
            self._end_some(monotonic())
            self._begin_some()

    def _take(self) -> None:
        """Takes the questions that were asked."""
        self._woken.recv(1 << 16)
        while True:
            try:
                search = self._asked.get_nowait()
            except Empty:
                return
            self._first.append(search)
            self._selector.register(search.asker, EVENT_READ, partial(self._look_at, search))

    def _look_at(self, search: Search) -> None:
        """Ends a search whose client is gone. A connection over which more was sent is no longer
        watched."""
        if search.reply.done():
            return
        try:
            more = search.asker.recv(1, socket.MSG_PEEK)
        except OSError:
            more = b''
        if more:
            self._selector.unregister(search.asker)
        else:
            self._leave(search)
            search.reply.set_exception(Gone())

    def _receive(self, search: Search) -> None:
        """Receives the reply of a worker. There is none at the end of a first time slice."""
        if search.reply.done() or search.worker is None:
            return
        try:
            reply: Reply = search.worker.recv()
        except (EOFError, OSError):
            if search.is_long:
                self._finish(search, ENDED)
            else:
                self._end(search)
                self._again.append(search)
            return
        self._finish(search, reply)

    def _finish(self, search: Search, reply: Reply) -> None:
        self._leave(search)
        search.reply.set_result(reply)

    def _leave(self, search: Search) -> None:
        """Removes a search, wherever it is."""
        if search.worker is not None:
            self._end(search)
        elif search in self._first:
            self._first.remove(search)
        elif search in self._again:
            self._again.remove(search)
        if search.asker in self._selector.get_map():
            self._selector.unregister(search.asker)

    def _begin(self, search: Search, is_long: bool) -> None:
        try:
            search.worker = self._workers.answer(search.question,
                                                 MOST_SECONDS + 1 if is_long else TURN)
        except OSError:
            self._finish(search, ENDED)
            return
        search.is_long = is_long
        search.begun = monotonic()
        self._running.append(search)
        self._selector.register(search.worker, EVENT_READ, partial(self._receive, search))

    def _end(self, search: Search) -> None:
        """Ends the worker of a search."""
        assert search.worker is not None
        self._selector.unregister(search.worker)
        search.worker.close()
        search.worker = None
        self._running.remove(search)

    def _count(self, is_long: bool) -> int:
        """The number of long searches that run, or of those that aren't long."""
        return sum(search.is_long is is_long for search in self._running)

    def _end_some(self, now: float) -> None:
        """Ends what has run or waited for too long."""
        for search in [*self._running]:
            if now - search.begun >= MOST_SECONDS:
                self._finish(search, TOO_LONG)
        for search in [*self._first, *self._again]:
            if now - search.asked >= MOST_WAITING:
                self._finish(search, TOO_MANY)

    def _begin_some(self) -> None:
        """Starts as many searches as there are places for."""
        while self._first and self._count(is_long=False) < SHORT:
            self._is_last_next = not self._is_last_next
            search = self._first.pop() if self._is_last_next else self._first.popleft()
            is_alone = not self._first and not self._again
            self._begin(search, is_alone and self._count(is_long=True) < LONG)
        while self._again and self._count(is_long=True) < LONG:
            search = max(self._again, key=lambda search: search.asked)
            self._again.remove(search)
            self._begin(search, is_long=True)

    def _seconds_left(self) -> Optional[float]:
        """The number of seconds until something ends, if no event comes before."""
        ends = [search.begun + MOST_SECONDS for search in self._running]
        ends += [search.asked + MOST_WAITING for search in [*self._first, *self._again]]
        return max(min(ends) - monotonic(), 0) if ends else None
