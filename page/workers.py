"""Starts workers: processes that answer one question each, so that a search can be ended."""

from __future__ import annotations

import socket
import subprocess
import sys
from multiprocessing import Pipe
from multiprocessing.connection import Connection

from page.worker import HEAD, READY


class Workers:
    """The process from which workers are forked, which is restarted if it has ended."""

    def __init__(self) -> None:
        self._begin()

    def answer(self, question: bytes, seconds: float) -> Connection:
        """The connection over which a new worker sends its reply to a question. The worker ends
        without one when the connection is closed, or when it has used these seconds of CPU time.
        Raises OSError if there can be no worker."""
        ours, theirs = Pipe()
        with theirs:
            try:
                self._send(question, seconds, theirs)
            except OSError:
                self._end()
                self._begin()
                self._send(question, seconds, theirs)
        return ours

    def _send(self, question: bytes, seconds: float, asker: Connection) -> None:
        head = HEAD.pack(len(question), seconds)
        socket.send_fds(self._forks, [head], [asker.fileno()])
        self._forks.sendall(question)

    def _begin(self) -> None:
        self._forks, theirs = socket.socketpair()
        with theirs:
            self._process = subprocess.Popen([sys.executable, '-m', 'page.worker'],
                                             stdin=theirs.fileno())
        if self._forks.recv(len(READY)) != READY:
            self._end()
            raise ChildProcessError('there is no process that searches')

    def _end(self) -> None:
        self._forks.close()
        self._process.wait()
