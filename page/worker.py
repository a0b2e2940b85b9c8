"""The process from which workers are forked, and what a worker does.

It loads the library once, and then waits on its standard input for questions, each with a socket.
For each question it forks a worker, which sends the reply over the socket and ends.
"""

from __future__ import annotations

import os
import resource
import signal
import socket
import sys
from contextlib import suppress
from fcntl import F_GETFL, F_SETFL, F_SETOWN, fcntl
from functools import partial
from multiprocessing.connection import Connection
from struct import Struct
from typing import Callable

from page.replies import Reply

MOST_MEMORY = 2 << 30  # bytes
READY = b'.'
HEAD = Struct('Qd')  # how long the question is that follows, and how many seconds it may take


def main() -> None:
    """Forks workers until the server is gone."""
    server = socket.socket(fileno=sys.stdin.fileno())
    signal.signal(signal.SIGINT, signal.SIG_IGN)  # Control-C ends the server, and so this process.
    signal.signal(signal.SIGCHLD, signal.SIG_IGN)  # Workers that have ended are forgotten.
    for ending in (signal.SIGIO, signal.SIGPROF):  # The parent may ignore them.
        signal.signal(ending, signal.SIG_DFL)
    resource.setrlimit(resource.RLIMIT_AS, (MOST_MEMORY, MOST_MEMORY))
    try:
        from page.answers import reply_to
    except (ImportError, OSError) as fault:
        sys.exit(f'page: the library cannot be loaded: {fault}')
    with suppress(ConnectionError):
        server.send(READY)
        while True:
            head, sockets, _, _ = socket.recv_fds(server, HEAD.size, 1, socket.MSG_WAITALL)
            if not head:
                return
            length, seconds = HEAD.unpack(head)
            question = server.recv(length, socket.MSG_WAITALL)
            _fork(sockets[0], partial(reply_to, question), seconds)


def _fork(asker: int, search: Callable[[], Reply], seconds: float) -> None:
    """Forks a worker that sends what a search returns over this socket."""
    with suppress(OSError):  # If no process can be forked, the socket is closed as well.
        if os.fork() == 0:
            os.close(sys.stdin.fileno())
            with suppress(EOFError, OSError):  # The client is gone.
                _answer(Connection(asker), search, seconds)
            os._exit(0)
    os.close(asker)


def _answer(asker: Connection, search: Callable[[], Reply], seconds: float) -> None:
    _end_with(asker)
    signal.setitimer(signal.ITIMER_PROF, seconds)
    reply = search()
    signal.setitimer(signal.ITIMER_PROF, 0)
    fcntl(asker, F_SETFL, fcntl(asker, F_GETFL) & ~os.O_ASYNC)
    asker.send(reply)


def _end_with(asker: Connection) -> None:
    """Lets the system end this process as soon as the other end of the connection is closed, by the
    server or because the server is gone. It does so by a signal without a handler, since no Python
    code runs while the library searches. Nothing may be sent to this end, since that would cause
    the same signal."""
    fcntl(asker, F_SETOWN, os.getpid())
    fcntl(asker, F_SETFL, fcntl(asker, F_GETFL) | os.O_ASYNC)
    if asker.poll():
        raise EOFError  # It was closed before.


if __name__ == '__main__':
    main()
