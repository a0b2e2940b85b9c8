"""The server of the page: only on 127.0.0.1, and only for this page."""

from __future__ import annotations

import sys
from contextlib import contextmanager, suppress
from http.server import ThreadingHTTPServer
from socket import SHUT_RDWR, socket
from threading import Lock
from typing import Any, Dict, Iterator, List

from page.handler import Handler
from page.pool import Pool

ADDRESS = '127.0.0.1'
HTTP_PORT = 80  # the default port, which browsers omit
MOST_CONNECTIONS = 256


def hosts_at(port: int) -> List[str]:
    """The names of a server at this port, as browsers give them."""
    names = [ADDRESS, 'localhost']
    return [f'{name}:{port}' for name in names] + (names if port == HTTP_PORT else [])


class Server(ThreadingHTTPServer):
    """The server, with the searches. Each connection has a thread. If there are too many of them,
    the one that has kept the server waiting longest is closed."""

    daemon_threads = True
    request_queue_size = MOST_CONNECTIONS

    def __init__(self, port: int) -> None:
        super().__init__((ADDRESS, port), Handler)
        self.hosts = hosts_at(self.server_port)
        self._lock = Lock()
        self._count = 0  # of connections
        self._waited_for: Dict[socket, None] = {}  # the connections that no search is made for
        self.pool = Pool()

    def process_request(self, request: Any, client_address: Any) -> None:
        with self._lock:
            self._count += 1
            self._waited_for[request] = None
            if self._count > MOST_CONNECTIONS:
                longest = next(iter(self._waited_for))
                del self._waited_for[longest]
                with suppress(OSError):
                    longest.shutdown(SHUT_RDWR)
        super().process_request(request, client_address)

    @contextmanager
    def answering(self, connection: socket) -> Iterator[None]:
        """While a search is made for this connection."""
        with self._lock:
            self._waited_for.pop(connection, None)
        try:
            yield
        finally:
            with self._lock:
                self._waited_for[connection] = None

    def shutdown_request(self, request: Any) -> None:
        with self._lock:
            self._count -= 1
            self._waited_for.pop(request, None)
        super().shutdown_request(request)

    def handle_error(self, request: Any, client_address: Any) -> None:
        """Reports an error, unless it is that a client has gone."""
        if not isinstance(sys.exc_info()[1], OSError):
            super().handle_error(request, client_address)


def serve(port: int) -> None:
    """Serves the page until it is interrupted."""
    with Server(port) as server:
        print(f'page: http://{ADDRESS}:{server.server_port}/ (Control-C ends it)', flush=True)
        server.serve_forever()
