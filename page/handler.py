"""What the server does with a request."""

from __future__ import annotations

from contextlib import suppress
from http import HTTPStatus
from http.server import BaseHTTPRequestHandler
from pathlib import Path
from socket import SHUT_WR
from time import monotonic
from typing import TYPE_CHECKING, Callable, Dict, List, Optional, Tuple

from page.pool import Gone
from page.replies import Reply, refusal
from page.syntax import cheat_sheet

if TYPE_CHECKING:
    from page.server import Server

MOST_BYTES = 2 << 20  # of a request
LONGEST_LENGTH = len(str(MOST_BYTES))
MOST_SKIPPED = 64 << 20  # bytes that are read of a rejected request, so that its sender sees why
SKIPPING = 2  # seconds for that
SECONDS = 30  # that a sender may wait within a request
KINDS = {'.html': 'text/html', '.css': 'text/css', '.js': 'text/javascript'}
CALL = '/search'
# Only these files are loaded, no other page may frame this one, and nothing is cached.
HEADERS = {'Content-Security-Policy': "default-src 'none'; script-src 'self'; style-src 'self'; "
                                      "connect-src 'self'; base-uri 'none'; form-action 'none'; "
                                      "frame-ancestors 'none'",
           'X-Content-Type-Options': 'nosniff', 'Referrer-Policy': 'no-referrer',
           'Cross-Origin-Resource-Policy': 'same-origin', 'Cache-Control': 'no-store'}


def _files() -> Dict[str, Tuple[str, bytes]]:
    """The kind and the content of each file of the page, by its path."""
    files = {f'/{file.name}': (KINDS[file.suffix], file.read_bytes())
             for file in (Path(__file__).parent / 'static').iterdir()}
    kind, content = files.pop('/index.html')
    files['/'] = kind, content.replace(b'<!-- syntax -->', cheat_sheet().encode())
    return files


FILES = _files()


class Refused(Exception):
    """A request that is rejected, with the status and the reason."""

    def __init__(self, status: HTTPStatus, reason: str) -> None:
        super().__init__(reason)
        self.status = status
        self.reason = reason


class Handler(BaseHTTPRequestHandler):
    """Answers requests of the page."""

    server: Server
    timeout = SECONDS
    disable_nagle_algorithm = True
    protocol_version = 'HTTP/1.1'
    default_request_version = 'HTTP/1.0'  # One of 0.9 would get no status.
    server_version = 'regex_lite'
    sys_version = ''

    def do_GET(self) -> None:
        """One of the files."""
        self._unless_refused(self._send_file)

    do_HEAD = do_GET

    def do_POST(self) -> None:
        """What is shown of a question."""
        self._unless_refused(self._send_answer)

    def _unless_refused(self, send: Callable[[], None]) -> None:
        try:
            self._check_sender()
            send()
        except Refused as refused:
            self._close_with(refusal(refused.status, refused.reason))
        except Gone:
            self.close_connection = True

    def _send_file(self) -> None:
        if self.path not in FILES:
            raise self._refused_path()
        if 'Content-Length' in self.headers or 'Transfer-Encoding' in self.headers:
            raise Refused(HTTPStatus.BAD_REQUEST, 'a request for a file has no body')
        kind, content = FILES[self.path]
        self._send(HTTPStatus.OK, kind, content)

    def _send_answer(self) -> None:
        if self.path != CALL:
            raise self._refused_path()
        question = self._body()
        with self.server.answering(self.connection):
            reply = self.server.pool.answer(question, self.connection)
        if reply.status == HTTPStatus.OK:
            self._send(reply.status, 'application/json', reply.body)
        else:
            self._close_with(reply)

    def _allowed(self) -> str:
        """The methods that the path has."""
        return 'POST' if self.path == CALL else 'GET, HEAD' if self.path in FILES else ''

    def _refused_path(self) -> Refused:
        if self._allowed():
            return Refused(HTTPStatus.METHOD_NOT_ALLOWED, f'this path takes {self._allowed()}')
        return Refused(HTTPStatus.NOT_FOUND, 'there is nothing at this path')

    def _check_sender(self) -> None:
        """Rejects requests that were meant for another host, and those of other hosts' pages."""
        hosts: List[str] = self.headers.get_all('Host', [])
        if len(hosts) != 1 or hosts[0] not in self.server.hosts:
            raise Refused(HTTPStatus.FORBIDDEN, 'the request is for another host')
        origin = self.headers.get('Origin')
        if origin is not None and origin not in [f'http://{host}' for host in self.server.hosts]:
            raise Refused(HTTPStatus.FORBIDDEN, "the request is from another host's page")

    def _body(self) -> bytes:
        """The body of a request."""
        lengths: List[str] = self.headers.get_all('Content-Length', [])
        length = lengths[0] if len(lengths) == 1 else ''
        if 'Transfer-Encoding' in self.headers or not (length.isascii() and length.isdecimal()):
            raise Refused(HTTPStatus.LENGTH_REQUIRED, 'the request does not say its length')
        if len(length.lstrip('0')) > LONGEST_LENGTH or int(length[-LONGEST_LENGTH:]) > MOST_BYTES:
            raise Refused(HTTPStatus.REQUEST_ENTITY_TOO_LARGE, 'the request has over 2 MB')
        if self.headers.get_content_type() != 'application/json':
            raise Refused(HTTPStatus.UNSUPPORTED_MEDIA_TYPE, 'the request is not JSON')
        wanted = int(length[-LONGEST_LENGTH:])
        body = self.rfile.read(wanted)
        if len(body) < wanted:
            raise Gone
        return body

    def send_error(self, code: int, message: Optional[str] = None,
                   explain: Optional[str] = None) -> None:
        """Rejects what the base class can't parse or has no method for."""
        status = HTTPStatus(code)
        if status is HTTPStatus.NOT_IMPLEMENTED:
            status = self._refused_path().status
        self._close_with(refusal(status, status.phrase))

    def _close_with(self, reply: Reply) -> None:
        """Sends this reply, and accepts no more requests over this connection."""
        self.close_connection = True
        self._send(reply.status, 'application/json', reply.body)
        self._skip()

    def _skip(self) -> None:
        """Reads the rest of a request. A connection that is closed with unread data is reset, and
        its client may not see the reply."""
        with suppress(OSError):
            self.connection.shutdown(SHUT_WR)
            self.connection.settimeout(SKIPPING)
            left, last = MOST_SKIPPED, monotonic() + SKIPPING
            while left > 0 and monotonic() < last and (part := self.connection.recv(1 << 16)):
                left -= len(part)

    def _send(self, status: int, kind: str, body: bytes) -> None:
        self.send_response(status)
        for name, value in HEADERS.items():
            self.send_header(name, value)
        self.send_header('Content-Type', f'{kind}; charset=utf-8')
        self.send_header('Content-Length', str(len(body)))
        if status == HTTPStatus.METHOD_NOT_ALLOWED:
            self.send_header('Allow', self._allowed())
        if self.close_connection:
            self.send_header('Connection', 'close')
        self.end_headers()
        if self.command != 'HEAD':
            self.wfile.write(body)

    def log_message(self, format: str, *args: object) -> None:
        """Patterns and texts are private, so they aren't logged."""
