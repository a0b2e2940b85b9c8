"""That each bad request gets its status, or the end of its connection, and nothing is reported."""

import socket
import struct
import unittest
from contextlib import suppress
from typing import List

from page.server import MOST_CONNECTIONS, hosts_at
from page.tests.bad_requests import BODY, CUT_SHORT, HOST, KIND, WHOLE, get, of_body
from page.tests.running import HOSTILE, WithServer, question

RESETS = struct.pack('ii', 1, 0)  # a connection that is closed with this is reset


class Requests(WithServer):
    """Requests that the page doesn't send."""

    def sent(self, raw: bytes) -> socket.socket:
        """A connection over which this was sent, as far as it was taken."""
        connection = socket.create_connection(('127.0.0.1', self.port), timeout=10)
        self.addCleanup(connection.close)
        with suppress(ConnectionError):
            connection.sendall(raw.replace(b'PORT', str(self.port).encode()))
        return connection

    def statuses(self, connection: socket.socket) -> List[int]:
        """The statuses of the replies that come until the connection is closed."""
        replies = b''
        while part := connection.recv(1 << 16):
            replies += part
        return [int(part.split()[1]) for part in replies.split(b'HTTP/1.')[1:]]

    def expect_alive(self) -> None:
        """The server answers, and has reported nothing."""
        self.assertEqual(self.ask('a', 'a')['count'], 1)
        self.log.seek(0)
        self.assertEqual(self.log.read(), b'')

    def test_whole_requests(self) -> None:
        for name, raw, status in WHOLE:
            with self.subTest(name):
                self.assertEqual(self.statuses(self.sent(raw)), [status])
                self.expect_alive()

    def test_requests_cut_short(self) -> None:
        for name, raw, status in CUT_SHORT:
            with self.subTest(name):
                connection = self.sent(raw)
                connection.shutdown(socket.SHUT_WR)
                self.assertEqual(self.statuses(connection), [status] if status else [])
                self.expect_alive()

    def test_clients_that_go(self) -> None:
        for name, raw, _ in [*WHOLE, *CUT_SHORT]:
            with self.subTest(name):
                connection = self.sent(raw)
                connection.setsockopt(socket.SOL_SOCKET, socket.SO_LINGER, RESETS)
                connection.close()
        self.expect_alive()

    def test_clients_that_go_within_an_answer(self) -> None:
        for _ in range(20):
            connection = self.asked(question('a', text=HOSTILE['text']))
            connection.recv(1)
            connection.setsockopt(socket.SOL_SOCKET, socket.SO_LINGER, RESETS)
            connection.close()
        self.expect_alive()

    def test_pipelines(self) -> None:
        for after, status in ((b'garbage\r\n\r\n', 400), (of_body(b'{'), 400),
                              (get(b'/other', HOST), 404)):
            connection = self.sent(of_body(BODY) + get(b'/page.css', HOST) + after)
            self.assertEqual(self.statuses(connection), [200, 200, status])
            self.expect_alive()

    def test_silent_connections(self) -> None:
        silent = [self.sent(b'GET / HT') for _ in range(2 * MOST_CONNECTIONS)]
        self.expect_alive()
        self.assertEqual(silent[0].recv(1), b'')

    def test_heads_alone(self) -> None:
        reply = self.sent(b'HEAD / HTTP/1.0\r\n' + HOST + b'\r\n')
        head = reply.recv(1 << 16)
        self.assertTrue(head.startswith(b'HTTP/1.1 200 '))
        self.assertTrue(head.endswith(b'\r\n\r\n'))
        self.assertEqual(reply.recv(1), b'')

    def test_waiting_for_leave(self) -> None:
        connection = self.sent(b'POST /search HTTP/1.1\r\n' + HOST + KIND + b'Connection: close\r\n'
                               b'Expect: 100-continue\r\nContent-Length: %d\r\n\r\n' % len(BODY))
        self.assertTrue(connection.recv(1 << 16).startswith(b'HTTP/1.1 100 '))
        connection.sendall(BODY)
        self.assertEqual(self.statuses(connection), [200])


class Ports(unittest.TestCase):
    """Names of the server."""

    def test_names(self) -> None:
        self.assertEqual(hosts_at(8000), ['127.0.0.1:8000', 'localhost:8000'])
        self.assertEqual(set(hosts_at(80)), {'127.0.0.1:80', 'localhost:80', '127.0.0.1',
                                             'localhost'})
