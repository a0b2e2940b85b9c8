"""The server as a process of its own, which tests ask."""

from __future__ import annotations

import json
import os
import signal
import socket
import subprocess
import sys
import tempfile
import time
import unittest
from contextlib import closing
from http.client import HTTPConnection
from pathlib import Path
from typing import IO, Any, Callable, Dict, List, Mapping, Sequence, Tuple

from page.questions import NEST_LIMIT, SIZE_LIMIT, Question

TOP = Path(__file__).resolve().parent.parent.parent
SHARE = 0.02  # of a processor that a search takes at least, however many others there are


def question(*patterns: str, flags: str = '', text: str = '', replacement: str = '',
             nest_limit: int = NEST_LIMIT, size_limit: int = SIZE_LIMIT) -> Question:
    """A question, by default with no flag and the usual limits."""
    return Question(patterns=list(patterns), flags=flags, nest_limit=nest_limit,
                    size_limit=size_limit, text=text, replacement=replacement)


HOSTILE = question('(?:a{500}){400}[bc]', text='a' * 100_000)
GOOD = question('a', text='a')


class WithServer(unittest.TestCase):
    """Tests over one server, which reports nothing."""

    server: 'subprocess.Popen[str]'
    log: IO[bytes]
    port: int

    @classmethod
    def setUpClass(cls) -> None:
        cls.log = tempfile.TemporaryFile()
        cls.addClassCleanup(cls.log.close)
        cls.server, cls.port = started([sys.executable, '-m', 'page', '0'], cls.log)
        cls.addClassCleanup(ended, cls.server)

    @classmethod
    def tearDownClass(cls) -> None:
        assert cls.server.poll() is None, 'the server has ended'
        cls.log.seek(0)
        reported = cls.log.read().decode()
        assert not reported, reported

    def send(self, method: str, path: str, body: object = None,
             headers: Mapping[str, str] = {}) -> Tuple[int, bytes, Dict[str, str]]:
        """Sends a request as the page does, but for these headers, and returns the status, the body
        and the headers of the reply."""
        own = {'Content-Type': 'application/json', 'Origin': f'http://127.0.0.1:{self.port}'}
        data = body if isinstance(body, bytes) or body is None else json.dumps(body).encode()
        with closing(HTTPConnection('127.0.0.1', self.port, timeout=60)) as connection:
            connection.request(method, path, data, {**own, **headers})
            reply = connection.getresponse()
            content = reply.read()
        return reply.status, content, {name.lower(): value for name, value in reply.getheaders()}

    def ask(self, pattern: str, text: str, replacement: str = '',
            flags: str = '') -> Dict[str, Any]:
        """What is shown of one pattern and a text."""
        return self.answer(question(pattern, text=text, replacement=replacement, flags=flags))

    def answer(self, question: Question) -> Dict[str, Any]:
        """What is shown of a question, which is answered."""
        status, content, _ = self.send('POST', '/search', question)
        self.assertEqual(status, 200)
        shown = json.loads(content)
        assert isinstance(shown, dict)
        return shown

    def asked(self, question: Question) -> socket.socket:
        """A connection over which a question was sent, whose reply nobody reads."""
        body = json.dumps(question).encode()
        connection = socket.create_connection(('127.0.0.1', self.port), timeout=60)
        self.addCleanup(connection.close)
        connection.sendall(f'POST /search HTTP/1.1\r\nHost: 127.0.0.1:{self.port}\r\n'
                           'Content-Type: application/json\r\n'
                           f'Content-Length: {len(body)}\r\n\r\n'.encode() + body)
        return connection

    def wait(self, is_so: Callable[[], bool], seconds: float, what: str) -> None:
        """Waits until something is so, at most for this time on a machine for itself."""
        begun = time.monotonic()
        while not is_so():
            taken = time.monotonic() - begun
            self.assertTrue(taken < seconds or taken < seconds * slowness(), what)
            time.sleep(0.05)


def started(command: Sequence[str], log: IO[bytes],
            **changed: str) -> 'Tuple[subprocess.Popen[str], int]':
    """A process that serves the page, and its port."""
    # Where the tests run in the background they may ignore this, and what they begin would too.
    signal.signal(signal.SIGINT, signal.default_int_handler)
    server = subprocess.Popen(command, cwd=TOP, stdout=subprocess.PIPE, stderr=log,
                              encoding='utf-8', env={**os.environ, **changed})
    assert server.stdout is not None
    line = server.stdout.readline()
    assert line.startswith('page: http://127.0.0.1:'), line
    return server, int(line.split('/')[2].split(':')[1])


def ended(server: 'subprocess.Popen[str]') -> None:
    """Ends a process that serves the page."""
    server.terminate()
    server.wait()
    assert server.stdout is not None
    server.stdout.close()


def below(process: int) -> List[int]:
    """All processes that a process has begun, those that these have begun and so on."""
    parents = {}
    for folder in Path('/proc').glob('[0-9]*'):
        fields = fields_of(int(folder.name))
        if fields:
            parents[int(folder.name)] = int(fields[1])
    found = [process]
    for parent in found:
        found += [child for child, own in parents.items() if own == parent]
    return found[1:]


def is_running(process: int) -> bool:
    """Whether a process is there, and hasn't ended."""
    fields = fields_of(process)
    return bool(fields) and fields[0] != 'Z'


def searching(processes: Sequence[int]) -> List[int]:
    """Those of the processes that are at work, which can be seen after a while."""
    def taken() -> Dict[int, int]:
        return {process: sum(map(int, fields[11:13])) for process in processes
                if (fields := fields_of(process))}
    before = taken()
    time.sleep(0.5)
    least = 0.5 * SHARE * os.sysconf('SC_CLK_TCK')
    return [process for process, ticks in taken().items() if ticks - before[process] > least]


def slowness() -> float:
    """How many times longer work takes here than on a machine that does nothing else."""
    begun, taken = time.monotonic(), time.process_time()
    while time.process_time() < taken + 0.2:
        pass
    return (time.monotonic() - begun) / 0.2


def fields_of(process: int) -> List[str]:
    """What the system says of a process, from its state on, or nothing if there is none."""
    try:
        return Path(f'/proc/{process}/stat').read_text().rpartition(')')[2].split()
    except OSError:
        return []
