"""That all processes of the page end together, and what bin/page does before there is a server."""

import os
import shutil
import signal
import socket
import stat
import subprocess
import sys
import tempfile
import time
import unittest
from contextlib import closing
from pathlib import Path
from typing import Dict, List

from page.tests.running import (HOSTILE, TOP, WithServer, below, ended, is_running,
                                searching, started)

SCRIPT = str(TOP / 'bin' / 'page')
SECONDS = 5  # in which processes end
BUILDER = """#!/bin/sh
echo "$*" >"$ASKED"
[ -z "$BUILDS" ] || { echo $$ >"$BUILDS"; exec sleep 60; }
for folder; do :; done
cp "$BUILT" "$folder/libregex_lite.so"
"""


class Ends(WithServer):
    """Servers that are ended while they search."""

    def expect_ends(self, command: List[str], how: signal.Signals) -> None:
        """Ends a server while two hostile questions are searched for. All its processes end."""
        server, port = started(command, self.log)
        self.addCleanup(ended, server)
        self.port = port
        for _ in range(2):
            self.asked(HOSTILE)
        self.wait(lambda: len(searching(below(server.pid))) >= 1, 10, 'no search began')
        processes = [server.pid, *below(server.pid)]
        server.send_signal(how)
        self.wait(lambda: server.poll() is not None, SECONDS, 'the server has not ended')
        self.wait(lambda: not any(map(is_running, processes)), SECONDS, 'a process has not ended')
        with closing(socket.socket()) as again:
            again.setsockopt(socket.SOL_SOCKET, socket.SO_REUSEADDR, 1)
            again.bind(('127.0.0.1', port))

    def test_servers(self) -> None:
        for how in (signal.SIGKILL, signal.SIGTERM, signal.SIGINT):
            with self.subTest(how.name):
                self.expect_ends([sys.executable, '-m', 'page', '0'], how)

    def test_scripts(self) -> None:
        for how in (signal.SIGKILL, signal.SIGTERM, signal.SIGHUP):
            with self.subTest(how.name):
                self.expect_ends([SCRIPT, '0'], how)

    def test_forks(self) -> None:
        server, self.port = started([sys.executable, '-m', 'page', '0'], self.log)
        self.addCleanup(ended, server)
        forks = below(server.pid)[0]
        os.kill(forks, signal.SIGKILL)
        self.wait(lambda: not is_running(forks), SECONDS, 'the process has not ended')
        self.assertEqual(self.ask('a', 'a')['count'], 1)


class Script(unittest.TestCase):
    """What bin/page does, in a copy whose bin/library builds nothing."""

    def setUp(self) -> None:
        folder = tempfile.TemporaryDirectory()
        self.addCleanup(folder.cleanup)
        self.top = Path(folder.name)
        (self.top / 'bin').mkdir()
        (self.top / 'scratch').mkdir()
        shutil.copy(SCRIPT, self.top / 'bin' / 'page')
        builder = self.top / 'bin' / 'library'
        builder.write_text(BUILDER)
        builder.chmod(builder.stat().st_mode | stat.S_IXUSR)
        for name in ('page', 'bindings', 'docs'):
            (self.top / name).symlink_to(TOP / name)
        self.log = tempfile.TemporaryFile()
        self.addCleanup(self.log.close)
        self.env: Dict[str, str] = {
            'REGEX_LITE_LIBRARY': '', 'BUILDS': '', 'ASKED': str(self.top / 'asked'),
            'BUILT': os.environ['REGEX_LITE_LIBRARY'], 'TMPDIR': str(self.top / 'scratch')}

    def scratch(self) -> List[str]:
        """What the script has left."""
        return os.listdir(self.top / 'scratch')

    def wait_until_clean(self) -> None:
        """Waits until the script has left nothing."""
        last = time.monotonic() + SECONDS
        while self.scratch():
            self.assertLess(time.monotonic(), last, 'a folder is left')
            time.sleep(0.05)

    def test_built_library(self) -> None:
        for how in (signal.SIGKILL, signal.SIGTERM, signal.SIGINT):
            for options in ('', '--try'):
                with self.subTest(how=how.name, options=options):
                    server, _ = started([str(self.top / 'bin' / 'page'), *options.split(), '0'],
                                        self.log, **self.env)
                    folder, = self.scratch()
                    self.assertEqual((self.top / 'asked').read_text().split(),
                                     [*options.split(), str(self.top / 'scratch' / folder)])
                    server.send_signal(how)
                    ended(server)
                    self.wait_until_clean()

    def test_ended_while_building(self) -> None:
        building = self.top / 'building'
        script = subprocess.Popen([self.top / 'bin' / 'page'], stderr=self.log,
                                  env={**os.environ, **self.env, 'BUILDS': str(building)})
        last = time.monotonic() + 10
        while not building.exists() or not building.read_text():
            self.assertLess(time.monotonic(), last, 'nothing is built')
            time.sleep(0.05)
        script.terminate()
        script.wait()
        os.kill(int(building.read_text()), signal.SIGTERM)
        self.wait_until_clean()

    def test_usage(self) -> None:
        for words in (['x'], ['--other'], ['8000', '8001'], ['--try', '8000', '1'], ['-1'],
                      ['--try', '--try']):
            with self.subTest(words):
                done = subprocess.run([SCRIPT, *words], stderr=subprocess.PIPE, check=False,
                                      encoding='utf-8', env={**os.environ, **self.env})
                self.assertEqual(done.stderr, 'usage: page [--try] [PORT]\n')
                self.assertEqual(done.returncode, 2)

    def test_no_server(self) -> None:
        with closing(socket.socket()) as taken:
            taken.bind(('127.0.0.1', 0))
            taken.listen()
            port = str(taken.getsockname()[1])
            for words, library, said in (
                    ([port], self.env['BUILT'], f'page: port {port} cannot be used: '),
                    (['65536'], self.env['BUILT'], 'page: a port is a number below 65536\n'),
                    (['9' * 5000], self.env['BUILT'], 'page: a port is a number below 65536\n'),
                    (['0'], '/dev/null', 'page: the library cannot be loaded: ')):
                with self.subTest(said):
                    done = subprocess.run([SCRIPT, *words], stderr=subprocess.PIPE, check=False,
                                          encoding='utf-8',
                                          env={**os.environ, 'REGEX_LITE_LIBRARY': library})
                    self.assertEqual(done.returncode, 1)
                    self.assertTrue(done.stderr.startswith(said), done.stderr)
                    self.assertNotIn('Traceback', done.stderr)
