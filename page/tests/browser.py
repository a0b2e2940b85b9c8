"""A browser without a window, and what tests look for in it."""

from __future__ import annotations

import json
import os
import shutil
import signal
import subprocess
import tempfile
import time
import unittest
from typing import Any, Dict, Optional

from page.tests.running import WithServer

BROWSER = shutil.which('chromium')
OPTIONS = ('--headless=new', '--no-sandbox', '--disable-gpu', '--disable-dev-shm-usage',
           '--no-first-run', '--remote-debugging-pipe')
SHIFT = 8  # as a modifier
SECONDS = 20  # that a page may take until it shows what is wanted


class Browser:
    """A browser, which is asked over pipes by its own protocol."""

    def __init__(self) -> None:
        read, self._write = os.pipe()
        self._read, write = os.pipe()
        self._folder = tempfile.mkdtemp()
        # The browser takes requests from file 3, and writes to file 4.
        self._process = subprocess.Popen(
            ['sh', '-c', f'exec "$@" 3<&{read} 4>&{write}', 'sh', BROWSER or '', *OPTIONS,
             f'--user-data-dir={self._folder}'], pass_fds=(read, write),
            stdout=subprocess.DEVNULL, stderr=subprocess.DEVNULL, start_new_session=True)
        os.close(read)
        os.close(write)
        self._replies = os.fdopen(self._read, 'rb')
        self._number = 0
        self._session: Optional[str] = None

    def show(self, address: str) -> None:
        """Shows the page at this address in a new tab."""
        self._session = None
        target = self.call('Target.createTarget', url=address)['targetId']
        self._session = self.call('Target.attachToTarget', targetId=target,
                                  flatten=True)['sessionId']

    def call(self, method: str, **values: object) -> Dict[str, Any]:
        """What a call of the protocol returns."""
        self._number += 1
        sent = {'id': self._number, 'method': method, 'params': values}
        if self._session is not None:
            sent['sessionId'] = self._session
        os.write(self._write, json.dumps(sent).encode() + b'\0')
        while True:
            reply = json.loads(self._message())
            if reply.get('id') == self._number:
                if 'error' in reply:
                    raise RuntimeError(f'{method}: {reply["error"]["message"]}')
                result = reply['result']
                assert isinstance(result, dict)
                return result

    def _message(self) -> bytes:
        parts = []
        while (byte := self._replies.read(1)) != b'\0':
            if not byte:
                raise RuntimeError('the browser has ended')
            parts.append(byte)
        return b''.join(parts)

    def value(self, expression: str) -> Any:
        """The value of an expression in the page."""
        return self.call('Runtime.evaluate', expression=expression, awaitPromise=True,
                         returnByValue=True)['result'].get('value')

    def press(self, key: str, code: int, text: str = '', is_shifted: bool = False) -> None:
        """Presses a key."""
        for kind in ('keyDown', 'keyUp'):
            self.call('Input.dispatchKeyEvent', type=kind, key=key, code=key,
                      modifiers=SHIFT if is_shifted else 0, windowsVirtualKeyCode=code,
                      text=text if kind == 'keyDown' else '')

    def tab(self, times: int = 1) -> None:
        """Goes to the next element that the keyboard comes to."""
        for _ in range(times):
            self.press('Tab', 9)

    def enter(self, is_shifted: bool = False) -> None:
        """Presses the key Enter."""
        self.press('Enter', 13, '\r', is_shifted)

    def write(self, name: str, text: str) -> None:
        """Writes into a field, instead of what it holds."""
        self.value(f'document.getElementById("{name}").focus(); document.activeElement.select()')
        self.call('Input.insertText', text=text)

    def end(self) -> None:
        """Ends the browser with all its processes, some of which may still write to its folder."""
        os.killpg(self._process.pid, signal.SIGKILL)
        self._process.wait()
        self._replies.close()
        os.close(self._write)
        shutil.rmtree(self._folder, ignore_errors=True)


@unittest.skipIf(BROWSER is None, 'there is no chromium')
class InBrowser(WithServer):
    """Tests of the page in one browser."""

    browser: Browser

    @classmethod
    def setUpClass(cls) -> None:
        super().setUpClass()
        cls.browser = Browser()
        cls.addClassCleanup(cls.browser.end)

    def setUp(self) -> None:
        self.browser.show(f'http://127.0.0.1:{self.port}/')
        self.shows('summary', '3 matches')

    def text(self, name: str) -> str:
        """The text of an element."""
        return str(self.browser.value(f'document.getElementById("{name}")?.textContent'))

    def shows(self, name: str, wanted: str) -> None:
        """Waits until the last question is answered, and an element has this text."""
        self.has(f'document.getElementById("{name}")?.textContent', wanted)

    def open(self, fragment: str) -> None:
        """Opens the page with this fragment in a new tab."""
        self.browser.show(f'http://127.0.0.1:{self.port}/{fragment}')

    def has(self, expression: str, wanted: object) -> None:
        """Waits until the last question is answered, and an expression has this value."""
        last = time.monotonic() + SECONDS
        state = f'[document.getElementById("results")?.ariaBusy, {expression}]'
        while (value := self.browser.value(state)) != ['false', wanted]:
            self.assertLess(time.monotonic(), last, f'{state} is {value!r}, not {wanted!r}, and '
                            f'what is refused is {self.text("refusal")!r}')
            time.sleep(0.02)

    def holds(self, name: str) -> object:
        """What a field holds."""
        return self.browser.value(f'document.getElementById("{name}")?.value')

    def focused(self) -> object:
        """What has the focus: the identifier of the element, or else its text."""
        return self.browser.value('document.activeElement.id || document.activeElement.innerText')

    def marked(self, name: str) -> object:
        """The texts of the marks of a kind."""
        return self.browser.value(
            f'[...document.querySelectorAll("#marks .{name}")].map((mark) => mark.textContent)')
