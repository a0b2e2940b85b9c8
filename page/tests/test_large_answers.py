"""The page in a browser while a search runs, and where there is much to show."""

import time
from typing import List, Tuple

from page.tests.browser import InBrowser
from page.tests.running import HOSTILE, below, searching

MOST_CELLS = 5_100  # groups, and the numbers of the matches
MOST_MILLISECONDS = 10_000  # for which the page may do nothing else, on a machine that is busy
# The longest time for which the page did nothing else since this was called.
WATCH = """longest = 0; watched = performance.now(); clearInterval(globalThis.watch);
    watch = setInterval(() => { const now = performance.now();
        longest = Math.max(longest, now - watched); watched = now; }, 10);"""


class Busy(InBrowser):
    """While a search runs."""

    def be_hostile(self) -> None:
        """Asks a question whose search runs until it is ended."""
        self.browser.write('text', HOSTILE['text'])
        self.browser.write('pattern', HOSTILE['patterns'][0])

    def is_busy(self) -> bool:
        """Whether the page shows that a search runs."""
        return self.text('busy').startswith('Searching …')

    def opacity(self, name: str) -> float:
        """How much of an element can be seen."""
        return float(self.browser.value(
            f'getComputedStyle(document.getElementById("{name}")).opacity'))

    def searching(self) -> List[int]:
        """The processes that search."""
        return searching(below(self.server.pid))

    def test_sign(self) -> None:
        self.assertFalse(self.is_busy())
        self.assertEqual(self.opacity('summary'), 1)
        self.be_hostile()
        self.wait(self.is_busy, 4, 'no search is shown to run')
        for name in ('summary', 'marks', 'replaced-part', 'matches-part', 'explained-part'):
            self.assertLess(self.opacity(name), 0.5)
        self.wait(lambda: 'more than 5 seconds' in self.text('refusal'), 20, 'there is no answer')
        self.assertFalse(self.is_busy())
        self.assertEqual(self.opacity('summary'), 1)

    def test_questions_out_of_date(self) -> None:
        self.be_hostile()
        self.wait(lambda: len(self.searching()) == 1, 10, 'no search began')
        begun = time.monotonic()
        self.browser.write('pattern', 'a+')
        self.shows('summary', '1 match, marked in the first 50,000 characters')
        self.assertLess(time.monotonic() - begun, 4)
        self.assertFalse(self.is_busy())
        self.assertEqual(self.searching(), [])

    def test_many_changes_at_once(self) -> None:
        self.browser.value('performance.clearResourceTimings()')
        self.browser.write('text', 'line\n' * 1000)  # as a thousand lines that are typed
        self.browser.write('pattern', 'line')
        self.shows('summary', '1,000 matches')
        sent = self.browser.value('performance.getEntriesByType("resource").length')
        self.assertLessEqual(sent, 10)

    def test_tabs_that_are_closed(self) -> None:
        self.be_hostile()
        self.wait(lambda: len(self.searching()) == 1, 10, 'no search began')
        self.browser.call('Page.navigate', url='about:blank')
        self.wait(lambda: not self.searching(), 4, 'the search was not ended')


class Large(InBrowser):
    """Where there is much to show."""

    def cells(self) -> Tuple[int, int]:
        """How many columns and cells the table has."""
        columns, cells = (int(self.browser.value(f'document.querySelectorAll("{kind}").length'))
                          for kind in ('#matches thead th', '#matches tbody :is(th, td)'))
        return columns, cells

    def test_many_groups(self) -> None:
        self.browser.write('text', 'a' * 5000)
        for groups in (300, 1000):
            self.browser.value(WATCH)
            self.browser.write('pattern', '()' * groups + 'a')
            self.shows('matches-note', f'The first 100 of {groups:,} groups are shown.')
            self.shows('summary', '5,000 matches, the first 49 are shown')
            columns, cells = self.cells()
            self.assertEqual(columns, 102)
            self.assertLessEqual(cells, MOST_CELLS)
            self.assertLess(self.browser.value('longest'), MOST_MILLISECONDS)
        self.browser.write('pattern', '(a)')
        self.shows('matches-note', '')
        self.shows('summary', '5,000 matches, the first 1,000 are shown')
        self.assertEqual(self.cells(), (3, 3000))

    def test_refusals_move_nothing(self) -> None:
        places = """[document.documentElement.scrollHeight,
            ...[...document.querySelectorAll('fieldset, label, #field, h2')].map(
                (part) => part.getBoundingClientRect().top)]"""
        before = self.browser.value(places)
        for pattern in ('(', 'a{2,1}', '[b-a]'):
            self.browser.write('pattern', pattern)
            self.shows('refusal', self.ask(pattern, '')['refusal'])
            self.assertEqual(self.browser.value(places), before)
