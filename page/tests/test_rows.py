"""The ways from a row of the table to the text, and back, in a browser."""

from page.tests.browser import InBrowser

SELECTED = """(() => { const area = document.getElementById('text');
    return area.value.slice(area.selectionStart, area.selectionEnd); })()"""
CURRENT = '[...document.querySelectorAll("#matches .current")].map((row) => row.sectionRowIndex)'
TABBED = """[...document.querySelectorAll('#matches button')].filter(
    (button) => button.tabIndex === 0).map((button) => button.textContent)"""
# Whether the selected part of the text, of which there is a mark, is seen in the field.
IS_SEEN = """(() => { const area = document.getElementById('text').getBoundingClientRect();
    const mark = [...document.querySelectorAll('#marks span')].find(
        (mark) => mark.textContent === 'here').getBoundingClientRect();
    return area.top < mark.top && mark.bottom < area.bottom && mark.height > 0; })()"""


class Rows(InBrowser):
    """From a row to the text, and back."""

    def click_row(self, number: int) -> None:
        """Clicks on the number of a match."""
        self.browser.value(f'document.querySelectorAll("#matches button")[{number - 1}].click()')

    def put_caret(self, at: int) -> None:
        """Puts the caret into the text."""
        self.browser.value(f'document.getElementById("text").setSelectionRange({at}, {at})')

    def test_to_the_text(self) -> None:
        for number, year in ((2, '2025-01'), (3, '2026-11'), (1, '2024-07')):
            self.click_row(number)
            self.assertEqual((self.focused(), self.browser.value(SELECTED)), ('text', year))
            self.has(CURRENT, [number - 1])

    def test_to_a_row(self) -> None:
        self.assertEqual(self.browser.value(CURRENT), [])
        self.browser.value('document.getElementById("text").focus()')
        row = 'getComputedStyle(document.getElementById("to-row")).visibility'
        # The second match is from 31 to 38.
        for at, index in ((30, None), (31, 1), (35, 1), (38, 1), (39, None), (45, 2), (0, None)):
            self.put_caret(at)
            self.has(CURRENT, [] if index is None else [index])
            self.has(row, 'hidden' if index is None else 'visible')
        self.put_caret(44)
        self.shows('to-row', 'To row 3 of the table')
        self.browser.tab()
        self.assertEqual(self.focused(), 'to-row')
        self.browser.enter()
        self.assertEqual(self.focused(), '3')

    def test_keys(self) -> None:
        self.assertEqual(self.browser.value(TABBED), ['1'])
        self.browser.value('document.querySelector("#matches button").focus()')
        for key, code, number in (('ArrowDown', 40, '2'), ('ArrowDown', 40, '3'),
                                  ('ArrowDown', 40, '3'), ('ArrowUp', 38, '2'), ('Home', 36, '1'),
                                  ('ArrowUp', 38, '1'), ('End', 35, '3')):
            self.browser.press(key, code)
            self.assertEqual((self.focused(), self.browser.value(TABBED)), (number, [number]))
        self.browser.enter()
        self.assertEqual((self.focused(), self.browser.value(SELECTED)), ('text', '2026-11'))

    def test_neighbours(self) -> None:
        self.browser.write('text', 'ab')
        self.browser.write('pattern', '[a-z]')
        self.shows('summary', '2 matches')
        self.browser.value('document.getElementById("text").focus()')
        for at, index in ((0, 0), (1, 1), (2, 1)):
            self.put_caret(at)
            self.has(CURRENT, [index])

    def test_other_texts(self) -> None:
        self.click_row(2)
        self.has(CURRENT, [1])
        self.browser.write('text', 'none')
        self.shows('summary', '0 matches')
        self.assertEqual((self.browser.value(CURRENT), self.browser.value(TABBED)), ([], []))

    def test_units(self) -> None:
        self.browser.write('text', '😀ü😀 here')
        self.browser.write('pattern', 'here')
        self.shows('summary', '1 match')
        self.click_row(1)
        self.assertEqual(self.browser.value(SELECTED), 'here')

    def test_long_texts(self) -> None:
        for before in ('line\n' * 500, 'word ' * 3_000):
            self.browser.write('pattern', 'none')
            self.browser.write('text', f'{before}here{before}')
            self.shows('summary', '0 matches')
            self.browser.write('pattern', 'here')
            self.shows('summary', '1 match')
            self.click_row(1)
            self.has(IS_SEEN, True)
        # No match is marked here.
        self.browser.write('text', f'{"line " * 100_000}here')
        self.shows('summary', '1 match, marked in the first 50,000 characters')
        self.click_row(1)
        self.assertEqual(self.browser.value(SELECTED), 'here')
        bottom = """(() => { const area = document.getElementById('text');
            return area.scrollTop + 2 * area.clientHeight > area.scrollHeight; })()"""
        self.has(bottom, True)

    def test_rows_far_below(self) -> None:
        self.browser.write('text', 'a' * 1000)
        self.browser.write('pattern', 'a')
        self.shows('summary', '1,000 matches')
        self.browser.value('document.getElementById("text").focus()')
        height = self.browser.value('document.documentElement.scrollTop')
        self.put_caret(900)
        self.has(CURRENT, [900])
        self.has("""(() => { const row = document.querySelector('.current').getBoundingClientRect();
            const table = document.querySelector('.scroll').getBoundingClientRect();
            return table.top <= row.top && row.bottom <= table.bottom; })()""", True)
        self.assertEqual(self.browser.value('document.documentElement.scrollTop'), height)

    def test_lists(self) -> None:
        self.open('#pattern=a&pattern=b&text=cab')
        self.shows('summary', '2 matches')
        self.click_row(2)
        self.assertEqual(self.browser.value(SELECTED), 'b')
