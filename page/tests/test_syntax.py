"""The cheat sheet, which has the tables of docs/SYNTAX.md."""

import re
import unittest
from html.parser import HTMLParser
from typing import List

from page.syntax import PAGE, cheat_sheet
from page.tests.browser import InBrowser


class Cells(HTMLParser):
    """The text of each cell of all tables."""

    def __init__(self) -> None:
        super().__init__()
        self.cells: List[str] = []
        self.is_in = False

    def handle_starttag(self, tag: str, attrs: object) -> None:
        if tag in ('th', 'td'):
            self.is_in = True
            self.cells.append('')

    def handle_endtag(self, tag: str) -> None:
        if tag in ('th', 'td'):
            self.is_in = False

    def handle_data(self, data: str) -> None:
        if self.is_in:
            self.cells[-1] += data


def cells_of_page() -> List[str]:
    """The cells of the tables of docs/SYNTAX.md, without the marks around code."""
    rows = [line for line in PAGE.read_text(encoding='utf-8').splitlines()
            if line.startswith('|') and set(line) - set('|- :')]
    held = '\ue000'  # stands for an escaped bar
    return [cell.strip().replace(held, '|').replace('`', '') for line in rows
            for cell in line.replace('\\|', held)[1:-1].split('|')]


class Sheet(unittest.TestCase):
    """The cheat sheet as HTML."""

    def test_cells(self) -> None:
        parser = Cells()
        parser.feed(cheat_sheet())
        self.assertEqual(parser.cells, cells_of_page())
        self.assertGreater(len(parser.cells), 100)

    def test_code(self) -> None:
        sheet = cheat_sheet()
        self.assertIn('<code>(?P&lt;name&gt;</code> alternatives <code>)</code>', sheet)
        self.assertIn(r'<code>\b{start-half}</code>', sheet)
        self.assertNotIn('`', sheet)
        self.assertEqual(set(re.findall('</?([a-z0-9]+)', sheet)),
                         {'section', 'h3', 'table', 'thead', 'tbody', 'tr', 'th', 'td', 'code'})


class Shown(InBrowser):
    """The cheat sheet in a browser."""

    def test_opened_by_keyboard(self) -> None:
        self.assertEqual(self.browser.value('document.querySelector("details").open'), False)
        self.browser.value('document.querySelector("summary").focus()')
        self.browser.enter()
        self.has('document.querySelector("details").open', True)
        cells = '[...document.querySelectorAll("#syntax :is(th, td)")].map((c) => c.textContent)'
        self.assertEqual(self.browser.value(cells), cells_of_page())
