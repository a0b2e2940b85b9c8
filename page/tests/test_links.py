"""Links that hold what stands in the fields, in a browser."""

from typing import Dict, List
from urllib.parse import unquote

from page.tests.browser import InBrowser

LONG = 1_000_001  # characters, which no link holds
AWKWARD = 'a&b=c#d %41+"\'<é😀>\\ (x)*~!\n\t$1%'
# What the page says of a fragment that is no link of its own.
MALFORMED = (
    ('#x', 'a part of it has no known name'), ('#pattern', 'a part of it has no known name'),
    ('#pattern=a&other=b', 'a part of it has no known name'),
    ('#pattern=a&', 'a part of it has no known name'),
    ('#text=a', 'it has no pattern'), ('#pattern=a&text=b&text=c', 'it has two parts for text'),
    ('#pattern=%', 'a % in it begins no character'),
    ('#pattern=%zz', 'a % in it begins no character'),
    ('#pattern=a&text=%ff', 'a % in it begins no character'),
    ('#pattern=%ed%a0%80', 'a % in it begins no character'),
    ('#pattern=a&flags=iz', 'it has an unknown flag'),
    ('#pattern=a&nest_limit=-1', 'its nest_limit is no whole number up to 4294967295'),
    ('#pattern=a&nest_limit=4294967296', 'its nest_limit is no whole number up to 4294967295'),
    ('#pattern=a&size_limit=', 'its size_limit is no whole number up to 9007199254740991'),
    ('#pattern=a&size_limit=1e3', 'its size_limit is no whole number up to 9007199254740991'),
    ('#' + '&'.join(['pattern=a'] * 101), 'it has over 100 patterns'))


def parts_of(fragment: str) -> Dict[str, List[str]]:
    """The parts of a link, decoded."""
    parts: Dict[str, List[str]] = {}
    for part in fragment[1:].split('&'):
        name, _, value = part.partition('=')
        parts.setdefault(name, []).append(unquote(value, errors='strict'))
    return parts


class Links(InBrowser):
    """Links that are made, and that are taken."""

    def made(self) -> str:
        """The fragment of the link that the page makes."""
        self.browser.value('document.getElementById("link").click()')
        self.has('document.getElementById("link-note").textContent.startsWith("The link ")', True)
        return str(self.browser.value('location.hash'))

    def test_round_trips(self) -> None:
        for awkward in (AWKWARD, '', '#', '%', '&pattern=b', 'a\n\nb', '\u2028\u202e\0'):
            for name in ('pattern', 'text', 'replacement'):
                self.browser.write(name, awkward)
            fragment = self.made()
            self.assertRegex(fragment, r'\A#[-A-Za-z0-9._~%&=]*[0-9]\Z')
            self.assertEqual(parts_of(fragment), {
                'pattern': [awkward], 'text': [awkward], 'replacement': [awkward], 'flags': [''],
                'nest_limit': ['50'], 'size_limit': ['10485760']})
            self.open(fragment)
            for name in ('pattern', 'text', 'replacement'):
                self.has(f'document.getElementById("{name}").value', awkward)

    def test_all_fields(self) -> None:
        self.open('#pattern=A&pattern=b%2B&pattern=&flags=iU&nest_limit=7&size_limit=5000'
                  '&text=a%20bb%20%20&replacement=x')
        self.shows('summary', '5 matches')
        self.assertEqual([self.holds(name) for name in ('pattern', 'pattern-1', 'pattern-2')],
                         ['A', 'b+', ''])
        self.assertEqual([self.holds(name) for name in ('nest_limit', 'size_limit')], ['7', '5000'])
        self.assertEqual(self.browser.value(
            '[...document.querySelectorAll("[name=flag]:checked")].map((flag) => flag.value)'),
            ['i', 'U'])
        self.assertEqual(parts_of(self.made()), {
            'pattern': ['A', 'b+', ''], 'flags': ['iU'], 'nest_limit': ['7'], 'text': ['a bb  '],
            'size_limit': ['5000'], 'replacement': ['x']})

    def test_links_by_hand(self) -> None:
        self.open('#pattern=a+b&text=xaab+')
        self.shows('summary', '1 match')
        self.assertEqual((self.holds('pattern'), self.holds('text')), ('a+b', 'xaab+'))
        self.assertEqual((self.holds('replacement'), self.holds('nest_limit')), ('', '50'))
        self.assertEqual(self.text('link-note'), '')

    def test_malformed_links(self) -> None:
        for fragment, reason in MALFORMED:
            with self.subTest(fragment[:40]):
                self.open(fragment)
                self.shows('link-note', f'The link is ignored: {reason}.')
                self.shows('summary', '3 matches')
                self.assertEqual(self.holds('replacement'), '$month/$year')
        self.assertEqual(self.browser.value('document.getElementById("link-note").role'), 'status')
        self.browser.write('pattern', 'a')
        self.shows('link-note', '')

    def test_other_links_in_the_same_tab(self) -> None:
        self.browser.value('location.hash = "#pattern=e&text=eel"')
        self.shows('summary', '2 matches')
        self.browser.value('location.hash = "#nothing"')
        self.shows('link-note', 'The link is ignored: a part of it has no known name.')
        self.assertEqual(self.holds('text'), 'eel')
        self.browser.value('location.hash = "#pattern=l&text=eel"')
        self.shows('summary', '1 match')
        self.shows('link-note', '')

    def test_no_markup(self) -> None:
        self.open('#pattern=%3Cb%3E&text=%3Cb%3Ex%3C/b%3E&replacement=%3Ci%3E')
        self.shows('replaced', '<i>x</b>')
        self.assertEqual(self.browser.value('document.querySelectorAll("b, i").length'), 0)

    def test_what_makes_no_link(self) -> None:
        self.browser.write('text', 'a' * LONG)
        self.browser.value('document.getElementById("link").click()')
        self.shows('link-note', 'There is no link: it would have over 1,000,000 characters.')
        self.browser.write('text', 'a')
        self.browser.write('nest_limit', 'x')
        self.browser.value('document.getElementById("link").click()')
        self.shows('link-note', 'There is no link: a limit is no number.')
        self.browser.write('nest_limit', '50')
        self.browser.value('document.getElementById("text").value = "\\ud800"')
        self.browser.value('document.getElementById("link").click()')
        self.shows('link-note', 'There is no link: half of a character (a lone surrogate) stands in '
                   'a field.')
        self.assertEqual(self.browser.value('location.hash'), '')

    def test_copies(self) -> None:
        self.browser.call('Browser.grantPermissions',
                          permissions=['clipboardReadWrite', 'clipboardSanitizedWrite'])
        self.made()
        self.shows('link-note', 'The link was copied, and is in the address bar.')
        self.assertEqual(self.browser.value('navigator.clipboard.readText()'),
                         self.browser.value('location.href'))
        self.browser.call('Browser.resetPermissions')

    def test_nothing_is_sent_elsewhere(self) -> None:
        self.open('#pattern=secret&text=secret')
        self.shows('summary', '1 match')
        names = self.browser.value('performance.getEntriesByType("resource").map((e) => e.name)')
        own = f'http://127.0.0.1:{self.port}/'
        self.assertTrue(names)
        for name in names:
            self.assertTrue(name.startswith(own), name)
            self.assertNotIn('secret', name)
        self.assertEqual(self.browser.value('localStorage.length + sessionStorage.length'), 0)
