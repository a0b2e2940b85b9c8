"""The page in a browser, which is driven as a person would drive it."""

import base64
import os
import time
import unittest

from page.tests.browser import SECONDS, InBrowser

PICTURE = os.environ.get('PAGE_PICTURE')


class Page(InBrowser):
    """What the page shows."""

    def test_typing(self) -> None:
        self.browser.write('pattern', r'\d{4}')
        self.shows('summary', '3 matches')
        self.browser.write('replacement', '<$0>')
        self.shows('replaced', 'Released in <2024>-07, mended in <2025>-01 and <2026>-11.')
        self.assertEqual((self.marked('match'), self.marked('other')), (['2024', '2026'], ['2025']))
        self.browser.write('text', 'from 1999')
        self.shows('summary', '1 match')
        self.assertEqual(self.marked('match'), ['1999'])
        self.assertEqual(self.text('matches'), '#match11999 5..9')

    def test_groups(self) -> None:
        self.assertEqual(self.marked('group1'), ['2024', '2025', '2026'])
        self.assertEqual(self.marked('group2'), ['07', '01', '11'])
        self.shows('replaced', 'Released in 07/2024, mended in 01/2025 and 11/2026.')
        head = self.browser.value('document.querySelector("#matches thead").innerText')
        self.assertEqual(head.strip().split('\t'), ['#', 'match', '1 year', '2 month'])

    def test_hostile_patterns(self) -> None:
        self.browser.write('text', 'a' * 10_000)
        self.browser.write('pattern', '(a*)*b')
        self.shows('summary', '0 matches')
        self.assertIn(' tries. The pattern has ', self.text('cost'))

    def test_refused_patterns(self) -> None:
        self.browser.write('pattern', '(')
        refusal = self.ask('(', '')['refusal']
        self.shows('refusal', refusal)
        self.assertEqual(self.browser.value('document.getElementById("pattern").ariaInvalid'),
                         'true')
        self.assertEqual((self.marked('match'), self.text('matches')), ([], ''))

    def test_places_of_faults(self) -> None:
        mark = 'document.querySelector("#fault mark")'
        for pattern, before, marked, after in (
                ('sam(?:wise|[a-)', 'From offset 11 to 15: sam(?:wise|', '[a-)', ''),
                ('ü😀(<b>[b-a]</b>', 'From offset 10 to 14: ü😀(<b>', '[b-a', ']</b>'),
                ('a' * 1000 + ')' * 102, f'From offset 1,000 to 1,001: …{"a" * 100}', ')',
                 f'{")" * 100}…'),
                (f'[c{"b" * 100}-a]', 'From offset 0 to 104: ', f'[c{"b" * 98}…', '')):
            self.browser.write('pattern', pattern)
            self.shows('fault', before + marked + after)
            self.assertEqual(self.browser.value(f'{mark}.textContent'), marked)
        self.assertEqual(self.browser.value('document.querySelectorAll("b").length'), 0)
        # The mark is one without colours, and for who hears the page too.
        self.assertEqual(self.browser.value(f'getComputedStyle({mark}).textDecorationLine'),
                         'underline')
        self.assertEqual(self.browser.value(f'getComputedStyle({mark}).textDecorationStyle'),
                         'wavy')
        self.assertIn('refusal fault', self.browser.value(
            'document.getElementById("pattern").getAttribute("aria-describedby")'))
        # One that is not finished is marked in another way.
        for pattern, before, marked in (
                ('ü😀(<b>', 'Not finished, from offset 6 on: ü😀', '(<b>'),
                ('(' + 'a' * 100, 'Not finished, from offset 0 on: ', f'({"a" * 99}…')):
            self.browser.write('pattern', pattern)
            self.shows('fault', before + marked)
            self.assertEqual(self.browser.value(f'{mark}.textContent'), marked)
            self.assertEqual(self.browser.value(f'getComputedStyle({mark}).textDecorationStyle'),
                             'dotted')
        self.browser.write('pattern', '(' * 60 + ')' * 60)
        self.shows('fault', '')
        self.assertNotEqual(self.text('refusal'), '')
        self.browser.write('pattern', 'a')
        self.shows('refusal', '')

    def test_no_markup(self) -> None:
        bold = '<b>x</b><script>document.title = "y"</script>'
        self.browser.write('text', bold)
        self.browser.write('replacement', '<i>$0</i>')
        self.browser.write('pattern', '(?<x><b>)(x)')
        self.shows('summary', '1 match')
        self.shows('replaced', f'<i><b>x</i>{bold[4:]}')
        self.assertEqual(self.browser.value('document.querySelectorAll("b, i").length'), 0)
        self.assertEqual(self.text('marks'), bold + '\n')
        self.assertEqual(self.browser.value('document.title'), 'Try a pattern: regex_lite')

    def test_keys(self) -> None:
        self.browser.write('text', 'SAM')
        self.browser.write('pattern', 'sam')
        self.shows('summary', '0 matches')
        for _ in range(2):  # to the button that adds a pattern, and to the first flag
            self.browser.press('Tab', 9)
        self.browser.press(' ', 32, ' ')
        self.shows('summary', '1 match')

    def test_long_texts(self) -> None:
        begun = time.monotonic()
        self.browser.write('text', 'word ' * 200_000)
        self.browser.write('pattern', r'\w+')
        self.shows('summary', '200,000 matches, the first 1,000 are shown, marked in the first '
                   '50,000 characters')
        self.assertLess(time.monotonic() - begun, SECONDS)

    def test_small_screens(self) -> None:
        self.browser.call('Emulation.setDeviceMetricsOverride', width=360, height=640,
                          deviceScaleFactor=2, mobile=True)
        self.assertLessEqual(self.browser.value('document.documentElement.scrollWidth'), 360)

    def test_dark_screens(self) -> None:
        colour = 'getComputedStyle(document.body).backgroundColor'
        seen = []
        for scheme in ('light', 'dark'):
            self.browser.call('Emulation.setEmulatedMedia', media='', features=[
                {'name': 'prefers-color-scheme', 'value': scheme}])
            seen.append(self.browser.value(colour))
        self.assertEqual(seen, ['rgb(253, 253, 251)', 'rgb(23, 25, 28)'])

    @unittest.skipIf(PICTURE is None, 'no picture is wanted')
    def test_picture(self) -> None:
        self.browser.call('Emulation.setDeviceMetricsOverride', width=1360, height=1000,
                          deviceScaleFactor=1, mobile=False)
        data = self.browser.call('Page.captureScreenshot', format='png')['data']
        with open(PICTURE or '', 'wb') as file:
            file.write(base64.b64decode(data))
