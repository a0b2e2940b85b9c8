"""That everything on the page has a name, is reached by keys, can be read, and keeps its place."""

import re
from typing import Any, Dict, List, Tuple

from page.tests.browser import InBrowser

# The roles and the names of what the keyboard comes to, in its order, with two patterns.
NAMED = [
    ('button', 'Copy link'), ('button', 'Remove pattern 0'), ('textbox', 'Pattern 0'),
    ('button', 'Remove pattern 1'), ('textbox', 'Pattern 1'), ('button', 'Add a pattern'),
    ('checkbox', 'i either case'), ('checkbox', 'm lines'), ('checkbox', 's dot matches all'),
    ('checkbox', 'R CRLF'), ('checkbox', 'U swap greed'), ('checkbox', 'x ignore white space'),
    ('textbox', 'nesting'), ('textbox', 'size'), ('textbox', 'Text'),
    ('button', 'To row 1 of the table'), ('region', 'Replaced text'), ('region', 'Matches'),
    ('button', 'Match 1: show it in the text'), ('region', 'In words'), ('radio', 'Rattle'),
    ('region', 'Code'), ('button', 'Copy code'), ('DisclosureTriangle', 'What a pattern and a replacement may hold')]
LIST = '#pattern=%5Ba-z%5D&pattern=%5B0-9%5D(x)%3F&text=ab12x'
# Each element with a text of its own that is seen: its colour, and the colours behind it.
COLOURS = """[...document.querySelectorAll('body *')].filter((element) => {
    const own = [...element.childNodes].some((node) => node.nodeType === 3 && node.data.trim());
    const isTyped = element.matches('textarea, input[type="text"]');
    return (own || isTyped) && !element.closest('#marks') && !element.closest(':disabled')
        && element.checkVisibility({ checkVisibilityCSS: true });
}).map((element) => {
    const behind = [];
    for (let at = element; at; at = at.parentElement) {
        behind.push(getComputedStyle(at).backgroundColor);
    }
    return [getComputedStyle(element).color, behind, element.outerHTML.slice(0, 80)];
})"""
# The colours of the marks under the text, and of the text.
MARKS = """[...document.querySelectorAll('#marks span')].map((mark) => [
    getComputedStyle(document.getElementById('text')).color,
    [getComputedStyle(mark).backgroundColor], mark.outerHTML])"""
PLACES = """[document.documentElement.scrollHeight, ...[...document.querySelectorAll(
    'h2, h3, label, legend, textarea, input, button, pre, .scroll, #explained, summary')].filter(
    (part) => !part.hidden && !part.closest('tbody')).map((part) => [
        part.id || part.className || part.innerText,
        Math.round(part.getBoundingClientRect().top + scrollY)])]"""
SIZES = ((1500, 1000), (860, 900), (360, 640))
LIST_OF_ALL_KINDS = ('(', 'a{2,1}', '[b-a]' * 60, '(?<a>.)' * 200, 'x{1000000000}', 'ü' * 300 + ')',
                     '', '.', 'é' * 3000, r'\d{4}')


def channels_of(colour: str) -> Tuple[List[float], float]:
    """The channels of a colour, and how much it covers."""
    *channels, = map(float, re.findall(r'[\d.]+', colour))
    return channels[:3], channels[3] if len(channels) > 3 else 1.0


def luminance(colour: str) -> float:
    """The relative luminance, as WCAG 2 defines it."""
    red, green, blue = (linear(channel / 255) for channel in channels_of(colour)[0])
    return 0.2126 * red + 0.7152 * green + 0.0722 * blue


def linear(part: float) -> float:
    """A channel of sRGB as light."""
    return part / 12.92 if part <= 0.04045 else float(((part + 0.055) / 1.055) ** 2.4)


def contrast(colour: str, behind: List[str]) -> float:
    """The contrast of a colour with the first of those behind it that covers all, by WCAG 2."""
    ground = next(own for own in behind if channels_of(own)[1] == 1)
    one, other = sorted((luminance(colour), luminance(ground)))
    return (other + 0.05) / (one + 0.05)


class Names(InBrowser):
    """Names and roles, as a browser tells them to a screen reader."""

    def nodes(self) -> List[Dict[str, Any]]:
        """What is told of all parts of the page."""
        self.browser.call('Accessibility.enable')
        nodes = self.browser.call('Accessibility.getFullAXTree')['nodes']
        self.browser.call('Accessibility.disable')
        return [node for node in nodes if not node['ignored']]

    def test_names_by_the_keys(self) -> None:
        self.open(LIST)
        self.shows('summary', '4 matches')
        self.browser.value('document.getElementById("text").focus()')
        self.browser.value('document.getElementById("text").setSelectionRange(0, 0)')
        self.browser.value('document.getElementById("link").focus()')
        met = []
        for _ in NAMED:
            met += [(node['role']['value'], node['name']['value']) for node in self.nodes()
                    if any(own['name'] == 'focused' and own['value']['value']
                           for own in node.get('properties', ()))
                    and node['role']['value'] != 'RootWebArea']
            self.browser.tab()
        self.assertEqual(met, NAMED)

    def test_roles(self) -> None:
        told = {(node['role']['value'], node.get('name', {}).get('value', ''))
                for node in self.nodes()}
        for wanted in (('main', ''), ('heading', 'Try a pattern'), ('heading', 'Matches'),
                       ('group', 'Flags'), ('group', 'Limits'), ('group', 'Language'),
                       ('columnheader', '1 year'), ('region', 'Syntax')):
            self.assertIn(wanted, told)
        self.assertEqual(self.browser.value('document.documentElement.lang'), 'en')
        for name, role in (('summary', 'status'), ('busy', 'status'), ('link-note', 'status'),
                           ('code-note', 'status'), ('refusal', 'alert')):
            self.assertEqual(self.browser.value(f'document.getElementById("{name}").role'), role)

    def test_references(self) -> None:
        self.open(LIST)
        self.shows('summary', '4 matches')
        names = self.browser.value('[...document.querySelectorAll("[id]")].map((e) => e.id)')
        self.assertEqual(len(names), len(set(names)))
        for attribute in ('aria-describedby', 'aria-labelledby', 'for'):
            used = self.browser.value(f'[...document.querySelectorAll("[{attribute}]")].map('
                                      f'(element) => element.getAttribute("{attribute}"))')
            self.assertTrue(used)
            self.assertLessEqual({name for one in used for name in one.split()}, set(names))
        order = '[...document.querySelectorAll("[tabindex]")].map((element) => element.tabIndex)'
        self.assertLessEqual(set(self.browser.value(order)), {0, -1})

    def test_sizes_of_what_is_pressed(self) -> None:
        self.open(LIST)
        self.shows('summary', '4 matches')
        sizes = self.browser.value("""[...document.querySelectorAll('button, summary, label')].map(
            (part) => [part.getBoundingClientRect().height, part.outerHTML])""")
        for height, markup in sizes:
            self.assertGreaterEqual(height, 24, markup)


class Contrast(InBrowser):
    """Colours of texts, and of what is behind them."""

    def expect_contrast(self, expression: str, least: int) -> None:
        """All of these texts can be read."""
        pairs = self.browser.value(expression)
        self.assertGreaterEqual(len(pairs), least)
        for colour, behind, markup in pairs:
            self.assertGreaterEqual(contrast(colour, behind), 4.5, markup)

    def test_texts(self) -> None:
        for scheme in ('light', 'dark'):
            self.open(f'{LIST}%20((')
            self.browser.call('Emulation.setEmulatedMedia', media='', features=[
                {'name': 'prefers-color-scheme', 'value': scheme}])
            self.shows('summary', '4 matches')
            self.browser.value('document.querySelector("details").open = true')
            self.browser.value('document.getElementById("text").focus()')
            self.expect_contrast(COLOURS, 200)
            self.expect_contrast(MARKS, 4)
            self.browser.write('pattern', '[b-a]')
            self.has('document.querySelectorAll("#fault mark").length', 1)
            self.expect_contrast(COLOURS, 200)

    def test_groups(self) -> None:
        for scheme in ('light', 'dark'):
            self.open('#pattern=(a)(b)(c)(d)(e)%7C%20&text=abcde%20%20')
            self.browser.call('Emulation.setEmulatedMedia', media='', features=[
                {'name': 'prefers-color-scheme', 'value': scheme}])
            self.shows('summary', '3 matches')
            self.expect_contrast(MARKS, 7)
            self.expect_contrast(COLOURS, 20)


class Places(InBrowser):
    """That nothing moves when an answer comes."""

    def places(self) -> object:
        """Where everything stands."""
        return self.browser.value(PLACES)

    def test_answers_move_nothing(self) -> None:
        for width, height in SIZES:
            self.open('#pattern=a&text=a&replacement=b')
            self.browser.call('Emulation.setDeviceMetricsOverride', width=width, height=height,
                              deviceScaleFactor=1, mobile=False)
            self.shows('summary', '1 match')
            before = self.places()
            for pattern in LIST_OF_ALL_KINDS:
                self.browser.write('pattern', pattern)
                self.settle()
                self.assertEqual(self.places(), before, (width, pattern))
            self.browser.write('pattern', '(.)')
            for text in ('', 'word ' * 20_000, 'a\nb', 'é' * 3000):
                self.browser.write('text', text)
                self.settle()
                self.assertEqual(self.places(), before, (width, text[:10]))

    def test_answers_to_lists_move_nothing(self) -> None:
        for width, height in SIZES:
            self.open(LIST)
            self.browser.call('Emulation.setDeviceMetricsOverride', width=width, height=height,
                              deviceScaleFactor=1, mobile=False)
            self.shows('summary', '4 matches')
            before = self.places()
            for pattern in LIST_OF_ALL_KINDS:
                self.browser.write('pattern-1', pattern)
                self.settle()
                self.assertEqual(self.places(), before, (width, pattern))

    def test_widths(self) -> None:
        for width, height in (*SIZES, (320, 480)):
            self.open(LIST)
            self.browser.call('Emulation.setDeviceMetricsOverride', width=width, height=height,
                              deviceScaleFactor=1, mobile=True)
            self.shows('summary', '4 matches')
            self.browser.value('document.querySelector("details").open = true')
            self.assertLessEqual(self.browser.value('document.documentElement.scrollWidth'), width)

    def settle(self) -> None:
        """Waits until what is shown is the answer to what stands in the fields."""
        self.has('document.querySelectorAll(".busy").length', 0)
