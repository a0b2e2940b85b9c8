"""Several patterns, their lines and their limits, in a browser."""

from typing import List

from page.tests.browser import InBrowser

LABELS = '[...document.querySelectorAll(".pattern label")].map((label) => label.textContent)'
FOUND = '[...document.querySelectorAll(".found")].map((note) => note.textContent)'
INVALID = '[...document.querySelectorAll(".pattern textarea")].map((area) => area.ariaInvalid)'
COLOURS = """[...document.querySelectorAll(".pattern label")].map(
    (label) => getComputedStyle(label).backgroundColor)"""
MARKS = """[...document.querySelectorAll("#marks span")].map(
    (mark) => [mark.textContent, getComputedStyle(mark).backgroundColor])"""
ROWS = '[...document.querySelectorAll("#matches tr")].map((row) => row.innerText.split("\\t"))'


class Several(InBrowser):
    """Patterns that are added and removed."""

    def add(self, *patterns: str) -> None:
        """Adds patterns after those that are there."""
        for pattern in patterns:
            self.browser.value('document.getElementById("add").click()')
            self.browser.call('Input.insertText', text=pattern)

    def test_numbers(self) -> None:
        self.browser.write('text', 'width=72 if')
        self.browser.write('pattern', '(?<key>[a-z]+)=')
        self.add('[0-9]', 'wi', 'x')
        self.shows('summary', '3 matches')
        self.assertEqual(self.browser.value(LABELS), [f'Pattern {i}' for i in range(4)])
        self.assertEqual(self.browser.value(FOUND), ['1 match', '2 matches', 'within others',
                                                     'no match'])
        self.assertEqual(self.browser.value(ROWS), [
            ['#', 'pattern', 'match', '1'], ['1', '0', 'width= 0..6', 'width key 0..5'],
            ['2', '1', '7 6..7'], ['3', '1', '2 7..8']])

    def test_colours(self) -> None:
        self.browser.write('text', 'a12')
        self.browser.write('pattern', '[a-z]')
        self.add('[0-9]')
        self.shows('summary', '3 matches')
        letter, digit = self.browser.value(COLOURS)
        self.assertNotEqual(letter, digit)
        self.assertEqual(self.browser.value(MARKS), [['a', letter], ['1', digit], ['2', digit]])

    def test_keys(self) -> None:
        self.browser.tab()
        self.browser.enter()
        self.assertEqual(self.focused(), 'pattern-1')
        self.browser.call('Input.insertText', text='in')
        self.shows('summary', '5 matches')
        self.browser.press('Tab', 9, is_shifted=True)
        self.browser.press(' ', 32, ' ')
        self.assertEqual((self.browser.value(LABELS), self.focused()), (['Pattern'], 'pattern'))
        self.shows('summary', '3 matches')

    def test_no_match(self) -> None:
        self.browser.write('pattern', 'x')
        self.add('(y)')
        self.has(FOUND, ['no match', 'no match'])
        self.shows('summary', '0 matches')
        self.assertEqual(self.text('matches-note'), '')
        self.assertEqual(self.browser.value(ROWS), [['#', 'pattern', 'match']])

    def test_removing(self) -> None:
        self.add('in', 'and')
        self.shows('summary', '6 matches')
        self.shows('replaced-note', 'Several patterns replace nothing.')
        self.assertEqual((self.text('replaced'), self.browser.value(
            'document.getElementById("replacement").disabled')), ('', True))
        self.browser.value('document.querySelector(".remove").click()')
        self.assertEqual((self.holds('pattern'), self.holds('pattern-1')), ('in', 'and'))
        self.shows('summary', '3 matches')
        self.browser.value('document.querySelectorAll(".remove")[1].click()')
        self.shows('replaced', 'Released $month/$year 2024-07, mended $month/$year 2025-01 and '
                   '2026-11.'.replace('$month/$year', '/'))
        self.assertEqual(self.browser.value(FOUND), [''])
        self.assertTrue(self.browser.value('document.querySelector(".remove").hidden'))

    def test_refused_patterns(self) -> None:
        self.add('ü[b-a]', 'a')
        self.shows('refusal', f'Pattern 1: {self.ask("[b-a]", "")["refusal"]}')
        self.shows('fault', 'From offset 2 to 6: ü[b-a]')
        self.assertEqual(self.browser.value(INVALID), ['false', 'true', 'false'])
        self.browser.write('pattern-1', 'b')
        self.shows('refusal', '')
        self.assertEqual(self.browser.value(INVALID), ['false', 'false', 'false'])

    def test_most_patterns(self) -> None:
        self.open('#text=99&' + '&'.join(f'pattern={i:02}' for i in range(100)))
        self.shows('summary', '1 match')
        self.assertTrue(self.browser.value('document.getElementById("add").disabled'))
        self.assertEqual(self.text('found-99'), '1 match')
        self.browser.value('document.querySelector(".remove").click()')
        self.assertFalse(self.browser.value('document.getElementById("add").disabled'))

    def test_many_groups(self) -> None:
        self.browser.write('text', 'ab' * 5000)
        self.browser.write('pattern', '()' * 300 + 'a')
        self.add('b')
        self.shows('matches-note', 'The first 100 of 300 groups are shown.')
        self.shows('summary', '10,000 matches, the first 98 are shown')
        self.assertLessEqual(self.browser.value('document.querySelectorAll("#matches td").length'),
                             5_100)


class Lines(InBrowser):
    """Patterns of several lines."""

    def rows(self) -> List[int]:
        """How many lines the fields for a pattern and for a replacement show."""
        return [int(self.browser.value(f'document.getElementById("{name}").rows'))
                for name in ('pattern', 'replacement')]

    def test_lines(self) -> None:
        self.browser.write('text', 'ab')
        self.browser.write('pattern', 'a')
        self.browser.enter()
        self.assertEqual(self.holds('pattern'), 'a')
        self.browser.enter(is_shifted=True)
        self.browser.call('Input.insertText', text='b # both')
        self.assertEqual((self.holds('pattern'), self.rows()), ('a\nb # both', [2, 1]))
        self.shows('summary', '0 matches')
        self.browser.value('document.querySelector("[value=x]").click()')
        self.shows('summary', '1 match')

    def test_many_lines(self) -> None:
        self.browser.write('replacement', '\n' * 100)
        self.assertEqual(self.rows(), [1, 8])


class Limits(InBrowser):
    """The limits as fields."""

    def test_limits(self) -> None:
        self.browser.write('pattern', '((a{100}))')
        self.shows('summary', '0 matches')
        for name, value in (('nest_limit', '1'), ('size_limit', '3000')):
            self.browser.write(name, value)
            self.has('document.getElementById("pattern").ariaInvalid', 'true')
            self.browser.write(name, '4000000000')
            self.shows('summary', '0 matches')

    def test_what_is_no_limit(self) -> None:
        for name, value, said in (
                ('nest_limit', 'x', 'the limit of nesting is no whole number up to 4,294,967,295'),
                ('nest_limit', '', 'the limit of nesting is no whole number up to 4,294,967,295'),
                ('size_limit', '-1',
                 'the limit of size is no whole number up to 9,007,199,254,740,991'),
                ('size_limit', '9007199254740992',
                 'the limit of size is no whole number up to 9,007,199,254,740,991')):
            before = self.holds(name)
            self.browser.write(name, value)
            self.browser.value('document.getElementById("form").dispatchEvent(new Event("input"))')
            self.shows('refusal', said)
            invalid = f'document.getElementById("{name}").ariaInvalid'
            self.assertEqual(self.browser.value(invalid), 'true')
            self.browser.write(name, str(before))
            self.shows('summary', '3 matches')
            self.assertEqual(self.browser.value(invalid), 'false')
