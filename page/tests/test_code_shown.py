"""The code that the page shows, in a browser."""

from page.tests.browser import InBrowser
from page.tests.running import question

LANGUAGES = ('rattle', 'c', 'rust', 'python')
SHOWN = question(r'(?<year>\d{4})-(?<month>\d\d)', replacement='$month/$year',
                 text='Released in 2024-07, mended in 2025-01 and 2026-11.')


class Shown(InBrowser):
    """What stands under the heading of code."""

    def test_languages(self) -> None:
        code = self.answer(SHOWN)['code']
        self.assertEqual(sorted(code), sorted(LANGUAGES))
        self.shows('code', code['rattle'])
        self.browser.value('document.querySelector("[value=rattle]").focus()')
        for language in LANGUAGES[1:]:
            self.browser.press('ArrowDown', 40)
            self.shows('code', code[language])
        self.assertIn('Its offsets count characters.', self.text('code-note'))

    def test_what_is_typed(self) -> None:
        self.browser.value('document.querySelector("[value=python]").click()')
        self.browser.write('pattern', '<b>"\\d"')
        self.browser.write('text', "'<i>")
        code = self.answer(question('<b>"\\d"', text="'<i>", replacement='$month/$year'))['code']
        self.shows('code', code['python'])
        self.assertEqual(self.browser.value('document.querySelectorAll("b, i").length'), 0)

    def test_copies(self) -> None:
        self.browser.call('Browser.grantPermissions',
                          permissions=['clipboardReadWrite', 'clipboardSanitizedWrite'])
        self.browser.value('document.querySelector("[value=c]").click()')
        self.browser.value('document.getElementById("copy").click()')
        self.shows('code-note', 'The code was copied.')
        self.assertEqual(self.browser.value('navigator.clipboard.readText()'),
                         self.answer(SHOWN)['code']['c'])
        self.browser.call('Browser.resetPermissions')

    def test_what_has_no_code(self) -> None:
        copy = 'document.getElementById("copy").disabled'
        self.browser.write('pattern', 'é' * 2001)
        self.shows('code-note', 'The patterns or the replacement are too long for code.')
        self.assertEqual((self.text('code'), self.browser.value(copy)), ('', True))
        self.browser.value('document.querySelector("[value=c]").click()')
        self.assertEqual(self.text('code'), '')
        self.browser.write('pattern', '(')
        self.shows('code-note', 'There is no code without an answer.')
        self.browser.write('pattern', 'a')
        self.has(copy, False)
