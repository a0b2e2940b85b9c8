"""What the server answers to questions with several patterns, and with limits."""

from page.questions import MOST_NEST, MOST_SIZE
from page.tests.running import WithServer, question


class Lists(WithServer):
    """Several patterns. The matches are those that `RegexSet` and `Regex` of Rust lead to."""

    def test_numbers(self) -> None:
        shown = self.answer(question('if', '(?<word>[a-z]+)(x)?', '[0-9]+', text='iffy if 52'))
        self.assertEqual(shown['numbers'], [0, 1, 0, 2])
        self.assertEqual(shown['spans'], [[[0, 2]], [[2, 4], [2, 4], None], [[5, 7]], [[8, 10]]])
        self.assertEqual(shown['names'], [[None], [None, 'word', None], [None]])
        self.assertEqual((shown['groups'], shown['count'], shown['counts']), (2, 4, [2, 1, 1]))
        self.assertEqual(shown['matched'], [0, 1, 2])

    def test_patterns_that_never_come_first(self) -> None:
        shown = self.answer(question('[a-z]+', 'if', '[0-9]', text='if'))
        self.assertEqual((shown['counts'], shown['matched']), ([1, 0, 0], [0, 1]))
        self.assertEqual(shown['names'], [[None], [], []])

    def test_nothing_is_replaced(self) -> None:
        self.assertNotIn('replaced', self.answer(question('a', 'b', text='a', replacement='c')))
        self.assertEqual(self.answer(question('a', text='a', replacement='c'))['replaced'], 'c')

    def test_offsets(self) -> None:
        shown = self.answer(question('a', 'b', text='ü😀b'))
        self.assertEqual((shown['matches'], shown['spans']), ([[[3, 4]]], [[[6, 7]]]))

    def test_flags(self) -> None:
        shown = self.answer(question('^b', 'A', text='a\nb', flags='im'))
        self.assertEqual(shown['numbers'], [1, 0])

    def test_refused_patterns(self) -> None:
        shown = self.answer(question('a', 'ü[b-a]', 'ü[b-a]', text='a'))
        self.assertEqual((shown['number'], shown['fault'], shown['fault_end']),
                         (1, [2, 1], [6, 5]))
        self.assertIn('surrogate', self.answer(question('a', 'b', text='\ud800'))['refusal'])

    def test_many_matches(self) -> None:
        shown = self.answer(question('a', 'b', text='ab' * 50_000))
        self.assertEqual((len(shown['matches']), shown['count']), (1000, 100_000))
        self.assertEqual(shown['counts'], [50_000, 50_000])

    def test_many_groups(self) -> None:
        for groups in (100, 300, 20_000):
            shown = self.answer(question('b', '()' * groups + 'a', text='ab' * 500))
            self.assertEqual((shown['groups'], shown['count']), (groups, 1000))
            self.assertLessEqual(sum(map(len, shown['matches'])), 5_000)
            self.assertEqual({len(spans) for spans in shown['matches']}, {1, 101})

    def test_many_patterns(self) -> None:
        shown = self.answer(question(*(f'{i:02}' for i in range(100)), text='99 00'))
        self.assertEqual((shown['numbers'], sum(shown['counts'])), ([99, 0], 2))

    def test_costs(self) -> None:
        # Neither pattern needs a word, whose absence would end the search at once.
        shown = self.answer(question('(a*)*[bd]', '[ce]', text='a' * 1000))
        self.assertEqual(shown['bound'], (shown['arrows'] + 2) * 1001)
        self.assertLessEqual(shown['tried'], shown['bound'])
        self.assertGreater(shown['tried'], 1000)


class Limits(WithServer):
    """How deep a pattern may nest, and how large it may be."""

    def test_nesting(self) -> None:
        for patterns in (['((a))'], ['b', '((a))']):
            self.assertEqual(self.answer(question(*patterns, text='a', nest_limit=3))['count'], 1)
            refused = self.answer(question(*patterns, text='a', nest_limit=1))
            self.assertEqual(list(refused), ['refusal', 'number'])
            self.assertEqual(refused['number'], len(patterns) - 1)

    def test_sizes(self) -> None:
        # The size of this pattern is documented.
        self.assertEqual(self.answer(question('a{100}', size_limit=3312))['count'], 0)
        self.assertIn('size', self.answer(question('a{100}', size_limit=3311))['refusal'])

    def test_the_greatest(self) -> None:
        deep = question('(' * 500_000 + ')' * 500_000, nest_limit=MOST_NEST, size_limit=MOST_SIZE)
        large = question('a{4294967}{900}', nest_limit=MOST_NEST, size_limit=MOST_SIZE)
        for asked in (deep, large, question(*large['patterns'] * 2, size_limit=MOST_SIZE)):
            self.assertIn('refusal', self.answer(asked))
        self.assertEqual(self.ask('a', 'a')['count'], 1)
