"""What the server answers to requests of the page."""

import socket
import sys
import time
from http.client import HTTPConnection

from page.tests.running import WithServer, ended, started


SCRIPTS = ('page', 'code', 'fields', 'link', 'marks', 'table', 'words')


class Answers(WithServer):
    """What is shown of a question."""

    def test_groups(self) -> None:
        shown = self.ask(r'(?<day>\d+)\.(\d+)?', '24.12 on 3.', '$day')
        self.assertEqual(shown['names'], [[None, 'day', None]])
        self.assertEqual(shown['matches'], [[[0, 5], [0, 2], [3, 5]], [[9, 11], [9, 10], None]])
        self.assertEqual(shown['spans'], shown['matches'])
        self.assertEqual((shown['count'], shown['replaced']), (2, '24 on 3'))

    def test_offsets(self) -> None:
        shown = self.ask('b', 'ü😀b')
        self.assertEqual((shown['matches'], shown['spans']), ([[[3, 4]]], [[[6, 7]]]))

    def test_flags(self) -> None:
        self.assertEqual(self.ask('SAM', 'sam', flags='i')['count'], 1)
        self.assertEqual(self.ask('^b', 'a\nb', flags='m')['count'], 1)
        self.assertEqual(self.ask('a.b', 'a\nb', flags='s')['count'], 1)
        self.assertEqual(self.ask('a$', 'a\r\n', flags='mR')['count'], 1)
        self.assertEqual(self.ask('a+', 'aa', flags='U')['count'], 2)
        self.assertEqual(self.ask('a b # c', 'ab', flags='x')['count'], 1)

    def test_refused_patterns(self) -> None:
        self.assertEqual(list(self.ask('(' * 60 + ')' * 60, '')), ['refusal', 'number'])
        self.assertIn('surrogate', self.ask('a', '\ud800')['refusal'])
        self.assertIn('surrogate', self.ask('(\ud800', '')['refusal'])

    def test_places_of_faults(self) -> None:
        self.assertEqual(list(self.ask('(', '')), ['refusal', 'number', 'fault'])
        self.assertEqual(self.ask('ü😀[b', '')['fault'], [6, 3])
        for pattern, flags, start, end in (('sam(?:wise|[a-)', '', [11, 11], [15, 15]),
                                           ('ü😀[b-a]', '', [6, 3], [10, 7]),
                                           ('a # ) )', '', [4, 4], [5, 5]),
                                           ('a # )\n )', 'x', [7, 7], [8, 8])):
            answer = self.ask(pattern, '', flags=flags)
            self.assertEqual(list(answer), ['refusal', 'number', 'fault', 'fault_end'])
            self.assertEqual((answer['fault'], answer['fault_end']), (start, end))

    def test_many_matches(self) -> None:
        shown = self.ask('a', 'a' * 100_000, 'bb')
        self.assertEqual((len(shown['matches']), shown['count']), (1000, 100_000))
        self.assertEqual((len(shown['replaced']), shown['is_cut']), (50_000, True))
        self.assertIsNone(self.ask('a', 'a' * 100_000, '$0' * 500)['replaced'])

    def test_large_texts(self) -> None:
        self.assertEqual(self.ask('a', 'b' * ((2 << 20) - 200))['count'], 0)

    def test_many_groups(self) -> None:
        for groups, count in ((100, 1000), (300, 1000), (1000, 200), (20_000, 20)):
            shown = self.ask('()' * groups + 'a', 'a' * count, '$1')
            self.assertEqual((shown['groups'], shown['count']), (groups, count))
            self.assertEqual((len(shown['names'][0]), shown['replaced']), (101, ''))
            self.assertEqual({len(spans) for spans in shown['matches']}, {101})
            self.assertEqual(shown['matches'][1], [[1, 2], *[[1, 1]] * 100])
            self.assertLessEqual(len(shown['matches']) * 101, 5_000)

    def test_costs(self) -> None:
        shown = self.ask('(a*)*b', 'a' * 10_000)
        self.assertEqual(shown['count'], 0)
        self.assertEqual(shown['bound'], (shown['arrows'] + 1) * 10_001)
        self.assertLessEqual(shown['tried'], shown['bound'])

    def test_hostile_questions(self) -> None:
        begun = time.monotonic()
        shown = self.ask('(?:a{500}){400}[bc]', 'a' * 1_000_000)
        self.assertEqual(shown, {'refusal': 'the search takes more than 5 seconds'})
        self.assertLess(time.monotonic() - begun, 15)
        self.assertEqual(self.ask('a', 'a')['count'], 1)


class Files(WithServer):
    """The files of the page."""

    def test_files(self) -> None:
        for path, kind in (('/', 'text/html'), ('/page.css', 'text/css'),
                           *((f'/{name}.js', 'text/javascript') for name in SCRIPTS)):
            status, _, headers = self.send('GET', path)
            self.assertEqual((status, headers['content-type']), (200, f'{kind}; charset=utf-8'))
            self.assertIn("default-src 'none'", headers['content-security-policy'])

    def test_names_of_the_server(self) -> None:
        self.assertEqual(self.send('GET', '/', headers={'Host': f'localhost:{self.port}'})[0], 200)

    def test_the_port_that_is_left_out(self) -> None:
        try:
            socket.create_server(('127.0.0.1', 80)).close()
        except OSError as fault:
            self.skipTest(f'port 80 cannot be used: {fault.strerror}')
        server, port = started([sys.executable, '-m', 'page', '80'], self.log)
        self.addCleanup(ended, server)
        for name, value in (('A', 'a'), ('Host', '127.0.0.1:80'), ('Origin', 'http://localhost')):
            # A client leaves `:80` out where it isn't told otherwise.
            connection = HTTPConnection('127.0.0.1', port, timeout=10)
            connection.request('GET', '/', headers={name: value})
            self.assertEqual(connection.getresponse().status, 200)
            connection.close()
