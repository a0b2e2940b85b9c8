"""The functions that return one value."""

import sqlite3
import unittest
from typing import Any

from database import connect, value


class FunctionTest(unittest.TestCase):
    """A test with a connection."""

    connection: sqlite3.Connection

    def setUp(self) -> None:
        self.connection = connect()

    def tearDown(self) -> None:
        self.connection.close()

    def want(self, wanted: Any, expression: str, *values: Any) -> None:
        """Tests the value of an expression, and its type."""
        found = value(self.connection, expression, *values)
        self.assertEqual((type(found), found), (type(wanted), wanted), (expression, values))


class Matching(FunctionTest):
    """Whether there is a match."""

    def test_operator(self) -> None:
        """The operator REGEXP has the pattern on its right, and the function on its left."""
        self.want(1, "'Mister Samwise' REGEXP 'S.m'")
        self.want(0, "'S.m' REGEXP 'Mister Samwise'")
        self.want(0, "'Mister Samwise' NOT REGEXP 'S.m'")
        self.want(1, "regexp('S.m', 'Mister Samwise')")

    def test_function(self) -> None:
        """The function of the library has the text first."""
        self.want(1, "regex_lite_is_match('Mister Samwise', 'S.m')")
        self.want(0, "regex_lite_is_match('S.m', 'Mister Samwise')")
        self.want(1, "regex_lite_is_match('', '')")

    def test_flags(self) -> None:
        """Flags stand in the pattern."""
        self.want(0, "'SAM' REGEXP 'sam'")
        self.want(1, "'SAM' REGEXP '(?i)sam'")
        self.want(0, r"'a' || char(10) || 'b' REGEXP '^b$'")
        self.want(1, r"'a' || char(10) || 'b' REGEXP '(?m)^b$'")

    def test_other_types(self) -> None:
        """A number is searched as the text that SQL makes of it."""
        self.want(1, "1234 REGEXP '^12'")
        self.want(1, r"0.5 REGEXP '^0\.5$'")
        self.want(1, "'a1' REGEXP 1")


class Found(FunctionTest):
    """The text of the first match, and of a group in it."""

    def test_find(self) -> None:
        """The first match, from the start or from a character on."""
        self.want('Frodo', r"regex_lite_find('Frodo and Sam', '[A-Z]\w+')")
        self.want('Sam', r"regex_lite_find('Frodo and Sam', '[A-Z]\w+', 2)")
        self.want(None, r"regex_lite_find('frodo', '[A-Z]\w+')")
        self.want('', "regex_lite_find('frodo', 'x*')")

    def test_start(self) -> None:
        """The start is a character from 1 on, and what comes before it is seen."""
        self.want('é2', r"regex_lite_find('é1é2', 'é\d', 2)")
        self.want('é1', r"regex_lite_find('é1é2', 'é\d', 1)")
        self.want(None, "regex_lite_find('aa', '^a', 2)")
        self.want(None, r"regex_lite_find('xsam', '\bsam', 2)")
        self.want('', "regex_lite_find('é', '$', 2)")
        self.want(None, "regex_lite_find('é', '$', 3)")
        self.want(None, "regex_lite_find('', '', 2)")
        self.want(None, "regex_lite_find('a', 'a', ?)", 2 ** 63 - 1)

    def test_capture(self) -> None:
        """Groups have numbers and names; a group that took no part is null."""
        date = r"regex_lite_capture('due 2026-12-01', '(?<year>\d+)-(?P<month>\d+)', ?)"
        for group, text in ((0, '2026-12'), (1, '2026'), (2, '12'), ('year', '2026'),
                            ('month', '12'), ('1', '2026')):
            self.want(text, date, group)
        self.want(None, "regex_lite_capture('b', '(a)|b', 1)")
        self.want('', "regex_lite_capture('b', '(a*)b', 1)")
        self.want(None, "regex_lite_capture('c', '(a)|b', 1)")
        self.want(None, "regex_lite_capture('c', '(a)|b', 0)")


class NewTexts(FunctionTest):
    """Replacements, and texts as patterns."""

    def test_replace(self) -> None:
        """All matches are replaced, or as many as the limit says, of which 0 is none."""
        self.want('lovelace, ada', r"regex_lite_replace('ada lovelace', '(\w+) (\w+)', '$2, $1')")
        self.want('b.b.b', "regex_lite_replace('a.a.a', 'a', 'b')")
        self.want('b.b.a', "regex_lite_replace('a.a.a', 'a', 'b', 2)")
        self.want('b.b.b', "regex_lite_replace('a.a.a', 'a', 'b', 0)")
        self.want('a.a', "regex_lite_replace('a.a', 'x', 'b')")

    def test_template(self) -> None:
        """A template has the references that docs/SYNTAX.md lists."""
        for template, new in (('$n', 'ada'), ('${n}_x', 'ada_x'), ('$n_x', ''), ('$1x', ''),
                              ('${1}x', 'adax'), ('$$n', '$n'), ('$0!', 'ada!'), ('$', '$'),
                              ('$9', ''), (r'\1', r'\1')):
            self.want(new, r"regex_lite_replace('ada', '(?<n>\w+)', ?)", template)

    def test_long_results(self) -> None:
        """A result may be far longer than the text."""
        self.want('x' * 30000, "regex_lite_replace('aaa', 'a', ?)", 'x' * 10000)

    def test_escape(self) -> None:
        """Each character that means something gets a backslash, as docs/SYNTAX.md lists them."""
        self.want(r'\\\.\+\*\?\(\)\|\[\]\{\}\^\$\#\&\-\~', 'regex_lite_escape(?)',
                  r'\.+*?()|[]{}^$#&-~')
        self.want('Zoë_1 /', "regex_lite_escape('Zoë_1 /')")
        self.want('', "regex_lite_escape('')")
        self.want(1, "'a+b' REGEXP regex_lite_escape('a+b')")


class Bytes(FunctionTest):
    """Nulls of SQL, blobs, and texts with a NUL."""

    def test_null(self) -> None:
        """Where one argument is null, so is the result, whatever the others are."""
        for call, count in (('regexp', 2), ('regex_lite_is_match', 2), ('regex_lite_find', 2),
                            ('regex_lite_find', 3), ('regex_lite_capture', 3),
                            ('regex_lite_replace', 3), ('regex_lite_replace', 4),
                            ('regex_lite_escape', 1), ('regex_lite_size_limit', 1)):
            for null in range(count):
                arguments = ['(' if n != null else None for n in range(count)]
                marks = ', '.join('?' * count)
                self.want(None, f'{call}({marks})', *arguments)

    def test_blobs(self) -> None:
        """A blob is searched as the UTF-8 that it holds."""
        self.want(1, "x'616263' REGEXP '^abc$'")
        self.want(1, "'abc' REGEXP x'62'")
        self.want('é', "regex_lite_find(?, 'é|x')", 'aé'.encode())
        self.want('', "regex_lite_find(x'', '')")
        self.want('', "regex_lite_replace(x'', 'a', x'')")
        self.want('', "regex_lite_escape(x'')")
        self.want(1, "zeroblob(3) REGEXP '^\\x00{3}$'")

    def test_nul(self) -> None:
        """Texts have a length, and a NUL in them is a character."""
        self.want(1, "? REGEXP 'b$'", 'a\0b')
        self.want('\0b', "regex_lite_find(?, '[^a]+')", 'a\0b')
        self.want(1, "'a' REGEXP ?", 'a|\0')
        self.want(0, "'b' REGEXP ?", 'a\0|c')
        self.want('a\0\0b', "regex_lite_replace('acb', 'c', ?)", '\0\0')
        self.want('\0', 'regex_lite_escape(?)', '\0')


class Encodings(unittest.TestCase):
    """Databases that keep texts as UTF-16."""

    def test_utf16(self) -> None:
        """The functions return the same as in a database of UTF-8."""
        for encoding in ('UTF-16le', 'UTF-16be'):
            connection = connect()
            connection.execute(f"PRAGMA encoding = '{encoding}'")
            connection.execute('CREATE TABLE t(line, pattern)')
            connection.execute('INSERT INTO t VALUES (?, ?)', ('né 1😀', r'é (\d)(.)'))
            found = connection.execute(
                "SELECT line REGEXP pattern, regex_lite_find(line, pattern), number, start,"
                " groups ->> 2, regex_lite_replace(line, pattern, '<$2>'),"
                " x'c3a9' REGEXP '^é$' FROM t, regex_lite_matches(line, pattern)")
            self.assertEqual(list(found), [(1, 'é 1😀', 1, 2, '😀', 'n<😀>', 1)])
            connection.close()


class Version(FunctionTest):
    """Which library it is."""

    def test_version(self) -> None:
        """The version is that of the library."""
        self.assertRegex(value(self.connection, 'regex_lite_version()'),
                         r'^\d+\.\d+\.\d+(\+unproved)?$')


if __name__ == '__main__':
    unittest.main()
