"""Questions whose patterns and texts are awkward to write in a language."""

from __future__ import annotations

from typing import List

from page.questions import Question
from page.tests.running import question

CASES: List[Question] = [
    question(r'(?<year>\d{4})-(?<month>\d\d)', text='in 2024-07 and 2025-01', replacement='$month'),
    question(''), question('', text='é😀', replacement='-'),
    question('"|\'', text='"\'\'"', replacement='\'"'),
    question(r'"\'(x)?' + "'", text='a"\'\'x', replacement="'''\"\"\""),
    question(r'\\+(\w)?', text='a\\b\\\\c\\', replacement='\\'),
    question('\\\\', text='\\', replacement='\\\\1'),
    question('"#+(")?', text='"# "##"', replacement='r#"$0"#'),
    question('"' + '#' * 260, text='"' + '#' * 300, replacement='"' + '#' * 256),
    question('\n  (a) # "one"\n| b\n', flags='x', text='a\nb\r\nab\n', replacement='$1\n'),
    question('^b$', flags='mR', text='a\r\nb\r\n', replacement='\r'),
    question('(😀)|[é-ü]', text='é😀ü\u0301\u2028', replacement='$1→'),
    question('a??(b)', text='a??(b)??/??=aab??', replacement='??!'),
    question(r'[\x00-\x1f]+', text='a\0001\x0179\x7f8\t\x1bx', replacement='\x001'),
    question('\u202e|\u2066', text='a\u202eb\u2066c\ufeff', replacement='\u200b'),
    question(r'%s|\{\}|%', text='{} %s %% {0} {i}', replacement='%d{}{x}'),
    question('(SAM)+?', flags='iU', text='sam SaMsam', replacement='[$1]'),
    question('(?:(a.)b)', flags='s', nest_limit=3, size_limit=5000, text='a\nb', replacement='$1'),
    question('(a){0}(b)|c', text='bc', replacement='$1$2'),
    question('(a){0}b', text='b', replacement='[$0$1]'),
    question(r'(?<é_1>a)(?<_x.y[0]>b)?', text='aba', replacement='${é_1}${_x.y[0]}$é_1'),
    question('(a)(?<b>b)?', text='aba', replacement=r'$1a${1}a$b ${b}$$1 $x${x}${} $01 $2$3 $-$'),
    question('(a)', text='a', replacement=r'\1 \g<1> \n \\ $18446744073709551616 $00000000001 ${'),
    question('(a)', text='a', replacement='${' + '9' * 3000 + '}${\n}' + '$' + '0' * 500 + '1'),
    question(r'\d+', r'[a-z]+(x)?', text='a1 b22x cx'),
    question('"#"', "'(\\\\)?", '', '\n', 'é', text='"#"\'\\ é\n?'),
    question('a # "x\n', '??(b)'.replace('??', 'a??'), flags='ix', text='AAB a', nest_limit=9),
    question('(a)(b)(c)(d)(e)', '()' * 100, 'x', text='abcdex', size_limit=100_000),
    question('a', 'a', flags='R', text='aa'),
    question('a', flags='RU', nest_limit=0, size_limit=144, text='aa'),
    question('b', text='ab😀' * 3_000, replacement='-'),
    question('é', text='xxxé' * 2_500, replacement='$0'),
]
# Texts of these stand as literals in programs, which print them.
AWKWARD = '"\'\\#?\n\r\t\0 1{}%$n/é😀\u202e\x7f\u2028\ufeffx'
