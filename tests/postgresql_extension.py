"""Tests of the extension for PostgreSQL, in a server of their own: scripts of SQL, answers beside
those of Python's `re` and of the server's own operator, a log of a million lines, hostile patterns,
cancelled queries, memory after many queries, and the program of its page."""

import json
import os
import re
import subprocess
import sys
import time
from collections.abc import Callable, Iterator, Sequence
from pathlib import Path

from c_library import TOP, Tests, exported
from shown import examples, wanted

FOLDER = TOP / 'bindings' / 'postgresql'
sys.path.insert(0, str(FOLDER / 'tests'))

import private_server  # noqa: E402
from private_server import Failure, Server  # noqa: E402

SHARED = 'want.sql'  # what the scripts include
NAMED = re.compile(r"'(sql_regex_lite_\w+)'")
NEEDED = {'Pg_magic_func', '_PG_init'}
CANCELLED = 'canceling statement due to '
QUERIES = 100_000
MOST_GROWTH = 2000  # kB that a backend may grow by in these: 20 bytes a query would be 2,000
# Python's re and the library read these alike.
PATTERNS = (r'\w+', r'[a-z]+(\d*)', '(?i)[K-P]+', '(a)|(b)|(ž)', 'q*', r'\b', '(?m)^.', '(?s)a.*b',
            r'[^\s,]+?(?P<last>[a-zé])', r'(\d)(\d)?(\d)?', 'é|žlu', '', '(?:a|ab)(?:c|bcd)(d*)',
            r'\A\S+', '[0-9a-f]{2,3}?')
TEXTS = ('', 'a', 'žluťoučký kůň, é!', 'Mister Samwise\n12 345\n', 'abcd abcde aab b', 'x xx xxx\n',
         '日本 abc 123\n\n456 𝒳y', 'ab' * 40 + ' ' + '0123456789' * 5)
# The rules of a log: ours, and how the server's own operator writes the same.
RULES = ('ERROR', r'\bWARN\b', 'timeout', '(?i)failed|refused|denied', r'\b5\d\d\b',
         r'took \d{4,} ms', r'from 10\.\d+\.\d+\.\d+:\d+', 'user [a-z]+ logged',
         r'^\S+ ERROR \[net\]', r'key [a-z]+:\d+$', r'(?:GET|POST|PUT) /api/v\d/\S+',
         'panicked at')
LOG = r"""
CREATE UNLOGGED TABLE log (line text);
INSERT INTO log
    SELECT to_char(timestamp '2026-01-01' + n * interval '7 s', 'YYYY-MM-DD"T"HH24:MI') || ' '
        || (ARRAY['INFO', 'INFO', 'INFO', 'DEBUG', 'WARN', 'ERROR'])[1 + h % 6] || ' ['
        || (ARRAY['net', 'store', 'http', 'auth'])[1 + h / 6 % 4] || '] '
        || CASE h / 24 % 7
           WHEN 0 THEN format('connection from 10.%s.4.7:%s closed', h / 256 % 256, h % 60000)
           WHEN 1 THEN format('GET /api/v%s/word/%s %s took %s ms', h % 3, h % 9000,
                              (ARRAY[200, 204, 404, 503])[1 + h / 3 % 4], h % 2500)
           WHEN 2 THEN format('user sam logged in from 10.0.0.%s:22', h % 256)
           WHEN 3 THEN format('no entry for key word:%s', h % 10000)
           WHEN 4 THEN format('disk %s is %s%% full', chr(97 + h % 26), h % 100)
           WHEN 5 THEN 'timeout while waiting for 10.1.2.3'
           ELSE 'frodo was Refused by sam' END
    FROM generate_series(1, 1000000) AS n, LATERAL (SELECT hashint4(n) & 2147483647 AS h) AS hash;
CREATE TABLE rules (number integer, ours text, theirs text);
"""
PARALLEL = 'SET max_parallel_workers_per_gather = 4; SET parallel_setup_cost = 10;\n'
COUNTS = PARALLEL + r"""
SELECT number, sum((line =~ ours)::int), sum((line ~ theirs)::int)
    FROM log, rules GROUP BY number ORDER BY number;
"""
# The server's own operator takes seconds to build these, or more.
HOSTILE = ('(a?b?c?d?e?f?){0,200}', '((a?b?){0,20}){0,20}', '((a?b?c?){0,10}){0,50}',
           r'(\w?\d?){255}')
STATE = r"""
SELECT (regexp_match(pg_read_file('/proc/self/status'), 'VmRSS:\s+(\d+)'))[1];
SELECT sum(total_bytes) / 1024 FROM pg_backend_memory_contexts;
"""


def quoted(text: str) -> str:
    """A text as a literal of SQL."""
    return "'" + text.replace("'", "''") + "'"


def attempt(tests: Tests, name: str, test: Callable[[], str]) -> None:
    """Runs a test that returns what is wrong, or nothing."""
    try:
        said = test()
    except Failure as failure:
        said = str(failure)
    tests.note(f'{name}, in PostgreSQL', said == '', said)


def exports(server: Server) -> str:
    """The module exports what the server looks up, and no name of the library."""
    script, = FOLDER.glob('regex_lite--*.sql')
    functions = set(NAMED.findall(script.read_text(encoding='utf-8')))
    wanted_names = NEEDED | functions | {f'pg_finfo_{name}' for name in functions}
    found = exported(server.root / 'source' / 'regex_lite.so', '-D')
    return '' if found == wanted_names else f'exported, or missing: {found ^ wanted_names}'


def matches_by_re(pattern: str, text: str) -> list[list[object]]:
    """The rows of all matches, as Python finds them."""
    return [[number, match.start() + 1, match.end() + 1, match[0], list(match.groups())]
            for number, match in enumerate(re.finditer(pattern, text, re.ASCII), 1)]


def beside_re(server: Server) -> str:
    """All matches with their groups, and all replacements, are those of Python's re."""
    rows = [f'({quoted(pattern)}, {quoted(text)}, '
            f'{quoted(json.dumps(matches_by_re(pattern, text)))}::jsonb, '
            f"{quoted(re.sub(pattern, '<>', text, flags=re.ASCII))})"
            for pattern in PATTERNS for text in TEXTS]
    return server.query(f"""
        CREATE TEMP TABLE cases (pattern text, string text, rows jsonb, replaced text);
        INSERT INTO cases VALUES {', '.join(rows)};
        SELECT pattern, string, found, rows FROM cases, LATERAL (
            SELECT coalesce(jsonb_agg(jsonb_build_array(number, start, "end", text,
                                                        to_jsonb(groups)) ORDER BY number), '[]')
                AS found FROM regex_lite_matches(string, pattern)) AS own WHERE found <> rows;
        SELECT pattern, string, replaced FROM cases
            WHERE regex_lite_replace(string, pattern, '<>') <> replaced;""")


def million_lines(server: Server) -> str:
    """Twelve rules find as many lines of a million as they do by the server's own operator."""
    theirs = [rule.replace(r'\b', r'\y') for rule in RULES]
    rules = ', '.join(f'({number}, {quoted(ours)}, {quoted(other)})'
                      for number, (ours, other) in enumerate(zip(RULES, theirs)))
    server.query(f'{LOG}INSERT INTO rules VALUES {rules};\nANALYZE;')
    counts = [line.split('|') for line in server.query(COUNTS).splitlines()]
    found = [int(ours) for _, ours, _ in counts]
    is_so = (len(counts) == len(RULES) and all(ours == theirs for _, ours, theirs in counts)
             and sum(count > 0 for count in found) == len(RULES) - 1 and max(found) < 500_000)
    return '' if is_so else f'{counts}'


def workers(server: Server) -> str:
    """Several processes take part in a search through a table."""
    plan = server.query(f"""{PARALLEL} EXPLAIN (ANALYZE, TIMING OFF, COSTS OFF)
        SELECT count(*) FROM log WHERE line =~ 'ERROR' AND regex_lite_find(line, 'sam') IS NULL;""")
    is_so = 'Parallel Seq Scan' in plan and re.search(r'Workers Launched: [1-9]', plan)
    return '' if is_so else plan


def hostile(server: Server) -> str:
    """Patterns that stop the server's own operator are searched for at once."""
    for pattern in HOSTILE:
        server.query(f"""SET statement_timeout = '5s';
            SELECT count(*) FROM (SELECT line =~ {quoted(pattern)} FROM log LIMIT 1000) AS one;""")
        try:
            server.query(f"SET statement_timeout = '1s'; SELECT 'x' ~ {quoted(pattern)};")
            print(f'left out, as it stops no ~ of this server: {pattern}')
        except Failure as failure:
            if CANCELLED + 'statement timeout' not in str(failure):
                return str(failure)
    return ''


def after_a_timeout(server: Server) -> str:
    """A query over many rows ends at its timeout, as one over many matches does, and the session
    goes on."""
    for query in ('SELECT count(*) FROM log AS a, log AS b WHERE a.line =~ b.line',
                  r"SELECT count(*) FROM log, regex_lite_matches(repeat(line, 20000), '\w')",
                  "SELECT max(regex_lite_replace(a.line, 'o', b.line)) FROM log AS a, log AS b"):
        begun = time.monotonic()
        done = subprocess.run([*server.command(), '-v', 'ON_ERROR_STOP=0'], check=False, input=f"""
            SET statement_timeout = '500ms'; {query};
            RESET statement_timeout; SELECT 'sam' =~ 's';""", stdout=subprocess.PIPE,
                              stderr=subprocess.STDOUT, encoding='utf-8')
        took = time.monotonic() - begun
        if CANCELLED not in done.stdout or not done.stdout.endswith('t\n') or took > 10:
            return f'{query}, {took:.1f} s: {done.stdout}'
    return ''


def cancelled(server: Server) -> str:
    """A query over many rows is cancelled from another session."""
    query = 'SELECT count(*) FROM log AS a, log AS b WHERE a.line =~ b.line'
    running = subprocess.Popen([*server.command(), '-c', query], stdout=subprocess.DEVNULL,
                               stderr=subprocess.PIPE, encoding='utf-8')
    try:
        for _ in range(100):
            time.sleep(0.1)
            if server.query(f"""SELECT pg_cancel_backend(pid) FROM pg_stat_activity
                    WHERE query = {quoted(query)} AND backend_type = 'client backend';
                    """) == 't\n':
                break
        _, said = running.communicate(timeout=30)
    finally:
        running.kill()
    return '' if CANCELLED + 'user request' in said else said or 'not cancelled'


def other_encodings(server: Server) -> str:
    """Databases with another encoding are refused by each call that takes a text."""
    for encoding in ('LATIN1', 'SQL_ASCII'):
        name = encoding.lower()
        server.query(f"""CREATE DATABASE {name} TEMPLATE template0 ENCODING '{encoding}'
                         LOCALE 'C';""")
        server.query('CREATE EXTENSION regex_lite;', name)
        for call in ("is_match('a', 'b')", "is_no_match('a', 'b')", "find('a', 'b')",
                     "capture('a', 'b', 0)", "replace('a', 'b', 'c')", "matches('a', 'b')",
                     "split('a', 'b')", "escape('a')"):
            try:
                return f'{encoding}, {call}: ' + server.query(
                    f'\\set VERBOSITY verbose\nSELECT regex_lite_{call};', name)
            except Failure as failure:
                if '0A000: regex_lite needs a database whose encoding is UTF8' not in str(failure):
                    return str(failure)
    return ''


def queries(count: int) -> Iterator[str]:
    """Queries of all kinds: with many patterns, refused ones, walks that end early, and groups."""
    text = "repeat('ab 12 ', 30)"
    kinds: Sequence[Callable[[int], str]] = (
        lambda n: f"SELECT {text} =~ '({n})\\d';",
        lambda n: f"SELECT count(*) FROM regex_lite_matches({text}, '(a)(b) {n % 7}?');",
        lambda n: f"SELECT regex_lite_matches({text}, '\\w+ {n}?') LIMIT 1;",
        lambda n: f"SELECT regex_lite_replace({text}, '{n % 10}', 'a$0');",
        lambda n: f"SELECT {text} =~ '({n}';",
        lambda n: f"SELECT regex_lite_capture({text}, '(?<a>{n % 100})', 'b');",
        lambda n: f"SELECT regex_lite_split({text}, '{n % 20}') LIMIT 2;",
        lambda n: f"SELECT 1 / length(substr((regex_lite_split({text}, 'a')).text, 9, 0));",
        lambda n: f"SELECT regex_lite_escape({text} || {n});",
        lambda n: f"SELECT regex_lite_capture({text}, '([a-z]+) ({n % 50})', 2);")
    for number in range(count):
        yield kinds[number % len(kinds)](number)


def memory(server: Server) -> str:
    """A backend is as large after many queries as it was once its cache was full."""
    first, then = '\n'.join(queries(QUERIES // 4)), '\n'.join(queries(QUERIES))
    script = f'\\o {os.devnull}\n{first}\n\\o\n{STATE}\\o {os.devnull}\n{then}\n\\o\n{STATE}'
    done = subprocess.run([*server.command(), '-v', 'ON_ERROR_STOP=0'], check=False, input=script,
                          stdout=subprocess.PIPE, stderr=subprocess.PIPE, encoding='utf-8')
    numbers = [float(line) for line in done.stdout.split()]
    if len(numbers) != 4:
        return done.stdout + done.stderr[-2000:]
    grown = numbers[2] - numbers[0], numbers[3] - numbers[1]
    errors = done.stderr.count('ERROR:')
    is_so = max(grown) < MOST_GROWTH and errors > QUERIES // 10
    return '' if is_so else f'grown by {grown} kB of {numbers}, after {errors} errors'


def page(tests: Tests, server: Server) -> None:
    """The lines of the page that build and install the extension, and its program."""
    text = (FOLDER / 'README.md').read_text(encoding='utf-8')
    lines, = examples(text, 'sh')
    tests.run('the lines of the page on PostgreSQL', ['sh', '-euc', lines],
              cwd=server.root / 'source',
              env={**os.environ, 'FOLDER': str(tests.built),
                   'PG_CONFIG': str(server.own / 'pg_config')})
    program, = examples(text, 'sql')
    file = tests.scratch / 'rules.sql'
    file.write_text(program, encoding='utf-8')
    server.query('CREATE DATABASE page;')
    tests.run('the program of the page on PostgreSQL',
              [server.folder / 'psql', '-Xq', '-v', 'ON_ERROR_STOP=1', '-h', server.root / 'socket',
               '-U', 'postgres', '-d', 'page', '-f', file], wanted(text))


def scripts(tests: Tests, server: Server) -> None:
    """The scripts beside the extension."""
    for script in sorted((FOLDER / 'tests').glob('*.sql')):
        if script.name != SHARED:
            tests.run(f'{script.name} of PostgreSQL', [*server.command(), '-f', script])


def run_all(tests: Tests) -> None:
    """Runs all of these tests."""
    folder = private_server.programs()
    if folder is None:
        print('left out, as there is no PostgreSQL server with its files for extensions: the tests '
              'of the extension for it')
        return
    if not tests.has('make', 'the tests of the extension for PostgreSQL'):
        return
    try:
        with Server(folder, tests.built) as server:
            scripts(tests, server)
            for name, test in (('names of the module', exports), ('matches beside re', beside_re),
                               ('a million lines', million_lines), ('workers', workers),
                               ('hostile patterns', hostile), ('timeouts', after_a_timeout),
                               ('a cancelled query', cancelled), ('encodings', other_encodings),
                               ('memory', memory)):
                attempt(tests, name, lambda test=test: test(server))  # type: ignore[misc]
            page(tests, server)
    except Failure as failure:
        tests.note('a server of PostgreSQL with the extension', False, str(failure))
