-- Replacements and escapes.
\ir want.sql

SELECT pg_temp.want('a template', regex_lite_replace('ada lovelace', '(\w+) (?<last>\w+)',
                                                     '$last, $1$$'), 'lovelace, ada$');
SELECT pg_temp.want('braces', regex_lite_replace('ab', '(a)', '${1}b'), 'abb');
SELECT pg_temp.want('no match', regex_lite_replace('abc', 'x', 'y'), 'abc');
SELECT pg_temp.want('null', regex_lite_replace('abc', 'x', NULL), NULL);
SELECT pg_temp.want('an empty text', regex_lite_replace('', '^', 'a'), 'a');
SELECT pg_temp.want('limit ' || most, regex_lite_replace('a.b.c.d', '\.', '-', most),
                    CASE most WHEN 0 THEN 'a-b-c-d' WHEN 1 THEN 'a-b.c.d' WHEN 2 THEN 'a-b-c.d'
                    ELSE 'a-b-c-d' END) FROM generate_series(0, 4) AS most;

-- The server's own function as the judge.
CREATE TEMP TABLE texts AS
    SELECT 'été, ' || repeat('číslo ' || number || '; ', number % 50) || md5(number::text)
        AS string FROM generate_series(0, 300) AS number;
SELECT pg_temp.want('replace ' || pattern, regex_lite_replace(string, pattern, new),
                    regexp_replace(string, pattern, theirs, 'g'))
    FROM texts, (VALUES ('[0-9]+', '<>', '<>'), ('(č)([^ ]+)', '$2$1', '\2\1'), ('é', '', ''),
                        ('; ', '$0$0', '\&\&'), ('x', 'y', 'y'), ('$', '!', '!'),
                        ('[0-9a-f]', 'žlutý $0', 'žlutý \&')) AS row (pattern, new, theirs);

-- A text that grows to many times its length, and one that doesn't fit. Neither takes long.
SET statement_timeout = '20s';
SELECT pg_temp.want('growth', length(regex_lite_replace(
    repeat('a', 100000), 'a', repeat('b', 100))), 10000000);
SELECT pg_temp.want_error(
    $$SELECT regex_lite_replace(repeat('a', 100000), 'a', repeat('b', 100000))$$, '54000',
    'the new text would be too long',
    'It would have up to 10000000000 bytes, and at most 1073741819 are possible.');
SELECT pg_temp.want_error(
    $$SELECT regex_lite_replace(repeat('ab', 50000), '(a)b', repeat('$1', 20000))$$, '54000',
    'the new text would be too long',
    'It would have up to 4000100000 bytes, and at most 1073741819 are possible.');
SELECT pg_temp.want('a long template that counts once', length(regex_lite_replace(
    repeat('a', 100000) || 'b', 'b', repeat('${0}c', 100000))), 300000);
SELECT pg_temp.want('a limit makes it fit', length(regex_lite_replace(
    repeat('a', 100000), 'a', repeat('b', 100000), 2)), 299998);
RESET statement_timeout;

-- A pattern from a text matches that text alone, also where it has every ASCII character.
SELECT pg_temp.want('escape', regex_lite_escape('a.b*ž'), 'a\.b\*ž');
SELECT pg_temp.want('an empty escape', regex_lite_escape(''), '');
SELECT pg_temp.want('escaped ' || code, regex_lite_find('ab' || chr(code) || 'cd',
                                                       regex_lite_escape(chr(code))), chr(code))
    FROM generate_series(1, 1000) AS code WHERE code NOT BETWEEN 97 AND 100;
SELECT pg_temp.want('a long escape', length(regex_lite_escape(repeat('.', 100000))), 200000);
