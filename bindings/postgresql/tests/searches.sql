-- Searches for one match. What is wanted is what the server's own functions return, or what the
-- documentation says.
\ir want.sql

SELECT pg_temp.want('is_match', regex_lite_is_match('Mister Samwise', '(?i)\bsam'), true);
SELECT pg_temp.want('=~', 'Mister Samwise' =~ '\bsam', false);
SELECT pg_temp.want('!=~', 'Mister Samwise' !=~ '\bsam', true);
SELECT pg_temp.want('!=~ of a match', 'Mister Samwise' !=~ '\bSam', false);
SELECT pg_temp.want('is_no_match', regex_lite_is_no_match('abc', 'b'), false);
SELECT pg_temp.want('an empty pattern in an empty text', '' =~ '', true);
SELECT pg_temp.want('other types of strings', 'abc'::varchar =~ 'b' AND 'abc'::name =~ 'b', true);

-- Null arguments, and the lack of a match.
SELECT pg_temp.want('null text', NULL::text =~ 'a', NULL);
SELECT pg_temp.want('null pattern', 'a' =~ NULL, NULL);
SELECT pg_temp.want('find without a match', regex_lite_find('abc', 'x'), NULL);
SELECT pg_temp.want('find of an empty match', regex_lite_find('abc', 'x*'), '');
SELECT pg_temp.want('capture without a match', regex_lite_capture('abc', '(x)', 1), NULL);
SELECT pg_temp.want('a group without a part', regex_lite_capture('abc', '(x)?b', 1), NULL);
SELECT pg_temp.want('an empty group', regex_lite_capture('abc', '(x*)b', 1), '');

-- Starts count characters, from 1 on, as the server's own do.
SELECT pg_temp.want('find from ' || start, regex_lite_find('žluťoučký kůň', '\S+ň|ť.', start),
                    regexp_substr('žluťoučký kůň', '\S+ň|ť.', start))
    FROM generate_series(1, 15) AS start;
SELECT pg_temp.want('looks see the whole text', regex_lite_find('ab', '^b', 2), NULL);
SELECT pg_temp.want('the end', regex_lite_find('añ', '$', 3), '');
SELECT pg_temp.want('beyond the end', regex_lite_find('añ', '$', 4), NULL);
SELECT pg_temp.want('far beyond the end', regex_lite_find('añ', '$', 2147483647), NULL);
SELECT pg_temp.want('an empty text', regex_lite_find('', '$', 1), '');

-- Groups by number and by name.
SELECT pg_temp.want('group ' || number, regex_lite_capture('on 2026-11-30', '(\d+)-(\d+)', number),
                    regexp_substr('on 2026-11-30', '(\d+)-(\d+)', 1, 1, '', number))
    FROM generate_series(0, 2) AS number;
SELECT pg_temp.want('a name', regex_lite_capture('ada lovelace', '(?<first>\w+) (?P<last>\w+)',
                                                 'last'), 'lovelace');
SELECT pg_temp.want('a name beyond ASCII', regex_lite_capture('ab', '(?<größe>b)', 'größe'), 'b');
SELECT pg_temp.want('the number of a name', regex_lite_capture('ab', '(?<b>b)', 1), 'b');

-- Flags stand in the pattern.
SELECT pg_temp.want('flag ' || pattern, text =~ pattern, true)
    FROM (VALUES ('(?i)SAM', 'sam'), ('(?m)^b$', E'a\nb'), ('(?s)a.b', E'a\nb'),
                 ('(?x) a b # a comment', 'ab'), ('(?mR)^a$', E'a\r\nb')) AS row (pattern, text);
SELECT pg_temp.want('no flag ' || pattern, text =~ pattern, false)
    FROM (VALUES ('SAM', 'sam'), ('^b$', E'a\nb'), ('a.b', E'a\nb')) AS row (pattern, text);

-- The server's operator as the judge, where both read a pattern alike.
CREATE TEMP TABLE words AS
    SELECT md5(number::text) || CASE number % 4 WHEN 0 THEN 'äöü' WHEN 1 THEN '' ELSE ' 17 ms' END
        AS word FROM generate_series(1, 2000) AS number;
SELECT pg_temp.want(word || ' =~ ' || pattern, word =~ pattern, word ~ pattern)
    FROM words, unnest(ARRAY['^[0-9a-f]{3}', 'a[^b]+b', '(ab|cd|ef)+', '[0-9]{4}', 'ms$', 'äöü',
                             '^.{35}$', '(0|1|2){3,5}', 'ff|ee']) AS pattern;

-- The version is that of the library: the header's, and whether it was built without a proof.
SELECT pg_temp.want('version', regex_lite_version() ~ '^\d+\.\d+\.\d+(\+unproved)?$', true);
SELECT pg_temp.want('the version of the extension',
                    regexp_replace(regex_lite_version(), '\+.*', ''), extversion)
    FROM pg_extension WHERE extname = 'regex_lite';
