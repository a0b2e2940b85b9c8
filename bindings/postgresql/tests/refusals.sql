-- What is refused, and the place of the fault, in characters from 1 on.
\ir want.sql

CREATE FUNCTION pg_temp.want_fault(pattern text, message text, detail text) RETURNS void
LANGUAGE sql AS $$
    SELECT pg_temp.want_error(format('SELECT %L =~ %L', 'x', pattern), '2201B',
                              'invalid pattern: ' || message, detail)
$$;

-- The spans are those that docs/DECISIONS.md explains, behind characters of more than one byte.
SELECT pg_temp.want_fault('žž[b-a]', 'invalid range in character class',
    'The fault is at characters 3 to 6 of the pattern: "[b-a".');
SELECT pg_temp.want_fault('é\b{foo}', 'special word boundary assertion is unrecognized',
    'The fault is at characters 2 to 5 of the pattern: "\b{f".');
SELECT pg_temp.want_fault('éa(b', 'found open group without closing '')''',
    'The pattern ends within what begins at character 3.');
SELECT pg_temp.want_fault('a{5,3', 'found counted repetition with min and max that is unclosed',
    'The pattern ends within what begins at character 2.');
SELECT pg_temp.want_fault('*', 'uncounted repetition operator must be applied to a sub-expression',
    'The fault is at characters 1 to 1 of the pattern: "*".');
SELECT pg_temp.want_fault('(?<é>a)(?<é>b)', 'duplicate capture group name',
    'The fault is at characters 8 to 12 of the pattern: "(?<é>".');
-- Of a long fault the detail shows the first characters, and cuts none of them.
SELECT pg_temp.want_fault('[' || repeat('é', 100) || 'b-a]', 'invalid range in character class',
    'The fault is at characters 1 to 104 of the pattern: "[' || repeat('é', 29) ||
    '" and so on.');

-- Limits have no place.
SELECT pg_temp.want_fault('a{9999999}', 'compiled regex exceeded size limit', '');
SELECT pg_temp.want_fault(repeat('(', 60) || repeat(')', 60), 'pattern has too much nesting', '');

-- Each function refuses a pattern in the same way.
SELECT pg_temp.want_error(statement, '2201B',
    'invalid pattern: found closing '')'' without matching ''(''',
    'The fault is at characters 2 to 2 of the pattern: ")".')
    FROM unnest(ARRAY[
        $$SELECT 'x' !=~ 'x)'$$, $$SELECT regex_lite_is_match('x', 'x)')$$,
        $$SELECT regex_lite_is_no_match('x', 'x)')$$, $$SELECT regex_lite_find('x', 'x)')$$,
        $$SELECT regex_lite_find('x', 'x)', 1)$$, $$SELECT regex_lite_capture('x', 'x)', 0)$$,
        $$SELECT regex_lite_capture('x', 'x)', 'a')$$, $$SELECT regex_lite_replace('x', 'x)', '')$$,
        $$SELECT regex_lite_replace('x', 'x)', '', 1)$$,
        $$SELECT * FROM regex_lite_matches('x', 'x)')$$, $$SELECT regex_lite_matches('x', 'x)')$$,
        $$SELECT * FROM regex_lite_split('x', 'x)')$$]) AS statement;

-- Other arguments.
SELECT pg_temp.want_error($$SELECT regex_lite_find('x', 'x', 0)$$, '22023',
    'a start has to be at least 1, and is 0');
SELECT pg_temp.want_error($$SELECT regex_lite_find('x', 'x', -5)$$, '22023',
    'a start has to be at least 1, and is -5');
SELECT pg_temp.want_error($$SELECT regex_lite_capture('x', '(x)', 2)$$, '22023',
    'the pattern has no group 2', 'Its last group is 1.');
SELECT pg_temp.want_error($$SELECT regex_lite_capture('y', '(x)', -1)$$, '22023',
    'the pattern has no group -1', 'Its last group is 1.');
SELECT pg_temp.want_error($$SELECT regex_lite_capture('y', '(?<a>x)', 'é')$$, '22023',
    'the pattern has no group with the name "é"');
SELECT pg_temp.want_error($$SELECT regex_lite_replace('x', 'x', 'y', -1)$$, '22023',
    'a limit has to be at least 0, and is -1');

-- A refusal leaves the session and what it has built as they were.
SELECT pg_temp.want('after refusals', 'x' =~ 'x', true);

-- The setting: a pattern that was built before it counts no longer, and once more after it.
SELECT pg_temp.want('before the limit', 'x' =~ 'x{1000}', false);
SET regex_lite.size_limit = '16kB';
SELECT pg_temp.want_fault('x{1000}', 'compiled regex exceeded size limit', '');
SELECT pg_temp.want('below the limit', 'x' =~ 'x{100}', false);
SELECT pg_temp.want('a rule of a table',
                    (SELECT bool_or('x' =~ pattern) FROM unnest(ARRAY['x{100}', 'x']) AS pattern),
                    true);
RESET regex_lite.size_limit;
SELECT pg_temp.want('without the limit', 'x' =~ 'x{1000}', false);

-- It is for administrators.
BEGIN;
CREATE ROLE stranger;
SET LOCAL ROLE stranger;
SELECT pg_temp.want('a stranger', 'x' =~ 'x', true);
SELECT pg_temp.want_error($$SET regex_lite.size_limit = '16MB'$$, '42501',
    'permission denied to set parameter "regex_lite.size_limit"');
ROLLBACK;
