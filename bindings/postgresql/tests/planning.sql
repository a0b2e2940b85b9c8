-- What the planner does with the functions and the operators.
\ir want.sql

-- Every function is what the documentation says, so that it may stand in an index and in a worker.
SELECT pg_temp.want('properties of ' || oid::regprocedure,
                    provolatile::text || proparallel::text || proisstrict::text,
                    CASE WHEN proname LIKE '%sel' THEN 's' ELSE 'i' END || 'strue')
    FROM pg_proc WHERE proname LIKE 'regex\_lite\_%';

CREATE TEMP TABLE lines AS
    SELECT number, md5(number::text) || CASE WHEN number % 10 < 3 THEN ' ERROR ' ELSE ' INFO ' END
                   || 'line ' || number AS line
    FROM generate_series(1, 20000) AS number;
CREATE FUNCTION pg_temp.expected_rows(statement text) RETURNS integer LANGUAGE sql AS $$
    SELECT substring(pg_temp.plan_of(statement) FROM 'rows=(\d+)')::integer
$$;

-- Without a sample, few rows are expected to match a pattern, and most not to.
SELECT pg_temp.want('few of =~', pg_temp.expected_rows(
    $$SELECT * FROM lines WHERE line =~ 'ERROR'$$) < 1000, true);
SELECT pg_temp.want('most of !=~', pg_temp.expected_rows(
    $$SELECT * FROM lines WHERE line !=~ 'ERROR'$$) > pg_temp.expected_rows(
    $$SELECT * FROM lines$$) * 0.9, true);
SELECT pg_temp.want('a join by !=~', pg_temp.expected_rows(
    $$SELECT * FROM lines AS a JOIN (VALUES ('a'), ('b')) AS b (pattern) ON line !=~ pattern$$)
    > pg_temp.expected_rows($$SELECT * FROM lines$$), true);

-- With a sample, the pattern is tried on it: 6,000 of these lines have an error.
ANALYZE lines;
SELECT pg_temp.want('a sample of =~', pg_temp.expected_rows(
    $$SELECT * FROM lines WHERE line =~ 'ERROR'$$) BETWEEN 3000 AND 9000, true);
SELECT pg_temp.want('a sample of !=~', pg_temp.expected_rows(
    $$SELECT * FROM lines WHERE line !=~ 'ERROR'$$) BETWEEN 11000 AND 17000, true);

-- NOT turns one operator into the other.
SELECT pg_temp.want('NOT', pg_temp.plan_of($$SELECT * FROM lines WHERE NOT line =~ 'ERROR'$$)
                           ~ 'Filter: \(line !=~ ''ERROR''', true);
SELECT pg_temp.want('NOT of the other', pg_temp.plan_of(
    $$SELECT * FROM lines WHERE NOT line !=~ 'ERROR'$$) ~ 'Filter: \(line =~ ''ERROR''', true);

-- Indexes, generated columns and constraints.
CREATE INDEX ON lines (number) WHERE line =~ 'ERROR';
CREATE INDEX by_hash ON lines (regex_lite_find(line, '^[0-9a-f]{32}'));
ANALYZE lines;
SELECT pg_temp.want('a partial index', pg_temp.plan_of(
    $$SELECT number FROM lines WHERE line =~ 'ERROR' AND number < 20$$) ~ 'Index', true);
SELECT pg_temp.want('an index of an expression', pg_temp.plan_of(format(
    $$SELECT * FROM lines WHERE regex_lite_find(line, '^[0-9a-f]{32}') = %L$$, md5('77')))
    ~ 'by_hash', true);
SELECT pg_temp.want('what it finds', number, 77)
    FROM lines WHERE regex_lite_find(line, '^[0-9a-f]{32}') = md5('77');
CREATE TEMP TABLE generated (
    line text CHECK (line !=~ '\s$'),
    level text GENERATED ALWAYS AS (regex_lite_capture(line, ' ([A-Z]+) ', 1)) STORED
);
INSERT INTO generated (line) SELECT line FROM lines WHERE number <= 100;
SELECT pg_temp.want('a generated column', count(*) FILTER (WHERE level = 'ERROR'), 30)
    FROM generated;
SELECT pg_temp.want_error($$INSERT INTO generated (line) VALUES ('a ')$$, '23514',
    'new row for relation "generated" violates check constraint "generated_line_check"',
    'Failing row contains (a , null).');
CREATE TEMP TABLE rules (pattern text CHECK (regex_lite_is_match('', pattern) IS NOT NULL));
INSERT INTO rules VALUES ('ERROR'), ('1\b');
SELECT pg_temp.want_error($$INSERT INTO rules VALUES ('a)')$$, '2201B',
    'invalid pattern: found closing '')'' without matching ''(''',
    'The fault is at characters 2 to 2 of the pattern: ")".');
SELECT pg_temp.want('rules of a table',
    (SELECT count(*) FROM lines JOIN rules ON line =~ pattern),
    (SELECT sum((line ~ 'ERROR')::int + (line ~ '1\y')::int) FROM lines));

-- A variable of PL/pgSQL keeps no pattern from the time before.
CREATE FUNCTION pg_temp.matched(patterns text[]) RETURNS text LANGUAGE plpgsql AS $$
DECLARE
    pattern text;
    matched text = '';
BEGIN
    FOREACH pattern IN ARRAY patterns LOOP
        matched := matched || (CASE WHEN 'line' =~ pattern THEN 'y' ELSE 'n' END);
    END LOOP;
    RETURN matched;
END $$;
SELECT pg_temp.want('a variable', pg_temp.matched('{a,i,n,o,line,lines,a,i}'), 'nyynynny');

-- More patterns than the cache holds, in turn, and again.
SELECT pg_temp.want('many patterns', count(*),
    2 * (SELECT count(*) FROM generate_series(1, 3000) AS n WHERE n::text LIKE '%7%'))
    FROM generate_series(1, 2) AS turn, generate_series(1, 3000) AS n
    WHERE n::text =~ ('7|' || n || '_');

-- Compiled expressions.
SET jit = on;
SET jit_above_cost = 0;
SET jit_inline_above_cost = 0;
SET jit_optimize_above_cost = 0;
SELECT pg_temp.want('compiled', (SELECT count(*) FROM lines WHERE line =~ 'ERROR' AND number > 0),
                    6000);
RESET jit;

-- The extension can be moved to another schema.
BEGIN;
CREATE SCHEMA elsewhere;
ALTER EXTENSION regex_lite SET SCHEMA elsewhere;
SELECT pg_temp.want('elsewhere', 'a' OPERATOR(elsewhere.=~) 'a', true);
ROLLBACK;
