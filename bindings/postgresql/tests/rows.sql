-- All matches and all pieces, as rows.
\ir want.sql

CREATE FUNCTION pg_temp.matches(string text, pattern text) RETURNS text LANGUAGE sql AS $$
    SELECT string_agg(row::text, ' ' ORDER BY number)
        FROM regex_lite_matches(string, pattern) AS row
$$;

SELECT pg_temp.want('matches', pg_temp.matches('Mïster Samwise, or Sam', '(?i)\bsam(\w+)?'),
                    '(1,8,15,Samwise,{wise}) (2,20,23,Sam,{NULL})');
SELECT pg_temp.want('no groups', pg_temp.matches('a b', '\w'), '(1,1,2,a,{}) (2,3,4,b,{})');
SELECT pg_temp.want('empty matches', pg_temp.matches('ab', 'x*'),
                    '(1,1,1,"",{}) (2,2,2,"",{}) (3,3,3,"",{})');
SELECT pg_temp.want('no match', pg_temp.matches('ab', 'x'), NULL);
SELECT pg_temp.want('null', (SELECT count(*) FROM regex_lite_matches(NULL, 'x')), 0);
SELECT pg_temp.want('a null pattern', (SELECT count(*) FROM regex_lite_split('x', NULL)), 0);

-- The server's own functions as judges.
CREATE TEMP TABLE texts AS
    SELECT 'été, ' || repeat('číslo ' || number || '; ', number) || md5(number::text) AS string
    FROM generate_series(0, 60) AS number;
SELECT pg_temp.want('the texts of ' || pattern,
    ARRAY(SELECT text FROM regex_lite_matches(string, pattern) ORDER BY number),
    ARRAY(SELECT found[1] FROM regexp_matches(string, pattern, 'g') AS found))
    FROM texts, unnest(ARRAY['[0-9]+', 'č[^ ]+ ', ';|,', 'é.', 'x', 'o 1?']) AS pattern;
SELECT pg_temp.want('the groups of ' || pattern,
    ARRAY(SELECT groups FROM regex_lite_matches(string, pattern) ORDER BY number),
    ARRAY(SELECT found FROM regexp_matches(string, pattern, 'g') AS found))
    FROM texts, unnest(ARRAY['(č)([^ ]+) ', '([0-9])([a-f])?', '(é)|(o)']) AS pattern;
SELECT pg_temp.want('the places of ' || pattern,
    ARRAY(SELECT ARRAY[start, "end"] FROM regex_lite_matches(string, pattern) ORDER BY number),
    ARRAY(SELECT ARRAY[regexp_instr(string, pattern, 1, number),
                       regexp_instr(string, pattern, 1, number, 1)]
          FROM generate_series(1, regexp_count(string, pattern)) AS number))
    FROM texts, unnest(ARRAY['[0-9]+', 'č[^ ]+ ', ';|,', 'é.', 'x', 'o 1?']) AS pattern;
SELECT pg_temp.want('substr',
    bool_and(substr(string, start, "end" - start) = text AND start <= "end"), true)
    FROM texts, regex_lite_matches(string, '\w+|;');
SELECT pg_temp.want('the pieces at ' || pattern,
    ARRAY(SELECT text FROM regex_lite_split(string, pattern) ORDER BY number),
    regexp_split_to_array(string, pattern))
    FROM texts, unnest(ARRAY['; ', ',|;', '[0-9]+', 'é', ' +', 'x']) AS pattern;
SELECT pg_temp.want('the places of pieces', bool_and(substr(string, start, "end" - start) = text),
                    true)
    FROM texts, regex_lite_split(string, '[;,] ');
SELECT pg_temp.want('the numbers of rows', bool_and(number = place), true)
    FROM texts, regex_lite_matches(string, '\w') WITH ORDINALITY
        AS row (number, start, "end", text, groups, place);

-- Two walks at once, and a pattern in both.
SELECT pg_temp.want('walks within walks', count(*), 6 * 6)
    FROM regex_lite_matches('abcdef', '\w') AS one,
        regex_lite_matches('abcdef' || one.text, '[a-f]') AS other WHERE other.number <= 6;

-- A LIMIT is not charged for what it leaves out: a million matches would take seconds.
SET statement_timeout = '400ms';
SELECT pg_temp.want('the first of many', count(*), 100)
    FROM (SELECT regex_lite_matches(repeat('ab ', 1000000), '\w') LIMIT 100) AS first;
RESET statement_timeout;

-- The time of a long text is in proportion to it: its square would be minutes.
SET statement_timeout = '60s';
SELECT pg_temp.want('a million matches', ARRAY[count(*), max(number), max(start), max("end")],
                    ARRAY[1000000, 1000000, 2999998, 3000000]::bigint[])
    FROM regex_lite_matches(repeat('éé ', 1000000), 'é(é)');
SELECT pg_temp.want('a million pieces', ARRAY[count(*), max(number), max("end")],
                    ARRAY[1000001, 1000001, 3000001]::bigint[])
    FROM regex_lite_split(repeat('éé ', 1000000), ' ');
SELECT pg_temp.want('many groups', ARRAY[count(*), max(cardinality(groups))],
                    ARRAY[2500, 40]::bigint[])
    FROM regex_lite_matches(repeat('ab', 50000), repeat('(a)(b)', 20));
RESET statement_timeout;
