\echo Use "CREATE EXTENSION regex_lite" to load this file. \quit

CREATE FUNCTION regex_lite_is_match(string text, pattern text) RETURNS boolean
    AS 'MODULE_PATHNAME', 'sql_regex_lite_is_match'
    LANGUAGE C IMMUTABLE STRICT PARALLEL SAFE COST 10;
COMMENT ON FUNCTION regex_lite_is_match IS 'whether the pattern matches somewhere';

CREATE FUNCTION regex_lite_is_no_match(string text, pattern text) RETURNS boolean
    AS 'MODULE_PATHNAME', 'sql_regex_lite_is_no_match'
    LANGUAGE C IMMUTABLE STRICT PARALLEL SAFE COST 10;
COMMENT ON FUNCTION regex_lite_is_no_match IS 'whether the pattern matches nowhere';

CREATE FUNCTION regex_lite_no_match_sel(internal, oid, internal, integer) RETURNS float8
    AS 'MODULE_PATHNAME', 'sql_regex_lite_no_match_sel'
    LANGUAGE C STABLE STRICT PARALLEL SAFE;
COMMENT ON FUNCTION regex_lite_no_match_sel IS 'restriction selectivity of !=~';

CREATE FUNCTION regex_lite_no_match_joinsel(internal, oid, internal, smallint, internal)
    RETURNS float8
    AS 'MODULE_PATHNAME', 'sql_regex_lite_no_match_joinsel'
    LANGUAGE C STABLE STRICT PARALLEL SAFE;
COMMENT ON FUNCTION regex_lite_no_match_joinsel IS 'join selectivity of !=~';

CREATE OPERATOR =~ (
    LEFTARG = text, RIGHTARG = text, FUNCTION = regex_lite_is_match,
    NEGATOR = !=~, RESTRICT = matchingsel, JOIN = matchingjoinsel
);
COMMENT ON OPERATOR =~ (text, text) IS 'the pattern matches somewhere';

CREATE OPERATOR !=~ (
    LEFTARG = text, RIGHTARG = text, FUNCTION = regex_lite_is_no_match,
    NEGATOR = =~, RESTRICT = regex_lite_no_match_sel, JOIN = regex_lite_no_match_joinsel
);
COMMENT ON OPERATOR !=~ (text, text) IS 'the pattern matches nowhere';

CREATE FUNCTION regex_lite_find(string text, pattern text) RETURNS text
    AS 'MODULE_PATHNAME', 'sql_regex_lite_find'
    LANGUAGE C IMMUTABLE STRICT PARALLEL SAFE COST 10;
COMMENT ON FUNCTION regex_lite_find(text, text) IS 'the text of the first match';

CREATE FUNCTION regex_lite_find(string text, pattern text, start integer) RETURNS text
    AS 'MODULE_PATHNAME', 'sql_regex_lite_find_from'
    LANGUAGE C IMMUTABLE STRICT PARALLEL SAFE COST 10;
COMMENT ON FUNCTION regex_lite_find(text, text, integer)
    IS 'the text of the first match from a character on';

CREATE FUNCTION regex_lite_capture(string text, pattern text, "group" integer) RETURNS text
    AS 'MODULE_PATHNAME', 'sql_regex_lite_capture_index'
    LANGUAGE C IMMUTABLE STRICT PARALLEL SAFE COST 10;
COMMENT ON FUNCTION regex_lite_capture(text, text, integer)
    IS 'the text of a group in the first match, by its number';

CREATE FUNCTION regex_lite_capture(string text, pattern text, "group" text) RETURNS text
    AS 'MODULE_PATHNAME', 'sql_regex_lite_capture_name'
    LANGUAGE C IMMUTABLE STRICT PARALLEL SAFE COST 10;
COMMENT ON FUNCTION regex_lite_capture(text, text, text)
    IS 'the text of a group in the first match, by its name';

CREATE FUNCTION regex_lite_replace(string text, pattern text, replacement text) RETURNS text
    AS 'MODULE_PATHNAME', 'sql_regex_lite_replace'
    LANGUAGE C IMMUTABLE STRICT PARALLEL SAFE COST 10;
COMMENT ON FUNCTION regex_lite_replace(text, text, text) IS 'the text with all matches replaced';

CREATE FUNCTION regex_lite_replace(string text, pattern text, replacement text, "limit" integer)
    RETURNS text
    AS 'MODULE_PATHNAME', 'sql_regex_lite_replace_some'
    LANGUAGE C IMMUTABLE STRICT PARALLEL SAFE COST 10;
COMMENT ON FUNCTION regex_lite_replace(text, text, text, integer)
    IS 'the text with the first matches replaced, or all if the limit is 0';

CREATE FUNCTION regex_lite_matches(
    string text, pattern text,
    OUT number integer, OUT start integer, OUT "end" integer, OUT text text, OUT groups text[]
) RETURNS SETOF record
    AS 'MODULE_PATHNAME', 'sql_regex_lite_matches'
    LANGUAGE C IMMUTABLE STRICT PARALLEL SAFE COST 10 ROWS 10;
COMMENT ON FUNCTION regex_lite_matches IS 'all matches, with their groups';

CREATE FUNCTION regex_lite_split(
    string text, pattern text,
    OUT number integer, OUT start integer, OUT "end" integer, OUT text text
) RETURNS SETOF record
    AS 'MODULE_PATHNAME', 'sql_regex_lite_split'
    LANGUAGE C IMMUTABLE STRICT PARALLEL SAFE COST 10 ROWS 10;
COMMENT ON FUNCTION regex_lite_split IS 'the pieces before, between and after the matches';

CREATE FUNCTION regex_lite_escape(string text) RETURNS text
    AS 'MODULE_PATHNAME', 'sql_regex_lite_escape'
    LANGUAGE C IMMUTABLE STRICT PARALLEL SAFE;
COMMENT ON FUNCTION regex_lite_escape IS 'a pattern that matches exactly this text';

CREATE FUNCTION regex_lite_version() RETURNS text
    AS 'MODULE_PATHNAME', 'sql_regex_lite_version'
    LANGUAGE C IMMUTABLE STRICT PARALLEL SAFE;
COMMENT ON FUNCTION regex_lite_version IS 'the version of the library';
