-- What the tests in this folder call. A script ends at the first thing that isn't as wanted.
SET client_min_messages = warning;
CREATE EXTENSION IF NOT EXISTS regex_lite;

CREATE FUNCTION pg_temp.want(what text, got anycompatible, wanted anycompatible) RETURNS void
LANGUAGE plpgsql AS $$
BEGIN
    IF got IS DISTINCT FROM wanted THEN
        RAISE EXCEPTION '%: got %, and wanted %', what, got, wanted;
    END IF;
END $$;

-- The statement has to raise an error with this code, message and detail.
CREATE FUNCTION pg_temp.want_error(statement text, code text, message text, detail text = '')
RETURNS void LANGUAGE plpgsql AS $$
DECLARE
    own_message text;
    own_detail text;
BEGIN
    EXECUTE statement;
    RAISE EXCEPTION USING ERRCODE = 'assert_failure', MESSAGE = 'no error of ' || statement;
EXCEPTION WHEN OTHERS THEN
    GET STACKED DIAGNOSTICS own_message = MESSAGE_TEXT, own_detail = PG_EXCEPTION_DETAIL;
    PERFORM pg_temp.want('the code of ' || statement || ': ' || own_message, SQLSTATE, code);
    PERFORM pg_temp.want('the message of ' || statement, own_message, message);
    PERFORM pg_temp.want('the detail of ' || statement, own_detail, detail);
END $$;

-- The plan of a statement, in one text.
CREATE FUNCTION pg_temp.plan_of(statement text) RETURNS text LANGUAGE plpgsql AS $$
DECLARE
    line text;
    plan text = '';
BEGIN
    FOR line IN EXECUTE 'EXPLAIN ' || statement LOOP
        plan := plan || line || E'\n';
    END LOOP;
    RETURN plan;
END $$;
