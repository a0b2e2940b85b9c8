/* How many blocks are in use over many queries, and how often a pattern is built. An argument says
 * how many rounds of two queries run. */
#include "counted.h"

/* After so many rounds the patterns come again. They are more than a connection keeps. */
#define PERIOD 1500

/* Runs all statements, and one with a pattern that comes again after a period. */
static void run_round(sqlite3 *db, long number) {
    char statement[200], given[1000];
    const Query *query = &queries[(size_t)number % QUERIES];
    WANT(is_so(db, query, false));
    snprintf(statement, sizeof statement, "SELECT 'x%ldy' REGEXP '^x%ldy$'", number,
             number % PERIOD);
    WANT(run(db, statement, given, sizeof given) == SQLITE_DONE);
    WANT(strcmp(given, number < PERIOD ? "1|" : "0|") == 0);
}

/* Each time that the same queries have come again, as much memory is in use; in the end none is. */
static void leaks(long rounds) {
    long before = blocks, last_blocks = -1;
    sqlite3_int64 last_used = 0;
    sqlite3 *db = opened();
    for (long number = 0; number < rounds; number++) {
        run_round(db, number);
        if ((number + 1) % ((long)QUERIES * PERIOD) != 0) continue;
        WANT(last_blocks == -1 || blocks == last_blocks);
        WANT(last_blocks == -1 || sqlite3_memory_used() == last_used);
        last_blocks = blocks;
        last_used = sqlite3_memory_used();
    }
    WANT(sqlite3_close(db) == SQLITE_OK);
    WANT(blocks == before);
}

/* How many patterns a statement builds. */
static long built_by(sqlite3 *db, const char *statement) {
    char given[1000];
    builds = 0;
    WANT(run(db, statement, given, sizeof given) == SQLITE_DONE);
    return builds;
}

/* A pattern is built once for a statement, and for a connection that has it still. */
static void building(void) {
    sqlite3 *db = opened();
    WANT(built_by(db, "CREATE TABLE t AS WITH RECURSIVE n(i) AS (VALUES (0) UNION ALL"
                      " SELECT i + 1 FROM n WHERE i < 1199) SELECT i FROM n") == 0);
    WANT(built_by(db, "SELECT sum(i REGEXP '9$') FROM t") == 1);
    WANT(built_by(db, "SELECT sum(i REGEXP '9$') FROM t") == 0);
    WANT(built_by(db, "SELECT sum(i REGEXP '8$'), sum(regex_lite_is_match(i, '8$')) FROM t") == 1);
    WANT(built_by(db, "SELECT sum(t.i REGEXP 'a' || u.i) FROM t CROSS JOIN t AS u"
                      " WHERE u.i < 12") == 12);
    WANT(built_by(db, "SELECT count(*) FROM t, regex_lite_matches(i, '[0-4]')") == 1);
    // More than are kept are built again in each row of the outer table, and once each in rows.
    WANT(built_by(db, "SELECT sum(t.i REGEXP 'b' || u.i) FROM t CROSS JOIN t AS u"
                      " WHERE t.i < 2") == 2400);
    WANT(built_by(db, "SELECT sum(t.i REGEXP 'c' || u.i) FROM t AS u CROSS JOIN t"
                      " WHERE t.i < 2") == 1200);
    WANT(sqlite3_close(db) == SQLITE_OK);
}

int main(int count, char **arguments) {
    long rounds = count > 1 ? atol(arguments[1]) : 3 * (long)QUERIES * PERIOD;
    begin();
    leaks(rounds);
    building();
    if (failed > 0) printf("%d failed\n", failed);
    return failed > 0;
}
