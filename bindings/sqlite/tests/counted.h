/* What the tests of memory share: SQLite with the extension, as a program links it that brings its
 * own, how many blocks are in use, and statements with what they give.
 *
 * They are linked with --wrap for malloc, realloc, free and regex_lite_new. */
#ifndef COUNTED_H
#define COUNTED_H

#include <regex_lite.h>
#include <sqlite3.h>
#include <stdio.h>
#include <stdlib.h>
#include <string.h>

#define WANT(condition) \
    ((condition) ? (void)0 \
                 : (void)(failed++, printf("line %d: not so: %s\n", __LINE__, #condition)))

int sqlite3_regexlitesqlite_init(sqlite3 *db, char **message, const void *api);

void *__real_malloc(size_t size);
void *__real_realloc(void *old, size_t size);
void __real_free(void *place);
regex_lite_answer __real_regex_lite_new(regex_lite *handle, const uint8_t *pattern, size_t len,
                                        const regex_lite_options *options, uint8_t *message,
                                        size_t room, size_t *message_len);

static int failed;
static long allowed = -1; /* how many requests are still granted; below 0 all are */
static long refused;
static long blocks; /* how many blocks are in use */
static long builds; /* how many patterns have been built */

static bool is_granted(void) {
    if (allowed == 0) {
        refused++;
        return false;
    }
    if (allowed > 0) allowed--;
    return true;
}

void *__wrap_malloc(size_t size) {
    void *place = is_granted() ? __real_malloc(size) : NULL;
    if (place != NULL) blocks++;
    return place;
}

void *__wrap_realloc(void *old, size_t size) {
    void *place = is_granted() ? __real_realloc(old, size) : NULL;
    if (old == NULL && place != NULL) blocks++;
    return place;
}

void __wrap_free(void *place) {
    if (place != NULL) blocks--;
    __real_free(place);
}

regex_lite_answer __wrap_regex_lite_new(regex_lite *handle, const uint8_t *pattern, size_t len,
                                        const regex_lite_options *options, uint8_t *message,
                                        size_t room, size_t *message_len) {
    builds++;
    return __real_regex_lite_new(handle, pattern, len, options, message, room, message_len);
}

/* A statement, and what it is to give: the columns of its rows, each with a | behind it, or the
 * text of an error. */
typedef struct Query {
    const char *statement;
    const char *wanted;
} Query;

static const Query queries[] = {
    {"SELECT 'Mister Samwise' REGEXP 'S.m', 'x' REGEXP 'S.m'", "1|0|"},
    {"SELECT regex_lite_find('Frodo and Sam', '[A-Z]\\w+', 2)", "Sam|"},
    {"SELECT regex_lite_capture('2026-12', '(\\d+)-(?<m>\\d+)', 'm')", "12|"},
    {"SELECT regex_lite_replace('a-b', '\\w', '<$0><$0><$0>')", "<a><a><a>-<b><b><b>|"},
    {"SELECT length(regex_lite_replace('aaaa', 'a', printf('%.1000c', 'b')))", "4000|"},
    {"SELECT regex_lite_escape('a.b'), regex_lite_size_limit()", "a\\.b|10485760|"},
    {"SELECT start, text, groups FROM regex_lite_matches('a1 b', '([a-z])(\\d)?')",
     "1|a1|[\"a1\",\"a\",\"1\"]|4|b|[\"b\",\"b\",null]|"},
    {"SELECT text FROM regex_lite_split('a, b,c', ', *')", "a|b|c|"},
    {"SELECT count(*) FROM regex_lite_matches(printf('%.5000c', 'a'), 'a')", "5000|"},
    {"SELECT x'c3' REGEXP 'a'", "regex_lite: the text is not UTF-8 from byte 1 on"},
    {"SELECT 'a' REGEXP 'a(b'",
     "regex_lite: invalid pattern: found open group without closing ')'; "
     "it ends within what begins at character 2"},
    {"SELECT regex_lite_capture('a', '(a)', 2)",
     "regex_lite: the pattern has no group 2; its last is 1"},
    {"SELECT text FROM regex_lite_matches('a', '[b-a]')",
     "regex_lite: invalid pattern: invalid range in character class; see its characters 1 to 4"},
    {"SELECT text FROM regex_lite_matches('a')",
     "regex_lite: a text and a pattern have to be given"},
};
#define QUERIES (sizeof queries / sizeof *queries)

/* Writes what a statement gives, and returns its code. */
static int run(sqlite3 *db, const char *statement, char *given, size_t room) {
    sqlite3_stmt *prepared = NULL;
    size_t len = 0;
    int code = sqlite3_prepare_v2(db, statement, -1, &prepared, NULL);
    given[0] = '\0';
    if (code != SQLITE_OK) return code;
    while ((code = sqlite3_step(prepared)) == SQLITE_ROW)
        for (int i = 0; i < sqlite3_column_count(prepared); i++) {
            const char *text = (const char *)sqlite3_column_text(prepared, i);
            if (text == NULL) text = "null"; // also where memory runs out, as the end then says
            len += (size_t)snprintf(given + len, room - len, "%s|", text);
        }
    if (code == SQLITE_ERROR) snprintf(given, room, "%s", sqlite3_errmsg(db));
    sqlite3_finalize(prepared);
    return code;
}

/* Whether a statement gives what is wanted, or memory has run out. */
static bool is_so(sqlite3 *db, const Query *query, bool may_run_out) {
    char given[1000];
    int code = run(db, query->statement, given, sizeof given);
    bool has_run_out = code == SQLITE_NOMEM || sqlite3_errcode(db) == SQLITE_NOMEM;
    // SQLite gives this text where it has no memory for that of an error.
    if (strcmp(given, "SQL logic error") == 0) has_run_out = true;
    if (may_run_out && has_run_out) return true;
    if (strcmp(given, query->wanted) == 0) return true;
    printf("%s: %d, %s\n", query->statement, code, given);
    return false;
}

static sqlite3 *opened(void) {
    sqlite3 *db = NULL;
    WANT(sqlite3_open(":memory:", &db) == SQLITE_OK);
    return db;
}

/* Begins with the extension in each connection, and with what SQLite asks for once. */
static void begin(void) {
    sqlite3_auto_extension((void (*)(void))sqlite3_regexlitesqlite_init);
    sqlite3_close(opened());
}

#endif
