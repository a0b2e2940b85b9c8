/* Refuses each request for memory in turn, the first, then the second and so on: each statement
 * gives what it gives with memory, or says that it ran out of it, and nothing leaks. */
#include "counted.h"

/* Refuses each request of a statement in turn, and returns how many there were. */
static long refuse_each(const Query *query) {
    long before = blocks, requests = 0;
    for (bool is_over = false; !is_over; requests++) {
        sqlite3 *db = opened();
        refused = 0;
        allowed = requests;
        bool is_right = is_so(db, query, true);
        allowed = -1;
        is_over = refused == 0;
        if (!is_right) failed++, printf("request %ld refused\n", requests);
        WANT(is_so(db, query, false));
        WANT(sqlite3_close(db) == SQLITE_OK);
    }
    WANT(blocks == before);
    return requests;
}

/* Refuses each request of the entry point in turn. */
static void refuse_loading(void) {
    long before = blocks, requests = 0;
    for (bool is_over = false; !is_over; requests++) {
        sqlite3 *db = opened();
        refused = 0;
        allowed = requests;
        int code = sqlite3_regexlitesqlite_init(db, NULL, NULL);
        allowed = -1;
        is_over = refused == 0;
        WANT(code == SQLITE_NOMEM || (code == SQLITE_OK && is_so(db, &queries[0], false)));
        WANT(sqlite3_close(db) == SQLITE_OK);
    }
    WANT(requests > 10);
    WANT(blocks == before);
}

int main(void) {
    begin();
    for (size_t i = 0; i < QUERIES; i++) WANT(refuse_each(&queries[i]) > 10);
    refuse_loading();
    if (failed > 0) printf("%d failed\n", failed);
    return failed > 0;
}
