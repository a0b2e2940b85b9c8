/* All matches in a text, and the pieces between them, as rows. Each row is made when it is fetched,
 * so that a query with a LIMIT makes no more than it needs. */
#include "rows.h"

#include "batches.h"
#include "json.h"

#include <string.h>

/* The columns. IN_TEXT and BY_PATTERN are hidden: they are the arguments. Only matches have groups.
 * There is no rowid: if the alternatives of a condition give several arguments, SQLite drops the
 * rows whose keys it has seen, but a number is unique only for the same arguments. */
enum { NUMBER, START, END, TEXT, IN_TEXT, BY_PATTERN, GROUPS };
#define COLUMNS(others)                                                    \
    "CREATE TABLE rows(number INT NOT NULL, start INT, \"end\" INT, text TEXT," \
    " in_text HIDDEN NOT NULL, by_pattern HIDDEN NOT NULL" others            \
    ", PRIMARY KEY (in_text, by_pattern, number)) WITHOUT ROWID"

/* How the rows of a statement are computed. */
typedef enum Plan { WITHOUT_ARGUMENTS, PIECES, MATCHES, MATCHES_WITH_GROUPS } Plan;

typedef struct Table {
    sqlite3_vtab base;
    Patterns *patterns;
    Plan plan; /* of statements that don't read the groups */
} Table;

typedef struct Cursor {
    sqlite3_vtab_cursor base;
    sqlite3_value *in_text; /* a copy, on which the batches are */
    Batches batches;
    const regex_lite_span *item; /* of this row; NULL behind the last */
    Place start, end;
    sqlite3_int64 number;
} Cursor;

static int connect(sqlite3 *db, Patterns *patterns, Plan plan, const char *columns,
                   sqlite3_vtab **table) {
    int code = sqlite3_declare_vtab(db, columns);
    if (code != SQLITE_OK) return code;
    sqlite3_vtab_config(db, SQLITE_VTAB_INNOCUOUS);
    Table *made = sqlite3_malloc64(sizeof *made);
    if (made == NULL) return SQLITE_NOMEM;
    *made = (Table){.patterns = patterns, .plan = plan};
    *table = &made->base;
    return SQLITE_OK;
}

static int connect_matches(sqlite3 *db, void *patterns, int count, const char *const *arguments,
                           sqlite3_vtab **table, char **message) {
    (void)count, (void)arguments, (void)message;
    return connect(db, patterns, MATCHES, COLUMNS(", groups TEXT"), table);
}

static int connect_split(sqlite3 *db, void *patterns, int count, const char *const *arguments,
                         sqlite3_vtab **table, char **message) {
    (void)count, (void)arguments, (void)message;
    return connect(db, patterns, PIECES, COLUMNS(""), table);
}

static int disconnect(sqlite3_vtab *table) {
    sqlite3_free(table);
    return SQLITE_OK;
}

/* Finds the constraint that gives an argument a value, and has SQLite pass that value. Returns
 * false if it gives one that isn't known in this plan. */
static bool take_argument(sqlite3_index_info *info, int column, int *taken) {
    bool is_unusable = false;
    for (int i = 0; i < info->nConstraint; i++) {
        const struct sqlite3_index_constraint *constraint = &info->aConstraint[i];
        if (constraint->iColumn != column || constraint->op != SQLITE_INDEX_CONSTRAINT_EQ)
            continue;
        if (constraint->usable) {
            info->aConstraintUsage[i].argvIndex = ++*taken;
            info->aConstraintUsage[i].omit = 1; // or the whole text is compared for each row
            return true;
        }
        is_unusable = true;
    }
    return !is_unusable;
}

static int best_index(sqlite3_vtab *base, sqlite3_index_info *info) {
    const Table *table = (const Table *)base;
    int taken = 0;
    if (!take_argument(info, IN_TEXT, &taken) || !take_argument(info, BY_PATTERN, &taken))
        return SQLITE_CONSTRAINT;
    bool are_given = taken == 2;
    bool has_groups = (info->colUsed & (sqlite3_uint64)1 << GROUPS) != 0;
    // A plan without the arguments only reports that they are missing, so any other is better.
    info->idxNum = !are_given   ? WITHOUT_ARGUMENTS
                   : has_groups ? MATCHES_WITH_GROUPS
                                : (int)table->plan;
    info->estimatedCost = are_given ? 100 : 1e99;
    info->estimatedRows = are_given ? 10 : 1000000000;
    return SQLITE_OK;
}

static int open_cursor(sqlite3_vtab *table, sqlite3_vtab_cursor **cursor) {
    (void)table;
    Cursor *made = sqlite3_malloc64(sizeof *made);
    if (made == NULL) return SQLITE_NOMEM;
    *made = (Cursor){.batches = NO_BATCHES};
    *cursor = &made->base;
    return SQLITE_OK;
}

/* Ends the rows of a cursor, which may then begin others. */
static void end_rows(Cursor *cursor) {
    end_batches(&cursor->batches);
    sqlite3_value_free(cursor->in_text);
    cursor->in_text = NULL;
    cursor->item = NULL;
}

static int close_cursor(sqlite3_vtab_cursor *cursor) {
    end_rows((Cursor *)cursor);
    sqlite3_free(cursor);
    return SQLITE_OK;
}

/* The code of a refusal, whose text becomes the error of the table. */
static int refuse(Cursor *cursor, Refusal refusal) {
    sqlite3_vtab *table = cursor->base.pVtab;
    if (refusal.text != NULL) {
        sqlite3_free(table->zErrMsg);
        table->zErrMsg = refusal.text;
    }
    return refusal.code;
}

static int next(sqlite3_vtab_cursor *base) {
    Cursor *cursor = (Cursor *)base;
    Refusal refusal = NOT_REFUSED;
    cursor->item = next_item(&cursor->batches, &refusal);
    if (cursor->item == NULL) return refuse(cursor, refusal);
    Bytes text = cursor->batches.text;
    cursor->number++;
    cursor->start = cursor->end;
    move_to(&cursor->start, text, cursor->item->start);
    cursor->end = cursor->start;
    move_to(&cursor->end, text, cursor->item->end);
    return SQLITE_OK;
}

static Fetch fetch_of(Plan plan) {
    if (plan == PIECES) return fetch_pieces;
    return plan == MATCHES ? fetch_matches : fetch_groups;
}

static int filter(sqlite3_vtab_cursor *base, int plan, const char *name, int count,
                  sqlite3_value **arguments) {
    Cursor *cursor = (Cursor *)base;
    Patterns *patterns = ((const Table *)base->pVtab)->patterns;
    Refusal refusal = NO_MEMORY;
    Bytes text, bytes;
    (void)name;
    end_rows(cursor);
    if (plan == WITHOUT_ARGUMENTS)
        return refuse(cursor, refused("regex_lite: a text and a pattern have to be given"));
    for (int i = 0; i < count; i++)
        if (sqlite3_value_type(arguments[i]) == SQLITE_NULL) return SQLITE_OK;
    cursor->in_text = sqlite3_value_dup(arguments[0]);
    if (cursor->in_text == NULL || !read_bytes(cursor->in_text, &text) ||
        !read_bytes(arguments[1], &bytes))
        return refuse(cursor, refusal);
    Pattern *pattern = pattern_with(patterns, bytes, &refusal);
    if (pattern == NULL) return refuse(cursor, refusal);
    begin_batches(&cursor->batches, pattern, text, fetch_of((Plan)plan));
    cursor->start = cursor->end = FIRST_PLACE;
    cursor->number = 0;
    return next(base);
}

static int is_over(sqlite3_vtab_cursor *cursor) {
    return ((const Cursor *)cursor)->item == NULL;
}

static int column(sqlite3_vtab_cursor *base, sqlite3_context *context, int number) {
    const Cursor *cursor = (const Cursor *)base;
    const Batches *batches = &cursor->batches;
    switch (number) {
    case NUMBER:
        sqlite3_result_int64(context, cursor->number);
        break;
    case START:
        sqlite3_result_int64(context, cursor->start.character);
        break;
    case END:
        sqlite3_result_int64(context, cursor->end.character);
        break;
    case TEXT:
        return_text(context, part_of(batches->text, cursor->item->start, cursor->item->end));
        break;
    case IN_TEXT:
        sqlite3_result_value(context, cursor->in_text);
        break;
    case BY_PATTERN:
        return_text(context, bytes_of(batches->pattern));
        break;
    default:
        return_json(context, batches->text, cursor->item, batches->width);
    }
    return SQLITE_OK;
}

/* Neither module has an xCreate, so that they are only functions. */
#define MODULE(connecting)                                                             \
    {                                                                                  \
        .xConnect = connecting, .xBestIndex = best_index, .xDisconnect = disconnect,   \
        .xOpen = open_cursor, .xClose = close_cursor, .xFilter = filter, .xNext = next, \
        .xEof = is_over, .xColumn = column                                             \
    }

const sqlite3_module matches_module = MODULE(connect_matches);
const sqlite3_module split_module = MODULE(connect_split);
