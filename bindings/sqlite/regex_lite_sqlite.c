/* Regular expressions for SQLite, over the library for C. README.md in this folder has the
 * functions, and says how this is built and loaded. */
#include "functions.h"
#include "rows.h"

SQLITE_EXTENSION_INIT1

#ifdef _WIN32
#define ENTRY_POINT __declspec(dllexport)
#else
#define ENTRY_POINT __attribute__((visibility("default")))
#endif

/* Deterministic and innocuous: the result depends only on the arguments, and there are no side
 * effects. */
#define PURE (SQLITE_UTF8 | SQLITE_DETERMINISTIC | SQLITE_INNOCUOUS)
/* What changes the connection can't be called from what a database contains, such as a view. */
#define SETTING (SQLITE_UTF8 | SQLITE_DIRECTONLY)

typedef void (*Run)(sqlite3_context *, int, sqlite3_value **);

static const struct Function {
    const char *name;
    int arguments;
    int flags;
    Run run;
} functions[] = {
    {"regexp", 2, PURE, sql_regexp},
    {"regex_lite_is_match", 2, PURE, sql_is_match},
    {"regex_lite_find", 2, PURE, sql_find},
    {"regex_lite_find", 3, PURE, sql_find},
    {"regex_lite_capture", 3, PURE, sql_capture},
    {"regex_lite_replace", 3, PURE, sql_replace},
    {"regex_lite_replace", 4, PURE, sql_replace},
    {"regex_lite_escape", 1, PURE, sql_escape},
    {"regex_lite_version", 0, PURE, sql_version},
    {"regex_lite_size_limit", 0, SETTING, sql_size_limit},
    {"regex_lite_size_limit", 1, SETTING, sql_size_limit},
};

static const struct Module {
    const char *name;
    const sqlite3_module *module;
} modules[] = {
    {"regex_lite_matches", &matches_module},
    {"regex_lite_split", &split_module},
};

/* Gives a connection all functions. SQLite releases the ownership of each, even on a failure. */
static int add_all(sqlite3 *db, Patterns *patterns) {
    int code = SQLITE_OK;
    for (size_t i = 0; code == SQLITE_OK && i < sizeof functions / sizeof *functions; i++) {
        const struct Function *added = &functions[i];
        code = sqlite3_create_function_v2(db, added->name, added->arguments, added->flags,
                                          share_patterns(patterns), added->run, NULL, NULL,
                                          leave_patterns);
    }
    for (size_t i = 0; code == SQLITE_OK && i < sizeof modules / sizeof *modules; i++)
        code = sqlite3_create_module_v2(db, modules[i].name, modules[i].module,
                                        share_patterns(patterns), leave_patterns);
    return code;
}

ENTRY_POINT int sqlite3_regexlitesqlite_init(sqlite3 *db, char **message,
                                             const sqlite3_api_routines *api) {
    SQLITE_EXTENSION_INIT2(api);
    (void)message, (void)api;
    Patterns *patterns = new_patterns();
    if (patterns == NULL) return SQLITE_NOMEM;
    int code = add_all(db, patterns);
    leave_patterns(patterns);
    return code;
}
