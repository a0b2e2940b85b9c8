/* The module itself, its setting and its version. */
#include "settings.h"
#include "texts.h"

#include "fmgr.h"
#include "utils/guc.h"

#include <limits.h>
#include <regex_lite.h>

PG_MODULE_MAGIC;

PG_FUNCTION_INFO_V1(sql_regex_lite_version);

extern PGDLLEXPORT void _PG_init(void);

int size_limit;

/* Defines the setting, when a backend loads the module. */
void _PG_init(void) {
    static const regex_lite_options usual = REGEX_LITE_DEFAULTS;
    DefineCustomIntVariable(
        "regex_lite.size_limit", "Sets how large a pattern may become, written out.",
        "A search takes time in proportion to the size of its pattern and to the length of its "
        "text.",
        &size_limit, (int)usual.size_limit, 0, INT_MAX, PGC_SUSET, GUC_UNIT_BYTE, NULL, NULL,
        NULL);
    MarkGUCPrefixReserved("regex_lite");
}

Datum sql_regex_lite_version(PG_FUNCTION_ARGS) {
    uint8 version[100];
    size_t len = 0;
    if (regex_lite_version(version, sizeof version, &len) != REGEX_LITE_YES)
        elog(ERROR, "the version of the library is too long");
    PG_RETURN_TEXT_P(text_of((Bytes){version, len}));
}
