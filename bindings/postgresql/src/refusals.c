#include "refusals.h"

#include "mb/pg_wchar.h"

/* The greatest number of bytes of a pattern that an error shows. */
#define MOST_SHOWN 60
#define MOST_MESSAGE 100 /* bytes, as the library says */

void require_utf8(void) {
    if (GetDatabaseEncoding() == PG_UTF8)
        return;
    ereport(ERROR, (errcode(ERRCODE_FEATURE_NOT_SUPPORTED),
                    errmsg("regex_lite needs a database whose encoding is UTF8"),
                    errdetail("The encoding of this one is %s.", GetDatabaseEncodingName())));
}

/* The detail with the place of a pattern's fault, in characters from 1 on. */
static int fault_detail(const regex_lite_fault *fault, Bytes pattern) {
    Place place = FIRST_PLACE;
    move_to(&place, pattern, fault->start);
    if (fault->is_cut_short)
        return errdetail("The pattern ends within what begins at character %d.", place.character);
    Bytes wrong = part_of(pattern, fault->start, fault->end);
    int shown = pg_mbcliplen((const char *)wrong.at, (int)wrong.len, MOST_SHOWN);
    int32 last = place.character + characters_in(wrong) - 1;
    return errdetail("The fault is at characters %d to %d of the pattern: \"%.*s\"%s.",
                     place.character, last, shown, (const char *)wrong.at,
                     (size_t)shown < wrong.len ? " and so on" : "");
}

void refuse_pattern(regex_lite_answer answer, Bytes message, Bytes pattern) {
    if (answer == REGEX_LITE_OUT_OF_MEMORY || answer == REGEX_LITE_NOT_TEXT)
        refuse(answer);
    regex_lite_options options = REGEX_LITE_DEFAULTS;
    regex_lite_fault fault = {0, 0, false};
    bool has_fault =
        answer == REGEX_LITE_SYNTAX &&
        regex_lite_fault_at(pattern.at, pattern.len, &options, &fault) == REGEX_LITE_YES;
    ereport(ERROR,
            (errcode(ERRCODE_INVALID_REGULAR_EXPRESSION),
             errmsg("invalid pattern: %.*s", (int)message.len, (const char *)message.at),
             has_fault ? fault_detail(&fault, pattern) : 0));
}

bool is_yes(regex_lite_answer answer) {
    switch (answer) {
    case REGEX_LITE_YES:
        return true;
    case REGEX_LITE_NO:
        return false;
    default:
        refuse(answer);
    }
}

static int sqlstate_of(regex_lite_answer answer) {
    switch (answer) {
    case REGEX_LITE_OUT_OF_MEMORY:
        return ERRCODE_OUT_OF_MEMORY;
    case REGEX_LITE_NOT_TEXT:
        return ERRCODE_CHARACTER_NOT_IN_REPERTOIRE;
    default:
        return ERRCODE_INTERNAL_ERROR;
    }
}

void refuse(regex_lite_answer answer) {
    uint8 said[MOST_MESSAGE];
    size_t len = 0;
    if (regex_lite_strerror(answer, said, sizeof said, &len) != REGEX_LITE_YES)
        len = 0;
    ereport(ERROR, (errcode(sqlstate_of(answer)),
                    errmsg("regex_lite: %.*s", (int)len, (const char *)said)));
}
