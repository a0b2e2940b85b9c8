/* The planner's estimate of the rows in which a pattern must not match.
 *
 * For those in which it must match, matchingsel of the server tries the operator on the values that
 * it has sampled. That is right for !=~ too, but not what it returns without a sample. */
#include "postgres.h"

#include "fmgr.h"
#include "utils/selfuncs.h"

PG_FUNCTION_INFO_V1(sql_regex_lite_no_match_sel);
PG_FUNCTION_INFO_V1(sql_regex_lite_no_match_joinsel);

/* One minus what matchingsel and matchingjoinsel return without a sample. */
#define UNKNOWN (1.0 - 2 * DEFAULT_EQ_SEL)

Datum sql_regex_lite_no_match_sel(PG_FUNCTION_ARGS) {
    PlannerInfo *root = (PlannerInfo *)PG_GETARG_POINTER(0);
    List *arguments = (List *)PG_GETARG_POINTER(2);
    PG_RETURN_FLOAT8(generic_restriction_selectivity(root, PG_GETARG_OID(1), PG_GET_COLLATION(),
                                                     arguments, PG_GETARG_INT32(3), UNKNOWN));
}

Datum sql_regex_lite_no_match_joinsel(PG_FUNCTION_ARGS) {
    PG_RETURN_FLOAT8(UNKNOWN);
}
