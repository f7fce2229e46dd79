/* What the command calls that which is wrong with the text of a value. */
#ifndef CAUSES_H
#define CAUSES_H

#include "dconfdb_calls.h"

/* By the number, of BAD_TOKEN to BAD_SIGNATURE_TEXT, that dconfdb_parse_value gives. */
static inline const char *text_cause(uint32_t number)
{
    static const char *const causes[] = {"BadToken",  "Unclosed",   "BadEscape",     "Unexpected",  "NoCommonType",
                                         "Ambiguous", "OutOfRange", "BadObjectPath", "BadSignature"};
    return number - DCONFDB_BAD_TOKEN < sizeof causes / sizeof *causes ? causes[number - DCONFDB_BAD_TOKEN] : "BadToken";
}

#endif
