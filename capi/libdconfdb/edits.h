/* What the user's file is with edits. */
#ifndef EDITS_H
#define EDITS_H

#include "store.h"

/* As the proved calls have it; the bytes stay the caller's. */
DconfdbChange change_of_edit(const DconfdbEdit *edit);

/* The bytes that an edit sets; where it has none (NULL) its size doesn't count. */
static inline DconfdbBytes value_of_edit(const DconfdbEdit *edit)
{
    static const DconfdbBytes nothing = DCONFDB_NOTHING;
    return edit->data ? (DconfdbBytes){edit->data, edit->size} : nothing;
}

/* The user's file with changes, and whether that says no more than was there. */
typedef struct {
    FileBytes bytes;
    bool is_same;
} MadeFile;

/* Makes it: the bytes are the caller's, to be released. `edits`: which each of the changes is. */
bool edits_make_file(const DconfdbStore *store, const DconfdbChange *changes, const size_t *edits, size_t count, MadeFile *made,
                     DconfdbError *error);

/* Whether the user has what a change asks for. `may_be`: something may have left it there; else it isn't asked. False, too, where no memory is left to
 * know it. */
bool edit_is_made(const DconfdbSnapshot *now, bool may_be, const DconfdbChange *change);

#endif
