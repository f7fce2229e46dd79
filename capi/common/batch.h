/* Changes that wait, written together by the proved steps of a queue. The module and libdconf have it in them. */
#ifndef BATCH_H
#define BATCH_H

#include "dconfdb_calls.h"
#include "locked.h"

#include <stdbool.h>

/* A turn to write: the lock of the store's folder is held, or can't be had by this fault. */
typedef struct {
    const FolderLock *lock; /* NULL: there is none, as the store has no user's database */
    int fault;              /* errno; 0: it is held */
    const Awaits *who;      /* who hears in it that all is made; NULL: nobody does */
} Turn;

/* The edits of all changes, the oldest first, and what becomes of each. */
typedef struct {
    size_t count, taken;
    DconfdbQueue queue;
    bool is_closed; /* once it was written: nobody who has this program's rights may write there, and no key is writable */
    DconfdbQueued *queued; /* with all that follows in one block */
    const DconfdbEdit **edits;
    uint64_t *moments;
    DconfdbEdit *asked; /* those that were taken for the next write, and the moment and the change of each */
    Made *made;
} Batch;

/* Whether something else is seen by an edit that waits: that is told. */
static inline bool edit_is_news(const DconfdbNewEdit *edit)
{
    bool is_there;
    return dconfdb_entry(edit, 1, &is_there) == DCONFDB_ENTRY_WAITS;
}

/* Whether nothing is left of an edit: it takes away what may not be written. */
static inline bool edit_is_left_out(const DconfdbNewEdit *edit)
{
    bool is_there;
    return dconfdb_entry(edit, 1, &is_there) == DCONFDB_ENTRY_EMPTY;
}

/* Whether all that these ask for is there already. */
static inline bool edits_are_there(const DconfdbNewEdit *edits, size_t count)
{
    bool is_there;
    dconfdb_entry(edits, count, &is_there);
    return is_there;
}

/* With room for so many edits. */
Batch batch_new(size_t most);

/* One more edit, which stays until the batch ends, of the change whose first edit has that number. */
void batch_add(Batch *batch, const DconfdbEdit *edit, uint64_t moment, size_t change, bool is_left_out);

/* Makes the changes, but for those that are refused, each for a fault of its own. What is to be told of that is in `refusal`, if it has
 * a number; it is told too where resets were left out since nobody may write there. False: the others are not written, by no fault of
 * theirs, which is in `fault`. They are to wait. */
bool batch_write(Batch *batch, DconfdbStore *store, const Turn *turn, DconfdbError *refusal, DconfdbError *fault);

/* Of an edit: whether its change is refused; and whether it is not made, while the others of its change are. */
bool batch_is_refused(const Batch *batch, size_t number);
bool batch_is_left_out(const Batch *batch, size_t number);

void batch_end(Batch *batch);

#endif
