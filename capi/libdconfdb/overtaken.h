/* Changes that waited, and what others have set meanwhile: what they have set since stays. */
#ifndef OVERTAKEN_H
#define OVERTAKEN_H

#include "locked.h"
#include "store.h"

/* What another one was seen to change, and the file that it left. */
typedef struct Seen {
    struct Seen *next;
    FileState left;
    uint64_t when; /* the time that stands for when that was */
    char *paths;   /* a zero byte after each, and one more */
} Seen;

/* For so many edits, which mostly is enough, no memory is taken. */
enum { FEW_EDITS = 4 };

/* What is had for each edit. */
typedef struct {
    DconfdbChange change;
    DconfdbAsked asked;
    DconfdbTime time;
    size_t edit;
    bool is_left;
} AskedRoom;

/* Changes that are made together: what is asked of each, which of the edits it is, and whether it is left out. And what others were
 * seen to change. */
typedef struct {
    size_t count, seen_count;
    DconfdbChange *changes; /* all five are in one block */
    DconfdbAsked *asked;
    DconfdbTime *times;
    size_t *edits;
    bool *is_left;
    DconfdbSeen *seen;
    uint64_t latest; /* of what was noted, the latest time; or 0 */
    const DconfdbSnapshot *expected; /* NULL: whatever is seen */
    const Awaits *who;               /* NULL: nobody hears of it yet */
    AskedRoom few[FEW_EDITS];        /* the block, where it is enough */
} Asking;

/* `made` is NULL where all is asked for now. False: no memory is left. */
bool asking_begin(Asking *asking, const DconfdbEdit *edits, const Made *made, size_t count);
void asking_free(Asking *asking);

/* Whether the same is seen at the paths that are to be changed as was expected. */
bool asking_is_as_expected(const DconfdbSnapshot *now, const Asking *asking, DconfdbError *error);

/* What others have set up to now, and when; or NULL. The files are looked at for it: `before` is what was seen before that. */
Order *store_read_order(DconfdbStore *store, Asking *asking, const DconfdbSnapshot *before, const FolderLock *lock, DconfdbError *error);

/* Leaves out the changes of which others have set something since. False: no memory is left. */
bool asking_leave_out(Asking *asking, const DconfdbStore *store, Order *order, const DconfdbSnapshot *before);

/* Notes that they are made: the values are those of the snapshot. False: no memory is left. */
bool asking_note(Asking *asking, const DconfdbSnapshot *now, Order *order);

void store_forget_seen(DconfdbStore *store);

#endif
