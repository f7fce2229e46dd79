/* Changes while the lock of the store's folder is held: for the module and libdconf, which take it by themselves. */
#ifndef LOCKED_H
#define LOCKED_H

#include "dconfdb.h"
#include "lock.h"

#include <stdint.h>

/* Whether all databases after the first are the same ones: whatever they lock and have, they do in both. */
bool have_same_others(const DconfdbSnapshot *one, const DconfdbSnapshot *other);

/* Of an edit: the moment in which it was made, by order_clock(), and the number of its change. */
typedef struct {
    uint64_t moment;
    size_t change;
} Made;

/* Who hears that a change is made, in the turn, as soon as nothing can undo that, and before others know from its notes: with the settings that are the
 * newest by it, which are lent. */
typedef struct {
    void (*hears)(void *it, DconfdbSnapshot *newest);
    void *it;
} Awaits;

/* dconfdb_store_change, while the lock of the store's folder is held. The oldest edit comes first, and those of one change side by
 * side: a change is left out, whole, where others have set one of its keys since. NULL: all are made now; `who`: nobody hears before it returns. */
bool locked_change(DconfdbStore *store, const FolderLock *lock, const DconfdbEdit *edits, const Made *made, size_t count, const Awaits *who,
                   DconfdbError *error);

/* Whether another thread is amid a change: the newest snapshot is what the user's file was when its turn began, and until the change
 * is made nobody else has a turn. */
bool is_amid_change(const DconfdbStore *store);

/* The newest snapshot after a look as dconfdb_store_refresh's, but that it waits for no other thread's change: then it doesn't look. NULL:
 * the look failed. */
DconfdbSnapshot *newest_unless_amid(DconfdbStore *store, bool *has_looked, DconfdbError *error);

/* While edits wait: what others changed between two snapshots, which the next locked_change heeds. */
void heed_others(DconfdbStore *store, const DconfdbSnapshot *before, const DconfdbSnapshot *after);

/* A store that was opened in the place of an old one, of the same user's file, knows what that knew: what others changed, and what came of
 * its own last change. */
void store_take_over(DconfdbStore *store, DconfdbStore *old);

/* Brings to the disk what the user's file is, unless this store knows that it is there: a program that set what was there already wants
 * to know that it stays. */
bool settle_store(DconfdbStore *store, DconfdbError *error);

/* What a lock's errno is to who changes the store. It returns false. */
bool refuse_lock(const DconfdbStore *store, int fault, DconfdbError *error);

#endif
