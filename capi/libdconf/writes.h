/* What the files of changes share: edits.c, writes.c, waited.c, fast.c. */
#ifndef WRITES_H
#define WRITES_H

#include "batch.h"
#include "libdconf.h"

/* ---- edits (edits.c) */

/* The edits of a set, in byte order, so that a directory's comes before those of what is in it. They point to the
 * set, and to `texts`. */
typedef struct {
    GArray *edits;
    GPtrArray *texts, *values; /* what the edits lend */
} Edits;

static inline const DconfdbEdit *edit_at(const Edits *self, guint at)
{
    return &g_array_index(self->edits, DconfdbEdit, at);
}

/* Seals the set, unless it is empty, as dconf has it. */
Edits edits_of(DConfChangeset *changes);
void edits_clear(Edits *self);

/* What is known of an edit by whether it may be made: somebody may write in the user's database (`is_open`), and the newest snapshot, or NULL, has no
 * lock of it. */
DconfdbNewEdit known_by_rights(const DconfdbEdit *edit, bool is_open, const DconfdbSnapshot *now);

/* The same of each edit, to be freed, and whether the user has what it says. */
DconfdbNewEdit *known_of(const Edits *self, bool is_open, const DconfdbSnapshot *now);

/* The changes of which the user has something else. */
DConfChangeset *effective(const Edits *self, const DconfdbNewEdit *known, DConfChangeset *changes);

/* Takes out the resets of what may not be written. */
void leave_out(Edits *self, const DconfdbNewEdit *known);

/* ---- how they are written (writes.c) */

/* False, and that a key may not be written. */
gboolean refuse_locked(GError **error);

/* `turn` is held by who calls these. */
void set_writing(Engine *self, DConfChangeset *changes);

/* Tells what others changed, but for what is being written: nothing is any more. */
void end_writing(Engine *self);

/* Waits for the turn to write, before anybody who reads is kept from the files. False: that fault. */
bool turn_begin(Engine *self, DconfdbStore *store, FolderLock *lock, Turn *turn);
void turn_end(Engine *self, FolderLock *lock);

/* ---- what waits (waited.c) */

/* `lock` is held. All these are asked for in this moment. */
void ask_now(Engine *self, const Edits *edits);

/* What waited. False: it could not be written, by no fault of its own, and goes on waiting. What is refused is taken back.
 * `tries_again`: a thread does. */
gboolean write_waiting(Engine *self, gboolean tries_again, DconfdbError *fault);

#endif
