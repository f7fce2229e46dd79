/* What a key shows while an edit of it may wait to be written. */
#ifndef SEEN_H
#define SEEN_H

#include "dconfdb.h"
#include "dconfdb_calls.h"

#include <stdbool.h>
#include <stddef.h>

/* A key that is asked for by itself: the newest edit of it that waited, and the one that waits, or NULL, for who asks for a type, or, if
 * it is NULL, for any. */
typedef struct {
    const char *path, *type;
    const DconfdbEdit *before, *after;
} SeenKey;

/* Paths that are told: in the order of their bytes, once each, a zero byte after each and one at the end. They mostly are few. */
typedef struct {
    char *paths;
    char few[512];
} Told;

/* The paths of the keys that are seen otherwise than before: of these keys, and of all others by what the snapshots show. `before` may be
 * NULL: nothing was seen. False: no memory is left, and nothing is to be freed. */
bool seen_otherwise(Told *told, const DconfdbSnapshot *before, const DconfdbSnapshot *after, const SeenKey *keys, size_t count, DconfdbError *error);

/* The paths of which it is otherwise than before whether they may be written: keys, and directories as a whole; what is below another of them
 * isn't told by itself. `before` may be NULL, and nothing might be written. False as of seen_otherwise(). */
bool seen_relocked(Told *told, const DconfdbSnapshot *before, const DconfdbSnapshot *after, DconfdbError *error);

/* The keys that edits of these paths are of: those that they name, and those below the directories that they name which one of the snapshots has. Each
 * may be NULL. False as of seen_otherwise(). */
bool seen_own(Told *told, const DconfdbSnapshot *before, const DconfdbSnapshot *after, const DconfdbBytes *edits, size_t count, DconfdbError *error);

void seen_free(Told *told);

/* Who tells what is seen otherwise: how the values are found, and how the paths of a list are sent, as dconfdb_tell_next has it. */
typedef struct {
    bool (*finds)(const void *it, Told *told);
    void (*sends_rights)(const void *it, DconfdbTelling *telling, const char *paths);
    void (*sends_values)(const void *it, DconfdbTelling *telling, const char *paths);
} Teller;

/* The list that comes next, as the proved call has it. */
uint32_t tell_next_list(DconfdbTelling *telling);

/* Finds that list, of rights or of values, and sends it. */
void tell_list(const Teller *teller, const void *it, const DconfdbSnapshot *before, const DconfdbSnapshot *after, DconfdbTelling *telling);

/* What is seen where there is no snapshot: nothing is, and nothing may be written. */
const DconfdbSnapshot *seen_nothing(void);

static inline const DconfdbSnapshot *or_nothing(const DconfdbSnapshot *snapshot)
{
    return snapshot ? snapshot : seen_nothing();
}

/* Whether a path may be written, a key's or all that is below a directory: somebody may write (`is_open`), there is a user's database, and no lock
 * covers it. `snapshot` may be NULL: then nothing may. */
bool seen_is_writable(const DconfdbSnapshot *snapshot, bool is_open, const char *path);

/* Without memory nobody knows, and 'no' would be told as if it were locked. Whoever asks is a program over GLib, which ends then in any case. */
_Noreturn void seen_ends(void);

/* What dconfdb_may_write answered. */
static inline bool seen_may(uint32_t is)
{
    if (is == DCONFDB_MAY_NO_MEMORY)
        seen_ends();
    return is == DCONFDB_MAY;
}

/* Whether one is the other, or a directory above it. */
bool paths_meet(const char *one, const char *other);

#endif
