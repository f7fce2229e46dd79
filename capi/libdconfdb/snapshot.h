/* The databases of a store at one moment. */
#ifndef SNAPSHOT_H
#define SNAPSHOT_H

#include "part.h"

/* So many databases take no memory of their own. */
#ifndef FEW_DATABASES
#define FEW_DATABASES 4
#endif

struct DconfdbSnapshot {
    atomic_size_t references;
    bool is_writable;
    size_t count;
    Part **parts;         /* of the few, or of a room for all */
    DconfdbLayer *layers; /* the same; never NULL, as the proved calls want it */
    Part *few_parts[FEW_DATABASES];
    DconfdbLayer few_layers[FEW_DATABASES];
};

/* Without parts; each of them is put in before anything else is asked. NULL: no memory is left. */
DconfdbSnapshot *snapshot_new(size_t count, bool is_writable);

/* The part is the snapshot's. */
void snapshot_put(DconfdbSnapshot *snapshot, size_t at, Part *part);

/* What a call lists, into a room of so many bytes. */
typedef uint32_t Lists(const DconfdbSnapshot *snapshot, const void *of, uint8_t *room, size_t room_len, size_t *len);

/* What a call lists, with a zero byte behind it: the caller's. `name` is said to be at fault if it fails, and then it is NULL. */
char *snapshot_listed(Lists *lists, const DconfdbSnapshot *snapshot, const void *of, const char *name, size_t *size, DconfdbError *error);

/* The same, of so many bytes at first. */
char *snapshot_listed_in(size_t len, Lists *lists, const DconfdbSnapshot *snapshot, const void *of, const char *name, size_t *size,
                         DconfdbError *error);

/* ---- two of them */

/* The paths that are remembered of what others changed, or NULL: no memory is left. `is_noted`: who left the file noted what it changed. */
char *snapshot_remembered(const DconfdbSnapshot *before, const DconfdbSnapshot *after, bool is_noted);

/* Whether something is otherwise of which a program is told: a key, whether keys may be set, a lock, another fault of a file, or a mapped file that
 * was written over. */
bool snapshot_is_news(const DconfdbSnapshot *before, const DconfdbSnapshot *after);

#endif
