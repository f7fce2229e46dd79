/* Whether a path may be written, where the snapshot's layers are at hand: for who asks again and again. */
#ifndef MAY_WRITE_H
#define MAY_WRITE_H

#include "seen.h"
#include "snapshot.h"

#include <string.h>

/* As seen_is_writable() has it. */
static inline bool snapshot_may_write(const DconfdbSnapshot *snapshot, bool is_open, const char *path)
{
    if (!snapshot)
        return seen_is_writable(snapshot, is_open, path);
    return seen_may(dconfdb_may_write(snapshot->layers, snapshot->count, snapshot->is_writable, is_open, (const uint8_t *)path, strlen(path)));
}

#endif
