/* The paths that an iterator goes through. */
#ifndef PATHS_H
#define PATHS_H

#include "dconfdb.h"

/* Those of all keys below a directory that any database of the snapshot has, in the form of dconfdb_snapshot_list. NULL: it
 * failed. */
char *snapshot_paths(const DconfdbSnapshot *snapshot, const char *directory, DconfdbError *error);

/* dconfdb_snapshot_read of a path of so many bytes. */
bool snapshot_read_at(const DconfdbSnapshot *snapshot, const char *path, size_t len, DconfdbValue *value);

#endif
