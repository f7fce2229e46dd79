/* What is read of a file that is no sound database. */
#ifndef REPAIR_H
#define REPAIR_H

#include "files.h"

/* What it counts as: DCONFDB_MENDED_WHOLE and so on, and how many values and locks are read of it. */
typedef struct {
    size_t keys, locks;
    uint32_t standing;
    bool is_told; /* what is wrong with the file is */
} Saved;

/* The sound database that a file counts as; none where it counts as nothing. The bytes are the caller's. OK, or MEMORY. */
uint32_t repair(const FileBytes *file, FileBytes *mended, Saved *saved);

#endif
