/* What a path is, as the proved call has it. */
#ifndef KINDS_H
#define KINDS_H

#include "dconfdb_calls.h"

#include <string.h>

/* Whether it is a directory's. */
static inline bool is_directory(const char *path)
{
    bool is_short;
    return dconfdb_path_kind((const uint8_t *)path, strlen(path), DCONFDB_PATH_WANTED, false, &is_short) == DCONFDB_PATH_DIRECTORY;
}

#endif
