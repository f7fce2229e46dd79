/* What whoever looks at a store again and again compares: its databases, and its folder. */
#ifndef LOOKED_H
#define LOOKED_H

#include "files.h"
#include "watch.h"

/* Whether two stores have the same databases, by their names. */
bool have_same_files(const DconfdbStore *one, const DconfdbStore *other);

/* When a folder was written: a turn makes a file in it, and renames it. Zeros: it can't be looked at, or there is none (NULL). */
DconfdbFileTime folder_written(const char *folder);

#endif
