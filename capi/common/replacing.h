/* The steps of a turn to change a file, one call of the system each: which comes when is decided by the proved calls of
 * a turn (dconfdb_calls.h). Each function returns 0, or the errno of what failed. */
#ifndef REPLACING_H
#define REPLACING_H

#include "files.h"

#include <limits.h>
#include <stdbool.h>
#include <stddef.h>
#include <stdint.h>
#include <sys/types.h>

typedef struct {
    int folder, file; /* the locked folder; the new file while it is written */
    const char *name;
    char new_name[NAME_MAX + sizeof ".new"];
    uid_t user; /* whose the new file is to be */
    gid_t group, above; /* which it is to have, and which the folder has */
    bool gives_group; /* that is handed on to what is made in it */
    char *aside; /* the other name of what the name was, if `is_aside` */
    bool is_aside;
    bool is_unsynced; /* nothing is brought to the disk */
} Replacing;

int replacing_begin(Replacing *it, int folder, const char *name);
void replacing_end(Replacing *it);

/* The permission bits that the new file is to have, and 512 more where the old one is to be set aside, as a turn asks for them. `is_bad`: something
 * was wrong with what was read of that; it may be no file. `read`: its state then. EAGAIN: this is root, and another file has the name by now. */
int replacing_look(Replacing *it, bool is_bad, const FileState *read, size_t *bits);

int replacing_create(Replacing *it, size_t bits);
int replacing_append(const Replacing *it, const uint8_t *bytes, size_t len, size_t *count);

/* The new file is closed in any case. The state is what it has then; its name and its time change once more. */
int replacing_sync(Replacing *it, size_t bits, FileState *state);

/* The first of NAME~1, NAME~2 and so on that is free. `cannot`: what the name is can't be linked. */
int replacing_set_aside(Replacing *it, size_t *cannot);
int replacing_exchange(Replacing *it, FileState *state);
int replacing_rename(const Replacing *it, FileState *state);
int replacing_sync_folder(const Replacing *it);
int replacing_remove(const Replacing *it);

/* What the name is gets to the disk, if there is such a file and it can be read, and the folder's names. It isn't asked for where nothing is brought there. */
int replacing_settle(const Replacing *it, bool is_readable);

/* The same of a file of a folder, or of no file (NULL). A missing one is not an error. */
int folder_settle(const char *folder, const char *name);

#endif
