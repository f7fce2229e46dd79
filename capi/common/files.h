/* The files of a store, by system calls. Each function returns 0, or the errno of what failed. */
#ifndef FILES_H
#define FILES_H

#include "dconfdb_calls.h"

#include <stdbool.h>
#include <stddef.h>
#include <stdint.h>

enum { NO_FOLDER = -1 };

enum { PERMISSION_BITS = 0777 };

/* Which file a name refers to, when it was last written, and when anything of it changed: whose it is,
 * say. */
typedef DconfdbFileStamp FileState;

/* A file's bytes: mapped, or from malloc(). */
typedef struct {
    uint8_t *at; /* NULL if there are none */
    size_t len;
    bool is_mapped;
} FileBytes;

/* That of what stat() and the like have found. */
struct stat;
FileState file_state_of(const struct stat *found);

/* The state of a name. A missing file is not an error. */
int file_look(const char *name, FileState *state);

/* Whether both are of one file, as the proved call has it. */
static inline bool are_of_one_file(const struct stat *one, const struct stat *other)
{
    const FileState first = file_state_of(one), second = file_state_of(other);
    return dconfdb_is_one_file(&first, &second);
}

/* Nanoseconds since 1970, by the clock by which a file's times are noted. */
uint64_t file_clock(void);

/* Whether this process may read it, by its permissions as they are now. */
bool file_may_be_read(const char *name);

/* Whether the rest of a file that begins with these bytes is wanted. */
typedef bool FileWanted(const uint8_t *head, size_t len);

/* What a file holds, and its state; a relative name is relative to the folder. `maps`: a large one is mapped. A missing file is not
 * an error. EOVERFLOW: it has more than `most` bytes. EISDIR: it is a folder. EINVAL: it is no regular file. A large one that
 * isn't mapped is read no further than its head if the rest isn't wanted (NULL: it is). Of a file that can't be
 * read the state is that of before, if there is any. */
int file_read(int folder, const char *name, bool maps, FileWanted *is_wanted, uint64_t most, FileBytes *bytes, FileState *state);

void file_release(FileBytes *bytes);

#endif
