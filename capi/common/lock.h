/* The lock by which the programs that change files of a folder take turns: flock() on the file `.lock` in it, which is
 * made where it is missing, and stays. Whoever may write in the folder may open it, and nobody else. The program takes the
 * same one, in crates/dconf_folders/src/lock.rt. */
#ifndef LOCK_H
#define LOCK_H

#include <stdbool.h>

#define LOCK_NAME ".lock"

/* It stays where it is in memory as long as it is held. */
typedef struct FolderLock {
    int folder, file;
    struct FolderLock *next; /* of those of the process */
    bool is_others;          /* it isn't had, as others had it all the time */
} FolderLock;

enum { WITHOUT_END = -1 };

/* Takes the lock, and makes the folder if it is missing. A wait without end, as of any negative number, is one in the kernel, which lets all who
 * wait there have it in turn. Gives 0, or the errno of what failed: EWOULDBLOCK or EBUSY if others have had it for so many
 * milliseconds (`is_others`), EINVAL if what has the lock's name is no regular file. */
int folder_lock(const char *folder, int milliseconds, FolderLock *lock);

/* Takes the lock if it is there, and nobody has it: nothing is made or waited for, and nothing brought to the disk. Gives 0, or an errno. */
int folder_lock_there(const char *folder, FolderLock *lock);

void folder_unlock(FolderLock *lock);

#endif
