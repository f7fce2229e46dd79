/* The flag of dconf's readers of a database. */
#include "flag.h"
#include "lock.h"
#include "service.h"

/* Whoever has the lock now sets the flag too, once the database is replaced. Mostly who wrote has set it in his turn, and nobody has read since: then no
 * lock is taken. None is made: the main thread waits for no disk. */
void flag_readers(const Writer *writer, bool has_turn)
{
    FolderLock lock;
    const char *path = place_flag(writer->store);
    bool could_be = true, has_lock = false;
    uint32_t task = DCONFDB_FLAG_BEGINS;
    int file = -1;
    if (!path)
        return;
    while ((task = dconfdb_flag_after(task, could_be, has_turn || has_lock)) < DCONFDB_FLAG_OVER) {
        if (task == DCONFDB_FLAG_LOCK)
            could_be = has_lock = folder_lock_there(writer->service->place.folder, &lock) == 0;
        else
            could_be = flag_task(task, path, &file);
    }
    flag_close(file);
    if (has_lock)
        folder_unlock(&lock);
}
