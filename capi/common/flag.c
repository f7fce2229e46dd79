/* The flag of dconf's readers, set as the proved steps have it. */
#define _POSIX_C_SOURCE 200809L
#include "flag.h"
#include "stood.h"

#include <errno.h>
#include <fcntl.h>
#include <unistd.h>

static bool put(int file, char byte, off_t at)
{
    return pwrite(file, &byte, 1, at) == 1;
}

bool flag_task(uint32_t task, const char *path, int *file)
{
    switch (task) {
    case DCONFDB_FLAG_LOOK: return access(path, F_OK) == 0 || file_fault(DCONFDB_TO_LOOK, errno) != 0;
    case DCONFDB_FLAG_OPEN:
        *file = open(path, O_RDWR | O_CLOEXEC | O_NOFOLLOW);
        return *file >= 0;
    case DCONFDB_FLAG_LENGTHEN: return put(*file, 0, 1);
    case DCONFDB_FLAG_SET: return put(*file, 1, 0);
    default: return unlink(path) == 0;
    }
}

void flag_close(int file)
{
    if (file >= 0)
        close(file);
}

void flag_set(const char *path)
{
    int file = -1;
    bool could_be = true;
    uint32_t task = DCONFDB_FLAG_LOCK;
    if (!path)
        return;
    while ((task = dconfdb_flag_after(task, could_be, true)) < DCONFDB_FLAG_OVER)
        could_be = flag_task(task, path, &file);
    flag_close(file);
}
