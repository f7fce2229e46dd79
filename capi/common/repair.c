/* Files that are no sound databases: what is read of them, as the proved call makes it. */
#define _DEFAULT_SOURCE
#define _POSIX_C_SOURCE 200809L
#include "repair.h"
#include "dconfdb_calls.h"

#include <stdlib.h>

uint32_t repair(const FileBytes *file, FileBytes *mended, Saved *saved)
{
    const uint8_t *bytes = file->at ? file->at : dconfdb_empty_file;
    size_t len = file->len + 4096, room_len; /* what is kept is mostly no longer than the file */
    uint32_t number;
    *saved = (Saved){0, 0, DCONFDB_MENDED_NOTHING, true};
    do {
        room_len = len;
        *mended = (FileBytes){malloc(room_len), 0, false};
        if (!mended->at)
            return DCONFDB_MEMORY;
        number = dconfdb_mend(bytes, file->len, mended->at, room_len, &len, &saved->standing, &saved->is_told, &saved->keys, &saved->locks);
        mended->len = len;
        if (number == DCONFDB_OK && len <= room_len && saved->standing != DCONFDB_MENDED_NOTHING)
            return DCONFDB_OK;
        file_release(mended);
    } while (number == DCONFDB_OK && len > room_len);
    return number;
}
