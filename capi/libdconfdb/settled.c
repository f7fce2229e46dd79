/* What the user's file is gets to the disk. */
#define _DEFAULT_SOURCE
#define _POSIX_C_SOURCE 200809L
#define _FILE_OFFSET_BITS 64
#include "errors.h"
#include "locked.h"
#include "replacing.h"
#include "store.h"
#include "texts.h"

#include <fcntl.h>
#include <stdlib.h>
#include <unistd.h>

bool store_settle_name(const DconfdbStore *store, const char *name, DconfdbError *error)
{
    DconfdbEnding ending = {.is_there = false};
    int fault = folder_settle(store->place.folder, name);
    if (fault == 0)
        return true;
    dconfdb_ending(DCONFDB_TURN_UNSYNCED, (uint32_t)fault, store->known.is_unsettled, false, &ending);
    return tell_ending(error, &ending, fault, store->user_file, store->place.folder);
}

/* Whether who left the file noted that it is on the disk. Nobody waits for the lock: notes that others write meanwhile are not whole. */
static bool is_noted_settled(DconfdbStore *store, const Part *own)
{
    char *lock = joined(store->place.folder, "/", LOCK_NAME);
    int file = lock ? open(lock, O_RDONLY | O_NOFOLLOW | O_NONBLOCK | O_NOCTTY | O_CLOEXEC) : -1;
    free(lock);
    if (file < 0)
        return false;
    bool is = order_read(&store->order, file) && order_is_synced(&store->order, store->own_name, &own->state);
    close(file);
    return is;
}

/* Carries out a task, and gives its answer. */
static bool carry_out(DconfdbStore *store, Part *own, uint32_t task, DconfdbError *error)
{
    FileState state;
    switch (task) {
    case DCONFDB_SETTLING_NOTES:
        return is_noted_settled(store, own);
    case DCONFDB_SETTLING_SETTLE:
        return store_settle_name(store, store->own_name, error);
    case DCONFDB_SETTLING_NAMES:
        return store_settle_name(store, NULL, error);
    default:
        return file_look(store->user_file, &state) == 0 && part_sameness(own, &state) == DCONFDB_FILE_SAME;
    }
}

bool settle_store(DconfdbStore *store, DconfdbError *error)
{
    pthread_mutex_lock(&store->refreshing);
    Part *own = store->user_file ? store->now->parts[0] : NULL;
    const DconfdbSettling known = {.has_file = own != NULL,
                                   .is_known = own && own->is_settled,
                                   .is_unsynced = store->options.is_unsynced,
                                   .errnum = own ? part_errnum(own) : 0};
    uint32_t task = dconfdb_settling_after(DCONFDB_SETTLING_BEGINS, true, &known);
    while (task < DCONFDB_SETTLING_KNOWN)
        task = dconfdb_settling_after(task, carry_out(store, own, task, error), &known);
    if (own)
        own->is_settled = task == DCONFDB_SETTLING_KNOWN;
    pthread_mutex_unlock(&store->refreshing);
    return task != DCONFDB_SETTLING_FAILED;
}
