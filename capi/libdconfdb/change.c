/* Changes of a store: by whom the lock is taken, and what becomes of it where no file is to be made. */
#define _DEFAULT_SOURCE
#define _POSIX_C_SOURCE 200809L
#define _FILE_OFFSET_BITS 64
#include "changing.h"
#include "errors.h"
#include "held.h"
#include "texts.h"

#include <stdlib.h>

bool refuse_lock(const DconfdbStore *store, int fault, DconfdbError *error)
{
    FileState found = {.is_there = false};
    char *lock = joined(store->place.folder, "/", LOCK_NAME);
    if (!lock)
        return refuse_memory(error);
    const char *const names[DCONFDB_NAMES] = {
        [DCONFDB_NAMES_IT] = store->user_file, [DCONFDB_NAMES_LOCK] = lock, [DCONFDB_NAMES_FOLDER] = store->place.folder};
    const uint32_t looked = (uint32_t)file_look(lock, &found);
    const DconfdbFaultMet met = {.of = DCONFDB_FAULT_OF_LOCK,
                                 .number = (uint32_t)fault,
                                 .wait = (uint32_t)store->options.longest_wait,
                                 .looked = looked,
                                 .is_there = found.is_there,
                                 .has_user = store->user_file != NULL};
    tell_met(error, &met, names, nowhere);
    free(lock);
    return false;
}

static bool lock_and_change(DconfdbStore *store, Asking *asking, DconfdbError *error)
{
    FolderLock lock;
    int fault = folder_lock(store->place.folder, store->options.longest_wait, &lock);
    if (fault != 0)
        return refuse_lock(store, fault, error);
    bool done = change_in_turn(store, &lock, asking, error);
    folder_unlock(&lock);
    return done;
}

/* What stands at the name of the user's file. */
static uint32_t users_file(const DconfdbStore *store)
{
    FileState state;
    if (file_look(store->user_file, &state) != 0)
        return DCONFDB_USERS_UNREADABLE;
    return state.is_there ? DCONFDB_USERS_THERE : DCONFDB_USERS_MISSING;
}

/* Where no file is made, neither is a folder, nor a lock's file: only why a change is at fault is said, and which edit. */
static bool look(DconfdbStore *store, DconfdbError *error)
{
    pthread_mutex_lock(&store->refreshing);
    bool is = store_refresh(store, NO_FOLDER, error);
    pthread_mutex_unlock(&store->refreshing);
    return is;
}

static bool is_well(DconfdbStore *store, Asking *asking, DconfdbError *error)
{
    pthread_mutex_lock(&store->refreshing);
    bool is = change_is_well(store, asking, error);
    pthread_mutex_unlock(&store->refreshing);
    return is;
}

/* A change, and what stands at the name of the user's file. */
typedef struct {
    DconfdbStore *store;
    const FolderLock *lock; /* NULL: it isn't had */
    Asking *asking;
    uint32_t users;
    DconfdbError *error;
} Course;

/* Carries out a task, and gives its answer. */
static bool carry_out(Course *it, uint32_t task)
{
    switch (task) {
    case DCONFDB_COURSE_LOOK:
        it->users = users_file(it->store);
        return true;
    case DCONFDB_COURSE_CHANGE: return lock_and_change(it->store, it->asking, it->error);
    case DCONFDB_COURSE_TURN: return change_in_turn(it->store, it->lock, it->asking, it->error);
    case DCONFDB_COURSE_REFRESH: return look(it->store, it->error);
    case DCONFDB_COURSE_WELL: return is_well(it->store, it->asking, it->error);
    default: return store_settle_name(it->store, NULL, it->error);
    }
}

static bool go_through(Course *it, const DconfdbCourse *known)
{
    const Asking *asking = it->asking;
    uint32_t task = dconfdb_course_after(DCONFDB_COURSE_BEGINS, true, it->users, asking->changes, asking->count, known);
    while (task < DCONFDB_COURSE_DONE) {
        bool yes = carry_out(it, task);
        task = dconfdb_course_after(task, yes, it->users, asking->changes, asking->count, known);
    }
    return task == DCONFDB_COURSE_DONE;
}

static bool change(DconfdbStore *store, const FolderLock *lock, const DconfdbSnapshot *expected, const DconfdbEdit *edits, const Made *made,
                   size_t count, const Awaits *who, DconfdbError *error)
{
    Asking asking;
    bool has_user = store->user_file != NULL;
    const DconfdbCourse known = {.has_edits = count > 0, .has_user = has_user, .is_locked = lock != NULL, .is_unsynced = store->options.is_unsynced};
    Course it = {store, lock, &asking, has_user ? DCONFDB_USERS_UNKNOWN : DCONFDB_USERS_NOWHERE, error};
    int cancels = hold_cancellation();
    bool done = asking_begin(&asking, edits, made, count) || refuse_memory(error);
    if (done) {
        asking.expected = expected;
        asking.who = who;
        done = go_through(&it, &known);
        asking_free(&asking);
    }
    cancel_as_before(cancels);
    return done;
}

bool locked_change(DconfdbStore *store, const FolderLock *lock, const DconfdbEdit *edits, const Made *made, size_t count, const Awaits *who,
                   DconfdbError *error)
{
    return change(store, lock, NULL, edits, made, count, who, error);
}

bool dconfdb_store_change(DconfdbStore *store, const DconfdbSnapshot *expected, const DconfdbEdit *edits, size_t count,
                          DconfdbError *error)
{
    return change(store, NULL, expected, edits, NULL, count, NULL, error);
}
