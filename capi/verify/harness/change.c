/* libdconfdb/change.c: who takes the lock, and gives it back; and a change of no file. */
#define MOST_DATABASES 2
#define FEW_DATABASES 2
#include "libdconfdb/change.c"
#include "parts.h"

/* narrows libdconfdb/dconfdb.h: char text[512]; => char text[8]; */

static bool is_locked, has_asking;
static unsigned locks, turns, settles;
static int wait_asked;

int folder_lock(const char *folder, int milliseconds, FolderLock *lock)
{
    CHECK(folder == store.place.folder && !is_locked, "order: the folder is locked once");
    CHECK(none_is_held(), "order: the lock comes before the store's own mutexes");
    wait_asked = milliseconds;
    int fault = any_fault();
    is_locked = fault == 0;
    locks += is_locked;
    *lock = (FolderLock){TURN, TURN + 1, NULL};
    return fault;
}

void folder_unlock(FolderLock *lock)
{
    CHECK(is_locked && lock->folder == TURN && lock->file == TURN + 1, "order: what is given back is had");
    CHECK(none_is_held(), "order: it is given back last");
    is_locked = false;
}

bool asking_begin(Asking *asking, const DconfdbEdit *edits, const Made *of, size_t count)
{
    (void)edits, (void)of;
    asking->count = count;
    CHECK(!has_asking, "memory: it begins once");
    has_asking = any_bool();
    return has_asking;
}

void asking_free(Asking *asking)
{
    (void)asking;
    CHECK(has_asking, "memory: what has begun is freed, once");
    has_asking = false;
}

bool change_in_turn(DconfdbStore *at, const FolderLock *lock, Asking *asking, DconfdbError *error)
{
    (void)asking, (void)error;
    CHECK(at == &store && store.user_file && lock->file == TURN + 1 && has_asking, "order: a turn is had");
    turns++;
    bool is = any_bool();
    refused += !is;
    return is;
}

bool store_refresh(DconfdbStore *at, int turn, DconfdbError *error)
{
    (void)error;
    CHECK(at == &store && turn == NO_FOLDER && is_held(&store.refreshing), "order: nobody else looks meanwhile");
    bool is = any_bool();
    refused += !is;
    return is;
}

bool change_is_well(DconfdbStore *at, Asking *asking, DconfdbError *error)
{
    (void)asking, (void)error;
    CHECK(at == &store && is_held(&store.refreshing), "order: nobody else looks meanwhile");
    bool is = any_bool();
    refused += !is;
    return is;
}

bool store_settle_name(const DconfdbStore *at, const char *name, DconfdbError *error)
{
    (void)at, (void)name, (void)error;
    CHECK(none_is_held() && !has_bytes_read, "order: the store is free, and nothing is left to be released");
    settles++;
    bool is = any_bool();
    refused += !is;
    return is;
}

static int look_fault;
static bool is_found;

int file_look(const char *name, FileState *state)
{
    CHECK(__CPROVER_r_ok(name, 1), "memory: a name");
    is_found = state->is_there = any_bool();
    return look_fault = any_fault();
}

/* Each name that may be said is there: that of the user's file, if there is one. */
bool tell_met(DconfdbError *error, const DconfdbFaultMet *met, const char *const names[], Place place)
{
    (void)error, (void)place;
    CHECK(met->of == DCONFDB_FAULT_OF_LOCK && met->number > 0 && met->wait == (uint32_t)store.options.longest_wait, "answer: a fault of the lock");
    CHECK(met->looked == (uint32_t)look_fault && met->is_there == is_found, "answer: whether its file is there");
    CHECK(met->has_user == (store.user_file != NULL) && names[DCONFDB_NAMES_IT] == store.user_file, "answer: whether a database is the user's");
    CHECK(__CPROVER_r_ok(names[DCONFDB_NAMES_LOCK], 1) && names[DCONFDB_NAMES_FOLDER] == store.place.folder, "answer: the lock's name, and the folder's");
    refused++;
    return false;
}

/* Once it is known what stands at the name: a file is made, or none is. */
static uint32_t by_need(const DconfdbCourse *known)
{
    if (known->has_user && any_bool())
        return DCONFDB_COURSE_CHANGE;
    return known->has_user ? DCONFDB_COURSE_REFRESH : DCONFDB_COURSE_WELL;
}

/* What the proved call may say: nothing is made where no database is the user's, and after a look a file is to be made or not. */
uint32_t dconfdb_course_after(uint32_t task, bool yes, uint32_t users, const DconfdbChange *changes, size_t n, const DconfdbCourse *known)
{
    (void)changes, (void)n;
    CHECK(has_asking, "order: what is asked for is had");
    CHECK((users == DCONFDB_USERS_NOWHERE) == !store.user_file && known->has_user == !!store.user_file, "answer: whether a database is the user's");
    CHECK(known->is_unsynced == store.options.is_unsynced, "answer: whether anything is brought to the disk");
    switch (task) {
    case DCONFDB_COURSE_BEGINS:
        if (!known->has_edits)
            return DCONFDB_COURSE_DONE;
        if (known->is_locked)
            return known->has_user ? DCONFDB_COURSE_TURN : DCONFDB_COURSE_WELL;
        return users == DCONFDB_USERS_UNKNOWN && any_bool() ? DCONFDB_COURSE_LOOK : by_need(known);
    case DCONFDB_COURSE_LOOK: return by_need(known);
    case DCONFDB_COURSE_REFRESH: return yes ? DCONFDB_COURSE_WELL : DCONFDB_COURSE_FAILED;
    case DCONFDB_COURSE_WELL:
        if (yes && known->has_user && !known->is_unsynced)
            return DCONFDB_COURSE_SETTLE;
        return yes ? DCONFDB_COURSE_DONE : DCONFDB_COURSE_FAILED;
    default: return yes ? DCONFDB_COURSE_DONE : DCONFDB_COURSE_FAILED;
    }
}

/* harness change: unwind 8, quick */
int change_(void)
{
    static char folder[] = "/f";
    DconfdbEdit edits[2] = {{"/a", any_bool() ? "s" : NULL, "", 1}, {"/b", any_bool() ? "s" : NULL, "", 1}};
    size_t count = any_size();
    GIVEN(count <= 2);
    set_up_store();
    store.now = &old_room;
    store.place.folder = folder;
    store.options.longest_wait = any_int();
    bool done = dconfdb_store_change(&store, any_bool() ? &old_room : NULL, edits, count, NULL);
    CHECK(!is_locked && none_is_held(), "order: the lock and the mutexes are given back");
    CHECK(!has_asking && !has_bytes_read, "memory: what has begun is freed");
    CHECK(locks <= 1 && turns <= locks, "step: one lock, and a turn with it alone");
    CHECK(locks == 0 || (store.user_file && count > 0), "step: nobody locks what can't be changed");
    CHECK(locks == 0 || wait_asked == store.options.longest_wait, "step: the wait that was asked for");
    CHECK(done || refused > 0, "answer: no is told");
    if (turns == 1 && done)
        REACHED("a turn");
    if (settles == 1)
        REACHED("no file is to be made");
    return 0;
}
