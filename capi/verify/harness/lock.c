/* common/lock.c: the lock of a folder. Each task of a try is gone through from each state in which the proved calls may ask for it, and leaves one
 * of those in which they may ask for the next; so a try is as the machine has it. Others remove, replace and link the lock's file, and fork. */
#include "common/handed.c"
#include "common/lock.c"
#include "machines.h"
#include "world.h"

#include <stdlib.h>

/* stubs common/lock.c: try_it does make_unnamed make_renamed make_own */

/* Another thread may fork while the list's mutex is free, as before_fork() counts. */
static void others_fork(const void *mutex)
{
    static int left = 1;
    CHECK(mutex == &listing, "order: the list's mutex alone");
    if (left > 0 && any_bool()) {
        left--;
        forks++;
    }
}

static bool is_heeded, has_asked;

int pthread_once(pthread_once_t *once, void (*does_it)(void))
{
    (void)once;
    if (!has_asked)
        does_it();
    has_asked = true;
    return 0;
}

int pthread_atfork(void (*before)(void), void (*after)(void), void (*child)(void))
{
    CHECK(before == before_fork && after == after_fork && child == after_fork_in_child, "step: each child of fork() closes what it has of a lock");
    CHECK(!is_heeded, "step: once");
    CHECK(none_is_held(), "order: a child that is made meanwhile has no mutex locked");
    is_heeded = any_bool();
    return is_heeded ? 0 : ENOMEM;
}

/* ---- files.c and folders.c are checked by themselves */

FileState file_state_of(const struct stat *found)
{
    return (FileState){.device = found->st_dev, .inode = found->st_ino, .is_there = true};
}

int folder_open(const char *name, int *opened)
{
    (void)name;
    int fault = any_fault();
    *opened = fault == 0 ? some_file() : any_int();
    return fault;
}

int folder_make(const char *name)
{
    (void)name;
    CHECK(none_is_held(), "order: no file is waited for while who forks waits");
    return any_fault();
}

static int named = -1; /* the folder of which the name was brought to the disk */

int folder_sync_name(int folder)
{
    CHECK(is_open(folder) && none_is_held(), "descriptor: the folder is open, and who forks doesn't wait for it");
    int fault = any_fault();
    named = fault == 0 ? folder : -1;
    return fault;
}

/* ---- as lock_make has them */

static int some_made(int folder, int *file)
{
    int fault = any_fault();
    CHECK(is_open(folder), "descriptor: the folder is open");
    *file = fault == 0 ? some_file() : -1;
    return fault;
}

static int make_unnamed(int folder, int *file)
{
    return some_made(folder, file);
}

static int make_renamed(int folder, int *file)
{
    return some_made(folder, file);
}

static int make_own(int folder, int *file)
{
    return some_made(folder, file);
}

static void is_made_here(Kind kind)
{
    if (kind == FCHMOD || kind == FCHOWN)
        CHECK((last[OPENAT].flags & (O_CREAT | O_TMPFILE)) != 0 && last[OPENAT].count == last[kind].file, "step: only what was made here is handed over");
    CHECK(kind != FCHMOD || (last[FCHMOD].mode & ~0666U) == 0, "step: its own bits, to read and write");
}

/* harness lock_make: unwind 6, with machines.c, define MOST_NAMES=2, quick */
int lock_make(void)
{
    int folder = some_file(), file = -1, way = any_int();
    at_call = is_made_here;
    int fault = way == 0 ? real_make_unnamed(folder, &file) : way == 1 ? real_make_renamed(folder, &file) : real_make_own(folder, &file);
    if (fault != 0) {
        CHECK(file < 0 && only_open(folder, -1), "descriptor: a fault leaves nothing open");
        return 0;
    }
    CHECK(is_open(file) && file != folder && only_open(folder, file), "descriptor: it is open, and no more");
    CHECK((last[OPENAT].flags & (O_NOFOLLOW | O_NONBLOCK | O_ACCMODE)) == (O_NOFOLLOW | O_NONBLOCK | O_RDWR), "step: it can be locked everywhere");
    CHECK((last[OPENAT].flags & O_TMPFILE) == O_TMPFILE || (last[OPENAT].flags & (O_CREAT | O_EXCL)) == (O_CREAT | O_EXCL), "step: what is made is made in nobody's place");
    CHECK(last[OPENAT].mode == 0600, "step: it is its owner's alone at first");
    REACHED("it is made");
    return 0;
}

/* ---- a task */

static FolderLock one_lock;

/* What is so before a task, and after the one before. */
static bool is_state_of(uint32_t task, const Awaited *it)
{
    bool has_folder = it->lock->folder >= 0 && is_open(it->lock->folder), has_file = it->lock->file >= 0 && is_open(it->lock->file);
    bool is_locked = has_file && is_flocked(it->lock->file), is_listed = first == it->lock;
    bool none_else = only_open(it->lock->folder, it->lock->file) && it->is_listed == is_listed && (is_listed || first == NULL) && (is_locked || is_flocked(-1));
    bool none_closed = has_folder == (it->lock->folder >= 0) && has_file == (it->lock->file >= 0);
    if (!none_else || !none_closed || (is_locked && !is_listed) || (is_listed && !(has_folder && has_file)))
        return false;
    switch (task) {
    case DCONFDB_TAKING_OPEN_FOLDER:
    case DCONFDB_TAKING_MAKE_FOLDER:
    case DCONFDB_TAKING_NOT_HAD: return true;
    case DCONFDB_TAKING_PAUSE: return !is_listed;
    case DCONFDB_TAKING_LIST: return has_folder && has_file && !is_listed;
    case DCONFDB_TAKING_LOCK:
    case DCONFDB_TAKING_NOT_YET: return is_listed && !is_locked;
    case DCONFDB_TAKING_LOOK:
    case DCONFDB_TAKING_TAKE_NAME:
    case DCONFDB_TAKING_HAD: return is_locked;
    default: return has_folder && !has_file && !is_listed;
    }
}

/* Nobody has asked that children of fork() are heeded, or in vain, and another thread or a parent's may be asking again; or they are. */
static void some_heeding(void)
{
    has_asked = any_bool();
    is_heeded = has_asked && any_bool();
    unheeded = is_heeded ? 0 : has_asked ? ENOMEM : -1;
    asking = any_bool() ? 0 : any_bool() ? getpid() : getpid() + 1;
}

/* Some state. */
static void some_state(Awaited *it)
{
    one_lock = (FolderLock){-1, -1, NULL};
    *it = (Awaited){.folder = "/f", .has_end = any_bool(), .makes = any_bool(), .lock = &one_lock};
    if (any_bool())
        one_lock.folder = some_file();
    if (any_bool())
        one_lock.file = some_file();
    if (one_lock.folder >= 0 && one_lock.file >= 0 && any_bool()) {
        it->is_listed = true;
        first = &one_lock;
        if (any_bool()) {
            int fault = flock(one_lock.file, LOCK_EX);
            GIVEN(fault == 0);
        }
    }
    it->taking = (DconfdbTaking){.task = any_u32(), .openings = any_u32(), .forks = any_u32(), .has_made = any_bool(), .is_again = any_bool()};
    GIVEN(it->taking.task >= DCONFDB_TAKING_OPEN_FOLDER && it->taking.task <= DCONFDB_TAKING_PAUSE);
    GIVEN(it->taking.openings < 2 && it->taking.forks < 2 && is_state_of(it->taking.task, it));
}

static const FolderLock *locking;

static void is_listed_then(Kind kind)
{
    CHECK(kind != FLOCK || (first == locking && locking->file == last[FLOCK].file), "order: what is locked is listed, so that a child closes it");
}

static void is_well_done(uint32_t task, const Awaited *it)
{
    if (task == DCONFDB_TAKING_OPEN_FOLDER) {
        bool has_failed = it->taking.task == DCONFDB_TAKING_NOT_HAD && it->taking.fault == (asking == getpid() ? EAGAIN : ENOMEM);
        CHECK(is_heeded || has_failed || (asking == getpid() && it->taking.task == DCONFDB_TAKING_PAUSE),
              "answer: where children of fork() can't be heeded nothing is locked, and where another thread asks for it all is tried again after a pause");
        CHECK(unheeded == (is_heeded ? 0 : ENOMEM), "answer: whether they are is known");
    }
    if (task == DCONFDB_TAKING_OPEN && was_done(OPENAT)) {
        CHECK(last[OPENAT].file == it->lock->folder && (last[OPENAT].flags & (O_NOFOLLOW | O_NONBLOCK | O_ACCMODE)) == (O_NOFOLLOW | O_NONBLOCK | O_RDWR),
              "step: no link is followed, no pipe waited for, and it can be locked everywhere");
        CHECK(count_of[FSTAT] > 0, "answer: an old one is looked at");
    }
    if (task == DCONFDB_TAKING_LOOK_ABOVE && it->taking.task >= DCONFDB_TAKING_MAKE_UNNAMED && it->taking.task <= DCONFDB_TAKING_MAKE)
        CHECK(named == it->lock->folder, "order: the folder's own name is on the disk before anything is made in it");
    if (task == DCONFDB_TAKING_LOCK && it->taking.task == DCONFDB_TAKING_LOOK)
        CHECK(last[FLOCK].flags == (it->has_end ? LOCK_EX | LOCK_NB : LOCK_EX), "step: a wait without end is one in the kernel");
    if (task == DCONFDB_TAKING_LOOK && it->taking.task == DCONFDB_TAKING_HAD) {
        CHECK(was_done(STAT) && was_done(FSTATAT) && last[FSTATAT].flags == AT_SYMLINK_NOFOLLOW, "order: both names are asked after it is had, and the name itself");
        REACHED("it is had");
    }
}

/* harness lock_step: unwind 6, with machines.c, define MOST_OPENINGS=2 MOST_FORKS=2, quick */
int lock_step(void)
{
    Awaited it;
    some_state(&it);
    some_heeding();
    uint32_t task = it.taking.task;
    locking = &one_lock;
    at_mutex = others_fork;
    at_call = is_listed_then;
    DconfdbStood stood = real_does(&it);
    stood.may_make = it.makes;
    dconfdb_taking_answered(&it.taking, &stood);
    CHECK(none_is_held(), "order: the list's mutex is free");
    CHECK(is_state_of(it.taking.task, &it), "descriptor: what is open, listed and locked is what the next task wants");
    is_well_done(task, &it);
    return 0;
}

/* ---- a try: what a task does is as lock_step has it, so that the system says anything */

static unsigned done;

static DconfdbStood does(Awaited *it)
{
    CHECK(it->taking.task >= DCONFDB_TAKING_OPEN_FOLDER && it->taking.task <= DCONFDB_TAKING_PAUSE, "step: a task");
    CHECK(it->makes || (it->taking.task != DCONFDB_TAKING_MAKE_FOLDER && (it->taking.task < DCONFDB_TAKING_LOOK_ABOVE || it->taking.task > DCONFDB_TAKING_MAKE)),
          "step: nothing is made unasked, and no disk is waited for");
    done++;
    GIVEN(done <= 6);
    DconfdbStood stood = {.fault = any_u32(), .mode = 0100600, .links = 1, .is_named = any_bool()};
    GIVEN(stood.fault <= MOST_ERRNO);
    return stood;
}

/* harness lock_try: unwind 8, with machines.c, define MOST_OPENINGS=2 MOST_FORKS=2, quick */
int lock_try(void)
{
    FolderLock lock = {some_file(), some_file(), NULL};
    Awaited it = {.folder = "/f", .makes = any_bool(), .lock = &lock};
    int fault = -1;
    uint32_t tried = real_try_it(&it, &fault);
    CHECK(it.taking.task >= DCONFDB_TAKING_HAD && fault == (int)it.taking.fault && tried == it.taking.tried, "answer: which call was the last, and its errno");
    CHECK(it.taking.task == DCONFDB_TAKING_NOT_HAD ? only_open(-1, -1) : only_open(lock.folder, lock.file), "descriptor: what is open goes where it isn't had");
    if (it.taking.task == DCONFDB_TAKING_NOT_HAD)
        REACHED("it isn't had");
    if (it.taking.task == DCONFDB_TAKING_HAD)
        REACHED("it is had");
    return 0;
}

/* ---- the wait */

#ifndef MOST_WAITED
#define MOST_WAITED 1
#endif

/* As tries.c says, which is not gone through: until it is had, a try fails, or the time is over; here after one or two tries at most. */
int try_for(uint32_t what, uint32_t milliseconds, Tries *tries, void *it, bool *is_others)
{
    (void)milliseconds;
    CHECK(what == DCONFDB_WAIT_FOR_LOCK || what == DCONFDB_WAIT_WITHOUT_END, "step: it is waited for a lock");
    for (int i = 0; i < MOST_WAITED; i++) {
        int fault = 0;
        uint32_t tried = tries(it, &fault);
        if (fault == 0 && tried != DCONFDB_TRIED_NAME)
            return 0;
        if (fault != 0 && (fault != EWOULDBLOCK || tried == DCONFDB_TRIED_NAME))
            return fault;
        if (what == DCONFDB_WAIT_FOR_LOCK && any_bool())
            break;
    }
    *is_others = true;
    return EWOULDBLOCK;
}

/* As lock_step and lock_try have it. */
static uint32_t try_it(void *data, int *fault)
{
    Awaited *it = data;
    if (it->lock->folder < 0) {
        *fault = any_fault();
        if (*fault != 0)
            return DCONFDB_TRIED_LOCK_FILE;
        it->lock->folder = some_file();
        it->lock->file = some_file();
        it->is_listed = true;
        it->lock->next = NULL;
        first = it->lock;
    }
    *fault = any_bool() ? 0 : any_bool() ? EWOULDBLOCK : ENOLCK;
    if (*fault == 0) {
        int not = flock(it->lock->file, LOCK_EX);
        GIVEN(not == 0);
    }
    return DCONFDB_TRIED_LOCK;
}

static int locks_and_unlocks(void)
{
    FolderLock lock;
    int milliseconds = any_int();
    GIVEN(milliseconds >= -1);
    int fault = folder_lock("/f", milliseconds, &lock);
    CHECK(none_is_held(), "order: the list's mutex is free");
    if (fault != 0) {
        CHECK(only_open(-1, -1) && first == NULL, "descriptor: a fault leaves nothing open or listed");
        CHECK(is_flocked(-1), "answer: a fault has no lock");
        CHECK(!lock.is_others || fault == EWOULDBLOCK, "answer: others have it only where it is busy");
        return 0;
    }
    CHECK(is_flocked(lock.file) && first == &lock && lock.next == NULL, "answer: the lock is had, and listed");
    if (any_bool()) {
        before_fork();
        after_fork_in_child();
        CHECK(first == NULL && only_open(-1, -1) && none_is_held(), "descriptor: a child has nothing of it");
        CHECK(count_of[UNFLOCK] == 0, "step: a child takes it from nobody");
        REACHED("a child");
        return 0;
    }
    folder_unlock(&lock);
    CHECK(first == NULL && is_flocked(-1) && only_open(-1, -1) && none_is_held(), "descriptor: it is given back whole");
    CHECK(count_of[UNFLOCK] > 0 && last[UNFLOCK].file >= 0 && when_of[UNFLOCK] < when_of[CLOSE], "order: it is unlocked, and then closed");
    REACHED("it is given back");
    return 0;
}

/* harness lock_once: unwind 5, with machines.c, quick */
int lock_once(void)
{
    return locks_and_unlocks();
}

/* harness lock_wait: unwind 5, with machines.c, define MOST_WAITED=2 */
int lock_wait(void)
{
    return locks_and_unlocks();
}
