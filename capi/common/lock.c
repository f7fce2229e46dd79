/* The lock by which programs take turns: waited for, handed over, and closed in a child of fork(). */
#define _GNU_SOURCE
#define _FILE_OFFSET_BITS 64
#include "lock.h"
#include "dconfdb_calls.h"
#include "files.h"
#include "folders.h"
#include "handed.h"
#include "held.h"
#include "moves.h"
#include "stood.h"
#include "tries.h"

#include <errno.h>
#include <fcntl.h>
#include <pthread.h>
#include <stdatomic.h>
#include <stdio.h>
#include <sys/file.h>
#include <sys/stat.h>
#include <time.h>
#include <unistd.h>

/* Opened to be written, since a network's file system can lock no other file. No link is followed, and no pipe waited
 * for. */
enum { HOW = O_RDWR | O_CLOEXEC | O_NOFOLLOW | O_NONBLOCK | O_NOCTTY };

/* ---- a child of fork() has each lock too, and would keep it when its parent is killed: it closes what it has of it. Who forks waits
 * for no file: the list has what is open, and is held for moments. Only what is in it is locked: what a child has besides is an open file
 * that nobody locks. */

static pthread_mutex_t listing = PTHREAD_MUTEX_INITIALIZER;
static FolderLock *first;
static atomic_ulong forks; /* one more as each begins, and as it is over: who opens a file amid one sees another number then */
static atomic_int unheeded = -1; /* why none is heeded, an errno, or that nobody has asked yet; or 0, and then for good */
static atomic_int asking; /* the process of which a thread asks for it again now, or 0; a child that is made meanwhile has its parent's */

static void before_fork(void)
{
    pthread_mutex_lock(&listing);
    forks++;
}

static void after_fork(void)
{
    forks++;
    pthread_mutex_unlock(&listing);
}

static void close_one(int *file)
{
    if (*file >= 0)
        close(*file);
    *file = NO_FOLDER;
}

static void close_both(FolderLock *lock)
{
    close_one(&lock->file);
    close_one(&lock->folder);
}

/* LOCK_UN would take it from the parent. It is registered here, too, though the parent may not know that yet. */
static void after_fork_in_child(void)
{
    for (FolderLock *at = first; at; at = at->next)
        close_both(at);
    first = NULL;
    unheeded = 0;
    pthread_mutex_unlock(&listing);
}

/* It is asked for while nothing is locked: a child that is made meanwhile would have that locked for ever. */
static void heed_forks(void)
{
    unheeded = pthread_atfork(before_fork, after_fork, after_fork_in_child);
}

/* One thread at a time: what is registered twice would wait for itself as somebody forks. To another it is as if somebody forked. */
static int heed_forks_again(void)
{
    int process = (int)getpid(), before = asking;
    if (before == process || !atomic_compare_exchange_strong(&asking, &before, process))
        return EAGAIN;
    if (unheeded != 0)
        heed_forks();
    asking = 0;
    return unheeded;
}

/* Where no memory was left for it, it is tried again: a lock that a child keeps would be nobody's. Gives 0, or errno: EAGAIN while another thread
 * tries it. */
static int heed_all_forks(void)
{
    static pthread_once_t once = PTHREAD_ONCE_INIT;
    if (unheeded == 0)
        return 0;
    pthread_once(&once, heed_forks);
    return unheeded != 0 ? heed_forks_again() : 0;
}

/* Lists what was opened since that was the number of the forks. False: a child that was made meanwhile may have it, unlisted. It is harmless
 * there as long as it isn't locked here. */
static bool list(FolderLock *lock, unsigned long before)
{
    pthread_mutex_lock(&listing);
    bool is_ours = forks == before;
    if (is_ours) {
        lock->next = first;
        first = lock;
    }
    pthread_mutex_unlock(&listing);
    return is_ours;
}

static void unlist(const FolderLock *lock)
{
    pthread_mutex_lock(&listing);
    FolderLock **at = &first;
    while (*at && *at != lock)
        at = &(*at)->next;
    if (*at)
        *at = lock->next;
    pthread_mutex_unlock(&listing);
}

/* ---- the lock's file */

/* Gives a file that was just made the folder's owner and group, as far as this user may, and opens it to those who may write in the folder. */
static void hand_over(int folder, int file)
{
    struct stat above = {.st_mode = 0};
    int fault = fstat(folder, &above) != 0 ? errno : 0;
    handed_over(file, DCONFDB_MADE_LOCK, fault, &(DconfdbMadeFile){.wanted = owner_of(&above)});
}

/* With the bits that a lock has at first. */
static int create(int folder, const char *name, int how)
{
    DconfdbMadeFile made = {.is_root = false};
    return openat(folder, name, HOW | how, handed_at_first(DCONFDB_MADE_LOCK, &made));
}

/* A file gets the lock's name, if that is free. */
static int name_lock(int folder, const char *other)
{
    uint32_t told;
    DconfdbStood stood = file_stood(NULL, renameat2(folder, other, folder, LOCK_NAME, RENAME_NOREPLACE) != 0 ? errno : 0);
    if (dconfdb_standing(DCONFDB_TO_NAME, &stood, &told) != DCONFDB_IS_OTHER)
        return (int)told;
    int fault = linkat(folder, other, folder, LOCK_NAME, 0) != 0 ? errno : 0;
    unlinkat(folder, other, 0);
    return fault;
}

/* Makes a file by a name that nobody has. */
static int create_renamed(int folder, char *other, size_t size, int *file)
{
    DconfdbStood stood;
    uint32_t is, told;
    uint64_t tried = 0;
    do {
        snprintf(other, size, LOCK_NAME "-%ld-%d", (long)getpid(), (int)tried);
        *file = create(folder, other, O_CREAT | O_EXCL);
        stood = file_stood(NULL, *file < 0 ? errno : 0);
        stood.tried = tried++;
        is = dconfdb_standing(DCONFDB_TO_MAKE_NAMED, &stood, &told);
    } while (is == DCONFDB_IS_OTHER);
    return (int)told;
}

/* Makes it with another name, where the file system knows no file without one. */
static int make_renamed(int folder, int *file)
{
    char other[64];
    int fault = create_renamed(folder, other, sizeof other, file);
    if (fault != 0)
        return fault;
    hand_over(folder, *file);
    fault = name_lock(folder, other);
    if (fault == 0)
        return 0;
    unlinkat(folder, other, 0);
    close_one(file);
    return fault;
}

static int make_unnamed(int folder, int *file)
{
    *file = create(folder, ".", O_TMPFILE);
    if (*file < 0)
        return errno;
    hand_over(folder, *file);
    if (linkat(*file, "", folder, LOCK_NAME, AT_EMPTY_PATH) == 0)
        return 0;
    int fault = errno;
    close_one(file);
    return fault;
}

static int make_own(int folder, int *file)
{
    *file = create(folder, LOCK_NAME, O_CREAT | O_EXCL);
    if (*file < 0)
        return errno;
    hand_over(folder, *file);
    return 0;
}

/* ---- the tasks of a try, in the order of dconfdb_taking_answered: each gives what the system says of it */

/* A lock that is waited for. */
typedef struct {
    const char *folder;
    bool has_end, makes, is_listed;
    FolderLock *lock;
    unsigned long forks; /* their number when the folder was opened */
    DconfdbTaking taking;
} Awaited;

static void close_awaited(Awaited *awaited)
{
    if (awaited->is_listed)
        folder_unlock(awaited->lock);
    close_both(awaited->lock);
    awaited->is_listed = false;
}

/* Nothing is opened before each fork is heeded from then on. */
static DconfdbStood open_folder(Awaited *awaited)
{
    close_awaited(awaited);
    int fault = heed_all_forks();
    awaited->forks = forks;
    if (fault == 0)
        fault = folder_open(awaited->folder, &awaited->lock->folder);
    if (fault != 0)
        awaited->lock->folder = NO_FOLDER;
    return file_stood(NULL, fault);
}

static DconfdbStood make_folder(Awaited *awaited)
{
    return file_stood(NULL, folder_make(awaited->folder));
}

/* What has the lock's name is opened. */
static DconfdbStood open_old(Awaited *awaited)
{
    struct stat found;
    FolderLock *lock = awaited->lock;
    lock->file = openat(lock->folder, LOCK_NAME, HOW);
    int fault = lock->file < 0 || fstat(lock->file, &found) != 0 ? errno : 0;
    if (fault != 0)
        close_one(&lock->file);
    return file_stood(&found, fault);
}

/* Nothing is made in the folder before its own name is on the disk. */
static DconfdbStood look_above(Awaited *awaited)
{
    struct stat above;
    int folder = awaited->lock->folder, fault = folder_sync_name(folder);
    if (fault == 0 && fstat(folder, &above) != 0)
        fault = errno;
    DconfdbStood stood = file_stood(&above, fault);
    stood.is_root = geteuid() == 0;
    return stood;
}

typedef int Makes(int folder, int *file);

/* In one of three ways. */
static DconfdbStood make_file(Awaited *awaited)
{
    static Makes *const ways[DCONFDB_TAKING_LIST] = {
        [DCONFDB_TAKING_MAKE_UNNAMED] = make_unnamed, [DCONFDB_TAKING_MAKE_RENAMED] = make_renamed, [DCONFDB_TAKING_MAKE] = make_own};
    return file_stood(NULL, ways[awaited->taking.task](awaited->lock->folder, &awaited->lock->file));
}

/* What a child of fork() may have, too, isn't listed: the lock would be that child's, too. */
static DconfdbStood list_it(Awaited *awaited)
{
    awaited->is_listed = list(awaited->lock, awaited->forks);
    return file_stood(NULL, awaited->is_listed ? 0 : EAGAIN);
}

/* Waits in the kernel if there is no end. */
static DconfdbStood lock_it(Awaited *awaited)
{
    int how = awaited->has_end ? LOCK_EX | LOCK_NB : LOCK_EX, fault = 0, is;
    size_t none = 0;
    do
        is = flock(awaited->lock->file, how);
    while (moved(none, &none, is, &fault) == DCONFDB_MOVES_ON);
    return file_stood(NULL, fault);
}

/* Its names, the folder's and its own, may be another's after the wait. */
static DconfdbStood look_at_names(Awaited *awaited)
{
    const FolderLock *lock = awaited->lock;
    struct stat named, opened, file = {0};
    bool has_folder = stat(awaited->folder, &named) == 0 && fstat(lock->folder, &opened) == 0 && are_of_one_file(&named, &opened);
    bool has_name = fstatat(lock->folder, LOCK_NAME, &named, AT_SYMLINK_NOFOLLOW) == 0 && fstat(lock->file, &file) == 0 && are_of_one_file(&named, &file);
    DconfdbStood stood = file_stood(&file, 0);
    stood.is_named = has_name;
    stood.is_moved = !has_folder;
    return stood;
}

/* A file with another name may be anybody's, and what is noted in it would be written there, too: it loses the lock's name, while it is
 * locked, so that nobody else has his turn by it. */
static DconfdbStood take_name(Awaited *awaited)
{
    return file_stood(NULL, unlinkat(awaited->lock->folder, LOCK_NAME, 0) != 0 ? errno : 0);
}

/* Who forks, or has forks heeded, is done in a moment. */
static DconfdbStood take_pause(Awaited *awaited)
{
    (void)awaited;
    nanosleep(&(const struct timespec){0, 200000}, NULL);
    return file_stood(NULL, 0);
}

typedef DconfdbStood Does(Awaited *awaited);

/* A task by its number. */
static DconfdbStood does(Awaited *awaited)
{
    static Does *const tasks[DCONFDB_TAKING_HAD] = {
        [DCONFDB_TAKING_OPEN_FOLDER] = open_folder,
        [DCONFDB_TAKING_MAKE_FOLDER] = make_folder,
        [DCONFDB_TAKING_OPEN] = open_old,
        [DCONFDB_TAKING_LOOK_ABOVE] = look_above,
        [DCONFDB_TAKING_MAKE_UNNAMED] = make_file,
        [DCONFDB_TAKING_MAKE_RENAMED] = make_file,
        [DCONFDB_TAKING_MAKE] = make_file,
        [DCONFDB_TAKING_LIST] = list_it,
        [DCONFDB_TAKING_LOCK] = lock_it,
        [DCONFDB_TAKING_LOOK] = look_at_names,
        [DCONFDB_TAKING_TAKE_NAME] = take_name,
        [DCONFDB_TAKING_PAUSE] = take_pause,
    };
    return tasks[awaited->taking.task](awaited);
}

/* ---- the wait */

static uint32_t try_it(void *it, int *fault)
{
    static const DconfdbStood nothing = {.fault = 0};
    Awaited *awaited = it;
    DconfdbTaking *taking = &awaited->taking;
    dconfdb_taking_answered(taking, &nothing);
    while (taking->task < DCONFDB_TAKING_HAD) {
        DconfdbStood stood = does(awaited);
        stood.may_make = awaited->makes;
        dconfdb_taking_answered(taking, &stood);
    }
    if (taking->task == DCONFDB_TAKING_NOT_HAD)
        close_awaited(awaited);
    *fault = (int)taking->fault;
    return taking->tried;
}

static int take(const char *folder, int milliseconds, bool makes, FolderLock *lock)
{
    Awaited awaited = {.folder = folder, .has_end = milliseconds >= 0, .makes = makes, .lock = lock};
    int cancels = hold_cancellation();
    lock->folder = lock->file = NO_FOLDER;
    lock->is_others = false;
    int fault = try_for(awaited.has_end ? DCONFDB_WAIT_FOR_LOCK : DCONFDB_WAIT_WITHOUT_END, (uint32_t)milliseconds, try_it, &awaited, &lock->is_others);
    if (fault != 0)
        close_awaited(&awaited);
    cancel_as_before(cancels);
    return fault;
}

int folder_lock(const char *folder, int milliseconds, FolderLock *lock)
{
    return take(folder, milliseconds, true, lock);
}

int folder_lock_there(const char *folder, FolderLock *lock)
{
    return take(folder, 0, false, lock);
}

void folder_unlock(FolderLock *lock)
{
    int cancels = hold_cancellation();
    /* Closing is not enough: a child that was made without fork() has the descriptors too. */
    flock(lock->file, LOCK_UN);
    unlist(lock);
    close_both(lock);
    cancel_as_before(cancels);
}
