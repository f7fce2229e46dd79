/* libdconfdb/notices.c: a descriptor for who wants to be told, and what differs. What is watched, and when it is looked at, is any step at any time. */
#define MOST_DATABASES 2
#define FEW_DATABASES 2
#include "libdconfdb/notices.c"
#include "machines/given.h"
#include "store.h"
#include "world.h"

/* narrows libdconfdb/dconfdb.h: char text[512]; => char text[8]; */

static DconfdbStore store;
static Notices notices;
static int references[2]; /* of what was told last, and of what is newest */
static char snapshots[2]; /* stand for these */
static bool has_watch, is_taken;
static int inotify = -1;
static char a_watch[1]; /* stands for a watch */
static unsigned answered;

/* ---- snapshots */

DconfdbSnapshot *dconfdb_store_snapshot(DconfdbStore *at)
{
    static int newest; /* of two: there may be a newer one at any time */
    CHECK(at == &store, "memory: a store");
    newest = newest == 1 || any_bool();
    references[newest]++;
    return (DconfdbSnapshot *)&snapshots[newest];
}

void dconfdb_snapshot_unref(DconfdbSnapshot *snapshot)
{
    if (!snapshot)
        return;
    int at = (char *)snapshot == &snapshots[1];
    CHECK((char *)snapshot == &snapshots[at] && references[at] > 0, "memory: what is given back is had");
    references[at]--;
}

char *dconfdb_snapshot_differences(const DconfdbSnapshot *snapshot, const DconfdbSnapshot *other, size_t *size, DconfdbError *error)
{
    (void)size, (void)error;
    int at = (const char *)snapshot == &snapshots[1];
    CHECK((const char *)snapshot == &snapshots[at] && references[at] > 0 && (const DconfdbSnapshot *)notices.told == other, "memory: the newest, and what was told");
    return malloc(2);
}

/* The newest, after a look or without one; NULL: the look failed. */
DconfdbSnapshot *newest_unless_amid(DconfdbStore *at, bool *has_looked, DconfdbError *error)
{
    (void)error;
    CHECK(at == &store && is_held(&notices.lock), "order: the notices' mutex comes before the store's");
    *has_looked = any_bool();
    return *has_looked && any_bool() ? NULL : dconfdb_store_snapshot(at);
}

uint32_t dconfdb_handed(bool has_paths, bool has_looked)
{
    return handed_given(has_paths, has_looked);
}

bool refuse_memory(DconfdbError *error)
{
    (void)error;
    return false;
}

/* ---- the watch */

Watch *watch_new(uint32_t who)
{
    CHECK(who == DCONFDB_WATCHER_LIBRARY, "step: the library's caller watches");
    CHECK(!has_watch, "memory: one watch");
    has_watch = any_bool();
    return has_watch ? (Watch *)a_watch : NULL;
}

/* It closes inotify's descriptor. */
void watch_free(Watch *watch)
{
    if (!watch)
        return;
    CHECK(has_watch && (char *)watch == a_watch, "memory: what is freed is had");
    has_watch = false;
    if (inotify >= 0)
        close(inotify);
    inotify = -1;
}

int64_t watch_answer(Watch *watch, bool yes)
{
    (void)yes;
    CHECK(has_watch && (char *)watch == a_watch, "memory: the watch is had");
    answered++;
    return (int64_t)any_u32();
}

WatchStep watch_ask(Watch *watch)
{
    CHECK(has_watch && (char *)watch == a_watch, "memory: the watch is had");
    is_taken = true;
    return any_bool() ? WATCH_FILES : WATCH_LOOK;
}

bool watch_files(Watch *watch, const char *files, int profiles)
{
    (void)profiles;
    CHECK(has_watch && (char *)watch == a_watch, "memory: the watch is had");
    CHECK(!files || __CPROVER_r_ok(files, 1), "memory: files, or none");
    if (files && inotify < 0 && any_bool())
        inotify = some_file();
    return files && inotify >= 0 && any_bool();
}

int watch_descriptor(const Watch *watch)
{
    CHECK(has_watch && (const char *)watch == a_watch, "memory: the watch is had");
    return inotify;
}

/* ---- the system */

static bool is_set_clock; /* the clock was set for what comes, before anything is taken */

int epoll_create1(int flags)
{
    CHECK((flags & EPOLL_CLOEXEC) != 0, "descriptor: it is closed by exec");
    errno = EMFILE;
    return any_bool() ? some_file() : -1;
}

int timerfd_create(int clock, int flags)
{
    (void)clock;
    CHECK((flags & TFD_CLOEXEC) != 0, "descriptor: it is closed by exec");
    errno = EMFILE;
    return any_bool() ? some_file() : -1;
}

int epoll_ctl(int polled, int what, int file, struct epoll_event *event)
{
    CHECK(is_open(polled) && is_open(file) && what == EPOLL_CTL_ADD && event, "descriptor: both are open");
    errno = ENOSPC;
    return any_bool() ? 0 : -1;
}

int timerfd_settime(int file, int flags, const struct itimerspec *time, struct itimerspec *old)
{
    (void)old;
    CHECK(is_open(file), "descriptor: the clock is open");
    CHECK((flags & TFD_TIMER_ABSTIME) != 0 || time->it_value.tv_sec != 0 || time->it_value.tv_nsec != 0, "step: at a moment that the machine says, or soon");
    CHECK(!is_taken || is_set_clock, "order: the clock is set before anything is taken");
    errno = ENOMEM;
    is_set_clock = any_bool();
    return is_set_clock ? 0 : -1;
}

Notices *notices_of(DconfdbStore *at)
{
    CHECK(at == &store, "memory: a store");
    return &notices;
}

char *files_of(const DconfdbStore *at)
{
    CHECK(at == &store, "memory: a store");
    char *files = malloc(2);
    if (files)
        files[0] = files[1] = 0;
    return files;
}

const char *dconfdb_store_folder(const DconfdbStore *at)
{
    CHECK(at == &store, "memory: a store");
    return "/f";
}

int pthread_mutex_init(pthread_mutex_t *mutex, const pthread_mutexattr_t *kind)
{
    (void)mutex, (void)kind;
    return 0;
}

int pthread_mutex_destroy(pthread_mutex_t *mutex)
{
    CHECK(!is_held(mutex), "order: what goes is free");
    return 0;
}

bool refuse_file(DconfdbError *error, int fault, const char *name, Place place)
{
    (void)error, (void)place;
    CHECK(fault != 0 && name, "answer: a fault, of the folder");
    return false;
}

/* harness notices: unwind 5, quick */
int notices_(void)
{
    size_t size = 0;
    char *paths = NULL;
    notices_begin(&notices);
    int polled = any_bool() ? dconfdb_store_fd(&store, NULL) : -1;
    CHECK((polled >= 0) == (notices.watch != NULL) && (polled < 0 || (is_open(polled) && is_open(notices.clock))), "descriptor: all is had, or nothing");
    CHECK(polled >= 0 || only_open(-1, -1), "descriptor: a fault leaves nothing open");
    is_taken = is_set_clock = false;
    answered = 0;
    if (any_bool())
        paths = dconfdb_store_dispatch(&store, &size, NULL);
    CHECK(none_is_held(), "order: the mutex is given back");
    CHECK(!is_taken || answered > 0, "answer: what is heard is answered by a look");
    if (paths && polled >= 0)
        REACHED("it is told");
    free(paths);
    notices_end(&notices);
    CHECK(only_open(-1, -1) && !has_watch, "descriptor: each is closed");
    CHECK(references[0] == 0 && references[1] == 0, "memory: each snapshot is given back");
    return 0;
}
