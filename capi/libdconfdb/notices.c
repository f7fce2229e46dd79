/* Who wants to be told when a store changes: a file to poll, and what is different then. No thread is started. */
#define _GNU_SOURCE
#include "notices.h"
#include "errors.h"
#include "held.h"
#include "locked.h"

#include <errno.h>
#include <stdlib.h>
#include <sys/epoll.h>
#include <sys/timerfd.h>
#include <unistd.h>

enum { SECOND = 1000000, NANOSECONDS = 1000 };

static const struct timespec a_second = {1, 0}, at_once = {0, 1};

void notices_begin(Notices *it)
{
    *it = (Notices){.polled = -1, .inotify = -1, .clock = -1};
    pthread_mutex_init(&it->lock, NULL);
}

/* Back to where nobody has asked for it. */
static void stop(Notices *it)
{
    watch_free(it->watch);
    if (it->clock >= 0)
        close(it->clock);
    if (it->polled >= 0)
        close(it->polled);
    it->watch = NULL;
    it->polled = it->inotify = it->clock = -1;
}

void notices_end(Notices *it)
{
    stop(it);
    dconfdb_snapshot_unref(it->told);
    pthread_mutex_destroy(&it->lock);
}

/* ---- what is polled */

static bool add(const Notices *it, int file)
{
    struct epoll_event event = {.events = EPOLLIN};
    return epoll_ctl(it->polled, EPOLL_CTL_ADD, file, &event) == 0;
}

/* When the clock is readable next. If it can't be set, it stays as it is. */
static bool set_clock(const Notices *it, int flags, struct timespec when)
{
    const struct itimerspec time = {{0, 0}, when};
    return timerfd_settime(it->clock, flags, &time, NULL) == 0;
}

/* At that moment, for the next step; 0 is none. */
static bool set_clock_at(const Notices *it, int64_t due)
{
    return set_clock(it, TFD_TIMER_ABSTIME, (struct timespec){due / SECOND, due % SECOND * NANOSECONDS});
}

bool watch_store(Watch *watch, const DconfdbStore *store)
{
    char *files = files_of(store);
    bool is_whole = watch_files(watch, files, 0);
    free(files);
    return is_whole;
}

/* Watches the store's files. Where there was no inotify there may be by now. */
static void watch_anew(Notices *it, const DconfdbStore *store)
{
    bool is_whole = watch_store(it->watch, store);
    if (it->inotify < 0 && watch_descriptor(it->watch) >= 0 && add(it, watch_descriptor(it->watch)))
        it->inotify = watch_descriptor(it->watch);
    watch_answer(it->watch, is_whole && it->inotify >= 0);
}

/* The first dispatch is at once: what happened before the files were watched is not told by inotify. */
static bool begin(Notices *it, const DconfdbStore *store)
{
    it->watch = watch_new(DCONFDB_WATCHER_LIBRARY);
    errno = it->watch ? 0 : ENOMEM;
    if (it->watch)
        it->polled = epoll_create1(EPOLL_CLOEXEC);
    if (it->polled >= 0)
        it->clock = timerfd_create(CLOCK_MONOTONIC, TFD_CLOEXEC | TFD_NONBLOCK);
    if (it->clock < 0 || !add(it, it->clock) || !set_clock(it, 0, at_once))
        return false;
    watch_anew(it, store);
    return true;
}

int dconfdb_store_fd(DconfdbStore *store, DconfdbError *error)
{
    Notices *it = notices_of(store);
    int cancels = hold_cancellation();
    pthread_mutex_lock(&it->lock);
    if (!it->told)
        it->told = dconfdb_store_snapshot(store);
    if (!it->watch && !begin(it, store)) {
        refuse_file(error, errno, dconfdb_store_folder(store), nowhere);
        stop(it);
    }
    int polled = it->polled;
    pthread_mutex_unlock(&it->lock);
    cancel_as_before(cancels);
    return polled;
}

/* ---- what is told */

/* What differs from what was told last, and what becomes of that (DCONFDB_HANDED_*). Amid a change of another thread nobody looks. */
static char *differences(Notices *it, DconfdbStore *store, uint32_t *handed, size_t *size, DconfdbError *error)
{
    bool has_looked = false;
    DconfdbSnapshot *now = newest_unless_amid(store, &has_looked, error), *last = now;
    char *paths = now ? dconfdb_snapshot_differences(now, it->told, size, error) : NULL;
    *handed = dconfdb_handed(paths, has_looked);
    if (*handed != DCONFDB_HANDED_NOT) {
        last = it->told;
        it->told = now;
    }
    dconfdb_snapshot_unref(last);
    return paths;
}

/* Takes what happened, as who dispatches asks for a look. The clock comes first: if it can't be set nothing is taken, so that the file stays readable. */
static bool begin_look(Notices *it, DconfdbStore *store, DconfdbError *error)
{
    if (!it->watch)
        return true;
    if (!set_clock(it, 0, a_second)) {
        refuse_file(error, errno, dconfdb_store_folder(store), nowhere);
        return false;
    }
    if (watch_ask(it->watch) == WATCH_FILES)
        watch_anew(it, store);
    return true;
}

/* If the clock can't be set for that it is readable after the second. */
static void end_look(Notices *it, uint32_t handed)
{
    if (it->watch)
        (void)set_clock_at(it, watch_answer(it->watch, handed == DCONFDB_HANDED_WHOLE));
}

char *dconfdb_store_dispatch(DconfdbStore *store, size_t *size, DconfdbError *error)
{
    Notices *it = notices_of(store);
    char *paths = NULL;
    uint32_t handed;
    pthread_mutex_lock(&it->lock);
    if (!it->told)
        it->told = dconfdb_store_snapshot(store);
    if (begin_look(it, store, error)) {
        paths = differences(it, store, &handed, size, error);
        end_look(it, handed);
    }
    pthread_mutex_unlock(&it->lock);
    return paths;
}
