/* What others change is seen as the proved machine has it, and told; in the main thread, which waits for no write. */
#include "looked.h"
#include "service.h"

#include <glib-unix.h>
#include <limits.h>
#include <stdlib.h>
#include <sys/epoll.h>

static void go_on(Writer *writer);

/* ---- a look */

static void warn(void *it, const char *text)
{
    (void)it;
    g_printerr("dconfdb-service: %s\n", text);
}

/* A look, and what is known of it. */
typedef struct {
    Profiles profiles;
    DconfdbGlance known;
    DconfdbSnapshot *before; /* what listeners knew of; NULL: nothing was handed out */
    DconfdbError error;
} Looking;

/* Opens the store in the place of the one that is open. */
static bool open_anew(Writer *writer, Looking *it)
{
    DconfdbStore *store = store_named(writer->service, writer->name, &it->error);
    if (!store)
        return false;
    it->known.has_same_files = have_same_files(store, writer->store);
    store_take_over(store, writer->store);
    dconfdb_store_close(writer->store);
    writer->store = store;
    writer->seen = it->profiles;
    return true;
}

static void read_files(Writer *writer, uint32_t task, Looking *it)
{
    it->known.is_done = task == DCONFDB_GLANCE_REFRESH ? dconfdb_store_refresh(writer->store, NULL, &it->error) : open_anew(writer, it);
}

/* Tells what is new: after a look that failed nothing is. */
static void hand_out(Writer *writer, Looking *it)
{
    DconfdbSnapshot *now = dconfdb_store_snapshot(writer->store);
    it->before = dconfdb_snapshot_ref(writer->told);
    tell_others(writer, NULL, NULL, now);
    dconfdb_snapshot_unref(now);
    it->known.is_other = it->before != writer->told;
    it->known.waits = service_has_waiting(writer->service);
}

static void carry_out(Writer *writer, uint32_t task, Looking *it)
{
    switch (task) {
    case DCONFDB_GLANCE_HAND:
        hand_out(writer, it);
        break;
    case DCONFDB_GLANCE_HEED: /* a change that waits is to be overtaken by what others changed since it came */
        heed_others(writer->store, it->before, writer->told);
        break;
    case DCONFDB_GLANCE_WATCH:
        watch_opened_anew(writer->watch);
        break;
    default:
        read_files(writer, task, it);
    }
}

/* `turn` is held. False: it failed. */
static bool look(Writer *writer)
{
    Looking it = {.profiles = service_profiles(writer->service), .known = {.is_open = true}, .error = DCONFDB_ERROR_INIT};
    uint32_t task = DCONFDB_GLANCE_BEGINS;
    profiles_compare(&writer->seen, &it.profiles, &it.known);
    it.known.keeps_profile = dconfdb_keeps_profile(DCONFDB_WATCHER_SERVICE);
    while ((task = dconfdb_glance_after(task, &it.known)) < DCONFDB_GLANCE_SEEN)
        carry_out(writer, task, &it);
    dconfdb_snapshot_unref(it.before);
    warned_renew(&writer->warned, writer->store, it.known.is_done ? NULL : &it.error, true, warn, NULL);
    return task == DCONFDB_GLANCE_SEEN;
}

/* False: it is put off, as something is being written, and the other thread says when it was. */
static bool look_now(Writer *writer)
{
    g_atomic_int_set(&writer->is_to_look, TRUE);
    const DconfdbLookKnown known = {.is_open = true, .is_busy = !g_mutex_trylock(&writer->turn)};
    if (dconfdb_look_due(DCONFDB_LOOKER_SEES, &known) != DCONFDB_LOOK_NOW)
        return false;
    g_atomic_int_set(&writer->is_to_look, FALSE);
    bool is_done = look(writer);
    g_mutex_unlock(&writer->turn);
    watch_answer(writer->watch, is_done);
    return true;
}

static gboolean go_on_later(gpointer data)
{
    go_on(data);
    return G_SOURCE_REMOVE;
}

static gboolean hear(int file, GIOCondition condition, gpointer data);

/* Where `ears` can't have inotify again. */
static gboolean hear_itself(gpointer data)
{
    Writer *writer = data;
    g_clear_handle_id(&writer->hears, g_source_remove);
    writer->hears = g_unix_fd_add(watch_descriptor(writer->watch), G_IO_IN, hear, writer);
    return G_SOURCE_REMOVE;
}

/* Epoll wakes who polls it also for what it was asked to pass over: so inotify is taken out of it. */
void writer_writes(Writer *writer)
{
    int inotify = g_atomic_int_get(&writer->heard);
    writer->is_deaf = inotify >= 0 && epoll_ctl(writer->ears, EPOLL_CTL_DEL, inotify, NULL) == 0;
}

static void listen_again(Writer *writer)
{
    struct epoll_event event = {.events = EPOLLIN};
    writer->is_deaf = epoll_ctl(writer->ears, EPOLL_CTL_ADD, g_atomic_int_get(&writer->heard), &event) != 0;
    if (writer->is_deaf) {
        g_atomic_int_set(&writer->heard, -1);
        g_idle_add_full(G_PRIORITY_DEFAULT, hear_itself, writer, NULL);
    }
}

void writer_has_written(Writer *writer)
{
    if (writer->is_deaf)
        listen_again(writer);
    if (g_atomic_int_get(&writer->is_to_look))
        g_idle_add_full(G_PRIORITY_DEFAULT, go_on_later, writer, NULL);
}

/* ---- what is watched */

static gboolean hear(int file, GIOCondition condition, gpointer data)
{
    Writer *writer = data;
    (void)file;
    (void)condition;
    watch_hear(writer->watch);
    go_on(writer);
    return G_SOURCE_CONTINUE;
}

/* What the main loop polls: inotify by `ears`, which the other thread stops; or, where these can't be had, itself. */
static int ears_of(Writer *writer, int inotify)
{
    struct epoll_event event = {.events = EPOLLIN};
    if (epoll_ctl(writer->ears, EPOLL_CTL_ADD, inotify, &event) != 0)
        return inotify;
    g_atomic_int_set(&writer->heard, inotify);
    return writer->ears;
}

/* The files that are the store's now: the profiles may name others by then. */
static void begin(Writer *writer)
{
    const Service *service = writer->service;
    watch_answer(writer->watch, watch_begin_with(writer->watch, place_of(writer->store), service->files, service->profiles));
    if (writer->hears == 0 && watch_descriptor(writer->watch) >= 0)
        writer->hears = g_unix_fd_add(ears_of(writer, watch_descriptor(writer->watch)), G_IO_IN, hear, writer);
}

static gboolean pass_time(gpointer data)
{
    Writer *writer = data;
    writer->waits = 0;
    watch_pass_time(writer->watch, true); /* who listens to a bus isn't known */
    go_on(writer);
    return G_SOURCE_REMOVE;
}

/* Until something happens, or that moment. */
static void rest(Writer *writer, int64_t until)
{
    uint64_t wait = 0;
    g_clear_handle_id(&writer->waits, g_source_remove);
    if (dconfdb_sleep_until(0, (uint64_t)until, (uint64_t)g_get_monotonic_time(), &wait))
        writer->waits = g_timeout_add((guint)MIN(wait, INT_MAX), pass_time, writer);
}

static void go_on(Writer *writer)
{
    int64_t until = 0;
    for (;;) {
        switch (watch_step(writer->watch, &until)) {
        case WATCH_FILES:
            begin(writer);
            break;
        case WATCH_LOOK:
            if (!look_now(writer))
                return;
            break;
        case WATCH_REST:
            rest(writer, until);
            return;
        }
    }
}

void writer_watch(Writer *writer)
{
    if (writer->watch)
        go_on(writer);
    else
        warn(NULL, "no memory is left to watch the files: what others change isn't told");
}
