/* The parts of libdconf.so.1 over libdconfdb. What a program calls is in dconf's own headers, <dconf.h>. */
#ifndef LIBDCONF_H
#define LIBDCONF_H

#include "dconfdb.h"
#include "dconfdb_calls.h"
#include "place.h"
#include "warned.h"

#include <dconf.h>
#include <unistd.h>

/* ---- a client's store (engine.c, reads.c) */

/* What the source of a client has heard of its files. */
typedef struct {
    int number; /* one more than the descriptor by which it is told; 0: none, or what was told is not looked at yet */
    int process; /* that has it */
    bool is_whole; /* it is told of all that happens to the files */
    gint64 until; /* when it looks again of itself; 0: once something is told */
} Hearing;

/* It outlives its client as long as something waits. `turn` is taken before `lock`. No signal is emitted while either
 * is held, and no message logged while `lock` is. */
typedef struct {
    GWeakRef client;
    GMainContext *context; /* signals come in it */
    gint is_reopened;      /* other files may be the store's, and are to be watched; atomic */

    GMutex turn; /* held while the store is changed, which may take long. It guards: */
    DconfdbFailing failing; /* what waits can't be written */

    GMutex lock;             /* held for moments. It guards: */
    uint32_t process;        /* whose is what waits, and who writes it */
    StorePlace place;        /* no folder: none was found yet. It stays the same */
    DconfdbStore *store;     /* NULL: it could not be opened yet. It stays the same */
    Warned warned;           /* the faults that were logged, and are there still */
    DConfChangeset *waiting; /* fast changes that nobody writes yet; NULL: none */
    DConfChangeset *flying;  /* fast changes that a thread writes */
    GHashTable *moments;     /* of each path in the two when it was asked for last */
    uint64_t asked;          /* how often one was */
    DConfChangeset *writing; /* what a thread writes, fast or not */
    gboolean is_busy;        /* its file is being replaced: nobody looks at the files, which would wait for the disk */
    gboolean is_to_look;     /* somebody wanted to, meanwhile */
    guint looks;             /* how many threads look at the files */
    uint64_t begun, seen;    /* how many looks have begun, and the number of the last one that succeeded */
    GCond looked;            /* none does */
    gboolean has_thread;     /* one writes what waits */
    GHashTable *watched;     /* paths, and how often each is watched */
    GSource *source;         /* NULL: nothing is watched */
    Hearing hearing;
    DconfdbSnapshot *told;   /* what listeners know of; NULL: nothing is watched, or no store could be opened yet */
} Engine;

/* Signals come in the context that is the thread's now. */
Engine *engine_new(DConfClient *client);
Engine *engine_ref(Engine *self);
void engine_unref(Engine *self);

/* The store; NULL: it can't be opened, by that fault. One warning says why, too. */
DconfdbStore *engine_store(Engine *self, DconfdbError *error);

/* What is seen of the files, a reference; NULL: the store can't be opened. It waits for no disk: as long as this client replaces the user's
 * file, it is what was seen before. Whether they are looked at, dconfdb_look_due says: for who wants to see them, who changes a setting, and
 * who reads one. */
DconfdbSnapshot *engine_look(Engine *self);
DconfdbSnapshot *engine_newest(Engine *self);
DconfdbSnapshot *engine_current(Engine *self);

/* Looks at the files. False: the store can't be opened, or the files can't be read now, or this client replaces the user's: a look
 * is still to be made. */
bool engine_refresh(Engine *self);

/* Where the store is; NULL: the environment names none, which is warned of once. */
const StorePlace *engine_place(Engine *self);

/* The user's file is about to be replaced; and it has been, or not. */
void engine_begin_write(Engine *self);
void engine_end_write(Engine *self);

/* Whether the profile has a user's database: without one nothing can be written. */
gboolean engine_has_user(Engine *self);

/* Whether somebody who sets something may write there. `process`: in which process the client began last. */
static inline bool is_open(uint32_t process, bool has_user)
{
    const DconfdbWriting known = {.begun_in = process, .process = (uint32_t)getpid(), .has_user = has_user};
    return dconfdb_is_open(&known);
}

/* The same of who writes what was set. */
static inline bool may_be_written(bool has_user)
{
    const DconfdbWriting known = {.has_user = has_user, .writes = true};
    return dconfdb_is_open(&known);
}

/* Before anything is read, waits or is written: in a child of fork() nothing waits yet, as what does is the parent's, and so is who writes it. Gives
 * the process in which the client begins. */
uint32_t engine_begin_here(Engine *self);

/* The same; `lock` is held. */
uint32_t engine_begins_in(Engine *self);

/* `lock` is held. The set of that number, as dconfdb_asked_after has it; NULL: it is empty. */
DConfChangeset *engine_set(Engine *self, size_t number, const GQueue *read_through);

GVariant *engine_read(Engine *self, const gchar *key, DConfReadFlags flags, const GQueue *read_through);

/* ---- changes (writes.c, fast.c) */

gboolean engine_change_fast(Engine *self, DConfChangeset *changes, GError **error);
gboolean engine_change_sync(Engine *self, DConfChangeset *changes, gchar **tag, GError **error);

/* Until what waits is written; or, if others keep it from that, for twenty seconds at most: those of a try that the
 * client's thread has begun, and of one more. */
void engine_sync(Engine *self);

/* ---- who listens (watches.c) */

void engine_watch(Engine *self, const gchar *path);

/* The store was opened: whoever watches watches its files. */
void engine_watch_anew(Engine *self);

/* False: it isn't watched. */
gboolean engine_unwatch(Engine *self, const gchar *path);
void engine_unwatch_all(Engine *self);

/* Whether what changed below this path, or at it, is told. */
gboolean engine_is_watched(Engine *self, const gchar *path);

/* ---- signals (notice.c) */

/* A set's paths, in one `changed`, later in the client's context; or before this returns, if it may be now, and this
 * thread may run that context. */
void notice_changed(Engine *self, DConfChangeset *changes, const gchar *tag, gboolean may_be_now);

/* What others changed since the last notice, but for what is being written: who writes that tells it. */
void notice_others(Engine *self);

#endif
