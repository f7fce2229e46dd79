/* The parts of the service ca.desrt.dconf over libdconfdb. */
#ifndef SERVICE_H
#define SERVICE_H

#include "batch.h"
#include "dconfdb.h"
#include "dconfdb_calls.h"
#include "order.h"
#include "place.h"
#include "profiles.h"
#include "seen.h"
#include "warned.h"
#include "watch.h"

#include <gio/gio.h>
#include <pthread.h>

typedef struct Blame Blame;
typedef struct Writer Writer;

/* The main thread calls the bus, and sees what others change; one thread writes, and waits for the disk and for others' turns. GDBus's own thread
 * adds changes of databases that are in use. A writer's `turn` is taken before `lock`. */
typedef struct {
    StorePlace place;
    char *files; /* of the place: first those that may be the profile, so many */
    int profiles;
    GDBusConnection *bus;
    GDBusNodeInfo *interfaces;
    Blame *blame; /* NULL: nobody asked for it */
    GMainLoop *loop;
    GHashTable *writers; /* by their names; the main thread alone changes it, with `lock` */
    bool had_name, is_ending, has_failed;
    guint owner;

    GMutex reading; /* held while a change is read, which GDBus's thread may do while the other takes its turn; taken before `lock`, or tried */

    pthread_t thread;
    bool has_thread;
    DconfdbFailing failing; /* the thread's: a fault by which nothing can be written */
    int kept;               /* .. and the file that it replaced last, which it has open */
    uint64_t kept_until;    /* .. until that moment; 0: it has none */

    GMutex lock; /* held for moments. It guards: */
    GCond comes; /* more waits, or the end has come */
    GQueue waiting; /* of changes, the oldest first */
    GQueue taken; /* those that are written together, of one database; also until they are tried again */
    guint64 added, settled; /* how many changes ever came, and how many were answered, and told of */
    guint64 answered;       /* of those that aren't settled, how many a try that isn't over has answered */
    guint64 waiting_size; /* how many bytes those have that aren't */
    guint64 names; /* how many databases are in use */
    guint64 passing; /* how many changes are on their way to the main thread */
    gint64 again; /* when a write that failed is tried again; 0: none is */
    bool is_writing; /* the thread is amid a try: it alone answers what is taken */
    bool ends;
    uint32_t left; /* what is said of what wasn't settled when the end came, by DCONFDB_SERVED_LEFT */
} Service;

/* ---- what is asked for (changes.c) */

/* A set of changes, none of which is made where it is odd. What of it can be made is made, and the rest is left out. */
typedef struct {
    GList link; /* in the queue that has it */
    Writer *writer;
    GDBusMessage *call; /* NULL: it is answered */
    guint64 number;    /* of the writer's changes, in the order in which they came */
    uint64_t moment;   /* in which it came, by order_clock() */
    size_t size;       /* of what was sent, in that order of bytes */
    GDBusMessageByteOrder order;
    GVariant *asked;   /* as it was sent; once it is read, in normal form, and in one block, which the edits lend */
    bool is_read, is_normal;
    GArray *edits;     /* in the order of their paths' bytes, one of each: a directory's comes before those of what is in it */
    size_t resets;     /* how many of them reset a directory */
    GPtrArray *unfit;  /* paths that are too long to be a key's */
    GStringChunk *types;
    char *tag;         /* NULL: nobody has asked for it */
    size_t first;      /* the number of its first edit, of those of its run */
} Change;

/* It has the call, which came. */
Change *change_new(Writer *writer, GDBusMessage *call);

/* Once: its edits, unless its bytes are odd. The service's `reading` is held. */
void change_read(Change *change);
void change_free(Change *change);

/* Moves all of a queue behind those of another. */
static inline void move_all(GQueue *from, GQueue *to)
{
    while (from->length > 0)
        g_queue_push_tail_link(to, g_queue_pop_head_link(from));
}

/* What it is told by, and its caller as well. */
const char *change_tag(Change *change);

static inline const DconfdbEdit *edit_of(const Change *change, size_t at)
{
    return &g_array_index(change->edits, DconfdbEdit, at);
}

/* The edits of changes that are written together, so many: to be ended. Each change knows the number of its first. */
Batch batch_of(const GList *first, size_t count);

/* ---- a user's database by its name (stores.c, watching.c) */

struct Writer {
    Service *service;
    char *name, *object;
    guint64 count; /* of its changes; guarded by the service's `lock` */

    GMutex turn; /* held while files are looked at or changed, and told of. It guards: */
    DconfdbStore *store;
    DconfdbSnapshot *told; /* what listeners know of */

    Watch *watch;
    int ears;           /* epoll's, of inotify; -1: can't be had */
    gint heard;         /* inotify's, if it is by `ears`; else -1; atomic */
    bool is_deaf;       /* for the thread that writes, they don't have it now */
    guint hears, waits; /* sources, of what happens and of time; 0: none */
    Profiles seen;      /* when the store was opened */
    Warned warned;      /* the faults that were said, and are there still */
    gint is_to_look; /* the main thread looks when `turn` is free; atomic */
};

/* The files that may be the profile, as they are now. */
Profiles service_profiles(const Service *service);

/* The store in which the database of that name is the user's. NULL: it can't be opened. */
DconfdbStore *store_named(const Service *service, const char *name, DconfdbError *error);

/* NULL: it can't be opened. */
Writer *writer_named(Service *service, const char *name, DconfdbError *error);
void writer_free(Writer *writer);

/* In the main thread: sees what others change. */
void writer_watch(Writer *writer);

/* In the thread that writes: what happens to the files wakes nobody until it has written, since `turn` would be waited for. */
void writer_writes(Writer *writer);

/* `turn` was let go of. */
void writer_has_written(Writer *writer);

/* ---- who is told (told.c); `turn` is held */

/* Keys, each with its newest edit of those that are made together. */
typedef struct {
    GTree *edits;
    GPtrArray *resets; /* those that a directory's stands for */
} Newest;

void newest_begin(Newest *newest);
void newest_end(Newest *newest);

/* Tells a change that is made after those before, with its tag: the paths of which another value is seen by it. Its edits are in `made`. */
void tell_change(Writer *writer, Newest *newest, const GPtrArray *made, const char *tag);

/* Tells without a tag what is otherwise, in the newest settings, than all that was told before, and these paths. `newest`: of what was made since, of which
 * dconf's readers know already; or NULL. */
void tell_others(Writer *writer, const Newest *newest, const GPtrArray *left_out, DconfdbSnapshot *now);

/* ---- the thread that writes (writes.c) */

bool service_begin_writing(Service *service);

/* The user's file, before it is replaced. -1: none can be opened. (replaced.c) */
int replaced_open(const DconfdbStore *store);

/* Such a one is kept open for a second, and the one before isn't any longer. */
void replaced_keep(Service *service, int file);

/* Lets go of it, if that second is over. `lock` is held, and let go of meanwhile. */
void replaced_let_go(Service *service);

/* Of the main thread: it waits to be written. */
void service_add(Service *service, Change *change);

/* Of GDBus's own thread, a call for a change: whether it waits to be written. Else the main thread is to take it, and those that come after it: its
 * database isn't in use yet, or it is refused. */
bool service_takes(Service *service, const char *name, GDBusMessage *call);

/* Of the main thread: it has taken such a one. */
void service_has_passed(Service *service);

/* What is known of a change of so many bytes that comes now; of its database, nothing. */
DconfdbServed service_knows(Service *service, size_t size);

/* Whether a change isn't answered yet. */
bool service_has_waiting(Service *service);

/* Ends the thread. What still waits isn't written any more, and is answered so. False: the thread is left, amid a write, or in line for its
 * turn, in which it doesn't write any more. */
bool service_stop_writing(Service *service);

/* ---- the bus (bus.c, blame.c) */

/* False: it failed, which is told. */
bool bus_register(Service *service);

/* A call is answered once, and goes then: with words, or none (NULL); or by what became of its change, where `why` is said if that has no words of
 * its own. */
void call_answer(const Service *service, GDBusMessage *call, GVariant *words);
void call_refuse(const Service *service, GDBusMessage *call, uint32_t served, const char *why);

/* For `dconf blame`: who called, and what ran then. NULL: the environment doesn't ask for it. */
Blame *blame_new(void);
void blame_free(Blame *blame);
void blame_record(Blame *blame, GDBusMethodInvocation *call);
const char *blame_text(const Blame *blame);

/* ---- dconf's readers in place (flag.c) */

/* Programs with dconf's library that have this database's file mapped look at it again. `has_turn`: it is this program's between programs. */
void flag_readers(const Writer *writer, bool has_turn);

#endif
