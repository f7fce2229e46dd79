/* The parts of the GSettings backend over libdconfdb. */
#ifndef GSETTINGS_H
#define GSETTINGS_H

#define G_SETTINGS_ENABLE_BACKEND
#include "batch.h"
#include "dconfdb.h"
#include "dconfdb_calls.h"
#include "locked.h"
#include "looked.h"
#include "order.h"
#include "place.h"
#include "profiles.h"
#include "warned.h"
#include "watch.h"

#include <gio/gio.h>
#include <gio/gsettingsbackend.h>
#include <pthread.h>
#include <stdatomic.h>
#include <unistd.h>

/* ---- changes that wait (changes.c, waiting.c) */

/* Of an edit whose key no other edit has that waits. */
static const size_t NO_KEY = SIZE_MAX;

/* An edit of a key; without a value it removes the user's. The reset of a locked key is left out, and the others
 * of the change are made. */
typedef struct Edit {
    char *path; /* behind the edits of its change */
    size_t len; /* of the path */
    guint hash; /* of it, too */
    size_t key;    /* the number of its key, of those of which an edit waits */
    size_t number; /* its own, of the edits that wait: greater than those of older ones */
    size_t before; /* that of the newest edit of its key before it; 0: none */
    struct Change *change; /* that it is of */
    GVariant *value;
    DconfdbEdit asked; /* the same for the library: it lends the path and the value's bytes */
    bool is_left_out;
    bool may_be_written; /* as the newest snapshot has it, if that has this number: it is asked once */
    guint64 may_be_of;
} Edit;

/* Edits of which all are made, or none. */
typedef struct Change {
    GList link; /* in the queue of those that are written, or have gone */
    uint64_t set;    /* which of all sets it was */
    uint64_t moment; /* in which it was set, by order_clock() */
    bool asks;       /* nothing is seen otherwise by it: it is there already, unless others have changed it, and nobody noticed */
    bool is_taken;   /* to be written */
    bool is_refused; /* then, for a fault of its own */
    size_t count, most;
    DconfdbNewEdit *known; /* of each edit, behind them */
    char *room;            /* for the next path */
    Edit edits[];
} Change;

/* What waits, also while it is written. */
typedef struct {
    GArray *line;     /* of each change a DconfdbWaiter: they are written in the order that the proved call puts them in */
    guint taken;      /* how many of them somebody writes: the first */
    guint64 added;    /* how many changes ever waited */
    guint64 sets;     /* how many sets there were, those too that counted as one that waited */
    DconfdbTally tally; /* how many changes no longer wait */
    GHashTable *keys; /* a set of edits, one of each key, which has the number of that, by their paths */
    GPtrArray *edits; /* all but those that are left out, by their numbers less one */
    GArray *newest;   /* of each key the number of its newest edit, as the proved calls have it */
    const Edit *last; /* of those in `edits`; NULL if there is none */
    guint64 shown;    /* the number of the newest snapshot: how often one was handed out, and one more */
} Waiting;

/* Of a path of so many bytes, eight at a time: a path is hashed at each set, and at each read while something waits. */
guint path_hash(const char *path, size_t len);

/* With room for so many edits, and so many bytes of their paths, each with a zero byte. */
Change *change_new(size_t most, size_t paths);
void change_add(Change *change, const char *path, size_t len, GVariant *value);
void change_free(Change *change);

/* What becomes of the change, by the proved call, beside what waits and the newest snapshot, if there is one. Resets of
 * what may not be changed are left out; where nobody is at work that is all. */
uint32_t change_entry(Change *change, const Waiting *waiting, const DconfdbSnapshot *now, bool is_open);

/* The paths of the edits by which something else is seen, each with `value`: to be told. */
GTree *change_tree(const Change *change);
void changes_free(GQueue *changes);

/* Puts it behind those of a queue; it is in no other one. */
static inline void change_push(GQueue *changes, Change *change)
{
    change->link = (GList){.data = change, .prev = changes->tail};
    *(changes->tail ? &changes->tail->next : &changes->head) = &change->link;
    changes->tail = &change->link;
    changes->length++;
}

void waiting_begin(Waiting *waiting);
void waiting_end(Waiting *waiting);

/* Nothing began to wait since change_entry(). */
void waiting_add(Waiting *waiting, Change *change);

/* The edit that waits, and says what this change does, counts as set now. */
void waiting_renew(Waiting *waiting, const Change *change);

const Edit *waiting_find(const Waiting *waiting, const char *path);

/* Whether a change waits that nobody writes; and whether nobody knows of one whether it changes anything. */
bool waiting_is_any(const Waiting *waiting);
bool waiting_asks(const Waiting *waiting);

/* Forgets those of which the newest snapshot says that all is there, and that nothing else waits for. False: there are none. */
bool waiting_settle(Waiting *waiting, const DconfdbSnapshot *now, bool is_open);

/* A key at the moment when changes are forgotten: what its newest edit said before, and what that of
 * then says, if there is one. */
typedef struct {
    const char *path;
    GVariant *before, *after; /* NULL: a reset, or no edit */
    DconfdbEdit was, is;      /* the edits, which these and the path are lent to */
    bool is_edited;           /* an edit still waits */
} Edited;

/* Such keys, by their paths, in one block with these. */
typedef struct {
    size_t count;
    Edited all[];
} EditedKeys;

void edited_free(EditedKeys *keys);

/* All changes, to be written. They stay in the line, and are still found. */
GQueue waiting_take(Waiting *waiting);

/* When a snapshot is handed out, and it was tried to write those that were taken; `taken` is empty then. Those that are not written wait on, before all that
 * came since, or are overtaken: so no more of them wait than there are keys, however long that takes. It says what each key's newest edit was,
 * and is now, to be freed; or NULL. `gone` has those that no longer wait. */
EditedKeys *waiting_end_try(Waiting *waiting, GQueue *taken, bool is_written, GQueue *gone);

/* Makes the changes, and marks those that are refused, each for a fault of its own. What is to be told of that is in `refusal`, if it has a
 * number; it is told too where resets were left out since nobody may write there. False: the others are not written, by no fault of theirs,
 * which is in `fault`. They are to wait. */
bool changes_write(DconfdbStore *store, const Turn *turn, const GQueue *changes, DconfdbError *refusal, DconfdbError *fault);

/* ---- the backend */

/* How it comes to its turn (turn.c). */
typedef struct Wait Wait;

/* It lives as long as somebody has a reference. GLib keeps one to that which GSETTINGS_BACKEND names. `turn` is
 * taken before `lock`, and neither while a signal is sent, a warning printed, or another program waited for. fork()
 * takes `lock`; in the child `turn` is free, whoever had it. */
typedef struct {
    GSettingsBackend parent;
    pid_t process; /* differs in a child, after fork() */
    GVariant *types;
    char *folder; /* of `place`; NULL: none is found yet; atomic. After it all of these stay as they are: */
    StorePlace place;
    char *names; /* of the store's files; first those that may be the profile, which are so many */
    int profiles;

    GMutex turn;         /* held while files are looked at or changed. It guards: */
    DconfdbStore *store; /* NULL: it isn't opened yet, or could not be. Changed with `lock` held, too */
    Profiles seen;       /* as they were then */
    uint64_t last_look;  /* the number of the last look at the files that succeeded */
    DconfdbFailing failing; /* by no fault of a change: since when nothing can be written */
    Warned told;         /* the faults of files that were reported and are there still */

    /* Read with `turn` or `lock` held, changed with both. */
    bool has_opened;      /* the first opening is over; it may have failed */
    DconfdbSnapshot *now; /* NULL: no store is open yet, or none could be opened */
    bool has_user;        /* there is a user's database */

    GMutex lock; /* held for moments. It guards: */
    Waiting waiting;
    GHashTable *odd; /* a set: keys that were read past a value of another type, each behind the type that was asked for and a space */
    guint64 tries, failed;  /* how often a write was tried, and which was the last that failed after others had for long; 0: none */
    guint64 last_try;       /* the program's end takes it for given if a later one fails so */
    bool is_asked;          /* a write is to be tried now */
    bool is_to_settle;      /* what was set was there already: a sync brings it to the disk */
    GCond settles;          /* more are settled, or a try has failed so */
    bool has_ended;
    GHashTable *subscribed;
    GHashTable *asked;  /* main contexts that are to say whether they turn */
    bool has_turned;    /* one does */
    GQueue untold;      /* notices that the worker is to tell */
    bool has_worker;
    bool is_over; /* it does nothing more */
    bool is_left; /* nobody else holds the backend: the worker does, as long as something waits */
    pthread_t worker;
    int wakes; /* what wakes it; -1: nothing yet */

    _Atomic uint64_t looks_begun; /* how many */
    gint has_work;    /* the worker has, as the proved call says; atomic */
    gint is_reopened; /* other files may be the store's, and are to be watched; atomic */
    gint is_let_go;   /* nobody holds the backend any longer; atomic */
    gint has_given_up; /* the worker, at the program's end; atomic */
    gint is_watching; /* what others change is noticed without a look at the files; atomic */
    gint is_heard;    /* what happens to the files is told; from when what is owed then is looked at, `is_watching`; atomic */
    _Atomic gint64 looks; /* before that moment no read looks at the files, as the proved call has it */

    gint64 again; /* for the worker alone, as what follows: when a write is tried again; 0: none is */
    Wait *wait;   /* NULL: no turn is waited for */
    Watch *watch;
} DconfdbBackend;

/* Takes a mutex, if that is possible until then. Nothing is waited for but the time. */
bool mutex_lock_until(GMutex *mutex, gint64 end);

/* ---- the store (store.c, writes.c) */

/* Finds its place, from the environment. */
void store_begin(DconfdbBackend *self);

/* The same with `turn` held, where it isn't found yet. False: there is none now. */
bool store_find(DconfdbBackend *self, DconfdbError *error);

/* Its folder; NULL: its place isn't found yet. */
static inline const char *store_folder(const DconfdbBackend *self)
{
    return g_atomic_pointer_get((char **)&self->folder); /* only read */
}

/* Whether it is to be opened for the first time, as the proved call has it; `turn` or `lock` is held. */
bool is_to_open(const DconfdbBackend *self);

/* Opens it for the first time, if nobody has: the worker does, or whoever needs a snapshot sooner. */
void store_open(DconfdbBackend *self);

/* Writes what waits, as one change, in that turn, which it gives back; what is refused is taken back. Where the disk is full or fails it goes on
 * waiting. Gives when the worker is to try it again, or 0. */
gint64 store_write(DconfdbBackend *self, const Turn *turn);

/* Looks at the files, where nobody told of them since a set was made: what is older than the set is seen before its turn. What is
 * there already by the newest files is settled without a turn. */
void store_settle(DconfdbBackend *self);

/* Both, as far as they are due, by who has no worker, or is it: it waits for others until then, and one failure is told as those that go on. */
void store_write_alone(DconfdbBackend *self, gint64 end);

bool store_has_waiting(DconfdbBackend *self);

/* Looks at the files, and notifies of every difference; of a first opening, of nothing. False: they can't be read now, or the environment names
 * no place for a store. For the worker. */
bool store_look(DconfdbBackend *self);

/* The same for who reads where nothing is watched: it waits for nobody who looks or writes, but sees what who writes has seen. The worker tells. */
void store_peek(DconfdbBackend *self);

/* The same for who is about to tell of a change by itself: it waits for who looks, a fifth of a second at most, and for no write. */
void store_catch_up(DconfdbBackend *self);

/* When a wait that failed is made again by who works. */
gint64 after_a_fault(gint64 now);

/* Until what waits is written, and the files are looked at: ten seconds at most, and as long again after each turn of other
 * programs, up to a minute. Where the disk goes on being full or failing, until one more write has failed. False: it isn't
 * yet. */
bool store_sync(DconfdbBackend *self);

/* Frees all that it holds. */
void store_end(DconfdbBackend *self);

/* In a child of fork(), with `lock` held: what `turn` guards is the parent's, and may be half
 * changed. The child opens a store of its own if it has no snapshot. */
void store_leave(DconfdbBackend *self);

/* ---- the turn to write (turn.c), by the worker; neither mutex is held */

/* Takes the turn, or goes on waiting for it, until then. It has no lock as long as others have theirs, which its fault says, too: the
 * worker is woken when it comes. `at` is the worker's `wait`, or, of another thread (`is_worker` false), one of its own. */
Turn turn_take(DconfdbBackend *self, Wait **at, bool is_worker, gint64 end);

/* When the worker is to ask again without being woken; 0: never. */
gint64 turn_next(const DconfdbBackend *self);

/* Ends a turn that turn_take gave, be it with a fault; or forgets that there is none. */
void turn_give(Wait **at);

/* Where nothing waits any longer, as it is there without a turn: the worker gives the turn back, now or when it is called again after the turn has
 * come. */
void turn_leave(DconfdbBackend *self);

/* How long something that waits for its turn is waited for, by who waits, as dconfdb_patience_for has it. Neither call takes a lock or memory. */
DconfdbPatience patience_of(const DconfdbBackend *self, uint32_t who);

/* Whether it goes on, by what was written: `failed` and `settled` are from now, the others from when the wait began. */
bool patience_goes_on(DconfdbPatience *patience, guint64 settled, guint64 added, guint64 failed, guint64 tries);

/* To be called now and then: it is renewed if there was a turn since the last call. */
void patience_renew(DconfdbPatience *patience, const DconfdbBackend *self);

/* ---- the thread that writes and watches (worker.c), and its end (ends.c); `lock` is held */

/* Whether it sets, writes and watches: it hasn't ended, and this is no child of fork(), which has no such thread, and whose parent writes what
 * waits. */
static inline bool is_at_work(const DconfdbBackend *self)
{
    return dconfdb_is_at_work(self->has_ended, (uint32_t)self->process, (uint32_t)getpid());
}

/* Whether somebody who sets something may write in the user's database. */
static inline bool is_open(const DconfdbBackend *self)
{
    const DconfdbWriting known = {.begun_in = (uint32_t)self->process, .process = (uint32_t)getpid(), .has_ended = self->has_ended, .has_user = self->has_user};
    return dconfdb_is_open(&known);
}

/* The same of who settles what waits; no write is under way. */
static inline bool may_be_settled(const DconfdbBackend *self)
{
    const DconfdbWriting known = {.has_user = self->has_user, .writes = true};
    return dconfdb_is_open(&known);
}

/* What is known of what waits; also before a write begins. */
void know_what_waits(const DconfdbBackend *self, DconfdbRound *known);
void know_before_write(const DconfdbBackend *self, DconfdbRound *known);

/* What is asked of it: to be there; `is_news`, to see to something new; `adds`, to write what begins to wait, and `waits`, something did before;
 * `is_owed`, which else is done by who asks. Or somebody listens who didn't, or
 * whose main context didn't turn. */
typedef struct {
    bool is_wanted, is_news, adds, waits, is_owed, listens;
} Need;

/* Begins it, and wakes it, as the proved call says, whose last word it gives: DCONFDB_NEED_TOLD, it sees to what is new; DCONFDB_NEED_HERE, who asks
 * is to do it. */
uint32_t worker_need(DconfdbBackend *self, const Need *need);

/* If there is one. */
void worker_wake(DconfdbBackend *self);

/* Whether this thread is it. */
bool worker_is_this(const DconfdbBackend *self);

/* `lock` isn't held. At the program's end: until what waits is written, five seconds at most, and as long again after each turn
 * of other programs, up to a minute. Where the disk goes on being full or failing, until one more write has failed. */
void worker_end(DconfdbBackend *self);

/* The same where it isn't even known which backends there are; that process made the last one. */
void worker_end_unseen(uint32_t begun_in);

/* The same where nobody holds the backend any longer. False: the worker holds it as long as something waits. */
bool worker_let_go(DconfdbBackend *self);

/* ---- the files that are watched (watch.c), by the worker */

/* Begins, or looks at the files, where it is time. */
void watch_turn(DconfdbBackend *self);

/* What is readable when something happens, or -1; and the moment of the next turn, or 0. */
int watch_file(const DconfdbBackend *self);
gint64 watch_next(DconfdbBackend *self);

/* Takes what happened. */
void watch_take(DconfdbBackend *self);
void watch_end(DconfdbBackend *self);

/* ---- notices (notice.c) */

/* What happened in a turn. */
typedef struct {
    DconfdbSnapshot *before, *after;
    bool is_first; /* the store was opened: nobody has seen another one */
    bool waits_again; /* what was taken could not be written */
    bool is_to_settle; /* of something that waits nobody knows whether it changes anything: it is settled if it is there by the files that are read */
    GQueue taken;     /* changes of ours that are being written */
    GQueue gone;      /* and those that no longer wait */
    EditedKeys *edited;      /* keys that an edit of ours was for; NULL: none */
    char **odd;              /* keys that were read past a value of another type, and that type, each pair in turn; NULL: none */
    GPtrArray *faults;       /* to warn of; NULL: none */
} Notice;

/* Notifies, and frees what the notice holds. */
void notice_tell(DconfdbBackend *self, Notice *notice);

/* The same, and frees the notice. */
void notice_tell_and_free(DconfdbBackend *self, Notice *notice);

/* The same, but what is told is told by the worker, if there is one. */
void notice_tell_elsewhere(DconfdbBackend *self, Notice *notice);

/* The worker notifies, and what the notice holds is its own; without one, this thread. `is_news`: there is something to be told, or warned of. */
void worker_tells(DconfdbBackend *self, Notice *notice, bool is_news);

/* Warns. When the program ends, what it warns by may be gone. */
void say(DconfdbBackend *self, const char *text);

#endif
