/* Fast changes wait, and a thread of their own writes them. */
#define _GNU_SOURCE
#include "writes.h"

#include "edit_with.h"
#include "seen.h"
#include "threads.h"

#include <string.h>
#include <unistd.h>

/* In microseconds. */
enum { MILLISECOND = 1000 };

/* Gives whether what waited is written. `again`: when it is tried again. */
static bool flush(Engine *self, gboolean tries_again, DconfdbError *fault, uint64_t *again)
{
    g_mutex_lock(&self->turn);
    bool is_written = write_waiting(self, tries_again, fault);
    *again = dconfdb_wakes(&self->failing, false);
    g_mutex_unlock(&self->turn);
    return is_written;
}

static void carry_out(Engine *self, uint32_t task, DconfdbRound *known)
{
    DconfdbError fault = DCONFDB_ERROR_INIT;
    switch (task) {
    case DCONFDB_ROUND_TAKE: /* who writes does */
        known->has_asked = true;
        break;
    case DCONFDB_ROUND_WRITE:
        flush(self, TRUE, &fault, &known->again);
        break;
    default: /* DCONFDB_ROUND_LEAVE */
        known->again = 0;
    }
}

/* The task that is due after that one. Whoever lets something wait later begins a thread once this one is over. */
static uint32_t after(Engine *self, uint32_t task, DconfdbRound *known)
{
    g_mutex_lock(&self->lock);
    known->waits = self->waiting != NULL;
    uint32_t next = dconfdb_round_after(task, known);
    self->has_thread = next != DCONFDB_ROUND_ENDS;
    g_mutex_unlock(&self->lock);
    return next;
}

/* Does what is due, as the proved call says. False: nothing waits. */
static bool takes_turn(Engine *self, DconfdbRound *known)
{
    uint32_t task = DCONFDB_ROUND_BEGINS;
    known->moment = (uint64_t)g_get_monotonic_time();
    known->has_asked = false;
    while ((task = after(self, task, known)) < DCONFDB_ROUND_RESTS)
        carry_out(self, task, known);
    return task == DCONFDB_ROUND_RESTS;
}

static void rest(const DconfdbRound *known)
{
    uint64_t wait = 0;
    dconfdb_sleep_until(known->again, 0, (uint64_t)g_get_monotonic_time(), &wait);
    g_usleep((gulong)wait * MILLISECOND);
}

/* It ends once nothing waits; till then nothing is given up. */
static void *write_behind(void *data)
{
    Engine *self = data;
    DconfdbRound known = {.last_try = UINT64_MAX, .ends = true, .is_watched = true};
    pthread_setname_np(pthread_self(), "dconf");
    while (takes_turn(self, &known))
        rest(&known);
    engine_unref(self);
    return NULL;
}

/* `lock` is held. */
static bool begin_thread(Engine *self)
{
    pthread_t thread;
    if (!thread_begin(&thread, write_behind, engine_ref(self))) {
        engine_unref(self);
        return false;
    }
    pthread_detach(thread);
    return true;
}

/* `lock` is held. */
static DconfdbWriter known_now(const Engine *self)
{
    return (DconfdbWriter){.begun_in = self->process, .process = (uint32_t)getpid()};
}

/* A thread writes what waits, or this one, where none can be had. */
static void have_written(Engine *self)
{
    DconfdbError fault = DCONFDB_ERROR_INIT;
    uint32_t task = DCONFDB_WRITER_BEGINS;
    uint64_t again;
    g_mutex_lock(&self->lock);
    DconfdbWriter known = known_now(self);
    known.has_wake = true; /* one that is there asks what waits by itself, until nothing does */
    known.is_wanted = known.is_owed = true;
    known.has_thread = self->has_thread;
    while ((task = dconfdb_writer_after(DCONFDB_WRITER_NEED, task, true, &known)) < DCONFDB_NEED_TOLD) {
        self->has_thread = begin_thread(self);
        known.has_thread = self->has_thread;
    }
    g_mutex_unlock(&self->lock);
    if (task == DCONFDB_NEED_HERE)
        flush(self, FALSE, &fault, &again);
}

static gboolean is_no_value_below(const gchar *path, GVariant *value, gpointer directory)
{
    const uint8_t *bytes = directory, *others = (const uint8_t *)path;
    return !value || dconfdb_row_effect(bytes, strlen(directory), false, false, others, strlen(path)) != DCONFDB_ROW_GOES;
}

/* Whether it sets a key for which the reset of the path stands: a key's for none, as is proved of the call (a_key_stands_for_itself). */
static bool has_value_below(DConfChangeset *set, const gchar *path)
{
    return dconf_is_dir(path, NULL) && !dconf_changeset_all(set, is_no_value_below, (gpointer)path);
}

/* What a set says of an edit's path, or none. */
static DconfdbSaid said_of(DConfChangeset *set, const gchar *path, GVariant *value)
{
    g_autoptr(GVariant) found = NULL;
    if (!set)
        return (DconfdbSaid){.says = false};
    bool says = dconf_changeset_get(set, path, &found);
    return (DconfdbSaid){says, are_same_values(found, value), has_value_below(set, path)};
}

/* `lock` is held. Whether the user has that already, or will have once what waits is written. */
static bool is_redundant(Engine *self, const DconfdbSnapshot *now, const DconfdbEdit *edit, GVariant *value)
{
    DconfdbSaid said[DCONFDB_ASKED_WAITING];
    size_t count = 0, number;
    while ((number = dconfdb_asked_after(DCONFDB_ASKED_WAITING, count)) != DCONFDB_ASKED_STORE)
        said[count++] = said_of(engine_set(self, number, NULL), edit->path, value);
    return dconfdb_is_said(said, count, dconfdb_snapshot_has_edit(now, edit));
}

/* `lock` is held. What becomes of the changes beside what waits. */
static DconfdbFast known_beside(Engine *self, bool has_user, const DconfdbSnapshot *now, const Edits *edits, DConfChangeset *changes)
{
    /* One more: the calls want a place also where there is none. */
    g_autofree DconfdbNewEdit *known = g_new0(DconfdbNewEdit, edits->edits->len + 1);
    for (guint at = 0; at < edits->edits->len; at++) {
        const DconfdbEdit *edit = edit_at(edits, at);
        g_autoptr(GVariant) value = NULL;
        dconf_changeset_get(changes, edit->path, &value);
        known[at] = known_by_rights(edit, is_open(self->process, has_user), now);
        known[at].is_same = is_redundant(self, or_nothing(now), edit, value);
    }
    bool is_there;
    uint32_t entry = dconfdb_entry(known, edits->edits->len, &is_there);
    return (DconfdbFast){.is_refused = entry == DCONFDB_ENTRY_REFUSED,
                         .is_empty = entry == DCONFDB_ENTRY_EMPTY,
                         .is_news = entry == DCONFDB_ENTRY_WAITS};
}

/* `lock` is held. */
static void add_waiting(Engine *self, const Edits *edits, DConfChangeset *changes)
{
    if (!self->waiting)
        self->waiting = dconf_changeset_new();
    dconf_changeset_change(self->waiting, changes);
    ask_now(self, edits);
}

/* Finds out what becomes of the changes, and lets them wait, if that comes. Gives the task that is due then. */
static uint32_t begin(Engine *self, const DconfdbSnapshot *now, const Edits *edits, DConfChangeset *changes, DconfdbFast *known)
{
    bool has_user = engine_has_user(self);
    g_mutex_lock(&self->lock);
    *known = known_beside(self, has_user, now, edits, changes);
    uint32_t task = dconfdb_fast_after(DCONFDB_FAST_BEGINS, known);
    if (task == DCONFDB_FAST_ADD) {
        add_waiting(self, edits, changes);
        task = dconfdb_fast_after(task, known);
    }
    g_mutex_unlock(&self->lock);
    return task;
}

/* Whether they wait, or there is nothing to be made. */
static gboolean take(Engine *self, const DconfdbSnapshot *now, const Edits *edits, DConfChangeset *changes, GError **error)
{
    DconfdbFast known;
    uint32_t task = begin(self, now, edits, changes, &known);
    for (; task < DCONFDB_FAST_MADE; task = dconfdb_fast_after(task, &known)) {
        if (task == DCONFDB_FAST_WRITE)
            have_written(self);
        else /* DCONFDB_FAST_TELL */
            notice_changed(self, changes, NULL, TRUE);
    }
    return task == DCONFDB_FAST_MADE || refuse_locked(error);
}

gboolean engine_change_fast(Engine *self, DConfChangeset *changes, GError **error)
{
    engine_begin_here(self);
    DconfdbSnapshot *now = engine_newest(self);
    Edits edits = edits_of(changes);
    gboolean is_done = take(self, now, &edits, changes, error);
    edits_clear(&edits);
    dconfdb_snapshot_unref(now);
    return is_done;
}

/* Tries to write what waits, with what was there already brought to the disk; a thread's own try is over then. `begun`: how many looks had. */
static void try_to_sync(Engine *self, uint64_t begun, DconfdbWriter *known, DconfdbError *fault)
{
    uint64_t again;
    known->settled = flush(self, FALSE, fault, &again);
    g_mutex_lock(&self->lock);
    known->sync.has_looked = dconfdb_has_looked_since(begun, self->seen);
    g_mutex_unlock(&self->lock);
}

/* All that waits is one, and nobody else has the turn to look. */
void engine_sync(Engine *self)
{
    DconfdbError fault = DCONFDB_ERROR_INIT;
    uint32_t task = DCONFDB_WRITER_BEGINS;
    g_mutex_lock(&self->lock);
    engine_begins_in(self);
    DconfdbWriter known = known_now(self);
    uint64_t begun = self->begun;
    known.sync.has_store = self->place.folder != NULL;
    g_mutex_unlock(&self->lock);
    known.added = 1;
    while ((task = dconfdb_writer_after(DCONFDB_WRITER_SYNC, task, true, &known)) < DCONFDB_SYNC_YES) {
        if (task == DCONFDB_SYNC_WRITE)
            try_to_sync(self, begun, &known, &fault);
        else if (task == DCONFDB_SYNC_LOOK)
            engine_refresh(self);
    }
    if (task == DCONFDB_SYNC_NO)
        g_warning("what was changed is not on the disk yet, and goes on waiting: %s", fault.text);
}
