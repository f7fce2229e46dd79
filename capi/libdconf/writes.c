/* How changes are made: sync ones by their caller, in its turn. */
#define _GNU_SOURCE
#include "writes.h"

#include "faults.h"

#include <unistd.h>

/* In microseconds. */
enum { MILLISECOND = 1000 };

/* ---- refusals */

gboolean refuse_locked(GError **error)
{
    g_set_error_literal(error, DCONF_ERROR, DCONF_ERROR_NOT_WRITABLE,
                        "The operation attempted to modify one or more non-writable keys");
    return FALSE;
}

/* ---- `turn` is held */

void set_writing(Engine *self, DConfChangeset *changes)
{
    g_mutex_lock(&self->lock);
    self->writing = changes;
    g_mutex_unlock(&self->lock);
}

void end_writing(Engine *self)
{
    notice_others(self);
    set_writing(self, NULL);
}

/* Waits for the turn to write, before anybody who reads is kept from the files. False: that fault. */
bool turn_begin(Engine *self, DconfdbStore *store, FolderLock *lock, Turn *turn)
{
    *turn = (Turn){.lock = lock,
                   .fault = folder_lock(dconfdb_store_folder(store), (int)(dconfdb_patience_for(DCONFDB_PATIENCE_ASKED) / MILLISECOND), lock)};
    if (turn->fault != 0)
        return false;
    engine_begin_write(self);
    return true;
}

void turn_end(Engine *self, FolderLock *lock)
{
    folder_unlock(lock);
    engine_end_write(self);
}

/* As dconfdb_store_change, with the turn to write: all counts as set now. */
static gboolean put(Engine *self, const Edits *edits, DconfdbError *fault)
{
    FolderLock lock;
    Turn turn;
    DconfdbStore *store = engine_store(self, fault);
    if (!store)
        return FALSE;
    if (!turn_begin(self, store, &lock, &turn))
        return refuse_lock(store, turn.fault, fault);
    gboolean is_done = locked_change(store, turn.lock, edit_at(edits, 0), NULL, edits->edits->len, NULL, fault);
    turn_end(self, &lock);
    return is_done;
}

/* ---- sync changes */

static gchar *new_tag(void)
{
    static gint count;
    return g_strdup_printf(":%d:dconfdb:%d", (int)getpid(), g_atomic_int_add(&count, 1));
}

/* A change whose caller waits for it. */
typedef struct {
    Engine *engine;
    uint32_t process; /* in which it was asked for */
    DConfChangeset *changes, *told; /* `told`: what they change */
    Edits edits;
    DconfdbSnapshot *now; /* what was there when their turn came; NULL: no store can be opened */
    gchar *tag; /* NULL: nothing was to be made */
    bool has_turn;
    DconfdbError fault;
    DconfdbChanging known;
} Change;

/* Whether something is set that may not be. A reset that may not does nothing, as dconf has it. */
static bool is_refused(const Change *self)
{
    const Edits *edits = &self->edits;
    DconfdbSnapshot *now = engine_look(self->engine);
    g_autofree DconfdbNewEdit *known = known_of(edits, is_open(self->process, engine_has_user(self->engine)), now);
    dconfdb_snapshot_unref(now);
    bool is_there;
    return dconfdb_entry(known, edits->edits->len, &is_there) == DCONFDB_ENTRY_REFUSED;
}

/* Once nothing waits: what is there of the changes, and what is left of them to be put. */
static void learn(Change *self)
{
    self->now = engine_look(self->engine);
    self->known.has_store = engine_store(self->engine, &self->fault);
    self->known.has_user = engine_has_user(self->engine);
    g_autofree DconfdbNewEdit *known = known_of(&self->edits, is_open(self->process, self->known.has_user), self->now);
    self->known.is_there = edits_are_there(known, self->edits.edits->len);
    self->told = effective(&self->edits, known, self->changes);
    leave_out(&self->edits, known);
    self->known.is_left = self->edits.edits->len > 0;
}

/* Whether a thread tries again to write what waits. */
static bool has_thread(Engine *engine)
{
    g_mutex_lock(&engine->lock);
    bool has = engine->has_thread;
    g_mutex_unlock(&engine->lock);
    return has;
}

/* Keeps others from its turn until it is over, and writes what was asked for before: that is before it in the store, too. */
static bool take_turn(Change *self)
{
    g_mutex_lock(&self->engine->turn);
    self->has_turn = true;
    self->tag = new_tag();
    if (!write_waiting(self->engine, has_thread(self->engine), &self->fault))
        return false;
    learn(self);
    set_writing(self->engine, self->changes);
    return true;
}

static bool carry_out(Change *self, uint32_t task)
{
    switch (task) {
    case DCONFDB_CHANGING_BEFORE:
        return take_turn(self);
    case DCONFDB_CHANGING_SETTLE: /* what another program wrote may not be on the disk yet */
        return settle_store(engine_store(self->engine, &self->fault), &self->fault);
    case DCONFDB_CHANGING_PUT:
        return put(self->engine, &self->edits, &self->fault);
    case DCONFDB_CHANGING_TELL:
        notice_changed(self->engine, self->told, self->tag, FALSE);
        return true;
    case DCONFDB_CHANGING_GIVE_UP:
        set_writing(self->engine, NULL);
        end_writing(self->engine);
        return true;
    default: /* DCONFDB_CHANGING_OTHERS */
        end_writing(self->engine);
        return true;
    }
}

/* What is known of what was carried out. */
static void learn_outcome(Change *self)
{
    const gchar *prefix = NULL;
    self->known.is_barred = answer_of_fault(&self->fault) == DCONFDB_QUEUE_LOCKED;
    self->known.is_news = self->told && dconf_changeset_describe(self->told, &prefix, NULL, NULL) > 0;
    self->known.is_watched = prefix && engine_is_watched(self->engine, prefix);
}

/* Gives what became of it. */
static uint32_t make(Change *self)
{
    bool yes = true;
    uint32_t task = DCONFDB_CHANGING_BEGINS;
    while ((task = dconfdb_changing_after(task, yes, &self->known)) < DCONFDB_CHANGING_MADE) {
        yes = carry_out(self, task);
        learn_outcome(self);
    }
    if (self->has_turn)
        g_mutex_unlock(&self->engine->turn);
    return task;
}

static void change_end(Change *self)
{
    edits_clear(&self->edits);
    g_free(self->tag);
    g_clear_pointer(&self->told, dconf_changeset_unref);
    dconfdb_snapshot_unref(self->now);
}

static gboolean answer(uint32_t outcome, const DconfdbError *fault, GError **error)
{
    switch (outcome) {
    case DCONFDB_CHANGING_MADE:
        return TRUE;
    case DCONFDB_CHANGING_REFUSED:
        return refuse_locked(error);
    default:
        g_set_error_literal(error, DCONF_ERROR, DCONF_ERROR_FAILED, fault->text);
        return FALSE;
    }
}

gboolean engine_change_sync(Engine *engine, DConfChangeset *changes, gchar **tag, GError **error)
{
    Change self = {.engine = engine, .process = engine_begin_here(engine), .changes = changes, .edits = edits_of(changes), .fault = DCONFDB_ERROR_INIT};
    self.known.is_empty = dconf_changeset_is_empty(changes);
    self.known.is_refused = is_refused(&self);
    self.known.has_store = engine_store(engine, &self.fault);
    self.known.has_user = engine_has_user(engine);
    gboolean is_done = answer(make(&self), &self.fault, error);
    if (is_done && tag)
        *tag = self.tag ? g_steal_pointer(&self.tag) : g_strdup("");
    change_end(&self);
    return is_done;
}
