/* A client's store: opened, looked at, left. */
#include "libdconf.h"

#include "dconfdb_calls.h"
#include "locked.h"

#include <poll.h>
#include <stdlib.h>
#include <string.h>
#include <unistd.h>

/* ---- the store */

static void keep(void *texts, const char *text)
{
    g_ptr_array_add(texts, g_strdup(text));
}

/* Of the store's files, and of what failed, or NULL: each fault once as long as it is there. */
static void warn_of_faults(Engine *self, const DconfdbError *error)
{
    g_autoptr(GPtrArray) texts = g_ptr_array_new_with_free_func(g_free);
    g_mutex_lock(&self->lock);
    warned_renew(&self->warned, self->store, error, self->source != NULL, keep, texts);
    g_mutex_unlock(&self->lock);
    for (guint i = 0; i < texts->len; i++)
        g_warning("%s", (const char *)texts->pdata[i]);
}

/* The environment is read when the client is made, and not again: the program may change it. */
static bool find_place(Engine *self, DconfdbError *error)
{
    StorePlace place;
    if (!place_find(NULL, &place, error))
        return false;
    g_mutex_lock(&self->lock);
    bool is_first = !self->place.folder;
    if (is_first)
        self->place = place;
    g_mutex_unlock(&self->lock);
    if (!is_first)
        place_release(&place);
    return true;
}

/* NULL: that fault. */
static const StorePlace *place_or_fault(Engine *self, DconfdbError *error)
{
    g_mutex_lock(&self->lock);
    bool has = self->place.folder != NULL;
    g_mutex_unlock(&self->lock);
    return has || find_place(self, error) ? &self->place : NULL;
}

const StorePlace *engine_place(Engine *self)
{
    DconfdbError error = DCONFDB_ERROR_INIT;
    const StorePlace *place = place_or_fault(self, &error);
    if (!place)
        warn_of_faults(self, &error);
    return place;
}

/* A bad file counts as what can be read of it. False: that fault. */
static bool open_store(Engine *self, DconfdbError *error)
{
    const StorePlace *place = place_or_fault(self, error);
    DconfdbStore *store = place ? place_open(place, DCONFDB_WATCHER_CLIENT, error) : NULL, *unused = store;
    g_mutex_lock(&self->lock);
    if (!self->store)
        self->store = g_steal_pointer(&unused);
    g_mutex_unlock(&self->lock);
    dconfdb_store_close(unused);
    return store != NULL;
}

/* ---- looks at the files */

/* A look, and what is known of it. */
typedef struct {
    DconfdbGlance known;
    DconfdbStore *store; /* NULL: none is open */
    DconfdbSnapshot *before, *after;
    DconfdbError error; /* by which it failed */
} Looking;

static void read_files(Engine *self, uint32_t task, Looking *it)
{
    bool has_changed = false;
    it->known.is_done = task == DCONFDB_GLANCE_REFRESH ? dconfdb_store_refresh(it->store, &has_changed, &it->error) : open_store(self, &it->error);
    it->known.is_shown = !has_changed;
}

/* Who reads asks the store for the newest by itself. */
static void hand_out(Engine *self, Looking *it)
{
    g_mutex_lock(&self->lock);
    it->after = self->store ? dconfdb_store_snapshot(self->store) : NULL;
    it->known.is_first = !it->before;
    it->known.is_other = it->before != it->after;
    it->known.waits = self->waiting || self->flying;
    g_mutex_unlock(&self->lock);
}

static void carry_out(Engine *self, uint32_t task, Looking *it)
{
    switch (task) {
    case DCONFDB_GLANCE_HAND:
        hand_out(self, it);
        break;
    case DCONFDB_GLANCE_HEED: /* what waits is to be overtaken by what others changed since it was asked for */
        heed_others(it->store, it->before, it->after);
        break;
    case DCONFDB_GLANCE_WATCH:
        engine_watch_anew(self);
        break;
    default:
        read_files(self, task, it);
    }
}

static void look(Engine *self, Looking *it)
{
    uint32_t task = DCONFDB_GLANCE_BEGINS;
    it->before = it->store ? dconfdb_store_snapshot(it->store) : NULL;
    it->known.keeps_profile = dconfdb_keeps_profile(DCONFDB_WATCHER_CLIENT);
    it->known.is_open = it->store != NULL;
    while ((task = dconfdb_glance_after(task, &it->known)) < DCONFDB_GLANCE_SEEN)
        carry_out(self, task, it);
    it->known.is_done = task == DCONFDB_GLANCE_SEEN;
    dconfdb_snapshot_unref(it->before);
    dconfdb_snapshot_unref(it->after);
}

/* `lock` is held. Whether something may have been told that nobody has looked at yet. */
static bool is_told(const Engine *self)
{
    struct pollfd file = {self->hearing.number - 1, POLLIN, 0};
    return file.fd < 0 || poll(&file, 1, 0) != 0;
}

/* `lock` is held. The system is asked what was told for who reads alone: it is proved that it counts for nobody else (told_counts_for_who_reads). A child of
 * fork() shares the descriptor with its parent, who may have taken it. */
static uint32_t look_due(const Engine *self, uint32_t looker)
{
    DconfdbLookKnown known = {
        .until = (uint64_t)self->hearing.until,
        .is_open = self->store != NULL,
        .is_watched = self->source != NULL,
        .is_whole = self->hearing.is_whole,
        .is_told = looker != DCONFDB_LOOKER_GETS || is_told(self),
        .is_own = self->hearing.process == getpid(),
        .is_busy = self->is_busy,
    };
    return dconfdb_look_due(looker, &known);
}

/* What becomes of a look. `number`: of those that have begun. */
static uint32_t begin_look(Engine *self, uint32_t looker, DconfdbStore **store, uint64_t *number)
{
    g_mutex_lock(&self->lock);
    uint32_t due = look_due(self, looker);
    bool begins = due == DCONFDB_LOOK_OPENS || due == DCONFDB_LOOK_NOW;
    self->is_to_look = self->is_to_look || due == DCONFDB_LOOK_LATER;
    self->looks += begins;
    self->begun += begins;
    *number = self->begun;
    *store = self->store;
    g_mutex_unlock(&self->lock);
    return due;
}

static void end_look(Engine *self, bool is_done, uint64_t number)
{
    g_mutex_lock(&self->lock);
    if (is_done)
        self->seen = number;
    if (--self->looks == 0)
        g_cond_broadcast(&self->looked);
    g_mutex_unlock(&self->lock);
}

/* Messages are logged after it: who gets them may change a setting. False: it failed, by that fault. */
static bool look_now(Engine *self, DconfdbStore *store, uint64_t number, DconfdbError *error)
{
    Looking it = {.store = store, .error = DCONFDB_ERROR_INIT};
    look(self, &it);
    end_look(self, it.known.is_done, number);
    warn_of_faults(self, it.known.is_done ? NULL : &it.error);
    if (!it.known.is_done)
        *error = it.error;
    return it.known.is_done;
}

/* False: it failed, by that fault, or is still to be made. */
static bool look_if_due(Engine *self, uint32_t looker, DconfdbError *error)
{
    DconfdbStore *store;
    uint64_t number;
    switch (begin_look(self, looker, &store, &number)) {
    case DCONFDB_LOOK_OPENS:
    case DCONFDB_LOOK_NOW:
        return look_now(self, store, number, error);
    case DCONFDB_LOOK_LATER:
        return false;
    default:
        return true;
    }
}

static DconfdbSnapshot *see(Engine *self, uint32_t looker)
{
    DconfdbError error;
    look_if_due(self, looker, &error);
    g_mutex_lock(&self->lock);
    DconfdbSnapshot *now = self->store ? dconfdb_store_snapshot(self->store) : NULL;
    g_mutex_unlock(&self->lock);
    return now;
}

bool engine_refresh(Engine *self)
{
    DconfdbError error;
    return look_if_due(self, DCONFDB_LOOKER_SEES, &error);
}

DconfdbSnapshot *engine_look(Engine *self)
{
    return see(self, DCONFDB_LOOKER_SEES);
}

DconfdbSnapshot *engine_newest(Engine *self)
{
    return see(self, DCONFDB_LOOKER_CHANGES);
}

DconfdbSnapshot *engine_current(Engine *self)
{
    return see(self, DCONFDB_LOOKER_GETS);
}

DconfdbStore *engine_store(Engine *self, DconfdbError *error)
{
    look_if_due(self, DCONFDB_LOOKER_OPENS, error);
    g_mutex_lock(&self->lock);
    DconfdbStore *store = self->store;
    g_mutex_unlock(&self->lock);
    return store;
}

void engine_begin_write(Engine *self)
{
    g_mutex_lock(&self->lock);
    self->is_busy = TRUE;
    while (self->looks > 0)
        g_cond_wait(&self->looked, &self->lock);
    g_mutex_unlock(&self->lock);
}

void engine_end_write(Engine *self)
{
    g_mutex_lock(&self->lock);
    gboolean is_to_look = self->is_to_look;
    self->is_busy = self->is_to_look = FALSE;
    g_mutex_unlock(&self->lock);
    if (is_to_look)
        engine_refresh(self);
}

gboolean engine_has_user(Engine *self)
{
    DconfdbError error;
    DconfdbStore *store = engine_store(self, &error);
    return store && dconfdb_store_user_file(store);
}

/* ---- its life */

/* `lock` is held. What a thread of the parent's works at is never freed here. */
static void leave_to_parent(Engine *self)
{
    g_clear_pointer(&self->waiting, dconf_changeset_unref);
    self->writing = self->flying = NULL;
    g_hash_table_remove_all(self->moments);
    self->has_thread = self->is_busy = self->is_to_look = FALSE;
    self->looks = 0;
}

uint32_t engine_begins_in(Engine *self)
{
    uint32_t process = (uint32_t)getpid();
    if (!dconfdb_is_at_work(false, self->process, process))
        leave_to_parent(self);
    return self->process = process;
}

uint32_t engine_begin_here(Engine *self)
{
    g_mutex_lock(&self->lock);
    uint32_t process = engine_begins_in(self);
    g_mutex_unlock(&self->lock);
    return process;
}

Engine *engine_new(DConfClient *client)
{
    Engine *self = g_atomic_rc_box_new0(Engine);
    g_weak_ref_init(&self->client, client);
    self->context = g_main_context_ref_thread_default();
    self->process = (uint32_t)getpid();
    g_mutex_init(&self->turn);
    g_mutex_init(&self->lock);
    g_cond_init(&self->looked);
    self->watched = g_hash_table_new_full(g_str_hash, g_str_equal, g_free, NULL);
    self->moments = g_hash_table_new_full(g_str_hash, g_str_equal, NULL, g_free);
    engine_has_user(self); /* opens it */
    return self;
}

Engine *engine_ref(Engine *self)
{
    return g_atomic_rc_box_acquire(self);
}

static void clear(gpointer data)
{
    Engine *self = data;
    /* The thread that had it last has let go of it, which a checker of races sees by the lock alone. */
    g_mutex_lock(&self->lock);
    g_mutex_unlock(&self->lock);
    g_weak_ref_clear(&self->client);
    g_main_context_unref(self->context);
    g_mutex_clear(&self->turn);
    g_mutex_clear(&self->lock);
    g_cond_clear(&self->looked);
    warned_end(&self->warned);
    g_hash_table_unref(self->watched);
    g_hash_table_unref(self->moments);
    g_clear_pointer(&self->waiting, dconf_changeset_unref);
    dconfdb_snapshot_unref(self->told);
    dconfdb_store_close(self->store);
    place_release(&self->place);
}

void engine_unref(Engine *self)
{
    g_atomic_rc_box_release_full(self, clear);
}
