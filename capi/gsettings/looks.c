/* A look at the backend's files: what is seen is handed out, and faults are warned of. */
#define _GNU_SOURCE
#include "looks.h"

#include <string.h>

/* One that says nothing yet: of its text the first byte alone is cleared. */
void begin_error(DconfdbError *error)
{
    error->size = sizeof *error;
    error->code = DCONFDB_ERROR_NONE;
    error->outcome = DCONFDB_OUTCOME_KEPT;
    error->errnum = 0;
    error->edit = error->database = error->line = 0;
    error->text[0] = 0;
}

void warn_of(Notice *notice, const char *text)
{
    if (!notice->faults)
        notice->faults = g_ptr_array_new_with_free_func(g_free);
    g_ptr_array_add(notice->faults, g_strdup(text));
}

static void keep(void *notice, const char *text)
{
    warn_of(notice, text);
}

void warn_once(DconfdbBackend *self, Notice *notice, const DconfdbError *error)
{
    warned_renew(&self->told, self->store, error, g_atomic_int_get(&self->is_heard), keep, notice);
}

void warn_of_files(DconfdbBackend *self, Notice *notice)
{
    warned_renew_files(&self->told, self->store, keep, notice);
}

/* `lock` is held. */
static char **odd_keys(const DconfdbBackend *self)
{
    GHashTableIter at;
    gpointer odd;
    guint count = g_hash_table_size(self->odd);
    if (count == 0)
        return NULL;
    char **keys = g_new0(char *, 2 * count + 1);
    g_hash_table_iter_init(&at, self->odd);
    for (guint i = 0; i < count && g_hash_table_iter_next(&at, &odd, NULL); i++) {
        const char *type = odd, *path = strchr(type, ' ') + 1;
        keys[2 * i] = g_strdup(path);
        keys[2 * i + 1] = g_strndup(type, (size_t)(path - type) - 1);
    }
    return keys;
}

/* `lock` is held. Hands the newest snapshot to who reads, together with what no longer waits. */
void hand_newest(DconfdbBackend *self, Notice *notice)
{
    notice->edited = waiting_end_try(&self->waiting, &notice->taken, !notice->waits_again, &notice->gone);
    notice->odd = odd_keys(self);
    g_cond_broadcast(&self->settles);
    notice->before = self->now;
    notice->is_first = !self->has_opened;
    self->has_opened = true;
    if (self->store) {
        self->now = dconfdb_store_snapshot(self->store);
        self->has_user = dconfdb_store_user_file(self->store) != NULL;
    } else if (self->now) {
        dconfdb_snapshot_ref(self->now);
    }
    notice->after = self->now ? dconfdb_snapshot_ref(self->now) : NULL;
}

void renew(DconfdbBackend *self, Notice *notice)
{
    g_mutex_lock(&self->lock);
    hand_newest(self, notice);
    g_mutex_unlock(&self->lock);
}

/* Whether the newest snapshot is handed out already. */
bool is_shown(const DconfdbBackend *self)
{
    DconfdbSnapshot *newest = dconfdb_store_snapshot(self->store);
    bool is = newest == self->now;
    dconfdb_snapshot_unref(newest);
    return is;
}

/* A look, and what is known of it. */
typedef struct {
    uint64_t number;
    Profiles profiles;
    DconfdbGlance known;
    Notice *notice;
} Looking;

/* It may be found only now, and with it the profiles. */
static bool has_place(DconfdbBackend *self, Looking *it, DconfdbError *error)
{
    if (self->names)
        return true;
    bool has = store_find(self, error);
    it->profiles = profiles_now(self->names, self->profiles);
    return has;
}

/* Opens the store, also in the place of one that is open; where that fails, the old one stays. A bad file
 * stops no program: it counts as what can be read of it. */
static bool open_store(DconfdbBackend *self, Looking *it, DconfdbError *error)
{
    DconfdbStore *store = has_place(self, it, error) ? place_open(&self->place, DCONFDB_WATCHER_MODULE, error) : NULL, *old = self->store;
    if (!store)
        return false;
    if (old) {
        store_take_over(store, old);
        it->known.has_same_files = have_same_files(store, old);
    }
    g_mutex_lock(&self->lock);
    self->store = store;
    g_mutex_unlock(&self->lock);
    dconfdb_store_close(old);
    self->seen = it->profiles;
    return true;
}

static void read_files(DconfdbBackend *self, uint32_t task, Looking *it)
{
    DconfdbError error;
    begin_error(&error);
    bool done = task == DCONFDB_GLANCE_REFRESH ? dconfdb_store_refresh(self->store, NULL, &error) : open_store(self, it, &error);
    if (done)
        self->last_look = it->number;
    warn_once(self, it->notice, done ? NULL : &error);
    it->known.is_done = done;
    it->known.is_shown = done && is_shown(self);
}

/* What begins to wait later is newer than what was read. */
static void hand_out(DconfdbBackend *self, Looking *it)
{
    const Notice *notice = it->notice;
    renew(self, it->notice);
    it->known.is_first = !notice->before;
    it->known.is_other = notice->before != notice->after;
    it->known.waits = store_has_waiting(self);
}

/* `turn` is held. Somebody may wait for that; and another program may have written it, and not brought it to the disk. */
static void settle_what_is_there(DconfdbBackend *self)
{
    g_mutex_lock(&self->lock);
    if (waiting_settle(&self->waiting, self->now, may_be_settled(self))) {
        self->is_to_settle = true;
        g_cond_broadcast(&self->settles);
    }
    g_mutex_unlock(&self->lock);
}

/* The worker does. */
static void watch_anew(DconfdbBackend *self)
{
    g_atomic_int_set(&self->is_reopened, TRUE);
    g_mutex_lock(&self->lock);
    worker_wake(self);
    g_mutex_unlock(&self->lock);
}

static void carry_out(DconfdbBackend *self, uint32_t task, Looking *it)
{
    switch (task) {
    case DCONFDB_GLANCE_HAND:
        hand_out(self, it);
        break;
    case DCONFDB_GLANCE_HEED:
        heed_others(self->store, it->notice->before, it->notice->after);
        break;
    case DCONFDB_GLANCE_WATCH:
        watch_anew(self);
        break;
    case DCONFDB_GLANCE_SETTLE:
        settle_what_is_there(self);
        break;
    default:
        read_files(self, task, it);
    }
}

bool look(DconfdbBackend *self, Notice *notice)
{
    Looking it = {.number = atomic_fetch_add(&self->looks_begun, 1) + 1, .profiles = profiles_now(self->names, self->profiles), .notice = notice};
    uint32_t task = DCONFDB_GLANCE_BEGINS;
    profiles_compare(&self->seen, &it.profiles, &it.known);
    it.known.is_open = self->store != NULL;
    it.known.keeps_profile = dconfdb_keeps_profile(DCONFDB_WATCHER_MODULE);
    it.known.is_to_settle = notice->is_to_settle;
    while ((task = dconfdb_glance_after(task, &it.known)) < DCONFDB_GLANCE_SEEN)
        carry_out(self, task, &it);
    return task == DCONFDB_GLANCE_SEEN;
}
