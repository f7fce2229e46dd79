/* The backend's store: opened, looked at, left. */
#define _GNU_SOURCE
#include "looks.h"

#include <stdlib.h>
#include <string.h>
#include <time.h>

/* In microseconds: how often a mutex is tried. */
enum { TRY = 1000 };

bool mutex_lock_until(GMutex *mutex, gint64 end)
{
    while (!g_mutex_trylock(mutex)) {
        if (g_get_monotonic_time() >= end)
            return false;
        g_usleep(TRY);
    }
    return true;
}

bool store_find(DconfdbBackend *self, DconfdbError *error)
{
    StorePlace place;
    bool are_all;
    self->names = place_find(NULL, &place, error) ? place_files(&place, &self->profiles, &are_all, error) : NULL;
    if (!self->names) {
        place_release(&place);
        return false;
    }
    self->place = place;
    g_atomic_pointer_set(&self->folder, place.folder);
    return true;
}

/* The environment is read now, as the program may change it, and again only where it names no place yet: who looks first says why. */
void store_begin(DconfdbBackend *self)
{
    store_find(self, NULL);
}

bool is_to_open(const DconfdbBackend *self)
{
    const DconfdbLookKnown known = {.is_open = self->has_opened};
    return dconfdb_look_due(DCONFDB_LOOKER_OPENS, &known) == DCONFDB_LOOK_OPENS;
}

/* Another thread may have opened it meanwhile. */
void store_open(DconfdbBackend *self)
{
    Notice notice = {.is_first = true};
    g_mutex_lock(&self->turn);
    if (is_to_open(self))
        look(self, &notice);
    g_mutex_unlock(&self->turn);
    notice_tell(self, &notice);
}

bool store_look(DconfdbBackend *self)
{
    Notice notice = {.faults = NULL};
    g_mutex_lock(&self->turn);
    bool done = look(self, &notice);
    g_mutex_unlock(&self->turn);
    notice_tell(self, &notice);
    return done;
}

/* The monotonic clock to some milliseconds, for a quarter of what the exact time costs. */
static gint64 coarse_time(void)
{
    struct timespec now;
    if (clock_gettime(CLOCK_MONOTONIC_COARSE, &now) != 0)
        return g_get_monotonic_time();
    return (gint64)now.tv_sec * G_USEC_PER_SEC + now.tv_nsec / 1000;
}

/* `lock` is held. When the next look is due, if this one is to be made; or 0. */
static gint64 next_look(const DconfdbBackend *self, uint32_t looker, gint64 now)
{
    uint64_t due = (uint64_t)atomic_load(&self->looks);
    return (gint64)dconfdb_next_look(looker, due, (uint64_t)now, self->has_opened, is_at_work(self),
                                     g_atomic_int_get(&self->is_watching));
}

/* Whether this thread is to look. */
static bool is_to_peek(DconfdbBackend *self)
{
    g_mutex_lock(&self->lock);
    gint64 next = next_look(self, DCONFDB_LOOKER_READS, coarse_time());
    if (next != 0)
        atomic_store(&self->looks, next);
    g_mutex_unlock(&self->lock);
    return next != 0;
}

/* It has opened the store, or tried to, and hears nothing. */
gint64 after_a_fault(gint64 now)
{
    return (gint64)dconfdb_next_look(DCONFDB_LOOKER_FAILED, 0, (uint64_t)now, true, true, false);
}

static void look_again_later(DconfdbBackend *self)
{
    g_mutex_lock(&self->lock);
    atomic_store(&self->looks, next_look(self, DCONFDB_LOOKER_FAILED, coarse_time()));
    g_mutex_unlock(&self->lock);
}

/* `turn` is held, and given back. A handler would run amid what the caller does, if this thread told. */
static void look_quietly(DconfdbBackend *self)
{
    Notice notice = {.faults = NULL};
    /* A file that can't be read is read again and again. */
    if (!look(self, &notice))
        look_again_later(self);
    g_mutex_unlock(&self->turn);
    notice_tell_elsewhere(self, &notice);
}

/* Another thread has `turn`: what that one has seen is handed out, if the proved call says so. Gives what comes next. */
static uint32_t go_on_barred(DconfdbBackend *self, uint32_t task, DconfdbGlance *known)
{
    Notice notice = {.faults = NULL};
    g_mutex_lock(&self->lock);
    known->is_open = self->store != NULL;
    known->is_amid = known->is_open && is_amid_change(self->store);
    known->is_shown = known->is_open && is_shown(self);
    uint32_t next = dconfdb_glance_after(task, known);
    if (next == DCONFDB_GLANCE_HAND)
        hand_newest(self, &notice);
    g_mutex_unlock(&self->lock);
    notice_tell_elsewhere(self, &notice);
    return next;
}

/* Who looks, and until when it waits for the turn. */
typedef struct {
    uint32_t looker;
    gint64 end;
} Looker;

static DconfdbGlance ask_for_turn(DconfdbBackend *self, const Looker *who)
{
    return (DconfdbGlance){.is_barred = !g_mutex_trylock(&self->turn),
                           .is_late = g_get_monotonic_time() >= who->end,
                           .is_reading = who->looker == DCONFDB_LOOKER_READS};
}

static DconfdbGlance ask_again(DconfdbBackend *self, const Looker *who)
{
    g_usleep(TRY);
    return ask_for_turn(self, who);
}

/* In a turn that it has by then. Where the worker writes, what it has seen in its own is as new: nobody else changes the user's file until it has
 * written. */
static void look_beside(DconfdbBackend *self, const Looker *who)
{
    DconfdbGlance known = ask_for_turn(self, who);
    uint32_t task = DCONFDB_GLANCE_BEGINS;
    while (known.is_barred && (task = go_on_barred(self, task, &known)) < DCONFDB_GLANCE_SEEN) {
        if (task == DCONFDB_GLANCE_AGAIN)
            known = ask_again(self, who);
    }
    if (!known.is_barred)
        look_quietly(self);
}

/* Who reads has no time until which it waits: that it doesn't, the proved call says. */
void store_peek(DconfdbBackend *self)
{
    const Looker reader = {DCONFDB_LOOKER_READS, G_MAXINT64};
    if (is_to_peek(self))
        look_beside(self, &reader);
}

void store_catch_up(DconfdbBackend *self)
{
    g_mutex_lock(&self->lock);
    const Looker teller = {DCONFDB_LOOKER_TELLS, next_look(self, DCONFDB_LOOKER_TELLS, g_get_monotonic_time())};
    g_mutex_unlock(&self->lock);
    if (teller.end != 0)
        look_beside(self, &teller);
}

void store_end(DconfdbBackend *self)
{
    Notice *notice;
    while ((notice = g_queue_pop_head(&self->untold)) != NULL)
        notice_tell_and_free(self, notice);
    warned_end(&self->told);
    dconfdb_snapshot_unref(self->now);
    dconfdb_store_close(self->store);
    free(self->names);
    place_release(&self->place);
}

void store_leave(DconfdbBackend *self)
{
    g_mutex_init(&self->turn);
    self->store = NULL;
    self->told = (Warned){NULL};
    self->has_worker = false;
    self->wakes = -1;
}
