/* The store's files, watched by the worker: by inotify, or, where that can't be had, by a look each second. */
#include "gsettings.h"

#include <sched.h>

/* What is watched from here on was not looked at since: till then reads look for themselves. */
static void begin(DconfdbBackend *self)
{
    g_atomic_int_set(&self->is_watching, false);
    g_atomic_int_set(&self->is_heard, store_folder(self) && watch_begin(self->watch, &self->place));
    watch_answer(self->watch, g_atomic_int_get(&self->is_heard));
}

/* Until there is nothing to do but to rest. A look by another thread may have opened the store anew, also meanwhile. */
static void carry_out(DconfdbBackend *self)
{
    gint64 until;
    for (;;) {
        if (g_atomic_int_compare_and_exchange(&self->is_reopened, TRUE, FALSE))
            watch_opened_anew(self->watch);
        WatchStep step = watch_step(self->watch, &until);
        if (step == WATCH_REST) {
            g_atomic_int_set(&self->is_watching, g_atomic_int_get(&self->is_heard));
            return;
        }
        if (step == WATCH_FILES)
            begin(self);
        else
            watch_answer(self->watch, store_look(self));
    }
}

/* Who has written may wait for this processor to go on. */
void watch_take(DconfdbBackend *self)
{
    sched_yield();
    watch_hear(self->watch);
    carry_out(self);
}

static bool has_listeners(DconfdbBackend *self)
{
    g_mutex_lock(&self->lock);
    bool has = g_hash_table_size(self->subscribed) > 0;
    g_mutex_unlock(&self->lock);
    return has;
}

/* Where not all is watched each read looks by itself: without listeners nobody else is to. */
void watch_turn(DconfdbBackend *self)
{
    if (!self->watch)
        self->watch = watch_new(DCONFDB_WATCHER_MODULE);
    else
        watch_pass_time(self->watch, has_listeners(self));
    if (self->watch) /* else no memory is left: the next turn tries it again */
        carry_out(self);
}

int watch_file(const DconfdbBackend *self)
{
    return self->watch ? watch_descriptor(self->watch) : -1;
}

gint64 watch_next(DconfdbBackend *self)
{
    return self->watch ? watch_due(self->watch, has_listeners(self)) : 0;
}

void watch_end(DconfdbBackend *self)
{
    g_clear_pointer(&self->watch, watch_free);
}
