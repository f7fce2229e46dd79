/* The worker's turn to write. As long as others have theirs a thread of its own waits in the kernel, where nobody is
 * passed over, and the worker goes on seeing and telling what they change. */
#define _GNU_SOURCE
#include "gsettings.h"
#include "threads.h"

#include <errno.h>

struct Wait {
    DconfdbBackend *backend;
    FolderLock lock;
    DconfdbFailing failing; /* others have their turn */
    DconfdbWriter known;    /* whether a thread waits in line */
    uint32_t task;          /* the last one */
    pthread_t thread;
    int fault; /* EWOULDBLOCK at first: it isn't had */
    bool is_over; /* the thread's; guarded by `lock` of the backend, as is `fault` until then */
};

static void *wait_in_kernel(void *data)
{
    Wait *wait = data;
    DconfdbBackend *self = wait->backend;
    pthread_setname_np(pthread_self(), "dconfdb-turn");
    int fault = folder_lock(store_folder(self), WITHOUT_END, &wait->lock);
    g_mutex_lock(&self->lock);
    wait->fault = fault;
    wait->is_over = true;
    g_cond_broadcast(&self->settles);
    worker_wake(self);
    g_mutex_unlock(&self->lock);
    return NULL;
}

/* In microseconds. */
enum { MILLISECOND = 1000 };

/* Whether the thread ends by then; it is gone when this is so. */
static bool is_thread_over(DconfdbBackend *self, Wait *wait, gint64 end)
{
    g_mutex_lock(&self->lock);
    while (!wait->is_over && g_cond_wait_until(&self->settles, &self->lock, end))
        ;
    bool is_over = wait->is_over;
    g_mutex_unlock(&self->lock);
    if (is_over)
        wait->known.has_line = pthread_join(wait->thread, NULL) != 0;
    return is_over;
}

static bool carry_out(DconfdbBackend *self, Wait *wait, gint64 end)
{
    switch (wait->task) {
    case DCONFDB_LINE_TRY:
        wait->fault = folder_lock(store_folder(self), 0, &wait->lock);
        return !wait->lock.is_others;
    case DCONFDB_LINE_WAIT:
        wait->fault = folder_lock(store_folder(self), (int)(MAX(end - g_get_monotonic_time(), 0) / MILLISECOND), &wait->lock);
        return !wait->lock.is_others;
    case DCONFDB_LINE_BEGIN:
        wait->known.has_line = thread_begin(&wait->thread, wait_in_kernel, wait);
        return wait->known.has_line;
    default: /* DCONFDB_LINE_AWAIT */
        return is_thread_over(self, wait, end);
    }
}

static void meet_others(DconfdbBackend *self, Wait *wait)
{
    bool is_momentary = dconfdb_verdict(DCONFDB_ERROR_FILE, EWOULDBLOCK) == DCONFDB_QUEUE_SOON;
    if (dconfdb_failing_met(&wait->failing, true, is_momentary, true, (uint64_t)g_get_monotonic_time()) != DCONFDB_FAULT_SAY)
        return;
    g_autofree char *text =
        g_strdup_printf("%s: others have been writing there for ten seconds; what was set goes on waiting", store_folder(self));
    say(self, text);
}

static Wait *wait_new(DconfdbBackend *self, bool is_worker)
{
    Wait *wait = g_new(Wait, 1);
    *wait = (Wait){.backend = self, .known = {.is_thread = is_worker}, .fault = EWOULDBLOCK};
    return wait;
}

Turn turn_take(DconfdbBackend *self, Wait **at, bool is_worker, gint64 end)
{
    bool yes = true;
    if (!*at)
        *at = wait_new(self, is_worker);
    Wait *wait = *at;
    wait->task = DCONFDB_WRITER_BEGINS;
    while ((wait->task = dconfdb_writer_after(DCONFDB_WRITER_LINE, wait->task, yes, &wait->known)) < DCONFDB_LINE_HAD)
        yes = carry_out(self, wait, end);
    if (wait->task == DCONFDB_LINE_HAD)
        return (Turn){&wait->lock, wait->fault, NULL};
    meet_others(self, wait);
    return (Turn){NULL, EWOULDBLOCK, NULL};
}

/* Who waits in line is woken. */
gint64 turn_next(const DconfdbBackend *self)
{
    const Wait *wait = self->wait;
    return wait ? (gint64)dconfdb_wakes(&wait->failing, wait->task == DCONFDB_LINE_WAITS) : 0;
}

void turn_give(Wait **at)
{
    if (*at && (*at)->fault == 0)
        folder_unlock(&(*at)->lock);
    g_clear_pointer(at, g_free);
}

/* No thread that waits can be called back: it wakes the worker when it has the turn. */
void turn_leave(DconfdbBackend *self)
{
    if (self->wait && (!self->wait->known.has_line || is_thread_over(self, self->wait, 0)))
        turn_give(&self->wait);
}

/* ---- how long it is waited for */

DconfdbPatience patience_of(const DconfdbBackend *self, uint32_t who)
{
    DconfdbPatience patience = {.each = dconfdb_patience_for(who)};
    patience_renew(&patience, self);
    return patience;
}

/* The folder is as it was when it was looked at last. */
bool patience_goes_on(DconfdbPatience *patience, guint64 settled, guint64 added, guint64 failed, guint64 tries)
{
    DconfdbProgress progress = {settled, added, failed, tries, UINT64_MAX};
    DconfdbFileTime changed = patience->changed;
    return dconfdb_patience_goes_on(patience, &progress, &changed, (uint64_t)g_get_monotonic_time());
}

void patience_renew(DconfdbPatience *patience, const DconfdbBackend *self)
{
    DconfdbProgress progress = {.moved = UINT64_MAX};
    DconfdbFileTime changed = folder_written(store_folder(self));
    dconfdb_patience_goes_on(patience, &progress, &changed, (uint64_t)g_get_monotonic_time());
}
