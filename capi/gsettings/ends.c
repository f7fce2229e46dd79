/* The end of the program, or of the backend: as the proved call says. What waits then is written, or it is told. */
#define _GNU_SOURCE
#include "worker.h"

#include <pthread.h>
#include <string.h>
#include <time.h>
#include <unistd.h>

enum { NANOSECONDS = 1000, MILLISECOND = 1000, SECOND = 1000000000 };

/* In microseconds: how often it asks. */
static gint64 tick(void)
{
    return (gint64)dconfdb_patience_for(DCONFDB_PATIENCE_LOOKS);
}

/* `lock` is held. */
static void know_at_end(const DconfdbBackend *self, DconfdbWriter *known)
{
    known->has_thread = self->has_worker;
    known->is_thread = worker_is_this(self);
    known->is_let_go = g_atomic_int_get(&self->is_let_go);
}

/* `lock` is held. */
static void count(const DconfdbBackend *self, DconfdbWriter *known)
{
    known->settled = self->waiting.tally.settled;
    known->added = self->waiting.added;
}

/* Whatever takes warnings may be gone. */
static void say_at_end(uint32_t task)
{
    static const char waits[] = "dconfdb: what was set last isn't on the disk yet\n";
    static const char may_wait[] = "dconfdb: nobody knows whether what was set last is on the disk\n";
    const char *words = task == DCONFDB_END_TELL ? waits : may_wait;
    if (write(STDERR_FILENO, words, strlen(words)) < 0)
        return;
}

/* The lock is had until then. */
static bool counts_until(DconfdbBackend *self, DconfdbWriter *known, gint64 end)
{
    if (!mutex_lock_until(&self->lock, end))
        return false;
    count(self, known);
    g_mutex_unlock(&self->lock);
    return true;
}

/* ---- a moment of a wait, and what it shows */

typedef void Passes(DconfdbBackend *self, DconfdbProgress *progress);

/* Whether the thread has ended, or does so in a moment. */
static void joins(DconfdbBackend *self, DconfdbProgress *progress)
{
    struct timespec end;
    if (clock_gettime(CLOCK_REALTIME, &end) != 0)
        return;
    end.tv_nsec += tick() * NANOSECONDS;
    end.tv_sec += end.tv_nsec / SECOND;
    end.tv_nsec %= SECOND;
    progress->settled = pthread_timedjoin_np(self->worker, NULL, &end) == 0;
}

/* The thread is another one's to wait for. */
static void watches(DconfdbBackend *self, DconfdbProgress *progress)
{
    DconfdbWriter known = {.added = progress->added};
    g_usleep((gulong)tick());
    counts_until(self, &known, g_get_monotonic_time() + tick());
    progress->added = known.added;
    progress->settled = known.settled;
    progress->failed = (uint64_t)g_atomic_int_get(&self->has_given_up);
}

/* exit() was called in the worker itself, by a handler of the program's that a warning came to: nobody else writes what waits. */
static void does_rounds(DconfdbBackend *self, DconfdbProgress *progress)
{
    progress->settled = !takes_turn(self);
    if (progress->settled == 0)
        await(self, (int)(tick() / MILLISECOND));
}

/* Without `lock` nothing more is known of the thread than that it moves. */
static void wait_by(DconfdbBackend *self, Passes *passes, DconfdbPatience *patience)
{
    gint64 now = g_get_monotonic_time();
    DconfdbProgress progress = {.added = 1, .moved = (uint64_t)now};
    DconfdbFileTime changed = patience->changed;
    while (dconfdb_patience_goes_on(patience, &progress, &changed, (uint64_t)now)) {
        passes(self, &progress);
        changed = folder_written(store_folder(self));
        now = g_get_monotonic_time();
        if (g_atomic_int_get(&self->has_work))
            progress.moved = (uint64_t)now;
    }
}

/* ---- the program's */

static bool mark_exit(DconfdbBackend *self, DconfdbWriter *known)
{
    if (!mutex_lock_until(&self->lock, g_get_monotonic_time() + (gint64)dconfdb_patience_for(DCONFDB_PATIENCE_REST)))
        return false;
    know_at_end(self, known);
    self->has_ended = self->is_asked = true;
    self->last_try = self->tries;
    worker_wake(self);
    g_mutex_unlock(&self->lock);
    return true;
}

static bool carry_out_exit(DconfdbBackend *self, uint32_t task, DconfdbWriter *known, DconfdbPatience *patience)
{
    switch (task) {
    case DCONFDB_END_MARK:
        *patience = patience_of(self, DCONFDB_PATIENCE_END);
        return mark_exit(self, known);
    case DCONFDB_END_ROUNDS:
        wait_by(self, does_rounds, patience);
        return true;
    case DCONFDB_END_JOIN:
        wait_by(self, joins, patience);
        return true;
    case DCONFDB_END_WATCH:
        wait_by(self, watches, patience);
        return true;
    case DCONFDB_END_COUNT:
        return counts_until(self, known, g_get_monotonic_time() + tick());
    default:
        say_at_end(task);
        return true;
    }
}

/* exit() may be called by a handler of a signal, amid anything that its thread does: in malloc(), say, or in
 * a lock that the worker then waits for. So nothing here waits without a bound, or takes memory. */
void worker_end(DconfdbBackend *self)
{
    DconfdbWriter known = {.begun_in = (uint32_t)self->process, .process = (uint32_t)getpid(), .exits = true};
    DconfdbPatience patience = {.each = 0};
    uint32_t task = DCONFDB_WRITER_BEGINS;
    bool yes = true;
    while ((task = dconfdb_writer_after(DCONFDB_WRITER_END, task, yes, &known)) < DCONFDB_END_DONE)
        yes = carry_out_exit(self, task, &known, &patience);
}

/* Without a backend nothing can be done but to say so. */
void worker_end_unseen(uint32_t begun_in)
{
    const DconfdbWriter known = {.begun_in = begun_in, .process = (uint32_t)getpid(), .exits = true};
    uint32_t task = DCONFDB_WRITER_BEGINS;
    while ((task = dconfdb_writer_after(DCONFDB_WRITER_END, task, false, &known)) < DCONFDB_END_DONE) {
        if (task == DCONFDB_END_TELL || task == DCONFDB_END_DOUBT)
            say_at_end(task);
    }
}

/* ---- the backend's; `lock` is held, and let go of meanwhile */

/* Until the thread is over, or a later write than these has failed. */
static bool await_over(DconfdbBackend *self, guint64 tries)
{
    DconfdbPatience patience = patience_of(self, DCONFDB_PATIENCE_END);
    while (patience_goes_on(&patience, self->is_over, 1, self->failed, tries))
        g_cond_wait_until(&self->settles, &self->lock, (gint64)patience.end);
    return self->is_over;
}

static void mark_let_go(DconfdbBackend *self, DconfdbWriter *known)
{
    know_at_end(self, known);
    self->has_ended = self->is_asked = true;
    g_atomic_int_set(&self->is_let_go, TRUE);
    worker_wake(self);
}

/* It is over, and needs no lock any more. */
static void take_away(DconfdbBackend *self)
{
    g_mutex_unlock(&self->lock);
    bool is_gone = pthread_join(self->worker, NULL) == 0;
    g_mutex_lock(&self->lock);
    self->has_worker = !is_gone;
}

static bool carry_out_let_go(DconfdbBackend *self, uint32_t task, DconfdbWriter *known)
{
    switch (task) {
    case DCONFDB_END_MARK:
        mark_let_go(self, known);
        return true;
    case DCONFDB_END_AWAIT:
        return await_over(self, self->tries);
    case DCONFDB_END_LEAVE:
        self->is_left = true;
        g_object_ref(self);
        return true;
    case DCONFDB_END_REAP:
        take_away(self);
        return true;
    case DCONFDB_END_COUNT:
        count(self, known);
        return true;
    default:
        g_mutex_unlock(&self->lock);
        say_at_end(task);
        g_mutex_lock(&self->lock);
        return true;
    }
}

bool worker_let_go(DconfdbBackend *self)
{
    DconfdbWriter known = {.begun_in = (uint32_t)self->process, .process = (uint32_t)getpid()};
    uint32_t task = DCONFDB_WRITER_BEGINS;
    bool yes = true;
    g_mutex_lock(&self->lock);
    while ((task = dconfdb_writer_after(DCONFDB_WRITER_END, task, yes, &known)) < DCONFDB_END_DONE)
        yes = carry_out_let_go(self, task, &known);
    g_mutex_unlock(&self->lock);
    return task == DCONFDB_END_DONE;
}
