/* What waits is written: by the worker, or by who set it; and until when somebody waits for that. */
#define _GNU_SOURCE
#include "faults.h"
#include "looks.h"

#include <errno.h>

static void warn_of_waiting(Notice *notice, const DconfdbError *fault)
{
    char *text = g_strdup_printf("%s; what was set is not on the disk yet", fault->text);
    warn_of(notice, text);
    g_free(text);
}

/* `turn` is held. It was tried: what no longer waits goes, and the rest waits again. */
static void end_try(DconfdbBackend *self, Notice *notice)
{
    g_mutex_lock(&self->lock);
    self->failed = self->failing.failed;
    hand_newest(self, notice);
    g_mutex_unlock(&self->lock);
}

/* `turn` is held. */
static gint64 write_it(DconfdbBackend *self, const Turn *turn, Notice *notice, bool tries_again)
{
    DconfdbError refusal, fault;
    begin_error(&refusal);
    begin_error(&fault);
    bool done = changes_write(self->store, turn, &notice->taken, &refusal, &fault);
    uint32_t said = dconfdb_failing_met(&self->failing, !done, is_momentary(&fault), tries_again, (uint64_t)g_get_monotonic_time());
    if (refusal.code != DCONFDB_ERROR_NONE)
        warn_of(notice, refusal.text);
    if (said == DCONFDB_FAULT_SAY)
        warn_of_waiting(notice, &fault);
    warn_of_files(self, notice);
    notice->waits_again = !done;
    end_try(self, notice);
    return (gint64)dconfdb_wakes(&self->failing, false);
}

/* `turn` isn't held: the turn between programs is had before. */
static gint64 write_in(DconfdbBackend *self, const Turn *turn, Notice *notice, bool tries_again)
{
    gint64 again = 0;
    g_mutex_lock(&self->turn);
    g_mutex_lock(&self->lock);
    notice->taken = waiting_take(&self->waiting);
    self->failing.tries = ++self->tries;
    g_mutex_unlock(&self->lock);
    if (notice->taken.length > 0)
        again = write_it(self, turn, notice, tries_again);
    g_mutex_unlock(&self->turn);
    return again;
}

/* What begins to wait later is settled by its write, or a later look. */
static bool has_asking(DconfdbBackend *self)
{
    g_mutex_lock(&self->lock);
    bool has = waiting_asks(&self->waiting);
    g_mutex_unlock(&self->lock);
    return has;
}

void store_settle(DconfdbBackend *self)
{
    Notice notice = {.is_to_settle = has_asking(self)};
    g_mutex_lock(&self->turn);
    look(self, &notice);
    g_mutex_unlock(&self->turn);
    notice_tell(self, &notice);
}

bool store_has_waiting(DconfdbBackend *self)
{
    g_mutex_lock(&self->lock);
    bool has = waiting_is_any(&self->waiting);
    g_mutex_unlock(&self->lock);
    return has;
}

gint64 store_write(DconfdbBackend *self, const Turn *turn)
{
    Notice notice = {.faults = NULL};
    gint64 again = write_in(self, turn, &notice, true);
    turn_give(&self->wait);
    notice_tell(self, &notice);
    return again;
}

/* ---- by a sync or a set of this thread's: it is the worker, or there is none */

typedef struct {
    bool is_worker;
    Wait **at, *other; /* the worker's, which may be in line; or the other, of this call alone */
    Turn turn;         /* without a lock: others have theirs */
} OwnTurn;

/* Who has waited in vain stays in line, if it is. */
static void give_own(OwnTurn *own)
{
    if (own->turn.lock)
        turn_give(own->at);
    own->turn = (Turn){NULL, EWOULDBLOCK, NULL};
}

static void write_alone(DconfdbBackend *self, OwnTurn *own)
{
    Notice notice = {.faults = NULL};
    write_in(self, &own->turn, &notice, false);
    give_own(own);
    notice_tell(self, &notice);
}

static void carry_out_alone(DconfdbBackend *self, uint32_t task, DconfdbRound *known, OwnTurn *own, gint64 end)
{
    switch (task) {
    case DCONFDB_ROUND_LOOK:
        store_settle(self);
        break;
    case DCONFDB_ROUND_TAKE:
        own->turn = turn_take(self, own->at, own->is_worker, end);
        known->has_asked = true;
        known->is_others = !own->turn.lock;
        break;
    case DCONFDB_ROUND_WRITE:
        write_alone(self, own);
        break;
    default:
        turn_leave(self);
    }
    g_mutex_lock(&self->lock);
    know_what_waits(self, known);
    g_mutex_unlock(&self->lock);
    known->is_in_line = own->is_worker && self->wait;
}

void store_write_alone(DconfdbBackend *self, gint64 end)
{
    DconfdbRound known = {.again = 0};
    OwnTurn own = {.turn = {NULL, EWOULDBLOCK, NULL}};
    own.at = &own.other;
    uint32_t task = DCONFDB_ROUND_BEGINS;
    g_mutex_lock(&self->lock);
    own.is_worker = worker_is_this(self);
    know_before_write(self, &known);
    g_mutex_unlock(&self->lock);
    if (own.is_worker)
        own.at = &self->wait;
    while ((task = dconfdb_round_after(task, &known)) < DCONFDB_ROUND_RESTS)
        carry_out_alone(self, task, &known, &own, end);
    give_own(&own);
    turn_give(&own.other);
}

/* Where one that failed is to be made again later. */
static void ask_for_a_try(DconfdbBackend *self)
{
    g_mutex_lock(&self->lock);
    self->is_asked = true;
    worker_wake(self);
    g_mutex_unlock(&self->lock);
}

/* `lock` is held, and let go of meanwhile. For so long, or until changes are settled, or a write has failed. */
static void await_news(DconfdbBackend *self, DconfdbPatience *patience)
{
    gint64 end = MIN((gint64)patience->end, g_get_monotonic_time() + (gint64)dconfdb_patience_for(DCONFDB_PATIENCE_TURNS));
    if (g_cond_wait_until(&self->settles, &self->lock, end))
        return;
    g_mutex_unlock(&self->lock);
    patience_renew(patience, self);
    g_mutex_lock(&self->lock);
}

/* Until all that waits now is settled, or a later write than these has failed after others had for long. */
static void await_settled(DconfdbBackend *self, DconfdbPatience *patience, guint64 tries, DconfdbWriter *known)
{
    g_mutex_lock(&self->lock);
    const DconfdbTally *tally = &self->waiting.tally;
    known->added = self->waiting.added;
    while (patience_goes_on(patience, tally->settled, known->added, self->failed, tries))
        await_news(self, patience);
    known->settled = tally->settled;
    g_mutex_unlock(&self->lock);
}

/* `turn` is held. Another program may have written what was set once more, and not brought it to the disk. */
static bool settle(DconfdbBackend *self)
{
    bool is_settled = self->store && settle_store(self->store, NULL);
    g_mutex_lock(&self->lock);
    self->is_to_settle = !is_settled;
    g_mutex_unlock(&self->lock);
    return is_settled;
}

/* A sync, and what it knows. */
typedef struct {
    uint64_t begun; /* how many looks had, when it was asked for */
    guint64 tries;
    DconfdbPatience patience;
    DconfdbWriter known;
    Notice notice;
} Sync;

/* `turn` is taken, if that is possible in time; then the rest is known. */
static bool take_turn(DconfdbBackend *self, Sync *sync)
{
    if (!mutex_lock_until(&self->turn, (gint64)sync->patience.end))
        return false;
    sync->known.sync.has_looked = dconfdb_has_looked_since(sync->begun, self->last_look);
    g_mutex_lock(&self->lock);
    sync->known.sync.is_to_settle = self->is_to_settle;
    g_mutex_unlock(&self->lock);
    return true;
}

/* Gives its answer. */
static bool carry_out(DconfdbBackend *self, uint32_t task, Sync *sync)
{
    switch (task) {
    case DCONFDB_SYNC_ASK:
        ask_for_a_try(self);
        return true;
    case DCONFDB_SYNC_WRITE:
        store_write_alone(self, (gint64)sync->patience.end);
        return true;
    case DCONFDB_SYNC_AWAIT:
        await_settled(self, &sync->patience, sync->tries, &sync->known);
        return true;
    case DCONFDB_SYNC_TAKE:
        return take_turn(self, sync);
    case DCONFDB_SYNC_LOOK:
        return look(self, &sync->notice);
    default:
        return settle(self);
    }
}

bool store_sync(DconfdbBackend *self)
{
    Sync sync = {.begun = atomic_load(&self->looks_begun), .patience = patience_of(self, DCONFDB_PATIENCE_ASKED)};
    uint32_t task = DCONFDB_WRITER_BEGINS;
    bool yes = true, has_turn = false;
    sync.known.begun_in = (uint32_t)self->process;
    sync.known.process = (uint32_t)getpid();
    g_mutex_lock(&self->lock);
    sync.tries = self->tries;
    sync.known.sync = (DconfdbSync){.has_writer = self->has_worker && !worker_is_this(self),
                                    .has_failed = self->failed != 0,
                                    .has_store = store_folder(self) != NULL};
    g_mutex_unlock(&self->lock);
    while ((task = dconfdb_writer_after(DCONFDB_WRITER_SYNC, task, yes, &sync.known)) < DCONFDB_SYNC_YES) {
        yes = carry_out(self, task, &sync);
        has_turn = has_turn || (task == DCONFDB_SYNC_TAKE && yes);
    }
    if (has_turn)
        g_mutex_unlock(&self->turn);
    notice_tell(self, &sync.notice);
    return task == DCONFDB_SYNC_YES;
}
