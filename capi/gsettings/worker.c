/* The thread that writes what waits, tells, and sees what others change. It has a main context of its own,
 * so that no handler of the program's runs in it. */
#define _GNU_SOURCE
#include "worker.h"

#include "memory.h"
#include "threads.h"

#include <errno.h>
#include <limits.h>
#include <poll.h>
#include <stddef.h>
#include <stdint.h>
#include <string.h>
#include <sys/eventfd.h>
#include <time.h>
#include <unistd.h>

static void tell_untold(DconfdbBackend *self)
{
    Notice *notice;
    do {
        g_mutex_lock(&self->lock);
        notice = g_queue_pop_head(&self->untold);
        g_mutex_unlock(&self->lock);
        if (notice)
            notice_tell_and_free(self, notice);
    } while (notice);
}

/* ---- in the thread */

/* The program closed what is waited for, or no memory is left: nothing that happens is heard. */
static void rest_unheard(void)
{
    gint64 now = g_get_monotonic_time();
    g_usleep((gulong)(after_a_fault(now) - now));
}

/* That it was woken; where nothing is to be read, it wasn't. */
static void take_wakes(DconfdbBackend *self)
{
    uint64_t count;
    ssize_t taken = read(self->wakes, &count, sizeof count);
    (void)taken;
}

void await(DconfdbBackend *self, int wait)
{
    struct pollfd files[] = {{self->wakes, POLLIN, 0}, {watch_file(self), POLLIN, 0}};
    if (poll(files, 2, wait) < 0 || ((files[0].revents | files[1].revents) & POLLNVAL) != 0)
        rest_unheard();
    if (files[0].revents & POLLIN)
        take_wakes(self);
    if (files[1].revents & POLLIN)
        watch_take(self);
}

/* How many milliseconds there are until it is to do something, or -1 where nobody has said when. */
static int sleep_of(DconfdbBackend *self)
{
    uint64_t wait;
    bool is = dconfdb_sleep_until((uint64_t)self->again, (uint64_t)watch_next(self), (uint64_t)g_get_monotonic_time(), &wait);
    return is ? (int)MIN(wait, INT_MAX) : -1;
}

void know_what_waits(const DconfdbBackend *self, DconfdbRound *known)
{
    known->failed = self->failed;
    known->last_try = self->last_try;
    known->waits = waiting_is_any(&self->waiting);
}

void know_before_write(const DconfdbBackend *self, DconfdbRound *known)
{
    know_what_waits(self, known);
    known->is_watched = g_atomic_int_get(&self->is_watching);
    known->asks = waiting_asks(&self->waiting);
}

/* Also for who waits at the program's end. */
static void know_where_it_is(DconfdbBackend *self, DconfdbRound *known)
{
    known->again = (uint64_t)self->again;
    known->is_in_line = self->wait != NULL;
    g_atomic_int_set(&self->has_work, dconfdb_has_work(known));
}

/* What was asked for once counts once. */
static DconfdbRound know_all(DconfdbBackend *self)
{
    DconfdbRound known = {.moment = (uint64_t)g_get_monotonic_time()};
    g_mutex_lock(&self->lock);
    know_before_write(self, &known);
    known.ends = self->has_ended;
    known.is_let_go = g_atomic_int_get(&self->is_let_go);
    known.has_untold = self->untold.length > 0;
    known.has_turned = self->has_turned;
    known.is_asked = self->is_asked;
    self->is_asked = false;
    g_mutex_unlock(&self->lock);
    know_where_it_is(self, &known);
    return known;
}

/* What comes of a look or of a write. */
static void know_anew(DconfdbBackend *self, DconfdbRound *known)
{
    g_mutex_lock(&self->lock);
    know_what_waits(self, known);
    g_mutex_unlock(&self->lock);
    know_where_it_is(self, known);
}

static void take_turn(DconfdbBackend *self, DconfdbRound *known, Turn *turn)
{
    *turn = turn_take(self, &self->wait, true, 0);
    self->again = turn_next(self);
    known->has_asked = true;
    known->is_others = !turn->lock;
}

/* What waited was settled without the turn: others have that. */
static void leave_line(DconfdbBackend *self)
{
    turn_leave(self);
    self->again = 0;
}

static void carry_out(DconfdbBackend *self, uint32_t task, DconfdbRound *known, Turn *turn)
{
    switch (task) {
    case DCONFDB_ROUND_TELL:
        tell_untold(self);
        return;
    case DCONFDB_ROUND_WATCH:
        watch_turn(self);
        return;
    case DCONFDB_ROUND_LOOK:
        store_settle(self);
        break;
    case DCONFDB_ROUND_TAKE:
        take_turn(self, known, turn);
        break;
    case DCONFDB_ROUND_WRITE:
        self->again = store_write(self, turn);
        break;
    default:
        leave_line(self);
    }
    know_anew(self, known);
}

bool takes_turn(DconfdbBackend *self)
{
    DconfdbRound known = know_all(self);
    Turn turn = {NULL, 0, NULL};
    uint32_t task = DCONFDB_ROUND_BEGINS;
    while ((task = dconfdb_round_after(task, &known)) < DCONFDB_ROUND_RESTS)
        carry_out(self, task, &known, &turn);
    if (task == DCONFDB_ROUND_GIVES_UP)
        g_atomic_int_set(&self->has_given_up, TRUE);
    return task == DCONFDB_ROUND_RESTS;
}

/* Who let go of the backend waits for that, or has left it to this thread. */
static void is_over(DconfdbBackend *self)
{
    g_mutex_lock(&self->lock);
    bool is_left = self->is_left;
    self->is_over = true;
    self->has_worker = !is_left;
    g_cond_broadcast(&self->settles);
    g_mutex_unlock(&self->lock);
    if (is_left) {
        pthread_detach(pthread_self());
        g_object_unref(self);
    }
}

static void work_in(DconfdbBackend *self)
{
    GMainContext *own = g_main_context_new();
    pthread_setname_np(pthread_self(), "dconfdb");
    g_main_context_push_thread_default(own);
    /* A program may listen and never read. */
    store_open(self);
    while (takes_turn(self))
        await(self, sleep_of(self));
    watch_end(self);
    g_main_context_pop_thread_default(own);
    g_main_context_unref(own);
}

static void *work(void *data)
{
    _Alignas(max_align_t) char bytes[SMALL_ROOM];
    LentRoom room;
    lend_room(&room, bytes, sizeof bytes);
    work_in(data);
    take_back_room(&room);
    is_over(data);
    return NULL;
}

/* ---- `lock` is held */

static void see_to(DconfdbBackend *self, uint32_t task, DconfdbWriter *known)
{
    switch (task) {
    case DCONFDB_NEED_WAKE:
        self->wakes = eventfd(0, EFD_CLOEXEC | EFD_NONBLOCK);
        known->has_wake = self->wakes >= 0;
        break;
    default: /* DCONFDB_NEED_THREAD */
        self->has_worker = thread_begin(&self->worker, work, self);
        known->has_thread = self->has_worker;
    }
}

uint32_t worker_need(DconfdbBackend *self, const Need *need)
{
    DconfdbWriter known = {.begun_in = (uint32_t)self->process,
                           .process = (uint32_t)getpid(),
                           .has_ended = self->has_ended,
                           .has_thread = self->has_worker,
                           .has_wake = self->wakes >= 0,
                           .is_wanted = need->is_wanted,
                           .is_news = need->is_news,
                           .adds = need->adds,
                           .waits = need->waits,
                           .is_owed = need->is_owed,
                           .listens = need->listens,
                           .has_turned = self->has_turned};
    uint32_t task = DCONFDB_WRITER_BEGINS;
    while ((task = dconfdb_writer_after(DCONFDB_WRITER_NEED, task, true, &known)) < DCONFDB_NEED_TOLD)
        see_to(self, task, &known);
    if (task == DCONFDB_NEED_TOLD)
        worker_wake(self);
    return task;
}

void worker_wake(DconfdbBackend *self)
{
    uint64_t one = 1;
    /* Where that is full it is awake. */
    while (self->has_worker && write(self->wakes, &one, sizeof one) < 0 && errno == EINTR)
        ;
}

bool worker_is_this(const DconfdbBackend *self)
{
    return self->has_worker && pthread_equal(self->worker, pthread_self());
}

/* ---- `lock` isn't held */

void worker_tells(DconfdbBackend *self, Notice *notice, bool is_news)
{
    const Need need = {.is_wanted = is_news, .is_news = is_news, .is_owed = is_news};
    g_mutex_lock(&self->lock);
    bool tells = worker_need(self, &need) == DCONFDB_NEED_TOLD;
    if (tells) {
        Notice *untold = g_new(Notice, 1);
        *untold = *notice;
        g_queue_push_tail(&self->untold, untold);
    }
    g_mutex_unlock(&self->lock);
    if (!tells)
        notice_tell(self, notice);
}
