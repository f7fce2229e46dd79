/* The thread that writes: what waits is written together, and each change is answered and told in the order in which they came. What is due
 * next, and what becomes of each change, is said by proved calls. */
#define _GNU_SOURCE
#include "faults.h"
#include "service.h"
#include "threads.h"
#include "tried.h"

#include <sched.h>
#include <string.h>

enum { MILLISECOND = 1000 }; /* in microseconds */

/* Changes that are written together. */
typedef struct {
    Writer *writer;
    const GList *first; /* of the changes */
    size_t count;       /* of their edits */
    size_t resets;      /* how many of these reset a directory */
    Batch batch;
    DconfdbSnapshot *then; /* what was there once they were written, until they are told; else NULL */
    GTree *last;           /* the last edit of each path */
    bool has_turn, is_done;
    bool is_known; /* what came of it */
    bool is_over;  /* .. so that all are answered */
    bool ends;     /* the service ended when that was known */
    int replaced;  /* the file that it replaced, or was to; -1: none could be opened */
    uint32_t said; /* of the fault by which nothing could be written */
    DconfdbError refusal, fault;
} Run;

/* ---- what is written */

/* GDBus's thread may be reading it. */
static void read_change(Service *service, Change *change)
{
    g_mutex_lock(&service->reading);
    change_read(change);
    g_mutex_unlock(&service->reading);
}

static void read_all(Run *run)
{
    for (const GList *at = run->first; at; at = at->next) {
        Change *change = at->data;
        read_change(run->writer->service, change);
        change->first = run->count;
        run->count += change->edits->len;
        run->resets += change->resets;
    }
}

/* ---- what came of it; `turn` is held */

/* What became of it, by what was there then. */
static bool is_unmade(const Run *run, size_t number)
{
    const DconfdbTried tried = tried_edit(&run->batch, number, run->is_done, run->last, run->then);
    return dconfdb_is_unmade(&tried);
}

/* What is told of an edit. */
static uint32_t told_of(const Run *run, bool is_unmade)
{
    const DconfdbServed known = {.is_written = run->is_done, .is_unmade = is_unmade};
    return dconfdb_served_after(DCONFDB_SERVED_MADE, &known);
}

/* What becomes of a change that was tried. */
static uint32_t served_of(const Run *run, const Change *change)
{
    DconfdbServed known = {.size = change->size,
                           .said = run->said,
                           .is_normal = change->is_normal,
                           .has_edits = change->edits->len > 0,
                           .is_written = run->is_done,
                           .is_closed = run->batch.queue.is_closed,
                           .ends = run->ends};
    return dconfdb_served_after(DCONFDB_SERVED_TRIED, &known);
}

/* g_variant_new("(s)", ..) would read the format each time. */
static GVariant *words_of(const char *tag)
{
    GVariant *word = g_variant_new_string(tag);
    return g_variant_new_tuple(&word, 1);
}

static void answer(const Run *run, Change *change)
{
    const Service *service = run->writer->service;
    GDBusMessage *call = g_steal_pointer(&change->call);
    uint32_t served = served_of(run, change);
    if (served == DCONFDB_SERVED_ACKNOWLEDGED)
        call_answer(service, call, words_of(change_tag(change)));
    else
        call_refuse(service, call, served, run->fault.text);
}

/* Sorts the edits of a change by what is told of them. */
static GPtrArray *made_of(const Run *run, const Change *change, GPtrArray *left_out)
{
    GPtrArray *made = g_ptr_array_new();
    for (size_t i = 0; i < change->edits->len; i++) {
        const DconfdbEdit *edit = edit_of(change, i);
        uint32_t told = told_of(run, is_unmade(run, change->first + i));
        if (told == DCONFDB_SERVED_GOES_ON)
            g_ptr_array_add(made, (gpointer)edit);
        else if (told == DCONFDB_SERVED_LEFT_OUT)
            g_ptr_array_add(left_out, (gpointer)edit->path);
    }
    for (guint i = 0; i < change->unfit->len; i++) {
        if (told_of(run, true) == DCONFDB_SERVED_LEFT_OUT)
            g_ptr_array_add(left_out, g_ptr_array_index(change->unfit, i));
    }
    return made;
}

/* Dconf's readers are to see what is there before anybody is answered or told. */
static void answer_all(const Run *run)
{
    flag_readers(run->writer, run->has_turn);
    for (const GList *at = run->first; at; at = at->next)
        answer(run, at->data);
}

/* Once. */
static void tell_all(Run *run)
{
    Newest newest;
    g_autoptr(GPtrArray) left_out = g_ptr_array_new();
    newest_begin(&newest);
    run->last = tried_last(&run->batch);
    for (const GList *at = run->first; at; at = at->next) {
        Change *change = at->data;
        g_autoptr(GPtrArray) made = made_of(run, change, left_out);
        tell_change(run->writer, &newest, made, change_tag(change));
    }
    tell_others(run->writer, &newest, left_out, run->then);
    newest_end(&newest);
    g_tree_unref(run->last);
    dconfdb_snapshot_unref(run->then);
    run->then = NULL;
}

/* ---- a try */

/* Whether a change that waits is written with those of that database. */
static bool joins(const Change *change, const Writer *writer)
{
    const DconfdbServed known = {.is_same = change->writer == writer};
    return dconfdb_served_after(DCONFDB_SERVED_WAITS, &known) == DCONFDB_SERVED_GOES_ON;
}

/* Takes the oldest change that waits, and those behind it that join it; what was tried before is taken already. `lock` is held. */
static void take(Service *service, Run *run)
{
    const GList *next = service->waiting.head;
    const Change *oldest = service->taken.length > 0 ? service->taken.head->data : next->data;
    while (next && joins(next->data, oldest->writer)) {
        g_queue_push_tail_link(&service->taken, g_queue_pop_head_link(&service->waiting));
        next = service->waiting.head;
    }
    *run = (Run){.writer = oldest->writer, .first = service->taken.head};
}

/* `lock` is held. */
static DconfdbRound known_of(const Service *service, bool has_asked)
{
    return (DconfdbRound){.again = (uint64_t)service->again,
                          .moment = (uint64_t)g_get_monotonic_time(),
                          .ends = service->ends,
                          .waits = service->taken.length + service->waiting.length > 0,
                          .has_asked = has_asked,
                          .is_watched = true};
}

/* With the turn: whether it is to write. At the end who waited may be answered already. */
static bool begin_try(Service *service, Run *run)
{
    g_mutex_lock(&service->lock);
    DconfdbRound known = known_of(service, true);
    service->is_writing = dconfdb_round_after(DCONFDB_ROUND_TAKE, &known) == DCONFDB_ROUND_WRITE;
    if (service->is_writing)
        take(service, run);
    g_mutex_unlock(&service->lock);
    return service->is_writing;
}

/* Whether what was tried is answered. From then on what isn't waits again, and the end may answer it. */
static bool is_settled(Service *service, Run *run)
{
    g_mutex_lock(&service->lock);
    run->ends = service->ends;
    bool is = served_of(run, run->first->data) != DCONFDB_SERVED_GOES_ON;
    service->is_writing = is;
    g_mutex_unlock(&service->lock);
    return is;
}

/* What was tried is answered, which the end is to know: nobody else takes anything of it. */
static void has_answered(Service *service)
{
    g_mutex_lock(&service->lock);
    service->answered = service->taken.length;
    g_mutex_unlock(&service->lock);
}

/* What is answered goes. What isn't is tried again after a pause. */
static void end_try(Service *service, bool is_over)
{
    GQueue over = G_QUEUE_INIT;
    g_mutex_lock(&service->lock);
    service->is_writing = false;
    service->answered = 0;
    service->again = is_over ? 0 : (gint64)service->failing.again;
    if (is_over)
        move_all(&service->taken, &over);
    for (const GList *at = over.head; at; at = at->next)
        service->waiting_size -= ((const Change *)at->data)->size;
    service->settled += over.length;
    g_mutex_unlock(&service->lock);
    while (over.length > 0)
        change_free(g_queue_pop_head_link(&over)->data);
}

/* Whether others may wait for their turn until it is told. */
static bool is_told_in_turn(const Run *run)
{
    const DconfdbServed known = {.edits = run->count, .resets = run->resets};
    return dconfdb_served_after(DCONFDB_SERVED_TELLS, &known) == DCONFDB_SERVED_GOES_ON;
}

/* What came of it, and the newest settings: all are answered, or none. GDBus's thread, which sends that, may wait for this processor. */
static void know(Run *run, bool is_done, DconfdbSnapshot *now)
{
    Service *service = run->writer->service;
    if (run->is_known)
        return;
    run->is_known = true;
    run->is_done = is_done;
    run->said = dconfdb_failing_met(&service->failing, !is_done, is_momentary(&run->fault), true, (uint64_t)g_get_monotonic_time());
    run->is_over = is_settled(service, run);
    if (!run->is_over)
        return;
    answer_all(run);
    has_answered(service);
    sched_yield();
    run->then = dconfdb_snapshot_ref(now);
    if (is_told_in_turn(run))
        tell_all(run);
}

/* It is made, and is noted next: who waits for the answer, or is told of little, needn't wait for that. */
static void hear_made(void *it, DconfdbSnapshot *newest)
{
    know(it, true, newest);
}

/* `turn` of the writer is held, and that between programs, or a fault of it. */
static void write_in(Run *run, const FolderLock *lock, int fault)
{
    DconfdbError none = DCONFDB_ERROR_INIT;
    DconfdbStore *store = run->writer->store;
    const Awaits who = {hear_made, run};
    const Turn turn = {lock, fault, &who};
    run->has_turn = fault == 0;
    run->refusal = run->fault = none;
    run->batch = batch_of(run->first, run->count);
    bool is_done = batch_write(&run->batch, store, &turn, &run->refusal, &run->fault);
    DconfdbSnapshot *now = dconfdb_store_snapshot(store);
    know(run, is_done, now);
    dconfdb_snapshot_unref(now);
}

static void give(FolderLock *lock, int fault)
{
    if (fault == 0)
        folder_unlock(lock);
}

/* Whether they are answered, and told. */
static bool write_run(Run *run, FolderLock *lock, int fault)
{
    Writer *writer = run->writer;
    read_all(run);
    writer_writes(writer);
    g_mutex_lock(&writer->turn);
    run->replaced = replaced_open(writer->store);
    write_in(run, lock, fault);
    give(lock, fault);
    if (run->then)
        tell_all(run);
    g_mutex_unlock(&writer->turn);
    batch_end(&run->batch);
    writer_has_written(writer);
    return run->is_over;
}

/* Reads what waits already, which may take a while: as long as others may have their turns. What GDBus's thread reads now isn't waited for. */
static void read_ahead(Service *service)
{
    g_autoptr(GPtrArray) changes = g_ptr_array_new();
    g_mutex_lock(&service->lock);
    for (const GList *at = service->waiting.head; at; at = at->next)
        g_ptr_array_add(changes, at->data);
    g_mutex_unlock(&service->lock);
    for (guint at = 0; at < changes->len && g_mutex_trylock(&service->reading); at++) {
        change_read(g_ptr_array_index(changes, at));
        g_mutex_unlock(&service->reading);
    }
}

/* Nothing is answered before it is on the disk, or can't get there. What came until it has the turn is written, too. */
static void try(Service *service)
{
    FolderLock lock;
    Run run;
    read_ahead(service);
    int fault = folder_lock(service->place.folder, WITHOUT_END, &lock);
    if (!begin_try(service, &run)) {
        give(&lock, fault);
        return;
    }
    end_try(service, write_run(&run, &lock, fault));
    replaced_keep(service, run.replaced);
}

/* ---- the thread */

/* `lock` is held, and let go of meanwhile: until something comes, or is to be tried again, or a file that was replaced is to be let go of. */
static void rest(Service *service)
{
    uint64_t now = (uint64_t)g_get_monotonic_time(), wait = 0;
    if (dconfdb_sleep_until((uint64_t)service->again, service->kept_until, now, &wait))
        g_cond_wait_until(&service->comes, &service->lock, (gint64)(now + wait * MILLISECOND));
    else
        g_cond_wait(&service->comes, &service->lock);
}

/* What is due next, once something is. */
static uint32_t await_task(Service *service)
{
    uint32_t task;
    g_mutex_lock(&service->lock);
    for (;;) {
        DconfdbRound known = known_of(service, false);
        task = dconfdb_round_after(DCONFDB_ROUND_BEGINS, &known);
        if (task != DCONFDB_ROUND_RESTS)
            break;
        rest(service);
        replaced_let_go(service);
    }
    if (task == DCONFDB_ROUND_LEAVE)
        service->again = 0;
    g_mutex_unlock(&service->lock);
    return task;
}

static void *work(void *data)
{
    uint32_t task;
    pthread_setname_np(pthread_self(), "dconfdb-writes");
    while ((task = await_task(data)) < DCONFDB_ROUND_RESTS) {
        if (task == DCONFDB_ROUND_TAKE)
            try(data);
    }
    return NULL;
}

bool service_begin_writing(Service *service)
{
    service->has_thread = thread_begin(&service->thread, work, service);
    return service->has_thread;
}
