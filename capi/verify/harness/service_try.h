/* A try of the service's thread to write what waits, as the harnesses have it. */
#include "service_writes.h"

static bool has_turn, is_tried, is_written, is_flagged, has_batch, is_silent;
static bool is_told[CHANGES];
static unsigned asked;            /* how many edits were to be written */
static const Writer *written_for; /* whose */
static char a_batch[1];           /* stands for a batch's memory */
static char a_tree[1], a_snapshot[1];
static const DconfdbEdit *batch_edits[CHANGES];
static bool has_last;
static unsigned then_had; /* how often the newest settings are had */

void change_free(Change *change)
{
    for (int i = 0; i < CHANGES; i++) {
        if (change != changes[i])
            continue;
        CHECK(!is_gone[i], "memory: a change goes once");
        CHECK(!change->call && calls_of[i]->answers == 1, "answer: no call goes that isn't answered");
        is_gone[i] = true;
    }
    CHECK(!change->link.next && none_is_held(), "order: what goes is in no queue, and nobody's any more");
}

/* ---- the turn */

int folder_lock(const char *folder, int milliseconds, FolderLock *lock)
{
    CHECK(folder == service.place.folder && milliseconds == WITHOUT_END && !has_turn, "order: the turn is taken once, and waited for");
    CHECK(none_is_held(), "order: nobody is kept from anything while a turn is waited for");
    int fault = any_fault();
    has_turn = fault == 0;
    *lock = (FolderLock){has_turn ? 7 : -1, has_turn ? 8 : -1, NULL};
    return fault;
}

void folder_unlock(FolderLock *lock)
{
    CHECK(has_turn && lock->folder == 7, "descriptor: what is given back is had");
    has_turn = false;
}

/* ---- a batch */

Batch batch_new(size_t most)
{
    CHECK(!has_batch && most <= CHANGES, "memory: one batch");
    has_batch = true;
    asked = 0;
    return (Batch){.queued = (DconfdbQueued *)(void *)a_batch, .edits = batch_edits};
}

void batch_add(Batch *batch, const DconfdbEdit *edit, uint64_t moment, size_t change, bool is_left_out)
{
    (void)moment;
    CHECK(has_batch && edit == &an_edit && change == batch->count && !is_left_out, "step: each edit is one by itself");
    batch_edits[batch->count++] = edit;
    asked++;
}

bool batch_write(Batch *batch, DconfdbStore *store, const Turn *turn, DconfdbError *refusal, DconfdbError *fault)
{
    const Change *oldest = service.taken.head->data;
    CHECK(has_batch && !is_tried, "step: a try writes once");
    CHECK(store == oldest->writer->store && is_held(&oldest->writer->turn), "order: who writes keeps others from the store");
    CHECK((turn->fault == 0) == has_turn, "order: nothing is written without the turn");
    CHECK(batch->count == asked && refusal->code == DCONFDB_ERROR_NONE && fault->code == DCONFDB_ERROR_NONE, "step: all that is asked for");
    written_for = oldest->writer;
    is_tried = true;
    is_written = turn->fault == 0 && any_bool();
    batch->queue.is_closed = any_bool();
    CHECK(turn->who && turn->who->hears, "step: who waits is to hear of it");
    if (is_written && any_bool()) {
        then_had++;
        turn->who->hears(turn->who->it, (DconfdbSnapshot *)(void *)a_snapshot);
        then_had--;
        REACHED("it is heard of in its turn");
    }
    return is_written;
}

/* ---- what was there then */

DconfdbSnapshot *dconfdb_store_snapshot(DconfdbStore *store)
{
    CHECK(is_tried && store == written_for->store && is_held(&written_for->turn), "order: what is there is asked for behind the write");
    then_had++;
    return (DconfdbSnapshot *)(void *)a_snapshot;
}

DconfdbSnapshot *dconfdb_snapshot_ref(DconfdbSnapshot *snapshot)
{
    CHECK(then_had > 0 && snapshot == (DconfdbSnapshot *)(void *)a_snapshot, "memory: what is had once more is had");
    then_had++;
    return snapshot;
}

void dconfdb_snapshot_unref(DconfdbSnapshot *snapshot)
{
    CHECK(then_had > 0 && snapshot == (DconfdbSnapshot *)(void *)a_snapshot, "memory: what is given back is had");
    then_had--;
}

GTree *tried_last(const Batch *batch)
{
    CHECK(has_batch && !has_last && batch->count == asked, "memory: the edits of a batch that is had");
    has_last = true;
    return (GTree *)(void *)a_tree;
}

void g_tree_unref(GTree *tree)
{
    CHECK(has_last && tree == (GTree *)(void *)a_tree, "memory: what is given back is had");
    has_last = false;
}

DconfdbTried tried_edit(const Batch *batch, size_t number, bool is_done, GTree *last, const DconfdbSnapshot *then)
{
    CHECK(has_batch && number < batch->count, "memory: an edit of the batch");
    CHECK(has_last && last == (GTree *)(void *)a_tree && then_had > 0 && then == (DconfdbSnapshot *)(void *)a_snapshot, "memory: what is asked is had");
    CHECK(is_done == is_written, "answer: whether it is written");
    return (DconfdbTried){is_done, any_bool(), any_bool(), any_bool(), any_bool(), any_bool()};
}

void batch_end(Batch *batch)
{
    CHECK(has_batch && batch->queued == (DconfdbQueued *)(void *)a_batch, "memory: what is freed is had");
    has_batch = false;
}

/* ---- proved calls */

uint32_t dconfdb_failing_met(DconfdbFailing *failing, bool is_there, bool is_momentary, bool tries_again, uint64_t now)
{
    (void)is_momentary, (void)now;
    CHECK(failing == &service.failing && is_there == !is_written && tries_again, "answer: whether it is written");
    failing->again = is_there ? now + 1 + any_u32() : 0;
    uint32_t said = any_u32();
    GIVEN(said <= DCONFDB_FAULT_OVER);
    return said;
}

uint32_t dconfdb_verdict(uint32_t code, uint32_t fault)
{
    (void)code, (void)fault;
    return any_bool() ? DCONFDB_QUEUE_SOON : DCONFDB_QUEUE_YES;
}

uint32_t dconfdb_path_kind(const uint8_t *text, size_t len, uint32_t wanted, bool is_relative, bool *is_short)
{
    CHECK(__CPROVER_r_ok(text, len) && wanted == DCONFDB_PATH_WANTED && !is_relative, "memory: a path that is there");
    *is_short = any_bool();
    return an_edit_resets ? DCONFDB_PATH_DIRECTORY : DCONFDB_PATH_KEY;
}

bool dconfdb_is_unmade(const DconfdbTried *edit) { return edit->is_refused || edit->is_left_out || (edit->is_written && !(edit->is_now || edit->is_again || edit->is_there)); }

uint64_t dconfdb_moment_beside(const DconfdbTime *change, size_t n, const DconfdbTime *others, size_t others_n, uint64_t moment)
{
    CHECK(n <= 1 && __CPROVER_r_ok(change, n * sizeof *change), "memory: edits that are there");
    CHECK(others_n > 0 && __CPROVER_r_ok(others, others_n * sizeof *others), "memory: edits that are there");
    return moment;
}

/* ---- who is answered and told */

static void is_answered(const GDBusMessage *call, bool is_acknowledged)
{
    if (is_late)
        return;
    for (int i = 0; i < CHANGES; i++) {
        if (call != calls_of[i])
            continue;
        CHECK(has_come[i] && is_held(&changes[i]->writer->turn) && !is_held(&service.lock), "order: nobody looks at the files before it is answered");
        CHECK(is_tried && changes[i]->writer == written_for, "order: nothing is answered before it was tried");
        CHECK(!is_acknowledged || is_written || changes[i]->edits->len == 0, "answer: what is acknowledged is on the disk");
        CHECK(is_flagged, "order: dconf's readers see it before anybody is answered");
        CHECK(service.answered == 0, "answer: nobody counts as answered before he is");
        CHECK(i == 0 || !has_come[i - 1] || calls_of[i - 1]->answers == 1 || changes[i - 1]->writer != written_for, "order: who came first is answered first");
    }
}

void flag_readers(const Writer *of, bool is_in_turn)
{
    CHECK(is_tried && of == written_for && is_held(&written_for->turn), "order: readers look again once it was tried");
    CHECK(is_in_turn == has_turn, "answer: whether others may have their turn");
    is_flagged = true;
}

void newest_begin(Newest *newest) { newest->edits = NULL; }
void newest_end(Newest *newest) { (void)newest; }

/* Of the first one that is answered, and wasn't told. */
void tell_change(Writer *writer, Newest *newest, const GPtrArray *made, const char *tag)
{
    (void)newest;
    bool is = false;
    CHECK(writer == written_for && is_held(&writer->turn) && __CPROVER_r_ok(tag, 1), "order: who is told is told before others look");
    for (guint i = 0; i < made->len; i++)
        CHECK(is_written && made->pdata[i] == &an_edit, "answer: what is told is made");
    for (int i = 0; !is && i < CHANGES; i++) {
        is = has_come[i] && !is_told[i] && calls_of[i]->answers == 1 && !is_gone[i];
        is_told[i] = is_told[i] || is;
    }
    CHECK(is, "order: who made it is answered before others are told");
}

void tell_others(Writer *writer, const Newest *newest, const GPtrArray *left_out, DconfdbSnapshot *now)
{
    CHECK(writer == written_for && newest && is_held(&writer->turn), "order: what others changed is told after it");
    CHECK(then_had > 0 && now == (DconfdbSnapshot *)(void *)a_snapshot, "memory: the newest settings, which are had");
    for (guint i = 0; i < left_out->len; i++)
        CHECK(__CPROVER_r_ok(left_out->pdata[i], 1), "memory: a path that is there");
}

int sched_yield(void) { return 0; }

/* ---- who hears of it */

void writer_writes(Writer *writer)
{
    CHECK(!is_held(&writer->turn) && !is_silent, "order: nobody is woken from then on");
    is_silent = true;
}

void writer_has_written(Writer *writer)
{
    CHECK(!is_held(&writer->turn) && is_silent, "order: who looks may");
    is_silent = false;
}

static void tries_once(void)
{
    set_up();
    an_edit_resets = any_bool();
    one_writer.store = (DconfdbStore *)(void *)&one_writer;
    other_writer.store = (DconfdbStore *)(void *)&other_writer;
    may_keep();
    try(&service);
    all_are_answered_or_wait();
    CHECK(!has_turn, "descriptor: the turn is given back");
    CHECK(only_kept_is_open(), "descriptor: the file that was replaced last is open, and no other");
    CHECK(!has_batch && !has_last && then_had == 0, "memory: the batch is given back, and all that was asked of it");
}
