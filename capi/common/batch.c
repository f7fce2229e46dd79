/* Changes that wait, written together: the proved queue says what comes next, and the library writes. */
#define _POSIX_C_SOURCE 200809L
#include "batch.h"
#include "faults.h"

#include <glib.h>
#include <string.h>

Batch batch_new(size_t most)
{
    Batch batch = {.count = 0};
    /* One more: the calls want a place also where there is none. */
    batch.queued = g_malloc_n(most + 1, sizeof *batch.queued + sizeof *batch.edits + sizeof *batch.moments + sizeof *batch.asked + sizeof *batch.made);
    batch.edits = (const DconfdbEdit **)(batch.queued + most);
    batch.moments = (uint64_t *)(batch.edits + most);
    batch.asked = (DconfdbEdit *)(batch.moments + most);
    batch.made = (Made *)(batch.asked + most);
    return batch;
}

void batch_add(Batch *batch, const DconfdbEdit *edit, uint64_t moment, size_t change, bool is_left_out)
{
    batch->queued[batch->count] = (DconfdbQueued){change, edit->type != NULL, is_left_out, false};
    batch->moments[batch->count] = moment;
    batch->edits[batch->count++] = edit;
}

bool batch_is_refused(const Batch *batch, size_t number)
{
    return batch->queued[batch->queued[number].change].is_refused;
}

bool batch_is_left_out(const Batch *batch, size_t number)
{
    return batch->queued[number].is_left_out;
}

void batch_end(Batch *batch)
{
    g_free(batch->queued);
}

static void take(Batch *batch, size_t number)
{
    batch->asked[batch->taken] = *batch->edits[number];
    batch->made[batch->taken++] = (Made){batch->moments[number], batch->queued[number].change};
}

static bool try_to_write(const Batch *batch, DconfdbStore *store, const Turn *turn, DconfdbError *fault)
{
    if (turn->fault != 0)
        return refuse_lock(store, turn->fault, fault);
    return locked_change(store, turn->lock, batch->asked, batch->made, batch->taken, turn->who, fault);
}

/* What became of a write, as dconfdb_queue_answered has it, and which of what was taken is at fault. */
static uint32_t write_taken(Batch *batch, DconfdbStore *store, const Turn *turn, size_t *at, DconfdbError *fault)
{
    bool done = try_to_write(batch, store, turn, fault);
    batch->taken = 0;
    if (done)
        return DCONFDB_QUEUE_YES;
    *at = fault->edit;
    return answer_of_fault(fault);
}

static uint32_t ask(const Batch *batch, DconfdbStore *store, size_t number)
{
    const DconfdbEdit *edit = batch->edits[number];
    DconfdbSnapshot *now = dconfdb_store_snapshot(store);
    bool may = dconfdb_snapshot_is_writable(now, edit->path);
    dconfdb_snapshot_unref(now);
    const DconfdbWriting writing = {.has_user = dconfdb_store_user_file(store) != NULL, .is_closed = batch->queue.is_closed, .writes = true};
    bool is = dconfdb_may_be_made((const uint8_t *)edit->path, strlen(edit->path), edit->type != NULL, dconfdb_is_open(&writing), may);
    return is ? DCONFDB_QUEUE_YES : DCONFDB_QUEUE_LOCKED;
}

/* Goes by the proved steps. False: nothing is written, for that fault. */
bool batch_write(Batch *batch, DconfdbStore *store, const Turn *turn, DconfdbError *refusal, DconfdbError *fault)
{
    DconfdbQueueStep next = {.kind = DCONFDB_QUEUE_PASS};
    dconfdb_queue_answered(&batch->queue, batch->queued, batch->count, DCONFDB_QUEUE_BEGINS, 0, &next);
    while (next.kind < DCONFDB_QUEUE_WRITTEN) {
        uint32_t answer = DCONFDB_QUEUE_YES;
        size_t at = 0;
        switch (next.kind) {
        case DCONFDB_QUEUE_TAKE:
            take(batch, next.number);
            break;
        case DCONFDB_QUEUE_PASS:
            break;
        case DCONFDB_QUEUE_WRITE:
            answer = write_taken(batch, store, turn, &at, fault);
            break;
        default:
            answer = ask(batch, store, next.number);
        }
        dconfdb_queue_answered(&batch->queue, batch->queued, batch->count, answer, at, &next);
        if (next.keeps_fault)
            *refusal = *fault;
    }
    if (!next.tells)
        refusal->code = DCONFDB_ERROR_NONE;
    batch->is_closed = batch->queue.is_closed;
    return next.kind == DCONFDB_QUEUE_WRITTEN;
}
