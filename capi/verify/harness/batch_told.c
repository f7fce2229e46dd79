/* common/batch.c: whatever the steps are, each is answered by what became of it, the fault is kept that is to be, and it is told if that is to be. */
#include "common/batch.c"
#include "world.h"

/* narrows libdconfdb/dconfdb.h: char text[512]; => char text[8]; */
/* stubs common/batch.c: take write_taken ask */

enum { STEPS = 4 };

static Batch batch;
static DconfdbQueueStep step;
static unsigned steps;
static int faults, kept; /* how many writes have failed, and which of them is kept; 0: none */
static uint32_t given;   /* what became of a step */
static size_t given_at;

/* ---- each step answers in any way */

static void take(Batch *of, size_t number)
{
    CHECK(of == &batch && step.kind == DCONFDB_QUEUE_TAKE && number == step.number, "step: the edit is taken that is to be");
}

static uint32_t write_taken(Batch *of, DconfdbStore *at, const Turn *by, size_t *fault_at, DconfdbError *fault)
{
    (void)at, (void)by;
    CHECK(of == &batch && step.kind == DCONFDB_QUEUE_WRITE, "step: a write, where one is to be");
    given = any_u32();
    *fault_at = given_at = any_size();
    fault->code = DCONFDB_ERROR_FILE;
    fault->errnum = ++faults;
    return given;
}

static uint32_t ask(const Batch *of, DconfdbStore *at, size_t number)
{
    (void)at;
    CHECK(of == &batch && step.kind == DCONFDB_QUEUE_ASK && number == step.number, "step: the key is asked of that is to be");
    return given = any_u32();
}

/* A proved call: any step, up to four, and the end. */
void dconfdb_queue_answered(DconfdbQueue *queue, DconfdbQueued *edits, size_t count, uint32_t answer, size_t at, DconfdbQueueStep *next)
{
    CHECK(queue == &batch.queue && edits == batch.queued && count == batch.count, "memory: the batch's own");
    CHECK(answer == given && at == given_at, "answer: what became of the step");
    step = (DconfdbQueueStep){any_u32(), any_size(), any_bool(), steps > 0 && any_bool()};
    GIVEN(step.kind <= DCONFDB_QUEUE_WAITING && (steps < STEPS || step.kind >= DCONFDB_QUEUE_WRITTEN));
    kept = step.keeps_fault ? faults : kept;
    steps++;
    given = DCONFDB_QUEUE_YES;
    given_at = 0;
    *next = step;
}

/* harness batch_tells: unwind 6, quick */
int batch_tells(void)
{
    static const FolderLock lock = {3, 4, NULL};
    const Turn turn = {&lock, 0, NULL};
    static char lent[1];
    DconfdbError refusal, fault;
    batch.count = 1;
    batch.queue.is_closed = any_bool();
    given = DCONFDB_QUEUE_BEGINS;
    refusal.code = fault.code = DCONFDB_ERROR_NONE;
    refusal.errnum = fault.errnum = 0;
    bool is = batch_write(&batch, (DconfdbStore *)lent, &turn, &refusal, &fault);
    CHECK(is == (step.kind == DCONFDB_QUEUE_WRITTEN), "answer: written, if the steps end so");
    CHECK(batch.is_closed == batch.queue.is_closed, "answer: whether nobody may write there");
    CHECK(refusal.code == DCONFDB_ERROR_NONE || refusal.errnum == kept, "answer: what is told is the fault that is to be kept");
    CHECK(step.tells || refusal.code == DCONFDB_ERROR_NONE, "answer: nothing is told that isn't to be");
    CHECK(!step.tells || (refusal.code != DCONFDB_ERROR_NONE) == (kept > 0), "answer: what is to be told is");
    if (step.tells && kept == 1 && faults == 2)
        REACHED("the first of two faults is told");
    return 0;
}
