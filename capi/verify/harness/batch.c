/* common/batch.c: edits that wait, up to two, written together. The block that a batch has; each step by itself; and the loop of the steps, by the proved
 * queue. What writes is the library's, and answers in any way. */
#include "common/batch.c"
#include "machines.h"
#include "world.h"

#include <stdlib.h>

/* narrows libdconfdb/dconfdb.h: char text[512]; => char text[8]; */
/* stubs common/batch.c: take write_taken ask */

static char lent[2]; /* stand for a store and its snapshot */
static DconfdbStore *const store = (DconfdbStore *)&lent[0];
static DconfdbSnapshot *const now = (DconfdbSnapshot *)&lent[1];
static const FolderLock lock = {3, 4, NULL};
static DconfdbEdit edits[QUEUE_EDITS];
static Batch batch;
static Turn turn;
static unsigned had, writes, asks, answers;
static bool is_left, may_be, has_users, may_write_there;
static DconfdbError written;
static bool is_written;

/* ---- GLib's memory ends the program where there is none */

void *g_malloc_n(size_t count, size_t size)
{
    if (count == 0 || size == 0)
        return NULL;
    GIVEN(count <= QUEUE_EDITS + 1);
    void *memory = malloc(count * size);
    GIVEN(memory != NULL);
    return memory;
}

void g_free(void *memory)
{
    free(memory);
}

/* ---- the block: of so many edits, a number that is known, so that it has one size */

static void fill(size_t count)
{
    static char keys[QUEUE_EDITS][3] = {"/a", "/b"};
    for (size_t i = 0; i < count; i++) {
        if (any_bool())
            keys[i][1] = '/';
        edits[i] = (DconfdbEdit){.path = keys[i], .type = any_bool() ? "s" : NULL};
        batch_add(&batch, &edits[i], 7 + i, 0, any_bool());
        CHECK(batch.count == i + 1 && batch.edits[i] == &edits[i] && batch.moments[i] == 7 + i, "answer: what waits is what was set");
    }
}

static void has_room(size_t count)
{
    CHECK(__CPROVER_w_ok(batch.queued, count * sizeof *batch.queued) && __CPROVER_w_ok(batch.edits, count * sizeof *batch.edits), "memory: each edit has room");
    CHECK(__CPROVER_w_ok(batch.moments, count * sizeof *batch.moments) && __CPROVER_w_ok(batch.asked, count * sizeof *batch.asked), "memory: each edit has room");
    CHECK(__CPROVER_w_ok(batch.made, count * sizeof *batch.made), "memory: each edit has room");
}

/* All are taken but the first, or that, too; what they wait by stays. */
static void are_taken(size_t count)
{
    size_t first = any_bool() ? 1 : 0;
    batch = batch_new(count);
    CHECK(batch.count == 0 && batch.taken == 0 && !batch.is_closed, "answer: it begins with nothing");
    has_room(count);
    fill(count);
    for (size_t i = 0; i < count; i++) {
        if (i >= first)
            real_take(&batch, i);
    }
    CHECK(batch.taken == count - first, "step: each is taken once");
    for (size_t i = 0; i < count; i++) {
        CHECK(batch.edits[i] == &edits[i] && batch.moments[i] == 7 + i && batch.queued[i].change == 0 && !batch.queued[i].is_refused, "answer: what waits is what was set");
        CHECK(batch.queued[i].sets == (edits[i].type != NULL), "answer: what waits is what was set");
        if (i >= first)
            CHECK(batch.asked[i - first].path == edits[i].path && batch.made[i - first].moment == 7 + i && batch.made[i - first].change == 0, "answer: it is taken with its moment and its change");
    }
    batch_end(&batch);
    if (first == 1)
        REACHED("the first one is passed over");
}

/* harness batch_block: unwind 4, quick */
int batch_block(void)
{
    are_taken(QUEUE_EDITS);
    return 0;
}

/* ---- the library */

DconfdbSnapshot *dconfdb_store_snapshot(DconfdbStore *at)
{
    CHECK(at == store, "memory: a store");
    had++;
    return now;
}

void dconfdb_snapshot_unref(DconfdbSnapshot *snapshot)
{
    CHECK(snapshot == now && had > 0, "memory: what is given back is had");
    had--;
}

bool dconfdb_snapshot_is_writable(const DconfdbSnapshot *snapshot, const char *path)
{
    CHECK(snapshot == now && had > 0, "memory: the snapshot is had");
    CHECK(path == edits[0].path, "step: what is asked is whether the edit's key may be written");
    asks++;
    return is_left = any_bool();
}

const char *dconfdb_store_user_file(const DconfdbStore *at)
{
    CHECK(at == store, "memory: a store");
    has_users = any_bool();
    return has_users ? lent : NULL;
}

/* ---- proved calls: any answer */

bool dconfdb_is_open(const DconfdbWriting *known)
{
    CHECK(known->has_user == has_users && known->is_closed == batch.queue.is_closed, "answer: whether there is a user's database, and whether it is closed");
    CHECK(known->writes, "answer: what waits is written");
    return may_write_there = any_bool();
}

bool dconfdb_may_be_made(const uint8_t *path, size_t len, bool sets, bool is_open, bool may_write)
{
    CHECK((const char *)path == edits[0].path && len == 2 && sets == (edits[0].type != NULL), "step: what is asked is whether the edit may be made");
    CHECK(is_open == may_write_there && may_write == is_left, "step: by whether somebody may write there, and the key may be written");
    answers++;
    return may_be = any_bool();
}

static bool fails(DconfdbError *fault)
{
    written.code = (DconfdbErrorCode)any_u32();
    written.errnum = any_fault();
    written.edit = any_size();
    *fault = written;
    is_written = false;
    return false;
}

static size_t was_taken;

bool refuse_lock(const DconfdbStore *at, int fault, DconfdbError *error)
{
    CHECK(at == store && turn.fault != 0 && fault == turn.fault, "answer: the fault of the lock");
    CHECK(was_taken > 0, "step: it is a write's");
    writes++;
    return fails(error);
}

bool locked_change(DconfdbStore *at, const FolderLock *by, const DconfdbEdit *asked, const Made *made, size_t count, const Awaits *who, DconfdbError *error)
{
    CHECK(who == turn.who, "step: who hears of it is handed on");
    CHECK(at == store && by == turn.lock && turn.fault == 0, "order: nothing is written without the lock");
    CHECK(asked == batch.asked && count == was_taken && count > 0, "step: those are written that were taken since the last write");
    CHECK(made == batch.made, "step: with their moments");
    writes++;
    is_written = any_bool();
    return is_written || fails(error);
}

/* ---- a proved call: any verdict */

static uint32_t verdict_given;

uint32_t dconfdb_verdict(uint32_t code, uint32_t fault)
{
    CHECK(code == (uint32_t)written.code && fault == (uint32_t)written.errnum, "answer: the verdict is of that fault");
    verdict_given = any_u32();
    GIVEN(verdict_given > DCONFDB_QUEUE_YES && verdict_given <= DCONFDB_QUEUE_SOON);
    return verdict_given;
}

/* ---- each step by itself, of a batch that came so far */

static DconfdbQueued queued[QUEUE_EDITS];
static const DconfdbEdit *edits_at[QUEUE_EDITS] = {&edits[0], &edits[1]};
static DconfdbEdit asked_room[QUEUE_EDITS];
static Made made_room[QUEUE_EDITS];

static void set_up(void)
{
    batch = (Batch){.count = any_size(), .taken = any_size(), .queue = {.is_closed = any_bool()}, .queued = queued, .edits = edits_at,
                    .asked = asked_room, .made = made_room};
    GIVEN(batch.count <= QUEUE_EDITS && batch.taken <= batch.count);
    for (size_t i = 0; i < QUEUE_EDITS; i++)
        queued[i] = (DconfdbQueued){0, any_bool(), any_bool(), any_bool()};
    was_taken = batch.taken;
    turn = (Turn){&lock, any_bool() ? 0 : any_fault(), NULL};
}

/* harness batch_write_taken: unwind 4, quick */
int batch_write_taken(void)
{
    DconfdbError fault;
    set_up();
    GIVEN(batch.taken > 0);
    size_t at = 0;
    is_written = true;
    uint32_t answer = real_write_taken(&batch, store, &turn, &at, &fault);
    CHECK(writes == 1, "step: what was taken is written once");
    CHECK(batch.taken == 0, "step: it is not written again");
    CHECK(answer == (is_written ? DCONFDB_QUEUE_YES : verdict_given), "answer: what became of the write");
    CHECK(is_written || at == written.edit, "answer: the edit that is at fault");
    if (!is_written && was_taken == 2 && written.edit == 1)
        REACHED("the second edit is at fault");
    return 0;
}

/* harness batch_ask: unwind 4, quick */
int batch_ask(void)
{
    static char key[3] = "/a";
    set_up();
    edits[0].path = key;
    uint32_t answer = real_ask(&batch, store, 0);
    CHECK(had == 0, "memory: the snapshot is given back");
    CHECK(asks == 1 && answers == 1, "step: it is asked once");
    CHECK(answer == (may_be ? DCONFDB_QUEUE_YES : DCONFDB_QUEUE_LOCKED), "answer: it may be made, or is locked");
    if (answer == DCONFDB_QUEUE_LOCKED && !batch.queue.is_closed)
        REACHED("a locked key");
    return 0;
}

/* ---- the loop, with steps as those above have it */

static DconfdbNext step;
static bool is_amid;
static unsigned done, refused, kept;
static uint32_t given;
static size_t given_at;

static void begins(const DconfdbNext *next)
{
    CHECK(!is_amid, "order: each step is answered before the next one");
    step = *next;
    is_amid = next->kind < DCONFDB_QUEUE_WRITTEN;
    done = 0;
    given = DCONFDB_QUEUE_YES;
}

static void ends(uint32_t answer, size_t at)
{
    CHECK(is_amid, "order: an answer is one to a step");
    is_amid = false;
    CHECK(done == (step.kind != DCONFDB_QUEUE_PASS), "step: each is carried out once, and nothing else");
    CHECK(answer == given && (answer != DCONFDB_QUEUE_FAULT || at == given_at), "answer: what became of it");
}

static void take(Batch *of, size_t number)
{
    CHECK(of == &batch && is_amid && step.kind == DCONFDB_QUEUE_TAKE && number == step.number, "step: the edit is taken that is to be");
    done++;
}

/* Each fault has its number. The first one by which a change is refused is to be kept. */
static uint32_t write_taken(Batch *of, DconfdbStore *at, const Turn *by, size_t *fault_at, DconfdbError *fault)
{
    CHECK(of == &batch && at == store && by == &turn && is_amid && step.kind == DCONFDB_QUEUE_WRITE, "step: a write, where one is to be");
    done++;
    given = any_u32();
    given_at = any_size();
    GIVEN(given <= DCONFDB_QUEUE_CLOSED && given_at <= batch.count);
    if (given != DCONFDB_QUEUE_YES) {
        *fault_at = given_at;
        fault->code = DCONFDB_ERROR_FILE;
        fault->errnum = (int)++refused;
        if (!(batch.count > 0 && queued[0].is_refused) && !(batch.count > 1 && queued[1].is_refused))
            kept = refused;
    }
    return given;
}

static uint32_t ask(const Batch *of, DconfdbStore *at, size_t number)
{
    CHECK(of == &batch && at == store && is_amid && step.kind == DCONFDB_QUEUE_ASK && number == step.number, "step: the key is asked of that is to be");
    done++;
    return given = any_bool() ? DCONFDB_QUEUE_YES : DCONFDB_QUEUE_LOCKED;
}

/* So many edits, of one change or of two. */
static void is_gone_through(size_t count)
{
    DconfdbError refusal, fault;
    at_next = begins;
    at_next_answer = ends;
    batch = (Batch){.count = count, .queued = queued, .edits = edits_at};
    for (size_t i = 0; i < count; i++)
        queued[i] = (DconfdbQueued){i == 1 && any_bool() ? 1 : 0, any_bool(), any_bool(), false};
    refusal.code = any_bool() ? DCONFDB_ERROR_MEMORY : DCONFDB_ERROR_NONE;
    refusal.errnum = 0;
    bool is = batch_write(&batch, store, &turn, &refusal, &fault);
    CHECK(!is_amid && step.kind == (is ? DCONFDB_QUEUE_WRITTEN : DCONFDB_QUEUE_WAITING), "answer: written, if the steps end so");
    CHECK(is || refused > 0, "answer: what waits again has failed");
    CHECK(refusal.code == DCONFDB_ERROR_NONE || (refused > 0 && refusal.errnum == (int)kept), "answer: what is told is the first fault by which one is refused");
    CHECK((refusal.code != DCONFDB_ERROR_NONE) == (batch.is_closed || (count > 0 && queued[0].is_refused) || (count > 1 && queued[1].is_refused)), "answer: something is told where a change is refused, or nobody may write there");
    for (size_t i = 0; i < count; i++)
        CHECK(!batch_is_refused(&batch, i) || refused > 0, "answer: what is refused has failed");
    if (is && refused > 0)
        REACHED("one is refused, and the others are written");
}

/* harness batch_loop_one: unwind 4, loops batch_write.0:9 queue_first_of.1:38, with waits.c */
int batch_loop_one(void)
{
    is_gone_through(1);
    return 0;
}

/* harness batch_loop: unwind 4, long, loops batch_write.0:14 queue_first_of.1:38, with waits.c */
int batch_loop(void)
{
    is_gone_through(2);
    return 0;
}
