/* The machines of what waits, as machines.c has the others. */
#include "machines.h"
#include "world.h"

#include "machines/tables.h"

void (*at_next)(const DconfdbNext *step);
void (*at_next_answer)(uint32_t answer, size_t at);

/* Any time. */
uint64_t dconfdb_nanoseconds(const DconfdbFileTime *time)
{
    CHECK(__CPROVER_r_ok(time, sizeof *time), "memory: a time");
    return any_u64();
}

/* ---- changes that wait. The edits are of the machine's memory, and are there from the first step on */

static uint16_t queue_state;

static uint16_t queue_first_of(const DconfdbQueued *edits, size_t count)
{
    for (uint32_t i = 0; i < QUEUE_BEGINNINGS; i++) {
        DconfdbQueued asked[QUEUE_EDITS];
        bool is = queue_edits(i, asked) == count;
        for (size_t n = 0; is && n < count; n++)
            is = asked[n].change == edits[n].change && asked[n].sets == edits[n].sets && asked[n].is_left_out == edits[n].is_left_out;
        if (is)
            return queue_first[i];
    }
    CHECK(false, "answer: edits, of which the first one of a change has its number");
    return queue_first[0];
}

/* As explore.c has what is told, and kept. */
static void queue_tells(DconfdbQueueStep *step)
{
    const DconfdbStep *is = &queue_states[queue_state].step;
    *step = (DconfdbQueueStep){is->kind, is->number, is->has_number, is->fault != 0};
    if (at_next)
        at_next(&(DconfdbNext){is->kind, is->number});
}

static void queue_begins(DconfdbQueue *queue, const DconfdbQueued *edits, size_t count, DconfdbQueueStep *step)
{
    GIVEN(count <= QUEUE_EDITS);
    *queue = (DconfdbQueue){.is_closed = false};
    queue_state = queue_first_of(edits, count);
    queue_tells(step);
}

void dconfdb_queue_answered(DconfdbQueue *queue, DconfdbQueued *edits, size_t count, uint32_t answer, size_t at, DconfdbQueueStep *step)
{
    CHECK(count == 0 || __CPROVER_r_ok(edits, count * sizeof *edits), "memory: edits that are there");
    CHECK(__CPROVER_r_ok(queue, sizeof *queue), "memory: a queue");
    if (answer == DCONFDB_QUEUE_BEGINS) {
        queue_begins(queue, edits, count, step);
        return;
    }
    CHECK(answer <= DCONFDB_QUEUE_CLOSED && (answer != DCONFDB_QUEUE_FAULT || at <= count), "answer: one to a step");
    if (at_next_answer)
        at_next_answer(answer, at);
    queue->is_closed = queue->is_closed || answer == DCONFDB_QUEUE_CLOSED;
    queue_state = within(queue_states[queue_state].after[queue_answer(answer, at)]);
    queue_marked(queue_states[queue_state].seen, edits, count);
    queue_tells(step);
}

/* ---- a wait */

enum { MILLISECONDS = 1000000, LONGEST_PAUSE = 50000000 };

/* What it stopped with is the fault; who had a lease on the lock's file has no lock. */
static void wait_tells(const DconfdbWait *wait, DconfdbNext *step)
{
    uint32_t kind = wait_states[wait->stage].step.kind;
    *step = (DconfdbNext){kind, kind == DCONFDB_WAIT_STOPPED ? wait->fault : wait_states[wait->stage].step.number};
    if (kind == DCONFDB_WAIT_BUSY && wait->tried == DCONFDB_TRIED_LOCK_FILE)
        step->number = 16;
    if (at_next)
        at_next(step);
}

void dconfdb_wait_begin(DconfdbWait *wait, uint32_t what, uint32_t longest, uint64_t now, DconfdbNext *step)
{
    uint32_t at = 0;
    CHECK(what <= DCONFDB_WAIT_FOR_LEASE, "answer: what is waited for");
    longest = what == DCONFDB_WAIT_FOR_LOCK ? longest : UINT32_MAX;
    while (at < WAIT_BEGINNINGS && wait_longest[at] != longest)
        at++;
    GIVEN(at < WAIT_BEGINNINGS && what != DCONFDB_WAIT_FOR_LEASE);
    *wait = (DconfdbWait){.stage = wait_first[at], .began = now, .is_timed = what != DCONFDB_WAIT_WITHOUT_END};
    wait_tells(wait, step);
}

static uint64_t less(uint64_t one, uint64_t other)
{
    return one > other ? one - other : 0;
}

/* The place of a time that passed. */
static unsigned time_of_wait(DconfdbWait *wait, uint64_t moment)
{
    unsigned at = 0;
    if (wait->paused != 0)
        wait->began += less(less(moment, wait->paused), LONGEST_PAUSE);
    wait->paused = wait_states[wait->stage].step.kind == DCONFDB_WAIT_PAUSE ? moment : 0;
    uint64_t passed = wait->is_timed ? less(moment, wait->began) / MILLISECONDS : 0;
    while (at < WAIT_TIMES && wait_passed[at] != passed)
        at++;
    GIVEN(at < WAIT_TIMES);
    return at;
}

static unsigned wait_answer(uint32_t tried, uint32_t fault, unsigned at)
{
    if (fault == 0)
        return tried == DCONFDB_TRIED_NAME ? at + WAIT_MOVED : WAIT_GOT;
    if (tried == DCONFDB_TRIED_NAME)
        return WAIT_FAILED;
    uint32_t answer = fault_answers[tried == DCONFDB_TRIED_LOCK ? DCONFDB_CALL_LOCK : DCONFDB_CALL_OPEN][fault];
    return answer == DCONFDB_ANSWER_LEASED || answer == DCONFDB_ANSWER_TAKEN ? at + WAIT_TAKEN : WAIT_FAILED;
}

void dconfdb_wait_answered(DconfdbWait *wait, uint32_t tried, uint32_t fault, uint64_t at, DconfdbNext *step)
{
    CHECK(tried <= DCONFDB_TRIED_LOCK_FILE && fault < FAULTS, "answer: one to a try");
    if (at_next_answer)
        at_next_answer(tried, fault);
    unsigned time = time_of_wait(wait, at);
    wait->stage = within(wait_states[wait->stage].after[wait_answer(tried, fault, time)]);
    wait->fault = fault;
    wait->tried = tried;
    wait_tells(wait, step);
}
