/* Writes tables of the proved machines as they answer: from each beginning each answer is given in each state that is reached, and what comes next is
 * kept. So nothing of a machine is written by hand: who links the archive has what the archive does.
 *
 * A machine is known by its steps alone. Its memory is compared byte by byte, and is all 0 before it begins. */
#include "explore.h"

#include <stdbool.h>
#include <stdio.h>
#include <stdlib.h>
#include <string.h>

enum { MOST_STATES = 20000, MOST_BYTES = 256, MOST_ANSWERS = 16, MOST_BEGINNINGS = 64 };

typedef struct {
    uint32_t kind, fault;
    size_t number;
    bool has_number;
    uint32_t seen; /* what else a caller sees of the machine, as a number */
} Step;

typedef struct {
    uint8_t bytes[MOST_BYTES];
    Step step;
    int depth, after[MOST_ANSWERS], class, next_class;
} State;

typedef struct {
    const char *name;
    size_t size;
    int beginnings, answers, most_depth;
    void (*begins)(void *it, int number);
    Step (*steps)(const void *it);
    bool (*answered)(void *it, const Step *step, int number); /* false: no such answer is given in this state */
} Machine;

static State states[MOST_STATES];
static int count;

void fail(const char *name, const char *why)
{
    fprintf(stderr, "explore: %s: %s\n", name, why);
    exit(1);
}

static int number_of(const Machine *machine, const uint8_t *bytes, int depth)
{
    for (int i = 0; i < count; i++) {
        if (memcmp(states[i].bytes, bytes, MOST_BYTES) == 0)
            return i;
    }
    if (depth > machine->most_depth)
        return BEYOND;
    if (count == MOST_STATES)
        fail(machine->name, "too many states");
    State *state = &states[count];
    memcpy(state->bytes, bytes, MOST_BYTES);
    state->step = machine->steps(bytes);
    state->depth = depth;
    return count++;
}

static void explore(const Machine *machine, int *first)
{
    uint8_t bytes[MOST_BYTES];
    if (machine->size > MOST_BYTES)
        fail(machine->name, "too much memory");
    count = 0;
    for (int i = 0; i < machine->beginnings; i++) {
        memset(bytes, 0, sizeof bytes);
        machine->begins(bytes, i);
        first[i] = number_of(machine, bytes, 0);
    }
    for (int i = 0; i < count; i++) {
        for (int n = 0; n < machine->answers; n++) {
            memcpy(bytes, states[i].bytes, MOST_BYTES);
            states[i].after[n] = machine->answered(bytes, &states[i].step, n) ? number_of(machine, bytes, states[i].depth + 1) : BEYOND;
        }
    }
}

/* ---- states that nobody can tell apart, by any steps and answers, are one */

static int class_of(int state)
{
    return state == BEYOND ? BEYOND : states[state].class;
}

static bool are_alike(const Machine *machine, const State *one, const State *other)
{
    const Step *step = &one->step, *another = &other->step;
    bool are = one->class == other->class && step->kind == another->kind && step->fault == another->fault && step->number == another->number
        && step->has_number == another->has_number && step->seen == another->seen;
    for (int n = 0; are && n < machine->answers; n++)
        are = class_of(one->after[n]) == class_of(other->after[n]);
    return are;
}

/* Splits the classes once more; gives how many there are. A class has the number of its first state among the first ones. */
static int split(const Machine *machine)
{
    int classes = 0;
    for (int i = 0; i < count; i++) {
        int at = 0;
        while (at < i && !are_alike(machine, &states[at], &states[i]))
            at++;
        states[i].next_class = at < i ? states[at].next_class : classes++;
    }
    for (int i = 0; i < count; i++)
        states[i].class = states[i].next_class;
    return classes;
}

static int merge(const Machine *machine)
{
    int before, classes = 1;
    for (int i = 0; i < count; i++)
        states[i].class = 0;
    do {
        before = classes;
        classes = split(machine);
    } while (classes != before);
    return classes;
}

static void print_state(const Machine *machine, const State *state)
{
    printf("    {{%u, %u, %zu, %d}, %u, {", state->step.kind, state->step.fault, state->step.number, state->step.has_number, state->step.seen);
    for (int n = 0; n < machine->answers; n++)
        printf("%s%d", n > 0 ? ", " : "", class_of(state->after[n]));
    printf("}},\n");
}

static void print(const Machine *machine)
{
    int first[MOST_BEGINNINGS], printed = 0;
    explore(machine, first);
    int classes = merge(machine);
    printf("static const uint16_t %s_first[%d] = {", machine->name, machine->beginnings);
    for (int i = 0; i < machine->beginnings; i++)
        printf("%s%d", i > 0 ? ", " : "", class_of(first[i]));
    printf("};\n/* %d states, of which nobody can tell more apart than: */\n", count);
    printf("static const struct { DconfdbStep step; uint32_t seen; uint16_t after[%d]; } %s_states[%d] = {\n", machine->answers, machine->name, classes);
    for (int i = 0; i < count; i++) {
        if (states[i].class == printed && ++printed)
            print_state(machine, &states[i]);
    }
    printf("};\n\n");
}

/* ---- a change */

/* The machine, and the step that it is at. */
typedef struct {
    DconfdbTurn turn;
    DconfdbStep step;
} Turning;

/* Bytes between fields are those of no field. */
static void is_at_step(Turning *it, const DconfdbStep *step)
{
    memset(&it->step, 0, sizeof it->step);
    it->step.kind = step->kind;
    it->step.fault = step->fault;
    it->step.number = step->number;
    it->step.has_number = step->has_number;
}

static void turn_begins(void *it, int number)
{
    DconfdbStep step = {0};
    Turning *turning = it;
    (void)number;
    dconfdb_turn_begin(&turning->turn, &step);
    is_at_step(turning, &step);
}

static void turn_takes(Turning *it, uint32_t fault, size_t n)
{
    DconfdbStep step = {0};
    dconfdb_turn_answered(&it->turn, fault, n, &step);
    is_at_step(it, &step);
}

static Step turn_steps(const void *it)
{
    const Turning *turning = it;
    const DconfdbStep *step = &turning->step;
    const DconfdbTurn *turn = &turning->turn; /* what came of it so far is read there */
    return (Step){step->kind, step->fault, step->number, step->has_number, turn_seen(turn->outcome, turn->fault)};
}

/* Of a fault no number counts: another one leads to the same. */
static void turn_fails(Turning *it, uint32_t fault)
{
    Turning other = *it;
    turn_takes(it, fault, 0);
    turn_takes(&other, fault, 3);
    if (memcmp(it, &other, sizeof other) != 0)
        fail("turn", "a fault's number counts");
}

static bool turn_answered(void *it, const Step *step, int number)
{
    size_t n = 0;
    if (step->kind == DCONFDB_TURN_DONE)
        return false;
    if (number >= TURN_FAULT) {
        turn_fails(it, number == TURN_FAULT ? 1 : DCONFDB_TURN_NOTHING);
        return true;
    }
    if (!turn_number(step->kind, (unsigned)number, &n))
        return false;
    turn_takes(it, 0, n);
    return true;
}

/* ---- a look */

/* A step that has a number. */
static void is_at_next(DconfdbNext *it, const DconfdbNext *next)
{
    memset(it, 0, sizeof *it);
    it->kind = next->kind;
    it->number = next->number;
}

typedef struct {
    DconfdbRefresh refresh;
    DconfdbNext next;
} Looking;

static void refresh_begins(void *it, int number)
{
    DconfdbNext next = {0};
    Looking *looking = it;
    dconfdb_refresh_begin(&looking->refresh, (size_t)number / 8, (number & 4) != 0, (number & 2) != 0, (number & 1) != 0, &next);
    is_at_next(&looking->next, &next);
}

static Step refresh_steps(const void *it)
{
    const Looking *looking = it;
    return (Step){looking->next.kind, 0, looking->next.number, false, 0};
}

/* By any errno that is a file's own, or isn't: what comes of it is the same. */
static void answer_fault(DconfdbRefresh *refresh, bool is_own, DconfdbNext *next)
{
    enum { EACCES_ = 13, EIO_ = 5 };
    const DconfdbRefresh before = *refresh;
    dconfdb_refresh_answered(refresh, false, is_own ? EACCES_ : EIO_, next);
    for (uint32_t fault = 1; fault < FAULTS; fault++) {
        DconfdbRefresh other = before;
        DconfdbNext then = {0, 0};
        dconfdb_refresh_answered(&other, false, fault, &then);
        bool is_alike = then.kind == next->kind && then.number == next->number;
        DconfdbRenamed none;
        if ((dconfdb_fault_answer(DCONFDB_CALL_OPEN, fault, &none) == DCONFDB_ANSWER_OWN) == is_own && !is_alike)
            fail("refresh", "another errno of that class is something else");
    }
}

static bool refresh_answered(void *it, const Step *step, int number)
{
    if (step->kind >= DCONFDB_LOOK_FAILED || (number >= REFRESH_OWN_FAULT && step->kind != DCONFDB_LOOK_READ))
        return false;
    DconfdbNext next = {0};
    Looking *looking = it;
    if (number >= REFRESH_OWN_FAULT)
        answer_fault(&looking->refresh, number == REFRESH_OWN_FAULT, &next);
    else
        dconfdb_refresh_answered(&looking->refresh, number == 1, 0, &next);
    is_at_next(&looking->next, &next);
    return true;
}

/* ---- changes that wait: the machine marks them, so they are of its memory */

typedef struct {
    DconfdbQueue queue;
    DconfdbQueueStep next;
    size_t count;
    DconfdbQueued edits[QUEUE_EDITS];
} Waiting;

static void is_at_queue_step(DconfdbQueueStep *it, const DconfdbQueueStep *next)
{
    memset(it, 0, sizeof *it);
    it->kind = next->kind;
    it->number = next->number;
    it->keeps_fault = next->keeps_fault;
    it->tells = next->tells;
}

static void queue_takes(Waiting *it, uint32_t answer, size_t at)
{
    DconfdbQueueStep next = {0};
    dconfdb_queue_answered(&it->queue, it->edits, it->count, answer, at, &next);
    is_at_queue_step(&it->next, &next);
}

static void queue_begins(void *it, int number)
{
    Waiting *waiting = it;
    waiting->count = queue_edits((uint32_t)number, waiting->edits);
    queue_takes(waiting, DCONFDB_QUEUE_BEGINS, 0);
}

/* What is told, and what is kept, is of the step, too. */
static Step queue_steps(const void *it)
{
    const Waiting *waiting = it;
    const DconfdbQueueStep *next = &waiting->next;
    return (Step){next->kind, next->tells, next->number, next->keeps_fault, queue_seen(waiting->edits, waiting->count)};
}

/* Where the fault is of no edit, none counts: another one leads to the same. */
static void queue_takes_any(Waiting *it, uint32_t answer)
{
    Waiting other = *it;
    queue_takes(it, answer, 0);
    queue_takes(&other, answer, 1);
    if (memcmp(it, &other, sizeof other) != 0)
        fail("queue", "the place of what is no fault counts");
}

static bool queue_answered(void *it, const Step *step, int number)
{
    static const uint32_t answers[QUEUE_FAULT] = {DCONFDB_QUEUE_YES, DCONFDB_QUEUE_LOCKED, DCONFDB_QUEUE_LATER, DCONFDB_QUEUE_CLOSED};
    int given = step->kind == DCONFDB_QUEUE_WRITE ? QUEUE_ANSWERS : step->kind == DCONFDB_QUEUE_ASK ? 2 : step->kind < DCONFDB_QUEUE_WRITE;
    if (number >= given)
        return false;
    if (number >= QUEUE_FAULT)
        queue_takes(it, DCONFDB_QUEUE_FAULT, (size_t)number - QUEUE_FAULT);
    else
        queue_takes_any(it, answers[number]);
    return true;
}

/* ---- a wait. Its tries are counted, so what comes after some is beyond the bounds */

enum { MOST_WAITED_STEPS = 24, FAULT = 5, BUSY_FAULT = 11 };

typedef struct {
    DconfdbWait wait;
    DconfdbNext next;
} Awaiting;

static void wait_begins(void *it, int number)
{
    DconfdbNext next = {0};
    Awaiting *awaiting = it;
    bool has_end = wait_longest[number] != UINT32_MAX;
    dconfdb_wait_begin(&awaiting->wait, has_end ? DCONFDB_WAIT_FOR_LOCK : DCONFDB_WAIT_WITHOUT_END, wait_longest[number], 0, &next);
    is_at_next(&awaiting->next, &next);
}

/* So many milliseconds after it began. */
static void wait_takes(Awaiting *it, uint32_t tried, uint32_t fault, uint64_t passed)
{
    DconfdbNext next = {0};
    dconfdb_wait_answered(&it->wait, tried, fault, passed * 1000000, &next);
    is_at_next(&it->next, &next);
}

/* What it stopped with is the fault, whichever that is. */
static Step wait_steps(const void *it)
{
    const DconfdbNext *next = &((const Awaiting *)it)->next;
    return (Step){next->kind, 0, next->kind == DCONFDB_WAIT_STOPPED ? 0 : next->number, false, 0};
}

static void wait_fails(Awaiting *it)
{
    for (uint32_t fault = 1; fault < 4096; fault++) {
        Awaiting other = *it;
        wait_takes(&other, DCONFDB_TRIED_LOCK, fault, 0);
        if (fault != BUSY_FAULT && (other.next.kind != DCONFDB_WAIT_STOPPED || other.next.number != fault))
            fail("wait", "it stops with another fault");
    }
    wait_takes(it, DCONFDB_TRIED_LOCK, FAULT, 0);
}

static bool wait_answered(void *it, const Step *step, int number)
{
    if (step->kind > DCONFDB_WAIT_PAUSE)
        return false;
    if (step->kind == DCONFDB_WAIT_PAUSE || number == WAIT_GOT)
        wait_takes(it, DCONFDB_TRIED_LOCK, 0, 0);
    else if (number == WAIT_FAILED)
        wait_fails(it);
    else if (number < WAIT_MOVED)
        wait_takes(it, DCONFDB_TRIED_LOCK, BUSY_FAULT, wait_passed[number % WAIT_TIMES]);
    else
        wait_takes(it, DCONFDB_TRIED_NAME, 0, wait_passed[number % WAIT_TIMES]);
    return true;
}

static const Machine machines[] = {
    {"turn", sizeof(Turning), 1, TURN_ANSWERS, MOST_STATES, turn_begins, turn_steps, turn_answered},
    {"refresh", sizeof(Looking), REFRESH_BEGINNINGS, REFRESH_ANSWERS, MOST_STATES, refresh_begins, refresh_steps, refresh_answered},
    {"queue", sizeof(Waiting), QUEUE_BEGINNINGS, QUEUE_ANSWERS, MOST_STATES, queue_begins, queue_steps, queue_answered},
    {"wait", sizeof(Awaiting), WAIT_BEGINNINGS, WAIT_ANSWERS, MOST_WAITED_STEPS, wait_begins, wait_steps, wait_answered},
};

int main(void)
{
    printf("/* Made by machines/explore of the archive of the proved calls: machines/compare says whether it is so still. */\n");
    for (size_t i = 0; i < sizeof machines / sizeof *machines; i++)
        print(&machines[i]);
    print_answers();
    compare_answers();
    return 0;
}
