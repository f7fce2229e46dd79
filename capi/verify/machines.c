#include "machines.h"
#include "world.h"

#include "machines/given.h"
#include "machines/tables.h"

void (*at_step)(const DconfdbStep *step);
void (*at_answer)(uint32_t fault, size_t n);

/* ---- a change */

size_t some_number(uint32_t kind)
{
    size_t n = 0, at = any_size();
    GIVEN(at < TURN_NUMBERS);
    bool is = turn_number(kind, (unsigned)at, &n);
    GIVEN(is);
    return n;
}

static void turn_tells(const DconfdbTurn *turn, DconfdbStep *step)
{
    *step = turn_states[turn->state].step;
    if (at_step)
        at_step(step);
}

void dconfdb_turn_begin(DconfdbTurn *turn, DconfdbStep *step)
{
    uint32_t seen = turn_states[turn_first[0]].seen;
    *turn = (DconfdbTurn){.state = turn_first[0], .outcome = seen / 3, .fault = turn_fault(seen)};
    turn_tells(turn, step);
}

/* The place of an answer. The system gives no other number, so who answers with another one made it up. */
static unsigned answer_of(uint32_t kind, uint32_t fault, size_t n)
{
    size_t number = 0;
    if (fault == DCONFDB_TURN_NOTHING)
        return TURN_NOTHING;
    if (fault != 0)
        return TURN_FAULT;
    for (unsigned at = 0; at < TURN_NUMBERS; at++) {
        if (turn_number(kind, at, &number) && number == n)
            return at;
    }
    CHECK(false, "answer: a number that the system gave");
    return TURN_FAULT;
}

void dconfdb_turn_answered(DconfdbTurn *turn, uint32_t fault, size_t n, DconfdbStep *step)
{
    if (at_answer)
        at_answer(fault, n);
    turn->state = within(turn_states[turn->state].after[answer_of(turn_states[turn->state].step.kind, fault, n)]);
    turn->outcome = turn_states[turn->state].seen / 3;
    turn->fault = turn_fault(turn_states[turn->state].seen);
    turn_tells(turn, step);
}

/* ---- what is asked before a change, and what a program has of it */

uint32_t dconfdb_making_after(bool makes_file, bool is_unsettled, bool is_expected, uint32_t ask, uint32_t found)
{
    CHECK(ask < MAKING_ASKS && found <= DCONFDB_FOUND_FAULT, "answer: one to a question");
    return making[4 * makes_file + 2 * is_unsettled + is_expected][ask][found];
}

void dconfdb_ending(uint32_t outcome, uint32_t fault, bool is_unsettled, bool is_aside, DconfdbEnding *ending)
{
    uint32_t seen = turn_seen(outcome, fault);
    CHECK(outcome <= DCONFDB_TURN_UNSYNCED, "answer: an outcome");
    *ending = endings[2 * seen + is_unsettled];
    ending->keeps_fault = is_aside && ending->newest == DCONFDB_NEWEST_NEWER;
}

/* ---- what a fault is, and permission bits */

uint32_t dconfdb_fault_answer(uint32_t call, uint32_t fault, DconfdbRenamed *renamed)
{
    CHECK(call < CALLS && fault < FAULTS, "answer: an errno, of a call to which it may be something else");
    *renamed = renamed_given(call, fault, fault_answers[call][fault]);
    return fault_answers[call][fault];
}

uint32_t dconfdb_standing(uint32_t purpose, const DconfdbStood *stood, uint32_t *fault)
{
    CHECK(purpose <= DCONFDB_TO_SYNC_NAME && __CPROVER_r_ok(stood, sizeof *stood), "answer: a purpose");
    return standing_given(purpose, stood, fault);
}

bool dconfdb_is_one_file(const DconfdbFileStamp *one, const DconfdbFileStamp *other)
{
    return is_one_file_given(one, other);
}

void dconfdb_placed(const DconfdbFileStamp *named, DconfdbFileStamp *made)
{
    placed_given(named, made);
}

uint32_t dconfdb_moved(size_t wanted, size_t *at, uint32_t fault, size_t count)
{
    CHECK(__CPROVER_w_ok(at, sizeof *at) && *at <= wanted, "answer: so many were moved, and are wanted");
    return moved_given(wanted, at, fault, count);
}

uint32_t dconfdb_settling_after(uint32_t task, bool yes, const DconfdbSettling *known)
{
    return settling_given(task, yes, known);
}

uint32_t dconfdb_handing_after(uint32_t what, uint32_t done, uint32_t fault, const DconfdbMadeFile *file, uint32_t *number)
{
    CHECK(what <= DCONFDB_MADE_FOLDER && done <= DCONFDB_HANDING_BITS && __CPROVER_r_ok(file, sizeof *file), "answer: something that was made, and a step");
    return handing_given(what, done, fault, file, number);
}

uint32_t dconfdb_bring_after(uint32_t what, uint32_t done, uint32_t fault, bool has_file)
{
    CHECK(what <= DCONFDB_TO_BRING_BOTH && done < DCONFDB_BRING_OVER, "answer: a task that was done");
    return bring_given(what, done, fault, has_file);
}

void dconfdb_taking_answered(DconfdbTaking *taking, const DconfdbStood *stood)
{
    CHECK(__CPROVER_r_ok(stood, sizeof *stood), "answer: what the system says");
    taking_given(taking, stood);
}

/* ---- a look */

static void refresh_tells(const DconfdbRefresh *refresh, DconfdbNext *step)
{
    *step = (DconfdbNext){refresh_states[refresh->stage].step.kind, refresh_states[refresh->stage].step.number};
}

void dconfdb_refresh_begin(DconfdbRefresh *refresh, size_t count, bool has_old, bool in_turn, bool is_lenient, DconfdbNext *step)
{
    GIVEN(count <= 2);
    *refresh = (DconfdbRefresh){.stage = refresh_first[8 * count + 4 * has_old + 2 * in_turn + is_lenient]};
    refresh_tells(refresh, step);
}

/* States that nobody can tell apart are one, so a fault is had if what comes then comes of a yes. */
void dconfdb_refresh_answered(DconfdbRefresh *refresh, bool yes, uint32_t fault, DconfdbNext *step)
{
    const uint16_t *after = refresh_states[refresh->stage].after;
    CHECK(fault == 0 || (!yes && refresh_states[refresh->stage].step.kind == DCONFDB_LOOK_READ), "order: a fault is one of the reading");
    CHECK(fault < FAULTS, "answer: an errno");
    bool is_own = fault_answers[DCONFDB_CALL_OPEN][fault] == DCONFDB_ANSWER_OWN;
    refresh->stage = within(fault == 0 ? after[yes] : after[is_own ? REFRESH_OWN_FAULT : REFRESH_OTHER_FAULT]);
    refresh_tells(refresh, step);
}
