/* The answers that are given to the machines: those that explore.c tries, and the model of the system gives. */
#ifndef ANSWERS_H
#define ANSWERS_H

#include "dconfdb_calls.h"

/* Of a change: with 0 these numbers, and a fault, or the one of who makes no new bytes. */
enum { TURN_NUMBERS = 4, TURN_FAULT = TURN_NUMBERS, TURN_NOTHING, TURN_ANSWERS };

/* The number at that place, of a step; false: there is none. Of bytes there are up to two; more are an answer that is no true one. */
static inline bool turn_number(uint32_t kind, unsigned at, size_t *n)
{
    static const size_t bits[TURN_NUMBERS] = {0600, 0644, 512 + 0600, 1024};
    *n = at;
    switch (kind) {
    case DCONFDB_TURN_READ: *n = bits[at]; return true;
    case DCONFDB_TURN_MAKE: return at < 3;
    case DCONFDB_TURN_APPEND: return true;
    case DCONFDB_TURN_SET_ASIDE: return at < 2;
    default: return at == 0;
    }
}

/* What came of it so far, as a number; and back. */
static inline uint32_t turn_seen(uint32_t outcome, uint32_t fault)
{
    return 3 * outcome + (fault == 0 ? 0 : fault == DCONFDB_TURN_NOTHING ? 2 : 1);
}

static inline uint32_t turn_fault(uint32_t seen)
{
    return seen % 3 == 0 ? 0 : seen % 3 == 1 ? 1 : DCONFDB_TURN_NOTHING;
}

/* What a program has of a change, by what came of it and whether that before it is on the disk. */
enum { ENDINGS = 36 };

static inline void ending_asked(uint32_t number, uint32_t *outcome, uint32_t *fault, bool *is_unsettled)
{
    *outcome = number / 6;
    *fault = turn_fault(number / 2 % 3);
    *is_unsettled = number % 2 == 1;
}

/* What is asked before a change, and of its notes; and what is known of it. */
enum { MAKING_ASKS = DCONFDB_MAKING_UNNOTED + 1, MAKING_KNOWN = 8 };

/* The errnos, and 0, and the calls to which one may be another thing than a fault. */
enum { FAULTS = 134, CALLS = DCONFDB_CALL_PLACE + 1 };

/* Of a look at 0 to 2 files: no, yes, and a fault that is a file's own, or isn't. */
enum { REFRESH_BEGINNINGS = 24, REFRESH_OWN_FAULT = 2, REFRESH_OTHER_FAULT, REFRESH_ANSWERS };

/* Changes that wait, of up to two edits, the second of which is of the first one's change or of one of its own, and each of which may be left out or reset. */
enum { QUEUE_EDITS = 2, QUEUE_BEGINNINGS = 37 };

/* What the number of a beginning is of: of no edit 0, of one 1 to 4, and of two the others. */
static inline size_t queue_edits(uint32_t number, DconfdbQueued edits[QUEUE_EDITS])
{
    size_t count = number == 0 ? 0 : number < 5 ? 1 : 2;
    uint32_t bits = number - (count == 1 ? 1 : 5);
    for (size_t i = 0; i < count; i++) {
        edits[i].change = i == 1 && (bits & 16) != 0;
        edits[i].sets = (bits >> (2 * i) & 1) != 0;
        edits[i].is_left_out = (bits >> (2 * i + 1) & 1) != 0;
        edits[i].is_refused = false;
    }
    return count;
}

/* What became of them, a bit for each, and back. */
static inline uint32_t queue_seen(const DconfdbQueued *edits, size_t count)
{
    uint32_t seen = 0;
    for (size_t i = 0; i < count; i++)
        seen |= (uint32_t)(edits[i].is_left_out | edits[i].is_refused << 1) << 2 * i;
    return seen;
}

static inline void queue_marked(uint32_t seen, DconfdbQueued *edits, size_t count)
{
    for (size_t i = 0; i < count; i++) {
        edits[i].is_left_out = (seen >> 2 * i & 1) != 0;
        edits[i].is_refused = (seen >> (2 * i + 1) & 1) != 0;
    }
}

/* Its answers: yes, locked, later, closed, and a fault of each edit that was taken, or of none. */
enum { QUEUE_YES, QUEUE_LOCKED, QUEUE_LATER, QUEUE_CLOSED, QUEUE_FAULT, QUEUE_ANSWERS = QUEUE_FAULT + QUEUE_EDITS + 1 };

static inline uint32_t queue_answer(uint32_t answer, size_t at)
{
    return answer == DCONFDB_QUEUE_YES ? QUEUE_YES : answer == DCONFDB_QUEUE_LOCKED ? QUEUE_LOCKED : answer == DCONFDB_QUEUE_LATER ? QUEUE_LATER
        : answer == DCONFDB_QUEUE_CLOSED ? QUEUE_CLOSED : QUEUE_FAULT + (uint32_t)at;
}

/* A wait of 0 or 2 milliseconds, or one without end; of so many that have passed, or of a clock that fails. It finds the lock taken (EAGAIN) or
 * moved, gets it, or fails. */
enum { WAIT_BEGINNINGS = 3, WAIT_TIMES = 4, WAIT_TAKEN = 0, WAIT_MOVED = WAIT_TIMES, WAIT_GOT = 2 * WAIT_TIMES, WAIT_FAILED, WAIT_ANSWERS };

static const uint32_t wait_longest[WAIT_BEGINNINGS] = {0, 2, UINT32_MAX};
static const uint64_t wait_passed[WAIT_TIMES] = {0, 1, 2, UINT64_MAX / 1000000};

/* After an answer that isn't given there, or beyond the bounds. */
enum { BEYOND = 65535 };

#endif
