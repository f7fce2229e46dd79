/* Something that others may keep from being done, tried until it is done, or its time is over. */
#define _POSIX_C_SOURCE 200809L
#include "tries.h"
#include "clocks.h"
#include "dconfdb_calls.h"

/* Nanoseconds of a clock that nobody sets. */
static uint64_t moment(void)
{
    return clock_nanoseconds(CLOCK_MONOTONIC);
}

static void take_pause(size_t nanoseconds)
{
    struct timespec pause = {0, (long)nanoseconds};
    nanosleep(&pause, NULL);
}

/* Goes on from a first try. The time of a try is that at which it began: so the last one begins when all the time is over. */
static int go_on(uint32_t what, uint32_t milliseconds, uint64_t began, uint32_t tried, int fault, Tries *tries, void *it, bool *is_others)
{
    DconfdbWait wait = {0};
    DconfdbNext next = {0, 0};
    uint64_t at = began;
    dconfdb_wait_begin(&wait, what, milliseconds, at, &next);
    for (;;) {
        dconfdb_wait_answered(&wait, tried, (uint32_t)fault, at, &next);
        switch (next.kind) {
        case DCONFDB_WAIT_TRY:
            at = moment();
            tried = tries(it, &fault);
            break;
        case DCONFDB_WAIT_PAUSE:
            at = moment();
            take_pause(next.number);
            break;
        case DCONFDB_WAIT_HAD:
            return 0;
        default:
            *is_others = next.kind == DCONFDB_WAIT_BUSY;
            return (int)next.number;
        }
    }
}

int try_for(uint32_t what, uint32_t milliseconds, Tries *tries, void *it, bool *is_others)
{
    uint64_t began = moment();
    int fault = 0;
    uint32_t tried = tries(it, &fault);
    return go_on(what, milliseconds, began, tried, fault, tries, it, is_others);
}

int try_on(uint32_t what, uint32_t tried, int fault, Tries *tries, void *it)
{
    bool is_others;
    return go_on(what, 0, moment(), tried, fault, tries, it, &is_others);
}
