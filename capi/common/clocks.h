/* The time by a clock of the system. */
#ifndef CLOCKS_H
#define CLOCKS_H

#include "dconfdb_calls.h"

#include <time.h>

/* In nanoseconds, as the proved call counts them. A clock that fails stands still at its beginning. */
static inline uint64_t clock_nanoseconds(clockid_t clock)
{
    struct timespec now = {0, 0};
    clock_gettime(clock, &now);
    const DconfdbFileTime time = {(uint64_t)now.tv_sec, (uint64_t)now.tv_nsec};
    return dconfdb_nanoseconds(&time);
}

#endif
