/* Something that others may keep from being done is tried again and again, as the proved steps of a wait have it. */
#ifndef TRIES_H
#define TRIES_H

#include <stdbool.h>
#include <stdint.h>

/* A try: which call was the last, as dconfdb_wait_answered has it, and 0 or the errno of what failed. */
typedef uint32_t Tries(void *it, int *fault);

/* Waits for that, as dconfdb_wait_begin has it, and tries at once, too. A time in which the machine stood still counts as 50 milliseconds. Gives 0,
 * or the errno of what failed: of a lock that others had all the time (`is_others`) EWOULDBLOCK, and EBUSY where they had a lease on its file. */
int try_for(uint32_t what, uint32_t milliseconds, Tries *tries, void *it, bool *is_others);

/* The same, from when a first try met that fault. */
int try_on(uint32_t what, uint32_t tried, int fault, Tries *tries, void *it);

#endif
