/* Bytes that are moved into a file or out of it: what comes after a call that did so, as the proved call has it. */
#ifndef MOVES_H
#define MOVES_H

#include "dconfdb_calls.h"

#include <errno.h>
#include <sys/types.h>

/* By what the call answered, as read() does; its errno, or 0, is put there. A call that moves no bytes is wanted to move none. */
static inline uint32_t moved(size_t wanted, size_t *at, ssize_t count, int *fault)
{
    *fault = count < 0 ? errno : 0;
    return dconfdb_moved(wanted, at, (uint32_t)*fault, count < 0 ? 0 : (size_t)count);
}

#endif
