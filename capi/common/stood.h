/* What the system says of a file, for the proved call that says what becomes of it. */
#ifndef STOOD_H
#define STOOD_H

#include "dconfdb_calls.h"

#include <sys/stat.h>

/* Nothing but the errno, if there is one. */
static inline DconfdbStood file_stood(const struct stat *found, int fault)
{
    DconfdbStood stood = {.fault = (uint32_t)fault};
    if (fault == 0 && found) {
        stood.mode = found->st_mode;
        stood.user = found->st_uid;
        stood.links = found->st_nlink;
        stood.size = (uint64_t)found->st_size;
    }
    return stood;
}

/* The errno that is told, by a purpose of which that alone counts: 0 if it is no fault. */
static inline int file_fault(uint32_t purpose, int fault)
{
    DconfdbStood stood = {.fault = (uint32_t)fault};
    uint32_t told = 0;
    if (fault != 0)
        dconfdb_standing(purpose, &stood, &told);
    return (int)told;
}

#endif
