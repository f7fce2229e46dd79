/* What becomes of the service's changes and looks, and what its thread does next, as the model of the system gives it: compared.c compares it with the archive's. */
#ifndef SERVED_H
#define SERVED_H

#include "dconfdb_calls.h"

static inline uint32_t served_came(const DconfdbServed *known)
{
    if (known->is_service_db)
        return DCONFDB_SERVED_UNSUPPORTED;
    if (known->size > 67108864)
        return DCONFDB_SERVED_TOO_LARGE;
    if (!known->is_used && known->names >= 64)
        return DCONFDB_SERVED_TOO_MANY_NAMES;
    return known->waiting < 10000 && known->waiting_size < 268435456 ? DCONFDB_SERVED_GOES_ON : DCONFDB_SERVED_TOO_MUCH;
}

static inline uint32_t served_tried(const DconfdbServed *known)
{
    if (!known->is_written && !(known->said == 1 || known->said == 2) && !known->ends)
        return DCONFDB_SERVED_GOES_ON;
    if (!known->is_normal && known->size > 32768)
        return DCONFDB_SERVED_ODD;
    if (!known->has_edits)
        return DCONFDB_SERVED_ACKNOWLEDGED;
    return !known->is_written ? DCONFDB_SERVED_FAILED : known->is_closed ? DCONFDB_SERVED_CLOSED : DCONFDB_SERVED_ACKNOWLEDGED;
}

/* Of an edit. */
static inline uint32_t served_made(const DconfdbServed *known)
{
    return !known->is_written ? DCONFDB_SERVED_PASSED : known->is_unmade ? DCONFDB_SERVED_LEFT_OUT : DCONFDB_SERVED_GOES_ON;
}

/* Of a path. */
static inline uint32_t served_read(uint32_t done, const DconfdbServed *known)
{
    if (done == DCONFDB_SERVED_PATH)
        return known->kind > (known->sets ? 0 : 1) ? DCONFDB_SERVED_PASSED : known->is_short ? DCONFDB_SERVED_GOES_ON : DCONFDB_SERVED_LEFT_OUT;
    if (done == DCONFDB_SERVED_SHOWS)
        return known->is_users && known->is_first ? DCONFDB_SERVED_GOES_ON : DCONFDB_SERVED_PASSED;
    return known->is_again ? DCONFDB_SERVED_REPLACES : known->is_covered && !known->sets ? DCONFDB_SERVED_PASSED : DCONFDB_SERVED_GOES_ON;
}

static inline uint32_t served_given(uint32_t done, const DconfdbServed *known)
{
    switch (done) {
    case DCONFDB_SERVED_CAME: return served_came(known);
    case DCONFDB_SERVED_READ: return !known->is_normal && known->size > 32768 ? DCONFDB_SERVED_ODD : DCONFDB_SERVED_GOES_ON;
    case DCONFDB_SERVED_TOLD: return known->size > 16777216 ? DCONFDB_SERVED_TOO_LARGE : DCONFDB_SERVED_GOES_ON;
    case DCONFDB_SERVED_ENDING: return known->is_amid ? DCONFDB_SERVED_GOES_ON : DCONFDB_SERVED_LATE;
    case DCONFDB_SERVED_WAITS: return known->is_same ? DCONFDB_SERVED_GOES_ON : DCONFDB_SERVED_LATER;
    case DCONFDB_SERVED_OPENED:
        if (!known->is_open || !known->is_profile_open)
            return DCONFDB_SERVED_FAILED;
        return known->has_same_file ? DCONFDB_SERVED_PROFILES : DCONFDB_SERVED_ALONE;
    case DCONFDB_SERVED_LEFT:
        return known->waiting == 0 ? DCONFDB_SERVED_GOES_ON : known->answered < known->waiting ? DCONFDB_SERVED_LATE : DCONFDB_SERVED_ENDS;
    case DCONFDB_SERVED_PATH:
    case DCONFDB_SERVED_ORDERED:
    case DCONFDB_SERVED_SHOWS: return served_read(done, known);
    case DCONFDB_SERVED_MADE: return served_made(known);
    case DCONFDB_SERVED_BESIDE: return DCONFDB_SERVED_ALONE;
    case DCONFDB_SERVED_PASSES: return !known->is_used || known->is_behind || known->ends || known->is_noted ? DCONFDB_SERVED_LATER : served_came(known);
    case DCONFDB_SERVED_PROFILE: return known->has_profile ? DCONFDB_SERVED_PASSED : DCONFDB_SERVED_GOES_ON;
    case DCONFDB_SERVED_READS: return known->size > 4096 ? DCONFDB_SERVED_LATER : DCONFDB_SERVED_GOES_ON;
    case DCONFDB_SERVED_TELLS: return known->resets > 0 || known->edits > 16 ? DCONFDB_SERVED_LATER : DCONFDB_SERVED_GOES_ON;
    case DCONFDB_SERVED_FORM: return known->is_normal && !known->is_turned ? DCONFDB_SERVED_GOES_ON : DCONFDB_SERVED_REPLACES;
    case DCONFDB_SERVED_USED: return known->is_open ? DCONFDB_SERVED_GOES_ON : DCONFDB_SERVED_FAILED;
    case DCONFDB_SERVED_ANSWERED: return known->wants_none ? DCONFDB_SERVED_PASSED : DCONFDB_SERVED_GOES_ON;
    case DCONFDB_SERVED_CALLED: return known->is_noted ? DCONFDB_SERVED_GOES_ON : DCONFDB_SERVED_PASSED;
    case DCONFDB_SERVED_NAMELESS: return known->had_name || known->is_bus_closed ? DCONFDB_SERVED_ENDS : DCONFDB_SERVED_TAKEN;
    default: return served_tried(known);
    }
}

static inline uint32_t folder_given(bool is_places, bool is_runtime)
{
    return is_places ? DCONFDB_FOLDER_OF_PLACE : is_runtime ? DCONFDB_FOLDER_RUNTIME : DCONFDB_FOLDER_CACHE;
}

/* Of a thread that watches nothing, and is in no line: what the service's is asked by. */
static inline uint32_t round_given(uint32_t task, const DconfdbRound *known)
{
    bool takes = known->waits && known->again <= known->moment;
    if (task < DCONFDB_ROUND_TAKE && takes)
        return DCONFDB_ROUND_TAKE;
    if (task < DCONFDB_ROUND_WRITE && known->waits && known->has_asked)
        return DCONFDB_ROUND_WRITE;
    if (task < DCONFDB_ROUND_LEAVE && !known->waits && known->again != 0)
        return DCONFDB_ROUND_LEAVE;
    return known->ends && !known->waits ? DCONFDB_ROUND_ENDS : DCONFDB_ROUND_RESTS;
}

/* Of who wants to see the files. */
static inline uint32_t look_due_given(const DconfdbLookKnown *known)
{
    return !known->is_open ? DCONFDB_LOOK_OPENS : known->is_busy ? DCONFDB_LOOK_LATER : DCONFDB_LOOK_NOW;
}

#endif
