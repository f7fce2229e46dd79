/* Faults that are said once, as long as they are there. */
#define _POSIX_C_SOURCE 200809L
#include "warned.h"
#include "clocks.h"
#include "faults.h"

#include <stdlib.h>
#include <string.h>

typedef struct SaidFault {
    struct SaidFault *next;
    DconfdbFailing failing;
    DconfdbFaultSeen seen; /* a look that fails is made again of itself; one that has read a bad file isn't */
    char text[];
} SaidFault;

static bool is_said_by(const SaidFault *fault, const char *text, size_t len)
{
    return dconfdb_is_same_fault((const uint8_t *)fault->text, strlen(fault->text), (const uint8_t *)text, len);
}

/* What was said, who is told, and when. */
typedef struct {
    Warned *warned;
    Warns *warns;
    void *it;
    uint64_t now;
    bool has_looked;
} Saying;

/* That of a text, made where there is none yet. NULL: no memory is left. */
static SaidFault *fault_of(Warned *warned, const char *text)
{
    SaidFault **at = &warned->first;
    size_t len = strlen(text);
    while (*at && !is_said_by(*at, text, len))
        at = &(*at)->next;
    if (!*at && (*at = calloc(1, sizeof **at + len + 1)))
        memcpy((*at)->text, text, len + 1);
    return *at;
}

/* What can't be remembered is met for the first time whenever it is met: it is told again rather than not at all. */
static void say_unkept(const Saying *saying, const DconfdbFaultSeen *seen, const char *text)
{
    DconfdbFailing failing = {.tries = 0};
    if (dconfdb_failing_look(&failing, seen, saying->now) == DCONFDB_FAULT_SAY)
        saying->warns(saying->it, text);
}

static void meet(const Saying *saying, const DconfdbError *error, bool is_of_look, bool is_repeated)
{
    const DconfdbFaultSeen seen = {.is_met = true,
                                   .is_of_look = is_of_look,
                                   .has_looked = saying->has_looked,
                                   .is_momentary = is_momentary(error),
                                   .is_repeated = is_repeated};
    SaidFault *fault = fault_of(saying->warned, error->text);
    if (fault)
        fault->seen = seen;
    else
        say_unkept(saying, &seen, error->text);
}

/* Before those are met that are there now. */
static void meet_none(const Warned *warned)
{
    for (SaidFault *fault = warned->first; fault; fault = fault->next)
        fault->seen.is_met = false;
}

static void meet_all(const Saying *saying, const DconfdbStore *store)
{
    DconfdbError error; /* without its text, which is long, and mostly not written */
    error.size = sizeof error;
    DconfdbSnapshot *now = dconfdb_store_snapshot((DconfdbStore *)store);
    if (dconfdb_store_profile_fault(store, &error))
        meet(saying, &error, false, false);
    for (size_t i = 0; i < dconfdb_snapshot_databases(now); i++) {
        if (dconfdb_snapshot_fault(now, i, &error))
            meet(saying, &error, false, false);
    }
    dconfdb_snapshot_unref(now);
}

/* Microseconds of the monotonic clock. */
static uint64_t time_now(void)
{
    return clock_nanoseconds(CLOCK_MONOTONIC) / 1000;
}

static Saying saying_of(Warned *warned, bool has_looked, Warns *warns, void *it)
{
    meet_none(warned);
    return (Saying){warned, warns, it, time_now(), has_looked};
}

static void say_each(const Saying *saying)
{
    for (SaidFault **at = &saying->warned->first, *fault; (fault = *at);) {
        fault->seen.has_looked = saying->has_looked;
        switch (dconfdb_failing_look(&fault->failing, &fault->seen, saying->now)) {
        case DCONFDB_FAULT_SAY:
            saying->warns(saying->it, fault->text);
            break;
        case DCONFDB_FAULT_OVER:
            *at = fault->next;
            free(fault);
            continue;
        default:
            break;
        }
        at = &fault->next;
    }
}

void warned_renew(Warned *warned, const DconfdbStore *store, const DconfdbError *error, bool is_repeated, Warns *warns, void *it)
{
    const Saying saying = saying_of(warned, true, warns, it);
    if (store)
        meet_all(&saying, store);
    if (error)
        meet(&saying, error, true, is_repeated);
    say_each(&saying);
}

void warned_renew_files(Warned *warned, const DconfdbStore *store, Warns *warns, void *it)
{
    const Saying saying = saying_of(warned, false, warns, it);
    meet_all(&saying, store);
    say_each(&saying);
}

void warned_end(Warned *warned)
{
    for (SaidFault *fault; (fault = warned->first);) {
        warned->first = fault->next;
        free(fault);
    }
}
