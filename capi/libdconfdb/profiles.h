/* The files that may be the profile of a store, as they are at a moment. */
#ifndef PROFILES_H
#define PROFILES_H

#include "files.h"

/* Of so many the states are kept. */
enum { MOST_PROFILES = 64 };

/* Of one that can't be looked at, or that is behind those, nothing is known. */
typedef struct {
    uint64_t asked;
    bool is_unseen; /* there is such a one */
    int count;
    FileState files[MOST_PROFILES];
} Profiles;

/* `names` has so many at its start, a zero byte after each. */
Profiles profiles_now(const char *names, int count);

/* Whether they are those that were read. */
void profiles_compare(const Profiles *read, const Profiles *now, DconfdbGlance *known);

#endif
