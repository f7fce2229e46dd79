/* The files that may be the profile, looked at. */
#define _POSIX_C_SOURCE 200809L
#include "profiles.h"
#include "lists.h"

/* Each, also behind one that is there: that may be passed over, as a folder is. */
Profiles profiles_now(const char *names, int count)
{
    Profiles now = {.asked = file_clock(), .is_unseen = count > MOST_PROFILES, .count = count < MOST_PROFILES ? count : MOST_PROFILES};
    const char *name = names;
    for (int i = 0; i < now.count; i++, name = next_text(name)) {
        if (file_look(name, &now.files[i]) != 0)
            now.is_unseen = true;
    }
    return now;
}

static uint32_t same_at(const Profiles *read, const Profiles *now, int at)
{
    return dconfdb_same_file(&read->files[at], &now->files[at], read->asked, false);
}

void profiles_compare(const Profiles *read, const Profiles *now, DconfdbGlance *known)
{
    known->first = same_at(read, now, 0);
    known->second = DCONFDB_FILE_SAME;
    for (int at = 1; at < read->count || at < now->count; at++)
        known->second = dconfdb_same_among(known->second, same_at(read, now, at));
    known->was_unseen = read->is_unseen;
    known->is_unseen = now->is_unseen;
}
