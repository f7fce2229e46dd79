/* The home that the system has for the user as whom files are opened. It asks what comes from shared libraries, so it is not in environment.h. */
#ifndef HOME_H
#define HOME_H

#include "environment.h"
#include "stood.h"

#include <errno.h>
#include <pwd.h>
#include <stdlib.h>
#include <string.h>
#include <unistd.h>

/* Puts it there, to be freed, or "" if the system has none for the user, or knows no users. Gives 0; or errno, and NULL. */
static inline int home_of_user(char **home)
{
    struct passwd entry, *found = NULL;
    char *room = malloc(ROOM_OF_PASSWD);
    int fault = room ? file_fault(DCONFDB_TO_LOOK, getpwuid_r(geteuid(), &entry, room, ROOM_OF_PASSWD, &found)) : ENOMEM;
    *home = fault == 0 ? strdup(found && found->pw_dir ? found->pw_dir : "") : NULL;
    free(room);
    return fault == 0 && !*home ? ENOMEM : fault;
}

#endif
