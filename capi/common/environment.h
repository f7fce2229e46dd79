/* What the environment says of a store, and the system of a user. */
#ifndef ENVIRONMENT_H
#define ENVIRONMENT_H

#include "dconfdb_calls.h"

#include <stdlib.h>
#include <string.h>
#include <sys/auxv.h>

/* What the system's answer of a user takes, at most. */
enum { ROOM_OF_PASSWD = 65536 };

/* The variables that say where a store is, each once; the first four are all that our own kind of store asks. */
enum {
    STORE_VARIABLE,
    CONFIG_VARIABLE,
    HOME_VARIABLE,
    PROFILE_VARIABLE,
    RUNTIME_VARIABLE,
    CACHE_VARIABLE,
    DATA_VARIABLE,
    DCONFS_VARIABLE,
    VARIABLES
};

static const char *const variables[VARIABLES] = {"DCONFDB_STORE",   "XDG_CONFIG_HOME", "HOME",          "DCONFDB_PROFILE",
                                                 "XDG_RUNTIME_DIR", "XDG_CACHE_HOME",  "XDG_DATA_DIRS", "DCONF_PROFILE"};

static inline DconfdbBytes environment_variable(int variable)
{
    static const DconfdbBytes nothing = DCONFDB_NOTHING;
    const char *value = getenv(variables[variable]);
    return value ? (DconfdbBytes){(const uint8_t *)value, strlen(value)} : nothing;
}

/* For a program that has more rights than whoever started it nothing of it does. */
static inline bool environment_counts(void)
{
    return !getauxval(AT_SECURE);
}

/* Without what the machine's file says. */
static inline DconfdbEnvironment environment_now(void)
{
    return (DconfdbEnvironment){
        .counts = environment_counts(),
        .store = environment_variable(STORE_VARIABLE),
        .config = environment_variable(CONFIG_VARIABLE),
        .home = environment_variable(HOME_VARIABLE),
        .profile = environment_variable(PROFILE_VARIABLE),
        .runtime = environment_variable(RUNTIME_VARIABLE),
        .cache = environment_variable(CACHE_VARIABLE),
        .machine = DCONFDB_NOTHING,
    };
}

#endif
