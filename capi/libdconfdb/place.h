/* Where a store is, for who opens one again and again: the environment is asked once, by who begins. */
#ifndef PLACE_H
#define PLACE_H

#include "dconfdb.h"
#include "dconfdb_calls.h"

/* What DconfdbPlace lends; NULL: there is none. The folder, the profile that is named and the runtime folder are absolute. `is_given`: the
 * caller names the folder, and not the environment. */
typedef struct {
    char *folder, *profile;
    char *name, *runtime, *data_dirs, *user; /* of dconf's kind: $DCONF_PROFILE, the runtime folder, $XDG_DATA_DIRS, and the user's number */
    bool is_given, is_dconfs;
    bool counts; /* whether those variables do */
    DconfdbPlace lent; /* the same, for the proved calls, of a place that was found or copied */
} StorePlace;

/* False: no memory is left, and there is nothing to release. */
bool place_copy(const StorePlace *place, StorePlace *copy);

/* The folder, or that of the environment if NULL is given; and the profile that $DCONFDB_PROFILE names. False: it
 * failed, and there is nothing to release. */
bool place_find(const char *folder, StorePlace *place, DconfdbError *error);

/* The same, but that a folder that is given has its own profile, whatever $DCONFDB_PROFILE names. */
bool place_of_caller(const char *folder, StorePlace *place, DconfdbError *error);

/* Of which kind the machine's store is, where nobody names a folder. False: nobody knows, as that file says something else, or can't be read, by
 * that errno. */
bool place_kind(bool *is_dconfs, const char **file, int *fault);

void place_release(StorePlace *place);

/* dconfdb_store_open_with and dconfdb_store_files, of a place, by one of DCONFDB_WATCHER_*. Where the profile is named, and can't be had, there
 * is no database. `profiles` is how many of the files, from the first on, may be the profile, and `are_all` is false where it can't be read
 * now, and may name others. */
DconfdbStore *place_open(const StorePlace *place, uint32_t who, DconfdbError *error);
char *place_files(const StorePlace *place, int *profiles, bool *are_all, DconfdbError *error);

/* Where an open store is. It isn't to be released. */
const StorePlace *place_of(const DconfdbStore *store);

/* The flag of dconf's readers of the user's database; or NULL. */
const char *place_flag(const DconfdbStore *store);

/* What its profile calls the user's database, in so many bytes; or NULL. */
const char *place_user(const DconfdbStore *store, size_t *len);

#endif
