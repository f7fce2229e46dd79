/* An open store. */
#ifndef STORE_H
#define STORE_H

#include "notices.h"
#include "order.h"
#include "place.h"
#include "snapshot.h"

#include <pthread.h>
#include <stdatomic.h>
#include <stdbool.h>

struct DconfdbStore {
    DconfdbOptions options;     /* `is_lenient`: a bad file is empty, or what is saved of it */
    DconfdbError profile_fault; /* its number is 0 where there is none */
    pthread_mutex_t refreshing; /* held while files are looked at, and put in place */
    pthread_mutex_t handing;    /* held for `now` alone */
    DconfdbStoreKnown known;    /* of others' changes, and of its own last one; under `refreshing` */
    struct Seen *seen;          /* what others changed while own changes wait, if `known` has that; under `refreshing` */
    DconfdbSnapshot *tried;     /* of a change of this store's that is perhaps made, if `known` has that; under `refreshing` */
    Order order;                /* of the turn that it has; under `refreshing` */
    atomic_bool is_amid;        /* in a turn, and the files were read in it: nobody else changes the user's */
    DconfdbSnapshot *now;
    Notices notices;
    StorePlace place;
    char *user_file; /* absolute; NULL: no user's database */
    const char *own_name; /* of that in its folder */
    size_t users_len;     /* so much of that is the name that the profile has for it */
    char *flag;           /* of dconf's readers of it; NULL: there are none */
    size_t count;
    char *files[MOST_DATABASES];
};

/* ---- which files it has (profile.c) */

bool store_find_files(DconfdbStore *store, DconfdbError *error);

/* The files that may be the profile, and how many, and the databases, a zero byte after each; or NULL. */
char *store_file_names(const DconfdbStore *store, int *profiles, size_t *size);

/* ---- its newest snapshot (refresh.c, store.c); for all `refreshing` is held */

/* What the files hold now, by the proved steps; of the turn the folder, or NO_FOLDER. Gives how it ended; where that is NEWER `newer` is
 * the snapshot. A store that is being opened has none yet. */
uint32_t files_look(const DconfdbStore *store, int turn, DconfdbSnapshot **newer, DconfdbError *error);

bool store_refresh(DconfdbStore *store, int turn, DconfdbError *error);

void store_renew(DconfdbStore *store, DconfdbSnapshot *newer);

/* Takes what happened, as dconfdb_store_after has it, and lets go of what isn't known any longer. */
void store_after(DconfdbStore *store, uint32_t what, bool yes, uint64_t number);

/* That file of the store's folder gets to the disk, if it is there, and the folder's names; or, of NULL, these alone. */
bool store_settle_name(const DconfdbStore *store, const char *name, DconfdbError *error);

#endif
