/* A store is opened and closed. */
#define _DEFAULT_SOURCE
#define _POSIX_C_SOURCE 200809L
#define _FILE_OFFSET_BITS 64
#include "store.h"
#include "errors.h"
#include "held.h"
#include "overtaken.h"
#include "texts.h"

#include <stdlib.h>

static const DconfdbOptions usual = DCONFDB_OPTIONS_INIT, lenient = {sizeof lenient, true, false, DCONFDB_USUAL_WAIT};

/* What counts of what is asked for, by who opens the store. */
static DconfdbOptions options_of(uint32_t who, const DconfdbOptions *asked, bool lists)
{
    DconfdbOptions options = *asked;
    options.is_lenient = dconfdb_is_lenient(who, asked->is_lenient, lists);
    return options;
}

/* A store of which the place is known alone, which it takes. */
static DconfdbStore *store_at(StorePlace *place, const DconfdbOptions *options, DconfdbError *error)
{
    DconfdbStore *store = calloc(1, sizeof *store);
    if (!store) {
        place_release(place);
        refuse_memory(error);
        return NULL;
    }
    store->place = *place;
    pthread_mutex_init(&store->refreshing, NULL);
    pthread_mutex_init(&store->handing, NULL);
    notices_begin(&store->notices);
    store->options = *options;
    return store;
}

static DconfdbStore *open_at(StorePlace *place, const DconfdbOptions *options, DconfdbError *error)
{
    DconfdbStore *store = store_at(place, options, error);
    if (store && store_find_files(store, error) && files_look(store, NO_FOLDER, &store->now, error) == DCONFDB_LOOK_NEWER)
        return store;
    dconfdb_store_close(store);
    return NULL;
}

DconfdbStore *dconfdb_store_open_with(const char *folder, const DconfdbOptions *options, DconfdbError *error)
{
    StorePlace place;
    DconfdbStore *store = NULL;
    int cancels = hold_cancellation();
    const DconfdbOptions counting = options_of(DCONFDB_WATCHER_LIBRARY, options, false);
    if (place_of_caller(folder, &place, error))
        store = open_at(&place, &counting, error);
    cancel_as_before(cancels);
    return store;
}

/* False: no memory is left. */
static bool has_copy(const StorePlace *place, StorePlace *copy, DconfdbError *error)
{
    return place_copy(place, copy) || refuse_memory(error);
}

DconfdbStore *place_open(const StorePlace *place, uint32_t who, DconfdbError *error)
{
    StorePlace copy;
    int cancels = hold_cancellation();
    const DconfdbOptions counting = options_of(who, &usual, false);
    DconfdbStore *store = has_copy(place, &copy, error) ? open_at(&copy, &counting, error) : NULL;
    cancel_as_before(cancels);
    return store;
}

DconfdbStore *dconfdb_store_open(const char *folder, DconfdbError *error)
{
    return dconfdb_store_open_with(folder, &usual, error);
}

DconfdbStore *dconfdb_store_open_lenient(const char *folder, DconfdbError *error)
{
    return dconfdb_store_open_with(folder, &lenient, error);
}

bool dconfdb_store_profile_fault(const DconfdbStore *store, DconfdbError *error)
{
    bool is = store->profile_fault.code != DCONFDB_ERROR_NONE;
    if (is && error)
        hand_out(&store->profile_fault, error);
    return is;
}

/* It takes the place. */
static char *files_at(StorePlace *place, int *profiles, size_t *size, bool *are_all, DconfdbError *error)
{
    DconfdbError fault = DCONFDB_ERROR_INIT;
    const DconfdbOptions counting = options_of(DCONFDB_WATCHER_LIBRARY, &usual, true);
    DconfdbStore *store = store_at(place, &counting, error);
    if (!store)
        return NULL;
    *are_all = store_find_files(store, &fault);
    char *names = dconfdb_is_list_refused((uint32_t)fault.code) ? NULL : store_file_names(store, profiles, size);
    if (!names)
        refuse_memory(error);
    dconfdb_store_close(store);
    return names;
}

char *place_files(const StorePlace *place, int *profiles, bool *are_all, DconfdbError *error)
{
    StorePlace copy;
    return has_copy(place, &copy, error) ? files_at(&copy, profiles, NULL, are_all, error) : NULL;
}

char *dconfdb_store_files(const char *folder, size_t *size, DconfdbError *error)
{
    StorePlace place;
    char *files = NULL;
    bool are_all = true;
    int profiles, cancels = hold_cancellation();
    if (place_of_caller(folder, &place, error))
        files = files_at(&place, &profiles, size, &are_all, error);
    cancel_as_before(cancels);
    return files;
}

void dconfdb_store_close(DconfdbStore *store)
{
    if (!store)
        return;
    int cancels = hold_cancellation();
    notices_end(&store->notices);
    store_forget_seen(store);
    order_end(&store->order);
    dconfdb_snapshot_unref(store->tried);
    dconfdb_snapshot_unref(store->now);
    for (size_t i = 0; i < store->count; i++)
        free(store->files[i]);
    free(store->flag);
    place_release(&store->place);
    pthread_mutex_destroy(&store->refreshing);
    pthread_mutex_destroy(&store->handing);
    free(store);
    cancel_as_before(cancels);
}

const StorePlace *place_of(const DconfdbStore *store)
{
    return &store->place;
}

const char *place_flag(const DconfdbStore *store)
{
    return store->flag;
}

const char *place_user(const DconfdbStore *store, size_t *len)
{
    *len = store->users_len;
    return store->own_name;
}

Notices *notices_of(DconfdbStore *store)
{
    return &store->notices;
}

const char *dconfdb_store_folder(const DconfdbStore *store)
{
    return store->place.folder;
}

const char *dconfdb_store_user_file(const DconfdbStore *store)
{
    return store->user_file;
}

DconfdbSnapshot *dconfdb_store_snapshot(DconfdbStore *store)
{
    pthread_mutex_lock(&store->handing);
    DconfdbSnapshot *now = dconfdb_snapshot_ref(store->now);
    pthread_mutex_unlock(&store->handing);
    return now;
}

void store_after(DconfdbStore *store, uint32_t what, bool yes, uint64_t number)
{
    static const DconfdbStoreKnown none = {.noted = 0};
    dconfdb_store_after(&store->known, what, yes, number, &none);
    if (!store->known.has_seen)
        store_forget_seen(store);
    if (store->known.has_tried)
        return;
    dconfdb_snapshot_unref(store->tried);
    store->tried = NULL;
}

/* `refreshing` is held. */
void store_renew(DconfdbStore *store, DconfdbSnapshot *newer)
{
    pthread_mutex_lock(&store->handing);
    DconfdbSnapshot *old = store->now;
    store->now = newer;
    pthread_mutex_unlock(&store->handing);
    dconfdb_snapshot_unref(old);
}
