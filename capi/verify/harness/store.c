/* libdconfdb/store.c: a store is opened and closed, with any answer of who finds its place, its files and what they hold. */
#define MOST_DATABASES 2
#define FEW_DATABASES 2
#include "libdconfdb/store.c"
#include "world.h"

/* narrows libdconfdb/dconfdb.h: char text[512]; => char text[8]; */

static DconfdbSnapshot seen;
static unsigned refused, mutexes, notices;
static bool has_place, has_seen, asks_lenient, lists, is_lenient;

/* Whether bad files are passed over: any answer. */
bool dconfdb_is_lenient(uint32_t who, bool is_asked, bool are_listed)
{
    CHECK(who == DCONFDB_WATCHER_LIBRARY, "step: the library's caller opens");
    CHECK(is_asked == asks_lenient && are_listed == lists, "step: what it asked for");
    is_lenient = any_bool();
    return is_lenient;
}

bool refuse_memory(DconfdbError *error)
{
    (void)error;
    refused++;
    return false;
}

void hand_out(const DconfdbError *from, DconfdbError *to)
{
    *to = *from;
}

static char *a_text(void)
{
    char *text = malloc(3);
    GIVEN(text != NULL);
    any_text(text, 2);
    return text;
}

/* ---- who finds the place, and releases it */

bool place_of_caller(const char *folder, StorePlace *place, DconfdbError *error)
{
    (void)folder, (void)error;
    CHECK(is_cancel_held(), "order: no cancellation comes while a place is had");
    if (any_bool()) {
        refused++;
        return false;
    }
    has_place = true;
    *place = (StorePlace){.folder = a_text(), .profile = any_bool() ? a_text() : NULL, .is_given = any_bool()};
    return true;
}

bool place_copy(const StorePlace *place, StorePlace *copy)
{
    CHECK(place->folder != NULL, "step: what was found is copied");
    if (any_bool())
        return false;
    *copy = (StorePlace){.folder = a_text(), .profile = place->profile ? a_text() : NULL, .is_given = place->is_given};
    return true;
}

void place_release(StorePlace *place)
{
    free(place->folder);
    free(place->profile);
    *place = (StorePlace){.folder = NULL};
}

/* ---- its files, and what they hold */

bool store_find_files(DconfdbStore *store, DconfdbError *error)
{
    (void)error;
    CHECK(store->count == 0 && !store->now && mutexes == 2 && notices == 1, "order: it is whole before its files are found");
    CHECK(store->options.is_lenient == is_lenient, "answer: bad files are passed over as the proved call says");
    size_t count = any_size();
    GIVEN(count <= MOST_DATABASES);
    for (size_t i = 0; i < count; i++)
        store->files[store->count++] = a_text();
    bool is = any_bool();
    refused += !is;
    return is;
}

char *store_file_names(const DconfdbStore *store, int *profiles, size_t *size)
{
    (void)store;
    *profiles = 1;
    if (size)
        *size = 2;
    return malloc(2);
}

bool dconfdb_is_list_refused(uint32_t code)
{
    (void)code;
    return any_bool();
}

uint32_t files_look(const DconfdbStore *store, int turn, DconfdbSnapshot **newer, DconfdbError *error)
{
    (void)error;
    CHECK(turn == NO_FOLDER && newer == &store->now && !store->now, "step: all is read anew, out of turn");
    if (any_bool()) {
        refused++;
        return DCONFDB_LOOK_FAILED;
    }
    seen.references = 1;
    has_seen = true;
    *newer = &seen;
    return DCONFDB_LOOK_NEWER;
}

DconfdbSnapshot *dconfdb_snapshot_ref(DconfdbSnapshot *snapshot)
{
    CHECK(snapshot->references > 0, "memory: what is had once more is had");
    snapshot->references++;
    return snapshot;
}

void dconfdb_snapshot_unref(DconfdbSnapshot *snapshot)
{
    if (snapshot) {
        CHECK(snapshot == &seen && snapshot->references > 0, "memory: what is given back is had");
        snapshot->references--;
    }
}

void notices_begin(Notices *it)
{
    (void)it;
    notices++;
}

void notices_end(Notices *it)
{
    (void)it;
    CHECK(notices == 1, "memory: what began ends, once");
    notices--;
}

void store_forget_seen(DconfdbStore *store)
{
    CHECK(notices == 0 && store, "order: nobody is told of what goes");
}

void order_end(Order *order)
{
    CHECK(__CPROVER_r_ok(order, sizeof *order), "memory: an order");
}

int pthread_mutex_init(pthread_mutex_t *mutex, const pthread_mutexattr_t *kind)
{
    (void)mutex, (void)kind;
    mutexes++;
    return 0;
}

int pthread_mutex_destroy(pthread_mutex_t *mutex)
{
    CHECK(!is_held(mutex) && mutexes > 0, "order: what goes is free");
    mutexes--;
    return 0;
}

static void is_gone(void)
{
    CHECK(mutexes == 0 && notices == 0, "memory: what began has ended");
    CHECK(seen.references == 0, "memory: the snapshot is given back");
    CHECK(!is_cancel_held(), "answer: cancellation is as it was");
}

/* harness store_open: unwind 4 */
int store_open(void)
{
    asks_lenient = any_bool();
    DconfdbStore *store = asks_lenient ? dconfdb_store_open_lenient(NULL, NULL) : dconfdb_store_open("/f", NULL);
    CHECK((store == NULL) == (refused > 0), "answer: what failed is told, and nothing else");
    if (!store) {
        is_gone();
        return 0;
    }
    CHECK(!is_cancel_held() && mutexes == 2 && notices == 1, "answer: it is open, and cancellation is as it was");
    CHECK(store->now == &seen && seen.references == 1, "answer: what was read is its snapshot");
    CHECK(store->place.folder && __CPROVER_r_ok(store->place.folder, 1), "memory: the place is the store's own");
    DconfdbSnapshot *now = dconfdb_store_snapshot(store);
    CHECK(now == &seen && none_is_held(), "order: the mutex is given back");
    dconfdb_store_close(store);
    CHECK(seen.references == 1, "memory: who has the snapshot has it still");
    dconfdb_snapshot_unref(now);
    is_gone();
    REACHED("a store was open");
    return 0;
}

/* harness store_files: unwind 4 */
int store_files(void)
{
    size_t size = 0;
    lists = true;
    char *files = dconfdb_store_files("/f", any_bool() ? &size : NULL, NULL);
    is_gone();
    CHECK(files || refused > 0, "answer: what failed is told");
    if (files)
        REACHED("files");
    free(files);
    return 0;
}
