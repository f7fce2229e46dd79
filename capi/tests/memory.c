/* Refuses each growth of memory in turn to all that the library does: memory FOLDER. It is linked
 * with the static library, and with --wrap of malloc, calloc and realloc. Each call is done, or
 * says that memory is missing and has done nothing: no edit, database or line is at fault, and the file,
 * the newest snapshot and what the call was to write to stay as they were. */
#include "try.h"

#include <fcntl.h>
#include <sys/stat.h>
#include <unistd.h>

void *__real_malloc(size_t size);
void *__real_calloc(size_t count, size_t size);
void *__real_realloc(void *old, size_t size);
void *__wrap_malloc(size_t size);
void *__wrap_calloc(size_t count, size_t size);
void *__wrap_realloc(void *old, size_t size);

static long growths, refused;

static bool is_refused(void)
{
    return ++growths == refused;
}

void *__wrap_malloc(size_t size)
{
    return is_refused() ? NULL : __real_malloc(size);
}

void *__wrap_calloc(size_t count, size_t size)
{
    return is_refused() ? NULL : __real_calloc(count, size);
}

void *__wrap_realloc(void *old, size_t size)
{
    return is_refused() ? NULL : __real_realloc(old, size);
}

static DconfdbError error = DCONFDB_ERROR_INIT;

/* Whether a call that is not done may be so. */
static bool lacks_memory(bool done)
{
    TRY(done || (error.code == DCONFDB_ERROR_MEMORY && growths >= refused));
    TRY(done || (error.errnum == 0 && error.edit == 0 && error.database == 0 && error.line == 0));
    TRY(done || strstr(error.text, "no memory is left"));
    memset(&error, 0x7f, sizeof error);
    return !done;
}

static void is_listed(char *names, size_t size)
{
    TRY(!lacks_memory(names != NULL) || size == 77);
    free(names);
}

static void lists(const DconfdbSnapshot *now, const DconfdbSnapshot *old)
{
    size_t size = 77;
    char *names = dconfdb_snapshot_list(now, "/", &size, &error);
    is_listed(names, size);
    size = 77;
    names = dconfdb_snapshot_locks(now, "/", &size, &error);
    is_listed(names, size);
    size = 77;
    names = dconfdb_snapshot_differences(now, old, &size, &error);
    is_listed(names, size);
    size = 77;
    names = dconfdb_snapshot_list_user(now, "/", &size, &error);
    is_listed(names, size);
    size = 77;
    names = dconfdb_store_files(".", &size, &error);
    is_listed(names, size);
}

/* What is iterated is all there is, or nothing. */
static void iterates(const DconfdbSnapshot *now)
{
    size_t count = 0;
    const char *path;
    DconfdbValue value;
    DconfdbIterator *iterator = dconfdb_snapshot_iterate(now, "/", &error);
    if (lacks_memory(iterator != NULL))
        return;
    long before = growths;
    while (dconfdb_iterator_next(iterator, &path, &value))
        count++;
    TRY(count >= 3 && growths == before);
    dconfdb_iterator_free(iterator);
}

/* The bytes of the user's file, and the newest snapshot, which is lent. */
typedef struct {
    ssize_t size;
    char bytes[4096];
    const DconfdbSnapshot *newest;
} State;

static State state_of(DconfdbStore *store)
{
    State state = {.size = -1};
    DconfdbSnapshot *newest = dconfdb_store_snapshot(store);
    int file = open(dconfdb_store_user_file(store), O_RDONLY);
    if (file >= 0)
        state.size = read(file, state.bytes, sizeof state.bytes);
    state.newest = newest;
    dconfdb_snapshot_unref(newest);
    TRY(file < 0 || close(file) == 0);
    return state;
}

static bool is_as_before(DconfdbStore *store, const State *before)
{
    State now = state_of(store);
    return now.size == before->size && now.newest == before->newest && memcmp(now.bytes, before->bytes, sizeof now.bytes) == 0;
}

/* Whether the edits are made; where not, nothing is. */
static bool changes(DconfdbStore *store, const DconfdbEdit *edits, size_t count)
{
    State before = state_of(store);
    bool done = dconfdb_store_change(store, NULL, edits, count, &error);
    TRY(!lacks_memory(done) || is_as_before(store, &before));
    return done;
}

static void refreshes(DconfdbStore *store)
{
    bool no = false, yes = true;
    State before = state_of(store);
    TRY(!lacks_memory(dconfdb_store_refresh(store, &no, &error)) || (!no && is_as_before(store, &before)));
    TRY(!lacks_memory(dconfdb_store_refresh(store, &yes, &error)) || (yes && is_as_before(store, &before)));
}

/* What is refused is told later. */
static void dispatches(DconfdbStore *store)
{
    size_t size = 77;
    TRY(!lacks_memory(dconfdb_store_fd(store, &error) >= 0) || dconfdb_store_fd(store, NULL) >= 0);
    char *paths = dconfdb_store_dispatch(store, &size, &error);
    if (lacks_memory(paths != NULL)) {
        TRY(size == 77);
        paths = dconfdb_store_dispatch(store, &size, NULL);
    }
    TRY(paths);
    free(paths);
}

/* A store that has no user's database: why it may not be changed is said all the same. */
static void tries_writeless(const char *folder)
{
    char name[4096];
    DconfdbEdit edit = sets_text("/k", "1");
    snprintf(name, sizeof name, "%s/writeless", folder);
    DconfdbStore *store = dconfdb_store_open(name, &error);
    if (lacks_memory(store != NULL))
        return;
    TRY(!dconfdb_store_change(store, NULL, &edit, 1, &error));
    TRY(error.code == DCONFDB_ERROR_NOT_WRITABLE || (lacks_memory(false) && growths >= refused));
    dconfdb_store_close(store);
}

/* A store of bad files: a torn one of the user's, a site's that is no database, and a bad line of the profile. */
typedef struct {
    char folder[4096];
    ssize_t size;
    char torn[4096];
} Bad;

static Bad bad;

static void writes(const char *name, const void *bytes, size_t size)
{
    char path[8192];
    snprintf(path, sizeof path, "%s/%s", bad.folder, name);
    int file = open(path, O_WRONLY | O_CREAT | O_TRUNC, 0600);
    TRY(file >= 0 && write(file, bytes, size) == (ssize_t)size && close(file) == 0);
}

static void makes_bad(const char *folder)
{
    static const char profile[] = "user-db:me\nnonsense\nsystem-db:site\n";
    char site[8192];
    snprintf(site, sizeof site, "%s/site.db", folder);
    snprintf(bad.folder, sizeof bad.folder, "%s/lenient", folder);
    int file = open(site, O_RDONLY);
    TRY(file >= 0 && (bad.size = read(file, bad.torn, sizeof bad.torn) - 16) > 0 && close(file) == 0);
    TRY(mkdir(bad.folder, 0700) == 0);
    writes("profile", profile, sizeof profile - 1);
    writes("site.db", "noise", 5);
}

/* Whether the user's file is the torn one. */
static bool is_torn(const State *state)
{
    return state->size == bad.size && memcmp(state->bytes, bad.torn, (size_t)bad.size) == 0;
}

/* The first change begins a new file, or leaves the torn one. */
static void tries_lenient(void)
{
    DconfdbEdit edit = sets_text("/k", "1");
    char aside[8192];
    writes("me.user", bad.torn, (size_t)bad.size);
    DconfdbStore *store = dconfdb_store_open_lenient(bad.folder, &error);
    if (lacks_memory(store != NULL))
        return;
    bool done = dconfdb_store_change(store, NULL, &edit, 1, &error);
    State state = state_of(store);
    TRY(lacks_memory(done) == is_torn(&state));
    DconfdbSnapshot *now = dconfdb_store_snapshot(store);
    TRY(has(now, "/k", done ? "1" : NULL) && dconfdb_snapshot_fault(now, 0, NULL) && dconfdb_snapshot_fault(now, 1, NULL));
    dconfdb_snapshot_unref(now);
    dconfdb_store_close(store);
    snprintf(aside, sizeof aside, "%s/me.user~1", bad.folder);
    TRY((unlink(aside) == 0) == done);
}

/* A store and a profile that the environment names. */
static void tries_named(const char *folder)
{
    TRY(setenv("DCONFDB_STORE", folder, 1) == 0 && setenv("DCONFDB_PROFILE", "./profile", 1) == 0);
    DconfdbStore *store = dconfdb_store_open_lenient(NULL, &error);
    lacks_memory(store != NULL);
    dconfdb_store_close(store);
    char *files = dconfdb_store_files(NULL, NULL, &error);
    lacks_memory(files != NULL);
    free(files);
    TRY(setenv("DCONFDB_PROFILE", "none", 1) == 0);
    store = dconfdb_store_open_lenient(NULL, &error);
    lacks_memory(store != NULL);
    dconfdb_store_close(store);
}

/* All that there is, with one growth refused; whether it was. */
static bool runs(const char *folder)
{
    growths = 0;
    DconfdbStore *store = dconfdb_store_open(folder, &error);
    if (lacks_memory(store != NULL))
        return true;
    DconfdbSnapshot *old = dconfdb_store_snapshot(store);
    DconfdbEdit edits[] = {sets_text("/a/k", "1"), sets_text("/a/l", "2"), {"/org/", NULL, NULL, 0}};
    bool done = changes(store, edits, 3);
    DconfdbSnapshot *now = dconfdb_store_snapshot(store);
    TRY(has(now, "/a/k", done ? "1" : NULL) && has(now, "/a/l", done ? "2" : NULL) && has(old, "/a/k", NULL));
    lists(now, old);
    iterates(now);
    edits[1] = sets_text("/a/", "");
    TRY(!dconfdb_store_change(store, NULL, edits, 2, &error));
    TRY(error.code == DCONFDB_ERROR_BAD_PATH ? error.edit == 1 : error.code == DCONFDB_ERROR_MEMORY && error.edit == 0);
    memset(&error, 0x7f, sizeof error);
    dconfdb_snapshot_unref(old);
    dconfdb_snapshot_unref(now);
    dconfdb_store_close(store);

    /* And by another store the way back. */
    store = dconfdb_store_open(folder, &error);
    if (!lacks_memory(store != NULL)) {
        edits[0] = (DconfdbEdit){"/", NULL, NULL, 0};
        changes(store, edits, 1);
        refreshes(store);
        dispatches(store);
        dconfdb_store_close(store);
    }
    tries_writeless(folder);
    tries_named(folder);
    tries_lenient();
    return growths >= refused;
}

/* Nothing is left of a run that may have ended early. */
static void clears(const char *folder)
{
    refused = 0;
    DconfdbEdit all = {"/", NULL, NULL, 0};
    DconfdbStore *store = dconfdb_store_open(folder, &error);
    TRY(store && dconfdb_store_change(store, NULL, &all, 1, &error));
    dconfdb_store_close(store);
}

int main(int argc, char **argv)
{
    TRY(argc == 2);
    long turn = 0;
    makes_bad(argv[1]);
    do {
        clears(argv[1]);
        refused = ++turn;
    } while (runs(argv[1]));
    TRY(turn > 20);
    printf("%ld growths\n", turn - 1);
    return 0;
}
