/* Tries what dconfdb_store_open_with takes: choices FOLDER, as calls.c has it. fsync is counted, and fails if it is to. */
#include "try.h"

#include <errno.h>
#include <fcntl.h>
#include <pthread.h>
#include <sys/file.h>
#include <sys/stat.h>
#include <time.h>
#include <unistd.h>

int __real_fsync(int file);
int __wrap_fsync(int file);

static DconfdbError error = DCONFDB_ERROR_INIT;
static int syncs, fault;

int __wrap_fsync(int file)
{
    syncs++;
    errno = fault;
    return fault != 0 ? -1 : __real_fsync(file);
}

static bool changes(DconfdbStore *store, const char *text)
{
    DconfdbEdit edit = sets_text("/k", text);
    bool done = dconfdb_store_change(store, NULL, &edit, 1, &error);
    DconfdbSnapshot *now = dconfdb_store_snapshot(store);
    TRY(!done || has(now, "/k", text));
    dconfdb_snapshot_unref(now);
    return done;
}

static void tries_usual(void)
{
    DconfdbOptions usual = DCONFDB_OPTIONS_INIT;
    TRY(usual.size == sizeof usual && !usual.is_lenient && !usual.is_unsynced && usual.longest_wait == 10000);
    DconfdbStore *store = dconfdb_store_open_with(".", &usual, &error);
    syncs = 0;
    TRY(store && changes(store, "synced") && syncs == 2);
    dconfdb_store_close(store);
}

/* The file is the same one, and nothing is waited for. */
static void tries_unsynced(void)
{
    DconfdbOptions options = DCONFDB_OPTIONS_INIT;
    options.is_unsynced = true;
    DconfdbStore *store = dconfdb_store_open_with(".", &options, &error), *other = dconfdb_store_open(".", &error);
    syncs = 0;
    TRY(store && other && changes(store, "unsynced") && syncs == 0);
    TRY(dconfdb_store_refresh(other, NULL, &error));
    DconfdbSnapshot *now = dconfdb_store_snapshot(other);
    TRY(has(now, "/k", "unsynced"));
    dconfdb_snapshot_unref(now);
    TRY(changes(other, "synced") && syncs == 2);
    dconfdb_store_close(store);
    dconfdb_store_close(other);
}

/* What an unsynced store wrote gets to the disk by a synced one that sets it again: once, and for all who read its note. */
static void tries_same(void)
{
    DconfdbOptions options = DCONFDB_OPTIONS_INIT;
    options.is_unsynced = true;
    DconfdbStore *fast = dconfdb_store_open_with(".", &options, &error), *store = dconfdb_store_open(".", &error);
    syncs = 0;
    TRY(fast && store && changes(fast, "same") && changes(fast, "same") && syncs == 0);
    TRY(changes(store, "same") && syncs == 2 && changes(store, "same") && syncs == 2);
    DconfdbStore *other = dconfdb_store_open(".", &error);
    TRY(other && changes(other, "same") && syncs == 2);
    TRY(changes(fast, "again") && syncs == 2);
    fault = EIO;
    TRY(!changes(store, "again") && error.code == DCONFDB_ERROR_FILE && error.outcome == DCONFDB_OUTCOME_UNSETTLED && error.errnum == EIO);
    TRY(strstr(error.text, "/me.user: it is as it was to be, but perhaps not on the disk yet: "));
    fault = 0;
    syncs = 0;
    TRY(changes(store, "again") && syncs == 2);
    dconfdb_store_close(fast);
    dconfdb_store_close(store);
    dconfdb_store_close(other);
}

/* That there is no file is on the disk, too, and so is the folder's name. */
static void tries_none(void)
{
    DconfdbEdit reset = {"/k", NULL, NULL, 0};
    TRY(mkdir("none", 0700) == 0);
    DconfdbStore *store = dconfdb_store_open("none", &error);
    syncs = 0;
    TRY(store && dconfdb_store_change(store, NULL, &reset, 1, &error) && syncs == 2);
    fault = EIO;
    TRY(!dconfdb_store_change(store, NULL, &reset, 1, &error) && error.outcome == DCONFDB_OUTCOME_UNSETTLED && error.errnum == EIO);
    fault = 0;
    TRY(access("none/.lock", F_OK) != 0 && errno == ENOENT);
    dconfdb_store_close(store);
}

static void tries_lenient(void)
{
    DconfdbOptions options = DCONFDB_OPTIONS_INIT;
    TRY(!dconfdb_store_open_with("bad", &options, &error) && error.code == DCONFDB_ERROR_BAD_LINE && error.line == 2);
    TRY(!dconfdb_store_open_with("bad", &options, NULL));
    options.is_lenient = true;
    DconfdbStore *store = dconfdb_store_open_with("bad", &options, &error);
    TRY(store && dconfdb_store_profile_fault(store, NULL));
    dconfdb_store_close(store);
}

static void *gives_back(void *file)
{
    usleep(300000);
    TRY(flock(*(int *)file, LOCK_UN) == 0);
    return NULL;
}

/* Another one has the lock. */
static void tries_waits(void)
{
    DconfdbOptions options = DCONFDB_OPTIONS_INIT;
    pthread_t other;
    int lock = open(".lock", O_RDWR | O_CLOEXEC);
    TRY(lock >= 0);
    for (int wait = 0; wait <= 200; wait += 200) {
        char words[64];
        options.longest_wait = wait;
        DconfdbStore *store = dconfdb_store_open_with(".", &options, &error);
        TRY(flock(lock, LOCK_EX) == 0);
        double began = seconds(CLOCK_MONOTONIC);
        TRY(store && !changes(store, "refused") && error.code == DCONFDB_ERROR_BUSY && error.outcome == DCONFDB_OUTCOME_KEPT);
        snprintf(words, sizeof words, "/me.user: others have been changing it for %d ms", wait);
        TRY(strstr(error.text, words) && seconds(CLOCK_MONOTONIC) - began >= wait / 1000.0 && seconds(CLOCK_MONOTONIC) - began < 60);
        TRY(flock(lock, LOCK_UN) == 0 && changes(store, "not refused"));
        dconfdb_store_close(store);
    }
    options.longest_wait = -7;
    DconfdbStore *store = dconfdb_store_open_with(".", &options, &error);
    TRY(store && flock(lock, LOCK_EX) == 0);
    double began = seconds(CLOCK_MONOTONIC);
    TRY(pthread_create(&other, NULL, gives_back, &lock) == 0);
    TRY(changes(store, "at last") && seconds(CLOCK_MONOTONIC) - began >= 0.2 && pthread_join(other, NULL) == 0);
    dconfdb_store_close(store);
    TRY(close(lock) == 0);
}

int main(int argc, char **argv)
{
    TRY(argc == 2 && chdir(argv[1]) == 0);
    tries_usual();
    tries_unsynced();
    tries_same();
    tries_none();
    tries_lenient();
    tries_waits();
    return 0;
}
