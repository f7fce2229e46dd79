/* Tries changes that are made only if what was expected is still seen: expected FOLDER, a store of tests/library. With a
 * COUNT it increments the number at /count so many times, as other programs do, too. */
#include "try.h"

#include <unistd.h>

static DconfdbError error = DCONFDB_ERROR_INIT;

static DconfdbEdit sets_number(const char *path, const int32_t *number)
{
    return (DconfdbEdit){path, "i", number, sizeof *number};
}

static int32_t number_at(const DconfdbSnapshot *now, const char *path)
{
    DconfdbValue value;
    int32_t number = 0;
    return dconfdb_snapshot_read(now, path, &value) && dconfdb_value_get_int32(&value, &number) ? number : 0;
}

/* ---- increments */

/* Whether it was made, by what was seen just before. */
static bool increments(DconfdbStore *store)
{
    DconfdbSnapshot *seen = dconfdb_store_snapshot(store);
    int32_t next = number_at(seen, "/count") + 1;
    DconfdbEdit edit = sets_number("/count", &next);
    bool done = dconfdb_store_change(store, seen, &edit, 1, &error);
    dconfdb_snapshot_unref(seen);
    TRY(done || error.code == DCONFDB_ERROR_CHANGED);
    return done;
}

static void increments_often(DconfdbStore *store, long count)
{
    long again = 0;
    for (long i = 0; i < count; i++) {
        while (!increments(store))
            again++;
    }
    printf("%ld\n", again);
}

/* ---- what counts as a change */

/* Whether a change with this expectation is refused at the edit, and changes nothing. */
static bool is_refused(DconfdbStore *store, const DconfdbSnapshot *expected, const DconfdbEdit *edits, size_t count, size_t at)
{
    /* A refused change may take in what others changed. */
    bool is = !dconfdb_store_change(store, expected, edits, count, NULL);
    DconfdbSnapshot *before = dconfdb_store_snapshot(store);
    is = is && !dconfdb_store_change(store, expected, edits, count, &error) && error.code == DCONFDB_ERROR_CHANGED
        && error.edit == at && error.outcome == DCONFDB_OUTCOME_KEPT && strstr(error.text, edits[at].path) && strstr(error.text, "something else");
    DconfdbSnapshot *after = dconfdb_store_snapshot(store);
    size_t size = 7;
    char *paths = dconfdb_snapshot_differences(before, after, &size, &error);
    is = is && paths && size == 0;
    free(paths);
    dconfdb_snapshot_unref(before);
    dconfdb_snapshot_unref(after);
    return is;
}

static bool is_made(DconfdbStore *store, const DconfdbSnapshot *expected, const DconfdbEdit *edits, size_t count)
{
    bool is = dconfdb_store_change(store, expected, edits, count, &error);
    if (!is)
        fprintf(stderr, "%s\n", error.text);
    return is;
}

static void tries_keys(DconfdbStore *store, DconfdbStore *other)
{
    static const int32_t one = 1, two = 2;
    DconfdbEdit edits[] = {sets_number("/e/a", &one), sets_number("/e/b", &two)}, reset = {"/e/a", NULL, NULL, 0};
    DconfdbSnapshot *none = dconfdb_store_snapshot(store);
    TRY(is_made(store, none, edits, 2));
    /* There is a value by now. The first edit's counts. */
    TRY(is_refused(store, none, edits, 2, 0) && is_refused(store, none, edits + 1, 1, 0) && is_refused(store, none, &reset, 1, 0));
    DconfdbSnapshot *had = dconfdb_store_snapshot(store);
    TRY(is_made(other, NULL, (DconfdbEdit[]){sets_number("/e/b", &one)}, 1));
    TRY(is_refused(store, had, edits, 2, 1) && is_made(store, had, &reset, 1));
    /* The reset is seen, too. Paths that nobody edits don't count, nor do malformed ones, which are refused as they are. */
    TRY(is_refused(store, had, edits, 1, 0) && is_made(store, had, (DconfdbEdit[]){sets_number("/e/c", &one)}, 1));
    TRY(!dconfdb_store_change(store, had, (DconfdbEdit[]){sets_number("e", &one)}, 1, &error) && error.code == DCONFDB_ERROR_BAD_PATH);
    /* What was there once more is as expected: values count, not when they were set. */
    TRY(is_made(store, NULL, edits, 2) && is_made(store, had, edits, 2));
    dconfdb_snapshot_unref(none);
    dconfdb_snapshot_unref(had);
}

static void tries_directories(DconfdbStore *store)
{
    static const int32_t one = 1;
    DconfdbEdit below = {"/f/", NULL, NULL, 0}, all = {"/", NULL, NULL, 0};
    TRY(is_made(store, NULL, (DconfdbEdit[]){sets_number("/f/a", &one), sets_number("/g", &one)}, 2));
    DconfdbSnapshot *had = dconfdb_store_snapshot(store);
    TRY(is_made(store, NULL, (DconfdbEdit[]){{"/g", NULL, NULL, 0}}, 1));
    TRY(is_refused(store, had, &all, 1, 0) && is_made(store, had, &below, 1) && is_refused(store, had, &below, 1, 0));
    dconfdb_snapshot_unref(had);
}

/* A site's database with another value, and other locks, than the one that was expected. */
static void tries_others(DconfdbStore *store)
{
    DconfdbEdit name = sets_text("/org/desk/name", "mine"), size = {"/org/desk/size", NULL, NULL, 0}, shut = {"/shut/any", NULL, NULL, 0};
    DconfdbSnapshot *had = dconfdb_store_snapshot(store);
    TRY(rename("site.db", "site.kept") == 0 && link("next.db", "site.db") == 0);
    TRY(is_refused(store, had, &name, 1, 0) && is_refused(store, had, &size, 1, 0) && is_refused(store, had, &shut, 1, 0));
    TRY(rename("site.kept", "site.db") == 0 && is_made(store, had, &name, 1));
    TRY(!dconfdb_store_change(store, had, &size, 1, &error) && error.code == DCONFDB_ERROR_LOCKED);
    dconfdb_snapshot_unref(had);
}

int main(int argc, char **argv)
{
    TRY((argc == 2 || argc == 3) && chdir(argv[1]) == 0);
    DconfdbStore *store = dconfdb_store_open(".", &error), *other = dconfdb_store_open(".", &error);
    TRY(store && other);
    if (argc == 3) {
        increments_often(store, strtol(argv[2], NULL, 10));
    } else {
        tries_keys(store, other);
        tries_directories(store);
        tries_others(store);
    }
    dconfdb_store_close(store);
    dconfdb_store_close(other);
    return 0;
}
