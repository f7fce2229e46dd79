/* Lets each call that puts a changed file in place fail with each errno: errnos FOLDER. It is linked with
 * the static library, and with --wrap of fsync and renameat. Before the rename the file has its old
 * bytes; after it the new ones, and number, outcome and text say that it may have them. Of a rename that failed they say that
 * nobody knows. The same change once more has it on the disk, though the file may have the new bytes already. */
#include "try.h"

#include <errno.h>
#include <unistd.h>

int __real_fsync(int file);
int __real_renameat(int from, const char *old, int to, const char *new);
int __wrap_fsync(int file);
int __wrap_renameat(int from, const char *old, int to, const char *new);

/* The call that fails: the first, second or third of a change; 0: none. A change that is made has all of them. */
enum { OF_FILE = 1, OF_RENAME = 2, OF_FOLDER = 3, ALL = 3, GREATEST_ERRNO = 133 };
static int failing, fault, count;

static bool fails(void)
{
    errno = fault;
    return ++count == failing;
}

int __wrap_fsync(int file)
{
    return fails() ? -1 : __real_fsync(file);
}

int __wrap_renameat(int from, const char *old, int to, const char *new)
{
    return fails() ? -1 : __real_renameat(from, old, to, new);
}

static DconfdbError error = DCONFDB_ERROR_INIT;

static bool changes(DconfdbStore *store, const char *text)
{
    DconfdbEdit edit = sets_text("/k", text);
    count = 0;
    memset(&error, 0x7f, sizeof error);
    return dconfdb_store_change(store, NULL, &edit, 1, &error);
}

/* What a program finds in the folder that opens the store now. */
static bool is_in_file(const char *folder, const char *text)
{
    DconfdbStore *other = dconfdb_store_open(folder, NULL);
    TRY(other);
    DconfdbSnapshot *now = dconfdb_store_snapshot(other);
    bool is = has(now, "/k", text);
    dconfdb_snapshot_unref(now);
    dconfdb_store_close(other);
    return is;
}

static DconfdbErrorCode code_wanted(void)
{
    if (failing == OF_FILE && fault == ENOMEM)
        return DCONFDB_ERROR_MEMORY;
    return failing == OF_FILE && fault == EOVERFLOW ? DCONFDB_ERROR_FILE_TOO_LARGE : DCONFDB_ERROR_FILE;
}

static DconfdbOutcome outcome_of(int place)
{
    static const DconfdbOutcome outcomes[] = {DCONFDB_OUTCOME_MADE, DCONFDB_OUTCOME_KEPT, DCONFDB_OUTCOME_EITHER, DCONFDB_OUTCOME_UNSETTLED};
    return outcomes[place];
}

static void tries(DconfdbStore *store, const char *folder, int place)
{
    const char *there = place == OF_FOLDER ? "new" : "old";
    failing = 0;
    TRY(changes(store, "old"));
    DconfdbSnapshot *before = dconfdb_store_snapshot(store);
    failing = place;
    TRY(!changes(store, "new") && count == place);
    DconfdbSnapshot *after = dconfdb_store_snapshot(store);
    TRY(error.code == code_wanted() && error.errnum == (error.code == DCONFDB_ERROR_FILE ? fault : 0));
    TRY(error.outcome == outcome_of(place));
    TRY(!strstr(error.text, "it is perhaps replaced") == (place != OF_RENAME));
    TRY(error.edit == 0 && error.database == 0 && error.line == 0 && strstr(error.text, "/me.user: "));
    TRY(!strstr(error.text, "it is replaced, but perhaps not on the disk yet") == (place != OF_FOLDER));
    TRY(has(after, "/k", there) && is_in_file(folder, there) && (before == after) == (place != OF_FOLDER));
    dconfdb_snapshot_unref(before);
    dconfdb_snapshot_unref(after);
    failing = 0;
    TRY(changes(store, "new") && count == ALL);
    TRY(changes(store, "new") && count == 0);
}

int main(int argc, char **argv)
{
    int tried = 0;
    TRY(argc == 2 && chdir(argv[1]) == 0);
    DconfdbStore *store = dconfdb_store_open(".", &error);
    TRY(store);
    for (int place = OF_FILE; place <= OF_FOLDER; place++) {
        for (fault = 1; fault <= GREATEST_ERRNO; fault++, tried++) {
            tries(store, ".", place);
            TRY(access("me.user.new", F_OK) != 0);
        }
    }
    failing = 0;
    TRY(changes(store, "last") && is_in_file(".", "last"));
    dconfdb_store_close(store);
    printf("%d faults of fsync and rename\n", tried);
    return 0;
}
