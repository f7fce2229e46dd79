/* Tries each call, and its refusals, on a store that tests/library makes: calls FOLDER. In it,
 * `profile` has user-db:me, system-db:site and file-db:far.db; site.db has /org/desk/name 'desk'
 * and /org/desk/size 24, and locks /org/desk/size and /shut/; far.db has /far/key 'far'; next.db
 * has /org/desk/name 'next'. The folders bad, service, folder, writeless and store in it are for
 * what is said below of each. The folder `named` isn't there yet. */
#include "calls.h"

#include <errno.h>
#include <sys/stat.h>
#include <unistd.h>

DconfdbError error = DCONFDB_ERROR_INIT;
char *home;

SYSTEMS_HOME(home)

/* Whether the last fault is that one, and its text has both. */
bool is_fault(DconfdbErrorCode code, const char *what, const char *also)
{
    bool is = error.code == code && strstr(error.text, what) && strstr(error.text, also);
    if (!is)
        fprintf(stderr, "%s: %s\n", dconfdb_error_name(error.code), error.text);
    return is;
}

/* The texts of a list are these, each with a zero byte and one more at the end. */
bool are(char *list, const size_t *size, const char *wanted, size_t wanted_size)
{
    bool is = list && *size == wanted_size && memcmp(list, wanted, *size) == 0 && list[*size] == 0;
    free(list);
    return is;
}

bool changes(DconfdbStore *store, DconfdbEdit edit)
{
    return dconfdb_store_change(store, NULL, &edit, 1, &error);
}

static void tries_reading(DconfdbStore *store)
{
    DconfdbSnapshot *now = dconfdb_store_snapshot(store);
    DconfdbValue value;
    size_t size;
    TRY(has(now, "/org/desk/name", "desk") && has(now, "/far/key", "far") && has(now, "/none", NULL));
    TRY(has(now, "", NULL) && has(now, "org", NULL) && has(now, "/", NULL) && has(now, "/a//b", NULL) && has(now, "/\xff", NULL));
    TRY(dconfdb_snapshot_read(now, "/far/key", &value) && value.origin == 2);
    TRY(dconfdb_snapshot_read_default(now, "/org/desk/name", &value) && is_text(&value, "desk") && value.origin == 1);
    TRY(!dconfdb_snapshot_read_user(now, "/org/desk/name", &value) && value.size == 0);
    TRY(dconfdb_snapshot_is_locked(now, "/org/desk/size") && !dconfdb_snapshot_is_writable(now, "/org/desk/size"));
    TRY(dconfdb_snapshot_is_locked(now, "/shut/a/b") && !dconfdb_snapshot_is_locked(now, "/shut"));
    TRY(!dconfdb_snapshot_is_locked(now, "/org/desk/name") && dconfdb_snapshot_is_writable(now, "/org/desk/name"));
    TRY(!dconfdb_snapshot_is_locked(now, "/shut/") && !dconfdb_snapshot_is_writable(now, "no path"));
    TRY(ARE(dconfdb_snapshot_list(now, "/", &size, &error), "far/\0org/\0"));
    TRY(ARE(dconfdb_snapshot_list(now, "/org/desk/", &size, &error), "name\0size\0"));
    TRY(ARE(dconfdb_snapshot_list(now, "/none/", &size, &error), ""));
    TRY(ARE(dconfdb_snapshot_locks(now, "/", &size, &error), "/org/desk/size\0/shut/\0"));
    TRY(!dconfdb_snapshot_list(now, "/org", &size, &error) && is_fault(DCONFDB_ERROR_BAD_PATH, "/org", "path"));
    TRY(!dconfdb_snapshot_locks(now, "", NULL, &error) && is_fault(DCONFDB_ERROR_BAD_PATH, "", "path"));
    TRY(!dconfdb_snapshot_list(now, "x", NULL, NULL));
    TRY(ARE(dconfdb_snapshot_list_user(now, "/", &size, &error), ""));
    TRY(!dconfdb_snapshot_list_user(now, "/org", NULL, &error) && is_fault(DCONFDB_ERROR_BAD_PATH, "/org", "path"));
    TRY(dconfdb_snapshot_databases(now) == 3 && strstr(dconfdb_snapshot_file(now, 1), "/site.db"));
    TRY(!dconfdb_snapshot_file(now, 3));
    dconfdb_snapshot_unref(dconfdb_snapshot_ref(now));
    dconfdb_snapshot_unref(now);
    dconfdb_snapshot_unref(NULL);
}

/* The paths below a directory, as a text with a blank behind each; the values are those that are read. */
static bool has_keys(const DconfdbSnapshot *snapshot, const char *directory, const char *wanted)
{
    char found[256] = "";
    const char *path = "none";
    DconfdbValue value = {"", 7, "", 0, 0, 0}, read;
    DconfdbIterator *iterator = dconfdb_snapshot_iterate(snapshot, directory, &error);
    TRY(iterator);
    while (dconfdb_iterator_next(iterator, &path, &value)) {
        TRY(dconfdb_snapshot_read(snapshot, path, &read) && read.data == value.data && read.size == value.size && read.origin == value.origin);
        strcat(strcat(found, path), " ");
    }
    const char *last = path;
    TRY(!dconfdb_iterator_next(iterator, &path, &value) && path == last && value.size != 0);
    dconfdb_iterator_free(iterator);
    return strcmp(found, wanted) == 0;
}

static void tries_iterating(DconfdbStore *store)
{
    size_t size;
    const char *path;
    DconfdbValue value;
    DconfdbEdit edits[] = {sets_text("/a-b", "1"), sets_text("/a/x", "2"), sets_text("/a/b/c", "3"), sets_text("/a", "4"), sets_text("/org/desk/name", "mine")};
    TRY(dconfdb_store_change(store, NULL, edits, 5, &error));
    DconfdbSnapshot *now = dconfdb_store_snapshot(store);
    TRY(has_keys(now, "/", "/a /a-b /a/b/c /a/x /far/key /org/desk/name /org/desk/size ") && has_keys(now, "/a/", "/a/b/c /a/x "));
    TRY(has_keys(now, "/org/", "/org/desk/name /org/desk/size ") && has_keys(now, "/none/", ""));
    TRY(ARE(dconfdb_snapshot_list_user(now, "/", &size, &error), "a\0a-b\0a/\0org/\0"));
    TRY(ARE(dconfdb_snapshot_list_user(now, "/org/desk/", &size, &error), "name\0") && ARE(dconfdb_snapshot_list_user(now, "/far/", &size, &error), ""));
    TRY(!dconfdb_snapshot_iterate(now, "/a", &error) && is_fault(DCONFDB_ERROR_BAD_PATH, "/a", "path"));
    TRY(!dconfdb_snapshot_iterate(now, "", NULL));
    /* An iterator keeps its snapshot. */
    DconfdbIterator *iterator = dconfdb_snapshot_iterate(now, "/a/", &error);
    dconfdb_snapshot_unref(now);
    TRY(changes(store, (DconfdbEdit){"/", NULL, NULL, 0}));
    TRY(iterator && dconfdb_iterator_next(iterator, &path, &value) && strcmp(path, "/a/b/c") == 0 && is_text(&value, "3"));
    dconfdb_iterator_free(iterator);
    dconfdb_iterator_free(NULL);
}

static void tries_changing(DconfdbStore *store)
{
    DconfdbSnapshot *old = dconfdb_store_snapshot(store), *now;
    DconfdbValue value;
    size_t size;
    memset(&error, 7, sizeof error);
    DconfdbEdit two[] = {sets_text("/org/desk/name", "mine"), sets_text("/b/x", "")};
    /* A call that is done leaves the error alone. */
    TRY(dconfdb_store_change(store, NULL, two, 2, &error) && error.code != 0);
    now = dconfdb_store_snapshot(store);
    TRY(has(old, "/org/desk/name", "desk") && has(now, "/org/desk/name", "mine") && has(now, "/b/x", ""));
    TRY(dconfdb_snapshot_read_default(now, "/org/desk/name", &value) && is_text(&value, "desk"));
    TRY(dconfdb_snapshot_read_user(now, "/org/desk/name", &value) && is_text(&value, "mine") && value.origin == 0);
    TRY(ARE(dconfdb_snapshot_differences(old, now, &size, &error), "/b/x\0/org/desk/name\0"));
    TRY(ARE(dconfdb_snapshot_differences(now, now, &size, &error), ""));
    TRY(ARE(dconfdb_snapshot_differences(now, NULL, &size, &error), "/b/x\0/far/key\0/org/desk/name\0/org/desk/size\0"));
    dconfdb_snapshot_unref(old);

    /* All or none; the edit at fault is told. */
    two[0] = sets_text("/b/x", "lost");
    two[1] = sets_text("/org/desk/size", "lost");
    TRY(!dconfdb_store_change(store, NULL, two, 2, &error) && is_fault(DCONFDB_ERROR_LOCKED, "/org/desk/size", "locked") && error.edit == 1);
    two[1] = (DconfdbEdit){"/b/y", "z", "", 0};
    TRY(!dconfdb_store_change(store, NULL, two, 2, &error) && is_fault(DCONFDB_ERROR_BAD_TYPE, "/b/y", "type") && error.edit == 1);
    two[1] = (DconfdbEdit){"/b/y", "", NULL, 0};
    TRY(!dconfdb_store_change(store, NULL, two, 2, NULL));
    two[1] = (DconfdbEdit){"b", NULL, NULL, 0};
    TRY(!dconfdb_store_change(store, NULL, two, 2, &error) && is_fault(DCONFDB_ERROR_BAD_PATH, "b", "path") && error.edit == 1);
    TRY(!changes(store, (DconfdbEdit){"//", NULL, NULL, 0}) && error.code == DCONFDB_ERROR_BAD_PATH && error.edit == 0);
    old = dconfdb_store_snapshot(store);
    TRY(old == now);
    dconfdb_snapshot_unref(old);

    /* The same in one: a later edit sees the earlier ones. */
    DconfdbEdit many[] = {sets_text("/b/y", "1"), {"/b/", NULL, NULL, 0}, sets_text("/b/z", "2"), {"/org/desk/name", NULL, NULL, 0}};
    TRY(dconfdb_store_change(store, NULL, many, 4, &error));
    TRY(dconfdb_store_change(store, NULL, NULL, 0, &error));
    dconfdb_snapshot_unref(now);
    now = dconfdb_store_snapshot(store);
    TRY(has(now, "/b/x", NULL) && has(now, "/b/y", NULL) && has(now, "/b/z", "2") && has(now, "/org/desk/name", "desk"));
    TRY(changes(store, (DconfdbEdit){"/none", NULL, NULL, 0}) && changes(store, (DconfdbEdit){"/", NULL, NULL, 0}));
    dconfdb_snapshot_unref(now);
    now = dconfdb_store_snapshot(store);
    TRY(has(now, "/b/z", NULL));
    dconfdb_snapshot_unref(now);
}

/* Whether a refresh says that others changed something. It is said once. */
bool is_renewed(DconfdbStore *store)
{
    bool changed = false, again = true;
    TRY(dconfdb_store_refresh(store, &changed, &error) && dconfdb_store_refresh(store, &again, NULL) && !again);
    return changed;
}

void makes_profile(const char *name, const char *text)
{
    FILE *profile = fopen(name, "w");
    TRY(profile && fputs(text, profile) >= 0 && fclose(profile) == 0);
}

/* Puts a user's file in place that was made where there are no locks. */
static void takes_file_of(const DconfdbEdit *edits, size_t count)
{
    makes_profile("lockless/profile", "user-db:me\n");
    DconfdbStore *store = dconfdb_store_open("lockless", &error);
    TRY(store && dconfdb_store_change(store, NULL, edits, count, &error) && rename("lockless/me.user", "me.user") == 0);
    dconfdb_store_close(store);
}

/* A value of the user's that a lock hides is no difference. */
static void tries_hidden_changes(DconfdbStore *store)
{
    size_t size;
    DconfdbSnapshot *old = dconfdb_store_snapshot(store), *now;
    DconfdbEdit edits[] = {sets_text("/org/desk/size", "hidden"), sets_text("/shut/k", "hidden"), sets_text("/seen", "")};
    TRY(mkdir("lockless", 0700) == 0);
    takes_file_of(edits, 3);
    TRY(dconfdb_store_refresh(store, NULL, &error));
    now = dconfdb_store_snapshot(store);
    TRY(ARE(dconfdb_snapshot_differences(old, now, &size, &error), "/seen\0"));
    TRY(ARE(dconfdb_snapshot_differences(now, old, &size, &error), "/seen\0"));
    /* A file is made where something is set, though nothing is left of it. */
    edits[1] = (DconfdbEdit){"/", NULL, NULL, 0};
    takes_file_of(edits, 2);
    TRY(dconfdb_store_refresh(store, NULL, &error));
    dconfdb_snapshot_unref(old);
    dconfdb_snapshot_unref(now);
}

/* A change takes the locks of the user's file away: here that file is another store's site. */
static void tries_losing_locks(void)
{
    TRY(mkdir("owner", 0700) == 0 && link("site.db", "owner/me.user") == 0 && mkdir("guest", 0700) == 0);
    makes_profile("owner/profile", "user-db:me\n");
    makes_profile("guest/profile", "user-db:me\nfile-db:../owner/me.user\n");
    DconfdbStore *owner = dconfdb_store_open("owner", &error), *guest = dconfdb_store_open("guest", &error);
    DconfdbSnapshot *old = guest ? dconfdb_store_snapshot(guest) : NULL;
    TRY(owner && old && dconfdb_snapshot_is_locked(old, "/org/desk/size") && changes(owner, sets_text("/k", "1")));
    TRY(is_renewed(guest));
    DconfdbSnapshot *now = dconfdb_store_snapshot(guest);
    TRY(has(now, "/k", "1") && has(now, "/org/desk/name", "desk") && !dconfdb_snapshot_is_locked(now, "/org/desk/size"));
    dconfdb_snapshot_unref(old);
    dconfdb_snapshot_unref(now);
    dconfdb_store_close(owner);
    dconfdb_store_close(guest);
}

/* A value of a million bytes, and data that isn't aligned. */
static void tries_sizes(DconfdbStore *store)
{
    size_t size = 1000001;
    char *big = malloc(size + 1);
    TRY(big);
    memset(big, 'x', size);
    big[size] = 0;
    TRY(changes(store, sets_text("/big", big)) && changes(store, sets_text("/odd", big + size - 3)));
    DconfdbSnapshot *now = dconfdb_store_snapshot(store);
    TRY(has(now, "/big", big) && has(now, "/odd", "xxx"));
    dconfdb_snapshot_unref(now);
    TRY(changes(store, (DconfdbEdit){"/", NULL, NULL, 0}));
    free(big);
}

/* What another program did is seen after a refresh, and not before. */
static void tries_refreshing(DconfdbStore *store, const char *folder)
{
    DconfdbStore *other = dconfdb_store_open(folder, &error);
    DconfdbSnapshot *old = dconfdb_store_snapshot(store);
    is_renewed(store);
    TRY(!is_renewed(store) && dconfdb_store_refresh(store, NULL, NULL));
    TRY(other && changes(other, sets_text("/by/other", "1")));
    TRY(has(old, "/by/other", NULL) && dconfdb_store_refresh(store, NULL, NULL) && is_renewed(store));
    DconfdbSnapshot *now = dconfdb_store_snapshot(store);
    TRY(now != old && !is_renewed(store));
    TRY(has(old, "/by/other", NULL) && has(now, "/by/other", "1"));
    /* A change that begins with an old snapshot loses nothing of another's. */
    TRY(changes(other, sets_text("/by/other", "2")) && changes(store, sets_text("/by/us", "3")));
    dconfdb_snapshot_unref(now);
    now = dconfdb_store_snapshot(store);
    TRY(has(now, "/by/other", "2") && has(now, "/by/us", "3"));
    dconfdb_store_close(other);
    TRY(changes(store, (DconfdbEdit){"/", NULL, NULL, 0}));
    TRY(has(now, "/by/other", "2") && has(old, "/org/desk/name", "desk"));
    dconfdb_snapshot_unref(now);
    dconfdb_snapshot_unref(old);
}

/* What a change takes in of other databases, made or refused, the next refresh tells; what it makes
 * itself is no news. */
static void tries_taking_in(DconfdbStore *store)
{
    DconfdbSnapshot *old = dconfdb_store_snapshot(store), *now;
    TRY(link("site.db", "site.kept") == 0 && rename("next.db", "site.db") == 0);
    TRY(!changes(store, (DconfdbEdit){"no path", NULL, NULL, 0}) && error.code == DCONFDB_ERROR_BAD_PATH);
    now = dconfdb_store_snapshot(store);
    TRY(now != old && has(now, "/org/desk/name", "next") && is_renewed(store) && !is_renewed(store));
    dconfdb_snapshot_unref(old);
    TRY(rename("site.db", "next.db") == 0 && rename("site.kept", "site.db") == 0 && changes(store, sets_text("/in", "1")));
    TRY(is_renewed(store));
    dconfdb_snapshot_unref(now);
    now = dconfdb_store_snapshot(store);
    TRY(has(now, "/org/desk/name", "desk") && has(now, "/in", "1") && changes(store, (DconfdbEdit){"/", NULL, NULL, 0}));
    TRY(!is_renewed(store));
    dconfdb_snapshot_unref(now);
}

/* A file that is no database: the newest snapshot stays, and a change is refused. */
static void tries_bad_files(DconfdbStore *store)
{
    const char *name = dconfdb_store_user_file(store);
    TRY(changes(store, sets_text("/kept", "1")) && rename(name, "kept") == 0);
    FILE *file = fopen(name, "w");
    TRY(file && fputs("no database, but long enough to have its header", file) >= 0 && fclose(file) == 0);
    TRY(!dconfdb_store_refresh(store, NULL, &error) && is_fault(DCONFDB_ERROR_BAD_SIGNATURE, "/me.user", "") && error.edit == 0);
    TRY(!changes(store, sets_text("/kept", "2")) && is_fault(DCONFDB_ERROR_BAD_SIGNATURE, "/me.user", ""));
    TRY(truncate(name, 0) == 0 && !dconfdb_store_refresh(store, NULL, &error) && is_fault(DCONFDB_ERROR_SHORT, "/me.user", ""));
    DconfdbSnapshot *now = dconfdb_store_snapshot(store);
    TRY(has(now, "/kept", "1") && rename("kept", name) == 0 && dconfdb_store_refresh(store, NULL, &error));
    dconfdb_snapshot_unref(now);
    TRY(changes(store, (DconfdbEdit){"/", NULL, NULL, 0}));
}

/* A site's database is replaced by a rename, and removed: what was lent of the old one stays as it
 * is. */
static void tries_replacing(DconfdbStore *store)
{
    DconfdbValue lent, value;
    size_t size;
    DconfdbSnapshot *old = dconfdb_store_snapshot(store);
    TRY(dconfdb_snapshot_read(old, "/org/desk/name", &lent));
    TRY(link("site.db", "site.kept") == 0 && rename("next.db", "site.db") == 0);
    TRY(is_renewed(store) && is_text(&lent, "desk"));
    DconfdbSnapshot *now = dconfdb_store_snapshot(store);
    TRY(has(now, "/org/desk/name", "next") && dconfdb_snapshot_is_writable(now, "/org/desk/size"));
    TRY(ARE(dconfdb_snapshot_differences(now, old, &size, &error), "/org/desk/name\0/org/desk/size\0"));
    TRY(unlink("site.db") == 0 && is_renewed(store));
    dconfdb_snapshot_unref(now);
    now = dconfdb_store_snapshot(store);
    TRY(!dconfdb_snapshot_read(now, "/org/desk/name", &value) && is_text(&lent, "desk"));
    dconfdb_snapshot_unref(now);
    TRY(rename("site.kept", "site.db") == 0 && dconfdb_store_refresh(store, NULL, &error));
    dconfdb_snapshot_unref(old);
}

/* The permission bits of the user's file are kept. */
static void tries_modes(DconfdbStore *store)
{
    struct stat found;
    const char *name = dconfdb_store_user_file(store);
    TRY(changes(store, sets_text("/m", "1")) && chmod(name, 0640) == 0 && changes(store, sets_text("/m", "2")));
    TRY(stat(name, &found) == 0 && (found.st_mode & 07777) == 0640);
    TRY(chmod(name, 0444) == 0 && changes(store, (DconfdbEdit){"/", NULL, NULL, 0}));
    TRY(stat(name, &found) == 0 && (found.st_mode & 07777) == 0444 && chmod(name, 0644) == 0);
}

int main(int argc, char **argv)
{
    int next = next_descriptor();
    TRY(argc == 2 && chdir(argv[1]) == 0);
    DconfdbStore *store = dconfdb_store_open(".", &error);
    if (!store)
        fprintf(stderr, "%s\n", error.text);
    TRY(store && strstr(dconfdb_store_user_file(store), "/me.user") && dconfdb_store_folder(store)[0] == '/');
    tries_reading(store);
    tries_changing(store);
    tries_iterating(store);
    tries_hidden_changes(store);
    tries_losing_locks();
    tries_sizes(store);
    tries_refreshing(store, ".");
    tries_taking_in(store);
    tries_bad_files(store);
    tries_replacing(store);
    tries_modes(store);
    tries_files();
    tries_other_stores();
    tries_odd_files();
    tries_moving();
    tries_named_profiles();
    tries_places();
    DconfdbSnapshot *last = dconfdb_store_snapshot(store);
    dconfdb_store_close(store);
    TRY(has(last, "/org/desk/name", "desk"));
    dconfdb_snapshot_unref(last);
    TRY(next_descriptor() == next);
    return 0;
}
