/* Of refusals.c: profiles, lists, folders, and stores that may not be written. */
#include "refusals.h"

#include <errno.h>
#include <fcntl.h>
#include <signal.h>
#include <sys/file.h>
#include <sys/resource.h>
#include <sys/stat.h>
#include <unistd.h>

/* ---- profiles */

void tries_profiles(void)
{
    static char many[16 * 66], *end = many;
    for (int i = 0; i < 65; i++)
        end += sprintf(end, "system-db:s%d\n", i);
    const struct {
        const char *text;
        DconfdbErrorCode code;
        size_t line;
        const char *words;
    } profiles[] = {
        {"user-db:me\n\xff\n", DCONFDB_ERROR_NOT_TEXT, 2, "not UTF-8"},
        {"user-db:me\nsystem\n\xff\n", DCONFDB_ERROR_BAD_LINE, 2, "names no database"},
        {"user-db:me\n\nsystem\n", DCONFDB_ERROR_BAD_LINE, 3, "names no database"},
        {"user-db:/home/me\n", DCONFDB_ERROR_BAD_LINE, 1, "names no database"},
        {"service-db:keyfile/user\n", DCONFDB_ERROR_SERVICE_DB, 1, "service-db"},
        {"system-db:site\nuser-db:me\n", DCONFDB_ERROR_USER_NOT_FIRST, 2, "user-db that is not the first"},
        {many, DCONFDB_ERROR_TOO_MANY, 65, "the 65th database"},
    };
    TRY(rename("profile", "profile.kept") == 0);
    for (size_t i = 0; i < sizeof profiles / sizeof profiles[0]; i++) {
        char place[32];
        snprintf(place, sizeof place, profiles[i].line ? "/profile:%zu:" : "/profile:", profiles[i].line);
        writes("profile", profiles[i].text, strlen(profiles[i].text));
        TRY(refuses_open(".", (Fault){profiles[i].code, 0, 0, 0, profiles[i].line, place, profiles[i].words}));
        /* The files are named all the same, but for the databases. */
        char *names = dconfdb_store_files("/none/such", NULL, &error);
        TRY(names && unlink("profile") == 0);
        free(names);
    }
    TRY(mkdir("profile", 0700) == 0);
    TRY(refuses_open(".", (Fault){DCONFDB_ERROR_FILE, EISDIR, 0, 0, 0, "/profile", "Is a directory"}) && rmdir("profile") == 0);
    writes("profile", "", 0);
    TRY(truncate("profile", 16777217) == 0);
    TRY(refuses_open(".", (Fault){DCONFDB_ERROR_FILE_TOO_LARGE, 0, 0, 0, 0, "/profile", "too big"}) && unlink("profile") == 0);
    /* A name below what is no folder is no missing file. */
    writes("profile", "user-db:me\nfile-db:site.db/x\n", 29);
    TRY(refuses_open(".", (Fault){DCONFDB_ERROR_FILE, ENOTDIR, 0, 1, 0, "/site.db/x", "Not a directory"}));
    TRY(rename("profile.kept", "profile") == 0);
}

/* ---- lists, folders, stores that may not be written */

void tries_lists(DconfdbStore *store)
{
    static const char *const none[] = {"", "a", "/a", "/a//", "a/", "/\xff/"};
    DconfdbSnapshot *now = dconfdb_store_snapshot(store);
    for (size_t i = 0; i < sizeof none / sizeof none[0]; i++) {
        size_t size = 77;
        Fault fault = {DCONFDB_ERROR_BAD_PATH, 0, 0, 0, 0, none[i], "the path is not one"};
        begins(store);
        TRY(!dconfdb_snapshot_list(now, none[i], &size, &error) && is_said(fault) && size == 77);
        forgets();
        TRY(!dconfdb_snapshot_locks(now, none[i], &size, &error) && is_said(fault) && size == 77);
        forgets();
        TRY(!dconfdb_snapshot_list_user(now, none[i], &size, &error) && is_said(fault) && size == 77);
        forgets();
        TRY(!dconfdb_snapshot_iterate(now, none[i], &error) && is_said(fault));
        TRY(!dconfdb_snapshot_list_user(now, none[i], NULL, NULL) && !dconfdb_snapshot_iterate(now, none[i], NULL));
        TRY(!dconfdb_snapshot_list(now, none[i], NULL, NULL) && !dconfdb_snapshot_locks(now, none[i], NULL, NULL));
        TRY(nothing_changed(store));
    }
    dconfdb_snapshot_unref(now);
}

void tries_no_user(void)
{
    DconfdbStore *store = dconfdb_store_open("writeless", &error);
    DconfdbEdit edits[] = {sets_text("/good", "1"), {"/org/desk/size", NULL, NULL, 0}, {"/", NULL, NULL, 0}, {"/a/", "s", "x", 2}};
    Fault fault = {DCONFDB_ERROR_NOT_WRITABLE, 0, 0, 0, 0, "/", "no user's database"};
    TRY(store);
    for (size_t i = 0; i < 3; i++) {
        fault.name = edits[i].path;
        TRY(refuses_change(store, edits + i, 1, fault));
    }
    TRY(refuses_change(store, edits + 3, 1, (Fault){DCONFDB_ERROR_BAD_PATH, 0, 0, 0, 0, "/a/", "the path is not one"}));
    TRY(dconfdb_store_change(store, NULL, NULL, 0, &error));
    dconfdb_store_close(store);
}

/* What the system refuses of a change: no file may be as long as the new one. */
void tries_replacing(DconfdbStore *store)
{
    DconfdbEdit good = sets_text("/good", "1");
    struct rlimit usual, none = {0, RLIM_INFINITY};
    TRY(getrlimit(RLIMIT_FSIZE, &usual) == 0 && signal(SIGXFSZ, SIG_IGN) != SIG_ERR);
    none.rlim_max = usual.rlim_max;
    TRY(setrlimit(RLIMIT_FSIZE, &none) == 0);
    forgets();
    TRY(!dconfdb_store_change(store, NULL, &good, 1, &error));
    TRY(setrlimit(RLIMIT_FSIZE, &usual) == 0 && error.code == DCONFDB_ERROR_FILE && error.errnum == EFBIG && strstr(error.text, "/me.user"));
    TRY(error.edit == 0 && error.database == 0 && error.line == 0 && !strstr(error.text, "replaced"));
    begins(store);
    TRY(nothing_changed(store));
}

void tries_no_folder(void)
{
    Fault none = {DCONFDB_ERROR_NO_FOLDER, 0, 0, 0, 0, "", "the environment names no folder of a store, and the system no home"};
    TRY(unsetenv("DCONFDB_STORE") == 0 && setenv("XDG_CONFIG_HOME", "relative", 1) == 0 && setenv("HOME", "", 1) == 0);
    TRY(refuses_open(NULL, none) && refuses_files(NULL, none));
    /* The current folder is gone, and a name that is relative with it. */
    int here = open(".", O_RDONLY | O_DIRECTORY);
    TRY(here >= 0 && mkdir("gone", 0700) == 0 && chdir("gone") == 0 && rmdir("../gone") == 0);
    forgets();
    Fault gone = {DCONFDB_ERROR_FILE, ENOENT, 0, 0, 0, "relative", "No such file"};
    TRY(!dconfdb_store_open("relative", &error) && is_said(gone) && !dconfdb_store_files("relative", NULL, &error) && is_said(gone));
    gone.name = "$DCONFDB_STORE";
    TRY(setenv("DCONFDB_STORE", "relative", 1) == 0 && !dconfdb_store_open(NULL, &error) && is_said(gone));
    TRY(!dconfdb_store_files(NULL, NULL, &error) && is_said(gone));
    gone.name = "$DCONFDB_PROFILE";
    TRY(setenv("DCONFDB_STORE", "/none", 1) == 0 && setenv("DCONFDB_PROFILE", "./relative", 1) == 0);
    TRY(!dconfdb_store_open(NULL, &error) && is_said(gone) && !dconfdb_store_files(NULL, NULL, &error) && is_said(gone));
    TRY(fchdir(here) == 0 && close(here) == 0 && unsetenv("DCONFDB_STORE") == 0 && unsetenv("DCONFDB_PROFILE") == 0);
}

/* What has the lock's name and is no file is neither locked nor waited for. */
void tries_no_lock(DconfdbStore *store)
{
    Fault fault = {DCONFDB_ERROR_FILE, EINVAL, 0, 0, 0, "/.lock", "no regular file"};
    DconfdbEdit good = sets_text("/good", "1");
    TRY(unlink(".lock") == 0 && symlink("me.user", ".lock") == 0 && refuses_change(store, &good, 1, fault));
    TRY(unlink(".lock") == 0 && symlink("none", ".lock") == 0 && refuses_change(store, &good, 1, fault));
    TRY(access("none", F_OK) != 0 && unlink(".lock") == 0);
    TRY(mkfifo(".lock", 0600) == 0 && refuses_change(store, &good, 1, fault) && unlink(".lock") == 0);
    TRY(mkdir(".lock", 0700) == 0 && refuses_change(store, &good, 1, fault) && rmdir(".lock") == 0);
    /* Another file isn't opened to more users, if it has a second name. */
    TRY(chmod(".", 0777) == 0 && link("profile", ".lock") == 0 && chmod("profile", 0600) == 0);
    DconfdbEdit other = sets_text("/b", "3");
    struct stat found;
    TRY(dconfdb_store_change(store, NULL, &other, 1, &error) && stat("profile", &found) == 0 && (found.st_mode & 0777) == 0600);
    TRY(unlink(".lock") == 0 && chmod(".", 0755) == 0);
}

void tries_busy(DconfdbStore *store)
{
    DconfdbEdit good = sets_text("/good", "1");
    int lock = open(".lock", O_RDWR);
    TRY(lock >= 0 && flock(lock, LOCK_EX) == 0);
    begins(store);
    TRY(!dconfdb_store_change(store, NULL, &good, 1, &error) && nothing_changed(store) && flock(lock, LOCK_UN) == 0 && close(lock) == 0);
    TRY(is_said((Fault){DCONFDB_ERROR_BUSY, 0, 0, 0, 0, "/me.user", "for ten seconds"}));
}
