/* Of calls.c: which stores there are, where their files are, and those that can't be opened or written. */
#include "calls.h"

#include <errno.h>
#include <sys/stat.h>
#include <unistd.h>

static bool ends_in(const char *text, const char *end)
{
    return strlen(text) >= strlen(end) && strcmp(text + strlen(text) - strlen(end), end) == 0;
}

/* Whether the names of the files of a folder's store end in these. */
static bool are_files(const char *folder, const char *const *wanted)
{
    char *files = dconfdb_store_files(folder, NULL, &error);
    const char *at = files;
    bool are = files != NULL;
    for (; are && *wanted; wanted++, at += strlen(at) + 1)
        are = ends_in(at, *wanted);
    are = are && *at == 0;
    free(files);
    return are;
}
#define ARE_FILES(folder, ...) are_files(folder, (const char *const[]){__VA_ARGS__, NULL})

/* What would have to be mended, where a store can't be opened. */
void tries_files(void)
{
    size_t size = 0;
    TRY(ARE(dconfdb_store_files("/none", &size, &error), "/none/profile\0/etc/dconfdb/profile\0/none/user.user\0"));
    TRY(ARE_FILES("bad", "/bad/profile", "/etc/dconfdb/profile", "/bad/me.user"));
    TRY(ARE_FILES("folder", "/folder/profile", "/etc/dconfdb/profile", "/folder/me.user"));
    TRY(ARE_FILES("writeless", "/writeless/profile", "/etc/dconfdb/profile", "/site.db"));
}

/* Stores that can't be opened, or be written. */
void tries_other_stores(void)
{
    TRY(!dconfdb_store_open("bad", &error) && is_fault(DCONFDB_ERROR_BAD_LINE, "/bad/profile:2:", "") && error.line == 2);
    TRY(!dconfdb_store_open("service", &error) && is_fault(DCONFDB_ERROR_SERVICE_DB, "/service/profile:1:", ""));
    TRY(!dconfdb_store_open("folder", &error) && is_fault(DCONFDB_ERROR_FILE, "/folder/me.user", "") && error.errnum == EISDIR);
    TRY(!dconfdb_store_open("bad", NULL));
    DconfdbStore *store = dconfdb_store_open("writeless", &error);
    TRY(store && !dconfdb_store_user_file(store));
    TRY(!changes(store, sets_text("/k", "1")) && is_fault(DCONFDB_ERROR_NOT_WRITABLE, "/k", "") && error.edit == 0);
    TRY(!changes(store, (DconfdbEdit){"/", NULL, NULL, 0}) && error.code == DCONFDB_ERROR_NOT_WRITABLE);
    DconfdbSnapshot *now = dconfdb_store_snapshot(store);
    DconfdbValue value;
    TRY(has(now, "/org/desk/name", "desk") && !dconfdb_snapshot_is_writable(now, "/org/desk/name"));
    TRY(!dconfdb_snapshot_read_user(now, "/org/desk/name", &value));
    dconfdb_snapshot_unref(now);
    dconfdb_store_close(store);
    dconfdb_store_close(NULL);
}

/* The folder of the environment; one that isn't there is made by the first change. */
void tries_places(void)
{
    char here[4096], name[4200];
    TRY(getcwd(here, sizeof here));
    TRY(unsetenv("DCONFDB_STORE") == 0 && unsetenv("XDG_CONFIG_HOME") == 0 && unsetenv("HOME") == 0);
    TRY(!dconfdb_store_open(NULL, &error) && error.code == DCONFDB_ERROR_NO_FOLDER);
    TRY(!dconfdb_store_files(NULL, NULL, NULL));
    home = "relative";
    TRY(!dconfdb_store_open(NULL, &error) && error.code == DCONFDB_ERROR_NO_FOLDER);
    home = "/the system's";
    DconfdbStore *store = dconfdb_store_open(NULL, &error);
    TRY(store && strcmp(dconfdb_store_folder(store), "/the system's/.config/dconfdb") == 0);
    dconfdb_store_close(store);
    snprintf(name, sizeof name, "%s/home", here);
    TRY(setenv("HOME", name, 1) == 0);
    store = dconfdb_store_open(NULL, &error);
    TRY(store && strstr(dconfdb_store_folder(store), "/home/.config/dconfdb"));
    TRY(access("home", F_OK) != 0 && changes(store, sets_text("/first", "1")) && access("home/.config/dconfdb/user.user", R_OK) == 0);
    dconfdb_store_close(store);
    snprintf(name, sizeof name, "%s/xdg", here);
    TRY(setenv("XDG_CONFIG_HOME", name, 1) == 0 && (store = dconfdb_store_open(NULL, &error)) != NULL);
    TRY(strstr(dconfdb_store_folder(store), "/xdg/dconfdb"));
    dconfdb_store_close(store);
    TRY(setenv("DCONFDB_STORE", "store", 1) == 0 && (store = dconfdb_store_open(NULL, &error)) != NULL);
    TRY(chdir("/") == 0 && changes(store, sets_text("/second", "1")) && chdir(here) == 0);
    TRY(access("store/user.user", R_OK) == 0);
    dconfdb_store_close(store);
}

/* The profile that the environment names, of a store that it names too. */
static void opens_named(const char *name)
{
    TRY(setenv("DCONFDB_STORE", ".", 1) == 0 && setenv("DCONFDB_PROFILE", name, 1) == 0);
}

/* A store without a database, and what is said of its profile. */
static bool is_without_any(const char *what, int fault)
{
    DconfdbStore *store = dconfdb_store_open_lenient(NULL, &error);
    TRY(store && dconfdb_store_profile_fault(store, &error) && is_fault(DCONFDB_ERROR_FILE, what, "") && error.errnum == fault);
    DconfdbSnapshot *now = dconfdb_store_snapshot(store);
    bool is = dconfdb_snapshot_databases(now) == 0 && has(now, "/org/desk/name", NULL) && !dconfdb_store_user_file(store);
    TRY(!changes(store, sets_text("/k", "1")) && error.code == DCONFDB_ERROR_NOT_WRITABLE);
    dconfdb_snapshot_unref(now);
    dconfdb_store_close(store);
    return is;
}

/* A named profile comes before that of the folder, where the environment names the folder, too; where it can't be had nothing does. */
void tries_named_profiles(void)
{
    TRY(mkdir("named", 0700) == 0);
    makes_profile("named/kiosk", "user-db:kiosk\nsystem-db:site\n");
    makes_profile("named/bad", "oops\nuser-db:kiosk\n");
    opens_named("named/kiosk");
    DconfdbStore *store = dconfdb_store_open(NULL, &error);
    TRY(store && ends_in(dconfdb_store_user_file(store), "/kiosk.user") && ARE_FILES(NULL, "/named/kiosk", "/kiosk.user", "/site.db"));
    DconfdbSnapshot *now = dconfdb_store_snapshot(store);
    TRY(dconfdb_snapshot_databases(now) == 2 && has(now, "/org/desk/name", "desk") && has(now, "/far/key", NULL));
    dconfdb_snapshot_unref(now);
    dconfdb_store_close(store);
    TRY(ARE_FILES(".", "/profile", "/etc/dconfdb/profile", "/me.user", "/site.db", "/far.db"));
    opens_named("");
    TRY(ARE_FILES(NULL, "/profile", "/etc/dconfdb/profile", "/me.user", "/site.db", "/far.db"));
    opens_named("named/bad");
    TRY(!dconfdb_store_open(NULL, &error) && is_fault(DCONFDB_ERROR_BAD_LINE, "/named/bad:1:", ""));
    TRY(ARE_FILES(NULL, "/named/bad", "/kiosk.user"));
    opens_named("no-such");
    TRY(!dconfdb_store_open(NULL, &error) && is_fault(DCONFDB_ERROR_FILE, "/etc/dconfdb/profiles/no-such", "") && error.errnum == ENOENT);
    TRY(is_without_any("/etc/dconfdb/profiles/no-such", ENOENT) && ARE_FILES(NULL, "/etc/dconfdb/profiles/no-such"));
    opens_named("./named");
    TRY(!dconfdb_store_open(NULL, &error) && error.errnum == EISDIR && is_without_any("/./named", EISDIR));
    TRY(unsetenv("DCONFDB_PROFILE") == 0 && unsetenv("DCONFDB_STORE") == 0);
}

static bool is_refused(const char *profile, int fault)
{
    makes_profile("odd/profile", profile);
    return !dconfdb_store_open("odd", &error) && error.code == DCONFDB_ERROR_FILE && error.errnum == fault;
}

/* What is no regular file is neither read nor waited for. A link that leads nowhere is no file. */
void tries_odd_files(void)
{
    TRY(mkdir("odd", 0700) == 0 && mkfifo("odd/pipe", 0600) == 0 && mkfifo("odd/pipe.user", 0600) == 0);
    TRY(symlink("loop", "odd/loop") == 0 && symlink("/dev/zero", "odd/zero.user") == 0 && symlink("nothing", "odd/none.user") == 0);
    TRY(is_refused("file-db:pipe\n", EINVAL) && is_refused("user-db:pipe\n", EINVAL));
    TRY(is_refused("file-db:/dev/zero\n", EINVAL) && is_refused("user-db:zero\n", EINVAL));
    TRY(is_refused("file-db:.\n", EISDIR) && is_refused("file-db:loop\n", ELOOP));
    makes_profile("odd/profile", "user-db:none\n");
    DconfdbStore *store = dconfdb_store_open("odd", &error);
    TRY(store && changes(store, sets_text("/k", "1")) && access("odd/nothing", F_OK) != 0);
    dconfdb_store_close(store);
    /* A file or a profile that is too big is not read. */
    makes_profile("odd/big.user", "");
    makes_profile("odd/profile", "user-db:big\n");
    TRY(truncate("odd/big.user", 4294967296) == 0 && !dconfdb_store_open("odd", &error));
    TRY(is_fault(DCONFDB_ERROR_FILE_TOO_LARGE, "/odd/big.user", ""));
    TRY(truncate("odd/profile", 16777217) == 0 && !dconfdb_store_open("odd", &error));
    TRY(is_fault(DCONFDB_ERROR_FILE_TOO_LARGE, "/odd/profile", ""));
    TRY(unlink("odd/profile") == 0 && symlink("pipe", "odd/profile") == 0);
    TRY(!dconfdb_store_open("odd", &error) && is_fault(DCONFDB_ERROR_FILE, "/odd/profile", "") && error.errnum == EINVAL);
}

/* The folder is moved: then its databases are empty, and the next change makes another one. */
void tries_moving(void)
{
    TRY(mkdir("here", 0700) == 0);
    makes_profile("here/profile", "user-db:me\n");
    DconfdbStore *store = dconfdb_store_open("here", &error);
    TRY(store && changes(store, sets_text("/old", "1")) && rename("here", "there") == 0);
    DconfdbSnapshot *now = dconfdb_store_snapshot(store);
    TRY(is_renewed(store) && changes(store, sets_text("/new", "2")));
    dconfdb_snapshot_unref(now);
    now = dconfdb_store_snapshot(store);
    TRY(has(now, "/old", NULL) && has(now, "/new", "2"));
    dconfdb_snapshot_unref(now);
    dconfdb_store_close(store);
    store = dconfdb_store_open("there", &error);
    now = store ? dconfdb_store_snapshot(store) : NULL;
    TRY(now && has(now, "/old", "1") && has(now, "/new", NULL));
    dconfdb_snapshot_unref(now);
    dconfdb_store_close(store);
}
