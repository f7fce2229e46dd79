/* Tries bad files in a lenient store, and changes that change nothing: lenient FOLDER, as calls.c has it.
 * It says how many files it tried. */
#define _GNU_SOURCE
#include "lenient.h"

#include <errno.h>
#include <fcntl.h>
#include <linux/capability.h>
#include <stdint.h>
#include <sys/stat.h>
#include <sys/syscall.h>
#include <unistd.h>

DconfdbError error = DCONFDB_ERROR_INIT;
static char *const home = NULL;
size_t tried;

SYSTEMS_HOME(home)

bool changes(DconfdbStore *store, DconfdbEdit edit)
{
    return dconfdb_store_change(store, NULL, &edit, 1, &error);
}

void writes(const char *name, const void *bytes, size_t len)
{
    FILE *file = fopen(name, "w");
    TRY(file && fwrite(bytes, 1, len, file) == len && fclose(file) == 0);
}

void reads(const char *name, Bytes *bytes)
{
    FILE *file = fopen(name, "r");
    TRY(file);
    bytes->len = fread(bytes->bytes, 1, sizeof bytes->bytes, file);
    TRY(fclose(file) == 0);
}

bool holds(const char *name, const void *wanted, size_t len)
{
    static Bytes bytes;
    reads(name, &bytes);
    return bytes.len == len && memcmp(bytes.bytes, wanted, len) == 0;
}

DconfdbStore *opens(void)
{
    DconfdbStore *store = dconfdb_store_open_lenient(".", &error);
    if (!store)
        fprintf(stderr, "%s\n", error.text);
    TRY(store);
    return store;
}

/* Whether a database has a fault whose text has these words; no words: none. */
bool has_fault(DconfdbStore *store, size_t database, const char *words, const char *also)
{
    DconfdbSnapshot *now = dconfdb_store_snapshot(store);
    bool has = dconfdb_snapshot_fault(now, database, &error), as_well = dconfdb_snapshot_fault(now, database, NULL);
    bool is = has == as_well && has == (words != NULL) && (!words || (strstr(error.text, words) && strstr(error.text, also)));
    if (!is)
        fprintf(stderr, "database %zu, %d: %s\n", database, has, has ? error.text : "no fault");
    dconfdb_snapshot_unref(now);
    return is;
}

/* Whether a string is seen; no string: nothing. */
bool sees(DconfdbStore *store, const char *path, const char *text)
{
    DconfdbSnapshot *now = dconfdb_store_snapshot(store);
    bool is = has(now, path, text);
    dconfdb_snapshot_unref(now);
    return is;
}

bool locks(DconfdbStore *store, const char *path)
{
    DconfdbSnapshot *now = dconfdb_store_snapshot(store);
    bool is = dconfdb_snapshot_is_locked(now, path);
    dconfdb_snapshot_unref(now);
    return is;
}

/* ---- changes that change nothing */

typedef struct {
    ino_t inode;
    struct timespec written;
} Mark;

static Mark mark_of(const char *name)
{
    struct stat found;
    TRY(stat(name, &found) == 0);
    return (Mark){found.st_ino, found.st_mtim};
}

static bool stays(const char *name, Mark mark)
{
    Mark now = mark_of(name);
    return now.inode == mark.inode && now.written.tv_sec == mark.written.tv_sec && now.written.tv_nsec == mark.written.tv_nsec;
}

static bool has_edit(DconfdbStore *store, DconfdbEdit edit)
{
    DconfdbSnapshot *now = dconfdb_store_snapshot(store);
    bool has = dconfdb_snapshot_has_edit(now, &edit);
    dconfdb_snapshot_unref(now);
    return has;
}

static bool is_newest(DconfdbStore *store)
{
    DconfdbSnapshot *now = dconfdb_store_snapshot(store);
    bool is = dconfdb_snapshot_is_newest(now);
    dconfdb_snapshot_unref(now);
    return is;
}

static void tries_what_is_there(void)
{
    static const char pair[] = "\1\0\0\0\0\0\0\0\5\0\0\0\0\0\0\0", other[] = "\1\7\7\7\7\7\7\7\5\0\0\0\0\0\0\0";
    DconfdbEdit reset = {"/none", NULL, NULL, 0}, below = {"/none/", NULL, NULL, 0}, root = {"/", NULL, NULL, 0};
    DconfdbStore *store = opens(), *second = opens();
    /* No file is made where there is none, nor a folder. */
    TRY(changes(store, reset) && changes(store, below) && changes(store, root) && access("me.user", F_OK) != 0);
    TRY(!changes(store, (DconfdbEdit){"none", NULL, NULL, 0}) && error.code == DCONFDB_ERROR_BAD_PATH);
    TRY(!changes(store, (DconfdbEdit){"/org/desk/size", NULL, NULL, 0}) && error.code == DCONFDB_ERROR_LOCKED);
    DconfdbEdit all[] = {sets_text("/k", "1"), {"/pair", "(bt)", pair, 16}};
    TRY(!has_edit(store, all[0]) && dconfdb_store_change(store, NULL, all, 2, &error) && has_edit(store, all[0]) && is_newest(store));
    Mark mark = mark_of("me.user");
    TRY(dconfdb_store_change(store, NULL, all, 2, &error) && changes(store, reset) && changes(store, below) && stays("me.user", mark));
    /* The same value in bytes that aren't in normal form. */
    all[1].data = other;
    TRY(!changes(store, all[1]) && error.code == DCONFDB_ERROR_BAD_VALUE && has_edit(store, all[1]) && stays("me.user", mark));
    all[1].data = pair;
    /* Edits that cancel each other out. */
    DconfdbEdit undone[] = {sets_text("/none", "1"), sets_text("/k", "2"), sets_text("/k", "1"), reset};
    TRY(dconfdb_store_change(store, NULL, undone, 4, &error) && stays("me.user", mark) && !has_edit(store, undone[0]));
    /* A refusal is one also where another edit changes nothing. */
    DconfdbEdit locked[] = {sets_text("/k", "1"), sets_text("/org/desk/size", "1")};
    TRY(!dconfdb_store_change(store, NULL, locked, 2, &error) && error.code == DCONFDB_ERROR_LOCKED && error.edit == 1);
    TRY(has_edit(store, reset) && has_edit(store, below) && !has_edit(store, root) && !has_edit(store, sets_text("/k", "2")));
    TRY(!has_edit(store, (DconfdbEdit){"/k", "o", "1", 2}) && stays("me.user", mark));
    /* What another changed meanwhile is not there any longer. */
    TRY(changes(second, sets_text("/k", "2")) && has_edit(store, all[0]) && !is_newest(store));
    TRY(changes(store, all[0]) && sees(store, "/k", "1") && is_newest(store) && !is_newest(second));
    dconfdb_store_close(second);
    dconfdb_store_close(store);
    TRY(unlink("me.user") == 0 && mkdir("other", 0700) == 0 && rmdir("other") == 0);
    store = dconfdb_store_open("other", &error);
    TRY(store && changes(store, reset) && access("other", F_OK) != 0 && changes(store, sets_text("/k", "1")));
    dconfdb_store_close(store);
}

/* ---- a bad user's file */

/* The other layers stand, and the first change begins a new file; what there was stays aside. */
static void tries_it(const char *words, const char *also, bool is_file)
{
    static Bytes bad;
    struct stat found, aside;
    if (is_file)
        reads("me.user", &bad);
    TRY(lstat("me.user", &found) == 0);
    TRY(!dconfdb_store_open(".", &error));
    DconfdbStore *store = opens();
    TRY(has_fault(store, 0, words, also) && has_fault(store, 1, NULL, NULL));
    TRY(sees(store, "/org/desk/name", "desk") && locks(store, "/org/desk/size") && sees(store, "/far/key", "far"));
    TRY(dconfdb_store_refresh(store, NULL, &error) && has_fault(store, 0, words, also));
    TRY(!changes(store, sets_text("/org/desk/size", "1")) && error.code == DCONFDB_ERROR_LOCKED);
    TRY(changes(store, (DconfdbEdit){"/not/there", NULL, NULL, 0}) && access("me.user~1", F_OK) != 0);
    TRY(changes(store, sets_text("/new", "1")) && sees(store, "/new", "1") && has_fault(store, 0, words, "it is now me.user~1"));
    TRY(lstat("me.user~1", &aside) == 0 && aside.st_ino == found.st_ino && (!is_file || holds("me.user~1", bad.bytes, bad.len)));
    TRY(access("me.user~2", F_OK) != 0 && access("me.user.new", F_OK) != 0);
    TRY(dconfdb_store_refresh(store, NULL, &error) && changes(store, sets_text("/new", "2")) && has_fault(store, 0, NULL, NULL));
    dconfdb_store_close(store);
    store = dconfdb_store_open(".", &error);
    TRY(store && sees(store, "/new", "2") && stat("me.user", &found) == 0 && S_ISREG(found.st_mode) && (found.st_mode & 0600) == 0600);
    dconfdb_store_close(store);
    TRY(unlink("me.user") == 0 && (unlink("me.user~1") == 0 || rmdir("me.user~1") == 0));
    tried++;
}

enum { KEYS = 20 };

static const char *path_of(int key)
{
    static char path[32];
    snprintf(path, sizeof path, "/key%d", key);
    return path;
}

static const char *value_of(int key)
{
    static char text[64];
    snprintf(text, sizeof text, "a value of some length, of key %d", key);
    return text;
}

/* What a lenient store reads of a cut file is in the file after a change. It says how many values. */
static size_t keeps_what_it_reads(void)
{
    size_t count = 0;
    DconfdbValue value;
    DconfdbStore *store = opens();
    DconfdbSnapshot *cut = dconfdb_store_snapshot(store);
    TRY(changes(store, sets_text("/new", "1")) && sees(store, "/org/desk/name", "desk") && locks(store, "/shut/k"));
    for (int key = 0; key < KEYS; key++) {
        bool is = dconfdb_snapshot_read(cut, path_of(key), &value);
        TRY(sees(store, path_of(key), is ? value_of(key) : NULL));
        count += is;
    }
    dconfdb_snapshot_unref(cut);
    dconfdb_store_close(store);
    TRY(unlink("me.user") == 0 && unlink("me.user~1") == 0);
    return count;
}

/* Cut at each multiple of 100 bytes. */
static void tries_cut_files(void)
{
    static Bytes whole;
    size_t kept = 0;
    DconfdbStore *store = opens();
    for (int key = 0; key < KEYS; key++)
        TRY(changes(store, sets_text(path_of(key), value_of(key))));
    dconfdb_store_close(store);
    reads("me.user", &whole);
    for (size_t len = 0; len < whole.len; len += 100) {
        writes("me.user", whole.bytes, len);
        kept += keeps_what_it_reads();
        writes("me.user", whole.bytes, len);
        tries_it("/me.user: ", "", true);
    }
    TRY(kept > KEYS);
}

static void tries_odd_files(void)
{
    static const char noise[] = "no database, but long enough to have a header of one, and more";
    writes("me.user", "", 0);
    tries_it("shorter than a database's header", "kept nothing of it", true);
    writes("me.user", noise, sizeof noise);
    tries_it("does not start as a database does", "kept nothing of it", true);
    TRY(mkfifo("me.user", 0644) == 0);
    tries_it("Invalid argument", "kept nothing of it", false);
    TRY(mkdir("me.user", 0755) == 0);
    tries_it("Is a directory", "kept nothing of it", false);
    TRY(symlink("me.user", "me.user") == 0);
    tries_it("symbolic links", "kept nothing of it", false);
    writes("me.user", "", 0);
    TRY(truncate("me.user", 4294967296) == 0);
    tries_it("the file is too big", "kept nothing of it", false);
}

/* Root reads what its capabilities let it, and no more than others without them. */
static void leaves_rights(void)
{
    struct __user_cap_header_struct head = {_LINUX_CAPABILITY_VERSION_3, 0};
    struct __user_cap_data_struct rights[2] = {{0, 0, 0}, {0, 0, 0}};
    TRY(syscall(SYS_capset, &head, rights) == 0);
}

static bool has_news(DconfdbStore *store)
{
    bool changed = false;
    TRY(dconfdb_store_refresh(store, &changed, &error));
    return changed;
}

/* A site's file is read no longer, once it may not be, and again once it may. Other bits are no news, nor is another time. */
static void tries_file_that_is_closed(void)
{
    DconfdbStore *store = opens(), *strict = dconfdb_store_open(".", &error);
    TRY(strict && chmod("site.db", 0640) == 0 && !has_news(store) && utimensat(AT_FDCWD, "site.db", NULL, 0) == 0 && !has_news(store));
    TRY(chmod("site.db", 0) == 0 && has_news(store) && has_fault(store, 1, "Permission denied", "kept nothing of it") && !has_news(store));
    TRY(!dconfdb_store_refresh(strict, NULL, &error) && error.errnum == EACCES);
    TRY(chmod("site.db", 0644) == 0 && has_news(store) && has_fault(store, 1, NULL, NULL) && !has_news(store));
    TRY(dconfdb_store_refresh(strict, NULL, &error));
    dconfdb_store_close(strict);
    dconfdb_store_close(store);
}

static void tries_closed_files(void)
{
    tries_file_that_is_closed();
    writes("me.user", "", 0);
    TRY(chmod("me.user", 0) == 0);
    DconfdbStore *store = opens();
    TRY(has_fault(store, 0, "Permission denied", "kept nothing of it"));
    /* It is read as soon as it may be, though nothing was written. */
    TRY(chmod("me.user", 0600) == 0 && dconfdb_store_refresh(store, NULL, &error) && has_fault(store, 0, "header", ""));
    dconfdb_store_close(store);
    TRY(chmod("me.user", 0) == 0);
    tries_it("Permission denied", "kept nothing of it", false);
}

/* A name that is taken is passed over, and a file that is mended meanwhile is no bad one. */
static void tries_names(void)
{
    static Bytes good;
    writes("me.user~1", "x", 1);
    writes("me.user", "", 0);
    DconfdbStore *store = opens();
    TRY(changes(store, sets_text("/new", "1")) && has_fault(store, 0, "", "it is now me.user~2") && holds("me.user~1", "x", 1));
    reads("me.user", &good);
    writes("me.user", "", 0);
    TRY(dconfdb_store_refresh(store, NULL, &error) && has_fault(store, 0, "header", "") && sees(store, "/new", NULL));
    writes("me.user", good.bytes, good.len);
    TRY(changes(store, sets_text("/more", "1")) && sees(store, "/new", "1") && has_fault(store, 0, NULL, NULL));
    TRY(access("me.user~3", F_OK) != 0 && unlink("me.user~1") == 0 && unlink("me.user~2") == 0 && unlink("me.user") == 0);
    dconfdb_store_close(store);
}

int main(int argc, char **argv)
{
    TRY(argc == 2 && chdir(argv[1]) == 0);
    tries_what_is_there();
    tries_cut_files();
    tries_odd_files();
    tries_names();
    tries_bad_sites();
    tries_profiles();
    leaves_rights();
    tries_closed_files();
    tries_places();
    printf("%zu bad files and profiles\n", tried);
    return 0;
}
