/* Of lenient.c: bad files of a site, each bad thing in the place of each file, and bad profiles. */
#include "lenient.h"

#include <errno.h>
#include <sys/stat.h>
#include <unistd.h>

/* ---- a site's bad file */

/* `/` and no more, as dconf writes it; and with locks of /a/b and /c/: the kind of `/` and its contents are what memory
 * held. */
static const uint8_t of_nothing[] = {
    71, 86, 97, 114, 105, 97, 110, 116, 0, 0, 0, 0, 0, 0, 0, 0, 24, 0, 0, 0, 60, 0, 0, 0,
    0, 0, 0, 40, 1, 0, 0, 0, 0, 0, 0, 0, 212, 181, 2, 0, 255, 255, 255, 255, 60, 0, 0, 0,
    1, 0, 0, 0, 0, 0, 0, 0, 0, 0, 0, 0, 47,
};
static const uint8_t of_locks[] = {
    71, 86, 97, 114, 105, 97, 110, 116, 0, 0, 0, 0, 0, 0, 0, 0, 24, 0, 0, 0, 88, 0, 0, 0,
    0, 0, 0, 40, 2, 0, 0, 0, 0, 0, 0, 0, 1, 0, 0, 0, 212, 181, 2, 0, 255, 255, 255, 255,
    88, 0, 0, 0, 1, 0, 237, 0, 155, 127, 255, 113, 234, 236, 126, 15, 143, 57, 13, 123, 255, 255, 255, 255,
    89, 0, 0, 0, 6, 0, 72, 0, 96, 0, 0, 0, 160, 0, 0, 0, 47, 46, 108, 111, 99, 107, 115, 0,
    0, 0, 0, 40, 2, 0, 0, 0, 0, 0, 0, 0, 2, 0, 0, 0, 102, 120, 120, 124, 255, 255, 255, 255,
    160, 0, 0, 0, 4, 0, 118, 0, 168, 0, 0, 0, 171, 0, 0, 0, 198, 135, 135, 11, 255, 255, 255, 255,
    171, 0, 0, 0, 3, 0, 118, 0, 176, 0, 0, 0, 179, 0, 0, 0, 47, 97, 47, 98, 0, 0, 0, 0,
    0, 0, 115, 47, 99, 47, 0, 0, 0, 0, 115,
};

void tries_bad_sites(void)
{
    static Bytes whole;
    reads("site.db", &whole);
    /* Without its last values it has its locks. */
    writes("site.db", whole.bytes, whole.len - 16);
    DconfdbStore *store = opens();
    TRY(has_fault(store, 1, "/site.db: ", "2 locks") && locks(store, "/org/desk/size") && locks(store, "/shut/k"));
    TRY(!changes(store, sets_text("/org/desk/size", "1")) && error.code == DCONFDB_ERROR_LOCKED);
    TRY(changes(store, sets_text("/k", "mine")) && sees(store, "/k", "mine") && sees(store, "/far/key", "far"));
    TRY(holds("site.db", whole.bytes, whole.len - 16) && access("site.db~1", F_OK) != 0);
    writes("site.db", "noise", 5);
    TRY(dconfdb_store_refresh(store, NULL, &error) && has_fault(store, 1, "header", "kept nothing") && sees(store, "/k", "mine"));
    TRY(!locks(store, "/org/desk/size") && changes(store, sets_text("/k", "again")));
    writes("site.db", of_locks, sizeof of_locks);
    TRY(dconfdb_store_refresh(store, NULL, &error) && has_fault(store, 1, NULL, NULL) && locks(store, "/a/b") && locks(store, "/c/d"));
    TRY(!locks(store, "/a/c") && !changes(store, sets_text("/a/b", "1")) && error.code == DCONFDB_ERROR_LOCKED);
    writes("site.db", of_nothing, sizeof of_nothing);
    TRY(dconfdb_store_refresh(store, NULL, &error) && has_fault(store, 1, NULL, NULL) && !locks(store, "/a/b"));
    dconfdb_store_close(store);
    TRY(!dconfdb_store_open(".", &error) && error.code == DCONFDB_ERROR_UNSOUND);
    /* The same file with a key more in its header's table is none of dconf's. */
    writes("site.db", of_locks, sizeof of_locks - 60);
    store = opens();
    TRY(has_fault(store, 1, "/site.db: ", ""));
    dconfdb_store_close(store);
    writes("site.db", whole.bytes, whole.len);
    TRY(unlink("me.user") == 0);
    tried += 5;
}

/* ---- each bad thing in the place of each file */

typedef enum { EMPTY, NOISE, A_FOLDER, A_PIPE, CLOSED, TO_NOTHING, THINGS } Thing;

/* What a change does where such a thing has the file's place. */
static const struct {
    const char *file;
    bool is_made[THINGS];
} PLACES[] = {
    {"me.user", {true, true, true, true, true, true}},
    {"me.user.new", {true, true, true, true, true, true}},
    {"me.user~1", {true, true, true, true, true, true}},
    {"site.db", {true, true, true, true, true, true}},
    /* Without a line that says so there is no user's database; a profile that can't be read, or isn't there, is that of all users. */
    {"profile", {false, false, true, true, true, true}},
    /* What is no file, and what may not be opened, is nobody's turn. */
    {".lock", {true, true, false, false, false, false}},
};

static void puts_there(const char *file, Thing thing)
{
    static const char noise[] = "no database, but long enough to have a header of one, and more";
    unlink(file);
    if (thing == EMPTY || thing == NOISE || thing == CLOSED)
        writes(file, noise, thing == EMPTY ? 0 : sizeof noise);
    TRY(thing != A_FOLDER || mkdir(file, 0700) == 0);
    TRY(thing != A_PIPE || mkfifo(file, 0600) == 0);
    TRY(thing != CLOSED || chmod(file, 0) == 0);
    TRY(thing != TO_NOTHING || symlink("nothing", file) == 0);
}

/* The rest of the store is read, and a change is made or refused; of what no store is of, the user's other file is another's. */
static void tries_in_place(size_t place, Thing thing)
{
    const char *file = PLACES[place].file;
    bool is_of_all = strcmp(file, "profile") == 0, is_made = PLACES[place].is_made[thing];
    DconfdbStore *store = opens();
    TRY(changes(store, sets_text("/before", "1")));
    dconfdb_store_close(store);
    if (strcmp(file, "me.user~1") == 0)
        puts_there("me.user", NOISE);
    puts_there(file, thing);
    store = opens();
    TRY(is_of_all || sees(store, "/far/key", "far"));
    TRY(changes(store, sets_text("/new", "1")) == is_made && sees(store, "/new", is_made ? "1" : NULL));
    TRY(is_made || error.code == DCONFDB_ERROR_FILE || error.code == DCONFDB_ERROR_NOT_WRITABLE);
    dconfdb_store_close(store);
    TRY(access("nothing", F_OK) != 0 || (strcmp(file, "me.user") != 0 && unlink("nothing") == 0));
    tried++;
}

/* Whatever is left of them. */
static void removes_all(void)
{
    static const char *const names[] = {"me.user", "me.user~1", "me.user~2", "me.user.new", "me.user.new~1", "user.user", ".lock"};
    for (size_t i = 0; i < sizeof names / sizeof names[0]; i++)
        TRY(unlink(names[i]) == 0 || errno == ENOENT || rmdir(names[i]) == 0);
}

void tries_places(void)
{
    static Bytes site, profile;
    reads("site.db", &site);
    reads("profile", &profile);
    for (size_t place = 0; place < sizeof PLACES / sizeof PLACES[0]; place++) {
        for (Thing thing = EMPTY; thing < THINGS; thing++) {
            tries_in_place(place, thing);
            removes_all();
            TRY(unlink("site.db") == 0 || rmdir("site.db") == 0);
            TRY(unlink("profile") == 0 || rmdir("profile") == 0);
            writes("site.db", site.bytes, site.len);
            writes("profile", profile.bytes, profile.len);
        }
    }
}

/* ---- the profile */

static void tries_profile(const char *text, DconfdbErrorCode code, size_t line, size_t count)
{
    writes("profile", text, strlen(text));
    DconfdbStore *store = opens();
    DconfdbSnapshot *now = dconfdb_store_snapshot(store);
    bool is = dconfdb_store_profile_fault(store, &error), too = dconfdb_store_profile_fault(store, NULL);
    TRY(is == (code != 0) && too == is && (!is || (error.code == code && error.line == line)));
    /* A strict store says the same. */
    DconfdbStore *as_well = dconfdb_store_open(".", &error);
    TRY(dconfdb_snapshot_databases(now) == count && (as_well != NULL) == (code == 0) && (as_well || (error.code == code && error.line == line)));
    dconfdb_store_close(as_well);
    TRY(locks(store, "/org/desk/size") && dconfdb_snapshot_is_writable(now, "/k"));
    dconfdb_snapshot_unref(now);
    dconfdb_store_close(store);
    tried++;
}

void tries_profiles(void)
{
    static Bytes whole;
    reads("profile", &whole);
    tries_profile("user-db:me\nsystem-db:site\n", 0, 0, 2);
    tries_profile("user-db:me\nnonsense\nsystem-db:site\n", DCONFDB_ERROR_BAD_LINE, 2, 2);
    tries_profile("service-db:keyfile/user\nuser-db:me\nsystem-db:site", DCONFDB_ERROR_SERVICE_DB, 1, 2);
    tries_profile("user-db:me\nuser-db:you\nsystem-db:site\nmore\n", DCONFDB_ERROR_USER_NOT_FIRST, 2, 2);
    tries_profile("# \xe9\nuser-db:me\nsystem-db:site\n", DCONFDB_ERROR_NOT_TEXT, 1, 2);
    TRY(unlink("profile") == 0 && mkdir("profile", 0700) == 0);
    DconfdbStore *store = opens();
    TRY(dconfdb_store_profile_fault(store, &error) && error.errnum == EISDIR && strstr(error.text, "/profile: "));
    dconfdb_store_close(store);
    TRY(rmdir("profile") == 0);
    writes("profile", whole.bytes, whole.len);
}
