/* service/stores.c: the stores that may have a database, and who writes it. Each store that is opened is handed out or closed. */
#include "service/stores.c"
#include "glib_world.h"
#include "machines/served.h"
#include "world.h"

#include <stdlib.h>

/* narrows libdconfdb/dconfdb.h: char text[512]; => char text[8]; */

static Service service;
static char alone, profiles, a_snapshot; /* stand for stores, and a snapshot */
static bool is_alone_open, is_profile_open, has_snapshot, is_alone_opened;
static Writer *kept;

Profiles profiles_now(const char *names, int count)
{
    CHECK(names == service.files && count == service.profiles, "step: the files that may be the profile");
    CHECK(!is_alone_opened, "order: they are looked at before one is read");
    return (Profiles){.asked = 1};
}

static bool is_open_now(const DconfdbStore *store)
{
    return (const char *)store == &alone ? is_alone_open : (const char *)store == &profiles && is_profile_open;
}

/* The first one that is opened has the database alone, by a profile of its own. */
DconfdbStore *place_open(const StorePlace *place, uint32_t who, DconfdbError *error)
{
    CHECK(who == DCONFDB_WATCHER_SERVICE, "step: the service opens");
    bool is_first = place != &service.place;
    CHECK(is_first != is_alone_opened, "step: the store of the database alone, and then the profile's");
    CHECK(!is_first || __CPROVER_r_ok(place->profile, 1), "memory: the profile's name is there");
    is_alone_opened = true;
    bool is = any_bool();
    *(is_first ? &is_alone_open : &is_profile_open) = is;
    if (!is)
        error->code = DCONFDB_ERROR_FILE;
    return !is ? NULL : (DconfdbStore *)(is_first ? &alone : &profiles);
}

void dconfdb_store_close(DconfdbStore *store)
{
    if (!store)
        return;
    CHECK(is_open_now(store), "memory: what is closed is open");
    CHECK(!has_snapshot, "order: what is handed out is given back first");
    *((char *)store == &alone ? &is_alone_open : &is_profile_open) = false;
}

const char *dconfdb_store_user_file(const DconfdbStore *store)
{
    CHECK(is_open_now(store), "memory: a store that is open");
    return any_bool() ? NULL : any_bool() ? "/f/a" : "/f/b";
}

DconfdbSnapshot *dconfdb_store_snapshot(DconfdbStore *store)
{
    CHECK(is_open_now(store) && !has_snapshot, "memory: a store that is open");
    has_snapshot = true;
    return (DconfdbSnapshot *)(void *)&a_snapshot;
}

void dconfdb_snapshot_unref(DconfdbSnapshot *snapshot)
{
    CHECK(has_snapshot && (char *)(void *)snapshot == &a_snapshot, "memory: what is given back is had");
    has_snapshot = false;
}

static bool is_profile_read, is_to_be_written; /* the file that is to be the profile of one alone */

uint32_t dconfdb_served_after(uint32_t done, const DconfdbServed *known)
{
    if (done == DCONFDB_SERVED_PROFILE) {
        CHECK(!is_alone_opened, "order: the profile is there before a store is opened by it");
        CHECK(is_profile_read || !known->has_profile, "answer: what can't be read says nothing");
        is_to_be_written = !known->has_profile;
        return served_given(done, known);
    }
    CHECK(done == DCONFDB_SERVED_OPENED && known->is_open == is_alone_open && known->is_profile_open == is_profile_open, "answer: which stores are open");
    return served_given(done, known);
}

uint32_t dconfdb_served_folder(bool is_places, bool is_runtime)
{
    CHECK(!is_alone_opened, "order: where the profile is, is known before a store is opened by it");
    CHECK(!is_places || service.place.runtime, "answer: a folder that there is");
    return folder_given(is_places, is_runtime);
}

/* ---- files */

bool refuse_file(DconfdbError *error, int fault, const char *name, Place place)
{
    (void)fault, (void)place;
    CHECK(__CPROVER_r_ok(name, 1), "memory: a name that is there");
    error->code = DCONFDB_ERROR_FILE;
    return false;
}

const char *g_get_user_runtime_dir(void) { return any_bool() ? "/r" : "r"; }
const char *g_get_user_cache_dir(void) { return "/r"; }
gboolean g_path_is_absolute(const char *path) { return path[0] == '/'; }

gboolean g_file_get_contents(const char *name, char **text, gsize *len, GError **error)
{
    (void)len, (void)error;
    CHECK(__CPROVER_r_ok(name, 1), "memory: a name that is there");
    if (any_bool())
        return FALSE;
    *text = g_strdup("t");
    is_profile_read = true;
    return TRUE;
}

gint g_mkdir_with_parents(const char *name, gint mode)
{
    CHECK(__CPROVER_r_ok(name, 1) && mode == 0700, "step: a folder of the user's own");
    return any_bool() ? 0 : -1;
}

gboolean g_file_set_contents(const char *name, const char *text, gssize len, GError **error)
{
    CHECK(__CPROVER_r_ok(name, 1) && __CPROVER_r_ok(text, 1) && len == -1, "memory: a text that is there");
    CHECK(is_to_be_written, "step: a profile that is good stays as it is");
    if (any_bool())
        return TRUE;
    *error = g_malloc(sizeof **error);
    **error = (GError){1, "e"};
    return FALSE;
}

void g_error_free(GError *error) { free(error); }

/* ---- who watches, and who is kept by the name */

Watch *watch_new(uint32_t who)
{
    CHECK(who == DCONFDB_WATCHER_SERVICE, "step: the service watches");
    return malloc(1);
}

void watch_free(Watch *watch) { free(watch); }

void writer_watch(Writer *writer)
{
    CHECK(kept == writer, "order: who watches is known by its name");
}

gpointer g_hash_table_lookup(GHashTable *table, gconstpointer key)
{
    CHECK(table == service.writers && __CPROVER_r_ok(key, 1), "memory: a name that is there");
    return kept;
}

gboolean g_hash_table_insert(GHashTable *table, gpointer key, gpointer value)
{
    kept = value;
    CHECK(table == service.writers && key == kept->name, "memory: the name is there as long as who has it");
    CHECK(is_held(&service.lock), "order: GDBus's own thread looks for none meanwhile");
    return TRUE;
}

void warned_end(Warned *warned) { CHECK(warned == &kept->warned, "memory: what was said goes with who said it"); }
gboolean g_source_remove(guint source) { return source > 0; }

/* harness service_store: unwind 24, with glib.c, quick */
int service_store(void)
{
    DconfdbError error = DCONFDB_ERROR_INIT;
    DconfdbStore *store = store_named(&service, "a", &error);
    CHECK(is_alone_open == ((char *)store == &alone) && is_profile_open == ((char *)store == &profiles), "memory: what isn't handed out is closed");
    CHECK(store || error.code != DCONFDB_ERROR_NONE, "answer: why there is none is told");
    if ((char *)store == &profiles)
        REACHED("the profile's");
    if ((char *)store == &alone)
        REACHED("one by itself");
    if (store)
        dconfdb_store_close(store);
    return 0;
}

/* What inotify is heard by, once it was had. */
static int ears = -1;

int epoll_create1(int flags)
{
    CHECK(flags == EPOLL_CLOEXEC && ears < 0, "descriptor: it is closed by exec, and had once");
    ears = any_bool() ? 9 : -1;
    return ears;
}

int close(int file)
{
    CHECK(file >= 0 && file == ears, "descriptor: what is closed is had");
    ears = -1;
    return 0;
}

/* harness service_writer: unwind 24, with glib.c, quick */
int service_writer(void)
{
    DconfdbError error = DCONFDB_ERROR_INIT;
    Writer *writer = writer_named(&service, "a", &error);
    CHECK(writer == kept && (!writer || (is_open_now(writer->store) && has_snapshot)), "answer: who writes is kept, with a store that is open");
    CHECK(!writer || writer->seen.asked == 1, "answer: by which profiles it was opened is known");
    CHECK(writer || !(is_alone_open || is_profile_open), "memory: what isn't handed out is closed");
    if (!writer)
        return 0;
    CHECK(writer_named(&service, "a", &error) == writer && service.names == 1, "step: a name is one's, and counts once");
    writer_free(writer);
    CHECK(!is_alone_open && !is_profile_open && !has_snapshot && ears < 0, "memory: all is given back");
    REACHED("it goes");
    return 0;
}
