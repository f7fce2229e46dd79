/* A user's database by its name, as the bus has it: which store it is of, and who is told of it. */
#include "errors.h"
#include "service.h"

#include <errno.h>
#include <string.h>
#include <sys/epoll.h>
#include <unistd.h>

/* ---- where it is */

static bool has_line(const char *path, const char *line)
{
    g_autofree char *text = NULL;
    return g_file_get_contents(path, &text, NULL, NULL) && strcmp(text, line) == 0;
}

static bool is_absolute(const char *folder)
{
    return folder && g_path_is_absolute(folder);
}

/* The user's runtime folder, or what stands for it. */
static const char *runtime_of(const Service *service)
{
    switch (dconfdb_served_folder(is_absolute(service->place.runtime), is_absolute(g_get_user_runtime_dir()))) {
    case DCONFDB_FOLDER_OF_PLACE: return service->place.runtime;
    case DCONFDB_FOLDER_RUNTIME: return g_get_user_runtime_dir();
    default: return g_get_user_cache_dir();
    }
}

/* Writes it, and makes its folder. False: it can't be, which is told. */
static bool write_profile(const char *folder, const char *path, const char *line, DconfdbError *error)
{
    g_autoptr(GError) fault = NULL;
    if (g_mkdir_with_parents(folder, 0700) != 0)
        return refuse_file(error, errno, folder, nowhere);
    if (g_file_set_contents(path, line, -1, &fault))
        return true;
    error->code = DCONFDB_ERROR_FILE;
    g_strlcpy(error->text, fault->message, sizeof error->text);
    return false;
}

/* A profile of one line, in a file of the user's own, since a store is of a profile that is a file. It is watched, and stays as it is. */
static char *profile_of_name(const Service *service, const char *name, DconfdbError *error)
{
    g_autofree char *folder = g_build_filename(runtime_of(service), "dconfdb", "service", NULL);
    g_autofree char *line = g_strdup_printf("user-db:%s\n", name);
    g_autofree char *path = g_build_filename(folder, name, NULL);
    const DconfdbServed known = {.has_profile = has_line(path, line)};
    bool stays = dconfdb_served_after(DCONFDB_SERVED_PROFILE, &known) == DCONFDB_SERVED_PASSED;
    return stays || write_profile(folder, path, line, error) ? g_steal_pointer(&path) : NULL;
}

/* The store that has this database alone, whatever the profile is. */
static DconfdbStore *open_alone(const Service *service, const char *name, DconfdbError *error)
{
    g_autofree char *profile = profile_of_name(service, name, error);
    StorePlace place = service->place;
    place.profile = profile;
    return profile ? place_open(&place, DCONFDB_WATCHER_SERVICE, error) : NULL;
}

static bool has_same_file(const DconfdbStore *one, const DconfdbStore *other)
{
    const char *file = dconfdb_store_user_file(one), *others = dconfdb_store_user_file(other);
    return file && others && strcmp(file, others) == 0;
}

/* The one of both that has the database; the others are closed. */
static DconfdbStore *keep(DconfdbStore *kept, DconfdbStore *one, DconfdbStore *other)
{
    if (one != kept)
        dconfdb_store_close(one);
    if (other != kept)
        dconfdb_store_close(other);
    return kept;
}

Profiles service_profiles(const Service *service)
{
    return profiles_now(service->files, service->profiles);
}

DconfdbStore *store_named(const Service *service, const char *name, DconfdbError *error)
{
    DconfdbStore *alone = open_alone(service, name, error);
    DconfdbStore *profiles = alone ? place_open(&service->place, DCONFDB_WATCHER_SERVICE, error) : NULL;
    const DconfdbServed known = {.is_open = alone, .is_profile_open = profiles, .has_same_file = profiles && has_same_file(profiles, alone)};
    switch (dconfdb_served_after(DCONFDB_SERVED_OPENED, &known)) {
    case DCONFDB_SERVED_PROFILES: return keep(profiles, profiles, alone);
    case DCONFDB_SERVED_ALONE: return keep(alone, profiles, alone);
    default: return keep(NULL, profiles, alone);
    }
}

/* ---- who is told of it */

static Writer *writer_new(Service *service, const char *name, DconfdbStore *store, const Profiles *seen)
{
    Writer *writer = g_new0(Writer, 1);
    writer->service = service;
    writer->name = g_strdup(name);
    writer->object = g_strconcat("/ca/desrt/dconf/Writer/", name, NULL);
    writer->store = store;
    writer->seen = *seen;
    writer->told = dconfdb_store_snapshot(store);
    writer->watch = watch_new(DCONFDB_WATCHER_SERVICE);
    writer->ears = epoll_create1(EPOLL_CLOEXEC);
    writer->heard = -1;
    g_mutex_init(&writer->turn);
    return writer;
}

Writer *writer_named(Service *service, const char *name, DconfdbError *error)
{
    Writer *writer = g_hash_table_lookup(service->writers, name);
    if (writer)
        return writer;
    Profiles seen = service_profiles(service); /* before one is read */
    DconfdbStore *store = store_named(service, name, error);
    if (!store)
        return NULL;
    writer = writer_new(service, name, store, &seen);
    g_mutex_lock(&service->lock);
    g_hash_table_insert(service->writers, writer->name, writer);
    service->names++;
    g_mutex_unlock(&service->lock);
    writer_watch(writer);
    return writer;
}

void writer_free(Writer *writer)
{
    g_clear_handle_id(&writer->hears, g_source_remove);
    g_clear_handle_id(&writer->waits, g_source_remove);
    watch_free(writer->watch);
    if (writer->ears >= 0)
        close(writer->ears);
    dconfdb_snapshot_unref(writer->told);
    dconfdb_store_close(writer->store);
    g_mutex_clear(&writer->turn);
    warned_end(&writer->warned);
    g_free(writer->name);
    g_free(writer->object);
    g_free(writer);
}
