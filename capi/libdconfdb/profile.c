/* The files of a store: the profile, and the databases that it names. */
#define _DEFAULT_SOURCE
#define _POSIX_C_SOURCE 200809L
#define _FILE_OFFSET_BITS 64
#include "store.h"
#include "errors.h"
#include "texts.h"

#include <stdlib.h>
#include <string.h>

/* Who is told a fault: the caller, or the store keeps it. NULL: nobody. */
static DconfdbError *told_of(DconfdbStore *store, uint32_t telling, DconfdbError *error)
{
    switch (telling) {
    case DCONFDB_TELLING_REFUSES: return error;
    case DCONFDB_TELLING_KEPT: return &store->profile_fault;
    default: return NULL;
    }
}

static bool has_kept(const DconfdbStore *store)
{
    return store->profile_fault.code != DCONFDB_ERROR_NONE;
}

/* ---- the databases of a profile */

/* A user's database, by its file, whose name begins with its own, and the flag of its readers. False: no memory is left. */
static bool has_users(DconfdbStore *store, char *file, size_t name_len, const DconfdbPath *flag)
{
    bool has_flag = path_len(flag) > 0;
    store->user_file = file;
    store->own_name = strrchr(file, '/') + 1;
    store->users_len = name_len;
    store->flag = has_flag ? path_text(flag) : NULL;
    return store->flag || !has_flag;
}

/* What the looks at profiles came to. */
typedef struct {
    uint32_t step;
    const char *path; /* of the last one */
    const uint8_t *text;
    size_t len;
} Profile;

/* Databases that a profile names, and for how many there is room: mostly there are few. */
typedef struct {
    size_t count, room;
    DconfdbName names[MOST_DATABASES];
} Named;

#define FEW_NAMES (MOST_DATABASES < 4 ? MOST_DATABASES : 4)

/* The file of one more database of the profile of that path. */
static bool name_file(DconfdbStore *store, DconfdbBytes profile, const DconfdbName *database, DconfdbError *error)
{
    DconfdbPath path = DCONFDB_NO_PATH, flag = DCONFDB_NO_PATH;
    const DconfdbBytes name = database->name;
    bool is_users = dconfdb_database_path(&store->place.lent, profile.at, profile.len, database->kind, name.at, name.len, &path, &flag);
    char *file = path_text(&path);
    if (!file)
        return refuse_memory(error);
    store->files[store->count++] = file;
    return !is_users || has_users(store, file, name.len, &flag) || refuse_memory(error);
}

/* Where there are more than the room takes, nothing is put into it. */
static bool read_into(DconfdbStore *store, const Profile *profile, Named *named, DconfdbError *error)
{
    uint32_t fault = DCONFDB_OK;
    size_t line = 0;
    for (size_t i = 0; i < named->room; i++)
        named->names[i] = (DconfdbName){0, DCONFDB_NOTHING};
    uint32_t telling = dconfdb_profile(profile->step, profile->text, profile->len, store->options.is_lenient, has_kept(store), named->names, named->room,
                                       &named->count, &fault, &line);
    if (telling != DCONFDB_TELLING_NOTHING)
        refuse_call(told_of(store, telling, error), fault, profile->path, (Place){.line = line});
    return telling != DCONFDB_TELLING_REFUSES;
}

static bool name_files(DconfdbStore *store, const Profile *profile, DconfdbError *error)
{
    Named named; /* as many as there is room for are written before they are read */
    const DconfdbBytes of = text_bytes(profile->path);
    named.count = 0;
    named.room = FEW_NAMES;
    bool are_named = read_into(store, profile, &named, error);
    if (are_named && named.count > named.room) {
        named.room = MOST_DATABASES;
        are_named = read_into(store, profile, &named, error);
    }
    while (are_named && store->count < named.count)
        are_named = name_file(store, of, &named.names[store->count], error);
    return are_named;
}

/* ---- which profile counts */

/* One that may be the profile, and what a look at it found. */
typedef struct {
    DconfdbProfileNext next;
    char *path; /* NULL: there is no such place */
    FileBytes text;
} Look;

/* Its path. False: no memory is left. */
static bool find_path(Look *look)
{
    look->path = look->next.has_path ? path_text(&look->next.path) : NULL;
    return look->path || !look->next.has_path;
}

static void look_release(Look *look)
{
    file_release(&look->text);
    free(look->path);
    look->path = NULL;
}

/* The one that is looked at first. */
static Look first_of(const StorePlace *place)
{
    const DconfdbProfileLook none = {.which = DCONFDB_PROFILE_BEGINS};
    Look look = {.next = {.path = DCONFDB_NO_PATH, .name = DCONFDB_NO_PATH}, .path = NULL};
    dconfdb_profile_step(&place->lent, &none, &look.next);
    return look;
}

/* Tells of a look, as it is said. False: no memory is left. */
static bool tell(DconfdbStore *store, const DconfdbProfileNext *next, DconfdbError *error)
{
    DconfdbError *told = told_of(store, next->telling, error);
    if (!told)
        return true;
    char *name = path_text(&next->name);
    if (!name)
        return refuse_memory(error);
    refuse_file(told, (int)next->errnum, name, nowhere);
    free(name);
    return true;
}

/* Looks at the one that comes next. False: no memory is left. */
static bool look_at_next(DconfdbStore *store, Look *look, DconfdbError *error)
{
    FileState state = {.is_there = false};
    look_release(look);
    if (!find_path(look))
        return refuse_memory(error);
    bool may_map = false;
    uint64_t most = dconfdb_largest(DCONFDB_SIZE_PROFILE, &may_map);
    int fault = look->path ? file_read(NO_FOLDER, look->path, may_map, NULL, most, &look->text, &state) : 0;
    const DconfdbProfileLook known = {.which = look->next.step,
                                      .dir = look->next.dir,
                                      .errnum = (uint32_t)fault,
                                      .is_there = state.is_there,
                                      .is_lenient = store->options.is_lenient,
                                      .has_kept = has_kept(store)};
    dconfdb_profile_step(&store->place.lent, &known, &look->next);
    return tell(store, &look->next, error);
}

/* Goes by what the looks came to. */
static bool take_profile(DconfdbStore *store, const Look *look, DconfdbError *error)
{
    const Profile profile = {look->next.step, look->path ? look->path : "", bytes_of(look->text.at), look->text.len};
    return profile.step != DCONFDB_PROFILE_REFUSED && name_files(store, &profile, error);
}

bool store_find_files(DconfdbStore *store, DconfdbError *error)
{
    Look look = first_of(&store->place);
    bool done = true;
    while (done && look.next.looks)
        done = look_at_next(store, &look, error);
    done = done && take_profile(store, &look, error);
    look_release(&look);
    return done;
}

/* ---- the names of its files */

/* Names, a zero byte after each, and one more at the end. */
typedef struct {
    char *at; /* NULL: there is no memory, or none was added */
    size_t len;
    bool is_full; /* no memory is left */
} Names;

static void name_add(Names *names, const char *name)
{
    size_t len = strlen(name) + 1;
    char *more = names->is_full ? NULL : realloc(names->at, names->len + len + 1);
    names->is_full = !more;
    if (!more)
        return;
    memcpy(more + names->len, name, len);
    more[names->len + len] = 0;
    *names = (Names){more, names->len + len, false};
}

/* Of who has them all, or NULL. */
static char *names_end(Names *names, size_t *size)
{
    if (names->is_full) {
        free(names->at);
        return NULL;
    }
    if (size)
        *size = names->len;
    return names->at ? names->at : calloc(1, 1);
}

/* Each that may be the profile. It gives how many. */
static int add_profiles(const StorePlace *place, Names *names)
{
    Look look = first_of(place);
    int count = 0;
    while (!names->is_full && look.next.looks) {
        const DconfdbProfileLook listed = {.which = look.next.step, .dir = look.next.dir, .lists = true};
        names->is_full = !find_path(&look);
        if (look.path) {
            name_add(names, look.path);
            count++;
        }
        look_release(&look);
        dconfdb_profile_step(&place->lent, &listed, &look.next);
    }
    return count;
}

static void add_files(const DconfdbStore *store, Names *names)
{
    for (size_t i = 0; i < store->count; i++)
        name_add(names, store->files[i]);
}

char *store_file_names(const DconfdbStore *store, int *profiles, size_t *size)
{
    Names names = {NULL, 0, false};
    *profiles = add_profiles(&store->place, &names);
    add_files(store, &names);
    return names_end(&names, size);
}

char *files_of(const DconfdbStore *store)
{
    Names names = {NULL, 0, false};
    add_files(store, &names);
    return names_end(&names, NULL);
}
