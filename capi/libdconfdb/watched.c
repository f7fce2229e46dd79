/* The names of a store's files are watched by inotify, and the folders and links on the way to them. */
#define _GNU_SOURCE
#include "watched.h"
#include "lists.h"
#include "stood.h"

#include <errno.h>
#include <limits.h>
#include <stdio.h>
#include <stdlib.h>
#include <string.h>
#include <sys/inotify.h>
#include <sys/stat.h>
#include <unistd.h>

void forget_watched(Watch *watch)
{
    for (size_t i = 0; i < watch->count; i++) {
        inotify_rm_watch(watch->inotify, watch->all[i].number);
        if (watch->all[i].file >= 0)
            inotify_rm_watch(watch->inotify, watch->all[i].file);
        free(watch->all[i].path);
    }
    watch->count = 0;
}

/* Room for one more. */
static bool grow(Watch *watch)
{
    if (watch->count < watch->room)
        return true;
    size_t room = 2 * watch->room + 16;
    Watched *all = realloc(watch->all, room * sizeof *all);
    if (!all)
        return false;
    watch->all = all;
    watch->room = room;
    return true;
}

/* The name, if it is watched so already, or NULL: all are gone through more than once. */
static Watched *find_watched(const Watch *watch, int number, const char *path, const DconfdbWatchedName *name)
{
    for (size_t i = 0; i < watch->count; i++) {
        Watched *one = &watch->all[i];
        bool is_same = one->path && path ? strcmp(one->path, path) == 0 : one->path == path;
        if (is_same && one->number == number && one->name.watch == name->watch && one->name.comes == name->comes)
            return one;
    }
    return NULL;
}

/* Keeps one that inotify watches. NULL: no memory is left. */
static Watched *keep(Watch *watch, int number, const char *path, const DconfdbWatchedName *name)
{
    char *kept = path ? strdup(path) : NULL;
    if ((!kept && path) || !grow(watch)) {
        free(kept);
        return NULL;
    }
    watch->all[watch->count] = (Watched){number, *name, kept, -1};
    return &watch->all[watch->count++];
}

/* Whether a name is watched by that number: a file may have several. */
static bool has_number(const Watch *watch, int number)
{
    for (size_t i = 0; i < watch->count; i++)
        if (watch->all[i].number == number || watch->all[i].file == number)
            return true;
    return false;
}

/* The file before is let go at once: else inotify would tell when that is gone. */
int follow_file(Watch *watch, Watched *one, uint32_t asked)
{
    int before = one->file;
    one->file = inotify_add_watch(watch->inotify, one->path, asked | IN_MASK_ADD | IN_DONT_FOLLOW);
    int fault = one->file < 0 ? errno : 0;
    if (before >= 0 && !has_number(watch, before))
        inotify_rm_watch(watch->inotify, before);
    return fault;
}

/* A folder that is watched itself has no path. The file itself comes behind its folder: that tells if another one comes amid. */
static void watch_one(Watch *watch, DconfdbWatchRounds *rounds, const char *folder, char *path, const DconfdbWatchedName *name)
{
    int number = inotify_add_watch(watch->inotify, folder, name->asked | IN_MASK_ADD | IN_ONLYDIR);
    Watched *known = find_watched(watch, number, path, name);
    Watched *one = known || number < 0 ? known : keep(watch, number, path, name);
    dconfdb_watch_round(rounds, DCONFDB_WATCHING_NAME, known != NULL, one != NULL, name->is_needed);
    if (!one || name->asked_of_file == 0)
        return;
    int fault = follow_file(watch, one, name->asked_of_file);
    dconfdb_watch_round(rounds, DCONFDB_WATCHING_NAME, false, false, dconfdb_is_file_missed((uint32_t)fault));
}

/* Where nothing is, or nothing can be seen. */
static Stands not_seen(int fault)
{
    return (Stands){.is_unseen = file_fault(DCONFDB_TO_LOOK, fault) != 0};
}

Stands stands_at(const char *path)
{
    struct stat found;
    return lstat(path, &found) == 0 ? (Stands){found.st_mode, found.st_nlink, false} : not_seen(errno);
}

/* A path on the way to a file. */
typedef struct {
    char folder[PATH_MAX];   /* so far; there is no link in it, and it is empty for `/` */
    char rest[2 * PATH_MAX]; /* behind that */
    bool is_profile;
    uint64_t links; /* that were followed */
    bool is_too_long; /* it goes on, but there is no room for the rest */
} Way;

/* A name of a path. */
typedef struct {
    const char *at, *behind; /* the name, and what comes after it */
    size_t len;
    char path[PATH_MAX];   /* up to the name */
    char target[PATH_MAX]; /* where it leads, if it is a link that is followed */
} Name;

/* Goes on where a link leads, and then to what is behind it. False: there is no room. */
static bool follow(Way *way, const char *target, const char *behind)
{
    char rest[sizeof way->rest];
    way->links++;
    int size = snprintf(rest, sizeof rest, "%s/%s", target, behind);
    way->is_too_long = size < 0 || (size_t)size >= sizeof rest;
    if (way->is_too_long)
        return false;
    if (target[0] == '/')
        way->folder[0] = 0;
    memcpy(way->rest, rest, (size_t)size + 1);
    return true;
}

/* Goes on in that folder. It returns true. */
static bool enter(Way *way, const char *folder, const char *behind)
{
    if (folder != way->folder)
        snprintf(way->folder, sizeof way->folder, "%s", folder);
    memmove(way->rest, behind, strlen(behind) + 1);
    return true;
}

static bool go_up(Way *way, const char *behind)
{
    char *last = strrchr(way->folder, '/');
    if (last)
        *last = 0;
    return enter(way, way->folder, behind);
}

/* Goes on as it is said. False: the path ends. */
static bool go_on(Way *way, uint32_t where, const Name *name)
{
    switch (where) {
    case DCONFDB_WAY_FOLLOWS: return follow(way, name->target, name->behind);
    case DCONFDB_WAY_ENTERS: return enter(way, name->path, name->behind);
    case DCONFDB_WAY_STAYS: return enter(way, way->folder, name->behind);
    case DCONFDB_WAY_RISES: return go_up(way, name->behind);
    default: return false;
    }
}

static DconfdbWatchedName watched_so(const Watch *watch, const Way *way, const Name *name, Stands stands)
{
    DconfdbWatchedName watched = {.is_needed = false};
    dconfdb_watched_name(watch->minds_etc, (const uint8_t *)way->folder, strlen(way->folder), (const uint8_t *)name->at, name->len, *name->behind == 0,
                         stands.is_unseen, stands.mode, stands.links, way->links, way->is_profile, &watched);
    return watched;
}

/* Gives 0, or errno. */
static int read_link(Name *name)
{
    ssize_t len = readlink(name->path, name->target, sizeof name->target - 1);
    if (len < 0)
        return errno;
    name->target[len] = 0;
    return 0;
}

/* What is watched of a name, and where it leads. */
static DconfdbWatchedName look_at(const Watch *watch, const Way *way, Name *name)
{
    DconfdbWatchedName watched = watched_so(watch, way, name, stands_at(name->path));
    int fault = watched.way == DCONFDB_WAY_FOLLOWS ? read_link(name) : 0;
    return fault == 0 ? watched : watched_so(watch, way, name, not_seen(fault));
}

/* One name of a path, and those behind it. True: the path goes on. */
static bool watch_name(Watch *watch, DconfdbWatchRounds *rounds, Way *way, Name *name)
{
    int size = snprintf(name->path, sizeof name->path, "%s/%.*s", way->folder, (int)name->len, name->at);
    way->is_too_long = size < 0 || (size_t)size >= sizeof name->path;
    if (way->is_too_long)
        return false;
    DconfdbWatchedName watched = look_at(watch, way, name);
    if (watched.watch == DCONFDB_WATCH_ITSELF)
        watch_one(watch, rounds, name->path, NULL, &watched);
    else if (watched.watch != DCONFDB_WATCH_NOTHING)
        watch_one(watch, rounds, *way->folder ? way->folder : "/", name->path, &watched);
    dconfdb_watch_round(rounds, DCONFDB_WATCHING_NAME, false, false, watched.is_missed);
    return go_on(way, watched.way, name);
}

/* The folders on the way to a file, each link of it, and the file's own name. A path for which there is no room is missed. */
static void watch_path(Watch *watch, DconfdbWatchRounds *rounds, const char *path, bool is_profile)
{
    Way way = {.folder = "", .is_profile = is_profile};
    Name name;
    int size = snprintf(way.rest, sizeof way.rest, "%s", path);
    way.is_too_long = size < 0 || (size_t)size >= sizeof way.rest;
    bool goes_on = !way.is_too_long;
    while (goes_on) {
        name.at = way.rest + strspn(way.rest, "/");
        name.len = strcspn(name.at, "/");
        name.behind = name.at + name.len + strspn(name.at + name.len, "/");
        goes_on = name.len > 0 && watch_name(watch, rounds, &way, &name);
    }
    if (way.is_too_long)
        dconfdb_watch_round(rounds, DCONFDB_WATCHING_NAME, false, false, true);
}

/* The names of the files, of which so many come first that may be the profile; where these aren't all, others are missed. And so many of others that may name
 * another store. */
typedef struct {
    const char *at;
    int profiles;
    bool are_all;
    const char *others;
    int count;
} Names;

/* All names once. Gives what comes then. */
static uint32_t go_through(Watch *watch, DconfdbWatchRounds *rounds, const Names *names)
{
    int count = 0;
    dconfdb_watch_round(rounds, DCONFDB_WATCHING_BEGINS, false, false, false);
    for (const char *at = names->at; *at; at = next_text(at))
        watch_path(watch, rounds, at, count++ < names->profiles);
    const char *other = names->others;
    for (count = 0; count < names->count; count++, other = next_text(other))
        watch_path(watch, rounds, other, true);
    return dconfdb_watch_round(rounds, DCONFDB_WATCHING_NAME, names->are_all, false, true);
}

static bool watch_all(Watch *watch, const Names *names)
{
    DconfdbWatchRounds rounds = {0, false, false};
    uint32_t after = go_through(watch, &rounds, names);
    while (after == DCONFDB_WATCHING_AGAIN)
        after = go_through(watch, &rounds, names);
    return after == DCONFDB_WATCHING_WHOLE;
}

static bool has_inotify(Watch *watch)
{
    if (watch->inotify < 0)
        watch->inotify = inotify_init1(IN_NONBLOCK | IN_CLOEXEC);
    return watch->inotify >= 0;
}

static bool watch_names(Watch *watch, const Names *names)
{
    watch->is_whole = false;
    if (names->at && has_inotify(watch)) {
        forget_watched(watch);
        watch->is_whole = watch_all(watch, names);
    }
    return watch->is_whole;
}

bool watch_files(Watch *watch, const char *files, int profiles)
{
    const Names names = {.at = files, .profiles = profiles, .are_all = true};
    return watch_names(watch, &names);
}

bool watch_begin(Watch *watch, const StorePlace *place)
{
    return watch_begin_with(watch, place, NULL, 0);
}

bool watch_begin_with(Watch *watch, const StorePlace *place, const char *others, int count)
{
    Names names = {.others = others, .count = count};
    char *files = has_inotify(watch) ? place_files(place, &names.profiles, &names.are_all, NULL) : NULL;
    names.at = files;
    bool is_whole = watch_names(watch, &names);
    free(files);
    return is_whole;
}
