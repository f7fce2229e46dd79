/* Folders, opened and made. A path is gone through name by name, each below the descriptor of the folder before it: so what is
 * made, synced and handed over is never another folder, which has its name by then. */
#define _GNU_SOURCE
#define _FILE_OFFSET_BITS 64
#include "folders.h"
#include "handed.h"
#include "stood.h"

#include <dirent.h>
#include <errno.h>
#include <fcntl.h>
#include <limits.h>
#include <stdbool.h>
#include <stdio.h>
#include <stdlib.h>
#include <string.h>
#include <sys/stat.h>
#include <unistd.h>

/* Only gone through, not read. */
enum { ON_THE_WAY = O_PATH | O_NOFOLLOW | O_CLOEXEC, TO_READ = O_RDONLY | O_DIRECTORY | O_CLOEXEC };

static bool is_root(void)
{
    return geteuid() == 0;
}

/* ---- what is made */

/* Opens what a descriptor is of (`.`), or the folder above it (`..`), to be read or synced. */
static int reopen(int folder, const char *which, int *opened)
{
    *opened = openat(folder, which, TO_READ);
    return *opened < 0 ? errno : 0;
}

static int sync_folder(int folder, const char *which)
{
    int opened, fault = reopen(folder, which, &opened);
    if (fault != 0)
        return fault;
    if (fsync(opened) != 0)
        fault = errno;
    close(opened);
    return fault;
}

/* A name that is none of its own, or that can't be told, counts. */
static bool is_empty(int folder)
{
    int opened;
    const struct dirent *name = NULL;
    if (reopen(folder, ".", &opened) != 0)
        return false;
    DIR *names = fdopendir(opened);
    if (!names) {
        close(opened);
        return false;
    }
    errno = 0;
    do
        name = readdir(names);
    while (name && (strcmp(name->d_name, ".") == 0 || strcmp(name->d_name, "..") == 0));
    bool is = !name && errno == 0;
    closedir(names);
    return is;
}

/* Makes one with the bits that a folder has at first. */
static int make_by(int above, const char *name)
{
    DconfdbMadeFile made = {.is_root = false};
    return mkdirat(above, name, handed_at_first(DCONFDB_MADE_FOLDER, &made)) != 0 ? errno : 0;
}

/* The folder that root made in another's is that one's. He may have put another one in its place meanwhile, which root keeps, unless it
 * is as the new one: root's, there, and empty. Such a one he could have removed and made himself. */
static int hand_over(int made, const struct stat *above)
{
    struct stat found;
    DconfdbMadeFile it = {.wanted = owner_of(above)};
    if (fstat(made, &found) != 0)
        return errno;
    it.is_beside = found.st_dev == above->st_dev;
    it.is_empty = is_empty(made);
    return handed_over(made, DCONFDB_MADE_FOLDER, 0, &it);
}

/* Makes a folder with a name that nobody has. */
static int make_unnamed(int above, char *name, size_t size)
{
    DconfdbStood stood;
    uint32_t is, told;
    uint64_t tried = 0;
    do {
        snprintf(name, size, ".dconfdb-%ld-%d", (long)getpid(), (int)tried);
        stood = file_stood(NULL, make_by(above, name));
        stood.tried = tried++;
        is = dconfdb_standing(DCONFDB_TO_MAKE_NAMED, &stood, &told);
    } while (is == DCONFDB_IS_OTHER);
    return (int)told;
}

/* What has the name keeps it, but for an empty folder, if the file system has no such rename. */
static int give_name(int above, const char *unnamed, const char *name)
{
    uint32_t told;
    DconfdbStood stood = file_stood(NULL, renameat2(above, unnamed, above, name, RENAME_NOREPLACE) != 0 ? errno : 0);
    if (dconfdb_standing(DCONFDB_TO_NAME, &stood, &told) != DCONFDB_IS_OTHER)
        return (int)told;
    return file_fault(DCONFDB_TO_REPLACE, renameat(above, unnamed, above, name) != 0 ? errno : 0);
}

/* Makes one of another's, which has its name only once it is his: who is killed before keeps nobody from it. */
static int make_theirs(int above, const struct stat *found, const char *name)
{
    char unnamed[64];
    int made, fault = make_unnamed(above, unnamed, sizeof unnamed);
    if (fault != 0)
        return fault;
    made = openat(above, unnamed, ON_THE_WAY | O_DIRECTORY);
    fault = made < 0 ? errno : hand_over(made, found);
    if (made >= 0)
        close(made);
    if (fault == 0)
        fault = give_name(above, unnamed, name);
    if (fault != 0)
        unlinkat(above, unnamed, AT_REMOVEDIR);
    return fault;
}

/* By its name, or, in another's folder, for him. Gives 0, or errno. */
static int make_in(int above, const char *name)
{
    struct stat found;
    uint32_t told;
    DconfdbStood stood = file_stood(&found, fstat(above, &found) != 0 ? errno : 0);
    stood.is_root = is_root();
    switch (dconfdb_standing(DCONFDB_TO_MAKE_IN, &stood, &told)) {
    case DCONFDB_IS_GOOD: return make_by(above, name);
    case DCONFDB_IS_OTHER: return make_theirs(above, &found, name);
    default: return (int)told;
    }
}

int folder_sync_name(int folder)
{
    return file_fault(DCONFDB_TO_SYNC_NAME, sync_folder(folder, ".."));
}

/* A task of those by which a folder is made. */
static int bring(uint32_t task, int above, const char *name)
{
    switch (task) {
    case DCONFDB_BRING_NAME: return folder_sync_name(above);
    case DCONFDB_BRING_MAKE: return file_fault(DCONFDB_TO_MAKE, make_in(above, name));
    default: return sync_folder(above, "."); /* DCONFDB_BRING_FOLDER */
    }
}

/* Makes a folder that is missing, so that its name is on the disk, and before it that of the one that it is in: who made that may have been killed
 * before it was. Another program may do so at the same time, and not have come to that. */
static int make_one(int above, const char *name)
{
    int fault = 0;
    uint32_t task = DCONFDB_BRING_BEGINS;
    while ((task = dconfdb_bring_after(DCONFDB_TO_BRING_MADE, task, (uint32_t)fault, false)) != DCONFDB_BRING_OVER)
        fault = bring(task, above, name);
    return fault;
}

/* ---- a path */

/* How a path is gone through. */
typedef struct {
    bool makes;    /* what is missing */
    uint64_t links; /* how many were followed */
} Way;

static int walk(Way way, int from, char *path, int *end);

/* Whether a link of this folder is followed: 0, or the errno that is told. */
static int fault_of_link(Way way, int folder)
{
    struct stat found;
    uint32_t told;
    DconfdbStood stood = file_stood(&found, fstat(folder, &found) != 0 ? errno : 0);
    stood.is_root = is_root();
    stood.tried = way.links;
    dconfdb_standing(DCONFDB_TO_FOLLOW, &stood, &told);
    return (int)told;
}

static int follow(Way way, int from, int link, int *to)
{
    int fault = fault_of_link(way, from);
    if (fault != 0)
        return fault;
    char *target = malloc(PATH_MAX);
    if (!target)
        return ENOMEM;
    ssize_t len = readlinkat(link, "", target, PATH_MAX - 1);
    fault = len < 0 ? errno : 0;
    if (fault == 0) {
        target[len] = 0;
        fault = walk((Way){way.makes, way.links + 1}, from, target, to);
    }
    free(target);
    return fault;
}

static int enter_link(Way way, int from, const char *name, int *to)
{
    struct stat found;
    uint32_t told;
    int link = openat(from, name, ON_THE_WAY);
    if (link < 0)
        return errno;
    DconfdbStood stood = file_stood(&found, fstat(link, &found) != 0 ? errno : 0);
    int fault = dconfdb_standing(DCONFDB_TO_READ_LINK, &stood, &told) == DCONFDB_IS_GOOD ? follow(way, from, link, to) : (int)told;
    close(link);
    return fault;
}

/* Opens a folder of this name, and gives what comes of it. */
static uint32_t open_on_way(Way way, int from, const char *name, int *to, uint32_t *told)
{
    *to = openat(from, name, ON_THE_WAY | O_DIRECTORY);
    DconfdbStood stood = file_stood(NULL, *to < 0 ? errno : 0);
    stood.may_make = way.makes;
    stood.tried = way.links;
    return dconfdb_standing(DCONFDB_TO_ENTER, &stood, told);
}

/* What is made is opened as any other. */
static int enter(Way way, int from, const char *name, int *to)
{
    uint32_t told, is = open_on_way(way, from, name, to, &told);
    if (is == DCONFDB_IS_NOTHING) {
        int fault = make_one(from, name);
        if (fault != 0)
            return fault;
        is = open_on_way((Way){false, way.links}, from, name, to, &told);
    }
    return is == DCONFDB_IS_OTHER ? enter_link(way, from, name, to) : (int)told;
}

static char *without_slashes(char *path)
{
    while (*path == '/')
        path++;
    return path;
}

/* Opens the folder at the end of a path, which is cut into its names. */
static int walk(Way way, int from, char *path, int *end)
{
    int at = openat(from, *path == '/' ? "/" : ".", O_PATH | O_DIRECTORY | O_CLOEXEC), fault = at < 0 ? errno : 0;
    char *behind;
    for (char *name = without_slashes(path); fault == 0 && *name; name = without_slashes(behind)) {
        int above = at;
        behind = strchrnul(name, '/');
        if (*behind)
            *behind++ = 0;
        fault = enter(way, above, name, &at);
        close(above);
    }
    *end = at;
    return fault;
}

static int walk_to(bool makes, const char *folder, int *end)
{
    char path[PATH_MAX];
    size_t size = strlen(folder) + 1;
    if (size > sizeof path)
        return ENAMETOOLONG;
    memcpy(path, folder, size);
    return walk((Way){makes, 0}, AT_FDCWD, path, end);
}

/* The name that the system has for a descriptor. */
static void name_descriptor(char *name, int descriptor)
{
    static const char folder[] = "/proc/self/fd/";
    char digits[16], *digit = digits + sizeof digits;
    *--digit = 0;
    for (; descriptor >= 10; descriptor /= 10)
        *--digit = (char)('0' + descriptor % 10);
    *--digit = (char)('0' + descriptor);
    memcpy(name, folder, sizeof folder - 1);
    strcpy(name + sizeof folder - 1, digit);
}

/* Whether what is open has just this path, so that no link led there. False if that can't be told. */
static bool is_itself(int opened, const char *path)
{
    char name[32], place[PATH_MAX];
    name_descriptor(name, opened);
    ssize_t len = readlink(name, place, sizeof place);
    return len > 0 && (size_t)len == strlen(path) && memcmp(place, path, (size_t)len) == 0;
}

/* By each name of its path. */
static int open_by_names(const char *folder, int *opened)
{
    int end, fault = walk_to(false, folder, &end);
    if (fault != 0)
        return fault;
    fault = reopen(end, ".", opened);
    close(end);
    return fault;
}

/* Root alone asks where it has come. */
int folder_open(const char *folder, int *opened)
{
    uint32_t told;
    *opened = open(folder, TO_READ);
    DconfdbStood stood = file_stood(NULL, *opened < 0 ? errno : 0);
    stood.is_root = is_root();
    stood.is_named = stood.is_root && *opened >= 0 && is_itself(*opened, folder);
    if (dconfdb_standing(DCONFDB_TO_OPEN_FOLDER, &stood, &told) != DCONFDB_IS_OTHER)
        return (int)told;
    if (*opened >= 0)
        close(*opened);
    return open_by_names(folder, opened);
}

int folder_make(const char *folder)
{
    int end;
    int fault = walk_to(true, folder, &end);
    if (fault == 0)
        close(end);
    return fault;
}
