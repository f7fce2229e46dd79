/* A file of a store, replaced: the steps of a turn to change it. */
#define _GNU_SOURCE
#define _FILE_OFFSET_BITS 64
#include "replacing.h"
#include "folders.h"
#include "handed.h"
#include "moves.h"
#include "stood.h"

#include <errno.h>
#include <fcntl.h>
#include <stdio.h>
#include <stdlib.h>
#include <string.h>
#include <sys/stat.h>
#include <unistd.h>

/* What is known of the new file: for whom it is. */
static DconfdbMadeFile made_for(const Replacing *it, size_t bits)
{
    return (DconfdbMadeFile){.wanted = {it->user, it->group, (uint32_t)bits}};
}

static DconfdbOldFile old_file(const struct stat *old, const FileState *read)
{
    FileState state = file_state_of(old);
    return (DconfdbOldFile){.user = old->st_uid,
                            .group = old->st_gid,
                            .bits = old->st_mode & PERMISSION_BITS,
                            .is_there = true,
                            .is_regular = S_ISREG(old->st_mode),
                            .is_link = S_ISLNK(old->st_mode),
                            .is_read = dconfdb_is_one_file(&state, read)};
}

/* What stands there. What is kept aside may not even be readable, nor a link that leads somewhere. */
static int look_at_old(const Replacing *it, int how, const FileState *read, DconfdbOldFile *old)
{
    struct stat found;
    if (fstatat(it->folder, it->name, &found, how) != 0)
        return file_fault(DCONFDB_TO_LOOK, errno);
    *old = old_file(&found, read);
    return 0;
}

/* Whose the folder is, and whether it hands on its group. */
static int look_above(Replacing *it, DconfdbFileOwner *above)
{
    struct stat found;
    if (fstat(it->folder, &found) != 0)
        return errno;
    *above = (DconfdbFileOwner){found.st_uid, found.st_gid};
    it->above = found.st_gid;
    it->gives_group = (found.st_mode & S_ISGID) != 0;
    return 0;
}

/* A step to another name, which is refused with EEXIST where that is taken. */
typedef int Moves(int folder, const char *name, const char *aside);

static int by_a_link(int folder, const char *name, const char *aside)
{
    return linkat(folder, name, folder, aside, 0);
}

static int by_a_rename(int folder, const char *name, const char *aside)
{
    return renameat2(folder, name, folder, aside, RENAME_NOREPLACE);
}

static bool is_one_file(int folder, const char *name, const char *aside)
{
    struct stat one, other;
    return fstatat(folder, name, &one, AT_SYMLINK_NOFOLLOW) == 0 && fstatat(folder, aside, &other, AT_SYMLINK_NOFOLLOW) == 0
        && are_of_one_file(&one, &other);
}

/* One of the names NAME~1, NAME~2 and so on, before which so many were tried. */
static uint32_t to_next_name(int folder, const char *name, uint32_t purpose, const char *aside, uint64_t tried, uint32_t *told)
{
    Moves *moves = purpose == DCONFDB_TO_SET_ASIDE ? by_a_link : by_a_rename;
    DconfdbStood stood = file_stood(NULL, moves(folder, name, aside) != 0 ? errno : 0);
    stood.is_named = is_one_file(folder, name, aside);
    stood.tried = tried;
    return dconfdb_standing(purpose, &stood, told);
}

/* The first other name that is free; it is to be freed, whatever the fault. */
static int to_other_name(int folder, const char *name, uint32_t purpose, char **aside)
{
    size_t size = strlen(name) + sizeof "~2147483647";
    uint32_t is, told;
    int n = 0;
    *aside = malloc(size);
    if (!*aside)
        return ENOMEM;
    do {
        snprintf(*aside, size, "%s~%d", name, n + 1);
        is = to_next_name(folder, name, purpose, *aside, (uint64_t)n++, &told);
    } while (is == DCONFDB_IS_OTHER);
    return (int)told;
}

/* What has the new file's name goes: it is what a program left that was killed. A folder is nobody's that writes here, and
 * gets another name. */
static int make_room(int folder, const char *new_name)
{
    char *aside;
    uint32_t told;
    DconfdbStood stood = file_stood(NULL, unlinkat(folder, new_name, 0) != 0 ? errno : 0);
    if (dconfdb_standing(DCONFDB_TO_MAKE_ROOM, &stood, &told) != DCONFDB_IS_OTHER)
        return (int)told;
    int fault = to_other_name(folder, new_name, DCONFDB_TO_MOVE_ASIDE, &aside);
    free(aside);
    return fault;
}

/* ---- the steps of a turn */

int replacing_begin(Replacing *it, int folder, const char *name)
{
    size_t len = strlen(name);
    it->folder = folder;
    it->file = NO_FOLDER;
    it->name = name;
    it->aside = NULL;
    it->is_aside = false;
    if (len > NAME_MAX)
        return ENAMETOOLONG;
    memcpy(it->new_name, name, len);
    strcpy(it->new_name + len, ".new");
    return 0;
}

void replacing_end(Replacing *it)
{
    if (it->file >= 0)
        close(it->file);
    free(it->aside);
}

/* Whose the new file is to be, by a look at the old one that follows a link or not; `is_link`: it is to follow it. */
static int find_owner(const Replacing *it, int how, bool is_bad, const FileState *read, const DconfdbFileOwner *above, DconfdbNewFile *given, bool *is_link)
{
    DconfdbOldFile old = {.is_there = false};
    int fault = look_at_old(it, how, read, &old);
    if (fault != 0)
        return fault;
    fault = (int)dconfdb_owner_and_bits(&old, above, geteuid() == 0, is_bad, given);
    *is_link = fault == ELOOP;
    return fault;
}

int replacing_look(Replacing *it, bool is_bad, const FileState *read, size_t *bits)
{
    DconfdbFileOwner above = {0, 0};
    DconfdbNewFile given = {0, 0, 0};
    bool is_link = false;
    int fault = look_above(it, &above);
    if (fault == 0)
        fault = find_owner(it, AT_SYMLINK_NOFOLLOW, is_bad, read, &above, &given, &is_link);
    if (is_link)
        fault = find_owner(it, 0, is_bad, read, &above, &given, &is_link);
    it->user = given.user;
    it->group = given.group;
    *bits = given.bits;
    return fault;
}

/* It has the rights of its group once it has that. */
int replacing_create(Replacing *it, size_t bits)
{
    int fault = make_room(it->folder, it->new_name);
    if (fault != 0)
        return fault;
    DconfdbMadeFile made = made_for(it, bits);
    made.above = it->above;
    made.gives_group = it->gives_group;
    made.made.group = getegid();
    it->file = openat(it->folder, it->new_name, O_WRONLY | O_CREAT | O_EXCL | O_CLOEXEC, handed_at_first(DCONFDB_MADE_FILE, &made));
    return it->file < 0 ? errno : 0;
}

int replacing_append(const Replacing *it, const uint8_t *bytes, size_t len, size_t *count)
{
    int fault = 0;
    ssize_t put;
    *count = 0;
    do
        put = write(it->file, bytes + *count, len - *count);
    while (moved(len, count, put, &fault) == DCONFDB_MOVES_ON);
    return fault;
}

int replacing_sync(Replacing *it, size_t bits, FileState *state)
{
    struct stat made;
    DconfdbMadeFile handed = made_for(it, bits);
    int file = it->file, fault = handed_over(file, DCONFDB_MADE_FILE, 0, &handed);
    it->file = NO_FOLDER;
    if (fault == 0 && ((!it->is_unsynced && fsync(file) != 0) || fstat(file, &made) != 0))
        fault = errno;
    if (close(file) != 0 && fault == 0)
        fault = errno;
    if (fault == 0)
        *state = file_state_of(&made);
    return fault;
}

int replacing_set_aside(Replacing *it, size_t *cannot)
{
    DconfdbRenamed is;
    int fault = to_other_name(it->folder, it->name, DCONFDB_TO_SET_ASIDE, &it->aside);
    dconfdb_fault_answer(DCONFDB_CALL_SET_ASIDE, (uint32_t)fault, &is);
    it->is_aside = is.is_aside;
    *cannot = is.is_nameless;
    return (int)is.fault;
}

/* The new file has the name: its time is that of this. */
static void is_placed(const Replacing *it, FileState *state)
{
    struct stat found;
    bool is_there = fstatat(it->folder, it->name, &found, AT_SYMLINK_NOFOLLOW) == 0;
    const FileState named = is_there ? file_state_of(&found) : (FileState){.is_there = false};
    dconfdb_placed(&named, state);
}

int replacing_exchange(Replacing *it, FileState *state)
{
    DconfdbRenamed is;
    if (renameat2(it->folder, it->new_name, it->folder, it->aside, RENAME_NOREPLACE) != 0)
        return file_fault(DCONFDB_TO_EXCHANGE, errno);
    int fault = renameat2(it->folder, it->aside, it->folder, it->name, RENAME_EXCHANGE) != 0 ? file_fault(DCONFDB_TO_EXCHANGE, errno) : 0;
    dconfdb_fault_answer(DCONFDB_CALL_PLACE, (uint32_t)fault, &is);
    it->is_aside = is.is_aside;
    if (is.goes)
        unlinkat(it->folder, it->aside, 0);
    if (fault == 0)
        is_placed(it, state);
    return (int)is.fault;
}

int replacing_rename(const Replacing *it, FileState *state)
{
    if (renameat(it->folder, it->new_name, it->folder, it->name) != 0)
        return errno;
    is_placed(it, state);
    return 0;
}

int replacing_sync_folder(const Replacing *it)
{
    return !it->is_unsynced && fsync(it->folder) != 0 ? errno : 0;
}

int replacing_remove(const Replacing *it)
{
    return unlinkat(it->folder, it->new_name, 0) != 0 ? file_fault(DCONFDB_TO_LOOK, errno) : 0;
}

/* A file is opened only to be synced: nobody waits for a pipe's writer. */
static int settle_at(int folder, const char *name)
{
    int fault = 0, file = openat(folder, name, O_RDONLY | O_NONBLOCK | O_NOCTTY | O_CLOEXEC);
    if (file < 0)
        return file_fault(DCONFDB_TO_LOOK, errno);
    if (fsync(file) != 0)
        fault = errno;
    close(file);
    return fault;
}

/* A task of those by which what a folder has is brought to the disk. */
static int bring(uint32_t task, int folder, const char *name)
{
    switch (task) {
    case DCONFDB_BRING_FILE: return settle_at(folder, name);
    case DCONFDB_BRING_NAME: return folder_sync_name(folder);
    default: return fsync(folder) != 0 ? errno : 0; /* DCONFDB_BRING_FOLDER */
    }
}

/* All of them, in their order. NULL: no file. */
static int bring_all(uint32_t what, int folder, const char *name)
{
    int fault = 0;
    uint32_t task = DCONFDB_BRING_BEGINS;
    while ((task = dconfdb_bring_after(what, task, (uint32_t)fault, name != NULL)) != DCONFDB_BRING_OVER)
        fault = bring(task, folder, name);
    return fault;
}

int replacing_settle(const Replacing *it, bool is_readable)
{
    return bring_all(DCONFDB_TO_BRING_FILE, it->folder, is_readable ? it->name : NULL);
}

int folder_settle(const char *folder, const char *name)
{
    int at = open(folder, O_RDONLY | O_DIRECTORY | O_CLOEXEC);
    if (at < 0)
        return file_fault(DCONFDB_TO_LOOK, errno);
    int fault = bring_all(DCONFDB_TO_BRING_BOTH, at, name);
    close(at);
    return fault;
}
