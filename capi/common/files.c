/* The files of a store: found, and read or mapped. */
#define _GNU_SOURCE
#define _FILE_OFFSET_BITS 64
#include "files.h"
#include "clocks.h"
#include "dconfdb_calls.h"
#include "moves.h"
#include "stood.h"
#include "tries.h"

#include <errno.h>
#include <fcntl.h>
#include <stdlib.h>
#include <sys/mman.h>
#include <sys/stat.h>
#include <unistd.h>

/* What is read of a file first, whose rest may not be wanted. */
enum { HEAD = 24 };

static DconfdbFileTime time_of(const struct timespec *time)
{
    return (DconfdbFileTime){(uint64_t)time->tv_sec, (uint64_t)time->tv_nsec};
}

FileState file_state_of(const struct stat *found)
{
    return (FileState){found->st_dev, found->st_ino, (uint64_t)found->st_size, time_of(&found->st_mtim), time_of(&found->st_ctim), true};
}

static const FileState missing;

int file_look(const char *name, FileState *state)
{
    struct stat found;
    if (stat(name, &found) == 0) {
        *state = file_state_of(&found);
        return 0;
    }
    *state = missing;
    return file_fault(DCONFDB_TO_LOOK, errno);
}

uint64_t file_clock(void)
{
    return clock_nanoseconds(CLOCK_REALTIME_COARSE);
}

bool file_may_be_read(const char *name)
{
    return faccessat(AT_FDCWD, name, R_OK, AT_EACCESS) == 0;
}

/* Reads so many bytes, or fewer where the file has become shorter. */
static int fill(int file, FileBytes *bytes, size_t wanted)
{
    int fault = 0;
    ssize_t got;
    do
        got = read(file, bytes->at + bytes->len, wanted - bytes->len);
    while (moved(wanted, &bytes->len, got, &fault) == DCONFDB_MOVES_ON);
    return fault;
}

/* How many bytes are to be read of an open file that has so many. */
static int look_at_head(int file, FileWanted *is_wanted, size_t *len)
{
    uint64_t room[HEAD / sizeof(uint64_t)]; /* aligned as a file's bytes are */
    FileBytes head = {(uint8_t *)room, 0, false};
    int fault = fill(file, &head, HEAD);
    if (fault == 0 && !is_wanted(head.at, head.len))
        *len = head.len;
    return fault == 0 && lseek(file, 0, SEEK_SET) != 0 ? errno : fault;
}

static int read_bytes(int file, size_t len, FileBytes *bytes)
{
    bytes->at = malloc(len);
    return bytes->at ? fill(file, bytes, len) : ENOMEM;
}

static bool map_bytes(int file, size_t len, FileBytes *bytes)
{
    void *at = mmap(NULL, len, PROT_READ, MAP_PRIVATE, file, 0);
    if (at != MAP_FAILED)
        *bytes = (FileBytes){at, len, true};
    return at != MAP_FAILED;
}

static int read_head_first(int file, FileWanted *is_wanted, size_t len, FileBytes *bytes)
{
    int fault = look_at_head(file, is_wanted, &len);
    return fault != 0 ? fault : read_bytes(file, len, bytes);
}

/* A file that is opened to be read. */
typedef struct {
    int folder, file;
    const char *name;
} Opening;

/* O_NONBLOCK: a pipe without a writer, that took the file's place since the look at it, is not waited for. */
static uint32_t try_open(void *it, int *fault)
{
    Opening *opening = it;
    opening->file = openat(opening->folder, opening->name, O_RDONLY | O_CLOEXEC | O_NONBLOCK | O_NOCTTY);
    *fault = opening->file < 0 ? errno : 0;
    return DCONFDB_TRIED_FILE;
}

/* Whoever has a lease on it is waited for. */
static int open_file(Opening *opening)
{
    int fault = 0;
    uint32_t tried = try_open(opening, &fault);
    return fault == 0 ? 0 : try_on(DCONFDB_WAIT_FOR_LEASE, tried, fault, try_open, opening);
}

/* How a file is read, as the proved call has it of what stat() found, and what that was. */
typedef struct {
    DconfdbStood stood;
    uint32_t kind, told;
} Standing;

static void ask(Standing *it, const struct stat *found, int fault)
{
    it->stood.fault = (uint32_t)fault;
    it->stood.mode = fault == 0 ? found->st_mode : 0;
    it->stood.size = fault == 0 ? (uint64_t)found->st_size : 0;
    it->kind = dconfdb_standing(DCONFDB_TO_READ, &it->stood, &it->told);
}

/* Maps it, if it is to be; what a file system can't map is as what may not be mapped. */
static bool has_mapped(int file, Standing *it, FileBytes *bytes)
{
    if (it->kind != DCONFDB_IS_MAPPED)
        return false;
    if (map_bytes(file, (size_t)it->stood.size, bytes))
        return true;
    it->stood.may_map = false;
    it->kind = dconfdb_standing(DCONFDB_TO_READ, &it->stood, &it->told);
    return false;
}

/* What an open file holds. */
static int take_file(int file, Standing *it, FileWanted *is_wanted, FileBytes *bytes)
{
    size_t size = (size_t)it->stood.size;
    if (has_mapped(file, it, bytes))
        return 0;
    switch (it->kind) {
    case DCONFDB_IS_GOOD: return read_bytes(file, size, bytes);
    case DCONFDB_IS_HEAD: return read_head_first(file, is_wanted, size, bytes);
    default: return (int)it->told; /* 0 if there are no bytes */
    }
}

/* The state of what was looked at. */
static void note_state(FileState *state, const struct stat *found, int fault)
{
    if (fault == 0) {
        *state = file_state_of(found);
        return;
    }
    *state = missing;
    state->is_there = file_fault(DCONFDB_TO_LOOK, fault) != 0;
}

/* The bytes and the state of a file that was opened. */
static int read_open(int file, Standing *it, FileWanted *is_wanted, FileBytes *bytes, FileState *state)
{
    struct stat found;
    int fault = fstat(file, &found) != 0 ? errno : 0;
    if (fault == 0)
        *state = file_state_of(&found);
    ask(it, &found, fault);
    fault = take_file(file, it, is_wanted, bytes);
    if (fault != 0)
        file_release(bytes);
    return fault;
}

/* What has the name is looked at before it is opened: a state of later might be that of a newer file, which would never be read; and a pipe or
 * a device is not opened, since who writes into it would notice. */
int file_read(int folder, const char *name, bool maps, FileWanted *is_wanted, uint64_t most, FileBytes *bytes, FileState *state)
{
    struct stat found;
    Opening opening = {folder, -1, name};
    Standing standing = {.stood = {.most = most, .may_map = maps, .may_stop = is_wanted != NULL}};
    *bytes = (FileBytes){NULL, 0, false};
    int fault = fstatat(folder, name, &found, 0) != 0 ? errno : 0;
    note_state(state, &found, fault);
    ask(&standing, &found, fault);
    fault = standing.kind == DCONFDB_IS_FAULT ? (int)standing.told : open_file(&opening);
    if (fault != 0) {
        fault = file_fault(DCONFDB_TO_LOOK, fault);
        state->is_there = state->is_there && fault != 0;
        return fault;
    }
    fault = read_open(opening.file, &standing, is_wanted, bytes, state);
    close(opening.file);
    return fault;
}

void file_release(FileBytes *bytes)
{
    if (bytes->is_mapped)
        munmap(bytes->at, bytes->len);
    else
        free(bytes->at);
    *bytes = (FileBytes){NULL, 0, false};
}
