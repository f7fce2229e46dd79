/* Each call of the system on a file is noted, and is done, or fails by any errno. */
#define _GNU_SOURCE
#define _FILE_OFFSET_BITS 64
#include "world.h"

#include <errno.h>
#include <fcntl.h>
#include <stdarg.h>
#include <stdio.h>
#include <stdlib.h>
#include <string.h>
#include <sys/file.h>
#include <sys/mman.h>
#include <sys/stat.h>
#include <unistd.h>

bool nondet_bool(void);
int nondet_int(void);
size_t nondet_size(void);
uint8_t nondet_byte(void);
uint32_t nondet_u32(void);
uint64_t nondet_u64(void);

bool any_bool(void) { return nondet_bool(); }
int any_int(void) { return nondet_int(); }
size_t any_size(void) { return nondet_size(); }
uint8_t any_byte(void) { return nondet_byte(); }
uint32_t any_u32(void) { return nondet_u32(); }
uint64_t any_u64(void) { return nondet_u64(); }

Call last[KINDS];
unsigned count_of[KINDS], when_of[KINDS], calls;
int interrupts_left = 1, shorts_left = 1, others_left = 1;

static int next_file = FIRST_FILE;
static uint32_t open_files; /* a bit for each */
static bool has_mapping;
static uint8_t mapping[8];
static int flocked = -1;
void (*at_call)(Kind kind);

int any_fault(void)
{
    int fault = any_int();
    GIVEN(fault >= 0 && fault <= MOST_ERRNO);
    return fault;
}

void any_text(char *room, size_t most)
{
    size_t len = any_size();
    GIVEN(len <= most);
    for (size_t i = 0; i < most; i++) {
        room[i] = (char)any_byte();
        GIVEN(i >= len || room[i] != 0);
    }
    room[len] = 0;
}

int some_file(void)
{
    CHECK(next_file < MOST_FILES, "the world has room for each descriptor");
    open_files |= 1U << next_file;
    return next_file++;
}

bool is_open(int file)
{
    return file >= FIRST_FILE && file < MOST_FILES && (open_files >> file & 1) != 0;
}

bool only_open(int one, int other)
{
    uint32_t left = (one >= 0 ? 1U << one : 0) | (other >= 0 ? 1U << other : 0);
    return (open_files & ~left) == 0;
}

bool is_mapped(void)
{
    return has_mapping;
}

bool is_flocked(int file)
{
    return flocked == file;
}

bool was_done(Kind kind)
{
    return count_of[kind] > 0 && last[kind].fault == 0;
}

static bool is_folder(int file)
{
    return file == AT_FDCWD || file == -1 || is_open(file);
}

static void note(Kind kind, Call call)
{
    count_of[kind]++;
    when_of[kind] = ++calls;
    last[kind] = call;
    if (at_call)
        at_call(kind);
}

/* 0, or -1 and any errno. */
static int outcome(Kind kind, Call call)
{
    call.fault = any_fault();
    GIVEN(call.fault != EINTR || interrupts_left > 0);
    GIVEN((call.fault != EEXIST && call.fault != EWOULDBLOCK) || others_left > 0);
    if (call.fault == EINTR)
        interrupts_left--;
    if (call.fault == EEXIST || call.fault == EWOULDBLOCK)
        others_left--;
    note(kind, call);
    if (call.fault == 0)
        return 0;
    errno = call.fault;
    return -1;
}

/* ---- descriptors */

static int opened(Kind kind, Call call)
{
    CHECK((call.flags & O_CLOEXEC) != 0, "descriptor: it is closed by exec");
    if (outcome(kind, call) != 0)
        return -1;
    int file = some_file();
    last[kind].count = file;
    return file;
}

int open(const char *name, int flags, ...)
{
    CHECK(__CPROVER_r_ok(name, 1), "memory: open() has a name");
    return opened(OPEN, (Call){.file = -1, .name = name, .flags = flags});
}

int openat(int folder, const char *name, int flags, ...)
{
    unsigned mode = 0;
    CHECK(is_folder(folder), "descriptor: openat() in a folder that is open");
    CHECK(__CPROVER_r_ok(name, 1), "memory: openat() has a name");
    if ((flags & O_CREAT) != 0 || (flags & O_TMPFILE) == O_TMPFILE) {
        va_list more;
        va_start(more, flags);
        mode = va_arg(more, mode_t);
        va_end(more);
    }
    return opened(OPENAT, (Call){.file = folder, .name = name, .flags = flags, .mode = mode});
}

/* It is closed in any case. */
int close(int file)
{
    CHECK(is_open(file), "descriptor: close() of what is open");
    int result = outcome(CLOSE, (Call){.file = file});
    if (is_open(file))
        open_files &= ~(1U << file);
    if (flocked == file)
        flocked = -1;
    return result;
}

/* All of it, nothing, or a part. */
static ssize_t counted(Kind kind, Call call)
{
    size_t len = call.len, count = any_size();
    GIVEN(count <= len && count <= INT64_MAX);
    GIVEN(count == len || count == 0 || shorts_left > 0);
    call.count = (ssize_t)count;
    if (outcome(kind, call) != 0)
        return last[kind].count = -1;
    if (count != len && count != 0)
        shorts_left--;
    return call.count;
}

ssize_t read(int file, void *room, size_t len)
{
    CHECK(is_open(file), "descriptor: read() of what is open");
    CHECK(__CPROVER_w_ok(room, len), "memory: read() into room that is there");
    return counted(READ, (Call){.file = file, .len = len});
}

ssize_t pread(int file, void *room, size_t len, off_t at)
{
    CHECK(is_open(file), "descriptor: pread() of what is open");
    CHECK(__CPROVER_w_ok(room, len), "memory: pread() into room that is there");
    CHECK(at >= 0, "step: pread() from a place");
    return counted(PREAD, (Call){.file = file, .len = len, .at = at});
}

ssize_t write(int file, const void *bytes, size_t len)
{
    CHECK(is_open(file), "descriptor: write() to what is open");
    CHECK(__CPROVER_r_ok(bytes, len), "memory: write() of bytes that are there");
    return counted(WRITE, (Call){.file = file, .len = len});
}

ssize_t pwrite(int file, const void *bytes, size_t len, off_t at)
{
    CHECK(is_open(file), "descriptor: pwrite() to what is open");
    CHECK(__CPROVER_r_ok(bytes, len), "memory: pwrite() of bytes that are there");
    CHECK(at >= 0, "step: pwrite() at a place");
    return counted(PWRITE, (Call){.file = file, .len = len, .at = at, .byte = len > 0 ? *(const uint8_t *)bytes : 0});
}

int fsync(int file)
{
    CHECK(is_open(file), "descriptor: fsync() of what is open");
    return outcome(FSYNC, (Call){.file = file});
}

int ftruncate(int file, off_t len)
{
    CHECK(is_open(file), "descriptor: ftruncate() of what is open");
    CHECK(len >= 0, "step: ftruncate() to a length");
    return outcome(FTRUNCATE, (Call){.file = file, .len = (size_t)len});
}

off_t lseek(int file, off_t at, int whence)
{
    (void)whence;
    CHECK(is_open(file), "descriptor: lseek() of what is open");
    return outcome(LSEEK, (Call){.file = file}) == 0 ? at : -1;
}

int fchmod(int file, mode_t mode)
{
    CHECK(is_open(file), "descriptor: fchmod() of what is open");
    return outcome(FCHMOD, (Call){.file = file, .mode = mode});
}

int fchown(int file, uid_t user, gid_t group)
{
    CHECK(is_open(file), "descriptor: fchown() of what is open");
    return outcome(FCHOWN, (Call){.file = file, .mode = user, .len = group});
}

int fchownat(int folder, const char *name, uid_t user, gid_t group, int flags)
{
    CHECK(is_open(folder), "descriptor: fchownat() of what is open");
    return outcome(FCHOWNAT, (Call){.file = folder, .name = name, .mode = user, .len = group, .flags = flags});
}

/* ---- what names are */

static int stated(Kind kind, Call call, struct stat *found)
{
    CHECK(__CPROVER_w_ok(found, sizeof *found), "memory: stat() into room that is there");
    if (outcome(kind, call) != 0)
        return -1;
    struct stat any;
    GIVEN(any.st_size >= 0);
    GIVEN(any.st_mtim.tv_nsec >= 0 && any.st_mtim.tv_nsec < 1000000000 && any.st_ctim.tv_nsec >= 0 && any.st_ctim.tv_nsec < 1000000000);
    *found = any;
    return 0;
}

int fstat(int file, struct stat *found)
{
    CHECK(is_open(file), "descriptor: fstat() of what is open");
    return stated(FSTAT, (Call){.file = file}, found);
}

int stat(const char *name, struct stat *found)
{
    CHECK(__CPROVER_r_ok(name, 1), "memory: stat() has a name");
    return stated(STAT, (Call){.file = -1, .name = name}, found);
}

int fstatat(int folder, const char *name, struct stat *found, int flags)
{
    CHECK(is_folder(folder), "descriptor: fstatat() in a folder that is open");
    CHECK(__CPROVER_r_ok(name, 1), "memory: fstatat() has a name");
    return stated(FSTATAT, (Call){.file = folder, .name = name, .flags = flags}, found);
}

static ssize_t target_of(int folder, const char *name, char *room, size_t len)
{
    CHECK(__CPROVER_w_ok(room, len), "memory: a link's target into room that is there");
    if (outcome(READLINKAT, (Call){.file = folder, .name = name, .len = len}) != 0)
        return -1;
    size_t count = any_size();
    GIVEN(count <= len && count <= 2); /* a target of two bytes */
    for (size_t i = 0; i < 2; i++) {
        if (i < count)
            room[i] = (char)any_byte();
        GIVEN(i >= count || room[i] != 0);
    }
    return (ssize_t)count;
}

ssize_t readlinkat(int folder, const char *name, char *room, size_t len)
{
    CHECK(is_open(folder), "descriptor: readlinkat() of what is open");
    return target_of(folder, name, room, len);
}

ssize_t readlink(const char *name, char *room, size_t len)
{
    return target_of(AT_FDCWD, name, room, len);
}

int mkdirat(int folder, const char *name, mode_t mode)
{
    CHECK(is_open(folder), "descriptor: mkdirat() in a folder that is open");
    return outcome(MKDIRAT, (Call){.file = folder, .name = name, .mode = mode});
}

int renameat(int folder, const char *name, int other_folder, const char *other)
{
    CHECK(is_open(folder) && folder == other_folder, "descriptor: renameat() in one folder that is open");
    return outcome(RENAMEAT, (Call){.file = folder, .name = name, .other = other});
}

int renameat2(int folder, const char *name, int other_folder, const char *other, unsigned flags)
{
    CHECK(is_open(folder) && folder == other_folder, "descriptor: renameat2() in one folder that is open");
    return outcome(RENAMEAT2, (Call){.file = folder, .name = name, .other = other, .flags = (int)flags});
}

int linkat(int folder, const char *name, int other_folder, const char *other, int flags)
{
    CHECK(is_open(folder) && is_open(other_folder), "descriptor: linkat() of what is open");
    CHECK(folder == other_folder || (flags & AT_EMPTY_PATH) != 0, "descriptor: linkat() in one folder, or of a file by itself");
    return outcome(LINKAT, (Call){.file = folder, .name = name, .other = other, .flags = flags});
}

int unlinkat(int folder, const char *name, int flags)
{
    CHECK(is_open(folder), "descriptor: unlinkat() in a folder that is open");
    return outcome(UNLINKAT, (Call){.file = folder, .name = name, .flags = flags});
}

/* ---- mappings: no memory of malloc(), so that free() of one is an error */

void *mmap(void *at, size_t len, int rights, int flags, int file, off_t from)
{
    (void)at, (void)rights, (void)flags, (void)from;
    CHECK(is_open(file), "descriptor: mmap() of what is open");
    CHECK(len > 0, "memory: mmap() of a byte at least");
    CHECK(!has_mapping, "memory: mmap() once");
    if (outcome(MMAP, (Call){.file = file, .len = len}) != 0)
        return MAP_FAILED;
    has_mapping = true;
    return mapping;
}

int munmap(void *at, size_t len)
{
    CHECK(has_mapping && at == mapping && last[MMAP].len == len, "memory: munmap() of what is mapped, whole");
    note(MUNMAP, (Call){.len = len});
    has_mapping = false;
    return 0;
}

/* ---- the lock */

int flock(int file, int how)
{
    CHECK(is_open(file), "descriptor: flock() of what is open");
    if (how == LOCK_UN) {
        note(UNFLOCK, (Call){.file = file});
        flocked = flocked == file ? -1 : flocked;
        return 0;
    }
    CHECK(flocked == -1, "order: flock() of one file at a time");
    if (outcome(FLOCK, (Call){.file = file, .flags = how}) != 0)
        return -1;
    flocked = file;
    return 0;
}
