/* Refuses calls of the system, for a program that is started with it in LD_PRELOAD: the first $TIMES calls of $CALL that are made for a store
 * (flock; fsync; openat of a new file; inotify_init1), with the errno $ERRNO. And each fsync takes $SLOW milliseconds longer. As long as
 * there is a file $WHILE, no file of the name $NAME can be opened to be read, by $ERRNO; and as long as there is a file $FLAG, each stat of a
 * user's file takes $STAT milliseconds. */
#define _GNU_SOURCE
#include <dlfcn.h>
#include <errno.h>
#include <fcntl.h>
#include <stdarg.h>
#include <stdatomic.h>
#include <stdlib.h>
#include <string.h>
#include <sys/file.h>
#include <sys/inotify.h>
#include <sys/stat.h>
#include <unistd.h>

static atomic_int count;

static int is_refused(const char *call)
{
    const char *refused = getenv("CALL"), *times = getenv("TIMES"), *fault = getenv("ERRNO");
    if (!refused || !times || !fault || strcmp(refused, call) != 0 || atomic_fetch_add(&count, 1) >= atoi(times))
        return 0;
    errno = atoi(fault);
    return 1;
}

static int is_closed(const char *path, int flags)
{
    const char *name = getenv("NAME"), *flag = getenv("WHILE"), *fault = getenv("ERRNO"), *last = strrchr(path, '/');
    int is_asked = name && flag && fault && (flags & O_ACCMODE) == O_RDONLY && strcmp(last ? last + 1 : path, name) == 0;
    if (!is_asked || access(flag, F_OK) != 0)
        return 0;
    errno = atoi(fault);
    return 1;
}

int flock(int file, int operation)
{
    int (*real)(int, int) = (int (*)(int, int))dlsym(RTLD_NEXT, "flock");
    return (operation & LOCK_EX) != 0 && is_refused("flock") ? -1 : real(file, operation);
}

int fsync(int file)
{
    int (*real)(int) = (int (*)(int))dlsym(RTLD_NEXT, "fsync");
    const char *slow = getenv("SLOW");
    if (slow)
        usleep((useconds_t)atoi(slow) * 1000);
    return is_refused("fsync") ? -1 : real(file);
}

int inotify_init1(int flags)
{
    int (*real)(int) = (int (*)(int))dlsym(RTLD_NEXT, "inotify_init1");
    return is_refused("inotify_init1") ? -1 : real(flags);
}

int openat(int folder, const char *name, int flags, ...)
{
    int (*real)(int, const char *, int, ...) = (int (*)(int, const char *, int, ...))dlsym(RTLD_NEXT, "openat");
    va_list more;
    va_start(more, flags);
    mode_t mode = (flags & O_CREAT) != 0 ? va_arg(more, mode_t) : 0;
    va_end(more);
    if (is_closed(name, flags))
        return -1;
    return (flags & O_EXCL) != 0 && is_refused("openat") ? -1 : real(folder, name, flags, mode);
}

static void is_slow(const char *name)
{
    const char *flag = getenv("FLAG"), *slow = getenv("STAT"), *last = strrchr(name, '.');
    if (flag && slow && last && strcmp(last, ".user") == 0 && access(flag, F_OK) == 0)
        usleep((useconds_t)atoi(slow) * 1000);
}

int stat(const char *name, struct stat *found)
{
    int (*real)(const char *, struct stat *) = (int (*)(const char *, struct stat *))dlsym(RTLD_NEXT, "stat");
    is_slow(name);
    return real(name, found);
}

int stat64(const char *name, struct stat64 *found)
{
    int (*real)(const char *, struct stat64 *) = (int (*)(const char *, struct stat64 *))dlsym(RTLD_NEXT, "stat64");
    is_slow(name);
    return real(name, found);
}

int open(const char *name, int flags, ...)
{
    va_list more;
    va_start(more, flags);
    mode_t mode = (flags & O_CREAT) != 0 ? va_arg(more, mode_t) : 0;
    va_end(more);
    return openat(AT_FDCWD, name, flags, mode);
}

/* Whoever asks for large files calls these. */
int openat64(int folder, const char *name, int flags, ...) __attribute__((alias("openat")));
int open64(const char *name, int flags, ...) __attribute__((alias("open")));
