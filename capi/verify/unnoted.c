/* What of the system is asked without a note of the call: directories, who and when, texts, mutexes. */
#define _GNU_SOURCE
#define _FILE_OFFSET_BITS 64
#include "world.h"

#include <dirent.h>
#include <errno.h>
#include <pthread.h>
#include <stdio.h>
#include <string.h>
#include <time.h>
#include <unistd.h>

/* ---- directories */

struct __dirstream { int file; };
static struct __dirstream directory;
static bool is_listed;
static struct dirent entry;

/* It takes the descriptor, which closedir() closes. */
DIR *fdopendir(int file)
{
    CHECK(is_open(file), "descriptor: fdopendir() of what is open");
    CHECK(!is_listed, "descriptor: one directory at a time");
    if (any_bool())
        return NULL;
    is_listed = true;
    directory.file = file;
    return &directory;
}

/* Three names, the last of which is none of the folder's own, or the end, or a fault. */
struct dirent *readdir(DIR *names)
{
    static int left = 3;
    CHECK(is_listed && names == &directory, "descriptor: readdir() of a directory that is had");
    if (left == 0 || any_bool()) {
        if (any_bool())
            errno = EIO;
        return NULL;
    }
    left--;
    entry.d_name[0] = (char)any_byte();
    entry.d_name[1] = (char)any_byte();
    entry.d_name[2] = 0;
    GIVEN(left > 0 || entry.d_name[0] != '.');
    return &entry;
}

int closedir(DIR *names)
{
    CHECK(is_listed && names == &directory, "descriptor: closedir() of a directory that is had");
    is_listed = false;
    return close(directory.file);
}

/* ---- who and when */

uid_t geteuid(void)
{
    static bool is_known;
    static uid_t user;
    if (!is_known)
        user = any_u32();
    is_known = true;
    return user;
}

gid_t getegid(void)
{
    static bool is_known;
    static gid_t group;
    if (!is_known)
        group = any_u32();
    is_known = true;
    return group;
}

pid_t getpid(void)
{
    return 7;
}

int clock_gettime(clockid_t clock, struct timespec *now)
{
    (void)clock;
    if (any_bool()) {
        errno = EINVAL;
        return -1;
    }
    struct timespec any;
    GIVEN(any.tv_nsec >= 0 && any.tv_nsec < 1000000000);
    GIVEN(any.tv_sec >= 0 && any.tv_sec < (1LL << 33));
    *now = any;
    return 0;
}

int nanosleep(const struct timespec *wait, struct timespec *left)
{
    (void)wait, (void)left;
    return any_bool() ? 0 : -1;
}

/* ---- texts that CBMC has no model of. What is written is left open, but that it ends. */

int snprintf(char *room, size_t size, const char *format, ...)
{
    (void)format;
    CHECK(size == 0 || __CPROVER_w_ok(room, size), "memory: snprintf() into room that is there");
    if (size > 0) {
        room[0] = (char)any_byte();
        room[size - 1] = 0;
    }
    return any_int();
}

char *stpcpy(char *to, const char *from)
{
    size_t i = 0;
    for (; from[i]; i++)
        to[i] = from[i];
    to[i] = 0;
    return to + i;
}

char *strchrnul(const char *text, int byte)
{
    while (*text && *text != (char)byte)
        text++;
    return (char *)text;
}

/* ---- mutexes */

enum { MOST_MUTEXES = 3 };
static const void *mutexes[MOST_MUTEXES];
void (*at_mutex)(const void *mutex);

bool is_held(const void *mutex)
{
    for (int i = 0; i < MOST_MUTEXES; i++) {
        if (mutexes[i] == mutex)
            return true;
    }
    return false;
}

bool none_is_held(void)
{
    return !mutexes[0] && !mutexes[1] && !mutexes[2];
}

static void take(const void *mutex)
{
    for (int i = 0; i < MOST_MUTEXES; i++) {
        if (!mutexes[i]) {
            mutexes[i] = mutex;
            return;
        }
    }
    CHECK(false, "the world has room for each mutex");
}

int pthread_mutex_lock(pthread_mutex_t *mutex)
{
    CHECK(!is_held(mutex), "order: a mutex is taken once");
    if (at_mutex)
        at_mutex(mutex);
    take(mutex);
    return 0;
}

int pthread_mutex_trylock(pthread_mutex_t *mutex)
{
    static int left = 2;
    if (left > 0 && any_bool()) {
        left--;
        return EBUSY;
    }
    return pthread_mutex_lock(mutex);
}

int pthread_mutex_unlock(pthread_mutex_t *mutex)
{
    CHECK(is_held(mutex), "order: what is given back is had");
    for (int i = 0; i < MOST_MUTEXES; i++) {
        if (mutexes[i] == mutex)
            mutexes[i] = NULL;
    }
    return 0;
}

/* Cancellation is on or off. */
static int cancels = PTHREAD_CANCEL_ENABLE;

bool is_cancel_held(void)
{
    return cancels == PTHREAD_CANCEL_DISABLE;
}

int pthread_setcancelstate(int state, int *old)
{
    if (old)
        *old = cancels;
    cancels = state;
    return 0;
}
