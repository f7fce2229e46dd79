/* Preloaded: there is no inotify left (INOTIFY=no), the allocation of that number fails (REFUSED=N), or a watch takes so many milliseconds to be
 * had (SLOWED=N). */
#define _GNU_SOURCE
#include <errno.h>
#include <stdlib.h>
#include <string.h>
#include <sys/syscall.h>
#include <unistd.h>

void *__libc_malloc(size_t size);
void *__libc_calloc(size_t count, size_t size);
void *__libc_realloc(void *old, size_t size);

int inotify_init1(int flags)
{
    const char *inotify = getenv("INOTIFY");
    if (!inotify)
        return (int)syscall(SYS_inotify_init1, flags);
    errno = EMFILE;
    return -1;
}

int inotify_add_watch(int file, const char *name, unsigned int what)
{
    const char *slowed = getenv("SLOWED");
    if (slowed)
        usleep((unsigned)atol(slowed) * 1000);
    return (int)syscall(SYS_inotify_add_watch, file, name, what);
}

static int is_refused(void)
{
    static long count;
    const char *refused = getenv("REFUSED");
    if (!refused || ++count != atol(refused))
        return 0;
    errno = ENOMEM;
    return 1;
}

void *malloc(size_t size)
{
    return is_refused() ? NULL : __libc_malloc(size);
}

void *calloc(size_t count, size_t size)
{
    return is_refused() ? NULL : __libc_calloc(count, size);
}

void *realloc(void *old, size_t size)
{
    return is_refused() ? NULL : __libc_realloc(old, size);
}
