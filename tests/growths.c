/* Preloaded into a program, it counts the growths of its memory, and refuses one of them.
 *
 * GROWTHS_REFUSED is the number of the one that is refused, counted from 1; without it none is. GROWTHS_FILE is the file into which the count is
 * written when the program ends. A growth is a call of malloc or realloc: the program makes no others. */
#define _GNU_SOURCE
#include <errno.h>
#include <fcntl.h>
#include <stdio.h>
#include <stdlib.h>
#include <unistd.h>

/* glibc's own, so that nothing has to be looked up before the first call. */
extern void *__libc_malloc(size_t size);
extern void *__libc_realloc(void *old, size_t size);

static unsigned long growths;
static unsigned long refused;

__attribute__((constructor)) static void begin(void)
{
    const char *number = getenv("GROWTHS_REFUSED");
    refused = number ? strtoul(number, NULL, 10) : 0;
    growths = 0;
}

__attribute__((destructor)) static void end(void)
{
    const char *name = getenv("GROWTHS_FILE");
    if (!name) {
        return;
    }
    int file = open(name, O_WRONLY | O_CREAT | O_TRUNC, 0666);
    if (file < 0 || dprintf(file, "%lu\n", growths) < 0 || close(file) != 0) {
        _exit(3);
    }
}

static int is_refused(void)
{
    growths++;
    return growths == refused;
}

void *malloc(size_t size)
{
    if (is_refused()) {
        errno = ENOMEM;
        return NULL;
    }
    return __libc_malloc(size);
}

void *realloc(void *old, size_t size)
{
    if (is_refused()) {
        errno = ENOMEM;
        return NULL;
    }
    return __libc_realloc(old, size);
}
