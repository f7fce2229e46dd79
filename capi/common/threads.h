/* A thread of our own in somebody's program: it takes none of its signals, and has the stack that the proved calls want, whatever the
 * program's own threads have. */
#ifndef THREADS_H
#define THREADS_H

#include <pthread.h>
#include <signal.h>
#include <stdbool.h>
#include <unistd.h>

/* A call takes less than half of it (dconfdb.h); the rest is for what the host lays there, and for a handler of the program's. */
enum { LEAST_STACK = 1 << 20 };

/* Where more is the usual size, it stays. */
static inline bool has_stack(pthread_attr_t *attributes)
{
    size_t size = 0, least = LEAST_STACK;
    long fixed = sysconf(_SC_THREAD_STACK_MIN);
    if (fixed > 0)
        least += (size_t)fixed;
    if (pthread_attr_getstacksize(attributes, &size) == 0 && size >= least)
        return true;
    return pthread_attr_setstacksize(attributes, least) == 0;
}

/* False: none can be had. */
static inline bool thread_begin(pthread_t *thread, void *(*call)(void *), void *data)
{
    sigset_t all, before;
    pthread_attr_t attributes;
    if (pthread_attr_init(&attributes) != 0)
        return false;
    sigfillset(&all);
    pthread_sigmask(SIG_SETMASK, &all, &before);
    bool begun = has_stack(&attributes) && pthread_create(thread, &attributes, call, data) == 0;
    pthread_sigmask(SIG_SETMASK, &before, NULL);
    pthread_attr_destroy(&attributes);
    return begun;
}

#endif
