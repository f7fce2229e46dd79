/* Before each file of C that is to be traced (`cc -include trace.h`): who takes a lock says so, by the name that it has there. */
#pragma once
#include <pthread.h>

void trace_takes(const void *lock, const char *name); /* it may wait for it */
void trace_has(const void *lock, const char *name);   /* it was free */
void trace_gives(const void *lock);

#define pthread_mutex_lock(lock) (trace_takes((lock), #lock), pthread_mutex_lock(lock))
#define pthread_mutex_unlock(lock) (trace_gives(lock), pthread_mutex_unlock(lock))
#define pthread_mutex_trylock(lock) (pthread_mutex_trylock(lock) == 0 ? (trace_has((lock), #lock), 0) : EBUSY)
#define flock(file, how) trace_flock((file), (how))
int trace_flock(int file, int how);

#ifdef TRACES_GLIB
#include <gio/gio.h>
#undef g_mutex_lock
#undef g_mutex_unlock
#undef g_mutex_trylock
#define g_mutex_lock(lock) (trace_takes((lock), #lock), (g_mutex_lock)(lock))
#define g_mutex_unlock(lock) (trace_gives(lock), (g_mutex_unlock)(lock))
#define g_mutex_trylock(lock) ((g_mutex_trylock)(lock) ? (trace_has((lock), #lock), TRUE) : FALSE)
#endif
