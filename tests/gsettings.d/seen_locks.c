/* GLib's mutexes, conditions and callbacks of sources in the words of pthreads, so that tools which look for races see who waits for whom: GLib's own
 * go by futex(2). To be linked into the program, or loaded before it. What GLib calls within itself stays as it is. */
#define _GNU_SOURCE
#include <dlfcn.h>
#include <errno.h>
#include <gio/gio.h>
#include <pthread.h>
#include <stdlib.h>
#include <time.h>

enum { MICROSECONDS = 1000000, NANOSECONDS = 1000 };

/* Behind the pointer that GMutex and GCond have. Each is made at its first use. */
static void *behind(gpointer *place, void *(*make)(void))
{
    void *found = __atomic_load_n(place, __ATOMIC_ACQUIRE), *none = NULL;
    if (found)
        return found;
    void *made = make();
    if (__atomic_compare_exchange_n(place, &none, made, 0, __ATOMIC_ACQ_REL, __ATOMIC_ACQUIRE))
        return made;
    free(made);
    return none;
}

static void *new_mutex(void)
{
    pthread_mutex_t *made = malloc(sizeof *made);
    if (!made || pthread_mutex_init(made, NULL) != 0)
        abort();
    return made;
}

static void *new_condition(void)
{
    pthread_condattr_t kind;
    pthread_cond_t *made = malloc(sizeof *made);
    if (!made || pthread_condattr_init(&kind) != 0 || pthread_condattr_setclock(&kind, CLOCK_MONOTONIC) != 0 || pthread_cond_init(made, &kind) != 0)
        abort();
    return made;
}

static pthread_mutex_t *mutex_of(GMutex *mutex)
{
    return behind(&mutex->p, new_mutex);
}

static pthread_cond_t *condition_of(GCond *condition)
{
    return behind(&condition->p, new_condition);
}

void g_mutex_init(GMutex *mutex)
{
    mutex->p = NULL;
}

void g_mutex_clear(GMutex *mutex)
{
    if (mutex->p && pthread_mutex_destroy(mutex->p) == 0)
        free(mutex->p);
    mutex->p = NULL;
}

void g_mutex_lock(GMutex *mutex)
{
    if (pthread_mutex_lock(mutex_of(mutex)) != 0)
        abort();
}

void g_mutex_unlock(GMutex *mutex)
{
    if (pthread_mutex_unlock(mutex_of(mutex)) != 0)
        abort();
}

gboolean g_mutex_trylock(GMutex *mutex)
{
    return pthread_mutex_trylock(mutex_of(mutex)) == 0;
}

void g_cond_init(GCond *condition)
{
    condition->p = NULL;
}

void g_cond_clear(GCond *condition)
{
    if (condition->p && pthread_cond_destroy(condition->p) == 0)
        free(condition->p);
    condition->p = NULL;
}

void g_cond_signal(GCond *condition)
{
    pthread_cond_signal(condition_of(condition));
}

void g_cond_broadcast(GCond *condition)
{
    pthread_cond_broadcast(condition_of(condition));
}

void g_cond_wait(GCond *condition, GMutex *mutex)
{
    pthread_cond_wait(condition_of(condition), mutex_of(mutex));
}

gboolean g_cond_wait_until(GCond *condition, GMutex *mutex, gint64 end)
{
    struct timespec when = {end / MICROSECONDS, end % MICROSECONDS * NANOSECONDS};
    return pthread_cond_timedwait(condition_of(condition), mutex_of(mutex), &when) != ETIMEDOUT;
}

/* ---- a source's callback comes after what was done before it was set */

static pthread_mutex_t handed = PTHREAD_MUTEX_INITIALIZER;

static void hand(void)
{
    if (pthread_mutex_lock(&handed) != 0 || pthread_mutex_unlock(&handed) != 0)
        abort();
}

typedef struct {
    GSourceFunc callback;
    GDestroyNotify frees;
    gpointer data;
} Handed;

static gboolean call(gpointer data)
{
    Handed *it = data;
    hand();
    return it->callback(it->data);
}

static void let_go(gpointer data)
{
    Handed *it = data;
    hand();
    if (it->frees)
        it->frees(it->data);
    free(it);
}

void g_source_set_callback(GSource *source, GSourceFunc callback, gpointer data, GDestroyNotify frees)
{
    void (*real)(GSource *, GSourceFunc, gpointer, GDestroyNotify) = NULL;
    Handed *it = malloc(sizeof *it);
    *(void **)&real = dlsym(RTLD_NEXT, "g_source_set_callback");
    if (!it || !real)
        abort();
    *it = (Handed){callback, frees, data};
    hand();
    real(source, call, it, let_go);
}
