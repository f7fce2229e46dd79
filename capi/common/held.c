/* What could end a thread or the process amid a call, held back. */
#define _POSIX_C_SOURCE 200809L
#include "held.h"

#include <time.h>

static void put_limit_signal(sigset_t *set)
{
    sigemptyset(set);
    sigaddset(set, SIGXFSZ);
}

/* One that a thread blocks may have been sent before, and is the program's. */
static bool is_pending(void)
{
    sigset_t pending;
    return sigpending(&pending) == 0 && sigismember(&pending, SIGXFSZ) == 1;
}

void hold_limit_signal(HeldSignal *held)
{
    sigset_t set;
    put_limit_signal(&set);
    held->is_held = pthread_sigmask(SIG_BLOCK, &set, &held->blocked) == 0;
    held->was_pending = held->is_held && sigismember(&held->blocked, SIGXFSZ) == 1 && is_pending();
}

void release_limit_signal(const HeldSignal *held)
{
    static const struct timespec at_once = {0, 0};
    sigset_t set;
    if (!held->is_held)
        return;
    put_limit_signal(&set);
    if (!held->was_pending)
        (void)sigtimedwait(&set, NULL, &at_once);
    pthread_sigmask(SIG_SETMASK, &held->blocked, NULL);
}
