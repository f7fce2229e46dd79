/* What could end a thread or the process amid a call, held back until it is done. */
#ifndef HELD_H
#define HELD_H

#include <pthread.h>
#include <signal.h>
#include <stdbool.h>

/* Lets no cancellation act on this thread, and gives what was so before, for cancel_as_before(). It may be held already. */
static inline int hold_cancellation(void)
{
    int state = PTHREAD_CANCEL_ENABLE;
    pthread_setcancelstate(PTHREAD_CANCEL_DISABLE, &state);
    return state;
}

static inline void cancel_as_before(int state)
{
    int ours;
    pthread_setcancelstate(state, &ours);
}

/* SIGXFSZ, which a write beyond RLIMIT_FSIZE sends, and ends a process that doesn't heed it. */
typedef struct {
    sigset_t blocked;
    bool is_held, was_pending;
} HeldSignal;

/* This thread gets it no longer: such a write is refused by EFBIG. */
void hold_limit_signal(HeldSignal *held);

/* What came of it meanwhile is taken, so that it isn't got later. */
void release_limit_signal(const HeldSignal *held);

#endif
