/* common/held.c: SIGXFSZ is held back while a call writes, which may send it; and what else is blocked, or was sent before, stays as it is. */
#include "common/held.c"
#include "world.h"

static bool is_blocked, is_sent, is_got; /* of SIGXFSZ: whether this thread blocks it, it has been sent, and acted */
static bool has_sigset;                  /* a set has it, and nothing else */
static unsigned masks;

int sigemptyset(sigset_t *set)
{
    set->__val[0] = 0;
    return 0;
}

int sigaddset(sigset_t *set, int number)
{
    CHECK(number == SIGXFSZ, "step: no other signal is touched");
    set->__val[0] = 1;
    return 0;
}

int sigismember(const sigset_t *set, int number)
{
    CHECK(number == SIGXFSZ, "step: no other signal is asked for");
    return (int)(set->__val[0] & 1);
}

int sigpending(sigset_t *set)
{
    set->__val[0] = is_sent;
    return 0;
}

/* What is sent and not blocked acts at once. */
int pthread_sigmask(int how, const sigset_t *set, sigset_t *old)
{
    masks++;
    if (masks == 1 && any_bool())
        return any_fault() | 1;
    if (old)
        old->__val[0] = is_blocked;
    CHECK(how == SIG_BLOCK || how == SIG_SETMASK, "step: signals are blocked, or as before");
    is_blocked = (set->__val[0] & 1) != 0 || (how == SIG_BLOCK && is_blocked);
    is_got = is_got || (is_sent && !is_blocked);
    is_sent = is_sent && is_blocked;
    return 0;
}

int sigtimedwait(const sigset_t *set, siginfo_t *of, const struct timespec *wait)
{
    (void)of;
    CHECK((set->__val[0] & 1) != 0 && is_blocked, "order: what is taken is blocked");
    CHECK(wait && wait->tv_sec == 0 && wait->tv_nsec == 0, "step: nobody waits for it");
    bool was = is_sent;
    is_sent = false;
    return was ? SIGXFSZ : -1;
}

/* harness held: unwind 2, quick */
int held(void)
{
    HeldSignal it;
    bool was_blocked = is_blocked = any_bool();
    bool was_sent = is_sent = was_blocked && any_bool();
    hold_limit_signal(&it);
    CHECK(it.is_held == is_blocked || was_blocked, "answer: whether it is held");
    if (it.is_held && any_bool())
        is_sent = true;
    release_limit_signal(&it);
    CHECK(!is_got, "order: what came of a write is taken before it is let act");
    CHECK(is_blocked == was_blocked, "answer: it is blocked as before");
    CHECK(is_sent == was_sent, "answer: what was sent before stays, and nothing else");
    if (masks == 2 && was_sent)
        REACHED("one that was sent before stays");
    return 0;
}
