/* What may end a thread or the process amid a call: disturbed FOLDER, as calls.c has it. A cancellation waits until the call is done, and
 * a write beyond RLIMIT_FSIZE is refused. dconf's library has neither call. */
#define _GNU_SOURCE
#include "try.h"

#include <errno.h>
#include <fcntl.h>
#include <pthread.h>
#include <signal.h>
#include <stdatomic.h>
#include <sys/file.h>
#include <sys/resource.h>
#include <sys/wait.h>
#include <unistd.h>

static DconfdbError error = DCONFDB_ERROR_INIT;
static DconfdbStore *store;
static atomic_bool is_made, has_returned;

static bool changes(const char *text)
{
    DconfdbEdit edit = sets_text("/k", text);
    return dconfdb_store_change(store, NULL, &edit, 1, &error);
}

/* ---- cancellation */

static void *makes_it(void *unused)
{
    is_made = changes("cancelled");
    has_returned = true;
    pthread_testcancel();
    return unused;
}

/* Uses the stack that the thread before it had. */
static void *scribbles(void *unused)
{
    volatile char room[200000];
    for (size_t i = 0; i < sizeof room; i++)
        room[i] = 0x41;
    return unused;
}

/* It ends itself by a signal that a fault is not. */
static void child_lives(void)
{
    int status;
    pid_t child = fork();
    TRY(child >= 0);
    if (child == 0)
        raise(SIGKILL);
    TRY(waitpid(child, &status, 0) == child && WIFSIGNALED(status) && WTERMSIG(status) == SIGKILL);
}

static int locks(void)
{
    int lock = open(".lock", O_RDWR | O_CREAT | O_CLOEXEC, 0600);
    TRY(lock >= 0 && flock(lock, LOCK_EX) == 0);
    return lock;
}

static void tries_cancelled(void)
{
    pthread_t thread;
    void *result;
    int lock = locks();
    TRY(pthread_create(&thread, NULL, makes_it, NULL) == 0 && usleep(200000) == 0);
    TRY(pthread_cancel(thread) == 0 && usleep(200000) == 0 && !has_returned && close(lock) == 0);
    TRY(pthread_join(thread, &result) == 0 && result == PTHREAD_CANCELED && is_made && has_returned);
    TRY(pthread_create(&thread, NULL, scribbles, NULL) == 0 && pthread_join(thread, NULL) == 0);
    child_lives();
    TRY(changes("after it") && close(locks()) == 0);
}

/* Each call, by a thread that is cancelled already. */
static void *calls_all(void *unused)
{
    bool changed;
    size_t size;
    TRY(pthread_cancel(pthread_self()) == 0);
    DconfdbStore *other = dconfdb_store_open(".", &error);
    TRY(other && dconfdb_store_refresh(other, &changed, &error) && dconfdb_store_fd(other, &error) >= 0);
    free(dconfdb_store_dispatch(other, &size, &error));
    free(dconfdb_store_files(".", &size, &error));
    DconfdbSnapshot *now = dconfdb_store_snapshot(other);
    DconfdbEdit edit = sets_text("/k", "by all");
    TRY(dconfdb_snapshot_is_newest(now) && dconfdb_store_change(other, now, &edit, 1, &error));
    dconfdb_snapshot_unref(now);
    dconfdb_store_close(other);
    DconfdbStore *none = dconfdb_store_open("site.db", &error);
    TRY(!none);
    has_returned = true;
    pthread_testcancel();
    return unused;
}

static void tries_all(void)
{
    pthread_t thread;
    void *result;
    int next = next_descriptor();
    has_returned = false;
    TRY(pthread_create(&thread, NULL, calls_all, NULL) == 0 && pthread_join(thread, &result) == 0);
    TRY(result == PTHREAD_CANCELED && has_returned && next_descriptor() == next);
}

/* ---- a limit of files' lengths */

static volatile sig_atomic_t heard;

static void hears(int number)
{
    heard = number;
}

static bool is_pending(void)
{
    sigset_t pending;
    TRY(sigpending(&pending) == 0);
    return sigismember(&pending, SIGXFSZ) == 1;
}

static void is_refused(void)
{
    TRY(!changes("beyond it") && error.code == DCONFDB_ERROR_FILE && error.errnum == EFBIG && error.outcome == DCONFDB_OUTCOME_KEPT);
    TRY(access("me.user.new", F_OK) != 0);
}

static void tries_limit(void)
{
    struct rlimit old, little;
    struct sigaction action = {.sa_handler = hears};
    sigset_t limit;
    TRY(getrlimit(RLIMIT_FSIZE, &old) == 0 && changes("within it"));
    little = (struct rlimit){64, old.rlim_max};
    TRY(setrlimit(RLIMIT_FSIZE, &little) == 0);
    is_refused();
    /* A handler hears nothing of it, and a signal that the program has blocked itself, and was sent, stays. */
    TRY(sigaction(SIGXFSZ, &action, NULL) == 0 && sigemptyset(&limit) == 0 && sigaddset(&limit, SIGXFSZ) == 0);
    is_refused();
    TRY(heard == 0 && sigprocmask(SIG_BLOCK, &limit, NULL) == 0);
    is_refused();
    TRY(!is_pending() && raise(SIGXFSZ) == 0);
    is_refused();
    TRY(is_pending() && heard == 0 && sigprocmask(SIG_UNBLOCK, &limit, NULL) == 0 && heard == SIGXFSZ);
    TRY(setrlimit(RLIMIT_FSIZE, &old) == 0 && changes("without it"));
}

int main(int argc, char **argv)
{
    TRY(argc == 2 && chdir(argv[1]) == 0);
    store = dconfdb_store_open(".", &error);
    TRY(store);
    tries_cancelled();
    tries_all();
    tries_limit();
    dconfdb_store_close(store);
    return 0;
}
