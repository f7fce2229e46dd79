/* Forks amid a change: forks FOLDER WHEN. It tells the numbers of its children, which live on, and is killed while it holds the lock. WHEN is
 * `written`, as the new file is; `opened`, once the lock's file is open, and not known yet to who opens it; or `often`, 60 times, while four
 * threads make changes. With `slow` it takes five seconds to open the lock's file, and says how many milliseconds a fork() took
 * meanwhile. It is linked with --wrap of fsync and openat64. */
#define _GNU_SOURCE
#define _FILE_OFFSET_BITS 64
#include "try.h"

#include <fcntl.h>
#include <pthread.h>
#include <signal.h>
#include <stdarg.h>
#include <stdatomic.h>
#include <sys/types.h>
#include <sys/wait.h>
#include <time.h>
#include <unistd.h>

enum { A_MINUTE = 60, OFTEN = 60, THREADS = 4 };

int __real_fsync(int file);
int __wrap_fsync(int file);
int __real_openat64(int folder, const char *name, int flags, ...);
int __wrap_openat64(int folder, const char *name, int flags, ...);

static const char *folder, *when;
static atomic_bool is_over, is_opening;

static void forks(void)
{
    pid_t child = fork();
    TRY(child >= 0);
    if (child == 0) {
        close(STDOUT_FILENO);
        sleep(A_MINUTE);
        _exit(0);
    }
    printf("%ld\n", (long)child);
    fflush(stdout);
}

static bool is(const char *word)
{
    return strcmp(when, word) == 0;
}

/* The new file is written, and the lock is held. */
int __wrap_fsync(int file)
{
    if (is("written"))
        forks();
    if (is("written") || is("opened") || atomic_load(&is_over))
        kill(getpid(), SIGKILL);
    return is("often") ? 0 : __real_fsync(file);
}

int __wrap_openat64(int above, const char *name, int flags, ...)
{
    va_list more;
    va_start(more, flags);
    mode_t mode = (flags & O_CREAT) != 0 ? va_arg(more, mode_t) : 0;
    va_end(more);
    bool is_lock = strcmp(name, ".lock") == 0;
    if (is_lock && is("slow")) {
        atomic_store(&is_opening, true);
        sleep(5);
    }
    int file = __real_openat64(above, name, flags, mode);
    if (is_lock && file >= 0 && is("opened") && !atomic_exchange(&is_opening, true))
        forks();
    return file;
}

static void *changes(void *path)
{
    DconfdbError error = DCONFDB_ERROR_INIT;
    DconfdbStore *store = dconfdb_store_open(folder, &error);
    TRY(store);
    for (int i = 0; i == 0 || is("often"); i++) {
        char text[16];
        snprintf(text, sizeof text, "%d", i);
        DconfdbEdit edit = sets_text(path, text);
        TRY(dconfdb_store_change(store, NULL, &edit, 1, &error));
    }
    dconfdb_store_close(store);
    return NULL;
}

static void forks_often(void)
{
    static char paths[THREADS][8];
    pthread_t thread;
    for (int i = 0; i < THREADS; i++) {
        snprintf(paths[i], sizeof paths[i], "/k%d", i);
        TRY(pthread_create(&thread, NULL, changes, paths[i]) == 0);
    }
    for (int i = 0; i < OFTEN; i++) {
        usleep(1000 + 137 * (useconds_t)i);
        forks();
    }
    atomic_store(&is_over, true);
    sleep(A_MINUTE);
}

static void forks_amid_open(void)
{
    static char path[] = "/slow";
    struct timespec began, ended;
    pthread_t thread;
    TRY(pthread_create(&thread, NULL, changes, path) == 0);
    while (!atomic_load(&is_opening))
        usleep(1000);
    TRY(clock_gettime(CLOCK_MONOTONIC, &began) == 0);
    pid_t child = fork();
    TRY(child >= 0);
    if (child == 0)
        _exit(0);
    TRY(clock_gettime(CLOCK_MONOTONIC, &ended) == 0 && waitpid(child, NULL, 0) == child && pthread_join(thread, NULL) == 0);
    printf("%ld\n", (long)((ended.tv_sec - began.tv_sec) * 1000 + (ended.tv_nsec - began.tv_nsec) / 1000000));
}

int main(int argc, char **argv)
{
    static char path[] = "/forks";
    TRY(argc == 3);
    folder = argv[1];
    when = argv[2];
    if (is("slow"))
        forks_amid_open();
    else if (is("often"))
        forks_often();
    else
        changes(path);
    return is("slow") ? 0 : 1;
}
