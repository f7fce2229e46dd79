/* What is opened to be read: opens FOLDER, as calls.c has it. A file on which another program has a lease is waited for, for about a second,
 * of which a time doesn't count in which the machine stands still; a pipe is not opened, so that who waits to write into it goes on waiting. dconf maps whatever has the name, and waits for both. */
#define _GNU_SOURCE
#include "try.h"

#include <errno.h>
#include <fcntl.h>
#include <signal.h>
#include <sys/stat.h>
#include <sys/wait.h>
#include <time.h>
#include <unistd.h>

static DconfdbError error = DCONFDB_ERROR_INIT;

/* What has the file open for a moment, as a program that looks at all processes has, is waited for: for ten seconds. */
static bool has_lease(int file)
{
    for (int i = 0; i < 1000; i++) {
        if (fcntl(file, F_SETLEASE, F_WRLCK) == 0)
            return true;
        if (errno != EAGAIN)
            return false;
        usleep(10000);
    }
    return false;
}

/* Another program, which has a lease and gives it back so many milliseconds after it is asked for. -1: there are no leases here. */
static pid_t leases(const char *name, int milliseconds)
{
    int ready[2];
    char said = 0;
    TRY(pipe(ready) == 0);
    pid_t child = fork();
    TRY(child >= 0);
    if (child == 0) {
        sigset_t asked;
        int number, file = open(name, O_RDWR);
        TRY(sigemptyset(&asked) == 0 && sigaddset(&asked, SIGIO) == 0 && sigprocmask(SIG_BLOCK, &asked, NULL) == 0 && file >= 0);
        said = has_lease(file) ? 'y' : 'n';
        TRY(write(ready[1], &said, 1) == 1 && said == 'y' && sigwait(&asked, &number) == 0 && usleep((useconds_t)milliseconds * 1000) == 0);
        TRY(fcntl(file, F_SETLEASE, F_UNLCK) == 0);
        raise(SIGKILL);
    }
    TRY(close(ready[1]) == 0 && read(ready[0], &said, 1) == 1 && close(ready[0]) == 0);
    return said == 'y' ? child : -1;
}

static bool opens(void)
{
    DconfdbStore *store = dconfdb_store_open(".", &error);
    dconfdb_store_close(store);
    return store != NULL;
}

/* What must succeed says why it didn't. */
static void is_done(bool done)
{
    if (!done)
        fprintf(stderr, "opens: %s\n", error.text);
    TRY(done);
}

static void ends(pid_t other)
{
    TRY(waitpid(other, NULL, 0) == other);
}

static bool tries_leases(void)
{
    DconfdbStore *store = dconfdb_store_open(".", &error);
    DconfdbEdit edit = sets_text("/k", "1");
    is_done(store && dconfdb_store_change(store, NULL, &edit, 1, &error));
    pid_t other = leases("me.user", 50);
    if (other < 0) {
        dconfdb_store_close(store);
        return false;
    }
    edit = sets_text("/k", "2");
    is_done(dconfdb_store_change(store, NULL, &edit, 1, &error));
    ends(other);
    /* A lease can't be had on what is mapped. */
    dconfdb_store_close(store);
    other = leases("site.db", 50);
    TRY(other > 0);
    is_done(opens());
    ends(other);
    return true;
}

/* One that isn't given back. */
static void tries_kept_lease(void)
{
    pid_t other = leases("me.user", 600000);
    double began = seconds(CLOCK_MONOTONIC);
    TRY(other > 0 && !opens() && error.code == DCONFDB_ERROR_FILE && error.errnum == EWOULDBLOCK && strstr(error.text, "/me.user: "));
    TRY(seconds(CLOCK_MONOTONIC) - began > 0.8 && seconds(CLOCK_MONOTONIC) - began < 60 && kill(other, SIGKILL) == 0);
    ends(other);
    is_done(opens());
}

/* Stops both programs for a second and a half, soon after the one asked for the lease of the other. */
static pid_t stops(pid_t one, pid_t other)
{
    pid_t child = fork();
    TRY(child >= 0);
    if (child == 0) {
        usleep(100000);
        kill(one, SIGSTOP);
        kill(other, SIGSTOP);
        usleep(1500000);
        kill(one, SIGCONT);
        usleep(20000);
        kill(other, SIGCONT);
        _exit(0);
    }
    return child;
}

/* The machine stands still, and then who has the lease is the last to go on. */
static void tries_standstill(void)
{
    pid_t other = leases("site.db", 300), third = stops(getpid(), other);
    TRY(other > 0);
    is_done(opens());
    ends(third);
    ends(other);
}

/* Another program, which waits for one that reads. */
static void tries_pipe(void)
{
    int status;
    TRY(rename("site.db", "kept") == 0 && mkfifo("site.db", 0600) == 0);
    pid_t child = fork();
    TRY(child >= 0);
    if (child == 0) {
        int pipe = open("site.db", O_WRONLY);
        usleep(100000);
        _exit(write(pipe, "a word", 6) == 6 ? 1 : 2);
    }
    usleep(200000);
    for (int i = 0; i < 20; i++)
        TRY(!opens() && error.code == DCONFDB_ERROR_FILE && error.errnum == EINVAL && error.database == 1);
    usleep(300000);
    TRY(waitpid(child, &status, WNOHANG) == 0 && kill(child, SIGKILL) == 0 && waitpid(child, &status, 0) == child);
    TRY(unlink("site.db") == 0 && rename("kept", "site.db") == 0);
}

int main(int argc, char **argv)
{
    TRY(argc == 2 && chdir(argv[1]) == 0);
    tries_pipe();
    if (!tries_leases()) {
        puts("a pipe is not opened; this file system has no leases");
        return 0;
    }
    tries_kept_lease();
    tries_standstill();
    puts("a lease is waited for, and a pipe is not opened");
    return 0;
}
