/* What root makes in a folder of another's, who puts other things in its place meanwhile: roots FOLDER. It is linked with --wrap of mkdir,
 * mkdirat, fstatat64, openat64, renameat2 and fchown. Whatever is done, nothing of root's is given away, and nothing is made where the other
 * one's links lead; and where root is killed while it makes a lock, the other one can lock still. As another user than root there is nothing to
 * try. */
#define _GNU_SOURCE
#define _FILE_OFFSET_BITS 64
#include "try.h"

#include <errno.h>
#include <fcntl.h>
#include <limits.h>
#include <signal.h>
#include <stdarg.h>
#include <sys/inotify.h>
#include <sys/stat.h>
#include <sys/wait.h>
#include <unistd.h>

enum { NOBODY = 65534, ROUNDS = 30 };

int __real_mkdir(const char *path, mode_t mode);
int __real_mkdirat(int folder, const char *path, mode_t mode);
int __real_fstatat64(int folder, const char *path, struct stat *found, int flags);
int __wrap_mkdir(const char *path, mode_t mode);
int __wrap_mkdirat(int folder, const char *path, mode_t mode);
int __wrap_fstatat64(int folder, const char *path, struct stat *found, int flags);

static DconfdbError error = DCONFDB_ERROR_INIT;
static int here;
static bool is_lenient;

/* What the other one does as soon as a folder is made, or before the user's file is looked at for so often. */
static void (*once_made)(void), (*before_look)(void);
static int looks;
static char made[PATH_MAX]; /* the last name of the folder that was */

static void acts(void (**what)(void))
{
    void (*now)(void) = *what;
    *what = NULL;
    if (now)
        now();
}

int __wrap_mkdir(const char *path, mode_t mode)
{
    int done = __real_mkdir(path, mode);
    snprintf(made, sizeof made, "u/.config/%s", strrchr(path, '/') + 1);
    acts(&once_made);
    return done;
}

int __wrap_mkdirat(int folder, const char *path, mode_t mode)
{
    int done = __real_mkdirat(folder, path, mode);
    snprintf(made, sizeof made, "u/.config/%s", path);
    acts(&once_made);
    return done;
}

int __wrap_fstatat64(int folder, const char *path, struct stat *found, int flags)
{
    if (before_look && strcmp(path, "user.user") == 0 && --looks == 0)
        acts(&before_look);
    return __real_fstatat64(folder, path, found, flags);
}

/* How a lock can be made here: without a name, with another one that is exchanged, or with another one that is linked. */
enum { BY_NO_NAME, BY_A_RENAME, BY_A_LINK, WAYS };
static int way;
static bool kills; /* who gives a file to another: it stops, and is killed from outside, as valgrind is no witness of one that kills itself */

int __real_openat64(int folder, const char *path, int flags, ...);
int __wrap_openat64(int folder, const char *path, int flags, ...);
int __real_renameat2(int folder, const char *name, int other_folder, const char *other, unsigned flags);
int __wrap_renameat2(int folder, const char *name, int other_folder, const char *other, unsigned flags);
int __real_fchown(int file, uid_t user, gid_t group);
int __wrap_fchown(int file, uid_t user, gid_t group);

int __wrap_openat64(int folder, const char *path, int flags, ...)
{
    va_list words;
    va_start(words, flags);
    mode_t mode = (flags & O_CREAT) != 0 || (flags & O_TMPFILE) == O_TMPFILE ? va_arg(words, mode_t) : 0;
    va_end(words);
    if (way != BY_NO_NAME && (flags & O_TMPFILE) == O_TMPFILE) {
        errno = EOPNOTSUPP;
        return -1;
    }
    return __real_openat64(folder, path, flags, mode);
}

int __wrap_renameat2(int folder, const char *name, int other_folder, const char *other, unsigned flags)
{
    if (way == BY_A_LINK) {
        errno = EINVAL;
        return -1;
    }
    return __real_renameat2(folder, name, other_folder, other, flags);
}

int __wrap_fchown(int file, uid_t user, gid_t group)
{
    if (kills)
        raise(SIGSTOP);
    return __real_fchown(file, user, group);
}

/* ---- what is there at first: u/.config is the other one's, and elsewhere/dconfdb is root's */

static void runs(const char *words)
{
    TRY(system(words) == 0);
}

static void begins(void)
{
    runs("rm -rf u elsewhere && mkdir -p u/.config elsewhere/dconfdb && chown -R 65534:65534 u");
}

static bool is_of(const char *file, uid_t owner)
{
    struct stat found;
    TRY(lstat(file, &found) == 0);
    return found.st_uid == owner;
}

static bool is_untouched(void)
{
    return is_of("elsewhere/dconfdb", 0) && rmdir("elsewhere/dconfdb") == 0;
}

static bool sets_key(const char *folder, const char *path)
{
    DconfdbOptions options = DCONFDB_OPTIONS_INIT;
    options.is_unsynced = true;
    options.is_lenient = is_lenient;
    DconfdbStore *store = dconfdb_store_open_with(folder, &options, &error);
    DconfdbEdit edit = sets_text(path, "value");
    bool done = store && dconfdb_store_change(store, NULL, &edit, 1, &error);
    dconfdb_store_close(store);
    return done;
}

static bool sets(const char *folder)
{
    return sets_key(folder, "/key");
}

/* ---- one after another */

static void moves(void)
{
    TRY(rename("u/.config", "u/.moved") == 0 && symlink("../elsewhere", "u/.config") == 0 && lchown("u/.config", NOBODY, NOBODY) == 0);
}

static void tries_moved(void)
{
    begins();
    once_made = moves;
    bool done = sets("u/.config/dconfdb");
    TRY(is_untouched() && is_of("u/.moved/dconfdb", NOBODY) && !done && error.code == DCONFDB_ERROR_FILE && error.errnum == EACCES);
}

/* A folder of root's, with what is in it, takes the place of the one that was just made. */
static void puts_roots(void)
{
    TRY(rename(made, "u/.config/new") == 0 && rename("u/.config/roots", made) == 0);
}

static void tries_another(void)
{
    begins();
    runs("mkdir -m 700 u/.config/roots && echo secret > u/.config/roots/letter");
    once_made = puts_roots;
    bool done = sets("u/.config/dconfdb");
    TRY(is_of(made, 0) && !done && error.code == DCONFDB_ERROR_FILE && chdir(made) == 0 && is_of("letter", 0) && access("user.user", F_OK) != 0 && fchdir(here) == 0);
}

/* A link in a folder of another's, or one where others may write, is not followed; another one is. */
static void tries_links(void)
{
    begins();
    runs("ln -s ../../elsewhere/dconfdb u/.config/dconfdb");
    TRY(!sets("u/.config/dconfdb") && error.code == DCONFDB_ERROR_FILE && error.errnum == EACCES && is_untouched());
    begins();
    runs("mkdir -m 1777 u/open && chown 0:0 u/open && ln -s ../../elsewhere u/open/link");
    TRY(!sets("u/open/link/dconfdb") && is_untouched());
    begins();
    runs("ln -sfn u/.config link && ln -sfn link/dconfdb again");
    TRY(sets("link/dconfdb") && is_of("u/.config/dconfdb", NOBODY) && is_of("u/.config/dconfdb/.lock", NOBODY));
    TRY(sets("again") && sets("u/.config/../.config/./dconfdb//") && is_of("u/.config/dconfdb/user.user", NOBODY));
    /* Where a link leads nothing is made. */
    runs("ln -sfn missing/folder again");
    TRY(!sets("again") && error.errnum == ENOENT && access("missing", F_OK) != 0);
    runs("ln -sfn again again");
    TRY(!sets("again") && error.errnum == ELOOP);
}

/* Who isn't root goes where his links lead. */
static void tries_others(void)
{
    begins();
    runs("mkdir u/elsewhere && ln -s ../elsewhere/more u/.config/dconfdb && mkdir u/elsewhere/more && chown -R 65534:65534 u");
    pid_t child = fork();
    TRY(child >= 0);
    if (child == 0) {
        TRY(setgid(NOBODY) == 0 && setuid(NOBODY) == 0 && sets("u/.config/dconfdb") && sets("u/new/folders"));
        _exit(0);
    }
    int status;
    TRY(waitpid(child, &status, 0) == child && status == 0);
    TRY(is_of("u/elsewhere/more/user.user", NOBODY) && is_of("u/new/folders/user.user", NOBODY));
}

/* ---- a lock that root makes is the other one's as soon as it has its name */

static int runs_as(void (*what)(void))
{
    int status;
    pid_t child = fork();
    TRY(child >= 0);
    if (child == 0) {
        what();
        _exit(0);
    }
    TRY(waitpid(child, &status, WUNTRACED) == child);
    if (WIFSTOPPED(status))
        TRY(kill(child, SIGKILL) == 0 && waitpid(child, &status, 0) == child);
    return status;
}

static void is_killed(void)
{
    kills = true;
    (void)sets("u/.config/dconfdb");
}

static void sets_as_other(void)
{
    TRY(setgid(NOBODY) == 0 && setuid(NOBODY) == 0 && sets("u/.config/dconfdb"));
}

static void tries_killed(void)
{
    for (way = BY_NO_NAME; way < WAYS; way++) {
        begins();
        runs("mkdir u/.config/dconfdb && chown 65534:65534 u/.config/dconfdb");
        int status = runs_as(is_killed);
        TRY(WIFSIGNALED(status) && WTERMSIG(status) == SIGKILL && access("u/.config/dconfdb/.lock", F_OK) != 0);
        TRY(runs_as(sets_as_other) == 0 && is_of("u/.config/dconfdb/.lock", NOBODY));
        begins();
        TRY(sets("u/.config/dconfdb") && is_of("u/.config/dconfdb/.lock", NOBODY));
        runs("test \"$(ls -A u/.config/dconfdb | tr '\\n' ' ')\" = '.lock user.user '");
    }
    way = BY_NO_NAME;
}

/* ---- the user's file is a link to one of root's when it is read, and his own when it is asked whose it is */

static void puts_own(void)
{
    runs("rm u/.config/user.user && cp own u/.config/user.user && chown 65534:65534 u/.config/user.user");
}

/* `torn`: root's own can be repaired only. */
static void tries_file(bool torn)
{
    is_lenient = torn;
    for (looks = 1; looks <= 4; looks++) {
        int count = looks;
        begins();
        TRY(sets_key("elsewhere", "/secret") && sets_key("other", "/other"));
        runs("cp other/user.user own && sed -i s/value/OTHER/ elsewhere/user.user && ln -s ../../elsewhere/user.user u/.config/user.user");
        if (torn)
            runs("printf '\\0' | dd of=elsewhere/user.user bs=1 seek=33 conv=notrunc 2> /dev/null");
        before_look = puts_own;
        (void)sets("u/.config");
        before_look = NULL;
        looks = count;
        TRY(is_of("elsewhere/user.user", 0) && (!is_of("u/.config/user.user", NOBODY) || system("grep -q OTHER u/.config/user.user") != 0));
    }
}

/* ---- at once */

/* As soon as a folder is made in his. */
static void races(void)
{
    char events[4096];
    int watch = inotify_init1(IN_CLOEXEC);
    TRY(setgid(NOBODY) == 0 && setuid(NOBODY) == 0);
    TRY(watch >= 0 && inotify_add_watch(watch, "u/.config", IN_CREATE) >= 0);
    TRY(symlink("/nowhere", "u/ready") == 0);
    if (read(watch, events, sizeof events) > 0 && rename("u/.config", "u/.moved") == 0)
        (void)symlink("../elsewhere", "u/.config");
    _exit(0);
}

static void tries_races(void)
{
    struct stat found;
    for (int i = 0; i < ROUNDS; i++) {
        begins();
        pid_t child = fork();
        TRY(child >= 0);
        if (child == 0)
            races();
        while (lstat("u/ready", &found) != 0)
            usleep(100);
        (void)sets("u/.config/dconfdb");
        TRY(waitpid(child, NULL, 0) == child && is_untouched());
    }
}

int main(int argc, char **argv)
{
    TRY(argc == 2 && chdir(argv[1]) == 0);
    if (geteuid() != 0) {
        puts("nothing of root's is tried, since nobody here is root");
        return 0;
    }
    here = open(".", O_RDONLY | O_CLOEXEC);
    TRY(here >= 0 && chmod(".", 0755) == 0);
    tries_moved();
    tries_another();
    tries_links();
    tries_others();
    tries_killed();
    tries_file(false);
    tries_file(true);
    is_lenient = false;
    tries_races();
    printf("in %d races, and where links and folders are exchanged, nothing of root's is given away\n", ROUNDS);
    return 0;
}
