/* Tries what tells of changes: notices FOLDER, as calls.c has it. inotify_init1, epoll_create1 and timerfd_create are
 * wrapped: each can be had, or not. So is timerfd_settime, which succeeds so many times; and fsync, which may be held. */
#include "try.h"

#include <errno.h>
#include <limits.h>
#include <poll.h>
#include <pthread.h>
#include <stdatomic.h>
#include <sys/inotify.h>
#include <sys/stat.h>
#include <sys/timerfd.h>
#include <time.h>
#include <unistd.h>

int __real_inotify_init1(int flags);
int __wrap_inotify_init1(int flags);
int __real_epoll_create1(int flags);
int __wrap_epoll_create1(int flags);
int __real_timerfd_create(int clock, int flags);
int __wrap_timerfd_create(int clock, int flags);
int __real_timerfd_settime(int file, int flags, const struct itimerspec *next, struct itimerspec *last);
int __wrap_timerfd_settime(int file, int flags, const struct itimerspec *next, struct itimerspec *last);

int __real_fsync(int file);
int __wrap_fsync(int file);

static DconfdbError error = DCONFDB_ERROR_INIT;
static atomic_bool is_held, has_reached, has_given_up; /* fsync */
static bool has_inotify = true, has_epoll = true, has_clock = true;
static size_t sets = SIZE_MAX;

static int fails(void)
{
    errno = EMFILE;
    return -1;
}

int __wrap_inotify_init1(int flags)
{
    return has_inotify ? __real_inotify_init1(flags) : fails();
}

int __wrap_epoll_create1(int flags)
{
    return has_epoll ? __real_epoll_create1(flags) : fails();
}

int __wrap_timerfd_create(int clock, int flags)
{
    return has_clock ? __real_timerfd_create(clock, flags) : fails();
}

int __wrap_timerfd_settime(int file, int flags, const struct itimerspec *next, struct itimerspec *last)
{
    if (sets == 0)
        return fails();
    sets -= sets != SIZE_MAX;
    return __real_timerfd_settime(file, flags, next, last);
}

/* A held one gives up after ten seconds of this program's own. */
int __wrap_fsync(int file)
{
    enum { LONGEST_HELD = 10000 };
    has_reached = has_reached || is_held;
    for (int i = 0; i < LONGEST_HELD && is_held; i++)
        usleep(1000);
    has_given_up = has_given_up || is_held;
    return __real_fsync(file);
}

/* In milliseconds. What is to be soon may take long where the machine stands still; what is not to be yet is told by the clock. */
enum { SOON = 60000, QUIET = 100 };

static long milliseconds(void)
{
    struct timespec now;
    TRY(clock_gettime(CLOCK_MONOTONIC, &now) == 0);
    return now.tv_sec * 1000 + now.tv_nsec / 1000000;
}

/* Whether the file is readable within so many milliseconds. */
static bool is_readable(int file, int wait)
{
    struct pollfd polled = {.fd = file, .events = POLLIN};
    return poll(&polled, 1, wait) == 1 && polled.revents == POLLIN;
}

/* Whether these paths are told next: it is waited for, and then it is quiet. Some events tell of nothing. */
static bool is_told(DconfdbStore *store, const char *wanted, size_t wanted_size)
{
    int file = dconfdb_store_fd(store, &error);
    size_t size = 0;
    TRY(file >= 0);
    while (size == 0) {
        TRY(is_readable(file, SOON));
        char *paths = dconfdb_store_dispatch(store, &size, &error);
        TRY(paths && paths[size] == 0);
        bool is = size == wanted_size && memcmp(paths, wanted, size) == 0;
        if (size != 0 && !is)
            fprintf(stderr, "told: %s\n", paths);
        free(paths);
        if (size != 0 && !is)
            return false;
    }
    return true;
}
#define IS_TOLD(store, wanted) is_told(store, wanted, sizeof wanted - 1)

/* Whether there is nothing to tell, and no more of it than what an event of before may be for. */
static bool is_quiet(DconfdbStore *store)
{
    size_t size = 77;
    while (is_readable(dconfdb_store_fd(store, &error), QUIET)) {
        char *paths = dconfdb_store_dispatch(store, &size, &error);
        bool is = paths && size == 0;
        free(paths);
        if (!is)
            return false;
    }
    return true;
}

static bool changes(DconfdbStore *store, DconfdbEdit edit)
{
    return dconfdb_store_change(store, NULL, &edit, 1, &error);
}

static void makes(const char *name, const char *text)
{
    FILE *file = fopen(name, "w");
    TRY(file && fputs(text, file) >= 0 && fclose(file) == 0);
}

/* By another store, by this one, by a file that replaces the site's; and what was so before anybody asked. */
static void tries_changes(void)
{
    DconfdbStore *store = dconfdb_store_open(".", &error), *other = dconfdb_store_open(".", &error);
    TRY(store && other && changes(other, sets_text("/before", "1")));
    int file = dconfdb_store_fd(store, &error);
    TRY(file >= 0 && dconfdb_store_fd(store, NULL) == file && IS_TOLD(store, "/before\0") && is_quiet(store));
    DconfdbEdit two[] = {sets_text("/b", "1"), sets_text("/a", "1")};
    TRY(dconfdb_store_change(other, NULL, two, 2, &error) && IS_TOLD(store, "/a\0/b\0") && is_quiet(store));
    TRY(changes(store, sets_text("/own", "1")) && IS_TOLD(store, "/own\0") && is_quiet(store));
    TRY(changes(other, (DconfdbEdit){"/a", NULL, NULL, 0}) && changes(store, sets_text("/own", "2")) && dconfdb_store_refresh(store, NULL, NULL));
    TRY(IS_TOLD(store, "/a\0/own\0") && is_quiet(store));
    /* There and back is nothing. */
    TRY(changes(other, sets_text("/own", "3")) && changes(other, sets_text("/own", "2")) && is_quiet(store));
    TRY(rename("site.db", "site.kept") == 0 && IS_TOLD(store, "/org/desk/name\0/org/desk/size\0") && is_quiet(store));
    TRY(rename("site.kept", "site.db") == 0 && IS_TOLD(store, "/org/desk/name\0/org/desk/size\0") && is_quiet(store));
    TRY(changes(store, (DconfdbEdit){"/", NULL, NULL, 0}) && IS_TOLD(store, "/b\0/before\0/own\0") && is_quiet(store));
    dconfdb_store_close(store);
    dconfdb_store_close(other);
}

/* Nobody asks for the file: each call tells since the one before. */
static void tries_without_file(void)
{
    DconfdbStore *store = dconfdb_store_open(".", &error);
    size_t size = 77;
    char *paths = store ? dconfdb_store_dispatch(store, &size, &error) : NULL;
    TRY(paths && size == 0 && *paths == 0);
    free(paths);
    TRY(changes(store, sets_text("/k", "1")));
    paths = dconfdb_store_dispatch(store, &size, NULL);
    TRY(paths && size == 3 && memcmp(paths, "/k\0", 4) == 0);
    free(paths);
    TRY(changes(store, (DconfdbEdit){"/", NULL, NULL, 0}));
    dconfdb_store_close(store);
}

/* A folder that comes later, one that is moved, and a link that is turned. */
static void tries_ways(void)
{
    TRY(mkdir("ways", 0700) == 0 && mkdir("ways/one", 0700) == 0 && mkdir("ways/other", 0700) == 0);
    makes("ways/one/profile", "user-db:me\n");
    makes("ways/other/profile", "user-db:me\n");
    DconfdbStore *one = dconfdb_store_open("ways/one", &error), *other = dconfdb_store_open("ways/other", &error);
    TRY(one && other && changes(one, sets_text("/one", "1")) && changes(other, sets_text("/other", "1")));
    TRY(symlink("one", "ways/link") == 0);
    DconfdbStore *store = dconfdb_store_open("ways/link", &error), *late = dconfdb_store_open("ways/late/er", &error);
    TRY(store && late && dconfdb_store_fd(store, &error) >= 0 && dconfdb_store_fd(late, &error) >= 0);
    TRY(is_quiet(store) && is_quiet(late));
    TRY(symlink("other", "ways/new") == 0 && rename("ways/new", "ways/link") == 0 && IS_TOLD(store, "/one\0/other\0"));
    TRY(changes(other, sets_text("/other", "2")) && IS_TOLD(store, "/other\0") && is_quiet(store));
    TRY(rename("ways/other", "ways/moved") == 0 && IS_TOLD(store, "/other\0") && is_quiet(store));
    TRY(rename("ways/moved", "ways/other") == 0 && IS_TOLD(store, "/other\0") && is_quiet(store));
    DconfdbStore *maker = dconfdb_store_open("ways/late/er", &error);
    TRY(maker && changes(maker, sets_text("/late", "1")) && IS_TOLD(late, "/late\0") && is_quiet(late));
    TRY(symlink("loop", "ways/loop") == 0);
    DconfdbStore *all[] = {one, other, store, late, maker};
    for (size_t i = 0; i < sizeof all / sizeof all[0]; i++)
        dconfdb_store_close(all[i]);
}

/* A database that is a link, or has one on its way: the link is turned, and then the file is replaced to which it leads. It may come in
 * the place of a file. */
static void tries_links(void)
{
    static const char both[] = "/org/desk/name\0/org/desk/size\0";
    TRY(mkdir("ways/v1", 0700) == 0 && mkdir("ways/v2", 0700) == 0 && symlink("v1", "ways/current") == 0);
    TRY(link("site.db", "ways/v1/site.db") == 0 && link("next.db", "ways/v2/site.db") == 0);
    TRY(mkdir("ways/linked", 0700) == 0 && symlink("../v1/site.db", "ways/linked/site.db") == 0);
    makes("ways/linked/profile", "user-db:me\nsystem-db:site\n");
    DconfdbStore *store = dconfdb_store_open("ways/linked", &error);
    TRY(store && dconfdb_store_fd(store, &error) >= 0 && is_quiet(store));
    TRY(symlink("../v2/site.db", "ways/new") == 0 && rename("ways/new", "ways/linked/site.db") == 0 && IS_TOLD(store, both));
    TRY(link("site.db", "ways/new") == 0 && rename("ways/new", "ways/v2/site.db") == 0 && IS_TOLD(store, both) && is_quiet(store));
    /* Nobody is woken by the old target. */
    TRY(unlink("ways/v1/site.db") == 0 && !is_readable(dconfdb_store_fd(store, &error), QUIET) && link("site.db", "ways/v1/site.db") == 0);
    TRY(symlink("../current/site.db", "ways/new") == 0 && rename("ways/new", "ways/linked/site.db") == 0 && is_quiet(store));
    TRY(unlink("ways/v2/site.db") == 0 && link("next.db", "ways/v2/site.db") == 0 && is_quiet(store));
    TRY(symlink("v2", "ways/new") == 0 && rename("ways/new", "ways/current") == 0 && IS_TOLD(store, both));
    TRY(link("site.db", "ways/new") == 0 && rename("ways/new", "ways/v2/site.db") == 0 && IS_TOLD(store, both));
    TRY(link("next.db", "ways/new") == 0 && rename("ways/new", "ways/linked/site.db") == 0 && IS_TOLD(store, both) && is_quiet(store));
    TRY(unlink("ways/linked/site.db") == 0 && IS_TOLD(store, both) && is_quiet(store));
    TRY(symlink("../v1/site.db", "ways/linked/site.db") == 0 && IS_TOLD(store, both));
    TRY(link("next.db", "ways/new") == 0 && rename("ways/new", "ways/v1/site.db") == 0 && IS_TOLD(store, both) && is_quiet(store));
    dconfdb_store_close(store);
}

/* Links whose texts are longer together than there is room for: what they lead to isn't watched, so it is looked at again and again. */
static void tries_long_links(void)
{
    enum { DOTS = 1850 };
    static char dots[2 * DOTS + 1], text[PATH_MAX], folder[PATH_MAX / 2], profile[2 * PATH_MAX];
    for (size_t i = 0; i < DOTS; i++)
        memcpy(dots + 2 * i, "./", 2);
    TRY(getcwd(folder, sizeof folder) && mkdir("ways/long", 0700) == 0);
    snprintf(text, sizeof text, "b/%s", dots);
    TRY(symlink(text, "ways/long/a") == 0);
    snprintf(text, sizeof text, "%s../v1", dots);
    TRY(symlink(text, "ways/long/b") == 0);
    snprintf(profile, sizeof profile, "user-db:me\nfile-db:%s/ways/long/a/%ssite.db\n", folder, dots);
    makes("ways/long/profile", profile);
    DconfdbStore *store = dconfdb_store_open("ways/long", &error);
    TRY(store && dconfdb_store_fd(store, &error) >= 0 && is_quiet(store));
    TRY(link("site.db", "ways/new") == 0 && rename("ways/new", "ways/v1/site.db") == 0 && IS_TOLD(store, "/org/desk/name\0/org/desk/size\0"));
    dconfdb_store_close(store);
}

/* The permission bits of a file may be all that changes: it may be one that could not be read. */
static void tries_bits(void)
{
    DconfdbStore *store = dconfdb_store_open(".", &error);
    int file = store ? dconfdb_store_fd(store, &error) : -1;
    TRY(file >= 0 && is_quiet(store) && chmod("site.db", 0640) == 0 && is_readable(file, SOON) && is_quiet(store));
    TRY(chmod("site.db", 0644) == 0 && is_readable(file, SOON) && is_quiet(store));
    dconfdb_store_close(store);
}

/* Tells nothing, since it fails; and after how many milliseconds it is to be tried again. */
static long fails_for(DconfdbStore *store)
{
    long began = milliseconds();
    TRY(!dconfdb_store_dispatch(store, NULL, NULL) && is_readable(dconfdb_store_fd(store, &error), SOON));
    return milliseconds() - began;
}

/* A file that is bad for a while: the call fails, and is tried again, soon at first, and then each second. */
static void tries_bad_files(void)
{
    DconfdbStore *store = dconfdb_store_open(".", &error);
    size_t size = 77;
    TRY(store && dconfdb_store_fd(store, &error) >= 0 && is_quiet(store) && rename("site.db", "site.kept") == 0);
    makes("site.db", "nonsense that is no database");
    TRY(is_readable(dconfdb_store_fd(store, &error), SOON));
    char *paths = dconfdb_store_dispatch(store, &size, &error);
    while (paths) {
        free(paths);
        TRY(is_readable(dconfdb_store_fd(store, &error), SOON));
        size = 77;
        paths = dconfdb_store_dispatch(store, &size, &error);
    }
    TRY(size == 77 && error.code == DCONFDB_ERROR_BAD_SIGNATURE && error.database == 1);
    TRY(is_readable(dconfdb_store_fd(store, &error), 500));
    TRY(fails_for(store) >= 10);
    for (int i = 0; i < 8; i++)
        TRY(!dconfdb_store_dispatch(store, NULL, NULL) && is_readable(dconfdb_store_fd(store, &error), SOON));
    TRY(fails_for(store) >= 500);
    TRY(rename("next.db", "site.db") == 0);
    do {
        free(paths);
        TRY(is_readable(dconfdb_store_fd(store, &error), SOON));
        paths = dconfdb_store_dispatch(store, &size, &error);
    } while (!paths || size == 0);
    TRY(strcmp(paths, "/org/desk/name") == 0);
    free(paths);
    TRY(rename("site.db", "next.db") == 0 && rename("site.kept", "site.db") == 0);
    dconfdb_store_close(store);
}

/* Without inotify it is readable each second. What else can't be had is told. */
static void tries_faults(void)
{
    DconfdbStore *store = dconfdb_store_open(".", &error);
    TRY(store);
    has_epoll = false;
    TRY(dconfdb_store_fd(store, &error) == -1 && error.code == DCONFDB_ERROR_FILE && error.errnum == EMFILE && strstr(error.text, "Too many open files"));
    has_epoll = true;
    has_clock = false;
    TRY(dconfdb_store_fd(store, &error) == -1 && error.errnum == EMFILE && dconfdb_store_fd(store, NULL) == -1);
    has_clock = true;
    has_inotify = false;
    int file = dconfdb_store_fd(store, &error);
    TRY(file >= 0 && is_readable(file, SOON));
    for (int i = 0; i < 2; i++) {
        size_t size = 77;
        long began = milliseconds();
        char *paths = dconfdb_store_dispatch(store, &size, &error);
        TRY(paths && size == 0 && is_readable(file, SOON) && milliseconds() - began >= QUIET);
        free(paths);
    }
    TRY(changes(store, sets_text("/k", "1")) && IS_TOLD(store, "/k\0"));
    /* It is there again. */
    has_inotify = true;
    TRY(changes(store, (DconfdbEdit){"/", NULL, NULL, 0}) && IS_TOLD(store, "/k\0") && is_quiet(store) && !is_readable(file, 1500));
    TRY(changes(store, sets_text("/k", "1")) && is_readable(file, QUIET) && IS_TOLD(store, "/k\0"));
    TRY(changes(store, (DconfdbEdit){"/", NULL, NULL, 0}));
    dconfdb_store_close(store);
}

/* A clock that can't be set: the call fails, takes nothing, and is to be made again. One that can't be stopped wakes once more. */
static void tries_clock(void)
{
    DconfdbStore *store = dconfdb_store_open(".", &error);
    size_t size = 77;
    sets = 0;
    TRY(store && dconfdb_store_fd(store, &error) == -1 && error.code == DCONFDB_ERROR_FILE && error.errnum == EMFILE);
    sets = SIZE_MAX;
    int file = dconfdb_store_fd(store, &error);
    TRY(file >= 0 && is_quiet(store) && changes(store, sets_text("/k", "1")) && is_readable(file, SOON));
    sets = 0;
    TRY(!dconfdb_store_dispatch(store, &size, NULL) && !dconfdb_store_dispatch(store, &size, &error));
    TRY(size == 77 && error.code == DCONFDB_ERROR_FILE && error.errnum == EMFILE && is_readable(file, QUIET));
    sets = 1;
    char *paths = dconfdb_store_dispatch(store, &size, &error);
    TRY(paths && size == 3 && strcmp(paths, "/k") == 0 && sets == 0);
    free(paths);
    sets = SIZE_MAX;
    TRY(is_readable(file, SOON) && is_quiet(store) && !is_readable(file, 1500));
    TRY(changes(store, (DconfdbEdit){"/", NULL, NULL, 0}) && IS_TOLD(store, "/k\0") && is_quiet(store));
    dconfdb_store_close(store);
}

static void *changes_slowly(void *store)
{
    DconfdbEdit edit = sets_text("/slow", "1");
    TRY(dconfdb_store_change(store, NULL, &edit, 1, NULL));
    return NULL;
}

/* While another thread changes the store no call waits for the disk; and then all is told. */
static void tries_amid_change(void)
{
    pthread_t thread;
    DconfdbStore *store = dconfdb_store_open(".", &error);
    TRY(store && dconfdb_store_fd(store, &error) >= 0 && is_quiet(store));
    is_held = true;
    TRY(pthread_create(&thread, NULL, changes_slowly, store) == 0);
    while (!has_reached)
        usleep(1000);
    size_t size = 77;
    char *paths = dconfdb_store_dispatch(store, &size, &error);
    TRY(paths && size == 0 && !has_given_up);
    free(paths);
    is_held = false;
    TRY(IS_TOLD(store, "/slow\0") && pthread_join(thread, NULL) == 0);
    TRY(is_quiet(store) && changes(store, (DconfdbEdit){"/", NULL, NULL, 0}));
    dconfdb_store_close(store);
}

int main(int argc, char **argv)
{
    int next = next_descriptor();
    TRY(argc == 2 && chdir(argv[1]) == 0);
    tries_changes();
    tries_without_file();
    tries_ways();
    tries_links();
    tries_long_links();
    tries_bits();
    tries_bad_files();
    tries_faults();
    tries_clock();
    tries_amid_change();
    TRY(next_descriptor() == next);
    return 0;
}
