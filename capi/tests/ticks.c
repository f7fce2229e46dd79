/* A file that changes within a tick of the system's clock after it was read: ticks FOLDER, as calls.c has it. What stat() says is made
 * coarse here, as systems say it that have no finer times: all of a file's times are those at which a tick began, and each file of the
 * user's has one number. */
#define _GNU_SOURCE
#include "try.h"

#include <fcntl.h>
#include <stdarg.h>
#include <sys/stat.h>
#include <time.h>

enum { TICK = 8000000, LONGEST = 65536, ROUNDS = 40, MOST = 4000 };

static DconfdbError error = DCONFDB_ERROR_INIT;
static int reads; /* of the user's file */

int __real_stat64(const char *name, struct stat64 *found);
int __wrap_stat64(const char *name, struct stat64 *found);
int __real_fstat64(int file, struct stat64 *found);
int __wrap_fstat64(int file, struct stat64 *found);
int __real_fstatat64(int folder, const char *name, struct stat64 *found, int flags);
int __wrap_fstatat64(int folder, const char *name, struct stat64 *found, int flags);
int __real_openat64(int folder, const char *name, int flags, ...);
int __wrap_openat64(int folder, const char *name, int flags, ...);

static int coarse(int done, struct stat64 *found)
{
    if (done != 0 || !S_ISREG(found->st_mode))
        return done;
    found->st_ino = 7;
    found->st_mtim.tv_nsec -= found->st_mtim.tv_nsec % TICK - 1;
    found->st_ctim.tv_nsec -= found->st_ctim.tv_nsec % TICK - 1;
    return done;
}

int __wrap_stat64(const char *name, struct stat64 *found)
{
    return coarse(__real_stat64(name, found), found);
}

int __wrap_fstat64(int file, struct stat64 *found)
{
    return coarse(__real_fstat64(file, found), found);
}

int __wrap_fstatat64(int folder, const char *name, struct stat64 *found, int flags)
{
    return coarse(__real_fstatat64(folder, name, found, flags), found);
}

int __wrap_openat64(int folder, const char *name, int flags, ...)
{
    va_list more;
    va_start(more, flags);
    mode_t mode = (flags & O_CREAT) != 0 ? va_arg(more, mode_t) : 0;
    va_end(more);
    reads += strstr(name, "me.user") != NULL;
    return __real_openat64(folder, name, flags, mode);
}

/* ---- two files of as many bytes */

typedef struct {
    char bytes[LONGEST];
    size_t len;
    const char *text;
} Held;

static Held holds(DconfdbStore *store, const char *text)
{
    Held held = {.text = text};
    DconfdbEdit edit = sets_text("/k", text);
    TRY(dconfdb_store_change(store, NULL, &edit, 1, &error));
    FILE *file = fopen("me.user", "r");
    TRY(file);
    held.len = fread(held.bytes, 1, LONGEST, file);
    TRY(held.len > 0 && held.len < LONGEST && fclose(file) == 0);
    return held;
}

static void writes(const char *name, const Held *held)
{
    int file = open(name, O_WRONLY | O_CREAT, 0600);
    TRY(file >= 0 && write(file, held->bytes, held->len) == (ssize_t)held->len && close(file) == 0);
}

/* The file is written over, or another one takes its place. */
static void writes_over(const Held *held)
{
    writes("me.user", held);
}

static void replaces(const Held *held)
{
    writes("me.next", held);
    TRY(rename("me.next", "me.user") == 0);
}

/* ---- what a store sees of it */

static bool looks_same(const struct stat64 *before)
{
    struct stat64 now;
    TRY(__wrap_stat64("me.user", &now) == 0);
    return before->st_size == now.st_size && before->st_mtim.tv_sec == now.st_mtim.tv_sec && before->st_mtim.tv_nsec == now.st_mtim.tv_nsec
        && before->st_ctim.tv_sec == now.st_ctim.tv_sec && before->st_ctim.tv_nsec == now.st_ctim.tv_nsec;
}

static void sees(DconfdbStore *store, const Held *held)
{
    DconfdbSnapshot *now = dconfdb_store_snapshot(store);
    TRY(has(now, "/k", held->text));
    dconfdb_snapshot_unref(now);
}

/* Whether nothing that stat() says tells one file from the other, which the store is to see all the same. */
static bool changes_within(DconfdbStore *store, void (*puts_there)(const Held *), const Held *one, const Held *other)
{
    struct stat64 before;
    bool changed = false;
    puts_there(one);
    TRY(dconfdb_store_refresh(store, NULL, &error));
    sees(store, one);
    TRY(__wrap_stat64("me.user", &before) == 0);
    puts_there(other);
    bool is_same = looks_same(&before);
    TRY(dconfdb_store_refresh(store, &changed, &error) && changed);
    sees(store, other);
    return is_same;
}

static void tries_changes(DconfdbStore *store, void (*puts_there)(const Held *), const Held *one, const Held *other)
{
    int found = 0;
    for (int i = 0; i < MOST && found < ROUNDS; i++)
        found += changes_within(store, puts_there, one, other);
    TRY(found == ROUNDS);
}

/* Once the file is old enough it is read once more, if it wasn't when it was read last, and then no more. Whether it was. */
static bool is_read_once(DconfdbStore *store)
{
    const struct timespec ticks = {0, 5 * TICK};
    bool is_read = false;
    for (int i = 0; i < 3; i++) {
        nanosleep(&ticks, NULL);
        reads = 0;
        TRY(dconfdb_store_refresh(store, NULL, &error));
        TRY(reads <= (i == 0));
        is_read = is_read || reads > 0;
    }
    return is_read;
}

/* A store's own new file is read once, unless the machine stood still for a tick while it was made. */
static void tries_own(DconfdbStore *store)
{
    bool is_read = false;
    for (int i = 0; i < ROUNDS && !is_read; i++) {
        char text[16];
        snprintf(text, sizeof text, "own %d", i);
        DconfdbEdit edit = sets_text("/k", text);
        bool changed = true;
        TRY(dconfdb_store_change(store, NULL, &edit, 1, &error));
        is_read = is_read_once(store);
        TRY(dconfdb_store_refresh(store, &changed, &error) && !changed);
    }
    TRY(is_read);
}

int main(int argc, char **argv)
{
    TRY(argc == 2 && chdir(argv[1]) == 0);
    DconfdbStore *store = dconfdb_store_open(".", &error), *other = dconfdb_store_open(".", &error);
    TRY(store && other);
    Held one = holds(other, "one"), two = holds(other, "two");
    TRY(one.len == two.len && memcmp(one.bytes, two.bytes, one.len) != 0);
    tries_changes(store, writes_over, &one, &two);
    tries_changes(store, replaces, &one, &two);
    is_read_once(store);
    tries_own(store);
    dconfdb_store_close(store);
    dconfdb_store_close(other);
    return 0;
}
