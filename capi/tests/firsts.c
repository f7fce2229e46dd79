/* Whose a file is that the library makes, who may open its lock, and what it reads of one that is no
 * database: firsts FOLDER. It is tests/library's store, as capi/tests/calls.c says. */
#define _GNU_SOURCE
#define _FILE_OFFSET_BITS 64
#include "try.h"

#include <errno.h>
#include <fcntl.h>
#include <grp.h>
#include <sys/file.h>
#include <sys/stat.h>
#include <sys/wait.h>
#include <unistd.h>

enum { NOBODY = 65534, MUCH = 64 << 20 };

static DconfdbError error = DCONFDB_ERROR_INIT;

/* Sets a key in the store of a folder to what it wasn't. */
static bool sets(const char *folder)
{
    static char text[] = "value 0";
    text[sizeof text - 2]++;
    DconfdbStore *store = dconfdb_store_open(folder, &error);
    DconfdbEdit edit = sets_text("/key", text);
    bool done = store && dconfdb_store_change(store, NULL, &edit, 1, &error);
    dconfdb_store_close(store);
    return done;
}

static struct stat is_there(const char *file)
{
    struct stat found;
    TRY(stat(file, &found) == 0);
    return found;
}

static bool is_of(const char *file, uid_t owner, mode_t mode)
{
    struct stat found = is_there(file);
    return found.st_uid == owner && found.st_gid == owner && (found.st_mode & 0777) == mode;
}

/* The first file is its owner's alone, whatever the umask; a later one has the bits of that before it. */
static void tries_modes(void)
{
    static const mode_t masks[] = {0, 022, 077, 0277};
    for (size_t i = 0; i < sizeof masks / sizeof masks[0]; i++) {
        unlink("me.user");
        umask(masks[i]);
        TRY(sets(".") && (is_there("me.user").st_mode & 0777) == 0600);
        TRY(chmod("me.user", 0640) == 0 && sets(".") && (is_there("me.user").st_mode & 0777) == 0640);
    }
    umask(022);
    unlink("me.user");
}

/* What root writes is whose it was, or the folder's owner's. */
static void tries_owners(void)
{
    if (geteuid() != 0)
        return;
    TRY(mkdir("theirs", 0700) == 0 && chown("theirs", NOBODY, NOBODY) == 0);
    TRY(sets("theirs") && is_of("theirs/user.user", NOBODY, 0600));
    TRY(chown("theirs/user.user", 1, 1) == 0 && chmod("theirs/user.user", 0640) == 0);
    TRY(sets("theirs") && is_of("theirs/user.user", 1, 0640));
    TRY(sets("theirs/more/folders") && is_of("theirs/more", NOBODY, 0700) && is_of("theirs/more/folders", NOBODY, 0700));
    TRY(is_of("theirs/more/folders/user.user", NOBODY, 0600));
    TRY(sets("own") && is_of("own/user.user", 0, 0600));
}

/* Who may write in the folder may open its lock, and nobody else, whatever the umask. */
static void tries_locks(void)
{
    static const mode_t folders[] = {0700, 0755, 0775, 0757, 0777}, locks[] = {0600, 0600, 0660, 0606, 0666};
    for (size_t i = 0; i < sizeof locks / sizeof locks[0]; i++) {
        unlink(".lock");
        umask(i % 2 == 0 ? 0 : 0277);
        TRY(chmod(".", folders[i]) == 0 && sets(".") && (is_there(".lock").st_mode & 07777) == locks[i]);
    }
    umask(022);
    TRY(chmod(".", 0755) == 0 && unlink(".lock") == 0);
    if (geteuid() != 0)
        return;
    TRY(is_of("theirs/.lock", NOBODY, 0600) && is_of("own/.lock", 0, 0600));
    TRY(chmod("theirs", 0770) == 0 && unlink("theirs/.lock") == 0 && sets("theirs") && is_of("theirs/.lock", NOBODY, 0660));
}

/* ---- `.lock` with another name is anybody's file: nothing is written into it, and its lock is not held. */

static bool is_letter(const char *file)
{
    char text[64] = "";
    FILE *letter = fopen(file, "r");
    TRY(letter && fread(text, 1, sizeof text - 1, letter) > 0 && fclose(letter) == 0);
    return strcmp(text, "a letter\n") == 0;
}

static bool sets_soon(const char *folder, int wait)
{
    DconfdbOptions options = DCONFDB_OPTIONS_INIT;
    options.longest_wait = wait;
    DconfdbStore *store = dconfdb_store_open_with(folder, &options, &error);
    DconfdbEdit edit = sets_text("/soon", wait > 0 ? "value" : "at once");
    bool done = store && dconfdb_store_change(store, NULL, &edit, 1, &error);
    dconfdb_store_close(store);
    return done;
}

static void tries_second_names(void)
{
    FILE *letter = fopen("letter", "w");
    TRY(letter && fputs("a letter\n", letter) >= 0 && fclose(letter) == 0);
    int file = open("letter", O_RDONLY | O_CLOEXEC);
    TRY(file >= 0 && (unlink(".lock") == 0 || errno == ENOENT) && link("letter", ".lock") == 0);
    /* Others may have their turn by it. */
    TRY(flock(file, LOCK_EX) == 0 && !sets_soon(".", 200) && error.code == DCONFDB_ERROR_BUSY && is_letter("letter"));
    TRY(flock(file, LOCK_UN) == 0 && sets(".") && is_letter("letter") && flock(file, LOCK_EX | LOCK_NB) == 0);
    TRY(is_there(".lock").st_nlink == 1 && is_there(".lock").st_ino != is_there("letter").st_ino && sets_soon(".", 200));
    TRY(link(".lock", "backup") == 0 && sets_soon(".", 0) && is_there("backup").st_nlink == 1 && unlink("backup") == 0);
    TRY(close(file) == 0 && unlink("letter") == 0);
    unlink("me.user");
}

/* ---- the group is kept if the caller is in it; if he isn't, no other one has its rights */

static void sets_as(uid_t user, gid_t group, gid_t more)
{
    pid_t child = fork();
    int status;
    TRY(child >= 0);
    if (child == 0) {
        TRY(setgroups(1, &more) == 0 && setgid(group) == 0 && setuid(user) == 0 && sets("shared"));
        _exit(0);
    }
    TRY(waitpid(child, &status, 0) == child && status == 0);
}

static void tries_groups(void)
{
    static const struct {
        uid_t owner;
        gid_t more;
        mode_t mode, made;
        gid_t group;
    } rows[] = {
        {2000, 5000, 0660, 0660, 5000}, {2000, 5000, 0640, 0640, 5000}, {2001, 5000, 0666, 0666, 5000},
        {2001, 5001, 0660, 0600, 100},  {2001, 5001, 0664, 0644, 100},  {2001, 5001, 0646, 0644, 100},
    };
    if (geteuid() != 0)
        return;
    TRY(chmod(".", 0755) == 0 && mkdir("shared", 0700) == 0 && chmod("shared", 0777) == 0 && sets("shared"));
    for (size_t i = 0; i < sizeof rows / sizeof rows[0]; i++) {
        TRY(chown("shared/user.user", rows[i].owner, 5000) == 0 && chmod("shared/user.user", rows[i].mode) == 0);
        TRY(sets("shared") && is_there("shared/user.user").st_gid == 5000 && (is_there("shared/user.user").st_mode & 07777) == rows[i].mode);
        sets_as(2001, 100, rows[i].more);
        struct stat found = is_there("shared/user.user");
        TRY(found.st_uid == 2001 && found.st_gid == rows[i].group && (found.st_mode & 07777) == rows[i].made);
    }
}

/* The bytes that this process has read; 0 where the system counts none. */
static unsigned long long bytes_read(void)
{
    unsigned long long bytes = 0;
    FILE *file = fopen("/proc/self/io", "r");
    if (!file)
        return 0;
    if (fscanf(file, "rchar: %llu", &bytes) != 1)
        bytes = 0;
    fclose(file);
    return bytes;
}

/* A file of 4 GB that doesn't begin as a database isn't read to its end. */
static void tries_long(const char *begin, size_t len, DconfdbErrorCode code)
{
    int file = open("me.user", O_RDWR | O_CREAT | O_TRUNC, 0600);
    TRY(file >= 0 && write(file, begin, len) == (ssize_t)len);
    if (ftruncate(file, 4294967295) == 0) {
        unsigned long long before = bytes_read();
        TRY(!dconfdb_store_open(".", &error) && error.code == code && strstr(error.text, "me.user"));
        TRY(bytes_read() - before < MUCH);
    }
    TRY(close(file) == 0 && unlink("me.user") == 0);
}

int main(int argc, char **argv)
{
    TRY(argc == 2 && chdir(argv[1]) == 0);
    tries_modes();
    tries_owners();
    tries_locks();
    tries_second_names();
    tries_groups();
    tries_long("", 0, DCONFDB_ERROR_BAD_SIGNATURE);
    tries_long("GVariant\1\0\0", 12, DCONFDB_ERROR_BAD_VERSION);
    puts(geteuid() == 0 ? "what root writes is its owner's" : "what root writes isn't tried, since nobody here is root");
    return 0;
}
