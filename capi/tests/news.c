/* What a refresh says is changed is what others changed: news FOLDER, as calls.c has it. A rename fails after it was done, if it is to. */
#include "try.h"

#include <errno.h>
#include <fcntl.h>
#include <sys/stat.h>

int __real_renameat(int folder, const char *from, int other, const char *to);
int __wrap_renameat(int folder, const char *from, int other, const char *to);

static DconfdbError error = DCONFDB_ERROR_INIT;
static bool fails;

int __wrap_renameat(int folder, const char *from, int other, const char *to)
{
    int done = __real_renameat(folder, from, other, to);
    if (!fails)
        return done;
    errno = EIO;
    return -1;
}

static bool has_news(DconfdbStore *store)
{
    bool changed = true;
    TRY(dconfdb_store_refresh(store, &changed, &error));
    return changed;
}

static bool changes(DconfdbStore *store, const char *path, const char *text)
{
    DconfdbEdit edit = sets_text(path, text);
    return dconfdb_store_change(store, NULL, &edit, 1, &error);
}

static void is_seen(DconfdbStore *store, const char *path, const char *text)
{
    DconfdbSnapshot *now = dconfdb_store_snapshot(store);
    TRY(has(now, path, text));
    dconfdb_snapshot_unref(now);
}

/* A file gets the bytes of another one. */
static void copies(const char *from, const char *to)
{
    char room[4096];
    FILE *old = fopen(from, "r"), *new = fopen(to, "w");
    TRY(old && new);
    size_t len = fread(room, 1, sizeof room, old);
    TRY(len > 0 && len < sizeof room && fwrite(room, 1, len, new) == len);
    TRY(fclose(old) == 0 && fclose(new) == 0);
}

/* Nobody else changed anything, though the file is another one. */
static void tries_own(DconfdbStore *store)
{
    TRY(!has_news(store) && !changes(store, "no path", "one") && !has_news(store));
    TRY(changes(store, "/k", "one") && !has_news(store));
    TRY(utimensat(AT_FDCWD, "me.user", NULL, 0) == 0 && !has_news(store));
    copies("me.user", "copied");
    TRY(rename("copied", "me.user") == 0 && !has_news(store));
    TRY(utimensat(AT_FDCWD, "site.db", NULL, 0) == 0 && !has_news(store));
    copies("site.db", "copied");
    copies("copied", "site.db");
    TRY(!has_news(store));
    fails = true;
    TRY(!changes(store, "/k", "two") && error.outcome == DCONFDB_OUTCOME_EITHER);
    fails = false;
    is_seen(store, "/k", "one");
    TRY(!has_news(store));
    is_seen(store, "/k", "two");
}

/* Another store does; and a file that can't be read any longer, or again, is news too. */
static void tries_others(DconfdbStore *store)
{
    DconfdbStore *other = dconfdb_store_open(".", &error);
    TRY(other && changes(other, "/k", "three") && has_news(store) && !has_news(store));
    TRY(changes(other, "/k", "four") && changes(store, "/j", "own") && has_news(store) && !has_news(store));
    fails = true;
    TRY(!changes(store, "/k", "five") && error.outcome == DCONFDB_OUTCOME_EITHER);
    fails = false;
    TRY(changes(other, "/j", "theirs") && has_news(store));
    dconfdb_store_close(other);
    copies("me.user", "copied");
    TRY(truncate("me.user", 40) == 0 && has_news(store) && !has_news(store));
    TRY(rename("copied", "me.user") == 0 && has_news(store) && !has_news(store));
    copies("next.db", "copied");
    TRY(rename("copied", "site.db") == 0 && has_news(store) && !has_news(store));
}

int main(int argc, char **argv)
{
    TRY(argc == 2 && chdir(argv[1]) == 0);
    int bad = open("me.user", O_WRONLY | O_CREAT | O_TRUNC | O_CLOEXEC, 0600);
    TRY(bad >= 0 && write(bad, "no database", 11) == 11 && close(bad) == 0);
    DconfdbStore *store = dconfdb_store_open_lenient(".", &error);
    TRY(store);
    tries_own(store);
    tries_others(store);
    dconfdb_store_close(store);
    return 0;
}
