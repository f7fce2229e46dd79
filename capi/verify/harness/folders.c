/* common/folders.c: a folder opened or made, name by name, by root and by others, with a link on the way. */
#include "common/folders.c"
#include "common/handed.c"
#include "machines/given.h"
#include "world.h"

/* narrows common/folders.c: char path[PATH_MAX]; => char path[8]; */
/* stubs common/folders.c: walk follow make_one make_theirs */

/* ---- as folder_walk, folder_follow, folder_make_one and folder_theirs have them */

static bool walks_to_make;

static int some_folder(int *opened)
{
    int fault = any_fault();
    *opened = fault == 0 ? some_file() : -1;
    return fault;
}

static int walk(Way way, int from, char *path, int *end)
{
    (void)from;
    walks_to_make = way.makes && way.links == 0;
    CHECK(way.links <= MOST_LINKS, "step: no more links are followed than may be");
    CHECK(__CPROVER_r_ok(path, 1) && __CPROVER_w_ok(end, sizeof *end), "memory: a path, and room for its end");
    return some_folder(end);
}

static int follow(Way way, int from, int link, int *to)
{
    (void)way;
    CHECK(is_open(from) && is_open(link), "descriptor: a link and its folder are open");
    return some_folder(to);
}

static int make_one(int above, const char *name)
{
    (void)name;
    CHECK(is_open(above), "descriptor: a folder is made in one that is open");
    return any_fault();
}

static int make_theirs(int above, const struct stat *found, const char *name)
{
    (void)found, (void)name;
    CHECK(is_open(above), "descriptor: a folder is made in one that is open");
    return any_fault();
}

/* ---- what is checked */

/* harness folder_open: unwind 5, with machines.c, quick */
int folder_open_(void)
{
    int opened = -1;
    int fault = folder_open("/a", &opened); /* as long as a link's target */
    CHECK(!walks_to_make && count_of[MKDIRAT] == 0, "step: nothing is made");
    if (fault != 0) {
        CHECK(only_open(-1, -1), "descriptor: a fault leaves nothing open");
        return 0;
    }
    CHECK(is_open(opened) && only_open(opened, -1), "descriptor: the folder alone is open");
    bool is_walked = count_of[OPENAT] > 0;
    CHECK((last[is_walked ? OPENAT : OPEN].flags & O_DIRECTORY) != 0, "step: it is a folder");
    CHECK(geteuid() != 0 || is_walked || count_of[READLINKAT] == 1, "step: root goes through the path, or asks where it has come");
    if (geteuid() == 0 && !is_walked)
        REACHED("it is where it is said to be");
    REACHED("it is open");
    return 0;
}

/* harness folder_make: unwind 5, with machines.c, quick */
int folder_make_(void)
{
    int fault = folder_make("/a/b");
    CHECK(only_open(-1, -1), "descriptor: each is closed");
    CHECK(fault != 0 || walks_to_make, "step: what is missing is made");
    if (fault == 0)
        REACHED("it is there");
    return 0;
}

/* harness folder_walk: unwind 6, with machines.c, quick */
int folder_walk(void)
{
    Way way = {any_bool(), 0};
    char path[6];
    int end = -1;
    any_text(path, 5);
    int from = some_file();
    int fault = real_walk(way, from, path, &end);
    CHECK((last[OPENAT].flags & O_PATH) != 0, "step: what is gone through is not read");
    if (fault != 0) {
        CHECK(only_open(from, -1), "descriptor: a fault leaves nothing open");
        return 0;
    }
    CHECK(is_open(end) && only_open(from, end), "descriptor: the folder at the end alone is open");
    REACHED("the end of a path");
    return 0;
}

/* harness folder_follow: unwind 4, with machines.c, quick */
int folder_follow(void)
{
    Way way = {any_bool(), any_u64()};
    int from = some_file(), link = some_file(), to = -1;
    GIVEN(way.links <= MOST_LINKS);
    int fault = real_follow(way, from, link, &to);
    CHECK(!walks_to_make, "step: where a link leads nothing is made");
    CHECK(fault == 0 || to < 0, "descriptor: a fault leaves nothing open");
    if (fault == 0) {
        CHECK(was_done(READLINKAT) && last[READLINKAT].file == link, "step: the link itself is read");
        CHECK(geteuid() != 0 || was_done(FSTAT), "step: root asks who can have put it there");
        REACHED("a link");
    }
    return 0;
}

static void is_named_first(Kind kind)
{
    CHECK(kind != MKDIRAT || count_of[OPENAT] > 0, "order: nothing is made in a folder before its own name is on the disk");
}

/* harness folder_make_one: unwind 4, with machines.c, quick */
int folder_make_one(void)
{
    int above = some_file();
    at_call = is_named_first;
    int fault = real_make_one(above, "b");
    CHECK(only_open(above, -1), "descriptor: each is closed");
    CHECK(count_of[MKDIRAT] == 0 || geteuid() != 0 || count_of[FSTAT] > 0, "step: root asks whose folder it is");
    CHECK(fault != 0 || (was_done(FSYNC) && when_of[FSYNC] > when_of[MKDIRAT]), "order: what is made has its name on the disk, whoever made it");
    if (fault == 0 && was_done(MKDIRAT))
        REACHED("one is made");
    return 0;
}

/* harness folder_theirs: unwind 5, with machines.c, define MOST_NAMES=2, quick */
int folder_theirs(void)
{
    struct stat found;
    int above = some_file();
    int fault = real_make_theirs(above, &found, "b");
    CHECK(only_open(above, -1), "descriptor: each is closed");
    if (fault == 0) {
        CHECK(was_done(FCHOWNAT) && (was_done(RENAMEAT2) || was_done(RENAMEAT)), "step: it is theirs, and has its name");
        CHECK(when_of[RENAMEAT2] > when_of[FCHOWNAT], "order: it is theirs before it has its name");
        CHECK(count_of[UNLINKAT] == 0, "step: what has its name is not removed");
        REACHED("it is theirs");
    } else {
        CHECK(count_of[MKDIRAT] > 0, "step: a folder is made");
        CHECK(last[MKDIRAT].fault != 0 || (count_of[UNLINKAT] == 1 && last[UNLINKAT].flags == AT_REMOVEDIR), "step: what was made and is not given is removed");
    }
    return 0;
}
