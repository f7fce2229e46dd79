/* common/flag.c and service/flag.c: a reader of dconf's that has the flag mapped is told by its first byte, and its name goes only by who has the lock. */
#define _FILE_OFFSET_BITS 64
#include "common/flag.c"
#include "service/flag.c"
#include "glib_world.h"
#include "machines.h"
#include "machines/given.h"
#include "world.h"

static bool is_locked, is_longer, is_set, is_gone;
static int looked; /* what the system said of its name */
static unsigned looks, locks;

uint32_t dconfdb_flag_after(uint32_t task, bool could_be, bool is_in_turn)
{
    return flag_given(task, could_be, is_in_turn);
}

/* ---- the flag's file: its name, and what is written into it */

int access(const char *name, int how)
{
    CHECK(how == F_OK && looks == 0 && count_of[OPEN] == 0, "step: whether it is there is asked once, and first");
    looks++;
    (void)name;
    looked = errno = any_fault();
    return looked == 0 ? 0 : -1;
}

int unlink(const char *name)
{
    CHECK(name == last[OPEN].name && was_done(OPEN), "step: the name goes of what was there");
    CHECK(is_locked, "order: the name goes only by who has the lock");
    CHECK(is_set, "order: the name goes only once it is set");
    is_gone = true;
    return any_bool() ? 0 : -1;
}

static void see_written(const Call *put)
{
    CHECK(put->file == last[OPEN].count && put->len == 1, "step: a byte of the flag");
    CHECK(put->at == 1 ? put->byte == 0 && count_of[PWRITE] == 1 : put->at == 0 && put->byte == 1, "step: its second byte is made, and its first one is set");
    CHECK(put->at == 1 || is_longer, "order: it is made longer first, or who maps it meets no byte");
    bool is_put = put->fault == 0 && put->count == 1;
    is_longer = is_longer || (put->at == 1 && is_put);
    is_set = is_set || (put->at == 0 && is_put);
}

static void at_each(Kind kind)
{
    if (kind == OPEN)
        CHECK((last[OPEN].flags & (O_ACCMODE | O_CREAT | O_TRUNC | O_NOFOLLOW)) == (O_RDWR | O_NOFOLLOW), "step: nobody's flag is made, and no link followed");
    if (kind == PWRITE)
        see_written(&last[PWRITE]);
}

/* ---- the lock */

int folder_lock_there(const char *folder, FolderLock *lock)
{
    (void)folder, (void)lock;
    CHECK(locks == 0, "step: it is asked for once");
    locks++;
    int fault = any_fault();
    is_locked = fault == 0;
    return fault;
}

void folder_unlock(FolderLock *lock)
{
    (void)lock;
    CHECK(is_locked, "order: what is given back is had");
    is_locked = false;
}

static char a_store, a_flag[] = "f";
static bool has_flag;

const char *place_flag(const DconfdbStore *store)
{
    CHECK((const char *)(const void *)store == &a_store, "step: the flag of the database's own store");
    return has_flag ? a_flag : NULL;
}

/* harness flag: unwind 6, with glib.c, with machines.c, quick */
int flag(void)
{
    static char name[] = "f";
    bool has_name = any_bool();
    at_call = at_each;
    is_locked = true;
    flag_set(has_name ? name : NULL);
    CHECK(looks == 0, "step: who has the lock opens it at once");
    CHECK(only_open(-1, -1), "descriptor: it is closed");
    CHECK(has_name || calls == 0, "step: where there is none nothing is done");
    CHECK(!has_name || (count_of[OPEN] == 1 && last[OPEN].name == name), "step: it is opened once");
    CHECK(!was_done(OPEN) || count_of[PWRITE] == (is_longer ? 2 : 1), "step: what is there is set");
    if (is_set && is_gone)
        REACHED("it is set, and its name goes");
    if (was_done(OPEN) && !is_set)
        REACHED("it can't be set");
    return 0;
}

/* harness service_flag: unwind 8, with glib.c, with machines.c, quick */
int service_flag(void)
{
    static char folder[] = "/f";
    Service service = {.place = {.folder = folder}};
    const Writer writer = {.service = &service, .store = (DconfdbStore *)&a_store};
    bool has_turn = is_locked = any_bool();
    has_flag = any_bool();
    at_call = at_each;
    flag_readers(&writer, has_turn);
    CHECK(is_locked == has_turn, "order: the lock is given back, and none but its own");
    CHECK(!has_turn || locks == 0, "step: in its turn it takes no lock");
    CHECK(only_open(-1, -1), "descriptor: the flag is closed");
    CHECK(looks == (has_flag ? 1 : 0), "step: whether it is there is asked, where there is one");
    CHECK(count_of[OPEN] == 1 || ((!has_flag || looked == ENOENT) && locks == 0), "answer: what may be there is set, and for what isn't no lock is taken");
    if (is_set && is_gone && has_turn)
        REACHED("in its turn it takes the name away");
    if (is_set && is_gone && !has_turn)
        REACHED("who has the lock takes the name away");
    if (is_set && !is_gone)
        REACHED("while another has the lock it is set");
    if (count_of[OPEN] == 0)
        REACHED("nobody has made it");
    return 0;
}
