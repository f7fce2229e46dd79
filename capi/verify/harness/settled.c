/* libdconfdb/settled.c: the user's file gets to the disk, unless it is known to be there. */
#define MOST_DATABASES 2
#define FEW_DATABASES 2
#include "libdconfdb/settled.c"
#include "parts.h"

#include <errno.h>

/* narrows libdconfdb/dconfdb.h: char text[512]; => char text[8]; */

static unsigned settles;
static bool has_settled, is_same, is_noted, is_readable, is_order_read;

int folder_settle(const char *folder, const char *name)
{
    CHECK(folder == store.place.folder && (name == NULL || name == store.user_file + 3), "step: the user's file in its folder, or the folder alone");
    CHECK(!store.options.is_unsynced, "step: nothing is brought to the disk where nobody asks for it");
    CHECK((name != NULL) == is_readable, "step: of what can't be read the folder alone");
    settles++;
    int fault = any_fault();
    has_settled = fault == 0;
    return fault;
}

bool order_read(Order *order, int file)
{
    CHECK(order == &store.order && is_open(file) && last[OPEN].count == file, "descriptor: the lock's file, that is open");
    return is_order_read = any_bool();
}

bool order_is_synced(const Order *order, const char *name, const FileState *file)
{
    CHECK(order == &store.order && is_order_read && name == store.user_file + 3 && file == &old_parts[0].state, "step: whether the file is on the disk");
    return is_noted = any_bool();
}

int file_look(const char *name, FileState *state)
{
    CHECK(name == store.user_file, "step: the user's file");
    state->is_there = any_bool();
    return any_fault();
}

uint32_t dconfdb_same_file(const DconfdbFileStamp *old, const DconfdbFileStamp *now, uint64_t opened, bool is_held)
{
    (void)now, (void)opened, (void)is_held;
    CHECK(old == &old_parts[0].state, "step: it is compared with what was seen");
    is_same = any_bool();
    return is_same ? DCONFDB_FILE_SAME : DCONFDB_FILE_OTHER;
}

uint32_t part_errnum(const Part *part)
{
    CHECK(part == &old_parts[0], "step: the user's file");
    return is_readable ? 0 : EACCES;
}

bool tell_ending(DconfdbError *error, const DconfdbEnding *ending, int fault, const char *user_file, const char *folder)
{
    (void)error;
    CHECK(fault > 0 && user_file == store.user_file && folder == store.place.folder, "answer: a fault, of a file or a folder");
    CHECK(ending->told == DCONFDB_TOLD_UNSYNCED && ending->outcome == (uint32_t)DCONFDB_OUTCOME_UNSETTLED, "answer: it is as it was, and perhaps not on the disk");
    refused++;
    return false;
}

/* harness settle_store: unwind 20, with machines.c, quick */
int settle_store_(void)
{
    static char folder[] = "/f";
    set_up_store();
    GIVEN(store.count > 0 && store.now);
    store.place.folder = folder;
    store.options.is_unsynced = any_bool();
    is_readable = any_bool();
    bool was = old_parts[0].is_settled = any_bool();
    bool done = settle_store(&store, NULL);
    CHECK(none_is_held(), "order: the mutex is given back");
    CHECK(only_open(-1, -1), "descriptor: the lock's file is closed");
    CHECK(done || (refused == 1 && settles == 1 && !has_settled), "answer: what failed is told");
    CHECK(settles <= 1, "step: it is brought to the disk once");
    if (!store.user_file) {
        CHECK(done && settles == 0 && count_of[OPEN] == 0, "step: where nobody has a file nothing is done");
        return 0;
    }
    CHECK(!was || (done && settles == 0 && count_of[OPEN] == 0 && old_parts[0].is_settled), "step: what is known to be there is not brought there again");
    CHECK(was || !is_noted || settles == 0, "step: what is noted to be there is not brought there again");
    CHECK(was || is_noted || store.options.is_unsynced || settles == 1, "step: what nobody knows to be there is brought there");
    CHECK(!old_parts[0].is_settled || was || is_noted || (has_settled && is_same), "answer: on the disk is what was brought there, and is the file that was seen");
    CHECK(count_of[OPEN] == 0 || (last[OPEN].flags & (O_NONBLOCK | O_NOCTTY)) == (O_NONBLOCK | O_NOCTTY), "step: no pipe's writer is waited for");
    if (!was && old_parts[0].is_settled && settles == 1)
        REACHED("it was brought there");
    return 0;
}
