/* A turn's change of a store of up to two files, as the harnesses of libdconfdb/changing.c have it. */
#define MOST_DATABASES 2
#define FEW_DATABASES 2
#include "libdconfdb/changing.c"
#include "machines.h"
#include "parts.h"

static const FolderLock lock = {TURN, TURN + 1, NULL};
static Asking asking;
static DconfdbChange changes[2];
static DconfdbAsked asked_for[2];
static size_t numbers[2] = {0, 1};
static Edited edited;
static Changing it;

static void set_up(void)
{
    set_up_store();
    GIVEN(store.user_file);
    store.now = &old_room;
    asking.count = any_size();
    GIVEN(asking.count <= 2);
    asking.changes = changes;
    asking.asked = asked_for;
    asking.edits = numbers;
    store.known = (DconfdbStoreKnown){.is_unsettled = any_bool()};
    edited = (Edited){.store = &store, .lock = &lock, .asking = &asking, .before = &old_room};
    it.edited = &edited;
    it.replacing.name = store.user_file + 3;
}

const DconfdbError *part_fault(const Part *part)
{
    return part->fault && !part->fault->aside ? &part->fault->error : NULL;
}

void part_was_set_aside(Part *part, char **name)
{
    CHECK(part == &new_parts[0], "step: of the new part alone");
    if (part->fault && name) {
        part->fault->aside = *name;
        *name = NULL;
    } else {
        part->fault = NULL;
    }
}

bool refuse_file(DconfdbError *error, int fault, const char *name, Place place)
{
    (void)error, (void)place;
    CHECK(fault > 0 && name == store.user_file, "answer: a fault of the user's file");
    refused++;
    return false;
}

bool tell_ending(DconfdbError *error, const DconfdbEnding *ending, int fault, const char *user_file, const char *folder)
{
    (void)fault;
    CHECK(user_file == store.user_file && folder == store.place.folder, "answer: what is told is of the user's file");
    bool done = ending->told == DCONFDB_TOLD_NOTHING;
    refused += !done;
    if (!done && error)
        error->outcome = (DconfdbOutcome)ending->outcome;
    return done;
}
