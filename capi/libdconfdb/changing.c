/* A change of the user's file, while it is this program's turn: what is read, made and noted, and what comes of it. */
#define _DEFAULT_SOURCE
#define _POSIX_C_SOURCE 200809L
#define _FILE_OFFSET_BITS 64
#include "changing.h"
#include "edits.h"
#include "errors.h"
#include "held.h"
#include "memory.h"
#include "steps.h"

#include <stddef.h>

/* What is changed, and what the store has after it. */
typedef struct Edited {
    DconfdbStore *store;
    const FolderLock *lock;
    Asking *asking;
    DconfdbSnapshot *before; /* the turn */
    DconfdbSnapshot *newer;  /* with the new file as its first part */
    MadeFile file;           /* its bytes are the new file's until that is its part */
} Edited;

/* The part of the new file. What was wrong with the old one is kept, as it is set aside. */
static Part *part_of_new(const DconfdbStore *store, FileBytes file, DconfdbError *error)
{
    Asked asked = {store->user_file, 0, DCONFDB_SIZE_USERS, false, NO_FOLDER};
    const Part *old = store->now->parts[0];
    const DconfdbError *bad = part_fault(old);
    Part *part = part_open(&asked, (FileState){.is_there = true}, file, old, error);
    if (!part || !bad)
        return part;
    if (part_blame(part, bad, error)) {
        part->fault->saved = old->fault->saved;
        return part;
    }
    part_unref(part);
    return NULL;
}

/* The newer snapshot, with the part of the user's file. */
static DconfdbSnapshot *with_part(const DconfdbStore *store, Part *part, DconfdbError *error)
{
    DconfdbSnapshot *newer = part ? snapshot_new(store->count, true) : NULL;
    if (!newer) {
        part_unref(part);
        if (part)
            refuse_memory(error);
        return NULL;
    }
    snapshot_put(newer, 0, part);
    for (size_t i = 1; i < store->count; i++)
        snapshot_put(newer, i, part_ref(store->now->parts[i]));
    return newer;
}

int changing_read(Changing *it)
{
    Edited *edited = it->edited;
    it->order = store_read_order(edited->store, edited->asking, edited->before, edited->lock, it->error);
    if (!it->order)
        return IS_TOLD;
    atomic_store(&edited->store->is_amid, true);
    it->old = edited->store->now->parts[0];
    bool is_bad = part_fault(it->old) != NULL;
    return replacing_look(&it->replacing, is_bad, &it->old->state, &it->answer);
}

static uint32_t found(bool is)
{
    return is ? DCONFDB_FOUND_YES : DCONFDB_FOUND_NO;
}

static uint32_t or_fault(bool is_answered)
{
    return is_answered ? DCONFDB_FOUND_YES : DCONFDB_FOUND_FAULT;
}

static uint32_t expect(Changing *it)
{
    return or_fault(asking_is_as_expected(it->edited->store->now, it->edited->asking, it->error));
}

static uint32_t leave_out(Changing *it)
{
    Edited *edited = it->edited;
    if (asking_leave_out(edited->asking, edited->store, it->order, edited->before))
        return found(edited->asking->count > 0);
    refuse_memory(it->error);
    return DCONFDB_FOUND_FAULT;
}

static uint32_t make_bytes(Changing *it)
{
    Edited *edited = it->edited;
    const Asking *asking = edited->asking;
    return or_fault(edits_make_file(edited->store, asking->changes, asking->edits, asking->count, &edited->file, it->error));
}

static uint32_t compare(Changing *it)
{
    return found(it->edited->file.is_same);
}

/* What has to be had for the newer snapshot is had now, so that nothing fails after the file is in place. */
static uint32_t open_new(Changing *it)
{
    Edited *edited = it->edited;
    FileBytes file = edited->file.bytes;
    edited->file.bytes = (FileBytes){NULL, 0, false};
    it->answer = file.len;
    edited->newer = with_part(edited->store, part_of_new(edited->store, file, it->error), it->error);
    it->new = edited->newer ? edited->newer->parts[0] : NULL;
    return or_fault(edited->newer != NULL);
}

/* Each question is answered by one of these. Gives what came of all. */
static uint32_t make(Changing *it, bool makes_file)
{
    static uint32_t (*const answers[DCONFDB_MAKING_READY])(Changing *) = {
        [DCONFDB_MAKING_EXPECT] = expect,   [DCONFDB_MAKING_LEAVE_OUT] = leave_out, [DCONFDB_MAKING_BYTES] = make_bytes,
        [DCONFDB_MAKING_COMPARE] = compare, [DCONFDB_MAKING_OPEN] = open_new,
    };
    const Edited *edited = it->edited;
    const DconfdbSnapshot *expected = edited->asking->expected;
    bool is_unsettled = edited->store->known.is_unsettled, is_expected = expected && expected != edited->store->now;
    uint32_t ask = dconfdb_making_after(makes_file, is_unsettled, is_expected, DCONFDB_MAKING_BEGINS, DCONFDB_FOUND_YES);
    while (ask < DCONFDB_MAKING_READY)
        ask = dconfdb_making_after(makes_file, is_unsettled, is_expected, ask, answers[ask](it));
    file_release(&it->edited->file.bytes);
    return ask;
}

int changing_make(Changing *it)
{
    uint32_t end = make(it, true);
    return end == DCONFDB_MAKING_READY ? 0 : end == DCONFDB_MAKING_NOTHING ? IS_NOTHING : IS_TOLD;
}

bool change_is_well(DconfdbStore *store, Asking *asking, DconfdbError *error)
{
    Edited edited = {.store = store, .asking = asking};
    Changing it = {.error = error, .edited = &edited};
    return make(&it, false) == DCONFDB_MAKING_NOTHING;
}

/* Whether a part's file is on the disk, as far as this store knows, and who left it noted. */
static bool is_synced(const Changing *it, const Part *own)
{
    const DconfdbSettling known = {.has_file = true, .is_known = own->is_settled, .is_in_turn = true, .asks_only = true};
    uint32_t task = dconfdb_settling_after(DCONFDB_SETTLING_BEGINS, true, &known);
    while (task < DCONFDB_SETTLING_KNOWN) /* the notes alone are asked */
        task = dconfdb_settling_after(task, order_is_synced(it->order, it->edited->store->own_name, &own->state), &known);
    return task == DCONFDB_SETTLING_KNOWN;
}

/* Makes the notes, or writes them. */
static uint32_t note(const Changing *it, const DconfdbSnapshot *now, uint32_t ask)
{
    const Edited *edited = it->edited;
    const Part *own = now->parts[0];
    if (ask == DCONFDB_MAKING_NOTE)
        return found(asking_note(edited->asking, now, it->order));
    return found(order_write(it->order, edited->lock->file, edited->store->own_name, &own->state, is_synced(it, own)));
}

/* Nothing that comes after this changes it. */
static void tell_who_waits(const Asking *asking, const DconfdbEnding *ending, DconfdbSnapshot *newest)
{
    if (asking->who && ending->told == DCONFDB_TOLD_NOTHING)
        asking->who->hears(asking->who->it, newest);
}

/* What others are to know of it. */
int changing_note(Changing *it)
{
    DconfdbStore *store = it->edited->store;
    DconfdbEnding ending = {.is_there = false};
    dconfdb_ending(it->turn.outcome, it->turn.fault, store->known.is_unsettled, it->replacing.is_aside, &ending);
    DconfdbSnapshot *now = ending.newest == DCONFDB_NEWEST_NEWER ? it->edited->newer : store->now;
    tell_who_waits(it->edited->asking, &ending, now);
    uint32_t ask = dconfdb_making_after(true, false, false, DCONFDB_MAKING_ENDED, found(ending.is_there));
    while (ask < DCONFDB_MAKING_NOTED)
        ask = dconfdb_making_after(true, false, false, ask, note(it, now, ask));
    if (ask == DCONFDB_MAKING_NOTED)
        store_after(store, DCONFDB_STORE_NOTED, ending.is_there, it->edited->asking->latest);
    return 0;
}

/* The newest settings. */
static void renew(Changing *it, const DconfdbEnding *ending)
{
    DconfdbStore *store = it->edited->store;
    DconfdbSnapshot *newer = it->edited->newer;
    switch (ending->newest) {
    case DCONFDB_NEWEST_NEWER:
        part_was_set_aside(it->new, ending->keeps_fault ? &it->replacing.aside : NULL);
        store_renew(store, newer);
        break;
    case DCONFDB_NEWEST_TRIED:
        dconfdb_snapshot_unref(store->tried);
        store->tried = newer;
        break;
    default:
        dconfdb_snapshot_unref(newer);
    }
}

static bool end(Changing *it)
{
    DconfdbStore *store = it->edited->store;
    DconfdbEnding ending = {.is_there = false};
    dconfdb_ending((uint32_t)it->step.number, it->step.fault, store->known.is_unsettled, it->replacing.is_aside, &ending);
    renew(it, &ending);
    store_after(store, DCONFDB_STORE_ENDED, ending.is_unsettled, ending.newest);
    return tell_ending(it->error, &ending, (int)it->step.fault, store->user_file, store->place.folder);
}

/* With memory for all that the proved calls make of a file of a few keys. */
static void run(Changing *it)
{
    _Alignas(max_align_t) char bytes[SMALL_ROOM];
    LentRoom room;
    lend_room(&room, bytes, sizeof bytes);
    changing_run(it);
    take_back_room(&room);
}

/* Whether a new file is left to the system: nothing that isn't noted is brought to the disk. */
static bool is_unsynced(const DconfdbStore *store)
{
    const DconfdbSettling known = {.has_file = true, .is_unsynced = store->options.is_unsynced, .is_in_turn = true};
    return dconfdb_settling_after(DCONFDB_SETTLING_NOTES, false, &known) != DCONFDB_SETTLING_SETTLE;
}

bool change_in_turn(DconfdbStore *store, const FolderLock *lock, Asking *asking, DconfdbError *error)
{
    Edited edited = {.store = store, .lock = lock, .asking = asking};
    Changing it; /* its buffers are written before they are read */
    HeldSignal held;
    it.turn = (DconfdbTurn){0};
    it.step = (DconfdbStep){0};
    it.new = it.old = NULL;
    it.order = NULL;
    it.error = error;
    it.flag = store->flag;
    it.edited = &edited;
    int fault = replacing_begin(&it.replacing, lock->folder, store->own_name);
    if (fault != 0)
        return refuse_file(error, fault, store->user_file, nowhere);
    it.replacing.is_unsynced = is_unsynced(store);
    hold_limit_signal(&held);
    pthread_mutex_lock(&store->refreshing);
    edited.before = dconfdb_snapshot_ref(store->now);
    run(&it);
    bool done = end(&it);
    atomic_store(&store->is_amid, false);
    dconfdb_snapshot_unref(edited.before);
    pthread_mutex_unlock(&store->refreshing);
    release_limit_signal(&held);
    replacing_end(&it.replacing);
    return done;
}
