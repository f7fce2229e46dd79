/* Carries out the steps of a change. */
#define _DEFAULT_SOURCE
#define _POSIX_C_SOURCE 200809L
#define _FILE_OFFSET_BITS 64
#include "steps.h"
#include "flag.h"

/* The lock is the caller's. */
static int has_lock(Changing *it)
{
    (void)it;
    return 0;
}

static int create(Changing *it)
{
    return replacing_create(&it->replacing, it->step.number);
}

static int append(Changing *it)
{
    const FileBytes *bytes = &it->new->bytes;
    size_t at = it->step.number;
    return replacing_append(&it->replacing, bytes->at + at, bytes->len - at, &it->answer);
}

static int sync_new(Changing *it)
{
    return replacing_sync(&it->replacing, it->step.number, &it->new->state);
}

static int set_aside(Changing *it)
{
    return replacing_set_aside(&it->replacing, &it->answer);
}

/* The name is the new file's, or perhaps: dconf's readers look again. */
static int exchange(Changing *it)
{
    int fault = replacing_exchange(&it->replacing, &it->new->state);
    flag_set(it->flag);
    return fault;
}

static int rename_new(Changing *it)
{
    int fault = replacing_rename(&it->replacing, &it->new->state);
    flag_set(it->flag);
    return fault;
}

/* And then the new file may be on the disk. */
static int sync_folder(Changing *it)
{
    int fault = replacing_sync_folder(&it->replacing);
    const DconfdbSettling known = {.has_file = true, .is_unsynced = it->replacing.is_unsynced, .is_in_turn = true};
    it->new->is_settled = dconfdb_settling_after(DCONFDB_SETTLING_SETTLE, fault == 0, &known) == DCONFDB_SETTLING_KNOWN;
    return fault;
}

static int remove_new(Changing *it)
{
    return replacing_remove(&it->replacing);
}

/* A task of bringing what the file is to the disk, and its answer. */
static bool settles(Changing *it, uint32_t task, int *fault)
{
    if (task == DCONFDB_SETTLING_NOTES)
        return order_is_synced(it->order, it->replacing.name, &it->old->state);
    *fault = replacing_settle(&it->replacing, task == DCONFDB_SETTLING_SETTLE);
    return *fault == 0;
}

static int settle(Changing *it)
{
    Part *old = it->old;
    const DconfdbSettling known = {.has_file = true,
                                   .is_known = old->is_settled,
                                   .is_unsynced = it->replacing.is_unsynced,
                                   .is_in_turn = true,
                                   .errnum = part_errnum(old)};
    int fault = 0;
    uint32_t task = dconfdb_settling_after(DCONFDB_SETTLING_BEGINS, true, &known);
    while (task < DCONFDB_SETTLING_KNOWN)
        task = dconfdb_settling_after(task, settles(it, task, &fault), &known);
    old->is_settled = task == DCONFDB_SETTLING_KNOWN;
    return fault;
}

static int (*const steps[DCONFDB_TURN_DONE])(Changing *it) = {
    [DCONFDB_TURN_LOCK] = has_lock,
    [DCONFDB_TURN_READ] = changing_read,
    [DCONFDB_TURN_MAKE] = changing_make,
    [DCONFDB_TURN_CREATE] = create,
    [DCONFDB_TURN_APPEND] = append,
    [DCONFDB_TURN_SYNC] = sync_new,
    [DCONFDB_TURN_SET_ASIDE] = set_aside,
    [DCONFDB_TURN_EXCHANGE] = exchange,
    [DCONFDB_TURN_RENAME] = rename_new,
    [DCONFDB_TURN_SYNC_FOLDER] = sync_folder,
    [DCONFDB_TURN_REMOVE] = remove_new,
    [DCONFDB_TURN_SETTLE] = settle,
    [DCONFDB_TURN_NOTE] = changing_note,
    [DCONFDB_TURN_UNLOCK] = has_lock,
};

void changing_run(Changing *it)
{
    dconfdb_turn_begin(&it->turn, &it->step);
    while (it->step.kind != DCONFDB_TURN_DONE) {
        it->answer = 0;
        int fault = steps[it->step.kind](it);
        dconfdb_turn_answered(&it->turn, (uint32_t)fault, it->answer, &it->step);
    }
}
