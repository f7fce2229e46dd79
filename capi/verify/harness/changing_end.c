/* libdconfdb/changing.c: what the store has after a turn. */
#include "changing.h"

/* narrows libdconfdb/dconfdb.h: char text[512]; => char text[8]; */

static bool has_begun, is_signal_held;
static const LentRoom *room_lent;

int replacing_begin(Replacing *at, int folder, const char *name)
{
    CHECK(folder == lock.folder && name == store.user_file + 3, "step: the file in the folder that is locked");
    int fault = any_fault();
    has_begun = fault == 0;
    at->aside = NULL;
    at->is_aside = false;
    return fault;
}

void replacing_end(Replacing *at)
{
    CHECK(has_begun, "descriptor: what was begun is ended, once");
    CHECK(none_is_held(), "order: the store is free before");
    has_begun = false;
    at->aside = NULL;
}

void hold_limit_signal(HeldSignal *held)
{
    (void)held;
    CHECK(!is_signal_held, "order: the signal is held once");
    is_signal_held = true;
}

void release_limit_signal(const HeldSignal *held)
{
    (void)held;
    CHECK(is_signal_held, "order: what was held is released");
    is_signal_held = false;
}

static uint32_t outcome;
static DconfdbSnapshot *made_newer;
static bool was_aside;

/* As change_loop has it: how it may end, and what there is then. */
void lend_room(LentRoom *room, void *bytes, size_t size)
{
    CHECK(!room_lent && bytes && size == SMALL_ROOM, "memory: a room is lent, and taken back");
    room_lent = room;
}

void take_back_room(const LentRoom *room)
{
    CHECK(room_lent == room, "memory: the room that was lent is taken back");
    room_lent = NULL;
}

void changing_run(Changing *at)
{
    static char aside[4];
    CHECK(is_held(&store.refreshing) && has_begun && is_signal_held, "order: nobody else looks meanwhile, and no signal comes");
    CHECK(at->edited->before == &old_room && old_room.references == 2, "memory: what was before stays");
    CHECK(room_lent, "memory: a room is lent to all steps");
    outcome = any_u32();
    GIVEN(outcome <= DCONFDB_TURN_UNSYNCED);
    bool is_new = outcome == DCONFDB_TURN_MADE || outcome == DCONFDB_TURN_UNSETTLED || outcome == DCONFDB_TURN_EITHER;
    if (is_new || (outcome == DCONFDB_TURN_KEPT && any_bool())) {
        made_newer = at->edited->newer = snapshot_new(store.count, true);
        GIVEN(made_newer);
        new_parts[0].references = 1;
        new_parts[0].fault = any_bool() ? &faults[1] : NULL;
        faults[1].aside = NULL;
        snapshot_put(made_newer, 0, &new_parts[0]);
        at->new = &new_parts[0];
    }
    at->replacing.is_aside = was_aside = any_bool();
    at->replacing.aside = was_aside || any_bool() ? aside : NULL;
    at->step = (DconfdbStep){.kind = DCONFDB_TURN_DONE, .number = outcome, .fault = any_bool()};
    atomic_store(&store.is_amid, true);
}

/* As dconfdb_store_after has it of an end. */
void store_after(DconfdbStore *at, uint32_t what, bool yes, uint64_t number)
{
    CHECK(at == &store && what == DCONFDB_STORE_ENDED && is_held(&store.refreshing), "step: how it ended is known");
    CHECK(number <= DCONFDB_NEWEST_TRIED && (number == DCONFDB_NEWEST_TRIED) == (store.tried != NULL), "answer: what is tried is had");
    store.known.is_unsettled = yes;
}

void store_renew(DconfdbStore *at, DconfdbSnapshot *newer)
{
    CHECK(at == &store && is_held(&store.refreshing) && newer == made_newer, "step: the newer snapshot is handed out");
    old_room.references--;
    store.now = newer;
}

/* harness change_end: unwind 8, with machines.c, quick */
int change_end(void)
{
    static DconfdbError error;
    set_up();
    bool was = store.known.is_unsettled;
    store.tried = NULL;
    bool done = change_in_turn(&store, &lock, &asking, any_bool() ? &error : NULL);
    CHECK(none_is_held() && !is_signal_held && !has_begun && !atomic_load(&store.is_amid), "order: all is given back");
    if (!made_newer && old_room.references == 1 && !done && outcome == 0 && refused == 1) {
        CHECK(store.now == &old_room, "answer: no turn leaves the snapshot");
        return 0;
    }
    bool is_new = outcome == DCONFDB_TURN_MADE || outcome == DCONFDB_TURN_UNSETTLED;
    CHECK((store.now == made_newer && made_newer != NULL) == is_new, "answer: the newer snapshot is the store's exactly if it is the file");
    CHECK(old_room.references == (is_new ? 0 : 1) || old_room.references == 1, "memory: what was before is given back");
    CHECK((store.tried == made_newer && made_newer != NULL) == (outcome == DCONFDB_TURN_EITHER), "answer: what is perhaps made is kept");
    CHECK(has_newer == (is_new || outcome == DCONFDB_TURN_EITHER), "memory: the newer snapshot is had, or given back");
    CHECK(!is_new || !new_parts[0].fault || new_parts[0].fault->aside, "answer: a fault that is kept has another name");
    CHECK(!is_new || !was_aside || !new_parts[0].fault || faults[1].aside, "answer: what is aside is told");
    CHECK(store.known.is_unsettled == (outcome == DCONFDB_TURN_KEPT ? was : outcome != DCONFDB_TURN_MADE && outcome != DCONFDB_TURN_SAME), "answer: unsettled is as it ended");
    CHECK(done == (outcome == DCONFDB_TURN_MADE || outcome == DCONFDB_TURN_SAME), "answer: yes is made, or what was to stay");
    CHECK(done || refused > 0, "answer: no is told");
    if (is_new && was_aside && new_parts[0].fault)
        REACHED("a bad file is set aside");
    return 0;
}
