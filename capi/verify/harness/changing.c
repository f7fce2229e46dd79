/* libdconfdb/changing.c: what is read, made and noted in a turn. The loop is that of harness/steps.c. */
#include "changing.h"

/* narrows libdconfdb/dconfdb.h: char text[512]; => char text[8]; */
/* stubs libdconfdb/changing.c: make_bytes open_new */

static Order *order_room_now;
static bool is_written, is_well;
static unsigned noted;
static bool has_heard;

/* ---- what is asked */

Order *store_read_order(DconfdbStore *at, Asking *of, const DconfdbSnapshot *before, const FolderLock *by, DconfdbError *error)
{
    (void)error;
    CHECK(at == &store && of == &asking && before == edited.before && by == &lock, "step: the order of the turn");
    bool is = any_bool();
    refused += !is;
    return order_room_now = is ? &store.order : NULL;
}

int replacing_look(Replacing *at, bool is_bad, const FileState *read, size_t *bits)
{
    CHECK(at == &it.replacing && is_bad == (part_fault(&old_parts[0]) != NULL) && read == &old_parts[0].state, "answer: whether something was wrong with it");
    CHECK(atomic_load(&store.is_amid), "order: others are told that the turn has begun");
    *bits = any_size();
    return any_fault();
}

bool asking_is_as_expected(const DconfdbSnapshot *now, const Asking *of, DconfdbError *error)
{
    (void)error;
    CHECK(now == &old_room && of == &asking, "step: what is expected is what is seen now");
    CHECK(asking.expected && asking.expected != now, "step: it is asked of what is expected, and isn't the newest");
    bool is = any_bool();
    refused += !is;
    return is;
}

bool asking_leave_out(Asking *of, const DconfdbStore *at, Order *order, const DconfdbSnapshot *before)
{
    CHECK(!is_well && of == &asking && at == &store && order == &store.order && before == edited.before, "step: what others have set since is left out");
    size_t left = any_size();
    GIVEN(left <= of->count);
    of->count = left;
    return any_bool();
}

bool edits_make_file(const DconfdbStore *at, const DconfdbChange *of, const size_t *edits, size_t count, MadeFile *made, DconfdbError *error)
{
    (void)error;
    CHECK(at == &store && of == changes && edits == numbers && count == asking.count, "step: what is left is made");
    if (any_bool()) {
        *made = (MadeFile){{some_bytes, sizeof some_bytes, false}, any_bool()};
        has_bytes_read = true;
        return true;
    }
    made->bytes = (FileBytes){NULL, 0, false};
    refused++;
    return false;
}

Part *part_open(const Asked *asked, FileState state, FileBytes bytes, const Part *old, DconfdbError *error)
{
    (void)error;
    CHECK(asked->name == store.user_file && asked->size == DCONFDB_SIZE_USERS && !asked->is_lenient && state.is_there && old == &old_parts[0], "step: the new file's part, beside the old one");
    Part *part = some_part(&bytes);
    refused += !part;
    return part;
}

bool part_blame(Part *part, const DconfdbError *fault, DconfdbError *error)
{
    (void)error;
    CHECK(part == &new_parts[0] && fault == &faults[0].error && !faults[0].aside, "answer: what was wrong with the old file is kept");
    if (any_bool()) {
        faults[1].aside = NULL;
        part->fault = &faults[1];
        return true;
    }
    refused++;
    return false;
}

/* Whatever is seen, what is the newest, or something else. */
static void expect_any(void)
{
    asking.expected = any_bool() ? NULL : any_bool() ? &old_room : &newer_room;
}

/* ---- reading, making and noting, one by one */

/* harness changing_read: unwind 6, quick */
int changing_read_(void)
{
    set_up();
    int fault = changing_read(&it);
    CHECK(fault != IS_TOLD || (refused > 0 && !it.order), "answer: what is told has no order");
    CHECK(fault == IS_TOLD || (it.order == order_room_now && it.old == &old_parts[0] && atomic_load(&store.is_amid)), "answer: the order and the old part are had");
    CHECK(fault == IS_TOLD || fault >= 0, "answer: 0, or a fault");
    if (fault == 0)
        REACHED("it is read");
    return 0;
}

/* harness changing_bytes: unwind 6, quick */
int changing_bytes(void)
{
    set_up();
    uint32_t found_ = real_make_bytes(&it);
    CHECK(has_bytes_read == (edited.file.bytes.at != NULL) && (found_ == DCONFDB_FOUND_YES) == has_bytes_read, "answer: bytes are there exactly if that is said");
    CHECK(found_ == DCONFDB_FOUND_YES || (found_ == DCONFDB_FOUND_FAULT && refused > 0), "answer: what failed is told");
    if (has_bytes_read)
        REACHED("bytes");
    return 0;
}

/* As changing_bytes has it. */
static uint32_t make_bytes(Changing *at)
{
    CHECK(at->edited->asking->count > 0 || !at->edited->lock, "step: bytes of edits that are left");
    has_bytes_read = any_bool();
    at->edited->file.bytes = has_bytes_read ? (FileBytes){some_bytes, sizeof some_bytes, false} : (FileBytes){NULL, 0, false};
    at->edited->file.is_same = any_bool();
    refused += !has_bytes_read;
    return has_bytes_read ? DCONFDB_FOUND_YES : DCONFDB_FOUND_FAULT;
}

/* harness changing_open: unwind 6, quick */
int changing_open(void)
{
    set_up();
    has_bytes_read = true;
    edited.file.bytes = (FileBytes){some_bytes, sizeof some_bytes, false};
    uint32_t answer = real_open_new(&it);
    bool is = answer == DCONFDB_FOUND_YES;
    CHECK(is || (answer == DCONFDB_FOUND_FAULT && refused > 0), "answer: it is opened, or what failed is told");
    CHECK(!has_bytes_read && edited.file.bytes.at == NULL, "memory: the bytes are the new part's");
    CHECK(is == (edited.newer != NULL) && has_newer == is, "answer: a newer snapshot is there exactly if that is said");
    CHECK(it.answer == sizeof some_bytes, "answer: as many bytes as are to be written");
    for (size_t i = 0; !is && i < FILES; i++)
        CHECK(old_parts[i].references == 1 && (i >= made || new_parts[i].references == 0), "memory: a fault leaves nobody more");
    if (is) {
        CHECK(it.new == &new_parts[0] && newer_list[0] == it.new && newer_list[0]->references == 1, "step: the new file's part is the first");
        CHECK((it.new->fault != NULL) == (old_parts[0].fault && !faults[0].aside), "answer: what was wrong with the old file is kept");
        CHECK(store.count < 2 || (newer_list[1] == &old_parts[1] && old_parts[1].references == 2), "step: the others are as they were, had once more");
    }
    if (is && it.new->fault && store.count == 2)
        REACHED("a bad file's successor");
    if (is)
        dconfdb_snapshot_unref(edited.newer);
    for (size_t i = 0; i < FILES; i++)
        CHECK(old_parts[i].references == 1, "memory: who had the old parts has them still");
    return 0;
}

static bool is_opened;

/* As changing_open has it. */
static uint32_t open_new(Changing *at)
{
    CHECK(at->edited->lock, "step: where no file is to be made none is opened");
    CHECK(has_bytes_read && at->edited->file.bytes.at == some_bytes, "memory: the bytes are there");
    at->edited->file.bytes = (FileBytes){NULL, 0, false};
    has_bytes_read = false;
    is_opened = any_bool();
    refused += !is_opened;
    return is_opened ? DCONFDB_FOUND_YES : DCONFDB_FOUND_FAULT;
}

/* harness changing_make: unwind 7, with machines.c, quick */
int changing_make_(void)
{
    static DconfdbError error;
    set_up();
    expect_any();
    it.order = &store.order;
    it.error = any_bool() ? &error : NULL;
    size_t asked = asking.count;
    int fault = changing_make(&it);
    CHECK(fault == 0 || fault == IS_TOLD || fault == IS_NOTHING, "answer: made, told, or nothing to be changed");
    CHECK(!has_bytes_read && edited.file.bytes.at == NULL, "memory: the bytes are the new part's, or released");
    CHECK((fault == 0) == is_opened, "answer: made is what was opened");
    CHECK(fault != IS_TOLD || refused > 0, "answer: what failed is told");
    CHECK(fault != IS_NOTHING || asking.count == 0 || !store.known.is_unsettled, "answer: what is perhaps not on the disk is written once more");
    if (fault == IS_NOTHING && asked == 2 && asking.count == 1)
        REACHED("all is there already");
    if (fault == 0)
        REACHED("it is made");
    return 0;
}

/* harness change_is_well: unwind 7, with machines.c, quick */
int change_is_well_(void)
{
    set_up();
    expect_any();
    is_well = true;
    bool is = change_is_well(&store, &asking, NULL);
    CHECK(!has_bytes_read, "memory: the bytes are released");
    CHECK(is || refused > 0, "answer: what failed is told");
    if (is)
        REACHED("one could be made");
    return 0;
}

static bool is_new_noted(void)
{
    return it.turn.outcome == DCONFDB_TURN_MADE || it.turn.outcome == DCONFDB_TURN_UNSETTLED;
}

bool asking_note(Asking *of, const DconfdbSnapshot *now, Order *order)
{
    CHECK(of == &asking && order == &store.order, "step: what was set");
    CHECK(now == (is_new_noted() ? &newer_room : &old_room), "answer: what is noted is what the name is");
    of->latest = any_u64();
    return any_bool();
}

bool order_is_synced(const Order *order, const char *name, const FileState *file)
{
    CHECK(order == &store.order && name == store.user_file + 3 && (file == &new_parts[0].state || file == &old_parts[0].state), "step: whether the file is on the disk");
    return any_bool();
}

bool order_write(Order *order, int file, const char *name, const FileState *left, bool is_synced)
{
    CHECK(order == &store.order && file == lock.file && name == store.user_file + 3, "step: it is noted in the lock's own file");
    CHECK(left == (is_new_noted() ? &new_parts[0].state : &old_parts[0].state), "answer: the file that is left is what the name is");
    CHECK(!(is_new_noted() ? &new_parts[0] : &old_parts[0])->is_settled || is_synced, "answer: what is known to be on the disk is noted so");
    is_written = any_bool();
    noted++;
    return is_written;
}

/* As dconfdb_store_after has it of a note. */
void store_after(DconfdbStore *at, uint32_t what, bool yes, uint64_t number)
{
    CHECK(at == &store && what == DCONFDB_STORE_NOTED && is_written, "order: what was seen is forgotten once it is noted");
    CHECK(number == asking.latest, "answer: its time is the latest of what is noted");
    if (yes && number > 0)
        store.known.noted = number;
}

/* Who waits for the change hears of it before it is noted, once. */
static void hears(void *of, DconfdbSnapshot *newest)
{
    CHECK(of == &it && noted == 0 && !has_heard, "order: who waits hears first");
    CHECK(newest == (is_new_noted() ? edited.newer : store.now), "answer: what is the newest by it");
    CHECK(it.turn.outcome == DCONFDB_TURN_MADE || it.turn.outcome == DCONFDB_TURN_SAME, "answer: of what is made");
    has_heard = true;
}

/* harness changing_note: unwind 8, with machines.c, quick */
int changing_note_(void)
{
    static const Awaits who = {hears, &it};
    set_up();
    asking.who = any_bool() ? &who : NULL;
    it.order = &store.order;
    it.turn.outcome = any_u32();
    it.turn.fault = any_bool() ? 0 : any_bool() ? 1 : DCONFDB_TURN_NOTHING;
    GIVEN(it.turn.outcome <= DCONFDB_TURN_UNSYNCED);
    edited.newer = is_new_noted() ? snapshot_new(store.count, true) : NULL;
    GIVEN(!is_new_noted() || edited.newer);
    if (is_new_noted()) {
        new_parts[0].references = 1;
        snapshot_put(edited.newer, 0, &new_parts[0]);
        new_parts[0].is_settled = any_bool();
    }
    old_parts[0].is_settled = any_bool();
    uint64_t before = store.known.noted;
    int fault = changing_note(&it);
    CHECK(fault == 0, "answer: a note that can't be is no fault");
    CHECK(has_heard || !asking.who || !(it.turn.outcome == DCONFDB_TURN_MADE || it.turn.outcome == DCONFDB_TURN_SAME), "answer: who waits hears of what is made");
    if (has_heard && noted == 1)
        REACHED("it is heard, and noted then");
    CHECK(noted <= 1 && (is_written || store.known.noted == before), "step: one note, at most");
    CHECK(it.turn.outcome != DCONFDB_TURN_KEPT || it.turn.fault == DCONFDB_TURN_NOTHING || store.known.noted == before, "answer: what was not made has no time");
    if (noted == 1 && is_new_noted() && asking.count == 2)
        REACHED("a note");
    return 0;
}
