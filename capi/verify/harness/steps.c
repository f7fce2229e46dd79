/* libdconfdb/steps.c: the whole loop of a change by the proved machine, with any answer of the system to each step. The calls of the steps are
 * checked by themselves (harness/replacing.c); here, that each step is carried out once, with what it says, and answered by what became of it. */
#include "libdconfdb/steps.c"
#include "machines.h"
#include "world.h"

#include <stdlib.h>

#include <errno.h>

/* narrows libdconfdb/dconfdb.h: char text[512]; => char text[8]; */

static Changing it;
static Order order;
static Part *old_part, *new_part;
static uint8_t bytes[2];

static DconfdbStep now;           /* the step that is carried out */
static unsigned carried, steps_done;
static int step_fault;            /* what became of it */
static size_t step_number;
static bool is_amid, is_there, is_on_disk, has_tried, is_made_new, has_nothing;

/* ---- a watch over the steps */

static void begins(const DconfdbStep *step)
{
    CHECK(!is_amid, "order: each step is answered before the next one");
    now = *step;
    is_amid = step->kind != DCONFDB_TURN_DONE;
    carried = 0;
    step_fault = 0;
    step_number = 0;
}

static void ends(uint32_t fault, size_t n)
{
    bool is_call = now.kind >= DCONFDB_TURN_READ && now.kind <= DCONFDB_TURN_NOTE;
    CHECK(is_amid, "order: an answer is one to a step");
    is_amid = false;
    steps_done++;
    if (is_call && now.kind != DCONFDB_TURN_SETTLE)
        CHECK(carried == 1, "step: it is carried out once");
    CHECK(carried <= 1 && (is_call || carried == 0), "step: nothing else is done");
    CHECK(fault == (uint32_t)step_fault, "answer: a fault is the step's, and so is that nothing is to be changed");
    CHECK(fault != 0 || n == step_number, "answer: the number is the step's");
}

/* A step's own call; 0, or its fault. */
static int carries(uint32_t kind)
{
    CHECK(is_amid && now.kind == kind, "order: what is done is the step's");
    carried++;
    step_fault = any_fault();
    return step_fault;
}

static int answers(uint32_t kind, size_t *n)
{
    int fault = carries(kind);
    *n = step_number = fault == 0 ? some_number(kind) : 0;
    return fault;
}

/* ---- what knows the store (changing.c) */

int changing_read(Changing *at)
{
    int fault = carries(DCONFDB_TURN_READ);
    CHECK(at == &it, "memory: one change");
    if (any_bool() && fault != 0)
        return step_fault = IS_TOLD;
    at->order = &order;
    at->old = old_part;
    at->answer = step_number = fault == 0 ? some_number(DCONFDB_TURN_READ) : 0;
    return fault;
}

int changing_make(Changing *at)
{
    CHECK(at->order == &order && at->old == old_part, "order: it is read before");
    int fault = carries(DCONFDB_TURN_MAKE);
    if (fault != 0) {
        has_nothing = any_bool();
        return step_fault = has_nothing ? IS_NOTHING : IS_TOLD;
    }
    at->answer = step_number = some_number(DCONFDB_TURN_MAKE);
    at->new = new_part;
    new_part->bytes = (FileBytes){bytes, step_number, false};
    return 0;
}

/* It is told to nobody if it fails. */
int changing_note(Changing *at)
{
    CHECK(at->order != NULL, "order: what others have set is known");
    carries(DCONFDB_TURN_NOTE);
    return step_fault = 0;
}

bool order_is_synced(const Order *at, const char *name, const FileState *file)
{
    CHECK(at == &order && name == it.replacing.name && file == &old_part->state, "step: what is asked is whether the old file is on the disk");
    return any_bool();
}

/* The flag of dconf's readers is set once the name may be the new file's, and never before. */
void flag_set(const char *path)
{
    CHECK(path == it.flag && is_amid && carried == 1, "order: dconf's readers are told behind the rename, in the turn");
    CHECK(now.kind == DCONFDB_TURN_RENAME || now.kind == DCONFDB_TURN_EXCHANGE, "step: it is of the step that replaces the file");
}

/* ---- the calls of replacing.c, as harness/replacing.c has them */

int replacing_create(Replacing *at, size_t bits)
{
    CHECK(at == &it.replacing && bits == now.number, "step: the step's bits");
    CHECK(!is_there, "order: nothing is made once the name is the new file's");
    int fault = carries(DCONFDB_TURN_CREATE);
    is_made_new = is_made_new || fault == 0;
    return fault;
}

int replacing_append(const Replacing *at, const uint8_t *from, size_t len, size_t *count)
{
    CHECK(at == &it.replacing && from == bytes + now.number && len == new_part->bytes.len - now.number, "step: the bytes from there on");
    CHECK(__CPROVER_r_ok(from, len), "memory: they are there");
    CHECK(is_made_new && !is_there, "order: it is made before, and has no name yet");
    return answers(DCONFDB_TURN_APPEND, count);
}

int replacing_sync(Replacing *at, size_t bits, FileState *state)
{
    CHECK(at == &it.replacing && bits == now.number && state == &new_part->state, "step: the step's bits, and the new file's state");
    CHECK(is_made_new && !is_there, "order: before it has the name");
    int fault = carries(DCONFDB_TURN_SYNC);
    state->is_there = true;
    is_on_disk = fault == 0;
    return fault;
}

int replacing_set_aside(Replacing *at, size_t *cannot)
{
    CHECK(at == &it.replacing && is_on_disk && !is_there, "order: the new file is on the disk before the old one is touched");
    return answers(DCONFDB_TURN_SET_ASIDE, cannot);
}

int replacing_exchange(Replacing *at, FileState *state)
{
    CHECK(at == &it.replacing && state == &new_part->state && is_on_disk && !is_there, "order: the new file is on the disk before it has the name");
    has_tried = true;
    int fault = carries(DCONFDB_TURN_EXCHANGE);
    is_there = fault == 0;
    return fault;
}

int replacing_rename(const Replacing *at, FileState *state)
{
    CHECK(at == &it.replacing && state == &new_part->state && is_on_disk && !is_there, "order: the new file is on the disk before it has the name");
    has_tried = true;
    int fault = carries(DCONFDB_TURN_RENAME);
    is_there = fault == 0;
    return fault;
}

int replacing_sync_folder(const Replacing *at)
{
    CHECK(at == &it.replacing && is_there, "order: the folder's names are synced after they changed");
    return carries(DCONFDB_TURN_SYNC_FOLDER);
}

int replacing_remove(const Replacing *at)
{
    CHECK(at == &it.replacing && !is_there, "order: what has the name is not removed");
    return carries(DCONFDB_TURN_REMOVE);
}

int replacing_settle(const Replacing *at, bool is_readable)
{
    CHECK(at == &it.replacing && is_readable == (part_errnum(old_part) == 0) && !is_there, "step: the old file");
    CHECK(!at->is_unsynced, "step: nothing is brought to the disk that isn't to be");
    return carries(DCONFDB_TURN_SETTLE);
}

uint32_t part_errnum(const Part *part)
{
    return part->fault ? EACCES : 0;
}

static void set_up(void)
{
    static DconfdbError error;
    static Part parts[2];
    static Fault fault;
    old_part = &parts[0];
    new_part = &parts[1];
    old_part->fault = any_bool() ? &fault : NULL;
    old_part->is_settled = any_bool();
    it.error = &error;
    it.replacing.name = "user";
    it.replacing.is_unsynced = any_bool();
}

/* harness change_step: unwind 6, with machines.c, quick */
int change_step(void)
{
    DconfdbStep step = {any_u32(), 0, any_size(), any_bool()};
    GIVEN(step.kind < DCONFDB_TURN_DONE && (step.kind != DCONFDB_TURN_APPEND || step.number <= sizeof bytes));
    set_up();
    if (step.kind > DCONFDB_TURN_READ) {
        it.order = &order;
        it.old = old_part;
    }
    if (step.kind > DCONFDB_TURN_MAKE) {
        it.new = new_part;
        new_part->bytes = (FileBytes){bytes, sizeof bytes, false};
    }
    is_made_new = step.kind > DCONFDB_TURN_CREATE;
    is_on_disk = step.kind > DCONFDB_TURN_SYNC;
    is_there = step.kind == DCONFDB_TURN_SYNC_FOLDER || (step.kind == DCONFDB_TURN_NOTE && any_bool());
    begins(&step);
    it.step = step;
    uint32_t fault = (uint32_t)steps[step.kind](&it);
    ends(fault, it.answer);
    CHECK(!new_part->is_settled || (step.kind == DCONFDB_TURN_SYNC_FOLDER && fault == 0 && !it.replacing.is_unsynced), "answer: on the disk is what was synced there");
    if (step.kind == DCONFDB_TURN_RENAME && fault == 0)
        REACHED("a rename");
    return 0;
}

/* harness change_loop: unwind 19, with machines.c, sliced */
int change_loop(void)
{
    set_up();
    at_step = begins;
    at_answer = ends;
    changing_run(&it);
    uint32_t outcome = (uint32_t)it.step.number;
    bool is_new = outcome == DCONFDB_TURN_MADE || outcome == DCONFDB_TURN_UNSETTLED;
    CHECK(it.step.kind == DCONFDB_TURN_DONE && !is_amid, "step: it goes on to the end");
    CHECK(is_new == is_there, "answer: the name is the new file's exactly if that is said");
    CHECK(outcome != DCONFDB_TURN_EITHER || has_tried, "answer: nobody is unsure of what was not tried");
    bool is_same = outcome == DCONFDB_TURN_SAME || outcome == DCONFDB_TURN_UNSYNCED;
    CHECK(!is_same || has_nothing, "answer: what was to stay is the same");
    CHECK(!new_part->is_settled || (outcome == DCONFDB_TURN_MADE && !it.replacing.is_unsynced), "answer: on the disk is what was synced there");
    if (outcome == DCONFDB_TURN_MADE)
        REACHED("it is made");
    if (outcome == DCONFDB_TURN_UNSYNCED)
        REACHED("it was to stay, and isn't on the disk");
    return 0;
}
