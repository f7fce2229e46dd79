/* libdconfdb/refresh.c: each step of a look at up to two files, the loop of a look, and what a refresh makes of it. Parts, snapshots and files are
 * counted here: harness/files.c has the files. */
#define MOST_DATABASES 2
#define FEW_DATABASES 2
#include "libdconfdb/refresh.c"
#include "machines.h"
#include "parts.h"

/* narrows libdconfdb/dconfdb.h: char text[512]; => char text[8]; */
/* stubs libdconfdb/refresh.c: files_look is_as_said read_at is_as_read part_of_read */

int file_look(const char *name, FileState *state)
{
    CHECK(name == store.files[0] || name == store.files[1], "step: a file of the store");
    state->is_there = any_bool();
    return any_fault();
}

uint64_t dconfdb_largest(uint32_t kind, bool *may_map)
{
    CHECK(kind == DCONFDB_SIZE_DATABASE || kind == DCONFDB_SIZE_USERS, "step: the size of a database");
    *may_map = kind == DCONFDB_SIZE_DATABASE;
    return UINT32_MAX;
}

int file_read(int folder, const char *name, bool maps, FileWanted *is_wanted, uint64_t most, FileBytes *bytes, FileState *state)
{
    bool is_users = store.user_file && (folder == TURN ? name == store.user_file + 3 : name == store.user_file);
    CHECK(!has_bytes_read, "memory: what was read before is a part's, or released");
    CHECK(is_users || name == store.files[0] || name == store.files[1], "step: a file of the store; in a turn the user's alone in its folder");
    CHECK(is_cancel_held(), "step: no cancellation comes while a file is open");
    CHECK(maps == !is_users && is_wanted == dconfdb_is_database_head && most == UINT32_MAX, "step: the user's file alone isn't mapped");
    int fault = any_fault();
    state->is_there = any_bool();
    *bytes = (FileBytes){NULL, 0, false};
    if (fault == 0 && state->is_there && any_bool()) {
        *bytes = (FileBytes){some_bytes, sizeof some_bytes, maps};
        has_bytes_read = true;
    }
    return fault;
}

/* What the file is beside an old part: what was read, or failed to be, is never the same as what didn't. */
uint32_t dconfdb_beside(uint32_t purpose, const DconfdbFileStamp *old, const DconfdbFileStamp *now, const DconfdbPartSeen *seen)
{
    CHECK(old == &old_parts[0].state || old == &old_parts[1].state, "step: an old part's file");
    CHECK(__CPROVER_r_ok(now, sizeof *now) && __CPROVER_r_ok(seen, sizeof *seen), "memory: two states, and what is known");
    CHECK(purpose == DCONFDB_PART_KEEP || purpose == DCONFDB_PART_TAKE, "answer: a purpose");
    if (seen->fault != 0 || (purpose == DCONFDB_PART_TAKE && (seen->code == 0) != (seen->read_code == 0)))
        return DCONFDB_BESIDE_OTHER;
    if (any_bool())
        return DCONFDB_BESIDE_SAME;
    return purpose == DCONFDB_PART_KEEP && any_bool() ? DCONFDB_BESIDE_IF_READABLE : DCONFDB_BESIDE_OTHER;
}

bool dconfdb_known_after(const DconfdbFileStamp *old, const DconfdbFileStamp *now, bool may_be_read, DconfdbFileStamp *known)
{
    CHECK(old == &old_parts[0].state || old == &old_parts[1].state, "step: an old part's file");
    *known = may_be_read ? *now : *old;
    return may_be_read;
}

uint64_t file_clock(void)
{
    return any_u64();
}

Part *part_open(const Asked *asked, FileState state, FileBytes bytes, const Part *old, DconfdbError *error)
{
    (void)state, (void)error;
    CHECK(old == (store.now ? &old_parts[asked->index] : NULL), "step: beside the old one of the same file");
    Part *part = some_part(&bytes);
    refused += !part;
    return part;
}

Part *part_new(const char *name, FileState state, FileBytes bytes, DconfdbError *error)
{
    (void)name, (void)state, (void)error;
    Part *part = some_part(&bytes);
    refused += !part;
    return part;
}

bool part_blame(Part *part, const DconfdbError *fault, DconfdbError *error)
{
    (void)error;
    CHECK(part->references == 1 && fault->code != DCONFDB_ERROR_NONE, "answer: what is blamed has a fault");
    bool is = any_bool();
    refused += !is;
    return is;
}

const DconfdbError *part_fault(const Part *part)
{
    return part->fault && !part->fault->aside ? &part->fault->error : NULL;
}

bool file_may_be_read(const char *name)
{
    CHECK(name == old_parts[0].name || name == old_parts[1].name, "step: an old part's file");
    return any_bool();
}

bool part_has_bytes(const Part *part, const FileBytes *bytes)
{
    CHECK(__CPROVER_r_ok(part, sizeof *part) && __CPROVER_r_ok(bytes, sizeof *bytes), "memory: a part and bytes");
    return any_bool();
}

bool refuse_file(DconfdbError *error, int fault, const char *name, Place place)
{
    CHECK(fault > 0 && name == store.files[place.database], "answer: the fault is said of the file");
    if (error)
        error->code = DCONFDB_ERROR_FILE;
    if (error)
        error->errnum = fault;
    refused++;
    return false;
}

/* ---- the steps by themselves, and how the loop meets them */

static bool is_as_said(const Look *look, Part *old, size_t at)
{
    CHECK(look->store == &store && old == &old_parts[at], "step: the old part of that file");
    return any_bool();
}

static int read_at(Look *look, const Asked *asked)
{
    CHECK(asked->index < store.count && asked->name == store.files[asked->index] && !has_bytes_read, "memory: what was read before is a part's, or released");
    int fault = any_fault();
    has_bytes_read = fault == 0 && any_bool();
    look->bytes = has_bytes_read ? (FileBytes){some_bytes, sizeof some_bytes, false} : (FileBytes){NULL, 0, false};
    return fault;
}

static bool is_as_read(const Look *look, Part *old)
{
    CHECK(look->store == &store && (old == &old_parts[0] || old == &old_parts[1]), "step: an old part");
    return any_bool();
}

static Part *part_of_read(Look *look, size_t at, const Part *old, DconfdbError *error)
{
    (void)error;
    CHECK(at < store.count && old == (store.now ? &old_parts[at] : NULL), "step: beside the old one of the same file");
    Part *part = some_part(&look->bytes);
    look->bytes = (FileBytes){NULL, 0, false};
    refused += !part;
    return part;
}

static Look look_of(int turn)
{
    Look look;
    look.store = &store;
    look.newer = NULL;
    look.turn = turn;
    look.bytes = (FileBytes){NULL, 0, false};
    look.fault.code = DCONFDB_ERROR_NONE;
    return look;
}

/* harness look_read: unwind 6, quick */
int look_read(void)
{
    set_up_store();
    GIVEN(store.count > 0);
    int turn = store.user_file && store.now && any_bool() ? TURN : NO_FOLDER;
    Look look = look_of(turn);
    size_t at = any_size();
    GIVEN(at < store.count);
    Asked asked = asked_of(&look, at);
    bool is_held = !store.now || asked.turn != NO_FOLDER; /* by who opens it, or changes it */
    CHECK(asked.name == store.files[at] && asked.index == at && (asked.turn == NO_FOLDER || asked.turn == turn), "step: that file");
    int before = is_held ? hold_cancellation() : PTHREAD_CANCEL_ENABLE;
    int fault = real_read_at(&look, &asked);
    CHECK(is_cancel_held() == is_held, "answer: cancellation is as it was");
    CHECK(fault == 0 || look.bytes.at == NULL, "answer: a fault has no bytes");
    CHECK(has_bytes_read == (look.bytes.at != NULL), "memory: what was read is kept");
    if (fault == 0 && turn == TURN && at == 0)
        REACHED("the user's file is read in its folder");
    if (is_held)
        cancel_as_before(before);
    file_release(&look.bytes);
    return 0;
}

/* harness look_step: unwind 6, with machines.c, quick */
int look_step(void)
{
    static DconfdbError error;
    DconfdbError *told = any_bool() ? &error : NULL;
    DconfdbRefresh refresh = {.has_old = false};
    DconfdbNext step = {0, 0};
    set_up_store();
    GIVEN(store.count > 0);
    Look look = look_of(NO_FOLDER);
    dconfdb_refresh_begin(&refresh, store.count, false, false, store.options.is_lenient, &step);
    store.now = NULL;
    CHECK(step.kind == DCONFDB_LOOK_READ && step.number == 0, "step: without an old part a file is read");
    take_step(&look, &refresh, &step, told);
    CHECK(step.kind == DCONFDB_LOOK_OPEN || step.kind == DCONFDB_LOOK_FAILED, "step: it is opened, or that failed");
    CHECK((look.fault.code != DCONFDB_ERROR_NONE) == (step.kind == DCONFDB_LOOK_OPEN && refused > 0), "answer: a fault is the file's, where what is read counts as nothing");
    CHECK(step.kind != DCONFDB_LOOK_FAILED || (refused == 1 && (!told || told->code == DCONFDB_ERROR_FILE)), "answer: what failed is told");
    CHECK(step.kind != DCONFDB_LOOK_FAILED || !has_bytes_read, "answer: a fault has no bytes");
    CHECK(step.kind != DCONFDB_LOOK_OPEN || refused == 0 || store.options.is_lenient, "answer: in a lenient store alone a fault is the file's");
    if (step.kind == DCONFDB_LOOK_OPEN && refused > 0)
        REACHED("a file that can't be read counts as nothing");
    file_release(&look.bytes);
    return 0;
}

/* harness look_part: unwind 4 */
int look_part(void)
{
    set_up_store();
    GIVEN(store.count > 0);
    Look look = look_of(NO_FOLDER);
    look.fault.code = any_bool() ? DCONFDB_ERROR_FILE : DCONFDB_ERROR_NONE;
    has_bytes_read = any_bool();
    look.bytes = has_bytes_read ? (FileBytes){some_bytes, sizeof some_bytes, false} : (FileBytes){NULL, 0, false};
    Part *part = real_part_of_read(&look, 0, store.now ? &old_parts[0] : NULL, NULL);
    CHECK(!has_bytes_read && look.bytes.at == NULL, "memory: the bytes are the part's, or released");
    CHECK(part ? part->references == 1 && made == 1 : made == 0 || new_parts[0].references == 0, "memory: a part is handed out, or given back");
    CHECK(part || refused > 0, "answer: what failed is told");
    if (part)
        REACHED("a part");
    return 0;
}

/* harness look_compare: unwind 4 */
int look_compare(void)
{
    set_up_store();
    Look look = look_of(NO_FOLDER);
    look.fault.code = any_bool() ? DCONFDB_ERROR_FILE : DCONFDB_ERROR_NONE;
    faults[0].error.code = DCONFDB_ERROR_FILE; /* a fault is one */
    bool is = real_is_as_read(&look, &old_parts[0]);
    bool is_bad = old_parts[0].fault && !faults[0].aside;
    CHECK(!is || (look.fault.code != DCONFDB_ERROR_NONE) == is_bad, "answer: a bad file is not a good one");
    bool said = real_is_as_said(&look, &old_parts[0], 0);
    if (is && said)
        REACHED("it is as it was");
    return 0;
}

/* The loop, with steps as those above have it. */
static void is_looked(int turn)
{
    DconfdbSnapshot *newer = NULL;
    unsigned before = old_parts[0].references + old_parts[1].references;
    uint32_t end = real_files_look(&store, turn, &newer, NULL);
    CHECK(!has_bytes_read, "memory: what was read is a part's, or released");
    CHECK(end == DCONFDB_LOOK_FAILED || end == DCONFDB_LOOK_SAME || end == DCONFDB_LOOK_NEWER, "answer: how a look ends");
    CHECK((newer != NULL) == (end == DCONFDB_LOOK_NEWER), "answer: a newer snapshot is there exactly if that is said");
    CHECK(has_newer == (newer != NULL), "memory: the newer snapshot is handed out, or given back");
    CHECK(end != DCONFDB_LOOK_FAILED || refused > 0, "answer: what failed is told");
    CHECK(end != DCONFDB_LOOK_SAME || store.now, "answer: nothing is the same as no snapshot");
    if (!newer) {
        CHECK(old_parts[0].references + old_parts[1].references == before, "memory: no old part is had once more");
        for (unsigned i = 0; i < FILES; i++)
            CHECK(i >= made || new_parts[i].references == 0, "memory: each new part is given back");
        return;
    }
    CHECK(newer->count == store.count, "answer: it has each file");
    for (size_t i = 0; i < FILES; i++) {
        if (i < store.count)
            CHECK(newer_list[i] && (newer_list[i] == &old_parts[i] || newer_list[i] == &new_parts[0] || newer_list[i] == &new_parts[1]), "answer: each file's part, old or new");
    }
}

/* harness look_loop: unwind 4, long, loops real_files_look.0:12, with machines.c, sliced */
int look_loop(void)
{
    set_up_store();
    is_looked(store.user_file && store.now && any_bool() ? TURN : NO_FOLDER);
    if (has_newer && store.now && store.count == 2 && newer_list[0] == &old_parts[0] && newer_list[1] != &old_parts[1])
        REACHED("one file is another");
    return 0;
}

/* The first look at two files. */
/* harness look_first: unwind 4, loops real_files_look.0:6, with machines.c */
int look_first(void)
{
    set_up_store();
    store.count = 2;
    store.now = NULL;
    is_looked(NO_FOLDER);
    CHECK(!has_newer || (newer_list[0] == &new_parts[0] && newer_list[1] == &new_parts[1]), "answer: each file's part is new");
    if (has_newer)
        REACHED("both are read");
    return 0;
}

/* ---- what comes of it */

static uint32_t look_ended;
static unsigned renewed, looks;

uint32_t files_look(const DconfdbStore *at, int turn, DconfdbSnapshot **newer, DconfdbError *error)
{
    (void)turn, (void)error;
    CHECK(at == &store && is_held(&store.refreshing), "order: nobody else looks or changes meanwhile");
    looks++;
    look_ended = any_u32();
    GIVEN(look_ended == DCONFDB_LOOK_FAILED || look_ended == DCONFDB_LOOK_SAME || look_ended == DCONFDB_LOOK_NEWER);
    if (look_ended == DCONFDB_LOOK_NEWER)
        *newer = snapshot_new(1, true);
    GIVEN(look_ended != DCONFDB_LOOK_NEWER || *newer);
    newer_list[0] = &new_parts[0];
    new_parts[0].references = 1;
    return look_ended;
}

bool snapshot_is_news(const DconfdbSnapshot *before, const DconfdbSnapshot *after)
{
    CHECK(before == store.now && after == &newer_room, "step: what is newer is compared with what was");
    return any_bool();
}

/* As dconfdb_store_after has it of a look, and of what is told. */
void store_after(DconfdbStore *at, uint32_t what, bool yes, uint64_t number)
{
    (void)number;
    CHECK(at == &store && is_held(&store.refreshing), "step: what is found is known");
    if (what == DCONFDB_STORE_COMPARED) {
        CHECK(!yes && !store.known.is_made, "answer: nothing was tried");
        return;
    }
    CHECK(what == DCONFDB_STORE_FOUND || what == DCONFDB_STORE_TOLD, "step: what is found is known");
    store.known.has_news = what == DCONFDB_STORE_FOUND && (store.known.has_news || yes);
}

/* As the proved call has it of who wants to see what the files are. */
uint32_t dconfdb_look_due(uint32_t looker, const DconfdbLookKnown *known)
{
    CHECK(looker == DCONFDB_LOOKER_SEES && known->is_open, "step: an open store is looked at");
    return known->is_busy ? DCONFDB_LOOK_LATER : DCONFDB_LOOK_NOW;
}

void store_renew(DconfdbStore *at, DconfdbSnapshot *newer)
{
    CHECK(at == &store && newer == &newer_room && is_held(&store.refreshing), "step: the newer snapshot is the store's");
    at->now = newer;
    renewed++;
}

/* As dconfdb_store_snapshot: one more has the newest. */
DconfdbSnapshot *dconfdb_store_snapshot(DconfdbStore *at)
{
    CHECK(at == &store && !is_held(&store.refreshing), "order: who changes is not waited for");
    return dconfdb_snapshot_ref(at->now);
}

/* harness refresh: unwind 5 */
int refresh_(void)
{
    bool changed = any_bool(), was = changed, has_asked = any_bool(), has_looked = false;
    set_up_store();
    store.known = (DconfdbStoreKnown){.has_news = any_bool()};
    atomic_store(&store.is_amid, any_bool());
    store.now = &old_room;
    store.tried = NULL;
    bool news = store.known.has_news;
    bool is_unless = any_bool(), done;
    if (is_unless) {
        DconfdbSnapshot *now = newest_unless_amid(&store, &has_looked, NULL);
        CHECK(!now || now == store.now, "answer: the newest snapshot");
        CHECK(!now || now->references > 1, "memory: it is had once more");
        CHECK(now || (has_looked && look_ended == DCONFDB_LOOK_FAILED), "answer: none, if the look failed");
        CHECK(has_looked == (looks > 0), "answer: whether it has looked");
        if (now && !has_looked)
            REACHED("amid a change of another thread");
    } else {
        done = dconfdb_store_refresh(&store, has_asked ? &changed : NULL, NULL);
        CHECK(done == (look_ended != DCONFDB_LOOK_FAILED), "answer: whether the look was one");
        CHECK(done || changed == was, "answer: a fault leaves it as it was");
        CHECK(!done || !has_asked || (!store.known.has_news && (changed || !news)), "answer: news are told once");
        CHECK(renewed == (look_ended == DCONFDB_LOOK_NEWER ? 1U : 0U), "step: what is newer is the store's");
        REACHED("a refresh");
    }
    CHECK(none_is_held(), "order: the mutex is given back");
    CHECK(renewed <= 1 && looks <= 1, "step: one look, and it is the store's once");
    return 0;
}
