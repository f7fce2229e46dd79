/* Looks at the files of a store, by the proved steps: what was replaced is read, and what was not is kept. */
#define _DEFAULT_SOURCE
#define _POSIX_C_SOURCE 200809L
#define _FILE_OFFSET_BITS 64
#include "store.h"
#include "errors.h"
#include "held.h"
#include "locked.h"

#include <time.h>

/* A look at the files of a store: the snapshot that comes of it, and what was read of the file that it is at. */
typedef struct {
    const DconfdbStore *store;
    DconfdbSnapshot *newer;
    int turn;
    FileState state;
    uint64_t opened; /* when the reading began */
    FileBytes bytes;
    DconfdbError fault; /* why it can't be read; its number is 0 where it can */
} Look;

/* In a turn, which is one of the user's file, that is read in its folder. */
static Asked asked_of(const Look *look, size_t at)
{
    const DconfdbStore *store = look->store;
    bool is_users = store->files[at] == store->user_file;
    uint32_t size = is_users ? DCONFDB_SIZE_USERS : DCONFDB_SIZE_DATABASE;
    return (Asked){store->files[at], at, size, store->options.is_lenient, is_users ? look->turn : NO_FOLDER};
}

/* A mapped file may change owners, permissions and names. */
static bool __attribute__((noinline)) may_still_be_read(Part *old, const FileState *state)
{
    FileState known = old->state;
    bool is_same = dconfdb_known_after(&old->state, state, file_may_be_read(old->name), &known);
    old->state = known;
    return is_same;
}

/* Eight numbers of 64 bits; of the last, whether it is there, but one byte counts. A ninth has to be compared, too. */
_Static_assert(sizeof(FileState) == 8 * sizeof(uint64_t), "each field of a state is compared");

static bool are_same(const FileState *one, const FileState *other)
{
    return one->touched.nanoseconds == other->touched.nanoseconds && one->touched.seconds == other->touched.seconds &&
           one->written.nanoseconds == other->written.nanoseconds && one->written.seconds == other->written.seconds &&
           one->inode == other->inode && one->size == other->size && one->device == other->device && one->is_there == other->is_there;
}

/* Whether the old part is of what has the file's name, as far as stat() says. The call answers by these states and by what is known of the part, so its
 * answer is kept while all of that is the same: each read ends it (part_was_read). */
static bool is_as_said(const Look *look, Part *old, size_t at)
{
    FileState state;
    int fault = file_look(look->store->files[at], &state);
    bool is_same = fault == 0 && are_same(&old->state, &state);
    if (is_same && old->is_known)
        return true;
    uint32_t beside = part_beside(old, DCONFDB_PART_KEEP, &state, fault);
    old->is_known = is_same && beside == DCONFDB_BESIDE_SAME;
    switch (beside) {
    case DCONFDB_BESIDE_SAME: return true;
    case DCONFDB_BESIDE_IF_READABLE: return may_still_be_read(old, &state);
    default: return false;
    }
}

/* Gives the fault of the system. Cancellation is held back here, since a look that reads nothing is no cancellation point; and who opens
 * a store, or has a turn to change it, has held it back. */
static int read_at(Look *look, const Asked *asked)
{
    bool is_in_turn = asked->turn != NO_FOLDER, is_held = is_in_turn || !look->store->now, may_map = false;
    uint64_t most = dconfdb_largest(asked->size, &may_map);
    int cancels = is_held ? 0 : hold_cancellation();
    look->opened = file_clock();
    int fault = file_read(asked->turn, is_in_turn ? look->store->own_name : asked->name, may_map, dconfdb_is_database_head, most, &look->bytes,
                          &look->state);
    if (!is_held)
        cancel_as_before(cancels);
    return fault;
}

/* Whether what was read is what the old part is of. */
static bool is_as_read(const Look *look, Part *old)
{
    DconfdbPartSeen seen = part_seen(old);
    seen.read_code = (uint32_t)look->fault.code;
    seen.read_errnum = (uint32_t)look->fault.errnum;
    seen.has_bytes = part_has_bytes(old, &look->bytes);
    bool is = dconfdb_beside(DCONFDB_PART_TAKE, &old->state, &look->state, &seen) == DCONFDB_BESIDE_SAME;
    if (is)
        part_was_read(old, look->opened);
    return is;
}

/* The part of what was read: where that can't be it is empty, and says why. The bytes are the part's, or are freed. */
static Part *part_of_read(Look *look, size_t at, const Part *old, DconfdbError *error)
{
    Asked asked = asked_of(look, at);
    FileBytes bytes = look->bytes;
    look->bytes = (FileBytes){NULL, 0, false};
    bool is_read = look->fault.code == DCONFDB_ERROR_NONE;
    Part *part = is_read ? part_open(&asked, look->state, bytes, old, error) : part_new(asked.name, look->state, bytes, error);
    if (part && (is_read || part_blame(part, &look->fault, error))) {
        part_was_read(part, look->opened);
        return part;
    }
    part_unref(part);
    return NULL;
}

/* The newer snapshot is made with the first part that is another one: the parts before that were kept. */
static bool put_newer(Look *look, size_t at, Part *part, DconfdbError *error)
{
    const DconfdbStore *store = look->store;
    if (!look->newer) {
        look->newer = snapshot_new(store->count, store->user_file != NULL);
        for (size_t i = 0; look->newer && i < at; i++)
            snapshot_put(look->newer, i, part_ref(store->now->parts[i]));
    }
    if (look->newer) {
        snapshot_put(look->newer, at, part);
        return true;
    }
    part_unref(part);
    return refuse_memory(error);
}

/* Carries out a step but the reading, and gives its answer. */
static bool look_at(Look *look, const DconfdbNext *step, DconfdbError *error)
{
    Part *old = look->store->now ? look->store->now->parts[step->number] : NULL, *part;
    switch (step->kind) {
    case DCONFDB_LOOK_STAT:
        return is_as_said(look, old, step->number);
    case DCONFDB_LOOK_COMPARE:
        return is_as_read(look, old);
    case DCONFDB_LOOK_KEEP:
        if (look->bytes.at) /* mostly nothing was read */
            file_release(&look->bytes);
        if (look->newer)
            snapshot_put(look->newer, step->number, part_ref(old));
        return true;
    default:
        part = part_of_read(look, step->number, old, error);
        return part && put_newer(look, step->number, part, error);
    }
}

/* Reads a file. A fault is the part's or the caller's, as the proved steps say. */
static void read_step(Look *look, DconfdbRefresh *refresh, DconfdbNext *step, DconfdbError *error)
{
    size_t at = step->number;
    Asked asked = asked_of(look, at);
    int fault = read_at(look, &asked);
    look->fault.code = DCONFDB_ERROR_NONE;
    dconfdb_refresh_answered(refresh, fault == 0, (uint32_t)fault, step);
    if (fault != 0)
        refuse_file(step->kind == DCONFDB_LOOK_FAILED ? error : &look->fault, fault, asked.name, (Place){.database = at});
}

/* Carries out a step, and gives the next one. */
static void take_step(Look *look, DconfdbRefresh *refresh, DconfdbNext *step, DconfdbError *error)
{
    if (step->kind == DCONFDB_LOOK_READ) {
        read_step(look, refresh, step, error);
        return;
    }
    bool yes = look_at(look, step, error);
    dconfdb_refresh_answered(refresh, yes, 0, step);
}

/* What the files hold now, by the proved steps. Gives how it ended; where that is NEWER `newer` is the snapshot. */
uint32_t files_look(const DconfdbStore *store, int turn, DconfdbSnapshot **newer, DconfdbError *error)
{
    Look looking;
    DconfdbRefresh refresh = {.has_old = false};
    DconfdbNext step = {0, 0};
    /* A fault has room for a long text: it is written where there is one. */
    looking.store = store;
    looking.newer = NULL;
    looking.turn = turn;
    looking.bytes = (FileBytes){NULL, 0, false};
    dconfdb_refresh_begin(&refresh, store->count, store->now != NULL, turn != NO_FOLDER, store->options.is_lenient, &step);
    while (step.kind < DCONFDB_LOOK_FAILED)
        take_step(&looking, &refresh, &step, error);
    if (step.kind != DCONFDB_LOOK_NEWER) {
        dconfdb_snapshot_unref(looking.newer);
        return step.kind;
    }
    /* A store may have no files. */
    *newer = looking.newer ? looking.newer : snapshot_new(0, false);
    if (!*newer)
        refuse_memory(error);
    return *newer ? DCONFDB_LOOK_NEWER : DCONFDB_LOOK_FAILED;
}

/* ---- the newest snapshot */

/* Whether the file is that of a change of this store's that is perhaps made, if there is one (NULL: there is none). */
static bool is_as_tried(const DconfdbSnapshot *tried, const DconfdbSnapshot *newer)
{
    if (!tried)
        return false;
    const Part *was = tried->parts[0], *now = newer->parts[0];
    const DconfdbPartSeen seen = {.has_bytes = part_has_bytes(was, &now->bytes)};
    return dconfdb_beside(DCONFDB_PART_TRY, &was->state, &now->state, &seen) == DCONFDB_BESIDE_SAME;
}

/* `refreshing` is held. What this store itself changed is no news. It stands apart, since most refreshes find nothing newer. */
static void __attribute__((noinline)) hear(DconfdbStore *store, DconfdbSnapshot *newer)
{
    store_after(store, DCONFDB_STORE_COMPARED, is_as_tried(store->tried, newer), 0);
    const DconfdbSnapshot *before = store->known.is_made ? store->tried : store->now;
    store_after(store, DCONFDB_STORE_FOUND, snapshot_is_news(before, newer), 0);
    store_renew(store, newer);
}

/* `refreshing` is held. */
bool store_refresh(DconfdbStore *store, int turn, DconfdbError *error)
{
    DconfdbSnapshot *newer = NULL;
    uint32_t end = files_look(store, turn, &newer, error);
    if (end == DCONFDB_LOOK_NEWER)
        hear(store, newer);
    return end != DCONFDB_LOOK_FAILED;
}

bool is_amid_change(const DconfdbStore *store)
{
    return atomic_load(&store->is_amid);
}

bool dconfdb_store_refresh(DconfdbStore *store, bool *changed, DconfdbError *error)
{
    pthread_mutex_lock(&store->refreshing);
    bool done = store_refresh(store, NO_FOLDER, error);
    if (done && changed) {
        *changed = store->known.has_news;
        store_after(store, DCONFDB_STORE_TOLD, true, 0);
    }
    pthread_mutex_unlock(&store->refreshing);
    return done;
}

/* It is no cancellation point. */
static void pass_a_moment(void)
{
    static const struct timespec moment = {0, 1000000};
    int cancels = hold_cancellation();
    nanosleep(&moment, NULL);
    cancel_as_before(cancels);
}

/* Whether the files are looked at while another thread has the turn to do so. */
static bool is_looked_at(const DconfdbStore *store)
{
    const DconfdbLookKnown known = {.is_open = true, .is_busy = is_amid_change(store)};
    return dconfdb_look_due(DCONFDB_LOOKER_SEES, &known) == DCONFDB_LOOK_NOW;
}

/* The snapshot is another one only where `refreshing` is held. */
DconfdbSnapshot *newest_unless_amid(DconfdbStore *store, bool *has_looked, DconfdbError *error)
{
    while (pthread_mutex_trylock(&store->refreshing) != 0) {
        *has_looked = is_looked_at(store);
        if (!*has_looked)
            return dconfdb_store_snapshot(store);
        pass_a_moment();
    }
    *has_looked = true;
    DconfdbSnapshot *now = store_refresh(store, NO_FOLDER, error) ? dconfdb_snapshot_ref(store->now) : NULL;
    pthread_mutex_unlock(&store->refreshing);
    return now;
}
