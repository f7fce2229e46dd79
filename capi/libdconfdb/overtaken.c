/* Who set what last: what others changed while edits waited, and which of them are left out. */
#define _DEFAULT_SOURCE
#define _POSIX_C_SOURCE 200809L
#define _FILE_OFFSET_BITS 64
#include "overtaken.h"
#include "edits.h"
#include "errors.h"
#include "lists.h"
#include "texts.h"

#include <stdlib.h>
#include <string.h>

/* ---- what is asked for */

void asking_free(Asking *asking)
{
    if ((void *)asking->changes != asking->few)
        free(asking->changes);
    free(asking->seen);
}

/* The block of all that is had for each, or NULL. */
static void *room_for(Asking *asking, size_t count)
{
    if (count <= FEW_EDITS)
        return asking->few;
    return count <= SIZE_MAX / sizeof(AskedRoom) ? malloc(count * sizeof(AskedRoom)) : NULL;
}

/* `made` is NULL where all is one change that is asked for now. */
bool asking_begin(Asking *asking, const DconfdbEdit *edits, const Made *made, size_t count)
{
    asking->count = count;
    asking->seen_count = 0;
    asking->seen = NULL;
    asking->latest = 0;
    asking->expected = NULL;
    asking->who = NULL;
    asking->changes = room_for(asking, count);
    if (!asking->changes)
        return false;
    asking->asked = (DconfdbAsked *)(asking->changes + count);
    asking->times = (DconfdbTime *)(asking->asked + count);
    asking->edits = (size_t *)(asking->times + count);
    asking->is_left = (bool *)(asking->edits + count);
    for (size_t i = 0; i < count; i++) {
        asking->changes[i] = change_of_edit(&edits[i]);
        asking->asked[i] = (DconfdbAsked){.path = asking->changes[i].path, .when = made ? made[i].moment : UINT64_MAX, .change = made ? made[i].change : 0};
        asking->edits[i] = i;
    }
    return true;
}

bool asking_is_as_expected(const DconfdbSnapshot *now, const Asking *asking, DconfdbError *error)
{
    const DconfdbSnapshot *expected = asking->expected;
    bool is_changed = false;
    size_t at = 0;
    uint32_t number = dconfdb_changed_since(expected->layers, expected->count, now->layers, now->count, asking->changes, asking->count,
                                            &is_changed, &at);
    if (number == DCONFDB_OK && !is_changed)
        return true;
    const char *const names[DCONFDB_NAMES] = {[DCONFDB_NAMES_EDIT] = (const char *)asking->changes[at].path.at};
    const DconfdbFaultMet met = {.of = DCONFDB_FAULT_OF_EXPECTED, .number = number};
    return tell_met(error, &met, names, (Place){.edit = asking->edits[at]});
}

/* ---- what others changed */

/* The time that stands for when a file was left so, without a note. */
static uint64_t left_when(const DconfdbStore *store, const FileState *file)
{
    FileState folder;
    (void)file_look(store->place.folder, &folder); /* of one that can't be looked at nothing is known */
    return dconfdb_time_of_file(file, &folder);
}

/* Whether both have the same part: of itself nothing is remembered, as is proved. */
static bool have_same_part(const DconfdbSnapshot *before, const DconfdbSnapshot *after)
{
    return before->count > 0 && after->count > 0 && before->parts[0] == after->parts[0];
}

/* Keeps what was seen to be changed. False: no memory is left for it. */
static bool remember(DconfdbStore *store, const DconfdbSnapshot *after, char *paths)
{
    Seen *seen = paths ? malloc(sizeof *seen) : NULL;
    if (!seen) {
        free(paths);
        return false;
    }
    const FileState *left = &after->parts[0]->state;
    *seen = (Seen){store->seen, *left, left_when(store, left), paths};
    store->seen = seen;
    return true;
}

/* `order` is NULL where no notes are read. */
static void heed(DconfdbStore *store, const DconfdbSnapshot *before, const DconfdbSnapshot *after, const Order *order)
{
    if (have_same_part(before, after))
        return;
    bool is_noted = order && after->count > 0 && order_has_left(order, store->own_name, &after->parts[0]->state);
    char *paths = snapshot_remembered(before, after, is_noted);
    if (paths && !*paths)
        free(paths);
    else
        store_after(store, DCONFDB_STORE_SEEN, remember(store, after, paths), 0);
}

void heed_others(DconfdbStore *store, const DconfdbSnapshot *before, const DconfdbSnapshot *after)
{
    pthread_mutex_lock(&store->refreshing);
    heed(store, before, after, NULL);
    pthread_mutex_unlock(&store->refreshing);
}

void store_forget_seen(DconfdbStore *store)
{
    while (store->seen) {
        Seen *seen = store->seen;
        store->seen = seen->next;
        free(seen->paths);
        free(seen);
    }
}

void store_take_over(DconfdbStore *store, DconfdbStore *old)
{
    bool is_same = store->user_file && old->user_file && strcmp(store->user_file, old->user_file) == 0;
    pthread_mutex_lock(&old->refreshing);
    dconfdb_store_after(&store->known, DCONFDB_STORE_FOLLOWS, is_same, 0, &old->known);
    if (store->known.has_seen) {
        store->seen = old->seen;
        old->seen = NULL;
    }
    if (store->known.has_tried) {
        store->tried = old->tried;
        old->tried = NULL;
    }
    pthread_mutex_unlock(&old->refreshing);
}

/* A number for the user's value; 0: there is none. */
static uint64_t value_in(const DconfdbSnapshot *snapshot, const DconfdbBytes *path)
{
    return dconfdb_value_number(&snapshot->layers[0], path->at, path->len);
}

/* How many paths others were seen to change, and how many bytes these take. */
static size_t count_seen(const DconfdbStore *store, size_t *size)
{
    size_t count = 0;
    for (const Seen *seen = store->seen; seen; seen = seen->next) {
        for (const char *at = seen->paths; *at; at = next_text(at)) {
            *size += order_path_size(store->own_name, strlen(at));
            count++;
        }
    }
    return count;
}

/* What others were seen to change, with what is there. */
static void list_seen(const DconfdbStore *store, const Order *order, Asking *asking, char *room)
{
    for (const Seen *seen = store->seen; seen; seen = seen->next) {
        bool is_noted = order_has_left(order, store->own_name, &seen->left);
        for (const char *at = seen->paths; *at; at = next_text(at)) {
            DconfdbBytes own = {bytes_of(at), strlen(at)}, path = order_path(&room, store->own_name, &own);
            asking->seen[asking->seen_count++] = (DconfdbSeen){{path, seen->when, value_in(store->now, &own)}, is_noted};
        }
    }
}

/* Notes what others changed without a note. False: no memory is left. */
static bool note_others(const DconfdbStore *store, Asking *asking, Order *order)
{
    size_t size = 0, count = count_seen(store, &size);
    if (count == 0)
        return true;
    asking->seen = calloc(count, sizeof *asking->seen);
    char *room = order_room(order, size);
    if (!asking->seen || !room)
        return false;
    list_seen(store, order, asking, room);
    return order_note_seen(order, asking->seen, asking->seen_count);
}

/* Looks at the files, and heeds what others changed. */
static bool refresh_and_heed(DconfdbStore *store, const DconfdbSnapshot *before, int turn, const Order *order, DconfdbError *error)
{
    bool done = store_refresh(store, turn, error);
    if (done)
        heed(store, before, store->now, order);
    return done;
}

/* What others have set up to now, and when; or NULL. */
Order *store_read_order(DconfdbStore *store, Asking *asking, const DconfdbSnapshot *before, const FolderLock *lock, DconfdbError *error)
{
    Order *order = &store->order;
    if (!order_read(order, lock->file)) {
        refuse_memory(error);
        return NULL;
    }
    if (!refresh_and_heed(store, before, lock->folder, order, error))
        return NULL;
    if (note_others(store, asking, order))
        return order;
    refuse_memory(error);
    return NULL;
}

/* ---- what is left out */

/* What is at a path now, and was before the turn: in one part it is the same, which isn't looked for. */
static void know_values(DconfdbAsked *asked, const DconfdbSnapshot *before, const DconfdbSnapshot *now, const DconfdbBytes *path)
{
    asked->has_looked = before->is_writable;
    asked->was = asked->is = 0;
    if (have_same_part(before, now) || !before->is_writable)
        return;
    asked->was = value_in(before, path);
    asked->is = value_in(now, path);
}

/* Moves what isn't left out to the front. */
static void keep(Asking *asking)
{
    size_t kept = 0;
    for (size_t i = 0; i < asking->count; i++) {
        if (asking->is_left[i])
            continue;
        if (kept != i) {
            asking->changes[kept] = asking->changes[i];
            asking->asked[kept] = asking->asked[i];
            asking->edits[kept] = asking->edits[i];
        }
        kept++;
    }
    asking->count = kept;
}

static bool are_one_path(const DconfdbBytes *one, const DconfdbBytes *other)
{
    return one->len == other->len && memcmp(one->at, other->at, one->len) == 0;
}

/* Whether a change is of the path of the one before it: a key may be set again and again. */
static bool is_of_last_path(const Asking *asking, size_t at)
{
    return at > 0 && are_one_path(&asking->changes[at].path, &asking->changes[at - 1].path);
}

/* Room for the paths of this file. Those of one path after the other are one. NULL: no memory is left. */
static char *room_for_paths(const Asking *asking, const DconfdbStore *store, Order *order)
{
    size_t name = order_path_size(store->own_name, 0), size = 0;
    for (size_t i = 0; i < asking->count; i++)
        size += name + asking->changes[i].path.len;
    return order_room(order, size);
}

/* When each was asked for, at a path of this file, and what is known of it. False: no memory is left. */
static bool know_all(Asking *asking, const DconfdbStore *store, Order *order, const DconfdbSnapshot *before)
{
    char *room = room_for_paths(asking, store, order);
    for (size_t i = 0; room && i < asking->count; i++) {
        DconfdbAsked *asked = &asking->asked[i];
        const DconfdbChange *change = &asking->changes[i];
        asked->path = is_of_last_path(asking, i) ? asked[-1].path : order_path(&room, store->own_name, &change->path);
        asked->when = order_time(order, asked->when, store->known.noted);
        asked->is_own = edit_is_made(store->now, store->known.is_unsettled, change);
        know_values(asked, before, store->now, &change->path);
    }
    return asking->count == 0 || room;
}

/* No pointer that is handed over is NULL. */
static const DconfdbSeen no_seen = {{DCONFDB_NOTHING, 0, 0}, false};

bool asking_leave_out(Asking *asking, const DconfdbStore *store, Order *order, const DconfdbSnapshot *before)
{
    size_t count = 0;
    if (!know_all(asking, store, order, before)
        || dconfdb_leave_out(order->times, order->count, asking->seen ? asking->seen : &no_seen, asking->seen_count, asking->asked, asking->count, order->now,
                             asking->is_left, asking->count, &count) != DCONFDB_OK)
        return false;
    keep(asking);
    return true;
}

/* A key that is set again and again is looked up once. */
bool asking_note(Asking *asking, const DconfdbSnapshot *now, Order *order)
{
    uint64_t value = 0;
    for (size_t i = 0; i < asking->count; i++) {
        const DconfdbAsked *asked = &asking->asked[i];
        if (i == 0 || asked->path.at != asked[-1].path.at)
            value = value_in(now, &asking->changes[i].path);
        asking->times[i] = (DconfdbTime){asked->path, asked->when, value};
    }
    return order_note_made(order, asking->times, asking->count, &asking->latest);
}
