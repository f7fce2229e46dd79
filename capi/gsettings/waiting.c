/* Changes that wait to be written: what becomes of one beside the others, which is the newest of a key, and how they are written. */
#define _POSIX_C_SOURCE 200809L
#include "edit_with.h"
#include "gsettings.h"
#include "seen.h"

#include <stdlib.h>
#include <string.h>

static bool are_of_one_path(const Edit *one, const Edit *other)
{
    return one->hash == other->hash && one->len == other->len && memcmp(one->path, other->path, one->len) == 0;
}

/* The number of a key, as an edit of it has it: the last one that was put, since a key may be set again and again, or that which the set
 * has; NO_KEY if no edit of it waits. */
static size_t key_of(const Waiting *waiting, const Edit *edit)
{
    if (waiting->last && are_of_one_path(waiting->last, edit))
        return waiting->last->key;
    const Edit *one = g_hash_table_lookup(waiting->keys, edit);
    return one ? one->key : NO_KEY;
}

static size_t *numbers_of(const Waiting *waiting)
{
    return (size_t *)(gpointer)waiting->newest->data;
}

/* The newest edit of a key that waits, or NULL. */
static Edit *newest_of(const Waiting *waiting, size_t key)
{
    size_t number = dconfdb_newest(numbers_of(waiting), waiting->newest->len, key, false, 0);
    return number > 0 ? g_ptr_array_index(waiting->edits, number - 1) : NULL;
}

static bool is_alone(const Edit *edit)
{
    return edit->change->most == 1;
}

/* What it has of another edit of the key, it has of this one. */
static bool is_writable(const Edit *edit, const Edit *waits, guint64 shown, const DconfdbSnapshot *now)
{
    if (waits && waits->may_be_of == shown)
        return waits->may_be_written;
    return dconfdb_snapshot_is_writable(or_nothing(now), edit->path);
}

static bool may_be_made(Edit *edit, const Edit *waits, guint64 shown, const DconfdbSnapshot *now, bool is_open)
{
    if (edit->may_be_of != shown)
        edit->may_be_written = is_writable(edit, waits, shown, now);
    edit->may_be_of = shown;
    return dconfdb_may_be_made((const uint8_t *)edit->path, edit->len, edit->value != NULL, is_open, edit->may_be_written);
}

static bool is_stored(const Edit *edit, const DconfdbSnapshot *now)
{
    return dconfdb_snapshot_has_edit(or_nothing(now), &edit->asked);
}

/* Whether an edit says what the newest one of its key says that waits, if there is one, or else what is stored, as the proved call has it: where an edit waits
 * it is proved that what is stored doesn't count (stored_counts_in_silence). */
static bool is_said(const Edit *edit, const Edit *waits, const DconfdbSnapshot *now)
{
    const DconfdbSaid said = {.says = waits != NULL, .is_same = waits && is_same_word(&waits->asked, &edit->asked)};
    return dconfdb_is_said(&said, 1, !waits && is_stored(edit, now));
}

/* What is known of an edit beside the newest one of its key that waits, or else beside the newest snapshot, which is the one of that number. */
static DconfdbNewEdit known_of(Edit *edit, const Edit *waits, guint64 shown, const DconfdbSnapshot *now, bool is_open)
{
    return (DconfdbNewEdit){.sets = edit->value != NULL,
                            .may = may_be_made(edit, waits, shown, now, is_open),
                            .is_same = is_said(edit, waits, now),
                            .waits = waits != NULL,
                            .is_alone = waits && is_alone(waits),
                            .is_taken = waits && waits->change->is_taken};
}

/* Of one edit alone the change was asked just so: it isn't asked once more. */
static void leave_out(Change *change, uint32_t entry)
{
    for (size_t i = 0; i < change->count; i++)
        change->edits[i].is_left_out = change->count == 1 ? entry == DCONFDB_ENTRY_EMPTY : edit_is_left_out(&change->known[i]);
}

uint32_t change_entry(Change *change, const Waiting *waiting, const DconfdbSnapshot *now, bool is_open)
{
    for (size_t i = 0; i < change->count; i++) {
        Edit *edit = &change->edits[i];
        edit->key = key_of(waiting, edit);
        change->known[i] = known_of(edit, newest_of(waiting, edit->key), waiting->shown, now, is_open);
    }
    bool is_there;
    uint32_t entry = dconfdb_entry(change->known, change->count, &is_there);
    leave_out(change, entry);
    return entry;
}

/* ---- what waits */

static guint hash_of(gconstpointer edit)
{
    return ((const Edit *)edit)->hash;
}

static gboolean are_of_one_key(gconstpointer one, gconstpointer other)
{
    return strcmp(((const Edit *)one)->path, ((const Edit *)other)->path) == 0;
}

static DconfdbWaiter *line_of(const Waiting *waiting)
{
    return (DconfdbWaiter *)(gpointer)waiting->line->data;
}

static Change *change_at(const Waiting *waiting, guint at)
{
    return (Change *)line_of(waiting)[at].change;
}

void waiting_begin(Waiting *waiting)
{
    waiting->line = g_array_sized_new(FALSE, FALSE, sizeof(DconfdbWaiter), 1);
    waiting->keys = g_hash_table_new(hash_of, are_of_one_key);
    waiting->edits = g_ptr_array_new();
    waiting->newest = g_array_sized_new(FALSE, FALSE, sizeof(size_t), 1);
    waiting->last = NULL;
    waiting->shown = 1;
}

void waiting_end(Waiting *waiting)
{
    g_hash_table_destroy(waiting->keys);
    g_ptr_array_unref(waiting->edits);
    g_array_unref(waiting->newest);
    for (guint at = 0; at < waiting->line->len; at++)
        change_free(change_at(waiting, at));
    g_array_unref(waiting->line);
}

/* A key's number is its edit's if that has one already. */
static void put(Waiting *waiting, Edit *edit)
{
    static const size_t none = 0;
    if (edit->key == NO_KEY) {
        edit->key = waiting->newest->len;
        g_array_append_val(waiting->newest, none);
        g_hash_table_add(waiting->keys, edit);
    }
    g_ptr_array_add(waiting->edits, edit);
    edit->number = waiting->edits->len;
    edit->before = dconfdb_newest(numbers_of(waiting), waiting->newest->len, edit->key, true, edit->number);
    waiting->last = edit;
}

static void put_change(Waiting *waiting, Change *change)
{
    for (size_t i = 0; i < change->count; i++) {
        if (!change->edits[i].is_left_out)
            put(waiting, &change->edits[i]);
    }
}

/* When changes have gone: numbers what waits anew. */
static void put_again(Waiting *waiting)
{
    g_hash_table_remove_all(waiting->keys);
    g_ptr_array_set_size(waiting->edits, 0);
    g_array_set_size(waiting->newest, 0);
    waiting->last = NULL;
    for (guint at = 0; at < waiting->line->len; at++) {
        Change *change = change_at(waiting, at);
        for (size_t i = 0; i < change->count; i++)
            change->edits[i].key = key_of(waiting, &change->edits[i]);
        put_change(waiting, change);
    }
}

bool waiting_is_any(const Waiting *waiting)
{
    return waiting->line->len > waiting->taken;
}

/* It is set now. */
static void set_now(Waiting *waiting, Change *change)
{
    change->set = ++waiting->sets;
    change->moment = order_clock();
}

/* Of which no more is known than which set it was. */
static DconfdbWaiter waiter_of(const Change *change)
{
    return (DconfdbWaiter){.change = (uintptr_t)change, .set = change->set};
}

void waiting_add(Waiting *waiting, Change *change)
{
    set_now(waiting, change);
    waiting->added++;
    DconfdbWaiter waiter = waiter_of(change);
    g_array_append_val(waiting->line, waiter);
    put_change(waiting, change);
}

void waiting_renew(Waiting *waiting, const Change *change)
{
    set_now(waiting, newest_of(waiting, change->edits[0].key)->change);
}

const Edit *waiting_find(const Waiting *waiting, const char *path)
{
    if (waiting->edits->len == 0)
        return NULL;
    size_t len = strlen(path);
    Edit sought = {.path = (char *)path, .len = len, .hash = path_hash(path, len)};
    return newest_of(waiting, key_of(waiting, &sought));
}

bool waiting_asks(const Waiting *waiting)
{
    for (guint at = waiting->taken; at < waiting->line->len; at++) {
        if (change_at(waiting, at)->asks)
            return true;
    }
    return false;
}

GQueue waiting_take(Waiting *waiting)
{
    GQueue taken = G_QUEUE_INIT;
    for (guint at = 0; at < waiting->line->len; at++)
        line_of(waiting)[at] = waiter_of(change_at(waiting, at));
    waiting->taken = (guint)dconfdb_waiting_line(line_of(waiting), waiting->line->len, false, &waiting->tally);
    for (guint at = 0; at < waiting->taken; at++) {
        Change *change = change_at(waiting, at);
        change->is_taken = true;
        change->is_refused = false;
        change_push(&taken, change);
    }
    return taken;
}

static GVariant *value_of(const Edit *edit)
{
    return edit && edit->value ? g_variant_ref(edit->value) : NULL;
}

void edited_free(EditedKeys *keys)
{
    for (size_t key = 0; key < keys->count; key++) {
        g_clear_pointer(&keys->all[key].before, g_variant_unref);
        g_clear_pointer(&keys->all[key].after, g_variant_unref);
    }
    g_free(keys);
}

static int by_path(const void *one, const void *other)
{
    return strcmp(((const Edited *)one)->path, ((const Edited *)other)->path);
}

/* What an edit asks for, at a path that stays. */
static DconfdbEdit asked_at(const Edit *edit, const char *path)
{
    DconfdbEdit asked = edit->asked;
    asked.path = path;
    return asked;
}

static EditedKeys *edited_new(const Waiting *waiting)
{
    size_t count = waiting->newest->len, paths = 0;
    for (size_t key = 0; key < count; key++)
        paths += newest_of(waiting, key)->len + 1;
    EditedKeys *keys = g_malloc(sizeof *keys + count * sizeof keys->all[0] + paths);
    keys->count = count;
    return keys;
}

/* The newest edit of each key, of which none is known to be gone, by their paths; NULL if there is none. */
static EditedKeys *edited_of(const Waiting *waiting)
{
    if (waiting->edits->len == 0)
        return NULL;
    EditedKeys *keys = edited_new(waiting);
    char *room = (char *)&keys->all[keys->count];
    for (size_t key = 0; key < keys->count; key++) {
        const Edit *newest = newest_of(waiting, key);
        keys->all[key] = (Edited){.path = room, .before = value_of(newest), .was = asked_at(newest, room)};
        room = stpcpy(room, newest->path) + 1;
    }
    qsort(keys->all, keys->count, sizeof keys->all[0], by_path);
    return keys;
}

/* Asked once more, by the newest snapshot, of a change that asks: of others it doesn't count, which is proved of dconfdb_waiting_line (nothing_is_lost). */
static bool is_there_already(const Waiting *waiting, Change *change, const DconfdbSnapshot *now, bool is_open)
{
    for (size_t i = 0; i < change->count; i++) {
        Edit *edit = &change->edits[i];
        change->known[i] = known_of(edit, NULL, waiting->shown, now, is_open);
        change->known[i].waits = edit->before > 0 || newest_of(waiting, edit->key) != edit;
    }
    return edits_are_there(change->known, change->count);
}

/* ---- what becomes of them, as the proved call has it */

/* The newest edit of a key, asked for once where changes of one key stand side by side. */
typedef struct {
    size_t key;
    const Edit *edit;
} Newest;

static const Edit *newest_again(const Waiting *waiting, size_t key, Newest *last)
{
    if (last->key != key)
        *last = (Newest){key, newest_of(waiting, key)};
    return last->edit;
}

/* What is known of a change once it was tried to write those that were taken. */
static DconfdbWaiter known_after_try(const Waiting *waiting, const Change *change, Newest *last)
{
    const Edit *edit = &change->edits[0], *newest = newest_again(waiting, edit->key, last);
    return (DconfdbWaiter){.change = (uintptr_t)change,
                           .set = change->set,
                           .edit = {edit->number, is_alone(edit)},
                           .newest = {newest ? newest->number : 0, newest && is_alone(newest)},
                           .is_tried = change->is_taken,
                           .is_refused = change->is_refused};
}

/* Gives those that no longer wait. */
static GQueue settle_line(Waiting *waiting, bool is_written)
{
    GQueue gone = G_QUEUE_INIT;
    guint count = waiting->line->len;
    guint waits = (guint)dconfdb_waiting_line(line_of(waiting), count, is_written, &waiting->tally);
    for (guint at = waits; at < count; at++)
        change_push(&gone, change_at(waiting, at));
    g_array_set_size(waiting->line, waits);
    return gone;
}

bool waiting_settle(Waiting *waiting, const DconfdbSnapshot *now, bool is_open)
{
    for (guint at = 0; at < waiting->line->len; at++) {
        DconfdbWaiter *waiter = &line_of(waiting)[at];
        Change *change = change_at(waiting, at);
        *waiter = waiter_of(change);
        waiter->asks = change->asks;
        waiter->is_there = change->asks && is_there_already(waiting, change, now, is_open);
    }
    GQueue settled = settle_line(waiting, false);
    bool is_any = settled.length > 0;
    if (is_any)
        put_again(waiting);
    changes_free(&settled);
    return is_any;
}

/* Nobody writes them any longer. */
static void let_go_of_taken(Waiting *waiting, GQueue *taken)
{
    for (const GList *at = taken->head; at; at = at->next)
        ((Change *)at->data)->is_taken = false;
    g_queue_init(taken);
    waiting->taken = 0;
}

EditedKeys *waiting_end_try(Waiting *waiting, GQueue *taken, bool is_written, GQueue *gone)
{
    EditedKeys *keys = edited_of(waiting);
    Newest last = {NO_KEY, NULL};
    waiting->shown++;
    if (taken->length > 0) {
        for (guint at = 0; at < waiting->line->len; at++)
            line_of(waiting)[at] = known_after_try(waiting, change_at(waiting, at), &last);
        let_go_of_taken(waiting, taken);
        *gone = settle_line(waiting, is_written);
        put_again(waiting);
    }
    for (size_t key = 0; keys && key < keys->count; key++) {
        Edited *one = &keys->all[key];
        const Edit *edit = waiting_find(waiting, one->path);
        one->is_edited = edit != NULL;
        one->after = value_of(edit);
        if (edit)
            one->is = asked_at(edit, one->path);
    }
    return keys;
}
