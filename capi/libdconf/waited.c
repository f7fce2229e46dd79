/* What waited is written, as far as others have not set it since; `turn` is held. */
#define _GNU_SOURCE
#include "writes.h"

#include "faults.h"
#include "order.h"
#include "tried.h"

#include <string.h>

/* ---- when it was asked for */

/* A path of what waits, and when it was asked for last. */
typedef struct {
    uint64_t when;   /* by order_clock() */
    uint64_t number; /* of all that was asked for: greater than that of what was asked for before */
    uint64_t change; /* the same of all paths of a change, and of no others */
    gchar path[];
} Moment;

static void ask(Engine *self, Moment *moment, uint64_t when, uint64_t change)
{
    moment->when = when;
    moment->change = change;
    moment->number = ++self->asked;
}

/* `lock` is held, as of what follows. A path for which nobody has asked is asked for now. */
static Moment *moment_of(Engine *self, const gchar *path)
{
    Moment *moment = g_hash_table_lookup(self->moments, path);
    if (moment)
        return moment;
    size_t size = strlen(path) + 1;
    moment = g_malloc(sizeof *moment + size);
    ask(self, moment, order_clock(), self->asked + 1);
    memcpy(moment->path, path, size);
    g_hash_table_insert(self->moments, moment->path, moment);
    return moment;
}

void ask_now(Engine *self, const Edits *edits)
{
    uint64_t now = order_clock(), change = self->asked + 1;
    for (guint at = 0; at < edits->edits->len; at++)
        ask(self, moment_of(self, edit_at(edits, at)->path), now, change);
}

static void forget_moments(Engine *self)
{
    g_hash_table_remove_all(self->moments);
}

/* ---- the order in which it is made */

/* The edits in the order in which they were asked for, and in byte order those of a change; each has its number. */
typedef struct {
    GArray *times, *resets; /* of DconfdbTime; `resets` are those of directories */
    GArray *changes;        /* of each time which change it is of */
} Timed;

static void add_time(const Timed *timed, const Edits *edits, guint number, const Moment *moment)
{
    const gchar *path = edit_at(edits, number)->path;
    DconfdbTime time = {{(const uint8_t *)path, strlen(path)}, moment->when, number};
    g_array_append_val(timed->times, time);
    g_array_append_val(timed->changes, moment->change);
    if (dconf_is_dir(path, NULL))
        g_array_append_val(timed->resets, time);
}

/* Their numbers, in the order that the proved call puts changes in: of each path it is as if its edit were one. */
static DconfdbWaiter *line_of(Engine *self, const Edits *edits)
{
    guint count = edits->edits->len;
    DconfdbWaiter *line = g_new(DconfdbWaiter, count + 1);
    DconfdbTally tally = {0, 0};
    for (guint at = 0; at < count; at++)
        line[at] = (DconfdbWaiter){.change = at, .set = moment_of(self, edit_at(edits, at)->path)->number};
    dconfdb_waiting_line(line, count, false, &tally);
    return line;
}

static Timed timed_of(Engine *self, const Edits *edits)
{
    guint count = edits->edits->len;
    Timed timed = {g_array_sized_new(FALSE, FALSE, sizeof(DconfdbTime), count + 1), g_array_sized_new(FALSE, FALSE, sizeof(DconfdbTime), 1),
                   g_array_sized_new(FALSE, FALSE, sizeof(uint64_t), count + 1)};
    g_mutex_lock(&self->lock);
    g_autofree DconfdbWaiter *line = line_of(self, edits);
    for (guint at = 0; at < count; at++)
        add_time(&timed, edits, (guint)line[at].change, moment_of(self, edit_at(edits, (guint)line[at].change)->path));
    g_mutex_unlock(&self->lock);
    return timed;
}

static void timed_end(const Timed *timed)
{
    g_array_unref(timed->times);
    g_array_unref(timed->resets);
    g_array_unref(timed->changes);
}

/* The first time behind those of the same change. */
static guint end_of(const Timed *timed, guint first)
{
    const uint64_t *changes = (const uint64_t *)(gpointer)timed->changes->data;
    guint end = first;
    while (end < timed->changes->len && changes[end] == changes[first])
        end++;
    return end;
}

/* Those of a change are made, or none. */
static Batch batch_of(Engine *self, const Edits *edits)
{
    Timed timed = timed_of(self, edits);
    const DconfdbTime *times = (const DconfdbTime *)(gpointer)timed.times->data, *resets = (const DconfdbTime *)(gpointer)timed.resets->data;
    guint count = timed.times->len;
    Batch batch = batch_new(count);
    for (guint first = 0, end; first < count; first = end) {
        end = end_of(&timed, first);
        uint64_t moment = dconfdb_moment_beside(times + first, end - first, resets, timed.resets->len, times[first].when);
        for (guint at = first; at < end; at++)
            batch_add(&batch, edit_at(edits, (guint)times[at].value), moment, first, false);
    }
    timed_end(&timed);
    return batch;
}

/* ---- what is made */

/* The paths of what isn't made, by what was there then. */
static void add_unmade(const Batch *batch, const DconfdbSnapshot *then, bool is_written, GHashTable *unmade)
{
    GTree *last = tried_last(batch);
    for (size_t at = 0; at < batch->count; at++) {
        const DconfdbTried tried = tried_edit(batch, at, is_written, last, then);
        if (dconfdb_is_unmade(&tried))
            g_hash_table_add(unmade, g_strdup(batch->edits[at]->path));
    }
    g_tree_unref(last);
}

/* A try to write what waits. */
typedef struct {
    Engine *engine;
    DConfChangeset *changes;
    DconfdbStore *store;
    Batch batch;
    GHashTable *unmade;   /* the paths of what isn't made */
    DconfdbError refusal; /* what is to be told of that, if it has a number */
    DconfdbError *fault;
} Try;

/* But for what is refused, or others have set since. */
static bool put(Try *try)
{
    FolderLock lock;
    Turn turn;
    bool has_begun = turn_begin(try->engine, try->store, &lock, &turn);
    bool is_done = batch_write(&try->batch, try->store, &turn, &try->refusal, try->fault);
    DconfdbSnapshot *then = dconfdb_store_snapshot(try->store);
    if (has_begun)
        turn_end(try->engine, &lock);
    add_unmade(&try->batch, then, is_done, try->unmade);
    dconfdb_snapshot_unref(then);
    return is_done;
}

static DConfChangeset *take_waiting(Engine *self)
{
    g_mutex_lock(&self->lock);
    self->writing = self->flying = g_steal_pointer(&self->waiting);
    DConfChangeset *taken = self->flying;
    if (taken)
        dconf_changeset_seal(taken);
    g_mutex_unlock(&self->lock);
    return taken;
}

/* ---- what goes on waiting */

/* What goes on waiting of a set, each path by itself, as the sets are merged; and all that was asked for since. */
static DConfChangeset *merged(DConfChangeset *taken, GHashTable *unmade, DConfChangeset *newer)
{
    const gchar *prefix, *const *paths;
    GVariant *const *values;
    DConfChangeset *waits = dconf_changeset_new();
    guint count = dconf_changeset_describe(taken, &prefix, &paths, &values);
    for (guint at = 0; at < count; at++) {
        g_autofree gchar *path = g_strconcat(prefix, paths[at], NULL);
        if (dconfdb_waits_again(g_hash_table_contains(unmade, path), newer && dconf_changeset_get(newer, path, NULL)))
            dconf_changeset_set(waits, path, values[at]);
    }
    if (newer)
        dconf_changeset_change(waits, newer);
    return waits;
}

/* They wait again, before those that came since. */
static void put_back(Engine *self, DConfChangeset *taken, GHashTable *unmade)
{
    g_mutex_lock(&self->lock);
    DConfChangeset *newer = self->waiting;
    self->waiting = merged(taken, unmade, newer);
    if (dconf_changeset_is_empty(self->waiting))
        g_clear_pointer(&self->waiting, dconf_changeset_unref);
    self->writing = self->flying = NULL;
    g_mutex_unlock(&self->lock);
    g_clear_pointer(&newer, dconf_changeset_unref);
}

/* What waited is written, or refused. */
static void end_flying(Engine *self)
{
    g_mutex_lock(&self->lock);
    self->flying = NULL;
    if (!self->waiting)
        forget_moments(self);
    g_mutex_unlock(&self->lock);
}

/* `turn` is held. Of what goes on waiting, once as long as it does so. */
static void warn_of_waiting(Engine *self, bool waits, gboolean tries_again, const DconfdbError *fault)
{
    uint64_t now = (uint64_t)g_get_monotonic_time();
    if (dconfdb_failing_met(&self->failing, waits, is_momentary(fault), tries_again, now) == DCONFDB_FAULT_SAY)
        g_warning("%s; what was changed is not on the disk yet, and goes on waiting", fault->text);
}

/* That these paths are what they were. */
static void tell_unmade(Engine *self, GHashTable *unmade)
{
    GHashTableIter at;
    gpointer path;
    g_autoptr(DConfChangeset) changes = dconf_changeset_new();
    g_hash_table_iter_init(&at, unmade);
    while (g_hash_table_iter_next(&at, &path, NULL))
        dconf_changeset_set(changes, path, NULL);
    notice_changed(self, changes, NULL, FALSE);
}

/* ---- a try */

static bool carry_out(Try *try, uint32_t task)
{
    switch (task) {
    case DCONFDB_CHANGING_SETTLE:
        return settle_store(try->store, try->fault);
    case DCONFDB_CHANGING_PUT:
        return put(try);
    case DCONFDB_CHANGING_GIVE_UP:
        put_back(try->engine, try->changes, try->unmade);
        end_writing(try->engine);
        return true;
    default: /* DCONFDB_CHANGING_OTHERS */
        end_flying(try->engine);
        end_writing(try->engine);
        return true;
    }
}

/* As a change whose caller waits for it. Nothing of it is told: that was done when it was asked for. */
static bool make(Try *try)
{
    DconfdbSnapshot *now = engine_look(try->engine);
    Edits edits = edits_of(try->changes);
    DconfdbChanging changing = {.has_store = try->store, .has_user = engine_has_user(try->engine)};
    g_autofree DconfdbNewEdit *known = known_of(&edits, may_be_written(changing.has_user), now);
    changing.is_there = edits_are_there(known, edits.edits->len);
    leave_out(&edits, known);
    changing.is_left = edits.edits->len > 0;
    try->batch = batch_of(try->engine, &edits);
    uint32_t task = DCONFDB_CHANGING_BEFORE;
    bool yes = true;
    while ((task = dconfdb_changing_after(task, yes, &changing)) < DCONFDB_CHANGING_MADE)
        yes = carry_out(try, task);
    batch_end(&try->batch);
    edits_clear(&edits);
    dconfdb_snapshot_unref(now);
    return task == DCONFDB_CHANGING_MADE;
}

/* False: it could not be written, by no fault of its own, and goes on waiting. What is refused is taken back. */
gboolean write_waiting(Engine *self, gboolean tries_again, DconfdbError *fault)
{
    g_autoptr(DConfChangeset) taken = take_waiting(self);
    if (!taken)
        return TRUE;
    g_autoptr(GHashTable) unmade = g_hash_table_new_full(g_str_hash, g_str_equal, g_free, NULL);
    Try try = {.engine = self, .changes = taken, .store = engine_store(self, fault), .unmade = unmade, .refusal = DCONFDB_ERROR_INIT, .fault = fault};
    bool is_done = make(&try);
    if (try.refusal.code != DCONFDB_ERROR_NONE)
        g_warning("failed to commit changes to dconf: %s", try.refusal.text);
    warn_of_waiting(self, !is_done, tries_again, fault);
    tell_unmade(self, unmade);
    return is_done;
}
