/* Which paths a client watches, and the source that watches the store's files in its context. */
#include "libdconf.h"

#include "seen.h"
#include "watch.h"

#include <unistd.h>

typedef struct {
    GSource source;
    Engine *engine;
    Watch *watch;
    gpointer descriptor; /* GLib's, of inotify; NULL: there is none yet */
} FileSource;

/* ---- the source */

/* The store's files, or, where none can be opened yet, those by which it will be, as the proved call has it; where nobody knows these they are asked for again. */
static bool watch_what_is_there(FileSource *self)
{
    DconfdbError error;
    const DconfdbStore *store = engine_store(self->engine, &error);
    const StorePlace *place = engine_place(self->engine);
    if (dconfdb_watches_store(DCONFDB_WATCHER_CLIENT, store != NULL))
        return watch_store(self->watch, store);
    return place && watch_begin(self->watch, place);
}

static void begin(FileSource *self)
{
    bool is_whole = watch_what_is_there(self);
    int descriptor = watch_descriptor(self->watch);
    if (descriptor >= 0 && !self->descriptor && !g_source_is_destroyed(&self->source))
        self->descriptor = g_source_add_unix_fd(&self->source, descriptor, G_IO_IN);
    watch_answer(self->watch, is_whole);
}

/* From now on, unless another source watches the files by now, or none. */
static void hears(FileSource *self, Hearing hearing)
{
    g_mutex_lock(&self->engine->lock);
    if (self->engine->source == &self->source)
        self->engine->hearing = hearing;
    g_mutex_unlock(&self->engine->lock);
}

/* A look by any thread may have opened the store. */
static WatchStep next_step(FileSource *self, gint64 *until)
{
    if (g_atomic_int_compare_and_exchange(&self->engine->is_reopened, TRUE, FALSE))
        watch_opened_anew(self->watch);
    return watch_step(self->watch, until);
}

void engine_watch_anew(Engine *self)
{
    g_atomic_int_set(&self->is_reopened, TRUE);
    g_mutex_lock(&self->lock);
    if (self->source)
        g_source_set_ready_time(self->source, 0);
    g_mutex_unlock(&self->lock);
}

/* Until there is nothing to do but to wait. */
static void carry_out(FileSource *self)
{
    gint64 until;
    for (WatchStep step; (step = next_step(self, &until)) != WATCH_REST;) {
        if (step == WATCH_FILES) {
            begin(self);
        } else {
            watch_answer(self->watch, engine_refresh(self->engine));
            notice_others(self->engine);
        }
    }
    g_source_set_ready_time(&self->source, until == 0 ? -1 : until);
    if (g_atomic_int_get(&self->engine->is_reopened))
        g_source_set_ready_time(&self->source, 0);
    hears(self, (Hearing){watch_descriptor(self->watch) + 1, getpid(), watch_is_whole(self->watch), until});
}

static gboolean dispatch(GSource *source, GSourceFunc callback, gpointer data)
{
    FileSource *self = (FileSource *)source;
    (void)callback, (void)data;
    hears(self, (Hearing){0});
    watch_hear(self->watch);
    carry_out(self);
    return G_SOURCE_CONTINUE;
}

static void finalize(GSource *source)
{
    FileSource *self = (FileSource *)source;
    watch_free(self->watch);
    engine_unref(self->engine);
}

static GSource *source_new(Engine *engine)
{
    static GSourceFuncs functions = {.dispatch = dispatch, .finalize = finalize};
    GSource *source = g_source_new(&functions, sizeof(FileSource));
    FileSource *self = (FileSource *)source;
    g_source_set_name(source, "dconf");
    self->engine = engine_ref(engine);
    self->watch = watch_new(DCONFDB_WATCHER_CLIENT);
    if (!self->watch)
        g_error("no memory is left"); /* as GLib ends a program then */
    return source;
}

/* ---- the paths */

/* Unless another thread has ended it meanwhile. */
static void attach(Engine *self, GSource *source)
{
    g_mutex_lock(&self->lock);
    if (self->source == source)
        g_source_attach(source, self->context);
    g_mutex_unlock(&self->lock);
}

/* Looks at the files, watches them, and looks again: what changes in between is told. Where the store can't be opened now, or
 * has no place, all that is in it will be. */
static void begin_watching(Engine *self)
{
    DconfdbSnapshot *now = engine_look(self);
    GSource *source = source_new(self);
    g_mutex_lock(&self->lock);
    gboolean is_first = !self->source;
    if (is_first) {
        self->source = g_source_ref(source);
        self->told = g_steal_pointer(&now);
    }
    g_mutex_unlock(&self->lock);
    if (is_first) {
        carry_out((FileSource *)source);
        attach(self, source);
    }
    g_source_unref(source);
    dconfdb_snapshot_unref(now);
}

void engine_watch(Engine *self, const gchar *path)
{
    g_mutex_lock(&self->lock);
    guint count = GPOINTER_TO_UINT(g_hash_table_lookup(self->watched, path));
    g_hash_table_replace(self->watched, g_strdup(path), GUINT_TO_POINTER(count + 1));
    gboolean is_new = !self->source;
    g_mutex_unlock(&self->lock);
    if (is_new)
        begin_watching(self);
}

static void end_watching(Engine *self)
{
    g_mutex_lock(&self->lock);
    bool is_last = g_hash_table_size(self->watched) == 0;
    GSource *source = is_last ? g_steal_pointer(&self->source) : NULL;
    DconfdbSnapshot *told = is_last ? g_steal_pointer(&self->told) : NULL;
    if (is_last)
        self->hearing = (Hearing){0};
    g_mutex_unlock(&self->lock);
    if (source) {
        g_source_destroy(source);
        g_source_unref(source);
    }
    dconfdb_snapshot_unref(told);
}

gboolean engine_unwatch(Engine *self, const gchar *path)
{
    g_mutex_lock(&self->lock);
    guint count = GPOINTER_TO_UINT(g_hash_table_lookup(self->watched, path));
    if (count > 1)
        g_hash_table_replace(self->watched, g_strdup(path), GUINT_TO_POINTER(count - 1));
    else
        g_hash_table_remove(self->watched, path);
    g_mutex_unlock(&self->lock);
    end_watching(self);
    return count > 0;
}

void engine_unwatch_all(Engine *self)
{
    g_mutex_lock(&self->lock);
    g_hash_table_remove_all(self->watched);
    g_mutex_unlock(&self->lock);
    end_watching(self);
}

gboolean engine_is_watched(Engine *self, const gchar *path)
{
    GHashTableIter at;
    gpointer watched;
    gboolean is = FALSE;
    g_mutex_lock(&self->lock);
    g_hash_table_iter_init(&at, self->watched);
    while (!is && g_hash_table_iter_next(&at, &watched, NULL))
        is = paths_meet(watched, path); /* dconf asks its bus for such */
    g_mutex_unlock(&self->lock);
    return is;
}
