/* Who listens to the backend, and whether one of their main contexts turns: then there is somebody to be told. */
#include "backend.h"

/* A main context that is to say that it turns. It may never do so, and the backend be gone by then. */
typedef struct {
    GWeakRef backend;
    GMainContext *context;
} Asked;

static void is_answered(gpointer data)
{
    Asked *asked = data;
    DconfdbBackend *self = g_weak_ref_get(&asked->backend);
    if (self) {
        g_mutex_lock(&self->lock);
        g_hash_table_remove(self->asked, asked->context);
        g_mutex_unlock(&self->lock);
        g_object_unref(self);
    }
    g_weak_ref_clear(&asked->backend);
    g_free(asked);
}

static gboolean has_turned(gpointer data)
{
    DconfdbBackend *self = g_weak_ref_get(&((Asked *)data)->backend);
    if (!self)
        return G_SOURCE_REMOVE;
    g_mutex_lock(&self->lock);
    self->has_turned = true;
    worker_need(self, &(const Need){.listens = true});
    g_mutex_unlock(&self->lock);
    g_object_unref(self);
    return G_SOURCE_REMOVE;
}

/* Each GSettings subscribes, also that of a program which only gets and sets: it runs no main loop. What has turned, or is asked, isn't asked
 * again. */
static void ask_whether_it_turns(DconfdbBackend *self)
{
    GMainContext *context = g_main_context_ref_thread_default();
    g_mutex_lock(&self->lock);
    bool is_new = dconfdb_asks_context(self->has_turned, g_hash_table_contains(self->asked, context));
    if (is_new)
        g_hash_table_add(self->asked, context);
    g_mutex_unlock(&self->lock);
    if (is_new) {
        Asked *asked = g_new(Asked, 1);
        g_weak_ref_init(&asked->backend, self);
        asked->context = context;
        GSource *source = g_idle_source_new();
        g_source_set_priority(source, G_PRIORITY_HIGH);
        g_source_set_callback(source, has_turned, asked, is_answered);
        g_source_attach(source, context);
        g_source_unref(source);
    }
    g_main_context_unref(context);
}

void dconfdb_backend_subscribe(GSettingsBackend *backend, const char *name)
{
    DconfdbBackend *self = backend_of(backend);
    g_mutex_lock(&self->lock);
    guint count = GPOINTER_TO_UINT(g_hash_table_lookup(self->subscribed, name));
    g_hash_table_insert(self->subscribed, g_strdup(name), GUINT_TO_POINTER(count + 1));
    worker_need(self, &(const Need){.listens = true});
    g_mutex_unlock(&self->lock);
    ask_whether_it_turns(self);
}

void dconfdb_backend_unsubscribe(GSettingsBackend *backend, const char *name)
{
    DconfdbBackend *self = backend_of(backend);
    g_mutex_lock(&self->lock);
    guint count = GPOINTER_TO_UINT(g_hash_table_lookup(self->subscribed, name));
    if (count > 1)
        g_hash_table_insert(self->subscribed, g_strdup(name), GUINT_TO_POINTER(count - 1));
    else
        g_hash_table_remove(self->subscribed, name);
    g_mutex_unlock(&self->lock);
}
