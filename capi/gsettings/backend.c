/* The backend of GSettings that GSETTINGS_BACKEND=dconfdb names, or a file makes the default: its type, how long
 * it lives, and the module. */
#include "backend.h"

#include "catch_up.h"

#include <errno.h>
#include <pthread.h>
#include <unistd.h>

typedef struct {
    GSettingsBackendClass parent;
} DconfdbBackendClass;

static GType dconfdb_backend_get_type(void);

G_DEFINE_DYNAMIC_TYPE(DconfdbBackend, dconfdb_backend, G_TYPE_SETTINGS_BACKEND)

/* ---- its life: as long as somebody holds it, and its worker has something to write */

static GMutex living_lock; /* taken before a backend's `lock` */
static GSList *living;     /* each has a reference of somebody's, as long as `living_lock` is held */
static gint made_in;       /* the process that made the last one, or 0; atomic */

/* GSettings reads a schema's default as a tuple of the key's type at each read; and what GLib knows of
 * a type goes with the last value that has it in its own. This one keeps that of common keys. */
static GVariant *value_of_common_types(void)
{
    const GVariantType *type = G_VARIANT_TYPE("((b)(i)(u)(x)(t)(d)(s)(as)(ay)(a{sv}))");
    return g_variant_ref_sink(g_variant_new_from_data(type, "", 0, FALSE, NULL, NULL));
}

static void dconfdb_backend_init(DconfdbBackend *self)
{
    self->process = getpid();
    g_atomic_int_set(&made_in, self->process);
    self->types = value_of_common_types();
    g_mutex_init(&self->turn);
    g_mutex_init(&self->lock);
    waiting_begin(&self->waiting);
    self->subscribed = g_hash_table_new_full(g_str_hash, g_str_equal, g_free, NULL);
    self->odd = g_hash_table_new_full(g_str_hash, g_str_equal, g_free, NULL);
    self->asked = g_hash_table_new(NULL, NULL);
    self->wakes = -1;
    self->last_try = G_MAXUINT64;
    g_cond_init(&self->settles);
    g_queue_init(&self->untold);
    store_begin(self);
    g_mutex_lock(&living_lock);
    living = g_slist_prepend(living, self);
    g_mutex_unlock(&living_lock);
}

/* Nobody holds it: what waits is written, and its worker ends. A worker that can't within some seconds, or that let
 * go of it last, holds it until then. */
static void dconfdb_backend_dispose(GObject *object)
{
    DconfdbBackend *self = (DconfdbBackend *)object;
    if (worker_let_go(self)) {
        g_mutex_lock(&living_lock);
        living = g_slist_remove(living, self);
        g_mutex_unlock(&living_lock);
    }
    G_OBJECT_CLASS(dconfdb_backend_parent_class)->dispose(object);
}

static void dconfdb_backend_finalize(GObject *object)
{
    DconfdbBackend *self = (DconfdbBackend *)object;
    store_end(self);
    waiting_end(&self->waiting);
    g_hash_table_unref(self->subscribed);
    g_hash_table_unref(self->odd);
    g_hash_table_unref(self->asked);
    if (self->wakes >= 0)
        close(self->wakes);
    g_variant_unref(self->types);
    g_cond_clear(&self->settles);
    g_mutex_clear(&self->lock);
    g_mutex_clear(&self->turn);
    G_OBJECT_CLASS(dconfdb_backend_parent_class)->finalize(object);
}

/* When the program ends by exit(), or main() returns. A child of fork() leaves all to its parent, as the proved call has it.
 * `living_lock` isn't held meanwhile, since a fork() of the program's wants it; nor waited for for long, since
 * a handler of a signal may have called exit() in the thread that has it. What a backend holds is left to the
 * system. */
static void __attribute__((destructor)) end_all(void)
{
    if (!mutex_lock_until(&living_lock, g_get_monotonic_time() + (gint64)dconfdb_patience_for(DCONFDB_PATIENCE_REST))) {
        worker_end_unseen((uint32_t)g_atomic_int_get(&made_in));
        return;
    }
    GSList *all = living;
    for (GSList *at = all; at; at = at->next)
        g_object_ref(at->data);
    g_mutex_unlock(&living_lock);
    for (GSList *at = all; at; at = at->next)
        worker_end(at->data);
}

/* ---- libdconf.so.1 in the same program (catch_up.h) */

static void catch_up_all(void)
{
    GSList *all = NULL;
    g_mutex_lock(&living_lock);
    for (GSList *at = living; at; at = at->next)
        all = g_slist_prepend(all, g_object_ref(at->data));
    g_mutex_unlock(&living_lock);
    for (GSList *at = all; at; at = at->next)
        store_catch_up(at->data);
    g_slist_free_full(all, g_object_unref);
}

/* ---- fork(): the child has no thread but the one that called it */

/* So that nobody else has `lock`, and what it guards is whole. `turn` may be held for seconds, and
 * is not waited for. */
static void before_fork(void)
{
    g_mutex_lock(&living_lock);
    for (GSList *at = living; at; at = at->next)
        g_mutex_lock(&((DconfdbBackend *)at->data)->lock);
}

static void after_fork(void)
{
    for (GSList *at = living; at; at = at->next)
        g_mutex_unlock(&((DconfdbBackend *)at->data)->lock);
    g_mutex_unlock(&living_lock);
}

static void after_fork_in_child(void)
{
    for (GSList *at = living; at; at = at->next)
        store_leave(at->data);
    after_fork();
}

static void dconfdb_backend_class_init(DconfdbBackendClass *class)
{
    GObjectClass *object = (GObjectClass *)class;
    object->dispose = dconfdb_backend_dispose;
    object->finalize = dconfdb_backend_finalize;
    class->parent.read = dconfdb_backend_read;
    class->parent.read_user_value = dconfdb_backend_read_user_value;
    class->parent.get_writable = dconfdb_backend_get_writable;
    class->parent.get_permission = dconfdb_backend_get_permission;
    class->parent.write = dconfdb_backend_write;
    class->parent.write_tree = dconfdb_backend_write_tree;
    class->parent.reset = dconfdb_backend_reset;
    class->parent.subscribe = dconfdb_backend_subscribe;
    class->parent.unsubscribe = dconfdb_backend_unsubscribe;
    class->parent.sync = dconfdb_backend_sync;
    /* The class is made once, and the module is never unloaded. */
    pthread_atfork(before_fork, after_fork, after_fork_in_child);
}

static void dconfdb_backend_class_finalize(DconfdbBackendClass *class)
{
    (void)class;
}

/* ---- the module */

/* With this file, an administrator makes the module the default. */
static const char default_file[] = "/etc/dconfdb/default";

static bool is_default(void)
{
    DconfdbStood stood = {.fault = access(default_file, F_OK) == 0 ? 0 : (uint32_t)errno};
    uint32_t fault;
    return dconfdb_standing(DCONFDB_TO_LOOK, &stood, &fault) == DCONFDB_IS_GOOD;
}

G_MODULE_EXPORT void g_io_module_load(GIOModule *module);
G_MODULE_EXPORT void g_io_module_unload(GIOModule *module);
G_MODULE_EXPORT char **g_io_module_query(void);

void g_io_module_load(GIOModule *module)
{
    /* It is never unloaded: values are lent from it. */
    g_type_module_use(G_TYPE_MODULE(module));
    dconfdb_backend_register_type(G_TYPE_MODULE(module));
    static CatchUp catch_up = {catch_up_all};
    g_type_set_qdata(dconfdb_backend_get_type(), g_quark_from_static_string(CATCH_UP_DATA), &catch_up);
    g_io_extension_point_implement(G_SETTINGS_BACKEND_EXTENSION_POINT_NAME, dconfdb_backend_get_type(), "dconfdb", (gint)dconfdb_priority(is_default()));
}

void g_io_module_unload(GIOModule *module)
{
    (void)module;
}

char **g_io_module_query(void)
{
    const char *points[] = {G_SETTINGS_BACKEND_EXTENSION_POINT_NAME, NULL};
    return g_strdupv((char **)points);
}
