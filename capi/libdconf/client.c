/* DConfClient: the calls of a program. */
#include "libdconf.h"

#include "dconfdb_calls.h"
#include "lists.h"
#include "seen.h"
#include "snapshot.h"

#include <stdlib.h>
#include <string.h>

struct _DConfClient {
    GObject parent;
    Engine *engine;
};

G_DEFINE_TYPE(DConfClient, dconf_client, G_TYPE_OBJECT)

static void dconf_client_init(DConfClient *self)
{
    self->engine = engine_new(self);
}

/* What waits is written all the same. */
static void dconf_client_finalize(GObject *object)
{
    DConfClient *self = DCONF_CLIENT(object);
    engine_unwatch_all(self->engine);
    engine_unref(self->engine);
    G_OBJECT_CLASS(dconf_client_parent_class)->finalize(object);
}

static void dconf_client_class_init(DConfClientClass *class)
{
    const GType text = G_TYPE_STRING | G_SIGNAL_TYPE_STATIC_SCOPE, texts = G_TYPE_STRV | G_SIGNAL_TYPE_STATIC_SCOPE;
    G_OBJECT_CLASS(class)->finalize = dconf_client_finalize;
    g_signal_new("changed", DCONF_TYPE_CLIENT, G_SIGNAL_RUN_LAST, 0, NULL, NULL, NULL, G_TYPE_NONE, 3, text, texts, text);
    g_signal_new("writability-changed", DCONF_TYPE_CLIENT, G_SIGNAL_RUN_LAST, 0, NULL, NULL, NULL, G_TYPE_NONE, 1, text);
}

DConfClient *dconf_client_new(void)
{
    return g_object_new(DCONF_TYPE_CLIENT, NULL);
}

/* ---- reading */

GVariant *dconf_client_read(DConfClient *client, const gchar *key)
{
    g_return_val_if_fail (DCONF_IS_CLIENT (client), NULL);
    g_return_val_if_fail (key != NULL, NULL);
    return engine_read(client->engine, key, DCONF_READ_FLAGS_NONE, NULL);
}

GVariant *dconf_client_read_full(DConfClient *client, const gchar *key, DConfReadFlags flags, const GQueue *read_through)
{
    g_return_val_if_fail (DCONF_IS_CLIENT (client), NULL);
    g_return_val_if_fail (key != NULL, NULL);
    return engine_read(client->engine, key, flags, read_through);
}

/* As the library lists texts; NULL: none. */
static gchar **array_of(char *texts, gint *length)
{
    GPtrArray *found = g_ptr_array_new();
    for (const char *at = texts; at && *at; at = next_text(at))
        g_ptr_array_add(found, g_strdup(at));
    free(texts);
    if (length)
        *length = (gint)found->len;
    g_ptr_array_add(found, NULL);
    return (gchar **)g_ptr_array_free(found, FALSE);
}

gchar **dconf_client_list(DConfClient *client, const gchar *dir, gint *length)
{
    g_return_val_if_fail (DCONF_IS_CLIENT (client), NULL);
    g_return_val_if_fail (dir != NULL, NULL);
    DconfdbSnapshot *now = engine_current(client->engine);
    char *names = dconfdb_snapshot_list(or_nothing(now), dir, NULL, NULL);
    dconfdb_snapshot_unref(now);
    return array_of(names, length);
}

static uint32_t lists_closed(const DconfdbSnapshot *now, const void *dir, uint8_t *room, size_t room_len, size_t *len)
{
    return dconfdb_list(now->layers, now->count, now->is_writable, dir, strlen(dir), DCONFDB_LIST_CLOSED, room, room_len, len);
}

/* Where no store can be opened, nobody may write. */
gchar **dconf_client_list_locks(DConfClient *client, const gchar *dir, gint *length)
{
    g_return_val_if_fail (DCONF_IS_CLIENT (client), NULL);
    g_return_val_if_fail (dconf_is_dir (dir, NULL), NULL);
    DconfdbSnapshot *now = engine_current(client->engine);
    char *locks = snapshot_listed(lists_closed, or_nothing(now), dir, dir, NULL, NULL);
    dconfdb_snapshot_unref(now);
    return array_of(locks, length);
}

gboolean dconf_client_is_writable(DConfClient *client, const gchar *key)
{
    g_return_val_if_fail (DCONF_IS_CLIENT (client), FALSE);
    g_return_val_if_fail (key != NULL, FALSE);
    DconfdbSnapshot *now = engine_current(client->engine);
    /* What is no path is locked by nobody, as dconf has it. */
    gboolean is = seen_is_writable(now, is_open(engine_begin_here(client->engine), engine_has_user(client->engine)), key);
    dconfdb_snapshot_unref(now);
    return is;
}

/* ---- changes */

gboolean dconf_client_change_fast(DConfClient *client, DConfChangeset *changeset, GError **error)
{
    g_return_val_if_fail (DCONF_IS_CLIENT (client), FALSE);
    g_return_val_if_fail (changeset != NULL, FALSE);
    return engine_change_fast(client->engine, changeset, error);
}

/* It isn't cancelled: dconf's isn't, either. */
gboolean dconf_client_change_sync(DConfClient *client, DConfChangeset *changeset, gchar **tag, GCancellable *cancellable,
                                  GError **error)
{
    (void)cancellable;
    g_return_val_if_fail (DCONF_IS_CLIENT (client), FALSE);
    g_return_val_if_fail (changeset != NULL, FALSE);
    return engine_change_sync(client->engine, changeset, tag, error);
}

gboolean dconf_client_write_fast(DConfClient *client, const gchar *key, GVariant *value, GError **error)
{
    g_return_val_if_fail (DCONF_IS_CLIENT (client), FALSE);
    g_autoptr(DConfChangeset) changes = dconf_changeset_new_write(key, value);
    return engine_change_fast(client->engine, changes, error);
}

gboolean dconf_client_write_sync(DConfClient *client, const gchar *key, GVariant *value, gchar **tag, GCancellable *cancellable,
                                 GError **error)
{
    (void)cancellable;
    g_return_val_if_fail (DCONF_IS_CLIENT (client), FALSE);
    g_autoptr(DConfChangeset) changes = dconf_changeset_new_write(key, value);
    return engine_change_sync(client->engine, changes, tag, error);
}

void dconf_client_sync(DConfClient *client)
{
    g_return_if_fail (DCONF_IS_CLIENT (client));
    engine_sync(client->engine);
}

/* ---- watching. A watch is established when the call returns, the fast one too. */

void dconf_client_watch_fast(DConfClient *client, const gchar *path)
{
    g_return_if_fail (DCONF_IS_CLIENT (client));
    g_return_if_fail (path != NULL);
    engine_watch(client->engine, path);
}

void dconf_client_watch_sync(DConfClient *client, const gchar *path)
{
    g_return_if_fail (DCONF_IS_CLIENT (client));
    g_return_if_fail (path != NULL);
    engine_watch(client->engine, path);
}

void dconf_client_unwatch_fast(DConfClient *client, const gchar *path)
{
    g_return_if_fail (DCONF_IS_CLIENT (client));
    gboolean is_watched = path && engine_unwatch(client->engine, path);
    g_return_if_fail (is_watched);
}

void dconf_client_unwatch_sync(DConfClient *client, const gchar *path)
{
    g_return_if_fail (DCONF_IS_CLIENT (client));
    gboolean is_watched = path && engine_unwatch(client->engine, path);
    g_return_if_fail (is_watched);
}
