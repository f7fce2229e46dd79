/* What is set by the backend waits for the thread that writes it, and is told. */
#include "backend.h"

#include "dconfdb_calls.h"

#include <string.h>

/* `lock` is held. True: there is no worker, and it is to be written here. */
static bool add(DconfdbBackend *self, Change *change)
{
    const Need need = {.is_wanted = true, .adds = true, .waits = waiting_is_any(&self->waiting), .is_owed = true};
    waiting_add(&self->waiting, change);
    return worker_need(self, &need) == DCONFDB_NEED_HERE;
}

/* Lets the change wait, or frees it. No file is looked at: by the newest snapshot it is known what is seen, and the worker finds
 * out whether it is the newest file's. `told`, if it isn't NULL, is what is seen otherwise. */
static uint32_t make(DconfdbBackend *self, Change *change, GTree **told)
{
    bool is_here = false;
    lock_or_open(self);
    uint32_t entry = change_entry(change, &self->waiting, self->now, is_open(self));
    switch (entry) {
    case DCONFDB_ENTRY_WAITS:
        if (told)
            *told = change_tree(change);
        is_here = add(self, g_steal_pointer(&change));
        break;
    case DCONFDB_ENTRY_ASKS:
        change->asks = true;
        is_here = add(self, g_steal_pointer(&change));
        break;
    case DCONFDB_ENTRY_RENEWS:
        waiting_renew(&self->waiting, change);
        break;
    default:
        break;
    }
    g_mutex_unlock(&self->lock);
    g_clear_pointer(&change, change_free);
    if (is_here)
        store_write_alone(self, g_get_monotonic_time() + (gint64)dconfdb_patience_for(DCONFDB_PATIENCE_ASKED));
    return entry;
}

gboolean dconfdb_backend_write(GSettingsBackend *backend, const char *key, GVariant *value, gpointer origin_tag)
{
    size_t len = strlen(key);
    Change *change = change_new(1, len + 1);
    change_add(change, key, len, value);
    uint32_t entry = make(backend_of(backend), change, NULL);
    if (entry == DCONFDB_ENTRY_WAITS)
        g_settings_backend_changed(backend, key, origin_tag);
    return entry != DCONFDB_ENTRY_REFUSED;
}

void dconfdb_backend_reset(GSettingsBackend *backend, const char *key, gpointer origin_tag)
{
    dconfdb_backend_write(backend, key, NULL, origin_tag);
}

static gboolean add_length(gpointer key, gpointer value, gpointer length)
{
    (void)value;
    *(size_t *)length += strlen(key) + 1;
    return FALSE;
}

static gboolean add_row(gpointer key, gpointer value, gpointer change)
{
    change_add(change, key, strlen(key), value);
    return FALSE;
}

gboolean dconfdb_backend_write_tree(GSettingsBackend *backend, GTree *tree, gpointer origin_tag)
{
    GTree *told = NULL;
    size_t paths = 0;
    g_tree_foreach(tree, add_length, &paths);
    Change *change = change_new((size_t)g_tree_nnodes(tree), paths);
    g_tree_foreach(tree, add_row, change);
    uint32_t entry = make(backend_of(backend), change, &told);
    if (told) {
        g_settings_backend_changed_tree(backend, told, origin_tag);
        g_tree_unref(told);
    }
    return entry != DCONFDB_ENTRY_REFUSED;
}

void dconfdb_backend_sync(GSettingsBackend *backend)
{
    DconfdbBackend *self = backend_of(backend);
    if (store_sync(self))
        return;
    const char *folder = store_folder(self);
    g_autofree char *text = g_strdup_printf("%s: what was set is not on the disk yet; it goes on waiting", folder ? folder : "no place for a store");
    say(self, text);
}
