/* The calls of the backend, which GSettings makes of it. */
#ifndef BACKEND_H
#define BACKEND_H

#include "gsettings.h"

static inline DconfdbBackend *backend_of(GSettingsBackend *backend)
{
    return (DconfdbBackend *)backend;
}

/* ---- reads (reads.c) */

/* Takes `lock`, as soon as the first opening is over. Where that failed it is tried again, by who watches or by who asks. */
void lock_opened(DconfdbBackend *self);

/* The same: mostly there is a snapshot, and nothing to be opened. */
static inline void lock_or_open(DconfdbBackend *self)
{
    g_mutex_lock(&self->lock);
    if (G_LIKELY(self->now != NULL))
        return;
    g_mutex_unlock(&self->lock);
    lock_opened(self);
}

GVariant *dconfdb_backend_read(GSettingsBackend *backend, const char *key, const GVariantType *expected, gboolean default_value);
GVariant *dconfdb_backend_read_user_value(GSettingsBackend *backend, const char *key, const GVariantType *expected);
gboolean dconfdb_backend_get_writable(GSettingsBackend *backend, const char *name);
GPermission *dconfdb_backend_get_permission(GSettingsBackend *backend, const char *path);

/* ---- changes (sets.c) */

gboolean dconfdb_backend_write(GSettingsBackend *backend, const char *key, GVariant *value, gpointer origin_tag);
gboolean dconfdb_backend_write_tree(GSettingsBackend *backend, GTree *tree, gpointer origin_tag);
void dconfdb_backend_reset(GSettingsBackend *backend, const char *key, gpointer origin_tag);
void dconfdb_backend_sync(GSettingsBackend *backend);

/* ---- who listens (listeners.c) */

void dconfdb_backend_subscribe(GSettingsBackend *backend, const char *name);
void dconfdb_backend_unsubscribe(GSettingsBackend *backend, const char *name);

#endif
