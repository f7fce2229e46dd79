/* What is read of the backend, and what may be written: values are read in place, and changes that wait are read here. */
#define _POSIX_C_SOURCE 200809L
#include "backend.h"

#include "dconfdb_calls.h"
#include "lent_value.h"
#include "may_write.h"

#include <time.h>

/* ---- reads */

/* Nearly all reads end here, without a call. dconfdb_next_look gave that moment, and no read a look before it, nor where the files are watched: that is
 * proved of it (no_read_is_too_old). */
static inline bool is_before_a_look(const DconfdbBackend *self)
{
    struct timespec now;
    gint64 due = atomic_load_explicit(&self->looks, memory_order_relaxed);
    return clock_gettime(CLOCK_MONOTONIC_COARSE, &now) == 0 && (gint64)now.tv_sec * 1000000000 + now.tv_nsec < due * 1000;
}

/* Where nothing is watched, since no main loop has turned, each read may look at the files. */
static inline void look_if_unwatched(DconfdbBackend *self)
{
    if (!g_atomic_int_get(&self->is_watching) && G_UNLIKELY(!is_before_a_look(self)))
        store_peek(self);
}

/* Takes `lock`, as soon as the first opening is over. Where that failed it is tried again, by who watches or by who asks. */
void lock_opened(DconfdbBackend *self)
{
    g_mutex_lock(&self->lock);
    if (G_LIKELY(self->now != NULL))
        return;
    bool opens = is_to_open(self);
    g_mutex_unlock(&self->lock);
    if (opens)
        store_open(self);
    else
        look_if_unwatched(self);
    g_mutex_lock(&self->lock);
}

/* What a key is read in: the newest snapshot, if there is one, and the newest edit that waits of it. Each is a reference. */
typedef struct {
    bool is_edited;
    GVariant *value; /* that the edit sets; NULL: it sets none */
    DconfdbSnapshot *now;
    bool has_user;
} Source;

static Source source_of(DconfdbBackend *self, const char *key)
{
    look_if_unwatched(self);
    lock_or_open(self);
    const Edit *edit = waiting_find(&self->waiting, key);
    Source source = {.is_edited = edit != NULL,
                     .value = edit && edit->value ? g_variant_ref(edit->value) : NULL,
                     .now = self->now ? dconfdb_snapshot_ref(self->now) : NULL,
                     .has_user = self->has_user};
    g_mutex_unlock(&self->lock);
    return source;
}

static void source_clear(Source *source)
{
    g_clear_pointer(&source->value, g_variant_unref);
    dconfdb_snapshot_unref(source->now);
    source->now = NULL;
}

/* Since only who reads knows the type that is asked for, it is kept which keys were read past a value of another type, as the proved call says.
 * Where their default changes, it is told. */
static void remember_odd(DconfdbBackend *self, const char *key, const GVariantType *expected)
{
    char *type = g_variant_type_dup_string(expected);
    g_mutex_lock(&self->lock);
    g_hash_table_add(self->odd, g_strconcat(type, " ", key, NULL));
    g_mutex_unlock(&self->lock);
    g_free(type);
}

static bool fits(GVariant *value, const GVariantType *expected)
{
    return !value || g_variant_is_of_type(value, expected);
}

/* What is there, where the proved call has it. */
static GVariant *found_at(uint32_t found, Source *source, const char *key)
{
    switch (found) {
    case DCONFDB_FOUND_STORED:
        return lent_value(g_steal_pointer(&source->now), dconfdb_snapshot_read, key);
    case DCONFDB_FOUND_DEFAULT:
        return lent_value(g_steal_pointer(&source->now), dconfdb_snapshot_read_default, key);
    case DCONFDB_FOUND_USERS:
        return lent_value(g_steal_pointer(&source->now), dconfdb_snapshot_read_user, key);
    case DCONFDB_FOUND_EDIT:
        return g_steal_pointer(&source->value);
    default:
        return NULL;
    }
}

/* What isn't asked here doesn't count, which is proved of dconfdb_found (what_is_not_asked_is_not_read): what is stored, of the default; and whether the key
 * may be written, where no edit of it waits. */
GVariant *dconfdb_backend_read(GSettingsBackend *backend, const char *key, const GVariantType *expected, gboolean default_value)
{
    DconfdbBackend *self = backend_of(backend);
    Source source = source_of(self, key);
    GVariant *stored = default_value ? NULL : lent_value(source.now ? dconfdb_snapshot_ref(source.now) : NULL, dconfdb_snapshot_read, key);
    DconfdbKnown known = {.waits = source.is_edited,
                          .sets = source.value != NULL,
                          .writable = source.has_user,
                          .may_write = source.is_edited && dconfdb_snapshot_is_writable(or_nothing(source.now), key),
                          .edit_fits = fits(source.value, expected),
                          .stored_fits = fits(stored, expected)};
    bool is_odd;
    uint32_t found = dconfdb_found(false, default_value, &known, &is_odd);
    if (G_UNLIKELY(is_odd))
        remember_odd(self, key, expected);
    GVariant *value = found == DCONFDB_FOUND_STORED ? g_steal_pointer(&stored) : found_at(found, &source, key);
    g_clear_pointer(&stored, g_variant_unref);
    source_clear(&source);
    return value;
}

/* Of the user's own value nothing else counts, by the same law. */
GVariant *dconfdb_backend_read_user_value(GSettingsBackend *backend, const char *key, const GVariantType *expected)
{
    (void)expected;
    Source source = source_of(backend_of(backend), key);
    DconfdbKnown known = {.waits = source.is_edited, .sets = source.value != NULL, .writable = source.has_user};
    bool is_odd;
    GVariant *value = found_at(dconfdb_found(true, false, &known, &is_odd), &source, key);
    source_clear(&source);
    return value;
}

/* ---- what may be written */

gboolean dconfdb_backend_get_writable(GSettingsBackend *backend, const char *name)
{
    DconfdbBackend *self = backend_of(backend);
    look_if_unwatched(self);
    lock_or_open(self);
    bool is = snapshot_may_write(self->now, is_at_work(self), name); /* that there is a user's database, the snapshot says */
    g_mutex_unlock(&self->lock);
    return is;
}

GPermission *dconfdb_backend_get_permission(GSettingsBackend *backend, const char *path)
{
    return g_simple_permission_new(dconfdb_backend_get_writable(backend, path));
}
