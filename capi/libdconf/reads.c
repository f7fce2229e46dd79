/* What is read of a client's store, beside what waits. */
#include "libdconf.h"

#include "dconfdb_calls.h"
#include "lent_value.h"
#include "seen.h"

DConfChangeset *engine_set(Engine *self, size_t number, const GQueue *read_through)
{
    switch (number) {
    case DCONFDB_ASKED_WRITING:
        return self->flying;
    case DCONFDB_ASKED_WAITING:
        return self->waiting;
    default:
        return g_queue_peek_nth((GQueue *)read_through, (guint)(number - DCONFDB_ASKED_THROUGH));
    }
}

/* What the newest word says of a key; NULL: it is reset. False: none says anything. */
static gboolean find_edit(Engine *self, const gchar *key, const GQueue *read_through, GVariant **value)
{
    size_t sets = DCONFDB_ASKED_WAITING + (read_through ? read_through->length : 0), number, asked = 0;
    gboolean is = FALSE;
    g_mutex_lock(&self->lock);
    engine_begins_in(self);
    while (!is && (number = dconfdb_asked_after(sets, asked++)) != DCONFDB_ASKED_STORE) {
        DConfChangeset *set = engine_set(self, number, read_through);
        is = set && dconf_changeset_get(set, key, value);
    }
    g_mutex_unlock(&self->lock);
    return is;
}

/* What is read of the store, as the proved call has it; NULL: nothing is. */
static Reads *reads_of(uint32_t found)
{
    switch (found) {
    case DCONFDB_FOUND_STORED:
        return dconfdb_snapshot_read;
    case DCONFDB_FOUND_DEFAULT:
        return dconfdb_snapshot_read_default;
    case DCONFDB_FOUND_USERS:
        return dconfdb_snapshot_read_user;
    default:
        return NULL;
    }
}

/* What was found. Of a value of any type each is one that is asked for. What isn't asked doesn't count, which is proved of the call
 * (what_is_not_asked_is_not_read). */
static uint32_t find(Engine *self, const gchar *key, DConfReadFlags flags, const DconfdbSnapshot *now, gboolean is_edited, const GVariant *value)
{
    bool of_user = (flags & DCONF_READ_USER_VALUE) != 0, of_default = (flags & DCONF_READ_DEFAULT_VALUE) != 0;
    DconfdbKnown known = {.waits = is_edited, .sets = value != NULL, .edit_fits = true, .stored_fits = true};
    known.writable = of_user && engine_has_user(self);
    known.may_write = is_edited && dconfdb_snapshot_is_writable(or_nothing(now), key); /* whoever asked for the edit could */
    bool is_odd;
    return dconfdb_found(of_user, of_default, &known, &is_odd);
}

GVariant *engine_read(Engine *self, const gchar *key, DConfReadFlags flags, const GQueue *read_through)
{
    GVariant *value = NULL;
    /* Before the look: what is written meanwhile is in one of the two. */
    gboolean is_edited = find_edit(self, key, read_through, &value);
    DconfdbSnapshot *now = engine_current(self);
    uint32_t found = find(self, key, flags, now, is_edited, value);
    Reads *reads = reads_of(found);
    if (found != DCONFDB_FOUND_EDIT)
        g_clear_pointer(&value, g_variant_unref);
    if (!reads) {
        dconfdb_snapshot_unref(now);
        return value;
    }
    value = lent_value(now, reads, key);
    return value ? g_variant_ref_sink(value) : NULL;
}
