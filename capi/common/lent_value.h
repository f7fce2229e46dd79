/* A value of a snapshot as a GVariant that reads it in place: for what hands values to GLib. */
#ifndef LENT_VALUE_H
#define LENT_VALUE_H

#include "dconfdb.h"

#include <glib.h>

G_STATIC_ASSERT(G_BYTE_ORDER == G_LITTLE_ENDIAN);

typedef bool Reads(const DconfdbSnapshot *snapshot, const char *path, DconfdbValue *value);

static inline void lent_value_end(gpointer snapshot)
{
    dconfdb_snapshot_unref(snapshot);
}

/* What `reads` finds, floating. It takes the reference to the snapshot, and gives it back when the value
 * goes. NULL where there is none, or no snapshot. */
static inline GVariant *lent_value(DconfdbSnapshot *snapshot, Reads *reads, const char *path)
{
    DconfdbValue value;
    if (!snapshot || !reads(snapshot, path, &value)) {
        dconfdb_snapshot_unref(snapshot);
        return NULL;
    }
    /* A GVariantType is the text of a type, and needs no zero byte after it. The bytes may be any. */
    const GVariantType *type = (const GVariantType *)value.type;
    return g_variant_new_from_data(type, value.data, value.size, FALSE, lent_value_end, snapshot);
}

#endif
