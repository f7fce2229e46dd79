/* The edits of a set of changes, and what is known of each. */
#include "writes.h"

#include "edit_with.h"
#include "seen.h"

#include <string.h>

Edits edits_of(DConfChangeset *changes)
{
    const gchar *prefix, *const *paths;
    GVariant *const *values;
    guint count = dconf_changeset_is_empty(changes) ? 0 : dconf_changeset_describe(changes, &prefix, &paths, &values);
    Edits self = {g_array_new(FALSE, FALSE, sizeof(DconfdbEdit)), g_ptr_array_new_with_free_func(g_free),
                  g_ptr_array_new_with_free_func((GDestroyNotify)g_variant_unref)};
    for (guint i = 0; i < count; i++) {
        gchar *path = g_strconcat(prefix, paths[i], NULL);
        /* The library takes normal forms alone; dconf writes these. */
        GVariant *normal = values[i] ? g_variant_get_normal_form(values[i]) : NULL;
        DconfdbEdit edit = edit_with(path, normal);
        if (normal)
            g_ptr_array_add(self.values, normal);
        g_ptr_array_add(self.texts, path);
        g_array_append_val(self.edits, edit);
    }
    return self;
}

void edits_clear(Edits *self)
{
    g_array_unref(self->edits);
    g_ptr_array_unref(self->texts);
    g_ptr_array_unref(self->values);
}

DconfdbNewEdit known_by_rights(const DconfdbEdit *edit, bool is_open, const DconfdbSnapshot *now)
{
    bool sets = edit->type != NULL, may = dconfdb_snapshot_is_writable(or_nothing(now), edit->path);
    may = dconfdb_may_be_made((const uint8_t *)edit->path, strlen(edit->path), sets, is_open, may);
    return (DconfdbNewEdit){.sets = sets, .may = may};
}

DconfdbNewEdit *known_of(const Edits *self, bool is_open, const DconfdbSnapshot *now)
{
    DconfdbNewEdit *known = g_new0(DconfdbNewEdit, self->edits->len + 1); /* one more: the calls want a place also where there is none */
    for (guint at = 0; at < self->edits->len; at++) {
        const DconfdbEdit *edit = edit_at(self, at);
        known[at] = known_by_rights(edit, is_open, now);
        known[at].is_same = dconfdb_snapshot_has_edit(or_nothing(now), edit);
    }
    return known;
}

/* The changes of which the user has something else. */
DConfChangeset *effective(const Edits *self, const DconfdbNewEdit *known, DConfChangeset *changes)
{
    DConfChangeset *found = dconf_changeset_new();
    for (guint at = 0; at < self->edits->len; at++) {
        const gchar *path = edit_at(self, at)->path;
        GVariant *value = NULL;
        if (!edit_is_news(&known[at]) || !dconf_changeset_get(changes, path, &value))
            continue;
        dconf_changeset_set(found, path, value);
        g_clear_pointer(&value, g_variant_unref);
    }
    return found;
}

void leave_out(Edits *self, const DconfdbNewEdit *known)
{
    for (guint at = self->edits->len; at > 0; at--) {
        if (edit_is_left_out(&known[at - 1]))
            g_array_remove_index(self->edits, at - 1);
    }
}
