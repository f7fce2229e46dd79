/* Who is told of what: by the proved call that says which keys are seen otherwise, of the user's own database alone, since programs in a
 * sandbox see no site's. */
#include "kinds.h"
#include "lists.h"
#include "paths.h"
#include "service.h"
#include "snapshot.h"

#include <stdlib.h>
#include <string.h>

/* ---- one signal */

/* How many bytes of a path can be sent as a text: of as many as are UTF-8, all, or those of a directory. */
static size_t sendable(const char *path)
{
    const char *end = path;
    size_t len = strlen(path);
    g_utf8_validate(path, (gssize)len, &end);
    return dconfdb_shared_within((const uint8_t *)path, len, (size_t)(end - path), (const uint8_t *)path, len);
}

/* What all paths begin with, of the first one: all of it if that is the only one, and else a directory. And how many bytes they are. */
static size_t prefix_of(const GPtrArray *paths, size_t *size)
{
    const char *first = g_ptr_array_index(paths, 0);
    size_t first_len = strlen(first), len = sendable(first);
    *size = first_len;
    for (guint at = 1; at < paths->len; at++) {
        const char *path = g_ptr_array_index(paths, at);
        len = dconfdb_shared_within((const uint8_t *)first, first_len, len, (const uint8_t *)path, sendable(path));
        *size += strlen(path);
    }
    return len;
}

/* What each path has behind the prefix, which is all that is said where they aren't named. */
static GVariant *rests_of(const GPtrArray *paths, size_t prefix, bool are_named)
{
    guint count = are_named ? paths->len : 1;
    g_autofree GVariant **rests = g_new(GVariant *, count);
    for (guint at = 0; at < count; at++) {
        const char *path = g_ptr_array_index(paths, at);
        rests[at] = g_variant_new_take_string(g_strndup(path + prefix, are_named ? sendable(path) - prefix : 0));
    }
    return g_variant_new_array(G_VARIANT_TYPE_STRING, rests, count);
}

static void notify(const Writer *writer, const GPtrArray *paths, const char *tag)
{
    size_t size = 0, len = prefix_of(paths, &size);
    const DconfdbServed known = {.size = size};
    bool are_named = dconfdb_served_after(DCONFDB_SERVED_TOLD, &known) == DCONFDB_SERVED_GOES_ON;
    char *prefix = g_strndup(g_ptr_array_index(paths, 0), len);
    /* g_variant_new() would read the format each time. */
    GVariant *words[] = {g_variant_new_take_string(prefix), rests_of(paths, len, are_named), g_variant_new_string(tag)};
    GVariant *notice = g_variant_new_tuple(words, G_N_ELEMENTS(words));
    /* It fails where the bus is gone. */
    g_dbus_connection_emit_signal(writer->service->bus, NULL, writer->object, "ca.desrt.dconf.Writer", "Notify", notice, NULL);
}

/* ---- keys that are edited */

static int by_path(gconstpointer one, gconstpointer other, gpointer data)
{
    (void)data;
    return strcmp(one, other);
}

void newest_begin(Newest *newest)
{
    newest->edits = g_tree_new_full(by_path, NULL, NULL, NULL);
    newest->resets = g_ptr_array_new_with_free_func(g_free);
}

void newest_end(Newest *newest)
{
    g_tree_unref(newest->edits);
    g_ptr_array_unref(newest->resets);
}

static void put(GTree *edits, const DconfdbEdit *edit)
{
    g_tree_replace(edits, (gpointer)edit->path, (gpointer)edit);
}

static void put_reset(GTree *edits, Newest *newest, const char *path)
{
    size_t size = strlen(path) + 1;
    DconfdbEdit *edit = g_malloc(sizeof *edit + size);
    *edit = (DconfdbEdit){memcpy(edit + 1, path, size), NULL, NULL, 0};
    g_ptr_array_add(newest->resets, edit);
    put(edits, edit);
}

/* Whether the reset of a directory takes away what a key has. */
static bool takes_away(const char *directory, const char *path)
{
    return dconfdb_row_effect((const uint8_t *)directory, strlen(directory), false, false, (const uint8_t *)path, strlen(path)) == DCONFDB_ROW_GOES;
}

/* The reset of a directory is that of each key that it takes away: of those that were there, and that were set since. */
static void put_resets(GTree *edits, Newest *newest, const DconfdbSnapshot *before, const char *directory)
{
    char *paths = snapshot_paths(before, directory, NULL);
    if (!paths)
        g_error("no memory is left");
    for (const char *at = paths; *at; at = next_text(at))
        put_reset(edits, newest, at);
    GTreeNode *node = g_tree_lower_bound(newest->edits, directory);
    for (; node && takes_away(directory, g_tree_node_key(node)); node = g_tree_node_next(node))
        put_reset(edits, newest, g_tree_node_key(node));
    free(paths);
}

/* The keys of a change, each with what it says. */
static GTree *keys_of(Newest *newest, const DconfdbSnapshot *before, const GPtrArray *made)
{
    GTree *edits = g_tree_new_full(by_path, NULL, NULL, NULL);
    for (guint at = 0; at < made->len; at++) {
        const DconfdbEdit *edit = g_ptr_array_index(made, at);
        if (is_directory(edit->path))
            put_resets(edits, newest, before, edit->path);
        else
            put(edits, edit);
    }
    return edits;
}

/* ---- what is seen otherwise */

/* Of how many databases of a snapshot is told: of the first ones. */
static size_t count_shown(const DconfdbSnapshot *snapshot)
{
    for (size_t count = 0;; count++) {
        const DconfdbServed known = {.is_users = snapshot->is_writable, .is_first = count == 0};
        if (count == snapshot->count || dconfdb_served_after(DCONFDB_SERVED_SHOWS, &known) != DCONFDB_SERVED_GOES_ON)
            return count;
    }
}

/* These, as they were told, or are now. */
static DconfdbSnapshot *own_of(const DconfdbSnapshot *snapshot)
{
    size_t count = count_shown(snapshot);
    DconfdbSnapshot *own = snapshot_new(count, snapshot->is_writable);
    if (!own)
        g_error("no memory is left");
    for (size_t i = 0; i < count; i++)
        snapshot_put(own, i, part_ref(snapshot->parts[i]));
    return own;
}

static void add_all(GPtrArray *paths, const char *list)
{
    for (const char *at = list; *at; at = next_text(at))
        g_ptr_array_add(paths, (gpointer)at);
}

/* Two changes that are written together may leave out the same path. Dconf's library takes no notice in which a key alone is named twice. */
static void keep_each_once(GPtrArray *paths)
{
    if (paths->len < 2)
        return;
    g_autoptr(GHashTable) named = g_hash_table_new(g_str_hash, g_str_equal);
    guint count = 0;
    for (guint at = 0; at < paths->len; at++) {
        const DconfdbServed known = {.is_again = !g_hash_table_add(named, g_ptr_array_index(paths, at))};
        if (dconfdb_served_after(DCONFDB_SERVED_ORDERED, &known) == DCONFDB_SERVED_GOES_ON)
            g_ptr_array_index(paths, count++) = g_ptr_array_index(paths, at);
    }
    g_ptr_array_set_size(paths, (gint)count);
}

/* Tells what is otherwise, and these paths, if there are any. Without memory all may be otherwise. Who listens to a bus isn't known: it counts as if
 * somebody did. */
static void tell(const Writer *writer, const DconfdbSnapshot *before, const DconfdbSnapshot *now, const GArray *keys, GPtrArray *paths, const char *tag)
{
    Told told;
    DconfdbTelling telling = {.is_other = before != now, .has_edits = keys->len + paths->len > 0, .is_listened = true};
    telling.is_found = seen_otherwise(&told, before, now, (const SeenKey *)(gpointer)keys->data, keys->len, NULL);
    if (telling.is_found)
        add_all(paths, told.paths);
    keep_each_once(paths);
    telling.taken = paths->len;
    switch (dconfdb_tell_next(&telling)) {
    case DCONFDB_TELL_ALL:
        g_ptr_array_set_size(paths, 0);
        g_ptr_array_add(paths, "/");
        notify(writer, paths, tag);
        break;
    case DCONFDB_TELL_WHAT_IS_TAKEN:
        notify(writer, paths, tag);
        break;
    default:
        break;
    }
    if (telling.is_found)
        seen_free(&told);
}

typedef struct {
    const Newest *newest;
    GArray *keys;
} Asking;

static gboolean ask_beside(gpointer path, gpointer edit, gpointer data)
{
    const Asking *asking = data;
    SeenKey key = {path, NULL, g_tree_lookup(asking->newest->edits, path), edit};
    g_array_append_val(asking->keys, key);
    return FALSE;
}

static gboolean add_newest(gpointer path, gpointer edit, gpointer newest)
{
    (void)path;
    put(((Newest *)newest)->edits, edit);
    return FALSE;
}

void tell_change(Writer *writer, Newest *newest, const GPtrArray *made, const char *tag)
{
    DconfdbSnapshot *before = own_of(writer->told);
    g_autoptr(GArray) keys = g_array_new(FALSE, FALSE, sizeof(SeenKey));
    g_autoptr(GPtrArray) paths = g_ptr_array_new();
    GTree *edits = keys_of(newest, before, made);
    g_tree_foreach(edits, ask_beside, &(Asking){newest, keys});
    tell(writer, before, before, keys, paths, tag);
    g_tree_foreach(edits, add_newest, newest);
    g_tree_unref(edits);
    dconfdb_snapshot_unref(before);
}

/* ---- what others changed */

/* What was told of a key is what its newest edit says, and now it is what the file says. */
static gboolean ask_after(gpointer path, gpointer edit, gpointer keys)
{
    SeenKey key = {path, NULL, edit, NULL};
    g_array_append_val((GArray *)keys, key);
    return FALSE;
}

void tell_others(Writer *writer, const Newest *newest, const GPtrArray *left_out, DconfdbSnapshot *after)
{
    DconfdbSnapshot *before = own_of(writer->told), *now = own_of(after);
    g_autoptr(GArray) keys = g_array_new(FALSE, FALSE, sizeof(SeenKey));
    g_autoptr(GPtrArray) paths = g_ptr_array_new();
    DconfdbTelling telling = {.is_other = after != writer->told, .has_edits = newest || left_out, .is_of_files = !newest};
    if (newest)
        g_tree_foreach(newest->edits, ask_after, keys);
    for (guint at = 0; left_out && at < left_out->len; at++)
        g_ptr_array_add(paths, g_ptr_array_index(left_out, at));
    while (tell_next_list(&telling) != DCONFDB_TELL_OVER) {
        if (telling.list == DCONFDB_TELL_CATCH_UP)
            flag_readers(writer, false);
        else
            tell(writer, before, now, keys, paths, "");
    }
    dconfdb_snapshot_unref(before);
    dconfdb_snapshot_unref(now);
    dconfdb_snapshot_unref(writer->told);
    writer->told = dconfdb_snapshot_ref(after);
}
