/* DConfChangeset: changes of keys, and resets of directories. A program may bring these functions itself, as the command
 * `dconf` does: the loader then takes its own, and the other files here are handed its sets. So they call what is public. */
#include "libdconf.h"

#include "dconfdb_calls.h"
#include "edit_with.h"

#include <string.h>

struct _DConfChangeset {
    gatomicrefcount references;
    GTree *rows; /* of paths and values, NULL: a reset */
    gboolean is_database; /* it has values alone */
    gboolean is_sealed;

    /* Once it is sealed: what all paths begin with, what is behind that, and their values; NULL if it is empty. */
    gchar *prefix;
    const gchar **paths;
    GVariant **values;
};

static int by_bytes(const void *one, const void *other, void *data)
{
    (void)data;
    return strcmp(one, other);
}

static void unref_value(gpointer value)
{
    if (value)
        g_variant_unref(value);
}

static const uint8_t *bytes_of(const gchar *path)
{
    return (const uint8_t *)path;
}

static bool is_directory(const gchar *path)
{
    return dconf_is_dir(path, NULL);
}

/* Whether it is the path of what is set, or, of NULL, of what is reset; what is none is passed over, as the service does. */
static bool is_path(const gchar *path, const GVariant *value)
{
    DconfdbServed known = {.sets = value != NULL};
    known.kind = dconfdb_path_kind(bytes_of(path), strlen(path), DCONFDB_PATH_WANTED, false, &known.is_short);
    return dconfdb_served_after(DCONFDB_SERVED_PATH, &known) != DCONFDB_SERVED_PASSED;
}

/* A path of the set, and its value; NULL: a reset. */
typedef struct {
    const gchar *path;
    GVariant *value;
} Row;

/* ---- its rows */

/* The next row, or the first one of a NULL; in byte order, so that a directory comes before what is in it. False:
 * there is none. */
static gboolean next_row(DConfChangeset *self, GTreeNode **at, Row *row)
{
    *at = *at ? g_tree_node_next(*at) : g_tree_node_first(self->rows);
    if (*at)
        *row = (Row){g_tree_node_key(*at), g_tree_node_value(*at)};
    return *at != NULL;
}

/* Puts a row, and leaves all others. */
static void put_row(DConfChangeset *self, const gchar *path, GVariant *value)
{
    g_tree_replace(self->rows, g_strdup(path), value ? g_variant_ref_sink(value) : NULL);
}

/* ---- its life */

static DConfChangeset *new_of(gboolean is_database)
{
    DConfChangeset *self = g_new0(DConfChangeset, 1);
    g_atomic_ref_count_init(&self->references);
    self->rows = g_tree_new_full(by_bytes, NULL, g_free, unref_value);
    self->is_database = is_database;
    return self;
}

DConfChangeset *dconf_changeset_new(void)
{
    return new_of(FALSE);
}

DConfChangeset *dconf_changeset_new_database(DConfChangeset *copy_of)
{
    GTreeNode *at = NULL;
    Row row;
    g_return_val_if_fail (copy_of == NULL || copy_of->is_database, NULL);
    DConfChangeset *self = new_of(TRUE);
    while (copy_of && next_row(copy_of, &at, &row))
        put_row(self, row.path, row.value);
    return self;
}

DConfChangeset *dconf_changeset_new_write(const gchar *path, GVariant *value)
{
    DConfChangeset *self = new_of(FALSE);
    dconf_changeset_set(self, path, value);
    return self;
}

DConfChangeset *dconf_changeset_ref(DConfChangeset *changeset)
{
    g_return_val_if_fail (changeset != NULL, NULL);
    g_atomic_ref_count_inc(&changeset->references);
    return changeset;
}

void dconf_changeset_unref(DConfChangeset *changeset)
{
    g_return_if_fail (changeset != NULL);
    if (!g_atomic_ref_count_dec(&changeset->references))
        return;
    g_tree_unref(changeset->rows);
    g_free(changeset->prefix);
    g_free(changeset->paths);
    g_free(changeset->values);
    g_free(changeset);
}

/* ---- one path */

/* The first row behind the path; NULL: there is none. */
static const gchar *row_behind(DConfChangeset *self, const gchar *path)
{
    GTreeNode *node = g_tree_upper_bound(self->rows, path);
    return node ? g_tree_node_key(node) : NULL;
}

static uint32_t effect_of(const DConfChangeset *self, const gchar *path, const GVariant *value, const gchar *row)
{
    return dconfdb_row_effect(bytes_of(path), strlen(path), value != NULL, self->is_database, bytes_of(row), strlen(row));
}

/* Takes out what a path stands for that is set, or reset: in byte order that comes right behind it. */
static void clear_behind(DConfChangeset *self, const gchar *path, const GVariant *value)
{
    for (const gchar *row; (row = row_behind(self, path)) && effect_of(self, path, value, row) == DCONFDB_ROW_GOES;)
        g_tree_remove(self->rows, row);
}

void dconf_changeset_set(DConfChangeset *changeset, const gchar *path, GVariant *value)
{
    g_return_if_fail (changeset != NULL);
    g_return_if_fail (!changeset->is_sealed);
    g_return_if_fail (dconf_is_path (path, NULL));
    if (is_directory(path))
        g_return_if_fail (value == NULL);
    clear_behind(changeset, path, value);
    switch (effect_of(changeset, path, value, path)) {
    case DCONFDB_ROW_TAKES:
        put_row(changeset, path, value);
        break;
    case DCONFDB_ROW_GOES:
        g_tree_remove(changeset->rows, path);
        break;
    default: /* DCONFDB_ROW_STAYS */
        break;
    }
}

/* The row that says the key's word, as the proved call asks for it; NULL: there is none. */
static const gchar *row_of(DConfChangeset *self, const gchar *key)
{
    g_autofree gchar *above = g_strdup(key);
    gpointer row = NULL;
    size_t len = strlen(key), most = len;
    while ((most = dconfdb_shared_within(bytes_of(key), len, most, bytes_of(key), len)) > 0) {
        above[most] = 0;
        if (g_tree_lookup_extended(self->rows, above, &row, NULL))
            break;
        most--;
    }
    return row;
}

gboolean dconf_changeset_get(DConfChangeset *changeset, const gchar *key, GVariant **value)
{
    g_return_val_if_fail (changeset != NULL, FALSE);
    g_return_val_if_fail (key != NULL, FALSE);
    const gchar *row = row_of(changeset, key);
    if (!row)
        return FALSE;
    GVariant *found = g_tree_lookup(changeset->rows, row);
    if (value)
        *value = found ? g_variant_ref(found) : NULL;
    return TRUE;
}

gboolean dconf_changeset_is_empty(DConfChangeset *changeset)
{
    g_return_val_if_fail (changeset != NULL, TRUE);
    return g_tree_nnodes(changeset->rows) == 0;
}

gboolean dconf_changeset_all(DConfChangeset *changeset, DConfChangesetPredicate predicate, gpointer user_data)
{
    GTreeNode *at = NULL;
    Row row;
    g_return_val_if_fail (changeset != NULL, TRUE);
    while (next_row(changeset, &at, &row)) {
        g_return_val_if_fail (predicate != NULL, FALSE);
        if (!predicate(row.path, row.value, user_data))
            return FALSE;
    }
    return TRUE;
}

/* All paths, a zero byte after each. */
static GString *paths_of(DConfChangeset *self)
{
    GString *paths = g_string_new(NULL);
    GTreeNode *at = NULL;
    Row row;
    while (next_row(self, &at, &row))
        g_string_append_len(paths, row.path, (gssize)strlen(row.path) + 1);
    return paths;
}

/* The same paths, whatever their values. */
gboolean dconf_changeset_is_similar_to(DConfChangeset *changeset, DConfChangeset *other)
{
    g_return_val_if_fail (changeset != NULL && other != NULL, FALSE);
    GString *paths = paths_of(changeset), *others = paths_of(other);
    gboolean is = g_string_equal(paths, others);
    g_string_free(paths, TRUE);
    g_string_free(others, TRUE);
    return is;
}

/* ---- sealed, and described */

/* How many bytes of the first path are what all are, or are in. */
static size_t common(const gchar *const *paths, size_t count)
{
    size_t len = strlen(paths[0]), most = len;
    for (size_t i = 0; i < count; i++)
        most = dconfdb_shared_within(bytes_of(paths[0]), len, most, bytes_of(paths[i]), strlen(paths[i]));
    return most;
}

void dconf_changeset_seal(DConfChangeset *changeset)
{
    g_return_if_fail (changeset != NULL);
    size_t count = (size_t)g_tree_nnodes(changeset->rows), done = 0;
    GTreeNode *at = NULL;
    Row row;
    if (changeset->is_sealed)
        return;
    changeset->is_sealed = TRUE;
    if (count == 0)
        return;
    changeset->paths = g_new0(const gchar *, count + 1);
    changeset->values = g_new0(GVariant *, count + 1);
    for (; next_row(changeset, &at, &row); done++) {
        changeset->paths[done] = row.path;
        changeset->values[done] = row.value;
    }
    size_t prefix = common(changeset->paths, count);
    changeset->prefix = g_strndup(changeset->paths[0], prefix);
    for (size_t i = 0; i < count; i++)
        changeset->paths[i] += prefix;
}

guint dconf_changeset_describe(DConfChangeset *changeset, const gchar **prefix, const gchar *const **paths, GVariant *const **values)
{
    g_return_val_if_fail (changeset != NULL, 0);
    dconf_changeset_seal(changeset);
    if (prefix)
        *prefix = changeset->prefix;
    if (paths)
        *paths = changeset->paths;
    if (values)
        *values = changeset->values;
    return (guint)g_tree_nnodes(changeset->rows);
}

GVariant *dconf_changeset_serialise(DConfChangeset *changeset)
{
    GVariantBuilder builder;
    GTreeNode *at = NULL;
    Row row;
    g_return_val_if_fail (changeset != NULL, NULL);
    g_variant_builder_init(&builder, G_VARIANT_TYPE("a{smv}"));
    while (next_row(changeset, &at, &row))
        g_variant_builder_add(&builder, "{smv}", row.path, row.value);
    return g_variant_builder_end(&builder);
}

DConfChangeset *dconf_changeset_deserialise(GVariant *serialised)
{
    GVariantIter iter;
    const gchar *path;
    GVariant *value;
    g_return_val_if_fail (serialised != NULL && g_variant_is_of_type(serialised, G_VARIANT_TYPE("a{smv}")), NULL);
    DConfChangeset *self = new_of(FALSE);
    g_variant_iter_init(&iter, serialised);
    while (g_variant_iter_loop(&iter, "{&smv}", &path, &value)) {
        if (is_path(path, value))
            put_row(self, path, value);
    }
    return self;
}

/* ---- of two */

void dconf_changeset_change(DConfChangeset *changeset, DConfChangeset *changes)
{
    GTreeNode *at = NULL;
    Row row;
    g_return_if_fail (changeset != NULL && changes != NULL);
    g_return_if_fail (!changeset->is_sealed);
    dconf_changeset_seal(changes);
    while (next_row(changes, &at, &row))
        dconf_changeset_set(changeset, row.path, row.value);
}

/* Whether a row of the database is below the directory. */
static bool has_below(DConfChangeset *base, const gchar *directory)
{
    const gchar *row = row_behind(base, directory);
    return row && effect_of(base, directory, NULL, row) == DCONFDB_ROW_GOES;
}

/* Puts a change that makes a difference to the database, beside those that are found. */
static void put_if_differs(DConfChangeset *base, DConfChangeset *found, const Row *row)
{
    GVariant *had = g_tree_lookup(base->rows, row->path);
    DconfdbBase known = {
        .has = had != NULL,
        .is_same = are_same_values(had, row->value),
        .is_reset = row_of(found, row->path) != NULL,
        .has_below = has_below(base, row->path),
    };
    if (dconfdb_makes_difference(bytes_of(row->path), strlen(row->path), row->value != NULL, &known))
        put_row(found, row->path, row->value);
}

static DConfChangeset *unless_empty(DConfChangeset *self)
{
    if (!dconf_changeset_is_empty(self))
        return self;
    dconf_changeset_unref(self);
    return NULL;
}

/* Puts, of each path that this one has, what the other database has, if that makes a difference to the first. */
static void put_differences(DConfChangeset *from, DConfChangeset *to, DConfChangeset *of, DConfChangeset *found)
{
    GTreeNode *at = NULL;
    Row row;
    while (next_row(of, &at, &row)) {
        row.value = g_tree_lookup(to->rows, row.path);
        put_if_differs(from, found, &row);
    }
}

DConfChangeset *dconf_changeset_filter_changes(DConfChangeset *base, DConfChangeset *changes)
{
    GTreeNode *at = NULL;
    Row row;
    g_return_val_if_fail (base != NULL && changes != NULL, NULL);
    g_return_val_if_fail (base->is_database, NULL);
    DConfChangeset *found = new_of(FALSE);
    while (next_row(changes, &at, &row))
        put_if_differs(base, found, &row);
    return unless_empty(found);
}

DConfChangeset *dconf_changeset_diff(DConfChangeset *from, DConfChangeset *to)
{
    g_return_val_if_fail (from != NULL && to != NULL, NULL);
    g_return_val_if_fail (from->is_database, NULL);
    g_return_val_if_fail (to->is_database, NULL);
    DConfChangeset *found = new_of(FALSE);
    put_differences(from, to, from, found);
    put_differences(from, to, to, found);
    return unless_empty(found);
}
