/* Which keys the installed schemas have, by their paths. */
#include "lint.h"

#include "dconfdb_calls.h"

#include <string.h>

struct Schemas {
    GSettingsSchemaSource *source;
    GHashTable *at;          /* of a path the schemas that have it: an array */
    GHashTable *keys;        /* .. and the names of their keys */
    GHashTable *known;       /* of a key's path the keys that there are, once they were asked for: GIO takes a while to find one */
    GHashTable *with;        /* of a key's name the paths that have it */
    GHashTable *relocatable; /* the names of keys of relocatable schemas */
    GPtrArray *paths;
    GHashTable *is_directory; /* the paths, and each directory above one */
    GPtrArray *directories;
};

static GPtrArray *array_at(GHashTable *table, const char *name, GDestroyNotify frees)
{
    GPtrArray *found = g_hash_table_lookup(table, name);
    if (!found) {
        found = g_ptr_array_new_with_free_func(frees);
        g_hash_table_insert(table, g_strdup(name), found);
    }
    return found;
}

static void drop_array(gpointer array)
{
    g_ptr_array_unref(array);
}

static void drop_schema(gpointer schema)
{
    g_settings_schema_unref(schema);
}

/* A path, and the directories above it. */
static void add_path(Schemas *schemas, const char *path)
{
    g_ptr_array_add(schemas->paths, g_strdup(path));
    for (const char *end = strchr(path, '/'); end; end = strchr(end + 1, '/')) {
        char *directory = g_strndup(path, (size_t)(end + 1 - path));
        if (g_hash_table_add(schemas->is_directory, g_strdup(directory)))
            g_ptr_array_add(schemas->directories, directory);
        else
            g_free(directory);
    }
}

static void add_fixed(Schemas *schemas, GSettingsSchema *schema, const char *path)
{
    if (!g_hash_table_contains(schemas->at, path))
        add_path(schemas, path);
    g_ptr_array_add(array_at(schemas->at, path, drop_schema), g_settings_schema_ref(schema));
    char **keys = g_settings_schema_list_keys(schema);
    for (char **key = keys; *key; key++) {
        g_ptr_array_add(array_at(schemas->keys, path, g_free), g_strdup(*key));
        g_ptr_array_add(array_at(schemas->with, *key, g_free), g_strdup(path));
    }
    g_strfreev(keys);
}

static void add_relocatable(Schemas *schemas, GSettingsSchema *schema)
{
    char **keys = g_settings_schema_list_keys(schema);
    for (char **key = keys; *key; key++)
        g_hash_table_add(schemas->relocatable, g_strdup(*key));
    g_strfreev(keys);
}

static void add_all(Schemas *schemas, char **names)
{
    for (char **name = names; *name; name++) {
        GSettingsSchema *schema = g_settings_schema_source_lookup(schemas->source, *name, TRUE);
        const char *path = schema ? g_settings_schema_get_path(schema) : NULL;
        if (path)
            add_fixed(schemas, schema, path);
        else if (schema)
            add_relocatable(schemas, schema);
        if (schema)
            g_settings_schema_unref(schema);
    }
}

static GSettingsSchemaSource *source_of(const char *folder, GError **error)
{
    if (folder)
        return g_settings_schema_source_new_from_directory(folder, NULL, FALSE, error);
    GSettingsSchemaSource *source = g_settings_schema_source_get_default();
    if (!source)
        g_set_error(error, G_FILE_ERROR, G_FILE_ERROR_NOENT, "no schemas are installed");
    return source ? g_settings_schema_source_ref(source) : NULL;
}

Schemas *schemas_open(const char *folder, GError **error)
{
    char **fixed = NULL, **relocatable = NULL;
    GSettingsSchemaSource *source = source_of(folder, error);
    if (!source)
        return NULL;
    Schemas *schemas = g_new0(Schemas, 1);
    schemas->source = source;
    schemas->at = g_hash_table_new_full(g_str_hash, g_str_equal, g_free, drop_array);
    schemas->keys = g_hash_table_new_full(g_str_hash, g_str_equal, g_free, drop_array);
    schemas->known = g_hash_table_new_full(g_str_hash, g_str_equal, g_free, drop_array);
    schemas->with = g_hash_table_new_full(g_str_hash, g_str_equal, g_free, drop_array);
    schemas->relocatable = g_hash_table_new_full(g_str_hash, g_str_equal, g_free, NULL);
    schemas->is_directory = g_hash_table_new_full(g_str_hash, g_str_equal, g_free, NULL);
    schemas->paths = g_ptr_array_new_with_free_func(g_free);
    schemas->directories = g_ptr_array_new_with_free_func(g_free);
    g_settings_schema_source_list_schemas(source, TRUE, &fixed, &relocatable);
    add_all(schemas, fixed);
    add_all(schemas, relocatable);
    g_strfreev(fixed);
    g_strfreev(relocatable);
    return schemas;
}

void schemas_close(Schemas *schemas)
{
    g_hash_table_unref(schemas->at);
    g_hash_table_unref(schemas->keys);
    g_hash_table_unref(schemas->known);
    g_hash_table_unref(schemas->with);
    g_hash_table_unref(schemas->relocatable);
    g_hash_table_unref(schemas->is_directory);
    g_ptr_array_unref(schemas->paths);
    g_ptr_array_unref(schemas->directories);
    g_settings_schema_source_unref(schemas->source);
    g_free(schemas);
}

static bool is_directory(const char *path)
{
    bool is_short;
    return dconfdb_path_kind((const uint8_t *)path, strlen(path), DCONFDB_DIRECTORY_WANTED, false, &is_short) == DCONFDB_PATH_DIRECTORY;
}

const char *schemas_place(Schemas *schemas, const char *words)
{
    static const char *const whys[] = {[DCONFDB_PLACING_NO_PATH] = "there is no ':' between a schema and a path",
                                       [DCONFDB_PLACING_NO_DIRECTORY] = "the path is not a directory's",
                                       [DCONFDB_PLACING_NO_SCHEMA] = "there is no such schema",
                                       [DCONFDB_PLACING_FIXED] = "the schema has a path of its own"};
    const char *colon = strchr(words, ':'), *path = colon ? colon + 1 : "";
    g_autofree char *id = g_strndup(words, colon ? (size_t)(colon - words) : 0);
    GSettingsSchema *schema = g_settings_schema_source_lookup(schemas->source, id, TRUE);
    uint32_t said = dconfdb_placing(colon, is_directory(path), schema, schema && g_settings_schema_get_path(schema));
    if (said == DCONFDB_PLACING_TAKEN)
        add_fixed(schemas, schema, path);
    if (schema)
        g_settings_schema_unref(schema);
    return whys[said];
}

/* ---- what there is at a path */

/* The directory of a key, to be freed. */
static char *directory_of(const char *path)
{
    return g_strndup(path, (size_t)(strrchr(path, '/') + 1 - path));
}

static void drop_known(gpointer known)
{
    g_settings_schema_key_unref(((Known *)known)->key);
    g_free(((Known *)known)->takes);
    g_free(known);
}

/* The keys of that name, of the schemas of a directory; or NULL. */
static GPtrArray *find_known(const Schemas *schemas, const char *directory, const char *name)
{
    const GPtrArray *there = g_hash_table_lookup(schemas->at, directory);
    GPtrArray *found = NULL;
    for (guint i = 0; there && i < there->len; i++) {
        GSettingsSchema *schema = g_ptr_array_index(there, i);
        if (!g_settings_schema_has_key(schema, name))
            continue;
        Known *known = g_new(Known, 1);
        *known = (Known){schema, g_settings_schema_get_key(schema, name), NULL};
        if (!found)
            found = g_ptr_array_new_with_free_func(drop_known);
        g_ptr_array_add(found, known);
    }
    return found;
}

/* The same, once they were asked for: what is found is kept. */
static const GPtrArray *known_at(const Schemas *schemas, const char *path, const char *directory, const char *name)
{
    GPtrArray *found = g_hash_table_lookup(schemas->known, path);
    if (found)
        return found;
    found = find_known(schemas, directory, name);
    if (found)
        g_hash_table_insert(schemas->known, g_strdup(path), found);
    return found;
}

DconfdbFinding schemas_key(const Schemas *schemas, const char *path, uint32_t what, const GPtrArray **keys)
{
    char *directory = directory_of(path);
    const char *name = path + strlen(directory);
    *keys = known_at(schemas, path, directory, name);
    DconfdbFinding known = {.what = what,
                            .is_known = *keys != NULL,
                            .has_schemas = g_hash_table_contains(schemas->at, directory),
                            .may_be_elsewhere = g_hash_table_contains(schemas->relocatable, name)};
    g_free(directory);
    return known;
}

DconfdbFinding schemas_directory(const Schemas *schemas, const char *path)
{
    return (DconfdbFinding){.what = DCONFDB_OF_LOCKED_DIRECTORY,
                            .is_known = g_hash_table_contains(schemas->is_directory, path),
                            .may_be_elsewhere = g_hash_table_size(schemas->relocatable) > 0};
}

uint32_t schemas_finding(const Schemas *schemas, const char *path, const DconfdbFinding *known)
{
    const char *name = strrchr(path, '/') + 1;
    const GPtrArray *others = *name ? g_hash_table_lookup(schemas->with, name) : schemas->directories;
    size_t count = others ? others->len : 0;
    DconfdbBytes *texts = g_new(DconfdbBytes, count + 1);
    for (size_t i = 0; i < count; i++) {
        const char *other = g_ptr_array_index(others, i);
        texts[i] = (DconfdbBytes){(const uint8_t *)other, strlen(other)};
    }
    uint32_t finding = dconfdb_finding(known, (const uint8_t *)path, (size_t)(name - path), texts, count);
    g_free(texts);
    return finding;
}

/* ---- what is nearest */

/* What is missing, and where the nearest is looked for: in which directory, at last. */
typedef struct {
    const Schemas *schemas;
    const char *directory, *name;
} Missing;

/* The one that is nearest of those of a place; or NULL. */
static const char *nearest_at(const Missing *it, DconfdbNearing *nearing)
{
    const Schemas *schemas = it->schemas;
    switch (nearing->place) {
    case DCONFDB_NEAR_DIRECTORIES: return nearest(nearing, schemas->directories, it->directory);
    case DCONFDB_NEAR_HOLDERS: return nearest(nearing, g_hash_table_lookup(schemas->with, it->name), it->directory);
    case DCONFDB_NEAR_PATHS: return nearest(nearing, schemas->paths, it->directory);
    default: return nearest(nearing, g_hash_table_lookup(schemas->keys, it->directory), it->name);
    }
}

/* The whole path of what was found at a place; or NULL: the next one goes on from there. */
static char *path_at(Missing *it, uint32_t place, const char *found)
{
    switch (place) {
    case DCONFDB_NEAR_DIRECTORIES: return g_strdup(found);
    case DCONFDB_NEAR_HOLDERS: return g_strconcat(found, it->name, NULL);
    case DCONFDB_NEAR_PATHS: it->directory = found; return NULL;
    default: return g_strconcat(it->directory, found, NULL);
    }
}

char *schemas_nearest(const Schemas *schemas, const char *path)
{
    char *directory = directory_of(path), *whole = NULL;
    Missing missing = {schemas, directory, path + strlen(directory)};
    DconfdbNearing nearing = nearest_begin(*missing.name == 0);
    while (nearest_goes_on(&nearing)) {
        const char *found = nearest_at(&missing, &nearing);
        if (found)
            whole = path_at(&missing, nearing.place, found);
    }
    g_free(directory);
    return whole;
}
